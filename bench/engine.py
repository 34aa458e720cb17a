#!/usr/bin/env python3
"""Sends a message and calls what matches it, over and over, on one thread: the time of a firing, n firings beside twice as many, in a program of a thousand classes
more and in a class of ninety chords more beside those without, there by one worker too, beside plain queues in C built with -O2, and beside goroutines where Go is
installed. Times are of the process, user and system, and the start of the program is taken off."""

import os
import resource
import shutil
import subprocess
import tempfile

import common

COUNT = 8000  # firings; twice as many make 64,000 entries, fewer than a run may have
RUNS = 20
PLAIN_RUNS = 1000  # of the loop in C, in one process

SOURCE = '''
class A { public int G() & public async P(int s) { return s; } }
class Q {
  static void Main() {
    A b = new A();
    int i = 0;
    while (i < COUNT) {
      b.P(i);
      i = b.G() + 1;
    }
    Console.WriteLine(i);
  }
}
'''

# A class with a chord that nobody uses, of which a larger program has many.
MORE = 1000
ASIDE = 'class X{} { public int G(int a) & public async P(int s) { int i = 0; while (i < s) i = i + a; return i; } }\n'

# Chords of the class to whose methods nothing is sent: each two of fourteen methods, all but one.
CHORDS = 90
PAIRS = [(i, j) for i in range(14) for j in range(i)][:CHORDS]
BESIDE = ''.join(f' public async M{i}() & public async M{j}() {{}}' for i, j in PAIRS)

# A message waits in a queue, the call takes it from there, and each of the four steps is noted.
PLAIN = '''
#include <stdio.h>
#include <stdlib.h>

enum step { SENT, CALLED, FIRED, ENDED };
struct entry { enum step step; unsigned number, body; int value; };
struct journal { struct entry *entries; size_t count, room; };
struct message { struct message *next; int value; };
struct queue { struct message *first, **last; };

static void note(struct journal *j, enum step step, unsigned body, int value) {
    if (j->count == j->room) {
        j->room = j->room ? 2 * j->room : 4;
        j->entries = realloc(j->entries, j->room * sizeof *j->entries);
    }
    j->entries[j->count] = (struct entry){ step, (unsigned)j->count, body, value };
    j->count++;
}

static void put(struct queue *q, int value) {
    struct message *m = malloc(sizeof *m);
    m->next = NULL;
    m->value = value;
    *q->last = m;
    q->last = &m->next;
}

static int take(struct queue *q) {
    struct message *m = q->first;
    int value = m->value;
    q->first = m->next;
    if (!q->first) q->last = &q->first;
    free(m);
    return value;
}

static int run(int count) {
    struct journal journal = { NULL, 0, 0 };
    struct queue puts = { NULL, &puts.first }, gets = { NULL, &gets.first };
    int i = 0;
    while (i < count) {
        note(&journal, SENT, 0, i);
        put(&puts, i);
        note(&journal, CALLED, 0, 0);
        put(&gets, 0);
        if (puts.first && gets.first) {
            int value = take(&puts);
            take(&gets);
            unsigned body = (unsigned)journal.count;
            note(&journal, FIRED, body, value);
            note(&journal, ENDED, body, value);
            i = journal.entries[journal.count - 1].value + 1;
        }
    }
    free(journal.entries);
    return i;
}

int main(int argc, char **argv) {
    int count = atoi(argv[1]), last = 0;
    for (int k = 0; k < PLAIN_RUNS; k++) last = run(count);
    printf("%d\\n", last);
    return argc - 2;
}
'''

GO = '''
package main

import "fmt"

func main() {
    puts := make(chan int, 1)
    calls := make(chan chan int)
    go func() {
        for call := range calls {
            call <- <-puts
        }
    }()
    answer := make(chan int)
    last := 0
    for k := 0; k < GO_RUNS; k++ {
        i := 0
        for i < COUNT {
            puts <- i
            calls <- answer
            i = <-answer + 1
        }
        last = i
    }
    fmt.Println(last)
}
'''
GO_RUNS = 100


def seconds(command, source, wanted, runs=RUNS):
    """The mean time, user and system, of a command on this standard input, each run of which ends with status 0 and writes what is wanted."""
    environment = common.environment()
    before = resource.getrusage(resource.RUSAGE_CHILDREN)
    for _ in range(runs):
        ran = subprocess.run(command, input=source, stdout=subprocess.PIPE, stderr=subprocess.STDOUT, env=environment, check=True)
        assert ran.stdout == wanted, f'{command} wrote {ran.stdout[:200]!r}, not {wanted!r}'
    after = resource.getrusage(resource.RUSAGE_CHILDREN)
    return (after.ru_utime + after.ru_stime - before.ru_utime - before.ru_stime) / runs


def ours(program, count, more=0, beside='', way=('--one',)):
    """The time of a run of so many firings in this way, in a program with so many classes more, and with these chords beside the class's own."""
    source = SOURCE.replace('COUNT', str(count)).replace('class A {', f'class A {{{beside}', 1)
    source = ''.join(ASIDE.replace('{}', str(i), 1) for i in range(more)) + source
    return seconds([program, 'run', *way], source.encode(), f'{count}\n'.encode())


def firing_of(program, **how):
    """The nanoseconds of a firing."""
    return (ours(program, 2 * COUNT, **how) - ours(program, 1, **how)) / (2 * COUNT) * 1e9


def plain(work):
    """The nanoseconds of a firing by plain queues in C."""
    with open(f'{work}/plain.c', 'w', encoding='utf-8') as file:
        file.write(PLAIN.replace('PLAIN_RUNS', str(PLAIN_RUNS)))
    subprocess.run([os.environ.get('CC', 'cc'), '-O2', '-o', f'{work}/plain', f'{work}/plain.c'], check=True)
    return seconds([f'{work}/plain', str(2 * COUNT)], b'', f'{2 * COUNT}\n'.encode(), 1) / PLAIN_RUNS / (2 * COUNT) * 1e9


def goroutines(work):
    """The nanoseconds of a firing by goroutines, or None where there is no Go."""
    if not shutil.which('go'):
        return None
    with open(f'{work}/main.go', 'w', encoding='utf-8') as file:
        file.write(GO.replace('GO_RUNS', str(GO_RUNS)).replace('COUNT', str(2 * COUNT)))
    subprocess.run(['go', 'build', '-o', f'{work}/goroutines', f'{work}/main.go'], check=True)
    return seconds([f'{work}/goroutines'], b'', f'{2 * COUNT}\n'.encode(), 1) / GO_RUNS / (2 * COUNT) * 1e9


def main():
    program = common.program()
    start = ours(program, 1)
    one, two = ours(program, COUNT) - start, ours(program, 2 * COUNT) - start
    firing = two / (2 * COUNT) * 1e9
    common.tell('twice as many firings', two * 1e3, one * 1e3, 'ms', '2.4 at most is wanted')
    common.tell(f'a firing among {MORE} classes more beside one without', firing_of(program, more=MORE), firing, 'ns')
    for name, way in [('on one thread', ['--one']), ('by one worker', ['--workers', '1'])]:
        with_chords, without = firing_of(program, beside=BESIDE, way=way), firing_of(program, way=way)
        common.tell(f'a firing among {CHORDS} chords more beside one without, {name}', with_chords, without, 'ns')
    with tempfile.TemporaryDirectory() as work:
        common.tell('a firing beside plain queues in C', firing, plain(work), 'ns', '300 ns at most are wanted')
        beside = goroutines(work)
        if beside is None:
            print('a firing beside goroutines: Go is not installed here')
        else:
            common.tell('a firing beside goroutines', firing, beside, 'ns')


if __name__ == '__main__':
    main()
