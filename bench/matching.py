#!/usr/bin/env python3
"""Plays pairs of messages by one worker: of a class whose chord takes both, and of one whose chords each lack a message. The time that a pair takes more in the
first stands beside the bare atomic steps of `find` and `fire` of a two-message chord in C. It is an upper bound for these two calls: the chord's body is begun
and ended in it, and the message that comes first is looked after in both."""

import os
import subprocess
import tempfile

import common

PAIRS = 8000
ROUNDS = 5000000
# What the bare steps of i = 0, 1, .. read: what both cells held from 64 rounds before, two exchanges that succeed, the draw of i, then i twice and i + 1 twice.
SUM = sum(2 * max(i - 63, 0) + 5 * i + 4 for i in range(ROUNDS))
HEAD = 'class A{public async X()&public async Y(){}public async Z()&public async W(){}}class Q{static void Main(){A a=new A();'
FIRED = 'a.X();a.Y();'
LEFT = 'a.X();a.Z();'

THEIRS = '''
#include <stdatomic.h>
#include <stdint.h>
#include <stdio.h>
#include <time.h>

#define FIRINGS ROUNDSl

static _Atomic uint64_t words[256];

int main(void) {
    uint64_t sum = 0;
    clock_t start = clock();
    for (long i = 0; i < FIRINGS; i++) {
        long own = 1 + i % 64, other = 65 + i % 64, head = 129 + i % 64;
        /* find: the own cell, the head of the other bag, the other cell */
        sum += atomic_load(&words[own]) + atomic_load(&words[head]) + atomic_load(&words[other]);
        /* fire: two claims, the draw, and of each member its next, its end and its slot */
        uint64_t own_word = atomic_load_explicit(&words[own], memory_order_relaxed), other_word = atomic_load_explicit(&words[other], memory_order_relaxed);
        sum += atomic_compare_exchange_strong(&words[own], &own_word, i) + atomic_compare_exchange_strong(&words[other], &other_word, i);
        sum += atomic_fetch_add(&words[0], 1);
        sum += atomic_load(&words[own]);
        atomic_store(&words[own], i + 1);
        sum += atomic_load(&words[own]);
        sum += atomic_load(&words[other]);
        atomic_store(&words[other], i + 1);
        sum += atomic_load(&words[other]);
    }
    printf("%.2f %lu\\n", (double)(clock() - start) * 1e9 / CLOCKS_PER_SEC / FIRINGS, (unsigned long)sum);
    return 0;
}
'''


def in_c():
    """The nanoseconds of the bare steps of one firing."""
    with tempfile.TemporaryDirectory() as work:
        with open(f'{work}/bare.c', 'w', encoding='utf-8') as file:
            file.write(THEIRS.replace('ROUNDS', str(ROUNDS)))
        subprocess.run([os.environ.get('CC', 'cc'), '-O2', '-o', f'{work}/bare', f'{work}/bare.c'], check=True)
        took, read = subprocess.run([f'{work}/bare'], stdout=subprocess.PIPE, text=True, check=True).stdout.split()
        assert int(read) == SUM, f'the steps in C read {read}, not {SUM}'
        return float(took)


def nanoseconds(program, pair):
    """The mean user time of so many pairs of messages, a pair."""
    source = HEAD + pair * PAIRS + '}}'
    return common.user_seconds([program, 'run', '--workers', '1'], source.encode(), b'') / PAIRS * 1e9


def main():
    program = common.program()
    fired = nanoseconds(program, FIRED)
    left = nanoseconds(program, LEFT)
    common.tell('find and fire, with the body', fired - left, in_c(), 'ns a firing', f'{fired:.0f} less {left:.0f} ns a pair')


if __name__ == '__main__':
    main()
