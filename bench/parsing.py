#!/usr/bin/env python3
"""How many instructions lexing and parsing take a byte, the drop of the tree with them, for one line over and over; and lexing, parsing and the passes of the
rules, for a source of numbers and operators and for one of classes and calls, beside `wc -w` of the same bytes, by valgrind. These two break a rule, and what
it takes for a source of a few bytes is not counted."""

import common

LINES = 20_000
CLASSES = '''class Lock {
  public Lock() { idle(); }
  public void Shared() & async idle() { held(1); }
  public void Shared() & async held(int n) { held(n + 1); }
  public void ReleaseShared() & async held(int n) {
    if (n == 1) idle(); else held(n - 1);
  }
  public void Exclusive() & async idle() { }
  public void ReleaseExclusive() { idle(); }
}
class Total {
  public Total(int n) { sum(0, n); }
  public async Add(int v) & async sum(int s, int n) {
    if (n == 1) done(s + v); else sum(s + v, n - 1);
  }
  public int Wait() & async done(int s) { return s; }
}
'''
LOCALS = 256


def one_line():
    """A `Main` of one line over and over, with a token behind the program: it is lexed and parsed, the tree is dropped, and no rule is looked at."""
    return ('class P { static void Main() {\n' + 'int v7 = (1 + 2 * 7 - 7 / 3);\n' * LINES + '} }\n;').encode()


def numbers():
    """A `Main` of locals with numbers and operators."""
    lines = ''.join(f'int v{i} = (1 + 2 * {i} - {i} / 3);\n' for i in range(LINES))
    return f'class P {{ static void Main() {{\n{lines}}} }}\n'.encode()


def main():
    program = common.program()
    few = common.instructions([program, 'run', '--one'], b'class P { }', b'refused C13 1:12\n')
    sources = [
        ('numbers and operators', numbers(), f'refused C04 {LOCALS + 2}:5\n'),
        ('classes and calls', (CLASSES * (900_000 // len(CLASSES))).encode(), f'refused C01 {CLASSES.count(chr(10)) + 1}:7\n'),
    ]
    source = one_line()
    # where the place of the refusal stands is found by going over the source once more, which is neither lexing nor parsing
    ours = common.instructions_without('put_pointing_line', [program, 'run', '--one'], source, f'refused syntax {LINES + 3}:1\n'.encode()) - few
    common.tell('one line, lexed and parsed', ours / len(source), 140, 'instructions a byte', f'{len(source)} bytes, 140 at most are wanted')
    for name, source, refusal in sources:
        ours = common.instructions([program, 'run', '--one'], source, refusal.encode()) - few
        theirs = common.instructions(['wc', '-w'], source)
        common.tell(name, ours / len(source), theirs / len(source), 'instructions a byte', f'{len(source)} bytes')


if __name__ == '__main__':
    main()
