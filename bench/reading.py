#!/usr/bin/env python3
"""Reads, runs and answers the longest source that is allowed, beside `cat` of the same bytes."""

import common

HEAD = 'class A{public string G()&public async P(string s){return s;}}class Q{static void Main(){A b=new A();'
LINE = 'x' * 60
MOST_BYTES = 1_048_576


def main():
    program = common.program()
    call = f'Console.WriteLine("{LINE}");'
    count = (MOST_BYTES - len(HEAD) - 2) // len(call)
    source = (HEAD + call * count + '}}').encode()
    ours = common.user_seconds([program, 'run', '--one'], source, f'{LINE}\n'.encode() * count)
    theirs = common.user_seconds(['cat'], source, source)
    common.tell('reading', ours * 1e3, theirs * 1e3, 'ms')


if __name__ == '__main__':
    main()
