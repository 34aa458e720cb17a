#!/usr/bin/env python3
"""How many instructions a token takes in the generator's blocks, beside the parser's on the same source in the same run, by valgrind: for 1,000 classes in
about a mebibyte, for a sum of 100,000 numbers and for a chain of 100,000 calls; and the same for sources of half that size, whose cost a token is near it."""

import common
from checking import PARSER, TOKEN, counted, many_classes

GENERATOR = 'block_of_body'
COUNT = 100_000


def long_sum(count):
    """A `Main` with a sum of so many numbers."""
    return ('class P { static void Main() { int n = 1' + ' + 1' * (count - 1) + '; } }\n').encode()


def call_chain(count):
    """A `Main` with so many calls on each other's results."""
    return ('class A { public A m() { return this; } }\nclass P { static void Main() { while (false) { new A()' + '.m()' * count + '; } } }\n').encode()


def cost(program, source):
    """What a token takes in the generator and in the parser."""
    took, tokens = counted(program, source), len(TOKEN.findall(source))
    return took[GENERATOR] / tokens, took[PARSER] / tokens


def main():
    program = common.program()
    classes = many_classes()
    common.tell('generator beside the parser, 1,000 classes', *cost(program, classes), 'instructions a token', f'{len(classes)} bytes')
    for name, made in [('a long sum', long_sum), ('a chain of calls', call_chain)]:
        whole, parser = cost(program, made(COUNT))
        half, _ = cost(program, made(COUNT // 2))
        common.tell(f'generator beside the parser, {name}', whole, parser, 'instructions a token', f'{COUNT}')
        common.tell(f'generator, {name}', whole, half, 'instructions a token', f'{COUNT} beside {COUNT // 2}')


if __name__ == '__main__':
    main()
