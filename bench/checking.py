#!/usr/bin/env python3
"""How many instructions a token takes behind the parser, beside the parser's on the same source in the same run, by valgrind: in the pass over chords and the
plan, and in all else up to the code (names, types, the generator); for 1,000 classes in about a mebibyte, and for one body in which 256 locals are used 10,000
times. Then whether the cost of a token stays as it is where a source doubles: chords of eight headers, classes of which each seventeenth stands on sixteen
others, and classes in one chain of bases, which passes the limit on them and is refused for it, alone and where each calls the first one's method."""

import os
import re
import subprocess
import tempfile

import common

TOKEN = re.compile(rb'[A-Za-z_0-9]+|[{}();.,:+*&]|=')
# The compiler makes one function of the calls from the tokens to the code, but for these two.
WHOLE, PARSER, PLAN = 'code_of_tokens', 'class_of', 'plan'
METHODS = 15


def many_classes():
    """1,000 classes without bases, of seven chords each, whose bodies send the messages that they are begun by."""
    classes = []
    for number in range(1000):
        methods = ''.join(
            f'  public async m{number}_{i}(int n) & public int g{number}_{i}(int k) {{ int x = n + k * 2; if (x > n) m{number}_{i}(x); return x; }}\n'
            for i in range(METHODS // 2))
        classes.append(f'class C{number} {{\n{methods}}}\n')
    return ''.join(classes + ['class P { static void Main() { } }\n']).encode()


def many_locals():
    """A body of 256 locals that are used 10,000 times."""
    locals_ = ''.join(f'int v{i} = {i};\n' for i in range(256))
    uses = ''.join(f'v{i % 256} = v{(i * 7 + 1) % 256} + v{(i * 3 + 2) % 256};\n' for i in range(5000))
    return f'class P {{ static void Main() {{\n{locals_}{uses}}} }}\n'.encode()


MAIN = 'class P { static void Main() { } }\n'
CHAIN = 17
# What is refused for its bases.
PAST = b'refused C04 '


def chords_of_eight(count):
    """A class of chords of eight headers each, all of the same eight methods."""
    header = ' & '.join(f'async m{i}(int a{i})' for i in range(8))
    return ('class A {\n' + f'{header} {{ }}\n' * count + '}\n' + MAIN).encode()


def chains_of_sixteen(count):
    """Classes in chains of seventeen, so that sixteen stand above the last of a chain: each has a method that calls the first one's, but the last, since with those
    that it inherits it has as many as it may have. Its constructor calls instead."""
    classes = []
    for i in range(count):
        base = '' if i % CHAIN == 0 else f' : C{i - 1}'
        member = f'C{i}' if i % CHAIN == CHAIN - 1 else f'public async m{i}'
        classes.append(f'class C{i}{base} {{ {member}() {{ m{i - i % CHAIN}(); }} }}\n')
    return ''.join([*classes, MAIN]).encode()


def one_chain(count):
    """Classes of which each has the one before as its base."""
    return ''.join(['class C0 { }\n', *(f'class C{i} : C{i - 1} {{ }}\n' for i in range(1, count)), MAIN]).encode()


def calls_up_a_chain(count):
    """Classes of which each has the one before as its base, and calls the first one's method."""
    return ''.join(['class C0 { public async m() { } }\n', *(f'class C{i} : C{i - 1} {{ C{i}() {{ m(); }} }}\n' for i in range(1, count)), MAIN]).encode()


def counted(program, source, refused=b''):
    """The instructions that each function takes with those that it calls, by the last part of its name. The source is accepted and prints nothing, or what is
    written begins so."""
    with tempfile.TemporaryDirectory() as work:
        ran = subprocess.run(['valgrind', '--tool=callgrind', f'--callgrind-out-file={work}/out', program, 'run', '--one'], input=source, stdout=subprocess.PIPE,
                             stderr=subprocess.PIPE, check=False)
        assert (ran.returncode, ran.stdout[:len(refused) or None]) == (1 if refused else 0, refused), ran.stdout[:200]
        listed = subprocess.run(['callgrind_annotate', '--inclusive=yes', '--threshold=100', f'{work}/out'], stdout=subprocess.PIPE, text=True, check=True,
                                env={**os.environ, 'LC_ALL': 'C'}).stdout
    found = {}
    for line in listed.splitlines():
        match = re.match(r'\s*([\d,]+) .*?:([\w:<>]+)(?: \[|$)', line)
        if match:
            found.setdefault(match[2].split('::')[-1], int(match[1].replace(',', '')))
    return found


def passes(took):
    """What each pass takes."""
    return {'chords and the plan': took[PLAN], 'names, types and the code': took[WHOLE] - took[PARSER] - took[PLAN]}


def main():
    program = common.program()
    for name, source in [('1,000 classes', many_classes()), ('256 locals', many_locals())]:
        tokens = len(TOKEN.findall(source))
        took = counted(program, source)
        for label, count in passes(took).items():
            common.tell(f'{label}, {name}', count / tokens, took[PARSER] / tokens, 'instructions a token', f'{len(source)} bytes')
    for name, made, count, refused in [('chords of eight headers', chords_of_eight, 128, b''), ('chains of sixteen', chains_of_sixteen, 30 * CHAIN, b''),
                                       ('one chain of bases', one_chain, 20_000, PAST), ('calls up one chain', calls_up_a_chain, 10_000, PAST)]:
        small, large = made(count), made(2 * count)
        few, many = counted(program, small, refused), counted(program, large, refused)
        few, many = passes(few), passes(many)
        for label in few:
            common.tell(f'{label}, {name}', many[label] / len(TOKEN.findall(large)), few[label] / len(TOKEN.findall(small)), 'instructions a token',
                        f'{2 * count} beside {count}')


if __name__ == '__main__':
    main()
