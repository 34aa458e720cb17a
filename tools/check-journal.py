#!/usr/bin/env python3
"""Does tools/journal draw and tell the journals of the examples: a line for each body, an arrow for each message that is taken and for each answer, and a row for
each entry?  Is the picture that README shows the one that it draws?"""

import collections
import os
import subprocess
import sys
import tempfile
import xml.etree.ElementTree

TOP = os.path.dirname(os.path.dirname(os.path.realpath(__file__)))
# What is told of each example's journal, and how many parts of each kind its picture has.
TOLD = {
    'buffer': ([
        'number  body  what happens                 takes',
        '0       0     Main begins',
        '1       0     makes Buffer 1',
        '2       0     sends Buffer 1.Put("hi")',
        '3       0     calls Buffer 1.Get()',
        '4       4     Get & Put fires on Buffer 1  3 2',
        '5       4     ends with "hi"',
        '6       0     prints "hi"',
        '7       0     ends with nothing',
    ], {'body': 2, 'message': 2, 'answer': 1, 'firing': 1, 'entry': 7}),
    'waits': ([
        'number  body  what happens          takes',
        '0       0     Main begins',
        '1       0     makes Buffer 1',
        '2       0     calls Buffer 1.Get()',
    ], {'body': 1, 'entry': 3}),
}
# The examples whose picture is kept, since a page shows it.
SHOWN = ['buffer']
# A journal of two classes, of which the second inherits, without its source and with it.
SOURCE = 'class A { A() { } public virtual async a(A x) & public int b() { return 1; } } class B : A { public override async a(A y) & public override int b() { return 2; } async c() { } }'
JOURNAL = 'journal 1 4\n0 0 begun\n1 0 made 1\n2 0 sent o1.1 0 o1.1\n3 0 sent o1.1 2\n'
UNNAMED = 'number  body  what happens                       takes\n0       0     Main begins\n1       0     makes class 1 1\n2       0     sends object 1.method 0(object 1)\n3       0     sends object 1.method 2()\n'
NAMED = 'number  body  what happens      takes\n0       0     Main begins\n1       0     makes B 1\n2       0     sends B 1.a(B 1)\n3       0     sends B 1.c()\n'

# A text of bytes that a row and a picture may not have as they are: a carriage return, an escape, a zero, and U+FFFF.
ODD = 'journal 1 2\n0 0 begun\n1 0 printed x610d1b00efbfbf09c3a4\n'
ODD_TOLD = 'number  body  what happens                   takes\n0       0     Main begins\n1       0     prints "a\\r\\x1b\\x00\\uffff\\tä"\n'


def said(words, journal):
    """What the tool writes, and its status."""
    ran = subprocess.run([f'{TOP}/tools/journal', *words], input=journal, stdout=subprocess.PIPE, stderr=subprocess.PIPE, text=True, check=False)
    return ran.stdout, ran.returncode


def text_of(path):
    with open(path, encoding='utf-8') as file:
        return file.read()


def wrong_example(name, rows, parts):
    """What is wrong with the table and the picture of an example."""
    journal, source = text_of(f'{TOP}/examples/{name}.journal'), f'{TOP}/examples/{name}.cs'
    if said(['table', source], journal) != ('\n'.join(rows) + '\n', 0):
        yield f'{name}: the table is another: {said(["table", source], journal)}'
    picture, status = said(['picture', source], journal)
    classes = collections.Counter(it.get('class') for it in xml.etree.ElementTree.fromstring(picture).iter() if it.get('class') not in (None, 'name'))
    if status or classes != parts:
        yield f'{name}: the picture has {dict(classes)}'
    if name in SHOWN and (not os.path.exists(f'{TOP}/examples/{name}.svg') or text_of(f'{TOP}/examples/{name}.svg') != picture):
        yield f'examples/{name}.svg is not what tools/journal draws, or not there'


def main():
    wrong = [it for name, (rows, parts) in TOLD.items() for it in wrong_example(name, rows, parts)]
    if said(['table'], JOURNAL) != (UNNAMED, 0):
        wrong.append(f'without a source: {said(["table"], JOURNAL)}')
    with tempfile.NamedTemporaryFile('w', suffix='.cs', encoding='utf-8') as source:
        source.write(SOURCE)
        source.flush()
        if said(['table', source.name], JOURNAL) != (NAMED, 0):
            wrong.append(f'with inherited methods: {said(["table", source.name], JOURNAL)}')
    if said(['table'], ODD) != (ODD_TOLD, 0):
        wrong.append(f'what is not printable: {said(["table"], ODD)}')
    xml.etree.ElementTree.fromstring(said(['picture'], ODD)[0])
    if said(['table'], 'journal 1 9\n')[1] == 0:
        wrong.append('a journal without its entries is told')
    for line in wrong:
        print(f'journal: {line}', file=sys.stderr)
    return 1 if wrong else 0


if __name__ == '__main__':
    sys.exit(main())
