#!/usr/bin/env python3
"""Is the grammar in docs/LANGUAGE.md, production by production, the one of tools/grammar.txt as it is printed there, and has each printed production the strings of
the right sides below it, as far as `LONGEST` symbols go?"""

import os
import re
import sys

sys.dont_write_bytecode = True
import grammar

TOP = os.path.dirname(os.path.dirname(os.path.realpath(__file__)))
HEAD = re.compile(r'^(\w+)\s*=\s*(.*)$')
PART = re.compile(r'"[^"]*"|\w+|[{}\[\]()|]')
LONGEST = 9
MARKS = {';': 'SEMICOLON', '.': 'DOT', ',': 'COMMA', ':': 'COLON', '(': 'OPEN', ')': 'CLOSE', '{': 'OPEN_BRACE', '}': 'CLOSE_BRACE', '&': 'AMPERSAND', '=': 'ASSIGN',
         '||': 'OR', '&&': 'AND', '==': 'EQUAL', '!=': 'NOT_EQUAL', '<': 'LESS', '>': 'GREATER', '<=': 'LESS_OR_EQUAL', '>=': 'GREATER_OR_EQUAL', '+': 'PLUS',
         '-': 'MINUS', '*': 'TIMES', '/': 'DIVIDE', '%': 'REMAINDER', '!': 'NOT'}
CLOSING = {'{': '}', '[': ']', '(': ')'}
NAMED = {'Name', 'Number', 'Literal'}


def productions(lines):
    """Each production's head and its right side, with one blank between two words; a line that begins with a bar goes on."""
    found = {}
    head = None
    for line in lines:
        match = HEAD.match(line.strip())
        if match:
            head = match[1]
            found[head] = match[2]
        elif line.strip() and head:
            found[head] += ' ' + line.strip()
    return {head: ' '.join(right.split()) for head, right in found.items()}


def printed():
    """The productions as tools/grammar.txt prints them."""
    with open(f'{TOP}/tools/grammar.txt', encoding='utf-8') as file:
        return productions(line[2:] for line in file if line.startswith('--'))


def manual():
    """The productions of the indented block in the manual's section on the grammar."""
    with open(f'{TOP}/docs/LANGUAGE.md', encoding='utf-8') as file:
        section = file.read().split('\n## Grammar\n')[1].split('\n## ')[0]
    return productions(line for line in section.split('\n') if line.startswith('    '))


def joined(left, right, room):
    """Each string of the left behind which one of the right has room."""
    return {one + other for one in left for other in right if len(one) + len(other) <= room}


def repeated(strings, room):
    """Any number of these strings behind each other, as far as there is room."""
    found, new = {()}, {()}
    while new:
        new = joined(new, strings, room) - found
        found |= new
    return found


def meant(parts, room, until=None):
    """The strings of a printed right side, whose parts are taken up to this closing mark."""
    found, strings = set(), {()}
    while parts and parts[0] != until:
        part = parts.pop(0)
        if part == '|':
            found, strings = found | strings, {()}
            continue
        if part in CLOSING:
            inner = meant(parts, room, CLOSING[part])
            parts.pop(0)
            own = repeated(inner, room) if part == '{' else inner | {()} if part == '[' else inner
        else:
            own = {(part,)}
        strings = joined(strings, own, room)
    return found | strings


def class_of(part):
    """The class of tokens that a printed part stands for, or the part itself where it is a production's name."""
    if part.startswith('"'):
        return MARKS.get(part[1:-1], part[1:-1].upper())
    return part.upper() if part in NAMED else part


class Strings:
    """The strings of the symbols of tools/grammar.txt: a symbol that is printed stands for itself, one that is not for its right sides."""

    def __init__(self, g):
        self.g = g
        self.name = {head: text.split('=')[0].strip() for head, text in g.printed.items()}
        self.known = {}

    def of_side(self, side, room):
        found = {()}
        for part in side:
            # what has no room behind a part is not looked for, so that a symbol that comes back to itself ends
            least = min(map(len, found), default=room + 1)
            if least > room:
                return set()
            if self.g.is_class(part) or part in self.name:
                own = {(self.name.get(part, part),)}
            else:
                own = self.of_symbol(part, room - least)
            found = joined(found, own, room)
        return found

    def of_symbol(self, head, room):
        if (head, room) not in self.known:
            self.known[head, room] = {string for _, side in self.g.sides(head) for string in self.of_side(side, room)}
        return self.known[head, room]


def wrong_sides():
    """Printed productions that have other strings than the right sides below them."""
    g = grammar.Grammar(f'{TOP}/tools/grammar.txt')
    strings = Strings(g)
    for head, text in g.printed.items():
        theirs = {tuple(map(class_of, string)) for string in meant(PART.findall(text.split('=', 1)[1]), LONGEST)}
        ours = strings.of_symbol(head, LONGEST)
        for more, said in ((theirs - ours, 'as it is printed alone'), (ours - theirs, 'by its right sides alone')):
            if more:
                yield f'{text.split("=")[0].strip()}: `{" ".join(min(more, key=lambda it: (len(it), it)))}` {said}, in tools/grammar.txt'


def main():
    ours, theirs = manual(), printed()
    wrong = [f'{head}: `{ours.get(head)}` in docs/LANGUAGE.md, `{theirs.get(head)}` in tools/grammar.txt'
             for head in {**theirs, **ours} if ours.get(head) != theirs.get(head)]
    wrong += [f'no production is found in {place}' for place, found in (('docs/LANGUAGE.md', ours), ('tools/grammar.txt', theirs)) if not found]
    wrong += wrong_sides()
    for line in wrong:
        print(f'manual: {line}', file=sys.stderr)
    return 1 if wrong else 0


if __name__ == '__main__':
    sys.exit(main())
