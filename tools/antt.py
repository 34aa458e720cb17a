"""Reads .antt files as the checks need them: which names a module defines, and the comment above each."""

import glob
import os
import re

TOP = os.path.dirname(os.path.dirname(os.path.realpath(__file__)))
MADE = re.compile(r'^--.*\bMade by tools/')
# `abbrev pub name :`, `pub data Name`, `pub record Name (..) :`, `pub name :`, `name :`; a signature names its type, a clause does not
DEFINES = re.compile(r"^\s*(?:(?:abbrev|unfoldable|opaque|private)\s+)*(pub\s+)?(?:(?:abbrev|unfoldable)\s+)*(?:(?:data|record)\s+(?:pub\s+)?([^\s(){}:]+)|([^\s(){}:.,;=|λ]+)\s+:)(?:\s|$)")
NAMED_LAW = re.compile(r'^pub \S+ : [A-Z]\w+$')
WORDS = {'where', 'use', 'pub', 'mod', 'mutual', 'module', 'let', 'in', 'if', 'then', 'else', 'record', 'data', 'syntax', 'infix', 'infixl', 'infixr'}


class Definition:
    """A definition or a lemma of a module."""

    def __init__(self, name, path, line, is_public, sentence, is_named_law):
        self.name, self.path, self.line, self.is_public = name, path, line, is_public
        # whether a sentence stands above it, and whether its statement is a definition's name alone
        self.sentence, self.is_named_law = sentence, is_named_law

    @property
    def place(self):
        return f'{os.path.relpath(self.path, TOP)}:{self.line}'


def crates():
    """The crates with the libraries that each stands on, as crates.txt has them."""
    below = {}
    with open(f'{TOP}/crates.txt', encoding='utf-8') as lines:
        for line in lines:
            name, colon, libraries = line.split('#')[0].partition(':')
            if colon:
                below[name.split()[0]] = libraries.split()
    return below


def reach(crate, below):
    """A crate and all crates of the repository below it."""
    found = {crate}
    for library in below[crate]:
        if library in below:
            found |= reach(library, below)
    return found


def modules(crate, part):
    """The files of a crate's specs/, or of the lemmas of its proofs/; answers and invariants are no lemmas."""
    paths = glob.glob(f'{TOP}/crates/{crate}/{part}/*.antt') + glob.glob(f'{TOP}/crates/{crate}/{part}/made/*.antt')
    return sorted(path for path in paths if os.path.basename(path) != 'Lib.antt')


def is_made(text):
    """Whether a script makes the file."""
    return bool(MADE.match(text.split('\n')[0]))


def definitions(path):
    """What a module defines at its outermost level, or in `mutual` blocks and in modules without a name there."""
    with open(path, encoding='utf-8') as file:
        lines = file.read().split('\n')
    found, blocks = [], []
    for number, line in enumerate(lines):
        if not line.strip() or line.lstrip().startswith(('--', '}', ')')):
            continue
        depth = len(line) - len(line.lstrip(' '))
        while blocks and blocks[-1] >= depth:
            blocks.pop()
        if depth != (blocks[-1] + 2 if blocks else 0):
            continue
        bare = line.lstrip()
        if bare.split()[0] in ('mutual', 'module') or bare.startswith('abbrev mutual'):
            blocks.append(depth)
            continue
        match = DEFINES.match(line)
        name = match and (match[2] or match[3])
        if not name or name in WORDS:
            continue
        above = lines[number - 1].strip() if number else ''
        is_sentence = above.startswith('-- ') and not above.startswith('-- ##')
        found.append(Definition(name, path, number + 1, bool(match[1]) or 'pub ' in line.split(':')[0], is_sentence, bool(NAMED_LAW.search(line))))
    return found
