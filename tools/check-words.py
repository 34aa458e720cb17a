#!/usr/bin/env python3
"""Has each word one meaning?  Refuses a name that two modules of definitions, or two modules of lemmas, of one reader define; a definition or a lemma without a
sentence; a definition that stands on a lemma; and a row of docs/WORDS.md that names a file which is not there."""

import collections
import os
import re
import sys

sys.dont_write_bytecode = True
import antt

LEMMAS = re.compile(r'^\s*use Rattle\.chord_\w+\.proofs\b')
FILE = re.compile(r'`((?:crates|docs|tools|bench|cases)/[^` ]+|chord_\w+/[^` ]+)`')


def clashes(below, part):
    """Names that two modules below one crate define; of lemmas those alone that other modules see."""
    found = collections.defaultdict(list)
    for crate in below:
        for path in antt.modules(crate, part):
            for it in antt.definitions(path):
                if part == 'specs' or it.is_public:
                    found[it.name].append((crate, it))
    views = [antt.reach(crate, below) for crate in below]
    for name, places in sorted(found.items()):
        for view in views:
            seen = {it.path: it.place for crate, it in places if crate in view}
            if len(seen) > 1:
                yield f'{name}: {", ".join(sorted(seen.values()))} define it'
                break


def unsaid(below):
    """Definitions and lemmas that have no sentence above them, made files apart.  A lemma whose statement is a definition's name alone has its sentence there."""
    for crate in below:
        for part in ('specs', 'proofs'):
            for path in antt.modules(crate, part):
                with open(path, encoding='utf-8') as file:
                    if antt.is_made(file.read()):
                        continue
                for it in antt.definitions(path):
                    if not it.sentence and not it.is_named_law:
                        yield f'{it.place}: {it.name} has no sentence above it'


def on_lemmas(below):
    """Modules of definitions that import a module of the repository's proofs."""
    for crate in below:
        for path in antt.modules(crate, 'specs'):
            with open(path, encoding='utf-8') as file:
                for number, line in enumerate(file, 1):
                    if LEMMAS.match(line):
                        yield f'{os.path.relpath(path, antt.TOP)}:{number}: a definition stands on a lemma'


def lost_files():
    """Files that a row of docs/WORDS.md names and that are not there."""
    with open(f'{antt.TOP}/docs/WORDS.md', encoding='utf-8') as page:
        for number, line in enumerate(page, 1):
            if line.startswith('|'):
                for name in FILE.findall(line):
                    path = name if name.split('/')[0] in ('crates', 'docs', 'tools', 'bench', 'cases') else f'crates/{name}'
                    if not os.path.exists(f'{antt.TOP}/{path}'):
                        yield f'docs/WORDS.md:{number}: {name} is not there'


def main():
    below = antt.crates()
    wrong = [*clashes(below, 'specs'), *clashes(below, 'proofs'), *unsaid(below), *on_lemmas(below), *lost_files()]
    for line in wrong:
        print(f'words: {line}', file=sys.stderr)
    return 1 if wrong else 0


if __name__ == '__main__':
    sys.exit(main())
