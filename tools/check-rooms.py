#!/usr/bin/env python3
"""Do the root files of the crates say what crates.txt says, which crates each stands on and which use it?"""

import glob
import os
import re
import sys

sys.dont_write_bytecode = True
import antt

SAYS = re.compile(r'^//! Stands on: (.*?)\. Used by: (.*?)\.$', re.MULTILINE)
MANY = 3
ASIDE = re.compile(r'\([^)]*\)')


def named(text):
    """The crates that a root file lists, each with or without an aside in brackets; none for `nothing` and `nobody`."""
    words = {word.strip() for word in ASIDE.sub('', text).split(',')}
    return words - {'nothing', 'nobody'}


def wrong_of(crate, below):
    """What the root file of a crate says otherwise than crates.txt."""
    path = next(path for path in (f'crates/{crate}/src/lib.rt', f'crates/{crate}/src/main.rt') if os.path.exists(f'{antt.TOP}/{path}'))
    with open(f'{antt.TOP}/{path}', encoding='utf-8') as file:
        found = SAYS.search(file.read())
    if not found:
        yield f'{path} has no line `//! Stands on: .. . Used by: .. .`'
        return
    users = {it for it in below if crate in below[it]}
    rows = [('stands on', named(found[1]), set(below[crate]))]
    # a crate that many use says so: naming each would change its text, and so prove it anew, with every crate above it
    if found[2] != 'many crates' or len(users) < MANY:
        rows.append(('is used by', named(found[2]), users))
    for words, said, true in rows:
        for it in sorted(said - true):
            yield f'{path} says that {crate} {words} {it}, and crates.txt does not'
        for it in sorted(true - said):
            yield f'{path} does not say that {crate} {words} {it}, and crates.txt does'


def main():
    below = antt.crates()
    stand = {path.split('/')[-2] for path in glob.glob(f'{antt.TOP}/crates/*/src')}
    wrong = [] if below else ['crates.txt names no crate']
    wrong += [f'crates/{crate} is not in crates.txt' for crate in sorted(stand - set(below))]
    wrong += [f'crates.txt names {crate}, which is not in crates/' for crate in sorted(set(below) - stand)]
    wrong += [line for crate in below if crate in stand for line in wrong_of(crate, below)]
    for line in wrong:
        print(f'rooms: {line}', file=sys.stderr)
    return 1 if wrong else 0


if __name__ == '__main__':
    sys.exit(main())
