#!/usr/bin/env python3
"""What `rt ci` has kept on this machine of a checkout as it stands: says it, or lays it into the checkout, which then checks a crate above the libraries without
proving them again.

    tools/kept.py                        prints of each crate here whether its library is kept, and how many of its must-fail edits were refused
    tools/kept.py CHECKOUT [CRATE ..]    lays the libraries and the program that are kept, or those of these crates, into a clone of the repository

What is kept has a sum of all that it was proved from as its name, and `rt` has the functions that make it: so a library is found only where its files and
those of the libraries below are those that were proved, and an edit only where its crate is. Libraries of `rt ci` and those that `rt lib` made do not mix,
so a crate between two that are laid is removed first (its folder `out`)."""

import contextlib
import hashlib
import importlib.machinery
import importlib.util
import io
import json
import os
import shutil
import sys

sys.dont_write_bytecode = True
TOP = os.path.dirname(os.path.dirname(os.path.realpath(__file__)))
KIT = os.environ.get('RATTLE_KIT', '/opt/rattle')


def toolchain():
    """The kit's `rt`, as a module."""
    sys.path.insert(0, f'{KIT}/bin')
    loader = importlib.machinery.SourceFileLoader('rt', f'{KIT}/bin/rt')
    module = importlib.util.module_from_spec(importlib.util.spec_from_loader('rt', loader))
    loader.exec_module(module)
    return module


class Store:
    """What is kept of one checkout, lowest crate first."""

    def __init__(self, checkout):
        os.chdir(checkout)
        self.rt = toolchain()
        self.rt.Crate.cuts_libraries = True
        self.rt.Crate.allowed = self.rt.handles_of(checkout)
        self.crates = self.rt.crates_of(checkout)
        self.kept = self.rt.Kept(self.crates)
        self.folders = {}
        for crate in self.crates:
            self.find(crate)

    def find(self, crate):
        """Notes where a crate's library is kept, if all below it are kept too."""
        if not all(it.name in self.folders for it in crate.below()):
            return
        folder = self.kept.place(crate, False, self.kept.key(crate))
        if not os.path.isfile(f'{folder}/made.json'):
            return
        self.folders[crate.name] = folder
        files = [] if crate.is_program else [tuple(it) for it in self.files(crate)]
        self.kept.rlibs[crate.name] = hashlib.sha256(repr(files).encode()).hexdigest()

    def files(self, crate):
        """The paths of what is kept of a crate, with their sums."""
        with open(f'{self.folders[crate.name]}/made.json', encoding='utf-8') as file:
            return json.load(file)['files']

    def tried(self, crate):
        """How many of a crate's edits were refused, and how many there are."""
        edits = self.rt.edits_of(crate)[0]
        if crate.name not in self.folders:
            return 0, len(edits)
        key = self.kept.key(crate)
        found = [self.kept.tried(self.kept.of_edit(it, key)) for it in edits]
        return sum(1 for it in found if it and ': refused' in it[1]), len(edits)

    def lay(self, crate):
        """Lays one library with its stamp, or the program, whose files can be started."""
        out = f'{crate.folder}/out'
        shutil.rmtree(f'{out}/rlib', ignore_errors=True)
        for number, (path, _) in enumerate(self.files(crate)):
            os.makedirs(os.path.dirname(f'{out}/{path}'), exist_ok=True)
            shutil.copyfile(f'{self.folders[crate.name]}/{number}', f'{out}/{path}')
            if not path.startswith('rlib/'):
                os.chmod(f'{out}/{path}', 0o755)
        if os.path.isdir(f'{out}/rlib'):
            with open(f'{out}/rlib/stamp', 'w', encoding='utf-8') as file, contextlib.redirect_stdout(io.StringIO()):
                file.write(crate.stamp())


def say():
    """Prints a line for each crate, and the sum."""
    store, sums = Store(TOP), [0, 0]
    for crate in sorted(store.crates, key=lambda it: it.name):
        counts = store.tried(crate)
        sums = [old + new for old, new in zip(sums, counts)]
        print(f'{crate.name:14} {"library" if crate.name in store.folders else "-":8} {counts[0]:3} of {counts[1]:3} edits')
    print(f'{"all":23} {sums[0]:3} of {sums[1]:3} edits')


def main():
    if len(sys.argv) == 1:
        say()
        return
    store, names = Store(os.path.abspath(sys.argv[1])), sys.argv[2:]
    for crate in store.crates:
        if crate.name in store.folders and (not names or crate.name in names):
            store.lay(crate)
            print(f'laid {crate.name}')


if __name__ == '__main__':
    main()
