#!/usr/bin/env python3
"""Runs a command of the toolchain and prints the processor minutes that its provers took, by crate: library, tests and must-fail edits; and the
processor seconds of each edit that took half a minute or more.

    tools/proof-times.py rt ci

It looks at the provers' processes twice a second, so a short one counts a little less than it took. A run that finds proofs kept from earlier ones
counts only what it did itself. It is run at the top of the checkout that the command proves."""

import collections
import functools
import glob
import os
import subprocess
import sys
import threading

SECONDS = 0.5
TICKS = os.sysconf('SC_CLK_TCK') * 60
LONG_EDIT = 30
PARTS = ['library', 'tests', 'edits']


@functools.cache
def edited_files(crate):
    """The must-fail edits of a crate, each with the file that it changes and the text that it makes of it."""
    found = []
    for path in sorted(glob.glob(f'crates/{crate}/must-fail/*.edit')):
        with open(path, encoding='utf-8') as file:
            lines = [it.partition(':') for it in file.read().splitlines()]
        said = [(word, text.removeprefix(' ')) for word, _, text in lines if word in ('file', 'old', 'new')]
        with open(f'crates/{crate}/{said[0][1].strip()}', encoding='utf-8') as file:
            text = file.read()
        for (_, old), (_, new) in zip(said[1::2], said[2::2]):
            text = text.replace(old, new, 1)
        found.append((os.path.basename(path), said[0][1].strip(), text))
    return found


def edit_in(crate, room):
    """The must-fail edit that this copy of a crate has, or `seed` for none."""
    for name, path, text in edited_files(crate):
        with open(f'{room}/{path}', encoding='utf-8') as file:
            if file.read() == text:
                return name
    return 'seed'


def prover(folder):
    """The crate, the part, the ticks, the start and the folder of a prover's process, if that is what this folder of /proc tells of."""
    with open(f'{folder}/cmdline', 'rb') as file:
        words = file.read().decode(errors='replace').split('\0')
    if not words[0].endswith('/rattle') or '--crate-name' not in words:
        return None
    with open(f'{folder}/stat', encoding='utf-8') as file:
        fields = file.read().rsplit(')', 1)[1].split()
    room = os.readlink(f'{folder}/cwd')
    part = 'edits' if '/rt-edit-' in room else 'tests' if '--test' in words else 'library'
    return words[words.index('--crate-name') + 1], part, int(fields[11]) + int(fields[12]), fields[19], room


def descendants(root):
    """The processes below one, by the parents that /proc tells."""
    parents = {}
    for path in glob.glob('/proc/[0-9]*/stat'):
        try:
            with open(path, encoding='utf-8', errors='replace') as file:
                head, rest = file.read().rsplit(')', 1)
        except OSError:
            continue
        parents[int(head.split()[0])] = int(rest.split()[1])
    found = set()
    for it in parents:
        above, line = it, []
        while above in parents and above != root and above not in found:
            line.append(above)
            above = parents[above]
        if above == root or above in found:
            found.update(line)
    return found


def watch(root, ended, seen):
    """Notes the newest count of ticks of each prover below a process, and which edit it tries, until the process has ended."""
    while not ended.wait(SECONDS):
        for it in descendants(root):
            try:
                told = prover(f'/proc/{it}')
                if not told:
                    continue
                crate, part, ticks, start, room = told
                known = seen.get((it, start))
                edit = known[3] if known else edit_in(crate, room) if part == 'edits' else ''
            except OSError:
                continue
            seen[it, start] = (crate, part, ticks, edit)


def main():
    ran = subprocess.Popen(sys.argv[1:])
    seen, ended = {}, threading.Event()
    watcher = threading.Thread(target=watch, args=(ran.pid, ended, seen))
    watcher.start()
    status = ran.wait()
    ended.set()
    watcher.join()
    minutes = collections.defaultdict(lambda: collections.defaultdict(float))
    edits = collections.Counter()
    for crate, part, ticks, edit in seen.values():
        for name in (crate, 'all'):
            minutes[name][part] += ticks / TICKS
        if edit:
            edits[f'{crate}/{edit}'] += 60 * ticks / TICKS
    print('| crate | library | tests | edits | all |\n|---|---|---|---|---|')
    for crate in sorted(minutes, key=lambda it: (it == 'all', -sum(minutes[it].values()))):
        row = [minutes[crate][part] for part in PARTS]
        print(f'| {crate} | {" | ".join(f"{it:.1f}" for it in [*row, sum(row)])} |')
    for edit, seconds in edits.most_common():
        if seconds >= LONG_EDIT:
            print(f'{seconds:4.0f} s {edit}')
    return status


if __name__ == '__main__':
    sys.exit(main())
