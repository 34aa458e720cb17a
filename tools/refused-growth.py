#!/usr/bin/env python3
"""Refuses each growth of a run in turn: the first call for memory that the program makes finds none, then the second, until a run meets none that is
refused.  Each run ends with status 7 and no byte, or as it ends with ample memory.

    tools/refused-growth.py [PROGRAM]    over the proved program, or over this one; wants a C compiler

It is no part of the gate: `chord` has clauses on what is written where memory runs out, and this shows that the program and the C library keep them."""

import os
import subprocess
import sys
import tempfile

TOP = os.path.dirname(os.path.dirname(os.path.realpath(__file__)))
PROGRAM = f'{TOP}/crates/chord_prog/out/chord_prog'
SECONDS = 20

# The words of each run, the source that it reads, and the least number of growths that it is known to make.
RUNS = (
    (('run', '--one'), 'buffer', 20),
    (('run', '--workers', '1'), 'lock', 20),
    (('load', '1', '--workers', '2'), None, 20),
)


def answer(command, source, environment=None, told=()):
    """The status of a run and what it wrote."""
    ran = subprocess.run(command, input=source, stdout=subprocess.PIPE, env=environment, pass_fds=told, timeout=SECONDS, check=False)
    return ran.returncode, ran.stdout


def refused(command, source, library, number):
    """The same where the growth of this number is refused, and whether there was one."""
    reads, writes = os.pipe()
    environment = {**os.environ, 'LD_PRELOAD': library, 'REFUSED': str(number), 'TOLD': str(writes)}
    found = answer(command, source, environment, (writes,))
    os.close(writes)
    met = os.read(reads, 1) != b''
    os.close(reads)
    return found, met


def refuse_each(program, library, words, example, least):
    """Refuses one growth after the other, and gives the number of those that were answered in another way."""
    source = b''
    if example:
        with open(f'{TOP}/examples/{example}.cs', 'rb') as file:
            source = file.read()
    command = [program, *words]
    ample = answer(command, source)
    number, wrong, out = 1, 0, 0
    while True:
        found, met = refused(command, source, library, number)
        if not met:
            break
        if found not in (ample, (7, b'')):
            print(f'{" ".join(words)}: growth {number} refused: status {found[0]} and {found[1][:60]!r}', file=sys.stderr)
            wrong += 1
        out += found == (7, b'')
        number += 1
    print(f'{" ".join(words)}: {number - 1} growths refused, {out} runs out of memory, {wrong} wrong')
    return wrong + (number - 1 < least)


def main():
    """Runs all, and ends with 1 where one was wrong."""
    program = sys.argv[1] if len(sys.argv) > 1 else PROGRAM
    with tempfile.TemporaryDirectory() as work:
        library = f'{work}/refused.so'
        subprocess.run(['cc', '-O2', '-shared', '-fPIC', '-o', library, f'{TOP}/tools/refused-growth.c'], check=True)
        wrong = sum([refuse_each(program, library, *run) for run in RUNS])
    sys.exit(wrong > 0)


if __name__ == '__main__':
    main()
