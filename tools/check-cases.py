#!/usr/bin/env python3
"""Does the built program answer each case of cases/*.tsv as its row says, accept what keeps each limit and refuse what passes it (tools/limits.py), print of
each program of examples/ the lines and the journal beside it, on one thread, by workers, through the launcher, and by workers too where no thread can be made?

    tools/check-cases.py          asks the program that ./build or the gate made
    tools/check-cases.py --try    asks the toolchain's runner, which needs no proof
"""

import glob
import os
import re
import resource
import shutil
import subprocess
import sys
import tempfile

sys.dont_write_bytecode = True
import limits

TOP = os.path.dirname(os.path.dirname(os.path.realpath(__file__)))
PROGRAM = f'{TOP}/crates/chord_prog/out/chord_prog'
SECONDS = 60
# A user of no processes, as whom root makes a process that may start no other.
NOBODY = 54321
MOST_SHOWN = 20
# The tables of cases/, each of which has a row.
TABLES = ['journals', 'listings', 'modes', 'prefixes', 'refusals', 'rules', 'runs', 'verdicts', 'words', 'workers']
# The ways in which an example is played.
WAYS = [['run', '--one'], ['run']]
# The examples that do not end with status 0.
ENDS = {'waits': 4, 'refused': 1}
TRIED = re.compile(rb'^case=(\d+) run=ended status=(\d+) .*output=(\w+)', re.MULTILINE)
ESCAPE = re.compile(rb'\\(?:x([0-9A-Fa-f]{2})|\*(\d+)\{([^}]*)\}|(.))', re.DOTALL)
NAMED = {b'n': b'\n', b'r': b'\r', b't': b'\t', b'\\': b'\\'}


def unescaped(text):
    """The bytes that a column stands for; \\*COUNT{TEXT} is the text so many times."""

    def one(found):
        byte, count, repeated, letter = found.groups()
        if byte:
            return bytes([int(byte, 16)])
        if count:
            return unescaped(repeated) * int(count)
        return NAMED[letter]

    return ESCAPE.sub(one, text)


def rows(path):
    """The rows of a table: words, status, what is written, and the source."""
    with open(path, 'rb') as table:
        for number, line in enumerate(table.read().split(b'\n'), 1):
            if line and not line.startswith(b'# '):
                columns = line.split(b'\t')
                if len(columns) != 4:
                    raise SystemExit(f'{os.path.relpath(path, TOP)}:{number}: {len(columns)} columns, not 4')
                words, status, written, source = columns
                yield number, words.decode().split(), int(status), unescaped(written), unescaped(source)


def table_cases():
    """The rows of all tables; a table that is not there or has no row is refused by its name, and so is one that `TABLES` does not name."""
    found = [os.path.basename(path).removesuffix('.tsv') for path in glob.glob(f'{TOP}/cases/*.tsv')]
    for name in sorted({*TABLES, *found}):
        path = f'{TOP}/cases/{name}.tsv'
        if name not in TABLES:
            raise SystemExit(f'cases/{name}.tsv: TABLES of tools/check-cases.py does not name it')
        own = list(rows(path)) if name in found else []
        if not own:
            raise SystemExit(f'cases/{name}.tsv: {"it has no row" if name in found else "it is not there"}')
        for number, *row in own:
            yield (f'cases/{name}.tsv:{number}', *row)


def examples(ways):
    """The programs of examples/ with their lines beside them, each as a case for each way, which ends with status 0 where `ENDS` names no other one."""
    paths = sorted(glob.glob(f'{TOP}/examples/*.cs'))
    if not paths:
        raise SystemExit('examples/: there is no program in it')
    for path in paths:
        name = path.removesuffix('.cs')
        with open(f'{name}.lines', 'rb') as lines, open(path, 'rb') as source:
            written, text = lines.read(), source.read()
        for words in ways:
            yield os.path.relpath(path, TOP), words, ENDS.get(os.path.basename(name), 0), written, text


def journals():
    """The journals that stand beside examples, each as a case: on one thread a run is always the same."""
    paths = sorted(glob.glob(f'{TOP}/examples/*.journal'))
    if not paths:
        raise SystemExit('examples/: there is no journal in it')
    beside = {place: case for place, *case in examples([['run', '--one', '--journal']])}
    for path in paths:
        place = os.path.relpath(path, TOP)
        words, status, written, source = beside[f'{place.removesuffix(".journal")}.cs']
        with open(path, 'rb') as journal:
            yield place, words, status, written + journal.read(), source


def answer(program, words, source, environment=None):
    """The status of the program and what it writes; None and why where it came to no end."""
    try:
        ran = subprocess.run([program, *words], input=source, stdout=subprocess.PIPE, stderr=subprocess.PIPE, env=environment, timeout=SECONDS, check=False)
    except subprocess.TimeoutExpired:
        return None, f'no end in {SECONDS} seconds'.encode()
    return ran.returncode, ran.stdout + ran.stderr


def launched():
    """Each example through the launcher, beside a copy of the program that is newer than its sources: what is wrong."""
    with tempfile.TemporaryDirectory() as folder:
        launcher = shutil.copy(f'{TOP}/chord', f'{folder}/chord')
        shutil.copy2(f'{TOP}/crates.txt', folder)
        os.makedirs(f'{folder}/crates/chord_prog/out')
        shutil.copy(PROGRAM, f'{folder}/crates/chord_prog/out/chord_prog')
        # without words of its own on memory, the launcher's are what the program gets
        plain = {name: value for name, value in os.environ.items() if name != 'GLIBC_TUNABLES'}
        for place, words, status, written, source in examples([['run']]):
            got = answer(launcher, words, source, plain)
            if got != (status, written):
                yield f'{place}: status {got[0]} and {got[1][:200]!r} by ./chord'


def built_answers(cases):
    """What the built program answers to each case."""
    for place, words, _, _, source in cases:
        yield place, answer(PROGRAM, words, source)


def tried_answers(cases):
    """What the toolchain's runner answers to each case; of an output it tells only where it differs from what is wanted."""
    with tempfile.TemporaryDirectory() as folder:
        for number, (_, words, _, written, source) in enumerate(cases):
            for ending, content in (('', source), ('.args', ''.join(f'{word}\n' for word in words).encode()), ('.stdout', written)):
                with open(f'{folder}/{number}{ending}', 'wb') as file:
                    file.write(content)
        ran = subprocess.run(['rt', 'try', '--cases', folder], cwd=f'{TOP}/crates/chord_prog', stdout=subprocess.PIPE, stderr=subprocess.STDOUT, check=False)
    told = {int(number): (int(status), output) for number, status, output in TRIED.findall(ran.stdout)}
    for number, (place, _, _, written, _) in enumerate(cases):
        status, output = told.get(number, (None, b''))
        yield place, (status, written if output == b'expected' else b'something else')


def lonely():
    """From here on this process makes no thread: a limit on processes counts them, and binds no root."""
    resource.setrlimit(resource.RLIMIT_NPROC, (1, 1))
    if os.getuid() == 0:
        os.setgroups([])
        os.setgid(NOBODY)
        os.setuid(NOBODY)


def without_threads():
    """Each example by four workers and by 64, none of which gets a thread of its own: what is wrong."""
    with tempfile.TemporaryDirectory() as folder:
        os.chmod(folder, 0o755)
        program = shutil.copy(PROGRAM, f'{folder}/program')
        for place, words, status, written, source in examples([['run', '--workers', '4'], ['run', '--workers', '64']]):
            how = f'by {words[-1]} workers where no thread can be made'
            try:
                ran = subprocess.run([program, *words], input=source, stdout=subprocess.PIPE, stderr=subprocess.PIPE, timeout=SECONDS, check=False, preexec_fn=lonely)
            except subprocess.TimeoutExpired:
                yield f'{place}: no end {how}'
                continue
            if (ran.returncode, ran.stdout) != (status, written):
                yield f'{place}: status {ran.returncode} and {ran.stdout[:200]!r} {how}'


def main():
    is_tried = sys.argv[1:] == ['--try']
    if not is_tried and not os.access(PROGRAM, os.X_OK):
        print(f'cases: {PROGRAM} is not there: ./build makes it', file=sys.stderr)
        return 1
    cases = [*table_cases(), *limits.cases(), *examples(WAYS), *journals()]
    answers = tried_answers(cases) if is_tried else built_answers(cases)
    failed = 0
    for (_, _, status, written, _), (place, got) in zip(cases, answers):
        if got != (status, written):
            failed += 1
            if failed <= MOST_SHOWN:
                print(f'{place}: status {got[0]} and {got[1][:200]!r}, not status {status} and {written[:200]!r}', file=sys.stderr)
    print(f'cases: {len(cases) - failed} passed, {failed} failed')
    wrong = [] if is_tried else [*launched(), *without_threads()]
    for line in wrong[:MOST_SHOWN]:
        print(line, file=sys.stderr)
    return 1 if failed or wrong else 0


if __name__ == '__main__':
    sys.exit(main())
