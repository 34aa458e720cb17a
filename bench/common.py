"""What the benches share: the built program, times and instructions of a command, and programs in Rattle over copies of the crates."""

import contextlib
import os
import re
import resource
import shutil
import subprocess
import sys
import tempfile

TOP = os.path.dirname(os.path.dirname(os.path.realpath(__file__)))
PROGRAM = f'{TOP}/crates/chord_prog/out/chord_prog'
RUNS = 40
COUNTED = re.compile(rb'Collected : (\d+)')


def program():
    """The path of the proved program, which is built first."""
    subprocess.run([f'{TOP}/build'], check=True)
    return PROGRAM


def environment():
    """The environment in which the launcher starts the program: it says how memory is asked for."""
    with open(f'{TOP}/chord', encoding='utf-8') as launcher:
        name, value = re.search(r'^(\w+)=\$\{\1-(.*)\}$', launcher.read(), re.MULTILINE).groups()
    return {name: value, **os.environ}


def user_seconds(command, source, wanted=None, runs=RUNS):
    """The mean user time of a command on this standard input; the system counts it in ticks of 4 ms, so one run says little.  Each run ends with status 0, and
    its output is compared with what is wanted, if anything is."""
    before = resource.getrusage(resource.RUSAGE_CHILDREN).ru_utime
    for _ in range(runs):
        ran = subprocess.run(command, input=source, stdout=subprocess.PIPE, stderr=subprocess.STDOUT, check=True)
        assert wanted in (None, ran.stdout), f'{command} wrote {ran.stdout[:200]!r}, not {wanted[:200]!r}'
    return (resource.getrusage(resource.RUSAGE_CHILDREN).ru_utime - before) / runs


def counted(command, source, wanted, file):
    """How many instructions a command takes on this standard input, by valgrind, which writes its counts to this file."""
    ran = subprocess.run(['valgrind', '--tool=callgrind', f'--callgrind-out-file={file}', *command], input=source, stdout=subprocess.PIPE,
                         stderr=subprocess.PIPE, check=False)
    if wanted is not None:
        assert ran.stdout == wanted, f'{command} wrote {ran.stdout[:200]!r}, not {wanted[:200]!r}'
    return int(COUNTED.search(ran.stderr)[1])


def instructions(command, source, wanted=None):
    """How many instructions a command takes on this standard input, by valgrind: the same in each run."""
    with tempfile.TemporaryDirectory() as work:
        return counted(command, source, wanted, f'{work}/out')


def instructions_without(function, command, source, wanted=None):
    """The same without those of one function, which stands by itself in the program."""
    with tempfile.TemporaryDirectory() as work:
        every = counted(command, source, wanted, f'{work}/out')
        listed = subprocess.run(['callgrind_annotate', '--threshold=100', f'{work}/out'], stdout=subprocess.PIPE, check=True).stdout.decode(errors='replace')
    own = [int(line.split()[0].replace(',', '')) for line in listed.splitlines() if f'::{function}' in line]
    assert own, f'{function} does not stand by itself'
    return every - sum(own)


def tell(name, ours, theirs, unit, aside=''):
    """Prints one ratio."""
    print(f'{name}: {ours:.2f} {unit} / {theirs:.2f} {unit} = {ours / theirs:.1f}{aside and "   (" + aside + ")"}')


# What each program in Rattle begins with: the clock of its thread, and a plain loop over bytes as the other side of a ratio.
PRELUDE = '''
use std::io;
use std::time::{CpuClock, Duration};

fn plain(text: &[u8]) -> u8 {
    let mut all = 0u8;
    for byte in text {
        all = all.rotate_left(1) ^ *byte;
    }
    all
}

fn micros(rt: &HostRuntime, start: Duration) -> io::Result<u64> {
    let took = rt.thread_cpu_time()?.saturating_sub(start).as_micros();
    Ok(u64::try_from(took).unwrap_or(0))
}

// The time of going over a text so often, byte by byte, and what that gave.
fn plain_micros(rt: &HostRuntime, text: &[u8], runs: u64) -> io::Result<(u64, u8)> {
    let start = rt.thread_cpu_time()?;
    let mut all = 0u8;
    for _ in 0..runs {
        all = all.rotate_left(1) ^ plain(text);
    }
    Ok((micros(rt, start)?, all))
}
'''


def below(crates):
    """These crates and those of the repository that they stand on."""
    stands_on = {}
    with open(f'{TOP}/crates.txt', encoding='utf-8') as lines:
        for line in lines:
            name, colon, libraries = line.split('#')[0].partition(':')
            if colon:
                stands_on[name.strip()] = libraries.split()
    found = {}
    waiting = list(crates)
    while waiting:
        name = waiting.pop()
        if name in stands_on and name not in found:
            found[name] = stands_on[name]
            waiting += stands_on[name]
    return found


@contextlib.contextmanager
def built(name, crates, source, answers=()):
    """Proves, builds and runs a program in Rattle over copies of these crates, in a folder of its own that stands as long as this; gives the words of each line
    that it prints, and the program's path. The answers are pairs of a function's name and what its goals need."""
    with tempfile.TemporaryDirectory() as work:
        os.makedirs(f'{work}/crates/{name}/src')
        with open(f'{work}/crates.txt', 'w', encoding='utf-8') as file:
            for crate, libraries in below(crates).items():
                shutil.copytree(f'{TOP}/crates/{crate}', f'{work}/crates/{crate}', ignore=shutil.ignore_patterns('out'))
                file.write(f'{crate}: {" ".join(libraries)}\n')
            file.write(f'{name}: {" ".join(crates)}\n')
        with open(f'{work}/crates/{name}/src/main.rt', 'w', encoding='utf-8') as file:
            file.write(f'// {name}: a bench.\n#![tactic(auto)]\n{PRELUDE}{source}')
        for function, text in answers:
            os.makedirs(f'{work}/crates/{name}/proofs/{function}')
            with open(f'{work}/crates/{name}/proofs/{function}/Answers.antt', 'w', encoding='utf-8') as file:
                file.write(f'use Rattle.{name}.proofs.{function}.Goals as goal\n{text}')
        ran = subprocess.run(['rt', 'run'], cwd=f'{work}/crates/{name}', stdout=subprocess.PIPE, stderr=subprocess.PIPE, text=True, check=False)
        if ran.returncode:
            sys.exit(f'{name}: {ran.stdout[-2000:]}{ran.stderr[-2000:]}')
        yield [line.split() for line in ran.stdout.splitlines()], f'{work}/crates/{name}/out/{name}'


def rows_of(name, crates, source, answers=()):
    """The words of each line that such a program prints."""
    with built(name, crates, source, answers) as (rows, _):
        return rows
