#!/usr/bin/env python3
"""Plays the programs of bench/workloads by 1, 4 and 64 workers and on one thread: wall clock a firing, and the ratios. Each stands beside a pool of the same
algorithm in Rust, over crossbeam's deques, and beside a program of the same meaning over Go's channels, `uncontended` beside its bare atomic steps and writes in
C, and `load 60` beside a program over the bounded channels of Rust's standard library (bench/peers), where their compilers and the sources of crossbeam are
there. Bodies that compute (`compute`) show how four workers share what they can share.

What is compared runs in turns, round after round, since a machine may be half as fast a minute later, and the ratios are those of medians. From a run is taken
what the same program takes that plays no round: its start, and the making of its table. The pool in Rust touches its table as it goes, so whole runs stand beside
each ratio."""

import glob
import os
import shutil
import statistics
import subprocess
import tempfile
import time

import common

RUNS = 15
# What each workload prints, and how often it goes round, which is 0 in the same program that plays no round.
WORKLOADS = {'uncontended': (b'done\n', [b'3900']), 'buffer': (b'8004000\n', [b'2000']), 'lock': (b'done\n', [b'250']), 'santa': (b'600\n', [b'2400', b'600'])}
TURNS = b'8000'  # of each body of `compute`
PAIRS = 60  # of `load`, whose buffer Rust's program has too
SUM = b'303000\n'
COUNTS = b'begun 1 made 3 sent 12243 called 12001 fired 12181 printed 1 ended 12182\n'
LOAD_FIRINGS = 12181
PEERS = {
    'Go': (['go', 'build', '-o'], 'workloads.go'),
    'Rust': (['rustc', '-O', '-o'], 'buffer.rs'),
    'C': (['cc', '-O2', '-pthread', '-o'], 'steps.c'),
}
CRATES = '/usr/share/cargo/registry'  # where Debian puts the sources of crates, those of crossbeam-deque with librust-crossbeam-deque-dev
MANIFEST = f'''
[package]
name = "pool"
version = "0.0.0"
edition = "2021"
[[bin]]
name = "pool"
path = "{common.TOP}/bench/peers/pool/main.rs"
[dependencies]
crossbeam-deque = "0.8"
crossbeam-utils = "0.8"
[profile.release]
lto = "fat"
codegen-units = 1
panic = "abort"
'''
OFFLINE = ['--offline', '--config', 'source.crates-io.replace-with="debian"', '--config', f'source.debian.directory="{CRATES}"']


def peer(language, work):
    """The program beside which workers are measured, if the compiler of its language is there."""
    compiler, source = PEERS[language]
    if shutil.which(compiler[0]) is None:
        print(f'beside {language}: not measured, {compiler[0]} is not here')
        return None
    made = f'{work}/{language}'
    subprocess.run([*compiler, made, f'{common.TOP}/bench/peers/{source}'], check=True, cwd=work, env={**os.environ, 'GOCACHE': f'{work}/cache'})
    return made


def same_pool(work):
    """The pool of the same algorithm in Rust, if cargo and the sources of crossbeam are there. All that cargo writes is written below this folder."""
    if shutil.which('cargo') is None or not glob.glob(f'{CRATES}/crossbeam-deque-0.8.*'):
        print('beside a pool in Rust: not measured, cargo or the sources of crossbeam-deque are not here')
        return None
    made = f'{work}/pool'
    os.makedirs(made)
    with open(f'{made}/Cargo.toml', 'w', encoding='utf-8') as file:
        file.write(MANIFEST)
    build = ['cargo', 'build', '--quiet', '--release', '--target-dir', f'{made}/target', *OFFLINE]
    subprocess.run(build, check=True, cwd=made, env={**os.environ, 'CARGO_HOME': f'{made}/home'})
    return f'{made}/target/release/pool'


def seconds(command, source, wanted):
    """The wall clock of one run, which writes what is wanted, if something is, and what it wrote."""
    before = time.monotonic()
    ran = subprocess.run(command, input=source, stdout=subprocess.PIPE, env=common.environment(), check=True)
    took = time.monotonic() - before
    assert wanted in (None, ran.stdout), ran.stdout
    return took, ran.stdout


def in_turns(runs):
    """The times of these runs, each a command, its standard input and what it writes, which are made in turns."""
    times = {name: [] for name in runs}
    for _ in range(RUNS):
        for name, run in runs.items():
            times[name].append(seconds(*run)[0])
    return times


def by_workers(number):
    """What runs by so many workers are called here."""
    return '1 worker' if number == 1 else f'{number} workers'


def of_a_firing(times, way, firings, of):
    """The nanoseconds of a firing, by the median or the least of the runs that were made in this way."""
    return (of(times[way]) - of(times[f'{way}, no round'])) / firings * 1e9


def told(name, times, one, other, firings):
    """Prints how the firings of two ways stand: by medians, with those by the least runs and the medians of whole runs beside them."""
    medians = [of_a_firing(times, way, firings, statistics.median) for way in (one, other)]
    least = [of_a_firing(times, way, firings, min) for way in (one, other)]
    whole = [statistics.median(times[way]) * 1e3 for way in (one, other)]
    common.tell(f'{name}, {one} beside {other}', *medians, 'ns a firing', f'least {least[0]:.0f} and {least[1]:.0f}, whole runs {whole[0]:.1f} and {whole[1]:.1f} ms')


def without_rounds(source, rounds):
    """The same program that plays no round."""
    for number in rounds:
        assert number in source
        source = source.replace(number, b'0')
    return source


def runs_of(name, program, pool, go):
    """What is run of a workload: each program in each way, and the same where it plays no round."""
    wanted, rounds = WORKLOADS[name]
    with open(f'{common.TOP}/bench/workloads/{name}.cs', 'rb') as file:
        source = file.read()
    runs = {}
    for way, words in {'one thread': ['--one'], **{by_workers(n): ['--workers', str(n)] for n in (1, 4, 64)}}.items():
        runs[way] = [program, 'run', *words], source, wanted
        runs[f'{way}, no round'] = [program, 'run', *words], without_rounds(source, rounds), None
    for workers in ('1', '4') if pool else ():
        runs[f'a pool in Rust by {workers}'] = [pool, workers, name], b'', wanted
        runs[f'a pool in Rust by {workers}, no round'] = [pool, workers, 'nothing'], b'', b''
    if go:
        runs['channels of Go'] = [go, name], b'', wanted
        runs['channels of Go, no round'] = [go, 'nothing'], b'', b'\n'
    return runs


def measure(name, program, pool, go):
    """One workload: each number of workers beside one thread, four beside one, and both beside the same pool in Rust and Go. Its times and firings."""
    runs = runs_of(name, program, pool, go)
    command, source, wanted = runs['one thread']
    firings = seconds([*command, '--journal'], source, None)[1].removeprefix(wanted).count(b' fired ')
    times = in_turns(runs)
    for workers in (1, 4, 64):
        told(name, times, by_workers(workers), 'one thread', firings)
    told(name, times, '4 workers', '1 worker', firings)
    for workers in (1, 4) if pool else ():
        told(name, times, by_workers(workers), f'a pool in Rust by {workers}', firings)
    if go:
        told(name, times, '4 workers', 'channels of Go', firings)
        told(name, times, 'one thread', 'channels of Go', firings)
    return times, firings


def measure_steps(bare, times, firings):
    """The bare steps of `uncontended` in C, which take their time themselves, beside its runs."""
    for workers in (1, 4):
        steps = [float(seconds([bare, str(workers)], b'', None)[1]) for _ in range(RUNS)]
        took, least = (of_a_firing(times, by_workers(workers), firings, of) for of in (statistics.median, min))
        common.tell(f'uncontended, {by_workers(workers)} beside the bare steps in C', took, statistics.median(steps), 'ns a firing', f'least {least:.0f} and {min(steps):.0f}')


def measure_sharing(program):
    """Bodies that compute, by one worker and by four, less the same program that computes nothing: how much of the time is left."""
    with open(f'{common.TOP}/bench/workloads/compute.cs', 'rb') as file:
        source = file.read()
    runs = {}
    for workers in (1, 4):
        command = [program, 'run', '--workers', str(workers)]
        runs[by_workers(workers)] = command, source, b'done\n'
        runs[f'{by_workers(workers)}, no turn'] = command, without_rounds(source, [TURNS]), b'done\n'
    times = in_turns(runs)
    four, one = ((statistics.median(times[by_workers(n)]) - statistics.median(times[f'{by_workers(n)}, no turn'])) * 1e3 for n in (4, 1))
    common.tell('compute, 4 workers beside 1 worker', four, one, 'ms')


def measure_load(program, rust):
    """The large program that the command makes, beside Rust's, each with its start."""
    times = in_turns({'workers': ([program, 'load', str(PAIRS), '--workers', '4'], b'', SUM + COUNTS), 'channels': ([rust, str(PAIRS)], b'', SUM)})
    workers, channels = (statistics.median(times[name]) / LOAD_FIRINGS * 1e9 for name in ('workers', 'channels'))
    common.tell(f'load {PAIRS}, 4 workers beside channels of Rust, each with its start', workers, channels, 'ns a firing')


def main():
    program = common.program()
    with tempfile.TemporaryDirectory() as work:
        pool, go, rust, bare = same_pool(work), peer('Go', work), peer('Rust', work), peer('C', work)
        measured = {name: measure(name, program, pool, go) for name in WORKLOADS}
        if bare:
            measure_steps(bare, *measured['uncontended'])
        measure_sharing(program)
        if rust:
            measure_load(program, rust)


if __name__ == '__main__':
    main()
