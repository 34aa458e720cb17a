#!/usr/bin/env python3
"""Plays bench/workloads by several programs in turns, as an edit wants it before it is proved: nanoseconds a firing, medians and least runs.

    bench/builds.py RUNS WAYS PROGRAM ..        WAYS are numbers of workers, and `one` for one thread, as in one,1,4

The programs come from `tools/unproved-build.py` as a rule, one before the edit and one with it. They differ by more than the edit: where the machine's
loop lies in the program moved a body that only computes by a third at the same count of instructions."""

import os
import statistics
import sys

import common
import pool


def way(program, name):
    """The command that plays a source in this way."""
    return [program, 'run', '--one'] if name == 'one' else [program, 'run', '--workers', name]


def times_in_turns(programs, ways, runs, sources):
    """The seconds of each program, by its place among them, in each way over these sources, each with what it writes, played in turns."""
    times = {}
    for _ in range(runs):
        for name in ways:
            for place, program in enumerate(programs):
                for source, wanted in sources:
                    took = pool.seconds(way(program, name), source, wanted)[0]
                    times.setdefault((name, place, source), []).append(took)
    return times


def measure(workload, programs, ways, runs):
    """One workload by all programs: a line for each way."""
    wanted, rounds = (b'done\n', [pool.TURNS]) if workload == 'compute' else pool.WORKLOADS[workload]
    with open(f'{common.TOP}/bench/workloads/{workload}.cs', 'rb') as file:
        source = file.read()
    none = pool.without_rounds(source, rounds)
    journal = pool.seconds([*way(programs[0], 'one'), '--journal'], source, None)[1]
    firings = journal.removeprefix(wanted).count(b' fired ')
    times = times_in_turns(programs, ways, runs, [(source, wanted), (none, None)])
    for name in ways:
        told = []
        for place, program in enumerate(programs):
            median, least = ((of(times[name, place, source]) - of(times[name, place, none])) / firings * 1e9 for of in (statistics.median, min))
            told.append(f'{os.path.basename(program)} {median:.0f} (least {least:.0f})')
        print(f'{workload}, {name}: {", ".join(told)} ns a firing', flush=True)


def main():
    if len(sys.argv) < 4:
        sys.exit(__doc__)
    runs, ways, programs = int(sys.argv[1]), sys.argv[2].split(','), sys.argv[3:]
    for workload in [*pool.WORKLOADS, 'compute']:
        measure(workload, programs, ways, runs)


if __name__ == '__main__':
    main()
