#!/usr/bin/env python3
"""Measures the program `steps` against the Rust, by user time.

    bench.py STEPS (--oracle ORACLE | --oracle-sources FOLDER) [--seed SEED] [--least SECONDS]
    bench.py STEPS --hostile [--stack MEGABYTES] [--check]

STEPS reads a step file and prints its answers; ORACLE called with `steps` does the same by the Rust. FOLDER has a build.sh that
builds ORACLE into the folder that it is given. The files come from the seed (bench_files.py). Each program runs on a file until
its runs have at least so much user time together; what is given is the mean of a run. A table has for each file the ratio of the
two, how ours grows from the file before, of half the cells, the times, the runs, and how many answers are alike of those that
the Rust was asked for; after it come the ratios of the group, and of its rows with like answers. Before the tables stands what
`true` takes, a program that does nothing.

With --hostile only STEPS runs, on each of the hostile files once, under a stack limit; with --check its answers are held to the
reference.
"""
import argparse
import collections
import os
import pathlib
import random
import resource
import statistics
import subprocess
import sys
import tempfile
import threading

import bench_files
from references.reference_steps import run as reference_text

LONGEST = 600  # seconds that a run may take
FEWEST, MOST = 3, 300  # runs of a measurement

Run = collections.namedtuple('Run', 'seconds status text')
Measured = collections.namedtuple('Measured', 'seconds runs lines')


def run_once(command, path):
    """User time, exit status (negative for a signal) and output."""
    with open(path, 'rb') as given, tempfile.TemporaryFile() as printed:
        child = subprocess.Popen(command, stdin=given, stdout=printed, close_fds=False)
        timer = threading.Timer(LONGEST, child.kill)
        timer.start()
        _, status, used = os.wait4(child.pid, 0)
        timer.cancel()
        child.returncode = os.waitstatus_to_exitcode(status)
        printed.seek(0)
        return Run(used.ru_utime, child.returncode, printed.read().decode())


def measured(command, paths, least):
    """Mean user time over the files together, the number of runs that a fair time needs, and the lines printed."""
    times, lines = [], []
    while len(times) < MOST and (len(times) < FEWEST or sum(times) < least) and sum(times) < 10 * max(least, 0.1):
        runs = [run_once(command, path) for path in paths]
        if any(run.status for run in runs):
            raise SystemExit('%s ended with %s' % (command[0], [run.status for run in runs]))
        times.append(sum(run.seconds for run in runs))
        lines = [line for run in runs for line in run.text.splitlines()]
    return Measured(sum(times) / len(times), len(times), lines)


# ---- ours against the Rust
def ratio(ours, rust):
    """None where the Rust was not asked in some step."""
    asked = not any(line.endswith('big') for line in rust.lines)
    return ours.seconds / rust.seconds if asked and rust.seconds else None


def row(name, ours, rust, before):
    shown = ratio(ours, rust)
    asked = [(a, b) for a, b in zip(ours.lines, rust.lines) if not b.endswith('big')]
    return '%9s %8s %11.5f %11.5f %9s %14s  %s' % (
        '-' if shown is None else '%.2f' % shown, 'x%.2f' % (ours.seconds / before) if before else '', ours.seconds, rust.seconds,
        '%d, %d' % (ours.runs, rust.runs), '%d of %d' % (sum(a == b for a, b in asked), len(asked)), name)


HEAD = '%9s %8s %11s %11s %9s %14s  file' % ('ours/Rust', 'growth', 'ours, s', 'Rust, s', 'runs', 'alike')


def groups(rng):
    """Titles, files, and whether each file has twice the cells of the one before."""
    return (('Valid steps of all rules, %d files of 256 steps' % bench_files.POOLS, bench_files.valid_files(rng), True),
            ('Clause lists near the limits, 64 steps', bench_files.clause_files(rng), False),
            ('Outer lists of rule 5, 256 steps', bench_files.outer_files(), False),
            ('Hostile pools, 256 steps', bench_files.hostile_files(), False))


def tables(measured_groups, both, folder):
    """A table for each group; both(paths) measures ours and the Rust."""
    for title, files, doubles in measured_groups:
        print('%s\n%s' % (title, HEAD))
        before, pairs = None, []
        for paths, name in written(files, folder):
            ours, rust = both(paths)
            print(row(name, ours, rust, before), flush=True)
            before = ours.seconds if doubles else None
            pairs += [(ours, rust)] * (ratio(ours, rust) is not None)
        alike = [(ours, rust) for ours, rust in pairs if ours.lines == rust.lines]
        print(summed(pairs))
        print(summed(alike) + '; rows whose answers are all alike\n')


def compare(options, oracle, folder):
    empty = [('8 bytes', [bytes(8)])]
    (paths, _), = written(empty, folder)
    print('true, a program that does nothing: %.5f s\n' % measured(['true'], paths, options.least).seconds)
    start = ('The start of the programs, without a step', empty, False)
    tables((start, *groups(random.Random(options.seed))),
           lambda paths: [measured(command, paths, options.least) for command in ([options.steps], [oracle, 'steps'])], folder)


def summed(pairs):
    """The ratios of a group."""
    if not pairs:
        return '%9s' % '-'
    ours, rust = (sum(side.seconds for side in sides) for sides in zip(*pairs))
    return '%9.2f  by sums; median %.2f, least %.2f, most %.2f' % (
        ours / rust, statistics.median(ratio(*pair) for pair in pairs), min(ratio(*pair) for pair in pairs),
        max(ratio(*pair) for pair in pairs))


# ---- hostile files under a stack limit
def hostile(options, folder):
    bytes_ = options.stack << 20
    resource.setrlimit(resource.RLIMIT_STACK, (bytes_, resource.getrlimit(resource.RLIMIT_STACK)[1]))
    longest, bad = (0, ''), 0
    print('%11s  file, under a stack of %d MB' % ('ours, s', options.stack))
    for (path,), name in written(bench_files.hostile_files(), folder):
        run = run_once([options.steps], path)
        trouble = wrong(run, path, options.check)
        bad += trouble != ''
        longest = max(longest, (run.seconds, name))
        print('%11.5f  %s%s' % (run.seconds, name, trouble), flush=True)
    print('longest: %.5f s, %s; %d files with trouble' % (*longest, bad))
    return 1 if bad else 0


def wrong(run, path, check):
    if run.status:
        return ': ENDED WITH %d' % run.status
    if run.text.count('\n') != int.from_bytes(path.read_bytes()[4:8], 'little'):
        return ': WRONG NUMBER OF LINES'
    return ': OTHER ANSWERS' if check and run.text != reference_text(path.read_bytes()) else ''


# ---- files and programs
def written(groups, folder):
    """The paths of the files that are measured together, and their name."""
    for name, files in groups:
        paths = [pathlib.Path(folder) / ('%d.steps' % k) for k in range(len(files))]
        for path, file in zip(paths, files):
            path.write_bytes(file)
        yield paths, name


def built(sources, folder):
    script = pathlib.Path(sources) / 'build.sh'
    subprocess.run(['sh', str(script), folder], check=True, stdout=sys.stderr)
    return os.path.join(folder, 'oracle')


def main():
    parser = argparse.ArgumentParser()
    parser.add_argument('steps', type=os.path.abspath)
    parser.add_argument('--oracle', type=os.path.abspath)
    parser.add_argument('--oracle-sources')
    parser.add_argument('--seed', type=int, default=20261116)
    parser.add_argument('--least', type=float, default=0.5)
    parser.add_argument('--hostile', action='store_true')
    parser.add_argument('--stack', type=int, default=8)
    parser.add_argument('--check', action='store_true')
    options = parser.parse_args()
    with tempfile.TemporaryDirectory() as folder:
        if options.hostile:
            return hostile(options, folder)
        oracle = options.oracle or options.oracle_sources and built(options.oracle_sources, folder)
        if not oracle:
            parser.error('--oracle or --oracle-sources is wanted')
        compare(options, oracle, folder)
    return 0


if __name__ == '__main__':
    sys.exit(main())
