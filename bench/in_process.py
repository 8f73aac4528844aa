#!/usr/bin/env python3
"""Measures the library's answers to step files against the Rust's, both in one process, by CPU time.

    in_process.py --archive LIBWELDRIKA.A --oracle-sources FOLDER [--seed SEED] [--least SECONDS]

LIBWELDRIKA.A is what `rt lib` in crates/weldrika writes. FOLDER has a build.sh that lays out and builds the Rust in the folder that it is given:
src/main.rs and src/driver.rs with the others, and deps/ with the libraries that they use. Both files get a few lines appended, which let
another crate call the functions that answer a step file (in_process/*_tail.rs); their own text is not changed. in_process/measure.rs links
the two and measures. The files, their groups and the tables are those of bench.py.
"""
import argparse
import pathlib
import random
import subprocess
import sys
import tempfile

import bench

HERE = pathlib.Path(__file__).resolve().parent / 'in_process'


def rustc(*arguments):
    subprocess.run(['rustc', '-O', *map(str, arguments)], check=True, stdout=sys.stderr)


def oracle_library(sources, folder):
    """The Rust as a library, compiled as build.sh compiles its program."""
    bench.built(sources, str(folder))
    for source, tail in (('driver.rs', 'driver_tail.rs'), ('main.rs', 'root_tail.rs')):
        with open(folder / 'src' / source, 'a') as file:
            file.write((HERE / tail).read_text())
    used = [['--extern', '%s=%s' % (path.stem.removeprefix('lib'), path)] for path in sorted((folder / 'deps').iterdir())]
    library = folder / 'liboracle.rlib'
    rustc('--edition', '2024', '-C', 'overflow-checks=on', '--crate-type', 'rlib', '--crate-name', 'oracle', '-o', library,
          '-L', folder / 'deps', *sum(used, []), folder / 'src' / 'main.rs')
    return library


def measuring_program(archive, sources, folder):
    library = oracle_library(sources, folder)
    program = folder / 'measure'
    rustc('--edition', '2021', '-o', program, '--extern', 'oracle=%s' % library, '-L', 'dependency=%s' % (folder / 'deps'),
          '-L', 'native=%s' % archive.resolve().parent, HERE / 'measure.rs')
    return program


def answered(program, paths):
    """Ours and the Rust's on these files."""
    program.stdin.write('\t'.join(map(str, paths)) + '\n')
    program.stdin.flush()
    numbers = program.stdout.readline().split()
    if not numbers:
        raise SystemExit('measure ended with %d' % program.wait())
    sides = [(float(numbers[i]), int(numbers[i + 1]), int(numbers[i + 2])) for i in (0, 3)]
    return [bench.Measured(seconds, runs, [program.stdout.readline().rstrip('\n') for _ in range(count)])
            for seconds, runs, count in sides]


def main():
    parser = argparse.ArgumentParser()
    parser.add_argument('--archive', type=pathlib.Path, required=True)
    parser.add_argument('--oracle-sources', required=True)
    parser.add_argument('--seed', type=int, default=20261116)
    parser.add_argument('--least', type=float, default=0.5)
    options = parser.parse_args()
    if options.archive.name != 'libweldrika.a' or not options.archive.is_file():
        parser.error('--archive: a file libweldrika.a is wanted')
    with tempfile.TemporaryDirectory() as folder:
        program = measuring_program(options.archive, options.oracle_sources, pathlib.Path(folder))
        with subprocess.Popen([program, str(options.least)], stdin=subprocess.PIPE, stdout=subprocess.PIPE, text=True) as running:
            bench.tables(bench.groups(random.Random(options.seed)), lambda paths: answered(running, paths), folder)
    return 0


if __name__ == '__main__':
    sys.exit(main())
