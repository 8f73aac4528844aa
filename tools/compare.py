#!/usr/bin/env python3
"""Compares the reference with the Rust, and `calls` with the reference, on random pools and on the test files.

    compare.py sorts ORACLE CALLS [--seed SEED] [--pools COUNT]          sorts and free variables
    compare.py clauses ORACLE [CALLS] [--seed SEED] [--pools COUNT]      normal forms and clause lists
    compare.py steps ORACLE [CALLS] [--seed SEED] [--pools COUNT]        the check of steps
    compare.py tables CALLS [--seed SEED] [--pools COUNT]                every call under tables of sort rules

ORACLE and CALLS are as in comparisons/comparison.py; the other files of that folder say what is compared.
"""
import argparse

from comparisons import compare_clauses, compare_sorts, compare_steps, compare_tables

WHAT = {'sorts': compare_sorts.compare, 'clauses': compare_clauses.compare, 'steps': compare_steps.compare,
        'tables': compare_tables.compare}


def main():
    parser = argparse.ArgumentParser()
    parser.add_argument('what', choices=WHAT)
    parser.add_argument('programs', nargs='+')
    parser.add_argument('--seed', type=int, default=1)
    parser.add_argument('--pools', type=int, default=3000)
    options = parser.parse_args()
    programs = [None, *options.programs] if options.what == 'tables' else options.programs
    if len(programs) > 2:
        parser.error('too many programs')
    options.oracle, options.calls = (*programs, None)[:2]
    if options.what == 'sorts' and not options.calls:
        parser.error('sorts are asked of CALLS')
    WHAT[options.what](options)


if __name__ == '__main__':
    main()
