#!/usr/bin/env python3
"""Tests of check_proof.py. `python3 tools/test_check_proof.py [--steps crates/steps/out/steps] [--oracle ORACLE] [TEST ..]`

Without --steps the reference answers; ORACLE as in comparisons/comparison.py. --expect writes data/real/expected.txt anew.
TEST is a module of proof_tests, such as proof_tests.error_tests, or a class or test in one.
"""
import argparse
import unittest

from proof_tests import inputs

MODULES = ['proof_tests.%s_tests' % name for name in ('corpus', 'round_trip', 'damage', 'scope', 'error', 'broken')]


def main():
    parser = argparse.ArgumentParser()
    parser.add_argument('--steps', default=inputs.REFERENCE)
    parser.add_argument('--oracle')
    parser.add_argument('--expect', action='store_true')
    parser.add_argument('tests', nargs='*', default=MODULES)
    options = parser.parse_args(namespace=inputs.PROGRAMS)
    if options.expect:
        (inputs.REAL / 'expected.txt').write_text('\n'.join(inputs.corpus_lines()) + '\n', encoding='utf-8')
    unittest.main(module=None, argv=['test_check_proof.py', *options.tests])


if __name__ == '__main__':
    main()
