#!/usr/bin/env python3
"""Writes the step files of the program `steps`: crates/steps/data/*.steps, stdin, args, and stdout, what it must print.

    make_steps.py ORACLE [--seed SEED]

ORACLE is the Rust behind a loader of packed pools (comparisons/comparison.py). Only the making needs it. Files with answers
written by hand come first (cases_steps.py), then random ones from the seed. The answer to a random step is the Rust's, which the
reference must give too; where the two part in a way that is written up it is the reference's, and data/DIFFERENCES.txt names the
step with both answers. On files with a let the Rust is not asked: the answers are the reference's. data/COUNTS.txt says how many
steps end at each check of the rules (sites.py). Made again from the same seed, the files are the same byte for byte.
"""
import argparse
import collections
import itertools
import os
import pathlib
import random
import subprocess

from cases import cases_steps
from comparisons.compare_steps import LARGEST, NO_RULES, features, is_written
from comparisons.comparison import has_let, loader_stops
from comparisons.sites import SITES, site
from pools.packed_pool import step_file
from random_inputs.balanced_steps import BalancedSteps
from random_inputs.limit_steps import LimitSteps, RoomSteps, nearly_full
from random_inputs.random_pools import damaged
from random_inputs.random_steps import RandomSteps
from references import reference
from references.reference_rules import Checked
from references.reference_steps import BadFile, answers, read, run

CRATE = pathlib.Path(__file__).resolve().parent.parent / 'crates' / 'steps'
ON_STDIN = 'whole-case.steps'  # the file that `-` names
BIG = 1 << 20  # literals or terms that the Rust is not asked to make
ACCEPTED, REFUSED = 60, 30  # steps of the mixed files that are kept for each check, by what it ends in
LEAST = 20  # of each check, whatever the number of files
ELSEWHERE = ('rule 3: 31', 'rule 3: 32', 'any rule: 17', 'any rule: 18')  # not asked of the mixed files
MIXED, LIMITS, DAMAGED = 100, 24, 16  # files, of the first at least so many
LETS, OF_A_SITE = 24, 12  # files with lets, at most, and steps of them that are kept for each check
ROOM = (-1, 0, 1, 1, 2, 9)  # cells past 8,192
NEARLY_FULL = (0, 5, 12)  # cells left
JOIN = 'a pair repeats at a distance in the joined list'
LIMIT = {13: 'the Rust stops at an empty `or`', 31: 'the Rust has no limit on new terms',
         32: 'the Rust has no limit on clauses and literals'}
MANY = 'the Rust would have to make over 2^20 literals or terms'


class Files:
    """The files so far, with what is counted over them."""

    def __init__(self, oracle):
        self.oracle = os.path.abspath(oracle)
        self.files, self.texts = {}, {}
        self.by_hand, self.random, self.features = (collections.Counter() for _ in range(3))
        self.apart, self.unasked, self.with_let = [], 0, 0  # rows of DIFFERENCES.txt; steps of rule 7, and in files with a let

    def add(self, name, file, text):
        assert name + '.steps' not in self.files, name
        self.files[name + '.steps'], self.texts[name + '.steps'] = file, text

    def rust(self, file):
        done = subprocess.run([self.oracle, 'steps'], input=file, capture_output=True, check=True,
                              env={**os.environ, 'ORACLE_BIG': str(BIG)})
        return done.stdout.decode().splitlines()

    def add_pool(self, name, tags, values, steps, count):
        """A pool that passes its checks, with its steps. The Rust program has a rule 7, so that it is not asked for 18 there."""
        file = step_file(tags, values, steps)
        pool, lines = Checked(tags, values, len(tags)), []
        rust = [None] * len(steps) if has_let(tags) else self.rust(file)
        for k, (step, answer, line) in enumerate(zip(steps, answers(tags, values, steps), rust, strict=True), 1):
            lines.append('%d %d %d %d' % (k, *answer))
            if line is None:
                self.with_let += 1
            elif step[0] == 7:
                self.unasked += 1
            elif line != lines[-1]:
                self.part(name, k, pool, step, answer, line.split()[1:])
            count[site(pool, *step, answer)] += 1
            if answer[0] not in (17, 18):
                self.features.update(set(features(pool, step[1])))
        self.add(name, file, ''.join(line + '\n' for line in lines))

    def part(self, name, k, pool, step, answer, rust):
        if not is_written(pool, *step, answer, rust):
            raise SystemExit('DIFFERENCE in %s, step %d: %r, the Rust %r' % (name, k, answer, rust))
        words = {'stop': 'stops', 'big': 'not asked'}.get(rust[0], ' '.join(rust))
        why = JOIN if step[0] == 1 else MANY if rust[0] == 'big' else LIMIT[answer[0]]
        self.apart.append((name + '.steps', k, step[0], ' '.join(map(str, answer)), words, why))

    def add_case(self, name, file, text):
        """A file with its output written by hand. Where it has a pool that passes and no let, the Rust is asked too."""
        assert run(file) == text, name
        try:
            tags, values, steps = read(file)
        except BadFile:
            steps = []
        if steps and reference.check(tags, values, len(tags))[0] == 0:
            self.add_pool(name, tags, values, steps, self.by_hand)
        else:
            self.add(name, file, text)

    def add_damaged(self, name, tags, values, steps):
        """A pool that may be refused: then the Rust's loader must stop, at the first header with any trouble."""
        trouble = reference.first_trouble(tags, values, len(tags))
        if trouble is None:
            return self.add_pool(name, tags, values, steps, self.random)
        file = step_file(tags, values, steps)
        assert has_let(tags) or loader_stops(self.rust(file)) == trouble, (name, trouble)
        self.add(name, file, run(file))
        self.features['an ill-formed pool, answer %s' % self.texts[name + '.steps'].split()[1]] += len(steps)

    # ---- what is written
    def write(self):
        data = CRATE / 'data'
        data.mkdir(parents=True, exist_ok=True)
        for old in data.glob('*.steps'):
            old.unlink()
        for name, file in self.files.items():
            (data / name).write_bytes(file)
        (CRATE / 'stdin').write_bytes(self.files[ON_STDIN])
        (CRATE / 'args').write_text(''.join(name + '\n' for name in ('-', *self.files)))
        texts = {'-': self.texts[ON_STDIN], **self.texts}
        (CRATE / 'stdout').write_text(''.join(name + ':\n' + text for name, text in texts.items()))
        (data / 'DIFFERENCES.txt').write_text('\n'.join(self.differences()) + '\n')
        (data / 'COUNTS.txt').write_text('\n'.join(self.counts()) + '\n')

    def differences(self):
        yield 'Steps of these files on which the Rust and document 01 part. ../stdout has document 01\'s answer. Headers with'
        yield 'trouble are the loader\'s in the Rust: files on pools that are refused with 14, 15 or 16 are not listed. Nor are files'
        yield 'whose pool holds a let (tag 27), of which the Rust is not asked: document 02 (S-3) has a let\'s values count, the Rust has not.'
        yield ''
        for row in (('file', 'step', 'rule', 'document 01', 'the Rust', 'why'), *self.apart):
            yield '%-28s %5s %5s  %-12s %-18s %s' % row

    def counts(self):
        total = sum((self.by_hand + self.random).values())
        yield '%d steps on pools that pass their checks: %d have the Rust\'s answer, %d are in DIFFERENCES.txt, %d have rule code 7, %d stand in files with a let.' \
            % (total, total - len(self.apart) - self.unasked - self.with_let, len(self.apart), self.unasked, self.with_let)
        yield 'By the check of the rule at which they end, the code first; with answers written by hand, and random:'
        yield from ('%6d %6d  %s' % (self.by_hand[label], self.random[label], label) for label in SITES)
        yield 'With:'
        yield from ('%13d  %s' % (count, feature) for feature, count in sorted(self.features.items()))


def with_bad_ones(rng, pool):
    """The steps of a pool in any order, at times with one whose rule or place is none."""
    n = len(pool.tags)
    bad = [(rng.choice(NO_RULES), rng.choice(pool.terms)), (rng.randint(1, 6), rng.choice((0, n - 1, n, n + 3, LARGEST)))]
    steps = pool.steps + rng.sample(bad, rng.randint(0, 2))
    return rng.sample(steps, len(steps))


def mixed(rng):
    """Files until every check has its steps."""
    count, k = collections.Counter(), 0

    def wanted(label):
        fits = count[label] < (ACCEPTED if ': 0' in label else REFUSED)
        count[label] += fits
        return fits

    while k < MIXED or any(count[label] < LEAST for label in SITES if label not in ELSEWHERE):
        pool = BalancedSteps(rng, rng.choice((2, 4, 6, 10)), rng.choice((60, 240, 480, 600, 600, 600)), wanted)
        if pool.steps:
            k += 1
            yield 'mixed-%03d' % k, pool.tags, pool.values, with_bad_ones(rng, pool)


def with_lets(rng):
    """Files each of which has a let in its pool."""
    count, k = collections.Counter(), 0

    def wanted(label):
        count[label] += 1
        return count[label] <= OF_A_SITE

    for _ in range(LETS):
        pool = BalancedSteps(rng, rng.choice((4, 6, 10)), rng.choice((240, 480)), wanted, lets=True)
        if pool.steps and has_let(pool.tags):
            k += 1
            yield 'lets-%02d' % k, pool.tags, pool.values, with_bad_ones(rng, pool)


def limits(rng):
    for k in range(1, LIMITS + 1):
        pool = LimitSteps(rng, rng.randint(4, 9))
        yield 'limits-%02d' % k, pool.tags, pool.values, pool.steps
    for k, past in enumerate(ROOM, 1):
        pool = RoomSteps(rng, past)
        yield 'room-%d' % k, pool.tags, pool.values, pool.steps
    for k, room in enumerate(NEARLY_FULL, 1):
        yield 'nearly-full-%d' % k, *nearly_full(rng, room)


def main():
    parser = argparse.ArgumentParser()
    parser.add_argument('oracle')
    parser.add_argument('--seed', type=int, default=20261116)
    options = parser.parse_args()
    rng, files = random.Random(options.seed), Files(options.oracle)
    for case in cases_steps.cases():
        files.add_case(*case)
    for pool in itertools.chain(limits(rng), mixed(rng), with_lets(rng)):
        files.add_pool(*pool, files.random)
    for k in range(1, DAMAGED + 1):
        pool = RandomSteps(rng, rng.choice((3, 6, 10)), 6)
        files.add_damaged('damaged-%02d' % k, *damaged(rng, pool), with_bad_ones(rng, pool))
    files.write()
    print('%d files, %d bytes; %d lines to print' % (
        len(files.files), sum(map(len, files.files.values())), sum(text.count('\n') for text in files.texts.values())))
    print(next(files.counts()))


if __name__ == '__main__':
    main()
