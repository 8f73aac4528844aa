#!/usr/bin/env python3
"""Checks the quantifier steps of an Alethe proof by the proved program `steps`.

    check_proof.py PROBLEM.smt2 PROOF.alethe --steps crates/steps/out/steps [--keep DIR] [--quiet] [--holes]

A line for each step of the rules, and totals (docs/PROOF_FILES.md). Exit: 0 all accepted, 1 something refused, 2 something not
checked or not written, 3 the input cannot be read.
"""
import argparse
import os
import pathlib
import sys
from collections import Counter

from alethe import proofs
from alethe.checking import ACCEPTED, HOLE, REFUSED, UNCHECKED, UNWRITTEN, ProgramError, answer, ask, pack, taken
from alethe.expressions import Unreadable, one_line
from alethe.shapes import INSTANCE, RULE
from alethe.terms import Terms
from texts.name_text import Table
from texts.term_text import Style

PROJECT = pathlib.Path(__file__).resolve().parents[1]
OFTEN = 500  # steps or files between two progress lines
HINT = 'cvc5 --proof-granularity=dsl-rewrite may write steps of the rules for them'


class BadInput(Exception):
    pass


def read_text(path):
    """Bytes that are no UTF-8 are not replaced: two names could become one."""
    try:
        return pathlib.Path(path).read_bytes().decode('utf-8-sig')
    except UnicodeDecodeError as error:
        line = error.object.count(b'\n', 0, error.start) + 1
        raise BadInput('%s:%d: UTF-8 text is expected, and a byte is none' % (path, line)) from None
    except (OSError, ValueError) as error:
        raise BadInput('%s: %s' % (path, getattr(error, 'strerror', None) or error)) from None


def located(path, read):
    try:
        return read()
    except Unreadable as error:
        raise BadInput('%s:%d: %s' % (path, *error.args)) from None


class Progress:
    """A line on a terminal, after many steps alone."""

    def __init__(self):
        self.shown, self.on = 0, sys.stderr.isatty()

    def tell(self, what, count):
        if self.on and count % OFTEN == 0 and count:
            self.shown = self.show('%s %d' % (what, count))

    def show(self, text):
        sys.stderr.write('\r%s\r' % text.ljust(self.shown))
        sys.stderr.flush()
        return len(text)

    def end(self):
        if self.shown:
            self.show('')


class Check:
    def __init__(self, options):
        self.options, self.terms, self.progress = options, Terms(), Progress()
        self.cases, self.count = [], Counter()

    def read(self):
        problem, proof = read_text(self.options.problem), read_text(self.options.proof)
        located(self.options.problem, lambda: proofs.problem(self.terms, problem))
        located(self.options.proof, lambda: self.read_steps(proof))

    def read_steps(self, proof):
        for number, step in enumerate(proofs.steps(self.terms, proof), 1):
            self.progress.tell('steps read:', number)
            case = taken(self.terms, step, self.options.holes)
            self.count.update(steps=1, holes=step.rule == HOLE)
            if case:
                self.cases.append(case)

    def check(self):
        files = pack(self.terms.pool, self.cases)
        if self.options.keep:
            self.keep(files)
        style = Style(Table(self.terms.names.table()), places=False)
        found = []
        for file in files:
            self.progress.tell('step files answered:', len(found))
            found.append(ask(self.options.steps, file))
        answer(self.terms.pool, self.cases, found, files, style)
        self.progress.end()

    def keep(self, files):
        folder = pathlib.Path(self.options.keep)
        rows = ['file\tnumber\tline\tstep\trule\tlink']
        for case in self.cases:
            for link, (spot, (rule, _)) in enumerate(zip(case.spots, case.chain), 1):
                if spot:
                    rows.append('%04d.steps\t%d\t%d\t%s\t%s\t%d of %d' % (
                        spot[0] + 1, spot[1], case.step.line, one_line(case.step.name), RULE[rule], link, len(case.chain)))
        try:
            folder.mkdir(parents=True, exist_ok=True)
            for number, file in enumerate(files, 1):
                (folder / ('%04d.steps' % number)).write_bytes(file.bytes())
            (folder / 'index.tsv').write_text('\n'.join(rows) + '\n', encoding='utf-8')
            (folder / 'names.tsv').write_text(self.terms.names.table(), encoding='utf-8')
        except OSError as error:
            raise BadInput('%s: %s' % (folder, error.strerror)) from None

    # ---- what is printed
    def lines(self):
        for case in self.cases:
            if case.verdict.kind != ACCEPTED or not self.options.quiet:
                yield '%s:%d: %s %s: %s' % (
                    self.options.proof, case.step.line, one_line(case.step.name), one_line(case.step.rule), case.text())
        yield self.totals()

    def totals(self):
        kinds = Counter(case.verdict.kind for case in self.cases)
        links = sum(case.verdict.kind == ACCEPTED and len(case.chain) > 1 for case in self.cases)
        text = '%s: %d steps, %d of the rules: %d accepted (%d by links), %d refused, %d not checked, %d not written; holes: %d' % (
            self.options.proof, self.count['steps'], len(self.cases), kinds[ACCEPTED], links, kinds[REFUSED], kinds[UNCHECKED],
            kinds[UNWRITTEN], self.count['holes'])
        found = any(case.step.rule != INSTANCE for case in self.cases)
        return text + ' (%s)' % HINT * (self.count['holes'] > 0 and not found)

    def exit_code(self):
        kinds = {case.verdict.kind for case in self.cases}
        return 1 if REFUSED in kinds else 2 if kinds - {ACCEPTED} else 0


class Parser(argparse.ArgumentParser):
    def error(self, message):
        """Not with argparse's 2, which has a meaning here."""
        self.exit(3, '%s%s\n' % (self.format_usage(), message))


def arguments():
    parser = Parser(description='Checks the quantifier steps of an Alethe proof.')
    parser.add_argument('problem', help='the SMT-LIB problem')
    parser.add_argument('proof', help='its Alethe proof')
    parser.add_argument('--steps', default=str(PROJECT / 'target' / 'bin' / 'steps'), help='the program `steps`')
    parser.add_argument('--keep', metavar='DIR', help='write the step files, their index and the table of names there')
    parser.add_argument('--quiet', action='store_true', help='no lines for accepted steps')
    parser.add_argument('--holes', action='store_true', help='take holes whose conclusions have the shape of a rule')
    return parser.parse_args()


def outcome(options):
    """The exit code, the lines for standard output and what to say of input that cannot be read."""
    check = Check(options)
    try:
        check.read()
        check.check()
    except (BadInput, ProgramError) as error:
        check.progress.end()
        return 3, [], str(error)
    return check.exit_code(), list(check.lines()), ''


def main():
    for stream in (sys.stdout, sys.stderr):
        stream.reconfigure(errors='backslashreplace')
    code, lines, trouble = outcome(arguments())
    if trouble:
        sys.stderr.write(trouble + '\n')
    for line in lines:
        print(line)
    sys.stdout.flush()
    return code


if __name__ == '__main__':
    try:
        code = main()
    except BrokenPipeError:  # the reader has left
        os.dup2(os.open(os.devnull, os.O_WRONLY), sys.stdout.fileno())
        code = 3
    except KeyboardInterrupt:
        code = 130
    sys.exit(code)
