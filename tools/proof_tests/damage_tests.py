"""Damaged copies of the steps of data/real: variables renamed, operands dropped, lists reordered.

The answer of `steps` must be that of the Rust, or of the reference where there is no oracle. What is accepted must be true in small
readings of its text, links included.
"""
import random
import subprocess
import unittest
from collections import Counter

from alethe.checking import ACCEPTED, REFUSED, answer, pack, taken
from alethe.expressions import Form, read, whole
from alethe.shapes import RULE, quantifier, sides
from alethe.step_files import packed
from proof_tests.inputs import PROGRAMS, answers, corpus, read_cases, text_of
from proof_tests.readings import false_reading, parts
from proof_tests.round_trip_tests import texts_of
from references.reference_rules import without_adjacent
from references.reference_steps import answers as reference_answers
from texts.term_text import Style

COPIES = 12  # of a step
SEEDS = range(12)
CONNECTIVES = {'and', 'or', 'ite', '=', '=>'}


def replaced(term, old, new):
    """A copy in which one part, by identity, is another."""
    return new if term is old else copy_of(replaced(part, old, new) for part in term) if isinstance(term, Form) else term


def copy_of(parts_of_form):
    return Form(parts_of_form)


def renamed(term, old, new):
    return new if term == old else copy_of(renamed(part, old, new) for part in term) if isinstance(term, Form) else term


def damaged(term):
    """Every copy with one damage."""
    for part in parts(term):
        if not isinstance(part, Form) or not part or not isinstance(part[0], str):
            continue
        if part[0] in ('forall', 'exists'):
            for name, _ in part[1]:
                yield replaced(term, part, renamed(part, name, name + "_"))
            for pairs in (part[1][::-1], part[1][1:], part[1] + part[1][:1]):
                yield replaced(term, part, copy_of([part[0], copy_of(pairs), part[2]]))
            yield replaced(term, part, copy_of([{'forall': 'exists', 'exists': 'forall'}[part[0]], *part[1:]]))
        elif part[0] in CONNECTIVES:
            for k in range(1, len(part)):
                yield replaced(term, part, copy_of(part[:k] + part[k + 1:]))
            yield replaced(term, part, copy_of([part[0], *part[:0:-1]]))


def copies(problem, proof):
    """The terms of a proof, and cases of damaged steps; rules that were found by shape are named."""
    terms, cases = read_cases(text_of(problem), text_of(proof))
    found = []
    for case, text in list(texts_of(terms, cases)):
        all_copies = list(damaged(read(text)[0]))
        random.Random(text).shuffle(all_copies)
        for copy in all_copies[:COPIES]:
            step = case.step._replace(rule=RULE[case.chain[0][0]], clause=Form(['cl', copy]))
            found.append(taken(terms, step))
    return terms, found


def repeats_at_a_distance(pool, rule, place):
    """Where document 01 and the Rust part (docs/DIFFERENCES.md)."""
    left, _ = sides(pool, place)
    inner = quantifier(pool, left.body) if left and rule == 1 else None
    joined = without_adjacent(left.pairs + inner.pairs) if inner else []
    return len(set(joined)) < len(joined)


def judged(file):
    if not PROGRAMS.oracle:
        return reference_answers(file.tags, file.values, file.steps)
    done = subprocess.run([PROGRAMS.oracle, 'steps'], input=file.bytes(), capture_output=True, check=True)
    return [tuple(map(int, line.split()[1:])) for line in done.stdout.decode().splitlines()]


class Damage(unittest.TestCase):
    def test_copies(self):
        count = Counter()
        for problem, proof in corpus():
            terms, cases = copies(problem, proof)
            self.check_alone(terms, [case for case in cases if case.chain], count)
            files = pack(terms.pool, cases)
            answer(terms.pool, cases, [answers(file) for file in files], files, Style())
            for case in cases:
                count[case.verdict.kind] += 1
                if case.verdict.kind == ACCEPTED:
                    self.assertIsNone(false_reading(case.step.clause[1], SEEDS), whole(case.step.clause))
        self.assertGreater(count[REFUSED], 500)
        self.assertGreater(count[ACCEPTED], 50)
        self.assertGreater(count['alike'], 800)

    def check_alone(self, terms, cases, count):
        """Without links."""
        steps = [case.chain[0] for case in cases]
        files, spots = packed(terms.pool, steps)
        found, wanted = [answers(file) for file in files], [judged(file) for file in files]
        for step, (index, number) in zip(steps, spots):
            if found[index][number - 1] == wanted[index][number - 1]:
                count['alike'] += 1
            else:
                self.assertTrue(repeats_at_a_distance(terms.pool, *step), step)

    def test_steps_of_the_corpus_are_true(self):
        """And the readings can tell: of the refused steps some are false."""
        false = 0
        for problem, proof in corpus():
            terms, cases = read_cases(text_of(problem), text_of(proof))
            texts = {case.step.name: read(text)[0] for case, text in texts_of(terms, cases)}
            files = pack(terms.pool, cases)
            answer(terms.pool, cases, [answers(file) for file in files], files, Style())
            for case in cases:
                if case.chain and case.verdict.kind == ACCEPTED:
                    self.assertIsNone(false_reading(texts[case.step.name], SEEDS), case.step.name)
                elif case.chain:
                    false += false_reading(texts[case.step.name], SEEDS) is not None
        self.assertGreater(false, 3)
