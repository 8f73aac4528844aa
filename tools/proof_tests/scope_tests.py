"""Random steps whose names mean several things: constants and bound variables of one name, lets and definitions over them.

Both sides of a step are made of one body, written in two ways. A let that is put around a body may change what it says; whatever is
accepted must be true of the text as it stands, by an evaluation that knows lets and definitions (readings.py).
"""
import random
import unittest
from collections import Counter

from alethe.checking import ACCEPTED, UNWRITTEN, answer, pack
from alethe.expressions import read
from proof_tests.inputs import answers, read_cases
from proof_tests.readings import false_reading
from texts.term_text import Style

STEPS = 2000
SEEDS = range(8)
NAMES = 'x', 'y', 'z'
PROBLEM = '''(declare-sort T 0) (declare-const x T) (declare-const y T) (declare-const c Bool) (declare-fun p (T) Bool)
(declare-fun r (T T) Bool) (define-fun f ((z T)) Bool (exists ((x T)) (r x z)))
(define-fun g ((x T) (z T)) Bool (and (p x) (r y z))) (define-const d Bool (p x))
(define-fun h ((y T)) Bool (let ((x y)) (g x y)))
'''
DEFINITIONS = {form[1]: ([pair[0] for pair in form[2]] if form[0] == 'define-fun' else [], form[-1])
               for form in read(PROBLEM) if form[0].startswith('define')}
SAME = '(p x)', 'd', 'n1'  # where x is the constant
NAMED = '(assume a (! (p x) :named n1))\n(assume b (! (forall ((y T)) (r x y)) :named n2))\n'
MEANINGS = {**DEFINITIONS, 'n1': ([], read('(p x)')[0]), 'n2': ([], read('(forall ((y T)) (r x y))')[0])}


class RandomSteps:
    """Bodies are trees: a str, or a list of a head and its parts."""

    def __init__(self, rng):
        self.rng = rng

    def pairs(self, least=1):
        return ['(%s T)' % self.rng.choice(NAMES) for _ in range(self.rng.randrange(least, 3))]

    def body(self, depth, scope):
        kind = self.rng.randrange(8 if depth else 4)
        if kind == 0:
            return self.rng.choice(['c', 'd', 'n1', 'n2'])
        if kind < 4:
            head, count = self.rng.choice([('p', 1), ('r', 2), ('f', 1), ('g', 2), ('h', 1)])
            return [head, *(self.rng.choice(scope) for _ in range(count))]
        if kind == 4:
            name = self.rng.choice(NAMES)
            return [self.rng.choice(['forall', 'exists']), '((%s T))' % name, self.body(depth - 1, scope + [name])]
        return [self.rng.choice(['and', 'or', '=>']), self.body(depth - 1, scope), self.body(depth - 1, scope)]

    def text(self, body):
        return body if isinstance(body, str) else '(%s)' % ' '.join(map(self.text, body))

    def again(self, body):
        """The body as text, some part of it by a let around it or around a part, or by what is the same elsewhere."""
        if self.text(body) in SAME and self.rng.random() < 0.6:
            return self.rng.choice(SAME)
        if isinstance(body, str) or self.rng.random() < 0.3:
            return self.text(body)
        if self.rng.random() < 0.5:
            return '(%s)' % ' '.join([*body[:1], *(part if isinstance(part, str) else self.again(part) for part in body[1:])])
        name, value = self.rng.choice(NAMES + ('w',)), self.rng.choice(['x', 'y', self.text(body)])
        inner = self.text(body).replace(' %s)' % value, ' %s)' % name) if value in NAMES else name
        return '(let ((%s %s)) %s)' % (name, value, inner)

    def step(self, number):
        outer, inner = self.pairs(), self.pairs()
        scope = ['x', 'y', *(pair[1] for pair in outer)]
        body, other = self.body(2, scope), self.body(2, scope)
        rule, left, right = self.rng.choice([
            ('qnt_rm_unused', '(forall ({o}) {b})', '{B}'), ('qnt_rm_unused', '(exists ({o}) {b})', '(exists ({s}) {B})'),
            ('qnt_join', '(forall ({o}) (forall ({i}) {b}))', '(forall ({o} {i}) {B})'),
            ('miniscope_distribute', '(exists ({o}) (or {b} {a}))', '(or (exists ({o}) {B}) (exists ({o}) {A}))'),
            ('miniscope_split', '(forall ({o}) (or {b} {a}))', '(or (forall ({s}) {B}) {A})'),
            ('miniscope_ite', '(forall ({o}) (ite {a} {b} c))', '(ite {A} (forall ({o}) {B}) (forall ({o}) c))')])
        parts = {'o': ' '.join(outer), 'i': ' '.join(inner), 's': ' '.join(outer[:self.rng.randrange(1, 3)]),
                 'b': self.again(body), 'a': self.again(other), 'B': self.again(body), 'A': self.again(other)}
        return '(step s%d (cl (= %s %s)) :rule %s)' % (number, left.format(**parts), right.format(**parts), rule)


class Scopes(unittest.TestCase):
    def test_accepted_steps_are_true(self):
        steps = RandomSteps(random.Random(20261118))
        proof = NAMED + '\n'.join('(anchor :step e%d :args ((z T)))\n%s\n(step e%d (cl) :rule bind)' % (
            k, steps.step(k), k) for k in range(STEPS))
        terms, cases = read_cases(PROBLEM, proof)
        files = pack(terms.pool, cases)
        answer(terms.pool, cases, [answers(file) for file in files], files, Style())
        count = Counter(case.verdict.kind for case in cases)
        for case in cases:
            if case.verdict.kind == ACCEPTED:
                self.assertIsNone(false_reading(case.step.clause[1], SEEDS, MEANINGS), case.step)
        unwritten = [case.step.clause[1] for case in cases if case.verdict.kind == UNWRITTEN]
        false = sum(false_reading(formula, SEEDS, MEANINGS) is not None for formula in unwritten)
        self.assertGreater(min(count[ACCEPTED], count[UNWRITTEN], false), 40)
