#!/usr/bin/env python3
"""Tests of read_steps.py: every code in words, and texts that stay short. `python3 tools/test_read_steps.py`"""
import unittest

from cases.cases_clauses import Parts
from cases.cases_clausification import clausification
from cases.cases_rules import join
from cases.cases_steps import WHOLE_CASE
from pools.formulas import Formulas
from pools.packed_pool import packed, step_file, words
from read_steps import answers_of, place_lines, report
from references.reference_steps import run
from texts.answer_text import MEANING

# a step of which only the last line of its text is held: rule, conclusion, that line
STEPS = [
    (1, join('x', 'y', 'x y'), '0 accepted'),
    (3, 'p', '2 wrong form: the conclusion is not of the form (or (not (forall L phi)) (forall M clause))'),
    (4, '(= (forall (x) (and x p)) (and (forall (x) x) p))', '2 wrong form: the operand @{p} v112 is no forall'),
    (2, '(= (choice (x) x) p)',
     '3 no quantifier: forall or exists is wanted, and there is @{(choice (x) x)} (choice ((v120 Bool)) v120)'),
    (1, '(= (forall (x) (exists (y) p)) (forall (x y) p))', '4 other quantifier: forall against exists'),
    (3, '(or (not (exists (x) p)) (forall (x) p))', '4 other quantifier: forall is wanted, and there is exists'),
    (2, '(= (forall (x) p) (forall () (not p)))', '5 terms differ: @{p} v112 and @{(not p)} (not v112)'),
    (6, '(= (forall (x) (ite p x q)) (ite p (forall (x) x) (forall (x x) q)))',
     '6 binding lists differ: @{(forall (x) (ite p x q))} has ((v120 Bool)), '
     'and @{(forall (x x) q)} has ((v120 Bool) (v120 Bool)); they part at pair 2'),
    (1, join('x', 'y x', 'x y'), '7 join: the lists of @{(forall (x) (forall (y x) (or x y)))} join to ((v120 Bool) (v121 Bool) '
     '(v120 Bool)), and @{(forall (x y) (or x y))} has ((v120 Bool) (v121 Bool)); they part at pair 3'),
    (3, clausification('x', 'x', 'x z', 'x'), '8 new variable: v122 is bound on the right but neither on the left nor taken out'),
    (2, "(= (forall (x) x) (forall (x x') x))",
     '8 new variable: v120 (under the sorts Bool and Int) is bound on the right but not on the left'),
    (5, '(= (forall (x) (or x p)) (or (forall (x z) x) p))',
     '8 new variable: v122 is bound by an operand but not by the outer quantifier, or an operand before has used it up'),
    (2, '(= (forall (x y) x) (forall (y) x))',
     '9 missing variable: v120 is of the left list, and free in the body, but not bound on the right'),
    (3, clausification('', '(forall (y) y)', '', 'y'),
     '9 missing variable: v121 is of the left list or taken out, and free in the clause, but not bound on the right'),
    (4, '(= (forall (x) (and x p)) (and))', '11 operand counts differ: 2 wanted, 0 found'),
    (5, '(= (forall (x) (or x p)) (or x p))', '12 variable still free: v120 in @{(or x p)} (or v120 v112)'),
    (3, clausification('', '(and (or))', '', 'p'),
     '13 an empty or is reached: in the normal form of the left body @{(and (or))}, so that a clause would be empty'),
]
POOLS = [
    ([[1], [36, 0, 4]], '14 pool ill-formed: the header @1, tag 36 with 2 cells: cell 2 holds 4, not the place of an earlier term'),
    ([[1], [28]], '14 pool ill-formed: the header @1, tag 28 with 0 cells, has a tag of no sort or term'),
    ([[2]], '14 pool ill-formed: the header @0, tag 2 with 0 cells, is not Bool'),
    ([[1], [34]], '14 pool ill-formed: the header @1, tag 34 with 0 cells, cannot have so many'),
    ([], '14 pool ill-formed: there are no cells'),
    ([[1], [21, 0, 1], [21, 0, 1]], '15 repeated description: @4 describes what @1 does: v1'),
    ([[1], [2], [36, 1]], '16 wrong sort: @2 (and) states the sort Int, and its parts give Bool'),
    ([[1], [25, 0, 1]], '14 pool ill-formed: the header @1, tag 25 with 2 cells: cell 2 holds 1, not the place of an earlier term'),
    ([[1], [21, 0, 1], [25, 0, 1]], '16 wrong sort: @4 (choice () v1) states the sort Bool, and its parts give no sort'),
]
FILES = [
    (b'', '0 14 wrong length: the file has 0 bytes, and a head alone has 8'),
    (WHOLE_CASE[:-1], '0 14 wrong length: the file has 175 bytes, and N 18 and R 3 want 176'),
    (words(8193, 0), '0 30 too large: N is 8193 and R is 0, over 8,192 cells or 256 steps'),
]


def told(file, only=None):
    """The lines of a file with the reference's answers."""
    return report(file, run(file).splitlines(), only)


def of_pool(pool, *steps):
    return step_file(pool.tags, pool.values, steps)


class ReadSteps(unittest.TestCase):
    def test_steps(self):
        for rule, text, expected in STEPS:
            pool = Formulas(text)
            last = told(of_pool(pool, (rule, pool.root)))[-1].strip()
            parts = expected.split('@{')
            for part in parts[1:]:
                term, rest = part.split('}', 1)
                parts[0] += '@%d' % pool.there(term) + rest
            self.assertEqual(last, parts[0])

    def test_pools(self):
        for headers, expected in POOLS:
            self.assertEqual(told(step_file(*packed(*headers), [(1, 1)]))[-1].strip(), expected)

    def test_files(self):
        for file, expected in FILES:
            self.assertEqual(told(file), [expected])

    def test_rules_and_places(self):
        tags, values = packed([1], [21, 0, 1])
        lines = told(step_file(tags, values, [(7, 1), (1, 0), (1, 2), (1, 4)]))
        self.assertEqual([line.strip().split(';')[0] for line in lines if line[2] in '01'], [
            '18 unknown rule: 7', "17 not a term's place: 0 is a sort", "17 not a term's place: 2 is a cell of a header before it",
            "17 not a term's place: 4 is past the 4 cells"])
        self.assertIn('step 1: rule 7 unknown, conclusion @1', lines)

    def test_clauses(self):
        pool = Formulas(clausification('', '(and (=> p q) p)', '', 'q'))
        self.assertEqual([line.strip() for line in told(of_pool(pool, (3, pool.root)))[-4:]], [
            '10 clause absent: @%d v113 is none of the clauses of the left body @%d' % (
                pool.there('q'), pool.there('(and (=> p q) p)')),
            'it has 2 clauses', 'a clause: (or (not v112) v113)', 'a clause: v112'])

    def test_limits(self):
        pool = Parts()
        bodies = [pool.doubled('And', 12, pool.p), pool.doubled('Equals', 500, pool.p), pool.doubled('Or', 60, pool.conjuncts(2))]
        steps = [(3, pool.op('Or', pool.op('Not', pool.binder('forall', body, [])), pool.binder('forall', pool.p, [])))
                 for body in bodies]
        last = [told(of_pool(pool, step))[-1].strip() for step in steps]
        self.assertEqual(last[0], '32 too many clauses or literals: the left body @%d has 4096 clauses and 4096 literals' % bodies[0])
        self.assertRegex(last[1], '^31 no room for the new terms: [0-9]+ cells are new, and %d of 8192 are left$' % (
            8192 - len(pool.tags)))
        self.assertRegex(last[2], '^32 .* has over 2.40 clauses and over 2.40 literals$')

    def test_every_code_is_told(self):
        seen = [line.split()[0] for _, _, line in STEPS] + [line.split()[0] for _, line in POOLS]
        seen += ['1', '10', '17', '18', '30', '31', '32']  # in the other tests
        self.assertEqual({int(code) for code in seen if code.isdigit()}, set(MEANING))

    def test_answers_that_are_given(self):
        text = 'other.steps:\n1 0 0 0\nwhole.steps:\n1 5 1 4\n2 stop\n3 1 2 0\nlast.steps:\n'
        lines = report(WHOLE_CASE, answers_of(text, 'whole.steps'))
        self.assertEqual([line.strip() for line in lines if line[:3] != '   ' and line[0] == ' '], [
            '5 terms differ: @1 v1 and @4 (forall ((v1 Bool)) v1)', '2 stop', '1 conclusion not one term: it has 2'])
        self.assertIn('there are 1 answers', report(WHOLE_CASE, answers_of(text, 'other.steps')[:1]))

    def test_answers_that_do_not_fit(self):
        for code in MEANING:
            for numbers in ((99, 99), (0, 0), (2, 14)):
                lines = report(WHOLE_CASE, ['1 %d %d %d' % (code, *numbers)] * 3)
                self.assertTrue(all(lines))

    def test_whole_case(self):
        self.assertEqual(told(WHOLE_CASE, only=1), [
            '18 cells, 3 steps', 'step 1: rule 1 qnt_join, conclusion @14',
            '    (= (forall ((v1 Bool)) (forall ((v1 Bool)) v1)) (forall ((v1 Bool)) v1))', '  0 accepted'])

    def test_shared_terms_are_cut(self):
        body = "(or x (= x' 1) (P i) (let ((y q)) y) (true))"
        pool = Formulas(join('x', 'y', 'x y', body=body))
        lines = told(of_pool(pool, (1, pool.root)))
        at = pool.there(body)
        self.assertEqual(lines[2:4], [
            '    (= (forall ((v120 Bool)) (forall ((v121 Bool)) @%d)) (forall ((v120 Bool) (v121 Bool)) @%d))' % (at, at),
            '    where @%d = (or (as v120 Bool) (= (as v120 Int) 1) (v80 v105) (let ((v121 v113)) v121) true)' % at])

    def test_sorts_and_constants(self):
        pool = Parts()
        sorts = [pool.sort('Array', 0, pool.sort('BitVec', 8)), pool.sort('Atom', 5, 0), pool.sort('Set', pool.sort('Tuple')),
                 pool.sort('Var', 0), pool.sort('Function', 0, 0)]
        body = pool.op('Cl', pool.bits(8, 5), pool.constant('real', 3), pool.constant('integer', 9), pool.op('BvConcat'))
        t = pool.binder('exists', body, [(k, sort) for k, sort in enumerate(sorts)])
        self.assertEqual(place_lines(of_pool(pool), t), [
            '(exists ((v0 (Array Bool (_ BitVec 8))) (v1 (s5 Bool)) (v2 (Set (Tuple))) (v3 ?) (v4 (-> Bool Bool))) '
            '(cl (_ bits5 8) real3 9 (concat)))'])

    def test_long_chains_stay_short(self):
        for make in (lambda pool, t: pool.op('And', t, t), lambda pool, t: pool.op('Not', t),
                     lambda pool, t: pool.binder('forall', t, [(1, 0)] * 3), lambda pool, t: pool.op('Ite', *[t] * 3)):
            pool = Parts()
            t = pool.p
            while len(pool.tags) < 8180:
                t = make(pool, t)
            lines = told(of_pool(pool, (2, t)))
            self.assertLess(len(lines), 16)
            self.assertLess(max(map(len, lines)), 700)
        self.assertIn('.. 7991 more', ''.join(told(of_pool(wide := Parts(), (2, wide.disjuncts(8000))))))


if __name__ == '__main__':
    unittest.main()
