"""What is said of input that cannot be read, and of steps that are not written, not checked or refused."""
import os
import stat
import tempfile
import unittest

from proof_tests.inputs import outcome_of, outcome_of_texts

PROBLEM = '(declare-sort T 0)\n(declare-fun p (T) Bool)\n(declare-fun r (T T) Bool)\n(declare-const a T)\n(declare-const c Bool)\n'
GOOD = '(step s (cl (= (forall ((x T)) c) c)) :rule qnt_rm_unused)\n'

# proofs that cannot be read, with what is said after the name of the file
PROOFS = [
    ('', '1: a proof is expected, and there is none'), ('unsat\n', '1: a proof is expected, and there is none'),
    (GOOD + '(step t (cl (= (forall ((x T', '2: the text ends where a ) is expected, for the ( of line 2'),
    (GOOD + '\n)', '3: a ) without its ('), (GOOD + '(step t (cl "abc', '2: a string has no end'),
    (GOOD + '(step t (cl |abc', '2: a quoted symbol has no end'),
    ('\nsat\n', '2: a proof is expected, and the solver answered sat'),
    ('unsat\n(%s\njunk)' % GOOD, '4: assume, step or anchor is expected, and there is junk'),
    ('unknown', '1: a proof is expected, and the solver answered unknown'),
    ('(error "cannot get proof")', '1: assume, step or anchor is expected, and the solver wrote (error "cannot get proof")'),
    (GOOD + '(lemma x)', '2: assume, step or anchor is expected, and there is (lemma x)'),
    (GOOD + 'junk', '2: assume, step or anchor is expected, and there is junk'),
    (GOOD + '()', '2: assume, step or anchor is expected, and there is ()'),
    ('(step)', '1: (step NAME (cl ..) :rule NAME ..) is expected, and there is (step)'),
    ('(step s (cl c))', '1: :rule NAME is expected in (step s (cl c))'),
    ('(step s (cl c) :rule)', '1: :rule NAME is expected in (step s (cl c) :rule)'),
    ('(step s (cl c) qnt_join)', '1: a keyword is expected, and there is qnt_join'),
    ('(step s (cl c) :rule qnt_join :args a)', '1: :args (..) is expected in (step s (cl c) :rule qnt_join :args a)'),
    ('\n(anchor :args ())', '2: (anchor :step NAME :args (..)) is expected, and there is (anchor :args ())'),
    ('(anchor :step s :args (x))', '1: (NAME SORT) or (:= (NAME SORT) TERM) is expected, and there is x'),
    ('(declare-fun f)', '1: expected (declare-fun NAME (SORT ..) SORT), and there is (declare-fun f)')]
PROBLEMS = [
    ('(declare-const a', '1: the text ends where a ) is expected, for the ( of line 1'),
    ('\n(declare-const a T)', '2: declare-const: the sort T is not declared'),
    ('(declare-const 5 Int)', '1: expected (declare-const NAME SORT), and there is (declare-const 5 Int)'),
    ('(declare-const a Int)\n(declare-const a Real)', '2: declare-const: a is declared before, in another way'),
    ('(declare-sort T 0)\n(declare-sort T 1)', '2: declare-sort: T is declared before, in another way'),
    ('(declare-sort T x)', '1: expected (declare-sort NAME NUMERAL), and there is (declare-sort T x)'),
    ('(declare-sort L 1)(declare-const a (L Int Int))', '1: declare-const: parameters of the sort L: 1 are expected, and there are 2'),
    ('(define-sort A () (Array A A))(declare-const a A)', '1: declare-const: the sort A stands in its own definition'),
    ('(define-fun f ((x)) Bool c)',
     '1: expected (define-fun NAME ((NAME SORT) ..) SORT TERM), and there is (define-fun f ((x)) Bool c)'),
    ('(declare-datatypes ((L 0)) ())', '1: expected (declare-datatypes ((NAME NUMERAL) ..) (((NAME (NAME SORT) ..) ..) ..)), '
     'and there is (declare-datatypes ((L 0)) ())'),
    ('hello', '1: an SMT-LIB command is expected, and there is hello')]
# conclusions of steps of rule qnt_rm_unused, the exit code and the verdict
STEPS = [
    ('(cl (= (forall ((x T)) c) c))', 0, 'accepted'),
    ('(cl (= (forall ((x T)) (p x)) (p a)))', 1, 'refused 3 no quantifier: forall or exists is wanted, and there is (p a)'),
    ('(cl (= (forall ((x T)) c) c) c)', 1, 'refused 1 conclusion not one term: it has 2'),
    ('(cl)', 1, 'refused 1 conclusion not one term: it has 0'),
    ('c', 2, 'not written: (cl ..) is expected, and there is c'),
    ('(cl d)', 2, 'not written: d is not declared'), ('(cl (= (forall ((x U)) c) c))', 2, 'not written: the sort U is not declared'),
    ('(cl (let ((y x)) c))', 2, 'not written: x is not declared'),
    ('(cl (forall ((x T)) (let ((y x)) (exists ((x T)) (r x y)))))', 2, 'not written: the variable x in the value of y is captured'),
    ('(cl (exists ((x T)) (swapped x)))', 2, 'not written: the variable x in the value of y is captured'),
    ('(cl (=> (exists ((x T)) (! (p x) :named px)) (exists ((x Int)) px)))', 2,
     'not written: the variable x in the term of px is captured'),
    ('(cl (and (! (p a) :named n) (! (not n) :named n)))', 2, 'not written: n stands in its own term'),
    ('(cl (and (! (p a) :named n) (! (r a a) :named n) n))', 2, 'not written: n names two terms'),
    ('(cl (circle a))', 2, 'not written: circle stands in its own definition'),
    ('(cl (p a a))', 2, 'not written: arguments of p: 1 are expected, and there are 2'),
    ('(cl (swapped))', 2, 'not written: arguments of swapped: 1 are expected, and there are 0'),
    ('(cl (a a))', 2, 'not written: arguments of a: 0 are expected, and there are 1'),
    ('(cl ((p a) a))', 2, 'not written: a term that is no function is applied'),
    ('(cl ())', 2, 'not written: a term is expected, and there is ()'), ('(cl (forall c))', 2,
     'not written: (forall ((NAME ..) ..) TERM) is expected, and there is (forall c)'),
    ('(cl (let ((y c) (y c)) y))', 2, 'not written: a let binds y twice'),
    ('(cl (let ((y)) c))', 2, 'not written: a name with its sort or value is expected, and there is (y)'),
    ('(cl (forall ((x)) c))', 2, 'not written: a name with its sort or value is expected, and there is (x)'),
    ('(cl (choice () c))', 2, 'not written: a choice of nothing'), ('(cl (match a ((a c))))', 2, 'not written: match is not read'),
    ('(cl (forall ((x T)) ((_ map x) a)))', 2, 'not written: (_ map x) is not read'),
    ('(cl (= (forall ((x T)) (p (as (g x) T))) (p a)))', 2, 'not written: (as (g x) T) is not read'),
    ('(cl (= (forall ((x T)) (p ((as (g x) T) a))) (p a)))', 2, 'not written: (as (g x) T) is not read'),
    ('(cl (and (forall ((x T)) (p (! x :named n))) ((_ map n) a)))', 2, 'not written: (_ map n) is not read'),
    ('(cl (witness ((x T)) (p x)))', 2, 'not written: a term without arguments is applied: ((x T))'),
    ('(cl (as a Int))', 2, 'not written: (as a Int) has another sort'),
    ('(cl (= (forall ((x T)) (and%s)) c))' % (8192 * ' (p x)'), 2, 'not written: its terms take over 8192 cells')]
DEFINED = '(define-fun swapped ((y T)) Bool (exists ((x T)) (r x y)))\n(define-fun circle ((y T)) Bool (circle y))\n'


class Unreadable(unittest.TestCase):
    def test_proofs(self):
        for proof, trouble in PROOFS:
            self.assertEqual(outcome_of_texts(PROBLEM, proof), (3, [], 'P.alethe:' + trouble))

    def test_problems(self):
        for problem, trouble in PROBLEMS:
            self.assertEqual(outcome_of_texts(problem, GOOD), (3, [], 'P.smt2:' + trouble))

    def test_files(self):
        self.assertEqual(outcome_of_texts(PROBLEM, ('\ufeff' + GOOD).replace('\n', '\r\n'))[0], 0)
        self.assertEqual(outcome_of('none.smt2', 'none.alethe'), (3, [], 'none.smt2: No such file or directory'))
        self.assertEqual(outcome_of_texts(PROBLEM, b'\n(step \xff)'), (3, [], 'P.alethe:2: UTF-8 text is expected, and a byte is none'))

    def test_programs(self):
        code, lines, trouble = outcome_of_texts(PROBLEM, GOOD, steps='/no/such/program')
        self.assertEqual((code, lines, trouble.split(':')[0]), (3, [], '/no/such/program cannot be run'))
        for wrong in ('', 'echo hello', 'echo 1 0 0 0; echo 2 0 0 0', 'echo 1 14 0 0', 'echo 0 30 0 0', 'cat'):
            with tempfile.TemporaryDirectory() as folder:
                path = os.path.join(folder, 'steps')
                with open(path, 'w') as file:
                    file.write('#!/bin/sh\n%s\n' % wrong)
                os.chmod(path, stat.S_IRWXU)
                code, lines, trouble = outcome_of_texts(PROBLEM, GOOD, steps=path)
            self.assertEqual((code, lines), (3, []))
            self.assertIn('does not answer as steps does', trouble)

    def test_keep_where_nothing_can_be_written(self):
        with tempfile.NamedTemporaryFile() as file:
            self.assertEqual(outcome_of_texts(PROBLEM, GOOD, keep=file.name)[0], 3)


class Steps(unittest.TestCase):
    def test_verdicts(self):
        for conclusion, code, verdict in STEPS:
            proof = '\n(step s %s :rule qnt_rm_unused)' % conclusion
            found = outcome_of_texts(PROBLEM + DEFINED, proof)
            self.assertEqual((found[0], found[1][0], found[2]), (code, 'P.alethe:2: s qnt_rm_unused: ' + verdict, ''))

    def test_shapes(self):
        """The unnamed rule of cvc5 is found by its shape; a hole is so only where that is asked for."""
        both = '(step s (cl (= (forall ((x T)) (and (p x) %s)) (and (forall ((x T)) (p x)) (forall ((x T)) c)))) :rule %s)'
        other = '(step s (cl (= (p a) c)) :rule %s)'
        unused = '(step s (cl (= (forall ((x T)) (and c c)) (and c c))) :rule ?)'
        for proof, options, code, verdict in [
                (unused, {}, 0, 'accepted as qnt_rm_unused'),
                (both % ('c', '?'), {}, 0, 'accepted as miniscope_distribute'),
                (both % ('(p a)', '?'), {}, 1, 'refused 5 terms differ: (p a) and c (as miniscope_distribute)'),
                (other % '?', {}, 2, 'not checked: its conclusion has the shape of none of the rules'),
                (both % ('c', 'hole'), {'holes': True}, 0, 'accepted as miniscope_distribute'),
                (both % ('(p a)', 'hole'), {'holes': True}, 2,
                 'not checked: a hole, and miniscope_distribute refuses it with 5 terms differ: (p a) and c')]:
            found = outcome_of_texts(PROBLEM, proof, **options)
            self.assertEqual((found[0], found[1][0].split(': ', 2)[2]), (code, verdict))
        code, lines, _ = outcome_of_texts(PROBLEM, both % ('c', 'hole'))
        self.assertEqual((code, lines), (0, [
            'P.alethe: 1 steps, 0 of the rules: 0 accepted (0 by links), 0 refused, 0 not checked, 0 not written; holes: 1 '
            '(cvc5 --proof-granularity=dsl-rewrite may write steps of the rules for them)']))

    def test_links(self):
        """Which right lists links show, of a join of x y, x and z."""
        join = '(step s (cl (= (forall ((x T) (y T)) (forall ((x T)) (forall ((z T)) c))) (forall (%s) c))) :rule qnt_join)'
        for right, verdict in [
                ('x y x z', 'accepted by 2 links'), ('x y z', 'accepted by 3 links'), ('y x z', 'accepted by 3 links'),
                ('x x y z', 'refused 7'), ('x y x', 'refused 7'), ('y x z y', 'refused 7'), ('x z', 'refused 7'),
                ('x y x z z', 'refused 7'), ('x y x z u', 'refused 7')]:
            proof = join % ' '.join('(%s T)' % name for name in right.split())
            line = outcome_of_texts(PROBLEM, proof)[1][0]
            self.assertTrue(line.split(': ', 2)[2].startswith(verdict), line)
            self.assertEqual(line.endswith('(link 2 of 2)'), 'refused' in verdict)

    def test_capture_in_rule_3(self):
        """A constant is no variable that could be taken out."""
        step = '(step s (cl (or (not (forall () (or (p x) (forall ((x T)) c)))) (forall ((x T)) (or (p x) c)))) :rule qnt_cnf)'
        code, lines, _ = outcome_of_texts(PROBLEM, '(anchor :step e :args ((x T)))' + step)
        self.assertEqual((code, lines[0]), (
            2, 'P.alethe:1: s qnt_cnf: not checked: accepted, but x is free in the left side and taken out of a forall in it, '
            'which the guarantee leaves out'))
        code, lines, _ = outcome_of_texts(PROBLEM + '(declare-const x T)', step)
        self.assertEqual((code, lines[0].split(': ')[2]), (1, 'refused 10 clause absent'))

    def test_anchors_end(self):
        step = '(step %s (cl (= (forall ((x T)) (p %s)) (p %s))) :rule qnt_rm_unused)'
        proof = '(anchor :step t :args ((v T) (w U)))' + ''.join(
            step % (name, term, term) for name, term in (('t.1', 'v'), ('t.2', 'w'), ('t', 'a'), ('u', 'v')))
        proof += '(anchor :step e :args ((v U)))(step n (cl (exists ((v T)) (p (! v :named nv)))) :rule refl)'
        proof += step % ('x', 'nv', 'nv')
        self.assertEqual([line.split(': ', 1)[1] for line in outcome_of_texts(PROBLEM, proof)[1][:-1]], [
            't.1 qnt_rm_unused: accepted', 't.2 qnt_rm_unused: not written: the sort U is not declared', 't qnt_rm_unused: accepted',
            'u qnt_rm_unused: not written: v is not declared',
            'x qnt_rm_unused: not written: the variable v in the term of nv is captured'])

    def test_quiet_and_arguments(self):
        proof = GOOD + '(step f (cl (or (not (forall ((x T)) (p x))) (p a))) :rule forall_inst :args (%s))'
        for arguments in ('a', '(:= x a)', '(:= (x T) a)'):
            code, lines, _ = outcome_of_texts(PROBLEM, proof % arguments, quiet=True)
            self.assertEqual((code, lines), (2, [
                'P.alethe:2: f forall_inst: not checked: rule 7 is not among the rules of steps yet',
                'P.alethe: 2 steps, 2 of the rules: 1 accepted (0 by links), 0 refused, 1 not checked, 0 not written; holes: 0']))
