"""Broken and extreme input: no text, however broken, may end in anything but an outcome; deep and large input is read."""
import pathlib
import random
import subprocess
import sys
import tempfile
import unittest

from proof_tests.error_tests import GOOD, PROBLEM
from proof_tests.inputs import TOOLS, corpus, outcome_of_texts, text_of
from proof_tests.round_trip_tests import BODIES, PROBLEM as EVERY_KIND, WHOLE_STEP
from read_steps import report
from references.reference_steps import run
from texts.name_text import Table
from texts.term_text import Style

DEEP = 20000
TRIES = 250
WORDS = ('( ) (( )) ! :named @p_1 let forall exists _ as :rule :args := cl step anchor " | ; qnt_join ? Bool 0 99999999999 -1 1/0 #b '
         '#x é \0').split()


def broken(rng, text):
    """A text with a few pieces cut out, put in twice, exchanged or made up."""
    for _ in range(rng.randrange(1, 4)):
        a, b = sorted(rng.randrange(len(text) + 1) for _ in range(2))
        b = min(b, a + rng.choice([1, 5, 50, 5000]))
        text = text[:a] + rng.choice(['', text[a:b] * 2, text[a:b][::-1], ' %s ' % rng.choice(WORDS)]) + text[b:]
    return text


def nested(before, inside, after, depth=DEEP):
    return before * depth + inside + after * depth


class Broken(unittest.TestCase):
    def test_random_damage(self):
        rng, codes = random.Random(20261117), []
        files = [tuple(map(text_of, paths)) for paths in corpus()]
        files += [(EVERY_KIND, ''.join(WHOLE_STEP % body for body, _ in BODIES))] * len(files)
        for _ in range(TRIES):
            texts = list(rng.choice(files))
            which = rng.random() < 0.75
            texts[which] = broken(rng, texts[which])
            code, lines, trouble = outcome_of_texts(*texts)
            self.assertEqual(bool(trouble), code == 3)
            self.assertEqual(bool(lines), code != 3)
            codes.append(code)
        self.assertLessEqual({1, 2, 3}, set(codes))

    def test_truncated(self):
        text = text_of('hand/hand.alethe')
        for end in range(0, len(text), 97):
            code, _, trouble = outcome_of_texts(text_of('hand/hand.smt2'), text[:end])
            whole = text[:end].count('(') == text[:end].count(')')
            self.assertTrue(whole or code == 3 and trouble.startswith('P.alethe:'), text[:end])


class Extreme(unittest.TestCase):
    def verdict(self, conclusion, problem=PROBLEM, rule='qnt_rm_unused'):
        code, lines, trouble = outcome_of_texts(problem, '(step s (cl %s) :rule %s)' % (conclusion, rule))
        self.assertEqual(trouble, '')
        return lines[0].split(': ', 2)[2]

    def test_deep_terms(self):
        too_large = 'not written: its terms take over 8192 cells'
        self.assertEqual(self.verdict(nested('(not ', 'c', ')')), too_large)
        self.assertEqual(self.verdict(nested('(forall ((x T)) ', 'c', ')')), too_large)
        self.assertEqual(self.verdict(nested('(! ', 'c', ' :named n)')).split(':')[0], 'refused 2 wrong form')
        self.assertEqual(self.verdict(nested('(let ((y c)) ', 'y', ')')).split(':')[0], 'refused 2 wrong form')
        self.assertEqual(self.verdict(nested('(let ((y ', 'c', ')) y)')).split(':')[0], 'refused 2 wrong form')
        self.assertEqual(self.verdict(nested('(', 'c', ')'))[:51], 'not written: a term without arguments is applied: (')
        self.assertEqual(self.verdict(nested('((as ', 'c', ' T) a)'))[:11], 'not written')

    def test_deep_sorts_and_definitions(self):
        deep = nested('(Array T ', 'T', ')')
        self.assertEqual(self.verdict('(= (forall ((x %s)) c) c)' % deep), 'not written: its terms take over 8192 cells')
        problem = PROBLEM + '(define-sort A () %s)(define-sort A () %s)(define-fun f () Bool %s)(define-fun f () Bool %s)' % (
            deep, deep, *[nested('(not ', 'c', ')')] * 2)
        self.assertEqual(self.verdict('f', problem), 'not written: its terms take over 8192 cells')
        chain = ''.join('(define-fun f%d ((x T)) Bool (and (f%d x) (f%d x)))' % (k + 1, k, k) for k in range(500))
        problem = PROBLEM + '(define-fun f0 ((x T)) Bool (p x))' + chain
        self.assertEqual(self.verdict('(= (forall ((x T)) (f500 a)) (f500 a))', problem), 'accepted')

    def test_long_let_and_name_chains(self):
        """Terms that double at each of many levels are small where they are shared."""
        lets = nested('(let ((y (and y y))) ', '(= (forall ((x T)) y) y)', ')', 2000)
        self.assertEqual(self.verdict('(let ((y c)) %s)' % lets), 'accepted')
        names = ''.join('(step n%d (cl (! (and @p_%d @p_%d) :named @p_%d)) :rule and)' % (k, k, k, k + 1) for k in range(1500))
        proof = '(assume a (! c :named @p_0))' + names + '(step s (cl (= (forall ((x T)) @p_1500) @p_1500)) :rule qnt_rm_unused)'
        self.assertEqual(outcome_of_texts(PROBLEM, proof)[:1], (0,))

    def test_many_names_in_scope(self):
        lets = ''.join('(let ((y%d y%d)) ' % (k + 1, k) for k in range(DEEP)) + '(= (forall ((x T)) y%d) y0)' % DEEP + DEEP * ')'
        self.assertEqual(self.verdict('(let ((y0 c)) %s)' % lets), 'accepted')

    def test_thousands_of_steps(self):
        code, lines, _ = outcome_of_texts(PROBLEM, '(\n%s)' % (GOOD * 5000))
        self.assertEqual((code, lines[4999], lines[5000].split(': ', 1)[1]), (
            0, 'P.alethe:5001: s qnt_rm_unused: accepted',
            '5000 steps, 5000 of the rules: 5000 accepted (0 by links), 0 refused, 0 not checked, 0 not written; holes: 0'))

    def test_joins_of_many_levels(self):
        """Of 150 levels the links alone take several files."""
        for levels, verdict in ((2, 'accepted'), (3, 'accepted by 2 links'), (150, 'accepted by 149 links')):
            left, right = ''.join('(forall ((x%d T)) ' % k for k in range(levels)), ' '.join('(x%d T)' % k for k in range(levels))
            self.assertEqual(self.verdict('(= %s c%s (forall (%s) c))' % (left, ')' * levels, right), rule='qnt_join'), verdict)


class Command(unittest.TestCase):
    """The program as it is run, and what --keep leaves."""

    def run_with(self, folder, *options, problem=PROBLEM, proof=GOOD, **settings):
        paths = ['%s/%s' % (folder, name) for name in ('P.smt2', 'P.alethe')]
        for path, text in zip(paths, (problem, proof)):
            with open(path, 'w', encoding='utf-8') as file:
                file.write(text)
        command = [sys.executable, str(TOOLS / 'check_proof.py'), *paths, '--steps', str(TOOLS / 'steps_by_reference.py'), *options]
        return subprocess.run(command, capture_output=True, text=True, **settings)

    def test_output_and_exit(self):
        with tempfile.TemporaryDirectory() as folder:
            done = self.run_with(folder)
            self.assertEqual((done.returncode, len(done.stdout.splitlines()), done.stderr), (0, 2, ''))
            done = self.run_with(folder, proof='(')
            self.assertEqual((done.returncode, done.stdout, len(done.stderr.splitlines())), (3, '', 1))

    def test_wrong_use(self):
        done = subprocess.run([sys.executable, str(TOOLS / 'check_proof.py'), 'P.smt2'], capture_output=True, text=True)
        self.assertEqual((done.returncode, done.stdout, done.stderr.split()[0]), (3, '', 'usage:'))

    def test_names_that_the_terminal_lacks(self):
        with tempfile.TemporaryDirectory() as folder:
            done = self.run_with(folder, problem='(declare-const |é\n| Bool)', proof='(step |é\n| (cl |\x1b[2J|) :rule qnt_join)',
                                 env={'PYTHONIOENCODING': 'ascii'})
        self.assertEqual((done.returncode, done.stdout.splitlines()[0].split(':', 2)[2], done.stderr), (
            2, r' |\xe9\n| qnt_join: not written: |\x1b[2J| is not declared', ''))

    def test_keep(self):
        proof = ('(step j (cl (= (forall ((x T)) (forall ((|y 1| T)) (forall ((x T)) (r x |y 1|)))) (forall ((x T) (|y 1| T)) c))) '
                 ':rule qnt_join)')
        with tempfile.TemporaryDirectory() as folder:
            self.run_with(folder, '--keep', folder + '/kept', proof=GOOD + proof)
            kept = {path.name: path.read_bytes() for path in pathlib.Path(folder, 'kept').iterdir()}
        self.assertEqual(kept['index.tsv'].decode().splitlines()[1:], [
            '0001.steps\t1\t1\ts\tqnt_rm_unused\t1 of 1', '0001.steps\t2\t2\tj\tqnt_join\t1 of 1'])
        lines = report(kept['0001.steps'], run(kept['0001.steps']).splitlines(), 2, Style(Table(kept['names.tsv'].decode())))
        self.assertEqual(lines[2:], [
            '    (= (forall ((x T)) (forall ((|y 1| T)) (forall ((x T)) (r x |y 1|)))) (forall ((x T) (|y 1| T)) c))',
            lines[-1]])
        self.assertRegex(lines[-1], r'^  5 terms differ: @\d+ \(forall \(\(x T\)\) \(r x \|y 1\|\)\) and @\d+ c$')
