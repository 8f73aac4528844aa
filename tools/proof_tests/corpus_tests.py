"""The proofs of data/real: the expected lines, what was answered to the same steps before, and packed files against single ones."""
import csv
import re
import unittest
from collections import Counter

from alethe.checking import pack, refused_words
from alethe.shapes import CODES, INSTANCE, operands
from alethe.step_files import alone, packed, reached
from proof_tests.inputs import REAL, TOOLS, answers, corpus, corpus_lines, read_cases, text_of
from texts.name_text import Table
from texts.term_text import Style

TOTALS = re.compile(r'(\d+) steps, (\d+) of the rules: (\d+) accepted \((\d+) by links\), (\d+) refused, (\d+) not checked')
FIGURES = re.compile(r'(\d+) proofs with (\d+) steps, (\d+) of the rules: (\d+) accepted, (\d+) of them by links, (\d+) refused, '
                     r'(\d+) `forall_inst` not checked')
KEYS = 'proofs steps rules accepted links refused unchecked'.split()


class Corpus(unittest.TestCase):
    def test_expected_lines(self):
        self.assertEqual(corpus_lines(), text_of('expected.txt').splitlines())

    def test_answers_to_single_steps(self):
        """answers.tsv has each step's rule, the cells of its pool and the answer, without links."""
        wanted = [(row['proof'], row['step'], row['rule code'], row['steps'].split()[0])
                  for row in csv.DictReader(text_of('answers.tsv').splitlines(), delimiter='\t')]
        found = []
        for proof in sorted({proof for proof, *_ in wanted}):
            terms, cases = read_cases(text_of('problems/%s.smt2' % proof), text_of('proofs/cvc5-1.3.2/%s.alethe' % proof))
            for case in cases:
                rule, code = 7, 18
                if case.step.rule != INSTANCE:
                    (rule, place), = case.chain
                    (code, *_), = answers(alone(terms.pool, reached(terms.pool, place), rule, place))
                found.append((proof, case.step.name, str(rule), str(code)))
        self.assertEqual(sorted(found), sorted(wanted))

    def test_links_lead_from_left_to_right(self):
        """Each link starts where the one before ends; the last ends at the right side, or begins there and is read backwards."""
        kinds = Counter()
        for problem, proof in corpus():
            terms, cases = read_cases(text_of(problem), text_of(proof))
            wholes = [case.chain[0][1] for case in cases if case.chain]
            pack(terms.pool, cases)
            for case, whole in zip((case for case in cases if case.chain), wholes):
                if len(case.chain) > 1:
                    at, right = operands(terms.pool, whole)
                    rules = [rule for rule, _ in case.chain]
                    ends = [operands(terms.pool, place) for _, place in case.chain]
                    backwards = [ends.pop()[::-1]] if rules[-1] == CODES['qnt_rm_unused'] else []
                    for start, end in ends + backwards:
                        self.assertEqual(start, at)
                        at = end
                    self.assertEqual(at, right)
                    self.assertEqual(set(rules[:len(ends)]), {CODES['qnt_join']})
                    kinds[bool(backwards)] += 1
        self.assertEqual(kinds, {False: 10, True: 2})

    def test_figures_of_the_readme(self):
        figures = Counter()
        for line in text_of('expected.txt').splitlines():
            if line.startswith('proofs/cvc5-1.3.2/') and TOTALS.search(line):
                figures.update(dict(zip(KEYS, (1, *map(int, TOTALS.search(line).groups())))))
        self.assertEqual(figures['rules'], figures['accepted'] + figures['refused'] + figures['unchecked'])
        readme = ' '.join((TOOLS.parent / 'README.md').read_text(encoding='utf-8').split())
        self.assertEqual(list(map(int, FIGURES.search(readme).groups())), [figures[key] for key in KEYS])

    def test_every_file_is_there(self):
        """Every problem of a proof, and no data that no test reads."""
        used = {path for pair in corpus() for path in pair} | {'README.md', 'expected.txt', 'answers.tsv'}
        there = {path.relative_to(REAL).as_posix() for path in REAL.rglob('*') if path.is_file()}
        self.assertEqual(there, used)


class Packing(unittest.TestCase):
    def test_packed_answers_equal_single_ones(self):
        for problem, proof in corpus():
            self.check_packed(*read_cases(text_of(problem), text_of(proof)))

    def check_packed(self, terms, cases):
        pack(terms.pool, cases)
        steps = [step for case in cases for step in case.chain]
        files, spots = packed(terms.pool, steps)
        found, style = [answers(file) for file in files], Style(Table(terms.names.table()), places=False)
        for (rule, place), (index, number) in zip(steps, spots):
            single = alone(terms.pool, reached(terms.pool, place), rule, place)
            one, = answers(single)
            many = found[index][number - 1]
            self.assertEqual(one[0], many[0])
            if one[0]:
                self.assertEqual(refused_words(single, 1, one, style), refused_words(files[index], number, many, style))
        return files

    def test_more_than_256_steps(self):
        names = ['x%d' % k for k in range(300)]
        proof = '\n'.join('(step %s (cl (= (forall ((%s T)) c) c)) :rule qnt_rm_unused)' % (name, name) for name in names)
        files = self.check_packed(*read_cases('(declare-sort T 0)(declare-const c Bool)', proof))
        self.assertEqual([len(file.steps) for file in files], [256, 44])

    def test_more_than_8192_cells(self):
        """Steps of some 3,000 cells each, which share little: two fit into a file."""
        text = '(step s%d (cl (= (forall ((x T)) (and %s)) (and %s))) :rule miniscope_distribute)'
        proof = '\n'.join(text % (k, ' '.join('(p x a%d)' % (k * 200 + i) for i in range(200)),
                                  ' '.join('(forall ((x T)) (p x a%d))' % (k * 200 + i) for i in range(200))) for k in range(5))
        problem = '(declare-sort T 0)(declare-fun p (T T) Bool)' + ''.join('(declare-const a%d T)' % k for k in range(1000))
        files = self.check_packed(*read_cases(problem, proof))
        self.assertEqual([len(file.steps) for file in files], [2, 2, 1])

    def test_room_for_rule_3(self):
        """A body of 400 equalities builds some 5,500 cells: none of the steps may share a file with the next."""
        problem = '(declare-sort T 0)(declare-fun p (T) Bool)' + ''.join('(declare-fun q%d (T) Bool)' % k for k in range(900))
        text = '(step s%d (cl (or (not (forall ((x T)) (and %s))) (forall ((x T)) (or (not (p x)) (q%d x))))) :rule qnt_cnf)'
        proof = '\n'.join(text % (k, ' '.join('(= (p x) (q%d x))' % (k * 300 + i) for i in range(250)), k * 300) for k in range(3))
        terms, cases = read_cases(problem, proof)
        files = self.check_packed(terms, cases)
        self.assertEqual([(len(file.steps), answers(file)) for file in files], [(1, [(0, 0, 0)])] * 3)
        self.assertTrue(all(2 * len(file.tags) < 8192 < 2 * len(file.tags) + file.room for file in files))
