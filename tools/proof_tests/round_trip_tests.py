"""Pool to text equals the expanded conclusion: step files written out in the names of their table, against an expansion of the
proof's text that knows nothing of pools, scopes or sorts."""
import unittest

from alethe.expressions import named_in
from alethe.proofs import proof_forms
from alethe.step_files import packed
from proof_tests.inputs import corpus, read_cases, text_of
from references.reference_clauses import Growing
from references.reference_steps import read as read_file
from texts.name_text import Table
from texts.term_text import BINDER, SORT, SORT_HEAD, SYMBOL

PROBLEM = '''
(declare-sort T 0) (declare-sort |a sort| 1) (define-sort Pairs (A) (Array A (Array A Bool)))
(declare-fun p (T) Bool) (declare-fun |q 1| ((|a sort| T) Int) Bool) (declare-const a T) (declare-fun big (Int Real) Bool)
(declare-const m (Pairs T)) (declare-fun is_one ((_ BitVec 4)) Bool) (declare-datatype L ((nil) (cons (head T) (tail L))))
(define-fun both ((x T) (y T)) Bool (and (p x) (p y))) (define-fun twice ((x T)) Bool (both x x)) (define-const pa Bool (p a))
(define-fun-rec loop ((x T)) T (loop x))
'''
WHOLE_STEP = '(step s (cl (= (forall ((x T)) %s\n) (p a))) :rule qnt_rm_unused)\n'
# the body of a quantifier over x, as written and expanded
BODIES = [
    ('(both x a)', '(and (p x) (p a))'), ('(twice x)', '(and (p x) (p x))'), ('(or pa (p x))', '(or (p a) (p x))'),
    ('(let ((y x) (z (p a))) (let ((y (p y)) (w z)) (and y z w)))', '(and (p x) (p a) (p a))'),
    ('(let ((y a)) (let ((y x) (z (p y))) (and (p y) z)))', '(and (p x) (p a))'), ('(p (! x :named n1))', '(p x)'),
    ('(! (p x) :pattern ((p x)) :named n2)', '(p x)'),
    ('(forall ((y (|a sort| T))) (|q 1| y 7))', '(forall ((y (|a sort| T))) (|q 1| y 7))'),
    ('(exists ((|y| T) (|y 2| T)) (= |x| y |y 2|))', '(exists ((y T) (|y 2| T)) (= x y |y 2|))'),
    ('(big 4294967296 2.50)', '(big 4294967296 2.5)'), ('(big 4294967295 (- 3/2))', '(big 4294967295 (- 3/2))'),
    ('(select (select m x) (choice ((y T)) (p y)))', '(select (select m x) (choice ((y T)) (p y)))'),
    ('(is_one #x1)', '(is_one #x1)'), ('(= #b0001 (_ bv1 4))', '(= #x1 #x1)'),
    ('(= #b011 (_ bv5 65) #x00aB)', '(= #b011 #x5:65 #x00ab)'),
    ('(= ((_ extract 1 0) #b0001) ((_ extract 1 0) #x1))', '(= ((_ extract 1 0) #x1) ((_ extract 1 0) #x1))'),
    ('((_ is cons) (cons x nil))', '((_ is cons) (cons x nil))'),
    ('(p (head (tail (cons x nil))))', '(p (head (tail (cons x nil))))'),
    ('(no.such.op x "a ""string"" |" (as seq.empty (Seq T)))', '(no.such.op x "a ""string"" |" (as seq.empty (Seq T)))'),
    ('(p (loop x)) ; a comment (with brackets', '(p (loop x))'), ('(and true (distinct x a) (xor (p x) false))',) * 2]


def bracketed(parts):
    return '(%s)' % ' '.join(parts)


class Text:
    """Whole texts of the sorts and terms of a file, where texts/term_text.py would cut them."""

    def __init__(self, file, names):
        self.tags, self.values, self.steps = read_file(file)
        self.pool, self.names = Growing(self.tags, self.values, len(self.tags)), names

    def of(self, p):
        tag, cells = self.pool.tag[p], self.pool.cells[p]
        if tag < 16:
            return self.sort(tag, cells)
        if tag in BINDER:
            pairs = [bracketed([self.names.name(k), self.of(sort)]) for k, sort in zip(cells[2::2], cells[3::2])]
            return bracketed([BINDER[tag], bracketed(pairs), self.of(cells[1])])
        if tag >= 22:
            symbol = [SYMBOL[tag]] if tag in SYMBOL else []
            return symbol[0] if cells[1:] == () else bracketed(symbol + [self.of(c) for c in cells[1:]])
        if tag == 20:
            return self.names.bits(cells[2], cells[1])
        return str(cells[1]) if tag == 16 else self.names.name(cells[1])

    def sort(self, tag, cells):
        if tag in SORT:
            return SORT[tag]
        if tag == 7:
            return '(_ BitVec %d)' % cells[0]
        head = self.names.sort(cells[0]) if tag == 9 else SORT_HEAD[tag]
        parts = [self.of(c) for c in (cells[1:] if tag == 9 else cells)]
        return bracketed([head, *parts]) if parts else head


class Expansion:
    """Names and lets replaced in the text alone; bound names are not looked at."""

    def __init__(self):
        self.named = {}

    def note(self, command):
        for form, _ in named_in(command):
            self.named[form[form.index(':named') + 1]] = form[1]

    def of(self, expression, lets):
        if isinstance(expression, str):
            if expression in lets:
                return lets[expression]
            return self.of(self.named[expression], {}) if expression in self.named else expression
        if expression[0] == '!':
            return self.of(expression[1], lets)
        if expression[0] == 'let':
            return self.of(expression[2], {**lets, **{name: self.of(value, lets) for name, value in expression[1]}})
        return bracketed([self.of(part, lets) for part in expression])


class RoundTrip(unittest.TestCase):
    def test_corpus(self):
        """Named terms mean what was named before them: so each is expanded right after its command is noted."""
        for problem, proof in corpus():
            wanted, expansion = {}, Expansion()
            for command in proof_forms(text_of(proof)):
                expansion.note(command)
                if command[0] == 'step':
                    wanted[command[1]] = expansion.of(command[2], {})
            terms, cases = read_cases(text_of(problem), text_of(proof))
            for case, text in texts_of(terms, cases):
                self.assertEqual('(cl %s)' % text, wanted[case.step.name])

    def test_every_kind_of_term(self):
        for body, expanded in BODIES:
            (_, text), = texts_of(*read_cases(PROBLEM, WHOLE_STEP % body))
            self.assertEqual(text, '(= (forall ((x T)) %s) (p a))' % expanded)

    def test_anchors(self):
        proof = """(anchor :step e :args ((x T) (:= (y T) x) (:= z a)))
            (step s (cl (! (= (forall ((w T)) (p z)) (! (p z) :named pz)) :named s1)) :rule qnt_rm_unused)
            (anchor :step e2 :args ((z T)))
            (step s2 (cl (= (forall ((x T) (y T)) (and pz (p y))) (p x))) :rule qnt_rm_unused)
            (step e2 (cl s1) :rule bind)
            (step e (cl (= (forall ((z T)) pz) (p a))) :rule qnt_rm_unused)"""
        self.assertEqual([text for _, text in texts_of(*read_cases(PROBLEM, proof))], [
            '(= (forall ((w T)) (p z)) (p z))', '(= (forall ((x T) (y T)) (and (p z) (p y))) (p x))',
            '(= (forall ((z T)) (p z)) (p a))'])


def texts_of(terms, cases):
    """The conclusions that step files hold."""
    cases = [case for case in cases if case.chain]
    files, spots = packed(terms.pool, [case.chain[0] for case in cases])
    texts = [Text(file.bytes(), Table(terms.names.table())) for file in files]
    for case, (index, number) in zip(cases, spots):
        yield case, texts[index].of(texts[index].steps[number - 1][1])
