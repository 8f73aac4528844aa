"""Call files on rules 4, 5 and 6. Rows and cases are as in cases_rules.py."""
from pools.formulas import WHOLE, steps

# ---- rule 4
AND, AND_OUT = '(forall (x) (and x y))', '(and (forall (x) x) (forall (x) y))'
OF_X = '(forall (x) (and x))'
DISTRIBUTIONS = [
    ('forall', '(= %s %s)' % (AND, AND_OUT)), ('exists', '(= (exists (x) (or x y)) (or (exists (x) x) (exists (x) y)))'),
    ('no-operands', '(= (forall (x) (and)) (and))'), ('no-operands-exists', '(= (exists (x) (or)) (or))'),
    ('one-operand', '(= %s (and (forall (x) x)))' % OF_X),
    ('three-operands', '(= (forall (x) (and x y x)) (and (forall (x) x) (forall (x) y) (forall (x) x)))'),
    ('empty-list', '(= (forall () (and x y)) (and (forall () x) (forall () y)))'),
    ('repeats', '(= (forall (x y x x) (and x y)) (and (forall (x y x x) x) (forall (x y x x) y)))'),
    ('two-sorts', "(= (forall (x x') (and x p)) (and (forall (x x') x) (forall (x x') p)))"),
    ('quantified-operands', '(= (forall (x) (and {0} {1})) (and (forall (x) {0}) (forall (x) {1})))'.format(
        '(forall (x) x)', '(exists (y) p)')),
    ('opaque-operands', '(= (forall (x) (and {0} {1})) (and (forall (x) {0}) (forall (x) {1})))'.format(
        '(let ((y x)) y)', '(f (choice (z) x))')),
    ('operands-not-bool', '(= (forall (i) (and i 1)) (and (forall (i) i) (forall (i) 1)))'),
    ('forall-or', '(= (forall (x) (or x y)) (or (forall (x) x) (forall (x) y)))', 2, WHOLE),
    ('exists-and', '(= (exists (x) (and x y)) (and (exists (x) x) (exists (x) y)))', 2, WHOLE),
    ('sides-swapped', '(= %s %s)' % (AND_OUT, AND), 2, WHOLE), ('no-equality', '(or %s %s)' % (AND, AND_OUT), 2, WHOLE),
    ('equals-of-three', '(= %s %s %s)' % (AND, AND_OUT, AND_OUT), 2, WHOLE), ('equals-of-one', '(= %s)' % AND, 2, WHOLE),
    ('left-choice', '(= (choice (x) (and x y)) %s)' % AND_OUT, 2, WHOLE), ('left-and', '(= (and x y) %s)' % AND_OUT, 2, WHOLE),
    ('left-lambda', '(= (lambda (x) (and x y)) %s)' % AND_OUT, 2, WHOLE),
    ('left-body', '(= (forall (x) p) (and (forall (x) p)))', 2, WHOLE),
    ('left-body-quantified', '(= (forall (x) (forall (y) (and x y))) %s)' % AND_OUT, 2, WHOLE),
    ('right-or', '(= %s (or (forall (x) x) (forall (x) y)))' % AND, 2, WHOLE), ('right', '(= %s p)' % AND, 2, WHOLE),
    ('form-before-counts', '(= (forall (x) (or x y)) (or))', 2, WHOLE),
    ('operand', '(= %s (and x (forall (x) y)))' % AND, 2, 'x'),
    ('second-operand', '(= %s (and (forall (x) x) y))' % AND, 2, 'y'),
    ('operand-exists', '(= %s (and (forall (x) x) (exists (x) y)))' % AND, 2, '(exists (x) y)'),
    ('operand-forall', '(= (exists (x) (or x y)) (or (forall (x) x) (exists (x) y)))', 2, '(forall (x) x)'),
    ('operand-choice', '(= %s (and (choice (x) x) (forall (x) y)))' % AND, 2, '(choice (x) x)'),
    ('first-operand', '(= %s (and (forall (x) y) (forall (x) y)))' % AND, 5, 'x', 'y'),
    ('second-operand', '(= %s (and (forall (x) x) (forall (x) x)))' % AND, 5, 'y', 'x'),
    ('operands-swapped', '(= %s (and (forall (x) y) (forall (x) x)))' % AND, 5, 'x', 'y'),
    ('third-operand', '(= (forall (x) (and x x x)) (and (forall (x) x) (forall (x) x) (forall (x) (not x))))', 5, 'x', '(not x)'),
    ('before-6-of-the-next', '(= %s (and (forall (x) p) (forall () y)))' % AND, 5, 'x', 'p'),
    ('first-operand', '(= %s (and (forall () x) (forall (x) y)))' % AND, 6, AND, '(forall () x)'),
    ('second-operand', '(= %s (and (forall (x) x) (forall (x x) y)))' % AND, 6, AND, '(forall (x x) y)'),
    ('order', '(= (forall (x y) (and x)) (and (forall (y x) x)))', 6, '(forall (x y) (and x))', '(forall (y x) x)'),
    ('longer', '(= %s (and (forall (x y) x)))' % OF_X, 6, OF_X, '(forall (x y) x)'),
    ('other-sort', "(= %s (and (forall (x') x)))" % OF_X, 6, OF_X, "(forall (x') x)"),
    ('before-5', '(= %s (and (forall () p) (forall (x) y)))' % AND, 6, AND, '(forall () p)'),
    ('exists', '(= (exists (x) (or x)) (or (exists () x)))', 6, '(exists (x) (or x))', '(exists () x)'),
    ('fewer', '(= %s (and (forall (x) x)))' % AND, 11, 2, 1), ('more', '(= %s %s)' % (OF_X, AND_OUT), 11, 1, 2),
    ('none-right', '(= %s (and))' % AND, 11, 2, 0), ('none-left', '(= (exists (x) (or)) (or p p p))', 11, 0, 3),
    ('before-2-of-an-operand', '(= %s (and p))' % AND, 11, 2, 1),
]

# ---- rule 5
OR = '(forall (x) (or x p))'
SPLITS = [
    ('forall', '(= (forall (x y) (or x y p)) (or (forall (x) x) (forall (y) y) p))'),
    ('exists', '(= (exists (x y) (and x y p)) (and (exists (x) x) (exists (y) y) p))'),
    ('nothing-bound', '(= (forall (x y) (or p q)) (or p q))'),
    ('empty-list-on-the-right', '(= (forall (x) (or p x)) (or (forall () p) (forall (x) x)))'),
    ('empty-list', '(= (forall () (or x y)) (or x y))'), ('no-operands', '(= (forall (x) (or)) (or))'),
    ('no-operands-exists', '(= (exists () (and)) (and))'),
    ('one-operand', '(= (forall (x y) (or (and x y))) (or (forall (y x) (and x y))))'),
    ('bound-where-it-is-not-free', '(= (forall (x y) (or p x)) (or (forall (y) p) (forall (x) x)))'),
    ('outer-repeats', '(= (forall (x x y) (or x y)) (or (forall (x) x) (forall (y) y)))'),
    ('equal-quantified-operand', '(= (forall (x) (or (forall (x) x) x)) (or (forall (x) x) (forall (x) x)))'),
    ('two-sorts', "(= (forall (x x') (or x (= x' 1))) (or (forall (x) x) (forall (x') (= x' 1))))"),
    ('other-sort-free', "(= (forall (x') (or x p)) (or x p))"),
    ('let-value', '(= (forall (x) (or p (let ((y x)) p))) (or p (forall (x) (let ((y x)) p))))'),
    ('let-name', '(= (forall (x) (or p (let ((x p)) x))) (or p (let ((x p)) x)))'),
    ('choice-and-lambda', '(= (forall (x) (or {0} (f x) {1})) (or {0} (forall (x) (f x)) {1}))'.format(
        '(choice (x) x)', '(lambda (x) x)')),
    ('forall-and', '(= (forall (x) (and x p)) (and (forall (x) x) p))', 2, WHOLE),
    ('exists-or', '(= (exists (x) (or x p)) (or (exists (x) x) p))', 2, WHOLE),
    ('right-and', '(= %s (and (forall (x) x) p))' % OR, 2, WHOLE), ('left', '(= (or x p) (or x p))', 2, WHOLE),
    ('left-choice', '(= (choice (x) (or p)) (or p))', 2, WHOLE), ('equals-of-one', '(= %s)' % OR, 2, WHOLE),
    ('equals-of-three', '(= (forall (x) (or p)) (or p) (or p))', 2, WHOLE), ('right', '(= (forall () (or p)) p)', 2, WHOLE),
    ('no-equality', '(distinct (forall (x) (or p)) (or p))', 2, WHOLE),
    ('left-body', '(= (forall (x) (xor p q)) (or p q))', 2, WHOLE),
    ('operand', '(= %s (or (forall (x) x) q))' % OR, 2, 'q'),
    ('operand-exists', '(= %s (or (exists (x) x) p))' % OR, 2, '(exists (x) x)'),
    ('operand-forall', '(= (exists (x) (and p x)) (and p (forall (x) x)))', 2, '(forall (x) x)'),
    ('operand-lambda', '(= %s (or (lambda (x) x) p))' % OR, 2, '(lambda (x) x)'),
    ('operands-swapped', '(= %s (or p (forall (x) x)))' % OR, 2, 'p'),
    ('first-operand', '(= %s (or (forall (x) p) p))' % OR, 5, 'x', 'p'),
    ('last-operand', '(= (forall (x) (or x p p)) (or (forall (x) x) p (forall () q)))', 5, 'p', 'q'),
    ('before-8', '(= (forall (x) (or x)) (or (forall (z) p)))', 5, 'x', 'p'),
    ('new', '(= %s (or (forall (x) x) (forall (z) p)))' % OR, 8, 'z'),
    ('new-before-old', '(= %s (or (forall (z x) x) p))' % OR, 8, 'z'),
    ('twice', '(= (forall (x) (or x x)) (or (forall (x) x) (forall (x) x)))', 8, 'x'),
    ('twice-exists', '(= (exists (x) (and x x)) (and (exists (x) x) (exists (x) x)))', 8, 'x'),
    ('twice-in-one-list', '(= (forall (x) (or x)) (or (forall (x x) x)))', 8, 'x'),
    ('outer-repeats', '(= (forall (x x) (or x x)) (or (forall (x) x) (forall (x) x)))', 8, 'x'),
    ('outer-repeats-in-one-list', '(= (forall (x x) (or x)) (or (forall (x x) x)))', 8, 'x'),
    ('twice-where-another-is-left', '(= (forall (x y) (or x p)) (or (forall (x) x) (forall (x) p)))', 8, 'x'),
    ('other-sort', "(= (forall (x) (or x)) (or (forall (x') x)))", 8, 'x'),
    ('before-2-of-the-next', '(= %s (or (forall (z) x) q))' % OR, 8, 'z'),
    ('before-12', '(= (forall (x) (or x x)) (or x (forall (z) x)))', 8, 'z'),
    ('fewer', '(= %s (or (forall (x) x)))' % OR, 11, 2, 1), ('more', '(= (forall (x) (or p)) (or p p p))', 11, 1, 3),
    ('none-left', '(= (exists (x) (and)) (and p))', 11, 0, 1), ('none-right', '(= %s (or))' % OR, 11, 2, 0),
    ('before-2-of-an-operand', '(= %s (or q))' % OR, 11, 2, 1),
    ('second-of-the-list', '(= (forall (y x) (or p x)) (or p x))', 12, 'x', '(or p x)'),
    ('first-of-the-list', '(= (forall (z y x) (or x y)) (or x y))', 12, 'y', '(or x y)'),
    ('used-elsewhere', '(= (forall (x) (or x (not x))) (or (forall (x) x) (not x)))', 12, 'x', '(or (forall (x) x) (not x))'),
    ('exists', '(= (exists (x) (and x p)) (and x p))', 12, 'x', '(and x p)'),
    ('below-an-empty-list', '(= (forall (x) (or x)) (or (forall () x)))', 12, 'x', '(or (forall () x))'),
    ('below-another-variable', '(= (forall (x y) (or (and x y))) (or (forall (y) (and x y))))', 12,
     'x', '(or (forall (y) (and x y)))'),
    ('other-sort-bound', "(= (forall (x' x) (or x)) (or (forall (x') x)))", 12, 'x', "(or (forall (x') x))"),
    ('below-choice', '(= (forall (x) (or (choice (y) x) p)) (or (choice (y) x) p))', 12, 'x', '(or (choice (y) x) p)'),
    ('let-value', '(= (forall (x) (or p (let ((y x)) p))) (or p (let ((y x)) p)))', 12, 'x', '(or p (let ((y x)) p))'),
    ('let-value-of-its-own-name', '(= (exists (x) (and p (let ((x x)) x))) (and p (let ((x x)) x)))', 12, 'x', '(and p (let ((x x)) x))'),
    ('let-value-elsewhere', '(= (forall (x) (or x {0})) (or (forall (x) x) {0}))'.format('(let ((y p) (y x)) y)'), 12, 'x',
     '(or (forall (x) x) (let ((y p) (y x)) y))'),
]

# ---- rule 6
ITE, ITE_OUT = '(forall (x) (ite p x q))', '(ite p (forall (x) x) (forall (x) q))'
ITES = [
    ('forall', '(= %s %s)' % (ITE, ITE_OUT)),
    ('empty-list', '(= (forall () (ite x y z)) (ite x (forall () y) (forall () z)))'),
    ('repeats', '(= (forall (x y x) (ite p x y)) (ite p (forall (x y x) x) (forall (x y x) y)))'),
    ('one-branch-twice', '(= (forall (x) (ite p x x)) (ite p (forall (x) x) (forall (x) x)))'),
    ('condition-of-another-sort', "(= (forall (x') (ite x p q)) (ite x (forall (x') p) (forall (x') q)))"),
    ('condition-quantified', '(= (forall (x) (ite {0} x p)) (ite {0} (forall (x) x) (forall (x) p)))'.format('(exists (x) x)')),
    ('branches-not-bool', '(= (forall (i) (ite p i 1)) (ite p (forall (i) i) (forall (i) 1)))'),
    ('let-name', '(= (forall (x) (ite {0} x p)) (ite {0} (forall (x) x) (forall (x) p)))'.format('(let ((x p)) x)')),
    ('exists', '(= (exists (x) (ite p x q)) (ite p (exists (x) x) (exists (x) q)))', 2, WHOLE),
    ('left-exists', '(= (exists (x) (ite p x q)) %s)' % ITE_OUT, 2, WHOLE),
    ('left-choice', '(= (choice (x) (ite p x q)) %s)' % ITE_OUT, 2, WHOLE), ('left-ite', '(= (ite p x q) %s)' % ITE_OUT, 2, WHOLE),
    ('left-body', '(= (forall (x) p) %s)' % ITE_OUT, 2, WHOLE), ('right', '(= %s p)' % ITE, 2, WHOLE),
    ('sides-swapped', '(= %s %s)' % (ITE_OUT, ITE), 2, WHOLE), ('no-equality', '(xor %s %s)' % (ITE, ITE_OUT), 2, WHOLE),
    ('equals-of-three', '(= %s %s %s)' % (ITE, ITE_OUT, ITE_OUT), 2, WHOLE), ('equals-of-one', '(= %s)' % ITE, 2, WHOLE),
    ('left-ite-of-two', '(= (forall (x) (ite p x)) %s)' % ITE_OUT, 2, WHOLE),
    ('left-ite-of-four', '(= (forall (x) (ite p x q q)) %s)' % ITE_OUT, 2, WHOLE),
    ('right-ite-of-two', '(= %s (ite p (forall (x) x)))' % ITE, 2, WHOLE),
    ('right-ite-of-four', '(= %s (ite p (forall (x) x) (forall (x) q) (forall (x) q)))' % ITE, 2, WHOLE),
    ('conditions', '(= %s (ite q (forall (x) x) (forall (x) q)))' % ITE, 2, WHOLE),
    ('condition-quantified', '(= %s (ite (forall (x) p) (forall (x) x) (forall (x) q)))' % ITE, 2, WHOLE),
    ('second-body', '(= %s (ite p (forall (x) q) (forall (x) q)))' % ITE, 2, WHOLE),
    ('third-body', '(= %s (ite p (forall (x) x) (forall (x) x)))' % ITE, 2, WHOLE),
    ('branches-swapped', '(= %s (ite p (forall (x) q) (forall (x) x)))' % ITE, 2, WHOLE),
    ('second-branch', '(= %s (ite p x (forall (x) q)))' % ITE, 2, WHOLE),
    ('third-branch', '(= %s (ite p (forall (x) x) q))' % ITE, 2, WHOLE),
    ('second-branch-exists', '(= %s (ite p (exists (x) x) (forall (x) q)))' % ITE, 2, WHOLE),
    ('third-branch-lambda', '(= %s (ite p (forall (x) x) (lambda (x) q)))' % ITE, 2, WHOLE),
    ('before-6', '(= %s (ite p (forall () x) (forall (x) p)))' % ITE, 2, WHOLE),
    ('second', '(= %s (ite p (forall () x) (forall (x) q)))' % ITE, 6, ITE, '(forall () x)'),
    ('third', '(= %s (ite p (forall (x) x) (forall (x x) q)))' % ITE, 6, ITE, '(forall (x x) q)'),
    ('second-before-third', '(= %s (ite p (forall (x y) x) (forall () q)))' % ITE, 6, ITE, '(forall (x y) x)'),
    ('order', '(= (forall (x y) (ite p x y)) (ite p (forall (x y) x) (forall (y x) y)))', 6,
     '(forall (x y) (ite p x y))', '(forall (y x) y)'),
    ('other-sort', "(= %s (ite p (forall (x') x) (forall (x) q)))" % ITE, 6, ITE, "(forall (x') x)"),
    ('before-12', '(= (forall (x) (ite x x q)) (ite x (forall (x) x) (forall () q)))', 6, '(forall (x) (ite x x q))', '(forall () q)'),
    ('condition', '(= (forall (x) (ite x p q)) (ite x (forall (x) p) (forall (x) q)))', 12, 'x', 'x'),
    *(('let-' + name, '(= (forall (x) (ite {0} x p)) (ite {0} (forall (x) x) (forall (x) p)))'.format(term), 12, 'x', term)
      for name, term in (('value', '(let ((y x)) p)'), ('value-of-its-own-name', '(let ((x x)) x)'))),
    ('first-of-the-list', '(= (forall (z y x) (ite {0} p q)) (ite {0} (forall (z y x) p) (forall (z y x) q)))'.format('(and x y)'), 12,
     'y', '(and x y)'),
    ('second-sort', "(= (forall (x' x) (ite (not x) p q)) (ite (not x) (forall (x' x) p) (forall (x' x) q)))", 12, 'x', '(not x)'),
]


def distributions():
    return steps(4, DISTRIBUTIONS)


def splits():
    return steps(5, SPLITS)


def ites():
    return steps(6, ITES)


COLLECTIONS = {'rule4': [distributions], 'rule5': [splits], 'rule6': [ites]}
