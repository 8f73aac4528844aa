"""Call files on the check of a step: the checks before the rule, rule 1 and rule 2.

A case is as in cases_checks.py, with the whole output in the end. A row is a name, a conclusion, the code (0 if it is left
out) and the numbers that it carries, as in formulas.py. The cells past the count hold other numbers, which stay.
"""
from pools.formulas import BIG, WHOLE, Formulas, step, steps
from pools.packed_pool import call_file, packed, words
from references.reference_program import printed

JUNK = [BIG, 36, 0, 7]
VARIABLE = [[1], [21, 0, 1]]  # Bool, and a variable at 1


# ---- the checks before the rule
def on_cells(name, answer, tags, values, n, rule, conclusion):
    """Rule 3 zeroes the cells past n, but with 30."""
    keeps = rule != 3 or answer[0] == 30
    left = [array if keeps else array[:n] + [0] * (len(array) - n) for array in (tags, values)]
    return (name, answer, call_file(0, tags, values, n, rule, conclusion=conclusion),
            printed((*answer, 0), tags=left[0], values=left[1]))


def pools():
    """30, 14, 15 and 16 come before 18, 1 and 17, whatever the rule and the conclusion."""
    tags, values = packed(*VARIABLE)
    for rule in (1, 2, 3, 4, 5, 6, 7):
        for name, answer, headers, n in (
                ('14-header', (14, 1, 0), [[1], [14]], 2), ('14-n-0', (14, 0, 0), VARIABLE, 0),
                ('14-cells-past-n', (14, 1, 0), [[1], [36, 0, 0]], 3), ('15', (15, 1, 0), [[1], [1]], 2),
                ('16', (16, 2, 0), [[1], [2], [36, 1]], 4), ('30-n-past-arrays', (30, 0, 0), VARIABLE, 9)):
            bad = packed(*headers)
            yield on_cells('rule%d-%s' % (rule, name), answer, bad[0] + JUNK, bad[1] + JUNK, n, rule, [1])
    for name, first, second, n in (('more-tags', [9], [], 4), ('more-values', [], [9], 4), ('largest-n', JUNK, JUNK, BIG),
                                   ('unequal-with-n-0', [9], [], 0)):
        for rule in (1, 3, 7):
            yield on_cells('rule%d-30-%s' % (rule, name), (30, 0, 0), tags + first, values + second, n, rule, [1, 1])
    yield on_cells('rule3-30-n-8193', (30, 0, 0), [1] + [7] * 8299, [0] + [7] * 8299, 8193, 3, [1])
    yield on_cells('rule3-14-before-1-and-17', (14, 0, 0), [14, 7], [0, 7], 1, 3, [BIG, BIG])
    yield on_cells('rule7-14-of-no-cells', (14, 0, 0), [], [], 0, 7, [0])


def rules_and_places():
    """18, then 1, then 17. What stands past the count is no term."""
    tags, values = packed(*VARIABLE)
    late = packed(*VARIABLE, [34, 0, 1])

    def case(name, answer, rule, conclusion):
        return on_cells('rule%d-%s' % (rule, name), answer, tags + JUNK, values + JUNK, 4, rule, conclusion)

    for rule in (0, 7, 257, 259, 65539, 1 << 31, BIG):
        yield case('18', (18, rule, 0), rule, [1])
    yield case('18-before-1', (18, 0, 0), 0, [])
    yield case('18-before-1', (18, 7, 0), 7, [1, 1])
    yield case('18-before-17', (18, 7, 0), 7, [BIG])
    for rule in (1, 2, 3, 4, 5, 6):
        for count in (0, 2, 3):
            yield case('1-of-%d' % count, (1, count, 0), rule, [1] * count)
        yield case('1-before-17', (1, 2, 0), rule, [BIG, 0])
        for name, place in (('sort', 0), ('cell', 2), ('n', 4), ('junk', 5), ('array-end', 8), ('past-u16', 65537),
                            ('largest', BIG)):
            yield case('17-' + name, (17, place, 0), rule, [place])
        yield on_cells('rule%d-17-term-past-n' % rule, (17, 4, 0), *late, 4, rule, [4])
    for rule in (1, 3):
        yield case('1-of-9000', (1, 9000, 0), rule, [BIG] * 9000)


def files():
    """X is the number of places after the values. The polarity and Y are not used."""
    pool = Formulas('p')
    t, arrays = pool.root, (pool.tags, pool.values)
    for x in (0, 2, 9000, 9001, BIG):
        yield 'step-file-x-%d-and-1-place' % x, None, call_file(0, *arrays, place=1, x=x, conclusion=[t])
    yield 'step-file-9001-places', None, call_file(0, *arrays, place=1, conclusion=[t] * 9001)
    yield 'step-file-byte-short', None, call_file(0, *arrays, place=1, conclusion=[t])[:-1]
    yield 'step-file-word-long', None, call_file(0, *arrays, place=1, conclusion=[t]) + bytes(4)
    yield 'step-file-9001-tags', None, call_file(0, [1] + [0] * 9000, [], n=1, place=1, conclusion=[t])
    yield 'step-file-9001-values', None, call_file(0, [], [0] * 9001, place=1, conclusion=[t])
    yield 'step-file-unused-numbers', (2, t, 0), call_file(0, *arrays, None, 1, BIG, y=BIG, conclusion=[t])
    largest = call_file(0, [0] * 9000, [0] * 9000, n=9, place=1, conclusion=[0] * 9000)
    yield 'step-file-9000-of-each', (14, 0, 0), largest
    yield 'step-file-larger-than-any', None, largest + b'\0'
    yield 'step-file-length-past-u32', None, words(0, 0, 0, 0, 1, 0, 1 << 30, 0)  # in 32 bits it would come round to 32 bytes
    for call in (1, 2, 3, 4):
        yield 'step-file-place-after-call-%d' % call, None, call_file(call, *arrays, place=t, x=1, conclusion=[t])


def whole_case():
    """Document 01's, on its very cells."""
    tags = [1, 21, 0, 0, 23, 0, 0, 0, 0, 23, 0, 0, 0, 0, 39, 0, 0, 0]
    values = [0, 2, 0, 1, 4, 0, 1, 1, 0, 4, 0, 4, 1, 0, 3, 0, 9, 4]
    for rule, answer in ((1, (0, 0, 0)), (2, (0, 0, 0)), (3, (2, 14, 0))):
        yield on_cells('rule%d-%d-whole-case' % (rule, answer[0]), answer, tags, values, 18, rule, [14])


# ---- rule 1
# outer list, inner list, right lists that are accepted and right lists that are refused with 7; the first two are document
# 01's M cases. x' is another variable than x.
JOINED = [
    ('x', 'y x', ['x y x'], ['x y', 'y x', 'x x y']), ('x', 'x', ['x'], ['x x', '', "x'"]),
    ('x', 'y', ['x y'], ['y x', 'x', 'y', '', 'x y z', 'z x y', 'x x y', 'x y y', 'x z']),
    ('', '', [''], ['x']), ('', 'x', ['x'], ['', 'x x']), ('x', '', ['x'], ['']),
    ('x x', 'x x', ['x'], ['x x', 'x x x x']), ('x x x', '', ['x'], ['x x']), ('', 'x x y y', ['x y'], ['x x y y']),
    ('x y x', '', ['x y x'], ['x y', 'y x']), ('', 'x y x', ['x y x'], ['x y', 'y x']),
    ('y x', 'x z', ['y x z'], ['y x x z']), ('x y', 'x y', ['x y x y'], ['x y']), ('x y', 'y x', ['x y x'], ['x y', 'x y y x']),
    ('x y y', 'y x x', ['x y x'], ['x y']), ('x', "x'", ["x x'"], ['x', "x'", "x' x"]),
    ("x x'", "x x'", ["x x' x x'"], ["x x'"]), ("x x'", "x' x", ["x x' x"], ["x x'", "x x' x' x"]),
    ("x'", "x'", ["x'"], ["x' x'", 'x']),
]


def sides(outer, inner, right, body='(or x y)', q='forall'):
    return '({0} ({1}) ({0} ({2}) {3}))'.format(q, outer, inner, body), '({0} ({1}) {2})'.format(q, right, body)


def join(*lists, **form):
    return '(= %s %s)' % sides(*lists, **form)


def joined_lists():
    def shown(names):
        return names.replace(' ', '').replace("'", 'i') or 'none'

    for outer, inner, accepted, refused in JOINED:
        for right in accepted + refused:
            name = '%s-with-%s-right-%s' % (shown(outer), shown(inner), shown(right))
            answer = () if right in accepted else (7, *sides(outer, inner, right))
            yield step(1, name, join(outer, inner, right), *answer)
    yield step(1, 'exists', join('x', 'y', 'x y', q='exists'))
    yield step(1, 'exists-repeat-kept', join('x', 'y x', 'x y x', q='exists'))
    yield step(1, 'all-repeats-dropped', join('x', 'y x', 'x y', q='exists'), 7, *sides('x', 'y x', 'x y', q='exists'))


JOINS = [
    ('body-of-many-kinds', join('x', 'y', 'x y', body='(let ((x y)) (f (choice (z) (xor z x))))')),
    ('body-lambda', join('x', 'y', 'x y', body='(lambda (x) y)')), ('body-not-bool', join('x', 'i', 'x i', body='i')),
    ('shadowed', join('x', 'x y', 'x y', body='x')),
    ('two-of-three', '(= (forall (x) (forall (y) (forall (z) p))) (forall (x y) (forall (z) p)))'),
    ('variable', 'p', 2, WHOLE), ('and', '(and p q)', 2, WHOLE), ('forall', '(forall (x) (forall (x) x))', 2, WHOLE),
    ('equals-of-none', '(=)', 2, WHOLE), ('equals-of-one', '(= (forall (x) (forall (y) p)))', 2, WHOLE),
    ('equals-of-three', '(= (forall (x) (forall (y) p)) (forall (x y) p) (forall (x y) p))', 2, WHOLE),
    ('distinct', '(distinct (forall (x) (forall (y) p)) (forall (x y) p))', 2, WHOLE),
    ('let', '(let ((x p)) %s)' % join('x', 'y', 'x y'), 2, WHOLE),
    ('left', '(= p (forall (x y) p))', 3, 'p'), ('body', '(= (forall (x) p) (forall (x y) p))', 3, 'p'),
    ('right', '(= (forall (x) (forall (y) p)) p)', 3, 'p'), ('left-before-right', '(= p q)', 3, 'p'),
    ('body-before-right', '(= (forall (x) p) q)', 3, 'p'),
    ('left-choice', '(= (choice (x) (forall (y) p)) (forall (x y) p))', 3, '(choice (x) (forall (y) p))'),
    ('left-let', '(= (let ((x p)) (forall (y) p)) (forall (x y) p))', 3, '(let ((x p)) (forall (y) p))'),
    ('body-choice', '(= (forall (x) (choice (y) p)) (forall (x y) p))', 3, '(choice (y) p)'),
    ('body-lambda', '(= (forall (x) (lambda (y) p)) (forall (x y) p))', 3, '(lambda (y) p)'),
    ('right-choice', '(= (forall (x) (forall (y) p)) (choice (x y) p))', 3, '(choice (x y) p)'),
    ('right-before-4', '(= (forall (x) (exists (y) p)) p)', 3, 'p'),
    ('inner-exists', '(= (forall (x) (exists (y) p)) (forall (x y) p))', 4, 23, 24),
    ('inner-forall', '(= (exists (x) (forall (y) p)) (exists (x y) p))', 4, 24, 23),
    ('outer-alone', '(= (forall (x) (exists (y) p)) (exists (x y) p))', 4, 23, 24),
    ('right-exists', '(= (forall (x) (forall (y) p)) (exists (x y) p))', 4, 23, 24),
    ('right-forall', '(= (exists (x) (exists (y) p)) (forall (x y) p))', 4, 24, 23),
    ('before-5', '(= (forall (x) (forall (y) p)) (exists (x y) q))', 4, 23, 24),
    ('bodies', '(= (forall (x) (forall (y) p)) (forall (x y) q))', 5, 'p', 'q'),
    ('outer-body', '(= (forall (x) (forall (y) p)) (forall (x) (forall (y) p)))', 5, 'p', '(forall (y) p)'),
    ('three-in-one', '(= (forall (x) (forall (y) (forall (z) p))) (forall (x y z) p))', 5, '(forall (z) p)', 'p'),
    ('before-7', '(= (forall (x) (forall (y) (not p))) (forall (z) q))', 5, '(not p)', 'q'),
    ('renamed', '(= (forall (x) (forall (y) x)) (forall (z y) z))', 5, 'x', 'z'),
]

# ---- rule 2
REMOVALS = [
    ('one', '(= (forall (x y) x) (forall (x) x))'), ('none', '(= (forall (x y) x) (forall (x y) x))'),
    ('exists', '(= (exists (x y) y) (exists (y) y))'), ('all-under-an-empty-list', '(= (forall (x) p) (forall () p))'),
    ('all', '(= (forall (x y) p) p)'), ('all-exists', '(= (exists (x) p) p)'), ('empty-list', '(= (forall () p) p)'),
    ('empty-list-kept', '(= (forall () x) (forall () x))'),
    ('right-in-another-order', '(= (forall (x y z) (and x y)) (forall (y x) (and x y)))'),
    ('right-repeats', '(= (forall (x y) x) (forall (x x y x) x))'), ('left-repeats', '(= (forall (x x y x) x) (forall (x) x))'),
    ('shadowed', '(= (forall (x) (forall (x) x)) (forall () (forall (x) x)))'),
    ('right-is-a-quantified-body', '(= (forall (x) (exists (x) x)) (exists (x) x))'),
    ('right-is-a-body-of-another-list', '(= (forall (x) (exists (y z) p)) (exists (y z) p))'),
    ('other-sort-removed', "(= (forall (x x') x) (forall (x) x))"), ('other-sort', "(= (forall (x') x) x)"),
    ('sorts-in-another-order', "(= (forall (x x') (= x' x)) (forall (x' x) (= x' x)))"),
    ('let-value', '(= (forall (x z) (let ((y x)) p)) (forall (x) (let ((y x)) p)))'),
    ('let-value-bound-inside', '(= (forall (x) (exists (x) (let ((y x)) y))) (exists (x) (let ((y x)) y)))'),
    ('let-name', '(= (forall (x y) (let ((x p)) (and x y))) (forall (y) (let ((x p)) (and x y))))'),
    ('choice', '(= (forall (x y) (choice (x) (and x y))) (forall (y) (choice (x) (and x y))))'),
    ('lambda', '(= (exists (x y) (lambda (y) (f y))) (lambda (y) (f y)))'),
    ('body-not-bool', '(= (forall (i j) (+ i 1)) (forall (i) (+ i 1)))'),
    ('or', '(or (forall (x) p) p)', 2, WHOLE), ('equals-of-three', '(= (forall (x) p) p p)', 2, WHOLE),
    ('equals-of-one', '(= (forall (x) p))', 2, WHOLE), ('forall', '(forall (x) p)', 2, WHOLE),
    ('left', '(= p (forall (x) p))', 3, 'p'), ('left-before-right', '(= p q)', 3, 'p'),
    ('left-choice', '(= (choice (x) p) p)', 3, '(choice (x) p)'), ('left-lambda', '(= (lambda (x) p) p)', 3, '(lambda (x) p)'),
    ('left-let', '(= (let ((x p)) p) p)', 3, '(let ((x p)) p)'),
    ('right', '(= (forall (x) p) q)', 3, 'q'), ('right-of-an-empty-list', '(= (forall () p) q)', 3, 'q'),
    ('right-is-the-body', '(= (forall (x) x) x)', 3, 'x'), ('one-of-two-free', '(= (forall (y x) x) x)', 3, 'x'),
    ('right-is-a-choice', '(= (forall (y) (choice (x) y)) (choice (x) y))', 3, '(choice (x) y)'),
    ('right-is-a-let', '(= (forall (x) (let ((y p)) x)) (let ((y p)) x))', 3, '(let ((y p)) x)'),
    ('let-of-another-sort', '(= (forall (x) (let ((x 1)) x)) (let ((x 1)) x))', 3, '(let ((x 1)) x)'),
    *(('let-' + name, '(= (forall (x) {0}) {0})'.format(term), 3, term) for name, term in (
        ('value', '(let ((y x)) p)'), ('second-value', '(let ((y p) (z x)) p)'), ('value-of-its-own-name', '(let ((x x)) x)'),
        ('values-are-parallel', '(let ((x p) (y x)) y)'), ('repeats-a-name', '(let ((y x) (y p)) y)'),
        ('in-a-value', '(let ((y (let ((z x)) z))) y)'), ('in-an-argument', '(f (let ((y x)) y))'),
        ('under-choice', '(choice (y) (let ((z x)) y))'))),
    ('exists', '(= (forall (x) p) (exists (x) p))', 4, 23, 24), ('forall', '(= (exists (x) p) (forall () p))', 4, 24, 23),
    ('before-5', '(= (forall (x) p) (exists (x) q))', 4, 23, 24),
    ('right-is-the-body', '(= (forall (x) (exists (y) x)) (exists (y) x))', 4, 23, 24),
    ('bodies', '(= (forall (x) p) (forall () q))', 5, 'p', 'q'), ('renamed', '(= (forall (x) x) (forall (y) y))', 5, 'x', 'y'),
    ('right-is-the-body', '(= (forall (x) (forall (y) x)) (forall (y) x))', 5, '(forall (y) x)', 'x'),
    ('before-8', '(= (forall (x) p) (forall (y) q))', 5, 'p', 'q'),
    ('new', '(= (forall (x) p) (forall (x y) p))', 8, 'y'), ('empty-list', '(= (forall () p) (forall (y) p))', 8, 'y'),
    ('first-of-two', '(= (forall (x) p) (forall (z x y) p))', 8, 'z'),
    ('other-sort', "(= (forall (x) x) (forall (x x') x))", 8, 'x'), ('before-9', '(= (forall (x) x) (forall (y) x))', 8, 'y'),
    ('missing', '(= (forall (x y) x) (forall (y) x))', 9, 'x'), ('all', '(= (forall (x) x) (forall () x))', 9, 'x'),
    ('first-of-the-left-list', '(= (exists (y x) (and x y)) (exists () (and x y)))', 9, 'y'),
    ('first-that-is-free', '(= (forall (z y x) (and x y)) (forall () (and x y)))', 9, 'y'),
    ('first-that-is-not-bound', '(= (forall (x y) (and x y)) (forall (x x) (and x y)))', 9, 'y'),
    ('other-sort', "(= (forall (x x') (= x' x)) (forall (x) (= x' x)))", 9, 'x'),
    ('below-choice', '(= (forall (x) (choice (y) (and x y))) (forall () (choice (y) (and x y))))', 9, 'x'),
    ('let-value', '(= (forall (y x) (let ((y x)) y)) (forall () (let ((y x)) y)))', 9, 'x'),
    ('let-value-of-another-sort', "(= (forall (x x') (let ((y x')) p)) (forall (x) (let ((y x')) p)))", 9, 'x'),
]


def joins():
    return steps(1, JOINS)


def removals():
    return steps(2, REMOVALS)


COLLECTIONS = {'steps': [pools, rules_and_places, files, whole_case], 'rule1': [joined_lists, joins], 'rule2': [removals]}
