"""Step files and what the program `steps` prints on them, written down by hand from document 01.

A case is (name, bytes, text). A row is a rule, a conclusion, the code (0 if it is left out) and the numbers that it carries, as in
formulas.py; the rows of the other cases_*.py are tried here too, many in one pool, those with a let in a pool of their own: a file
with a let is not asked of the Rust.
"""
from cases.cases_clauses import Parts
from cases.cases_clausification import ABSENT, CLAUSES, EMPTY, FORMS, VARIABLES, clausification
from cases.cases_examples import EXAMPLES
from cases.cases_free import X, deep_lets
from cases.cases_miniscope import DISTRIBUTIONS, ITES, SPLITS
from cases.cases_rules import JOINED, JOINS, REMOVALS, join, sides
from pools.formulas import BIG, Formulas, carried
from pools.packed_pool import Pool, packed, step_file, words

WHOLE_TAGS = [1, 21, 0, 0, 23, 0, 0, 0, 0, 23, 0, 0, 0, 0, 39, 0, 0, 0]
WHOLE_VALUES = [0, 2, 0, 1, 4, 0, 1, 1, 0, 4, 0, 4, 1, 0, 3, 0, 9, 4]
WHOLE_CASE = step_file(WHOLE_TAGS, WHOLE_VALUES, [(1, 14), (2, 14), (3, 14)])
VARIABLE = packed([1], [21, 0, 1])  # Bool, and a variable at 1
WRONG_LENGTH, TOO_MANY = '0 14 0 0\n', '0 30 0 0\n'
CHAIN = 4  # the cells of `(and t t)`


def lines(answers):
    return ''.join('%d %d %d %d\n' % (k, *answer) for k, answer in enumerate(answers, 1))


def of_steps(name, tags, values, answered):
    """`answered` are steps with their answers: rule, place, code, first, second."""
    return name, step_file(tags, values, [step[:2] for step in answered]), lines(step[2:] for step in answered)


# ---- the form of the file
def lengths():
    yield 'whole-case', WHOLE_CASE, '1 0 0 0\n2 0 0 0\n3 2 14 0\n'
    for name, file in (
            ('byte-short', WHOLE_CASE[:-1]), ('byte-long', WHOLE_CASE + b'\0'), ('word-short', WHOLE_CASE[:-4]),
            ('word-long', WHOLE_CASE + bytes(4)), ('twice', WHOLE_CASE * 2), ('head-alone', WHOLE_CASE[:8]),
            ('9-bytes', WHOLE_CASE[:9]), ('largest-head-alone', words(8192, 256)),
            ('n-a-cell-less', words(17, 3) + WHOLE_CASE[8:]), ('n-a-cell-more', words(19, 3) + WHOLE_CASE[8:]),
            ('r-a-step-less', words(18, 2) + WHOLE_CASE[8:]), ('r-a-step-more', words(18, 4) + WHOLE_CASE[8:]),
            # N is not read
            ('empty', b''), ('1-byte', b'\xff'), ('4-bytes-largest-n', words(BIG)), ('7-bytes-largest-n', words(BIG, BIG)[:7])):
        yield 'length-' + name, file, WRONG_LENGTH


def too_many():
    cells = [1] + [0] * 8192, [0] * 8193
    yield 'n-8193', step_file(*cells, [(1, 0)]), TOO_MANY
    yield 'n-8193-head-alone', words(8193, 1), TOO_MANY
    yield 'r-257', step_file(*VARIABLE, [(1, 1)] * 257), TOO_MANY
    yield 'r-257-head-alone', words(4, 257), TOO_MANY
    yield 'r-257-of-no-cells', words(0, 257), TOO_MANY
    for name, n, r in (('n-largest', BIG, 0), ('r-largest', 0, BIG), ('n-and-r-largest', BIG, BIG),
                       ('n-past-u16', 65536 + 18, 3), ('r-past-u16', 18, 65536 + 3),
                       ('n-of-a-length-past-u32', 1 << 29, 3), ('r-of-a-length-past-u32', 18, 1 << 29)):
        yield name, words(n, r) + WHOLE_CASE[8:], TOO_MANY
    yield 'n-8193-byte-short', step_file(*cells, [(1, 0)])[:-1], TOO_MANY


def without():
    """No steps, or no cells."""
    yield 'r-0', step_file(*VARIABLE), ''
    yield 'r-0-n-0', words(0, 0), ''
    yield 'r-0-on-a-bad-pool', step_file([14, 0], [BIG, BIG]), ''
    yield of_steps('n-0', [], [], [(1, 0, 14, 0, 0)])
    yield of_steps('n-0-unknown-rule', [], [], [(7, BIG, 14, 0, 0)])
    yield of_steps('n-0-256-steps', [], [], [(k % 8, k, 14, 0, 0) for k in range(256)])


# ---- the checks before the rule
def bad_pools():
    for name, headers, code, place in (
            ('14-header', [[1], [21, 0, 1], [14, 0]], 14, 4), ('14-no-bool', [[2]], 14, 0),
            ('14-later-place', [[1], [34, 0, 1]], 14, 1),
            ('15', [[1], [21, 0, 1], [21, 0, 1]], 15, 4), ('16', [[1], [2], [36, 1]], 16, 2),
            ('14-before-15-and-16', [[1], [2], [36, 1], [36, 1], [14]], 14, 6), ('15-before-16', [[1], [2], [36, 1], [36, 1]], 15, 4)):
        answered = [(rule, 1, code, place, 0) for rule in (7, 0, BIG, 1, 2, 3, 4, 5, 6)] + [(1, BIG, code, place, 0)]
        yield of_steps('unknown-rule-on-a-bad-pool-' + name, *packed(*headers), answered)
    yield of_steps('cells-past-n', [1, 36, 0], [0, 2, 0], [(rule, 1, 14, 1, 0) for rule in (7, 1, 3)])


def rules_and_places():
    """18 before 17. A place past the count is none, whatever the 8,192 cells hold there."""
    unknown = (0, 7, 8, 255, 256, 257, 259, 65536 + 1, 65536 + 3, 1 << 31, BIG)
    yield of_steps('unknown-rules', *VARIABLE, [
        (rule, place, 18, rule, 0) for rule in unknown for place in (1, 0, BIG)])
    places = (0, 2, 3, 4, 5, 8191, 8192, 65536 + 1, BIG)
    yield of_steps('no-terms', *VARIABLE, [
        (rule, place, 17, place, 0) for place in places for rule in (1, 2, 3, 4, 5, 6)])


# ---- the rules
def of_rows(name, rows):
    pool = Formulas(*(row[1] for row in rows))
    return of_steps(name, pool.tags, pool.values, answered_rows(pool, rows))


def answered_rows(pool, rows):
    """Steps with their answers, as places in a pool that holds the conclusions."""
    found = []
    for rule, text, *answer in rows:
        t, (code, *numbers) = pool.there(text), answer or [0]
        numbers = [carried(pool, t, code, *item) for item in enumerate(numbers)]
        found.append((rule, t, code, *numbers, *[0] * (2 - len(numbers))))
    return found


def m_cases():
    """Document 01's test formulas."""
    def clauses(body, *right):
        return [(3, clausification('', body, '', clause)) for clause in right]

    yield of_rows('m-cases', [
        (1, join('x', 'y x', 'x y x')), (1, join('x', 'y x', 'x y'), 7, *sides('x', 'y x', 'x y')),
        (1, join('x', 'x', 'x')), (1, join('x', 'x', 'x x'), 7, *sides('x', 'x', 'x x')),
        *clauses('(= p q)', '(or (not p) q)', '(or (not q) p)'), *clauses('(ite p q r)', '(or (not p) q)', '(or p r)'),
        *clauses('(not (ite p q r))', '(or p (not p))', '(or p (not r))', '(or (not q) (not p))', '(or (not q) (not r))'),
        (3, clausification('', '(or a (and))', '', 'a'), 10, 'a'), (3, clausification('', '(and (or))', '', 'p'), 13),
        *clauses('(= p q r)', '(= p q r)')])
    pool = Parts()
    many = pool.doubled('And', 11, pool.p)
    answered = []
    for body, code in ((many, 0), (pool.op('And', many, pool.p), 32)):
        left = pool.op('Not', pool.binder('forall', body, []))
        answered.append((3, pool.op('Or', left, pool.binder('forall', pool.p, [])), code, 0, 0))
    yield of_steps('2048-and-2049-clauses', pool.tags, pool.values, answered)


def with_lets_apart(name, rows):
    for more, has in (('', False), ('-lets', True)):
        chosen = [row for row in rows if ('(let ' in row[1]) is has]
        if chosen:
            yield of_rows(name + more, chosen)


def rows_of_rules():
    yield of_rows('rule1-lists', [
        (1, join(outer, inner, right), *(() if right in accepted else (7, *sides(outer, inner, right))))
        for outer, inner, accepted, refused in JOINED for right in accepted + refused])
    for name, rule, rows in (('rule1', 1, JOINS), ('rule2', 2, REMOVALS), ('rule3-forms', 3, FORMS), ('rule4', 4, DISTRIBUTIONS),
                             ('rule5', 5, SPLITS), ('rule6', 6, ITES)):
        yield from with_lets_apart(name, [(rule, *row[1:]) for row in rows])
    yield from with_lets_apart('rule3-clauses', [
        *((3, clausification('', body, '', clause)) for _, body, clause in CLAUSES),
        *((3, clausification('', body, '', clause), 10, clause) for _, body, clause in ABSENT),
        *((3, clausification('', body, '', 'p'), 13) for _, body in EMPTY)])
    yield from with_lets_apart('rule3-variables', [(3, clausification(*row[1:5]), *row[5:]) for row in VARIABLES])
    yield from with_lets_apart('examples', [(rule, text) for rule, _, text in EXAMPLES])


def lets():
    """Rule 2 on lets 2,000 deep over x: x is free in the whole, and another variable is not."""
    pool = Pool()
    x = pool.var(X)
    t = deep_lets(pool, x, 2000)
    answered = []
    for name, code in ((X, 3), (X + 1, 0)):
        conclusion = pool.op('Equals', pool.binder('forall', t, [(name, 0)]), t)
        answered.append((2, conclusion, code, t if code else 0, 0))
    yield of_steps('lets-2000-deep', pool.tags, pool.values, answered)


# ---- a full pool
FULL = [
    (1, join('x', 'y', 'x y')), (2, '(= (forall (x) p) p)'), (3, clausification('x', '(and p (or x q))', 'x', '(or x q)')),
    (4, '(= (forall (x) (and x p)) (and (forall (x) x) (forall (x) p)))'), (5, '(= (forall (x) (or x p)) (or (forall (x) x) p))'),
    (6, '(= (forall (x) (ite p x q)) (ite p (forall (x) x) (forall (x) q)))'),
    (3, clausification('', '(= p q)', '', 'p'), 31),  # whose normal form is new
    (1, '(= (forall (x) (forall (y) p)) p)', 3, 'p'), (2, '(= (forall (x) x) (forall () x))', 9, 'x'),
]


def full_pool(size, steps):
    """FULL again and again, an unknown rule, a place past the cells and a term of no rule's form between, in a pool of so many cells:
    `(and t t)` over p, and a last term that fills it."""
    pool = Formulas(*(row[1] for row in FULL))
    rows, top = answered_rows(pool, FULL), pool.there('p')
    while size - len(pool.tags) >= 2 * CHAIN:
        top = pool.op('And', top, top)
    pool.op('Cl', *[top] * (size - len(pool.tags) - 2))
    assert len(pool.tags) == size
    rows += [(7, top, 18, 7, 0), (2, size, 17, size, 0), *((rule, top, 2, top, 0) for rule in range(1, 7))]
    return pool.tags, pool.values, (rows * steps)[:steps]


def full_pools():
    for size, steps in ((8192, 256), (8191, 20)):
        name, file, text = of_steps('%d-cells-%d-steps' % (size, steps), *full_pool(size, steps))
        yield name, file, text
        if size == 8192:
            yield 'length-largest-byte-short', file[:-1], WRONG_LENGTH
            yield 'length-largest-byte-long', file + b'\0', WRONG_LENGTH
            yield 'length-past-any', file + bytes(40000), WRONG_LENGTH


def cases():
    for group in (lengths, too_many, without, bad_pools, rules_and_places, m_cases, rows_of_rules, lets, full_pools):
        yield from group()
