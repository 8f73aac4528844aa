"""Call files on the normal form. A case is as in cases_checks.py, with the whole output in the end where it is
written down by hand: every new term in its order, and where the result stands."""
from pools.formulas import BIG, Formulas, normal, normal_refused
from pools.packed_pool import Pool, call_file, packed

ONLY = ['(not p)', '(or (not p) q)', '(not q)', '(or (not q) p)', '(and (or (not p) q) (or (not q) p))']  # of (= p q)


def connectives():
    """A formula, then its new terms at true and at false polarity; a text for terms that stand already."""
    for name, text, true, false in (
            ('variable', 'p', 'p', ['(not p)']),
            ('not', '(not p)', '(not p)', 'p'),
            ('not-not', '(not (not p))', 'p', '(not p)'),
            ('three-nots', '(not (not (not p)))', '(not p)', 'p'),
            ('and', '(and p q)', '(and p q)', ['(not p)', '(not q)', '(or (not p) (not q))']),
            ('and-of-none', '(and)', '(and)', ['(or)']),
            ('and-of-one', '(and p)', '(and p)', ['(not p)', '(or (not p))']),
            ('and-of-three', '(and p q p)', '(and p q p)', ['(not p)', '(not q)', '(or (not p) (not q) (not p))']),
            ('or', '(or p q)', '(or p q)', ['(not p)', '(not q)', '(and (not p) (not q))']),
            ('or-of-none', '(or)', '(or)', ['(and)']),
            ('or-of-one', '(or p)', '(or p)', ['(not p)', '(and (not p))']),
            ('or-of-three', '(or p p q)', '(or p p q)', ['(not p)', '(not q)', '(and (not p) (not p) (not q))']),
            ('implies', '(=> p q)', ['(not p)', '(or (not p) q)'], ['(not q)', '(and p (not q))']),
            ('equals', '(= p q)', ONLY,
             ['(not q)', '(and p (not q))', '(not p)', '(and q (not p))', '(or (and p (not q)) (and q (not p)))']),
            ('equals-of-one-term', '(= p p)', ['(not p)', '(or (not p) p)', '(and (or (not p) p) (or (not p) p))'],
             ['(not p)', '(and p (not p))', '(or (and p (not p)) (and p (not p)))']),
            ('equals-right-not-bool', '(= p i)',
             ['(not p)', '(or (not p) i)', '(not i)', '(or (not i) p)', '(and (or (not p) i) (or (not i) p))'],
             ['(not i)', '(and p (not i))', '(not p)', '(and i (not p))', '(or (and p (not i)) (and i (not p)))']),
            ('ite', '(ite p q r)', ['(not p)', '(or (not p) q)', '(or p r)', '(and (or (not p) q) (or p r))'],
             ['(not q)', '(and p (not q))', '(not p)', '(not r)', '(and (not p) (not r))',
              '(or (and p (not q)) (and (not p) (not r)))']),
            ('ite-of-one-term', '(ite p p p)',
             ['(not p)', '(or (not p) p)', '(or p p)', '(and (or (not p) p) (or p p))'],
             ['(not p)', '(and p (not p))', '(and (not p) (not p))', '(or (and p (not p)) (and (not p) (not p)))']),
            ('ite-not-bool', '(ite p 1 2)', ['(not p)', '(or (not p) 1)', '(or p 2)', '(and (or (not p) 1) (or p 2))'],
             ['(not 1)', '(and p (not 1))', '(not p)', '(not 2)', '(and (not p) (not 2))',
              '(or (and p (not 1)) (and (not p) (not 2)))']),
            ('ite-first-not-bool', '(ite i p q)',
             ['(not i)', '(or (not i) p)', '(or i q)', '(and (or (not i) p) (or i q))'],
             ['(not p)', '(and i (not p))', '(not i)', '(not q)', '(and (not i) (not q))',
              '(or (and i (not p)) (and (not i) (not q)))']),
            ('forall', '(forall (x) (and x p))', '(forall (x) (and x p))',
             ['(not x)', '(not p)', '(or (not x) (not p))', '(exists (x) (or (not x) (not p)))']),
            ('exists', '(exists (x) (or x p))', '(exists (x) (or x p))',
             ['(not x)', '(not p)', '(and (not x) (not p))', '(forall (x) (and (not x) (not p)))']),
            ('forall-empty-list', '(forall () p)', '(forall () p)', ['(not p)', '(exists () (not p))']),
            ('exists-empty-list', '(exists () p)', '(exists () p)', ['(not p)', '(forall () (not p))']),
            ('forall-repeated-pairs', '(forall (x x i x) (=> x p))',
             ['(not x)', '(or (not x) p)', '(forall (x x i x) (or (not x) p))'],
             ['(not p)', '(and x (not p))', '(exists (x x i x) (and x (not p)))']),
            ('quantifiers-nested', '(forall (x) (exists (y i) (forall () (not x))))',
             '(forall (x) (exists (y i) (forall () (not x))))',
             ['(exists () x)', '(forall (y i) (exists () x))', '(exists (x) (forall (y i) (exists () x)))']),
            ('quantifier-under-not', '(not (exists (x) x))', ['(not x)', '(forall (x) (not x))'], '(exists (x) x)')):
        for polarity, found in ((1, true), (0, false)):
            new, result = ([], found) if isinstance(found, str) else (found, None)
            yield normal('normal-%s-%s' % (name, ('false', 'true')[polarity]), text, polarity, new, result)


OPAQUE = {
    'true': '(true)', 'false': '(false)', 'true-with-operand': '(true p)', 'not-of-none': '(not)', 'not-of-two': '(not p q)',
    'implies-of-none': '(=>)', 'implies-of-one': '(=> p)', 'implies-of-three': '(=> p q r)', 'equals-of-none': '(=)',
    'equals-of-one': '(= p)', 'equals-of-three': '(= p q r)', 'equals-left-not-bool': '(= i p)', 'equals-int': '(= i j)',
    'ite-of-two': '(ite p q)', 'ite-of-four': '(ite p q r p)', 'xor': '(xor p (not q))', 'distinct': '(distinct p q)',
    'cl': '(cl p (and q p))', 'less': '(< i 2)', 'sum': '(+ i j)', 'int-variable': 'i', 'number': '5',
    'application': '(f (=> p q))', 'choice': '(choice (x) (=> x p))', 'lambda': '(lambda (x) (not x))',
    'let': '(let ((x (and p q))) (not (or x q)))'}


def opaque():
    for name, text in OPAQUE.items():
        yield normal('normal-opaque-%s-true' % name, text, 1, result=text)
        yield normal('normal-opaque-%s-false' % name, text, 0, ['(not %s)' % text])


def orders():
    """Where the terms of nested connectives go, each once."""
    yield normal('normal-equals-nested', '(= (= p q) r)', 1, [
        '(not q)', '(and p (not q))', '(not p)', '(and q (not p))', '(or (and p (not q)) (and q (not p)))',
        '(or (or (and p (not q)) (and q (not p))) r)', '(not r)',
        '(or (not p) q)', '(or (not q) p)', '(and (or (not p) q) (or (not q) p))',
        '(or (not r) (and (or (not p) q) (or (not q) p)))',
        '(and (or (or (and p (not q)) (and q (not p))) r) (or (not r) (and (or (not p) q) (or (not q) p))))'])
    yield normal('normal-ite-of-implies', '(ite (=> p q) r (not p))', 0, [
        '(or (not p) q)', '(not r)', '(and (or (not p) q) (not r))',
        '(not q)', '(and p (not q))', '(and (and p (not q)) p)',
        '(or (and (or (not p) q) (not r)) (and (and p (not q)) p))'])
    yield normal('normal-one-part-at-both-polarities', '(and (=> p q) (not (=> p q)))', 1, [
        '(not p)', '(or (not p) q)', '(not q)', '(and p (not q))', '(and (or (not p) q) (and p (not q)))'])
    yield normal('normal-one-part-twice', '(or (=> p q) r (=> p q))', 1, [
        '(not p)', '(or (not p) q)', '(or (or (not p) q) r (or (not p) q))'])
    yield normal('normal-opaque-under-connectives', '(or (= p q r) (=> (= p q r) (ite p 1 2)))', 1, [
        '(not (= p q r))', '(not p)', '(or (not p) 1)', '(or p 2)', '(and (or (not p) 1) (or p 2))',
        '(or (not (= p q r)) (and (or (not p) 1) (or p 2)))',
        '(or (= p q r) (or (not (= p q r)) (and (or (not p) 1) (or p 2))))'])
    # what stands in the pool is found, before the term or after it
    yield normal('normal-stands', '(=> p q)', 1, result='(or (not p) q)', stands=['(or (not p) q)'])
    yield normal('normal-parts-stand', '(= p q)', 1, [ONLY[2], ONLY[3], ONLY[4]], stands=['(or (not p) q)'])
    yield normal('normal-all-but-the-whole-stands', '(= p q)', 1, [ONLY[4]], stands=[ONLY[1], ONLY[3]])
    pool = Formulas('(=> p q)')
    t, place = pool.root, pool.read('(or (not p) q)')
    yield 'normal-stands-later', (0, place, len(pool.tags)), call_file(3, pool.tags, pool.values, place=t, polarity=1)
    # what stands past the count is not found: (not p), at its place to come and at a later one
    pool = Formulas('p')
    for name, junk in (('normal-found-past-the-count', ([34, 0, 0], [2, 0, 2])),
                       ('normal-found-further-past-the-count', ([0, 0, 0, 34, 0, 0], [0, 0, 0, 2, 0, 2]))):
        yield name, (0, 5, 8), call_file(3, pool.tags + junk[0], pool.values + junk[1], 5, 2, 0)
    yield normal('normal-of-itself', ONLY[4], 1, result=ONLY[4])


def words():
    """The polarity's word: 0 is false, all else true. X and Y are not used."""
    for polarity in (2, 256, 1 << 31, BIG):
        yield normal('normal-polarity-%d' % polarity, '(=> p q)', polarity, ['(not p)', '(or (not p) q)'])
    pool = Formulas('p')
    yield 'normal-unused-numbers', (0, 2, 5), call_file(3, pool.tags, pool.values, None, 2, 1, BIG, BIG)
    tags, values = [1, 21, 0, 0], [0, 2, 0, 1]
    yield 'normal-file-9001-tags', None, call_file(3, [1] + [0] * 9000, [], n=1)
    yield 'normal-file-word-short', None, call_file(3, tags, values, place=1)[:-4]


def room():
    """The new terms of (= p q) take 18 cells, those of its negation too."""
    yield normal('normal-fills-the-arrays', '(= p q)', 1, ONLY, room=18)
    for cells in (17, 14, 13, 1, 0):
        yield normal_refused('31-normal-room-%d' % cells, '(= p q)', 1, cells)
    yield normal('normal-nothing-new-in-full-arrays', '(not p)', 0, result='p', room=0)
    yield normal_refused('31-normal-not-in-full-arrays', 'p', 0, 0)
    yield normal_refused('31-normal-not-in-2-cells', 'p', 0, 2)
    yield normal('normal-not-in-3-cells', 'p', 0, ['(not p)'], room=3)


def limit():
    """The count may reach 8,192 and not pass it, however long the arrays are."""
    for name, answer, n, size in (
            ('normal-count-8192', (0, 8188, 8192), 8174, 8192), ('normal-count-8192-of-9000', (0, 8188, 8192), 8174, 9000),
            ('31-normal-count-8193', (31, 0, 0), 8175, 8193), ('31-normal-count-8193-of-9000', (31, 0, 0), 8175, 9000),
            ('31-normal-n-8192', (31, 0, 0), 8192, 9000)):
        pool = Formulas('(= p q)')
        t = pool.root
        pool.op('Cl', *[2] * (n - len(pool.tags) - 2))
        yield name, answer, call_file(3, *([*array, *[BIG] * (size - n)] for array in (pool.tags, pool.values)), n, t, 1)
    pool = Formulas('p')
    pool.op('Cl', *[2] * 8185)
    yield 'normal-nothing-new-n-8192', (0, 2, 8192), call_file(3, pool.tags, pool.values, place=2, polarity=1)
    yield '31-normal-not-n-8192', (31, 0, 0), call_file(3, pool.tags, pool.values, place=2)
    yield '30-normal-n-8193', (30, 0, 0), call_file(3, [*pool.tags, BIG], [*pool.values, BIG], place=2)


def refusals():
    """The cells past N are 0 with every refusal but 30."""
    junk, variable = [BIG, 36, 0, 7], [[1], [21, 0, 1]]
    for name, answer, headers, n, place in (
            ('14-normal', (14, 1, 0), [[1], [14]], 2, 1), ('14-normal-n-0', (14, 0, 0), variable, 0, 0),
            ('14-normal-cells-past-n', (14, 1, 0), [[1], [36, 0, 0]], 3, 1),
            ('15-normal', (15, 1, 0), [[1], [1]], 2, 1), ('16-normal', (16, 2, 0), [[1], [2], [36, 1]], 4, 2),
            ('17-normal-sort', (17, 0, 0), variable, 4, 0), ('17-normal-cell', (17, 2, 0), variable, 4, 2),
            ('17-normal-n', (17, 4, 0), variable, 4, 4), ('17-normal-junk', (17, 5, 0), variable, 4, 5),
            ('17-normal-past-arrays', (17, 8, 0), variable, 4, 8), ('17-normal-largest', (17, BIG, 0), variable, 4, BIG),
            ('30-normal-n-past-arrays', (30, 0, 0), variable, 9, 1), ('30-normal-largest-n', (30, 0, 0), [[1]], BIG, 0)):
        tags, values = packed(*headers)
        yield name, answer, call_file(3, tags + junk, values + junk, n, place, 1)
    yield '30-normal-more-tags', (30, 0, 0), call_file(3, [1, 21, 0, 0, 9], [0, 2, 0, 1], 4, 1)
    yield '30-normal-more-values', (30, 0, 0), call_file(3, [1, 21, 0, 0], [0, 2, 0, 1, 9], 4, 1)


def chain(step, levels, others=0):
    """A term made of the one before, and of other variables, again and again; with the pool and its first variable."""
    pool = Pool()
    first = term = pool.var(1)
    others = [pool.var(2 + i) for i in range(others)]
    for _ in range(levels):
        term = step(pool, term, *others)
    return pool, first, term


def chains():
    def case(name, answer, pool, term, polarity, size=8192):
        tags, values = (array + [BIG] * (size - len(array)) for array in (pool.tags, pool.values))
        return name, answer, call_file(3, tags, values, len(pool.tags), term, polarity)

    # `(= t t)`: 4 cells a level, and 8 at each polarity, but for the last level that is asked at one; (not p)
    for levels, answer in ((300, (0, 5995, 5999)), (409, (0, 8175, 8179)), (410, (31, 0, 0)), (500, (31, 0, 0))):
        pool, _, term = chain(lambda pool, t: pool.op('Equals', t, t), levels)
        yield case('normal-equals-%d-deep' % levels, answer, pool, term, 1)
    pool, _, term = chain(lambda pool, t: pool.op('Equals', t, t), 409)
    yield case('normal-equals-409-deep-false', (0, 8175, 8179), pool, term, 0, 9000)
    yield case('31-normal-equals-409-deep-a-cell-short', (31, 0, 0), pool, term, 0, 8178)
    # `(= t q)`: 12 at each polarity; two variables, (not p) and (not q)
    pool, _, term = chain(lambda pool, t, q: pool.op('Equals', t, q), 291, 1)
    yield case('normal-equals-with-q-291-deep', (0, 7 + 291 * 28 + 6 - 12 - 4, 7 + 291 * 28 + 6 - 12), pool, term, 1)
    pool, _, term = chain(lambda pool, t, q: pool.op('Equals', t, q), 500, 1)
    yield case('31-normal-equals-with-q-500-deep', (31, 0, 0), pool, term, 1)
    # `(ite t t t)`: 5 cells a level, 12 at each polarity
    pool, _, term = chain(lambda pool, t: pool.op('Ite', t, t, t), 280)
    yield case('normal-ite-280-deep', (0, 4 + 280 * 29 + 3 - 12 - 4, 4 + 280 * 29 + 3 - 12), pool, term, 1)
    pool, _, term = chain(lambda pool, t: pool.op('Ite', t, t, t), 500)
    yield case('31-normal-ite-500-deep', (31, 0, 0), pool, term, 0)
    # `(and t t)`: nothing new, or 4 a level and (not p)
    pool, _, term = chain(lambda pool, t: pool.op('And', t, t), 1000)
    yield case('normal-and-1000-deep-true', (0, 4000, 4004), pool, term, 1)
    yield case('normal-and-1000-deep-false', (0, 8003, 8007), pool, term, 0)
    pool, _, term = chain(lambda pool, t: pool.op('And', t, t), 2000)
    yield case('31-normal-and-2000-deep-false', (31, 0, 0), pool, term, 0)
    pool, first, term = chain(lambda pool, t: pool.op('Not', t), 2700)
    yield case('normal-not-2700-deep-true', (0, first, len(pool.tags)), pool, term, 1)
    yield case('normal-not-2700-deep-false', (0, pool.op('Not', first), len(pool.tags)), pool, term, 0)
    pool, _, term = chain(lambda pool, t: pool.binder('forall', t, [(1, 0)]), 800)
    yield case('normal-forall-800-deep-false', (0, 4 + 4000 + 3 + 3995, 4 + 4000 + 3 + 4000), pool, term, 0)
    pool = Pool()
    p = pool.var(1)
    term = pool.op('And', *[p] * 4000)
    yield case('normal-4000-operands-false', (0, 4 + 4002 + 3, 8011), pool, term, 0)
    pool = Pool()
    term = pool.op('Or', *[pool.var(name) for name in range(900)])
    yield case('normal-900-variables-false', (0, 1 + 2700 + 902 + 2700, 1 + 2700 + 902 + 2700 + 902), pool, term, 0)


COLLECTIONS = {'normal': [connectives, opaque, orders, words, room, limit, refusals, chains]}
