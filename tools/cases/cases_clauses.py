"""Call files on the clause list. A case is as in cases_checks.py, with four numbers for an accepted call, and with the
whole output in the end where it is written down by hand: every new term in its order, every clause."""
from cases.cases_normal import ONLY, chain
from pools.formulas import BIG, Formulas, clausal, clausal_refused, normal
from pools.packed_pool import Pool, call_file, packed

SIZES = 8192, 2048
TAKEN = '(or p (not (exists (x) x)))'  # its normal form has 12 new cells, the taken-out form 4 more
TAKEN_NEW = ['(not x)', '(forall (x) (not x))', '(or p (forall (x) (not x)))', '(or p (not x))']


def formulas():
    """Document 01's test formulas, and products, repeats, lists without clauses."""
    not_ite = ['(not q)', '(and p (not q))', '(not p)', '(not r)', '(and (not p) (not r))',
               '(or (and p (not q)) (and (not p) (not r)))']
    for name, text, clauses, new in (
            ('equals', '(= p q)', '-p q | -q p', ONLY),
            ('ite', '(ite p q r)', '-p q | p r', ['(not p)', '(or (not p) q)', '(or p r)', '(and (or (not p) q) (or p r))']),
            ('not-ite', '(not (ite p q r))', 'p -p | p -r | -q -p | -q -r', not_ite),
            ('not-equals', '(not (= p q))', 'p q | p -p | -q q | -q -p',
             ['(not q)', '(and p (not q))', '(not p)', '(and q (not p))', '(or (and p (not q)) (and q (not p)))']),
            ('or-with-empty-and', '(or a (and))', '', []),
            ('variable', 'p', 'p', []), ('not', '(not p)', '-p', []), ('not-not', '(not (not p))', 'p', []),
            ('implies', '(=> p q)', '-p q', ['(not p)', '(or (not p) q)']),
            ('not-implies', '(not (=> p q))', 'p | -q', ['(not q)', '(and p (not q))']),
            ('empty-and', '(and)', '', []), ('not-empty-or', '(not (or))', '', ['(and)']),
            ('empty-ands', '(and (and) (and))', '', []), ('empty-and-among-others', '(and p (and) q)', 'p | q', []),
            ('empty-and-in-the-middle', '(or p (and) q)', '', []),
            ('and-twice', '(and p p)', 'p | p', []), ('or-twice', '(or p p)', 'p p', []),
            ('and-of-one', '(and p)', 'p', []), ('or-of-one', '(or p)', 'p', []), ('or-of-and', '(or (and p q))', 'p | q', []),
            ('product', '(or (and p q) (and r s))', 'p r | p s | q r | q s', []),
            ('product-of-three', '(or (and p q) (and r s) (and p r))',
             'p r p | p r r | p s p | p s r | q r p | q r r | q s p | q s r', []),
            ('product-with-clauses', '(or (and p q) r (and s (or p q)))', 'p r s | p r p q | q r s | q r p q', []),
            ('nested', '(and (or p (or q r)) (and (and s) (or p)))', 'p q r | s | p', []),
            ('product-below-a-product', '(or (or (and p q) r) (and p s))', 'p r p | p r s | q r p | q r s', []),
            ('not-bool', '(or i j)', 'i j', [])):
        yield clausal('clauses-' + name, text, clause_list(clauses), new)
    yield clausal('clauses-equals-of-three', '(= p q r)', [['(= p q r)']])
    yield clausal('clauses-not-equals-of-three', '(not (= p q r))', [['(not (= p q r))']])
    yield clausal('clauses-opaque', '(or (xor p q) (=> (true) (ite p q)))', [['(xor p q)', '(not (true))', '(ite p q)']],
                  ['(not (true))', '(or (not (true)) (ite p q))', '(or (xor p q) (or (not (true)) (ite p q)))'])
    yield clausal('clauses-polarity-0', '(=> p q)', [['(not p)', 'q']], ['(not p)', '(or (not p) q)'], polarity=0)
    yield clausal('clauses-stands', '(= p q)', clause_list('-p q | -q p'), stands=[ONLY[4]])


def clause_list(text):
    """Clauses of variables, with - before a negated one."""
    return [[('(not %s)' % word[1] if word[0] == '-' else word) for word in clause.split()]
            for clause in text.split('|') if clause.strip()]


def quantifiers():
    """Foralls are taken out through `and`, `or` and forall only."""
    for name, text, clauses, new in (
            ('forall', '(forall (x) (and x p))', [['x'], ['p']], []),
            ('forall-empty-list', '(forall () (or p q))', [['p', 'q']], []),
            ('forall-empty-list-under-and', '(and (forall () p) q)', [['p'], ['q']], ['(and p q)']),
            ('foralls', '(forall (x) (forall (y) (and x y)))', [['x'], ['y']], []),
            ('forall-under-and', '(and (forall (x) (or x p)) q)', [['x', 'p'], ['q']], ['(and (or x p) q)']),
            ('forall-under-or', '(or (forall (x) (and x p)) (forall (y) y))', [['x', 'y'], ['p', 'y']],
             ['(or (and x p) y)']),
            ('foralls-in-order', '(and (or (forall (x) x) p) (or q (forall (y) y)))', [['x', 'p'], ['q', 'y']],
             ['(or x p)', '(or q y)', '(and (or x p) (or q y))']),
            ('forall-repeated-pairs', '(or p (forall (x x i) x))', [['p', 'x']], ['(or p x)']),
            ('forall-of-not-exists', TAKEN, [['p', '(not x)']], TAKEN_NEW),
            ('exists', '(exists (y) (forall (x) (and x y)))', [['(exists (y) (forall (x) (and x y)))']], []),
            ('exists-under-forall', '(forall (x) (exists (y) (forall (z) z)))', [['(exists (y) (forall (z) z))']], []),
            ('exists-beside-forall', '(or (exists (y) (forall (x) x)) (forall (z) z))',
             [['(exists (y) (forall (x) x))', 'z']], ['(or (exists (y) (forall (x) x)) z)']),
            ('not-forall-exists', '(not (forall (y) (exists (x) (or x y))))',
             [['(exists (y) (forall (x) (and (not x) (not y))))']],
             ['(not x)', '(not y)', '(and (not x) (not y))', '(forall (x) (and (not x) (not y)))',
              '(exists (y) (forall (x) (and (not x) (not y))))']),
            ('forall-in-opaque', '(or (xor (forall (x) x) p) (choice (x) (forall (y) y)))',
             [['(xor (forall (x) x) p)', '(choice (x) (forall (y) y))']], []),
            ('forall-below-both', '(forall (x) (and (forall (y) (or y x)) (exists (z) z)))',
             [['y', 'x'], ['(exists (z) z)']], ['(and (or y x) (exists (z) z))']),
            ('taken-out-is-of-the-normal-form', '(and (=> p q) (or (forall () (not p)) q))',
             [['(not p)', 'q'], ['(not p)', 'q']],
             ['(or (not p) q)', '(and (or (not p) q) (or (forall () (not p)) q))', '(and (or (not p) q) (or (not p) q))'])):
        yield clausal('clauses-' + name, text, clauses, new)
    yield clausal('clauses-taken-out-stands', '(and (forall (x) p) q)', [['p'], ['q']], stands=['(and p q)'])


def empty_ors():
    """Reached through the taken-out form: 13, also below a product that is none."""
    for name, text in (
            ('or', '(or)'), ('under-and', '(and (or))'), ('under-and-with-p', '(and p (or))'), ('under-or', '(or p (or))'),
            ('below-no-product', '(or (and) (or))'), ('deep-below-no-product', '(and (or (and) (and q (or (or) p))))'),
            ('not-and', '(not (and))'), ('under-forall', '(forall (x) (or))'), ('under-forall-under-or', '(or p (forall () (or)))'),
            ('of-implies', '(=> (and) p)'), ('not-exists', '(not (exists (x) (and)))')):
        yield clausal_refused('13-' + name, text, 13)
    for name, text in (('exists', '(exists (x) (or))'), ('opaque', '(xor (or) p)'), ('not-of-two', '(not (not (or) p))'),
                       ('equals-of-three', '(= p (or) q)')):
        yield clausal('clauses-empty-or-in-%s' % name, text, [[text]])
    yield clausal('clauses-not-forall-and', '(not (forall (x) (and)))', [['(exists (x) (or))']], ['(or)', '(exists (x) (or))'])


def numbered(name, answer, pool, term, size=None, sizes=SIZES):
    """On arrays with some cells past the pool."""
    n = len(pool.tags)
    tags, values = (array + [BIG] * ((n + 6 if size is None else size) - n) for array in (pool.tags, pool.values))
    return name, answer, call_file(4, tags, values, n, term, 1, *sizes)


def counted(name, totals, pool, term):
    """A term without new terms that has these totals, or too many."""
    if totals is None:
        return numbered('32-' + name, (32, 0, 0), pool, term)
    return numbered('clauses-' + name, (0, *totals, len(pool.tags)), pool, term)


class Parts(Pool):
    """p, and parts of any size."""

    def __init__(self):
        super().__init__()
        self.p = self.var(1)
        self.none = self.op('And')

    def conjuncts(self, count, part=None):
        return self.op('And', *[part or self.p] * count)

    def disjuncts(self, count, part=None):
        return self.op('Or', *[part or self.p] * count)

    def doubled(self, name, levels, term):
        for _ in range(levels):
            term = self.op(name, term, term)
        return term


def limits():
    """2,048 clauses and 8,192 literals pass, one more gives 32."""
    for name, totals, made in (
            ('2048-clauses', (2048, 2048), lambda s: s.conjuncts(2048)),
            ('2049-clauses', None, lambda s: s.conjuncts(2049)),
            ('32-times-64', (2048, 4096), lambda s: s.op('Or', s.conjuncts(32), s.conjuncts(64))),
            ('3-times-683', None, lambda s: s.op('Or', s.conjuncts(3), s.conjuncts(683))),
            ('32-times-64-and-1', None, lambda s: s.op('And', s.op('Or', s.conjuncts(32), s.conjuncts(64)), s.p)),
            ('1-and-31-times-66', (2047, 4093), lambda s: s.op('And', s.p, s.op('Or', s.conjuncts(31), s.conjuncts(66)))),
            ('8192-literals', (1, 8192), lambda s: s.disjuncts(4, s.disjuncts(2048))),
            ('8193-literals', None, lambda s: s.op('Or', *[s.disjuncts(2048)] * 4, s.p)),
            ('2048-clauses-8192-literals', (2048, 8192), lambda s: s.conjuncts(2048, s.disjuncts(4))),
            ('2048-clauses-8193-literals', None, lambda s: s.op('And', *[s.disjuncts(4)] * 2047, s.disjuncts(5))),
            ('2-clauses-8192-literals', (2, 8192), lambda s: s.conjuncts(2, s.disjuncts(2, s.disjuncts(2048)))),
            ('2-clauses-8193-literals', None, lambda s: s.op('And', s.disjuncts(2049), s.disjuncts(3, s.disjuncts(2048)))),
            ('2-times-11', None, lambda s: s.disjuncts(11, s.conjuncts(2))),
            ('2-times-9', (512, 4608), lambda s: s.disjuncts(9, s.conjuncts(2))),
            ('and-11-deep', (2048, 2048), lambda s: s.doubled('And', 11, s.p)),
            ('and-12-deep', None, lambda s: s.doubled('And', 12, s.p)),
            ('or-13-deep', (1, 8192), lambda s: s.doubled('Or', 13, s.p)),
            ('or-14-deep', None, lambda s: s.doubled('Or', 14, s.p))):
        pool = Parts()
        term = made(pool)
        yield counted(name, totals, pool, term)


def huge():
    """Totals that would come round again in 32 or 64 bits, and parts whose product is none however large they are."""
    for name, levels in (('And', 31), ('And', 32), ('And', 64), ('Or', 32), ('Or', 64), ('Or', 1000)):
        pool = Parts()
        yield numbered('32-%s-%d-deep' % (name.lower(), levels), (32, 0, 0), pool, pool.doubled(name, levels, pool.p))
    for levels in (5, 6, 1000):  # 2 to the 2 to the levels
        pool = Parts()
        yield numbered('32-squared-%d-times' % levels, (32, 0, 0), pool, pool.doubled('Or', levels, pool.conjuncts(2)))
    pool = Parts()
    yield numbered('32-of-2-to-32-and-1', (32, 0, 0), pool, pool.op('And', pool.doubled('Or', 5, pool.conjuncts(2)), pool.p))
    for name, levels in (('And', 64), ('And', 2000), ('Or', 1), ('Or', 64), ('Or', 2000)):
        pool = Parts()
        term = pool.doubled(name, levels, pool.none)
        yield counted('none-%s-%d-deep' % (name.lower(), levels), (0, 0), pool, term)
    for name, totals, made in (
            ('huge-times-none', (0, 0), lambda s, h: s.op('Or', h, s.none)),
            ('none-times-huge', (0, 0), lambda s, h: s.op('Or', s.none, h)),
            ('huge-times-none-times-huge', (0, 0), lambda s, h: s.op('Or', h, s.none, h)),
            ('huge-times-none-and-p', (1, 1), lambda s, h: s.op('And', s.op('Or', h, s.none), s.p)),
            ('huge-times-deep-none', (1, 2), lambda s, h: s.op('And', s.op('Or', h, s.op('And', s.op('Or', h, s.none))),
                                                               s.disjuncts(2))),
            ('huge-and-p', None, lambda s, h: s.op('And', h, s.p)),
            ('huge-or-p', None, lambda s, h: s.op('Or', s.p, h)),
            ('huge-times-one', None, lambda s, h: s.op('Or', h, s.op('And', s.p, s.none)))):
        pool = Parts()
        term = made(pool, pool.doubled('Or', 70, pool.conjuncts(2)))
        yield counted(name, totals, pool, term)
    for name, kind, levels, part in (('squared-1000-times', 'Or', 1000, 2), ('literals', 'Or', 64, 1),
                                     ('clauses', 'And', 64, 1), ('2050-clauses', 'And', 1, 1025)):
        pool = Parts()
        term = pool.op('And', pool.op('Or', pool.doubled(kind, levels, pool.conjuncts(part)), pool.none), pool.p)
        yield counted('none-of-huge-' + name, (1, 1), pool, term)


def room():
    """31: the new terms of the normal form and of the taken-out form."""
    yield clausal('clauses-fill-the-arrays', '(= p q)', clause_list('-p q | -q p'), ONLY, room=18)
    yield clausal_refused('31-clauses-a-cell-short', '(= p q)', 31, room=17)
    yield clausal('clauses-taken-out-fills-the-arrays', TAKEN, [['p', '(not x)']], TAKEN_NEW, room=16)
    for cells in (15, 12, 11, 0):  # with 12 and more the normal form has room
        yield clausal_refused('31-taken-out-room-%d' % cells, TAKEN, 31, room=cells)
    yield normal('normal-without-the-taken-out-form', TAKEN, 1, TAKEN_NEW[:3], room=12)
    yield clausal_refused('31-taken-out-alone', '(and (forall (x) p) q)', 31, room=3)
    yield clausal('clauses-taken-out-alone', '(and (forall (x) p) q)', [['p'], ['q']], ['(and p q)'], room=4)
    yield clausal('clauses-nothing-new-in-full-arrays', '(forall (x) (and x p))', [['x'], ['p']], room=0)
    for name, answer, text, n, size in (
            ('clauses-count-8192', (0, 2, 4, 8192), '(= p q)', 8174, 8192),
            ('clauses-count-8192-of-9000', (0, 2, 4, 8192), '(= p q)', 8174, 9000),
            ('31-clauses-count-8193-of-9000', (31, 0, 0), '(= p q)', 8175, 9000),
            ('clauses-taken-out-count-8192-of-9000', (0, 1, 2, 8192), TAKEN, 8176, 9000),
            ('31-taken-out-count-8193-of-9000', (31, 0, 0), TAKEN, 8177, 9000),
            ('31-taken-out-count-8196-of-9000', (31, 0, 0), TAKEN, 8180, 9000),
            ('clauses-nothing-new-n-8192', (0, 2, 2, 8192), '(and p q)', 8192, 9000)):
        pool = Formulas(text)
        pool.op('Cl', *[2] * (n - len(pool.tags) - 2))
        yield numbered(name, answer, pool, pool.root, size)


def precedence():
    """31, then 13, then 32."""
    pool = Parts()
    huge, empty = pool.conjuncts(2049), pool.op('Or')
    yield numbered('13-before-32', (13, 0, 0), pool, pool.op('And', huge, empty))
    yield numbered('13-after-huge-product', (13, 0, 0), pool, pool.op('Or', huge, huge, empty))
    yield numbered('13-where-the-product-is-none', (13, 0, 0), pool, pool.op('Or', pool.none, huge, empty))
    term = pool.op('Implies', pool.op('Not', pool.none), huge)  # (or (and) huge): no clauses
    yield numbered('31-before-none', (31, 0, 0), pool, term, len(pool.tags) + 3)
    yield numbered('clauses-none-of-implies', (0, 0, 0, len(pool.tags) + 4), pool, term, len(pool.tags) + 4)
    term = pool.op('Implies', pool.op('Not', pool.p), huge)  # (or p huge)
    yield numbered('31-before-32', (31, 0, 0), pool, term, len(pool.tags) + 3)
    yield numbered('32-where-there-is-room', (32, 0, 0), pool, term, len(pool.tags) + 4)
    term = pool.op('Implies', pool.none, huge)  # (or (or) huge): the first stands
    yield numbered('31-before-13', (31, 0, 0), pool, term, len(pool.tags) + 3)
    yield numbered('13-where-there-is-room', (13, 0, 0), pool, term, len(pool.tags) + 4)


def lent_arrays():
    """Too short is 30 and changes nothing; longer ones are 0 to their end, and all 0 when refused."""
    pool = Formulas('(=> p q)')
    for sizes in ((8191, 2048), (8192, 2047), (0, 0), (8191, 9000), (9000, 2047), (9000, 0), (2048, 8192)):
        yield numbered('30-lent-%d-%d' % sizes, (30, 0, 0), pool, pool.root, sizes=sizes)
    for sizes in ((8193, 2048), (8192, 2049), (9000, 9000)):
        yield clausal('clauses-lent-%d-%d' % sizes, '(=> p q)', [['(not p)', 'q']], ['(not p)', '(or (not p) q)'], sizes=sizes)
    for x, y in ((9001, 2048), (8192, 9001), (BIG, 2048), (8192, BIG)):
        yield numbered('clauses-file-lent-%d-%d' % (x, y), None, pool, pool.root, sizes=(x, y))
    yield clausal_refused('13-lent-longer', '(or)', 13, sizes=(8200, 2100))
    yield clausal_refused('31-lent-longer', '(= p q)', 31, room=3, sizes=(8200, 2100))
    huge = Parts()
    yield numbered('32-lent-longer', (32, 0, 0), huge, huge.conjuncts(2049), sizes=(8200, 2100))
    junk = [BIG, 36, 0, 7]
    variable = [[1], [21, 0, 1]]
    for name, answer, headers, n, place, sizes in (
            ('14-clauses', (14, 1, 0), [[1], [14]], 2, 1, SIZES),
            ('14-clauses-n-0', (14, 0, 0), variable, 0, 1, (8195, 2050)),
            ('15-clauses', (15, 1, 0), [[1], [1]], 2, 1, SIZES),
            ('16-clauses', (16, 2, 0), [[1], [2], [36, 1]], 4, 2, SIZES),
            ('17-clauses', (17, 0, 0), variable, 4, 0, (8195, 2050)),
            ('17-clauses-junk', (17, 5, 0), variable, 4, 5, SIZES),
            ('17-clauses-largest', (17, BIG, 0), variable, 4, BIG, SIZES),
            ('30-clauses-n-past-arrays', (30, 0, 0), variable, 9, 1, SIZES),
            ('30-lent-before-14', (30, 0, 0), [[1], [14]], 2, 1, (8191, 2048)),
            ('30-lent-before-17', (30, 0, 0), variable, 4, 0, (8192, 2047))):
        tags, values = packed(*headers)
        yield name, answer, call_file(4, tags + junk, values + junk, n, place, 1, *sizes)
    yield '30-clauses-more-tags', (30, 0, 0), call_file(4, [1, 21, 0, 0, 9], [0, 2, 0, 1], 4, 1, 1, *SIZES)
    yield '30-clauses-n-8193', (30, 0, 0), call_file(4, [1] + [0] * 8999, [0] * 9000, 8193, 1, 1, *SIZES)


def chains():
    def case(name, answer, made, levels, others=0, size=8192):
        pool, _, term = chain(made, levels, others)
        return numbered(name, answer, pool, term, size)

    yield case('clauses-foralls-1000-deep', (0, 1, 1, 5004), lambda pool, t: pool.binder('forall', t, [(1, 0)]), 1000)
    yield case('clauses-or-q-1500-deep', (0, 1, 1501, 6007), lambda pool, t, q: pool.op('Or', t, q), 1500, 1)
    yield case('clauses-and-q-1500-deep', (0, 1501, 1501, 6007), lambda pool, t, q: pool.op('And', q, t), 1500, 1)
    # 9 cells a level, 4 more where the forall is taken out
    forall = (lambda pool, t, q: pool.op('And', pool.binder('forall', t, [(1, 0)]), q))
    yield case('clauses-forall-under-and-500-deep', (0, 501, 501, 7 + 13 * 500), forall, 500, 1)
    yield case('clauses-forall-under-and-629-deep', (0, 630, 630, 7 + 13 * 629), forall, 629, 1, size=9000)
    yield case('31-forall-under-and-630-deep', (31, 0, 0), forall, 630, 1, size=9000)
    yield case('32-equals-409-deep', (32, 0, 0), lambda pool, t: pool.op('Equals', t, t), 409)
    yield case('31-clauses-equals-500-deep', (31, 0, 0), lambda pool, t: pool.op('Equals', t, t), 500)
    yield case('31-clauses-ite-500-deep', (31, 0, 0), lambda pool, t: pool.op('Ite', t, t, t), 500)


COLLECTIONS = {'clauses': [formulas, quantifiers, empty_ors, limits, huge, room, precedence, lent_arrays, chains]}
