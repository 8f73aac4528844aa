"""Call files on rule 3. Cases and rows are as in cases_rules.py, but that the cells past the count are 0 with every answer."""
from cases.cases_clauses import Parts
from cases.cases_normal import chain
from pools.formulas import WHOLE, Formulas, step, step_on, steps

# ---- the form, 3 and 4
FORMS = [
    ('variable', 'p', 2, WHOLE), ('equals', '(= (forall (x) p) (forall (x) p))', 2, WHOLE), ('or-of-none', '(or)', 2, WHOLE),
    ('or-of-one', '(or (not (forall () p)))', 2, WHOLE),
    ('or-of-three', '(or (not (forall () p)) (forall () p) (forall () p))', 2, WHOLE),
    ('sides-swapped', '(or (forall () p) (not (forall () p)))', 2, WHOLE),
    ('no-not', '(or (forall () p) (forall () p))', 2, WHOLE), ('not-of-none', '(or (not) (forall () p))', 2, WHOLE),
    ('not-of-two', '(or (not (forall () p) p) (forall () p))', 2, WHOLE),
    ('implies', '(=> (forall () p) (forall () p))', 2, WHOLE), ('cl', '(cl (not (forall () p)) (forall () p))', 2, WHOLE),
    ('not-not', '(or (not (not (forall () p))) (forall () p))', 3, '(not (forall () p))'),
    ('left', '(or (not p) (forall () p))', 3, 'p'), ('left-before-right', '(or (not p) q)', 3, 'p'),
    ('left-choice', '(or (not (choice (x) p)) (forall () p))', 3, '(choice (x) p)'),
    ('left-let', '(or (not (let () (forall () p))) (forall () p))', 3, '(let () (forall () p))'),
    ('right', '(or (not (forall () p)) p)', 3, 'p'), ('right-lambda', '(or (not (forall () p)) (lambda () p))', 3, '(lambda () p)'),
    ('right-before-4', '(or (not (exists (x) p)) p)', 3, 'p'),
    ('left-exists', '(or (not (exists (x) p)) (forall (x) p))', 4, 23, 24),
    ('right-exists', '(or (not (forall (x) p)) (exists (x) p))', 4, 23, 24),
    ('both-exist', '(or (not (exists () p)) (exists () p))', 4, 23, 24),
    ('before-13', '(or (not (exists () (or))) (forall () p))', 4, 23, 24),
]

# ---- the clauses: a body and one of its clauses
CLAUSES = [
    # document 01's test formulas
    ('equals-first', '(= p q)', '(or (not p) q)'), ('equals-second', '(= p q)', '(or (not q) p)'),
    ('ite-first', '(ite p q r)', '(or (not p) q)'), ('ite-second', '(ite p q r)', '(or p r)'),
    ('not-ite-first', '(not (ite p q r))', '(or p (not p))'), ('not-ite-second', '(not (ite p q r))', '(or p (not r))'),
    ('not-ite-third', '(not (ite p q r))', '(or (not q) (not p))'), ('not-ite-fourth', '(not (ite p q r))', '(or (not q) (not r))'),
    ('equals-of-three', '(= p q r)', '(= p q r)'), ('not-equals-of-three', '(not (= p q r))', '(not (= p q r))'),
    # others
    ('literal', 'p', 'p'), ('not', '(not p)', '(not p)'), ('not-not', '(not (not p))', 'p'), ('conjunct', '(and p q r)', 'q'),
    ('last-conjunct', '(and p q (or p q))', '(or p q)'), ('flattened', '(or p (or q r) s)', '(or p q r s)'),
    ('or-of-one', '(or p)', 'p'),
    ('repeated-literal', '(or p p)', '(or p p)'), ('product', '(or (and p q) (and r s))', '(or q r)'),
    ('implies', '(=> p q)', '(or (not p) q)'), ('not-bool', '(or i 1)', '(or i 1)'), ('ite-not-bool', '(ite p 1 2)', '(or p 2)'),
    ('equals-int', '(= i 1)', '(= i 1)'), ('true', '(=> (true) (false))', '(or (not (true)) (false))'),
    ('let', '(and p (let ((x p)) (and x q)))', '(let ((x p)) (and x q))'),
    ('not-let', '(=> (let ((x p)) x) p)', '(or (not (let ((x p)) x)) p)'),
    ('choice', '(or (choice (x) (and x p)) q)', '(or (choice (x) (and x p)) q)'), ('lambda', '(and (lambda (x) x) p)', '(lambda (x) x)'),
    ('exists', '(and p (exists (y) (and y p)))', '(exists (y) (and y p))'),
    ('empty-or-below-exists', '(exists (x) (or))', '(exists (x) (or))'),
    ('not-forall', '(not (forall (y) (or y p)))', '(exists (y) (and (not y) (not p)))'), ('empty-list', '(forall () p)', 'p'),
]
# a body and a term that is none of its clauses: 10 with the term
ABSENT = [
    ('no-clause', '(or a (and))', 'a'), ('no-clause-in-two-products', '(and (or p (and) q) (or (and) r))', 'p'), ('other', 'p', 'q'),
    ('or-of-the-literal', 'p', '(or p)'), ('or-of-one', '(or p)', '(or p)'), ('part', '(or p q)', 'p'), ('order', '(or p q)', '(or q p)'),
    ('longer', '(or p q)', '(or p q q)'), ('shorter', '(or p q r)', '(or p q)'), ('not-flattened', '(or p (or q r))', '(or p (or q r))'),
    ('whole', '(and p q)', '(and p q)'), ('repeat-dropped', '(or p p)', 'p'), ('not-in-normal-form', '(=> p q)', '(=> p q)'),
    ('negated', 'p', '(not p)'), ('cl', '(or p q)', '(cl p q)'), ('xor', '(or p q)', '(xor p q)'),
    ('product-order', '(or (and p q) r)', '(or r p)'),
    ('empty-and', '(and)', '(and)'), ('empty-or', 'p', '(or)'), ('forall-that-is-taken-out', '(and p (forall (x) q))', '(forall (x) q)'),
]
# bodies in which an empty `or` is reached: 13
EMPTY = [
    ('under-and', '(and (or))'), ('below-no-product', '(or (and) (or))'), ('under-forall', '(or p (forall (x) (or)))'),
    ('not-and', '(not (and))'),
]
# ---- the variables, taken out through `and`, `or` and forall of the normal form: left list, body, right list, clause
OR_SORTS = "(or x (= x' 1))"
VARIABLES = [
    ('bound', 'x', '(and x p)', 'x', 'x'), ('not-free-not-bound', 'x y', '(and x y)', 'x', 'x'),
    ('order-and-repeats', 'x y', '(or x y)', 'y x y y', '(or x y)'), ('left-repeats', 'x x', 'x', 'x', 'x'),
    ('more-than-needed', 'x y', 'x', 'y x', 'x'), ('taken-out', '', '(forall (y) y)', 'y', 'y'),
    ('taken-out-deep', 'x', '(and p (or x (forall (y) (forall (z) (or y z)))))', 'x y z', '(or x y z)'),
    ('taken-out-of-not-exists', '', '(not (exists (y) y))', 'y', '(not y)'), ('taken-out-unused', '', '(forall (y) p)', 'y', 'p'),
    ('taken-out-not-bound', '', '(or (forall (y) p) q)', '', '(or p q)'), ('captured', '', '(or x (forall (x) x))', 'x', '(or x x)'),
    ('shadowed', 'x', '(and x (forall (x) (not x)))', 'x', '(not x)'), ('other-sort-free', 'x', OR_SORTS, 'x', OR_SORTS),
    ('two-sorts', "x x'", OR_SORTS, "x' x", OR_SORTS), ('not-in-this-clause', 'x', '(and p (forall (y) (or x y)))', '', 'p'),
    ('let-value', 'x', '(let ((y x)) p)', 'x', '(let ((y x)) p)'), ('let-name', 'y', '(let ((y x)) y)', '', '(let ((y x)) y)'),
    ('new', 'x', 'x', 'x z', 'x', 8, 'z'), ('first-new', 'x', 'x', 'y x z', 'x', 8, 'y'), ('other-sort', 'x', 'x', "x x'", 'x', 8, 'x'),
    ('not-through-exists', '', '(exists (y) y)', 'y', '(exists (y) y)', 8, 'y'),
    ('below-exists', '', '(exists (y) (forall (z) z))', 'z', '(exists (y) (forall (z) z))', 8, 'z'),
    ('not-through-not-forall', '', '(not (forall (y) y))', 'y', '(exists (y) (not y))', 8, 'y'),
    ('not-through-opaque', '', '(xor p (forall (y) y))', 'y', '(xor p (forall (y) y))', 8, 'y'),
    ('not-through-choice', '', '(choice (y) y)', 'y', '(choice (y) y)', 8, 'y'), ('before-10', 'x', 'x', 'z', 'q', 8, 'z'),
    ('before-9', 'x', 'x', 'z', 'x', 8, 'z'), ('where-there-is-no-clause', 'x', '(and)', 'z', 'x', 8, 'z'),
    ('before-9', 'x', '(or x p)', '', 'x', 10, 'x'), ('before-8', '', '(or)', 'z', 'p', 13), ('missing', 'x', 'x', '', 'x', 9, 'x'),
    ('taken-out', '', '(forall (y) y)', '', 'y', 9, 'y'),
    ('left-before-taken-out', 'x', '(forall (y) (or x y))', '', '(or x y)', 9, 'x'),
    ('second-of-the-left-list', 'z x', '(or x p)', '', '(or x p)', 9, 'x'), ('left-order', 'y x', '(or x y)', '', '(or x y)', 9, 'y'),
    ('taken-out-after-left', 'x', '(forall (y) (or y x))', 'x', '(or y x)', 9, 'y'),
    ('outer-before-inner', '', '(forall (y) (forall (x) (or x y)))', '', '(or x y)', 9, 'y'),
    ('operands-left-to-right', '', '(or (forall (y) y) (forall (x) x))', '', '(or y x)', 9, 'y'),
    ('in-both-lists', 'y x', '(forall (z x) (or x z y))', 'y', '(or x z y)', 9, 'x'),
    ('other-sort', "x' x", OR_SORTS, 'x', OR_SORTS, 9, 'x'),
    ('below-a-literal', 'x', '(or (choice (y) x) p)', '', '(or (choice (y) x) p)', 9, 'x'),
    ('let-value', 'x', '(let ((y x)) p)', '', '(let ((y x)) p)', 9, 'x'),
    ('let-value-taken-out', '', '(forall (x) (let ((x x)) x))', '', '(let ((x x)) x)', 9, 'x'),
]


def clausification(left, body, right, clause):
    return '(or (not (forall (%s) %s)) (forall (%s) %s))' % (left, body, right, clause)


def clauses():
    for name, body, clause in CLAUSES:
        yield step(3, name, clausification('', body, '', clause))
    for name, body, clause in ABSENT:
        yield step(3, name, clausification('', body, '', clause), 10, clause)
    for name, body in EMPTY:
        yield step(3, name, clausification('', body, '', 'p'), 13)
    for name, left, body, right, clause, *answer in VARIABLES:
        yield step(3, name, clausification(left, body, right, clause), *answer)


# ---- 31
# The normal form (or p (forall (x) (not x))) has 12 new cells, the taken-out form (or p (not x)) 4 more; where the clause
# stands, (not x) and (or p (not x)) are not new: 9.
TAKEN = '(or p (not (exists (x) x)))'


def room():
    for cells, answer in ((9, (0,)), (8, (31,)), (5, (31,)), (0, (31,))):
        yield step(3, 'clause-stands-room-%d' % cells, clausification('', TAKEN, 'x', '(or p (not x))'), *answer, room=cells)
    for cells, answer in ((16, (10, 'p')), (15, (31,)), (12, (31,)), (11, (31,)), (0, (31,))):
        yield step(3, 'room-%d' % cells, clausification('', TAKEN, 'x', 'p'), *answer, room=cells)
    for name, body, right, clause, cells, answer in (
            ('nothing-new', '(or p q)', '', '(or p q)', 0, (0,)), ('before-13', '(=> (and) p)', '', 'p', 5, (31,)),
            ('where-there-is-room', '(=> (and) p)', '', 'p', 6, (13,)), ('before-8', '(=> p q)', 'z', 'p', 6, (31,)),
            ('where-there-is-room', '(=> p q)', 'z', 'p', 7, (8, 'z')),
            ('taken-out-alone', '(and (forall (x) p) q)', '', 'p', 3, (31,)),
            ('taken-out-alone', '(and (forall (x) p) q)', '', 'p', 4, (0,))):
        yield step(3, name, clausification('', body, right, clause), *answer, room=cells)
    yield step(3, 'before-31', '(or (not (forall () (= p q))) (exists () p))', 4, 23, 24, room=0)
    yield step(3, 'before-31', '(or (not (forall () (= p q))) p)', 3, 'p', room=0)
    yield step(3, 'before-31', '(or (not (forall () (= p q))) (forall () p) p)', 2, WHOLE, room=0)


def limit():
    """The count may reach 8,192 and not pass it, however long the arrays are."""
    for name, new, n, size, code in (
            ('count-8192', 9, 8183, 8192, 0), ('count-8192-of-9000', 9, 8183, 9000, 0), ('count-8193', 9, 8184, 8193, 31),
            ('count-8193-of-9000', 9, 8184, 9000, 31), ('n-8192-of-9000', 9, 8192, 9000, 31), ('n-8192', 0, 8192, 8192, 0),
            ('nothing-new-n-8192-of-9000', 0, 8192, 9000, 0)):
        body = TAKEN if new else '(forall (x) (or p (not x)))'
        pool = Formulas(clausification('', body, 'x', '(or p (not x))'))
        t = pool.root
        pool.op('Cl', *[t] * (n - len(pool.tags) - 2))
        yield step_on('rule3-%d-%s' % (code, name), pool, t, 3, code, room=size - n)


# ---- 32
def sized(name, pool, body, clause, code=0, *numbers, pairs=((), ()), room=6, size=None):
    """A step over terms of a pool, with these pairs on the left and on the right, in arrays with so much room or of a size."""
    negated = pool.op('Not', pool.binder('forall', body, pairs[0]))
    conclusion = pool.op('Or', negated, pool.binder('forall', clause, pairs[1]))
    return step_on('rule3-%d-%s' % (code, name), pool, conclusion, 3, code, *numbers,
                   room=size - len(pool.tags) if size else room)


def limits():
    """2,048 clauses and 8,192 literals pass, one more gives 32."""
    for name, body, clause, code in (
            ('2048-clauses', lambda s: s.conjuncts(2048), None, 0), ('2049-clauses', lambda s: s.conjuncts(2049), None, 32),
            ('32-times-64', lambda s: s.op('Or', s.conjuncts(32), s.conjuncts(64)), 2, 0),
            ('3-times-683', lambda s: s.op('Or', s.conjuncts(3), s.conjuncts(683)), 2, 32),
            ('32-times-64-and-1', lambda s: s.op('And', s.op('Or', s.conjuncts(32), s.conjuncts(64)), s.p), 2, 32),
            ('2048-clauses-8192-literals', lambda s: s.conjuncts(2048, s.disjuncts(4)), 4, 0),
            ('2048-clauses-8193-literals', lambda s: s.op('And', *[s.disjuncts(4)] * 2047, s.disjuncts(5)), 4, 32),
            ('2-clauses-8192-literals', lambda s: s.op('And', s.disjuncts(2), s.disjuncts(4095, s.disjuncts(2))), 2, 0),
            ('2-clauses-8193-literals', lambda s: s.op('And', s.disjuncts(3), s.disjuncts(4095, s.disjuncts(2))), 3, 32),
            ('1-clause-4000-literals', lambda s: s.disjuncts(2, s.disjuncts(2000)), 4000, 0),
            ('and-11-deep', lambda s: s.doubled('And', 11, s.p), None, 0),
            ('and-12-deep', lambda s: s.doubled('And', 12, s.p), None, 32)):
        pool = Parts()
        term = body(pool)
        yield sized(name, pool, term, pool.p if clause is None else pool.disjuncts(clause), code)
    for name, totals, code in (('1-clause-8192-literals', 4, 10), ('1-clause-8193-literals', 5, 32)):
        pool = Parts()
        body = pool.op('Or', *[pool.disjuncts(2048)] * 4, *[pool.p] * (totals - 4))
        yield sized(name, pool, body, pool.p, code, *([pool.p] if code == 10 else []))


def huge():
    """Lists that nothing could write, and parts whose product is none however large they are."""
    for name, levels, part in (('and', 64, 1), ('and', 1900, 1), ('or', 64, 1), ('or', 1900, 1), ('or', 5, 2), ('or', 1000, 2)):
        pool = Parts()
        term = pool.doubled(name.capitalize(), levels, pool.conjuncts(part))
        yield sized('%s-of-%d-%d-deep' % (name, part, levels), pool, term, pool.p, 32)
    for name, body, code in (
            ('huge-times-none', lambda s, h: s.op('Or', h, s.none), 10), ('none-times-huge', lambda s, h: s.op('Or', s.none, h), 10),
            ('huge-times-none-and-p', lambda s, h: s.op('And', s.op('Or', h, s.none), s.p), 0),
            ('huge-and-p', lambda s, h: s.op('And', h, s.p), 32),
            ('huge-times-none-times-empty-or', lambda s, h: s.op('Or', h, s.none, s.op('Or')), 13),
            ('huge-and-empty-or', lambda s, h: s.op('And', h, s.op('Or')), 13)):
        pool = Parts()
        term = body(pool, pool.doubled('Or', 70, pool.conjuncts(2)))
        yield sized(name, pool, term, pool.p, code, *([pool.p] if code == 10 else []))
    pool = Parts()
    yield sized('2050-times-none-and-p', pool, pool.op('And', pool.op('Or', pool.conjuncts(2050), pool.none), pool.p), pool.p)


def precedence():
    """31 before 13 before 32 before 8 before 10 before 9."""
    def case(name, code, *numbers, body=lambda s, many: many, pairs=((), ()), room=6):
        pool = Parts()
        q = pool.var(2)  # at 6
        return sized(name, pool, body(pool, pool.conjuncts(2049)), q, code, *numbers, pairs=pairs, room=room)

    def implied(s, many):
        return s.op('Implies', s.op('Not', s.p), many)  # (or p many): 4 new cells

    yield case('before-8', 32, pairs=((), [(9, 0)]))
    yield case('before-10', 32)
    yield case('before-32', 31, body=implied, room=3)
    yield case('where-there-is-room', 32, body=implied, room=4)
    yield case('before-32-of-many', 13, body=lambda s, many: s.op('And', many, s.op('Or')), pairs=((), [(9, 0)]))
    yield case('before-10-and-9', 8, 9, body=lambda s, many: s.p, pairs=([(1, 0), (2, 0)], [(9, 0)]))
    yield case('before-9-of-the-left-list', 10, 6, body=lambda s, many: s.p, pairs=([(1, 0), (2, 0)], []))


# ---- deep terms
def chains():
    def case(name, step, levels, clause, code=0, *numbers, others=0, size=8192, pairs=((), ())):
        pool, p, term = chain(step, levels, others)
        return sized('%s-%d-deep' % (name, levels), pool, term, clause(pool, p), code, *numbers, pairs=pairs, size=size)

    def first(pool, p):
        return p

    def second(pool, p):
        return pool.var(2)

    foralls = (lambda pool, t: pool.binder('forall', t, [(1, 0)]))
    yield case('foralls', foralls, 1000, first, pairs=((), [(1, 0)]))
    yield case('foralls', foralls, 1000, first, 9, 1)
    yield case('or-q', lambda pool, t, q: pool.op('Or', q, t), 1000, lambda pool, p: pool.op('Or', *[pool.var(2)] * 1000, p), others=1)
    yield case('and-q', lambda pool, t, q: pool.op('And', q, t), 1500, first, others=1)
    for levels, code in ((400, 32), (500, 31)):
        yield case('equals', lambda pool, t: pool.op('Equals', t, t), levels, first, code)
    for levels, code in ((270, 32), (500, 31)):
        yield case('ite', lambda pool, t: pool.op('Ite', t, t, t), levels, first, code)
    yield case('not', lambda pool, t: pool.op('Not', t), 2600, first)
    # 9 cells a level, 4 more where the forall is taken out; 7 of Bool and two variables, 13 of the conclusion
    forall = (lambda pool, t, q: pool.op('And', pool.binder('forall', t, [(1, 0)]), q))
    yield case('forall-under-and', forall, 628, second, others=1)
    yield case('forall-under-and', forall, 629, second, 31, others=1, size=9000)


def forms():
    return steps(3, FORMS)


COLLECTIONS = {'rule3': [forms, clauses], 'rule3-limits': [room, limit, limits, huge, precedence, chains]}
