"""Call files on free variables, with the places that are to be marked. A case is as in cases_checks.py, with
the marked places in the end."""
from pools.packed_pool import Pool, call_file, packed

X, Y, Z = 1, 2, 3  # names


class Names(Pool):
    """The variables x:Bool, x:Int, y:Bool, y:Int and z:Bool."""

    def __init__(self):
        super().__init__()
        self.integer = self.sort('Int')
        self.x, self.xi = self.var(X), self.var(X, self.integer)
        self.y, self.yi = self.var(Y), self.var(Y, self.integer)
        self.z = self.var(Z)
        self.all = (self.x, self.xi, self.y, self.yi, self.z)
        self.body = self.op('Cl', *self.all)


def accepted(name, pool, term, free):
    return name, (0, 0, 0), call_file(2, pool.tags, pool.values, place=term, x=len(pool.tags)), set(free)


def binders():
    for kind in ('forall', 'exists', 'choice', 'lambda'):
        p = Names()
        term = p.binder(kind, p.body, [(X, 0), (Z, 0)])
        yield accepted('free-%s' % kind, p, term, [p.xi, p.y, p.yi])
    p = Names()
    yield accepted('free-repeated-pair', p, p.binder('forall', p.body, [(X, 0), (X, 0), (Y, 0), (X, 0)]), [p.xi, p.yi, p.z])
    p = Names()
    yield accepted('free-name-under-two-sorts', p, p.binder('forall', p.body, [(X, 0), (X, p.integer)]), [p.y, p.yi, p.z])
    p = Names()
    yield accepted('free-other-sort-bound', p, p.binder('exists', p.x, [(X, p.integer)]), [p.x])
    p = Names()
    yield accepted('free-nothing-bound', p, p.binder('forall', p.body, []), p.all)
    p = Names()
    yield accepted('free-unknown-variable-bound', p, p.binder('forall', p.body, [(9, 0)]), p.all)
    p = Names()
    inner = p.binder('exists', p.body, [(X, 0)])
    outer = p.binder('forall', p.op('Or', inner, p.x, p.y), [(Y, 0), (Z, 0)])
    yield accepted('free-inside-and-outside', p, outer, [p.x, p.xi, p.yi])
    p = Names()
    inner = p.binder('lambda', p.body, [(Y, p.integer)])
    yield accepted('free-nested-binders', p, p.binder('choice', p.binder('exists', inner, [(Z, 0)]), [(X, 0)]), [p.xi, p.y])


def lets():
    p = Names()
    yield accepted('free-let', p, p.let(p.body, [(X, p.y)]), [p.xi, p.y, p.yi, p.z])
    p = Names()
    yield accepted('free-let-repeats-a-name', p, p.let(p.body, [(X, p.y), (X, p.yi)]), [p.y, p.yi, p.z])
    p = Names()
    yield accepted('free-let-repeats-a-name-in-values', p, p.let(p.x, [(X, p.y), (X, p.z)]), [p.y, p.z])
    p = Names()
    yield accepted('free-let-without-list', p, p.let(p.body, []), p.all)
    p = Names()
    value = p.constant('integer', 5)
    yield accepted('free-let-by-sort-of-value', p, p.let(p.body, [(X, value)]), [p.x, p.y, p.yi, p.z])
    # the smallest input on which the Rust says otherwise
    tags, values = packed([1], [21, 0, X], [27, 0, 1, X, 1])
    yield 'free-let-value-counts', (0, 0, 0), call_file(2, tags, values, place=4, x=9), {1}
    # the smallest input on which SMT-LIB says otherwise
    tags, values = packed([1], [2], [21, 0, X], [23, 0, 2, X, 1])
    yield 'free-not-shadowed-by-name-alone', (0, 0, 0), call_file(2, tags, values, place=5, x=10), {2}


def let_values():
    """A let's values stand outside its names; what binds further out binds in them."""
    for name, term, free in (
            ('outside-its-names', lambda p: p.let(p.x, [(X, p.y), (X, p.x)]), 'x y'),
            ('outside-earlier-names', lambda p: p.let(p.y, [(X, p.z), (Y, p.x)]), 'x z'),
            ('of-another-sort', lambda p: p.let(p.x, [(X, p.xi)]), 'x xi'),
            ('in-place-of-the-body', lambda p: p.let(p.z, [(Z, p.op('And', p.x, p.y))]), 'x y'),
            ('last-of-40', lambda p: p.let(p.x, [(name, p.x) for name in range(40, 79)] + [(X, p.z)]), 'x z'),
            ('bound-further-out', lambda p: p.binder('forall', p.let(p.x, [(X, p.y)]), [(Y, 0)]), ''),
            ('bound-further-out-by-sort', lambda p: p.binder('exists', p.let(p.x, [(X, p.yi)]), [(Y, 0)]), 'x yi'),
            ('under-choice', lambda p: p.binder('choice', p.let(p.z, [(X, p.y)]), [(Z, 0)]), 'y'),
            ('under-lambda', lambda p: p.binder('lambda', p.let(p.op('Or', p.x, p.z), [(X, p.op('And', p.y, p.z))]), [(Z, 0)]), 'y'),
            ('bound-in-the-value', lambda p: p.let(p.x, [(X, p.binder('forall', p.op('And', p.y, p.z), [(Y, 0)]))]), 'z'),
            ('bound-by-an-outer-let', lambda p: p.let(p.let(p.x, [(X, p.y)]), [(Y, p.z)]), 'z'),
            ('in-a-value', lambda p: p.let(p.y, [(Y, p.let(p.x, [(X, p.z)]))]), 'z'),
            ('in-a-value-of-its-own-name', lambda p: p.let(p.x, [(X, p.let(p.x, [(X, p.op('Not', p.x))]))]), 'x'),
            ('in-an-operand', lambda p: p.op('Or', p.let(p.x, [(X, p.y)]), p.binder('forall', p.y, [(Y, 0)])), 'y'),
            ('in-both-operands', lambda p: p.op('And', p.let(p.x, [(X, p.y)]), p.let(p.y, [(Y, p.x)])), 'x y')):
        p = Names()
        yield accepted('free-let-value-' + name, p, term(p), [getattr(p, variable) for variable in free.split()])
    p = Names()
    f = p.var(4, p.sort('Function', 0, 0))
    yield accepted('free-let-value-in-a-function', p, p.app(p.let(f, [(X, p.y)]), p.z), [f, p.y, p.z])
    p = Names()
    f = p.var(4, p.sort('Function', 0, 0))
    yield accepted('free-let-value-in-an-argument', p, p.app(f, p.let(p.x, [(X, p.yi)])), [f, p.x, p.yi])
    p = Names()
    yield accepted('free-lets-2000-deep', p, deep_lets(p, p.op('And', p.x, p.y), 2000), [p.x, p.y])


def deep_lets(pool, term, levels):
    """Lets over a term of sort Bool, every second with the one before as its value and as its body: the free variables stay."""
    for level in range(levels):
        term = pool.let(term, [(X, term)] if level % 2 else [])
    return term


def others():
    p = Names()
    yield accepted('free-variable', p, p.xi, [p.xi])
    p = Names()
    yield accepted('free-constant', p, p.constant('string', 1), [])
    p = Names()
    yield accepted('free-operator-without-operands', p, p.op('True'), [])
    p = Names()
    f = p.var(4, p.sort('Function', 0, p.integer, 0))
    yield accepted('free-application', p, p.app(f, p.y, p.xi), [f, p.y, p.xi])
    p = Names()
    yield accepted('free-repeated-operand', p, p.op('And', p.x, p.x, p.op('Or', p.x, p.y)), [p.x, p.y])
    p = Names()
    yield accepted('free-of-a-part', p, p.op('Not', p.x), [p.x])
    p = Pool()
    x = p.var(X)
    yield accepted('free-8186-operands', p, p.op('And', *([x] * 8186)), [x])  # all 8,192 cells


def chains():
    p = Pool()
    x, y = p.var(X), p.var(Y)
    term = p.op('And', x, y)
    for _ in range(2700):
        term = p.op('Not', term)
    yield accepted('free-2700-nested', p, term, [x, y])
    yield 'sort-2700-nested', (0, 0, 0), call_file(1, p.tags, p.values, place=term), set()
    p = Pool()
    x = term = p.var(X)
    for _ in range(2000):
        term = p.op('And', term, term)
    yield accepted('free-doubled-2000-times', p, term, [x])
    yield 'sort-doubled-2000-times', (0, 0, 0), call_file(1, p.tags, p.values, place=term), set()
    p = Pool()
    term = p.op('And', p.var(X), p.var(Y), p.var(X, p.sort('Int')))
    for i in range(1300):
        term = p.binder('forall', term, [(10 + i, 0)] if i else [(X, 0)])
    yield accepted('free-1300-binders', p, term, [p.var(Y), p.var(X, p.sort('Int'))])
    p = Pool()
    variables = [p.var(name) for name in range(1300)]
    term = p.binder('exists', p.op('Or', *variables), [(name, 0) for name in range(0, 1300, 2)])
    yield accepted('free-1300-variables', p, term, variables[1::2])


def lent_arrays():
    """The marks: shorter than N, N, longer; refused, all 0, but with 30 unchanged."""
    tags, values = packed([1], [21, 0, X], [34, 0, 1])
    for name, answer, n, place, size, marked in (
            ('30-marks-shorter', (30, 0, 0), 7, 4, 6, set()), ('30-no-marks', (30, 0, 0), 7, 4, 0, set()),
            ('marks-longer', (0, 0, 0), 7, 4, 12, {1}), ('marks-for-n-below-the-arrays', (0, 0, 0), 4, 1, 4, {1}),
            ('30-marks-before-17', (30, 0, 0), 7, 0, 6, set()), ('marks-cleared-by-17', (17, 0, 0), 7, 0, 9, set()),
            ('marks-kept-by-30', (30, 0, 0), 8, 4, 9, set())):
        yield name, answer, call_file(2, tags, values, n, place, x=size), marked
    yield 'marks-of-9000', (0, 0, 0), call_file(2, tags, values, 7, 4, x=9000), {1}
    for name, answer, headers, n, size in (('14', (14, 1, 0), [[1], [14]], 2, 3), ('15', (15, 1, 0), [[1], [1]], 2, 2),
                                           ('16', (16, 2, 0), [[1], [2], [36, 1]], 4, 5), ('14-with-n-0', (14, 0, 0), [[1]], 0, 2)):
        yield 'marks-cleared-by-%s' % name, answer, call_file(2, *packed(*headers), n, 1, x=size), set()
    yield 'marks-none-for-n-0', (14, 0, 0), call_file(2, [1], [0], 0, 0, x=0), set()
    yield '30-marks-before-14', (30, 0, 0), call_file(2, *packed([1], [14]), 2, 0, x=1), set()


COLLECTIONS = {'free': [binders, lets, let_values, others, chains, lent_arrays]}
