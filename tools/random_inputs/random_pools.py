"""Random pools: every kind of sort and term, odd counts of operands, shared terms, binders with repeats, one
name under several sorts, lets if they are wanted. Pools that are mostly of connectives and quantifiers, and such whose
clause list is about as long as it may be. And damaged copies of them."""
from pools.packed_pool import BINDER_TAG, CONSTANT_TAG, NoAnswer, OPERATOR_TAG, Pool, SORT_TAG
from references.reference import BIT_VECTORS, OPERATORS

NAMES = (0, 1, 1, 2, 2, 3, 4, 0xffffffff)
WIDTHS = (0, 1, 8, 8, 9, 1 << 31, 0xffffffff)
# tags of the sorts that an operator's operands had better have
LIKED = {**{name: (6, 7) for name in BIT_VECTORS}, 'BvConcat': (6, 7), 'Select': (11,), 'RelTranspose': (12,),
         'RelJoin': (12,), 'RelProduct': (12,), 'Add': (2, 3), 'Sub': (2, 3), 'Mult': (2, 3)}


class RandomPool(Pool):
    def __init__(self, rng, size, lets=False, table=None):
        super().__init__(table)
        self.rng, self.lets, self.sorts, self.terms = rng, lets, [0], []
        for _ in range(size):
            self.grow(self.random_sort, rng.choice((0, 0, 0, 1)) or not self.terms)
            self.grow(self.random_variable, rng.random() < 0.3 or not self.terms)
            self.grow(self.random_term, self.terms)

    def header(self, tag, *cells):
        place = super().header(tag, *cells)
        known = self.__dict__.get('sorts' if tag < 16 else 'terms')
        if known is not None and place not in known:
            known.append(place)
        return place

    def grow(self, add, wanted):
        try:
            if wanted:
                add()
        except NoAnswer:
            pass  # no sort fits: nothing is added

    # ---- parts
    def some(self, places, most):
        return [self.rng.choice(places) for _ in range(self.rng.randint(0, most))]

    def variables(self):
        return [p for p in self.terms if self.tags[p] == 21]

    def pair(self):
        """A name and a sort, mostly of a variable that is there."""
        if self.rng.random() < 0.8:
            v = self.rng.choice(self.variables())
            return self.values[v + 2], self.values[v + 1]
        return self.rng.choice(NAMES), self.rng.choice(self.sorts)

    def pairs(self, pair, least):
        found = [pair() for _ in range(self.rng.randint(least, 4))]
        return found + [self.rng.choice(found)] if found and self.rng.random() < 0.4 else found

    def let_pair(self):
        name, sort = self.pair()
        of_sort = [t for t in self.terms if self.sort_of(t) == sort]
        return name, self.rng.choice(of_sort if of_sort and self.rng.random() < 0.8 else self.terms)

    # ---- additions
    def random_sort(self):
        name = self.rng.choice(list(SORT_TAG) + ['Set', 'Set', 'Tuple', 'Function'])
        cells = {'BitVec': [self.rng.choice(WIDTHS)], 'Var': [self.rng.choice(NAMES)],
                 'Atom': [self.rng.choice(NAMES), *self.some(self.sorts, 2)], 'Function': self.some(self.sorts, 3),
                 'Array': [self.rng.choice(self.sorts) for _ in 'ab'], 'Set': [self.rng.choice(self.sorts)],
                 'Tuple': self.some(self.sorts, 3)}
        place = self.sort(name, *cells.get(name, []))
        if name == 'Tuple':
            self.sort('Set', place)

    def random_variable(self):
        self.var(self.rng.choice(NAMES), self.rng.choice(self.sorts))

    def random_term(self):
        kind = self.rng.random()
        if kind < 0.08:
            name = self.rng.choice(list(CONSTANT_TAG) + ['bits'])
            serial = self.rng.choice((0, 1, 8, 0xffffffff))
            self.bits(self.rng.choice(WIDTHS), serial) if name == 'bits' else self.constant(name, serial)
        elif kind < 0.18:
            functions = [t for t in self.terms if self.tags[self.sort_of(t)] == 10]
            self.app(self.rng.choice(functions or self.terms), *self.some(self.terms, 3))
        elif kind < 0.42:
            name = self.rng.choice(list(BINDER_TAG))
            self.binder(name, self.rng.choice(self.terms), self.pairs(self.pair, 1 if name == 'choice' else 0))
        elif kind < 0.52 and self.lets:
            self.let(self.rng.choice(self.terms), self.pairs(self.let_pair, 0))
        else:
            self.random_operator(self.rng.choice(OPERATORS))

    def random_operator(self, name):
        liked = [t for t in self.terms if self.tags[self.sort_of(t)] in LIKED.get(name, ())]
        for _ in range(4):
            chosen = self.some(liked if liked and self.rng.random() < 0.9 else self.terms, 4)
            try:
                return self.op(name, *chosen)
            except NoAnswer:
                pass


class RandomFormulas(RandomPool):
    """Three terms of four are connectives or quantifiers, mostly with the count of operands that takes them apart; where lets are
    wanted, one of five is a let."""
    COUNTS = {'Not': (1,), 'Implies': (2,), 'Equals': (2,), 'Ite': (3,), 'And': (0, 1, 2, 2, 2, 3, 4), 'Or': (0, 1, 2, 2, 2, 3, 4)}

    def formula(self):
        """Mostly of sort Bool, and often one of the last."""
        bools = [t for t in self.terms if self.sort_of(t) == 0]
        places = bools if bools and self.rng.random() < 0.9 else self.terms
        return self.rng.choice(places[-5:] if self.rng.random() < 0.5 else places)

    def random_term(self):
        if self.lets and self.rng.random() < 0.2:
            return self.let(self.formula(), self.pairs(self.let_pair, 0))
        if self.rng.random() < 0.25:
            return super().random_term()
        name = self.rng.choice(list(self.COUNTS) + ['forall', 'exists'])
        if name in BINDER_TAG:
            return self.binder(name, self.formula(), self.pairs(self.pair, 0))
        count = self.rng.choice(self.COUNTS[name]) if self.rng.random() < 0.9 else self.rng.randint(0, 4)
        return self.op(name, *(self.formula() for _ in range(count)))


def near_limits(rng):
    """A pool whose last term has about 2,048 clauses, or about 8,192 literals: a product and what is missing."""
    pool = Pool()
    p, q, r = (pool.var(name) for name in (1, 2, 3))
    literals = [p, q, r, pool.op('Not', p), pool.op('Xor', p, q)]
    more = rng.randint(0, 3)  # literals of every clause of the product beside two
    clauses = rng.random() < 0.5
    wanted = (2048 if clauses else 8192) + rng.randint(-3, 3)
    first = rng.randint(2, 60)
    second = rng.randint(1, wanted // (1 if clauses else 2 + more) // first)
    parts = [pool.op('And', *rng.choices(literals, k=first)), pool.op('And', *rng.choices(literals, k=second)),
             *rng.choices(literals, k=more)]
    rng.shuffle(parts)
    product = pool.op('Or', *parts)
    missing = wanted - first * second * (1 if clauses else 2 + more)
    if clauses:
        rest = rng.choices(literals, k=missing)
    else:
        clause = pool.op('Or', *rng.choices(literals, k=50))
        rest = [clause] * (missing // 50) + rng.choices(literals, k=missing % 50)
    at = rng.randint(0, len(rest))
    pool.terms = [pool.op('And', *rest[:at], product, *rest[at:])]
    return pool


def damaged(rng, pool):
    """The arrays of a pool with a header repeated, a stated sort changed, or one to three cells changed, mostly to
    a number that means something elsewhere."""
    tags, values = list(pool.tags), list(pool.values)
    kind = rng.random()
    if kind < 0.2:
        copied = rng.choice(pool.sorts + pool.terms)
        size = 1 + values[copied]
        return tags + tags[copied:copied + size], values + values[copied:copied + size]
    if kind < 0.5:
        term = rng.choice(pool.terms)
        values[term + 1] = rng.choice([s for s in pool.sorts if s < term])
        return tags, values
    for _ in range(rng.choice((1, 1, 1, 2, 3))):
        at = rng.randrange(len(tags))
        if rng.random() < 0.3:
            tags[at] = rng.choice((0, 1, 2, 13, 14, 16, 21, 23, 27, 28, 36, 166, 167, 0xffffffff, rng.choice(tags)))
        else:
            values[at] = rng.choice((0, 1, 2, 3, at, len(tags), 0xffffffff, rng.randrange(len(tags)), rng.choice(values)))
    return tags, values

assert all(name in OPERATOR_TAG for name in LIKED)
