"""Steps of rule 3 near the limits, in small pools: a term that stands twice has its clauses twice.

    p = LimitSteps(rng, count)       bodies of about 2,048 clauses or 8,192 literals, of lists that nothing could write, alone or
                                     multiplied by none, and such with an empty `or`; p.steps as in random_steps.py
    p = RoomSteps(rng, past)         a body whose new terms bring the count to 8,192 and `past` cells more
    nearly_full(rng, room)           arrays and steps, many of rule 3: 8,192 cells but for `room`
"""
from pools.packed_pool import OPERATOR_TAG
from random_inputs.random_steps import RandomSteps
from references.reference import LIMIT
from references.reference_clauses import MOST_CLAUSES, MOST_LITERALS, Growing, clause_answer, normal_form, taken_out
from references.reference_rules import Checked, Refused, clausification

LEVEL = 28  # the cells of `(= t q)` and of its normal form at both polarities


def new_cells(tags, values, t):
    """The cells of the new terms of rule 3, or 0 where it is refused before they are asked for."""
    pool = Checked(tags, values, len(tags))
    try:
        whole, _ = clausification(pool, t)
    except Refused:
        return 0
    taken_out(pool, normal_form(pool, whole.body, True))
    return pool.count - len(tags)


def padded(pool, n):
    """The arrays of a pool with one more term, so that they have n cells."""
    more = n - len(pool.tags)
    variable = pool.tags.index(21)
    return (pool.tags + [OPERATOR_TAG['Cl']] + [0] * (more - 1),
            pool.values + [more - 1, 0] + [variable] * (more - 2))


class LimitSteps(RandomSteps):
    def __init__(self, rng, count):
        super().__init__(rng, 3, 0)
        for _ in range(count):
            self.negative = rng.random() < 0.4
            body = self.body()
            self.steps.append((3, self.put(self.conclusion(self.op('Not', body) if self.negative else body))))

    def conclusion(self, body):
        """A step to a clause of the body; where clauses are long, to a literal."""
        (code, count, length), _ = clause_answer(Growing(self.tags, self.values, len(self.tags)), body, LIMIT)
        if code == 0 and length > 50 * count:
            return ['Or', ['Not', ['forall', self.list_of(), body]], ['forall', [], self.literal()]]
        return self.clausified(body)

    # ---- parts. In a negative body `and` and `or` change places, and so do forall and exists: it stands under `not`.
    def meet(self, *terms):
        return self.op('Or' if self.negative else 'And', *terms)

    def join(self, *terms):
        return self.op('And' if self.negative else 'Or', *terms)

    def literal(self):
        return self.rng.choice([t for t in self.leaves if self.tags[t] in (21, OPERATOR_TAG['Xor'])])

    def times(self, op, count, part):
        """`op` of so many copies of a part, by doubling."""
        digits = []
        while count:
            digits += [part] * (count % 2)
            count //= 2
            part = op(part, part) if count else part
        return op(*self.shuffled(digits))

    def clause(self, length):
        return self.times(self.join, length, self.literal())

    def under_quantifier(self, t):
        return self.binder('exists' if self.negative else 'forall', t, self.list_of())

    # ---- bodies
    def body(self):
        kind = self.rng.choice((self.of_clauses, self.of_literals, self.product, self.product, self.huge, self.none))
        term = kind(self.rng.choice((-1, 0, 0, 1, 1, 2)))
        if self.rng.random() < 0.15:
            term = self.rng.choice((self.meet, self.join))(*self.shuffled([term, self.join()]))
        return self.under_quantifier(term) if self.rng.random() < 0.3 else term

    def of_clauses(self, past):
        """2,048 clauses and so many more, of some literals each."""
        others = [self.literal() for _ in range(self.rng.randint(0, 3))]
        part = self.clause(self.rng.randint(1, 3))
        return self.meet(*self.shuffled([*others, self.times(self.meet, MOST_CLAUSES + past - len(others), part)]))

    def of_literals(self, past):
        """8,192 literals and so many more, in clauses of one length and one of another."""
        wanted = MOST_LITERALS + past
        count = self.rng.choice((1, 2, 3, 100, 1000, 2040))
        parts = [self.times(self.meet, count, self.clause(wanted // count))]
        if wanted % count:
            parts.append(self.clause(wanted % count))
        return self.meet(*self.shuffled(parts))

    def product(self, past):
        """2,048 clauses and so many more, most of them from a product; or 8,192 literals."""
        more = self.rng.randint(0, 4)
        wanted = min(MOST_CLAUSES, MOST_LITERALS // (2 + more)) + past
        first = self.rng.randint(2, 40)
        factors = [self.times(self.meet, count, self.literal()) for count in (first, wanted // first)]
        factors += [self.literal() for _ in range(more)]
        return self.meet(self.join(*self.shuffled(factors)), self.times(self.meet, wanted % first, self.clause(2 + more)))

    def huge(self, past):
        return self.times(self.join, self.rng.choice((16, 64, 100)), self.meet(self.literal(), self.literal()))

    def none(self, past):
        """A product that has no clause, beside a few that have."""
        product = self.join(*self.shuffled([self.huge(past), self.meet()]))
        return self.meet(*self.shuffled([product, self.literal(), self.clause(2)][:self.rng.randint(1, 3)]))


class RoomSteps(RandomSteps):
    """The chain stands below an exists: it is brought into its normal form, and its clauses are not asked for."""

    def __init__(self, rng, past):
        super().__init__(rng, 4, 0)
        chain, literals = self.var(1), [self.var(1), self.var(2)]
        for _ in range((LIMIT - len(self.tags) - 150) // LEVEL):
            chain = self.op('Equals', chain, literals[1])
        body = self.op('And', literals[0], self.binder('exists', chain, self.list_of()), literals[1])
        self.free = self.free_pairs()
        self.steps = [(3, self.put(self.conclusion(body, literal))) for literal in (*literals, self.leaf())]
        count = len(self.tags) + new_cells(self.tags, self.values, self.steps[0][1])
        assert LIMIT - 150 < count < LIMIT - 4, count
        self.tags, self.values = padded(self, len(self.tags) + LIMIT - count + past)

    def conclusion(self, body, literal):
        left = self.list_of(literal)
        return ['Or', ['Not', ['forall', left, body]], ['forall', self.kept(left, self.free[literal]), literal]]


def nearly_full(rng, room):
    pool = RandomSteps(rng, 10, 10)
    pool.steps += [(3, pool.put(pool.cnf())) for _ in range(15)]
    return *padded(pool, LIMIT - room), pool.steps
