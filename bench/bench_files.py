"""The step files that are measured, from a seed.

    valid_files(rng)        steps that are accepted, of all six rules, on pools of 500 to 8,000 cells
    clause_files(rng)       steps of rule 3 whose clause lists are about as long as they may be
    outer_files()           steps of rule 5 with many operands, or with long outer lists
    hostile_files()         pools made to be slow: shared terms, products that explode, deep terms, long lists, full pools

Each gives names with lists of files, which are measured together. A file has at most 256 steps; fewer conclusions are gone through
again.
"""
import pathlib
import sys

sys.path.insert(0, str(pathlib.Path(__file__).resolve().parent.parent / 'tools'))

from cases.cases_clauses import Parts
from cases.cases_steps import full_pool
from comparisons.compare_steps import as_the_rust_joins
from pools.packed_pool import step_file
from random_inputs.limit_steps import padded
from random_inputs.random_steps import RandomSteps, near_step
from references.reference import LIMIT
from references.reference_clauses import Growing, clause_answer
from references.reference_rules import RULES, Checked, clausification
from references.reference_steps import MOST_STEPS, answers

SIZES = (500, 1000, 2000, 4000, 8000)
POOLS = 4  # valid ones of each size
CLAUSES = 20  # of a valid step of rule 3, at most
NEAR = 6  # random pools near the limits
CLAUSE_STEPS = 64  # to a file of clause lists


def filled(pool, cells, steps, count=MOST_STEPS):
    """A file of so many cells and steps."""
    arrays = padded(pool, cells) if len(pool.tags) < cells else (pool.tags, pool.values)
    assert len(arrays[0]) == cells, (len(arrays[0]), cells)
    return step_file(*arrays, [steps[i % len(steps)] for i in range(count)])


def whole(pool, steps, count=MOST_STEPS):
    """A file of the pool as it is."""
    assert len(pool.tags) <= LIMIT, len(pool.tags)
    return filled(pool, len(pool.tags), steps, count)


# ---- valid steps
class ValidSteps(RandomSteps):
    """Conclusions without slips, up to so many cells."""

    def __init__(self, rng, cells):
        super().__init__(rng, cells // 40, 0)
        while len(self.tags) < cells - 60:
            rule = rng.randint(1, 6)
            self.steps.append((rule, self.put(self.accepted(rule))))

    def slips(self):
        return False


def valid_files(rng):
    for cells in SIZES:
        yield '%d cells' % cells, [valid_file(rng, cells) for _ in range(POOLS)]


def valid_file(rng, cells):
    """As many steps of each rule, all accepted, by the Rust too. Clause lists are short, so that pools of all sizes have like steps."""
    while True:
        pool = ValidSteps(rng, cells)
        if len(pool.tags) + 2 > cells:
            continue  # the last conclusion was a long one
        checked = Checked(pool.tags, pool.values, len(pool.tags))
        by_rule = {rule: [] for rule in RULES}
        for step, answer in zip(pool.steps, answers(pool.tags, pool.values, pool.steps)):
            if answer[0] == 0 and is_plain(checked, *step):
                by_rule[step[0]].append(step)
        if all(by_rule.values()):
            turns = [[steps[i % len(steps)] for steps in by_rule.values()] for i in range(MOST_STEPS)]
            return filled(pool, cells, sum(turns, [])[:MOST_STEPS])


def is_plain(pool, rule, t):
    if rule == 1:
        return as_the_rust_joins(pool, t) is None
    if rule == 3:
        whole_side, _ = clausification(pool, t)
        form = Growing(*pool.arrays)
        return clause_answer(form, whole_side.body, LIMIT)[0][1] <= CLAUSES
    return True


# ---- clause lists near the limits
def clausal(pool, body, clause):
    """A step from a body to a term, which may be a clause of it."""
    left = pool.op('Not', pool.binder('forall', body, []))
    return 3, pool.op('Or', left, pool.binder('forall', clause, []))


def clause_files(rng):
    for name, body, clause in (
            ('2,048 clauses of a literal', lambda s: s.conjuncts(2048), 1),
            ('2,048 clauses by doubling', lambda s: s.doubled('And', 11, s.p), 1),
            ('32 times 64 clauses', lambda s: s.op('Or', s.conjuncts(32), s.conjuncts(64)), 2),
            ('2,048 clauses of 4 literals', lambda s: s.conjuncts(2048, s.disjuncts(4)), 4),
            ('2 to the 9 clauses of 9 literals', lambda s: s.disjuncts(9, s.conjuncts(2)), 9),
            ('1 clause of 8,192 literals', lambda s: s.disjuncts(4, s.disjuncts(2048)), 1),
            ('not of an or of 2,000', lambda s: s.op('Not', s.disjuncts(2000)), 1)):
        pool = Parts()
        term = body(pool)
        right = pool.p if clause == 1 else pool.disjuncts(clause)
        yield name, [whole(pool, [clausal(pool, term, right)], CLAUSE_STEPS)]
    for k in range(1, NEAR + 1):
        pool = near_step(rng)
        yield 'random near the limits %d' % k, [whole(pool, pool.steps, CLAUSE_STEPS)]


# ---- outer lists
def named(count):
    return [(2 + i, 0) for i in range(count)]


def split(pool, quantifier, connective, outer, phis, uses):
    """A step of rule 5: each operand phi under a quantifier over the outer pairs that it uses, and as it is where it uses none."""
    left = pool.binder(quantifier, pool.op(connective, *phis), outer)
    right = pool.op(connective, *(pool.binder(quantifier, phi, used) if used else phi for phi, used in zip(phis, uses)))
    return 5, pool.op('Equals', left, right)


def many_operands(outer, uses):
    """An operand for each list of used pairs: the first variable of it, or p."""
    pool = Parts()
    phis = [pool.var(*used[0]) if used else pool.p for used in uses]
    return whole(pool, [split(pool, *kind, outer, phis, uses) for kind in (('forall', 'Or'), ('exists', 'And'))])


def long_outer_list(outer, uses):
    """The operand p for each list of used pairs."""
    pool = Parts()
    return whole(pool, [split(pool, 'forall', 'Or', outer, [pool.p] * len(uses), uses)])


def outer_files():
    sixty, long = named(60), named(2000)
    each, half = [[pair] for pair in sixty], named(30)
    yield '60 operands, a list of 60', [many_operands(sixty, each)]
    yield 'the same, the last operand first', [many_operands(sixty, each[::-1])]
    yield 'the same, the last one uses a pair again', [many_operands(sixty, each[:-1] + [[sixty[-1], sixty[0]]])]
    yield '60 operands, a list of 30 pairs twice', [many_operands(half + half, [[pair] for pair in half] + [[]] * 30)]
    yield 'a list of 2,000, used by one operand', [long_outer_list(long, [long])]
    yield 'the same, the last pair first', [long_outer_list(long, [long[::-1]])]
    yield 'the same, by 20 operands', [long_outer_list(long, [long[i::20] for i in range(20)])]
    yield 'the same, the last pair used again', [long_outer_list(long, [long[:-1] + long[-2:-1]])]
    yield 'a list of 1,000 pairs twice', [long_outer_list(named(1000) * 2, [named(1000)])]


# ---- hostile pools
def chain(make, cells, bottom=None):
    """A term made of the one before, again and again, in a pool of up to so many cells."""
    pool = Parts()
    term = bottom(pool) if bottom else pool.p
    size = 0
    while len(pool.tags) + size <= cells:
        before = len(pool.tags)
        term = make(pool, term)
        size = len(pool.tags) - before
    return pool, term


def shared_steps(pool, term):
    """The term as the body of conclusions of rules 2, 3 and 5."""
    p = pool.p
    quantified = pool.binder('forall', term, [(1, 0), (2, 0)])
    return [clausal(pool, term, p), (2, pool.op('Equals', quantified, pool.binder('forall', term, [(1, 0)]))),
            (2, pool.op('Equals', pool.binder('exists', term, [(3, 0)]), term)),
            (5, pool.op('Equals', pool.binder('forall', pool.op('Or', term), [(2, 0)]), pool.op('Or', term)))]


CHAINS = [  # with cells to spare for the conclusions, or for the normal form
    ('and doubled', lambda s, t: s.op('And', t, t), 8100), ('or doubled', lambda s, t: s.op('Or', t, t), 8100),
    ('= doubled, built in full', lambda s, t: s.op('Equals', t, t), 1600),
    ('= doubled, past the room', lambda s, t: s.op('Equals', t, t), 8100),
    ('= with p, built in full', lambda s, t: s.op('Equals', t, s.p), 1100),
    ('ite trebled, built in full', lambda s, t: s.op('Ite', t, t, t), 1350),
    ('ite trebled, past the room', lambda s, t: s.op('Ite', t, t, t), 8100),
    ('not nested', lambda s, t: s.op('Not', t), 8100), ('and of one nested', lambda s, t: s.op('And', t), 8100),
    ('forall nested', lambda s, t: s.binder('forall', t, []), 8100),
    ('forall doubled', lambda s, t: s.binder('forall', s.op('And', t, t), [(1, 0)]), 8000),
    ('let nested', lambda s, t: s.let(t, [(2, s.p)]), 8000),
]
PRODUCTS = [
    ('a product that explodes', lambda s, huge: huge), ('the same times none', lambda s, huge: s.op('Or', huge, s.none)),
    ('none times the same', lambda s, huge: s.op('Or', s.none, huge)),
    ('the same times none, and p', lambda s, huge: s.op('And', s.op('Or', huge, s.none), s.p)),
    ('the same times none times an empty or', lambda s, huge: s.op('Or', huge, s.none, s.op('Or'))),
]


def hostile_files():
    for name, make, cells in CHAINS:
        pool, term = chain(make, cells)
        yield name, [whole(pool, shared_steps(pool, term))]
    for name, body in PRODUCTS:
        pool, huge = chain(lambda s, t: s.op('Or', t, t), 8000, lambda s: s.conjuncts(2))
        yield name, [whole(pool, [clausal(pool, body(pool, huge), pool.p)])]
    tags, values, answered = full_pool(LIMIT, MOST_STEPS)
    known = [step[:2] for step in answered if step[0] in RULES]  # the Rust program has a rule 7
    yield 'a full pool, every rule', [step_file(tags, values, (known * 2)[:MOST_STEPS])]
    yield 'a full pool of variables', [of_variables()]
    yield 'long lists, every variable free', [long_lists(980)]
    yield 'long lists, no variable free in a shared body', [lists_over_shared(900)]
    yield 'a long right list, taken out far below', [taken_out_below(1800)]
    yield 'a long join', [long_join(1300)]
    yield 'many variables taken out', [many_taken_out(450)]


def of_variables():
    """As many headers as fit, each to be held against all before it."""
    pool = Parts()
    conclusion = pool.op('Equals', pool.binder('forall', pool.p, [(2, 0)]), pool.p)
    name = 2
    while len(pool.tags) <= LIMIT - 3:
        pool.var(name)
        name += 1
    return whole(pool, [(2, conclusion)])


def long_lists(count):
    """A left list of variables all free in the body, and a right one in the other order."""
    pool = Parts()
    pairs = [(2 + i, 0) for i in range(count)]
    body = pool.op('Or', *(pool.var(*pair) for pair in pairs))
    left, right = pool.binder('forall', body, pairs), pool.binder('forall', body, pairs[::-1])
    return whole(pool, [(2, pool.op('Equals', left, right))])


def lists_over_shared(count):
    """Each pair of the list is looked for through the whole of a doubled term."""
    pool, term = chain(lambda s, t: s.op('And', t, t), 4000)
    pool.var(3)
    pairs = [(3, 0)] * count
    operand = pool.op('Or', term)
    return whole(pool, [(2, pool.op('Equals', pool.binder('forall', term, pairs), term)),
                        (5, pool.op('Equals', pool.binder('forall', operand, pairs), operand))])


def taken_out_below(count):
    """Each pair of the right list is bound by a forall below all else."""
    pool, term = chain(lambda s, t: s.op('And', t), 2000, lambda s: s.binder('forall', s.p, [(2, 0)]))
    left = pool.op('Not', pool.binder('forall', term, []))
    return whole(pool, [(3, pool.op('Or', left, pool.binder('forall', pool.p, [(2, 0)] * count)))])


def long_join(count):
    pool = Parts()
    outer, inner = ([(1, 0), (2, 0)] * (count // 4) for _ in 'ab')
    left = pool.binder('exists', pool.binder('exists', pool.p, inner), outer)
    return whole(pool, [(1, pool.op('Equals', left, pool.binder('exists', pool.p, outer + inner)))])


def many_taken_out(count):
    """Each operand a forall that binds its own variable; the right list has them all, the last ones first."""
    pool = Parts()
    pairs = [(2 + i, 0) for i in range(count)]
    body = pool.op('Or', *(pool.binder('forall', pool.var(*pair), [pair]) for pair in pairs))
    left = pool.op('Not', pool.binder('forall', body, []))
    clause = pool.op('Or', *(pool.var(*pair) for pair in pairs))
    return whole(pool, [(3, pool.op('Or', left, pool.binder('forall', clause, pairs[::-1])))])
