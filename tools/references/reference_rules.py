"""The check of a step, straight from document 01: checks 30, 14, 15, 16, 18, 1, 17, and then the rule; after 30 checks 40 and 41 of
document 02's S-2.

An independent reading, for the expected outputs: nothing here is taken from the Rattle code. The forms of rules 4, 5 and
6 are those of the Alethe specification.

    check(tags, values, n, rule, conclusion, table)    (code, first, second); `conclusion` is a list of places, `table` one of sort rules

Rule 3 zeroes both lists from n on with every answer but 30; the other rules, and a code that is no rule's, change nothing.
A rule is a function of a `Checked` pool and the conclusion's place. It returns where it accepts and raises `Refused`
where it does not.
"""
from collections import namedtuple
from functools import cached_property

from references import reference
from references.reference_clauses import (AND, EQUALS, EXISTS, FORALL, Growing, ITE, MOST_CLAUSES, MOST_LITERALS, NOT, OR, cleared,
                               clause_answer, normal_form, taken_variables)

VARIABLE = 21
LARGEST = 0xffffffff
Quantifier = namedtuple('Quantifier', 'place tag pairs body')  # a pair is (name, sort)


class Refused(Exception):
    """The code and the two numbers that it carries."""


def need(holds, code, first=0, second=0):
    if not holds:
        raise Refused(code, first, second)


class Checked(Growing):
    """A pool that the checks have passed, with room for new terms up to the arrays' end or 8,192, and the limits of 32."""

    def __init__(self, tags, values, n):
        super().__init__(tags, values, n)
        self.arrays = tags, values, n
        self.room = min(len(tags), reference.LIMIT)
        self.most = MOST_CLAUSES, MOST_LITERALS

    @cached_property
    def free(self):
        return reference.free_variables(*self.arrays)

    def is_free(self, pair, t):
        """A variable that is free in a term stands in the pool."""
        name, sort = pair
        return self.place.get((VARIABLE, (sort, name))) in self.free[t]

    def is_op(self, t, tag, count=None):
        return self.tag[t] == tag and count in (None, len(self.operands(t)))

    def quantifier(self, t):
        need(self.tag[t] in (FORALL, EXISTS), 3, t)
        body, *cells = self.operands(t)
        return Quantifier(t, self.tag[t], list(zip(cells[::2], cells[1::2])), body)

    def equality(self, t):
        need(self.is_op(t, EQUALS, 2), 2, t)
        return self.operands(t)


# ---- lists of pairs
def without_adjacent(pairs):
    """"adjacent equal pairs dropped": a pair that equals the one before it goes."""
    return [pair for i, pair in enumerate(pairs) if i == 0 or pair != pairs[i - 1]]


def none_new(pairs, known):
    known = set(known)
    for pair in pairs:
        need(pair in known, 8, pair[0])


def none_missing(pool, pairs, bound, t):
    bound = set(bound)
    for pair in pairs:
        need(not pool.is_free(pair, t) or pair in bound, 9, pair[0])


def none_free(pool, pairs, t):
    for pair in pairs:
        need(not pool.is_free(pair, t), 12, pair[0], t)


# ---- the rules
def qnt_join(pool, t):
    left, right = pool.equality(t)
    outer = pool.quantifier(left)
    inner = pool.quantifier(outer.body)
    joint = pool.quantifier(right)
    need(outer.tag == inner.tag, 4, outer.tag, inner.tag)
    need(inner.tag == joint.tag, 4, inner.tag, joint.tag)
    need(inner.body == joint.body, 5, inner.body, joint.body)
    need(without_adjacent(outer.pairs + inner.pairs) == joint.pairs, 7, left, right)


def qnt_rm_unused(pool, t):
    left, right = pool.equality(t)
    before = pool.quantifier(left)
    if right == before.body and not any(pool.is_free(pair, right) for pair in before.pairs):
        return
    after = pool.quantifier(right)
    need(before.tag == after.tag, 4, before.tag, after.tag)
    need(before.body == after.body, 5, before.body, after.body)
    none_new(after.pairs, before.pairs)
    none_missing(pool, before.pairs, after.pairs, before.body)


def qnt_cnf(pool, t):
    whole, part = clausification(pool, t)
    answer, clauses = clause_answer(pool, whole.body, pool.room, pool.most)
    need(answer[0] == 0, *answer)
    variables = whole.pairs + taken_variables(pool, normal_form(pool, whole.body, True))
    none_new(part.pairs, variables)
    need(any(is_clause(pool, part.body, clause) for clause in clauses), 10, part.body)
    none_missing(pool, variables, part.pairs, part.body)


def clausification(pool, t):
    """The two foralls of `(or (not l) r)`."""
    need(pool.is_op(t, OR, 2) and pool.is_op(pool.operands(t)[0], NOT, 1), 2, t)
    negated, right = pool.operands(t)
    sides = pool.quantifier(pool.operands(negated)[0]), pool.quantifier(right)
    for side in sides:
        need(side.tag == FORALL, 4, FORALL, side.tag)
    return sides


def is_clause(pool, t, clause):
    """A one-literal clause is the literal, a longer one an `or`."""
    return clause == [t] or len(clause) > 1 and pool.is_op(t, OR) and pool.operands(t) == tuple(clause)


def miniscope_distribute(pool, t):
    outer, _, operands = miniscope_sides(pool, t, {FORALL: AND, EXISTS: OR})
    for phi, operand in operands:
        inner = wanted(pool, operand, outer.tag)
        need(outer.pairs == inner.pairs, 6, outer.place, operand)
        need(phi == inner.body, 5, phi, inner.body)


def miniscope_split(pool, t):
    outer, right, operands = miniscope_sides(pool, t, {FORALL: OR, EXISTS: AND})
    unused = set(outer.pairs)
    for phi, operand in operands:
        if phi == operand:
            continue
        inner = wanted(pool, operand, outer.tag)
        need(phi == inner.body, 5, phi, inner.body)
        for pair in inner.pairs:
            need(pair in unused, 8, pair[0])
            unused.remove(pair)
    none_free(pool, outer.pairs, right)


def miniscope_sides(pool, t, connective):
    """The left quantifier of rules 4 and 5, the right side, and the operands of both in pairs."""
    left, right = pool.equality(t)
    need(pool.tag[left] in connective, 2, t)
    outer = pool.quantifier(left)
    op = connective[outer.tag]
    need(pool.is_op(outer.body, op) and pool.is_op(right, op), 2, t)
    phis, operands = pool.operands(outer.body), pool.operands(right)
    need(len(phis) == len(operands), 11, len(phis), len(operands))
    return outer, right, list(zip(phis, operands))


def wanted(pool, operand, tag):
    need(pool.tag[operand] == tag, 2, operand)
    return pool.quantifier(operand)


def miniscope_ite(pool, t):
    left, right = pool.equality(t)
    need(pool.tag[left] == FORALL and pool.is_op(right, ITE, 3), 2, t)
    outer = pool.quantifier(left)
    need(pool.is_op(outer.body, ITE, 3), 2, t)
    condition, *phis = pool.operands(outer.body)
    same, *branches = pool.operands(right)
    need(condition == same and all(pool.tag[branch] == FORALL for branch in branches), 2, t)
    inner = [pool.quantifier(branch) for branch in branches]
    need([side.body for side in inner] == phis, 2, t)
    for side in inner:
        need(outer.pairs == side.pairs, 6, left, side.place)
    none_free(pool, outer.pairs, condition)


RULES = {1: qnt_join, 2: qnt_rm_unused, 3: qnt_cnf, 4: miniscope_distribute, 5: miniscope_split, 6: miniscope_ite}


# ---- the call
def check(tags, values, n, rule, conclusion, table=reference.BUILT_IN):
    answer = step_answer(tags, values, n, rule, conclusion, table)
    if rule == 3 and answer[0] != 30:
        cleared(tags, n)
        cleared(values, n)
    return answer


def step_answer(tags, values, n, rule, conclusion, table):
    answer = reference.check(tags, values, n, table)
    if answer[0]:
        return answer
    return checked_answer(Checked(tags, values, n), rule, conclusion)


def checked_answer(pool, rule, conclusion):
    """18, 1 and 17, and then the rule."""
    tags, _, n = pool.arrays
    if rule not in RULES:
        return 18, rule, 0
    if len(conclusion) != 1:
        return 1, min(len(conclusion), LARGEST), 0
    t, = conclusion
    if not reference.is_term(tags, n, t):
        return 17, t, 0
    return rule_answer(pool, rule, t)


def rule_answer(pool, rule, t):
    try:
        RULES[rule](pool, t)
    except Refused as refused:
        return refused.args
    return 0, 0, 0
