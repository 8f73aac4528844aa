"""Which rule a step is checked by, and joins as links of two levels.

    rule_of_shape(pool, place)       the code of the rule that a conclusion has the shape of, or None
    links(pool, rule, place)         [(rule, place of a conclusion), ..]: the step itself, or a chain that shows it

A chain for (= l r) is l = m1, m1 = m2, .. = r: equality is transitive. Of a join, each link joins the outer two levels as rule 1
has it, adjacent repeats dropped. A right list that keeps repeats, or drops more of them, comes from the joined one by rule 2, read
backwards: (= r m). That link is made only where the right list is the lists of all levels without some of their repeats.
"""
from collections import namedtuple

from references.reference_clauses import AND, EQUALS, EXISTS, FORALL, ITE, OR
from references.reference_rules import without_adjacent

CODES = {'qnt_join': 1, 'qnt_rm_unused': 2, 'qnt_cnf': 3, 'miniscope_distribute': 4, 'miniscope_split': 5, 'miniscope_ite': 6}
RULE = {code: name for name, code in CODES.items()}
INSTANCE = 'forall_inst'
Quantifier = namedtuple('Quantifier', 'tag pairs body')
MINISCOPE = {(FORALL, AND): 4, (EXISTS, OR): 4, (FORALL, OR): 5, (EXISTS, AND): 5, (FORALL, ITE): 6}


def operands(pool, place):
    return pool.values[place + 2:place + 1 + pool.values[place]]


def quantifier(pool, place):
    """The parts of a forall or exists, or None."""
    if pool.tags[place] not in (FORALL, EXISTS):
        return None
    body, *cells = operands(pool, place)
    return Quantifier(pool.tags[place], list(zip(cells[::2], cells[1::2])), body)


def sides(pool, place):
    """The left quantifier of an equality and the place of the right side, or None twice."""
    if pool.tags[place] == EQUALS and len(operands(pool, place)) == 2:
        left, right = operands(pool, place)
        return quantifier(pool, left), right
    return None, None


def rule_of_shape(pool, place):
    left, right = sides(pool, place)
    if left is None:
        return None
    after = quantifier(pool, right)
    if right == left.body or after and after.tag == left.tag and after.body == left.body:
        return CODES['qnt_rm_unused']
    if after and len(levels(pool, left, after.body)) > 1:
        return CODES['qnt_join']
    return MINISCOPE.get((left.tag, pool.tags[right])) if pool.tags[right] == pool.tags[left.body] else None


def levels(pool, outer, body):
    """The levels of one quantifier from the outer one down to this body; none if it is not reached."""
    found = [outer]
    while found[-1].body != body:
        inner = quantifier(pool, found[-1].body)
        if inner is None or inner.tag != outer.tag:
            return []
        found.append(inner)
    return found


def links(pool, rule, place):
    left, right = sides(pool, place)
    joint = quantifier(pool, right) if left else None
    found = levels(pool, left, joint.body) if joint and joint.tag == left.tag and rule == CODES['qnt_join'] else []
    pairs = [pair for level in found for pair in level.pairs]
    joined = without_adjacent(pairs)
    if len(found) < 2 or len(found) == 2 and (joined == joint.pairs or not drops_repeats(pairs, joint.pairs)):
        return [(rule, place)]
    chain, at = [], operands(pool, place)[0]
    for k in range(2, len(found) + 1):
        list_so_far = without_adjacent([pair for level in found[:k] for pair in level.pairs])
        after = binder(pool, left.tag, list_so_far, found[k - 1].body)
        if k == len(found) and not drops_repeats(pairs, joint.pairs):
            after = right  # refused there, with the lists in the answer
        chain.append((CODES['qnt_join'], pool.op('Equals', at, after)))
        at = after
    if at != right:
        chain.append((CODES['qnt_rm_unused'], pool.op('Equals', right, at)))
    return chain


def binder(pool, tag, pairs, body):
    return pool.term(tag, body, *(cell for pair in pairs for cell in pair))


def drops_repeats(pairs, fewer):
    """Whether a list is another one in its order, but for pairs that it has elsewhere."""
    rest = iter(pairs)
    return set(fewer) == set(pairs) and all(pair in rest for pair in fewer)
