"""At which check of its rule a step ends: a label for each, so that it can be counted whether every one is tried.

    site(pool, rule, t, answer)      the label; `pool` is a Checked one (reference_rules.py)
    SITES                            every label, by rule and in the order of the checks

A label tells apart what a code alone does not: which operand, quantifier or list it is about, and in which of the two forms of
rules 4 and 5.
"""
from references.reference_clauses import EXISTS, FORALL, OR
from references.reference_rules import RULES

KIND = {FORALL: 'forall', EXISTS: 'exists'}
BOTH = [(KIND[tag], KIND[FORALL + EXISTS - tag]) for tag in KIND]


def other_sort(pairs, name):
    """8 of a name that the pairs have under another sort."""
    return ', a name of the left list' if name in [known for known, _ in pairs] else ''


def join_site(pool, t, code, first, second):
    if code not in (3, 4):
        return ''
    left, right = pool.operands(t)
    if pool.tag[left] not in KIND:
        return ' left'
    body = pool.operands(left)[0]
    if pool.tag[body] not in KIND:
        return ' body'
    if code == 3:
        return ' right'
    sides = 'outer %s, inner %s' if pool.tag[left] != pool.tag[body] else 'inner %s, right %s'
    return ' ' + sides % (KIND[first], KIND[second])


def unused_site(pool, t, code, first, second):
    left, right = pool.operands(t) if code != 2 else (t, t)
    if code == 3:
        return ' right' if pool.tag[left] in KIND else ' left'
    if code == 4:
        return ' left %s, right %s' % (KIND[first], KIND[second])
    if code == 8:
        return other_sort(pool.quantifier(left).pairs, first)
    if code == 0:
        return ' the body' if right == pool.operands(left)[0] else ' a quantifier'
    return ''


def cnf_site(pool, t, code, first, second):
    if code in (2, 10, 13, 31, 32):
        return ''
    negated, right = pool.operands(t)
    left, = pool.operands(negated)
    if code in (3, 4):
        passes = KIND if code == 3 else (FORALL,)
        return ' right' if pool.tag[left] in passes else ' left'
    whole, part = pool.quantifier(left), pool.quantifier(right)
    if code == 8:
        return other_sort(whole.pairs, first)
    if code == 9:
        missing = [name for name, sort in whole.pairs
                   if pool.is_free((name, sort), part.body) and (name, sort) not in part.pairs]
        return ' left list' if first in missing else ' taken out'
    return ' an or' if pool.tag[part.body] == OR else ' a literal'


def miniscope_site(pool, t, code, first, second):
    """Of rules 4 and 5."""
    if code == 2 and first == t:
        return ' conclusion'
    left, right = pool.operands(t)
    outer, operands = pool.quantifier(left), pool.operands(right)
    kind = ' ' + KIND[outer.tag]
    if code == 2:
        return kind + ' operand'
    if code == 6:
        return kind + (' first operand' if second == operands[0] else ' later operand')
    if code == 8:
        used = [pair for operand in operands if pool.tag[operand] == outer.tag for pair in pool.quantifier(operand).pairs]
        twice = any(used.count(pair) > 1 for pair in outer.pairs if pair[0] == first)
        return kind + (' used before' if twice else ' not outer')
    return kind


def ite_site(pool, t, code, first, second):
    if code != 6:
        return ''
    _, then, _ = pool.operands(pool.operands(t)[1])
    return ' then' if second == then else ' else'


BY_RULE = {1: join_site, 2: unused_site, 3: cnf_site, 4: miniscope_site, 5: miniscope_site, 6: ite_site}


def site(pool, rule, t, answer):
    if answer[0] in (17, 18):
        return 'any rule: %d' % answer[0]
    return 'rule %d: %d%s' % (rule, answer[0], BY_RULE[rule](pool, t, *answer))


def of_rule(rule):
    kinds = ('forall', 'exists')
    new = ('8', '8, a name of the left list')
    return {
        1: ('2', '3 left', '3 body', '3 right', *('4 outer %s, inner %s' % pair for pair in BOTH),
            *('4 inner %s, right %s' % pair for pair in BOTH), '5', '7', '0'),
        2: ('2', '3 left', '0 the body', '3 right', *('4 left %s, right %s' % pair for pair in BOTH), '5', *new, '9',
            '0 a quantifier'),
        3: ('2', '3 left', '3 right', '4 left', '4 right', '31', '13', '32', *new, '10', '9 left list', '9 taken out', '0 a literal',
            '0 an or'),
        4: ('2 conclusion', *('%s %s%s' % (code, kind, operand) for kind in kinds for code, operand in (
            (11, ''), (2, ' operand'), (6, ' first operand'), (6, ' later operand'), (5, ''), (0, '')))),
        5: ('2 conclusion', *('%s %s%s' % (code, kind, operand) for kind in kinds for code, operand in (
            (11, ''), (2, ' operand'), (5, ''), (8, ' not outer'), (8, ' used before'), (12, ''), (0, '')))),
        6: ('2', '6 then', '6 else', '12', '0'),
    }[rule]


SITES = ['rule %d: %s' % (rule, label) for rule in RULES for label in of_rule(rule)] + ['any rule: 17', 'any rule: 18']
