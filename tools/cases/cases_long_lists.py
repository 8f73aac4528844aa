"""Call files on binding lists of more than 31 pairs, which are asked for in groups of 31. Rows and cases are as in cases_rules.py.

Every variable of the list stands in the term that is asked, bound there; at most one is free there too, or in a let's value.
"""
from pools.formulas import step

LETTERS = [chr(0x100 + i) for i in range(70)]
FREE = {'first': LETTERS[0], 'last-of-group': LETTERS[30], 'first-of-next-group': LETTERS[31], 'last': LETTERS[-1]}
LIST = '(%s)' % ' '.join(LETTERS)
BOUND = '(forall %s (or %s))' % (LIST, ' '.join(LETTERS))


def removal(term, right):
    return '(= (forall %s %s) (forall (%s) %s))' % (LIST, term, right, term)


def clause(literal, right):
    return '(or (not (forall {0} (or {1} p))) (forall ({2}) (or {1} p)))'.format(LIST, literal, right)


def split(*operands):
    return '(= (forall {0} (or {1})) (or {1}))'.format(LIST, ' '.join(operands))


def ite(condition):
    return '(= (forall {0} (ite {1} p q)) (ite {1} (forall {0} p) (forall {0} q)))'.format(LIST, condition)


def rows(name, letter):
    with_free = '(and %s %s)' % (BOUND, letter)
    yield 2, name, removal(with_free, letter)
    yield 2, name, removal(with_free, ''), 9, letter
    yield 3, name, clause(letter, letter)
    yield 3, name, clause(letter, ''), 9, letter
    yield 5, name, split(BOUND, letter), 12, letter, '(or %s %s)' % (BOUND, letter)
    yield 6, name, ite(with_free), 12, letter, with_free
    in_value = '(let ((%s p) (p %s)) %s)' % (letter, letter, BOUND)
    yield 2, name + '-let-value', removal(in_value, ''), 9, letter
    yield 6, name + '-let-value', ite(in_value), 12, letter, in_value


def long_lists():
    for rule, name, text in ((2, 'none', removal(BOUND, '')), (2, 'body', '(= (forall %s %s) %s)' % (LIST, BOUND, BOUND)), (5, 'none', split(BOUND)),
                             (6, 'none', ite(BOUND))):
        yield step(rule, 'long-list-' + name, text)
    for name, letter in FREE.items():
        for rule, *row in rows('long-list-' + name, letter):
            yield step(rule, *row)


COLLECTIONS = {'long-lists': [long_lists]}
