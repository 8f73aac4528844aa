"""Calls 0 to 4 under tables of sort rules that load, and whose answers are others than under the built-in one. The groups are of the
collection of cases_tables.py; a case is as in cases_layouts.py.
"""
from cases.cases_examples import EXAMPLES
from cases.cases_layouts import VARIABLE, longer, on_cells
from cases.cases_sorts import ODD, Table, case
from pools.formulas import BIG, WHOLE, Formulas, clausal, normal, step_on
from pools.packed_pool import OPERATOR_TAG, call_file, packed
from pools.sort_tables import BUILT_IN, CONNECTIVES, table
from references.reference import OPERATORS

LESS = OPERATOR_TAG['LessThan']
JUNK = [BIG, 36, 0, 7]
SORTS = ('Bool',), ('Int',), ('Real',), ('String',), ('RegLan',), 'a', 'b'  # by rules 0 to 6, of operands a and b
# one operator of each rule, and more of the special ones; of those, operands and the sort by rule 7
KINDS = 'LessThan', 'IntDiv', 'RealDiv', 'CharAt', 'ReAll', 'Abs', 'Ite', 'BvIte', 'Xor', 'Add', 'Select', 'TupleUnit'
SPECIAL = {'Add': ('ir', ('Real',)), 'Select': ('yab', 'b'), 'TupleUnit': ('ab', ('Tuple',))}
# every entry another one, but for the five connectives and the special ones
OTHERS = [rule if rule == 7 or name in CONNECTIVES else (rule + 1) % 7 for name, rule in zip(OPERATORS, BUILT_IN)]


# ---- sorts
def rules():
    """Each rule at operators of each kind, with the sort that it gives and with another."""
    for name in KINDS:
        tag = OPERATOR_TAG[name]
        for rule, sort in enumerate(SORTS):
            entries = table('%s=%d' % (name, rule))
            yield case('table-%s-%d' % (name, rule), tag, 'ab', sort, entries)
            pool = Table()
            term = pool.header(tag, pool.described(SORTS[rule - 1]), *pool.terms('ab'))
            yield ('table-%s-%d-stated-another' % (name, rule), (16, term, 0),
                   call_file(1, pool.tags, pool.values, place=term, table=entries))
        if name in SPECIAL:
            yield case('table-%s-7' % name, tag, *SPECIAL[name], table('%s=7' % name))
        else:
            file = call_file(1, *VARIABLE, place=1, table=table('%s=7' % name))
            yield 'table-%s-7' % name, (40, tag - 32, 0), file


def operands():
    """Rules 5 and 6 on any number of operands."""
    for name in KINDS:
        for rule, letters, sort in ((5, '', None), (5, 'b', 'b'), (5, 'abr', 'a'), (6, '', None), (6, 'a', None), (6, 'abr', 'b')):
            yield case('table-%s-%d-of-%s' % (name, rule, letters or 'nothing'), OPERATOR_TAG[name], letters, sort,
                       table('%s=%d' % (name, rule)))


def missing_sorts():
    """Rules 1 to 4: the pool holds the sort, and the term states it. The first are of two headers."""
    for rule in range(7):
        answer = (16, 1, 0) if rule else (0, 0, 0)
        yield 'table-two-headers-%d' % rule, answer, call_file(1, *packed([1], [LESS, 0]), place=1, table=table('LessThan=%d' % rule))
    for rule in (1, 2, 3, 4):
        tag, others = rule + 1, [[tag] for tag in (2, 3, 4, 5) if tag != rule + 1]
        for name, answer, *headers in (
                ('there', (0, 1, 0), [tag], [LESS, 1]), ('there-bool-stated', (16, 2, 0), [tag], [LESS, 0]),
                ('later', (16, 1, 0), [LESS, 0], [tag]), ('others-there', (16, 4, 0), *others, [LESS, 0]),
                ('other-stated', (16, 5, 0), [tag], *others, [LESS, 2]), ('last-of-four', (0, 4, 0), *others, [tag], [LESS, 4])):
            place = next(p for p, found in enumerate(packed([1], *headers)[0]) if found == LESS)
            yield ('table-sort-%d-%s' % (rule, name), answer,
                   call_file(1, *packed([1], *headers), place=place, table=table('LessThan=%d' % rule)))


def every_operator():
    """A pool of a term of each operator. In seven tables every entry, but those of the connectives, has every rule of 0 to 6."""
    for shift in range(7):
        entries = [0 if name in CONNECTIVES else (i + shift) % 7 for i, name in enumerate(OPERATORS)]
        pool = Table()
        terms = [pool.op(name, *pool.terms('ab'), sort=pool.described(SORTS[rule])) for name, rule in zip(OPERATORS, entries)]
        file = {'place': terms[-1], 'tags': pool.tags, 'values': pool.values}
        yield 'table-every-operator-%d' % shift, (0, pool.sort_of(terms[-1]), 0), call_file(1, **file, table=entries)
        wrong = next(i for i, rule in enumerate(BUILT_IN) if rule != entries[i])
        yield 'table-every-operator-%d-built-in' % shift, (16, terms[wrong], 0), call_file(1, **file)
    for name, letters, sort in ODD:
        if BUILT_IN[OPERATORS.index(name)] == 7:
            yield case('table-others-%s-of-%s' % (name, letters or 'nothing'), OPERATOR_TAG[name], letters, sort, OTHERS)


# ---- pools that pass under one table only
def one_table_only():
    """A comparison that states Int, or Bool: 16 under the other table, by every call."""
    changed, marks = table('LessThan=1'), {'marks': [0] * 9}
    none = {'literals': [0] * 8192, 'ends': [0] * 2048}
    one = {'literals': [2] + none['literals'][1:], 'ends': [1] + none['ends'][1:]}
    for name, stated, entries, other in (('int', 1, changed, None), ('bool', 0, None, changed), ('bool-lent', 0, BUILT_IN, changed)):
        pool = packed([1], [2], [LESS, stated])
        given, zeroed = longer(pool, JUNK), longer(pool, [0] * len(JUNK))
        # name, call and head, the cells that are left, and where the pool passes the answer; lent arrays where it passes and where not
        for what, call, head, left, answer, lent, lent_16 in (
                ('sort', 1, {'place': 2}, given, (0, stated, 0), {}, {}),
                ('free', 2, {'place': 2, 'x': 9}, given, (0, 0, 0), marks, marks),
                ('normal', 3, {'place': 2, 'polarity': 1}, zeroed, (0, 2, 4), {}, {}),
                ('clauses', 4, {'place': 2, 'x': 8192, 'y': 2048}, zeroed, (0, 1, 1, 4), one, none),
                ('rule2', 0, {'place': 2, 'conclusion': [2]}, given, (2, 2, 0), {}, {}),
                ('rule3', 0, {'place': 3, 'conclusion': [2]}, zeroed, (2, 2, 0), {}, {})):
            yield on_cells('table-less-%s-%s' % (name, what), answer, call, given, left, 4, lent, **head, table=entries)
            yield on_cells('table-less-%s-%s-16' % (name, what), (16, 2, 0), call, given, left, 4, lent_16, **head, table=other)


# ---- normal forms and clauses
def boolean(left, right):
    """The new terms of (= left right) that is taken apart, and its clauses."""
    parts = '(not %s)' % left, '(or (not %s) %s)' % (left, right), '(not %s)' % right, '(or (not %s) %s)' % (right, left)
    return [*parts, '(and %s %s)' % (parts[1], parts[3])], [[parts[0], right], [parts[2], left]]


EQUALS_ITE = '(= (ite p p p) p)'
NOT_ITE = '(or (and p (not p)) (and (not p) (not p)))'  # of (ite p p p)
AS_ITE = '(and (or (not p) p) (or p p))'
TAKEN_APART = ['(not p)', '(and p (not p))', '(and (not p) (not p))', NOT_ITE, '(or %s p)' % NOT_ITE, '(or (not p) p)', '(or p p)',
               AS_ITE, '(or (not p) %s)' % AS_ITE, '(and (or %s p) (or (not p) %s))' % (NOT_ITE, AS_ITE)]
ITE = '(not p)', '(or (not p) q)', '(or p r)', '(and (or (not p) q) (or p r))'
# changes, the left side and the right side of an equality that is Boolean under one of the two tables, and under which
EQUALITIES = [
    ('sum', 'Add=0', '(+ i j)', 'p', True), ('less', 'LessThan=1', '(< i j)', 'p', False), ('true', 'True=1', '(true)', 'p', False),
    ('xor', 'Xor=4', '(xor p q)', 'r', False), ('xor-first', 'Xor=5', '(xor i p)', 'r', False),
    ('less-second', 'LessThan=6', '(< p i)', 'r', False), ('sum-second', 'Add=6', '(+ i p)', 'q', True),
    ('distinct', 'Distinct=2', '(distinct p q)', 'r', False), ('cl', 'Cl=3', '(cl)', 'r', False),
]


def equalities():
    """Boolean or opaque, by the sort of the left side."""
    for name, changes, left, right, changed in EQUALITIES:
        text = '(= %s %s)' % (left, right)
        new, clauses = boolean(left, right)
        for kind, entries, taken in (('table', table(changes), changed), ('built-in', None, not changed)):
            case_name = '%s-equals-%s' % (kind, name)
            if taken:
                yield normal('normal-%s-true' % case_name, text, 1, new, table=entries)
                yield clausal('clauses-' + case_name, text, clauses, new, table=entries)
            else:
                yield normal('normal-%s-true' % case_name, text, 1, result=text, table=entries)
                yield clausal('clauses-' + case_name, text, [[text]], table=entries)
                yield normal('normal-%s-false' % case_name, text, 0, ['(not %s)' % text], table=entries)


def ites():
    """An `ite` is taken apart whatever its sort, and what is built is Bool."""
    for rule in range(6):
        entries = table('Ite=%d' % rule)
        yield normal('normal-table-ite-%d' % rule, '(ite p q r)', 1, ITE, table=entries)
        yield clausal('clauses-table-ite-%d' % rule, '(ite p q r)', [['(not p)', 'q'], ['p', 'r']], ITE, table=entries)
    yield normal('normal-table-equals-ite-true', EQUALS_ITE, 1, result=EQUALS_ITE, table=table('Ite=1'))
    yield normal('normal-table-equals-ite-false', EQUALS_ITE, 0, ['(not %s)' % EQUALS_ITE], table=table('Ite=1'))
    yield clausal('clauses-table-equals-ite', EQUALS_ITE, [[EQUALS_ITE]], table=table('Ite=1'))
    for kind, entries in (('built-in', None), ('built-in-lent', BUILT_IN), ('table-0', table('Ite=0')), ('table-5', table('Ite=5'))):
        yield normal('normal-%s-equals-ite-true' % kind, EQUALS_ITE, 1, TAKEN_APART, table=entries)
    # what a normal form leaves passes under the same table
    pool = Formulas(EQUALS_ITE, '(not %s)' % EQUALS_ITE, '(ite p q r)', *ITE, table=table('Ite=1'))
    yield 'table-normal-forms-stand', (0, 0, 0), call_file(1, pool.tags, pool.values, place=pool.root, table=table('Ite=1'))


# ---- free variables and steps. The variable that a let binds has its value's sort.
LESS_LET, SUM_LET = '(let ((x (< i j))) x)', '(let ((x (+ i j))) x)'


def free():
    for name, changes, text, bound in (('less', 'LessThan=1', LESS_LET, False), ('sum', 'Add=0', SUM_LET, True)):
        for kind, entries, binds in (('table', table(changes), bound), ('built-in', None, not bound)):
            pool = Formulas(text, table=entries)
            marks = {pool.there(letter) for letter in ('ij' if binds else 'ijx')}
            yield ('free-%s-let-%s' % (kind, name), (0, 0, 0),
                   call_file(2, pool.tags, pool.values, place=pool.root, x=len(pool.tags), table=entries), marks)


# rule, name, changes, the term whose sort they change, conclusion, the answers under the changed table and under the built-in one
STEPS = [
    (1, 'less', 'LessThan=1', '(< i j)', '(= (forall (i) (forall (j) (< i j))) (forall (i j) (< i j)))', (0,), (0,)),
    (1, 'sum', 'Add=0', '(+ i j)', '(= (forall (i) (+ i j)) (forall (i j) (+ i j)))', (3, '(+ i j)'), (3, '(+ i j)')),
    (2, 'less', 'LessThan=1', '(< i j)', '(= (forall (x) {0}) {0})'.format(LESS_LET), (3, LESS_LET), (0,)),
    (2, 'sum', 'Add=0', '(+ i j)', '(= (forall (x) {0}) {0})'.format(SUM_LET), (0,), (3, SUM_LET)),
    (3, 'ite', 'Ite=1', '(ite p p p)', '(or (not (forall (p) {0})) (forall (p) {0}))'.format(EQUALS_ITE), (0,), (10, EQUALS_ITE)),
    (3, 'sum', 'Add=0', '(+ i j)', '(or (not (forall (i) (= (+ i j) p))) (forall (i) (or (not (+ i j)) p)))', (0,),
     (10, '(or (not (+ i j)) p)')),
    (3, 'less', 'LessThan=1', '(< i j)', '(or (not (forall (x) {0})) (forall () {0}))'.format(LESS_LET), (9, 'x'), (0,)),
    (4, 'less', 'LessThan=1', '(< i j)', '(= (forall (i) (and (< i j) p)) (and (forall (i) (< i j)) (forall (i) p)))', (0,), (0,)),
    (4, 'sum', 'Add=0', '(+ i j)', '(= (exists (i) (or (+ i j) p)) (and (exists (i) (+ i j)) (exists (i) p)))', (2, WHOLE), (2, WHOLE)),
    (5, 'less', 'LessThan=1', '(< i j)', '(= (forall (x) (or {0} p)) (or {0} p))'.format(LESS_LET),
     (12, 'x', '(or %s p)' % LESS_LET), (0,)),
    (5, 'sum', 'Add=0', '(+ i j)', '(= (exists (x) (and {0} p)) (and {0} p))'.format(SUM_LET), (0,), (12, 'x', '(and %s p)' % SUM_LET)),
    (6, 'less', 'LessThan=1', '(< i j)', '(= (forall (x) (ite {0} p q)) (ite {0} (forall (x) p) (forall (x) q)))'.format(LESS_LET),
     (12, 'x', LESS_LET), (0,)),
    (6, 'ite', 'Ite=1', '(ite p x q)', '(= (forall (x) (ite p x q)) (ite p (forall (x) x) (forall (x) q)))', (0,), (0,)),
]


def steps():
    """Each on the pool of its table, and on that of the other, where the pool is refused."""
    for rule, name, changes, term, text, *answers in STEPS:
        tables = table(changes), None
        for kind, entries, other, answer in zip(('table', 'built-in'), tables, tables[::-1], answers):
            pool = Formulas(text, table=entries)
            yield step_on('%s-rule%d-%d-%s' % (kind, rule, answer[0], name), pool, pool.root, rule, *answer, table=entries)
            yield step_on('%s-rule%d-16-%s' % (kind, rule, name), pool, pool.root, rule, 16, term, table=other)
    for rule, name, text in EXAMPLES:
        pool = Formulas(text, table=OTHERS)
        yield step_on('table-others-rule%d-%s' % (rule, name), pool, pool.root, rule, table=OTHERS)


GROUPS = rules, operands, missing_sorts, every_operator, one_table_only, equalities, ites, free, steps
