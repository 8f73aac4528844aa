"""Call files on sorts: every operator, and every way in which a sort rule goes.

The operators whose sort does not hang on their operands are tried on operands of two other sorts, so that a
rule which looks at an operand shows. A case is as in cases_checks.py; `None` for an expected sort means that
there is no answer, 16 at the term's place whatever sort is stated.
"""
from pools.packed_pool import OPERATOR_TAG, Pool, call_file
from references.reference import BIT_VECTORS, BOOL, FIRST, INT, OPERATORS, REAL, REGLAN, SECOND, STRING


class Table(Pool):
    """A pool of sorts, and a variable of each by a letter: i Int, r Real, a and b atoms, p ParamBitVec, v and w
    bit vectors of 8 and 9, h one of 2^31, y an array from a to b, s a set of a; relations e over no sort,
    q over (a), t over (a, b), u over (b, Int); n the integer 12 and f a function (a, b, Int)."""

    def __init__(self):
        super().__init__()
        s = self.sort
        a, b, i = s('Atom', 1), s('Atom', 2), s('Int')
        sorts = {'i': i, 'r': s('Real'), 'a': a, 'b': b, 'p': s('ParamBitVec'), 'v': s('BitVec', 8), 'w': s('BitVec', 9),
                 'h': s('BitVec', 1 << 31), 'y': s('Array', a, b), 's': s('Set', a), 'e': s('Set', s('Tuple')),
                 'q': s('Set', s('Tuple', a)), 't': s('Set', s('Tuple', a, b)), 'u': s('Set', s('Tuple', b, i)),
                 'f': s('Function', a, b, i)}
        self.by_letter = {letter: self.var(1, sort) for letter, sort in sorts.items()}
        self.by_letter['n'] = self.constant('integer', 12)
        self.by_letter['x'] = self.var(2)  # Bool

    def terms(self, letters):
        return [self.by_letter[letter] for letter in letters]

    def described(self, sort):
        """The place of a sort: (name of a sort, cells as letters of variables of the sort or numbers), or a letter."""
        if isinstance(sort, str):
            return self.sort_of(self.by_letter[sort])
        head, *cells = sort
        return self.sort(head, *(c if isinstance(c, int) else self.described(c) for c in cells))


def case(name, tag, letters, sort, table=None):
    pool = Table()
    stated = 0 if sort is None else pool.described(sort)
    term = pool.header(tag, stated, *pool.terms(letters))
    answer = (16, term, 0) if sort is None else (0, stated, 0)
    return name, answer, call_file(1, pool.tags, pool.values, place=term, table=table)


def operators():
    groups = [(BOOL, 'ab', ('Bool',)), (INT, 'ab', ('Int',)), (REAL, 'ab', ('Real',)), (STRING, 'ab', ('String',)),
              (REGLAN, 'ab', ('RegLan',)), (FIRST, 'abr', 'a'), (SECOND, 'abr', 'b'), (['SetInsert'], 'abr', 'r'),
              (BIT_VECTORS, 'pvw', 'v'), (['Add', 'Sub', 'Mult'], 'ir', ('Real',)), (['Select'], 'ya', 'b'),
              (['BvConcat'], 'vw', ('BitVec', 17)), (['BvComp'], 'vw', ('BitVec', 1)),
              (['BvPBbTerm', 'BvBbTerm'], 'xxx', ('BitVec', 3)), (['BvConst'], 'nn', ('BitVec', 12)), (['RareList'], 'ab', 'a'),
              (['SetSingleton'], 'a', ('Set', 'a')), (['Tuple'], 'ab', ('Tuple', 'a', 'b')), (['TupleUnit'], 'ab', ('Tuple',)),
              (['RelTranspose'], 't', ('Set', ('Tuple', 'b', 'a'))), (['RelJoin'], 'tu', ('Set', ('Tuple', 'a', 'i'))),
              (['RelProduct'], 'tu', ('Set', ('Tuple', 'a', 'b', 'b', 'i')))]
    assert sorted(name for names, _, _ in groups for name in names) == sorted(OPERATORS)
    for names, letters, sort in groups:
        for name in sorted(names):
            yield case('sort-%s' % name, OPERATOR_TAG[name], letters, sort)


# operator, operands, the sort or None
ODD = [
    ('And', '', ('Bool',)), ('Not', 'xx', ('Bool',)), ('StrLen', '', ('Int',)), ('RealPi', '', ('Real',)),
    ('StrConcat', '', ('String',)), ('ReNone', '', ('RegLan',)), ('True', 'r', ('Bool',)),
    ('Abs', '', None), ('Store', '', None), ('SetUnion', '', None), ('SetInter', '', None), ('SetMinus', '', None),
    ('SetComplement', '', None), ('RelTclosure', '', None), ('Abs', 'a', 'a'), ('Store', 'yab', 'y'),
    ('Ite', '', None), ('Ite', 'a', None), ('Ite', 'ab', 'b'), ('BvIte', 'a', None), ('BvIte', 'ab', 'b'),
    ('SetInsert', '', None), ('SetInsert', 's', 's'),
    ('Add', '', ('Int',)), ('Add', 'i', ('Int',)), ('Add', 'a', ('Int',)), ('Mult', 'iir', ('Real',)), ('Sub', 'ri', ('Real',)),
    ('Select', '', None), ('Select', 's', None), ('Select', 'y', 'b'),
    ('BvAnd', '', ('ParamBitVec',)), ('BvAnd', 'pp', ('ParamBitVec',)), ('BvAnd', 'a', None), ('BvAnd', 'pa', None),
    ('BvAnd', 'va', 'v'), ('BvAnd', 'ppw', 'w'), ('BvNot', 'w', 'w'), ('BvAShr', 'x', None), ('BvXNor', 'wv', 'w'),
    ('BvConcat', '', ('BitVec', 0)), ('BvConcat', 'v', 'v'), ('BvConcat', 'vp', ('ParamBitVec',)),
    ('BvConcat', 'pv', ('ParamBitVec',)), ('BvConcat', 'a', None), ('BvConcat', 'va', None), ('BvConcat', 'pa', None),
    ('BvConcat', 'hh', None), ('BvConcat', 'hvv', ('BitVec', (1 << 31) + 16)), ('BvConcat', 'hhhhp', ('ParamBitVec',)),
    ('BvComp', '', ('BitVec', 1)), ('BvBbTerm', '', ('BitVec', 0)), ('BvPBbTerm', 'a', ('BitVec', 1)),
    ('BvConst', '', None), ('BvConst', 'n', None), ('BvConst', 'na', ('ParamBitVec',)), ('BvConst', 'an', ('BitVec', 12)),
    ('RareList', '', ('Var', 0)), ('SetSingleton', '', None), ('SetSingleton', 'ab', ('Set', 'a')),
    ('Tuple', '', ('Tuple',)), ('Tuple', 'aaa', ('Tuple', 'a', 'a', 'a')), ('TupleUnit', '', ('Tuple',)),
    ('RelTranspose', '', None), ('RelTranspose', 's', None), ('RelTranspose', 'a', None),
    ('RelTranspose', 'e', ('Set', ('Tuple',))), ('RelTclosure', 't', 't'),
    ('RelJoin', '', None), ('RelJoin', 't', None), ('RelJoin', 'te', None), ('RelJoin', 'et', ('Set', ('Tuple', 'b'))),
    ('RelJoin', 'qq', ('Set', ('Tuple',))), ('RelJoin', 'st', None), ('RelJoin', 'ts', None), ('RelJoin', 'at', None),
    ('RelProduct', '', None), ('RelProduct', 't', None), ('RelProduct', 'ee', ('Set', ('Tuple',))),
    ('RelProduct', 'eq', ('Set', ('Tuple', 'a'))), ('RelProduct', 'sq', None), ('RelProduct', 'qs', None),
]


def odd():
    """Odd counts and operands."""
    for name, letters, sort in ODD:
        yield case('%s-%s-of-%s' % ('16' if sort is None else 'sort', name, letters or 'nothing'), OPERATOR_TAG[name], letters, sort)


def applications():
    for letters, sort in (('f', 'f'), ('fa', ('Function', 'b', 'i')), ('fab', 'i'), ('fxx', 'i'), ('fabi', ('Function',)),
                          ('fabia', None), ('a', None)):
        yield case('%s-application-%s' % ('16' if sort is None else 'sort', letters), 22, letters, sort)


def stated():
    """The same with a sort that is not the computed one: 16."""
    for name, letters, wrong in (('And', 'ab', 'a'), ('StrLen', 'ab', 'a'), ('Sin', 'ab', 'i'), ('CharAt', 'ab', 'r'),
                                 ('ReAll', 'ab', 'b'), ('Abs', 'ab', 'b'), ('Ite', 'abr', 'a'), ('SetInsert', 'as', 'a'),
                                 ('Add', 'ir', 'i'), ('Add', 'ii', 'r'), ('Select', 'y', 'a'), ('BvAdd', 'vw', 'w'),
                                 ('BvAdd', 'pv', 'p'), ('BvConcat', 'vw', 'w'), ('BvComp', 'vv', 'v'), ('BvBbTerm', 'xx', 'v'),
                                 ('BvConst', 'nn', 'v'), ('RareList', 'ab', 'b'), ('SetSingleton', 'b', 's'),
                                 ('Tuple', 'ab', 't'), ('TupleUnit', '', 'e'), ('RelTranspose', 't', 't'), ('RelJoin', 'tu', 't'),
                                 ('RelProduct', 'qe', 'e'), ('RelTclosure', 't', 'u')):
        pool = Table()
        term = pool.header(OPERATOR_TAG[name], pool.sort_of(pool.by_letter[wrong]), *pool.terms(letters))
        yield '16-%s-stated-%s' % (name, wrong), (16, term, 0), call_file(1, pool.tags, pool.values, place=term)


def others():
    """Constants, variables, binders and lets."""
    pool = Table()
    x, a, i = pool.terms('xai')
    atom, integer = pool.sort_of(a), pool.sort_of(i)
    terms = {'integer': pool.constant('integer', 4294967295), 'real': pool.constant('real', 0),
             'string': pool.constant('string', 1), 'reglan': pool.constant('reglan', 2), 'bits': pool.bits(8, 255),
             'variable': a, 'forall': pool.binder('forall', i, [(1, atom)]), 'exists': pool.binder('exists', a, []),
             'choice': pool.binder('choice', x, [(1, atom), (2, 0)]), 'lambda': pool.binder('lambda', a, [(1, integer), (1, 0)]),
             'lambda-without-list': pool.binder('lambda', i, []), 'let': pool.let(a, [(1, i)])}
    sorts = {'integer': (2,), 'real': (3,), 'string': (4,), 'reglan': (5,), 'bits': (7, 8), 'variable': (9, 1), 'forall': (1,),
             'exists': (1,), 'choice': (9, 1), 'lambda': (10, integer, 0, atom), 'lambda-without-list': (10, integer), 'let': (9, 1)}
    for name, term in terms.items():
        tag, *cells = sorts[name]
        yield 'sort-%s' % name, (0, pool.index[tag, tuple(cells)], 0), call_file(1, pool.tags, pool.values, place=term)


COLLECTIONS = {'sorts': [operators, odd, applications, stated, others]}
