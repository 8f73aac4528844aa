"""The calls `sort`, `free variables` and `load a table` and the checks before them, straight from document 01 and, of document 02,
from S-2 for tables of sort rules and S-3 for let.

An independent reading, for the expected outputs: nothing here is taken from the Rattle code.

    check(tags, values, n, table)                  (code, first, second): checks 30, 40, 41, 14, 15, 16
    sort_call(tags, values, n, t, table)           the same for call 1, then 17 and the sort's place
    free_call(tags, values, n, t, marks, table)    the same for call 2; `marks`, a list, is changed
    load_call(entries, table)                      call 5; `table`, a list, is changed
    first_trouble(tags, values, n)                 14, 15 and 16 in one pass, as the Rust loader meets them

Every call that is lent a table is lent the built-in one where none is given.
A computed sort is the place of a header (int), or a description (tag, cell, ..) in which a cell may
be a description in turn.
"""
from functools import partial

LIMIT = 8192

OPERATORS = """True False Not Implies And Or Xor Equals Distinct Ite Add Sub Mult IntDiv RealDiv Mod
Abs LessThan GreaterThan LessEq GreaterEq ToReal ToInt IsInt Pow2 IsPow2 Log2 RealPi Sqrt Exp Sin Cos
Tan Csc Sec Cot Arcsin Arccos Arctan Arccsc Arcsec Arccot Select Store StrConcat StrLen StrLessThan
StrLessEq CharAt Substring PrefixOf SuffixOf Contains IndexOf IndexOfRe Replace ReplaceAll ReplaceRe
ReplaceReAll StrIsDigit StrToCode StrFromCode StrToInt StrFromInt StrToRe StrInRe ReNone ReAll
ReAllChar ReConcat ReUnion ReIntersection ReKleeneClosure ReComplement ReDiff ReKleeneCross ReOption
ReRange ReFromAutomaton BvNot BvNeg BvAnd BvOr BvAdd BvMul BvUDiv BvURem BvShl BvLShr BvULt BvConcat
BvNAnd BvNOr BvXor BvXNor BvComp BvSub BvSDiv BvSRem BvSMod BvAShr BvULe BvUGt BvUGe BvSLt BvSLe
BvSGt BvSGe UBvToInt SBvToInt BvPBbTerm BvBbTerm BvConst BvSize BvIte RareList Cl Delete SetUnion
SetInter SetMinus SetMember SetSubset SetSingleton SetIsEmpty SetIsSingleton SetCard SetInsert
SetComplement Tuple TupleUnit RelTranspose RelTclosure RelJoin RelProduct""".split()

# ---- 14: the cells of each tag, as (the first cells, the group that repeats): a number #, the place
# of an earlier sort s, the place of an earlier term t
LAYOUT = {
    **{tag: ('', '') for tag in range(1, 7)},
    7: ('#', ''), 8: ('#', ''), 9: ('#', 's'), 10: ('', 's'), 11: ('ss', ''), 12: ('s', ''), 13: ('', 's'),
    16: ('s#', ''), 17: ('s#', ''), 18: ('s#', ''), 19: ('s#', ''), 20: ('s##', ''), 21: ('s#', ''),
    22: ('st', 't'), 23: ('st', '#s'), 24: ('st', '#s'), 25: ('st', '#s'), 26: ('st', '#s'),
    27: ('st', '#t'),
    **{32 + code: ('s', 't') for code in range(135)},
}


def kinds_of(tag, count):
    """What each of the `count` cells of a header holds; None if the tag cannot have so many."""
    first, group = LAYOUT[tag]
    rest = count - len(first)
    if rest < 0 or (rest % len(group) if group else rest):
        return None
    return first + group * (rest // len(group) if group else 0)


def header_fits(tags, values, n, p, seen):
    """`seen` gives the kind, s or t, of every header before p."""
    tag, count = tags[p], values[p]
    if (p == 0 and tag != 1) or tag not in LAYOUT or count > n - 1 - p:
        return False
    kinds = kinds_of(tag, count)
    if kinds is None or any(tags[p + 1:p + 1 + count]):
        return False
    return all(kind == '#' or seen.get(v) == kind for kind, v in zip(kinds, values[p + 1:p + 1 + count]))


def kind(tag):
    return 's' if tag < 16 else 't'


def first_bad(tags, values, n):
    seen, p = {}, 0
    while p < n:
        if not header_fits(tags, values, n, p, seen):
            return p
        seen[p] = kind(tags[p])
        p += 1 + values[p]
    return None


def headers(tags, values, n):
    """(place, tag, cells) of each header of a well-formed pool, in order."""
    p = 0
    while p < n:
        yield p, tags[p], tuple(values[p + 1:p + 1 + values[p]])
        p += 1 + values[p]


# ---- 15
def first_repeat(tags, values, n):
    seen = set()
    for p, tag, cells in headers(tags, values, n):
        if (tag, cells) in seen:
            return p
        seen.add((tag, cells))
    return None


# ---- 16: `compute_sort`, arm by arm
BOOL = set("""True False Not Implies And Or Xor Equals Distinct LessThan GreaterThan LessEq GreaterEq IsInt
StrLessThan StrLessEq PrefixOf SuffixOf Contains StrIsDigit StrInRe BvULt BvULe BvUGt BvUGe BvSLt BvSLe
BvSGt BvSGe Cl Delete IsPow2 SetMember SetSubset SetIsEmpty SetIsSingleton""".split())
INT = set("""BvSize UBvToInt SBvToInt IntDiv Mod ToInt StrLen IndexOf IndexOfRe StrToCode StrToInt Pow2 Log2
SetCard""".split())
REAL = set("""RealDiv ToReal RealPi Sqrt Exp Sin Cos Tan Csc Sec Cot Arcsin Arccos Arctan Arccsc Arcsec
Arccot""".split())
STRING = set("StrConcat CharAt Substring Replace ReplaceAll ReplaceRe ReplaceReAll StrFromCode StrFromInt".split())
REGLAN = set("""StrToRe ReNone ReAll ReAllChar ReConcat ReUnion ReIntersection ReKleeneClosure ReComplement
ReDiff ReKleeneCross ReOption ReRange ReFromAutomaton""".split())
FIRST = set("Abs Store SetUnion SetInter SetMinus SetComplement RelTclosure".split())
SECOND = {'Ite', 'BvIte'}
BIT_VECTORS = set("""BvAdd BvSub BvNot BvNeg BvAnd BvOr BvMul BvUDiv BvURem BvShl BvLShr BvNAnd BvNOr BvXor
BvXNor BvSDiv BvSRem BvSMod BvAShr""".split())
# rules 0 to 6, and 7 for the operators that none of them describes
SORT_RULES = BOOL, INT, REAL, STRING, REGLAN, FIRST, SECOND
SPECIAL = len(SORT_RULES)
BUILT_IN = tuple(next((rule for rule, names in enumerate(SORT_RULES) if name in names), SPECIAL) for name in OPERATORS)


class NoAnswer(Exception):
    """`compute_sort` stops, or its width passes u32."""


class Sorts:
    """`compute_sort` over the stated sorts of the operands, by a table that loads."""

    def __init__(self, tags, values, table=BUILT_IN):
        self.tags, self.values, self.table = tags, values, table

    def cells(self, p):
        return list(self.values[p + 1:p + 1 + self.values[p]])

    def of(self, terms, i):
        if not -len(terms) <= i < len(terms):
            raise NoAnswer
        return self.values[terms[i] + 1]

    def tag_of(self, terms, i):
        return self.tags[self.of(terms, i)]

    def relation(self, terms, i):
        """The sorts of the tuples that the set holds."""
        if self.tag_of(terms, i) != 12 or self.tags[self.cells(self.of(terms, i))[0]] != 13:
            raise NoAnswer
        return self.cells(self.cells(self.of(terms, i))[0])

    def computed(self, tag, cells):
        """`cells` are those after the stated sort; of a variable all cells."""
        if tag < 20:
            return ({16: 2, 17: 3, 18: 4, 19: 5}[tag],)
        if tag == 20:
            return (7, cells[0])
        if tag == 22:
            return self.application(cells[0], cells[1:])
        if tag in (23, 24):
            return (1,)
        if tag == 25:
            if len(cells) < 3:
                raise NoAnswer
            return cells[2]
        if tag == 26:
            return (10, *cells[2::2], self.of(cells, 0))
        if tag == 27:
            return self.of(cells, 0)
        return self.operator(tag - 32, cells)

    def application(self, function, arguments):
        if self.tags[self.of([function], 0)] != 10:
            raise NoAnswer
        entries = self.cells(self.of([function], 0))
        if len(arguments) > len(entries):
            raise NoAnswer
        if len(arguments) + 1 == len(entries):
            return entries[-1]
        return (10, *entries[len(arguments):])

    def operator(self, code, terms):
        rule, name = self.table[code], OPERATORS[code]
        if rule < 5:
            return (rule + 1,)
        if rule < SPECIAL:
            return self.of(terms, rule - 5)
        if name in BIT_VECTORS:
            return self.bit_vectors(terms)
        return getattr(self, name)(terms)

    def bit_vectors(self, terms):
        for i in range(len(terms)):
            if self.tag_of(terms, i) == 7:
                return self.of(terms, i)
            if self.tag_of(terms, i) != 6:
                raise NoAnswer
        return (6,)

    def Add(self, terms):
        return (3,) if any(self.tag_of(terms, i) == 3 for i in range(len(terms))) else (2,)

    Sub = Mult = Add

    def Select(self, terms):
        if self.tag_of(terms, 0) != 11:
            raise NoAnswer
        return self.cells(self.of(terms, 0))[1]

    def BvConcat(self, terms):
        found = [self.tag_of(terms, i) for i in range(len(terms))]
        if any(tag not in (6, 7) for tag in found):
            raise NoAnswer
        if 6 in found:
            return (6,)
        width = sum(self.cells(self.of(terms, i))[0] for i in range(len(terms)))
        if width > 0xffffffff:
            raise NoAnswer
        return (7, width)

    def BvComp(self, terms):
        return (7, 1)

    def BvBbTerm(self, terms):
        return (7, len(terms))

    BvPBbTerm = BvBbTerm

    def BvConst(self, terms):
        self.of(terms, 1)
        return (7, self.values[terms[1] + 2]) if self.tags[terms[1]] == 16 else (6,)

    def RareList(self, terms):
        return self.of(terms, 0) if terms else (8, 0)

    def SetSingleton(self, terms):
        return (12, self.of(terms, 0))

    def SetInsert(self, terms):
        return self.of(terms, -1)

    def Tuple(self, terms):
        return (13, *(self.of(terms, i) for i in range(len(terms))))

    def TupleUnit(self, terms):
        return (13,)

    def RelTranspose(self, terms):
        return (12, (13, *self.relation(terms, 0)[::-1]))

    def RelJoin(self, terms):
        left, right = self.relation(terms, 0), self.relation(terms, 1)
        if not right:
            raise NoAnswer
        return (12, (13, *left[:-1], *right[1:]))

    def RelProduct(self, terms):
        return (12, (13, *self.relation(terms, 0), *self.relation(terms, 1)))


def place_of(index, sort):
    """The place of a computed sort in a pool with this index of descriptions, or None."""
    if isinstance(sort, int):
        return sort
    return index.get((sort[0], tuple(place_of(index, c) if isinstance(c, tuple) else c for c in sort[1:])))


def wrong_sort(tags, values, index, tag, cells, table=BUILT_IN):
    if tag < 16 or tag == 21:
        return False
    try:
        return place_of(index, Sorts(tags, values, table).computed(tag, cells[1:])) != cells[0]
    except NoAnswer:
        return True


def first_wrong_sort(tags, values, n, table):
    index = {(tag, cells): p for p, tag, cells in headers(tags, values, n)}
    for p, tag, cells in headers(tags, values, n):
        if wrong_sort(tags, values, index, tag, cells, table):
            return p
    return None


# ---- 40 and 41: tables of sort rules
MUST_BE_BOOL = [OPERATORS.index(name) for name in ('Not', 'Implies', 'And', 'Or', 'Equals')]


def table_answer(entries):
    """40 over the whole table, then 41."""
    if len(entries) != len(BUILT_IN):
        return 40, len(BUILT_IN), 0
    for i, (rule, built_in) in enumerate(zip(entries, BUILT_IN)):
        if rule > SPECIAL or rule == SPECIAL != built_in:
            return 40, i, 0
    for i in MUST_BE_BOOL:
        if entries[i] != 0:
            return 41, i, 0
    return 0, 0, 0


# ---- the calls
def load_call(entries, table):
    """`table` is the one in use."""
    answer = table_answer(entries)
    if answer[0] == 0:
        table[:] = entries
    return answer


def check(tags, values, n, table=BUILT_IN):
    if len(tags) != len(values) or n > len(tags) or n > LIMIT:
        return 30, 0, 0
    answer = table_answer(table)
    if answer[0]:
        return answer
    if n == 0:
        return 14, 0, 0
    for code, first in ((14, first_bad), (15, first_repeat), (16, partial(first_wrong_sort, table=table))):
        p = first(tags, values, n)
        if p is not None:
            return code, p, 0
    return 0, 0, 0


def is_term(tags, n, t):
    """Of a pool that passes."""
    return t < n and tags[t] >= 16


def check_term(tags, values, n, t, table):
    answer = check(tags, values, n, table)
    if answer[0] == 0 and not is_term(tags, n, t):
        return 17, t, 0
    return answer


def sort_call(tags, values, n, t, table=BUILT_IN):
    answer = check_term(tags, values, n, t, table)
    return answer if answer[0] else (0, values[t + 1], 0)


def free_variables(tags, values, n, by_name=False, let_values=True):
    """For each term's place the places of its free variables. Other readings: a bound name binds variables of that name
    whatever their sort, as in SMT-LIB (`by_name`); a let's values do not count, as in the Rust (`let_values` False)."""
    free = {}
    variables = {p: cells for p, tag, cells in headers(tags, values, n) if tag == 21}  # sort, name
    for p, tag, cells in headers(tags, values, n):
        if tag == 21:
            free[p] = {p}
        elif 16 <= tag < 21:
            free[p] = set()
        elif 23 <= tag < 28:
            names, seconds = cells[2::2], cells[3::2]
            sorts = [values[value + 1] for value in seconds] if tag == 27 else seconds
            bound = set(zip(sorts, names))
            free[p] = {v for v in free[cells[1]]
                       if (variables[v][1] not in names if by_name else variables[v] not in bound)}
            if tag == 27 and let_values:
                free[p] |= set().union(*(free[value] for value in seconds))
        elif tag >= 16:
            free[p] = set().union(*(free[c] for c in cells[1:]))
    return free


def free_call(tags, values, n, t, marks, table=BUILT_IN):
    if len(marks) < n:
        return 30, 0, 0
    answer = check_term(tags, values, n, t, table)
    if answer[0] != 30:
        marks[:] = [0] * len(marks)
    if answer[0] == 0:
        for v in free_variables(tags, values, n)[t]:
            marks[v] = 1
    return answer


# ---- the Rust loader
def first_trouble(tags, values, n):
    """The first header with which anything is wrong: the place at which the Rust loader stops."""
    seen, index, p = {}, {}, 0
    while p < n:
        if not header_fits(tags, values, n, p, seen):
            return p
        cells = tuple(values[p + 1:p + 1 + values[p]])
        if (tags[p], cells) in index or wrong_sort(tags, values, index, tags[p], cells):
            return p
        seen[p], index[tags[p], cells] = kind(tags[p]), p
        p += 1 + values[p]
    return None if n else 0
