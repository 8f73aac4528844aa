"""Call files that the checks refuse, or barely pass: 30, 14, 15, 16 and 17.

A case is (name, expected answer, bytes of the file). The answers are written down by hand from document 01;
make_calls.py holds them against the reference. Headers are written [tag, cell, ..].
"""
from pools.packed_pool import call_file, packed

BIG = 0xffffffff
# Bool 0, Int 1, Function(Bool, Bool) 2, the variables x:Bool 5 and f:Function 8, the integer 3 at 11
BASE = [[1], [2], [10, 0, 0], [21, 0, 1], [21, 2, 2], [16, 1, 3]]
HERE = 14  # the place of a header after BASE


def case(name, answer, headers, n=None, place=0):
    return (name, answer, call_file(1, *packed(*headers), n, place))


def cells(name, answer, tags, values, n=None, place=0):
    return (name, answer, call_file(1, tags, values, n, place))


def arrays():
    yield cells('30-more-tags', (30, 0, 0), [1, 2], [0])
    yield cells('30-more-values', (30, 0, 0), [1], [0, 0])
    yield cells('30-n-past-arrays', (30, 0, 0), [1], [0], n=2)
    yield cells('30-largest-n', (30, 0, 0), [1], [0], n=BIG)
    yield cells('30-unequal-with-n-0', (30, 0, 0), [1], [], n=0)
    yield cells('30-before-14', (30, 0, 0), [14, 0], [0])
    yield cells('14-n-0', (14, 0, 0), [], [])
    yield cells('14-n-0-in-longer-arrays', (14, 0, 0), [1, 2, 3], [0, 0, 0], n=0)
    # 2,047 levels `(and t t)` over a variable fill 8,192 cells
    levels = [[36, 0, max(1, 4 * i), max(1, 4 * i)] for i in range(2047)]
    tags, values = packed([1], [21, 0, 1], *levels)
    yield cells('8192-cells', (0, 0, 0), tags, values, place=8188)
    yield cells('8192-cells-of-9000', (0, 0, 0), tags + [BIG] * 808, values + [BIG] * 808, n=8192, place=8188)
    yield cells('30-8193-cells', (30, 0, 0), tags + [2], values + [0], place=8188)


def extents():
    """Open points 1 to 4: which header is bad."""
    yield cells('14-tag-among-cells', (14, 1, 0), [1, 36, 36], [0, 1, 0])
    yield cells('14-tag-0-for-a-header', (14, 3, 0), [1, 36, 0, 0], [0, 1, 0, 0])
    yield case('14-first-of-two', (14, 1, 0), [[1], [34, 0, 1], [14]])
    yield cells('14-cells-past-n', (14, 1, 0), [1, 36, 0], [0, 2, 0])
    yield cells('14-cells-past-n-in-longer-arrays', (14, 1, 0), [1, 36, 0, 0], [0, 2, 0, 1], n=3)
    yield cells('14-largest-count', (14, 1, 0), [1, 36, 0], [0, BIG, 0])
    yield cells('14-largest-tag-among-cells', (14, 4, 0), [1, 21, 0, 0, 36, 0, BIG], [0, 2, 0, 1, 2, 0, 1])
    yield cells('14-tag-at-the-last-cell', (14, 4, 0), [1, 21, 0, 0, 36, 0, 0, 1], [0, 2, 0, 1, 3, 0, 1, 1])
    yield cells('14-bool-with-a-cell', (14, 0, 0), [1, 0], [1, 0])
    yield case('14-int-first', (14, 0, 0), [[2]])
    yield case('14-term-first', (14, 0, 0), [[32, 0]])
    yield case('14-largest-tag-first', (14, 0, 0), [[BIG]])
    for tag in (0, 14, 15, 28, 29, 30, 31, 167, BIG):
        yield case('14-tag-%d' % tag, (14, HERE, 0), BASE + [[tag, 0]])


# tags, cells that such a header could begin with, counts that it cannot have
WRONG_COUNTS = [
    ((1, 2, 3, 4, 5, 6), [0], (1,)),
    ((7, 8), [0, 0], (0, 2)),
    ((9,), [], (0,)),
    ((11,), [0, 0, 0], (0, 1, 3)),
    ((12,), [0, 0], (0, 2)),
    ((16, 17, 18, 19, 21), [0, 4, 0], (0, 1, 3)),
    ((20,), [0, 4, 9, 0], (0, 2, 4)),
    ((22,), [0], (0, 1)),
    ((23, 24, 25, 26), [0, 5, 1, 0, 1], (0, 1, 3, 5)),
    ((27,), [0, 5, 1, 5, 1], (0, 1, 3, 5)),
    ((32, 36, 166), [], (0,)),
]


def counts():
    """Open point 4: a count that the tag cannot have."""
    for tags, start, wrong in WRONG_COUNTS:
        for tag in tags:
            for count in wrong:
                yield case('14-tag-%d-count-%d' % (tag, count), (14, HERE, 0), BASE + [[tag, *start[:count]]])


# a header after BASE in which a term's place, 5, stands where a sort's is due
TERM_FOR_A_SORT = {
    'atom': [9, 1, 5], 'function': [10, 5], 'array-first': [11, 5, 1], 'array-second': [11, 1, 5], 'set': [12, 5],
    'tuple-last': [13, 1, 5], 'integer': [16, 5, 9], 'real': [17, 5, 9], 'string': [18, 5, 9], 'reglan': [19, 5, 9],
    'bits': [20, 5, 4, 4], 'variable': [21, 5, 9], 'application': [22, 5, 8, 5], 'forall': [23, 5, 5],
    'forall-last-pair': [23, 0, 5, 1, 1, 2, 5], 'exists-pair': [24, 0, 5, 1, 5], 'choice-pair': [25, 0, 5, 1, 5],
    'lambda-pair': [26, 0, 5, 1, 5], 'let': [27, 5, 5], 'not': [34, 5, 5],
}
# a sort's place, 0, where a term's is due
SORT_FOR_A_TERM = {
    'function': [22, 0, 0, 5], 'argument': [22, 0, 8, 0], 'forall-body': [23, 0, 0, 1, 0], 'exists-body': [24, 0, 0],
    'choice-body': [25, 0, 0, 1, 0], 'lambda-body': [26, 2, 0, 1, 0], 'let-body': [27, 0, 0, 1, 5],
    'let-last-value': [27, 0, 5, 1, 5, 2, 0], 'operand': [34, 0, 0], 'last-operand': [36, 0, 5, 5, 0],
}
# a number that is no earlier header's place, and whether a header follows
NO_EARLIER_HEADER = [('itself', HERE, False), ('later', HERE + 3, True), ('inner-cell', 6, False), ('n', HERE + 3, False),
                     ('largest', BIG, False)]


def named_places():
    """Open point 4: "hold the place of one that stands earlier than the header"."""
    for name, header in TERM_FOR_A_SORT.items():
        yield case('14-term-for-sort-of-%s' % name, (14, HERE, 0), BASE + [header])
    for name, header in SORT_FOR_A_TERM.items():
        yield case('14-sort-for-%s' % name, (14, HERE, 0), BASE + [header])
    for name, wrong, later in NO_EARLIER_HEADER:
        yield case('14-operand-%s' % name, (14, HERE, 0), BASE + [[34, 0, wrong]] + ([[32, 0]] if later else []))
        yield case('14-sort-%s' % name, (14, HERE, 0), BASE + [[21, wrong, 9]] + ([[3]] if later else []))
    yield cells('14-operand-past-n', (14, 4, 0), [1, 21, 0, 0, 34, 0, 0, 32, 0], [0, 2, 0, 1, 2, 0, 7, 1, 0], n=7)


def repeats():
    """Open points 5 to 11."""
    yield case('15-second-bool', (15, 1, 0), [[1], [1]])
    yield case('15-first-later-place', (15, 3, 0), [[1], [2], [3], [3], [2]])
    yield case('15-term', (15, 7, 0), [[1], [21, 0, 1], [34, 0, 1], [34, 0, 1]])
    yield case('15-atom', (15, 3, 0), [[1], [9, BIG], [9, BIG]])
    yield case('15-far-apart', (15, 22, 0), BASE + [[36, 0, 5], [37, 0, 5], [4], [5], [21, 0, 1]])
    yield case('15-not-where-the-sort-differs', (16, 4, 0), [[1], [2], [36, 0], [36, 1]])
    yield case('15-not-where-the-width-differs', (0, 3, 0), [[1], [7, 4], [7, 5], [20, 1, 4, 9], [20, 3, 5, 9]], place=9)
    yield case('15-not-where-the-tag-differs', (0, 2, 0), [[1], [3], [4], [17, 1, 5], [18, 2, 5]], place=6)
    yield case('15-not-for-a-prefix', (0, 0, 0), [[1], [21, 0, 1], [36, 0], [36, 0, 1], [36, 0, 1, 1]], place=9)
    yield case('15-not-where-the-last-cell-differs', (0, 0, 0), [[1], [21, 0, 1], [21, 0, 2], [36, 0, 1, 1], [36, 0, 1, 4]], place=11)
    yield case('name-0', (0, 0, 0), [[1], [8, 0], [9, 0], [21, 0, 0], [23, 0, 5, 0, 1]], place=8)
    yield case('largest-name', (0, 1, 0), [[1], [8, BIG], [9, BIG], [21, 1, BIG]], place=5)
    yield case('application-without-arguments', (0, 0, 0), [[1], [10, 0], [21, 1, 5], [22, 0, 3]], place=6)
    yield case('empty-lists', (0, 0, 0), [[1], [10], [13], [9, 1], [21, 0, 1], [23, 0, 5], [24, 0, 5], [27, 0, 5]], place=14)
    yield case('width-0', (0, 1, 0), [[1], [7, 0], [122, 1]], place=3)


WRONG_SORTS = {
    'integer': [16, 0, 3], 'real': [17, 1, 3], 'string': [18, 1, 3], 'reglan': [19, 1, 3], 'bits': [20, 0, 4, 3],
    'application': [22, 1, 8, 5], 'application-of-no-function': [22, 0, 5], 'too-many-arguments': [22, 0, 8, 5, 5, 5],
    'forall': [23, 1, 5, 1, 0], 'exists': [24, 1, 5], 'choice': [25, 1, 5, 1, 0], 'choice-without-list': [25, 0, 5],
    'lambda': [26, 0, 5, 1, 0], 'lambda-of-another-list': [26, 2, 5, 1, 1], 'let': [27, 1, 5, 1, 5], 'and': [36, 1, 5],
}


def wrong_sorts():
    """Open points 12 to 16, and a wrong sort at a term of every kind."""
    yield case('closure-of-no-relation', (0, 0, 0), [[1], [21, 0, 5], [164, 0, 1]], place=4)
    yield case('concat-past-u32-with-param', (0, 1, 0),
               [[1], [6], [7, 2147483648], [21, 2, 1], [21, 1, 2], [122, 1, 4, 4, 7]], place=10)
    yield case('16-concat-past-u32', (16, 6, 0), [[1], [7, 2147483648], [21, 1, 1], [122, 1, 3, 3]])
    yield case('not-without-operand', (0, 0, 0), [[1], [34, 0]], place=1)
    yield case('16-computed-sort-not-in-the-pool', (16, 5, 0), [[1], [2], [21, 1, 5], [155, 0, 2]])
    yield case('16-at-a-term-that-nothing-reaches', (16, 4, 0), [[1], [21, 0, 1], [41, 0, 1]], place=1)
    yield case('14-before-15-and-16', (14, 6, 0), [[1], [2], [36, 1], [36, 1], [14]])
    yield case('15-before-16', (15, 4, 0), [[1], [2], [36, 1], [36, 1]])
    yield case('16-first-of-two', (16, 2, 0), [[1], [2], [36, 1], [37, 1]])
    yield case('16-before-17', (16, 2, 0), [[1], [2], [36, 1]], place=BIG)
    for name, header in WRONG_SORTS.items():
        yield case('16-%s' % name, (16, HERE, 0), BASE + [header])
    yield case('16-bits-of-another-width', (16, 3, 0), [[1], [7, 5], [20, 1, 4, 3]])


def places():
    for name, place in (('n', 14), ('past-n', 15), ('largest', BIG), ('bool', 0), ('function-sort', 2), ('inner-cell', 6)):
        yield case('17-%s' % name, (17, place, 0), BASE, place=place)
    tags, values = packed(*BASE)
    yield cells('17-term-past-n', (17, 14, 0), tags + [32, 0], values + [1, 0], n=14, place=14)
    yield cells('longer-arrays', (0, 1, 0), tags + [32, BIG, 21], values + [1, BIG, 2], n=14, place=11)


COLLECTIONS = {'arrays': [arrays], 'headers': [extents, counts, named_places], 'descriptions': [repeats, wrong_sorts, places]}
