"""Pools in document 01's packed form, and call files over them.

    p = Pool()                                # Bool at place 0
    x = p.var(1, p.sort('Int'))               # name 1, sort Int
    f = p.binder('forall', p.op('Not', y), [(1, p.INT), ..])
    data = call_file(1, p.tags, p.values, place=f)

A description that is there already gives its place. A stated sort is the computed one unless `sort=` says
otherwise; NoAnswer is raised where there is none. `packed` makes arrays of headers as they are.
Pool(table) computes sorts by another table than the built-in one, and call_file(.., table=table) lends it.
"""
import struct

from references.reference import BUILT_IN, NoAnswer, OPERATORS, Sorts, place_of
from references.reference_program import TABLE

OPERATOR_TAG = {name: 32 + code for code, name in enumerate(OPERATORS)}
SORT_TAG = {name: 1 + i for i, name in enumerate(
    'Bool Int Real String RegLan ParamBitVec BitVec Var Atom Function Array Set Tuple'.split())}
CONSTANT_TAG = {'integer': 16, 'real': 17, 'string': 18, 'reglan': 19}
BINDER_TAG = {'forall': 23, 'exists': 24, 'choice': 25, 'lambda': 26}


class Pool:
    def __init__(self, table=None):
        self.tags, self.values, self.index = [], [], {}
        self.table = BUILT_IN if table is None else table
        self.header(1)

    def header(self, tag, *cells):
        if (tag, cells) not in self.index:
            self.index[tag, cells] = len(self.tags)
            self.tags += [tag] + [0] * len(cells)
            self.values += [len(cells), *cells]
        return self.index[tag, cells]

    def sort(self, name, *cells):
        return self.header(SORT_TAG[name], *cells)

    def sort_of(self, term):
        return self.values[term + 1]

    def made(self, sort):
        """The place of a computed sort, which is added if it is missing."""
        if isinstance(sort, int):
            return sort
        return self.header(sort[0], *(self.made(c) if isinstance(c, tuple) else c for c in sort[1:]))

    def term(self, tag, *cells, sort=None):
        if sort is None:
            sort = self.made(Sorts(self.tags, self.values, self.table).computed(tag, cells))
        return self.header(tag, sort, *cells)

    def var(self, name, sort=0):
        return self.header(21, sort, name)

    def constant(self, name, number, sort=None):
        return self.term(CONSTANT_TAG[name], number, sort=sort)

    def bits(self, width, serial, sort=None):
        return self.term(20, width, serial, sort=sort)

    def app(self, function, *arguments, sort=None):
        return self.term(22, function, *arguments, sort=sort)

    def binder(self, name, body, pairs, sort=None):
        return self.term(BINDER_TAG[name], body, *(c for pair in pairs for c in pair), sort=sort)

    def let(self, body, pairs, sort=None):
        """`pairs` are of a name and the place of its value."""
        return self.term(27, body, *(c for pair in pairs for c in pair), sort=sort)

    def op(self, name, *operands, sort=None):
        return self.term(OPERATOR_TAG[name], *operands, sort=sort)


def packed(*headers):
    """The two arrays of headers [tag, cell, ..], one after the other."""
    tags = [k for tag, *cells in headers for k in (tag, *([0] * len(cells)))]
    values = [k for tag, *cells in headers for k in (len(cells), *cells)]
    return tags, values


def words(*numbers):
    """As little-endian u32."""
    return struct.pack('<%dI' % len(numbers), *numbers)


def call_file(call, tags, values, n=None, place=0, polarity=0, x=None, y=0, conclusion=(), table=None):
    """The bytes of a call file; n is all of the tags unless it is given. Call 0 has its rule for the place and its
    conclusion after the values: X is the number of these places unless it is given. A table stands before the call, in block 100."""
    n = len(tags) if n is None else n
    x = len(conclusion) if x is None else x
    block = [] if table is None else [TABLE, len(table), *table]
    return words(*block, call, len(tags), len(values), n, place, polarity, x, y, *tags, *values, *conclusion)


def step_file(tags, values, steps=()):
    """A pool and steps (rule, place of the conclusion), which the Rust reads."""
    rules, places = [rule for rule, _ in steps], [place for _, place in steps]
    return words(len(tags), len(steps), *tags, *values, *rules, *places)
