"""The free variables of terms, of those that some binder or anchor gives.

    FreeNames(pool, names).of(place)       a frozenset of (text, place of its sort); declared names do not count
"""
from pools.packed_pool import BINDER_TAG

VARIABLE, FIRST_TERM, FIRST_PLACES = 21, 16, 22
BINDERS = set(BINDER_TAG.values())
NONE = frozenset()


class FreeNames:
    def __init__(self, pool, names):
        self.pool, self.names, self.found = pool, names, {}

    def of(self, place):
        stack = [place]
        while stack:
            p = stack[-1]
            missing = [part for part in self.parts(p) if part not in self.found] if p not in self.found else []
            if missing:
                stack += missing
            else:
                stack.pop()
                self.found[p] = self.at(p)
        return self.found[place]

    def cells(self, p):
        return self.pool.values[p + 1:p + 1 + self.pool.values[p]]

    def parts(self, p):
        """The terms that a term consists of."""
        tag = self.pool.tags[p]
        if tag < FIRST_PLACES:
            return []
        return self.cells(p)[1:2] if tag in BINDERS else self.cells(p)[1:]

    def at(self, p):
        tag = self.pool.tags[p]
        if tag == VARIABLE:
            sort, number = self.cells(p)
            kind, text = self.names.key(number)
            return frozenset([(text, sort)]) if kind == 'variable' else NONE
        sets = {self.found[part] for part in self.parts(p)} - {NONE}
        found = sets.pop() if len(sets) == 1 else NONE.union(*sets)
        if found and tag in BINDERS:
            _, _, *pairs = self.cells(p)
            found -= {(self.names.key(number)[1], sort) for number, sort in zip(pairs[::2], pairs[1::2])}
        return found
