"""What names mean inside binders, lets and definitions.

    scope = EMPTY.with_variables({'x': Variable(sort)})
    scope = scope.with_values({'y': Value(place, scope)})
    scope.meaning('y')        the Variable, Value or Broken that it stands for, or None
    scope.binder('y')         the Variable that binds the name, whatever lets are in between, or None
"""
from collections import namedtuple


class Variable:
    """A bound variable; two of one name and sort under two binders are two."""

    def __init__(self, sort):
        self.sort = sort


Value = namedtuple('Value', 'place scope')  # of a let or an argument, and where the value was read
Broken = namedtuple('Broken', 'why sort', defaults=(None,))  # a name that an anchor gives without a sort that could be read


class Chain:
    """A mapping that grows without a copy. Now and then a link has all names, so that a search is short: after 64 links, and after
    the more the more names there are, so that such links stay few."""

    def __init__(self, names, outer=None):
        self.names, self.outer = names, outer
        self.length, self.base = (0, len(names)) if outer is None else (outer.length + 1, outer.base)
        if self.length ** 2 > 4096 + 32 * self.base:
            self.names, self.outer, self.length = self.all(), None, 0
            self.base = len(self.names)

    def all(self):
        links, found = [self], {}
        while links[-1].outer is not None:
            links.append(links[-1].outer)
        for link in reversed(links):
            found.update(link.names)
        return found

    def get(self, name):
        link = self
        while link is not None:
            if name in link.names:
                return link.names[name]
            link = link.outer
        return None


class Scope:
    def __init__(self, names, binders):
        self.names, self.binders = names, binders
        self.meaning, self.binder = names.get, binders.get

    def with_variables(self, variables):
        return Scope(Chain(variables, self.names), Chain(variables, self.binders))

    def with_values(self, values):
        return Scope(Chain(values, self.names), self.binders)


EMPTY = Scope(Chain({}), Chain({}))
