"""Sorts of SMT-LIB text in a pool.

    sorts = Sorts(pool, names)
    sorts.declared['Track'] = 0             its number of parameters
    sorts.defined['T'] = (['A'], form)      parameters and sort
    sorts.read(expression)                  its place; raises TermError

A sort that the pool does not have, such as (Seq Int) or an indexed one, is an uninterpreted one.
"""
from alethe.expressions import whole, written
from alethe.nested_calls import once, run

PLAIN = {'Bool', 'Int', 'Real', 'String', 'RegLan'}
HEADS = {'Array': 2, 'Set': 1, 'Tuple': None, '->': None}  # numbers of parts, None for any
MOST = 0xffffffff


class TermError(Exception):
    """Why a sort or term cannot be written into a pool."""


def check_count(what, wanted, found):
    if wanted != found:
        raise TermError('%s: %d are expected, and there are %d' % (what, wanted, found))


def numeral(token):
    """The number of a token, or None if it is no numeral of u32."""
    if isinstance(token, str) and token.isascii() and token.isdigit() and len(token) <= 10 and str(int(token)) == token:
        return int(token) if int(token) <= MOST else None
    return None


class Sorts:
    def __init__(self, pool, names):
        self.pool, self.names = pool, names
        self.declared, self.defined, self.known = {}, {}, {}

    def read(self, expression, parameters=None):
        return run(self.sort(expression, parameters or {}))

    def sort(self, expression, parameters):
        if isinstance(expression, str):
            return (yield self.plain(expression, parameters))
        if not expression or not isinstance(expression[0], str):
            raise TermError('a sort is expected, and there is %s' % written(expression))
        head, *rest = expression
        if head == '_':
            return self.indexed(expression)
        parts = []
        for part in rest:
            parts.append((yield self.sort(part, parameters)))
        if head in self.defined:
            return (yield self.inlined(head, tuple(parts)))
        if head in self.declared:
            return self.atom(head, parts)
        if HEADS.get(head, -1) in (None, len(parts)):
            return self.pool.sort({'->': 'Function'}.get(head, head), *parts)
        return self.pool.sort('Atom', self.names.number('sort', head), *parts)

    def plain(self, name, parameters):
        if name in parameters:
            return parameters[name]
        if name in self.defined:
            return (yield self.inlined(name, ()))
        if name in self.declared:
            return self.atom(name, [])
        if name in PLAIN:
            return self.pool.sort(name)
        raise TermError('the sort %s is not declared' % written(name))

    def atom(self, name, parts):
        check_count('parameters of the sort %s' % written(name), self.declared[name], len(parts))
        return self.pool.sort('Atom', self.names.number('sort', name), *parts)

    def inlined(self, name, parts):
        parameters, body = self.defined[name]
        check_count('parameters of the sort %s' % written(name), len(parameters), len(parts))
        circular = TermError('the sort %s stands in its own definition' % written(name))
        return once(self.known, (name, parts), self.sort(body, dict(zip(parameters, parts))), circular)

    def indexed(self, expression):
        if len(expression) == 3 and expression[1] == 'BitVec' and numeral(expression[2]):
            return self.pool.sort('BitVec', numeral(expression[2]))
        return self.pool.sort('Atom', self.names.number('sort', whole(expression)))
