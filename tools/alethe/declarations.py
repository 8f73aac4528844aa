"""The declarations and definitions of SMT-LIB 2.6.

    declarations = Declarations(pool, names)
    declarations.command(form)             True if the form declares or defines something; raises Unreadable
    declarations.functions['f']            Function: the places of its argument sorts and of its result
    declarations.definitions['g']          Definition: parameters (name, place of its sort) and body, to be inlined

A recursive definition and the parts of a datatype are functions of which nothing is known.
"""
from collections import namedtuple

from alethe.expressions import Form, Unreadable, is_symbol, whole, written
from alethe.sorts import Sorts, TermError, numeral

Function = namedtuple('Function', 'arguments result')
Definition = namedtuple('Definition', 'parameters body')
BOOL = 0


class Shape(Exception):
    """A command has not the parts that it should."""


def parts_of(form, *kinds):
    """The parts of a form, each of its kind: str a symbol, list a form, None any."""
    if not isinstance(form, Form) or len(form) != len(kinds):
        raise Shape
    for kind, part in zip(kinds, form):
        if kind is str and not is_symbol(part) or kind is list and not isinstance(part, Form):
            raise Shape
    return form


def alike(one, other):
    """Forms are compared as text: a comparison of deep lists would run into Python's limit on nesting."""
    if isinstance(one, Function):
        return one == other
    return one[0] == other[0] and whole(one[1]) == whole(other[1])


class Declarations:
    def __init__(self, pool, names):
        self.sorts = Sorts(pool, names)
        self.functions, self.definitions = {}, {}

    def command(self, form):
        name = form[0]
        if name not in COMMANDS:
            return False
        expected, declare = COMMANDS[name]
        try:
            declare(self, form)
        except Shape:
            raise Unreadable(form.line, 'expected %s, and there is %s' % (expected, written(form))) from None
        except TermError as error:
            raise Unreadable(form.line, '%s: %s' % (name, error)) from None
        return True

    # ---- functions
    def function(self, name, arguments, result):
        self.fresh(name, self.functions, Function(tuple(arguments), result))

    def fresh(self, name, table, entry):
        """A name may be declared again in the same way, as after a pop."""
        if not is_symbol(name):
            raise Shape
        for other in (self.functions, self.definitions):
            if name in other and (other is not table or not alike(table[name], entry)):
                raise TermError('%s is declared before, in another way' % written(name))
        table[name] = entry

    def declare_fun(self, form):
        _, name, arguments, result = parts_of(form, str, str, list, None)
        self.function(name, map(self.sorts.read, arguments), self.sorts.read(result))

    def declare_const(self, form):
        _, name, result = parts_of(form, str, str, None)
        self.function(name, (), self.sorts.read(result))

    def parameters(self, pairs):
        return tuple((name, self.sorts.read(sort)) for name, sort in (parts_of(pair, str, None) for pair in pairs))

    def define_fun(self, form):
        _, name, parameters, result, body = parts_of(form, str, str, list, None, None)
        self.sorts.read(result)
        self.fresh(name, self.definitions, Definition(self.parameters(parameters), body))

    def define_const(self, form):
        _, name, result, body = parts_of(form, str, str, None, None)
        self.sorts.read(result)
        self.fresh(name, self.definitions, Definition((), body))

    def define_fun_rec(self, form):
        _, name, parameters, result, _ = parts_of(form, str, str, list, None, None)
        self.recursive(name, parameters, result)

    def define_funs_rec(self, form):
        for signature in parts_of(form, str, list, list)[1]:
            self.recursive(*parts_of(signature, str, list, None))

    def recursive(self, name, parameters, result):
        self.function(name, [sort for _, sort in self.parameters(parameters)], self.sorts.read(result))

    # ---- sorts
    def declare_sort(self, form):
        if len(form) == 2:  # the number may be left out for 0
            form = Form([*form, '0'])
        _, name, count = parts_of(form, str, str, None)
        self.new_sort(name, count)

    def new_sort(self, name, count):
        if numeral(count) is None:
            raise Shape
        if name in self.sorts.defined or self.sorts.declared.get(name, numeral(count)) != numeral(count):
            raise TermError('%s is declared before, in another way' % written(name))
        self.sorts.declared[name] = numeral(count)

    def define_sort(self, form):
        _, name, parameters, sort = parts_of(form, str, str, list, None)
        if not all(isinstance(parameter, str) for parameter in parameters):
            raise Shape
        entry = Definition(parameters, sort)
        if name in self.sorts.declared or not alike(self.sorts.defined.get(name, entry), entry):
            raise TermError('%s is declared before, in another way' % written(name))
        self.sorts.defined[name] = entry

    # ---- datatypes
    def declare_datatype(self, form):
        _, name, body = parts_of(form, str, str, list)
        self.new_sort(name, str(len(body[1])) if body[:1] == ['par'] and len(body) == 3 else '0')
        self.constructors(name, body)

    def declare_datatypes(self, form):
        _, sorts, bodies = parts_of(form, str, list, list)
        if len(sorts) != len(bodies):
            raise Shape
        for sort in sorts:
            self.new_sort(*parts_of(sort, str, None))
        for sort, body in zip(sorts, bodies):
            self.constructors(sort[0], body)

    def constructors(self, name, body):
        """Those of a datatype with parameters are left to `as` and to operators of no known meaning."""
        if not isinstance(body, Form):
            raise Shape
        if body[:1] == ['par']:
            return
        own = self.sorts.read(name)
        for constructor in body:
            if not isinstance(constructor, Form) or not constructor:
                raise Shape
            selectors = self.parameters(constructor[1:])
            self.function(constructor[0], [sort for _, sort in selectors], own)
            for selector, sort in selectors:
                self.function(selector, (own,), sort)
            self.function('is-' + constructor[0], (own,), BOOL)


COMMANDS = {
    'declare-fun': ('(declare-fun NAME (SORT ..) SORT)', Declarations.declare_fun),
    'declare-const': ('(declare-const NAME SORT)', Declarations.declare_const),
    'define-fun': ('(define-fun NAME ((NAME SORT) ..) SORT TERM)', Declarations.define_fun),
    'define-const': ('(define-const NAME SORT TERM)', Declarations.define_const),
    'define-fun-rec': ('(define-fun-rec NAME ((NAME SORT) ..) SORT TERM)', Declarations.define_fun_rec),
    'define-funs-rec': ('(define-funs-rec ((NAME ((NAME SORT) ..) SORT) ..) (TERM ..))', Declarations.define_funs_rec),
    'declare-sort': ('(declare-sort NAME NUMERAL)', Declarations.declare_sort),
    'define-sort': ('(define-sort NAME (NAME ..) SORT)', Declarations.define_sort),
    'declare-datatype': ('(declare-datatype NAME ((NAME (NAME SORT) ..) ..))', Declarations.declare_datatype),
    'declare-datatypes': ('(declare-datatypes ((NAME NUMERAL) ..) (((NAME (NAME SORT) ..) ..) ..))', Declarations.declare_datatypes)}
