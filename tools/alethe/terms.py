"""Terms of SMT-LIB text in a pool that has no limit. A step file takes from it what its steps reach (step_files.py).

    terms = Terms()
    terms.declarations.command(form)
    terms.name(named, around, scope)    what (! .. :named NAME) stands for, from here on
    terms.read(expression, scope)       the place of a term; raises TermError
    terms.clause(expression, scope)     the places of the literals of (cl ..), lets around it expanded
    terms.free(place)                   its free variables that some binder or anchor gives: pairs of name and sort

A let, a named term and a definition become the term that they stand for. Where a variable of that term would be bound by another
binder than the one that it was read under, nothing is written: TermError says which.
What the pool does not know becomes a variable or a function of no known meaning, with a sort of its own where none is known.
"""
from alethe.declarations import Declarations
from alethe.expressions import Form, is_symbol, whole, written
from alethe.free_names import FreeNames
from alethe.literals import literal
from alethe.names import Names
from alethe.nested_calls import once, run
from alethe.scopes import EMPTY, Broken, Value, Variable
from alethe.sorts import TermError, check_count
from pools.packed_pool import BINDER_TAG, Pool
from references.reference import NoAnswer, OPERATORS
from texts.term_text import BARE, SYMBOLS

OPERATOR = {symbol: name for symbol, name in zip(SYMBOLS, OPERATORS, strict=True) if symbol not in ('cl', 'rare-list')}
QUANTIFIERS, CHOOSERS = {'forall', 'exists'}, {'choice', 'lambda'}
BOOL, APPLICATION = 0, 22


class Named:
    """A name may be given twice, for one term."""

    def __init__(self):
        self.readings, self.place, self.open = [], None, False


class Terms:
    def __init__(self):
        self.pool, self.names, self.named = Pool(), Names(), {}
        self.declarations = Declarations(self.pool, self.names)
        self.free = FreeNames(self.pool, self.names).of
        self.calls = {}  # of defined functions: the place by name and arguments

    def read(self, expression, scope=EMPTY):
        return run(self.term(expression, scope))

    def clause(self, expression, scope=EMPTY):
        return run(self.literals(expression, scope))

    def name(self, named, around, scope):
        """`named` is (! .. :named NAME), `around` the innermost binder or let in which it stands."""
        at = named.index(':named')
        if named[0] == '!' and at > 1 and at + 1 < len(named) and is_symbol(named[at + 1]):
            self.named.setdefault(named[at + 1], Named()).readings.append((named[1], around, scope))

    # ---- what an expression is
    def literals(self, expression, scope):
        while isinstance(expression, Form) and expression[:1] == ['let']:
            expression, scope = expression[-1], (yield self.inside(expression, scope))
        if not isinstance(expression, Form) or expression[:1] != ['cl']:
            raise TermError('(cl ..) is expected, and there is %s' % written(expression))
        found = []
        for part in expression[1:]:
            found.append((yield self.term(part, scope)))
        return found

    def term(self, expression, scope):
        if isinstance(expression, str):
            return (yield self.atom(expression, scope))
        if not expression:
            raise TermError('a term is expected, and there is ()')
        head = expression[0]
        if isinstance(head, str):
            if head == '!':
                return (yield self.term(expression[1] if len(expression) > 1 else Form(), scope))
            if head == '_':
                return literal(self.pool, self.names, expression) or self.constant(expression, scope)
            if head == 'as':
                return (yield self.qualified(expression, scope))
            if head == 'match':
                raise TermError('match is not read')
            if head in QUANTIFIERS or head == 'let' or head in CHOOSERS and not self.means(head, scope):
                return (yield self.binder(expression, scope))
        return (yield self.application(expression, scope))

    def means(self, name, scope):
        return scope.meaning(name) or name in self.named or self.declared(name)

    def declared(self, name):
        return name in self.declarations.functions or name in self.declarations.definitions

    # ---- names
    def atom(self, name, scope):
        found = scope.meaning(name)
        if isinstance(found, Variable):
            return self.pool.var(self.names.number('variable', name), found.sort)
        if isinstance(found, Value):
            self.check_value(name, found, scope)
            return found.place
        if isinstance(found, Broken):
            raise TermError(found.why)
        if name in self.named:
            return (yield self.named_term(name, scope))
        if name in self.declarations.definitions:
            return (yield self.defined(name, ()))
        if name in self.declarations.functions:
            return self.symbol(name)
        if name in BARE:
            return self.pool.op(OPERATOR[name])
        place = literal(self.pool, self.names, name)
        if place is None:
            raise TermError('%s is not declared' % written(name))
        return place

    def symbol(self, name):
        arguments, result = self.declarations.functions[name]
        sort = self.pool.sort('Function', *arguments, result) if arguments else result
        return self.pool.var(self.names.number('symbol', name), sort)

    def check_value(self, name, value, scope):
        """Each variable of the value must be bound where it is used as where it was read."""
        if scope.binders is not value.scope.binders:
            for text, _ in self.free(value.place):
                if scope.binder(text) is not value.scope.binder(text):
                    raise TermError('the variable %s in the value of %s is captured' % (written(text), written(name)))

    def named_term(self, name, scope):
        """It means the same wherever it stands. A variable of it may be bound again, by name and sort."""
        entry = self.named[name]
        if entry.open:
            raise TermError('%s stands in its own term' % written(name))
        entry.open = True
        try:
            for expression, around, scope_around in entry.readings:
                inner = yield self.inside_all(around, scope_around)
                place = yield self.term(expression, inner)
                if entry.place not in (None, place):
                    raise TermError('%s names two terms' % written(name))
                entry.place, entry.readings = place, entry.readings[1:]
        finally:
            entry.open = False
        for text, sort in self.free(entry.place):
            binder = scope.binder(text)
            if binder is not None and binder.sort != sort:
                raise TermError('the variable %s in the term of %s is captured' % (written(text), written(name)))
        return entry.place

    def defined(self, name, arguments):
        """The body with the arguments. They are values of no binder: none of the body may bind their variables."""
        parameters, body = self.declarations.definitions[name]
        check_count('arguments of %s' % written(name), len(parameters), len(arguments))
        values = {parameter: Value(place, EMPTY) for (parameter, _), place in zip(parameters, arguments)}
        circular = TermError('%s stands in its own definition' % written(name))
        return once(self.calls, (name, arguments), self.term(body, EMPTY.with_values(values)), circular)

    # ---- binders
    def binder(self, expression, scope):
        inner = yield self.inside(expression, scope)
        body = yield self.term(expression[2], inner)
        if expression[0] == 'let':
            return body
        pairs = yield self.pairs(expression)
        cells = [cell for name, sort in pairs for cell in (self.names.number('variable', name), sort)]
        return self.computed(BINDER_TAG[expression[0]], body, *cells)

    def inside(self, expression, scope):
        """The scope of the body of a binder or let."""
        if len(expression) != 3 or not isinstance(expression[1], Form):
            raise TermError('(%s ((NAME ..) ..) TERM) is expected, and there is %s' % (expression[0], written(expression)))
        if expression[0] != 'let':
            return scope.with_variables({name: Variable(sort) for name, sort in (yield self.pairs(expression))})
        values = {}
        for pair in expression[1]:
            name = self.bound_name(pair)
            if name in values:
                raise TermError('a let binds %s twice' % written(name))
            values[name] = Value((yield self.term(pair[1], scope)), scope)
        return scope.with_values(values)

    def inside_all(self, innermost, scope):
        forms = []
        while innermost is not None:
            forms.append(innermost)
            innermost = innermost.outer
        for form in reversed(forms):
            scope = yield self.inside(form, scope)
        return scope

    def pairs(self, expression):
        """The names that a quantifier binds, with their sorts."""
        found = []
        for pair in expression[1]:
            found.append((self.bound_name(pair), (yield self.declarations.sorts.sort(pair[1], {}))))
        return found

    def bound_name(self, pair):
        if not isinstance(pair, Form) or len(pair) != 2 or not is_symbol(pair[0]):
            raise TermError('a name with its sort or value is expected, and there is %s' % written(pair))
        return pair[0]

    # ---- applications
    def application(self, expression, scope):
        head, arguments = expression[0], []
        for part in expression[1:]:
            arguments.append((yield self.term(part, scope)))
        if isinstance(head, Form) and head[:1] in (['_'], ['as']):
            return self.uninterpreted(head, arguments, (yield self.result(head, scope)))
        if isinstance(head, str) and not scope.meaning(head) and head not in self.named:
            if head in self.declarations.definitions:
                return (yield self.defined(head, tuple(arguments)))
            if not self.declared(head):
                return self.operator(head, arguments)
            check_count('arguments of %s' % written(head), len(self.declarations.functions[head].arguments), len(arguments))
        if not arguments:
            raise TermError('a term without arguments is applied: %s' % written(expression))
        return self.computed(APPLICATION, (yield self.term(head, scope)), *arguments)

    def computed(self, tag, *cells):
        try:
            return self.pool.term(tag, *cells)
        except NoAnswer:
            raise TermError('a term that is no function is applied' if tag == APPLICATION else 'a choice of nothing') from None

    def operator(self, head, arguments):
        """One of the pool's, if its sort can be worked out there."""
        if not is_symbol(head):
            raise TermError('%s is applied' % written(head))
        if head in OPERATOR:
            try:
                return self.pool.op(OPERATOR[head], *arguments)
            except NoAnswer:
                pass
        return self.uninterpreted(head, arguments, self.own_sort(head))

    # ---- what has no known meaning
    def own_sort(self, head):
        return self.pool.sort('Atom', self.names.number('result', '?' + whole(head)))

    def check_closed(self, head, scope):
        """No part of what stands for itself may be a variable."""
        for part in head[:2] if head[0] == 'as' else head:
            if not isinstance(part, str) or scope.meaning(part) or part in self.named:
                raise TermError('%s is not read' % written(head))

    def constant(self, head, scope):
        self.check_closed(head, scope)
        return self.pool.var(self.names.number('operator', whole(head)), self.own_sort(head))

    def uninterpreted(self, head, arguments, result):
        if not arguments:
            raise TermError('%s is applied to nothing' % written(head))
        sort = self.pool.sort('Function', *map(self.pool.sort_of, arguments), result)
        return self.pool.app(self.pool.var(self.names.number('operator', whole(head)), sort), *arguments)

    def result(self, head, scope):
        """The sort that an indexed or qualified function gives: (as const S), and the testers of datatypes."""
        self.check_closed(head, scope)
        if head[0] == 'as' and len(head) == 3:
            return (yield self.declarations.sorts.sort(head[2], {}))
        return BOOL if len(head) == 3 and head[1] == 'is' else self.own_sort(head)

    def qualified(self, expression, scope):
        """(as c S): a name in scope as it is, else a constant of sort S."""
        if len(expression) != 3:
            raise TermError('(as NAME SORT) is expected, and there is %s' % written(expression))
        sort = yield self.declarations.sorts.sort(expression[2], {})
        if not isinstance(expression[1], str) or not self.means(expression[1], scope):
            self.check_closed(expression, scope)
            return self.pool.var(self.names.number('operator', whole(expression)), sort)
        place = yield self.term(expression[1], scope)
        if self.pool.sort_of(place) != sort:
            raise TermError('%s has another sort' % written(expression))
        return place
