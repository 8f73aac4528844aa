"""Pools of formulas written as in SMT-LIB, and calls 0, 3 and 4 on them with their whole output written down.

    p = Formulas('(=> p (forall (x) x))')     p.root is its place
    p.read('(not p)')                         the place of another, which is added if it is missing

Variables are one letter: i, j and k are of sort Int, f of sort Function(Bool, Bool), P, Q and R of sort Function(Int, Bool),
the others Bool; x' is of the name x and of sort Int. A binder has a list of variables, a let one of (variable value).

Where a table of sort rules is given, the pool's sorts are computed by it and the call is lent it.
"""
from pools.packed_pool import BINDER_TAG, Pool, call_file
from references.reference_program import printed

BIG = 0xffffffff
WHOLE = 'the conclusion'
OPERATOR = {'and': 'And', 'or': 'Or', 'not': 'Not', '=>': 'Implies', '=': 'Equals', 'ite': 'Ite', 'xor': 'Xor',
            'distinct': 'Distinct', 'true': 'True', 'false': 'False', 'cl': 'Cl', '<': 'LessThan', '+': 'Add'}


def parsed(text):
    """Nested lists of words."""
    stack = [[]]
    for word in text.replace('(', ' ( ').replace(')', ' ) ').split():
        if word == '(':
            stack.append([])
        elif word == ')':
            last = stack.pop()
            stack[-1].append(last)
        else:
            stack[-1].append(word)
    assert len(stack) == 1 and len(stack[0]) == 1, text
    return stack[0][0]


class Formulas(Pool):
    def __init__(self, *texts, table=None):
        super().__init__(table)
        self.integer = self.sort('Int')
        for text in texts:
            self.root = self.read(text)

    def read(self, text):
        return self.put(parsed(text))

    def pair(self, word):
        """The name and the sort of a variable."""
        if word in 'fPQR':
            return ord(word), self.sort('Function', 0 if word == 'f' else self.integer, 0)
        return ord(word[0]), self.integer if word in 'ijk' or word.endswith("'") else 0

    def put(self, form):
        if isinstance(form, str):
            return self.constant('integer', int(form)) if form.isdigit() else self.var(*self.pair(form))
        head, *rest = form
        if head in BINDER_TAG:
            return self.binder(head, self.put(rest[1]), [self.pair(word) for word in rest[0]])
        if head == 'let':
            pairs = [(ord(letter), self.put(value)) for letter, value in rest[0]]
            return self.let(self.put(rest[1]), pairs)
        if head in 'fPQR':
            return self.app(self.put(head), *map(self.put, rest))
        return self.op(OPERATOR[head], *map(self.put, rest))

    def grow(self, texts):
        """Adds these terms, each of which is one header."""
        for text in texts:
            end = len(self.tags)
            assert self.read(text) == end, (text, 'is not new, or its parts are')

    def there(self, text):
        """The place of a term that stands."""
        end = len(self.tags)
        place = self.read(text)
        assert len(self.tags) == end, (text, 'is new')
        return place


def cells_after(pool, n, size):
    """What a call leaves in arrays of this size that it was given with n cells of the pool and others after them."""
    given = [array[:n] + [BIG] * (size - n) for array in (pool.tags, pool.values)]
    left = {'tags': pool.tags, 'values': pool.values}
    return given, {name: array + [0] * (size - len(array)) for name, array in left.items()}


def lent(numbers, size):
    return numbers + [0] * (size - len(numbers))


def normal(name, text, polarity, new=(), result=None, room=None, stands=(), table=None):
    """Call 3 on a formula: the new terms in order; the last is the result unless it is given. `stands` are formulas
    that the pool has before it, `room` the cells past the count, by default some more than are needed."""
    pool = Formulas(*stands, text, table=table)
    n = len(pool.tags)
    pool.grow(new)
    count = len(pool.tags)
    place = pool.read(result or new[-1])
    assert len(pool.tags) == count
    given, left = cells_after(pool, n, count + 5 if room is None else n + room)
    return (name, (0, place, count), call_file(3, *given, n, pool.root, polarity, table=table),
            printed((0, place, count, 0), **left))


def normal_refused(name, text, polarity, room, answer=(31, 0, 0)):
    pool = Formulas(text)
    n = len(pool.tags)
    given, left = cells_after(pool, n, n + room)
    return name, answer, call_file(3, *given, n, pool.root, polarity), printed((*answer, 0), **left)


def clausal(name, text, clauses, new=(), room=None, stands=(), sizes=(8192, 2048), polarity=1, table=None):
    """Call 4 on a formula: the clauses as lists of literals, and the new terms in order."""
    pool = Formulas(*stands, text, table=table)
    n = len(pool.tags)
    pool.grow(new)
    count = len(pool.tags)
    literals = [pool.read(literal) for clause in clauses for literal in clause]
    ends = [sum(map(len, clauses[:i + 1])) for i in range(len(clauses))]
    assert len(pool.tags) == count
    given, left = cells_after(pool, n, count + 5 if room is None else n + room)
    answer = 0, len(clauses), len(literals), count
    return (name, answer, call_file(4, *given, n, pool.root, polarity, *sizes, table=table),
            printed(answer, **left, literals=lent(literals, sizes[0]), ends=lent(ends, sizes[1])))


def clausal_refused(name, text, answer, room=60, sizes=(8192, 2048)):
    pool = Formulas(text)
    n = len(pool.tags)
    given, left = cells_after(pool, n, n + room)
    return (name, (answer, 0, 0), call_file(4, *given, n, pool.root, 0, *sizes),
            printed((answer, 0, 0, 0), **left, literals=lent([], sizes[0]), ends=lent([], sizes[1])))


def carried(pool, conclusion, code, position, what):
    """What an answer carries, as a number: a number, a variable's name by its letter, WHOLE, or a term by its text."""
    if isinstance(what, int):
        return what
    if code in (8, 9, 12) and position == 0:
        return ord(what)
    return conclusion if what == WHOLE else pool.there(what)


def step_on(name, pool, conclusion, rule, code=0, *numbers, room=None, table=None):
    """Call 0 on a pool, in arrays with so many cells past it: what they hold is left, and by rule 3 zeroed."""
    n = len(pool.tags)
    if room is None:
        room = 60 if rule == 3 else 5
    numbers = [carried(pool, conclusion, code, *item) for item in enumerate(numbers)]
    answer = code, *numbers, *[0] * (2 - len(numbers))
    given, left = cells_after(pool, n, n + room)
    if rule != 3:
        left = dict(zip(left, given))
    return (name, answer, call_file(0, *given, n, rule, conclusion=[conclusion], table=table), printed((*answer, 0), **left))


def step(rule, name, text, code=0, *numbers, room=None):
    """Call 0 on a conclusion."""
    pool = Formulas(text)
    return step_on('rule%d-%d-%s' % (rule, code, name), pool, pool.root, rule, code, *numbers, room=room)


def steps(rule, rows):
    """The same on the conclusion of each row."""
    return [step(rule, *row) for row in rows]
