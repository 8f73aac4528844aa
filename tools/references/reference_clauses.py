"""The calls `normal form` and `clause list`, straight from document 01.

An independent reading, for the expected outputs: nothing here is taken from the Rattle code.

    normal_call(tags, values, n, t, polarity, table)            call 3: (code, first, second)
    clause_call(tags, values, n, t, literals, ends, table)      call 4: (code, first, second, new count); lists are changed

under a table of sort rules as in reference.py, and their parts over a `Growing` pool: normal_form, taken_out, taken_variables,
empty_or, totals, clauses. Every walk visits a place, or a place with a polarity, once however terms are shared.
"""
from collections import namedtuple

from references.reference import BUILT_IN, LIMIT, check_term, headers

FORALL, EXISTS = 23, 24
NOT, IMPLIES, AND, OR, EQUALS, ITE = 34, 35, 36, 37, 39, 41
MOST_CLAUSES, MOST_LITERALS = 2048, 8192
# Totals stop here. Below it they are exact: a factor or summand that was cut leaves either nothing (the other
# factor is 0) or something as large.
MANY = 1 << 40


class Growing:
    """The headers of a pool, and the terms that are added after its count without regard to any limit."""

    def __init__(self, tags, values, n):
        self.tag, self.cells, self.place, self.count = {}, {}, {}, n
        self.new = []
        for p, tag, cells in headers(tags, values, n):
            self.keep(p, tag, cells)

    def keep(self, p, tag, cells):
        self.tag[p], self.cells[p], self.place[tag, cells] = tag, cells, p

    def operands(self, p):
        """The cells after the sort."""
        return self.cells[p][1:]

    def add(self, tag, operands):
        """The place of a term of sort Bool, which is new if it stands nowhere."""
        cells = (0, *operands)
        if (tag, cells) not in self.place:
            self.keep(self.count, tag, cells)
            self.new.append(self.count)
            self.count += 1 + len(cells)
        return self.place[tag, cells]

    def write(self, tags, values):
        for p in self.new:
            cells = self.cells[p]
            tags[p:p + 1 + len(cells)] = [self.tag[p]] + [0] * len(cells)
            values[p:p + 1 + len(cells)] = [len(cells), *cells]


# ---- building in the order of the finished term. A node stands for a term to come: a place for the term that is
# there, anything else for what `shape` says: another node, or a term of a tag, operand nodes and cells after them.
Made = namedtuple('Made', 'tag operands rest', defaults=((),))


def build(pool, root, shape):
    """The place of the root's term. Operands first and left to right, each node once."""
    done, opened, stack = {}, set(), [root]

    def place(node):
        return node if isinstance(node, int) else done[node]

    while stack:
        node = stack[-1]
        if isinstance(node, int) or node in done:
            stack.pop()
            continue
        found = shape(node)
        made = isinstance(found, Made)
        if node not in opened:
            opened.add(node)
            stack.extend(reversed(found.operands) if made else [found])
        else:
            stack.pop()
            done[node] = pool.add(found.tag, [*map(place, found.operands), *found.rest]) if made else place(found)
    return place(root)


def normal_form(pool, t, polarity):
    """`negation_normal_form`. Nodes: (place, polarity), and (tag, node, node) for a pair of `=` or `ite`."""
    def shape(node):
        if len(node) == 3:
            return Made(node[0], node[1:])
        t, pol = node
        tag, cells = pool.tag[t], pool.operands(t)
        meet, join = (AND, OR) if pol else (OR, AND)
        if tag == NOT and len(cells) == 1:
            return cells[0], not pol
        if tag in (AND, OR):
            return Made(meet if tag == AND else join, [(c, pol) for c in cells])
        if tag == IMPLIES and len(cells) == 2:
            return Made(join, [(cells[0], not pol), (cells[1], pol)])
        if tag == ITE and len(cells) == 3:
            p, q, r = cells
            return Made(meet, [(join, (p, not pol), (q, pol)), (join, (p, pol), (r, pol))])
        if tag == EQUALS and len(cells) == 2 and pool.cells[cells[0]][0] == 0:
            p, q = cells
            return Made(meet, [(join, (p, not pol), (q, pol)), (join, (q, not pol), (p, pol))])
        if tag in (FORALL, EXISTS):
            return Made(tag if pol else FORALL + EXISTS - tag, [(cells[0], pol)], cells[1:])
        return t if pol else Made(NOT, [t])

    return build(pool, (t, polarity), shape)


def taken_out(pool, t):
    """`prenex_forall`. Nodes: (place,)."""
    def shape(node):
        tag, cells = pool.tag[node[0]], pool.operands(node[0])
        if tag in (AND, OR):
            return Made(tag, [(c,) for c in cells])
        return (cells[0],) if tag == FORALL else node[0]

    return build(pool, (t,), shape)


def taken_variables(pool, t):
    """The pairs that `prenex_forall` meets, outer before inner, operands left to right, each once."""
    found, seen, stack = {}, set(), [t]
    while stack:
        p = stack.pop()
        cells = pool.operands(p)
        if p in seen:
            continue
        seen.add(p)
        if pool.tag[p] in (AND, OR):
            stack += reversed(cells)
        if pool.tag[p] == FORALL:
            found.update(dict.fromkeys(zip(cells[1::2], cells[2::2])))
            stack.append(cells[0])
    return list(found)


# ---- clauses of a term that is taken out: `conjunctive_normal_form`
def reached(pool, t, below=lambda p: True):
    """The places reached through `and` and `or`, operands before what they stand in."""
    seen, stack = {t}, [t]
    while stack:
        p = stack.pop()
        if pool.tag[p] in (AND, OR) and below(p):
            stack += set(pool.operands(p)) - seen
            seen.update(pool.operands(p))
    return sorted(seen)


def empty_or(pool, t):
    return any(pool.tag[p] == OR and not pool.operands(p) for p in reached(pool, t))


def totals(pool, t):
    """By place the numbers of clauses and of literals, at most MANY."""
    found = {}
    for p in reached(pool, t):
        clauses, literals = 1, 1
        if pool.tag[p] == AND:
            clauses, literals = (sum(found[c][i] for c in pool.operands(p)) for i in (0, 1))
        if pool.tag[p] == OR:
            clauses, literals = 1, 0
            for c in pool.operands(p):
                more, their = found[c]
                clauses, literals = min(MANY, clauses * more), min(MANY, literals * more + clauses * their)
        found[p] = min(MANY, clauses), min(MANY, literals)
    return found


def clauses(pool, t):
    """The list itself. A part without clauses is not looked into, so that no part is longer than the whole."""
    size = totals(pool, t)
    found = {}
    for p in reached(pool, t, below=lambda p: size[p][0] > 0):
        if size[p][0] == 0:
            found[p] = []
        elif pool.tag[p] == AND:
            found[p] = [clause for c in pool.operands(p) for clause in found[c]]
        elif pool.tag[p] == OR:
            found[p] = [[]]
            for c in pool.operands(p):
                found[p] = [first + second for first in found[p] for second in found[c]]
        else:
            found[p] = [[p]]
    return found[t]


# ---- the calls
def cleared(array, start):
    array[start:] = [0] * (len(array) - start)


def normal_call(tags, values, n, t, polarity, table=BUILT_IN):
    answer = check_term(tags, values, n, t, table)
    if answer[0] == 30:
        return answer
    count = n
    if answer[0] == 0:
        pool = Growing(tags, values, n)
        place = normal_form(pool, t, polarity)
        if pool.count > min(len(tags), LIMIT):
            answer = 31, 0, 0
        else:
            pool.write(tags, values)
            answer, count = (0, place, pool.count), pool.count
    cleared(tags, count)
    cleared(values, count)
    return answer


def clause_call(tags, values, n, t, literals, ends, table=BUILT_IN):
    if len(literals) < MOST_LITERALS or len(ends) < MOST_CLAUSES:
        return 30, 0, 0, 0
    answer = check_term(tags, values, n, t, table)
    if answer[0] == 30:
        return *answer, 0
    count, found = 0, []
    if answer[0] == 0:
        pool = Growing(tags, values, n)
        answer, found = clause_answer(pool, t, min(len(tags), LIMIT))
        if answer[0] == 0:
            pool.write(tags, values)
            count = pool.count
    cleared(tags, count or n)
    cleared(values, count or n)
    cleared(literals, 0)
    cleared(ends, 0)
    written = 0
    for i, clause in enumerate(found):
        literals[written:written + len(clause)] = clause
        written += len(clause)
        ends[i] = written
    return *answer, count


def clause_answer(pool, t, room, most=(MOST_CLAUSES, MOST_LITERALS)):
    """31, 13 or 32, or the two totals; and the list."""
    form = taken_out(pool, normal_form(pool, t, True))
    if pool.count > room:
        return (31, 0, 0), []
    if empty_or(pool, form):
        return (13, 0, 0), []
    count, length = totals(pool, form)[form]
    if count > most[0] or length > most[1]:
        return (32, 0, 0), []
    return (0, count, length), clauses(pool, form)
