"""Random steps: conclusions that a rule accepts, and such with a slip or a few changes, so that every refusal comes up.

    p = RandomSteps(rng, size, count, lets, table)     a pool, with lets if they are wanted, and p.steps, pairs of a rule and a place
    near_step(rng)                                     a pool with a step of rule 3 whose clause list is about as long as it may be

A conclusion is first a form: the place of a term, [operator, form, ..], [binder, pairs, form] or ['let', pairs, form]. Its
leaves are terms of a random pool (random_pools.py): shared terms, binders that shadow, lets, choices, lambdas, odd
counts of operands, one name under several sorts.
"""
from pools.packed_pool import BINDER_TAG, NoAnswer
from random_inputs.random_pools import RandomFormulas, near_limits
from references import reference
from references.reference_clauses import Growing, clause_answer, normal_form, taken_variables
from references.reference_rules import without_adjacent

OPERATORS = ('And', 'Or', 'Not', 'Equals', 'Implies', 'Ite', 'Xor', 'Distinct', 'Cl')
LISTS = {*BINDER_TAG, 'let'}


def parts(form):
    """The forms in a form that have parts, itself first."""
    if isinstance(form, list):
        yield form
        for part in [form[2]] if form[0] in LISTS else form[1:]:
            yield from parts(part)


class RandomSteps(RandomFormulas):
    def __init__(self, rng, size, count, lets=False, table=None):
        super().__init__(rng, size, lets, table)
        self.leaves = list(self.terms)
        self.free = self.free_pairs()
        self.steps = []
        while len(self.steps) < count:
            rule = rng.randint(1, 6)
            form = self.accepted(rule)
            for _ in range(rng.choice((0, 0, 0, 1, 1, 1, 1, 2, 2, 3))):
                self.change(form)
            try:
                self.steps.append((rule, self.put(form)))
            except NoAnswer:
                pass  # a choice lost its list

    def put(self, form):
        """The place of a form's term."""
        if isinstance(form, int):
            return form
        head, *rest = form
        if head == 'let':
            return self.let(self.put(rest[1]), rest[0])
        if head in BINDER_TAG:
            return self.binder(head, self.put(rest[1]), rest[0])
        return self.op(head, *map(self.put, rest))

    # ---- parts
    def free_pairs(self):
        """By place the free variables, as pairs of name and sort, in the order of their places."""
        found = reference.free_variables(self.tags, self.values, len(self.tags))
        return {t: [(self.values[v + 2], self.values[v + 1]) for v in sorted(free)] for t, free in found.items()}

    def leaf(self):
        """Mostly of sort Bool, and often one of the last."""
        bools = [t for t in self.leaves if self.sort_of(t) == 0]
        places = bools if bools and self.rng.random() < 0.8 else self.leaves
        return self.rng.choice(places[-8:] if self.rng.random() < 0.6 else places)

    def list_of(self, *terms):
        """A list of some pairs, some of them free in these terms."""
        found = self.pairs(self.pair, 0) + [pair for t in terms for pair in self.free[t] if self.rng.random() < 0.5]
        return self.shuffled(found)

    def shuffled(self, pairs):
        return self.rng.sample(pairs, len(pairs))

    def slips(self):
        return self.rng.random() < 0.12

    def kept(self, pairs, needed):
        """Those that are needed and some of the others, in any order, at times repeated. A slip: a needed one is left out,
        or another is added."""
        forgets = self.slips()
        found = [pair for pair in dict.fromkeys(pairs) if pair in needed and not forgets or self.rng.random() < 0.4]
        if found and self.rng.random() < 0.2:
            found.append(self.rng.choice(found))
        if self.slips():
            found.append(self.pair())
        return self.shuffled(found)

    # ---- conclusions that are accepted
    def accepted(self, rule):
        return (self.join, self.rm_unused, self.cnf, self.distribute, self.split, self.ite)[rule - 1]()

    def join(self):
        """At times as the Rust would have it where pairs repeat at a distance."""
        q, body = self.rng.choice(('forall', 'exists')), self.leaf()
        outer, inner = self.list_of(body), self.list_of()
        both = outer + inner
        joined = without_adjacent(both) if self.rng.random() < 0.7 else list(dict.fromkeys(both))
        return ['Equals', [q, outer, [q, inner, body]], [q, joined, body]]

    def rm_unused(self):
        q, body = self.rng.choice(('forall', 'exists')), self.leaf()
        left = self.list_of(body)
        if self.rng.random() < 0.3:
            left = [pair for pair in left if pair not in self.free[body]]
        if self.rng.random() < 0.6 and not set(left) & set(self.free[body]):
            return ['Equals', [q, left, body], body]
        return ['Equals', [q, left, body], [q, self.kept(left, self.free[body]), body]]

    def cnf(self):
        return self.clausified(self.put(self.formula_form(2)) if self.rng.random() < 0.6 else self.leaf())

    def clausified(self, body):
        """A step to one of the body's clauses, or to any term if there is none."""
        left = self.list_of()
        growing = Growing(self.tags, self.values, len(self.tags))
        _, clauses = clause_answer(growing, body, reference.LIMIT)
        clause = min(self.rng.choices(clauses, k=3), key=len) if clauses else [self.leaf()]
        literals = [self.copied(growing, literal) for literal in clause]
        right = self.put(['Or', *literals] if len(literals) > 1 else literals[0])
        variables = left + taken_variables(growing, normal_form(growing, body, True))
        bound = self.kept(variables, self.free_pairs()[right])
        return ['Or', ['Not', ['forall', left, body]], ['forall', bound, ['Or', *literals] if len(literals) > 1 else right]]

    def formula_form(self, depth):
        """A form of connectives and quantifiers."""
        if depth < 0 or self.rng.random() < 0.15:
            return self.leaf()
        name = self.rng.choice([*self.COUNTS, 'And', 'Or', 'forall', 'forall', 'exists'])
        if name in BINDER_TAG:
            return [name, self.pairs(self.pair, 0), self.formula_form(depth - 1)]
        return [name, *(self.formula_form(depth - 1) for _ in range(self.rng.choice(self.COUNTS[name])))]

    def copied(self, growing, t):
        """The form of a term that may be new."""
        if t < len(self.tags):
            return t
        tag, cells = growing.tag[t], growing.operands(t)
        if tag in BINDER_TAG.values():
            name = next(name for name, known in BINDER_TAG.items() if known == tag)
            return [name, list(zip(cells[1::2], cells[2::2])), self.copied(growing, cells[0])]
        return [reference.OPERATORS[tag - 32], *(self.copied(growing, c) for c in cells)]

    def distribute(self):
        q, op = self.rng.choice((('forall', 'And'), ('exists', 'Or')))
        phis = [self.leaf() for _ in range(self.rng.choice((0, 1, 2, 2, 3)))]
        pairs = self.list_of(*phis)
        return ['Equals', [q, pairs, [op, *phis]], [op, *([q, pairs, phi] for phi in phis)]]

    def split(self):
        """Slips: an outer variable is free in two operands, stays free, or is bound twice."""
        q, op = self.rng.choice((('forall', 'Or'), ('exists', 'And')))
        phis = [self.leaf() for _ in range(self.rng.choice((0, 1, 2, 2, 3, 3)))]
        most = 3 if self.slips() else 1
        outer = [pair for pair in self.list_of(*phis) if sum(pair in self.free[phi] for phi in phis) <= most]
        unused, operands = set(outer), []
        for phi in phis:
            mine = [pair for pair in dict.fromkeys(outer) if pair in unused and (
                pair in self.free[phi] or self.rng.random() < 0.2 and not any(pair in self.free[t] for t in phis))]
            unused -= set() if self.slips() else set(mine)
            binds = mine and not self.slips() or self.rng.random() < 0.1
            operands.append([q, self.shuffled(mine), phi] if binds else phi)
        return ['Equals', [q, outer, [op, *phis]], [op, *operands]]

    def ite(self):
        """A slip: a variable is free in the condition."""
        condition, then, other = self.leaf(), self.leaf(), self.leaf()
        pairs = self.list_of(condition, then, other)
        if not self.slips():
            pairs = [pair for pair in pairs if pair not in self.free[condition]]
        return ['Equals', ['forall', pairs, ['Ite', condition, then, other]],
                ['Ite', condition, ['forall', pairs, then], ['forall', pairs, other]]]

    # ---- changes
    def change(self, form):
        """One change somewhere in a form, in place."""
        node = self.rng.choice(list(parts(form)))
        if node[0] in BINDER_TAG and self.rng.random() < 0.7:
            self.rng.choice((self.other_binder, self.more, self.fewer, self.turned, self.other_sort))(node)
        elif node[0] in LISTS or self.rng.random() < 0.5:
            at = 2 if node[0] in LISTS else self.rng.randrange(len(node))
            self.rng.choice((self.wrap, self.unwrap, self.other))(node, at)
        else:
            self.rng.choice((self.more_operands, self.fewer_operands, self.turned_operands))(node)

    def wrap(self, node, at):
        if at:
            kind = self.rng.choice(('Not', 'forall', 'exists', 'choice', 'lambda') + (('let',) if self.lets else ()))
            pairs = [self.let_pair()] if kind == 'let' else self.pairs(self.pair, 1)[:2] if kind == 'choice' else []
            node[at] = ['Not', node[at]] if kind == 'Not' else [kind, pairs, node[at]]

    def unwrap(self, node, at):
        if at and isinstance(node[at], list) and len(node[at]) > 1:
            node[at] = node[at][2] if node[at][0] in LISTS else self.rng.choice(node[at][1:])

    def other(self, node, at):
        node[at] = self.leaf() if at else self.rng.choice(OPERATORS)

    def other_binder(self, node):
        turned = {'forall': 'exists', 'exists': 'forall'}.get(node[0], 'forall')
        node[0] = turned if self.rng.random() < 0.6 else self.rng.choice(('choice', 'lambda'))

    def more(self, node):
        again = node[1] and self.rng.random() < 0.5
        node[1] = list(node[1])
        node[1].insert(self.rng.randint(0, len(node[1])), self.rng.choice(node[1]) if again else self.pair())

    def fewer(self, node):
        node[1] = node[1] and self.rng.sample(node[1], len(node[1]) - 1)

    def turned(self, node):
        node[1] = self.shuffled(node[1])

    def other_sort(self, node):
        node[1] = list(node[1])
        if node[1]:
            at = self.rng.randrange(len(node[1]))
            node[1][at] = node[1][at][0], self.rng.choice(self.sorts)

    def more_operands(self, node):
        node.insert(self.rng.randint(1, len(node)), self.leaf())

    def fewer_operands(self, node):
        if len(node) > 1:
            del node[self.rng.randrange(1, len(node))]

    def turned_operands(self, node):
        node[1:] = self.shuffled(node[1:])


def near_step(rng):
    pool = near_limits(rng)
    body, = pool.terms
    literals = [pool.var(1), pool.var(2), pool.var(3)]
    clause = rng.choice([rng.choice(literals), pool.op('Or', *rng.choices(literals, k=2))])
    negated = pool.op('Not', pool.binder('forall', body, []))
    pool.steps = [(3, pool.op('Or', negated, pool.binder('forall', clause, [])))]
    return pool
