"""Truth of a formula in small random readings, straight from its text: an independent look at what is accepted.

    false_reading(formula, seeds, definitions)     a seed whose reading makes it false, or None; None too for too many variables

A sort has one value or two. Functions, operators that are no connectives, and free names get values at random, once for each tuple
of argument values. `definitions` gives the parameters and the body of a name; they mean what they mean outside every binder.
"""
import random

from alethe.expressions import Form, whole

MOST_BOUND = 9
TRUTH = {
    'not': lambda a: 1 - a[0], 'and': min, 'or': max, '=>': lambda a: max(a[-1], *(1 - v for v in a[:-1])),
    'ite': lambda a: a[1] if a[0] else a[2], '=': lambda a: int(len(set(a)) == 1), 'xor': lambda a: sum(a) % 2,
    'distinct': lambda a: int(len(set(a)) == len(a))}


class Reading:
    def __init__(self, seed, definitions):
        self.rng, self.known, self.definitions = random.Random(seed), {}, definitions

    def chosen(self, *key):
        if key not in self.known:
            self.known[key] = self.rng.randrange(2)
        return self.known[key]

    def values(self, sort):
        return range(2 if sort == 'Bool' else 1 + self.chosen('size', whole(sort)))

    def value(self, term, bound):
        if isinstance(term, str):
            return bound[term] if term in bound else self.constant(term)
        if term[0] in ('forall', 'exists'):
            return (min if term[0] == 'forall' else max)(self.instances(term[1], term[2], bound))
        if term[0] == 'let':
            return self.value(term[2], {**bound, **{name: self.value(value, bound) for name, value in term[1]}})
        arguments = [self.value(part, bound) for part in term[1:]]
        if isinstance(term[0], str) and term[0] in self.definitions:
            parameters, body = self.definitions[term[0]]
            return self.value(body, dict(zip(parameters, arguments)))
        if isinstance(term[0], str) and term[0] in TRUTH and arguments:
            return TRUTH[term[0]](arguments)
        return self.chosen(whole(term[0]), *arguments)

    def constant(self, name):
        if name in self.definitions:
            return self.value(self.definitions[name][1], {})
        return {'true': 1, 'false': 0}[name] if name in ('true', 'false') else self.chosen(name)

    def instances(self, pairs, body, bound):
        """The last of equal names binds."""
        if not pairs:
            return [self.value(body, bound)]
        (name, sort), *rest = pairs
        return [value for chosen in self.values(sort) for value in self.instances(rest, body, {**bound, name: chosen})]


def parts(term):
    stack = [term]
    while stack:
        part = stack.pop()
        yield part
        stack += part if isinstance(part, Form) else []


def false_reading(formula, seeds, definitions=()):
    binders = [part for part in parts(formula) if isinstance(part, Form) and part and part[0] in ('forall', 'exists')]
    atoms = {part for part in parts(formula) if isinstance(part, str)}
    if sum(len(binder[1]) for binder in binders) > MOST_BOUND or atoms & {'choice', 'lambda'}:
        return None
    return next((seed for seed in seeds if not Reading(seed, dict(definitions)).value(formula, {})), None)
