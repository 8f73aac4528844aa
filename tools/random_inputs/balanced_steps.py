"""Random steps of which only those are kept that end at a check with room left, so that seldom ends come up as often as others.

    p = BalancedSteps(rng, size, cells, wanted, lets)     a pool of about so many cells, and p.steps, pairs of a rule and a place
    wanted(site)                                          asked of each step (sites.py); one that is not wanted leaves no cell
"""
from comparisons.sites import site
from pools.packed_pool import BINDER_TAG, NoAnswer
from random_inputs.random_pools import NAMES
from random_inputs.random_steps import RandomSteps, parts
from references.reference import LIMIT
from references.reference_rules import Checked, checked_answer

TRIES = 3000  # to a pool


class BalancedSteps(RandomSteps):
    def __init__(self, rng, size, cells, wanted, lets=False):
        super().__init__(rng, size, 0, lets)
        for _ in range(TRIES):
            start = len(self.tags)
            if start >= cells:
                break
            step = self.tried()
            if step is None or not wanted(self.site(step)):
                self.cut_back(start)
            else:
                self.steps.append(step)

    def tried(self):
        """A step, at times of a conclusion that was made for another rule."""
        rng = self.rng
        rule = rng.randint(1, 6)
        form = self.accepted(rule)
        for _ in range(rng.choice((0, 0, 1, 1, 1, 2))):
            rng.choice((self.change, self.change, self.flip, self.borrow, self.stranger, self.forget, self.other_body))(form)
        try:
            return rule if rng.random() < 0.9 else rng.randint(1, 6), self.put(form)
        except NoAnswer:
            return None

    def cnf(self):
        """Often with a forall to be taken out that binds what is free in its body."""
        if self.rng.random() < 0.4:
            return super().cnf()
        inner, other = self.leaf(), self.leaf()
        body = [self.rng.choice(('And', 'Or')), *self.shuffled([['forall', self.list_of(inner), inner], other])]
        return self.clausified(self.put(body))

    def site(self, step):
        pool = Checked(self.tags, self.values, len(self.tags))
        pool.room = LIMIT
        return site(pool, *step, checked_answer(pool, step[0], [step[1]]))

    def cut_back(self, start):
        """Takes away the headers from there on."""
        del self.tags[start:], self.values[start:]
        self.index = {what: place for what, place in self.index.items() if place < start}
        self.sorts = [place for place in self.sorts if place < start]
        self.terms = [place for place in self.terms if place < start]

    # ---- changes that RandomSteps makes seldom
    def two_binders(self, form):
        """Any two, or one and itself; none if a change has left none."""
        found = [node for node in parts(form) if node[0] in BINDER_TAG]
        return self.rng.choices(found, k=2) if found else []

    def flip(self, form):
        """A quantifier becomes the other one."""
        for node in self.two_binders(form)[:1]:
            node[0] = {'forall': 'exists', 'exists': 'forall'}.get(node[0], node[0])

    def borrow(self, form):
        """A list gets a pair of another one."""
        to, of = self.two_binders(form) or ([None, []], [None, []])
        to[1] = to[1] + of[1][:1]

    def forget(self, form):
        """A list loses a pair and what repeats it."""
        for node in self.two_binders(form)[:1]:
            lost = self.rng.choice(node[1] or [None])
            node[1] = [pair for pair in node[1] if pair != lost]

    def other_body(self, form):
        for node in self.two_binders(form)[:1]:
            node[2] = self.leaf()

    def stranger(self, form):
        """A list gets a pair of any name and sort."""
        for node in self.two_binders(form)[:1]:
            node[1] = node[1] + [(self.rng.choice(NAMES), self.rng.choice(self.sorts))]
