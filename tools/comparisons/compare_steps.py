"""Compares the check of steps: the reference with the Rust, and `calls` with the reference.

ORACLE and CALLS are as in comparison.py; ORACLE called with `steps` prints for each step its number and the answer's three
numbers, or `stop` where the Rust stops, or `big` where it is not asked to make so many clauses. On random steps (random_steps.py)
in arrays of 8,192 cells the reference must give the Rust's answer, unless the pool holds a let, and but for the differences that
are written up, which are counted apart:
    rule 1    0 against 7, or 7 against 0, where a pair repeats at a distance and the Rust drops it
    rule 3    13 where the Rust stops; 31 and 32 where it has no limits, with the answer that the reference would give without them;
              and what it is not asked for
A damaged pool must be refused where the Rust loader stops. The test files that are steps are held against the Rust too, but for
those with a let.

The output of CALLS must be the reference's, cell by cell, on these steps in arrays that are longer than the pool and hold
other numbers past it, for rule 3 also in such that the new terms fill and such that are a cell short; on conclusions of any
number of places, unknown rules, wrong counts and damaged pools. It is asked only if call 0 is BUILT (reference_program.py).
"""
import collections
import math
import random
import struct

from comparisons.comparison import BATCH, Compared, cells_of, has_let, loader_stops, test_files
from pools.packed_pool import call_file, step_file
from random_inputs.limit_steps import new_cells, padded
from random_inputs.random_pools import damaged
from random_inputs.random_steps import RandomSteps, near_step
from references import reference
from references.reference_clauses import AND, EQUALS, IMPLIES, ITE, NOT, OR
from references.reference_program import run
from references.reference_rules import RULES, Checked, check, rule_answer

STEPS = 12  # to a pool
NEAR = 2  # pools near the limits on clauses to a batch
DAMAGED = 5  # pools of a batch of which a damaged copy is tried
SIZE = 8192
LARGEST = 0xffffffff
USUAL = {NOT: (1,), IMPLIES: (2,), EQUALS: (2,), ITE: (3,), AND: range(2, LARGEST), OR: range(2, LARGEST)}
NO_RULES = (0, 8, 255, 257, 65539, LARGEST)  # the Rust program has a rule 7


def as_the_rust_joins(pool, t):
    """Whether the Rust accepts a join, which drops every later repeat; None if each repeat stands right after its like."""
    left, right = pool.operands(t)
    outer = pool.quantifier(left)
    pairs = outer.pairs + pool.quantifier(outer.body).pairs
    if not any(pair in pairs[:i] and pair != pairs[i - 1] for i, pair in enumerate(pairs)):
        return None
    return list(dict.fromkeys(pairs)) == pool.quantifier(right).pairs


def without_limits(pool, t):
    """Rule 3's answer if new terms, clauses and literals had no limits."""
    pool = Checked(*pool.arrays)
    pool.room, pool.most = math.inf, (math.inf, math.inf)
    return rule_answer(pool, 3, t)


def words(answer):
    """An answer as the Rust gives it."""
    return ['stop'] if answer[0] == 13 else [str(k) for k in answer]


def is_written(pool, rule, t, answer, rust):
    """Whether an answer and the Rust's words show a difference that is written up."""
    if rule == 1 and {str(answer[0]), rust[0]} == {'0', '7'}:
        return as_the_rust_joins(pool, t) is (rust[0] == '0')
    if rule != 3 or answer[0] not in (31, 13, 32, 8, 10, 9, 0):
        return False
    if answer[0] in (31, 32) and rust != ['big']:
        answer = without_limits(pool, t)
    return rust in (['big'], words(answer))


def features(pool, t):
    """What a conclusion holds of the kinds that are seldom met in files."""
    seen, stack = {t}, [t]
    while stack:
        more = set(terms_in(pool, stack.pop())) - seen
        seen |= more
        stack += more
    bound = {}  # by place the pairs that are bound in a term
    for p in sorted(seen):
        below = set().union(*(bound[c] for c in terms_in(pool, p)))
        cells = pool.operands(p)
        pairs = list(zip(cells[1::2], cells[2::2])) if pool.tag[p] in (23, 24, 25, 26) else []
        bound[p] = below | set(pairs)
        yield from {25: ['a choice'], 26: ['a lambda'], 27: ['a let']}.get(pool.tag[p], [])
        if len(cells) not in USUAL.get(pool.tag[p], (len(cells),)):
            yield 'a connective of an unusual number of operands'
        if len(set(pairs)) < len(pairs):
            yield 'a list that repeats a pair'
        if len({name for name, _ in pairs}) < len(set(pairs)):
            yield 'a list with one name under two sorts'
        if below & set(pairs):
            yield 'a variable that is bound again inside'


def terms_in(pool, p):
    """The operands, body, function, arguments and let values of a term."""
    cells = pool.cells[p]
    return [c for kind, c in zip(reference.kinds_of(pool.tag[p], len(cells)), cells) if kind == 't']


class ComparedSteps(Compared):
    def __init__(self, options):
        super().__init__(options)
        self.alike, self.apart = collections.Counter(), collections.Counter()  # by rule and what was answered
        self.junk = random.Random(options.seed)  # for `calls` alone: the pools are the same without it

    # ---- the reference with the Rust
    def steps(self, tags, values, steps, size=SIZE, big=1 << 20):
        n = len(tags)
        if has_let(tags):
            self.count['steps in pools with a let, which the Rust is not asked for'] += len(steps)
            return
        answers = [check(tags + [7] * (size - n), values + [7] * (size - n), n, rule, [t]) for rule, t in steps]
        lines = self.rust('steps', step_file(tags, values, steps), big)
        trouble = reference.first_trouble(tags, values, n)
        if trouble is None:
            pool = Checked(tags, values, n)
            for step, answer, line in zip(steps, answers, lines, strict=True):
                self.step(pool, *step, answer, line.split()[1:])
        else:
            assert loader_stops(lines) == trouble, ('the Rust and the reference differ', tags, values)
            assert len(set(answers)) == 1 and answers[0][0] in (14, 15, 16), (answers, tags, values)
            self.count['ill-formed pools, answer %d' % answers[0][0]] += 1

    def step(self, pool, rule, t, answer, rust):
        if rust == [str(k) for k in answer]:
            self.alike[rule, answer[0]] += 1
        elif is_written(pool, rule, t, answer, rust):
            self.apart[rule, answer[0], rust[0]] += 1
        else:
            raise SystemExit('DIFFERENCE in rule %d at %d: %r, the Rust %r\n%r' % (rule, t, answer, rust, pool.arrays))
        if answer[0] not in (17, 18):
            self.count.update('steps with ' + feature for feature in set(features(pool, t)))

    def test_files(self):
        for _, file, n, rule in test_files(0):
            size, _, _, _, _, x = struct.unpack('<6I', file[4:28])
            if x == 1 and rule != 7 and not run(file).startswith('30 '):
                self.steps(*cells_of(file, n), [(rule, *struct.unpack('<I', file[-4:]))], size, 1 << 24)

    def with_bad_ones(self, pool):
        """The steps of a pool, one whose rule is none and one whose place may be none."""
        rng, n = self.rng, len(pool.tags)
        place = rng.choice((0, rng.randrange(n), n, n + 3, LARGEST))
        return pool.steps + [(rng.choice(NO_RULES), rng.choice(pool.steps)[1]), (rng.randint(1, 6), place)]

    # ---- `calls` with the reference
    def call(self, tags, values, size, rule, conclusion, n=None):
        n = len(tags) if n is None else n
        junk = [[self.junk.choice((0, 1, 23, 36, len(tags), LARGEST)) for _ in range(size - len(tags))] for _ in 'tv']
        return call_file(0, tags + junk[0], values + junk[1], n, rule, conclusion=conclusion)

    def files(self, tags, values, steps):
        """Some steps of a pool in longer arrays."""
        n = len(tags)
        for rule, t in self.junk.sample(steps, min(4, len(steps))):
            sizes = {n + self.junk.randint(1, 40)}
            if rule == 3 and reference.is_term(tags, n, t):
                count = n + new_cells(tags, values, t)
                sizes |= {count, count - 1, count + self.junk.randint(1, 40)}
            for size in sizes:
                if n <= size <= 9000:
                    yield self.call(tags, values, size, rule, [t])

    def odd_files(self, tags, values, steps):
        """Other conclusions, rules and counts, on a pool that may be damaged."""
        rng, n = self.junk, len(tags)
        rule, t = rng.choice(steps)
        yield self.call(tags, values, n + 5, rule, [t])
        yield self.call(tags, values, n + 5, rng.choice((rule, 3)), rng.choices((t, 0, n, LARGEST), k=rng.choice((0, 2, 3, 40))))
        yield self.call(tags, values, n + 5, rng.choice((7, *NO_RULES)), rng.choices((t, n), k=rng.choice((0, 1, 1, 2))))
        yield self.call(tags, values, n + 5, rng.choice((rule, 3)), [rng.choice((t, n, n + 4))],
                        rng.choice((0, n - 1, n + 5, n + 6, LARGEST)))

    # ---- what is printed
    def totals(self):
        return '%d answers alike, %d written differences' % (sum(self.alike.values()), sum(self.apart.values()))

    def figures(self):
        """A line for each rule with its answers that are alike, by code, and one for each difference."""
        def line(name, counted):
            codes = ', '.join('code %d: %d' % item for item in sorted(counted.items()))
            return '%s: %d alike; %s' % (name, sum(counted.values()), codes)

        rules, every = collections.defaultdict(collections.Counter), collections.Counter()
        for (rule, code), count in self.alike.items():
            rules['rule %d' % rule if rule in RULES else 'unknown rules'][code] += count
            every[code] += count
        yield from (line(*item) for item in sorted(rules.items()))
        yield line('together', every)
        for item, count in sorted(self.apart.items()):
            yield 'rule %d, answer %d, the Rust %s: %d' % (*item, count)


def batch(compared, count):
    """Pools with steps, some with lets, and damaged ones."""
    rng = compared.rng
    pools = [RandomSteps(rng, rng.choice((3, 6, 10, 16)), STEPS, lets=rng.random() < 0.3) for _ in range(count)]
    asked = [(pool.tags, pool.values, compared.with_bad_ones(pool)) for pool in pools]
    asked += [(pool.tags, pool.values, pool.steps) for pool in (near_step(rng) for _ in range(NEAR))]
    asked.append((*padded(pools[0], SIZE - rng.randint(0, 20)), pools[0].steps))
    return asked, [(*damaged(rng, pool), pool.steps) for pool in pools[:DAMAGED]]


def compare(options):
    tested, compared = ComparedSteps(options), ComparedSteps(options)
    tested.test_files()
    for start in range(0, options.pools, BATCH):
        asked, bad = batch(compared, min(BATCH, options.pools - start))
        for pool in asked + bad:
            compared.steps(*pool)
        if options.calls:
            compared.ask([file for pool in asked for file in compared.files(*pool)])
            compared.ask([file for pool in asked + bad for file in compared.odd_files(*pool)])
    compared.report('%d pools: %s, no other' % (options.pools, compared.totals()),
                    'test files: %s, no other' % tested.totals(), *compared.figures())
