"""Compares normal forms and clause lists: the reference with the Rust, and `calls` with the reference.

ORACLE and CALLS are as in comparison.py; the dump has for each term at P of the pool
    nnf P POLARITY TERM        its normal form
    cnf P LITERAL .. | ..      its clauses; `stop` where an `or` without operands is reached, `big` where they are many
    taken P NAME:SORT ..       the variables taken out
where a term of the pool is its place and any other is written out: (TAG OPERAND ..), (TAG BODY NAME:SORT ..).
The reference makes the same lines from the cells that calls 3 and 4 leave, so the two agree up to the places of new terms. A pool
that holds a let is left out of this.
Those are held to document 01's order here: the places reached from a normal form, operands first and left to right, give
the new ones from the count on.

The output of CALLS must be the reference's, cell by cell, on these pools, in arrays that the new terms fill, that are a cell too
short and that are longer, near the limit on the count, and on damaged copies. Only calls that are BUILT (reference_program.py)
are asked.
"""
from comparisons.comparison import BATCH, Compared, cells_of, has_let, test_files
from pools.packed_pool import OPERATOR_TAG, call_file, step_file
from random_inputs.random_pools import RandomFormulas, RandomPool, damaged, near_limits
from references import reference, reference_clauses
from references.reference_program import run

NEAR = 3  # pools near the limits to a batch
TREE = 2000  # the Rust's texts of a term end here
LENT = (reference_clauses.MOST_LITERALS, reference_clauses.MOST_CLAUSES)


def tree(tags, values, n, place):
    """A term as the dump writes it."""
    parts, length = [], 0

    def put(text):
        nonlocal length
        parts.append(text)
        length += len(text)

    def walk(p):
        if p < n:
            put(str(p))
        elif length <= TREE:
            cells = values[p + 2:p + 1 + values[p]]
            put('(%d' % tags[p])
            for c in cells if tags[p] >= 32 else cells[:1]:
                put(' ')
                walk(c)
            for name, sort in zip(cells[1::2], cells[2::2]) if tags[p] < 32 else ():
                put(' %d:%d' % (name, sort))
            put(')')

    walk(place)
    text = ''.join(parts)
    return text if len(text) <= TREE else text[:TREE] + '~'


def new_places(tags, values, n, place):
    """The places from n on that a term reaches, operands first and left to right."""
    found, opened, stack = {}, set(), [place]
    while stack:
        p = stack.pop()
        if p >= n and p in opened:
            found[p] = None
        elif p >= n:
            opened.add(p)
            cells = values[p + 2:p + 1 + values[p]]
            stack += [p, *reversed(cells if tags[p] >= 32 else cells[:1])]
    return list(found)


def written(pool, tags, values):
    """The arrays with the new terms."""
    after = [array + [7] * (pool.count - len(array)) for array in (tags, values)]
    pool.write(*after)
    return after


def new_count(call, tags, values, t, polarity):
    """The count after call 3 or 4, whatever the arrays' length."""
    pool = reference_clauses.Growing(tags, values, len(tags))
    form = reference_clauses.normal_form(pool, t, call == 4 or polarity > 0)
    if call == 4:
        reference_clauses.taken_out(pool, form)
    return pool.count


class ComparedClauses(Compared):
    # ---- the reference with the Rust
    def dump_lines(self, tags, values):
        lines = {}
        for line in self.rust('dump', step_file(tags, values), 100000):
            words = line.split(' ', 3)
            key = words[:3] if words[0] == 'nnf' else words[:2]
            lines[' '.join(key)] = line
        return lines

    def terms(self, tags, values, terms):
        if has_let(tags):
            self.count['terms of pools with a let, which the Rust is not asked for'] += len(terms)
            return
        lines = self.dump_lines(tags, values)
        for t in terms:
            for polarity in (True, False):
                self.normal(lines, tags, values, t, polarity)
            self.clauses(lines, tags, values, t)

    def normal(self, lines, tags, values, t, polarity):
        n = len(tags)
        pool = reference_clauses.Growing(tags, values, n)
        place = reference_clauses.normal_form(pool, t, polarity)
        after = written(pool, tags, values)
        key = 'nnf %d %d' % (t, polarity)
        self.same('normal forms', lines[key], '%s %s' % (key, tree(*after, n, place)), (tags, values), t)
        self.count['normal forms with new terms'] += pool.count > n
        self.same('orders of new terms', pool.new, new_places(*after, n, place), (tags, values), t)
        if pool.count < 2000:
            self.same('pools with new terms', (0, 0, 0), reference.check(*after, pool.count), (tags, values), t)

    def clauses(self, lines, tags, values, t):
        n = len(tags)
        pool = reference_clauses.Growing(tags, values, n)
        form = reference_clauses.normal_form(pool, t, True)
        variables = reference_clauses.taken_variables(pool, form)
        normal_count = pool.count
        taken = reference_clauses.taken_out(pool, form)
        after = written(pool, tags, values)
        self.same('orders of new terms of taken-out forms', [p for p in pool.new if p >= normal_count],
                  [p for p in new_places(*after, n, taken) if p >= normal_count], (tags, values), t)
        key = 'cnf %d' % t
        answer, _ = reference_clauses.clause_answer(reference_clauses.Growing(tags, values, n), t, pool.count)
        if lines[key] == key + ' big':
            self.count['clause lists that the Rust is not asked for'] += 1
            return
        expected = key + ' stop'
        if answer[0] != 13:
            found = reference_clauses.clauses(pool, taken)
            expected = key + ' |'.join(''.join(' ' + tree(*after, n, literal) for literal in clause) for clause in found)
            sizes = len(found), sum(map(len, found))
            over = sizes[0] > LENT[1] or sizes[1] > LENT[0]
            assert answer == ((32, 0, 0) if over else (0, *sizes)), (answer, sizes)
            self.count['clauses'] += sizes[0]
            self.count['lists at a limit, or one below or above'] += abs(sizes[0] - 2048) < 2 or abs(sizes[1] - 8192) < 2
        self.same('clause lists, answer %d' % answer[0], lines[key], expected, (tags, values), t)
        self.same('taken-out variables', lines['taken %d' % t],
                  'taken %d' % t + ''.join(' %d:%d' % pair for pair in variables), (tags, values), t)
        self.count['terms with variables taken out'] += bool(variables)
        self.count['terms with new terms in the taken-out form'] += pool.count > normal_count

    def test_files(self):
        """The pools of the test files."""
        for _, file, n, place in test_files(3, 4):
            if run(file).startswith(('0 ', '13 ', '31 ', '32 ')):
                self.terms(*cells_of(file, n), [place])
                self.count['test files'] += 1

    # ---- `calls` with the reference
    def files(self, rng, tags, values, t):
        """Calls on one term: at both polarities and the clause list, each in arrays of several lengths."""
        n = len(tags)
        for call, polarity in ((3, 0), (3, rng.choice((1, 1, 2, 0xffffffff))), (4, rng.randint(0, 1))):
            count = new_count(call, tags, values, t, polarity)
            for size in {count, count - 1, count + rng.randint(1, 40), rng.randint(n, count)}:
                if n <= size <= 9000:
                    lent = [size + rng.choice((0, 0, 0, 0, 1, 50, -1)) for size in LENT] if call == 4 else (0, 0)
                    junk = [[rng.choice((0, 1, 36, n, 0xffffffff)) for _ in range(size - n)] for _ in 'tv']
                    yield call_file(call, tags + junk[0], values + junk[1], n, t, polarity, *lent)

    def padded(self, rng, tags, values, t):
        """Calls on one term of a pool so large that the new count is about 8,192, in longer arrays."""
        for call, polarity in ((3, 0), (3, 1), (4, 1)):
            more = reference.LIMIT + rng.randint(-1, 1) - new_count(call, tags, values, t, polarity)
            if more >= 2:
                size = rng.choice((8193, 9000)) - len(tags) - more
                yield call_file(call, tags + [OPERATOR_TAG['Cl']] + [0] * (more - 1) + [36] * size,
                                values + [more - 1, 0] + [t] * (more - 2) + [1] * size, len(tags) + more, t, polarity,
                                *(LENT if call == 4 else (0, 0)))

    def refused(self, rng, tags, values, t):
        """A damaged pool, or a place that may be no term's, or a count that may be wrong."""
        n = rng.choice((len(tags),) * 6 + (len(tags) - 1, len(tags) + 3, len(tags) + 4))
        place = rng.choice((t, t, t, rng.randrange(len(tags) + 5), 0xffffffff))
        for call in (3, 4):
            yield call_file(call, tags + [36, 7, 0], values + [1, 0, 7], n, place, 1, *(LENT if call == 4 else (0, 0)))


def compare(options):
    compared = ComparedClauses(options)
    rng = compared.rng
    compared.test_files()
    for start in range(0, options.pools, BATCH):
        pools = [(RandomPool if rng.random() < 0.1 else RandomFormulas)(rng, rng.choice((5, 10, 20, 40)), lets=rng.random() < 0.2)
                 for _ in range(min(BATCH, options.pools - start))]
        pools += [near_limits(rng) for _ in range(NEAR)]
        files = []
        for pool in pools:
            compared.terms(pool.tags, pool.values, pool.terms)
            for t in rng.sample(pool.terms, min(4, len(pool.terms))):
                files += compared.files(rng, pool.tags, pool.values, t)
            if len(pool.terms) > 1:
                files += compared.refused(rng, *damaged(rng, pool), rng.choice(pool.terms))
        files += compared.padded(rng, pools[0].tags, pools[0].values, rng.choice(pools[0].terms))
        if options.calls:
            compared.ask(files)
    compared.report('%d pools and %d near the limits, no difference' % (options.pools, NEAR * -(-options.pools // BATCH)))
