"""Compares `calls` with the reference under random tables of sort rules. The Rust has the built-in table alone and is not asked.

CALLS is as in comparison.py. The sorts of a pool are those of a random table that loads. On some of its terms and steps every call is
lent this table, one that differs in an entry, another that loads, one that is refused, the built-in one, or none, in arrays that hold
other numbers past the pool; at times arrays are too short, the count is wrong or the pool is damaged. Call 5 is asked of tables that
load and of others. The output of CALLS must be the reference's, also on files whose blocks are broken.

Of the reference alone: the answers to a step file under a table are those of call 0, and some are written down. It is counted how many
calls have another output without their table, so that it can be seen whether tables matter.
"""
import struct

from comparisons.comparison import BATCH, Compared
from pools.layouts import in_bytes
from pools.packed_pool import call_file, packed, step_file, words
from pools.sort_tables import table as changed_table
from random_inputs.random_pools import RandomPool, damaged
from random_inputs.random_steps import RandomSteps
from random_inputs.random_tables import changed, loadable, refused
from references.reference import BUILT_IN, LIMIT, table_answer
from references.reference_clauses import MOST_CLAUSES, MOST_LITERALS
from references.reference_program import blocks, run
from references.reference_rules import check
from references.reference_steps import answers, run as run_steps

STEPS = 6  # to a pool
TERMS = 3  # of a pool that are asked for
LOADS = 10  # to a batch
LARGEST = 0xffffffff
LESS_OF_SORT_INT = step_file(*packed([1], [2], [49, 1]), [(1, 2), (7, 0), (3, LARGEST)])
# a step file, what changes the built-in table, and what is printed
STEP_FILES = [
    (LESS_OF_SORT_INT, '', '1 16 2 0\n2 16 2 0\n3 16 2 0\n'), (LESS_OF_SORT_INT, 'LessThan=1', '1 2 2 0\n2 18 7 0\n3 17 4294967295 0\n'),
    (LESS_OF_SORT_INT, 'LessThan=7', '1 40 17 0\n2 40 17 0\n3 40 17 0\n'), (LESS_OF_SORT_INT, 'Or=1', '1 41 5 0\n2 41 5 0\n3 41 5 0\n'),
    (LESS_OF_SORT_INT[:-1], 'Or=1', '0 14 0 0\n'), (words(8193, 0), 'Or=1', '0 30 0 0\n'), (words(0, 257), 'Or=8', '0 30 0 0\n'),
    (words(0, 1, 1, 0), '', '1 14 0 0\n'), (words(0, 1, 1, 0), 'Or=8', '1 40 5 0\n'), (words(0, 0), 'Or=8', ''),
]


class ComparedTables(Compared):
    # ---- files
    def lent(self, own, tags):
        """A table to lend, mostly the pool's."""
        rng, kind = self.rng, self.rng.random()
        if kind < 0.5:
            return own
        if kind < 0.7:
            return refused(rng)
        return changed(rng, own, tags) if kind < 0.85 else loadable(rng) if kind < 0.9 else rng.choice((None, BUILT_IN))

    def call(self, arrays, own, call, place, conclusion=()):
        rng, n = self.rng, len(arrays[0])
        size = n + rng.choice((0, 5, 40, 200))
        given = [array + [rng.choice((0, 1, 23, 36, n, LARGEST)) for _ in range(size - n)] for array in arrays]
        if rng.random() < 0.03:
            given[rng.randrange(2)].append(0)
        count = n if rng.random() < 0.9 else rng.choice((0, n - 1, size, size + 1, LARGEST))
        x, y = {2: (max(0, n + rng.choice((0, 0, 0, 30, -1))), 0),
                4: [most + rng.choice((0,) * 8 + (1, -1)) for most in (MOST_LITERALS, MOST_CLAUSES)]}.get(call, (None, 0))
        return call_file(call, *given, count, place, rng.randint(0, 1), x, y, conclusion, self.lent(own, arrays[0]))

    def files(self, arrays, own, terms, steps):
        """Every call on some terms, and steps, each with a table of its own choice."""
        rng, n = self.rng, len(arrays[0])
        for t in rng.sample(terms, min(TERMS, len(terms))):
            for call in (1, 2, 3, 4):
                yield self.call(arrays, own, call, t if rng.random() < 0.9 else rng.choice((0, n, LARGEST)))
        for rule, t in steps:
            conclusion = [t] if rng.random() < 0.9 else rng.choices((t, 0, n), k=rng.choice((0, 1, 2)))
            yield self.call(arrays, own, 0, rule if rng.random() < 0.95 else rng.choice((0, 7, 259)), conclusion)

    def loads(self):
        for _ in range(LOADS):
            table = self.rng.choice((loadable, refused))(self.rng)
            yield call_file(5, [], [], 0, *(self.rng.choice((0, 1, LARGEST)) for _ in range(4)), table=table)

    def broken(self, file):
        """A file whose blocks, or whose bytes, are not what they were."""
        rng, end = self.rng, blocks(file).table_end
        at = rng.randrange(end + 8)
        count = struct.unpack('<I', file[4:8])[0] if end else 0
        return rng.choice((
            file[:at] + file[at + 1:], file[:at] + b'\0' + file[at:], file[:at], file[:end] + file, words(102) + file,
            in_bytes(in_bytes(file)), file[:end] + words(rng.choice((101, 103, 104, 105)), 0) + file[end:],
            file[:4] + words(rng.choice((count + 1, max(count, 1) - 1, 301, LARGEST))) + file[8:]))

    # ---- what is compared
    def written_down(self):
        for file, changes, expected in STEP_FILES:
            self.same('step files, by hand', run_steps(file, changed_table(changes)), expected, file, 0)

    def without_tables(self, files):
        """How many have another output without their table."""
        for file in files:
            entries, end, *_ = blocks(file)
            if entries is not None:
                kind = 'is refused' if table_answer(entries)[0] else 'loads'
                self.count['calls under a table that %s' % kind] += 1
                self.count['calls under a table that %s, with another output without it' % kind] += run(file) != run(file[end:])

    def broken_files(self, files):
        for file, text in zip(files, self.printed(files)):
            expected = run(file)
            kind = 'bad' if expected.startswith('bad') else 'good'
            self.same('outputs on broken files, which are ' + kind, '\n'.join(text) + '\n', expected, file, 0)

    def step_files(self, arrays, table, steps):
        """Of the reference alone."""
        n = len(arrays[0])
        full = [array + [0] * (LIMIT - n) for array in arrays]
        alone = [check(*map(list, full), n, rule, [t], table) for rule, t in steps]
        self.same('step files', answers(*arrays, steps, table), alone, arrays, 0)


def batch(compared, count):
    """The arrays of pools, each with its table, its terms and steps."""
    rng, found = compared.rng, []
    for _ in range(count):
        table, lets = loadable(rng), rng.random() < 0.3
        if rng.random() < 0.4:
            pool, steps = RandomPool(rng, rng.choice((5, 10, 20)), lets, table), []
        else:
            pool = RandomSteps(rng, rng.choice((3, 6, 10)), STEPS, lets, table)
            steps = pool.steps
        arrays = damaged(rng, pool) if rng.random() < 0.1 else (pool.tags, pool.values)
        found.append((arrays, table, pool.terms, steps))
    return found


def compare(options):
    compared = ComparedTables(options)
    rng = compared.rng
    compared.written_down()
    for start in range(0, options.pools, BATCH):
        pools = batch(compared, min(BATCH, options.pools - start))
        files = [file for pool in pools for file in compared.files(*pool)]
        compared.without_tables(files)
        files += compared.loads()
        compared.ask(files)
        compared.broken_files([compared.broken(file) for file in rng.sample(files, BATCH)])
        for arrays, table, _, steps in pools:
            compared.step_files(arrays, rng.choice((table, table, refused(rng))), steps)
    compared.report('%d pools, no difference' % options.pools)
