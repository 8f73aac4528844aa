"""Compares `calls` with the Rust and the reference on random pools, term by term.

ORACLE and CALLS are as in comparison.py; of each term at P the dump has `sort P S` and `free P V ..`. For each pool every
term's sort and free variables are asked of `calls` and of the reference (reference.py), and of the Rust unless the pool holds a
let; a damaged copy is asked whether, and where, it is refused, and the reference, which tells 14, 15 and 16 apart, must say the
same as `calls`. The test files of these calls are held against the Rust too, but for those with a let, and one of them is given
to `calls` on standard input.
"""
import subprocess

from comparisons.comparison import BATCH, Compared, cells_of, has_let, loader_stops, test_files
from pools.layouts import in_bytes
from pools.packed_pool import call_file, step_file
from random_inputs.random_pools import RandomPool, damaged
from references import reference, reference_program


class ComparedSorts(Compared):
    def __init__(self, options):
        super().__init__(options)
        self.tags = set()

    def dump(self, tags, values):
        """The Rust's sorts and free variables by place."""
        sorts, free = {}, {}
        for words in map(str.split, self.rust('dump', step_file(tags, values), 1000)):
            if words[0] == 'sort':
                sorts[int(words[1])] = int(words[2])
            if words[0] == 'free':
                free[int(words[1])] = {int(v) for v in words[2:]}
        return sorts, free

    def stops(self, tags, values):
        return loader_stops(self.rust('dump', step_file(tags, values), 1000))

    # ---- comparisons
    def pools(self, pools):
        files, asked = [], []
        for pool in pools:
            self.tags |= set(pool.tags)
            for t in pool.terms:
                files += [call_file(1, pool.tags, pool.values, place=t),
                          call_file(2, pool.tags, pool.values, place=t, x=len(pool.tags))]
                asked.append((pool, t))
        texts = self.replay(files)
        for i, (pool, t) in enumerate(asked):
            if i == 0 or pool is not asked[i - 1][0]:
                sorts, free = self.expected(pool)
            cells = [reference_program.line('tags', pool.tags), reference_program.line('values', pool.values)]
            marks = [1 if v in free[t] else 0 for v in range(len(pool.tags))]
            of = ' in pools with a let, by the reference' if has_let(pool.tags) else ''
            self.same('sorts' + of, texts[2 * i], ['0 %d 0 0' % sorts[t], *cells], pool, t)
            self.same('free variables' + of, texts[2 * i + 1], ['0 0 0 0', *cells, reference_program.line('marks', marks)], pool, t)

    def expected(self, pool):
        """The sorts and free variables by place: the Rust's, which the reference must have too, or the reference's."""
        arrays = pool.tags, pool.values, len(pool.tags)
        sorts, free = {t: pool.sort_of(t) for t in pool.terms}, reference.free_variables(*arrays)
        if not has_let(pool.tags):
            assert self.dump(pool.tags, pool.values) == (sorts, free), ('the Rust and the reference differ', arrays)
        self.readings(pool, free)
        return sorts, free

    def readings(self, pool, free):
        """How many of the sets would be others in other readings: enough that the comparison sees them."""
        for reading, given in (('by name alone', {'by_name': True}), ('without let values', {'let_values': False})):
            other = reference.free_variables(pool.tags, pool.values, len(pool.tags), **given)
            self.count['free variables that would be others ' + reading] += sum(other[t] != free[t] for t in pool.terms)

    def refusals(self, pools):
        texts = self.replay([call_file(1, tags, values, place=t) for tags, values, t in pools])
        for text, (tags, values, t) in zip(texts, pools):
            expected = '%d %d %d 0' % reference.sort_call(tags, values, len(tags), t)
            trouble = reference.first_trouble(tags, values, len(tags))
            assert has_let(tags) or self.stops(tags, values) == trouble, ('the Rust and the reference differ', tags, values)
            self.same('damaged pools, answer ' + expected.split()[0], text[:1], [expected], (tags, values), t)

    def test_files(self):
        """The reference's answers on the test files, from which the expected output was made, against the Rust."""
        for name, file, n, place in test_files(1, 2):
            text = reference_program.run(file).splitlines()
            if text[0].startswith(('17', '30')):
                continue
            tags, values = cells_of(file, n)
            if has_let(tags):
                continue
            if not text[0].startswith('0'):
                assert self.stops(tags, values) == reference.first_trouble(tags, values, n) is not None, name
            elif text[-1].startswith('marks'):
                assert self.dump(tags, values)[1][place] == {v for v, mark in enumerate(text[-1].split()[1:]) if mark == '1'}, name
            else:
                assert self.dump(tags, values)[0][place] == int(text[0].split()[1]), name
            self.count['test files'] += 1

    def standard_input(self):
        file = next(file for name, file, *_ in test_files(2) if name == 'free-forall.call')
        for given in (file, in_bytes(file)):
            printed = subprocess.run([self.calls], input=given, capture_output=True, check=True).stdout.decode()
            assert printed == reference_program.run(given), 'standard input'


def compare(options):
    compared = ComparedSorts(options)
    rng = compared.rng
    compared.standard_input()
    compared.test_files()
    for start in range(0, options.pools, BATCH):
        pools = [RandomPool(rng, rng.choice((5, 10, 20, 40)), lets=rng.random() < 0.4) for _ in range(min(BATCH, options.pools - start))]
        compared.pools(pools)
        compared.refusals([(*damaged(rng, pool), rng.choice(pool.terms)) for pool in pools])
    tags = {tag for tag in compared.tags if tag}
    compared.report('%d pools, no difference' % options.pools, '%d kinds of sort, %d of other terms, %d operators' % (
        len([t for t in tags if t < 16]), len([t for t in tags if 16 <= t < 32]), len([t for t in tags if t >= 32])))
