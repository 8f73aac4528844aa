"""What the comparisons share: the two programs, the test files, and what is counted.

ORACLE is a program that reads a step file: the Rust behind a loader of packed pools, which stops at the first header with
any trouble and prints `pool-bad P` or `sort-bad P`. Called with `dump` it prints what it finds of every term, called with
`steps` the answer to every step. CALLS is the program `calls`.
"""
import collections
import os
import pathlib
import random
import struct
import subprocess
import tempfile

from call_collections import unpacked
from pools.layouts import in_bytes, narrowed, narrowed_lines
from references.reference_program import BAD, BUILT, blocks, call_of, run

DATA = pathlib.Path(__file__).resolve().parents[2] / 'crates' / 'calls' / 'data'
BATCH = 20  # pools to a run of `calls`
LET = 27


def test_files(*calls):
    """The test files of these calls that have no blocks, so u32 tags and the built-in table: name, bytes, and of the head the count
    and the word after it."""
    for name, file in sorted(call for path in DATA.glob('*.calls') for call in unpacked(path.read_bytes())):
        if blocks(file).call == 0 and call_of(file) in calls and run(file) != BAD:
            yield name, file, *struct.unpack('<2I', file[12:20])


def cells_of(file, n):
    """The first n tags and values of a call file."""
    t, = struct.unpack('<I', file[4:8])
    return [list(struct.unpack('<%dI' % n, file[start:start + 4 * n])) for start in (32, 32 + 4 * t)]


def has_let(tags):
    """Whether a pool holds a let. Document 02, S-3: equality with the Rust leaves such files out, for there a let's values do
    not count. Any other cell of a well-formed pool has the tag 0."""
    return LET in tags


def loader_stops(lines):
    """The place of the header at which the Rust loader stops, or None."""
    words = lines[0].split() if lines else ['']
    return int(words[1]) if words[0] in ('pool-bad', 'sort-bad') else None


class Compared:
    def __init__(self, options):
        self.oracle, self.calls = (program and os.path.abspath(program) for program in (options.oracle, options.calls))
        self.seed, self.rng = options.seed, random.Random(options.seed)
        self.count = collections.Counter()

    # ---- the two programs
    def rust(self, mode, file, big):
        """The lines that the Rust prints; it makes no clause list of more literals than `big`."""
        done = subprocess.run([self.oracle, mode], input=file, capture_output=True, check=True,
                              env={**os.environ, 'ORACLE_BIG': str(big)})
        return done.stdout.decode().splitlines()

    def replay(self, files):
        """What `calls` prints on each file, by lines. With tags in bytes it must print the same."""
        texts = self.printed(files)
        for file, text, ours in zip(files, texts, self.printed([in_bytes(narrowed(file)) for file in files])):
            self.same('outputs in bytes', ours, narrowed_lines(text), struct.unpack('<%dI' % (len(file) // 4), file), 0)
        return texts

    def printed(self, files):
        """The same for one layout."""
        with tempfile.TemporaryDirectory() as folder:
            names = [str(i) for i in range(len(files))]
            for name, file in zip(names, files):
                with open(os.path.join(folder, name), 'wb') as f:
                    f.write(file)
            printed = subprocess.run([self.calls, *names], cwd=folder, capture_output=True, check=True).stdout.decode()
        texts, lines = [], printed.splitlines()
        for name, after in zip(names, names[1:] + [None]):
            assert lines[0] == name + ':'
            end = lines.index(after + ':') if after else len(lines)
            texts.append(lines[1:end])
            lines = lines[end:]
        return texts

    # ---- what is compared
    def ask(self, files):
        """`calls` must print what the reference does, on the files of calls that are BUILT."""
        files = [file for file in files if call_of(file) in BUILT]
        for file, text in zip(files, self.replay(files) if files else ()):
            expected = run(file)
            self.same('outputs of call %d, answer %s' % (call_of(file), expected.split()[0]), '\n'.join(text) + '\n',
                      expected, struct.unpack('<%dI' % (len(file) // 4), file), 0)

    def same(self, what, ours, expected, pool, t):
        self.count[what] += 1
        if ours != expected:
            raise SystemExit('DIFFERENCE in %s at %d: %r, not %r\n%r' % (what, t, ours, expected, pool))

    def report(self, *lines):
        print('seed %d: %s' % (self.seed, '\n'.join(lines)))
        for what, count in sorted(self.count.items()):
            print('%8d %s' % (count, what))
