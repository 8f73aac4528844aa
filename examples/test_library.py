#!/usr/bin/env python3
"""Makes the test calls of crates/calls/data and answers the step files of crates/steps/data through the library, and compares.

    test_library.py [--archive crates/weldrika/out/libweldrika.a]

Each answer, and each array after the call, must be what the reference of tools/ gives; every call on a pool is also made as a pool check.
The archive is linked into a shared object, whose functions Python calls.
"""
import argparse
import collections
import ctypes
import pathlib
import struct
import subprocess
import sys
import tempfile

ROOT = pathlib.Path(__file__).resolve().parent.parent
sys.path.insert(0, str(ROOT / 'tools'))

from call_collections import unpacked
from references import reference, reference_program, reference_steps

CALLS = {0: 'check', 1: 'sort_of_term', 2: 'free_vars', 3: 'normal_form', 4: 'clause_list', reference_program.LOAD: 'load_table'}
TEXT = 11264
LENT = 7  # what the lent arrays hold before a call, in the reference too


def words(numbers):
    return (ctypes.c_uint32 * len(numbers))(*numbers)


def octets(numbers):
    return (ctypes.c_uint8 * len(numbers))(*numbers)


class Library:
    def __init__(self, path):
        self.functions = ctypes.CDLL(str(path))
        self.made = collections.Counter()

    def call(self, name, *arguments, fixed=(), result=None):
        """Slices are handed over as a pointer and a length; `fixed` has the arrays of fixed lengths, which come last."""
        function = getattr(self.functions, 'weldrika_' + name)
        function.restype = result
        parts = [(one, ctypes.c_size_t(len(one))) if isinstance(one, ctypes.Array) else (one,) for one in arguments]
        self.made[name] += 1
        return function(*sum(parts, ()), *fixed)

    def printed(self, file):
        """What the program `calls` prints on a call file that is not a bad one."""
        before = reference_program.blocks(file)
        head, cells = reference_program.head_of(file, before.call), file[before.call + 32:]
        answer = words([LENT] * 3)
        if head.call == reference_program.LOAD:
            table = words(reference.BUILT_IN)
            self.call('load_table', words(before.entries or []), fixed=(table, answer))
            return reference_program.printed((*answer, 0), table=table)
        numbers = struct.unpack('<%dI' % (len(cells) // 4), cells)
        tags = (octets if before.in_bytes else words)(numbers[:head.t])
        pool = tags, words(numbers[head.t:head.t + head.v]), words(reference.BUILT_IN if before.entries is None else before.entries)
        layout = '_u8' if before.in_bytes else '_u32'
        self.check_pool(pool, head.n, layout)
        more, lent = self.more(head, numbers[head.t + head.v:])
        count = self.call(CALLS[head.call] + layout, *pool, ctypes.c_size_t(head.n), ctypes.c_uint32(head.place), *more,
                          fixed=(answer,), result=ctypes.c_uint32 if head.call == 4 else None)
        return reference_program.printed((*answer, count or 0), tags=tags, values=pool[1], **lent)

    def more(self, head, conclusion):
        """The arguments of a call after its place or rule, and the lent arrays among them by name."""
        if head.call == 0:
            return [words(conclusion)], {}
        if head.call == 3:
            return [ctypes.c_bool(head.polarity != 0)], {}
        lent = {}
        if head.call == 2:
            lent = {'marks': octets([LENT] * head.x)}
        if head.call == 4:
            lent = {'literals': words([LENT] * head.x), 'ends': words([LENT] * head.y)}
        return list(lent.values()), lent

    def check_pool(self, pool, n, layout):
        answer = words([LENT] * 3)
        self.call('check_pool' + layout, *pool, ctypes.c_size_t(n), fixed=(answer,))
        wanted = reference.check(list(pool[0]), list(pool[1]), n, list(pool[2]))
        if tuple(answer) != wanted:
            raise SystemExit('check_pool%s: %s, and not %s' % (layout, tuple(answer), wanted))

    def text(self, file, table=None):
        """The text that answers a step file, and whether the rest of the array is as it was."""
        out = octets([LENT] * (TEXT + 1))
        name, more = ('answer_file', []) if table is None else ('answer_file_by', [words(table)])
        length = self.call(name, octets(file), *more, out, result=ctypes.c_size_t)
        return bytes(out[:length]).decode(), set(out[length:]) == {LENT}


def replay(library):
    for path in sorted((ROOT / 'crates/calls/data').glob('*.calls')):
        for name, file in unpacked(path.read_bytes()):
            wanted = reference_program.run(file)
            if wanted != reference_program.BAD and library.printed(file) != wanted:
                raise SystemExit('%s %s: another outcome' % (path.name, name))


def answer_files(library):
    refused = [0] * 134
    for path in sorted((ROOT / 'crates/steps/data').glob('*.steps')):
        file = path.read_bytes()
        for table in (None, reference.BUILT_IN, refused):
            wanted = reference_steps.run(file, reference.BUILT_IN if table is None else table)
            if library.text(file, table) != (wanted, True):
                raise SystemExit('%s: other answers' % path.name)


def tables_and_short_text(library):
    table = words([LENT] * 135)
    library.call('built_in_table', fixed=(table,))
    out = octets([LENT] * (TEXT - 1))
    length = library.call('answer_file', octets(bytes(4)), out, result=ctypes.c_size_t)
    if list(table) != list(reference.BUILT_IN) or length or set(out) != {LENT}:
        raise SystemExit('built_in_table, or answer_file into a short array')


def main():
    parser = argparse.ArgumentParser()
    parser.add_argument('--archive', type=pathlib.Path, default=ROOT / 'crates/weldrika/out/libweldrika.a')
    options = parser.parse_args()
    with tempfile.TemporaryDirectory() as folder:
        shared = pathlib.Path(folder) / 'libweldrika.so'
        subprocess.run(['gcc', '-shared', '-o', shared, '-Wl,--whole-archive', options.archive, '-Wl,--no-whole-archive'], check=True)
        library = Library(shared)
        for test in (tables_and_short_text, replay, answer_files):
            test(library)
    print('\n'.join('%6d %s' % (count, name) for name, count in sorted(library.made.items())))


if __name__ == '__main__':
    main()
