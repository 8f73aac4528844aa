"""What the program `steps` prints on a step file, by the reference.

    run(file, table)                      the text
    read(file)                            tags, values and steps (rule, place); raises BadFile with the answer's code
    answers(tags, values, steps, table)   the answer to each step, in arrays of 8,192 cells

The table of sort rules is the one that is lent: the program `steps` lends the built-in one, as is done here where none is given.
"""
import struct

from references import reference
from references.reference_rules import Checked, checked_answer

MOST_STEPS = 256


class BadFile(Exception):
    """30 for a head that asks for too much, 14 for a wrong length."""


def read(file):
    if len(file) < 8:
        raise BadFile(14)
    n, r = struct.unpack('<2I', file[:8])
    if n > reference.LIMIT or r > MOST_STEPS:
        raise BadFile(30)
    if len(file) != 4 * (2 + 2 * n + 2 * r):
        raise BadFile(14)
    numbers = list(struct.unpack('<%dI' % (2 * n + 2 * r), file[8:]))
    return numbers[:n], numbers[n:2 * n], list(zip(numbers[2 * n:2 * n + r], numbers[2 * n + r:]))


def answers(tags, values, steps, table=reference.BUILT_IN):
    """The pool is checked once for all steps, since none changes a cell below the count."""
    n = len(tags)
    arrays = tags + [0] * (reference.LIMIT - n), values + [0] * (reference.LIMIT - n)
    trouble = reference.check(*arrays, n, table)
    if trouble[0]:
        return [trouble for _ in steps]
    shared = Checked(*arrays, n)
    return [checked_answer(own_pool(shared) if rule == 3 else shared, rule, [t]) for rule, t in steps]


def own_pool(shared):
    """For rule 3, whose new terms no other step may find."""
    pool = Checked(*shared.arrays)
    pool.free = shared.free
    return pool


def run(file, table=reference.BUILT_IN):
    try:
        found = answers(*read(file), table)
    except BadFile as bad:
        return '0 %d 0 0\n' % bad.args
    return ''.join('%d %d %d %d\n' % (k, *answer) for k, answer in enumerate(found, 1))
