"""What the program `calls` prints on a call file, by the reference.

    run(file)              the text
    is_tried(file)         whether the program is tried on the file
    blocks(file)           the blocks before the call
    call_of(file)          the call, or None
    BUILT                  the calls that the program has: the test files of other calls are written but not tried
"""
import struct
from collections import namedtuple

from references import reference_rules
from references.reference import BUILT_IN, free_call, load_call, sort_call
from references.reference_clauses import clause_call, normal_call

CALLS = (0, 1, 2, 3, 4, 5)
BUILT = (0, 1, 2, 3, 4, 5)
LOAD = 5
MOST = 9000  # of each array of a call file
MOST_ENTRIES = 300
TABLE, BYTE_TAGS = 100, 102  # the blocks that the program has, in their order
BAD = 'bad file\n'
# the entries of block 100, or None without it; its end; whether tags are lent as bytes; the call's start
Blocks = namedtuple('Blocks', 'entries table_end in_bytes call')
Head = namedtuple('Head', 'call t v n place polarity x y')


def word_at(file, start):
    """None where the file has ended."""
    return struct.unpack('<I', file[start:start + 4])[0] if start + 4 <= len(file) else None


def blocks(file):
    """A block 100 that is too long or cut short is none: its word is then taken for a call, and no call has it."""
    entries, end = None, 0
    count = word_at(file, 4)
    if word_at(file, 0) == TABLE and count is not None and count <= MOST_ENTRIES and 8 + 4 * count <= len(file):
        end = 8 + 4 * count
        entries = list(struct.unpack('<%dI' % count, file[8:end]))
    in_bytes = word_at(file, end) == BYTE_TAGS
    return Blocks(entries, end, in_bytes, end + 4 * in_bytes)


def head_of(file, start):
    """The eight words at the start of the call, or None."""
    return Head(*struct.unpack('<8I', file[start:start + 32])) if start + 32 <= len(file) else None


def call_of(file):
    head = head_of(file, blocks(file).call)
    return head and head.call


def is_tried(file):
    return call_of(file) not in CALLS or call_of(file) in BUILT


def run(file):
    before = blocks(file)
    head, file = head_of(file, before.call), file[before.call:]
    if head is None or head.call not in CALLS:
        return BAD
    sizes = {0: (head.x,), 2: (head.x,), 4: (head.x, head.y)}.get(head.call, ())
    given = head.x if head.call == 0 else 0
    if max(head.t, head.v, *sizes) > MOST or len(file) != 4 * (8 + head.t + head.v + given):
        return BAD
    if head.call == LOAD:
        return BAD if head.t or head.v or head.n else loaded(before.entries or [])
    cells = list(struct.unpack('<%dI' % (head.t + head.v + given), file[32:]))
    tags, values, conclusion = cells[:head.t], cells[head.t:head.t + head.v], cells[head.t + head.v:]
    if before.in_bytes and any(tag > 255 for tag in tags):
        return BAD
    table = BUILT_IN if before.entries is None else before.entries
    names = {2: ('marks',), 4: ('literals', 'ends')}.get(head.call, ())
    lent = [[7] * size for size, _ in zip(sizes, names)]
    answer = called(head, tags, values, conclusion if head.call == 0 else lent, table)
    return printed((*answer, 0)[:4], tags=tags, values=values, **dict(zip(names, lent)))


def loaded(entries):
    table = list(BUILT_IN)
    answer = load_call(entries, table)
    return printed((*answer, 0), table=table)


def called(head, tags, values, more, table):
    """The answer of calls 0 to 4; `more` is the conclusion, or the lent arrays."""
    pool = tags, values, head.n
    if head.call == 0:
        return reference_rules.check(*pool, head.place, more, table)
    if head.call == 1:
        return sort_call(*pool, head.place, table)
    if head.call == 2:
        return free_call(*pool, head.place, *more, table)
    if head.call == 3:
        return normal_call(*pool, head.place, head.polarity != 0, table)
    return clause_call(*pool, head.place, *more, table)


def line(name, numbers):
    return ' '.join([name] + [str(k) for k in numbers])


def printed(answer, **arrays):
    """The answer of four numbers, and a line for each array."""
    return '\n'.join([' '.join(map(str, answer)), *(line(*item) for item in arrays.items())]) + '\n'
