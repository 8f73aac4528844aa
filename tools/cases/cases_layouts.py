"""Call files with blocks, and calls in both layouts of tags: u32, and bytes after block 102. A case is as in cases_checks.py, with
None for `bad file`, and with the whole output in the end where cells are tried.

make_calls.py makes a call with tags in bytes of every call here that has u32 tags.
"""
from pools.formulas import BIG, Formulas
from pools.layouts import in_bytes
from pools.packed_pool import call_file, packed, words
from references.reference_program import printed

VARIABLE = packed([1], [21, 0, 1])  # Bool, and a variable at 1
NOT = packed([1], [21, 0, 1], [34, 0, 1])  # and its negation at 4
GOOD = call_file(1, *VARIABLE, place=1)
FULL = call_file(0, [0] * 9000, [0] * 9000, n=9, place=1, conclusion=[0] * 9000)
SMALL = [255, 36, 0, 167]  # what stands past the count: bytes, and numbers that are none
LARGE = [256, 290, 1 << 16, BIG]
PAST = ('bytes', 166), ('words', BIG)  # one number for all that stands past the count
SIZES = 8192, 2048


def blocks():
    yield 'block-102', (0, 0, 0), in_bytes(GOOD)
    yield 'block-102-alone', None, words(102)
    yield 'block-102-a-byte-short', None, words(102)[:3]
    yield 'block-102-header-short', None, in_bytes(GOOD[:31])
    yield 'block-102-and-28-bytes', None, in_bytes(GOOD[:28])
    yield 'block-102-byte-short', None, in_bytes(GOOD)[:-1]
    yield 'block-102-byte-long', None, in_bytes(GOOD) + b'\0'
    yield 'block-102-twice', None, in_bytes(in_bytes(GOOD))
    yield 'block-102-after-the-call', None, GOOD + words(102)
    yield 'block-102-in-the-upper-bytes', None, words(102 << 16) + GOOD
    yield 'block-102-and-more', None, words(102 + (1 << 24)) + GOOD
    yield 'block-102-longest-file', (14, 0, 0), in_bytes(FULL)
    yield 'block-102-longest-file-byte-long', None, in_bytes(FULL) + b'\0'
    yield 'block-102-longest-file-word-long', None, in_bytes(FULL) + bytes(4)
    # empty blocks: a table without entries, and blocks that the program does not have
    for answer, *block in (((40, 135, 0), 100, 0), (None, 101, 0, 0, 0), (None, 103, 0), (None, 104, 0), (None, 105, 0)):
        yield 'block-%d' % block[0], answer, words(*block) + GOOD
        yield 'block-%d-word-alone' % block[0], None, words(block[0]) + GOOD
        yield 'block-%d-before-102' % block[0], answer, words(*block) + in_bytes(GOOD)
        yield 'block-%d-after-102' % block[0], None, words(102, *block) + GOOD


def on_cells(name, answer, call, given, left, n, lent=None, **head):
    """A call that leaves these cells, and these lent arrays."""
    return (name, answer, call_file(call, *given, n, **head),
            printed((*answer, 0)[:4], tags=left[0], values=left[1], **lent or {}))


def case_in_bytes(name, answer, file, text):
    return name, answer, in_bytes(file), text


def longer(arrays, more):
    return [array + more for array in arrays]


# ---- tags that are no bytes, and bytes that are no tags or other ones
def tags_over_a_byte():
    """They make a bad file wherever they stand and whatever the call and its answer."""
    for tag in (256, 257, 290, 1 << 16, BIG):
        header = packed([1], [21, 0, 1], [tag, 0, 1])
        yield 'bytes-tag-%d-below-n' % tag, None, in_bytes(call_file(1, *header, place=1))
        yield 'bytes-tag-%d-past-n' % tag, None, in_bytes(call_file(1, *longer(VARIABLE, [tag]), 4, 1))
        yield 'words-tag-%d-below-n' % tag, (14, 4, 0), call_file(1, *header, place=1)
    yield 'bytes-tag-257-first', None, in_bytes(call_file(1, [257, 21, 0, 0], VARIABLE[1], place=1))
    yield 'bytes-tag-256-of-a-cell', None, in_bytes(call_file(1, [1, 21, 256, 0], VARIABLE[1], place=1))
    yield 'bytes-tag-256-last-of-9000', None, in_bytes(call_file(1, *longer(VARIABLE, [0] * 8995 + [256]), 4, 1))
    given = longer(VARIABLE, [256])
    for n in (4, 5, 6):
        for call in (0, 2, 3, 4):
            x, y = {2: (9, 0), 4: SIZES}.get(call, (None, 0))
            file = call_file(call, *given, n, 1, 0, x, y, conclusion=[1] if call == 0 else ())
            yield 'bytes-tag-256-call-%d-n-%d' % (call, n), None, in_bytes(file)
    yield 'bytes-values-over-a-byte', (0, 0, 0), in_bytes(call_file(1, [1, 21, 0, 0, 0], [0, 2, 0, BIG, 256], 4, 1))


def bytes_that_are_no_tags():
    for tag in (0, 14, 15, 28, 29, 30, 31, 167, 168, 200, 254, 255):
        header = packed([1], [21, 0, 1], [tag, 0, 1])
        yield 'bytes-14-tag-%d' % tag, (14, 4, 0), in_bytes(call_file(1, *header, place=1))
    yield 'bytes-14-tag-255-of-a-cell', (14, 1, 0), in_bytes(call_file(1, [1, 21, 0, 255], VARIABLE[1], place=1))
    yield 'bytes-14-tag-255-first', (14, 0, 0), in_bytes(call_file(1, [255, 21, 0, 0], VARIABLE[1], place=1))


def tags_alike():
    """162, 164 and 165 are 34, 36 and 37 modulo 128: an operator whose sort is a tuple's, one of its operand's sort, one of relations."""
    yield 'tag-162-for-34', (16, 4, 0), call_file(1, *packed([1], [21, 0, 1], [162, 0, 1]), place=1)
    yield 'tag-165-for-37', (16, 4, 0), call_file(1, *packed([1], [21, 0, 1], [165, 0, 1, 1]), place=1)
    unit = packed([1], [13], [21, 0, 1], [162, 1, 2])
    yield 'tag-162-of-a-tuple', (0, 1, 0), call_file(1, *unit, place=5)
    yield on_cells('normal-tag-162-true', (0, 5, 8), 3, longer(unit, SMALL), longer(unit, [0] * 4), 8, place=5, polarity=1)
    closure = packed([1], [21, 0, 1], [164, 0, 1, 1])
    negated = packed([1], [21, 0, 1], [164, 0, 1, 1], [34, 0, 4])
    yield on_cells('normal-tag-164-false', (0, 8, 11), 3, longer(closure, SMALL), longer(negated, [0]), 8, place=4)
    yield on_cells('clauses-tag-164', (0, 1, 1, 8), 4, longer(closure, SMALL), longer(closure, [0] * 4), 8, place=4, x=SIZES[0], y=SIZES[1],
                   lent={'literals': [4] + [0] * 8191, 'ends': [1] + [0] * 2047})
    yield 'not-15-where-the-tag-differs', (0, 0, 0), call_file(1, *packed([1], [21, 0, 1], [36, 0, 1, 1], [164, 0, 1, 1]), place=8)
    yield '15-where-the-tag-is-164-again', (15, 8, 0), call_file(1, *packed([1], [21, 0, 1], [164, 0, 1, 1], [164, 0, 1, 1]), place=4)


# ---- what stands past the count
def reading(junk):
    """Calls that change nothing, and refusals that do not."""
    pool = Formulas('(= (forall (x y) x) (forall (x) x))')
    n, t, given = len(pool.tags), pool.root, longer((pool.tags, pool.values), junk)
    size = n + len(junk)
    yield on_cells('sort', (0, 0, 0), 1, given, given, n, place=t)
    yield on_cells('sort-17', (17, n, 0), 1, given, given, n, place=n)
    yield on_cells('sort-30', (30, 0, 0), 1, given, given, size + 1, place=t)
    yield on_cells('free', (0, 0, 0), 2, given, given, n, place=t, x=size, lent={'marks': [0] * size})
    for rule, answer in ((2, (0, 0, 0)), (7, (18, 7, 0))):
        yield on_cells('rule%d' % rule, answer, 0, given, given, n, place=rule, conclusion=[t])
    yield on_cells('rule2-17', (17, 0, 0), 0, given, given, n, place=2, conclusion=[0])
    yield on_cells('rule3-30', (30, 0, 0), 0, given, given, size + 1, place=3, conclusion=[t])
    yield on_cells('normal-30', (30, 0, 0), 3, given, given, size + 1, place=t)
    lent = {'literals': [7] * SIZES[0], 'ends': [7] * (SIZES[1] - 1)}
    yield on_cells('clauses-30', (30, 0, 0), 4, given, given, n, place=t, x=SIZES[0], y=SIZES[1] - 1, lent=lent)


def building(junk):
    """Calls that leave 0 past the new count, or past N where they refuse."""
    given, size = longer(VARIABLE, junk), len(junk)
    cleared, built = longer(VARIABLE, [0] * size), longer(NOT, [0] * (size - 3))
    none = {'literals': [0] * SIZES[0], 'ends': [0] * SIZES[1]}
    one = {'literals': [1] + none['literals'][1:], 'ends': [1] + none['ends'][1:]}
    yield on_cells('normal', (0, 4, 7), 3, given, built, 4, place=1)
    yield on_cells('normal-nothing-new', (0, 1, 4), 3, given, cleared, 4, place=1, polarity=1)
    yield on_cells('normal-17', (17, 0, 0), 3, given, cleared, 4, place=0)
    yield on_cells('normal-31', (31, 0, 0), 3, longer(VARIABLE, junk[:2]), longer(VARIABLE, [0] * 2), 4, place=1)
    yield on_cells('normal-14-n-0', (14, 0, 0), 3, given, [[0] * (4 + size)] * 2, 0, place=1)
    yield on_cells('clauses', (0, 1, 1, 4), 4, given, cleared, 4, place=1, x=SIZES[0], y=SIZES[1], lent=one)
    yield on_cells('clauses-17', (17, 4, 0), 4, given, cleared, 4, place=4, x=SIZES[0], y=SIZES[1], lent=none)
    yield on_cells('rule3-17', (17, 4, 0), 0, given, cleared, 4, place=3, conclusion=[4])
    pool = Formulas('(or (not (forall (x) (and x p))) (forall (x) x))')
    arrays, n = (pool.tags, pool.values), len(pool.tags)
    yield on_cells('rule3', (0, 0, 0), 0, longer(arrays, junk), longer(arrays, [0] * size), n, place=3, conclusion=[pool.root])


def past_the_count():
    for calls, what in ((reading, 'kept'), (building, 'zeroed')):
        for name, answer, file, text in calls(SMALL):
            yield case_in_bytes('bytes-%s-%s' % (what, name), answer, file, text)
        for name, answer, file, text in calls(LARGE):
            yield 'words-%s-%s' % (what, name), answer, file, text


def below_the_count():
    """Tags over a byte below N stay where a call that builds refuses."""
    for name, place, tags in (('header', 4, [1, 21, 0, 0, 300, 0, 0]), ('two-headers', 4, [1, 21, 0, 0, 300, 256, BIG]),
                              ('cell', 4, [1, 21, 0, 0, 34, 0, 1 << 31]), ('first', 0, [257, 21, 0, 0, 34, 0, 0])):
        given, left = [tags + LARGE, NOT[1] + LARGE], [tags + [0] * 4, NOT[1] + [0] * 4]
        lent = {'literals': [0] * SIZES[0], 'ends': [0] * SIZES[1]}
        yield on_cells('words-14-normal-' + name, (14, place, 0), 3, given, left, 7, place=1)
        yield on_cells('words-14-clauses-' + name, (14, place, 0), 4, given, left, 7, place=1, x=SIZES[0], y=SIZES[1], lent=lent)
        yield on_cells('words-14-rule3-' + name, (14, place, 0), 0, given, left, 7, place=3, conclusion=[1])
        yield on_cells('words-14-sort-' + name, (14, place, 0), 1, given, given, 7, place=1)
        yield on_cells('words-14-rule2-' + name, (14, place, 0), 0, given, given, 7, place=2, conclusion=[1])


# ---- lengths
def unequal_lengths():
    """30 compares numbers of cells, whatever room a tag takes."""
    for layout, past in PAST:
        for t, v, n in ((5, 4, 4), (4, 5, 4), (4, 16, 4), (16, 4, 4), (8, 4, 4), (4, 8, 4), (4, 4, 5), (16, 16, 17)):
            given = [array + [past] * (size - 4) for array, size in zip(VARIABLE, (t, v))]
            for call, name, head in ((0, 'rule3', {'conclusion': [1]}), (1, 'sort', {}), (3, 'normal', {})):
                place = 3 if call == 0 else 1
                case = on_cells('%s-30-%s-%d-%d-n-%d' % (layout, name, t, v, n), (30, 0, 0), call, given, given, n, place=place, **head)
                yield case_in_bytes(*case) if layout == 'bytes' else case


def long_arrays():
    """8,500 cells, and a count of 8,193."""
    for layout, past in PAST:
        kept, junk = longer(VARIABLE, [past] * 8496), [past] * 8493
        cases = [on_cells('sort', (0, 0, 0), 1, kept, kept, 4, place=1),
                 on_cells('normal', (0, 4, 7), 3, longer(NOT, junk), longer(NOT, [0] * 8493), 7, place=4, polarity=1),
                 on_cells('normal-built', (0, 4, 7), 3, kept, longer(NOT, [0] * 8493), 4, place=1),
                 on_cells('normal-17', (17, 0, 0), 3, kept, longer(VARIABLE, [0] * 8496), 4, place=0),
                 on_cells('rule3-17', (17, 0, 0), 0, kept, longer(VARIABLE, [0] * 8496), 4, place=3, conclusion=[0]),
                 on_cells('rule2-17', (17, 0, 0), 0, kept, kept, 4, place=2, conclusion=[0])]
        for n, size in ((8193, 8193), (8193, 8500), (8500, 8500)):
            full = longer(VARIABLE, [past] * (size - 4))
            cases.append(on_cells('sort-30-n-%d-of-%d' % (n, size), (30, 0, 0), 1, full, full, n, place=1))
            cases.append(on_cells('normal-30-n-%d-of-%d' % (n, size), (30, 0, 0), 3, full, full, n, place=1))
            cases.append(on_cells('rule3-30-n-%d-of-%d' % (n, size), (30, 0, 0), 0, full, full, n, place=3, conclusion=[1]))
        for name, *case in cases:
            case = '%s-long-%s' % (layout, name), *case
            yield case_in_bytes(*case) if layout == 'bytes' else case


COLLECTIONS = {'layouts': [blocks, tags_over_a_byte, bytes_that_are_no_tags, tags_alike, past_the_count, below_the_count,
                           unequal_lengths, long_arrays]}
