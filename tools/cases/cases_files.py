"""Files that are no call files, or just are. A case is as in cases_checks.py, with None for `bad file`."""
from pools.packed_pool import call_file, words

BIG = 0xffffffff
POOL = ([1, 21, 0, 0], [0, 2, 0, 1])  # Bool, and the variable 1 at place 1
GOOD = call_file(1, *POOL, place=1)


def files():
    yield 'file-empty', None, b''
    yield 'file-header-short', None, GOOD[:31]
    yield 'file-header-alone', None, GOOD[:32]
    yield 'file-byte-short', None, GOOD[:-1]
    yield 'file-byte-long', None, GOOD + b'\0'
    yield 'file-word-short', None, GOOD[:-4]
    yield 'file-word-long', None, GOOD + bytes(4)
    yield 'file-larger-than-any', None, call_file(1, [0] * 9000, [0] * 9000) + bytes(40000)
    for call in (5, 256, BIG):
        yield 'file-call-%d' % call, None, call_file(call, *POOL, place=1)
    yield 'file-9001-tags', None, call_file(1, [1] + [0] * 9000, [], n=1)
    yield 'file-9001-values', None, call_file(1, [], [0] * 9001)
    yield 'file-9000-of-each', (14, 0, 0), call_file(1, [0] * 9000, [0] * 9000, n=9)
    # in 32 bits these lengths would wrap around to that of the file
    yield 'file-length-past-u32', None, words(1, 1 << 30, 0, 0, 0, 0, 0, 0)
    yield 'file-lengths-past-u32', None, words(1, 1 << 31, 1 << 31, 0, 0, 0, 0, 0)
    yield 'file-marks-9001', None, call_file(2, *POOL, place=1, x=9001)
    yield 'file-largest-marks', None, call_file(2, *POOL, place=1, x=BIG)
    yield 'file-unused-numbers', (0, 0, 0), call_file(1, *POOL, place=1, polarity=BIG, x=BIG, y=BIG)
    yield 'file-unused-numbers-2', (0, 0, 0), call_file(2, *POOL, place=1, polarity=BIG, x=4, y=BIG), {1}


COLLECTIONS = {'files': [files]}
