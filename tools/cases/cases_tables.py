"""Call files with a table of sort rules (document 02, S-2): the load of a table, the form of block 100, and calls on tables that are
refused. A case is as in cases_layouts.py. cases_other_sorts.py has the calls under tables that load.
"""
from cases import cases_other_sorts
from cases.cases_layouts import FULL, GOOD, VARIABLE, longer, on_cells
from pools.formulas import BIG, Formulas
from pools.layouts import in_bytes
from pools.packed_pool import call_file, packed, words
from pools.sort_tables import BUILT_IN, CONNECTIVES, table
from references.reference import OPERATORS
from references.reference_program import printed

LOADS = 0, 0, 0
LENGTH = 40, 135, 0  # a wrong one
JUNK = [BIG, 36, 0, 7]
BLOCK = words(100, 135, *BUILT_IN)
SIZES = {'x': 8192, 'y': 2048}


# ---- call 5
def load(name, answer, entries):
    """Leaves the entries in use, or the built-in table."""
    left = BUILT_IN if answer[0] else entries
    return 'load-' + name, answer, call_file(5, [], [], table=entries), printed((*answer, 0), table=left)


def lengths():
    yield load('built-in', LOADS, BUILT_IN)
    for count in (0, 1, 134):
        yield load('of-%d' % count, LENGTH, BUILT_IN[:count])
    for count in (136, 270, 300):
        yield load('of-%d' % count, LENGTH, (BUILT_IN * 3)[:count])
    yield 'load-of-301', None, call_file(5, [], [], table=(BUILT_IN * 3)[:301])
    # no entry of such a table counts
    yield load('of-1-rule-8', LENGTH, [8])
    yield load('of-134-rule-8', LENGTH, table('True=8')[:134])
    yield load('of-136-rule-8-last', LENGTH, BUILT_IN + [8])
    yield load('of-134-not-bool', LENGTH, table('Not=1')[:134])


CLOSELY = 'True', *CONNECTIVES, 'Xor', 'Distinct', 'Ite', 'Add', 'Sin', 'BvConst', 'RelProduct'
NO_RULES = 9, 255, 256, 263, 65536 + 7, 1 << 31, BIG


def single_entries():
    """Each entry with another rule, with 7 and with 8; some with every rule, and with numbers that are none in any byte."""
    for i, (name, rule) in enumerate(zip(OPERATORS, BUILT_IN)):
        close = name in CLOSELY
        for other in range(7) if close else [1 if rule == 0 else 0]:
            if other != rule:
                yield load('%s-%d' % (name, other), (41, i, 0) if name in CONNECTIVES else LOADS, table('%s=%d' % (name, other)))
        for other in (*([] if rule == 7 else [7]), 8, *(NO_RULES if close else [])):
            yield load('%s-%d' % (name, other), (40, i, 0), table('%s=%d' % (name, other)))


# name, answer, changes
SEVERAL = [
    ('40-after-41', (40, 134, 0), 'Not=1 RelProduct=8'), ('40-before-41', (40, 0, 0), 'True=8 Not=1'),
    ('40-by-7-after-41', (40, 8, 0), 'And=5 Distinct=7'), ('40-at-a-connective-after-41', (40, 7, 0), 'Not=1 Equals=7'),
    ('40-at-a-connective-before-41', (40, 2, 0), 'Not=8 Equals=1'),
    ('first-of-two-40', (40, 9, 0), 'Ite=8 Add=9'), ('7-before-8', (40, 4, 0), 'And=7 Or=8'), ('8-before-7', (40, 4, 0), 'And=8 Or=7'),
    ('first-and-last', (40, 0, 0), 'True=8 RelProduct=8'), ('first-of-two-41', (41, 3, 0), 'Implies=1 Equals=1'),
    ('first-of-five-41', (41, 2, 0), 'Not=6 Implies=5 And=4 Or=3 Equals=2'), ('41-after-xor', (41, 7, 0), 'Xor=1 Equals=1'),
    ('two-that-load', LOADS, 'Xor=6 RelProduct=0'),
    ('special-ones', LOADS, 'Add=0 Select=1 BvNot=2 BvConst=3 Tuple=4 RelJoin=5 RelProduct=6'),
]


def several_entries():
    for name, answer, changes in SEVERAL:
        yield load(name, answer, table(changes))
    yield load('all-0', LOADS, [0] * 135)
    for rule in range(1, 7):
        yield load('all-%d' % rule, (41, 2, 0), [rule] * 135)
        yield load('all-%d-but-connectives' % rule, LOADS, [0 if name in CONNECTIVES else rule for name in OPERATORS])
    yield load('all-7', (40, 0, 0), [7] * 135)
    yield load('all-7-but-connectives', (40, 0, 0), [0 if name in CONNECTIVES else 7 for name in OPERATORS])
    yield load('all-%d' % BIG, (40, 0, 0), [BIG] * 135)
    yield load('all-0-but-the-last', (40, 134, 0), [0] * 134 + [8])
    yield load('all-0-but-equals', (41, 7, 0), [1 if name == 'Equals' else 0 for name in OPERATORS])


def load_files():
    """T, V and N are 0, the other words are passed over, and nothing follows. Block 102 is passed over."""
    left = printed((*LENGTH, 0), table=BUILT_IN)
    yield 'load-without-block', LENGTH, call_file(5, [], []), left
    changed = table('RelProduct=0')
    good = call_file(5, [], [], 0, BIG, BIG, BIG, BIG, table=changed)
    yield 'load-unused-numbers', LOADS, good, printed((*LOADS, 0), table=changed)
    yield 'load-9001', LOADS, call_file(5, [], [], 0, 9001, 9001, 9001, 9001, table=changed), printed((*LOADS, 0), table=changed)
    for name, tags, values, n in (('tag', [1], [], 0), ('value', [], [0], 0), ('count', [], [], 1), ('largest-count', [], [], BIG),
                                  ('pool', [1], [0], 1), ('pool-past-the-count', [1], [0], 0)):
        yield 'load-with-a-' + name, None, call_file(5, tags, values, n, table=changed)
    yield 'load-t-1-and-no-tag', None, BLOCK + words(5, 1, 0, 0, 0, 0, 0, 0)
    yield 'load-with-a-place', None, call_file(5, [], [], conclusion=[1], table=changed)
    for name, file in (('byte-short', good[:-1]), ('word-short', good[:-4]), ('byte-long', good + b'\0'), ('word-long', good + bytes(4)),
                       ('block-alone', BLOCK), ('block-after-the-call', call_file(5, [], []) + BLOCK)):
        yield 'load-' + name, None, file


# ---- block 100
def blocks():
    """Before a good call."""
    yield 'block-100-built-in', (0, 0, 0), BLOCK + GOOD
    yield 'block-100-built-in-before-102', (0, 0, 0), BLOCK + words(102) + GOOD
    yield 'block-100-of-300', LENGTH, words(100, 300, *[0] * 300) + GOOD
    for name, start in (
            ('word', words(100)), ('a-byte-short-word', words(100)[:3]), ('no-count', words(100) + b'\0\0\0'), ('count', words(100, 135)),
            ('byte-short', BLOCK[:-1]), ('word-short', BLOCK[:-4])):
        yield 'block-100-cut-%s' % name, None, start
    for name, start in (
            ('byte-short', BLOCK[:-1]), ('word-short', BLOCK[:-4]), ('byte-long', BLOCK + b'\0'), ('word-long', BLOCK + bytes(4)),
            ('of-301', words(100, 301, *[0] * 301)), ('count-low', words(100, 134, *BUILT_IN)), ('count-high', words(100, 136, *BUILT_IN)),
            # in 32 bits these lengths would wrap around
            ('count-2-30', words(100, 1 << 30)), ('count-2-30-and-135', words(100, (1 << 30) + 135, *BUILT_IN)),
            ('largest-count', words(100, BIG)), ('twice', BLOCK * 2), ('twice-around-102', BLOCK + words(102) + BLOCK),
            ('before-102-twice', BLOCK + words(102, 102)), ('entries-after-102', words(102) + BLOCK),
            ('between-102-and-102', words(102) + BLOCK + words(102)), ('in-the-upper-bytes', words(100 << 8, 135, *BUILT_IN)),
            ('and-more', words(100 + (1 << 24), 135, *BUILT_IN)), ('and-unknown-block', BLOCK + words(106, 0)),
            *(('and-%d' % block, BLOCK + words(block, *[0] * (3 if block == 101 else 1))) for block in (101, 103, 104, 105))):
        yield 'block-100-' + name, None, start + GOOD
    for name, rest in (('alone', b''), ('and-31-bytes', GOOD[:31]), ('and-a-byte-short', GOOD[:-1]), ('and-a-byte-long', GOOD + b'\0')):
        yield 'block-100-whole-' + name, None, BLOCK + rest
    yield 'block-100-after-the-call', None, GOOD + BLOCK
    for call in (6, 100, 256, BIG):
        yield 'block-100-call-%d' % call, None, BLOCK + words(call) + GOOD[4:]


def longest_files():
    longest = in_bytes(words(100, 300, *[0] * 300) + FULL)
    yield 'block-100-longest-file', LENGTH, longest
    yield 'block-100-longest-file-byte-long', None, longest + b'\0'
    yield 'block-100-longest-file-301', None, words(100, 301, *[0] * 301, 102) + FULL
    yield 'block-100-and-9000-of-each', (14, 0, 0), BLOCK + FULL


# ---- calls on tables that are refused
REFUSED = {
    'of-none': (LENGTH, []), 'of-5': (LENGTH, BUILT_IN[:5]), 'of-136': (LENGTH, BUILT_IN + [0]),
    'rule-8': ((40, 134, 0), table('RelProduct=8')), 'rule-7': ((40, 4, 0), table('And=7')),
    'rule-8-and-not-bool': ((40, 134, 0), table('Not=1 RelProduct=8')), 'not-bool': ((41, 2, 0), table('Not=1')),
    'like-its-first': ((41, 7, 0), table('Equals=5')),
}
FEW = 'of-5', 'rule-8', 'not-bool'
# the calls that are lent a table: number and head, on a pool of at most 8 cells with a term at 1
HEADS = {
    **{'rule%d' % rule: (0, {'place': rule, 'conclusion': [1]}) for rule in (1, 2, 3, 4, 5, 6, 7)},
    'sort': (1, {'place': 1}), 'free': (2, {'place': 1, 'x': 9}), 'normal-true': (3, {'place': 1, 'polarity': 1}),
    'normal-false': (3, {'place': 1}), 'clauses': (4, {'place': 1, **SIZES}),
}
SOME = 'rule2', 'rule3', 'sort', 'free', 'normal-true', 'clauses'


def refused(name, answer, entries, given, n, call, head):
    """But with 30, rule 3, the normal form and the clause list leave 0 past the count, and lent arrays are all 0."""
    left, fill = given, 7
    if answer[0] != 30:
        fill = 0
        if call in (3, 4) or call == 0 and head['place'] == 3:
            left = [array[:n] + [0] * (len(array) - n) for array in given]
    names = {2: ['marks'], 4: ['literals', 'ends']}.get(call, [])
    lent = {name: [fill] * head[size] for name, size in zip(names, 'xy')}
    return on_cells(name, answer, call, given, left, n, lent, table=entries, **head)


def on_every_call():
    for kind, (answer, entries) in REFUSED.items():
        for name, head in HEADS.items():
            yield refused('table-%s-%s' % (kind, name), answer, entries, longer(VARIABLE, JUNK), 4, *head)
    yield refused('table-of-5-bool-alone', LENGTH, BUILT_IN[:5], packed([1]), 1, *HEADS['sort'])
    yield refused('table-not-bool-and-a-cell', (41, 2, 0), table('Not=1'), longer(packed([1]), [BIG]), 1, *HEADS['normal-true'])


def after_30():
    more = longer(VARIABLE, JUNK)
    for kind in FEW:
        entries = REFUSED[kind][1]
        for what, given, n in (('more-tags', (more[0], VARIABLE[1]), 4), ('more-values', (VARIABLE[0], more[1]), 4),
                               ('n-past-arrays', more, 9), ('unequal-with-n-0', (more[0], VARIABLE[1]), 0)):
            for name in SOME:
                yield refused('table-%s-30-%s-%s' % (kind, what, name), (30, 0, 0), entries, given, n, *HEADS[name])
        for what, name, size in (('marks', 'free', {'x': 3}), ('no-marks', 'free', {'x': 0}), ('literals', 'clauses', {'x': 8191}),
                                 ('ends', 'clauses', {'y': 2047}), ('neither', 'clauses', {'x': 0, 'y': 0})):
            call, head = HEADS[name]
            yield refused('table-%s-30-%s' % (kind, what), (30, 0, 0), entries, more, 4, call, {**head, **size})
    for name in ('sort', 'rule3'):
        yield refused('table-not-bool-30-n-8193-' + name, (30, 0, 0), table('Not=1'), longer(VARIABLE, [0] * 8189), 8193, *HEADS[name])


# what comes after the table: headers and a count; and heads of calls on a pool that passes
BAD_POOLS = [('14', [[1], [14]], 2), ('14-n-0', [[1], [21, 0, 1]], 0), ('15', [[1], [1]], 2), ('16', [[1], [2], [36, 1]], 4)]
BAD_HEADS = [
    ('17-sort', 'sort', {'place': 0}), ('17-n', 'free', {'place': 4}), ('17-largest', 'normal-true', {'place': BIG}),
    ('17-cell', 'clauses', {'place': 2}), ('17', 'rule2', {'conclusion': [0]}), ('17', 'rule3', {'conclusion': [4]}),
    ('1-of-0', 'rule2', {'conclusion': []}), ('1-of-2', 'rule3', {'conclusion': [1, 1]}), ('18', 'rule2', {'place': 0}),
    ('18', 'rule3', {'place': 259}), ('18-and-1', 'rule7', {'conclusion': []}), ('2', 'rule4', {}),
]


def before_others():
    for kind in FEW:
        answer, entries = REFUSED[kind]
        for what, headers, n in BAD_POOLS:
            for name in SOME:
                given = longer(packed(*headers), JUNK)
                yield refused('table-%s-before-%s-%s' % (kind, what, name), answer, entries, given, n, *HEADS[name])
        for what, name, change in BAD_HEADS:
            given, (call, head) = longer(VARIABLE, JUNK), HEADS[name]
            yield refused('table-%s-before-%s-%s' % (kind, what, name), answer, entries, given, 4, call, {**head, **change})
        for what, text, name in (('31', '(= p q)', 'normal-true'), ('31', '(= p q)', 'clauses'), ('13', '(and (or))', 'clauses')):
            pool, (call, head) = Formulas(text), HEADS[name]
            yield refused('table-%s-before-%s-%s' % (kind, what, name), answer, entries, (pool.tags, pool.values), len(pool.tags), call,
                          {**head, 'place': pool.root})


COLLECTIONS = {'tables': [lengths, single_entries, several_entries, load_files, blocks, longest_files, on_every_call, after_30,
                          before_others, *cases_other_sorts.GROUPS]}
