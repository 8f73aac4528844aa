"""Random tables of sort rules.

    loadable(rng)                one that loads: the built-in table with none, some or all entries changed
    changed(rng, table, tags)    a table that loads with the entry of an operator among these tags changed, if it may be
    refused(rng)                 one that is refused, for one reason or several
"""
from references.reference import BUILT_IN, MUST_BE_BOOL, SPECIAL

NO_RULES = (8, 9, 255, 256, 263, 0xffffffff)
MOST = 300  # entries of block 100


def change(rng, entries, i):
    if i not in MUST_BE_BOOL:
        entries[i] = rng.randint(0, SPECIAL if BUILT_IN[i] == SPECIAL else SPECIAL - 1)


def loadable(rng):
    entries = list(BUILT_IN)
    for i in rng.sample(range(len(entries)), rng.choice((0, 1, 3, 20, 70, len(entries)))):
        change(rng, entries, i)
    return entries


def changed(rng, table, tags):
    entries, found = list(table), [tag - 32 for tag in tags if 32 <= tag < 32 + len(table)]
    if found:
        change(rng, entries, rng.choice(found))
    return entries


def no_rule(rng, entries):
    """A number that is no rule's, or 7 where it is not allowed."""
    if rng.random() < 0.5:
        entries[rng.randrange(len(entries))] = rng.choice(NO_RULES)
    else:
        entries[rng.choice([i for i, rule in enumerate(BUILT_IN) if rule != SPECIAL])] = SPECIAL


def not_bool(rng, entries):
    entries[rng.choice(MUST_BE_BOOL)] = rng.randint(1, SPECIAL - 1)


def other_length(rng, entries):
    length = rng.choice((0, 1, 5, len(entries) - 1, len(entries) + 1, 2 * len(entries), MOST))
    entries[:] = (entries * 3)[:length]


def refused(rng):
    entries = loadable(rng)
    for spoil in rng.choice(((no_rule,), (not_bool,), (not_bool, not_bool), (no_rule, no_rule), (not_bool, no_rule))):
        spoil(rng, entries)
    if rng.random() < 0.3:
        other_length(rng, entries)
    return entries
