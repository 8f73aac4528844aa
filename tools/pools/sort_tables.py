"""The built-in table of sort rules, and others by what they change in it.

    table('Not=1 Add=0')     the built-in table with rule 1 for Not and 0 for Add

The numbers are those of crates/sort_table/specs/Table.antt. The reference has its own, from the arms of `compute_sort`, and make_calls.py holds
each to the other: what a load leaves in use is written down by these.
"""
from references.reference import OPERATORS

# ten operators to a word
BUILT_IN = [int(rule) for rule in ''.join(
    '0000000006 7771215000 0210101222 2222222222 2275310033 0001133330 1313404444 4444444447 7777777770 7777777777 '
    '7000000011 7771670055 5007001757 77577'.split())]
CONNECTIVES = 'Not', 'Implies', 'And', 'Or', 'Equals'  # whose entries must be 0


def table(changes):
    entries = list(BUILT_IN)
    for change in changes.split():
        name, rule = change.split('=')
        entries[OPERATORS.index(name)] = int(rule)
    return entries
