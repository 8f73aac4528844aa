"""The steps of a proof that the rules are for, from their terms to a verdict each.

    case = taken(terms, step, holes)     a Case, or None for a step of another rule
    files = pack(terms.pool, cases)      the step files of all cases
    ask(program, file)                   what the program `steps` answers to a file; raises ProgramError
    answer(pool, cases, found, files, style)        the verdicts, from the answers to the files; style as in term_text.py

A case has its step, the chain of (rule code, conclusion) that shows it, the spot of each in the step files, and its verdict.
"""
import subprocess
import sys
from collections import namedtuple
from functools import lru_cache

from alethe.shapes import CODES, INSTANCE, RULE, links, rule_of_shape
from alethe.sorts import TermError
from alethe.step_files import alone, packed, reached, size
from read_steps import numbers
from references.reference import LIMIT
from references.reference_clauses import normal_form, taken_variables
from references.reference_rules import Checked, clausification
from texts.answer_text import MEANING, StepText

ACCEPTED, REFUSED, UNCHECKED, UNWRITTEN = 'accepted', 'refused', 'not checked', 'not written'
UNNAMED, HOLE = '?', 'hole'
OF_A_STEP = set(range(2, 14)) | {31, 32}  # the refusals that a well-made step file can get
Verdict = namedtuple('Verdict', 'kind words', defaults=('',))


class ProgramError(Exception):
    """`steps` could not be run, or wrote something else than answers to the file."""


class Case:
    def __init__(self, step):
        self.step, self.chain, self.spots, self.verdict, self.arguments = step, [], [], None, []

    def by_shape(self):
        return self.step.rule not in CODES

    def text(self):
        kind, words = self.verdict
        return kind + (' ' if kind in (ACCEPTED, REFUSED) else ': ') * bool(words) + words


# ---- from a step to its chain
def taken(terms, step, holes=False):
    if step.rule not in CODES and step.rule not in (INSTANCE, UNNAMED) and not (holes and step.rule == HOLE):
        return None
    case = Case(step)
    try:
        literals = terms.clause(step.clause, step.scope)
        case.arguments = [(name, terms.read(part, step.scope)) for name, part in step.arguments if step.rule == INSTANCE]
    except TermError as error:
        case.verdict = Verdict(UNWRITTEN, str(error))
        return case
    if step.rule == INSTANCE:
        case.verdict = Verdict(UNCHECKED, 'rule 7 is not among the rules of steps yet')
    elif step.rule in CODES and len(literals) != 1:
        case.verdict = Verdict(REFUSED, '1 %s: it has %d' % (MEANING[1], len(literals)))
    else:
        find_chain(terms.pool, case, literals)
    return case


def find_chain(pool, case, literals):
    rule = CODES.get(case.step.rule) or len(literals) == 1 and rule_of_shape(pool, literals[0])
    if rule:
        case.chain = [(rule, literals[0])]
    else:
        case.verdict = Verdict(UNCHECKED, 'its conclusion has the shape of none of the rules')


# ---- step files
def pack(pool, cases):
    """The files of all cases. The first link of a join holds the left side and the last one the right: both are within the limit
    only where the join is within twice the limit."""
    wanted = []
    for case in cases:
        if case.chain and size(pool, reached(pool, case.chain[0][1])) <= 2 * LIMIT:
            case.chain = links(pool, *case.chain[0])
        wanted += [(case, rule, place) for rule, place in case.chain]
    files, spots = packed(pool, [(rule, place) for _, rule, place in wanted])
    for (case, _, _), spot in zip(wanted, spots):
        case.spots.append(spot)
        if spot is None:
            case.verdict = Verdict(UNWRITTEN, 'its terms%s take over %d cells' % (' and links' * (len(case.chain) > 1), LIMIT))
    return files


def ask(program, file):
    command = [sys.executable, program] if program.endswith('.py') else [program]
    try:
        done = subprocess.run(command, input=file.bytes(), capture_output=True)
    except (OSError, ValueError) as error:
        raise ProgramError('%s cannot be run: %s' % (program, error)) from None
    lines = done.stdout.decode('ascii', 'replace').splitlines()
    found = [numbers(line) for line in lines]
    if len(found) != len(file.steps) or None in found or not {code for code, _, _ in found} <= OF_A_STEP | {0}:
        what = lines[0][:80] if lines else done.stderr.decode('utf-8', 'replace')[:80] or 'nothing'
        raise ProgramError('%s does not answer as steps does: it wrote %s' % (program, what))
    return found


# ---- verdicts
def answer(pool, cases, found, files, style):
    """The verdicts of all cases that have none yet; `found` has the answers to each file."""
    for case in cases:
        bad = [(link, spot) for link, spot in enumerate(case.spots, 1) if spot and found[spot[0]][spot[1] - 1][0]]
        if case.verdict is None and bad:
            link, (index, number) = bad[0]
            case.verdict = refusal(case, link, refused_words(files[index], number, found[index][number - 1], style))
        elif case.verdict is None:
            case.verdict = acceptance(case, pool, style)


def acceptance(case, pool, style):
    """Rule 3 may accept what does not follow, if it takes a variable out that is free on the left (docs/PROMISES.md)."""
    rule, place = case.chain[0]
    captured = captured_name(pool, place) if rule == CODES['qnt_cnf'] else None
    if captured:
        return Verdict(UNCHECKED, 'accepted, but %s is free in the left side and taken out of a forall in it, which the guarantee '
                       'leaves out' % style.names.name(captured))
    words = ['as ' + RULE[case.chain[0][0]]] * case.by_shape() + ['by %d links' % len(case.chain)] * (len(case.chain) > 1)
    return Verdict(ACCEPTED, ' '.join(words))


def captured_name(pool, place):
    file = alone(pool, reached(pool, place), CODES['qnt_cnf'], place)
    own = Checked(file.tags, file.values, len(file.tags))
    left, _ = clausification(own, file.places[place])
    taken_out = taken_variables(own, normal_form(own, left.body, True))
    return next((name for name, sort in taken_out if own.is_free((name, sort), left.place)), None)


def refusal(case, link, words):
    notes = ['link %d of %d' % (link, len(case.chain))] * (len(case.chain) > 1)
    if case.step.rule == HOLE:
        return Verdict(UNCHECKED, 'a hole, and %s refuses it with %s' % (RULE[case.chain[0][0]], words))
    notes += ['as ' + RULE[case.chain[0][0]]] * case.by_shape()
    return Verdict(REFUSED, words + ' (%s)' % ', '.join(notes) * bool(notes))


@lru_cache(maxsize=1)  # refusals come file by file
def checked_pool(file):
    room = [0] * (LIMIT - len(file.tags))
    return Checked(file.tags + room, file.values + room, len(file.tags))


def refused_words(file, number, found, style):
    return StepText(checked_pool(file), *file.steps[number - 1], style).answer(*found)[0]
