"""The answer to a step in words, with the term or name that it carries written out.

    StepText(pool, rule, t)           `pool` is a Checked one (reference_rules.py); its headers are well formed
    StepText(pool, rule, t, style)    with other names, or without places (term_text.py)
        .conclusion()                 lines
        .answer(code, first, second)  lines
    pool_answer(tags, values, code, place)      the words for 14, 15 and 16
    file_answer(file, code)                     the words for a file that is refused whole
"""
import struct

from random_inputs.limit_steps import new_cells
from references import reference
from references.reference_clauses import MANY, OR, Growing, clause_answer, normal_form, taken_out, totals
from references.reference_rules import RULES, Refused, without_adjacent
from texts.term_text import BINDER, MOST, Style, TermText

MEANING = {
    0: 'accepted', 1: 'conclusion not one term', 2: 'wrong form', 3: 'no quantifier', 4: 'other quantifier', 5: 'terms differ',
    6: 'binding lists differ', 7: 'join', 8: 'new variable', 9: 'missing variable', 10: 'clause absent', 11: 'operand counts differ',
    12: 'variable still free', 13: 'an empty or is reached', 14: 'pool ill-formed', 15: 'repeated description', 16: 'wrong sort',
    17: "not a term's place", 18: 'unknown rule', 30: 'too large', 31: 'no room for the new terms', 32: 'too many clauses or literals'}
FORMS = {  # Q is forall or exists; L, M and N are binding lists
    1: '(= (Q L (Q M phi)) (Q N phi))', 2: '(= (Q L phi) psi)', 3: '(or (not (forall L phi)) (forall M clause))',
    4: '(= (forall L (and phi ..)) (and (forall L phi) ..)) or (= (exists L (or phi ..)) (or (exists L phi) ..))',
    5: '(= (forall L (or phi ..)) (or psi ..)) or (= (exists L (and phi ..)) (and psi ..))',
    6: '(= (forall L (ite phi psi chi)) (ite phi (forall L psi) (forall L chi)))'}
NEW = {2: 'not on the left', 3: 'neither on the left nor taken out',
       5: 'not by the outer quantifier, or an operand before has used it up'}
SHOWN = 4  # clauses


class StepText:
    def __init__(self, pool, rule, t, style=Style()):
        self.pool, self.rule, self.t, self.style = pool, rule, t, style
        self.text = TermText(pool, t, style) if self.is_term(t) else None

    def is_term(self, p):
        return self.pool.tag.get(p, 0) >= 16

    def conclusion(self):
        return self.text.lines() if self.text else []

    def answer(self, code, first, second):
        head = '%d %s' % (code, MEANING.get(code, 'no code of a step'))
        if code == 0:
            return [head]
        try:
            words, *more = WORDS[code](self, first, second)
        except (LookupError, ValueError, Refused):  # an answer to another step, say
            words, more = 'with %d and %d, which do not fit the step' % (first, second), []
        return [head + ': ' + words, *more]

    # ---- parts
    def term(self, p):
        if not self.is_term(p):
            raise ValueError(p)
        return (self.text if self.text and p in self.text.pieces else TermText(self.pool, p, self.style)).short(p)

    def at(self, p):
        """A term by its place, if there are places."""
        return '@%d' % p if self.style.places else self.term(p)

    def sort(self, p):
        return TermText(self.pool, p, self.style).lines()[0]

    def named(self, k):
        """A name, and its sorts if it stands under several."""
        if self.text is None:
            raise ValueError(self.t)
        sorts = self.text.sorts_of.get(k, {})
        return self.style.names.name(k) + ' (under the sorts %s)' % ' and '.join(map(self.sort, sorts)) * (len(sorts) > 1)

    def two_lists(self, before, between, first, second):
        """A sentence with two lists, and where they part."""
        texts = []
        for pairs in (first, second):
            shown = ['(%s %s)' % (self.style.names.name(k), self.sort(sort)) for k, sort in pairs[:MOST]]
            texts.append('(%s)' % ' '.join(shown + ['.. %d more' % (len(pairs) - MOST)] * (len(pairs) > MOST)))
        alike = next((i for i, (a, b) in enumerate(zip(first, second)) if a != b), min(len(first), len(second)))
        return before + texts[0] + between + texts[1] + '; they part at pair %d' % (alike + 1)

    def left_body(self):
        """Of rule 3."""
        negated = self.pool.operands(self.t)[0]
        return self.pool.quantifier(self.pool.operands(negated)[0]).body

    # ---- the codes
    def wrong_form(self, p, _):
        if p == self.t:
            yield 'the conclusion is not of the form %s' % FORMS[self.rule]
        else:
            outer = BINDER[self.pool.tag[self.pool.operands(self.t)[0]]]
            yield 'the operand %s is no %s' % (self.term(p), outer)

    def no_quantifier(self, p, _):
        yield 'forall or exists is wanted, and there is %s' % self.term(p)

    def other_quantifier(self, first, second):
        yield ('%s is wanted, and there is %s' if self.rule == 3 else '%s against %s') % (BINDER[first], BINDER[second])

    def terms_differ(self, first, second):
        yield '%s and %s' % (self.term(first), self.term(second))

    def lists_differ(self, first, second):
        lists = [self.pool.quantifier(p).pairs for p in (first, second)]
        yield self.two_lists(self.at(first) + ' has ', ', and %s has ' % self.at(second), *lists)

    def join(self, left, right):
        outer = self.pool.quantifier(left)
        joined = without_adjacent(outer.pairs + self.pool.quantifier(outer.body).pairs)
        yield self.two_lists('the lists of %s join to ' % self.at(left), ', and %s has ' % self.at(right), joined,
                             self.pool.quantifier(right).pairs)

    def new_variable(self, k, _):
        where = 'by an operand' if self.rule == 5 else 'on the right'
        yield '%s is bound %s but %s' % (self.named(k), where, NEW[self.rule])

    def missing_variable(self, k, _):
        whose = 'the left list or taken out, and free in the clause' if self.rule == 3 else 'the left list, and free in the body'
        yield '%s is of %s, but not bound on the right' % (self.named(k), whose)

    def clause_absent(self, p, _):
        yield '%s is none of the clauses of the left body %s' % (self.term(p), self.at(self.left_body()))
        pool = Growing(*self.pool.arrays)
        answer, found = clause_answer(pool, self.left_body(), self.pool.room)
        yield 'it has %d clauses' % len(found) if answer[0] == 0 else 'its clauses are refused with %d' % answer[0]
        for clause in found[:SHOWN]:
            text = TermText(pool, clause[0] if len(clause) == 1 else pool.add(OR, clause), self.style)
            yield 'a clause: ' + text.lines()[0]

    def counts_differ(self, wanted, found):
        yield '%d wanted, %d found' % (wanted, found)

    def still_free(self, k, p):
        yield '%s in %s' % (self.named(k), self.term(p))

    def empty_or(self, *_):
        yield 'in the normal form of the left body %s, so that a clause would be empty' % self.at(self.left_body())

    def no_term(self, p, _):
        n = self.pool.arrays[2]
        what = 'past the %d cells' % n if p >= n else 'a sort' if p in self.pool.tag else 'a cell of a header before it'
        yield '%d is %s' % (p, what)

    def unknown_rule(self, code, _):
        yield '%d; rules are %s' % (code, ', '.join('%d %s' % (k, rule.__name__) for k, rule in RULES.items()))

    def no_room(self, *_):
        tags, values, n = self.pool.arrays
        yield '%d cells are new, and %d of %d are left' % (
            new_cells(tags[:n], values[:n], self.t), reference.LIMIT - n, reference.LIMIT)

    def too_many(self, *_):
        pool = Growing(*self.pool.arrays)
        form = taken_out(pool, normal_form(pool, self.left_body(), True))
        count, length = ('over 2^40' if k >= MANY else str(k) for k in totals(pool, form)[form])
        yield 'the left body %s has %s clauses and %s literals' % (self.at(self.left_body()), count, length)

    def not_one(self, count, _):
        yield 'it has %d' % count


WORDS = {1: StepText.not_one, 2: StepText.wrong_form, 3: StepText.no_quantifier, 4: StepText.other_quantifier,
         5: StepText.terms_differ, 6: StepText.lists_differ, 7: StepText.join, 8: StepText.new_variable, 9: StepText.missing_variable,
         10: StepText.clause_absent, 11: StepText.counts_differ, 12: StepText.still_free, 13: StepText.empty_or,
         17: StepText.no_term, 18: StepText.unknown_rule, 31: StepText.no_room, 32: StepText.too_many}


# ---- pools that are refused
def pool_answer(tags, values, code, place):
    try:
        words = {14: bad_header, 15: repeated, 16: wrong_sort}[code](tags, values, place)
    except LookupError:
        words = 'with %d, which does not fit the pool' % place
    return '%d %s: %s' % (code, MEANING.get(code, 'no code of a pool'), words)


def bad_header(tags, values, p):
    """What is first found wrong with a header, by open points 1 to 4."""
    n = len(tags)
    if n == 0:
        return 'there are no cells'
    tag, count = tags[p], values[p]
    head = 'the header @%d, tag %d with %d cells' % (p, tag, count)
    if p == 0 and tag != 1:
        return head + ', is not Bool'
    if tag not in reference.LAYOUT:
        return head + ', has a tag of no sort or term'
    if count > n - 1 - p:
        return head + ', has cells past the %d of the pool' % n
    if any(tags[p + 1:p + 1 + count]):
        return head + ', has a cell whose tag is not 0'
    kinds = reference.kinds_of(tag, count)
    if kinds is None:
        return head + ', cannot have so many'
    seen = {place: reference.kind(other) for place, other, _ in reference.headers(tags, values, p)}
    for i, (kind, cell) in enumerate(zip(kinds, values[p + 1:])):
        if kind != '#' and seen.get(cell) != kind:
            return head + ': cell %d holds %d, not the place of an earlier %s' % (
                i + 1, cell, {'s': 'sort', 't': 'term'}[kind])
    return head + ', is well formed'


def repeated(tags, values, p):
    pool = Growing(tags, values, len(tags))
    first = next(q for q in pool.tag if (pool.tag[q], pool.cells[q]) == (pool.tag[p], pool.cells[p]))
    return '@%d describes what @%d does: %s' % (p, first, TermText(pool, p).lines()[0])


def wrong_sort(tags, values, p):
    pool = Growing(tags, values, len(tags))
    tag, cells = pool.tag[p], pool.cells[p]
    try:
        found = reference.place_of(pool.place, reference.Sorts(tags, values).computed(tag, cells[1:]))
        gives = 'a sort that the pool does not hold' if found is None else TermText(pool, found).lines()[0]
    except reference.NoAnswer:
        gives = 'no sort'
    return '%s states the sort %s, and its parts give %s' % (
        TermText(pool, p).short(p), TermText(pool, cells[0]).lines()[0], gives)


def file_answer(file, code):
    n, r = struct.unpack('<2I', file[:8]) if len(file) >= 8 else (0, 0)
    if code == 30:
        return '0 30 too large: N is %d and R is %d, over 8,192 cells or 256 steps' % (n, r)
    wanted = 'N %d and R %d want %d' % (n, r, 4 * (2 + 2 * n + 2 * r)) if len(file) >= 8 else 'a head alone has 8'
    return '0 14 wrong length: the file has %d bytes, and %s' % (len(file), wanted)
