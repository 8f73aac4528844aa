"""Terms and sorts of a pool as SMT-LIB text that stays short however terms are shared.

    text = TermText(pool, p)      `pool` gives tag and cells by place (reference_clauses.Growing)
    TermText(pool, p, style)      with other names (name_text.py), or without places
    text.lines()                  the term at p, and a line `where @12 = ..` for each term that it cuts, up to WHERE
    text.short(p)                 one line: the place and the term at it, of those that p holds

Names are v and their number, v1, and the names of sorts and constants likewise, unless a table gives others; a variable whose name
stands under several sorts is written (as v1 Int). A term that stands twice and is long, or that is too deep or too long where it
stands, is cut to its place, @12, or to `..` without places.
"""
from collections import Counter, defaultdict, namedtuple

from references.reference import OPERATORS
from texts.name_text import NUMBERED

SYMBOLS = """true false not => and or xor = distinct ite + - * div / mod abs < > <= >= to_real to_int is_int int.pow2 int.ispow2
int.log2 real.pi sqrt exp sin cos tan csc sec cot arcsin arccos arctan arccsc arcsec arccot select store str.++ str.len str.<
str.<= str.at str.substr str.prefixof str.suffixof str.contains str.indexof str.indexof_re str.replace str.replace_all
str.replace_re str.replace_re_all str.is_digit str.to_code str.from_code str.to_int str.from_int str.to_re str.in_re re.none
re.all re.allchar re.++ re.union re.inter re.* re.comp re.diff re.+ re.opt re.range re.from_automaton bvnot bvneg bvand bvor
bvadd bvmul bvudiv bvurem bvshl bvlshr bvult concat bvnand bvnor bvxor bvxnor bvcomp bvsub bvsdiv bvsrem bvsmod bvashr bvule
bvugt bvuge bvslt bvsle bvsgt bvsge ubv_to_int sbv_to_int @pbbterm @bbterm @bv @bvsize bvite rare-list cl @d set.union
set.inter set.minus set.member set.subset set.singleton set.is_empty set.is_singleton set.card set.insert set.complement
tuple tuple.unit rel.transpose rel.tclosure rel.join rel.product""".split()
SYMBOL = dict(zip(range(32, 32 + len(OPERATORS)), SYMBOLS, strict=True))
BARE = {'true', 'false', 'real.pi', 're.none', 're.all', 're.allchar', 'tuple.unit'}  # constants: no brackets without operands
BINDER = {23: 'forall', 24: 'exists', 25: 'choice', 26: 'lambda', 27: 'let'}
CONSTANT = {17: 'real', 18: 'string', 19: 'reglan'}
SORT = {1: 'Bool', 2: 'Int', 3: 'Real', 4: 'String', 5: 'RegLan', 6: 'ParamBitVec'}
SORT_HEAD = {10: '->', 11: 'Array', 12: 'Set', 13: 'Tuple'}

LONG = 24  # characters of a text that is never cut
WIDE = 360  # characters of a line, about
NARROW = 100  # of a term in a sentence
DEEP = 12  # levels
MOST = 10  # operands or pairs
WHERE = 8  # lines for cut terms
CAP = 1 << 40  # lengths stop here
Style = namedtuple('Style', 'names places', defaults=(NUMBERED, True))


def spaced(groups):
    """Pieces of each group with a space before it; of many groups the first ones."""
    if len(groups) > MOST:
        groups = groups[:MOST - 1] + [['.. %d more' % (len(groups) - MOST + 1)]]
    return [piece for group in groups for piece in (' ', *group)]


def shares(room, needs):
    """How much of the room each gets: what it needs, or as much as any other that needs more."""
    found, left = [0] * len(needs), len(needs)
    for i in sorted(range(len(needs)), key=needs.__getitem__):
        found[i] = max(0, min(needs[i], room // left))
        room -= found[i]
        left -= 1
    return found


class TermText:
    """A term's pieces are strings and the places of what stands between them."""

    def __init__(self, pool, root, style=Style()):
        self.pool, self.root, self.labels = pool, root, {}
        self.names, self.places = style
        self.sorts_of = defaultdict(dict)  # by name the sorts under which it stands; dicts, for their order
        self.reach()
        self.reach()  # with the sorts of names that stand under several
        self.measure()

    def reach(self):
        self.pieces, stack = {}, [self.root]
        while stack:
            p = stack.pop()
            if p not in self.pieces:
                self.pieces[p] = self.pieces_of(p)
                stack += self.parts(p)

    def parts(self, p):
        return [piece for piece in self.pieces[p] if isinstance(piece, int)]

    def measure(self):
        """The length of each text in full, and as it is with shared ones cut. What a term holds stands before it."""
        uses = Counter(part for p in self.pieces for part in self.parts(p))
        self.full, self.shown = {}, {}
        for p in sorted(self.pieces):
            fixed = sum(len(piece) for piece in self.pieces[p] if isinstance(piece, str))
            self.full[p] = min(CAP, fixed + sum(self.full[part] for part in self.parts(p)))
            self.shown[p] = min(CAP, fixed + sum(self.shown[part] for part in self.parts(p)))
            if uses[p] > 1 and self.full[p] > LONG:
                self.shown[p] = 0

    # ---- pieces
    def pieces_of(self, p):
        tag, cells = self.pool.tag[p], self.pool.cells[p]
        if tag < 16:
            return self.sort_pieces(tag, cells)
        if tag in BINDER:
            return self.binder_pieces(tag, cells)
        if tag == 20:
            return [self.names.bits(cells[2], cells[1])]
        if tag == 21:
            self.sorts_of[cells[1]][cells[0]] = True
            text = self.names.name(cells[1])
            return [text] if len(self.sorts_of[cells[1]]) == 1 else ['(as %s ' % text, cells[0], ')']
        if tag < 21:
            return [self.names.constant(CONSTANT[tag], cells[1]) if tag in CONSTANT else str(cells[1])]
        if tag == 22:
            return ['(', *spaced([[c] for c in cells[1:]])[1:], ')']
        symbol = SYMBOL[tag]
        return [symbol] if symbol in BARE and len(cells) == 1 else ['(' + symbol, *spaced([[c] for c in cells[1:]]), ')']

    def sort_pieces(self, tag, cells):
        if tag in SORT:
            return [SORT[tag]]
        if tag == 7:
            return ['(_ BitVec %d)' % cells[0]]
        if tag == 8:
            return ['?%s' % (cells[0] or '')]
        if tag == 9:
            atom = self.names.sort(cells[0])
            return ['(' + atom, *spaced([[c] for c in cells[1:]]), ')'] if len(cells) > 1 else [atom]
        return ['(' + SORT_HEAD[tag], *spaced([[c] for c in cells]), ')']

    def binder_pieces(self, tag, cells):
        """A let's pairs are of a name and a value, the others' of a name and a sort."""
        for k, other in zip(cells[2::2], cells[3::2]):
            self.sorts_of[k][self.pool.cells[other][0] if tag == 27 else other] = True
        pairs = [['(%s ' % self.names.name(k), other, ')'] for k, other in zip(cells[2::2], cells[3::2])]
        return ['(' + BINDER[tag] + ' (', *spaced(pairs)[1:], ') ', cells[1], ')']

    # ---- text
    def write(self, pieces, room, depth):
        fixed = sum(len(piece) for piece in pieces if isinstance(piece, str))
        parts = [piece for piece in pieces if isinstance(piece, int)]
        room = iter(shares(room - fixed, [self.shown[part] for part in parts]))
        return ''.join(piece if isinstance(piece, str) else self.part(piece, next(room), depth) for piece in pieces)

    def part(self, p, room, depth):
        if self.full[p] > LONG and (self.shown[p] == 0 or depth == 0 or room < min(LONG, self.shown[p])):
            self.labels[p] = True
            return '@%d' % p if self.places else '..'
        return self.write(self.pieces[p], max(room, LONG), depth - 1)

    def lines(self):
        found, done = [self.write(self.pieces[self.root], WIDE, DEEP)], {self.root}
        while len(found) <= WHERE and self.labels.keys() - done:
            p = next(p for p in self.labels if p not in done)
            done.add(p)
            found.append('where @%d = %s' % (p, self.write(self.pieces[p], WIDE, DEEP)))
        left = ['@%d' % p for p in self.labels if p not in done]
        return found + ['not written out: ' + ' '.join(left[:WHERE] + ['..'] * (len(left) > WHERE))] * (left != [])

    def short(self, p):
        return '@%d ' % p * self.places + self.write(self.pieces[p], NARROW, DEEP)
