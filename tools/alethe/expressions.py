"""S-expressions of SMT-LIB 2.6 and Alethe text.

    forms = read(text)       the top-level forms; raises Unreadable
    whole(expression)        as text
    written(expression)      its beginning, on one line
    is_symbol(expression)    and no numeral, string, keyword or form

An expression is a str, the token of an atom, or a Form, a list with the line of its bracket. Atoms that stand where commands do have
a line too. A symbol has one spelling: |x| is x, and a quoted symbol that needs its bars keeps them. Nothing here calls itself, so
that nesting has no limit.
"""
import re

TOKEN = re.compile(r'(?P<space>\s+|;[^\n]*)|(?P<open>\()|(?P<close>\))|(?P<string>"(?:[^"]|"")*")|(?P<quoted>\|[^|]*\|)|'
                   r'(?P<atom>[^\s();"|]+)')
SIMPLE = re.compile(r'[A-Za-z~!@$%^&*_+=<>.?/-][0-9A-Za-z~!@$%^&*_+=<>.?/-]*')
RESERVED = {'!', '_', 'as', 'let', 'forall', 'exists', 'match', 'par'}
SCOPES = {'let', 'forall', 'exists', 'choice', 'lambda'}
LONGEST = 120  # characters of a written expression


class Unreadable(Exception):
    """A line of the text and what is wrong there."""


class Form(list):
    """`named`, of a command: each (! .. :named ..) in it, with the innermost of the SCOPES in whose body it stands, or None.
    `outer`, of a form that is one of the SCOPES: the next one out."""
    __slots__ = ('line', 'named', 'outer')


class Atom(str):
    """With a line, for an atom in the place of a command."""


def read(text):
    """Forms are put into what holds them when they open: in a let, the body is its third part as soon as it begins."""
    forms, stack, scopes, line, at = [], [], [], 1, 0
    while at < len(text):
        token = TOKEN.match(text, at)
        if token is None:
            raise Unreadable(line, '%s has no end' % ('a string' if text[at] == '"' else 'a quoted symbol'))
        kind, word, at = token.lastgroup, token.group(), token.end()
        if kind == 'open':
            form = Form()
            form.line = line
            (stack[-1] if stack else forms).append(form)
            stack.append(form)
        elif kind == 'close':
            if not stack:
                raise Unreadable(line, 'a ) without its (')
            closed = stack.pop()
            if scopes and scopes[-1] is closed:
                scopes.pop()
        elif kind != 'space':
            (stack[-1] if stack else forms).append(atom(kind, word, line, len(stack)))
            if word == ':named':
                note_name(stack, innermost(scopes))
            elif word in SCOPES and stack and len(stack[-1]) == 1:
                stack[-1].outer = innermost(scopes)
                scopes.append(stack[-1])
        line += word.count('\n') if kind not in ('open', 'close', 'atom') else 0
    if stack:
        raise Unreadable(line, 'the text ends where a ) is expected, for the ( of line %d' % stack[-1].line)
    return forms


def atom(kind, word, line, depth):
    word = simple(word) if kind == 'quoted' else word
    if depth < 2:
        word = Atom(word)
        word.line = line
    return word


def innermost(scopes):
    """The scope in whose body a text stands now: it may still be among the bindings of the last one."""
    return scopes[-1] if scopes and len(scopes[-1]) > 2 else scopes[-1].outer if scopes else None


def note_name(stack, scope):
    """The commands of a proof may stand in one pair of brackets."""
    if len(stack) > 1:
        command = stack[0] if isinstance(stack[0][0], str) else stack[1]
        if not hasattr(command, 'named'):
            command.named = []
        command.named.append((stack[-1], scope))


def is_symbol(expression):
    return isinstance(expression, str) and expression[0] not in '0123456789":#'


def simple(quoted):
    inner = quoted[1:-1]
    return inner if SIMPLE.fullmatch(inner) and inner not in RESERVED else quoted


def named_in(command):
    return getattr(command, 'named', ())


def pieces(expression):
    stack, after = [expression], '('
    while stack:
        part = stack.pop()
        if isinstance(part, Form):
            stack += [')', *reversed(part)]
            part = '('
        yield part if after == '(' or part == ')' else ' ' + part
        after = part


def whole(expression):
    return ''.join(pieces(expression))


def written(expression):
    """For messages: the beginning, if it is long."""
    found, length = [], 0
    for piece in pieces(expression):
        found.append(piece)
        length += len(piece)
        if length > LONGEST:
            return one_line(''.join(found)[:LONGEST]) + '..'
    return one_line(''.join(found))


def one_line(text):
    """Line ends, tabs and what else a terminal would not print are escaped."""
    if text.isprintable() and '\\' not in text:
        return text
    return ''.join(c if c.isprintable() and c != '\\' else c.encode('unicode_escape').decode() for c in text)
