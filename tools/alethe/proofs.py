"""A problem and its Alethe proof, command by command.

    problem(terms, text)                        takes the declarations of a problem in; raises Unreadable
    for step in steps(terms, text): ..          the steps in order, each with the scope of the anchors around it

    step.name, step.line, step.rule, step.clause, step.scope
    step.arguments                              (name, expression) each; name is None in the form without (:= ..)
"""
from collections import namedtuple

from alethe.expressions import Form, Unreadable, is_symbol, named_in, read, whole, written
from alethe.scopes import EMPTY, Broken, Variable
from alethe.sorts import TermError

Step = namedtuple('Step', 'name line rule clause arguments scope')
ANSWERS = {'sat', 'unknown', 'timeout', 'unsupported'}


def commands(forms, what):
    """Each form must begin with a symbol."""
    for form in forms:
        if isinstance(form, str) or not form or not is_symbol(form[0]):
            raise Unreadable(form.line, '%s is expected, and there is %s' % (what, written(form)))
        if form[0] == 'error':
            raise Unreadable(form.line, '%s is expected, and the solver wrote %s' % (what, written(form)))
        yield form


def problem(terms, text):
    for form in commands(read(text), 'an SMT-LIB command'):
        note_names(terms, form, EMPTY)
        terms.declarations.command(form)


def note_names(terms, form, scope):
    for named, around in named_in(form):
        terms.name(named, around, scope)


def proof_forms(text):
    """The commands may stand in one pair of brackets, after the solver's answer."""
    forms = read(text)
    while forms and isinstance(forms[0], str):
        if forms[0] in ANSWERS:
            raise Unreadable(forms[0].line, 'a proof is expected, and the solver answered %s' % forms[0])
        if forms[0] != 'unsat':
            break
        forms = forms[1:]
    if len(forms) == 1 and isinstance(forms[0], Form) and forms[0] and isinstance(forms[0][0], Form):
        forms = forms[0]
    if not forms:
        raise Unreadable(1, 'a proof is expected, and there is none')
    return forms


def steps(terms, text):
    anchors = [(None, EMPTY)]  # the step that ends each, and its scope
    forms = proof_forms(text)
    for form in commands(forms, 'assume, step or anchor'):
        if form[0] == 'step':
            step = read_step(form, anchors[-1][1])
            if step.name == anchors[-1][0]:
                anchors.pop()
                step = step._replace(scope=anchors[-1][1])
            note_names(terms, form, step.scope)
            yield step
        elif form[0] == 'anchor':
            anchors.append(read_anchor(terms, form, anchors[-1][1]))
        elif form[0] == 'assume':
            note_names(terms, form, anchors[-1][1])
        elif not terms.declarations.command(form):
            raise Unreadable(form.line, 'assume, step or anchor is expected, and there is %s' % written(form))


def attributes(form, first):
    """The keywords of a command from a position on, with what follows each."""
    found, key = {}, None
    for part in form[first:]:
        if isinstance(part, str) and part[0] == ':':
            key = part
        elif key is None or key in found:
            raise Unreadable(form.line, 'a keyword is expected, and there is %s' % written(part))
        else:
            found[key] = part
    return found


def read_step(form, scope):
    if len(form) < 3 or not isinstance(form[1], str):
        raise Unreadable(form.line, '(step NAME (cl ..) :rule NAME ..) is expected, and there is %s' % written(form))
    found = attributes(form, 3)
    rule, arguments = found.get(':rule'), found.get(':args', ())
    if not isinstance(rule, str):
        raise Unreadable(form.line, ':rule NAME is expected in %s' % written(form))
    if isinstance(arguments, str):
        raise Unreadable(form.line, ':args (..) is expected in %s' % written(form))
    return Step(form[1], form.line, rule, form[2], [argument(part) for part in arguments], scope)


def argument(part):
    """(:= x t), (:= (x S) t) or t alone."""
    if isinstance(part, Form) and len(part) == 3 and part[0] == ':=':
        name = part[1][0] if isinstance(part[1], Form) and part[1] else part[1]
        return whole(name), part[2]
    return None, part


def read_anchor(terms, form, scope):
    found = attributes(form, 1)
    end, arguments = found.get(':step'), found.get(':args', Form())
    if not isinstance(end, str) or isinstance(arguments, str):
        raise Unreadable(form.line, '(anchor :step NAME :args (..)) is expected, and there is %s' % written(form))
    for part in arguments:
        name, meaning = anchor_variable(terms, part, scope, form.line)
        scope = scope.with_variables({name: meaning})
    return end, scope


def anchor_variable(terms, part, scope, line):
    """(x S), (:= (x S) t) or (:= x t): in all of them x is a variable inside."""
    pair = part[1] if isinstance(part, Form) and len(part) == 3 and part[0] == ':=' else part
    try:
        if isinstance(pair, Form) and len(pair) == 2 and is_symbol(pair[0]):
            return pair[0], Variable(terms.declarations.sorts.read(pair[1]))
        if is_symbol(pair) and pair is not part:
            return pair, Variable(terms.pool.sort_of(terms.read(part[2], scope)))
    except TermError as error:
        return (pair if isinstance(pair, str) else pair[0]), Broken(str(error))
    raise Unreadable(line, '(NAME SORT) or (:= (NAME SORT) TERM) is expected, and there is %s' % written(part))
