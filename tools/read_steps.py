#!/usr/bin/env python3
"""A step file as text beside its answers, for reading why a step was refused.

    read_steps.py FILE [ANSWERS] [--step K] [--place P] [--names TABLE]

ANSWERS is what `steps` printed on the file, or on several after their names; without it the reference answers. For each step, or
for step K alone: its number and rule, the conclusion as an S-expression with the places of what it cuts (term_text.py), and the
answer in words (answer_text.py). With --place only the term or sort at a place, to look into one that was cut. TABLE has the names
of a proof, as check_proof.py --keep writes it beside the step files.
"""
import argparse
import pathlib
from itertools import zip_longest

from references import reference
from references.reference_rules import RULES, Checked
from references.reference_steps import BadFile, read, run
from texts.answer_text import StepText, file_answer, pool_answer
from texts.name_text import Table
from texts.term_text import Style, TermText


def answers_of(text, name):
    """The lines of this file, if the text is of several."""
    lines = text.splitlines()
    if name + ':' not in lines:
        return lines
    lines = lines[lines.index(name + ':') + 1:]
    return lines[:next((i for i, line in enumerate(lines) if line.endswith(':')), len(lines))]


def numbers(line):
    """The answer of a line, or None if it has none of three numbers."""
    words = line.split()
    return tuple(map(int, words[1:])) if len(words) == 4 and all(word.isdigit() for word in words) else None


def step_lines(pool, k, rule, t, line, style):
    yield 'step %d: rule %d %s, conclusion @%d' % (k, rule, RULES[rule].__name__ if rule in RULES else 'unknown', t)
    step = StepText(pool, rule, t, style)
    yield from ('    ' + text for text in step.conclusion())
    answer = numbers(line)
    first, *more = step.answer(*answer) if answer else [line]
    yield '  ' + first
    yield from ('      ' + text for text in more)


def refused_pool(tags, values, steps, lines):
    """The terms of a pool that is refused are not written out."""
    for k, ((rule, t), line) in enumerate(zip(steps, lines), 1):
        answer = numbers(line)
        yield 'step %d: rule %d, conclusion @%d' % (k, rule, t)
        yield '  ' + (pool_answer(tags, values, *answer[:2]) if answer else line)


def report(file, lines, only=None, style=Style()):
    """The text of a file with its answers, by lines; `only` is the number of a step."""
    try:
        tags, values, steps = read(file)
    except BadFile as bad:
        return [file_answer(file, *bad.args)]
    n, room = len(tags), [0] * (reference.LIMIT - len(tags))
    found = ['%d cells, %d steps' % (n, len(steps))]
    if len(lines) != len(steps):
        found.append('there are %d answers' % len(lines))
    if reference.check(tags, values, n)[0] != 0:
        return found + list(refused_pool(tags, values, steps, lines))
    pool = Checked(tags + room, values + room, n)
    for k, ((rule, t), line) in enumerate(zip_longest(steps, lines[:len(steps)], fillvalue='no answer'), 1):
        if only in (None, k):
            found += step_lines(pool, k, rule, t, line, style)
    return found


def place_lines(file, p, style=Style()):
    tags, values, _ = read(file)
    pool = Checked(tags, values, len(tags))
    return TermText(pool, p, style).lines() if p in pool.tag else ['%d is no place of a sort or term' % p]


def main():
    parser = argparse.ArgumentParser()
    parser.add_argument('file', type=pathlib.Path)
    parser.add_argument('answers', type=pathlib.Path, nargs='?')
    parser.add_argument('--step', type=int)
    parser.add_argument('--place', type=int)
    parser.add_argument('--names', type=pathlib.Path)
    options = parser.parse_args()
    file = options.file.read_bytes()
    style = Style(Table(options.names.read_text(encoding='utf-8'))) if options.names else Style()
    if options.place is not None:
        print('\n'.join(place_lines(file, options.place, style)))
        return
    text = options.answers.read_text() if options.answers else run(file)
    print('\n'.join(report(file, answers_of(text, options.file.name), options.step, style)))


if __name__ == '__main__':
    main()
