#!/usr/bin/env python3
"""Writes the test files of the program `calls`: the collections crates/calls/data/*.calls, args, and stdout, what it must print.

What is expected comes from the reference, held against the answers that the cases state by hand. Files of calls that
are not BUILT (reference_program.py) are left out. Every collection has another one beside it, of the same calls with tags lent as
bytes.
"""
import pathlib

from call_collections import packed
from cases import (cases_checks, cases_clauses, cases_clausification, cases_examples, cases_files, cases_free, cases_layouts,
                   cases_long_lists, cases_miniscope, cases_normal, cases_rules, cases_sorts, cases_tables)
from pools.layouts import in_bytes, narrowed, narrowed_lines
from references.reference_program import BAD, blocks, is_tried, run

CASES = (cases_files, cases_checks, cases_sorts, cases_free, cases_normal, cases_clauses, cases_rules, cases_miniscope, cases_long_lists,
         cases_clausification, cases_examples, cases_layouts, cases_tables)
CRATE = pathlib.Path(__file__).resolve().parent.parent / 'crates' / 'calls'
MISSING = 'no-such-file.call'


def held(name, text, answer, more=None):
    """The text, if it begins with the answer and has these marks, or is the one written down."""
    first = 'bad file' if answer is None else ' '.join(map(str, (*answer, 0)[:4]))
    assert text.splitlines()[0] == first, (name, first, text[:80])
    if isinstance(more, str):
        assert text == more, (name, more, text)
    elif more is not None and text.splitlines()[-1].startswith('marks'):
        marks = text.splitlines()[-1].split()[1:]
        assert {i for i, mark in enumerate(marks) if mark == '1'} == more, (name, more)
    return text


def texts(groups):
    """The calls of these groups that are tried, by their names: the call file, and what is printed."""
    found = {}
    for group in groups:
        for name, answer, file, *more in group():
            text = held(name, run(file), answer, *more)
            assert name + '.call' not in found, name
            if is_tried(file):
                found[name + '.call'] = file, text
    return found


def byte_call(name, file, text):
    """The call with tags lent as bytes, which prints the same. Where a tag is over 255 that is a bad file (the collection layouts tries
    some), and the call has 255 for such tags."""
    small = file if text == BAD else narrowed(file)
    if small == file:
        made, given, expected = name + '-bytes.call', in_bytes(file), text
    else:
        assert run(in_bytes(file)) == BAD, name
        made, given, expected = name + '-narrowed.call', in_bytes(small), '\n'.join(narrowed_lines(text.splitlines())) + '\n'
    assert run(given) == expected, made
    return made, (given, expected)


def byte_texts(calls):
    """The same calls with tags lent as bytes, but for those that are."""
    found = {}
    for name, (file, text) in calls.items():
        if not blocks(file).in_bytes:
            made, call = byte_call(name.removesuffix('.call'), file, text)
            found[made] = call
    return found


def collections():
    """The names of the collections, and their calls."""
    in_words = {topic: texts(groups) for cases in CASES for topic, groups in cases.COLLECTIONS.items()}
    return {**in_words, **{topic + '-bytes': byte_texts(calls) for topic, calls in in_words.items()}}


def main():
    data = CRATE / 'data'
    data.mkdir(parents=True, exist_ok=True)
    for old in data.glob('*.calls'):
        old.unlink()
    names, printed = [], {}
    for topic, calls in collections().items():
        assert not calls.keys() & printed.keys(), topic
        names.append(topic + '.calls')
        (data / names[-1]).write_bytes(packed([(name, file) for name, (file, _) in calls.items()]))
        printed.update((name, text) for name, (_, text) in calls.items())
    print('%d collections of %d calls' % (len(names), len(printed)))
    names.append(MISSING)
    printed[MISSING] = BAD
    (CRATE / 'args').write_text(''.join(name + '\n' for name in names))
    (CRATE / 'stdout').write_text(''.join(name + ':\n' + text for name, text in printed.items()))


if __name__ == '__main__':
    main()
