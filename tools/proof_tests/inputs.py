"""What the tests of check_proof.py share: the proofs of data/real, the programs that answer, and runs on texts.

    PROGRAMS.steps, PROGRAMS.oracle     of the command line (test_check_proof.py); without an oracle None
    corpus()                            (problem, proof) each, as paths below REAL
    outcome_of(problem, proof)          check_proof.py on two paths: exit code, lines, trouble
    outcome_of_texts(problem, proof)    the same on two texts, in files P.smt2 and P.alethe
    read_cases(problem, proof)          the terms and the cases of two texts
    answers(file)                       the answers to a step file, (code, first, second) each
"""
import argparse
import os
import pathlib
import tempfile

from alethe import proofs
from alethe.checking import ask, taken
from alethe.terms import Terms
from check_proof import outcome
from references import reference_steps

TOOLS = pathlib.Path(__file__).resolve().parents[1]
REAL = TOOLS / 'data' / 'real'
REFERENCE = str(TOOLS / 'steps_by_reference.py')
PROGRAMS = argparse.Namespace(steps=REFERENCE, oracle=None)


def corpus():
    yield 'hand/hand.smt2', 'hand/hand.alethe'
    for proof in sorted(REAL.glob('proofs/*/*.alethe')):
        yield 'problems/%s.smt2' % proof.stem, proof.relative_to(REAL).as_posix()


def outcome_of(problem, proof, **options):
    """Paths are below REAL, or anywhere if they are absolute; REAL is left out of what is printed."""
    code, lines, trouble = outcome(argparse.Namespace(**{
        'problem': str(REAL / problem), 'proof': str(REAL / proof), 'steps': PROGRAMS.steps, 'keep': None, 'quiet': False,
        'holes': False, **options}))
    return code, [line.replace(str(REAL) + os.sep, '') for line in lines], trouble.replace(str(REAL) + os.sep, '')


def outcome_of_texts(problem, proof, **options):
    with tempfile.TemporaryDirectory() as folder:
        paths = [os.path.join(folder, name) for name in ('P.smt2', 'P.alethe')]
        for path, text in zip(paths, (problem, proof)):
            with open(path, 'wb') as file:
                file.write(text if isinstance(text, bytes) else text.encode())
        code, lines, trouble = outcome_of(*paths, **options)
    return code, [line.replace(folder + os.sep, '') for line in lines], trouble.replace(folder + os.sep, '')


def corpus_lines():
    """What expected.txt holds."""
    return [line for problem, proof in corpus() for line in outcome_of(problem, proof)[1]]


def text_of(path):
    return (REAL / path).read_text(encoding='utf-8')


def read_cases(problem, proof, holes=False):
    terms = Terms()
    proofs.problem(terms, problem)
    cases = [taken(terms, step, holes) for step in proofs.steps(terms, proof)]
    return terms, [case for case in cases if case]


def answers(file):
    """The stand-in is asked without a process of its own, for there are many files."""
    if PROGRAMS.steps == REFERENCE:
        return reference_steps.answers(file.tags, file.values, file.steps)
    return ask(PROGRAMS.steps, file)
