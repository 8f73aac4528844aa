#!/usr/bin/env python3
"""Tests of the examples: `python3 examples/test_examples.py [--archive crates/weldrika/out/libweldrika.a]`

Builds each example and holds what it prints to expected/. Holds the declarations of include/weldrika.h and rust/weldrika.rs to the functions
that crates/weldrika/src exports: no compiler compares them.
"""
import argparse
import pathlib
import re
import subprocess
import tempfile
import unittest

ROOT = pathlib.Path(__file__).resolve().parent.parent
STEP_FILE = 'crates/steps/stdin'
GCC = ['gcc', '-std=c99', '-pedantic', '-Wall', '-Wextra', '-Werror', '-Iinclude']
OPTIONS = argparse.Namespace(archive=ROOT / 'crates/weldrika/out/libweldrika.a')


def output(*command, given=b''):
    return subprocess.run(list(map(str, command)), cwd=ROOT, input=given, stdout=subprocess.PIPE, check=True).stdout.decode()


class Examples(unittest.TestCase):
    def setUp(self):
        folder = tempfile.TemporaryDirectory()
        self.addCleanup(folder.cleanup)
        self.program = pathlib.Path(folder.name) / 'example'
        self.linked = '-L%s' % OPTIONS.archive.resolve().parent

    def prints(self, name, *arguments, given=b''):
        self.assertEqual(output(self.program, *arguments, given=given), (ROOT / 'examples/expected' / name).read_text())

    def test_answer_file(self):
        output(*GCC, 'examples/c/answer_file.c', self.linked, '-lweldrika', '-o', self.program)
        self.prints('answer_file.txt', STEP_FILE)
        self.prints('answer_file.txt', given=(ROOT / STEP_FILE).read_bytes())

    def test_check_step(self):
        output(*GCC, 'examples/c/check_step.c', self.linked, '-lweldrika', '-o', self.program)
        self.prints('check_step.txt')

    def test_rust(self):
        output('rustc', '--edition', '2021', '-D', 'warnings', 'examples/rust/main.rs', self.linked, '-o', self.program)
        self.prints('rust.txt', STEP_FILE)


# ---- declarations
SIZES = {'3': 'WELDRIKA_ANSWER', 'ENTRIES': 'WELDRIKA_TABLE'}
C_TYPES = {'': 'void', 'u8': 'uint8_t', 'u32': 'uint32_t', 'usize': 'size_t', 'bool': 'bool'}
RUST_ARRAYS = {'3': 'Answer', 'ENTRIES': 'Table'}
FUNCTION = r'fn (%s\w+)\(([^)]*)\)(?: -> (\w+))?'


def exported():
    """Name, parameters as (name, type), and result, of each function in the crate's sources."""
    for path in sorted((ROOT / 'crates/weldrika/src').glob('*.rt')):
        for name, given, result in re.findall('extern "C" ' + FUNCTION % 'weldrika_', path.read_text()):
            yield name, [tuple(part.strip().split(': ')) for part in given.split(',') if part.strip()], result


def c_parameter(name, kind):
    array = re.fullmatch(r'&mut \[(\w+); (\w+)\]', kind)
    if array:
        return '%s %s[%s]' % (C_TYPES[array[1]], name, SIZES[array[2]])
    slice_ = re.fullmatch(r'&(mut )?\[(\w+)\]', kind)
    if slice_:
        return '%s%s *%s, size_t %s_length' % ('' if slice_[1] else 'const ', C_TYPES[slice_[2]], name, name)
    return '%s %s' % (C_TYPES[kind], name)


def rust_types(kind):
    array = re.fullmatch(r'&mut \[\w+; (\w+)\]', kind)
    if array:
        return ['*mut ' + RUST_ARRAYS[array[1]]]
    slice_ = re.fullmatch(r'&(mut )?\[(\w+)\]', kind)
    return ['*%s %s' % ('mut' if slice_[1] else 'const', slice_[2]), 'usize'] if slice_ else [kind]


def rust_declarations():
    """Name, types of the parameters, and result; those of the macro for both types of tags."""
    text = (ROOT / 'examples/rust/weldrika.rs').read_text()
    for block in re.findall(r'extern "C" \{\n(.*?)\n *\}\n', text, re.S):
        for tag in ('u8', 'u32') if '$tag' in block else ('',):
            shown = re.sub(r'fn \$(\w+)', r'fn weldrika_\1_' + tag, block).replace('$tag', tag)
            for name, given, result in re.findall(FUNCTION % '', shown):
                yield name, re.findall(r': ([^,]+?)(?:,|\s*$)', given), result


class Declarations(unittest.TestCase):
    def test_header(self):
        wanted = {'%s %s(%s);' % (C_TYPES[result], name, ', '.join(c_parameter(*one) for one in given))
                  for name, given, result in exported()}
        header = re.sub(r'/\*.*?\*/', '', (ROOT / 'include/weldrika.h').read_text(), flags=re.S)
        found = re.findall(r'^\w+ weldrika_\w+\([^)]*\);', header, re.M)
        self.assertEqual(wanted, {' '.join(one.split()) for one in found})

    def test_rust(self):
        wanted = sorted((name, sum((rust_types(kind) for _, kind in given), []), result) for name, given, result in exported())
        self.assertEqual(wanted, sorted(rust_declarations()))
        self.assertEqual(len(wanted), 16)


if __name__ == '__main__':
    parser = argparse.ArgumentParser()
    parser.add_argument('--archive', type=pathlib.Path, default=OPTIONS.archive)
    parser.parse_args(namespace=OPTIONS)
    unittest.main(argv=['test_examples.py'])
