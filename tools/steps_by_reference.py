#!/usr/bin/env python3
"""Stands in for the program `steps`: answers the step file on standard input by the reference. `steps_by_reference.py < FILE`"""
import sys

from references.reference_steps import run

if __name__ == '__main__':
    sys.stdout.write(run(sys.stdin.buffer.read()))
