"""Numbers, strings and bit vectors of SMT-LIB text in a pool.

    literal(pool, names, expression)       the place, or None for any other expression

A numeral outside u32 and a negative number become constants of no known meaning, of their sort. Of equal numbers in other spellings
1.0 and 1.00, #b0001 and #x1 and (_ bv1 4) are one constant; others are two, 1.5 and 3/2, so that less is accepted.
"""
import re

from alethe.sorts import numeral

INTEGER = re.compile(r'-?[0-9]+')
REAL = re.compile(r'-?[0-9]+(\.[0-9]+|/[0-9]+)')
BITS = re.compile(r'#b[01]+|#x[0-9a-fA-F]+')
MOST_DIGITS = 1000  # of a decimal number that is converted


def literal(pool, names, expression):
    if not isinstance(expression, str):
        return indexed_bits(pool, names, expression)
    if numeral(expression) is not None:
        return pool.constant('integer', numeral(expression))
    if INTEGER.fullmatch(expression):
        return pool.var(names.number('operator', expression), pool.sort('Int'))
    if REAL.fullmatch(expression):
        return pool.constant('real', names.number('real', re.sub(r'(\.[0-9]+?)0+$', r'\1', expression)))
    if expression[0] == '"':
        return pool.constant('string', names.number('string', expression))
    if BITS.fullmatch(expression):
        base = 2 if expression[1] == 'b' else 16
        return bits(pool, names, int(expression[2:], base), (len(expression) - 2) * (1 if base == 2 else 4))
    return None


def indexed_bits(pool, names, expression):
    """(_ bv5 8)"""
    if len(expression) == 3 and isinstance(expression[1], str) and re.fullmatch('bv[0-9]{1,%d}' % MOST_DIGITS, expression[1]):
        value, width = int(expression[1][2:]), numeral(expression[2])
        if width and value >> width == 0:
            return bits(pool, names, value, width)
    return None


def bits(pool, names, value, width):
    return pool.bits(width, names.number('bits', '#x%x' % value))
