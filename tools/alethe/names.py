"""The numbers that stand for names and constants in a pool, and their table.

    names = Names()
    names.number('variable', 'x')     one number for each kind and text, from 1 up
    names.key(number)                 its kind and text
    names.table()                     a line `number kind text` each, with tabs between; texts/name_text.py reads it

Kinds: variable (bound in a term or by an anchor), symbol (declared), sort, operator (of no known meaning: operators that the pool
does not have, indexed and qualified ones, numbers outside u32), result (the sort of such an operator's terms), and the constants
real, string, bits. A bound variable and a declared constant of one name have two numbers, so that a binder never catches a constant.
"""
from alethe.expressions import one_line


class Names:
    def __init__(self):
        self.numbers, self.keys = {}, []

    def number(self, kind, text):
        if (kind, text) not in self.numbers:
            self.keys.append((kind, text))
            self.numbers[kind, text] = len(self.keys)
        return self.numbers[kind, text]

    def key(self, number):
        return self.keys[number - 1]

    def table(self):
        return ''.join('%d\t%s\t%s\n' % (number, kind, one_line(text)) for number, (kind, text) in enumerate(self.keys, 1))
