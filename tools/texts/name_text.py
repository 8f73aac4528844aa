"""What the numbers of a pool are called in texts.

    NUMBERED            v1 a name, s5 an Atom, ?5 a Var, real5, string5, reglan5 and (_ bits5 8) constants by their serials
    Table(text)         the names of a proof, from the table that check_proof.py --keep writes; what it lacks is as above
"""
import re

MOST_BITS = 64  # of a bit vector that is written in full


class Numbered:
    def name(self, k):
        return 'v%d' % k

    def sort(self, k):
        return 's%d' % k

    def constant(self, kind, serial):
        return '%s%d' % (kind, serial)

    def bits(self, serial, width):
        return '(_ bits%d %d)' % (serial, width)


NUMBERED = Numbered()


class Table(Numbered):
    def __init__(self, text):
        rows = [line.split('\t', 2) for line in text.split('\n')]
        self.texts = {int(row[0]): row[2] for row in rows if len(row) == 3 and row[0].isdigit()}

    def name(self, k):
        return self.texts.get(k) or super().name(k)

    def sort(self, k):
        return self.texts.get(k) or super().sort(k)

    def constant(self, kind, serial):
        return self.texts.get(serial) or super().constant(kind, serial)

    def bits(self, serial, width):
        """The table has the value, #x5; one of many bits keeps its width apart, #x5:128."""
        if not re.fullmatch('#x[0-9a-f]+', self.texts.get(serial, '')):  # not there, or the table of another file
            return super().bits(serial, width)
        digits = self.texts[serial][2:]
        if width > MOST_BITS:
            return '#x%s:%d' % (digits, width)
        return '#x' + digits.zfill(width // 4) if width % 4 == 0 else '#b' + format(int(digits, 16), 'b').zfill(width)
