"""Call files with tags lent as bytes."""
import struct

from pools.packed_pool import words
from references.reference_program import BYTE_TAGS, blocks, head_of

LAST = 255  # the largest byte, which is no tag


def in_bytes(file):
    """The call file after the block that has its tags lent as bytes, which stands after block 100."""
    end = blocks(file).table_end
    return file[:end] + words(BYTE_TAGS) + file[end:]


def narrowed(file):
    """The call file with the largest byte for every tag over it."""
    call = blocks(file).call
    start, t = call + 32, head_of(file, call).t
    end = start + 4 * t
    return file[:start] + words(*(min(tag, LAST) for tag in struct.unpack('<%dI' % t, file[start:end]))) + file[end:]


def narrowed_lines(lines):
    """What is printed on the narrowed file, by what is printed on the file: no call tells these tags apart."""
    return [' '.join(['tags', *(str(min(int(tag), LAST)) for tag in line.split()[1:])]) if line.startswith('tags') else line
            for line in lines]
