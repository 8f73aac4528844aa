#!/usr/bin/env python3
"""Collections of call files, which the program `calls` replays where an argument's name ends in `.calls`.

    call_collections.py list COLLECTION                              the names of its calls
    call_collections.py unpack COLLECTION [NAME ..] [--to FOLDER]    writes these calls, or all, as files of their own
    call_collections.py pack COLLECTION FILE ..                      writes a collection of these call files, in this order

A collection is the count of its calls, then for each the length of its name, the name, the length of its call file and the file;
counts and lengths are u32, little-endian.
"""
import argparse
import io
import pathlib
import struct


class BadCollection(Exception):
    """What is wrong with the bytes of a collection."""


def packed(calls):
    """The bytes of a collection of (name, call file)."""
    parts = [struct.pack('<I', len(calls))]
    for name, file in calls:
        for part in (name.encode(), file):
            parts += struct.pack('<I', len(part)), part
    return b''.join(parts)


def unpacked(collection):
    """The calls of a collection: (name, call file)."""
    rest = io.BytesIO(collection)

    def taken(size):
        part = rest.read(size)
        if len(part) < size:
            raise BadCollection('it is cut short')
        return part

    def number():
        return struct.unpack('<I', taken(4))[0]

    calls = [(taken(number()).decode(), taken(number())) for _ in range(number())]
    if rest.read(1):
        raise BadCollection('there are bytes after its last call')
    return calls


def arguments():
    parser = argparse.ArgumentParser()
    parser.add_argument('what', choices=('list', 'unpack', 'pack'))
    parser.add_argument('collection', type=pathlib.Path)
    parser.add_argument('names', nargs='*')
    parser.add_argument('--to', type=pathlib.Path, default=pathlib.Path('.'))
    return parser.parse_args()


def main():
    options = arguments()
    if options.what == 'pack':
        files = map(pathlib.Path, options.names)
        options.collection.write_bytes(packed([(file.name, file.read_bytes()) for file in files]))
        return
    try:
        calls = dict(unpacked(options.collection.read_bytes()))
    except BadCollection as bad:
        raise SystemExit('%s: %s' % (options.collection, bad))
    if options.what == 'list':
        print('\n'.join(calls))
        return
    for name in options.names or calls:
        if name not in calls:
            raise SystemExit('%s has no call %s' % (options.collection, name))
        (options.to / pathlib.Path(name).name).write_bytes(calls[name])


if __name__ == '__main__':
    main()
