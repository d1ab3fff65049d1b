#!/usr/bin/env python3
"""The time of a line in Python: python_reader.py FILE. By plain Python, by the library with one call a line, and with
many lines a call, each in the same run; each counts the boards, messages, texts, cut and malformed lines, and they
have to agree."""

import ctypes
import pathlib
import sys
import time
from collections import Counter

sys.path.insert(0, str(pathlib.Path(__file__).resolve().parent.parent / 'tests'))

from props.package import fibs  # noqa: E402
from fibs import _library  # noqa: E402

NAMES = {fibs.BOARD: 'board', fibs.MESSAGE: 'message', fibs.MALFORMED: 'malformed'}


# How many fields each message has, and whether it ends in a text.
FIELDS = {1: 3, 2: 21, 3: 0, 4: 0, 5: 12, 6: 0, 10: 1, 11: 1, 9: 3, 17: 1, 18: 1, 19: 1, **dict.fromkeys((7, 8), 2),
          **dict.fromkeys(range(12, 17), 2)}


def plain(data):
    """As one writes it at once: lines by split, a board's numbers by int, a message's fields by split. No range is
    looked at."""
    counts = Counter()
    for line in data.split(b'\n')[:-1]:
        line = line.rstrip(b'\r')
        while line.startswith((b'> ', b'login: ')):
            line = line[2 if line[:1] == b'>' else 7:]
        if line.startswith(b'board:'):
            fields = line.split(b':')
            try:
                numbers = [int(field) for field in fields[3:]]
            except ValueError:
                numbers = []
            counts['board' if len(numbers) == 50 else 'malformed'] += 1
            continue
        head, _, rest = line.partition(b' ')
        if head.isdigit() and head[:1] != b'0' and 1 <= int(head) <= 19:
            most = FIELDS[int(head)]
            fields = rest.split(b' ', most - 1) if rest and most else []
            counts['message' if len(fields) == most else 'malformed'] += 1
        else:
            counts['text'] += 1
    return counts


def single(data):
    """One call that cuts a line, and one that reads it."""
    counts = Counter()
    lib, fed, lines = _library.lib, _library.Fed(), _library.Owned('fibs_lines_new', 'fibs_lines_free')
    room = ctypes.create_string_buffer(fibs.MAX_LINE)
    start, size, at = _library.address_of(data), len(data), 0
    while at < size:
        lib.fibs_lines_feed(lines.at, start + at, size - at, room, fibs.MAX_LINE, ctypes.byref(fed))
        at += fed.used
        if fed.ended:
            kind = lib.fibs_read(room, fed.len).kind
            counts['cut' if fed.cut else NAMES.get(kind, 'text')] += 1
    return counts


def many(data):
    """The iterator of the module: each line as a tuple, with its bytes."""
    counts = Counter()
    for line in fibs.Lines(data):
        counts['cut' if line.cut else NAMES.get(line.kind, 'text')] += 1
    return counts


def counted(data):
    """The counts alone."""
    with fibs.Lines() as lines:
        texts, messages, boards, malformed, cut, _sent = lines.count(data)
    return Counter({name: n for name, n in (('text', texts - cut), ('message', messages), ('board', boards),
                                            ('malformed', malformed), ('cut', cut)) if n})


def main():
    data = open(sys.argv[1], 'rb').read()
    counts = None
    for name, read in (('plain Python', plain), ('one call a line', single), ('many lines a call', many),
                       ('counts alone', counted)):
        start = time.process_time()
        found = read(data)
        took = time.process_time() - start
        if counts not in (None, found):
            sys.exit('%s counts %s, not %s' % (name, found, counts))
        counts = found
        print('%-18s %6.2f us a line, %.2f s' % (name, took / sum(found.values()) * 1e6, took))


if __name__ == '__main__':
    main()
