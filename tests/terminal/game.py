#!/usr/bin/env python3
"""The whole game of docs/GAME.md, as it looks and in words: python3 -B tests/terminal/game.py PROGRAM records both once
more, into the page.

The dice, eve's plays and what ann types are the same each time, so that the page can be compared with the program.
"""

import re
import sys
import time

from people import PASSWORD, PATIENCE, ROOT, Failed, Person, Served, begun, same
from terminals import KINDS
from words import ENDED, read

PAGE = ROOT / 'docs' / 'GAME.md'
SERVER = ('--bot', 'eve:plays=last,resigns=6n,says=good luck', '--no-changes',
          '--dice', '53,63,66,65,14,26,12,13,42,45,15')
# The blocks of the page: what ann's environment has for each.
BLOCKS = {}, {'FIBS_WORDS': '1'}
# Ann rolls by a short word, and types each move as players write it.
TYPED = ['invite eve 1', 'tell eve hi']
SHORT = {'roll': 'r'}

# What is another one each time.
ANOTHER = [(re.compile(r'127\.0\.0\.1:\d+'), '127.0.0.1:4321'),
           (re.compile(r'Last login: .*, from'), 'Last login: 28 December 2002, 23:00, from'),
           (re.compile(r'^\d\d:\d\d '), '23:00 ')]
# What is there only if the server does not answer at once.
SLOW = 'Sent, not confirmed by the server yet.'
# How many rows a picture has.
HEIGHT = 13


def same_each_time(row):
    for form, text in ANOTHER:
        row = form.sub(text, row)
    return row


def as_at_once(rows):
    """The rows as they are if the server answers each move at once: whom it hits is said above the board then."""
    rows = list(rows)
    while SLOW in rows:
        at = rows.index(SLOW)
        begin = at - HEIGHT if rows[at - 1].startswith(' +') else at
        end = at + 2 if ''.join(rows[at + 1:at + 2]).startswith('You hit ') else at + 1
        rows[begin:end] = rows[at + 1:end] + rows[begin:at]
    return rows


def written(line):
    """A line as ann types it: a move with slashes."""
    if line.startswith('move '):
        return re.sub('-', '/', line[5:])
    return SHORT.get(line, line)


class Recorded:
    """Ann's screen, and what she has typed there."""

    def __init__(self, **more):
        self.server = Served(*SERVER)
        self.ann = Person(self.server.port, TERM='xterm', **more)
        self.rows = []

    def close(self):
        self.ann.close()
        self.server.close()

    def reads(self, seconds, last=None):
        """Rows are read up to one that ends an answer, or has this text, however long it takes; and then until nothing
        more comes for so long."""
        is_answered = False
        while True:
            try:
                row = self.ann.next_line(seconds if is_answered else PATIENCE)
            except Failed:
                if not is_answered:
                    raise
                return
            self.rows.append(same_each_time(row))
            if last:
                is_answered |= last in row
            else:
                is_answered |= read(row)[0] in ('hint', 'answer') or ENDED.fullmatch(row) is not None

    def types(self, line):
        """A line is typed; the terminal shows it, and the page shows it after a prompt."""
        self.ann.type(line)
        same('what the terminal shows of a line', self.ann.next_line(), line)
        self.rows.append('> ' + line)

    def next_line(self, typed):
        """What the last hint names, or what was to be typed before."""
        if typed:
            return typed.pop(0)
        named = [lines for kind, lines in map(read, self.rows) if kind in ('hint', 'answer')]
        return written(named[-1][0])

    def plays(self):
        """Plays the game to its end."""
        typed = list(TYPED)
        self.reads(1.5, 'players ready')
        while not any(ENDED.fullmatch(row) for row in self.rows):
            # the talk comes when the first move is to be made
            line = self.next_line(typed)
            self.types(line)
            self.reads(0.7, 'eve says: ' if line.startswith('tell ') else None)
        self.ann.type('quit')
        self.rows.append('> quit')
        return as_at_once(self.rows)


def recorded(**more):
    """The rows of the game."""
    screen = Recorded(**more)
    try:
        return screen.plays()
    finally:
        screen.close()


def rows_of_the_page(block=0):
    return PAGE.read_text().split('```')[2 * block + 1].split('\n')[1:-1]


def the_page_is_the_game():
    """The page shows the very rows."""
    is_on_the_page(0)


def the_page_is_what_is_heard():
    """So it does of the game in words."""
    is_on_the_page(1)


def is_on_the_page(block):
    rows, wanted = recorded(**BLOCKS[block]), rows_of_the_page(block)
    for number, (found, row) in enumerate(zip(rows, wanted)):
        same('row %d' % number, found, row)
    same('rows', len(rows), len(wanted))


# What is another one each time, at the ends of a row.
FRONT, END = re.compile(r'\d\d:\d\d '), re.compile(r'(?<=^connected to 127\.0\.0\.1:)\d+|(?<=Last login: ).*')


def without_colour(row):
    """A row of the page as it is drawn without colours: a picture has longer words then."""
    return row.replace("   eve's turn", "   the opponent's turn") if row.startswith(' |') else row


def the_page_is_the_game_with_fibs_play():
    """The same rows below its question, and neither the password nor anything else. If lines are edited the rows come
    in their order, whatever is drawn between them, and what was typed is kept."""
    rows = [without_colour(row) for row in rows_of_the_page()]
    typed = [row[2:] for row in rows if row.startswith('> ')]
    for kind in KINDS:
        server = Served(*SERVER)
        try:
            ann = begun(server, kind, NO_COLOR='1')
            at = typed_at = 0
            for row in rows:
                if row.startswith('> '):
                    ann.type(row[2:])
                    row, typed_at = row[2:], at
                if row.startswith('You hit '):
                    shows(ann, row, typed_at)
                else:
                    at = shows(ann, END.sub('', FRONT.sub('', row)), at)
            ann.ends(0)
            same('echo', ann.echoes(), True)
            same('the password is shown', PASSWORD in ann.screen(), False)
            if kind == 'dumb':
                same('the screen', as_at_once(same_each_time(row) for row in ann.lines()),
                     ['password: ', *(row.removeprefix('> ') for row in rows)])
            else:
                kept = ''.join(path.read_text() for path in ann.home.iterdir() if path.is_file())
                same('what is kept', [line for line in typed if line not in kept.split('\n')], [])
                same('the password is kept', PASSWORD in kept, False)
            ann.close()
        finally:
            server.close()


def shows(ann, text, at):
    """Waits until a text is on the screen after so many letters; how many there are up to its end."""
    end = time.monotonic() + PATIENCE
    while (found := ann.plain().find(text, at)) < 0:
        if time.monotonic() > end:
            raise Failed('%r is not shown after %r' % (text, ann.plain()[:at][-200:]))
        with ann.news:
            ann.news.wait(0.2)
    return found + len(text)


def main():
    parts = PAGE.read_text().split('```')
    began = time.monotonic()
    for block, more in enumerate(BLOCKS):
        parts[2 * block + 1] = '\n' + '\n'.join(recorded(**more)) + '\n'
    PAGE.write_text('```'.join(parts))
    print('recorded in %.0f s' % (time.monotonic() - began))


SCENES = [the_page_is_the_game, the_page_is_what_is_heard, the_page_is_the_game_with_fibs_play]

if __name__ == '__main__':
    sys.exit(main())
