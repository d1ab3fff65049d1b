"""Boards in words: ann hears the rows of her screen one after another, and sees no picture."""

import random
import re
import sys
import time

from people import ROOT, Failed, Person, Served, Table, same
from words import ENDED, REFUSED, read

sys.path.insert(0, str(ROOT / 'examples' / 'fibs_server'))
import rules

# How long she waits for a row.
STUCK = 15

# The rows of a board, each a fact: what is told of the turn, of the dice and so on.
TURN = re.compile(r"(?:Your|Nobody's|The opponent's) turn(?:, (?:but |and )?[a-z' ]+)?\.")
DICE = re.compile(r"No dice\.|Your dice (\d) and (\d)(?:, the opponent's \d and \d)?\.|The opponent's dice \d and \d\.")
SCORE = re.compile(r'Score \d+ to \d+, (?:match to \d+|unlimited match)\.')
CUBE = re.compile(r"Cube \d+, (?:in the middle|yours|the opponent's|no doubling)\.")
WAY = re.compile(r'You go (down, from 24 to 1|up, from 1 to 24)\.')
SIDE = re.compile(r'(\S+), (\d+) pips: ((?:\d+ on (?:the bar|\d+), )*)(none|\d+) off\.')
HELD = re.compile(r'Held against you: (none|\d+(?:, \d+)*)\.')
BLOTS = re.compile(r"Blots: yours (none|\d+(?:, \d+)*); (\S+)'s (none|\d+(?:, \d+)*)\.")
ROWS = TURN, DICE, SCORE, CUBE, WAY, SIDE, SIDE
# Those that `words short` leaves out if they are as they were.
LASTING = 2, 3, 4
STACK = re.compile(r'(\d+) on (the bar|\d+)')

# A row of a picture.
DRAWN = re.compile(r' [+|].*')
ROLLED = re.compile(r'You roll (\d) and (\d)\.')


def side_of(row, goes_up):
    """The checkers of a side, counted so that ann goes down, from 0 to 25; its pips are as it says."""
    name, pips, stacks, off = SIDE.fullmatch(row).groups()
    places = {}
    for count, place in STACK.findall(stacks):
        number = place if place == 'the bar' else 25 - int(place) if goes_up else int(place)
        places[number] = int(count)
    return name, int(pips), places, 0 if off == 'none' else int(off)


class Position:
    """What a listener knows of a board that was told."""

    def __init__(self, rows):
        self.goes_up = WAY.fullmatch(rows[4])[1].startswith('up')
        _, pips, own, own_off = side_of(rows[5], self.goes_up)
        _, other_pips, other, other_off = side_of(rows[6], self.goes_up)
        self.own = tuple([own_off] + [own.get(place, 0) for place in range(1, 25)] + [own.get('the bar', 0)])
        self.other = tuple([other_off] + [other.get(25 - place, 0) for place in range(1, 25)]
                           + [other.get('the bar', 0)])
        same('checkers', (sum(self.own), sum(self.other)), (15, 15))
        same('pips', (pips, other_pips), (rules.pips(self.own), rules.pips(self.other)))
        held = [place for place in range(24, 0, -1) if self.other[25 - place] > 1]
        own_blots = [place for place in range(24, 0, -1) if self.own[place] == 1]
        other_blots = [25 - place for place in range(24, 0, -1) if self.other[place] == 1]
        # what has to be told of them
        self.held = self.listed(held)
        self.blots = self.listed(own_blots), self.listed(other_blots)

    def listed(self, places):
        return ', '.join(map(self.number, places)) or 'none'

    def number(self, place):
        return str(25 - place if self.goes_up else place)

    def step(self, source, target):
        """A step as ann types it."""
        return '%s-%s' % ('bar' if source == rules.BAR else self.number(source),
                          'off' if target == rules.OFF else self.number(target))


class Listener:
    """One who hears the rows and plays by them alone: no hint is read."""

    def __init__(self, server, seed, short=False, **more):
        self.chance = random.Random(seed)
        self.short = short
        self.ann = Person(server.port, FIBS_WORDS='1', **more)
        self.rows, self.told, self.position, self.typed, self.early = [], [], None, [], 0
        # the rows of a board that is coming, what was told of the places behind the board, and what has to be
        self.coming, self.behind, self.wanted = [], {}, {}

    def types(self, line):
        self.typed.append(line)
        self.early = 0
        self.ann.type(line)

    def types_again(self):
        """The server has said the roll, and its board is still to come."""
        self.early += 1
        time.sleep(0.1)
        self.ann.type(self.typed[-1])

    def moves(self, dice):
        plays = rules.plays((self.position.own, self.position.other), rules.numbers_of(dice))
        if not plays:
            # the server passes for her
            return
        steps = self.chance.choice(plays)
        self.types('move ' + ' '.join(self.position.step(*step) for step in steps))

    def hears_part(self, row):
        """A row of a board, perhaps: one that is left out is as it was before. True if the board is told."""
        if TURN.fullmatch(row):
            same('places behind the board', self.behind, self.wanted)
            self.coming, self.behind, self.wanted = [row], {}, {}
            return False
        if not self.coming or len(self.coming) == len(ROWS):
            return False
        at = len(self.coming)
        while self.short and self.told and at in LASTING and not ROWS[at].fullmatch(row):
            self.coming.append(self.told[-1][at])
            at += 1
        if not ROWS[at].fullmatch(row):
            self.coming = []
            return False
        self.coming.append(row)
        return len(self.coming) == len(ROWS)

    def hears_places(self, row):
        """The places that are held, and the blots."""
        if found := HELD.fullmatch(row):
            self.behind['held'] = found[1]
        elif found := BLOTS.fullmatch(row):
            self.behind['blots'] = found[1], found[3]

    def hears_board(self, rows):
        """A whole board was told."""
        before, self.position = self.position, Position(rows)
        for what in 'held', 'blots':
            now = getattr(self.position, what)
            if not self.short or before is None or getattr(before, what) != now:
                self.wanted[what] = now
        self.told.append(rows)
        dice = DICE.fullmatch(rows[1])
        if rows[0] == 'Your turn, to roll.':
            self.types('roll')
        elif rows[0] == 'Your turn, to move.':
            self.moves((int(dice[1]), int(dice[2])))
        elif rows[0].endswith('you are offered a double.'):
            self.types(self.chance.choice(['accept', 'reject']))

    def hears(self, row):
        """A row was said."""
        self.rows.append(row)
        self.hears_places(row)
        if DRAWN.fullmatch(row):
            raise Failed('a row of a picture: %r' % row)
        if row.endswith(' [6 Waiting]') and self.early < 50:
            self.types_again()
        elif REFUSED.fullmatch(row):
            raise Failed('%r was refused: %r' % (self.typed[-1:], row))
        elif self.hears_part(row):
            self.hears_board(self.coming)
        elif found := ROLLED.fullmatch(row):
            self.moves((int(found[1]), int(found[2])))
        elif row.endswith(': join eve'):
            self.types('join eve')
        elif row.startswith("Type 'join' if you want to play the next game"):
            self.types('join')

    def plays_to_the_end(self):
        while not self.rows or not ENDED.fullmatch(self.rows[-1]):
            try:
                self.hears(self.ann.next_line(STUCK))
            except Failed as stuck:
                raise Failed('stuck after %r, %r: %s' % (self.rows[-9:], self.typed[-3:], stuck)) from None


def match_by_ear(*options, seed=1, bot='invites=2,plays=random', first=None, **more):
    """A match that is played by what is heard; a line is typed first, if there is one."""
    server = Served('--bot', 'eve:' + bot, '--bot-pause', '20', '--seed', str(seed), *options)
    try:
        listener = Listener(server, seed, columns=300, COLUMNS='300', **more)
        if first is not None:
            listener.ann.type(first)
        listener.plays_to_the_end()
        listener.ann.quits()
        listener.ann.close()
        return listener
    finally:
        server.close()


def by_ear_alone():
    """A player who hears the words, and sees neither a picture nor a hint, plays whole matches by the rules."""
    for seed, options in enumerate(([], ['--mixed-sides'], ['--no-changes'])):
        listener = match_by_ear(*options, seed=seed + 1)
        same('boards were told', len(listener.told) > 10, True)


def by_what_is_new():
    """A player who types `words short` plays matches by what is told of each board, and what was told before."""
    counts = []
    for short in False, True:
        listener = match_by_ear(seed=5, short=short, first='words short' if short else None)
        counts.append(sum(len(row.split()) for row in listener.rows) / len(listener.told))
        same('a move is told in both numbers', any(' (in your numbers ' in row for row in listener.rows), not short)
    same('fewer words a board', counts[1] < counts[0], True)


def no_row_is_wider():
    """On terminals of many sizes and kinds: rows are broken at spaces, and no picture is drawn."""
    for columns, rows, kind in (80, 24, 'xterm'), (40, 24, 'xterm'), (60, 15, 'xterm'), (40, 15, 'dumb'):
        table = Table('--dice', '31,63,44', columns=columns, rows=rows, COLUMNS=str(columns), TERM=kind,
                      FIBS_WORDS='1')
        try:
            table.begins()
            table.ann.hint()
            lines = table.ann.lines()
            first = lines.index('Your turn, to move.')
            told = lines[first:lines.index(next(line for line in lines[first:] if line.startswith('Your move'))) ]
            same('rows of %d columns' % columns, [line for line in told if len(line) > columns], [])
            same('rows fit %d' % rows, len(told) < rows, True)
            same('pictures', [line for line in lines if DRAWN.fullmatch(line)], [])
            same('the words', '\n'.join(told).replace('\n ', ' ').split('\n'), FIRST)
            table.ann.type('quit')
        finally:
            table.close()


# The first board of a match to 3 points, with the dice 3 and 1.
FIRST = [
    'Your turn, to move.',
    'Your dice 3 and 1.',
    'Score 0 to 0, match to 3.',
    'Cube 1, in the middle.',
    'You go down, from 24 to 1.',
    'You, 167 pips: 2 on 24, 5 on 13, 3 on 8, 5 on 6, none off.',
    'bob, 167 pips: 2 on 1, 5 on 12, 3 on 17, 5 on 19, none off.',
    'Held against you: 19, 17, 12, 1.',
    "Blots: yours none; bob's none.",
]


def words_at_any_time():
    """`words` tells the board that is shown, sends nothing, and says so if there is no board."""
    table = Table('--dice', '31,63,44')
    try:
        ann = table.ann
        ann.type('words')
        ann.reads('You are in no match: invite NAME 5 begins one.')
        table.begins()
        ann.hint()
        ann.type('Words')
        same('rows', [ann.reads(FIRST[0]), *(ann.next_line() for _ in FIRST[1:])], FIRST)
        same('what was sent', [line for line in ann.lines() if line.startswith('sent ')], ['sent invite bob 3'])
        ann.type('quit')
    finally:
        table.close()


SCENES = [by_ear_alone, by_what_is_new, no_row_is_wider, words_at_any_time]
