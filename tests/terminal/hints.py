"""Whole matches in which ann types only what the screen names, and what such a screen looks like."""

import random
import re
import time

from people import PATIENCE, ROOT, Failed, Person, Served, same
from game import rows_of_the_page
from words import ENDED, REFUSED, read

# How long a screen may wait for the other one before ann counts as stuck.
STUCK = 60

# The kinds of rows that are followed.
FOLLOWED = 'hint', 'answer', 'board', 'doubles', 'go on', 'next', 'invited', 'open'

# A picture: its edges are the first and the last of these. A row of words may follow.
PICTURE = re.compile(r' [+|].*')
PICTURE_WORDS = re.compile(r' (?:You|The) .*')


class Follower:
    """One who reads the screen, and types one of the lines that it names last."""

    def __init__(self, server, seed, kind=Person, doubles=True, **more):
        self.chance, self.doubles = random.Random(seed), doubles
        self.ann = kind(server.port, **more)
        self.typed, self.lost = [], 0

    def line_for(self, line):
        """What she types because of a line of the screen, if anything: a double now and then, and never what ends."""
        kind, named = read(line)
        if kind not in FOLLOWED:
            return None
        self.lost += kind == 'open'
        if kind == 'hint' and self.chance.random() < 0.2:
            return self.chance.choice([it for it in named if self.doubles or it != 'double'])
        return named[0]

    def plays_to_the_end(self):
        """Plays until a match is over."""
        ann = self.ann
        while True:
            try:
                line = ann.next_line(STUCK)
            except Failed as stuck:
                raise Failed('stuck after %r: %s' % (self.typed[-4:], stuck)) from None
            # what was typed when the connection had just ended is not taken
            if REFUSED.fullmatch(line) and not line.endswith('[2 Offline]'):
                raise Failed('%r was refused: %r' % (self.typed[-1:], line))
            if ENDED.fullmatch(line):
                return
            typed = self.line_for(line)
            if typed:
                self.typed.append(typed)
                ann.type(typed)


def match_by_hints(*options, seed=1, bot='invites=2,plays=random,resigns=4n', **more):
    """The screen of a match against a bot, that is played by the hints."""
    server = Served('--bot', 'eve:' + bot, '--bot-pause', '20', '--seed', str(seed), *options)
    try:
        follower = Follower(server, seed, **more)
        follower.plays_to_the_end()
        # a board may have shown the end: what the server says behind it has come with this row
        while not follower.ann.next_line(STUCK).startswith(('invite eve ', 'lost: ')):
            pass
        follower.ann.quits()
        follower.ann.close()
        return follower
    finally:
        server.close()


def by_hints_alone():
    """Whatever the habits of the server are, nothing that the screen names is refused, and nobody is stuck."""
    for seed, options in enumerate(([], ['--autoroll', 'no-double'], ['--mixed-sides'], ['--loose-flags'],
                                    ['--show-resignations'], ['--refuse', 'roll=1', '--refuse', 'move=1'],
                                    ['--prompts', '--portions', '9'], ['--no-changes', '--telnet'])):
        match_by_hints(*options, seed=seed + 1)


def by_hints_over_connections_that_are_cut():
    """The game outlives its connections; she opens them again as the screen says."""
    cuts = 0
    for seed in range(3):
        # without offers: of one that is open when a connection ends a screen says nothing unless it is asked
        cuts += match_by_hints('--cut', '60', '--keep-games', '--no-changes', seed=seed + 20,
                               bot='invites=1,plays=random').lost
    same('connections were cut', cuts > 3, True)


# -- rows and columns ------------------------------------------------------------------------------------------------

def turns(lines):
    """The rows of each turn of both players: from one hint to roll to the next."""
    starts = [at for at, line in enumerate(lines) if (read(line)[1] or [''])[0] == 'roll']
    return [lines[start + 1:end + 1] for start, end in zip(starts, starts[1:])]


def at_most_forty_rows_a_turn():
    """On a recorded match, the same dice and plays each time: two boards, and at most a dozen rows more."""
    follower = match_by_hints(seed=3, bot='invites=1,plays=random')
    played = turns(follower.ann.lines())
    rows = [len(turn) for turn in played]
    same('turns were counted', len(rows) > 15, True)
    worst = max(played, key=len)
    if max(rows) > 40:
        middle = sorted(rows)[len(rows) // 2]
        raise Failed('%d rows a turn; the middle is %d; the worst is %r' % (max(rows), middle, worst))


def the_game_of_the_docs():
    """It was recorded: its turns take at most 40 rows too, from the login to the end."""
    page = rows_of_the_page()
    same('it is whole', (page[0].startswith('connected to '), any(ENDED.fullmatch(line) for line in page)),
         (True, True))
    rows = [len(turn) for turn in turns(page)]
    same('turns were counted', len(rows) > 3, True)
    same('turns of more than 40 rows', [count for count in rows if count > 40], [])
    same('lines of more than 79 columns', [line for line in page if len(line) > 79], [])


def at_most_79_columns():
    follower = match_by_hints('--mixed-sides', seed=4)
    lines = follower.ann.lines()
    same('lines of more than 79 columns', [line for line in lines if len(line) > 79], [])
    lines_alone = {chr(code) for code in [10, *range(32, 127)]}
    same('what else the terminal is told', sorted(set(follower.ann.screen()) - lines_alone), [])


def on_a_small_terminal():
    """60 by 15, as the environment has it: each row fits, and the board leaves room for what is below it."""
    follower = match_by_hints(seed=5, columns=60, rows=15, COLUMNS='60')
    lines = follower.ann.lines()
    drawn = [line for line in lines if PICTURE.fullmatch(line)]
    same('boards were drawn', len(drawn) > 50, True)
    same('lines of a picture that are wider than the terminal', [line for line in drawn if len(line) > 60], [])
    same('hints that are wider', [line for line in lines if read(line)[0] == 'hint' and len(line) > 60], [])
    tallest, height = 0, 0
    for line in lines:
        height = height + 1 if PICTURE.fullmatch(line) else 0
        tallest = max(tallest, height)
    same('the tallest picture leaves a row for its hint', tallest <= 14, True)


class Joined(Person):
    """One who reads the rows that go on: those begin with a space, as the rows of a picture do."""

    def next_line(self, seconds=PATIENCE):
        line = super().next_line(seconds)
        while not PICTURE.fullmatch(line):
            try:
                # only a row that is nearly full goes on
                more = super().next_line(0.5 if len(line) > 30 else 0.05)
            except Failed:
                break
            if not more.startswith(' ') or PICTURE.fullmatch(more):
                self.read_to -= 1
                break
            line += more
        return line


# What can be typed in a match, beside the words of `help`.
ASKED_FOR = ['players', 'players ready', 'plays', 'plays bar', 'try', 'go', 'moves', 'matches', 'words', 'board',
             'talk', 'quiet', 'loud', 'arrivals', 'arrivals', 'gag eve', 'ungag eve', 'ungag carl', 'gag', 'numbers',
             'numbers server', 'numbers own', 'columns', 'rows', 'board above', 'board below', 'board under', 'fix',
             'reconnect', 'stay', 'send', 'send roll', 'rol', 'sned', 'take', 'exit', 'ratings bob', 'invite',
             'accept', 'move 24-1', 'quit', 'bye', 'open', 'order roll', 'order roll', 'withdraw roll',
             'send average eve', 'say well played, my dear old friend']


def every_row_fits_forty_columns():
    """Of a whole match that is played by the hints, and of all that can be typed in it; what goes on of a row begins
    with a space."""
    server = Served('--bot', 'eve:invites=1,plays=random,says=hello', '--bot-pause', '20', '--seed', '7')
    try:
        follower = Follower(server, 7, Joined, columns=40, COLUMNS='40')
        ann = follower.ann
        ann.types_what('invited', 'join eve')
        ann.hint()
        words = sorted({line.split(' ')[0] for line in (ROOT / 'completions' / 'typed').read_text().splitlines()})
        for line in ['help', *('help ' + word for word in words), *ASKED_FOR]:
            ann.type(line)
            time.sleep(0.02)
        ann.type('tell eve that is all')
        ann.reads('You say to eve: that is all')
        ann.type('help')
        follower.plays_to_the_end()
        ann.quits()
        lines = ann.lines()
        same('a match was played', sum(read(line)[0] == 'hint' for line in lines) > 10, True)
        same('rows that are wider', [line for line in lines if len(line) > 40], [])
        ann.close()
    finally:
        server.close()


def letters_in_bold():
    """If the terminal has them, and never if it does not or one does not want them."""
    seen = {}
    for name, more in (('xterm', {'TERM': 'xterm'}), ('dumb', {'TERM': 'dumb'}),
                       ('NO_COLOR', {'TERM': 'xterm', 'NO_COLOR': '1'})):
        screen = match_by_hints(seed=6, **more).ann.screen()
        seen[name] = '\x1b[1m' in screen, '\x1b[35m' in screen
        rest = re.sub(r'\x1b\[[0-9;]*m', '', screen)
        same('what else acts on the terminal with ' + name, '\x1b' in rest, False)
    same('bold letters, and a last move that is marked', seen,
         {'xterm': (True, True), 'dumb': (False, False), 'NO_COLOR': (False, False)})


def what_can_be_done_is_said_once():
    """In the row below the picture, also without bold letters; that one can't move, in the picture alone."""
    for name, more in (('xterm', {'TERM': 'xterm'}), ('dumb', {'TERM': 'dumb'}), ('NO_COLOR', {'NO_COLOR': '1'})):
        lines = match_by_hints(seed=6, **more).ann.lines()
        below = [lines[at + 1] for at, line in enumerate(lines[:-1]) if ends_picture(lines, at)]
        same('pictures with ' + name, len(below) > 3, True)
        same('rows between a picture and its hint, with ' + name, sorted({
            row for row in below if PICTURE_WORDS.match(row) and row != " You can't move."}), [])


def ends_picture(lines, at):
    """True if this line is the lower edge of a picture."""
    return lines[at].startswith(' +') and lines[at - 1].startswith(' |')


def the_bell():
    """It rings at her turn after the other's, at what is said to her, at a loss; never if FIBS_QUIET is set."""
    server = Served('--bot', 'eve:invites=1,says=hello', '--dice', '31,31,31,31')
    try:
        for quiet in None, '1':
            ann = Person(server.port, FIBS_QUIET=quiet)
            ann.types_what('invited', 'join eve')
            ann.hint()
            ann.type('tell eve hi')
            ann.reads('eve says: hello')
            ann.takes_leave('bye', ['sent bye'])
            ann.reads('closed, as you asked')
            rings = ann.screen().count('\a')
            same('it rings with FIBS_QUIET=%s' % quiet, rings == 0 if quiet else rings >= 3, True)
            ann.quits()
            ann.close()
            time.sleep(0.3)
    finally:
        server.close()


def help_lists_the_words():
    """On one screen, and what can be done now, which it ends with; and there is more to read of each word."""
    server = Served('--bot', 'eve:invites=1', '--dice', '13')
    try:
        ann = Person(server.port)
        ann.types_what('invited', 'join eve')
        hint = ann.hint()
        ann.type('help')
        ann.reads('help')
        screen = [ann.next_line()]
        while read(screen[-1]) != ('hint', [hint]):
            screen.append(ann.next_line())
        same('it fits a screen', (len(screen) <= 23, max(map(len, screen)) <= 79), (True, True))
        words = sorted({line.split(' ')[0] for line in (ROOT / 'completions' / 'typed').read_text().splitlines()})
        told = set(re.findall(r'[a-z]+', ' '.join(screen)))
        same('words that are not there', [word for word in words if word not in told], [])
        for word in words:
            ann.type('help ' + word)
            ann.reads('help ' + word)
            same('nothing is known of ' + word, ann.next_line().startswith('No such word'), False)
        ann.was_not_refused()
        ann.close()
    finally:
        server.close()


SCENES = [help_lists_the_words, by_hints_alone, by_hints_over_connections_that_are_cut, at_most_forty_rows_a_turn,
          the_game_of_the_docs, at_most_79_columns, on_a_small_terminal,
          every_row_fits_forty_columns, letters_in_bold,
          what_can_be_done_is_said_once, the_bell]
