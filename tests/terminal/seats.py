"""A player of whole matches: the program at a pseudo-terminal, and one who reads its rows and types what they name."""

import asyncio
import fcntl
import os
import re
import struct
import subprocess
import termios
import time
from collections import Counter, deque

from people import BOLD, PASSWORD_FILE, PROGRAM
from words import ENDED, INVITED, REFUSED, read, sent_by, typed_as

# A row is read with those that came with it, and then something is typed.
READS = 0.03
AWAITS = 2.0
# After so long without a row the player asks for help, and after so long the match stands still.
ASKS, STUCK = 3.0, 7.0

# Which board may be drawn again: one of so many before the board that was drawn last.
AGAIN = 5

# After so many rows that the server does not follow, since it waits for the answer to an offer of which it said
# nothing, a player is helped on.
FUTILE = 20

# Said in the words of the server, by those who play.
TALK = ['kibitz %s rejects. The game continues.', 'say %s accepts the double.', 'kibitz You give up. %s wins 1 point.',
        'shout %s drops connection. The game was saved.', 'say hello', 'whisper %s wants to resign.', 'players', 'help',
        'board', 'plays', 'send pip']

# With bold letters, and without.
TERMINALS = 'xterm', 'dumb'

# What says that the opponent offers something.
OF_OFFERS = re.compile(r"to resign|for your answer|accept or reject|doubles\.|'accept' or 'reject'")

# The first and the last row of a picture.
EDGE = re.compile(r' \+[-\d]+\+---\+[-\d]+\+.*')
# what somebody has said, at a time
SAID = re.compile(r'\d\d:\d\d ')
# what a player has typed, and what was sent of it
TYPED = '> ', 'sent '
# the server refuses a double; a game begins, or goes on after a pause, of which nothing of before is known
FORBIDS = re.compile(r"\*\* (?:You can't double|The Crawford rule)")
BEGINS = re.compile('connected to |Starting a new game with |You are now playing with |\\S+ has joined you')
# how a row begins for a connection that the server has accepted: the server may end one while the client still connects
ATTEMPTS = 'connected to ', 'no connection to '
# how the second of two rows begins
SECOND = 'or join ', 'then open', 'If the game goes on'
HINT_ALONE = ('hint', 'go on', 'answer', 'board', 'doubles', 'next', 'gone', 'invited', 'auto', 'open')


class Picture:
    """The rows of a picture, as they come."""

    def __init__(self):
        self.rows = []

    def takes(self, row):
        """The picture that this row ends, or None."""
        if EDGE.fullmatch(row):
            self.rows.append(row)
            if len(self.rows) > 1:
                rows, self.rows = self.rows, []
                return rows
        elif self.rows and row.startswith(' |'):
            self.rows.append(row)
        else:
            self.rows = []
        return None


def drawn(rows):
    """The checkers of a picture by the numbers on its edges: positive are those of the player, who is O."""
    places = {}
    for half, letters in ((rows[0], rows[1:6]), (rows[-1], rows[-2:-7:-1])):
        for at in [2 + 3 * k for k in range(6)] + [25 + 3 * k for k in range(6)]:
            cells = [row[at:at + 2].strip() for row in letters]
            side = {'O': 1, 'X': -1}.get(cells[0], 0)
            count = int(cells[4]) if cells[4].isdigit() else sum(cell in ('O', 'X') for cell in cells)
            places[int(half[at:at + 2].strip('-'))] = side * count
    return places


def places_of(board):
    """The checkers of a board line on each place, in the numbers of its player, who goes down: his own above 0."""
    fields = board.split(':')
    colour, is_up = int(fields[41]), fields[42] == '1'
    return {25 - place if is_up else place: colour * int(fields[6 + place]) for place in range(1, 25)}


def is_of(rows, board):
    """True if a picture shows the checkers of a board line."""
    return drawn(rows) == places_of(board)


def is_after(rows, board, steps):
    """True if it shows them after some steps of the player."""
    places = places_of(board)
    for begin, end in steps:
        if begin != 'bar':
            places[int(begin)] -= 1
        if end != 'off':
            places[int(end)] = max(places[int(end)], 0) + 1
    return drawn(rows) == places


class Seat:
    """The player `name`, who plays against `other` on a wire of his own."""

    def __init__(self, game, name, other, port):
        self.game, self.name, self.other = game, name, other
        self.chance = game.chance
        self.begin(port)
        self.half, self.picture, self.rows = b'', Picture(), deque(maxlen=80)
        # what is sent on each connection by the screen, also on one that ended while the client was connecting
        self.sent = []
        # what the rows have named since the last line that was typed; and what was typed last, and why
        self.row, self.inviting, self.typed, self.why = None, None, '', ''
        self.last_row = self.last_typed = self.answered = time.monotonic()
        # a line that was typed, and is neither sent nor refused yet
        self.awaited, self.rescue = '', None
        self.has_asked = self.is_stuck = self.is_over = self.is_invited = False
        self.futile = 0
        # the server has refused a double in this game
        self.has_refused_double = False
        self.counts, self.faults, self.stalls, self.alarms = Counter(), [], [], []
        # all lines that he has typed
        self.decided = []
        # rows since the last move
        self.since_move, self.turns = None, []
        self.read_to, self.drawn_to, self.of_picture = {}, {}, ''

    def begin(self, port):
        self.fd, tty = os.openpty()
        fcntl.ioctl(self.fd, termios.TIOCSWINSZ, struct.pack('HHHH', 24, 80, 0, 0))
        attributes = termios.tcgetattr(tty)
        attributes[3] &= ~termios.ECHO
        termios.tcsetattr(tty, termios.TCSANOW, attributes)
        self.process = subprocess.Popen(
            [PROGRAM, 'connect', '--password-file', PASSWORD_FILE, '127.0.0.1', str(port), self.name], stdin=tty,
            stdout=tty, stderr=tty, start_new_session=True,
            env={**os.environ, 'TERM': self.chance.choice(TERMINALS), 'FIBS_QUIET': '1', 'LC_ALL': 'C', 'TZ': 'UTC'})
        os.close(tty)
        asyncio.get_running_loop().add_reader(self.fd, self.readable)

    def close(self):
        asyncio.get_running_loop().remove_reader(self.fd)
        if self.rescue:
            self.rescue.cancel()
        self.process.kill()
        self.process.wait()
        os.close(self.fd)

    # -- what is read ------------------------------------------------------------------------------------------------

    def readable(self):
        try:
            piece = os.read(self.fd, 65536)
        except OSError:
            asyncio.get_running_loop().remove_reader(self.fd)
            return
        *rows, self.half = (self.half + piece).split(b'\n')
        for row in rows:
            self.reads(BOLD.sub('', row.rstrip(b'\r').decode('latin-1')))

    def reads(self, row):
        """A row of the screen."""
        self.last_row = time.monotonic()
        self.rows.append(row)
        if self.since_move is not None:
            self.since_move += 1
        if picture := self.picture.takes(row):
            self.judge_picture(picture)
        if row.startswith(ATTEMPTS):
            self.sent.append([])
        if FORBIDS.match(row):
            self.has_refused_double = True
        elif BEGINS.match(row):
            self.has_refused_double = False
        is_said = self.follow_the_server(row)
        if len(row) > 79 and not is_said and not SAID.match(row):
            self.counts['rows wider than 79 columns'] += 1
            self.alarm('a row of %d columns' % len(row), row)
        if line := sent_by(row):
            # what was named before a decision is done; what was sent may be another line, typed before it
            if self.awaited.removeprefix('send ') in (line, typed_as(row)):
                self.awaited = ''
                self.row = self.row if line == 'board' else None
            self.sent[-1].append(line)
            self.counts['lines sent'] += 1
            self.note_turn(line)
        if REFUSED.fullmatch(row):
            self.hears_a_refusal(row)
        kind, lines = read(row)
        if row.startswith(' ') and kind:
            # the last row of a picture: it is followed if no other row comes with it
            self.row, self.of_picture = (kind, lines), row
        elif kind:
            self.judge(kind, row, lines)
            self.takes_note(kind, lines, row)
        if found := INVITED.fullmatch(row):
            self.inviting = found[1]
        elif ENDED.fullmatch(row):
            self.is_over = True

    def hears_a_refusal(self, row):
        """The client refuses what was typed. It may cross what has come since, or the end of the connection."""
        self.awaited = ''
        crosses = self.rows[-2] != '> ' + self.typed or row.endswith('[2 Offline]')
        if self.why in HINT_ALONE and not crosses:
            self.counts['refused by the client, that had named it'] += 1
            self.alarm('the client refused what it named', row)
        else:
            self.counts['not taken by the client: %s' % ('crossing' if self.why in HINT_ALONE else self.why)] += 1

    def takes_note(self, kind, lines, row):
        """What a row names is kept: of two rows that belong together what both name."""
        if row.startswith(SECOND) and self.row and self.row[0] == kind:
            lines = self.row[1] + lines
        if kind == 'login' or kind == 'wait' and self.row and self.row[0] in HINT_ALONE and not self.of_picture:
            return
        self.row, self.of_picture = (kind, lines), ''

    def note_turn(self, line):
        if line.startswith('move '):
            if self.since_move is not None:
                self.turns.append(self.since_move)
            self.since_move = 0

    # -- the judge ---------------------------------------------------------------------------------------------------

    def link(self):
        links = self.game.links[self.name]
        return links[-1] if links else None

    def follow_the_server(self, row):
        """True if a row is a text of the server: it was read, and the server has nothing older to say."""
        link = self.link()
        if not link:
            return False
        at = self.read_to.get(link, 0)
        for further in range(at, min(at + 80, len(link.said))):
            if link.said[further][0] == row and row:
                self.read_to[link] = further + 1
                return True
        return False

    def moments(self):
        """What the server knew since the moment from which the last byte is that has come to the screen."""
        moments, link = self.game.room.moments, self.link()
        if not link:
            return moments[-1:]
        shown = self.read_to.get(link, 0)
        first = max(link.moment_of(time.monotonic()), link.said[shown - 1][1] if shown else 0)
        return moments[min(first, len(moments) - 1):]

    def verdict(self, kind, row, lines):
        """Whether a row is right: at one moment at least, since it may cross what has just happened. It is untold if the
        server waits for another line, and has not said so on this connection."""
        moments = self.moments()
        if kind in ('open', 'login'):
            # each password is right
            return 'right' if kind == 'open' else 'false'
        if kind == 'leave':
            return 'right' if any(one.match is not None for one in moments) else 'false'
        if kind == 'again':
            return 'right' if any(one.match is None for one in moments) else 'false'
        if kind == 'auto':
            return 'right' if self.game.room.informed.get(self.name) else 'false'
        if kind == 'gone':
            # who has lost the connection in the last moment can't know that the match was over
            may_be = self.game.room.ended or any(one.is_saved or self.name not in one.online for one in moments)
            return 'right' if may_be else 'false'
        if kind in ('board', 'doubles'):
            return 'right' if any(one.must_act(self.name) for one in moments) else 'false'
        if kind == 'wait':
            return self.verdict_of_waiting(moments, row)
        lines = [line for line in lines if line not in ('bye', 'open', 'quit')]
        taken = [[self.is_taken(one, one.sent_for(self.name, line)) for line in lines] for one in moments]
        if any(all(one) for one in taken):
            return 'right'
        if any(any(one) for one in taken):
            return 'one of two lines is not taken'
        if not any(one.must_act(self.name) for one in moments):
            return 'false'
        return 'wrong remedy' if all(self.was_told(one) for one in moments) else 'untold'

    def is_taken(self, moment, line):
        """True if the server would carry a line out, or has told the player so: a board whose flags allow a double says
        more than the rules, until the server has refused one in this game."""
        return moment.takes(self.name, line) or (
            line == 'double' and not self.has_refused_double and moment.shows_double(self.name))

    def verdict_of_waiting(self, moments, row):
        if 'has not answered' in row:
            return 'right' if any(one.has_offered(self.name) for one in moments) else 'false'
        if 'has not joined' in row:
            return 'right' if any(one.match and self.name in one.joined for one in moments) else 'false'
        return 'right'

    def judge(self, kind, row, lines):
        verdict = self.verdict(kind, row, lines)
        self.counts['row %s: %s' % (kind, verdict)] += 1
        match = self.game.room.now().match
        if match is None or match.resigner is None:
            self.futile = 0
        elif verdict == 'untold':
            self.futile += 1
        if verdict not in ('right', 'untold'):
            self.alarm(verdict, row)

    def judge_picture(self, picture):
        link = self.link()
        self.counts['pictures'] += 1
        # on a slow wire the server is far ahead of the screen; and a board may be drawn again
        first = max(0, self.drawn_to.get(link, 0) - AGAIN)
        boards = link.boards[first:] if link else []
        if found := [at for at, board in enumerate(boards, first) if is_of(picture, board)]:
            self.drawn_to[link] = found[0]
            return
        if any(is_after(picture, board, self.steps_sent()) for board in boards):
            self.counts['pictures after a move that was sent'] += 1
            return
        self.counts['pictures that no board had'] += 1
        self.alarm('a picture of no board', picture[0])

    def steps_sent(self):
        """The steps of the move that was sent last, in the player's own numbers."""
        sent = [row for row in self.rows if row.startswith('sent move ')]
        words = re.findall(r'(\w+)-(\w+)', sent[-1].rpartition(' (in your numbers ')[2]) if sent else []
        return words

    def alarm(self, what, row):
        if len(self.alarms) < 6:
            self.alarms.append((what, row, self.game.room.now().in_words(self.name) if self.name in (
                self.game.room.now().match.names if self.game.room.now().match else []) else
                self.game.room.now().in_words(self.name), list(self.rows)[-40:]))

    # -- what is typed -----------------------------------------------------------------------------------------------

    def type(self, line, why):
        self.typed, self.why, self.last_typed = line, why, time.monotonic()
        self.decided.append(line)
        self.awaited = line if why in HINT_ALONE and line not in ('open', 'quit') else ''
        self.rows.append('> ' + line)
        os.write(self.fd, line.encode() + b'\n')

    async def plays(self):
        """Plays until the match is over."""
        while not self.is_over:
            await asyncio.sleep(0.01)
            now = time.monotonic()
            if now - max(self.last_row, self.last_typed) < READS:
                continue
            if not self.does_something(now):
                self.waits(now)

    def does_something(self, now):
        """Types what the last rows name, if they name something. He waits to see what he has typed before."""
        if self.awaited and now - self.last_typed < AWAITS:
            return False
        if self.futile > FUTILE:
            self.futile = 0
            self.stuck(self.game.room.now())
            return True
        if self.inviting and not (self.row and self.row[0] == 'open'):
            line, self.inviting, self.row = self.inviting, None, None
            self.type(line, 'invited')
            return True
        if not self.row:
            return False
        kind, lines = self.row
        chosen = self.choice(kind, lines, now)
        if not chosen:
            return False
        line, is_done = chosen
        if self.of_picture:
            self.judge(kind, self.of_picture, lines)
            self.of_picture = ''
        if is_done:
            self.row = None
            self.has_asked = False
        self.type(line, kind if is_done else 'talk')
        return True

    def choice(self, kind, lines, now):
        """A line for a row, and whether it is what the row asks for."""
        roll = self.chance.random()
        game = self.game
        if kind in ('wait', 'login'):
            named = [line for line in lines if line not in ('board', 'quit')]
            return (named[0], True) if named and now - self.last_row > 1 else None
        if kind == 'gone' and not self.game.is_invited_by(self.name, now - self.last_row):
            return None
        if kind in HINT_ALONE and kind != 'open' and roll < game.talks:
            line = self.chance.choice(TALK)
            return (line % self.other if '%s' in line else line), False
        if kind == 'hint' and roll < game.talks + game.leaves:
            return self.chance.choice(['bye', 'send leave']), True
        if kind == 'hint' and lines[0] != 'accept' and lines[0] != 'reject' and roll > 1 - game.resigns:
            return 'resign ' + self.chance.choice('nnngb'), True
        if kind == 'hint' and 'double' in lines:
            return ('double' if self.chance.random() < game.doubles else 'roll'), True
        if kind == 'next':
            return (lines[1] if self.chance.random() < game.leaves * 3 else lines[0]), True
        if kind in ('hint', 'answer', 'go on', 'old') and len(lines) > 1 and 'reject' in lines[1]:
            return self.chance.choice([lines[0], lines[0], lines[1]]), True
        if kind == 'go on' and len(lines) > 1:
            return self.chance.choice([lines[0], lines[0], lines[0], lines[1]]), True
        return lines[0], True

    def waits(self, now):
        """Nothing is named. If the server waits for him he asks for help once, and then he is stuck."""
        moment, link = self.game.room.now(), self.link()
        needed = moment.match is not None and moment.must_act(self.name) or moment.match is None and moment.is_saved \
            and len(moment.online) == 2
        idle = now - max(self.last_row, self.last_typed)
        if not needed or not link or link.is_over:
            return
        if idle > ASKS and not self.has_asked:
            self.has_asked = True
            self.counts['asked for help'] += 1
            self.type('help', 'idle')
        elif idle > STUCK:
            self.stuck(moment)

    def was_told(self, moment):
        """False if all that the server waits for is the answer to an offer to resign, or to a double that its boards
        hide, of which no row of this connection speaks: it was made while the player was away, or its text was cut off,
        and this server says it once."""
        match = moment.match
        is_hidden = match is not None and match.doubler is not None and self.game.habits.hides_doubles
        if match is None or match.resigner is None and not is_hidden:
            return True
        rows = list(self.rows)
        since = max((at for at, row in enumerate(rows) if row.startswith('connected to ')), default=0)
        return any(OF_OFFERS.search(row) for row in rows[since:] if not (SAID.match(row) or row.startswith(TYPED)))

    def stuck(self, moment):
        """The match stands still. It is helped on by what the server would take."""
        if self.was_told(moment):
            self.counts['stalls'] += 1
            self.stalls.append((moment.in_words(self.name), list(self.rows)[-60:]))
        else:
            self.counts['offers of which the server said nothing'] += 1
        self.has_asked = False
        if moment.match is None:
            self.type('invite ' + self.other, 'stuck')
            return
        line = moment.way_on(self.name)
        self.type('send ' + line, 'stuck')
        self.row = None
        self.rescue = asyncio.get_running_loop().call_later(0.5, self.type, line, 'stuck')
