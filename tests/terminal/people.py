"""One who plays at a terminal, and reads there what may be typed: the helpers of the scenes.

The player is ann, at a real pseudo-terminal on which the built program runs, by itself or by fibs-play. Her opponent
bob is a scripted client of tests/server, so that he can do the right thing at the wrong moment.
"""

import os
import pathlib
import re
import sys
import tempfile
import time

ROOT = pathlib.Path(__file__).resolve().parent.parent.parent
sys.path[:0] = [str(ROOT / 'tests'), str(ROOT / 'tests' / 'server')]

from clients import Client, Served
from props.checks import PATIENCE, Failed, same
from props.listener import OWN_INFO, WELCOME, Listener
from terminals import PASSWORD, PLAY, Terminal
from words import REFUSED, read

PROGRAM = os.path.realpath(sys.argv[1]) if len(sys.argv) > 1 else ''

ROOM = tempfile.TemporaryDirectory()
PASSWORD_FILE = os.path.join(ROOM.name, 'password')
pathlib.Path(PASSWORD_FILE).write_text(PASSWORD + '\n')

# How long a row of advice may take to come.
SOON = 60

# What a terminal that knows bold letters is sent for them.
BOLD = re.compile(r'\x1b\[[0-9;]*m')

# What rlwrap draws is its own: this is all that is no text.
DRAWN = re.compile(r'\x1b\[[0-9;?]*[a-zA-Z@]|\x1b[=>]|\r|\x07')

# What the program sends first, and then if it is greeted.
LOGIN = 'login fibs_client 1008 ann ' + PASSWORD
FIRST = [LOGIN, 'set boardstyle 3', 'board']

# A far server: what it sends takes a while, and comes in pieces between which the screen rests.
FAR = '--delay', '60', '--portions', '60', '--pause', '25'


class Reader(Terminal):
    """One who reads the lines of a terminal."""

    def __init__(self, command, columns=80, rows=24, **more):
        super().__init__(command, columns, rows, **{'FIBS_QUIET': '1', 'LC_ALL': 'C', 'TZ': 'UTC', **more})
        # the lines that were taken from the screen, up to which byte of it, and how many of them were read
        self.taken, self.taken_to, self.read_to = [], 0, 0

    def lines(self):
        """The whole lines of the screen, without what makes letters bold."""
        return BOLD.sub('', self.screen()).split('\n')[:-1]

    def next_line(self, seconds=PATIENCE):
        """The next line of the screen."""
        end = time.monotonic() + seconds
        while self.read_to == len(self.taken):
            with self.news:
                whole = self.seen.rfind(b'\n') + 1
                if whole <= self.taken_to:
                    if not self.news.wait(min(1, max(0, end - time.monotonic()))) and time.monotonic() >= end:
                        raise Failed('nothing more is shown after %r' % self.taken[-6:])
                    continue
                piece = bytes(self.seen[self.taken_to:whole])
            self.taken_to = whole
            self.taken += BOLD.sub('', piece.decode('latin-1').replace('\r\n', '\n')).split('\n')[:-1]
        self.read_to += 1
        return self.taken[self.read_to - 1]

    def reads(self, text, seconds=PATIENCE):
        """Reads on to a line that has a text; the line."""
        end = time.monotonic() + seconds
        while text not in (line := self.next_line(max(0.01, end - time.monotonic()))):
            pass
        return line

    def advised(self, kind, *wanted, seconds=SOON):
        """Reads on to a row of this kind that names a line for each of these beginnings: those lines."""
        end = time.monotonic() + seconds
        while True:
            found, lines = read(self.next_line(max(0.01, end - time.monotonic())))
            named = [line for text in wanted or [''] for line in lines if line.startswith(text)]
            if found == kind and len(named) >= len(wanted):
                return named

    def answered_and_advised(self, text, kind, wanted, seconds=PATIENCE):
        """Reads on to a line that has a text, and to a row of this kind that names a line that begins so, whichever
        comes first: that line."""
        end, named, is_answered = time.monotonic() + seconds, None, False
        while not is_answered or named is None:
            line = self.next_line(max(0.01, end - time.monotonic()))
            found, lines = read(line)
            is_answered |= text in line
            if found == kind:
                named = next((it for it in lines if it.startswith(wanted)), named)
        return named

    def rows_of(self, kinds, seconds):
        """The rows of these kinds that are read within so many seconds."""
        found, end = [], time.monotonic() + seconds
        while (left := end - time.monotonic()) > 0:
            try:
                row = self.next_line(left)
            except Failed:
                break
            if read(row)[0] in kinds:
                found.append(row)
        return found

    def hint(self):
        """The line that the next hint names first."""
        return self.advised('hint')[0]

    def types_what(self, kind, *wanted):
        """Types the line that a row of this kind names, the first of those that begin so: the line."""
        line = self.advised(kind, *wanted)[0]
        self.type(line)
        return line

    def was_refused(self):
        """The lines that say of something that it was not done."""
        return [line for line in self.lines() if REFUSED.fullmatch(line)]

    def was_not_refused(self):
        same('what was refused', self.was_refused(), [])


class Person(Reader):
    """One who plays with the program alone."""

    def __init__(self, port, name='ann', words=(), columns=80, rows=24, host='127.0.0.1', **more):
        command = [PROGRAM, 'connect', '--password-file', PASSWORD_FILE, *words, host, str(port), name]
        super().__init__(command, columns, rows, **more)


class Typist(Reader):
    """One who has begun fibs-play."""

    def __init__(self, words, kind='xterm', shell=(), play=PLAY, password=True, columns=80, **more):
        home = tempfile.mkdtemp(dir=ROOM.name)
        super().__init__([*shell, play, *words], columns, **{
            'TERM': kind, 'FIBS': PROGRAM, 'HOME': home, 'RLWRAP_HOME': home, **more})
        self.home = pathlib.Path(home)
        if password:
            self.sees('password: ')
            same('the terminal shows what is typed', self.echoes(), False)
            self.type(PASSWORD)

    def plain(self):
        return DRAWN.sub('', self.screen())

    def is_shown(self, text, count=1, seconds=PATIENCE):
        """Waits until a text is on the screen so often, whatever is drawn between its letters."""
        end = time.monotonic() + seconds
        while self.plain().count(text) < count:
            if time.monotonic() > end:
                raise Failed('%r is not shown: %r' % (text, self.plain()[-300:]))
            with self.news:
                self.news.wait(0.2)


def begun(server, kind='dumb', options=(), **more):
    """One who has begun fibs-play, at this server."""
    return Typist([*options, '127.0.0.1', str(server.port), 'ann'], kind, **more)


class Table:
    """A server that has these habits, bob at it, and ann at a terminal."""

    def __init__(self, *options, words=(), **more):
        self.server = Served(*options)
        self.bob = Client(self.server.port, 'bob')
        self.ann = Person(self.server.port, words=words, **more)
        self.ann.reads('Welcome, ann')
        self.bob.sees('7 ann ..')

    def begins(self, points=3):
        """Ann invites, bob joins; with the dice 31 it is her move."""
        self.ann.type('invite bob %d' % points)
        self.bob.sees("Type 'join ann' to accept.")
        self.bob.send('join ann')
        self.bob.sees('Starting a new game with ann.')

    def resumes(self):
        """The match that was saved goes on."""
        self.ann.type('invite bob')
        self.bob.sees("Type 'join ann' to accept.")
        self.bob.send('join ann')
        self.bob.sees('turn: ..')

    def comes_again(self):
        """Ann says goodbye and connects again, as the screen has it."""
        self.ann.takes_leave('bye', ['sent bye'])
        self.ann.types_what('open', 'open')
        self.ann.reads('Welcome, ann')

    def close(self):
        self.ann.close()
        self.bob.close()
        self.server.close()


def named(scene, does, more=''):
    """The scene, with the name of what it does."""
    scene.__name__ = does.__name__ + more
    return scene


def at_a_table(*options, **more):
    """A decorator: the scene is given a table at a server with these options."""
    def decorated(does):
        def scene():
            table = Table(*options, **more)
            try:
                does(table)
            finally:
                table.close()
        return named(scene, does)
    return decorated


def near_and_far(scenes, *options):
    """A decorator: the scene is played twice, over a wire of this machine and over a far one; both are added."""
    def decorated(does):
        scenes.append(at_a_table(*options)(does))
        scenes.append(named(at_a_table(*options, *FAR)(does), does, '_far_away'))
        return does
    return decorated


# -- a listener, by which a scene says each line itself --------------------------------------------------------------

def logs_in(server):
    """The next connection begins with ann's login."""
    server.accept()
    same('the login', server.line(), LOGIN)


def greeted(server, ann=None, listed=(), **more):
    """Ann at a terminal, greeted by a server that does what a test says, and that may list players behind it."""
    ann = ann or Person(server.port, **more)
    logs_in(server)
    server.send(WELCOME, OWN_INFO % 'ann', *listed)
    same('the first commands', [server.line(), server.line()], FIRST[1:])
    ann.reads('Welcome, ann')
    return ann


def has_received(server, *lines):
    """At the end of a connection the server has received the first lines, these, and not a byte more."""
    while server.line() is not None:
        pass
    same('all that was received', (server.received, server.unread), ([*FIRST, *lines], b''))
    server.received.clear()


def leaves(ann, server, *lines):
    """Ann quits, and the server has received these lines and no more."""
    ann.quits()
    has_received(server, *lines)
    ann.close()


def with_listener(scene):
    """A decorator: the scene is given a server of its own."""
    def run():
        server = Listener()
        try:
            scene(server)
        finally:
            server.close()
    run.__name__ = scene.__name__
    return run
