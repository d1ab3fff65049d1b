"""Scripted clients for the tests of the server, and the server that they talk to.

A client reads each line by tests/props/reference.py, which has the formats and the rules of its own, and decides by
the board alone, as docs/FORMATS.md has its phases. Each line is checked as it comes.
"""

import pathlib
import random
import re
import select
import socket
import subprocess
import sys
import time

ROOT = pathlib.Path(__file__).resolve().parent.parent.parent
sys.path.insert(0, str(ROOT / 'tests'))

from props import reference
from props.checks import PATIENCE, Failed, same


class Served:
    """The server, as a program of its own."""

    def __init__(self, *options):
        self.program = subprocess.Popen([sys.executable, '-B', str(ROOT / 'examples' / 'fibs_server'), '0', *options],
                                        stdout=subprocess.PIPE, stderr=subprocess.PIPE)
        line = self.program.stdout.readline()
        if not line:
            raise Failed('the server did not begin: %s' % self.program.stderr.read().decode())
        self.port = int(line)

    def close(self):
        """Ends it; what it said of itself is a fault."""
        self.program.terminate()
        _, said = self.program.communicate(timeout=PATIENCE)
        if said:
            raise Failed('the server said %s' % said.decode()[-600:])


class Client:
    """A connection that is a player's, or that may become one."""

    def __init__(self, port, name=None, password='secret', style='3'):
        self.port, self.name, self.password, self.style = port, name, password, style
        self.connect()
        if name:
            self.log_in()

    def connect(self):
        self.socket = socket.create_connection(('127.0.0.1', self.port))
        self.socket.setsockopt(socket.IPPROTO_TCP, socket.TCP_NODELAY, 1)
        self.raw, self.read, self.at = b'', [], 0
        self.is_over = False

    def log_in(self):
        self.send('login tests 1008 %s %s' % (self.name, self.password))
        self.sees('6')
        if self.style:
            self.send('set boardstyle ' + self.style)

    def send(self, *lines):
        try:
            self.socket.sendall(b''.join(line.encode() + b'\r\n' for line in lines))
        except OSError:
            self.is_over = True

    def take(self, seconds):
        """Reads what comes within so many seconds. False if nothing did."""
        if self.is_over or not select.select([self.socket], [], [], seconds)[0]:
            return False
        try:
            piece = self.socket.recv(65536)
        except OSError:
            piece = b''
        if not piece:
            self.is_over = True
            return False
        self.raw += piece
        lines, _ = reference.lines_of(self.raw)
        self.read = [line.decode('latin-1') for line, _ in lines]
        return True

    def next(self, seconds=PATIENCE):
        """The next line, or None at the end of the connection."""
        end = time.monotonic() + seconds
        while self.at == len(self.read):
            if self.is_over:
                return None
            if not self.take(max(0, end - time.monotonic())) and time.monotonic() > end:
                raise Failed('no line came to %s after %r' % (self.name, self.read[-3:]))
        self.at += 1
        return self.read[self.at - 1]

    def sees(self, *wanted):
        """Reads on to lines that are, or begin with, these; one after the other. The last of them."""
        line = None
        for text in wanted:
            passed = []
            while not (line := self.next()) == text and not (text.endswith('..') and line.startswith(text[:-2])):
                passed.append(line)
                if line is None:
                    raise Failed('the connection of %s ended before %r, after %r' % (self.name, text, passed[-8:]))
        return line

    def shown(self, *wanted):
        """Reads on to texts anywhere in what comes, as one sees them who has no client."""
        end, at = time.monotonic() + PATIENCE, 0
        for text in wanted:
            while (found := self.raw.find(text.encode(), at)) < 0:
                if self.is_over or not self.take(max(0, end - time.monotonic())):
                    raise Failed('%r does not come after %r' % (text, self.raw[-200:]))
            at = found + len(text)

    def answers(self, line, *wanted):
        """A line is sent, and the lines that come are just these; `..` means whatever follows."""
        self.send(line)
        for text in wanted:
            found = self.next()
            if text.endswith('..') and found is not None and found.startswith(text[:-2]):
                continue
            same('%s: the answer to %r' % (self.name, line), found, text)

    def quiet(self, seconds=0.2):
        """Nothing more comes."""
        while self.take(seconds):
            pass
        same('nothing more comes to %s' % self.name, self.read[self.at:], [])

    def catches_up(self):
        """All that was sent to it up to now is read, and of no interest: the answer to a last line ends it."""
        self.send('version')
        self.sees('fibs_server of Liftplum')

    def forget(self, seconds=0.1):
        """What has come is of no interest."""
        while self.take(seconds):
            pass
        self.at = len(self.read)

    def close(self):
        self.socket.close()


class Gambler(Client):
    """A client that plays by itself: it decides at random on each new board, and checks what the board says."""

    def __init__(self, port, name, seed, doubles=0.0, resigns=0.0):
        self.chance = random.Random('%s %s' % (seed, name))
        self.doubles, self.resigns = doubles, resigns
        # the last board, the position that his own play has to lead to, and what the match has come to
        self.board, self.expected, self.decided = None, None, None
        self.games, self.boards, self.result, self.wins, self.crawford = [], 0, None, None, []
        super().__init__(port, name)
        self.forget()

    def hear(self, line):
        """Reads a line, and answers."""
        if line.startswith('board:'):
            self.hear_board(line)
        elif re.match(r'.* wants to resign\. You will win', line):
            self.send(self.chance.choice(['accept', 'reject']))
        elif line.endswith('rejects. The game continues.'):
            self.decided = None
            self.decide()
        elif line.startswith("Type 'join' if you want"):
            self.send('join')
        elif re.match(r'(You win|%s wins) the \d+ point match' % self.opponent(), line):
            self.result = line
        elif re.match(r'[1-9]', line):
            reference.read_message(line.encode())

    def opponent(self):
        return self.board.fields[3].decode() if self.board else '-'

    def hear_board(self, line):
        board = reference.Board(reference.read_board(line.encode()))
        same('the board is one with a position', board.fault(), None)
        fields, position = board.fields, board.position()
        same('the checkers on the bar', (fields[48], fields[49]), (position[0][25], position[1][25]))
        bars = fields[32 if fields[43] == -1 else 7], fields[7 if fields[43] == -1 else 32]
        same('the bars as places', bars, (fields[42] * fields[48], -fields[42] * fields[49]))
        if board.phase() in ('Move', 'Passing'):
            can_move = reference.most(position, board.dice())
            same('how many can be moved', fields[50], can_move)
        if self.expected and fields[33] != fields[42]:
            same('the board after his own play', position, self.expected)
            self.expected = None
        if fields[33] == 0:
            self.end_game(board)
        self.boards += 1
        self.board = board
        self.decide()

    def end_game(self, board):
        """A game is over: what it was worth."""
        before = self.board.fields
        score = board.fields[5], board.fields[6]
        won = score[0] - before[5], score[1] - before[6]
        off = board.fields[46], board.fields[47]
        by_bearing_off = 15 in off
        self.games.append((won, off, before[38], by_bearing_off, board))
        self.crawford.append((before[39], before[40]))
        self.expected = None

    def decide(self):
        """Decides once on each board."""
        board = self.board
        if board.printed == self.decided:
            return
        self.decided = board.printed
        phase = board.phase()
        if phase in ('RollOrDouble', 'Move') and self.chance.random() < self.resigns:
            self.send('resign ' + self.chance.choice('ngb'))
        elif phase == 'RollOrDouble':
            may = board.fields[39] == 1
            self.send('double' if may and self.chance.random() < self.doubles else 'roll')
        elif phase == 'AnswerDouble':
            self.send(self.chance.choice(['accept', 'accept', 'reject']))
        elif phase == 'Move':
            self.move(board)

    def move(self, board):
        """Any of the legal plays, in any order of its steps."""
        position = board.position()
        play = self.chance.choice(sorted(reference.legal_plays(position, board.dice())))
        for source, target in play:
            position = reference.after_step(position, source, target)
        self.expected = position
        self.send(reference.print_decision(play, board).decode())


def play(*clients, seconds=PATIENCE * 3):
    """Lets clients play until each has heard the result of a match."""
    end = time.monotonic() + seconds
    while any(client.result is None for client in clients):
        if time.monotonic() > end:
            raise Failed('the match does not end; the last lines are %r' % [client.read[-4:] for client in clients])
        ready, _, _ = select.select([client.socket for client in clients], [], [], 1)
        for client in clients:
            if client.socket in ready:
                client.take(0)
                while client.at < len(client.read):
                    client.hear(client.next())
