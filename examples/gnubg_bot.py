#!/usr/bin/env python3
"""Plays matches at a server with the moves of GNU Backgammon: gnubg_bot.py HOST PORT NAME (--invite PLAYER POINTS |
--join PLAYER).

    echo secret | python3 examples/gnubg_bot.py localhost 4321 ann --invite bob 5

The password is the first line of standard input. One bot invites, the other one joins; both play until the match is
over, and answer doubles as GNU Backgammon says. If the connection is lost another one is made, and the match is
resumed.

Every decision goes through fibs.Client: it refuses what is not legal, lets each decision wait until the server shows
what came of it, and sends none again by itself. GNU Backgammon is asked over a local socket, and its answer is taken
only if it is a legal one: it hangs up at some cubes, and misreads some boards. Else the first listed play is made. An
opponent's offer to resign is not answered, since the client has no decision for it.

Printed are the decisions, what became of those that a lost connection left open, and the end. The status is 0 if the
match was played out, 1 if the other player did not come, 2 if a name or a number is not valid, 4 if there is no server,
no login or no GNU Backgammon.

It takes the package for Python (pip install ./python) and GNU Backgammon (Debian: apt-get install gnubg).
"""

import argparse
import pathlib
import re
import select
import shutil
import socket
import subprocess
import sys
import tempfile
import time

import fibs
from read_session import moved

ANSWERS = {'roll': fibs.ROLL, 'double': fibs.DOUBLE, 'take': fibs.ACCEPT, 'accept': fibs.ACCEPT, 'beaver': fibs.ACCEPT,
           'drop': fibs.REJECT, 'reject': fibs.REJECT, 'pass': fibs.REJECT}

# The commands that GNU Backgammon is given.
SCRIPT = """set automatic game off
set evaluation chequerplay evaluation plies {plies}
set evaluation cubedecision evaluation plies {plies}
external {path}
"""

STEP = re.compile(r'(bar|\d+)/(off|\d+)\*?(?:\((\d)\))?')


class Gnubg:
    """GNU Backgammon, which answers a board with what it would do."""

    def __init__(self, program, plies=2, patience=60):
        self.program, self.plies, self.patience = program, plies, patience
        self.folder = tempfile.TemporaryDirectory(prefix='gnubg')
        self.process = self.socket = None

    def close(self):
        """Ends it, if it runs."""
        if self.socket:
            self.socket.close()
        if self.process:
            self.process.kill()
            self.process.wait()
        self.process = self.socket = None

    def start(self):
        """Starts it, and connects to its socket."""
        folder = pathlib.Path(self.folder.name)
        path, script = folder / 'player', folder / 'commands'
        path.unlink(missing_ok=True)
        script.write_text(SCRIPT.format(plies=self.plies, path=path))
        self.process = subprocess.Popen([self.program, '-t', '-q', '-r', '-s', str(folder), '-c', str(script)],
                                        stdin=subprocess.DEVNULL, stdout=subprocess.DEVNULL, stderr=subprocess.DEVNULL)
        give_up = time.monotonic() + self.patience
        while time.monotonic() < give_up and self.process.poll() is None:
            player = socket.socket(socket.AF_UNIX)
            try:
                player.connect(str(path))
            except OSError:
                player.close()
                time.sleep(0.05)
                continue
            player.settimeout(self.patience)
            self.socket = player
            return
        raise OSError('%s does not answer' % self.program)

    def ask(self, line):
        """What it says of a board's line; the empty text if it hangs up. The next time it is started anew."""
        answer = b''
        try:
            if not self.socket:
                self.start()
            self.socket.sendall(line + b'\r\n')
            while not answer.endswith(b'\n'):
                piece = self.socket.recv(4096)
                if not piece:
                    break
                answer += piece
        except OSError:
            pass
        if not answer.endswith(b'\n'):
            self.close()
            return ''
        return answer.decode('latin-1').strip()


def flags_for_gnubg(board):
    """The turn, who may double, and whether the opponent has doubled, as GNU Backgammon takes them: an open double is
    the turn of the one who doubles, whose cube it is; and if nobody may double, it takes the board for that of a
    double."""
    if board.phase == fibs.Phase.ANSWER_DOUBLE:
        return -1, board.cube == 1, True, True
    nobody = not (board.may_double or board.opponent_may_double)
    return 1, board.may_double or nobody, board.opponent_may_double or nobody, False


def line_for_gnubg(board):
    """The board's line as GNU Backgammon reads it without fault: the player is O and goes from 24 to 1, names are
    none of its words, and the checkers on the bar are counted, wherever the server has them."""
    own, other = board.checkers, board.opponent_checkers
    places = [-other[25], *(own[place] - other[25 - place] for place in range(1, 25)), own[25]]
    turn, *flags = flags_for_gnubg(board)
    numbers = [board.length or fibs.UNLIMITED, board.score, board.opponent_score, *places, turn,
               *(board.dice or (0, 0)), 0, 0, board.cube, *flags, 1, -1, 0, 25, own[0], other[0], own[25], other[25],
               0, 0, board.field(52), 0]
    return b':'.join([b'board:You:opponent', *(b'%d' % number for number in numbers)])


def steps_of(answer):
    """The steps of an answer, such as `bar/21 6/off`, in the player's own numbering."""
    steps = []
    for source, target, count in STEP.findall(answer):
        step = [25 if end == 'bar' else 0 if end == 'off' else int(end) for end in (source, target)]
        steps += [tuple(step)] * int(count or 1)
    return steps


def play_of(board, answer):
    """The listed play that reaches what the answer reaches, or None."""
    try:
        wanted = moved(board.checkers, board.opponent_checkers, fibs.Decision.move(steps_of(answer)))
    except IndexError:
        return None
    sides = board.checkers, board.opponent_checkers
    return next((play for play in board.plays() if moved(*sides, play) == wanted), None)


def is_same_game(one, other):
    """True if two boards show the same game: all but the length of their tails (docs/FORMATS.md)."""
    fields = [*range(4, 7), *range(8, 32), *range(33, 44), 46, 47]
    return one.opponent == other.opponent and all(one.field(n) == other.field(n) for n in fields)


class Bot:
    """A player who talks to a server and to GNU Backgammon."""

    def __init__(self, options, password):
        self.options = options
        self.other, self.points = (options.invite[0], options.invite[1]) if options.invite else (options.join, None)
        self.gnubg = Gnubg(options.gnubg, options.plies)
        self.client = fibs.Client(options.name, password)
        self.players = fibs.Directory()
        self.server = None
        self.save = open(options.save, 'ab', buffering=0) if options.save else None
        # whether a match was begun, whether it is over, and whether the last decision was refused
        self.has_begun = self.is_over = self.is_refused = False
        # whether the server has taken the login, its last board, and what was toggled, on this connection
        self.is_in, self.board, self.toggled = False, None, []
        # when the last board was seen, the other player was looked for, a decision was sent, a connection was made
        self.seen = self.sought = self.sent = self.opened = time.monotonic()
        # the decision that a lost connection left open
        self.lost = None

    def close(self):
        """Ends all that it has."""
        self.gnubg.close()
        self.client.close()
        if self.save:
            self.save.close()

    def command(self, text):
        """Sends a command that decides nothing in the game."""
        self.server.sendall(self.client.plain(text))

    # -- connections --

    def run(self):
        """Plays until the match is over. The status."""
        tries = 0
        while not self.is_over:
            try:
                self.server = socket.create_connection((self.options.host, self.options.port), 10)
            except OSError as why:
                tries += 1
                if tries > self.options.tries:
                    say('no server: %s' % why)
                    return 4
                time.sleep(min(0.1 * 2 ** tries, 5))
                continue
            tries = 0
            with self.server:
                self.server.setsockopt(socket.IPPROTO_TCP, socket.TCP_NODELAY, 1)
                self.talk()
            if not self.is_in and not self.is_over and self.has_waited(self.opened):
                say('not logged in: the name or the password may be wrong')
                return 4
            if not self.is_over and self.has_waited(self.seen):
                say('%s does not come' % self.other)
                return 1
        return 0

    def talk(self):
        """One connection, up to its end."""
        self.players.clear()
        self.is_in, self.board, self.toggled, self.sought, tail = False, None, [], 0, b''
        self.opened = time.monotonic()
        try:
            self.server.sendall(self.client.open())
            while piece := self.piece():
                tail = piece
                self.hear(piece)
        except OSError:
            pass
        if self.save:
            # Half a line is not to be read with the first one of the next connection. If the connection ended within
            # a telnet command, the first line end goes to that. One after a CR never does.
            self.save.write(b'' if tail.endswith(b'\r\n') else b'\n\n')
        if self.board:
            self.seen = time.monotonic()
        self.lost = self.client.lose() or self.lost
        if not self.is_over:
            say('lost %s' % (self.lost.decision.command(self.lost.board.direction) if self.lost else '-'))

    def has_waited(self, since):
        """True if it has waited long enough."""
        return time.monotonic() - since > self.options.patience

    def is_stuck(self):
        """True if the decision that waits is not carried out any more, by what the server says or after a long time.
        The client refuses each other one, until a new connection shows the game."""
        return self.has_waited(self.sent) or self.is_refused and time.monotonic() - self.sent > 2

    def piece(self):
        """The next piece of what the server sends; nothing at the end, or if it is better to begin anew."""
        while True:
            ready, _, _ = select.select([self.server], [], [], 0.25)
            if ready:
                return self.server.recv(4096)
            if self.is_over:
                return b''
            if not self.is_in:
                if self.has_waited(self.opened):
                    return b''
            elif not self.board:
                if self.has_waited(self.seen):
                    return b''
                self.seek()
            elif self.client.waiting and self.is_stuck():
                return b''

    def seek(self):
        """Looks for the other player: invites him to go on with the match, if he is there, or asks who is. Who is to
        join invites too, if no invitation comes: perhaps the match is over, and he did not see its end."""
        player, waited = self.players.get(self.other), time.monotonic() - self.sought
        is_free = player and player.opponent in (None, self.options.name.encode())
        if is_free and waited > (1 if self.points else 10) and (self.points or self.has_begun):
            self.sought = time.monotonic()
            self.command('invite ' + self.other)
        elif not player and waited > 5:
            self.sought = time.monotonic()
            self.command('who')

    # -- what the server says --

    def hear(self, piece):
        """Takes what came, and answers it line by line."""
        if self.save:
            self.save.write(piece)
        for heard in self.client.feed(piece):
            self.server.sendall(heard.send)
            line = heard.line
            if line.kind == fibs.BOARD:
                if heard.confirmed:
                    say('confirmed %s' % heard.confirmed.command(line.board.direction))
                self.see(line.board)
            elif line.kind == fibs.MESSAGE:
                # other messages may come before: a server may tell everybody who logs in
                self.is_in = self.is_in or self.client.ready
                self.players.note(line.text)
                if line.number == 2:
                    self.set_up(line.fields)
            elif line.kind == fibs.TEXT and self.is_in:
                self.read(line.text.decode('latin-1').strip())

    def set_up(self, info):
        """Turns off what the server would play by itself, and is ready. The server says so at the next login. If it
        sends message 2 again before, nothing is toggled back."""
        is_wrong = {'ready': not info[16], 'automove': info[4], 'greedy': info[10]}
        toggled = [name for name in is_wrong if is_wrong[name] and name not in self.toggled]
        for name in toggled:
            self.command('toggle ' + name)
        self.toggled += toggled
        if 'automove' in toggled or 'greedy' in toggled:
            self.command('bye')

    def read(self, text):
        """A text may be an invitation, or say how the match goes on."""
        if re.fullmatch(r'%s wants to (resume|play) .* with you\.' % re.escape(self.other), text):
            self.command('join ' + self.other)
        elif re.match(r"Type 'join' if you want to play the next game", text):
            self.command('join')
        elif text.startswith("** There's no saved match with %s." % self.other):
            if self.has_begun:
                self.finish('the match is over; its end was not seen')
            elif self.points:
                self.command('invite %s %d' % (self.other, self.points))
        elif re.match(r'\*\* Player %s has left the game' % re.escape(self.other), text):
            self.board, self.seen = None, time.monotonic()
        elif text.startswith('** ') and self.client.waiting:
            self.is_refused = True
        elif re.match(r'(You win|%s wins) the \d+ point match' % re.escape(self.other), text):
            self.finish(text)

    def finish(self, how):
        """The match is over."""
        if not self.is_over:
            self.is_over = True
            say('over: %s' % how)
            self.command('bye')

    # -- the game --

    def see(self, board):
        """Answers a board."""
        if board.player != b'You':
            return
        self.board, self.has_begun, self.seen = board, True, time.monotonic()
        if self.lost:
            taken = not is_same_game(self.lost.board, board)
            say('the server %s %s' % ('took' if taken else 'did not take',
                                      self.lost.decision.command(self.lost.board.direction)))
            self.lost = None
        if not self.client.waiting:
            decision = self.decision(board)
            if decision:
                self.decide(board, decision)

    def decide(self, board, decision):
        """Sends a decision, if the client takes it."""
        try:
            command = self.client.decide(decision)
        except fibs.Refused as why:
            say('refused %s %s' % (why.name, decision.command(board.direction)))
            return
        say('decided %s' % decision.command(board.direction))
        self.sent, self.is_refused = time.monotonic(), False
        self.server.sendall(command)

    def decision(self, board):
        """What to do on a board, or None."""
        try:
            phase = board.phase
        except fibs.NoPosition:
            return None
        if phase == fibs.Phase.MOVE:
            answer = self.ask(board)
            play = play_of(board, answer)
            if not play:
                say('no play: %s' % answer)
            return play or board.plays()[0]
        if phase == fibs.Phase.ROLL_OR_DOUBLE:
            decision = ANSWERS.get(self.ask(board)) if board.may_double else None
            return decision if decision == fibs.DOUBLE else fibs.ROLL
        if phase == fibs.Phase.ANSWER_DOUBLE:
            decision = ANSWERS.get(self.ask(board))
            return decision if decision == fibs.REJECT else fibs.ACCEPT
        return None

    def ask(self, board):
        """What GNU Backgammon would do; the empty text if it has no answer."""
        return self.gnubg.ask(line_for_gnubg(board))


def say(text):
    print(text, flush=True)


def gnubg_program():
    """GNU Backgammon, or None."""
    return shutil.which('gnubg') or shutil.which('gnubg', path='/usr/games:/usr/local/games')


def options_of(words):
    """What the command line asks for."""
    options = argparse.ArgumentParser(description='Plays a match with the moves of GNU Backgammon.',
                                      epilog='The password is the first line of standard input.')
    options.add_argument('host')
    options.add_argument('port', type=int)
    options.add_argument('name')
    role = options.add_mutually_exclusive_group(required=True)
    role.add_argument('--invite', nargs=2, metavar=('PLAYER', 'POINTS'), help='invite a player to a match')
    role.add_argument('--join', metavar='PLAYER', help='play with a player who invites')
    options.add_argument('--save', metavar='FILE', help='append what the server sends to a file')
    options.add_argument('--gnubg', metavar='PROGRAM', default=gnubg_program(), help='GNU Backgammon')
    options.add_argument('--plies', type=int, default=2, choices=range(5), metavar='N',
                         help='how many plies GNU Backgammon looks ahead, 0 to 4 (2)')
    options.add_argument('--patience', type=float, default=120, metavar='SECONDS',
                         help='how long the other player may stay away, or a decision unanswered (120)')
    options.add_argument('--tries', type=int, default=10, help='how often to connect in vain (10)')
    found = options.parse_args(words)
    if found.invite:
        if not found.invite[1].isdigit():
            options.error('POINTS is a number')
        found.invite[1] = int(found.invite[1])
    return found


def main():
    options = options_of(sys.argv[1:])
    if not options.gnubg:
        say('there is no gnubg: apt-get install gnubg')
        return 4
    password = sys.stdin.buffer.readline().rstrip(b'\r\n')
    try:
        bot = Bot(options, password)
    except fibs.BadCommand as why:
        say('%s: %s' % (why.name, why))
        return 2
    try:
        bot.gnubg.start()
        return bot.run()
    except OSError as why:
        say(str(why))
        return 4
    except (fibs.BadCommand, fibs.NoCommand) as why:
        say('%s: %s' % (why.name, why))
        return 2
    except KeyboardInterrupt:
        return 130
    finally:
        bot.close()


if __name__ == '__main__':
    sys.exit(main())
