#!/usr/bin/env python3
"""Tests the built program's `connect` on real sockets: tests/connect.py PROGRAM

It plays both ends: it types what a player types, and is the server. It goes on when a line was printed, and not by
the clock, so that a busy machine changes nothing. One case measures how long the program waits for a quiet server,
with a wide window. Prints a line for each case, and then `N passed, M failed`.
"""

import concurrent.futures
import contextlib
import os
import pathlib
import queue
import signal
import socket
import subprocess
import sys
import tempfile
import threading
import time

from props import peeking
from props.checks import PATIENCE, Failed, same
from props.listener import keeps_port
from props.server import OWN_INFO, WHO_INFO, Game, Server

PROGRAM = sys.argv[1]

WELCOME = '1 ann 1041253132 localhost'

LOGIN = 'login fibs_client 1008 ann secret'

STYLE = 'set boardstyle 3'

# How many cases are played at the same time: they wait most of the time.
BESIDE = 6


class Player:
    """The program, and a player who types at it."""

    # Those that were begun.
    running = []

    def __init__(self, port, host='127.0.0.1', name='ann', password='secret'):
        self.program = subprocess.Popen(
            [PROGRAM, 'connect', host, str(port), name],
            stdin=subprocess.PIPE, stdout=subprocess.PIPE, stderr=subprocess.PIPE)
        self.printed = []
        self.lines = queue.Queue()
        self.reader = threading.Thread(target=self.read, daemon=True)
        self.reader.start()
        self.running.append(self)
        self.type(password)

    def read(self):
        """Hands on each line that is printed, and the end."""
        for line in self.program.stdout:
            self.lines.put(line.decode('latin-1'))
        self.lines.put(None)

    def type_bytes(self, typed):
        """Types bytes."""
        self.program.stdin.write(typed)
        self.program.stdin.flush()

    def type(self, line):
        """Types a line."""
        self.type_bytes(line.encode('latin-1') + b'\n')

    def line(self, seconds=PATIENCE):
        """The next line that is printed within so many seconds."""
        line = self.lines.get(timeout=seconds)
        if line is None:
            raise Failed('the program ended with the status %s' % self.program.wait(PATIENCE))
        return line

    def next_line(self):
        """The next line that is printed. If it is slow to come, an empty line hears the server once more."""
        end = time.monotonic() + PATIENCE
        while time.monotonic() < end:
            try:
                return self.line(2)
            except queue.Empty:
                # at the end of what is typed the program goes on by itself
                if not self.program.stdin.closed:
                    self.type('')
        raise Failed('no line came after %r' % self.printed[-3:])

    def sees(self, *lines):
        """The next lines that are printed have to be these."""
        for wanted in lines:
            line = self.next_line()
            self.printed.append(line)
            same('printed', line, wanted + '\n')

    def ends(self, status=0, said=''):
        """At the end of what is typed nothing more is printed, and the program ends so."""
        self.program.stdin.close()
        same('the status', self.program.wait(PATIENCE), status)
        self.reader.join(PATIENCE)
        same('printed at the end', self.lines.get(timeout=PATIENCE), None)
        same('said', self.program.stderr.read().decode('latin-1'), said)
        self.stop()

    def quits(self):
        """The player leaves."""
        self.type('quit')
        self.ends()

    def stop(self):
        """Whatever it does, it is over."""
        self.program.kill()
        self.program.wait()
        for pipe in (self.program.stdin, self.program.stdout, self.program.stderr):
            try:
                pipe.close()
            except OSError:
                pass


def run(arguments, typed):
    """A run of the program on these words and bytes: status, output, what it says."""
    done = subprocess.run([PROGRAM, 'connect'] + arguments, input=typed, capture_output=True, timeout=PATIENCE)
    return done.returncode, done.stdout.decode('latin-1'), done.stderr.decode('latin-1')


# The sockets that keep the ports on which nothing listens.
KEPT = []


def free_port(port=0):
    """A port on which nothing listens, this one or any."""
    KEPT.append(keeps_port(port))
    return KEPT[-1].getsockname()[1]


def logged_in(server, name='ann'):
    """A player whose login the server has read."""
    player = Player(server.port, name=name)
    server.accept()
    same('received', server.line(), 'login fibs_client 1008 %s secret' % name)
    return player


def greeted(server):
    """The same, with the first message sent and answered."""
    player = logged_in(server)
    server.send(WELCOME)
    player.type('')
    same('received', server.line(), STYLE)
    player.sees('message ' + WELCOME)
    return player


# -- a game ----------------------------------------------------------------------------------------------------------

def a_game_from_login_to_the_end_with_a_lost_connection_in_the_middle(server):
    greeting = ['message ' + line for line in (WELCOME, OWN_INFO % 'ann', '3')]
    greeting += ['text Welcome.', 'message 4']
    greeting += ['message ' + line for line in WHO_INFO] + ['message 6', 'text ** Done.']
    game = Game([5, 3], [22, 23], [[2, 1], [1, 1], [6, 5]])
    player = Player(server.port)
    server.accept()
    same('the player', server.log_in(), 'ann')
    player.type('')
    server.serve(game, 2)
    player.sees(*greeting, game.board(), 'phase RollOrDouble')
    player.type('players')
    player.sees('player ann 1500.00', 'player bob 1623.50')
    for typed, answer in (
            ('open', 'refused 1 AlreadyOpen'), ('double', 'refused 8 WrongKind'),
            ('move 5-3 3-2', 'refused 8 WrongKind'), ('dance', 'unknown'),
            ('say ' + 'a' * 401, 'fault 3 TooLong'), ('toggle greedy', 'refused 10 NotOn')):
        player.type(typed)
        player.sees(answer)
    player.type('roll')
    server.serve(game, 1)
    player.sees('sent roll', 'text ** You roll 2 and 1.', game.board(), 'phase Move', 'confirmed roll')
    player.type('roll')
    player.sees('refused 8 WrongKind')
    player.type('move 5-1 3-2')
    player.sees('refused 9 IllegalPlay')
    player.type('move 5-3 3-2')
    same('received', server.line(), 'move 5-3 3-2')
    boards = game.answer(['move', '5-3', '3-2'])
    server.send(*boards)
    player.sees('sent move 5-3 3-2', boards[0], 'phase OpponentActs', 'confirmed move 5-3 3-2')
    player.sees(boards[1], 'phase OpponentActs', boards[2], 'phase RollOrDouble')
    player.type('say good luck')
    server.serve(game, 1)
    player.sees('sent say good luck', 'message 16 bob good luck', 'message 12 bob And to you.')
    player.type('roll')
    same('received', server.line(), 'roll')
    text, board = game.answer(['roll'])
    server.send(text)
    server.send_bytes(board.encode()[:40])
    server.drop()
    player.sees('sent roll', 'text ** You roll 6 and 5.', 'lost roll')
    player.type('roll')
    player.sees('refused 2 Offline')
    player.type('players')
    player.sees('player ann 1500.00', 'player bob 1623.50')
    player.type('open')
    server.accept()
    same('the player', server.log_in(), 'ann')
    player.type('')
    server.serve(game, 2)
    player.sees(*greeting, board, 'phase Move')
    player.type('move 3-off 2-off')
    server.serve(game, 1)
    player.sees('sent move 3-off 2-off', game.board(), 'phase Over', 'confirmed move 3-off 2-off')
    player.type('bye')
    server.serve(game)
    player.sees('sent bye', 'lost')
    player.quits()
    same('all that was received', server.received, [
        LOGIN, STYLE, 'board', 'roll', 'move 5-3 3-2', 'say good luck', 'roll',
        LOGIN, STYLE, 'board', 'move 3-off 2-off', 'bye'])
    if any('secret' in line for line in player.printed):
        raise Failed('the password was printed')


# -- connections -----------------------------------------------------------------------------------------------------

def nothing_listens_on_the_port(_server):
    same('the run', run(['127.0.0.1', str(free_port()), 'ann'], b'secret\nroll\nquit\n'),
         (0, 'no connection\nrefused 2 Offline\n', ''))


def a_listener_that_has_not_accepted_yet(server):
    same('the run', run(['127.0.0.1', str(server.port), 'ann'], b'secret\n\nquit\n'), (0, '', ''))
    server.accept()
    same('received', server.line(), LOGIN)
    same('the end', (server.line(), server.unread), (None, b''))


def the_end_of_what_is_typed_is_as_quit(server):
    for typed in (b'secret', b'secret\r\n', b'secret\n\n', b'secret\nquit', b'secret\nquit\r\nroll\n'):
        same('the run', run(['127.0.0.1', str(server.port), 'ann'], typed), (0, '', ''))
        server.accept()
        same('received', server.line(), LOGIN)
        same('the end', server.line(), None)


def a_host_by_its_name(server):
    same('the run', run(['localhost', str(server.port), 'ann'], b'secret\n'), (0, '', ''))
    server.accept()
    same('received', server.line(), LOGIN)


def a_host_by_an_address_of_version_6(_server):
    if not socket.has_ipv6:
        return
    try:
        listener = socket.create_server(('::1', 0), family=socket.AF_INET6)
    except OSError:
        return
    same('the run', run(['::1', str(listener.getsockname()[1]), 'ann'], b'secret\n'), (0, '', ''))
    connection, _ = listener.accept()
    same('received', connection.makefile('rb').read(), LOGIN.encode() + b'\r\n')
    connection.close()
    listener.close()


def a_host_of_which_one_address_alone_answers(_server):
    for family, _, _, _, (address, *_) in socket.getaddrinfo('localhost', 0, type=socket.SOCK_STREAM):
        try:
            listener = socket.create_server((address, 0), family=family)
        except OSError:
            continue
        with listener:
            same('the run', run(['localhost', str(listener.getsockname()[1]), 'ann'], b'secret\n'), (0, '', ''))
            connection, _ = listener.accept()
            with connection:
                same('received', connection.makefile('rb').read(), LOGIN.encode() + b'\r\n')


def the_least_port_and_the_greatest(_server):
    status, _out, said = run(['127.0.0.1', '1', 'ann'], b'secret\n')
    same('the run at 1', (status, said), (0, ''))
    try:
        listener = socket.create_server(('127.0.0.1', 65535))
    except OSError:
        return
    with listener:
        same('the run at 65535', run(['127.0.0.1', '65535', 'ann'], b'secret\n'), (0, '', ''))
        connection, _ = listener.accept()
        with connection:
            same('received', connection.makefile('rb').read(), LOGIN.encode() + b'\r\n')


def hosts_that_are_none(_server):
    for host in ('', 'no host', '255.255.255.255'):
        same('the run at %r' % host, run([host, '4321', 'ann'], b'secret\nroll\n'),
             (0, 'no connection\nrefused 2 Offline\n', ''))


def ports_that_are_none(_server):
    for port in ('0', '65536', '-1', '', 'fibs', '4321x', '99999999999999999999'):
        status, out, said = run(['127.0.0.1', port, 'ann'], b'secret\n')
        same('the run at %r' % port, (status, out, said.startswith('error: ')), (2, '', True))


def one_who_opens_again_where_nothing_listens_any_more(server):
    player = greeted(server)
    server.send(*WHO_INFO)
    player.type('')
    player.sees(*('message ' + line for line in WHO_INFO))
    server.close()
    free_port(server.port)
    player.type('')
    player.sees('lost')
    player.type('open')
    player.sees('no connection')
    player.type('players')
    player.sees('player ann 1500.00', 'player bob 1623.50')
    player.quits()


def players_are_forgotten_at_a_new_connection(server):
    player = greeted(server)
    server.send(WHO_INFO[1], WHO_INFO[0], '8 bob bob logs out.')
    player.type('')
    player.sees(*('message ' + line for line in (WHO_INFO[1], WHO_INFO[0], '8 bob bob logs out.')))
    player.type('players')
    player.sees('player ann 1500.00')
    server.drop()
    player.type('')
    player.sees('lost')
    player.type('open')
    server.accept()
    same('received', server.line(), LOGIN)
    player.type('players')
    player.type('open')
    player.sees('refused 1 AlreadyOpen')
    player.quits()


# -- logins ----------------------------------------------------------------------------------------------------------

def passwords_and_names_that_are_none(server):
    rows = [
        ('ann', b'', 'fault 2 BadText\n'), ('ann', b'\n', 'fault 2 BadText\n'), ('ann', b'\r\n', 'fault 2 BadText\n'),
        ('ann', b'a b\n', 'fault 2 BadText\n'), ('ann', b'\xff\n', 'fault 2 BadText\n'),
        ('ann', b'a' * 65 + b'\n', 'fault 3 TooLong\n'), ('ann', b'a' * 3000000, 'fault 3 TooLong\n'),
        ('ann', b' ' * 65 + b'\n', 'fault 3 TooLong\n'), ('a:b', b'\n', 'fault 1 BadName\n'),
        ('a b', b'secret\n', 'fault 1 BadName\n'), ('', b'secret\n', 'fault 1 BadName\n'),
        ('a' * 65, b'secret\n', 'fault 1 BadName\n'),
    ]
    for name, typed, said in rows:
        same('the run of %r, %r' % (name[:9], typed[:9]), run(['127.0.0.1', str(server.port), name], typed),
             (3, '', said))
    server.is_alone()


def the_longest_password(server):
    """As it is typed, and as the first line of a file, with whatever line end, and of a pipe with a name. A longer one
    is not cut."""
    longest = b'a' * 64
    with tempfile.TemporaryDirectory() as room:
        path, pipe = os.path.join(room, 'password'), os.path.join(room, 'pipe')
        os.mkfifo(pipe)
        for held in longest, longest + b'\n', longest + b'\r\n', longest + b'\nroll\nsay hi\n':
            pathlib.Path(path).write_bytes(held)
            threading.Thread(target=pathlib.Path(pipe).write_bytes, args=(held,), daemon=True).start()
            for words in ['--password-file', path], ['--password-file', pipe]:
                same('the run', run([*words, '127.0.0.1', str(server.port), 'ann'], b''), (0, '', ''))
                server.accept()
                same('received', [server.line(), server.line()], ['login fibs_client 1008 ann ' + 'a' * 64, None])
        for length in 65, 70, 5000:
            pathlib.Path(path).write_bytes(b'a' * length + b'\n')
            ended = run(['--password-file', path, '127.0.0.1', str(server.port), 'ann'], b'')
            same('the run with %d bytes' % length, ended, (3, '', 'fault 3 TooLong\n'))
        same('the run', run(['127.0.0.1', str(server.port), 'ann'], longest + b'\r\n'), (0, '', ''))
        server.accept()
        same('received', server.line(), 'login fibs_client 1008 ann ' + 'a' * 64)


# -- what a server sends ---------------------------------------------------------------------------------------------

def the_first_message_is_answered(server):
    greeted(server).quits()
    same('the end', (server.line(), server.unread), (None, b''))


def a_player_is_noted(server):
    player = greeted(server)
    told = '5 someplayer mgnu_advanced - 0 0 1912.15 827 8 1040515752 192.168.143.5 3DFiBs -'
    server.send(told)
    player.type('')
    player.sees('message ' + told)
    player.type('players')
    player.sees('player someplayer 1912.15')
    player.quits()


def a_server_that_closes_at_once(server):
    player = Player(server.port)
    server.accept()
    server.drop()
    player.type('')
    player.sees('lost')
    player.type('open')
    server.accept()
    same('received', server.line(), LOGIN)
    player.quits()


def a_server_that_resets_the_connection(server):
    player = greeted(server)
    server.reset()
    player.type('')
    player.sees('lost')
    player.type('roll')
    player.sees('refused 2 Offline')
    player.quits()


def a_connection_that_ends_within_a_line(server):
    for cut in (1, 2, 7, len(WELCOME), len(WELCOME) + 1):
        player = logged_in(server)
        server.send_bytes((WELCOME + '\r\n').encode()[:cut])
        server.drop()
        player.type('')
        player.sees('lost')
        player.quits()


def a_line_that_comes_byte_by_byte(server):
    player = logged_in(server)
    for byte in ('login: ' + WELCOME + '\r\n').encode():
        server.send_bytes(bytes([byte]))
    player.type('')
    same('received', server.line(), STYLE)
    player.sees('message ' + WELCOME)
    player.quits()


def a_flood_of_lines(server):
    player = greeted(server)
    sender = threading.Thread(target=server.send, args=['nice roll %d' % i for i in range(300000)])
    sender.start()
    player.type('')
    player.sees(*('text nice roll %d' % i for i in range(300000)))
    sender.join()
    player.type('dance')
    player.sees('unknown')
    player.quits()


def a_line_of_megabytes(server):
    player = greeted(server)
    sender = threading.Thread(target=server.send, args=['a' * 5000000, '12 bob hi'])
    sender.start()
    player.type('')
    player.sees('cut ' + 'a' * 16384, 'message 12 bob hi')
    sender.join()
    player.quits()


def a_server_that_says_nothing(server):
    player = logged_in(server)
    for _ in range(3):
        player.type('dance')
        player.sees('unknown')
    player.type('roll')
    player.sees('refused 3 NotReady')
    player.quits()


def a_quiet_server_is_waited_for_half_a_second(server):
    """Each command leaves at once, and a server that is gone without a word is known to be gone within two minutes."""
    player = logged_in(server)
    found = peeking.options(player.program.pid)
    if found is None:
        print('        the system does not show what is set of its sockets: not tried', flush=True)
    else:
        same('at once, seconds, seconds after a command, milliseconds', found, [(True, 120, 120, 500)])
    began = time.monotonic()
    player.type_bytes(b'\n\n\n\ndance\n')
    same('printed', player.line(), 'unknown\n')
    took = time.monotonic() - began
    if took < 1:
        raise Failed('four turns with a server that says nothing took %.3f s' % took)
    player.quits()


# -- a program that is stopped and continued (Ctrl-Z, fg) --------------------------------------------------------------

def stop_and_continue(player, times=3):
    """Stops the program for a while, again and again."""
    for _ in range(times):
        time.sleep(0.1)
        player.program.send_signal(signal.SIGSTOP)
        time.sleep(0.05)
        player.program.send_signal(signal.SIGCONT)


def stopped_while_the_server_is_heard(server):
    player = greeted(server)
    for _ in range(3):
        player.type('')
        stop_and_continue(player)
    server.send('12 bob hi')
    player.type('')
    player.sees('message 12 bob hi')
    player.type('dance')
    player.sees('unknown')
    player.quits()


def stopped_while_a_line_is_waited_for(server):
    player = greeted(server)
    time.sleep(1)
    stop_and_continue(player)
    player.type('dance')
    player.sees('unknown')
    player.quits()


@contextlib.contextmanager
def a_door_that_nobody_opens():
    """A listener whose queue is full, so that the next connection is not answered until one of them is accepted."""
    with socket.socket() as door, socket.socket() as one, socket.socket() as other:
        door.bind(('127.0.0.1', 0))
        door.listen(0)
        for filler in one, other:
            filler.setblocking(False)
            filler.connect_ex(door.getsockname())
        time.sleep(0.2)
        yield door


def stopped_while_it_connects(_server):
    with a_door_that_nobody_opens() as door:
        player = Player(door.getsockname()[1])
        stop_and_continue(player)
        door.settimeout(PATIENCE)
        found = b''
        while not found:
            taken, _ = door.accept()
            taken.settimeout(2)
            try:
                found = taken.recv(100)
            except OSError:
                found = b''
        same('received', found, LOGIN.encode() + b'\r\n')
        player.type('dance')
        player.sees('unknown')
        player.quits()
        taken.close()


def an_address_that_does_not_answer(_server):
    """It is given up after ten seconds."""
    with a_door_that_nobody_opens() as door:
        began = time.monotonic()
        same('the run', run(['127.0.0.1', str(door.getsockname()[1]), 'ann'], b'secret\nroll\n'),
             (0, 'no connection\nrefused 2 Offline\n', ''))
        took = time.monotonic() - began
        if took < 9:
            raise Failed('it was given up after %.1f s' % took)


def stopped_while_it_writes(server):
    player = Player.__new__(Player)
    player.program = subprocess.Popen(
        [PROGRAM, 'connect', '127.0.0.1', str(server.port), 'ann'],
        stdin=subprocess.PIPE, stdout=subprocess.PIPE, stderr=subprocess.PIPE)
    player.running.append(player)
    player.program.stdin.write(b'secret\n\n')
    player.program.stdin.flush()
    server.accept()
    count = 20000
    sender = threading.Thread(target=lambda: server.send(*['12 bob hi'] * count), daemon=True)
    sender.start()
    # Nobody reads what is printed, and a pipe holds less than that.
    time.sleep(1)
    stop_and_continue(player)
    player.program.stdin.close()
    out = player.program.stdout.read()
    same('lines', out.count(b'message 12 bob hi\n') > 4000 and out.replace(b'message 12 bob hi\n', b''), b'')
    same('the status', player.program.wait(PATIENCE), 0)
    sender.join(PATIENCE)
    player.stop()


# -- what is typed ---------------------------------------------------------------------------------------------------

def long_and_odd_lines(server):
    player = greeted(server)
    rows = [
        (b'say ' + b'a' * 4093 + b'\n', 'unknown'), (b'say ' + b'a' * 4093 + b'\r\n', 'unknown'),
        (b'say ' + b'a' * 4092 + b'\n', 'fault 3 TooLong'), (b'say ' + b'a' * 4092 + b'\r\n', 'fault 3 TooLong'),
        (b'a' * 5000000 + b'\n', 'unknown'), (b'\xff' * 9000 + b'\n', 'unknown'), (b'\0\n', 'unknown'),
        (b'say \x01\n', 'fault 2 BadText'), (b'say hi\r\r\n', 'fault 2 BadText'), (b'say\n', 'fault 2 BadText'),
        (b'tell\n', 'fault 1 BadName'), (b'Quit\n', 'unknown'), (b'quit \n', 'unknown'), (b' open\n', 'unknown'),
        (b'players x\n', 'unknown'),
    ]
    for typed, answer in rows:
        player.type_bytes(typed)
        player.sees(answer)
    player.type_bytes(b'a' * 5000000)
    player.program.stdin.close()
    player.sees('unknown')
    player.ends()
    same('the end', (server.line(), server.unread), (None, b''))


def a_line_that_is_typed_in_parts(server):
    player = greeted(server)
    for part in (b'sa', b'y h', b'i\r', b'\nsay', b' you\nwho'):
        player.type_bytes(part)
        time.sleep(0.05)
    player.sees('sent say hi', 'sent say you')
    player.type('')
    player.sees('sent who')
    same('received', [server.line() for _ in range(3)], ['say hi', 'say you', 'who'])
    player.quits()


def output_that_cannot_be_written(server):
    with open('/dev/full', 'wb') as full:
        done = subprocess.run([PROGRAM, 'connect', '127.0.0.1', str(free_port()), 'ann'], input=b'secret\n',
                              stdout=full, stderr=subprocess.PIPE, timeout=PATIENCE)
        same('the run', (done.returncode, done.stderr),
             (4, b'fibs: device\nfibs: standard output: no space left on device\n'))
    # nobody wants to know more of a pipe whose reader has gone
    read_end, write_end = os.pipe()
    program = subprocess.Popen([PROGRAM, 'connect', '127.0.0.1', str(server.port), 'ann'], stdin=subprocess.PIPE,
                               stdout=write_end, stderr=subprocess.PIPE)
    os.close(write_end)
    os.close(read_end)
    program.stdin.write(b'secret\n')
    program.stdin.flush()
    server.accept()
    server.send('12 bob hi')
    _, said = program.communicate(b'\n', PATIENCE)
    same('the run', (program.returncode, said), (4, b''))


def input_that_cannot_be_read(_server):
    folder = os.open('/', os.O_RDONLY)
    done = subprocess.run([PROGRAM, 'connect', '127.0.0.1', '4321', 'ann'], stdin=folder, capture_output=True,
                          timeout=PATIENCE)
    os.close(folder)
    same('the run', (done.returncode, done.stdout, done.stderr),
         (4, b'', b'fibs: device\nfibs: standard input: it is a directory\n'))


# How a shell closes each standard stream, and what is said of it.
CLOSED = {0: ('<&-', 'standard input'), 1: ('>&-', 'standard output'), 2: ('2>&-', '')}


def streams_that_are_closed(server):
    """Whichever of the three: a connection is none of them. What is printed does not go to the server, nor to a log,
    and what the server says is no typed line."""
    rows = [[fd for fd in CLOSED if number >> fd & 1] for number in range(1, 8)]
    for closed in rows:
        with tempfile.TemporaryDirectory() as room:
            password, log = os.path.join(room, 'password'), os.path.join(room, 'log')
            with open(password, 'w') as file:
                file.write('secret\n')
            words = [PROGRAM, 'connect', '--password-file', password, '--log', log, '127.0.0.1', str(server.port), 'ann']
            program = subprocess.Popen(['sh', '-c', 'exec "$@" ' + ' '.join(CLOSED[fd][0] for fd in closed), 'sh', *words],
                                       stdin=subprocess.PIPE, stdout=subprocess.PIPE, stderr=subprocess.PIPE)
            server.accept()
            same('the login without %s' % closed, server.line(), LOGIN)
            if 0 not in closed:
                # it waits for a typed line
                same('what is in place of %s' % closed,
                     {os.readlink('/proc/%d/fd/%d' % (program.pid, fd)) for fd in closed}, {'/dev/null'})
            server.send('who', 'say obeyed', WELCOME)
            # an empty line hears the server
            printed, said = program.communicate(b'\n\nquit\n', PATIENCE)
            try:
                while server.line() is not None:
                    pass
            except ConnectionResetError:
                # it ended before it had read all
                pass
            heard, failed = 0 not in closed, 0 in closed or 1 in closed
            received = [LOGIN, STYLE] if heard and 1 not in closed else [LOGIN]
            # without an output it ends at the first line that it can't print
            same('received without %s' % closed, server.received, received)
            same('printed without %s' % closed, printed.decode(),
                 '' if failed else 'text who\ntext say obeyed\nmessage %s\n' % WELCOME)
            why = 'fibs: device\nfibs: %s: it is closed\n' % CLOSED[closed[0]][1] if failed and 2 not in closed else ''
            same('the end without %s' % closed, (program.returncode, said.decode()), (4 if failed else 0, why))
            with open(log) as file:
                kept = file.read()
            same('the log without %s' % closed, [line for line in kept.split('\n') if 'text ' in line], [])
            server.received.clear()


CASES = [
    # it takes ten seconds
    an_address_that_does_not_answer,
    a_game_from_login_to_the_end_with_a_lost_connection_in_the_middle, nothing_listens_on_the_port,
    a_listener_that_has_not_accepted_yet, the_end_of_what_is_typed_is_as_quit, a_host_by_its_name,
    a_host_by_an_address_of_version_6, a_host_of_which_one_address_alone_answers, hosts_that_are_none,
    ports_that_are_none, the_least_port_and_the_greatest,
    one_who_opens_again_where_nothing_listens_any_more, players_are_forgotten_at_a_new_connection,
    passwords_and_names_that_are_none, the_longest_password, the_first_message_is_answered, a_player_is_noted,
    a_server_that_closes_at_once, a_server_that_resets_the_connection, a_connection_that_ends_within_a_line,
    a_line_that_comes_byte_by_byte, a_flood_of_lines, a_line_of_megabytes, a_server_that_says_nothing,
    a_quiet_server_is_waited_for_half_a_second, stopped_while_the_server_is_heard, stopped_while_a_line_is_waited_for,
    stopped_while_it_connects, stopped_while_it_writes,
    long_and_odd_lines, a_line_that_is_typed_in_parts, output_that_cannot_be_written, input_that_cannot_be_read,
    streams_that_are_closed,
]


def play(cases, beside=1):
    """Runs each case against a server of its own, so many cases beside each other. The status."""
    def tried(case):
        server = Server()
        try:
            case(server)
            return ''
        except (Failed, OSError, subprocess.TimeoutExpired, queue.Empty) as error:
            return str(error)[:300] or repr(error)
        finally:
            server.close()

    failed = 0
    with concurrent.futures.ThreadPoolExecutor(beside) as pool:
        for case, why in zip(cases, pool.map(tried, cases)):
            name = 'connect: ' + case.__name__.replace('_', ' ')
            print('FAILED  %s: %s' % (name, why) if why else 'ok      ' + name, flush=True)
            failed += bool(why)
    for player in Player.running:
        player.stop()
    print('%d passed, %d failed' % (len(cases) - failed, failed))
    return 1 if failed else 0


if __name__ == '__main__':
    sys.exit(play(CASES, BESIDE))
