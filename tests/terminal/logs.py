"""`fibs connect --log FILE`: each line as it came, and what was sent, never the password."""

import os
import pathlib
import subprocess
import time

from escapes import BOARD
from people import (OWN_INFO, PASSWORD, PASSWORD_FILE, PATIENCE, PROGRAM, ROOM, WELCOME, Failed, Person, same,
                    with_listener)

OWN = OWN_INFO % 'ann'

# A long line, which the server gets as it is.
LONG = 'pip ' + 'x' * 2000


def holds(path, *texts):
    """Waits until a file holds these, in their order, while the program still runs. What it holds."""
    end = time.monotonic() + PATIENCE
    while True:
        held = pathlib.Path(path).read_bytes() if os.path.exists(path) else b''
        at = 0
        for text in texts:
            found = held.find(text, at)
            if found < 0:
                break
            at = found + len(text)
        else:
            return held
        if time.monotonic() > end:
            raise Failed('%r is not in the log: %r' % (text, held[-400:]))
        time.sleep(0.02)


@with_listener
def each_line_as_it_came_and_what_was_sent(server):
    path = os.path.join(ROOM.name, 'log of a game')
    pathlib.Path(path).write_bytes(b'what was there before\n')
    ann = Person(server.port, words=('--log', path))
    server.accept()
    server.line()
    # telnet sends the byte 255 twice; here it is in the line and ends it
    odd = b'12 bob \x1b[2J \xff\xff caf\xe9\xff\xff'
    for line in WELCOME.encode(), OWN.encode(), b'> ' + BOARD.encode(), odd, b'5 bob - - 1 0 15x0 1 1 1 h - -':
        server.send_bytes(line + b'\r\n')
    ann.reads('caf')
    ann.type('roll')
    ann.type('send ' + LONG)
    ann.type('dance')
    for wanted in 'set boardstyle 3', 'board', 'roll', LONG:
        same('received', server.line(), wanted)
    # it is there before the game is over, and after what was there
    held = holds(path, b'what was there before\n', WELCOME.encode(), OWN.encode(), BOARD.encode(), b'12 bob \x1b[2J ',
                 b'5 bob - - 1 0 15x0', b'roll', LONG.encode())
    same('the password', PASSWORD.encode() in held, False)
    same('what was sent, the commands of the client itself first',
         [line[3:] for line in held.split(b'\n') if line.startswith(b'>> ')],
         [b'set boardstyle 3', b'board', b'roll', LONG.encode()])
    same('what was not sent', b'dance' in held, False)
    ann.quits()
    ann.close()
    done = subprocess.run([PROGRAM, 'show'], input=held, capture_output=True, check=False)
    shown = done.stdout.split(b'\n')
    for line in (b'message ' + WELCOME.encode(), b'message ' + OWN.encode(), BOARD.encode(),
                 b'message 12 bob \\x1b[2J \\xff caf\\xe9\\xff', b'malformed 5 6 NotANumber', b'text >> roll'):
        same('fibs show has %r' % line[:40], line in shown, True)
    same('the status', done.returncode, 0)


@with_listener
def the_login_is_kept_without_its_password(server):
    """By a pipe too: neither the log nor the account has the password; a log that can't be written is said."""
    path = os.path.join(ROOM.name, 'log of a pipe')
    program = subprocess.Popen([PROGRAM, 'connect', '--log', path, '127.0.0.1', str(server.port), 'ann'],
                               stdin=subprocess.PIPE, stdout=subprocess.PIPE, stderr=subprocess.PIPE)
    program.stdin.write(PASSWORD.encode() + b'\n')
    program.stdin.flush()
    server.accept()
    same('the login', server.line(), 'login fibs_client 1008 ann ' + PASSWORD)
    server.send(WELCOME)
    # an empty line hears the server
    program.stdin.write(b'\n')
    program.stdin.flush()
    same('the first command', server.line(), 'set boardstyle 3')
    holds(path, WELCOME.encode())
    printed, said = program.communicate(b'say hi\nquit\n', timeout=PATIENCE)
    same('the end', (program.returncode, said), (0, b''))
    held = holds(path, WELCOME.encode(), b'say hi')
    same('the password is in none of them', PASSWORD.encode() in held + printed, False)
    done = subprocess.run([PROGRAM, 'connect', '--log', ROOM.name, '--password-file', PASSWORD_FILE, '127.0.0.1', '1',
                           'ann'], input=b'quit\n', capture_output=True, timeout=PATIENCE, check=False)
    same('a log that is a folder', (done.returncode, len(done.stderr.splitlines())), (4, 1))


@with_listener
def two_connections_in_one_log(server):
    """The login of the second is left out too, and half a line of the first is no part of it."""
    path = os.path.join(ROOM.name, 'log of two connections')
    ann = Person(server.port, words=('--log', path))
    for typed in 'open', 'quit':
        server.accept()
        same('the login', server.line(), 'login fibs_client 1008 ann ' + PASSWORD)
        server.send(WELCOME)
        same('the first command', server.line(), 'set boardstyle 3')
        server.send_bytes(b'half a li')
        server.drop()
        ann.reads('lost')
        ann.type(typed)
    ann.ends(0)
    ann.close()
    same('the log', pathlib.Path(path).read_text(), (WELCOME + '\n>> set boardstyle 3\n') * 2)


@with_listener
def a_log_that_is_full(server):
    """That is said once, what can't be written any more is left out, and the game goes on."""
    ann = Person(server.port, words=('--log', '/dev/full'))
    server.accept()
    server.line()
    server.send(WELCOME, OWN)
    ann.reads('Welcome, ann')
    ann.type('say hi')
    for wanted in 'set boardstyle 3', 'board', 'say hi':
        same('received', server.line(), wanted)
    ann.quits()
    same('what is said of it', [line for line in ann.lines() if 'the log' in line],
         ["fibs: the log can't be written: no space left on device"])
    ann.close()


@with_listener
def a_log_of_a_pipe_that_is_full(server):
    """The account is as without it, and standard error says it once."""
    program = subprocess.Popen([PROGRAM, 'connect', '--log', '/dev/full', '--password-file', PASSWORD_FILE, '127.0.0.1',
                                str(server.port), 'ann'],
                               stdin=subprocess.PIPE, stdout=subprocess.PIPE, stderr=subprocess.PIPE)
    server.accept()
    server.line()
    server.send(WELCOME, '12 bob hi')
    printed, said = program.communicate(b'\nsay hi\nquit\n', timeout=PATIENCE)
    same('the end', (program.returncode, printed.decode(), said.decode()),
         (0, 'message %s\nmessage 12 bob hi\nsent say hi\n' % WELCOME,
          "fibs: the log can't be written: no space left on device\n"))


@with_listener
def a_log_is_for_its_owner_alone(server):
    """One that is there already stays as it is."""
    path = os.path.join(ROOM.name, 'log of one')
    for mode in 0o600, 0o640:
        ann = Person(server.port, words=('--log', path))
        server.accept()
        server.line()
        server.send(WELCOME)
        ann.reads('Welcome, ann')
        holds(path, WELCOME.encode())
        same('who may read it', os.stat(path).st_mode & 0o777, mode)
        ann.quits()
        ann.close()
        os.chmod(path, 0o640)


SCENES = [each_line_as_it_came_and_what_was_sent, the_login_is_kept_without_its_password,
          two_connections_in_one_log, a_log_that_is_full, a_log_of_a_pipe_that_is_full,
          a_log_is_for_its_owner_alone]
