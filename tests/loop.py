#!/usr/bin/env python3
"""Tests that the built program's `loop` plays over real sockets: tests/loop.py PROGRAM

It lets the program open only a few files, looks where it listens, and connects to its port as a stranger before the
program's own client does. Prints a line for each case, and then `N passed, M failed`.
"""

import os
import resource
import select
import socket
import subprocess
import sys
import time

from props import peeking
from props.checks import PATIENCE, Failed, same

PROGRAM = sys.argv[1]

BOARD = ('board:You:bob:5:0:0:0:0:0:0:0:0:0:0:0:0:0:0:0:-2:0:0:0:0:0:0:0:0:0:0:1:0:1:0:0:0:0:1:1:1:0:1:-1:0:25:14:13:0:0'
         ':1:0:0:0')

# The line by which each client logs in.
LOGIN = b'login fibs_client 1008 ann secret\r\n'

# 127.0.0.1, as the system's tables spell it.
HERE = '0100007F'

LISTENS = '0A'


def script(*events):
    return '\n'.join((BOARD,) + events + ('',)).encode()


def run(mode, given, most_files=None):
    """A run of the program, which may have so many files open: status, output, what it says."""
    def limit():
        if most_files is not None:
            resource.setrlimit(resource.RLIMIT_NOFILE, (most_files, most_files))

    done = subprocess.run([PROGRAM, mode], input=given, capture_output=True, timeout=PATIENCE, preexec_fn=limit)
    return done.returncode, done.stdout.decode('latin-1'), done.stderr.decode('latin-1')


# -- few files -------------------------------------------------------------------------------------------------------

# The standard streams, the listener, and both ends of a connection.
STREAMS, LISTENER, ENDS = 3, 1, 2


def a_connection_for_which_no_file_may_be_opened():
    opens = script('open', 'lose 0')
    for most in range(STREAMS + LISTENER, STREAMS + LISTENER + ENDS):
        same('replay with %d files' % most, run('replay', opens, most), (0, 'opened 1\nlost 1\nend 2\n', ''))
        same('loop with %d files' % most, run('loop', opens, most), (4, '', 'fibs: device\n'))


def a_listener_alone_for_a_script_that_opens_nothing():
    same('loop', run('loop', script('repeat'), STREAMS + LISTENER), (0, 'end 1\n', ''))


def both_ends_closed_at_each_loss():
    events = ['open', 'serve %d 1 1', 'text hello', 'deliver 3', 'lose 0']
    opens = script(*(event % at if '%' in event else event for at in range(1, 51) for event in events))
    wanted = ''.join('opened %d\nloggedin %d\nlost %d\n' % (at, at, at) for at in range(1, 51)) + 'end 250\n'
    same('loop', run('loop', opens, STREAMS + LISTENER + ENDS), (0, wanted, ''))


# -- long scripts ----------------------------------------------------------------------------------------------------

# As many bytes as a script may have, and all that are on their way.
LIMIT, ALL = 1048576, 4294967295

# The opponent is to roll there: the server may make boards of its own.
OF_OPPONENT = BOARD.replace(':1:0:0:0:0:1:1:1:', ':-1:0:0:0:0:1:1:1:')

# A conversation in which so many boards are shown, and what is noted of it.
BOARDS = 7500
TALK = ['open', 'serve 1 1 1', 'text 1 ann 1041253132 localhost'] + ['repeat'] * BOARDS + ['deliver %d' % ALL]
NOTED = ['opened 1', 'loggedin 1', 'welcomed 1'] + ['shown 1 ' + OF_OPPONENT] * BOARDS

# How often each kind of event comes after it, and what is then noted. Message 1 was answered by one command; each
# command is answered by a board.
OFTEN = 2000
KINDS = [
    (['lose 0', 'open'] * OFTEN,
     [line for at in range(1, OFTEN + 1) for line in ('lost %d' % at, 'opened %d' % (at + 1))]),
    (['click roll'] * OFTEN, ['clicked 1 NotReady'] * OFTEN),
    (['plain who'] * OFTEN + ['serve 1 1 1'] * (OFTEN + 1) + ['deliver %d' % ALL],
     ['shown 1 ' + OF_OPPONENT] * (OFTEN + 1)),
    (['own ' + OF_OPPONENT] * OFTEN + ['deliver %d' % ALL], ['shown 1 ' + OF_OPPONENT] * OFTEN),
    (['repeat', 'deliver %d' % ALL] * OFTEN, ['shown 1 ' + OF_OPPONENT] * OFTEN),
    (['text hello', 'deliver 1'] * OFTEN + ['deliver %d' % ALL], []),
    (['order roll', 'withdraw roll'] * OFTEN, ['ordered 1', 'withdrawn 1'] * OFTEN),
]


def as_replayed(begins, events, log):
    """Both do all of the events, and print this log."""
    given = '\n'.join((begins, *events, '')).encode()
    wanted = ''.join(line + '\n' for line in (*log, 'end %d' % len(events)))
    for mode in ('replay', 'loop'):
        status, out, err = run(mode, given)
        same('%s of %d bytes' % (mode, len(given)), (status, out[-80:], err), (0, wanted[-80:], ''))
        same('%s: all lines before the last' % mode, out == wanted, True)


def as_many_events_as_a_script_may_have():
    many = (LIMIT - len(BOARD) - 1) // len('repeat\n')
    as_replayed(BOARD, ['repeat'] * many, [])


def many_events_of_each_kind_after_a_long_log():
    for events, log in KINDS:
        as_replayed(OF_OPPONENT, TALK + events, NOTED + log)


# -- how it listens -------------------------------------------------------------------------------------------------

def own_sockets(pid):
    """The numbers of the sockets that a program has open."""
    found = set()
    for file in os.listdir('/proc/%d/fd' % pid):
        try:
            name = os.readlink('/proc/%d/fd/%s' % (pid, file))
        except OSError:
            continue
        if name.startswith('socket:['):
            found.add(name[len('socket:['):-1])
    return found


def listeners(pid):
    """The address and the port of each listener of a program."""
    own, found = own_sockets(pid), []
    for table in ('/proc/net/tcp', '/proc/net/tcp6'):
        if os.path.exists(table):
            with open(table) as rows:
                fields = [row.split() for row in rows][1:]
            found += [tuple(row[1].split(':')) for row in fields if row[3] == LISTENS and row[9] in own]
    return found


def listening(program):
    """The same, once it has one."""
    end = time.monotonic() + PATIENCE
    while time.monotonic() < end:
        found = listeners(program.pid)
        if found:
            return found
        if program.poll() is not None:
            raise Failed('the program ended with the status %d' % program.returncode)
        time.sleep(0.02)
    raise Failed('it listens nowhere')


def waiting_loop():
    """The program, which waits for its script, and its port."""
    program = subprocess.Popen([PROGRAM, 'loop'], stdin=subprocess.PIPE, stdout=subprocess.PIPE, stderr=subprocess.PIPE)
    try:
        found = listening(program)
        same('the addresses', [address for address, _ in found], [HERE])
        return program, int(found[0][1], 16)
    except BaseException:
        program.kill()
        program.communicate()
        raise


def a_listener_of_this_machine_alone():
    program, _port = waiting_loop()
    out, err = program.communicate(script('open', 'lose 0'), PATIENCE)
    same('loop', (program.returncode, out, err), (0, b'opened 1\nlost 1\nend 2\n', b''))


def two_that_listen_at_the_same_time():
    """Each on a port of its own."""
    (one, first), (other, second) = waiting_loop(), waiting_loop()
    for program in one, other:
        out, err = program.communicate(script('open', 'lose 0'), PATIENCE)
        same('loop', (program.returncode, out, err), (0, b'opened 1\nlost 1\nend 2\n', b''))
    same('one port for two', first == second, False)


# -- a stranger ------------------------------------------------------------------------------------------------------

def came_to(port, said):
    """A connection to the port, on which these bytes were sent."""
    stranger = socket.create_connection(('127.0.0.1', port), PATIENCE)
    stranger.sendall(said)
    return stranger


def a_stranger_who_stays_is_taken_for_the_client():
    """The server hears the stranger's login and answers the stranger: the program's own client waits in vain."""
    program, port = waiting_loop()
    stranger = came_to(port, LOGIN)
    try:
        given = script('open', 'serve 1 1 1', 'text hello', 'deliver 3', 'text never', 'deliver 99')
        out, err = program.communicate(given, PATIENCE)
        same('loop', (program.returncode, out, err), (4, b'opened 1\nloggedin 1\n', b'fibs: device\n'))
        same('the stranger heard', everything(stranger), b'hel')
    finally:
        stranger.close()
        program.kill()
        program.communicate()


def a_stranger_who_says_other_bytes_of_the_same_length():
    """What comes is compared with what was sent, and not counted."""
    program, port = waiting_loop()
    stranger = came_to(port, LOGIN[::-1])
    try:
        out, err = program.communicate(script('open', 'serve 1 1 1'), PATIENCE)
        same('loop', (program.returncode, out, err), (4, b'opened 1\n', b'fibs: device\n'))
    finally:
        stranger.close()
        program.kill()
        program.communicate()


def a_stranger_who_says_nothing_and_leaves():
    program, port = waiting_loop()
    came_to(port, b'').close()
    out, err = program.communicate(script('open', 'serve 1 1 1', 'repeat'), PATIENCE)
    same('loop', (program.returncode, out, err), (4, b'opened 1\n', b'fibs: device\n'))


def waits_in_vain(program):
    """What is set of both ends, while one of them waits for what does not come."""
    # at once, seconds, seconds after a portion, milliseconds
    wanted, end = [(True, 0, 0, 10000)] * 2, time.monotonic() + PATIENCE
    while (found := peeking.options(program.pid)) is not None and found != wanted:
        if program.poll() is not None or time.monotonic() > end:
            raise Failed('what is set of both ends: %r, and not %r' % (found, wanted))
        time.sleep(0.02)
    if found is None:
        print('        the system does not show what is set of its sockets: not tried', flush=True)


def a_stranger_who_says_nothing_and_stays():
    """The server waits for its first line in vain. Each portion leaves at once, and no end waits forever."""
    program, port = waiting_loop()
    stranger = came_to(port, b'')
    try:
        program.stdin.write(script('open', 'serve 1 1 1'))
        program.stdin.close()
        program.stdin = None
        waits_in_vain(program)
        out, err = program.communicate(timeout=PATIENCE)
        same('loop', (program.returncode, out, err), (4, b'opened 1\n', b'fibs: device\n'))
    finally:
        stranger.close()
        program.kill()
        program.communicate()


def everything(stranger):
    """All bytes that came, up to the end of the connection or its reset."""
    heard = b''
    while select.select([stranger], [], [], PATIENCE)[0]:
        try:
            more = stranger.recv(4096)
        except ConnectionError:
            break
        if not more:
            break
        heard += more
    return heard


CASES = [
    a_connection_for_which_no_file_may_be_opened, a_listener_alone_for_a_script_that_opens_nothing,
    both_ends_closed_at_each_loss, as_many_events_as_a_script_may_have, many_events_of_each_kind_after_a_long_log,
    a_listener_of_this_machine_alone, two_that_listen_at_the_same_time,
    a_stranger_who_stays_is_taken_for_the_client, a_stranger_who_says_other_bytes_of_the_same_length,
    a_stranger_who_says_nothing_and_leaves, a_stranger_who_says_nothing_and_stays,
]


def main():
    failed = 0
    for case in CASES:
        name = 'loop: ' + case.__name__.replace('_', ' ')
        try:
            case()
            print('ok      ' + name, flush=True)
        except (Failed, OSError, subprocess.TimeoutExpired) as error:
            failed += 1
            print('FAILED  %s: %.300s' % (name, error), flush=True)
    print('%d passed, %d failed' % (len(CASES) - failed, failed))
    return 1 if failed else 0


if __name__ == '__main__':
    sys.exit(main())
