"""A login: the password that the program itself asks for, and what a server says before it has read the login."""

import time

from people import (FAR, LOGIN, PASSWORD, PROGRAM, WELCOME, Person, Reader, Served, begun, greeted, leaves, logs_in,
                    named, same, with_listener)
from play import NO_PASSWORD
from terminals import KINDS

SCENES = []


def scene(does):
    """A decorator: the scene is one of those that are played, at a listener of its own."""
    SCENES.append(with_listener(does))
    return SCENES[-1]


def tells_how_long(what, began):
    """Prints how long something took, which depends on what the machine does beside."""
    print('        measured: %s after %.0f ms' % (what, 1000 * (time.monotonic() - began)), flush=True)


def asked(server, name='ann', password=PASSWORD):
    """One whom the program asks for the password, at a terminal that shows it."""
    ann = Reader([PROGRAM, 'connect', '127.0.0.1', str(server.port), name])
    ann.sees('password: ')
    ann.type(password)
    return ann


@scene
def the_program_itself_asks_for_the_password(server):
    """If what is typed comes from a terminal. No row but these comes before the server speaks."""
    ann = asked(server)
    ann.sees('connected to', '\n')
    same('the screen', ann.screen(), 'password: %s\nconnected to 127.0.0.1:%d\n' % (PASSWORD, server.port))
    leaves(greeted(server, ann), server)


@scene
def names_and_passwords_that_are_not_valid(server):
    """A person is told in words why he can't log in so; a program reads the number and the name."""
    for name, password, words in [
            ('ann', '', NO_PASSWORD), ('ann', 'a b', NO_PASSWORD), ('ann', '\xfc', NO_PASSWORD),
            ('ann', 'a' * 65, 'A password has at most 64 characters.'),
            ('a:b', 'secret', 'A name has 1 to 64 printable ASCII characters')]:
        ann = asked(server, name, password)
        ann.ends(3)
        same('words for %r, %r' % (name, password), (words in ann.screen(), 'fault' in ann.screen()), (True, False))
        ann.close()
    server.is_alone()


# How the login is asked for, in pieces: in two; with a telnet command in one piece with it and in the next; and behind
# so many bytes that it ends about where a read of 1024 bytes does.
PROMPTS = [[b'Hello.\r\nlog', b'in: '], [b'Hello.\r\nlogin:', b' '], [b'login: \xff\xf1'], [b'login: ', b'\xff\xf1'],
           *([b'x' * count + b'\r\nlogin: '] for count in range(1014, 1024))]


@scene
def a_server_that_is_slow_to_log_in(server):
    """It asks for the login that was sent, and the answer takes its time: nothing is wrong yet, however it asks."""
    for pieces in PROMPTS:
        ann = Person(server.port)
        logs_in(server)
        for piece in pieces:
            time.sleep(0.1)
            server.send_bytes(piece)
        time.sleep(0.5)
        server.send('', WELCOME)
        ann.reads('Welcome, ann')
        same('what is wrong after %r' % pieces[-1][-12:], [row for row in ann.lines() if 'Not logged in' in row], [])
        ann.close()


@scene
def a_server_that_refuses_a_login(server):
    """What it says of it is shown though nothing is typed, and so is that nobody is logged in; then the
    program ends, and its status says so. However the two questions come: the first may have come with the second."""
    for pieces in [[b'login: ', b'\r\n** User not known or wrong password.\r\nlogin: '],
                   [b'login: ', b'\r\nlogin: '], [b'login: \r\nlogin: '], [b'log', b'in: \r', b'\nlogin:', b' ']]:
        ann = Person(server.port)
        logs_in(server)
        server.send_bytes(b'Welcome to a strict one.\r\n' + pieces[0])
        ann.reads('strict one')
        for piece in pieces[1:]:
            time.sleep(0.1)
            server.send_bytes(piece)
        began = time.monotonic()
        ann.reads('Not logged in: wrong name or password?')
        ann.ends(3)
        tells_how_long('the program ended', began)
        same('how often', len([row for row in ann.lines() if 'Not logged in' in row]), 1)
        same('all that was received', server.received, [LOGIN])
        server.received.clear()
        ann.close()


@scene
def a_server_that_asks_twice_before_it_reads_the_login(server):
    """And greets the user soon: nothing was refused."""
    for pieces in [b'login: \r\nlogin: '], [b'login: ', b'\r\nlogin: ']:
        while True:
            ann = Person(server.port)
            logs_in(server)
            for piece in pieces:
                asked = time.monotonic()
                server.send_bytes(piece)
                time.sleep(0.1)
            server.send('', WELCOME)
            if time.monotonic() - asked < 0.3:
                break
            # that was not soon: she may have given up
            ann.close()
        ann.reads('Welcome, ann')
        same('what is wrong', [row for row in ann.lines() if 'Not logged in' in row], [])
        ann.close()


@scene
def a_server_that_does_not_greet(server):
    """It asks for the login that was sent, tells of others, and says no more: nobody may be logged in. No decision goes
    out."""
    ann = Person(server.port)
    logs_in(server)
    server.send_bytes(b'login: ')
    time.sleep(2.5)
    for line in '7 bob bob logs in.', '8 eve eve drops connection.', '12 bob hi':
        time.sleep(0.5)
        server.send(line)
    for row in 'bob logs in.', 'eve drops connection.', 'bob says: hi':
        ann.reads(row)
    same('how often', len([row for row in ann.lines() if 'Not logged in' in row]), 1)
    ann.type('roll')
    ann.reads('[3 NotReady]')
    ann.reads('Not logged in')
    server.drop()
    ann.reads('lost')
    ann.quits()
    same('all that was received', server.received, [LOGIN])
    ann.close()


def a_password_is_asked_for_again(*options):
    """By fibs-play, with rlwrap and without: three times, as by ssh."""
    for kind in KINDS:
        # it is on a command line, and another scene looks for PASSWORD in all of those
        right = PASSWORD[::-1]
        for given in ([right], ['mistaken', right], ['two words', 'mistaken', right], ['mistaken'] * 3):
            server = Served('--account', 'ann:' + right, '--no-changes', *options)
            ann = begun(server, kind, password=False)
            for password in given:
                ann.sees('password: ')
                same('the terminal shows what is typed', ann.echoes(), False)
                began = time.monotonic()
                ann.type(password)
            if given[-1] == right:
                ann.is_shown('Welcome, ann')
                ann.quits()
            else:
                ann.ends(3)
                tells_how_long('fibs-play ended', began)
            same('rows after %r' % given, ann.plain().count('Not logged in'), given.count('mistaken'))
            same('a password is shown', [one for one in given if one in ann.screen()], [])
            same('the terminal is as it was', (ann.echoes(), ann.interrupts()), (True, b'\x03'))
            ann.close()
            server.close()


SCENES += [a_password_is_asked_for_again,
           named(lambda: a_password_is_asked_for_again(*FAR), a_password_is_asked_for_again, '_far_away')]
