"""Scenes of a connection that is opened again by itself."""

import pathlib
import tempfile
import time

from costs import is_at_rest
from escapes import BOARD
from people import FIRST, OWN_INFO, WELCOME, Failed, begun, greeted, has_received, logs_in, same, with_listener

from props.listener import Listener, keeps_port

LOST = 'lost: connecting again in %d s; stay leaves it closed, quit ends'

CLOSED = 'lost: open connects again, quit ends'

LEFT = 'closed, as you asked: open connects again, quit ends'

def comes_after(server, seconds, began):
    """The next connection comes after so many seconds, and not before."""
    logs_in(server)
    is_not_before(seconds, began)


def is_not_before(seconds, began):
    """So many seconds have passed. How many more have is printed: it depends on what the machine does beside."""
    passed = time.monotonic() - began
    if passed < seconds - 0.1:
        raise Failed('it came after %.2f seconds, and not after %d' % (passed, seconds))
    print('        measured: %d ms after the %d s that it was to wait' % (1000 * (passed - seconds), seconds), flush=True)


def is_greeted(server, ann):
    """The server greets her, and she goes on."""
    server.send(WELCOME, OWN_INFO % 'ann')
    same('the first commands', [server.line(), server.line()], FIRST[1:])
    ann.reads('Welcome, ann')


@with_listener
def a_lost_connection_is_opened_again(server):
    """By the program and by fibs-play, as it is typed or set: with the login and the greeting of `open`; what was
    decided before is not sent again."""
    with tempfile.TemporaryDirectory() as home:
        config = pathlib.Path(home, 'config')
        config.write_text('reconnect\n')
        for begins in greeted, lambda server, **more: greeted(server, begun(server, **more)):
            for more in {}, {'FIBS_CONFIG': str(config)}:
                ann = begins(server, **more)
                if not more:
                    ann.type('reconnect')
                    ann.reads('reconnect: a lost connection is opened again by itself; stay ends that.')
                server.send(BOARD)
                ann.hint()
                ann.type('roll')
                same('what is sent', server.line(), 'roll')
                began = time.monotonic()
                server.reset()
                ann.reads('roll may have reached the server or not')
                ann.reads(LOST % 1)
                comes_after(server, 1, began)
                is_greeted(server, ann)
                server.received = [*FIRST]
                ann.quits()
                has_received(server)
                ann.close()


@with_listener
def it_wakes_once_when_it_is_due(server):
    """The waits become longer, nothing is done in them, and no connection is made after she has said so."""
    ann = greeted(server)
    ann.type('reconnect')
    ann.reads('stay ends that.')
    port = server.port
    began = time.monotonic()
    server.close()
    with keeps_port(port):
        ann.reads(LOST % 1)
        for seconds, after in (2, 1), (4, 3), (8, 7):
            ann.reads('no connection to 127.0.0.1:%d: connection refused; again in %d s, or stay' % (port, seconds))
            is_not_before(after, began)
        is_at_rest(ann, 4)
        ann.type('stay')
        ann.reads('stay: a connection that is lost stays closed until you type open.')
        again = Listener(port)
        is_at_rest(ann, 5)
        again.is_alone()
        ann.type('open')
        logs_in(again)
        is_greeted(again, ann)
        again.drop()
        ann.reads(CLOSED)
        ann.quits()
        ann.close()
        again.close()


@with_listener
def it_is_not_opened_after_leave_was_taken(server):
    """After `bye`, and after a second question for the login; nor after two connections without a greeting."""
    ann = greeted(server)
    ann.type('reconnect')
    ann.type('bye')
    same('what is sent', server.line(), 'bye')
    server.drop()
    ann.reads(LEFT)
    ann.type('open')
    logs_in(server)
    server.drop()
    ann.reads(LOST % 1)
    logs_in(server)
    server.drop()
    ann.reads(CLOSED)
    time.sleep(2.5)
    server.is_alone()
    ann.type('open')
    logs_in(server)
    is_greeted(server, ann)
    server.drop()
    ann.reads(LOST % 1)
    logs_in(server)
    server.send_bytes(b'login: \r\nlogin: ')
    ann.ends(3)
    ann.close()
    server.is_alone()


SCENES = [a_lost_connection_is_opened_again, it_wakes_once_when_it_is_due, it_is_not_opened_after_leave_was_taken]
