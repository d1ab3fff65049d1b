"""fibs-play where lines are edited: a window of another width, a title that is put back, stops, names that Tab knows."""

import fcntl
import os
import pathlib
import re
import signal
import tempfile
import time

from escapes import BOARD
from partners import NARROW, board_of
from people import DRAWN, PASSWORD, Listener, begun, greeted, has_received, leaves, named, same
from terminals import RLWRAP

SCENES = []

# The picture of the board with the dice 4 and 3, on a window that has room for it.
EDGE = ' +13-14-15-16-17-18-+---+19-20-21-22-23-24-+   X bob'
DICE = ' | X                |   | O                |     dice  4 3'


def scene(does):
    """A decorator: the scene is one of those that are played."""
    SCENES.append(does)
    return does


def plays(server, columns=80, kind='xterm', options=(), listed=(), **more):
    """Ann, who has logged in by fibs-play, and was greeted; with the greeting come lines that list players."""
    return greeted(server, begun(server, kind, options, columns=columns, NO_COLOR='1', **more), listed)


def shown_of(ann, server, board):
    """The rows of the board that ann asks for, and of what is said behind it."""
    ann.type('board')
    same('what was sent', server.line(), 'board')
    server.send(board, '12 x seen')
    begun = ann.at
    ann.sees('x says: seen')
    return DRAWN.sub('', bytes(ann.seen[begun:ann.at]).decode('latin-1')).split('\n')


@scene
def a_window_of_another_width_is_told_before_the_next_line():
    """40 columns keep each place and the dice; then the picture is as it was; what can be no width is not told."""
    if not RLWRAP:
        return
    board = board_of(1, own=(4, 3))
    server = Listener()
    ann = plays(server)
    for columns in 80, 40, 72, 10, 100:
        ann.resizes(columns)
        rows = shown_of(ann, server, board)
        if columns == 40:
            at = rows.index(NARROW[0])
            same('the picture', rows[at:at + len(NARROW)], NARROW)
        else:
            at = next(at for at, row in enumerate(rows) if '13-14-15-16' in row)
            same('the dice at %d' % columns, rows[at + 8], DICE)
            same('the edge at %d' % columns, rows[at], EDGE)
    leaves(ann, server, *['board'] * 5)
    server.close()


@scene
def the_size_of_a_window_is_told_from_the_least_to_the_greatest():
    """Once for each change: 20 to 999 columns, 1 to 999 rows."""
    if not RLWRAP:
        return
    server = Listener()
    ann = plays(server)
    for columns, rows, told in [(20, 24, ['columns 20']), (19, 24, []), (999, 1, ['columns 999', 'rows 1']),
                                (1000, 999, ['rows 999']), (80, 1000, ['columns 80']), (80, 120, ['rows 120']),
                                (80, 120, [])]:
        ann.resizes(columns, rows)
        before = len(ann.screen())
        ann.type('tell bob hi')
        same('it is sent', server.line(), 'tell bob hi')
        ann.sees('sent tell bob hi')
        found = re.findall('(columns [0-9]+|rows [0-9]+)\r*\n', ann.screen()[before:])
        same('what is told at %d by %d' % (columns, rows), found, told)
    leaves(ann, server, *['tell bob hi'] * 7)
    server.close()


# How the program ends: what is typed or sent, and the status.
ENDINGS = [(b'quit\nquit\n', 0), (b'\x04\x04', 0), (b'\x03', 130), (b'\x1c', 131), (signal.SIGINT, 130), (signal.SIGTERM, 143),
           (signal.SIGHUP, 129)]

# The title before.
OLD = b'of the shell'


def title_left(seen):
    """The title of a window that was sent these bytes: it keeps titles on a stack."""
    title, stack = OLD, []
    for kept, back, words in re.findall(rb'(\x1b\[22;0t)|(\x1b\[23;0t)|\x1b\]2;([^\x1b]*)\x1b\\', seen):
        if kept:
            stack.append(title)
        elif back:
            title = stack.pop() if stack else title
        else:
            title = words
    return title


# A terminal on which lines are edited, if rlwrap is installed; one that tells no width; and one without a title.
TERMINALS = [(80, 'xterm')] * bool(RLWRAP) + [(0, 'xterm'), (80, 'dumb')]


@scene
def the_title_comes_back_however_the_program_ends():
    """With rlwrap and without it, and if there is no title: by a typed word, by a key, or by a signal; nothing of it
    reaches the server."""
    server = Listener()
    for columns, kind in TERMINALS:
        has_title, is_edited = kind == 'xterm', (columns, kind) == (80, 'xterm')
        for given, status in ENDINGS:
            if is_edited and given in (b'\x03', signal.SIGINT, signal.SIGHUP):
                # there a line is cancelled, and the last shows rlwrap that the terminal is gone
                continue
            ann = plays(server, columns, kind, FIBS_QUIET='')
            server.send(BOARD)
            ann.sees('Your turn: roll, or double.')
            same('the title', title_left(bytes(ann.seen)), b'fibs: your turn, 0-0 of 3' if has_title else OLD)
            if isinstance(given, bytes):
                ann.type_bytes(given)
            else:
                os.kill(ann.job, given)
            ended, number = ann.report()
            what = '%r at %d columns of %s' % (given, columns, kind)
            same('the ending by ' + what, (ended, is_edited or int(number)), ('ended', is_edited or status))
            same('the title after ' + what, title_left(bytes(ann.seen)), OLD)
            same('echo after ' + what, ann.echoes(), True)
            same('the password is shown', PASSWORD in ann.screen(), False)
            has_received(server)
            ann.close()
    server.close()


@scene
def a_shell_above_the_program_stops_with_it():
    """Without rlwrap, on a terminal with a title and on one without: Ctrl-Z and fg, and at last the terminal goes:
    nothing is left."""
    server = Listener()
    for columns, kind in (0, 'xterm'), (80, 'dumb'):
        ann = plays(server, columns, kind, FIBS_QUIET='')
        for number in range(2):
            ann.type_bytes(b'\x1a')
            ann.is_stopped()
            same('echo', ann.echoes(), True)
            server.send('12 bob while you were away %d' % number)
            ann.to_the_foreground()
            ann.sees('while you were away %d' % number)
        ann.type('say back')
        ann.sees('sent say back')
        ann.hangs_up()
        # the signal ends the program, or the end of what is typed, whichever it sees first
        same('the ending', ann.report() in (['ended', '129'], ['ended', '0']), True)
        has_received(server, 'say back')
        ann.close()
    server.close()


# A stty in front of the system's, and what it does first: it takes a while between what it reads and what it writes.
STTY = """#!/bin/sh
PATH=${PATH#*:}
%sexec stty "$@"
"""
SLOW = """[ "$*" != 'intr undef' ] || { was=$(stty -g); sleep 0.6; stty "$was"; }
"""


def with_stty(first=''):
    """A decorator: the scene is given a server, ann, whose lines are edited, and the stty that fibs-play finds."""
    def decorated(does):
        def run():
            if not RLWRAP:
                return
            server = Listener()
            with tempfile.TemporaryDirectory() as room:
                stty = pathlib.Path(room, 'stty')
                stty.write_text(STTY % first)
                stty.chmod(0o755)
                ann = plays(server, PATH=room + ':' + os.environ['PATH'])
                ann.edits_lines()
                does(server, ann, stty)
            server.close()
        return scene(named(run, does))
    return decorated


def stops(ann):
    """Ctrl-Z."""
    ann.type_bytes(b'\x1a')
    ann.is_stopped()


@with_stty(SLOW)
def lines_are_edited_after_a_stop(server, ann, _):
    """Ctrl-Z and fg, and the script goes on before rlwrap does: what one has set the other does not undo."""
    stops(ann)
    os.kill(ann.job, signal.SIGCONT)
    ann.shown(0.3)
    ann.to_the_foreground()
    ann.shown(1)
    ann.edits_lines()
    ann.type('say back')
    same('what was sent', server.line(), 'say back')
    leaves(ann, server, 'say back')


@with_stty()
def a_stop_right_after_a_stop(server, ann, stty):
    """Ctrl-Z, fg, and Ctrl-Z while a stty that the script may begin then is held before it has begun: by a lease on its
    file, of which its holder hears by a signal that it ignores."""
    stops(ann)
    with open(stty) as held:
        try:
            fcntl.fcntl(held, fcntl.F_SETSIG, signal.SIGURG)
            fcntl.fcntl(held, fcntl.F_SETLEASE, fcntl.F_WRLCK)
        except OSError:
            print('        without leases on files: not tried', flush=True)
        ann.to_the_foreground()
        ann.edits_lines()
        ann.shown(0.3)
        stops(ann)
    ann.to_the_foreground()
    ann.edits_lines()
    leaves(ann, server)


@with_stty(SLOW)
def the_status_after_a_stop(server, ann, _):
    """Ctrl-Z, fg, and quit at once: the status is that of the program."""
    stops(ann)
    ann.to_the_foreground()
    ann.edits_lines()
    leaves(ann, server)


def listing(names):
    """The lines by which a server lists players."""
    return [*('5 %s - - 1 0 1500.00 1 0 1041253132 localhost - -' % name for name in names), '6']


def ends_so(path, end, seconds=5):
    """Waits until a file ends so."""
    latest = time.monotonic() + seconds
    while not path.read_bytes().endswith(end) and time.monotonic() < latest:
        time.sleep(0.02)


@scene
def tab_knows_each_player_who_was_listed():
    """Also one who was on no screen, or was listed at the login; and not one who has gone since; with a log that is
    wanted, to which it is appended, and without."""
    if not RLWRAP:
        return
    for logs in False, True:
        server = Listener()
        with tempfile.TemporaryDirectory() as room:
            log = pathlib.Path(room, 'log')
            if logs:
                log.write_text('7 yorick yorick logs in.\n')
            ann = plays(server, options=['--log', str(log)] if logs else [], listed=listing(['yolanda', 'ulrich']))
            ann.type('quiet')
            ann.sees('not who comes and goes')
            names = ['player%03d' % at for at in range(300)] + ['walter', 'zebedee', 'urania', 'long' * 16]
            server.send(*listing(names))
            server.send('8 walter walter drops connection.', '12 x listed')
            ann.sees('x says: listed')
            ann.type_bytes(b'tell zeb\t hello\n')
            same('a name that is known', server.line(), 'tell zebedee hello')
            ann.type_bytes(b'tell yo\t hello\n')
            same('one who was listed at the login', server.line(), 'tell yolanda hello')
            ann.type_bytes(b'tell wal\tlace hello\n')
            same('a name that is not', server.line(), 'tell wallace hello')
            ann.type_bytes(b'kibitz ura\t\n')
            same('one who is named in talk', server.line(), 'kibitz urania')
            ann.type_bytes(b'tell lon\t hello\n')
            same('the longest name', server.line(), 'tell %s hello' % ('long' * 16))
            if logs:
                # half a line was written when she presses Tab
                ends_so(log, b' hello\n')
                with log.open('ab', 0) as half:
                    half.write(b'7 xav')
                    ann.type_bytes(b'tell xav\t\x03')
                    ann.sees('cancelled')
                    half.write(b'ier xavier logs in.\n')
                ann.type_bytes(b'tell xav\t hello\n')
                same('the other half', server.line(), 'tell xavier hello')
            ann.quits()
            same('a log that is left', log.exists(), logs)
            ann.close()
        server.close()
