"""fibs-play on real terminals: its keys, its rows, what it refuses, and what it hands through."""

import itertools
import os
import pathlib
import re
import shutil
import signal
import subprocess
import tempfile
import time

from people import (LOGIN, PASSWORD, PATIENCE, PROGRAM, ROOM, ROOT, Client, Failed, Served, Typist, begun, greeted,
                    leaves, same, with_listener)
from terminals import KINDS, PLAY, RLWRAP, SHELLS

REFUSED, REFUSED_INPUT = 2, 3

# What a person is told of a password that is not valid.
NO_PASSWORD = 'A password has printable ASCII characters, at least one, no space. [2 BadText]'
TOO_LONG = 'A password has at most 64 characters. [3 TooLong]'


def drawn(player):
    """The rows as they stand on the terminal."""
    rows, at = [[]], 0
    for found in re.finditer(r'\x1b\[\??(\d*)([a-zA-Z@])|(.)', player.screen(), re.S):
        count, order, letter = found.groups()
        row = rows[-1]
        if letter == '\n':
            rows.append([])
            at = 0
        elif letter == '\r':
            at = 0
        elif order == 'K':
            del row[at:]
        elif order in ('C', 'D'):
            at = max(0, at + (1 if order == 'C' else -1) * int(count or 1))
        elif letter == '\b':
            at = max(0, at - 1)
        elif letter and letter >= ' ':
            row += ' ' * (at + 1 - len(row))
            row[at] = letter
            at += 1
    return [''.join(row) for row in rows]


def with_server(scene, *options, more=''):
    """A decorator: the scene is given a server with a bot. If rlwrap is not installed it is left out."""
    def run():
        if not RLWRAP:
            print('        without rlwrap: not tried', flush=True)
            return
        server = Served('--bot', 'eve:says=hello', '--no-changes', *options)
        try:
            scene(server)
        finally:
            server.close()
    run.__name__ = scene.__name__ + more
    return run


def in_play(server, **more):
    """One who is logged in, and whose lines are edited."""
    player = begun(server, 'xterm', **more)
    player.is_shown('Welcome, ann')
    player.shown(0.3)
    return player


@with_server
def ctrl_c_cancels_the_line_and_not_the_game(server):
    """By each shell: a half-typed line goes; pressed once at an empty line it says so; twice, it leaves."""
    for shell in SHELLS:
        player = in_play(server, shell=shell)
        player.type_bytes(b'tell eve never')
        player.is_shown('tell eve never')
        player.type_bytes(b'\x03')
        player.is_shown('cancelled')
        player.type('tell eve hi')
        player.is_shown('hello')
        same('what was cancelled did not go out', 'You say to eve: never' in player.plain(), False)
        player.type_bytes(b'\x03')
        player.is_shown('Ctrl-C again leaves')
        player.type('tell eve still here')
        player.is_shown('hello', 2)
        player.type_bytes(b'\x03')
        player.is_shown('Ctrl-C again leaves', 2)
        # a line that is cancelled is one between two presses
        player.type_bytes(b'tell eve never')
        player.shown(0.3)
        player.type_bytes(b'\x03')
        player.sees('cancelled')
        player.type_bytes(b'\x03')
        player.sees('Ctrl-C again leaves')
        player.type_bytes(b'\x03')
        player.ends(0)
        same('the terminal is as it was', (player.echoes(), player.interrupts()), (True, b'\x03'))
        player.close()


@with_server
def ctrl_c_after_a_stop(server):
    """Ctrl-Z and fg: the shell shows what is typed, and then the key cancels as before."""
    player = in_play(server)
    player.type_bytes(b'\x1a')
    player.is_stopped()
    same('echo of the shell', player.echoes(), True)
    player.to_the_foreground()
    player.edits_lines()
    player.type_bytes(b'tell eve never')
    player.is_shown('tell eve never')
    player.type_bytes(b'\x03')
    player.is_shown('cancelled')
    player.type('tell eve hi')
    player.is_shown('hello')
    player.quits()
    player.close()


@with_server
def tab_completes_the_players_names(server):
    player = in_play(server)
    player.type('players')
    player.is_shown('eve')
    player.shown(0.3)
    player.type_bytes(b'tell ev\t hi\n')
    player.is_shown('hello')
    player.quits()
    player.close()


@with_server
def a_small_terminal(server):
    """The program is told how many columns there are: no row of a picture is wider."""
    for kind in 'xterm', 'dumb':
        player = begun(server, kind, columns=72)
        player.is_shown('Welcome, ann')
        player.type('invite eve 3')
        player.is_shown('-+   O You')
        rows = [line for line in player.plain().split('\n') if re.fullmatch(r' [|+].*', line)]
        same('rows of pictures that are wider', [row for row in rows if len(row) > 72], [])
        player.quits()
        player.close()
        time.sleep(0.3)


def a_word_where_rlwrap_is_missing():
    """Lines are not edited then, and it says so before it asks for the password."""
    server = Served()
    try:
        with tempfile.TemporaryDirectory() as room:
            for name in 'sh', 'stty', 'dirname', 'cat':
                os.symlink(shutil.which(name), os.path.join(room, name))
            player = begun(server, 'xterm', PATH=room)
            player.is_shown('Welcome, ann')
            same('the first line', player.plain().split('\n')[0],
                 'fibs-play: without rlwrap lines are not edited, and Ctrl-C ends the program.')
            player.type_bytes(b'\x03')
            player.ends(130)
            player.close()
    finally:
        server.close()


def what_can_not_be_is_refused_before_a_password_is_typed():
    rows = [
        (['', '4321', 'ann'], 'HOST'), (['-x', '4321', 'ann'], 'HOST'), (['a b', '4321', 'ann'], 'HOST'),
        (['localhost', 'http', 'ann'], 'PORT'), (['localhost', '0', 'ann'], 'PORT'),
        (['localhost', '65536', 'ann'], 'PORT'), (['localhost', '4321', ''], 'NAME'),
        (['localhost', '4321', 'a:b'], 'NAME'), (['localhost', '4321', 'a b'], 'NAME'),
        (['localhost', '4321', '-x'], 'NAME'), (['localhost', '4321', 'a' * 65], 'NAME'),
        (['--log', '/', 'localhost', '4321', 'ann'], 'log'), (['--log'], '--log'), (['localhost'], 'usage'),
    ]
    for shell in SHELLS:
        for words, wanted in rows:
            player = Typist(words, shell=shell, password=False)
            player.ends(REFUSED)
            same('%s is named for %r' % (wanted, words), wanted in player.plain(), True)
            same('a password is asked for', 'password' in player.plain().replace('the password', ''), False)
            player.close()


# The settings, what comes after fibs-play, and the words that the program gets; or what is said of them.
FROM_SETTINGS = [
    ('server localhost 65535 %s\r\nserver other 1 bob\n' % ('a' * 64), [], ['localhost', '65535', 'a' * 64]),
    ('# server other 1 bob\n  server   localhost  4321   ann \n', [], ['localhost', '4321', 'ann']),
    ('server localhost 4321 ann\n', ['other', '1', 'bob'], ['other', '1', 'bob']),
    ('log a log\r\nserver localhost 4321 ann\nlog other\n', [], ['--log', 'a log', 'localhost', '4321', 'ann']),
    ('log\nserver localhost 4321 ann\n', [], ['localhost', '4321', 'ann']),
    ('log a log\n', ['--log=mine', 'localhost', '4321', 'ann'], ['--log', 'mine', 'localhost', '4321', 'ann']),
    ('server * 4321 ann\n', [], "not '*'"),
    ('server localhost 4321\n', [], 'usage'),
    ('', [], 'usage'),
]


def the_settings_say_where_to_play():
    """If nothing else does: by the first line that does. The program is one that prints the words that it gets."""
    with tempfile.TemporaryDirectory() as room:
        program, config = pathlib.Path(room, 'fibs'), pathlib.Path(room, 'config')
        program.write_text('#!/bin/sh\nprintf "%s\\n" "$@"\n')
        program.chmod(0o755)
        for shell in SHELLS:
            for settings, words, wanted in FROM_SETTINGS:
                config.write_bytes(settings.encode())
                done = subprocess.run([*shell, PLAY, *words], stdin=subprocess.DEVNULL, capture_output=True, text=True,
                                      cwd=room, check=False,
                                      env={**os.environ, 'FIBS': str(program), 'FIBS_CONFIG': str(config)})
                if isinstance(wanted, str):
                    same('it is refused by %r' % settings, (done.returncode, wanted in done.stderr), (REFUSED, True))
                else:
                    same('what the program gets by %r' % settings, done.stdout.splitlines(), ['connect', *wanted])


def a_program_that_fails_is_not_begun_again():
    """Nor is the password in its environment, though a variable of that name was handed down; and what is pasted as the
    password is that alone."""
    with tempfile.TemporaryDirectory() as room:
        program = pathlib.Path(room, 'fibs')
        program.write_text('#!/bin/sh\nenv\nexit 4\n')
        program.chmod(0o755)
        for kind in KINDS:
            player = Typist(['localhost', '4321', 'ann'], kind, ['env', 'password=handed'], FIBS=str(program))
            player.ends(4)
            before, *after = player.screen().split('password: ')
            same('how often it asks', len(after), 1)
            same('the environment', ('PATH=' in after[0], PASSWORD in after[0]), (True, False))
            same('pasting is plain', before.rfind('\x1b[?2004l') >= before.rfind('\x1b[?2004h'), True)
            player.close()


@with_server
def a_name_is_asked_for(server):
    """If it is missing; what can be none is refused, and so it is if nobody types."""
    for typed, status in (b'ann\n', 0), (b' ann \n', 0), (b'a:b\n', REFUSED), (b'\n', REFUSED), (b'\x04', 0):
        player = Typist(['127.0.0.1', str(server.port)], 'dumb', password=False)
        player.sees('name: ')
        player.type_bytes(typed)
        if typed.strip() == b'ann':
            player.sees('password: ')
            player.type(PASSWORD)
            player.is_shown('Welcome, ann')
            player.type('quit')
        player.ends(status)
        same('what is said of %r' % typed, 'is no NAME' in player.screen(), status == REFUSED)
        player.close()


# The files that fibs-play finds beside it, and what it says of one that is missing.
FILES = {'keys.pl': 'Ctrl-C ends the program', 'inputrc': 'Ctrl-C ends the program', 'typed': 'Tab completes no words'}


@with_server
def each_file_that_is_missing_is_named(server):
    """And Ctrl-C is not taken away: it cancels the line, if its two files are there, else it ends the program."""
    for missing in ['keys.pl'], ['inputrc'], ['typed'], list(FILES), []:
        with tempfile.TemporaryDirectory() as room:
            subprocess.run(['make', '-s', 'install-surface', 'PREFIX=' + room], cwd=ROOT, check=True,
                           capture_output=True)
            for name in missing:
                os.remove(os.path.join(room, 'share', 'fibs', name))
            player = begun(server, 'xterm', play=os.path.join(room, 'bin', 'fibs-play'))
            player.is_shown('Welcome, ann')
            player.shown(0.5)
            rows = [row for row in player.plain().split('\n') if row.startswith('fibs-play: ')]
            same('the rows without %r' % missing, sorted(rows), sorted(
                'fibs-play: %s is missing: %s. make install brings it.' % (name, FILES[name]) for name in missing))
            same('the longest', max(map(len, rows), default=0) <= 79, True)
            player.type_bytes(b'tell eve never\x03')
            if missing in ([], ['typed']):
                player.is_shown('cancelled')
                player.quits()
            else:
                player.ends(130)
            same('the terminal is as it was', (player.echoes(), player.interrupts()), (True, b'\x03'))
            player.close()


def a_program_that_is_missing():
    """It is said before a password is asked for."""
    with tempfile.TemporaryDirectory() as room:
        player = Typist(['localhost', '4321', 'ann'], 'dumb', password=False, FIBS=os.path.join(room, 'fibs'))
        player.ends(REFUSED)
        same('the screen', player.screen(),
             "fibs-play: the program '%s/fibs' is missing: make install brings it\n" % room)
        player.close()


@with_server
def a_log(server):
    """It is handed through, the password is not in it, and so it is if nothing is edited."""
    for kind in 'xterm', 'dumb':
        log = os.path.join(ROOM.name, 'log of ' + kind)
        player = begun(server, kind, ['--log', log])
        player.is_shown('Welcome, ann')
        player.type('tell eve hi')
        player.is_shown('hello')
        player.quits()
        player.close()
        same('who may read it', os.stat(log).st_mode & 0o777, 0o600)
        held = pathlib.Path(log).read_bytes()
        same('the password is not in it', PASSWORD.encode() in held, False)
        for text in b'1 ann ', b'12 eve hello', b'tell eve hi':
            same('%r is in it' % text, text in held, True)
        done = subprocess.run([PROGRAM, 'show'], input=held, capture_output=True, check=False)
        same('fibs show', (done.returncode, b'message 12 eve hello\n' in done.stdout, b'unfinished' in done.stdout),
             (0, True, False))
        time.sleep(0.3)


def pictures_stand_straight(server):
    """Also if what is drawn comes a while after the line that asked for it."""
    player = in_play(server)
    player.type('invite eve 3')
    player.is_shown('as in: move')
    for count in 2, 3, 4:
        player.type('board')
        player.is_shown('-+   O You', count)
        player.shown(0.5)
    rows = [row for row in drawn(player) if '+13-14-15' in row]
    same('pictures were drawn', len(rows) > 3, True)
    same('rows that do not begin where the others do', [row for row in rows if not row.startswith(' +13-14-15')], [])
    player.close()


def a_half_typed_line_is_kept(server):
    """What comes does not tear it."""
    player = in_play(server)
    player.type_bytes(b'tell eve al')
    player.shown(0.3)
    for _ in range(3):
        other = Client(server.port, 'bob')
        other.send('tell ann hi')
        player.shown(0.3)
        other.close()
    player.type_bytes(b'most there\n')
    player.is_shown('You say to eve: almost there')
    player.close()


# At the question for the password: what is typed or sent, the status, and what is on the screen then. One that can't be
# is asked for three times.
# (rlwrap draws an empty line before its end)
WITHOUT = re.compile(r'(?<=\n)\n+|\x1b\[2[23];0t')
AGAIN = '\npassword: \n'
QUESTIONS = [
    (b'\x03', 130, ''), (b'\x1c', 131, ''), (b'\x04', 0, ''), (signal.SIGTERM, 143, ''), (signal.SIGHUP, 129, ''),
    (b'hun\x03', 130, ''), (b'\n', 3, AGAIN.join([NO_PASSWORD] * 3) + '\n'),
    (b'a b\n', 3, AGAIN.join([NO_PASSWORD] * 3) + '\n'), (b'a' * 65 + b'\n', 3, AGAIN.join([TOO_LONG] * 3) + '\n'),
]


@with_listener
def the_question_ends(server):
    """By each shell, with rlwrap and without: nothing is shown of what is typed, the terminal is as it was, and nobody
    has connected."""
    for shell, kind in itertools.product(SHELLS, KINDS):
        for given, status, said in QUESTIONS:
            player = begun(server, kind, shell=shell, password=False)
            player.sees('password: ')
            player.is_waiting()
            if isinstance(given, bytes):
                player.type_bytes(given)
            else:
                os.kill(player.job, given)
            for _ in range(2 if status == REFUSED_INPUT else 0):
                player.sees('password: ')
                player.is_silent()
                player.type_bytes(given)
            player.ends(status)
            same('the screen after %r, by %r on %s' % (given, shell, kind),
                 (WITHOUT.sub('', player.plain()), player.echoes(), player.interrupts()),
                 ('password: \n' + said, True, b'\x03'))
            player.close()
    server.is_alone()


@with_listener
def a_stop_does_not_show_the_password(server):
    """By each shell, with rlwrap and without: Ctrl-Z at the question does nothing, since a shell would turn the echo
    on."""
    for shell, kind in itertools.product(SHELLS, KINDS):
        player = begun(server, kind, shell=shell, password=False)
        player.sees('password: ')
        player.type_bytes(PASSWORD[:3].encode() + b'\x1a')
        player.shown()
        same('echo', player.echoes(), False)
        player.type(PASSWORD)
        server.accept()
        same('received', server.line().endswith(PASSWORD), True)
        if kind != 'dumb':
            player.edits_lines()
        player.quits()
        same('the password is shown', PASSWORD in player.screen(), False)
        player.close()


@with_listener
def the_password_is_in_no_list_of_processes(server):
    for kind in KINDS:
        player = greeted(server, begun(server, kind))
        for name in 'cmdline', 'environ':
            for process in pathlib.Path('/proc').glob('[0-9]*'):
                try:
                    found = (process / name).read_bytes()
                except OSError:
                    continue
                if PASSWORD.encode() in found and int(process.name) != os.getpid():
                    raise Failed('%s of %s' % (name, process))
        leaves(player, server)


@with_listener
def fibs_play_without_a_terminal(server):
    """The first line is the password, then."""
    done = subprocess.run([PLAY, '127.0.0.1', str(server.port), 'ann'], input=PASSWORD.encode() + b'\n',
                          env={**os.environ, 'FIBS': PROGRAM}, capture_output=True, timeout=PATIENCE, check=False)
    same('the run', (done.returncode, done.stdout, done.stderr), (0, b'', b''))
    server.accept()
    same('received', server.line(), LOGIN)


@with_listener
def tab_completes_the_words(server):
    """As it is installed, with the words of typed lines beside it: Tab puts no space at a line's end."""
    if not RLWRAP:
        return
    with tempfile.TemporaryDirectory() as room:
        subprocess.run(['make', '-s', 'install-surface', 'PREFIX=' + room], cwd=ROOT, check=True, capture_output=True)
        player = greeted(server, begun(server, 'xterm', play=os.path.join(room, 'bin', 'fibs-play')))
        player.shown(0.3)
        player.type_bytes(b'withd\t')
        player.sees('withdraw')
        player.type_bytes(b' rol\t')
        player.sees(' roll')
        player.type('')
        player.sees('[12 NotOrdered]')
        leaves(player, server)


@with_server
def tab_completes_by_place(server):
    """A player after what takes one, and nothing else; places after a move."""
    with tempfile.TemporaryDirectory() as room:
        subprocess.run(['make', '-s', 'install-surface', 'PREFIX=' + room], cwd=ROOT, check=True, capture_output=True)
        others = [Client(server.port, name) for name in ('bob', 'barbara')]
        player = in_play(server, play=os.path.join(room, 'bin', 'fibs-play'))
        for typed, shown in [(b'tell bo\t', 'tell bob'), (b't ba\t', 't barbara'), (b'invite e\t', 'invite eve'),
                             (b'join bo\t', 'join bob'), (b'watch e\t', 'watch eve'), (b'whois ba\t', 'whois barbara'),
                             (b'matches ba\t', 'matches barbara'), (b'TELL bo\t', 'TELL bob'),
                             (b'tell qui\t', 'tell qui'), (b'm ba\t', 'm bar'), (b'm bar/2\t0 6/o\t', 'm bar/20 6/off'),
                             (b'quie\t', 'quiet'), (b'm wi\t', 'm wi')]:
            player.type_bytes(typed)
            # a busy machine takes its time; and then nothing more comes
            player.wait_until('%r after %r' % (shown, typed), lambda: drawn(player)[-1].rstrip() == shown)
            player.shown(0.3)
            row = drawn(player)[-1].rstrip()
            same('after %r' % typed, row, shown)
            player.type_bytes(b'\x03')
            player.shown(0.2)
        player.quits()
        player.close()
        for other in others:
            other.close()


# how the wire is, after an opening with which ann begins
WIRES = [((), ''), (('--delay', '80'), '_over_a_wire_with_delay'),
         (('--portions', '60', '--pause', '30'), '_in_pieces')]
FAR_SCENES = [with_server(scene, '--dice', '31', *options, more=more)
              for scene in (pictures_stand_straight, a_half_typed_line_is_kept) for options, more in WIRES]

SCENES = [ctrl_c_cancels_the_line_and_not_the_game, ctrl_c_after_a_stop, tab_completes_the_players_names,
          tab_completes_the_words, tab_completes_by_place, a_name_is_asked_for, each_file_that_is_missing_is_named,
          a_program_that_is_missing, a_small_terminal, a_word_where_rlwrap_is_missing,
          what_can_not_be_is_refused_before_a_password_is_typed, the_settings_say_where_to_play,
          a_program_that_fails_is_not_begun_again, the_question_ends, a_stop_does_not_show_the_password,
          the_password_is_in_no_list_of_processes, fibs_play_without_a_terminal, a_log, *FAR_SCENES]
