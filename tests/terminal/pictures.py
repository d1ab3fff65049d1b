"""What a terminal shows of a file: `show` and `plays`; and a conversation with a terminal on one side alone."""

import os
import pathlib
import re
import subprocess
import tempfile
import time

from escapes import BOARD
from people import PASSWORD, PATIENCE, PROGRAM, ROOT, WELCOME, Reader, Terminal, same, with_listener
from terminals import FROM_FILE, TO_FILE

SCENES = []

# A board, and what a terminal shows of it, in docs/PLAYING.md and in the man page.
SHOWN = ('board:You:eve:5:2:1:0:-2:0:0:3:0:6:0:3:0:0:0:-4:2:0:0:0:-3:0:-5:0:0:0:0:0:1:'
         '1:5:3:0:0:2:1:0:0:1:-1:0:25:0:0:1:1:2:0:0:0')

# The board of README.md.
MIDDLE = ('board:You:bob:5:2:1:0:-1:0:0:2:2:4:0:3:0:0:0:-4:3:0:0:0:-3:0:-4:-2:-1:0:0:1:0:'
          '1:0:0:0:0:2:1:0:0:1:-1:0:25:0:0:0:0:2:0:0:0')

CAPTURE = (ROOT / 'examples' / 'capture.txt').read_text()


def scene(does):
    """A decorator: the scene is one of those that are played."""
    SCENES.append(does)
    return does


def shown_by(*words, columns=80, held='', **more):
    """What a terminal shows of a subcommand that reads these bytes, up to its end."""
    with tempfile.NamedTemporaryFile('w') as file:
        file.write(held)
        file.flush()
        terminal = Reader([*FROM_FILE, file.name, PROGRAM, *words], columns, **more)
        terminal.ends(0)
        found = terminal.screen()
        terminal.close()
        return found


@scene
def the_picture_of_the_pages():
    """The pages have it without the last row, as a terminal with letters in bold has."""
    for board, pages in (SHOWN, ['docs/PLAYING.md', 'docs/fibs.1']), (MIDDLE, ['README.md']):
        drawn = shown_by('show', held=board + '\n').splitlines(True)
        same('its lines', len(drawn), 14)
        for page in pages:
            same('it is in ' + page, ''.join(drawn[:13]) in (ROOT / page).read_text(), True)


@scene
def the_words_of_the_pages():
    """The same board, if FIBS_WORDS is set: its rows are broken where the terminal ends, and nowhere else."""
    page = (ROOT / 'docs' / 'PLAYING.md').read_text()
    for columns in 80, 40:
        told = shown_by('show', columns=columns, held=SHOWN + '\n', FIBS_WORDS='1', COLUMNS=str(columns)).splitlines()
        same('rows that are wider', [row for row in told if len(row) > columns], [])
        # what goes on of a row begins with a space
        whole = '\n'.join(told).replace('\n ', ' ')
        same('the page has the words', whole in page, True)


@scene
def a_capture_is_drawn():
    """As a file beside this one has it; on a terminal of forty columns that does not say so too: it wraps the rows
    itself."""
    wanted = (pathlib.Path(__file__).parent / 'capture.txt').read_text()
    for columns in 80, 40:
        found = shown_by('show', columns=columns, held=CAPTURE)
        for number, pair in enumerate(zip(found.splitlines(), wanted.splitlines()), 1):
            same('line %d of %d columns' % (number, columns), *pair)
        same('the screen of %d columns' % columns, found, wanted)


@scene
def plays_below_their_board():
    listed = subprocess.run([PROGRAM, 'plays', SHOWN], capture_output=True, text=True, check=True).stdout
    same('the screen', shown_by('plays', SHOWN), shown_by('show', held=SHOWN + '\n') + listed)


@scene
def what_show_says_at_a_terminal():
    """What is left over at the end of its input; what is too long is a text; and an input that can't be read. Nobody
    knows when the talk was said."""
    rows = [
        (b'12 bob hi\nhalf', ['bob says: hi\n', 'unfinished 4\n'], [' bob says'], 0),
        (b'text\n16 bob hi\n', ['text\nYou say to bob: hi\n'], [], 0),
        (b'12 bob hi\n', ['bob says: hi\n'], ['unfinished'], 0),
        (b'12 bob ' + b'a' * 16384 + b'\n', ['12 bob\naaa'], ['says'], 0),
        (None, ['fibs: device\nfibs: standard input: it is a directory\n'], [], 4),
    ]
    for given, wanted, never, status in rows:
        with tempfile.NamedTemporaryFile() as file:
            file.write(given or b'')
            file.flush()
            terminal = Terminal([*FROM_FILE, '/' if given is None else file.name, PROGRAM, 'show'])
            terminal.ends(status)
            shown = terminal.screen()
            same('shown of %.20r' % given, ([text in shown for text in wanted], [text in shown for text in never]),
                 ([True] * len(wanted), [False] * len(never)))
            terminal.close()


@scene
@with_listener
def a_terminal_on_one_side_alone(server):
    """Lines typed at a terminal with the account in a file, which has no prompt; typed lines of a file with the account
    on a terminal."""
    with tempfile.TemporaryDirectory() as room:
        path, pipe = os.path.join(room, 'account'), os.path.join(room, 'typed')
        words = [PROGRAM, 'connect', '127.0.0.1', str(server.port), 'ann']
        ann = Reader([*TO_FILE, path, *words])
        ann.sees('password: ')
        ann.type(PASSWORD)
        server.accept()
        server.send(WELCOME, '12 bob hi', BOARD)
        wanted = 'message %s\nmessage 12 bob hi\n%s\nphase RollOrDouble\n' % (WELCOME, BOARD)
        end = time.monotonic() + PATIENCE
        while pathlib.Path(path).read_text() != wanted and time.monotonic() < end:
            time.sleep(0.05)
        same('the account', pathlib.Path(path).read_text(), wanted)
        ann.quits()
        ann.close()
        os.mkfifo(pipe)
        ann = Reader([*FROM_FILE, pipe, *words])
        with open(pipe, 'w', buffering=1) as typed:
            typed.write(PASSWORD + '\n')
            server.accept()
            server.send(WELCOME, '12 bob hi')
            typed.write('\n')
            ann.sees('bob says: hi')
            typed.write('dance\n')
            ann.sees('unknown')
        ann.ends(0)
        same('the screen', [re.sub(r'^\d\d:\d\d ', '', row) for row in ann.lines()],
             ['connected to 127.0.0.1:%d' % server.port,
              'Welcome, ann. Last login: 30 December 2002, 12:58, from localhost.', 'bob says: hi',
              'unknown: help lists the words'])
        ann.close()
