"""Histories of the world, worked out by hand: each event of a script of `fibs replay` beside what it adds to the log.

A word in braces is a board or a message of boards.py. An event that is refused adds nothing, and has its refusal
beside it: the events after it go on without it. rust/fibs-client/src/tests has a second click, a lost play and a cut
one.
"""

import subprocess

from boards import NAMED


def informed(number):
    """A connection by its number, up to messages 1 and 2."""
    return [
        ('open', 'opened %d' % number),
        ('serve %d 1 1' % number, 'loggedin %d' % number),
        ('text {WELCOME}',),
        ('text {INFO}',),
        ('deliver 10000', 'welcomed %d' % number, 'informed %d 0 0' % number),
    ]


# What is refused, in the order in which it is named.
REFUSED = [
    ('own {ONE_STEP}', 'refused 6 UserDecides'),
    ('own {OF_OTHERS}', 'refused 8 BadBoard'),
    ('text {TO_ROLL}', 'refused 7 BoardAsText'),
    ('deliver 1', 'refused 3 NotOpen'),
    ('lose 0', 'refused 3 NotOpen'),
    ('serve 1 0 1', 'refused 4 NoSuchConnection'),
    ('open', 'opened 1'),
    ('open', 'refused 2 AlreadyOpen'),
    ('serve 1 0 1', 'refused 9 BadDice'),
    ('serve 0 1 1', 'refused 4 NoSuchConnection'),
]

# Bytes are delivered in pieces, other commands are given, boards are repeated, and connections are lost.
CUT_UP = [
    ('open', 'opened 1'),
    ('serve 1 1 1', 'loggedin 1'),
    ('text {WELCOME}',),
    ('text {INFO}',),
    ('deliver 20',),
    ('deliver 10000', 'welcomed 1', 'informed 1 0 0'),
    ('serve 1 1 1',),
    ('serve 1 1 1',),
    ('deliver 150', 'shown 1 {TO_ROLL}'),
    ('deliver 10000', 'shown 1 {TO_ROLL}'),
    ('click roll', 'clicked 1 ok', 'sent 1 {TO_ROLL} roll'),
    ('plain who',),
    ('serve 1 6 2', 'took 1 {TO_ROLL} roll'),
    ('repeat',),
    ('deliver 10000', 'shown 1 {TO_MOVE}', 'shown 1 {TO_MOVE}'),
    ('lose 2', 'lost 1'),
    ('open', 'opened 2'),
    ('serve 2 1 1', 'loggedin 2'),
    ('text {WELCOME}',),
    ('text {INFO}',),
    ('repeat',),
    ('deliver 10000', 'welcomed 2', 'informed 2 0 0', 'shown 2 {TO_MOVE}'),
    ('click roll', 'clicked 2 WrongKind'),
    ('lose 10000', 'lost 2'),
]

# The server's board becomes another one if the user does not decide.
OWN_BOARDS = [
    *informed(1),
    ('own {TO_ROLL}',),
    ('deliver 10000', 'shown 1 {TO_ROLL}'),
    ('click double', 'clicked 1 ok', 'sent 1 {TO_ROLL} double'),
    ('serve 1 1 1',),
    ('serve 1 1 1',),
    ('serve 1 1 1', 'took 1 {TO_ROLL} double'),
    ('deliver 10000', 'shown 1 {TO_ROLL}', 'shown 1 {TO_ROLL}', 'shown 1 {DOUBLED}'),
    ('own {TO_MOVE}',),
    ('deliver 10000', 'shown 1 {TO_MOVE}'),
    ('own {ONE_STEP}', 'refused 6 UserDecides'),
]

def script(begins, events):
    """The script of these events, from this first board on."""
    return ''.join('%s\n' % line.format(**NAMED) for line in (begins, *events)).encode()


def events_of(story):
    return [event for event, *_ in story]


def replay(program, begins, events):
    """The lines that the program prints of a script, its status, and what it says beside them."""
    done = subprocess.run([program, 'replay'], input=script(begins, events), capture_output=True)
    return done.stdout.decode().split('\n'), done.returncode, done.stderr


def check_log(counts, what, begins, events, log):
    """The script has just this log, whose last line says how it ends."""
    wanted = [line.format(**NAMED) for line in log] + ['']
    status = 0 if log[-1].startswith('end ') else 3
    counts.same(replay(counts.program, begins, events), (wanted, status, b''), what)


def play(counts, name, begins, *parts):
    """Does the events of a story one by one: each adds its lines to the log, or is refused and adds none."""
    done, log = [], []
    for number, (event, *told) in enumerate((row for part in parts for row in part), 1):
        what = '%s: event %d' % (name, number)
        if told and told[0].startswith('refused'):
            why = told[0].split(' ', 1)[1]
            check_log(counts, what, begins, done + [event], log + ['refused %d %s' % (len(done), why)])
        else:
            done.append(event)
            log += told
            check_log(counts, what, begins, done, log + ['end %d' % len(done)])


def run_all(counts, name, begins, story, end):
    """Does the events of a story in a row, which end so."""
    lines, _, _ = replay(counts.program, begins, events_of(story))
    counts.same(lines[-2:], [end, ''], name)


def what_may_not_be_is_refused(counts):
    play(counts, 'the story', '{TO_ROLL}', REFUSED)
    run_all(counts, 'no world begins with a board of another', '{OF_OTHERS}', [], 'refused 0 8 BadBoard')


def a_board_beyond_the_limit_is_a_text(counts):
    """The server sends no board as a text; with so many spaces after it that the line is cut it is a text, and no
    board is shown."""
    play(counts, 'the story', '{TO_ROLL}', [
        ('open', 'opened 1'),
        ('serve 1 1 1', 'loggedin 1'),
        ('text {TO_ROLL}' + ' ' * 4096, 'refused 7 BoardAsText'),
        ('text {TO_ROLL}' + ' ' * 16384,),
        ('deliver 20000',),
        ('text {WELCOME}',),
        ('text {INFO}',),
        ('deliver 20000', 'welcomed 1', 'informed 1 0 0'),
        ('click roll', 'clicked 1 NoBoard'),
    ])


def connections_are_cut_up(counts):
    play(counts, 'the story', '{TO_ROLL}', CUT_UP)
    run_all(counts, 'all are done', '{TO_ROLL}', CUT_UP, 'end 24')


def the_server_has_boards_of_its_own(counts):
    play(counts, 'the story', '{STEPPED}', OWN_BOARDS)
    run_all(counts, 'the run stops at the last', '{STEPPED}', OWN_BOARDS, 'refused 14 6 UserDecides')


TESTS = [what_may_not_be_is_refused, a_board_beyond_the_limit_is_a_text, connections_are_cut_up,
         the_server_has_boards_of_its_own]
