"""Positions: the boards of `boards.txt`, and when the game has gone on."""

from checks import allowed, answer, fibs, phase_of, test
from props import reference
from props.table import NAMED, ROWS, Wrong, rows, steps_of, turns

WORDS = {'roll': fibs.ROLL, 'double': fibs.DOUBLE, 'accept': fibs.ACCEPT, 'reject': fibs.REJECT,
         'resign n': fibs.RESIGN_NORMAL, 'resign g': fibs.RESIGN_GAMMON, 'resign b': fibs.RESIGN_BACKGAMMON}

move_of = fibs.Decision.move


def decision_of(text):
    """The decision that is written so, a move in the player's own numbers."""
    if text in WORDS:
        return WORDS[text]
    return move_of(steps_of(text.removeprefix('move')))


def listed(board):
    """The plays of a board, each by its steps."""
    return [play.steps for play in fibs.plays(board)]


def seen_on(line):
    """What a player sees on a board: the phase, where he goes, and the checkers of both by his own numbers."""
    board = fibs.Board(line)
    direction = 'up' if board.direction == 1 else 'down'
    return phase_of(line), direction, list(board.checkers), list(reversed(board.opponent_checkers))


def after(line, text, dice):
    """The line of the board after a decision."""
    return fibs.Board(line).after(decision_of(text), dice).line


def wanted_after(row, becomes):
    """The line of the board that a row says, or why there is none."""
    if becomes is None:
        return 'NoEffect'
    return NAMED[becomes] if isinstance(becomes, str) else reference.Board(row.board).with_fields(becomes).printed


@test
def boards_are_as_worked_out(check):
    for row in ROWS:
        line = row.board
        if row.fault:
            for call in (phase_of, listed, lambda line: after(line, 'roll', (1, 1))):
                check(answer(call, line), row.fault, row.name)
            check(allowed(line, fibs.ROLL), row.fault, '%s: a roll' % row.name)
            continue
        check(answer(seen_on, line), row.seen, '%s: what is seen' % row.name)
        plays = answer(listed, line)
        check(plays, reference.plays_of(line), '%s: the plays of the reference' % row.name)
        if row.plays is not None:
            check(plays, row.plays, '%s: the plays' % row.name)
        if row.count is not None:
            check(len(plays), row.count, '%s: how many plays' % row.name)
        for text, why in row.answers:
            check(allowed(line, decision_of(text)), why, '%s: %s' % (row.name, text))
        for text, dice, becomes in row.effects:
            check(answer(after, line, text, dice), wanted_after(row, becomes), '%s: after %s' % (row.name, text))


def why_wrong(read, text):
    """Where a table is wrong."""
    try:
        return len(read(text))
    except Wrong as why:
        return str(why).partition(': ')[0]


@test
def the_line_of_a_table_that_is_wrong_is_named(check):
    board = '= a board\nboard:You\nno position: NotYou\n'
    for read, text, where in [
        (rows, 'board:You', 'boards.txt:1'),
        (rows, board + 'roll 6 2 -> 34:6', 'boards.txt:4'),
        (rows, board + 'no position: NotYou', 'boards.txt:4'),
        (rows, board + 'allowed roll', 'boards.txt:4'),
        (rows, board + '= the same\nboard:You', 'boards.txt:5'),
        (rows, '= a board\nboard:You\nallowed: roll', 'boards.txt'),
        (rows, board, 1),
        (turns, 'a turn | 24:1 | 13:2 | 6 5 | 24-18', 'turns.txt:1'),
        (turns, '\na turn | 24:1 | 13:2 | 6 5 | 24-18 | none | none', 'turns.txt:2'),
        (turns, 'a turn | 24 | 13:2 | 6 5 | 24-18 | none', 'turns.txt:1'),
        (turns, 'a turn | 24:1 | 13:2 | 6 5 | 24 | none', 'turns.txt:1'),
    ]:
        check(why_wrong(read, text), where, text)


BEFORE_ROLL = NAMED['TO_ROLL']

# A checker of each side is on the bar, so that one more on a place or off leaves fifteen at most.
TWO_ON_THE_BAR = reference.Board(BEFORE_ROLL).with_fields({8: -1, 31: 1}).printed

# The fields of the game part.
GAME_FIELDS = {
    4, 5, 6, 8, 9, 10, 11, 12, 13, 14, 15, 16, 17, 18, 19, 20, 21, 22, 23, 24, 25, 26, 27, 28, 29, 30, 31,
    33, 34, 35, 36, 37, 38, 39, 40, 41, 42, 43, 46, 47,
}

GREETING = (b'1 ann 1041253132 localhost\r\n'
            b'2 ann 1 0 0 0 0 0 1 1 10 0 0 0 1 1500.00 0 0 0 0 0 UTC\r\n')


def another(n, number):
    """Another number that field n may have."""
    if n == 38:
        return 2
    if n in (42, 43):
        return -1 if number == 1 else 1
    if n in (44, 45):
        return 25 if number == 0 else 0
    return 0 if number == 1 else 1


def goes_on(first, second):
    """Whether a roll that waits on the first board is confirmed by the second: the two differ as games."""
    with fibs.Client(b'ann', b'secret') as client:
        client.open()
        list(client.feed(GREETING + first + b'\r\n'))
        client.decide(fibs.ROLL)
        told, = client.feed(second + b'\r\n')
        return told.confirmed == fibs.ROLL and client.waiting is None


def can_be_told(first, second):
    """Both boards have a position, and on the first one a roll may be decided, as the reference says."""
    boards = reference.Board(first), reference.Board(second)
    return all(board.is_good() for board in boards) and boards[0].phase() == 'RollOrDouble'


@test
def boards_differ_in_their_game_part(check):
    for first in (BEFORE_ROLL, TWO_ON_THE_BAR):
        for n in range(4, 54):
            board = reference.Board(first)
            second = board.with_fields({n: another(n, board.fields[n])}).printed
            if first is TWO_ON_THE_BAR or can_be_told(first, second):
                check(answer(goes_on, first, second), n in GAME_FIELDS, 'field %d' % n)
            if can_be_told(second, first):
                check(answer(goes_on, second, first), n in GAME_FIELDS, 'field %d, the other way' % n)


@test
def boards_differ_in_the_opponent(check):
    check(goes_on(BEFORE_ROLL, BEFORE_ROLL), False, 'one board')
    check(goes_on(BEFORE_ROLL, BEFORE_ROLL.replace(b'bob', b'rob')), True, 'the opponent')
