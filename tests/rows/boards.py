"""Boards by worked lines."""

from checks import answer, fibs, test
from props.table import NAMED

# A board line as the server sends it.
LINE = NAMED['AS_SENT']


def line_with(field, text):
    """That line with another text in one field."""
    return b':'.join(text if place == field else piece for place, piece in enumerate(LINE.split(b':'), 1))


def wrong(line):
    """The first wrong field of a line that begins as a board, and what is wrong with it."""
    told = fibs.read(line)
    return (told.kind, told.number, told.field, str(told.fault))


@test
def reads_and_prints_a_real_line(check):
    board = fibs.Board(LINE)
    check(answer(fibs.print_board, LINE), LINE, 'printed')
    check(board.player, b'You', 'the player')
    check(board.opponent, b'someplayer', 'the opponent')
    for field, number in [
        (4, 3),
        (6, 1),
        (7, 0),
        (8, -2),
        (31, 2),
        (33, 1),
        (34, 6),
        (35, 2),
        (42, 1),
        (43, -1),
        (45, 25),
        (50, 2),
        (53, 0),
    ]:
        check(board.field(field), number, 'field %d' % field)


@test
def reads_what_the_fields_may_be(check):
    check(fibs.Board(LINE + b'  '), fibs.Board(LINE), 'two spaces at the end')
    for field, text in [
        (2, b'a' * 64),
        (3, b'-'),
        (3, b'~!'),
        (4, b'9999'),
        (5, b'99999999'),
        (7, b'-15'),
        (32, b'15'),
        (37, b'6'),
        (38, b'1048576'),
        (44, b'25'),
        (46, b'15'),
        (53, b'9999'),
    ]:
        line = line_with(field, text)
        check(answer(fibs.print_board, line), line, 'field %d' % field)


@test
def names_the_leftmost_wrong_field(check):
    for field, text, fault in [
        (2, b'', 'BadName'),
        (2, b' a', 'BadName'),
        (2, b'a' * 65, 'BadName'),
        (3, b'a\x7f', 'BadName'),
        (4, b'10000', 'OutOfRange'),
        (5, b'', 'NotANumber'),
        (5, b'-', 'NotANumber'),
        (5, b'-0', 'NotANumber'),
        (5, b'-1', 'OutOfRange'),
        (5, b'+1', 'NotANumber'),
        (5, b'00', 'NotANumber'),
        (5, b'01', 'NotANumber'),
        (5, b'-01', 'NotANumber'),
        (5, b'1 ', 'NotANumber'),
        (5, b'\t1', 'NotANumber'),
        (5, b'1a', 'NotANumber'),
        (5, b'100000000', 'OutOfRange'),
        (5, b'4294967296', 'OutOfRange'),
        (5, b'18446744073709551616', 'OutOfRange'),
        (5, b'1234567890123456789012345678901234567890', 'OutOfRange'),
        (5, b'-1234567890123456789012345678901234567890', 'OutOfRange'),
        (7, b'16', 'OutOfRange'),
        (32, b'-16', 'OutOfRange'),
        (33, b'2', 'OutOfRange'),
        (34, b'7', 'OutOfRange'),
        (38, b'0', 'OutOfRange'),
        (38, b'1048577', 'OutOfRange'),
        (41, b'2', 'OutOfRange'),
        (42, b'0', 'OutOfRange'),
        (43, b'0', 'OutOfRange'),
        (44, b'1', 'OutOfRange'),
        (45, b'24', 'OutOfRange'),
        (49, b'16', 'OutOfRange'),
        (50, b'16', 'OutOfRange'),
        (53, b'10000', 'OutOfRange'),
    ]:
        check(wrong(line_with(field, text)), (fibs.MALFORMED, 0, field, fault), 'field %d: %r' % (field, text))


@test
def names_what_is_absent_or_surplus(check):
    for line, field, fault in [
        (LINE[:-2], 53, 'Missing'),
        (LINE + b':0', 54, 'Extra'),
        (b'board: a', 2, 'BadName'),
        (b'board:', 2, 'BadName'),
        (b'board:  ', 2, 'BadName'),
        (b'board:You:x:3:-0:y', 5, 'NotANumber'),
    ]:
        check(wrong(line), (fibs.MALFORMED, 0, field, fault), line)
    for line, fault in [
        (b'', 'BadName'),
        (b'boards:a', 'BadName'),
        (b'board', 'Missing'),
        (b'board  ', 'Missing'),
    ]:
        check(answer(fibs.print_board, line), fault, line)
        check(fibs.read(line), fibs.Line(line, fibs.TEXT, 0, 0, None, False), '%r is text' % line)
        check(list(fibs.Lines(line + b'\n')), [fibs.Line(line, fibs.TEXT, 0, 0, None, False)], '%r is text' % line)
