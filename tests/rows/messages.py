"""Messages by worked lines."""

import ctypes
from ctypes import byref

from checks import fibs, test
from fibs import _library

FLAG, NUMBER, RATING, KIND_OF_TEXT = 4, 5, 6, 7


def spelling(line, place):
    """A field of a message as it is written after what comes before it, or None if there is none."""
    field, room = _library.Field(), ctypes.create_string_buffer(512)
    if _library.lib.fibs_read_field(line, len(line), place, byref(field), room, len(room)) != _library.DONE:
        return None
    if field.kind in (FLAG, NUMBER):
        return b' %d' % field.number
    if field.kind == RATING:
        return b' %d.%02d' % divmod(field.number, 100)
    text = room.raw[:field.len]
    return b'' if field.kind == KIND_OF_TEXT and not text else b' ' + text


def printed(line):
    """The line that the number and the fields of a message make, or None if they make no line."""
    told = fibs.read(line)
    if told.kind != fibs.MESSAGE:
        return None
    made, place = b'%d' % told.number, 1
    while (field := spelling(line, place)) is not None:
        made, place = made + field, place + 1
    return made


# Lines of messages, and the line that their fields make if that is another one.
PRINTED = [
    # Lines of the CLIP specification.
    (b'1 myself 1041253132 192.168.1.308', b''),
    (b'2 myself 1 1 0 0 0 0 1 1 2396 0 1 0 1 3457.85 0 0 0 0 0 Australia/Melbourne', b''),
    (b'3', b''),
    (b'4', b''),
    (b'5 someplayer mgnu_advanced - 0 0 1912.15 827 8 1040515752 192.168.143.5 3DFiBs -', b''),
    (b'6', b''),
    (b'7 someplayer someplayer logs in.', b''),
    (b'8 someplayer someplayer drops connection.', b''),
    (b"9 someplayer 1041253132 I'll log in at 10pm if you want to finish that game.", b''),
    (b'10 someplayer', b''),
    (b'11 someplayer', b''),
    (b'12 someplayer Do you want to play a game?', b''),
    (b'13 someplayer Anybody for a 5 point match?', b''),
    (b'14 someplayer I think he is using loaded dice  :-)', b''),
    (b"15 someplayer G'Day and good luck from Hobart, Australia.", b''),
    (b'16 someplayer What\'s this "G\'Day" stuff you hick?  :-)', b''),
    (b"17 Watch out for someplayer.  He's a Tasmanian.", b''),
    (b'18 Hello and hope you enjoy watching this game.', b''),
    (b"19 Are you sure those dice aren't loaded?", b''),
    # Other spellings.
    (b'5 bob - - 1 0 1500 0 3 1040515752 host - -', b'5 bob - - 1 0 1500.00 0 3 1040515752 host - -'),
    (b'5 bob - - 1 0 0.5 0 3 1040515752 host -  a b  ', b'5 bob - - 1 0 0.50 0 3 1040515752 host -  a b'),
    (b'5 bob - - 1 0 42949672.95 18446744073709551615 3 0 host - -', b''),
    (b'1 bob 5 host  ', b'1 bob 5 host'),
    (b'3   ', b'3'),
    (b'12 bob', b''),
    (b'12 bob ', b'12 bob'),
    (b'12 bob  x ', b''),
    (b'9 bob 0', b''),
    (b'17', b''),
    (b'17 ', b'17'),
]


@test
def reads_messages_and_prints_them(check):
    for line, canonical in PRINTED:
        check(printed(line), canonical or line, line)


@test
def ratings_are_hundredths(check):
    line = b'2 ann 1 1 0 1 0 0 1 1 10 0 1 0 1 3457.85 0 0 0 0 0 UTC'
    check(fibs.read(line).number, 2, 'own info')
    for field, wanted in [(15, 345785), (10, 10), (5, True), (11, False), (21, b'UTC')]:
        check(fibs.fields(line)[field - 1], wanted, 'field %d' % field)
    line = b'5 someplayer mgnu_advanced - 0 0 1912.15 827 8 1040515752 192.168.143.5 3DFiBs -'
    check(fibs.read(line).number, 5, 'who info')
    check(fibs.fields(line)[5], 191215, 'who info')


# Lines with a wrong field: the number, the field and what is wrong with it.
WRONG = [
    (b'5 bob', 5, 2, 'Missing'),
    (b'1 bob 5 ', 1, 3, 'Missing'),
    (b'5 bob - - 1 0 1500 0 3 1040515752 host - ', 5, 12, 'Missing'),
    (b'9 bob', 9, 2, 'Missing'),
    (b'9 bob ', 9, 2, 'NotANumber'),
    (b'12', 12, 1, 'Missing'),
    (b'12 ', 12, 1, 'BadName'),
    (b'3 x', 3, 1, 'Extra'),
    (b'10 bob x y', 10, 2, 'Extra'),
    (b'1 bob 5 host x', 1, 4, 'Extra'),
    (b'1 bob  host', 1, 2, 'NotANumber'),
    (b'1 b:b x host', 1, 1, 'BadName'),
    (b'1 bob -5 host', 1, 2, 'OutOfRange'),
    (b'1 bob -0 host', 1, 2, 'NotANumber'),
    (b'1 bob 05 host', 1, 2, 'NotANumber'),
    (b'1 bob 18446744073709551616 host', 1, 2, 'OutOfRange'),
    (b'1 bob 123456789012345678901234567890 x', 1, 2, 'OutOfRange'),
    (b'5 bob - - 2 0 1500 0 3 0 host - -', 5, 4, 'OutOfRange'),
    (b'5 bob - - -5 0 1500 0 3 0 host - -', 5, 4, 'OutOfRange'),
    (b'5 bob - - x 0 1500 0 3 0 host - -', 5, 4, 'NotANumber'),
    (b'5 bob - - 1 0 -5 0 3 0 host - -', 5, 6, 'NotANumber'),
    (b'5 bob - - 1 0 1500. 0 3 0 host - -', 5, 6, 'NotANumber'),
    (b'5 bob - - 1 0 1500.123 0 3 0 host - -', 5, 6, 'NotANumber'),
    (b'5 bob - - 1 0 42949672.96 0 3 0 host - -', 5, 6, 'OutOfRange'),
    (b'5 bob - - 1 0 99999999999999999999.5 0 3 0 host - -', 5, 6, 'OutOfRange'),
    (b'5 bob - - 1 0 1500 0 3 0  - -', 5, 10, 'BadName'),
]


@test
def names_the_leftmost_wrong_field(check):
    for line, number, field, fault in WRONG:
        told = fibs.read(line)
        found = (told.kind, told.number, told.field, str(told.fault))
        check(found, (fibs.MALFORMED, number, field, fault), line)


# Lines that are neither a board nor a message.
TEXTS = [
    b'',
    b'05 x',
    b'20 x',
    b'0 x',
    b'-1 x',
    b'1x',
    b' 1 x',
    b'100',
    b'board',
    b"** Player 'zed' isn't logged in.",
]


@test
def other_lines_are_text(check):
    """The line is text, all of it, also in a stream."""
    for line in TEXTS:
        wanted = fibs.Line(line, fibs.TEXT, 0, 0, None, False)
        check(fibs.read(line), wanted, line)
        check(list(fibs.Lines(line + b'\n')), [wanted], line)
