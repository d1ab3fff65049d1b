"""Lines: worked streams, and what is read of them."""

from ctypes import byref, create_string_buffer

from checks import fibs, test
from fibs import _library

LIMIT = 16384


class Lines(fibs.Lines):
    """A reader that is asked for one line a call."""

    def one(self, piece):
        """How many bytes of the piece were read, and the line that ended with them and whether it is cut, or None."""
        text, fed = create_string_buffer(LIMIT), _library.Fed()
        feed = _library.lib.fibs_lines_feed
        fibs.errors.check(feed(self._owned.at, _library.address_of(piece), len(piece), text, LIMIT, byref(fed)))
        return fed.used, (text.raw[:fed.len], fed.cut == 1) if fed.ended else None


@test
def a_board_line_in_pieces_of_one_byte(check):
    board = (b'board:You:someplayer:3:0:1:0:-2:0:0:0:0:5:0:3:0:0:0:-5:5:0:0:0:-3:0:-5:0:0:0:0:2:0:'
             b'1:6:2:0:0:1:1:1:0:1:-1:0:25:0:0:0:0:2:0:0:0')
    stream = (b'board:You:someplayer:3:0:1:0:-2:0:0:0:0:5:0:3:0:0:0:-5:5:0:0:0:-3:0:-5:0:0:0:0:2:0:'
              b'1:6:2:0:0:1:1:1:0:1:-1:0:2\xff\xfb\x015:0:0:0:0:2:0:0:0\r\n')
    lines = Lines()
    for at in range(len(stream) - 1):
        check(lines.one(stream[at:at + 1]), (1, None), 'at %d' % at)
    check(lines.held, len(board) + 1, 'the CR is held')
    check(lines.one(b'\n'), (1, (board, False)), 'the line')
    check(lines.held, 0, 'nothing is held')


# A stream of one line, and what is read of it.
SHORT = [
    ('an empty line', b'\n', b''),
    ('an empty line with CR', b'\r\n', b''),
    ('one CR goes', b'a\r\r\n', b'a\r'),
    ('a CR inside stays', b'a\rb\n', b'a\rb'),
    ('255 twice is 255', b'a\xff\xffb\n', b'a\xffb'),
    ('WILL ECHO', b'a\xff\xfb\x01b\n', b'ab'),
    ('the option 10 ends no line', b'a\xff\xfb\nb\n', b'ab'),
    ('the option 255 begins no command', b'a\xff\xfe\xffb\n', b'ab'),
    ('NOP', b'a\xff\xf1b\n', b'ab'),
    ('LF as a command ends no line', b'a\xff\nb\n', b'ab'),
    ('a subnegotiation is text', b'\xff\xfax\xff\xf0y\n', b'xy'),
    ('a command between CR and LF', b'a\r\xff\xf1\n', b'a'),
    ('both prompts', b'> login: > 5 a\r\n', b'5 a'),
    ('a prompt with a command inside', b'>\xff\xf1 a\n', b'a'),
    ('no prompt without its space', b'> >a\n', b'>a'),
    ('no prompt inside the line', b'a> login: b\n', b'a> login: b'),
    ('a prompt alone', b'login: \r\n', b''),
]


@test
def short_lines(check):
    for name, stream, read in SHORT:
        check(Lines().one(stream), (len(stream), (read, False)), name)
        told = [(line.text, line.cut) for line in fibs.Lines(stream)]
        check(told, [(read, False)], '%s, among many' % name)


def text(prompts, letters, rest):
    """`> ` so many times, the byte `a` so many times, and then these bytes."""
    return b'> ' * prompts + b'a' * letters + rest


FULL = text(0, LIMIT, b'')
HALF = LIMIT // 2

# A stream of one line, what is read of it, and whether it is cut.
LONG = [
    ('one less', text(0, LIMIT - 1, b'\n'), text(0, LIMIT - 1, b''), False),
    ('one less, CR', text(0, LIMIT - 1, b'\r\n'), text(0, LIMIT - 1, b''), False),
    ('as many', text(0, LIMIT, b'\n'), FULL, False),
    ('as many, CR', text(0, LIMIT, b'\r\n'), FULL, False),
    ('as many, CR twice', text(0, LIMIT, b'\r\r\n'), FULL, True),
    ('one more', text(0, LIMIT + 1, b'\n'), FULL, True),
    ('one more, CR', text(0, LIMIT + 1, b'\r\n'), FULL, True),
    ('two more', text(0, LIMIT + 2, b'\n'), FULL, True),
    ('two more, CR', text(0, LIMIT + 2, b'\r\n'), FULL, True),
    ('a command before the last byte', text(0, LIMIT - 1, b'\xff\xfb\x01a\r\n'), FULL, False),
    ('a command after the last byte', text(0, LIMIT, b'\xff\xfb\x01\r\n'), FULL, False),
    ('a command between CR and LF', text(0, LIMIT, b'\r\xff\xfb\x01\n'), FULL, False),
    ('255 as the last byte', text(0, LIMIT - 1, b'\xff\xff\r\n'), text(0, LIMIT - 1, b'\xff'), False),
    ('255 as one byte more', text(0, LIMIT, b'\xff\xff\r\n'), FULL, True),
    ('a prompt counts', text(1, LIMIT - 2, b'\r\n'), text(0, LIMIT - 2, b''), False),
    ('prompts go after the cut', text(1, LIMIT - 1, b'\r\n'), text(0, LIMIT - 2, b''), True),
    ('prompts alone', text(HALF, 0, b'\r\n'), b'', False),
    ('prompts, and a byte that is cut', text(HALF, 1, b'\r\n'), b'', True),
    ('a prompt that is cut', text(HALF + 1, 0, b'\r\n'), b'', True),
    ('half a prompt', text(HALF - 1, 0, b'login: a\r\n'), b'lo', True),
]


@test
def lines_about_the_limit(check):
    check(fibs.MAX_LINE, LIMIT, 'the limit')
    for name, stream, read, cut in LONG:
        lines = Lines()
        check(lines.one(stream[:1000]), (1000, None), '%s: its first bytes' % name)
        check(lines.one(stream[1000:]), (len(stream) - 1000, (read, cut)), name)


@test
def held_and_reset(check):
    lines = Lines()
    check(lines.held, 0, 'nothing has come')
    check(lines.one(b'one\r\n> \xff\xffa\r\xff\xfb'), (5, (b'one', False)), 'the first line')
    check(lines.one(b'> \xff\xffa\r\xff\xfb'), (8, None), 'no line ends')
    check(lines.held, 5, 'the prompt, 255, a and CR')
    lines.reset()
    check(lines.held, 0, 'nothing is held')
    check(lines.one(b'\n'), (1, (b'', False)), 'the LF is no option any more')
    lines.reset()
    check(lines.held, 0, 'reset after a line')
