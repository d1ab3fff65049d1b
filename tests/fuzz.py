"""A differential fuzz: `fuzz.py PROGRAM SECONDS [SEED]` compares PROGRAM with props/reference.py, byte by byte.

If lib/libfibs.so is there, each batch of lines and each script also goes through the library for C (props/c_beside.py).

A third of the time goes to batches of lines for `PROGRAM show`, a third to scripts, each for `PROGRAM replay` and for
`PROGRAM loop`, a third to board lines for `PROGRAM plays`, in turn. It ends with status 1 at the first difference, for
which it looks for a small input, and with status 0 if there was none in SECONDS of wall clock. It prints its seed, what
the inputs had in them, and at last `N passed, M failed`: of lines, scripts and boards, those without a difference.
"""
import collections
import random
import re
import signal
import subprocess
import sys
import time

from props import reference

try:
    from props import c_beside
except ImportError:
    c_beside = None

# ---- Values at and beside the limits of the document -----------------------------------------------------------------

NUMBERS = [b'0', b'1', b'-1', b'-0', b'+1', b'01', b'', b' ', b'2', b'15', b'16', b'-15', b'-16', b'24', b'25', b'26',
           b'6', b'7', b'9999', b'10000', b'99999999', b'100000000', b'1048576', b'1048577', b'4294967295',
           b'4294967296', b'18446744073709551615', b'18446744073709551616', b'-18446744073709551615',
           b'999999999999999999999999999999', b'-999999999999999999999999999999', b'1' + b'0' * 4000, b'-', b'--1',
           b'1.0', b'0x1', b'1e3', b'\xb2', b'1\r', b'00', b'-01', b'340282366920938463463', b'255', b'256', b'65535',
           b'65536', b'2147483648', b'-2147483649', b'9223372036854775808']
RATINGS = [b'0', b'0.0', b'0.00', b'0.000', b'1500', b'1500.5', b'1500.50', b'1500.', b'.5', b'-1.00', b'-0', b'00.5',
           b'+5', b'42949672.95', b'42949672.96', b'42949673', b'42949672.9', b'42949672', b'42949673.0',
           b'4294967295', b'1.5.5', b'9999999999999999999999999999999999999999',
           b'9999999999999999999999999999999999999999.99', b'1,5', b'1.-5', b'1. 5', b'1.5a', b'0.07']
NAMES = [b'-', b'You', b'bob', b'a', b'x' * 64, b'x' * 65, b'', b'!', b'~', b'a\\b', b'\x7f', b'a b', b'a:b', b'\xe9',
         b'you', b'--', b'board', b'1', b'ann']
WORDS = [b'host', b'-', b'x' * 70, b'\x00', b'a:b', b'\xe9\r', b'\\', b'', b'192.168.1.308', b'\r', b'\x7f', b'none']
TEXTS = [b'', b' ', b'  ', b' hi', b'hi ', b'hi there', b'\\', b'\x00\x1b', b'> ', b'login: ', b'x' * 500, b'\r',
         b'\xe9']
JUNK = [b'', b'> ', b'login: ', b'board', b'board:', b' board:You', b'Board:You', b'0', b'01 x', b'20 x', b'1', b'19',
        b'3', b'4', b'6', b'12', b'12 ', b'1\r', b'10', b'1x', b'3:', b'-1', b'17', b'17 ', b'18  x', b'boar',
        b'login:', b'>', b'login:  ', b'login: > login: > 3', b'> > board:', b'** You roll 6 and 2.', b'\r', b'\r\r',
        b'123 x', b'5 ', b'6 ', b'6 x', b'3  ']
BYTES = b'\n\r\xff\xff\xfb\xfe\xfa\xf1 :-.0159>l\\\x00\x1b\x7f\x80\xe9 ~!'
PIECES = [b'\xff\xfb\x01', b'\xff\xfe\n', b'\xff\xff', b'\xff', b'\xff\xf1', b'\xff\n', b'\xff\xfd\xff', b'\r',
          b'\r\r', b'> ', b'login: ', b' ', b'  ', b':', b'\xff\xfa\x18\x01\xff\xf0', b'\xff\r', b'\xff\xfc\r',
          b'\x00']
ODD_ENDS = [b'\r\r\n', b'\n\n', b'\r\n\r\n', b'\xff\xfb\x01\n', b'\r\xff\xfb\x01\n', b'\xff\n', b' \n', b'  \r\n',
            b'\r \n', b'\xff\xff\n', b'\xff\xf9\r\n', b'\xff\xfb\r\n', b'\xff\xfb\n']
ENDS = [b'\n', b'\r\n'] * 12 + ODD_ENDS
UNFINISHED = [b'\xff', b'\xff\xfb', b'a', b'\r', b'a\r', b'> ', b'a' * 16383 + b'\r',
              b'a' * 16384 + b'\r', b'a' * 20000,
              b'\xff\xff']

# ---- Boards ----------------------------------------------------------------------------------------------------------


def spread(rng, places, count, most):
    """`count` checkers on some of `places`, at most `most` of which are used; index 0 is off, 25 the bar."""
    held = [0] * 26
    used = rng.sample(places, min(most, len(places)))
    for _ in range(count):
        held[rng.choice(used)] += 1
    return held


def own_checkers(rng):
    kind = rng.randrange(5)
    if kind == 0:
        return spread(rng, list(range(0, 7)), 15, rng.randint(1, 7))
    if kind == 1:
        return spread(rng, list(range(1, 25)) + [25] * 6, 15, rng.randint(2, 9))
    if kind == 2:
        return spread(rng, [0, 0, 0] + list(range(1, 8)) + [25], 15, rng.randint(1, 6))
    if kind == 3:
        return [0] * 6 + [5, 0, 3] + [0] * 4 + [5] + [0] * 10 + [2, 0]
    held = spread(rng, list(range(1, 25)), rng.randint(1, 3), 3)
    held[0] = 15 - sum(held)
    return held


def other_checkers(rng, own):
    """The opponent's checkers by the own numbers of the player, on places the player does not hold."""
    free = [place for place in range(1, 25) if not own[place]]
    kind = rng.randrange(4)
    if kind == 0:
        return spread(rng, free + [25], 15, rng.randint(1, 12))
    if kind == 1:
        return spread(rng, [place for place in free if place >= 12] + [25], 15, rng.randint(4, 9))
    if kind == 2:
        points = [place for place in range(19, 25) if place in free] or free
        held = [0] * 26
        for at in range(14):
            held[points[at // 2 % len(points)]] += 1
        held[25] = 1
        return held
    held = spread(rng, free + [25], rng.randint(0, 4), 4)
    held[0] = 15 - sum(held)
    return held


def wide_sides(rng):
    """The player's checkers on many places, the opponent's on few: equal dice have long lists of plays."""
    own = spread(rng, list(range(1, 25)), rng.choice((15, 15, 15, 14, 12)), rng.choice((4, 6, 8, 10, 12, 15)))
    own[0] = 15 - sum(own)
    return own, spread(rng, [place for place in range(1, 25) if not own[place]] + [25], 15, rng.randint(1, 3))


def good_board(rng, phase=None, is_wide=False):
    """A board of the user's own game, mostly with 15 checkers each, in a phase in which mostly the user decides."""
    own = own_checkers(rng)
    other = other_checkers(rng, own)
    if is_wide:
        own, other = wide_sides(rng)
    colour, direction = rng.choice((-1, 1)), rng.choice((-1, 1))
    places = [0] * 26
    for place in range(1, 25):
        places[place if direction == -1 else 25 - place] = colour * (own[place] - other[place])
    if rng.random() < 0.1:
        places[rng.choice((0, 25))] = rng.randint(-3, 3)
    phase = phase or rng.choice(('roll', 'roll', 'move', 'move', 'move', 'move', 'answer', 'opponent', 'over', 'odd'))
    dice = [rng.randint(1, 6), rng.choice((0, rng.randint(1, 6)))] if phase == 'odd' else [0, 0]
    if phase == 'move':
        dice = [rng.randint(1, 6), rng.randint(1, 6)]
        if rng.random() < (0.5 if is_wide else 0.1):
            dice[1] = dice[0]
    turn = {'over': 0, 'opponent': -colour, 'odd': rng.choice((-1, 0, 1))}.get(phase, colour)
    if phase == 'answer' and rng.random() < 0.5:
        turn = -colour
    other_dice = [rng.randint(0, 6), rng.randint(0, 6)] if rng.random() < 0.2 else [0, 0]
    cube = rng.choice((1, 1, 2, 4, 64, 1048576, 524288, 3, 524289, rng.randint(1, 1048576)))
    flags = [rng.randint(0, 1), rng.randint(0, 1), 1 if phase == 'answer' or rng.random() < 0.02 else 0]
    score = [rng.choice((0, 3, 99999999)), rng.choice((0, 1, 99999998))]
    length = rng.choice((0, 1, 3, 5, 9999))
    ends = [0, 25] if direction == -1 else [25, 0]
    if rng.random() < 0.05:
        ends = [rng.choice((0, 25)), rng.choice((0, 25))]
    off_bar = [own[0], other[0], own[25], other[25]]
    if rng.random() < 0.08:
        off_bar[rng.randrange(4)] = rng.randint(0, 15)
    last = [rng.randint(0, 4), rng.randint(0, 1), rng.randint(0, 1), rng.choice((0, 1, 9999))]
    opponent = rng.choice((b'bob', b'someplayer', b'-', b'a\\b'))
    values = [length] + score + places + [turn] + dice + other_dice + [cube] + flags + [colour, direction]
    return b':'.join([b'board', b'You', opponent] + [b'%d' % value for value in values + ends + off_bar + last])


def random_board(rng):
    """A well-formed board with any values of the ranges of the document."""
    texts = [b'board', rng.choice(NAMES[:5]), rng.choice(NAMES[:5])]
    limits = reference.BOARD_FIELDS
    while len(texts) < len(limits):
        text = rng.choice(NUMBERS) if rng.random() < 0.3 else b'%d' % rng.randint(-1, 25)
        try:
            texts.append(limits[len(texts)](text))
        except ValueError:
            continue
    return b':'.join(texts)

# ---- Lines for `show` ------------------------------------------------------------------------------------------------


def field_text(rng, kind, odd):
    """The text of a field; `odd` allows what need not be right."""
    if kind is reference.TEXT:
        return rng.choice(TEXTS)
    pool = {reference.name: NAMES, reference.word: WORDS, reference.TAIL: TEXTS + WORDS, reference.rating: RATINGS}
    pool = pool.get(kind, NUMBERS)
    check = reference.word if kind is reference.TAIL else kind
    while True:
        text = rng.choice(pool)
        if kind is reference.FLAG and not odd:
            text = rng.choice((b'0', b'1'))
        if odd:
            return text
        try:
            check(text)
        except ValueError:
            continue
        if kind is reference.TAIL or b' ' not in text:
            return text


def message(rng):
    """A message; one field in a third of them is of any text."""
    which = rng.randint(1, 19)
    kinds = reference.MESSAGES[which]
    odd = rng.randrange(len(kinds)) if kinds and rng.random() < 0.33 else None
    return b' '.join([b'%d' % which] + [field_text(rng, kind, at == odd) for at, kind in enumerate(kinds)])


def printed_field(rng, kind):
    """The text of a field as it is printed."""
    if kind is reference.FLAG:
        return rng.choice((b'0', b'1'))
    if kind is reference.name:
        return rng.choice((b'ann', b'-', b'x', b'a\\b', b'x' * 64))
    if kind is reference.word:
        return rng.choice((b'host', b'-', b'192.168.1.30', b'x' * 70))
    if kind is reference.rating:
        return b'%d.%02d' % (rng.choice((0, 7, 1500, 9999999, 10000000, 42949672)), rng.randint(0, 99))
    if kind in (reference.TEXT, reference.TAIL):
        length = rng.choice((1, 2, 8, 14, 15, 16, 17, 18, 31, 32, 33, 34, 48, 64, 100))
        return bytes(rng.choice(b'abz ~!') for _ in range(length - 1)) + b'z'
    return b'%d' % rng.choice((0, 7, 10, 1041253132, 10 ** 18, 10 ** 19 - 1, 10 ** 19, 2 ** 64 - 1, 2 ** 64))


def nearly_printed(rng):
    """A line of a message as it is printed, or with one change by which it may be printed otherwise."""
    which = rng.randint(1, 19)
    texts = [b'%d' % which] + [printed_field(rng, kind) for kind in reference.MESSAGES[which]]
    at = rng.randrange(len(texts))
    change = rng.randrange(8)
    if change == 0:
        texts[at] += rng.choice((b' ', b'  '))
    elif change == 1:
        texts[at] = rng.choice((b'0', b' ', b'-')) + texts[at]
    elif change == 2:
        texts[at] = rng.choice((b'-', b''))
    elif change == 3:
        texts = [rng.choice((text[:-1], text[:-2], text[:-3], text + b'0')) if b'.' in text else text for text in texts]
    elif change == 4:
        del texts[at]
    line = b' '.join(texts)
    if change in (5, 6):
        at = rng.randrange(len(line))
        line = line[:at] + rng.choice((b'\\', b'\x00', b'\x1f', b'\x7f', b'\x80', b'\xfe')) + line[at + 1:]
    return line


def mutate_field(rng, line):
    separator = b':' if line.startswith(b'board:') else b' '
    texts = line.split(separator)
    at = rng.randrange(len(texts))
    kind = rng.randrange(5)
    if kind == 0:
        del texts[at]
    elif kind == 1:
        texts.insert(at, rng.choice((b'', b'0', b'x', texts[at])))
    elif kind == 2:
        texts[at] = rng.choice(rng.choice((NUMBERS, NUMBERS, RATINGS, NAMES, WORDS)))
    elif kind == 3:
        texts[at] += rng.choice((b' ', b'0', b'.', b'\r', b'x', b'\xff\xff', b'-'))
    else:
        texts = texts[:at]
    return separator.join(texts)


def mutate_bytes(rng, line):
    at = rng.randint(0, len(line))
    kind = rng.randrange(6)
    if kind == 0 and line:
        at = rng.randrange(len(line))
        return line[:at] + bytes([line[at] ^ 1 << rng.randrange(8)]) + line[at + 1:]
    if kind == 1:
        return line[:at] + line[at + 1:]
    if kind == 2:
        return line[:at] + line[at - 1:at] + line[at:]
    if kind == 3:
        return line[:at] + rng.choice(PIECES) + line[at:]
    if kind == 4:
        return rng.choice(PIECES) + line
    return line[:at] + bytes([rng.choice(BYTES)]) + line[at:]


def long_line(rng, line):
    """Made as long as the limit or a neighbour, by bytes at its end or its start, or by a dropped CR or prompts."""
    length = rng.choice((4096, 16383, 16384, 16385, 16386, 16390, 20000)) - len(line)
    pad = rng.choice((b' ', b'a', b'0', b':', b'\r', b'> ', b'login: ', b'\xff\xff', b'\xff\xfb\x01a'))
    size = len(reference.without_telnet(pad))
    padding = pad * (length // size) + b'x' * (length % size)
    return line + padding if rng.random() < 0.6 else padding + line


def show_line(rng):
    kind = rng.random()
    if kind < 0.06:
        line = rng.choice(JUNK)
    elif kind < 0.1:
        line = bytes(rng.choice(BYTES) for _ in range(rng.randint(0, 30)))
    elif kind < 0.25:
        line = random_board(rng)
    elif kind < 0.5:
        line = good_board(rng) + b' ' * rng.choice((0, 0, 0, 1, 2, 16))
    elif kind < 0.75:
        line = message(rng)
    else:
        return nearly_printed(rng) + rng.choice(ENDS)
    if rng.random() < 0.35:
        line = mutate_field(rng, line)
    while rng.random() < 0.25:
        line = mutate_bytes(rng, line)
    if rng.random() < 0.02:
        line = long_line(rng, line)
    return line + rng.choice(ENDS)


def batch(rng):
    stream = b''.join(show_line(rng) for _ in range(rng.choice((1, 50, 300, 500))))
    if rng.random() < 0.3:
        stream += rng.choice(UNFINISHED + [show_line(rng)[:-1]])
    return stream

# ---- Words for `plays` -----------------------------------------------------------------------------------------------


def plays_line(rng):
    """A line: mostly a board in which a play is to be chosen."""
    kind = rng.random()
    if kind < 0.5:
        line = good_board(rng, 'move' if rng.random() < 0.8 else None)
    elif kind < 0.7:
        line = good_board(rng, 'move', is_wide=True)
    elif kind < 0.85:
        line = random_board(rng)
        if rng.random() < 0.5:
            line = b'board:You:' + line.split(b':', 2)[2]
    else:
        line = rng.choice((message(rng), rng.choice(JUNK), good_board(rng) + b'  ', b'board:' + rng.choice(NUMBERS)))
    if rng.random() < 0.1:
        line = mutate_field(rng, line)
    if rng.random() < 0.05:
        line = mutate_bytes(rng, line)
    return line


def plays_word(rng):
    """A word of the command line: a line, or the object of a board."""
    line = plays_line(rng)
    return a_word(as_object(rng, line) if rng.random() < 0.2 else line)


def as_object(rng, line):
    """Mostly the object of a board of this line, or one that nearly is."""
    word = b'{"kind":"board","line":"%s","player":"You"}' % line
    kind = rng.randrange(8)
    if kind == 0:
        return mutate_bytes(rng, word)
    if kind == 1:
        at = rng.randrange(len(word))
        return word[:at] + rng.choice((b'"', b'}', b'\\', b'\\u0022', b' ', b'')) + word[at + 1:]
    return word


def a_word(line):
    """Made to be an argument: text without NUL that is no option, and has nothing at which a test would cut it."""
    text = line.decode('latin-1').encode('ascii', 'ignore').translate(None, b'\x00\n')
    return text if text and not text.startswith(b'-') else b'board:' + text

# ---- Scripts for `replay` and `loop` ---------------------------------------------------------------------------------

LOTS = b'4294967295'
ANY_DECISION = [b'roll', b'double', b'accept', b'reject', b'move', b'move 8-5', b'move bar-20 24-18', b'move 3-off',
                b'resign n', b'resign g', b'resign b']
FIRST = b'text 1 ann 1041253132 localhost'
PLAIN = [b'board', b'who', b'say hi', b'say', b'say ', b'tell bob hi', b'tell  hi', b'tell bob', b'tell', b'shout x',
         b'whisper  x', b'kibitz y', b'message bob x', b'invite bob', b'invite bob 5', b'invite', b'invite  7',
         b'join', b'join bob', b'join ', b'toggle ready', b'toggle automove', b'toggle greedy', b'bye',
         b'say ' + b'x' * 400, b'say ' + b'x' * 401, b'say \xe9', b'tell ' + b'n' * 64 + b' x',
         b'tell ' + b'n' * 65 + b' x', b'join a:b', b'invite bob 65535', b'invite bob 0']
NOT_PLAIN = [b'invite bob ', b'invite bob 05', b'invite bob +5', b'invite bob 65536', b'invite bob 5 ', b'join bob ',
             b'join bob ann', b'toggle', b'toggle ', b'toggle double', b'toggle ready ', b'toggle  ready', b'who ',
             b'board x', b'Who', b' who', b'', b'roll', b'move 8-5', b'resign n',
             b'resign', b'login fibs_client 1008 ann secret',
             b'set boardstyle 3', b'toggle autoboard', b'bye ']
NOT_EVENTS = [b'', b' open', b'open ', b'Open', b'open 1', b'deliver', b'deliver ', b'deliver 01',
              b'deliver 4294967296', b'deliver -1', b'deliver  1', b'deliver 1 ', b'deliver 0', b'lose',
              b'lose 4294967296', b'lose x', b'serve 1 1', b'serve 1 1 1 1', b'serve 1 256 1', b'serve 1 1 256',
              b'serve 01 1 1', b'serve 1 1 1 ', b'repeat ', b'repeat 1', b'own', b'own ', b'own board:', b'textx',
              b'click', b'click ', b'click Roll', b'click roll ', b'click  roll', b'click move ', b'click move 25-20',
              b'click move 8-5 6-5 8-5 6-5 6-5', b'click move 0-1', b'click move 3-0', b'click move off-3',
              b'click move 3-bar', b'click move bar-off', b'click move 5-5', b'click move 5-08', b'click move 5',
              b'click move 5-', b'click board', b'plain', b'plain  who', b'click move 5-8', b'click resign',
              b'click resign ', b'click resign x', b'click resign N', b'click resign n ', b'click resign  g',
              b'click resign normal', b'click resign b b',
              b'serve 4294967296 1 1', b'text', b'text ', b'text  x', b'x', b'\r', b'#', b'order', b'order ',
              b'order  roll', b'order roll ', b'order Roll', b'order double', b'order roll 1', b'orders roll',
              b'withdraw', b'withdraw ', b'withdraw  roll', b'withdraw roll ', b'withdraw order', b'roll']
REFUSALS = [b'open', b'deliver 1', b'lose 1', b'serve 0 1 1', b'serve 1 0 1', b'serve 1 1 7', b'serve 9 1 1',
            b'serve 9 0 9', b'serve 1 1 1', b'serve 1 255 1', b'own BAD', b'own GOOD', b'text GOOD', b'serve 2 1 1',
            b'text > GOOD', b'text \xff\xfb\x01GOOD', b'serve 1 7 7', b'text GOOD\xff', b'text GOOD\xff\xfb',
            b'text login: GOOD  ', b'text  GOOD', b'own GOOD ']


def deliver(rng, model):
    waiting = len(model.client.connection.down) if model.client.connection else 0
    near = max(0, waiting - 1), waiting, waiting + 1
    some = rng.choice((0, 1, 2, *near, rng.randint(0, waiting + 1), rng.randint(0, 60)))
    return b'deliver ' + (rng.choice((LOTS, b'10000')) if rng.random() < 0.6 else b'%d' % some)


def settings(rng):
    automove, greedy, autoboard, moreboards = (b'%d' % (rng.random() < p) for p in (0.1, 0.1, 0.7, 0.7))
    flags = autoboard, automove, greedy, moreboards
    line = b'text 2 ann 1 %s 0 %s 0 0 1 1 10 %s %s 0 1 1500.00 0 0 0 0 0 UTC' % flags
    return b'text ' + mutate_bytes(rng, line[5:]).replace(b'\n', b'') if rng.random() < 0.05 else line


def told(rng):
    """A line of the server that is no good board: messages, malformed and watched boards, any bytes."""
    kind = rng.randrange(40) / 5
    if kind < 2:
        line = message(rng)
    elif kind < 3:
        line = good_board(rng).replace(b':You:', b':eve:')
    elif kind < 4:
        line = mutate_field(rng, random_board(rng))
    elif kind < 5:
        line = rng.choice(JUNK + PIECES)
    elif kind < 6:
        line = rng.choice(PIECES) + rng.choice((FIRST, settings(rng)))[5:]
    elif kind < 7:
        line = mutate_bytes(rng, rng.choice((FIRST, settings(rng)))[5:])
    elif kind < 7.8:
        line = mutate_bytes(rng, message(rng))
    else:
        line = long_line(rng, rng.choice((b'', message(rng), good_board(rng))))
    line = line.replace(b'\n', b'')
    return b'text' if not line and rng.random() < 0.5 else b'text ' + line


def words_of(play):
    ends = {reference.BAR: b'bar', reference.OFF: b'off'}
    return b' '.join([b'move'] + [ends.get(a, b'%d' % a) + b'-' + ends.get(b, b'%d' % b) for a, b in play])


def wrong_play(rng, play):
    """A play with a step changed, gone, more, or in another order: it may be legal still."""
    steps = list(play)
    kind = rng.randrange(5)
    if kind == 0 and steps:
        del steps[rng.randrange(len(steps))]
    elif kind == 1 and len(steps) < 4:
        steps.append(rng.choice(steps or [(6, 4)]))
    elif kind == 2 and steps:
        at = rng.randrange(len(steps))
        steps[at] = (steps[at][0], max(0, steps[at][1] - rng.choice((1, -1, 2))))
    elif kind == 3:
        rng.shuffle(steps)
    else:
        steps = [(rng.randint(1, 25), rng.randint(0, 24)) for _ in range(rng.randint(0, 4))]
    return tuple(steps)


def click(rng, model):
    """Mostly what the board shown asks for, sometimes anything."""
    board = model.client.board if model.client.connection else None
    board = board or model.board
    phase = board.phase()
    if rng.random() < 0.1 or phase not in reference.DECIDED:
        return b'click ' + rng.choice(ANY_DECISION)
    if phase != 'Move':
        return b'click ' + rng.choice(reference.DECIDED[phase])
    play = rng.choice(sorted(reference.legal_plays(board.position(), board.dice())))
    return b'click ' + words_of(wrong_play(rng, play) if rng.random() < 0.3 else play)


def serve(rng, model):
    """A line of a connection that has one, if there is one; seldom one that is too old, which ends the script."""
    whole = [c.number for c in model.connections if b'\r\n' in c.up]
    ready = [number for number in whole if number >= model.logged_in]
    which = rng.choice(ready) if ready and rng.random() < 0.99 else rng.randint(0, len(model.connections) + 1)
    if whole and rng.random() < 0.02:
        which = whole[0]
    if not ready and rng.random() < 0.5:
        which = len(model.connections)
    return b'serve %d %d %d' % (which, rng.randint(1, 6), rng.randint(1, 6))


def lose(rng, model):
    sent = len(model.client.connection.up) if model.client.connection else 0
    some = rng.choice((0, rng.randint(0, sent), max(0, sent - rng.randint(0, 2))))
    return b'lose ' + (LOTS if rng.random() < 0.4 else b'%d' % some)


def wishes(model):
    """What may be done next in this state, each with its weight."""
    client, ready = model.client, any(b'\r\n' in c.up and c.number >= model.logged_in for c in model.connections)
    common = {told: 3, 'plain': 3, click: 2, 'repeat': 1, 'own': 1 if model.board.phase() in reference.DECIDED else 30}
    if not client.connection:
        # The last two are refused, and end the script; so does serving if no line arrived.
        return {'open': 60, serve: 25 if ready else 1, **common, deliver: 0.5, lose: 0.5}
    common.update({lose: 4, serve: 50 if ready else 0, deliver: 20 if client.connection.down else 2})
    if client.connection.number == model.logged_in or not ready:
        common.update({'first': 0 if client.welcomed else 40, 'settings': 1 if client.settings else 40})
    if client.settings and any(client.settings):
        common.update({'settings': 10})
    if client.board and not client.waiting:
        common[click] = 40
    # An order is given early and kept for long; now and then it is given twice, or withdrawn without one.
    common.update({'order roll': 1 if client.ordered else 4, 'withdraw roll': 1 if client.ordered else 0.2})
    return common


def event(rng, model):
    weights = wishes(model)
    if model.logged_in == 0 and rng.random() < 0.9:
        weights.update({'first': 0, 'settings': 0})
    wish = rng.choices(list(weights), list(weights.values()))[0]
    if callable(wish):
        return wish(rng) if wish is told else wish(rng, model)
    if wish == 'own' and model.board.phase() in reference.DECIDED and rng.random() < 0.9:
        return deliver(rng, model) if model.client.connection else b'open'
    phase = 'roll' if model.client.connection and model.client.ordered and rng.random() < 0.3 else None
    made = {'plain': b'plain ' + rng.choice(PLAIN), 'first': FIRST, 'own': b'own ' + good_board(rng, phase)}
    return settings(rng) if wish == 'settings' else made.get(wish, wish if isinstance(wish, bytes) else wish.encode())


def refused_event(rng):
    line = rng.choice(REFUSALS)
    bad = rng.choice((random_board(rng), good_board(rng).replace(b':You:', b':bob:'), good_board(rng)))
    return line.replace(b'GOOD', good_board(rng)).replace(b'BAD', bad)


def script(rng):
    """A script that follows the model, so that most of its events do something."""
    first = good_board(rng)
    if rng.random() < 0.03:
        first = rng.choice((random_board(rng), b'', mutate_field(rng, first), b'> ' + first, first + b'  '))
    lines = [first]
    try:
        board = reference.script_board(first)
        model = reference.Replay(board)
        alive = board.is_good()
    except (ValueError, reference.Malformed):
        alive = False
    for _ in range(rng.choice((5, 40, 100, 200)) if alive else 0):
        line = refused_event(rng) if rng.random() < 0.004 else event(rng, model)
        lines.append(line)
        if not follow(model, line):
            break
    lines += [rng.choice((b'open', b'x', b'repeat'))] * (rng.random() < 0.1)
    return spoiled(rng, lines)


def follow(model, line):
    try:
        what, values = reference.read_event(line)
        getattr(model, 'do_' + what)(*values)
        return True
    except (ValueError, reference.Malformed, reference.Refused):
        return False


def spoiled(rng, lines):
    """One script of ten gets a line that is odd or unreadable; some have CRs, or no end of their last line."""
    if rng.random() < 0.1:
        changed = mutate_bytes(rng, rng.choice(lines))
        odd = rng.choice((rng.choice(NOT_EVENTS), b'plain ' + rng.choice(NOT_PLAIN), changed, refused_event(rng)))
        lines.insert(rng.randint(1, len(lines)), odd)
    end = rng.choice((b'\n', b'\n', b'\n', b'\r\n'))
    text = end.join(lines)
    if rng.random() < 0.03:
        text = mutate_bytes(rng, text)
    return text + (end if rng.random() < 0.8 else rng.choice((b'', b'', b'', b'\r\n', b'\r', b'\n\n')))


def huge_script(rng):
    """At the limit of 1,048,576 bytes, or a neighbour."""
    text = good_board(rng) + b'\nopen\nclick roll\n'
    line = rng.choice((b'repeat\n', b'text ' + b'x' * 1000 + b'\n'))
    text += line * ((1048576 - len(text)) // len(line) - 1)
    return text + b'text ' + b'y' * (1048576 - len(text) - 6 + rng.choice((-1, 0, 1))) + b'\n'


def any_script(rng):
    return huge_script(rng) if rng.random() < 0.0005 else script(rng)

# ---- The comparison --------------------------------------------------------------------------------------------------

class OutOfTime(Exception):
    """SECONDS have passed."""


class Program:
    """The program that is compared. A run that does not end is seen before the time is over."""

    def __init__(self, path, seconds, end):
        self.path, self.longest, self.end = path, min(20, seconds / 2), end

    def look_at_clock(self):
        """Raises OutOfTime from the end on. The signal's own is lost if it comes while Python frees an object."""
        if time.monotonic() >= self.end:
            raise OutOfTime

    def run(self, mode, data):
        """What it prints, its status and what it says; one that does not end has a status that no program has."""
        words, given = ([mode, data], b'') if mode == 'plays' else ([mode], data)
        try:
            done = subprocess.run([self.path, *words], input=given, capture_output=True, timeout=self.longest)
        except subprocess.TimeoutExpired as late:
            return late.stdout or b'', 'no end', late.stderr or b''
        return done.stdout, done.returncode, done.stderr

    def outcomes(self, mode, data):
        """The input, what the reference makes of it, and what the program does."""
        return self.beside(mode, data, getattr(reference, mode)(data))

    def beside(self, mode, data, expected):
        """The input, what is expected of it (nothing, if only two are given), and what the program does."""
        return [data, (*expected, b'')[:3], self.run(mode, data)]


def smaller(program, mode, data, best):
    """Drops lines, many at a time at first, while the difference stays; `best` holds the smallest so far."""
    lines = data.split(b'\n')
    size = len(lines) // 2
    while size:
        at = 0
        while at < len(lines):
            program.look_at_clock()
            fewer = lines[:at] + lines[at + size:]
            outcome = program.outcomes(mode, b'\n'.join(fewer))
            if outcome[1] != outcome[2]:
                lines, best[:] = fewer, outcome
            else:
                at += size
        size //= 2


def report(program, mode, best):
    """Nothing is run after the time is over: the smallest difference so far is printed."""
    try:
        if mode != 'library':
            smaller(program, mode, best[0], best)
    except OutOfTime:
        print('(not made smaller any more: out of time)')
    data, expected, answer = best
    print('mode', mode)
    print('input', repr(data))
    for who, (out, status, said) in (('reference', expected), ('program', answer)):
        print('--', who, 'status', status, 'said', said.decode('latin-1').strip())
        print(out.decode('latin-1'))


def out_of_time(*_):
    raise OutOfTime


# What each kind of input is made by, and the subcommands that it goes to.
KINDS = {'lines': (batch, ['show']), 'scripts': (any_script, ['replay', 'loop']), 'boards': (plays_word, ['plays'])}


def compare(program, rng, seen):
    """Compares until the time is over; an input that differs is returned with its mode and what was made of it."""
    spent = dict.fromkeys(KINDS, 0)
    while True:
        program.look_at_clock()
        kind = min(spent, key=spent.get)
        make, modes = KINDS[kind]
        start = time.monotonic()
        data = make(rng)
        expected = getattr(reference, modes[0])(data)
        for mode in modes:
            outcome = program.beside(mode, data, expected)
            if outcome[1] != outcome[2]:
                return mode, outcome
        if c_beside:
            outcome = c_beside.outcome(kind, data, expected)
            if outcome:
                return 'library', outcome
        seen[kind] += data.count(b'\n') if kind == 'lines' else 1
        note(seen, kind, expected[0])
        spent[kind] += time.monotonic() - start


def note(seen, kind, out):
    """Counts what was in the inputs, so that one sees whether they are worth their time."""
    if kind == 'scripts':
        out = re.sub(rb'(?m)^(\w+) \d+', rb'\1', out)
        seen.update(re.findall(rb'^(?:clicked \w+|refused \d \w+|lost board|[a-z]+)', out, re.M))
        seen[b'sent by an order'] += len(re.findall(rb'^shown .*\nsent ', out, re.M))
    elif kind == 'lines':
        seen.update(b'show ' + line.split(b':')[0].split(b' ')[0] for line in out.splitlines())
    else:
        phase, *listed = out.splitlines() or [b'none']
        longest = max((most for most in (0, 20, 60, 100, 500) if len(listed) > most), default=None)
        seen[b'plays ' + phase + (b' above %d' % longest if longest else b'')] += 1


def summary(seen):
    counts = {kind: seen.pop(kind, 0) for kind in KINDS}
    print('seen:', ', '.join('%s %d' % (what.decode(), seen[what]) for what in sorted(seen)))
    print('%s: %d inputs, 0 differences'
          % (', '.join('%d %s' % (count, kind) for kind, count in counts.items()), sum(counts.values())))
    # Nothing compared is nothing found.
    compared = sum(map(bool, counts.values()))
    print('%d passed, %d failed' % (compared, len(KINDS) - compared))
    return 0 if compared == len(KINDS) else 1


def main():
    seconds = float(sys.argv[2])
    # A second is left for what is printed at the end.
    compared = max(seconds - 1, seconds / 2)
    program = Program(sys.argv[1], seconds, time.monotonic() + compared)
    signal.signal(signal.SIGALRM, out_of_time)
    signal.setitimer(signal.ITIMER_REAL, compared)
    seed, seen = int(sys.argv[3]) if len(sys.argv) > 3 else time.time_ns(), collections.Counter()
    print('seed', seed, flush=True)
    try:
        mode, outcome = compare(program, random.Random(seed), seen)
    except OutOfTime:
        return summary(seen)
    report(program, mode, outcome)
    print('0 passed, 1 failed')
    return 1


if __name__ == '__main__':
    sys.exit(main())
