"""Each call of the package: what it answers, and what it raises."""

import copy
import io
import multiprocessing
import os
import pathlib
import pickle
import re
import socket
import subprocess
import sys
import tempfile
import weakref

from props.package import ROOT, fibs
from fibs import _library, errors

HEADER = (ROOT / 'include' / 'fibs.h').read_text()

BOARD = b'board:You:bob:1:0:0:0:0:0:1:0:1' + b':0' * 16 + b':-1:-1:0:0:1:0:0:0:0:1:0:0:0:1:-1:0:25:13:13:0:0:0:0:0:0'
MOVES = BOARD.replace(b':1:0:0:0:0:1:0:0', b':1:2:1:0:0:1:0:0')

REAL = (b'board:You:someplayer:3:0:1:0:-2:0:0:0:0:5:0:3:0:0:0:-5:5:0:0:0:-3:0:-5:0:0:0:0:2:0:1:6:2:0:0:1:1:1:0:1:-1:0:'
        b'25:0:0:0:0:2:0:0:0')

GREETING = (b'1 ann 1041253132 localhost\r\n'
            b'2 ann 1 0 0 0 0 0 1 1 10 0 0 0 1 1500.00 0 0 0 0 0 UTC\r\n')

WHO = [b'5 ann bob - 1 0 1500.00 10 0 1041253132 localhost fibs_client -',
       b'5 bob ann - 1 0 1623.5 100 3 1041253132 host - -']

KINDS = [fibs.MESSAGE, fibs.MALFORMED, fibs.TEXT, fibs.BOARD]


def lines_have_their_kinds(counts):
    told = list(fibs.Lines(b'> 3\r\n5 bob\nhello\n' + BOARD + b'  \r\nhalf'))
    counts.same([line.kind for line in told], KINDS, 'kinds')
    counts.same(told[0], fibs.Line(b'3', fibs.MESSAGE, 3, 0, None, False), 'a message')
    counts.same(told[1], fibs.Line(b'5 bob', fibs.MALFORMED, 5, 2, fibs.Fault.MISSING, False), 'a malformed line')
    counts.same((str(told[1].fault), '%s' % told[1].kind, f'{told[1].kind:>10}'),
                ('Missing', 'Malformed', ' Malformed'), 'names as the program prints them')
    counts.same(told[3].board.line, BOARD, 'a board')
    counts.same((told[0].fields, told[2].fields), ((), ()), 'no fields')
    counts.raises(fibs.FieldBadName, lambda: told[2].board)


def a_line_that_was_cut_says_nothing(counts):
    """What is kept of it may be a whole board or message."""
    client = fibs.Client('ann', 'secret')
    client.open()
    for start in REAL, WHO[0], REAL[:30], b'hello':
        piece = start + b' ' * fibs.MAX_LINE + b'\n'
        for line in fibs.Lines().feed(piece)[0], next(client.feed(piece)).line:
            counts.same((line.cut, line.kind, line.message, line.fields), (True, fibs.TEXT, None, ()), '%r' % start)
            counts.raises(fibs.FieldBadName, lambda line=line: line.board)
            counts.same(wrong_field(lambda line: line.board, line), None, 'the field of %r' % start)
    client.close()


def a_stream_may_be_anything_that_is_read(counts):
    data = b'a\nb\n' * 40000
    for what, stream in [('bytes', data), ('a bytearray', bytearray(data)), ('a memoryview', memoryview(data)),
                         ('a file', io.BytesIO(data)), ('a raw file', io.BufferedReader(io.BytesIO(data)))]:
        lines = fibs.Lines(stream)
        counts.same([next(lines).text, next(lines).text], [b'a', b'b'], what)
        counts.same(sum(1 for line in lines), 79998, '%s, to its end' % what)
        counts.same(list(lines), [], '%s, after its end' % what)
    ours, theirs = socket.socketpair()
    with ours, theirs, theirs.makefile('rb') as file:
        lines = fibs.Lines(file)
        for text in b'one', b'two':
            ours.sendall(text + b'\n')
            counts.same(next(lines).text, text, 'a line of a socket comes as soon as it is there')
    for stream in 5, None, [b'a']:
        counts.raises(TypeError, fibs.Lines, stream)
    counts.raises(TypeError, lambda: next(fibs.Lines(io.StringIO('a\n'))))


def a_path_is_opened_and_closed(counts):
    with tempfile.TemporaryDirectory() as name:
        path = pathlib.Path(name) / 'session.log'
        path.write_bytes(b'a\nb\n' * 20000)
        for source in path, str(path):
            counts.same(sum(1 for line in fibs.Lines(source)), 40000, 'a path')
        before = len(os.listdir('/proc/self/fd'))
        with fibs.Lines(path) as lines:
            counts.same((next(lines).text, len(os.listdir('/proc/self/fd'))), (b'a', before + 1), 'it is open')
        counts.same(len(os.listdir('/proc/self/fd')), before, 'it is closed')
        lines = fibs.Lines(path)
        left = weakref.ref(lines)
        next(lines)
        del lines
        counts.same((left(), len(os.listdir('/proc/self/fd'))), (None, before), 'nothing is kept in a cycle')
        counts.raises(FileNotFoundError, fibs.Lines, path.with_name('nothing'))
    stream = io.BytesIO(b'a\n')
    with fibs.Lines(stream) as lines:
        list(lines)
    counts.check(not stream.closed, 'a stream stays open')


def after_a_break_the_iteration_goes_on(counts):
    lines = fibs.Lines(b'a\nb\nc\n')
    for line in lines:
        break
    counts.same([line.text for line in lines], [b'b', b'c'], 'the lines that are left')


def pieces_are_fed_by_hand(counts):
    with fibs.Lines(rows=2) as lines:
        counts.same(lines.feed(b'a\nb\nc\nd\ne'), [fibs.read(bytes([c])) for c in b'abcd'], 'few rows')
        counts.same(lines.held, 1, 'what is held')
        counts.same(lines.feed(b'\xff\xfb\x01f\r\n'), [fibs.read(b'ef')], 'the rest of a line')
        counts.same(lines.feed(b''), [], 'an empty piece')
        counts.same(lines.count(b'x' * (fibs.MAX_LINE + 1) + b'\n3\n'), (1, 1, 0, 0, 1, 0), 'counts')
        lines.feed(b'half')
        lines.reset()
        counts.same(lines.feed(b'new\n'), [fibs.read(b'new')], 'another stream')
    # a log of `fibs connect`: two lines of the server, one of which has a prompt, and two that were sent
    log = b'hi\n>> roll\n> and you\n>> 3\n3\n'
    counts.same([line.sent for line in fibs.Lines(log)], [None, b'roll', None, b'3', None], 'what was sent')
    counts.same(fibs.Lines().count(log), (4, 1, 0, 0, 0, 2), 'how many lines were sent')
    for call, words in [(lines.feed, (b'a\n',)), (lines.count, (b'a\n',)), (lines.reset, ()), (lambda: lines.held, ())]:
        counts.raises(fibs.Closed, call, *words)
    lines.close()
    for piece in 'text', 5, None, [1, 2]:
        counts.raises(TypeError, fibs.Lines().feed, piece)
        counts.raises(TypeError, fibs.Lines().count, piece)
    counts.raises(ValueError, fibs.Lines, rows=0)
    counts.raises(ValueError, fibs.Lines, room=fibs.MAX_LINE - 1)


def boards_have_names_for_their_numbers(counts):
    board = fibs.Board(REAL)
    counts.same((board.player, board.opponent, board.length, board.score, board.opponent_score),
                (b'You', b'someplayer', 3, 0, 1), 'names and scores')
    counts.same((board.turn, board.dice, board.opponent_dice, board.cube, board.colour, board.direction),
                (fibs.events.Side.PLAYER, (6, 2), None, 1, 1, -1), 'the turn')
    counts.same((board.may_double, board.opponent_may_double, board.was_doubled), (True, True, False), 'doubling')
    start = tuple({6: 5, 8: 3, 13: 5, 24: 2}.get(place, 0) for place in range(26))
    counts.same((board.checkers, board.opponent_checkers), (start, start), 'checkers')
    counts.same([board.field(4), board.field(53)], [3, 0], 'fields')
    counts.same((board.phase, len(board.plays()), board.allows(fibs.ROLL)), (fibs.Phase.MOVE, 14, False), 'the rules')
    counts.same((board.line, fibs.print_board(REAL + b' ')), (REAL, REAL), 'its line')
    counts.check(board == fibs.Board(REAL + b' ') and board != fibs.Board(BOARD) and board != REAL, 'equal boards')
    counts.same(len({board, fibs.Board(REAL)}), 1, 'they have one hash')
    counts.same(eval(repr(board), {'Board': fibs.Board}), board, 'its repr makes it')
    counts.same(pickle.loads(pickle.dumps(board)), board, 'it can be kept')
    for name in 'cube', 'player', 'numbers', 'other_thing':
        counts.raises(AttributeError, setattr, board, name, 2)
    for n in 3, 54, -1:
        counts.raises(IndexError, board.field, n)


def both_colours_and_directions_count_from_their_own_side(counts):
    """The same game as its four kinds of player see it."""
    own, other = fibs.Board(BOARD).checkers, fibs.Board(BOARD).opponent_checkers
    counts.same((own[5], own[3], own[0], sum(own)), (1, 1, 13, 15), 'own checkers')
    counts.same((other[3], other[2], other[0], sum(other)), (1, 1, 13, 15), 'the checkers of the opponent')
    words = BOARD.split(b':')
    for colour in 1, -1:
        for direction in -1, 1:
            places = [int(word) * colour for word in words[6:32]]
            if direction == 1:
                places.reverse()
            turned = words[:6] + [b'%d' % place for place in places] + words[32:]
            turned[41], turned[42], turned[32] = b'%d' % colour, b'%d' % direction, b'%d' % colour
            board = fibs.Board(b':'.join(turned))
            counts.same((board.checkers, board.opponent_checkers), (own, other), 'colour %d, direction %d' % (
                colour, direction))


def wrong_field(call, line):
    """The field that an exception of a call names."""
    try:
        call(line)
    except fibs.NotABoard as why:
        return why.field
    return None


def lines_that_are_no_board_say_why(counts):
    for line, kind, field in [(b'hello', fibs.FieldBadName, 1), (b'', fibs.FieldBadName, 1),
                              (b'board', fibs.FieldMissing, 2), (b'board:You', fibs.FieldMissing, 3),
                              (REAL + b':1', fibs.FieldExtra, 54),
                              (REAL.replace(b':6:2:', b':06:2:'), fibs.FieldNotANumber, 34),
                              (REAL.replace(b':6:2:', b':7:2:'), fibs.FieldOutOfRange, 34),
                              (b'5 bob', fibs.FieldBadName, 1), (b'boards:You', fibs.FieldBadName, 1),
                              (REAL.replace(b':someplayer:', b'::'), fibs.FieldBadName, 3)]:
        for call in fibs.Board, fibs.phase, fibs.plays, fibs.print_board:
            counts.raises(kind, call, line)
            counts.same(wrong_field(call, line), field, '%r of %r' % (call, line))
        counts.raises(kind, fibs.allows, line, fibs.ROLL)
    for call in fibs.phase, fibs.plays:
        counts.raises(fibs.NotYou, call, REAL.replace(b':You:', b':ann:'))
        counts.raises(fibs.TooManyOwn, call, REAL.replace(b':2:0:1:6:2:', b':3:0:1:6:2:'))
        counts.raises(fibs.TooManyOther, call, REAL.replace(b':-5:0:0:0:0:2:', b':-6:0:0:0:0:2:'))
        for line in 5, None, [REAL]:
            counts.raises(TypeError, call, line)
    many = fibs.Board(REAL.replace(b':2:0:1:6:2:', b':3:0:1:6:2:').replace(b':-5:0:0:0:0:3:', b':-6:0:0:0:0:3:'))
    counts.raises(fibs.TooManyOwn, lambda: many.checkers)
    counts.raises(fibs.TooManyOther, lambda: many.opponent_checkers)


def the_rules_are_those_of_the_program(counts):
    counts.same((fibs.phase(BOARD), str(fibs.phase(MOVES))), (fibs.Phase.ROLL_OR_DOUBLE, 'Move'), 'phases')
    found = [play.command(-1) for play in fibs.plays(MOVES)]
    counts.check(found and all(fibs.allows(MOVES, fibs.Decision.parse(play, -1)) for play in found), 'plays are allowed')
    counts.same([type(fibs.refusal(MOVES, decision)) for decision in (fibs.ROLL, fibs.Decision.move([(5, 4)]))],
                [fibs.WrongKind, fibs.IllegalPlay], 'why not')
    counts.same(fibs.refusal(MOVES.replace(b':1:2:1:', b':-1:2:1:'), fibs.ROLL).name, 'NotYours', 'not the turn')
    many = MOVES.replace(b':2:1:0:0:', b':1:1:0:0:').replace(b':0:0:0:1:0:1:', b':0:0:4:4:0:1:')
    many = many.replace(b':13:13:', b':6:13:')
    counts.check(len(fibs.plays(many)) > 0, 'plays of a pair')
    if not os.path.exists(counts.program):
        counts.leave_out('there is no %s' % counts.program)
        return
    for line in MOVES, REAL, many:
        listed = subprocess.run([counts.program, 'plays', line], capture_output=True, text=True, check=True).stdout
        counts.same([play.command(-1) for play in fibs.plays(line)], listed.splitlines()[1:], 'the plays of the program')


def a_board_after_a_decision(counts):
    board = fibs.Board(MOVES)
    for play in board.plays():
        after = board.after(play)
        counts.check(board.differs(after) and after.phase == fibs.Phase.OPPONENT_ACTS, 'a board that differs')
    after = board.after(fibs.Decision.move([(5, 3), (3, 2)]))
    counts.same((after.checkers[2], after.checkers[5], after.dice, after.turn),
                (1, 0, None, fibs.events.Side.OPPONENT), 'a play')
    counts.same(fibs.Board(BOARD).after(fibs.ROLL, (2, 1)), board, 'a roll')
    counts.check(not board.differs(fibs.Board(MOVES + b' ')), 'the same board')
    for decision, dice in [(fibs.ROLL, (2, 1)), (fibs.ACCEPT, (0, 0)), (fibs.Decision.move([(8, 7)]), (0, 0))]:
        counts.raises(fibs.NoEffect, board.after, decision, dice)
    counts.raises(fibs.NoEffect, fibs.Board(BOARD).after, fibs.ROLL, (0, 7))
    counts.raises(fibs.NotYou, fibs.Board(MOVES.replace(b':You:', b':ann:')).after, fibs.ROLL, (2, 1))
    counts.raises(fibs.NoDecision, board.after, fibs.Decision.move([(0, 1)]))
    counts.raises(ValueError, fibs.Board(BOARD).after, fibs.ROLL, (-1, 256))
    counts.raises(TypeError, board.after, 'roll')
    blot = fibs.Board(REAL.replace(b':-5:0:0:0:0:2:0:1:6:2:', b':-4:0:0:-1:0:2:0:1:6:2:'))
    after = blot.after(fibs.Decision.move([(24, 22), (22, 16)]))
    counts.same((after.opponent_checkers[25], after.opponent_checkers[3], after.checkers[16]), (1, 0, 1), 'a hit')


def a_board_of_the_other_side(counts):
    real = fibs.Board(REAL)
    turned = real.turned()
    counts.same((turned.checkers, turned.opponent_checkers, turned.score, turned.opponent_score, turned.colour,
                 turned.direction, turned.opponent_dice, turned.turn),
                (real.opponent_checkers, real.checkers, 1, 0, -1, 1, (6, 2), fibs.events.Side.OPPONENT), 'the sides')
    counts.same(turned.phase, fibs.Phase.OPPONENT_ACTS, 'the user acts')
    theirs = fibs.Board(REAL.replace(b':1:6:2:0:0:', b':-1:0:0:6:2:'))
    counts.same((theirs.phase, theirs.plays()), (fibs.Phase.OPPONENT_ACTS, []), 'the opponent acts')
    counts.same(theirs.turned().plays(), real.plays(), 'the start is alike for both')
    counts.same(theirs.turned().turned().field(50), 0, 'what is not told')
    for line in REAL, MOVES, BOARD:
        board = fibs.Board(line)
        again = board.turned().turned()
        counts.same([again.field(n) for n in range(4, 54) if n not in (41, 50, 51)],
                    [board.field(n) for n in range(4, 54) if n not in (41, 50, 51)], 'turned twice')


def the_end_of_a_match(counts):
    for fields, is_over in [((1, 0, 0, 0), True), ((1, 0, 0, 1), False), ((5, 5, 2, 0), True), ((5, 2, 5, 0), True),
                            ((5, 4, 4, 0), False), ((5, 6, 0, 0), True), ((5, 6, 0, -1), False),
                            ((9999, 50, 7, 0), False)]:
        length, own, other, turn = fields
        line = b':'.join(b'%d' % one for one in (length, own, other))
        board = fibs.Board(REAL.replace(b':3:0:1:', b':%s:' % line, 1).replace(b':1:6:2:', b':%d:6:2:' % turn))
        counts.same(board.match_over, is_over, 'a match: %s' % (fields,))


def what_is_unfinished_is_told(counts):
    lines = fibs.Lines(b'a\nlogin: ')
    counts.same([line.text for line in lines], [b'a'], 'the lines that ended')
    counts.same((lines.unfinished, lines.finish(), lines.unfinished, lines.finish()),
                (b'login: ', [fibs.read(b'')], b'', []), 'a prompt')
    lines.feed(b'> 3\r')
    counts.same((lines.unfinished, lines.finish()), (b'> 3\r', [fibs.read(b'3')]), 'a message without its line end')
    lines.feed(b'x' * (fibs.MAX_LINE + 9))
    counts.same((len(lines.unfinished), lines.finish()[0].cut), (fibs.MAX_LINE, True), 'a long one')
    for command in b'\xff', b'\xff\xfb':
        lines.feed(b'12 bob hi' + command)
        counts.same((lines.finish(), lines.finish()), ([fibs.read(b'12 bob hi')], []), 'an end within %r' % command)
    client = fibs.Client('ann', 'secret')
    counts.same((client.ready, client.unfinished), (False, b''), 'not connected')
    client.open()
    list(client.feed(b'\xff\xfb\x01\r\nlogin: '))
    counts.same((client.ready, client.unfinished), (False, b'login: '), 'a refused login')
    list(client.feed(b'\r\n' + GREETING[:30]))
    counts.same(client.ready, False, 'message 1 alone')
    list(client.feed(GREETING[30:] + b'> '))
    counts.same((client.ready, client.unfinished), (True, b'> '), 'logged in')
    client.lose()
    counts.same(client.ready, False, 'not connected again')
    client.open()
    counts.same((client.ready, client.unfinished), (False, b''), 'another connection')
    lines.close()
    client.close()
    for ask in (lambda: lines.unfinished, lines.finish, lambda: client.ready, lambda: client.unfinished):
        counts.raises(fibs.Closed, ask)


def decisions_are_spelled_and_read(counts):
    for decision, down, up in [(fibs.ROLL, 'roll', 'roll'), (fibs.RESIGN_GAMMON, 'resign g', 'resign g'),
                               (fibs.Decision.move([(25, 20), (6, 0)]), 'move bar-20 6-off', 'move bar-5 19-off'),
                               (fibs.Decision.move(()), 'move', 'move')]:
        counts.same((decision.command(-1), decision.command(1)), (down, up), 'commands')
        counts.same((fibs.Decision.parse(down, -1), fibs.Decision.parse(up.encode(), 1)), (decision, decision), 'read')
    # no direction is taken for granted: what is printed is in own numbers, which are those of no command
    counts.same([str(decision) for decision in (fibs.ROLL, fibs.RESIGN_GAMMON, fibs.Decision.move([(25, 20), (6, 0)]))],
                ['roll', 'resign g', 'bar/20 6/off'], 'prints')
    counts.raises(TypeError, fibs.Decision.parse, 'move 24-18')
    counts.raises(TypeError, fibs.ROLL.command)
    for text in 'Roll', '', 'roll ', 'move 0-1', 'caf\xe9', '\ud800', b'\xff':
        counts.raises(fibs.NoCommand, fibs.Decision.parse, text, -1)
    for steps in [[(24, 23)] * 5, [(0, 1)], [(26, 1)]]:
        counts.raises(fibs.NoDecision, fibs.Decision.move(steps).command, -1)
        counts.raises(fibs.NoDecision, fibs.allows, MOVES, fibs.Decision.move(steps))
    counts.raises(fibs.NoDecision, fibs.allows, MOVES, fibs.Decision(9))
    for decision in [fibs.Decision(256), fibs.Decision(-1), fibs.Decision.move([(256, 1)]),
                     fibs.Decision.move([(1, -1)])]:
        counts.raises(ValueError, fibs.allows, MOVES, decision)
    for decision in 'roll', None, 1, (1, ()), fibs.Decision('roll'), fibs.Decision.move([('24', 23)]):
        counts.raises(TypeError, fibs.allows, MOVES, decision)
    for text in 5, None:
        counts.raises(TypeError, fibs.Decision.parse, text)
    counts.raises(TypeError, fibs.ROLL.command, 'down')
    counts.raises(ValueError, fibs.ROLL.command, 1 << 40)
    for direction in 0, 2, -2:
        counts.raises(fibs.NoDirection, fibs.ROLL.command, direction)
        counts.raises(fibs.NoDirection, fibs.Decision.parse, 'roll', direction)


def messages_have_fields(counts):
    counts.same(fibs.fields('5 bob - ann 1 0 1500.5 3 2 1 host pro a b'),
                (b'bob', None, b'ann', True, False, 150050, 3, 2, 1, b'host', b'pro', b'a b'), 'of a player')
    long = b'12 bob ' + b'x' * 9000
    counts.same(fibs.read(long).fields, (b'bob', b'x' * 9000), 'a long text')
    for line in b'', b'hello', b'5 bob', BOARD:
        counts.same(fibs.fields(line), (), 'no fields')
    counts.raises(TypeError, fibs.fields, 5)
    counts.raises(TypeError, fibs.read, None)
    counts.same(fibs.read('caf\xe9').text, 'caf\xe9'.encode(), 'a str is its UTF-8')


# A line of each message, and the message that it is.
MESSAGES = [
    ('1 ann 1041253132 host', fibs.messages.Welcome(b'ann', 1041253132, b'host')),
    ('2 ann 1 0 0 0 0 0 1 1 10 0 0 0 1 1500.5 0 0 none 0 0 UTC', fibs.messages.OwnInfo(
        b'ann', True, False, False, False, False, False, True, True, 10, False, False, False, True, 150050, False,
        False, b'none', False, False, b'UTC')),
    ('3', fibs.messages.MotdBegin()),
    ('4', fibs.messages.MotdEnd()),
    ('5 bob - ann 1 0 1500.5 3 2 1 host pro a b', fibs.Player(
        b'bob', None, b'ann', True, False, 150050, 3, 2, 1, b'host', b'pro', b'a b')),
    ('6', fibs.messages.WhoInfoEnd()),
    ('7 bob bob logs in.', fibs.messages.Login(b'bob', b'bob logs in.')),
    ('8 bob bob logs out.', fibs.messages.Logout(b'bob', b'bob logs out.')),
    ('9 bob 1041253132 hi', fibs.messages.MessageReceived(b'bob', 1041253132, b'hi')),
    ('10 bob', fibs.messages.MessageDelivered(b'bob')),
    ('11 bob', fibs.messages.MessageSaved(b'bob')),
    ('12 bob hi', fibs.messages.Says(b'bob', b'hi')),
    ('13 bob hi', fibs.messages.Shouts(b'bob', b'hi')),
    ('14 bob hi', fibs.messages.Whispers(b'bob', b'hi')),
    ('15 bob hi', fibs.messages.Kibitzes(b'bob', b'hi')),
    ('16 bob hi', fibs.messages.YouSay(b'bob', b'hi')),
    ('17 hi', fibs.messages.YouShout(b'hi')),
    ('18 hi', fibs.messages.YouWhisper(b'hi')),
    ('19 hi', fibs.messages.YouKibitz(b'hi')),
]


def each_message_has_a_tuple_of_its_own(counts):
    for number, (text, message) in enumerate(MESSAGES, 1):
        line = fibs.read(text)
        counts.same((line.number, type(line.message), line.message), (number, type(message), message), text)
        counts.same((fibs.fields(text), line.fields), (message, message), text)
        counts.same(type(pickle.loads(pickle.dumps(line.message))), type(message), text)
    counts.same([kind.__doc__.split(':')[0] for kind in fibs.messages.KINDS.values()],
                [str(number) for number in range(1, 20)], 'each says its number')
    for text in '', 'hello', '5 bob', BOARD:
        counts.same(fibs.read(text).message, None, 'no message')


def ready():
    client = fibs.Client('ann', b'secret')
    client.open()
    list(client.feed(GREETING))
    return client


def a_client_sends_and_waits(counts):
    with fibs.Client('ann', 'secret') as client:
        counts.same(client.open(), b'login fibs_client 1008 ann secret\r\n', 'the login')
        counts.raises(fibs.AlreadyOpen, client.open)
        counts.same([heard.send for heard in client.feed(GREETING)], [
            b'set boardstyle 3\r\n', b'toggle autoboard\r\ntoggle moreboards\r\nboard\r\n'], 'the first commands')
        counts.same((client.shown, client.waiting), (None, None), 'nothing is shown')
        counts.raises(fibs.NoBoard, client.decide, fibs.ROLL)
        counts.same([heard.line.kind for heard in client.feed(bytearray(BOARD + b'\r\n'))], [fibs.BOARD], 'a board')
        counts.same(client.shown, fibs.Board(BOARD), 'it is shown')
        counts.same(client.decide(fibs.ROLL), b'roll\r\n', 'a roll')
        counts.same(client.waiting, (fibs.ROLL, fibs.Board(BOARD)), 'it waits')
        counts.raises(fibs.Waiting, client.decide, fibs.ROLL)
        heard, = client.feed(MOVES + b'\n')
        counts.same((heard.confirmed, heard.rolled, client.waiting), (fibs.ROLL, False, None), 'it is confirmed')
        counts.raises(fibs.WrongKind, client.decide, fibs.ROLL)
        counts.raises(fibs.IllegalPlay, client.decide, fibs.Decision.move([(5, 4)]))
        counts.raises(fibs.NoDecision, client.decide, fibs.Decision.move([(0, 4)]))
        counts.same(client.decide(fibs.Decision.move([(5, 3), (3, 2)])), b'move 5-3 3-2\r\n', 'a move')
        counts.same((client.plain('say hi'), client.plain(b'who')), (b'say hi\r\n', b'who\r\n'), 'plain commands')
        client.order_roll()
        counts.check(client.ordered, 'a standing order')
        counts.raises(fibs.AlreadyOrdered, client.order_roll)
        lost = client.lose()
        counts.check(not client.ordered, 'it ends with the connection')
        counts.same((str(lost.decision), lost.board), ('5/3 3/2', fibs.Board(MOVES)), 'what a loss left open')
        counts.same(client.lose(), None, 'a second loss')
        for call, words in [(client.decide, (fibs.ROLL,)), (client.plain, ('who',)), (client.withdraw_roll, ()),
                            (client.order_roll, ())]:
            counts.raises(fibs.Offline, call, *words)
        counts.same((list(client.feed(BOARD + b'\n')), client.shown), ([], None), 'offline nothing is heard')


def what_is_not_taken_is_heard_later(counts):
    client = ready()
    for heard in client.feed(b'a\nb\nc\nd'):
        break
    first, rest = client.feed(b'e\nf\n'), []
    rest.append(next(first).line.text)
    rest += [heard.line.text for heard in client.feed(b'g\n')]
    counts.same((heard.line.text, rest), (b'a', [b'b', b'c', b'de', b'f', b'g']), 'no line is lost')
    counts.same(list(first), [], 'the first iterator has nothing left')
    client.feed(b'never taken\n')
    client.lose()
    client.open()
    counts.same([heard.line.text for heard in client.feed(b'new\n')], [b'new'], 'nothing of the last connection')
    client.lose()
    client.feed(b'dropped at once\n')
    client.open()
    counts.same([heard.line.text for heard in client.feed(b'new\n')], [b'new'], 'nothing from between connections')


def a_client_says_why_not(counts):
    for name, password, kind in [('', 'x', fibs.BadName), ('a b', 'x', fibs.BadName), ('a:b', 'x', fibs.BadName),
                                 ('a' * 65, 'x', fibs.BadName), ('ann', '', fibs.BadText), ('ann', 'a b', fibs.BadText),
                                 ('ann', 'x' * 65, fibs.TooLong), ('\xe4nn', 'x', fibs.BadName), (5, 'x', TypeError),
                                 ('ann', None, TypeError)]:
        counts.raises(kind, fibs.Client, name, password)
    client = ready()
    for text, kind in [('say ' + 'x' * 401, fibs.TooLong), ('say caf\xe9', fibs.BadText), ('say \ud800', fibs.BadText),
                       ('say a\nroll', fibs.BadText), ('dance', fibs.NoCommand), ('roll', fibs.NoCommand),
                       ('', fibs.NoCommand), ('tell  hi', fibs.BadName), ('toggle greedy', fibs.NotOn),
                       (b'\0', fibs.NoCommand), (5, TypeError), (None, TypeError)]:
        counts.raises(kind, client.plain, text)
    for line, kind in [('', fibs.BadText), ('a\nroll', fibs.BadText), (b'\xff\xfb\x01', fibs.BadText), (5, TypeError),
                       ('x' * 401, fibs.TooLong), ('who', fibs.Taken), ('order roll', fibs.Taken)]:
        counts.raises(kind, client.own_line, line)
    for piece in 'text', 5, None:
        counts.raises(TypeError, client.feed, piece)
    counts.raises(TypeError, client.decide, 'roll')
    counts.same(len(list(client.feed(memoryview(b'x' * 20000 + b'\n' + BOARD + b'\n')))), 2, 'it still hears')
    client.close()
    client.close()
    for call, words in [(client.open, ()), (client.decide, (fibs.ROLL,)), (client.plain, ('who',)), (client.lose, ()),
                        (client.order_roll, ()), (client.withdraw_roll, ()), (lambda: client.shown, ()),
                        (lambda: client.waiting, ()), (lambda: client.ordered, ()),
                        (lambda: list(client.feed(b'a')), ())]:
        counts.raises(fibs.Closed, call, *words)
    counts.raises(fibs.NotReady, unready)


def unready():
    with fibs.Client('ann', 'secret') as client:
        client.open()
        list(client.feed(BOARD + b'\n'))
        client.decide(fibs.ROLL)


def lines_of_ones_own_go_past_the_client(counts):
    with fibs.Client('ann', 'secret') as client:
        counts.raises(fibs.Offline, client.own_line, 'leave')
        client.open()
        for line in 'leave', 'who ready', b'watch bob', 'x' * 400:
            text = line if isinstance(line, bytes) else line.encode()
            counts.same(client.own_line(line), text + b'\r\n', 'a line of your own')
        list(client.feed(GREETING + BOARD + b'\n'))
        before = client.shown, client.waiting, client.ready
        counts.raises(fibs.Taken, client.own_line, 'roll')
        counts.same(client.own_line('accept'), b'accept\r\n', 'the answer to an offer to resign')
        counts.raises(fibs.Offline, fibs.Client('ann', 'secret').unguarded_line, 'leave')
        counts.same((client.shown, client.waiting, client.ready), before, 'the client does not know of it')
        counts.same(client.decide(fibs.ROLL), b'roll\r\n', 'and goes on')
        for line in 'roll', 'r', ' ROLL', 'move 24-23', 'M 24 23', 'double', 'redouble', 'resign n', 'who':
            counts.raises(fibs.Taken, client.own_line, line)
        counts.same(client.own_line('reject'), b'reject\r\n', 'an offer may be answered while a decision waits')
        counts.same(client.unguarded_line('roll'), b'roll\r\n', 'a line of which nothing is promised')
        counts.raises(fibs.BadText, client.unguarded_line, 'a\nroll')
        counts.same(str(client.waiting.decision), 'roll', 'the client does not know of it')
        # a double is to be answered
        list(client.feed(BOARD.replace(b':0:1:-1:0:25:', b':1:1:-1:0:25:') + b'\n'))
        if client.shown.phase == fibs.Phase.ANSWER_DOUBLE:
            for line in 'accept', 'a', 'Reject', 'rej':
                counts.raises(fibs.Taken, client.own_line, line)
        else:
            counts.check(False, 'the board asks for no answer')
    counts.raises(fibs.Closed, client.own_line, 'leave')


def handles_are_given_back_once(counts):
    """All that can happen to a value, in a Python that reports every warning."""
    script = """import copy, gc, pickle, fibs
for make in (lambda: fibs.Client('ann', 'secret'), fibs.Lines, fibs.Directory, fibs.Events):
    for again in copy.copy, copy.deepcopy, pickle.dumps:
        try:
            again(make())
            print('%s of a handle' % again)
        except TypeError:
            pass
    ring = [make()]
    ring.append(ring)
    del ring
try:
    fibs.Client('', '')
except fibs.BadName:
    pass
gc.collect()
left_open = fibs.Client('ann', 'secret')
hears = left_open.feed(b'half')
"""
    told = subprocess.run([sys.executable, '-X', 'dev', '-B', '-c', script], capture_output=True, text=True,
                          env={**os.environ, 'PYTHONPATH': str(ROOT / 'python')})
    counts.same((told.returncode, told.stdout, told.stderr), (0, '', ''), 'nothing is said')


def handles_say_their_state(counts):
    client, lines, players = fibs.Client('ann', 'secret'), fibs.Lines(), fibs.Directory()
    counts.same(repr(client), '<fibs.Client: ann, not connected>', 'a client')
    client.open()
    counts.same(repr(client), '<fibs.Client: ann, not logged in>', 'a client that is connected')
    list(client.feed(GREETING + MOVES + b'\n'))
    counts.same(repr(client), '<fibs.Client: ann, logged in>', 'a client that is logged in')
    client.decide(fibs.Decision.move([(5, 3), (3, 2)]))
    counts.same(repr(client), '<fibs.Client: ann, logged in, 5/3 3/2 waits>', 'a client that waits')
    client.lose()
    counts.same(repr(client), '<fibs.Client: ann, not connected>', 'a client that lost its connection')
    lines.feed(b'a\nbcd')
    players.note(WHO[0])
    counts.same((repr(lines), repr(players)),
                ('<fibs.Lines: 3 bytes after the last line end>', '<fibs.Directory: 1 players>'), 'the others')
    for one in client, lines, players:
        one.close()
        counts.same(repr(one), '<fibs.%s: closed>' % type(one).__name__, 'closed')


def fails(line):
    """What a worker of a pool raises."""
    return fibs.phase(line)


def exceptions_go_to_other_processes(counts):
    for kind in errors.BY_STATUS.values():
        why = kind()
        why.noted = 'here'
        for again in pickle.loads(pickle.dumps(why)), copy.copy(why), copy.deepcopy(why):
            counts.same((type(again), str(again), again.status, again.noted), (kind, str(why), why.status, 'here'),
                        'an exception again')
    with multiprocessing.get_context('fork').Pool(1) as pool:
        try:
            pool.map_async(fails, [REAL, REAL[:20]]).get(20)
        except fibs.FieldMissing as why:
            counts.same(why.field, 4, 'what a pool raises')
        else:
            counts.check(False, 'a pool raises nothing')


def players_come_and_go(counts):
    players = fibs.Directory()
    for line in WHO:
        players.note(line)
    counts.same(([player.name for player in players], len(players)), ([b'ann', b'bob'], 2), 'two players')
    bob = players.get('bob')
    counts.same((bob, bob.rating, bob.rating_hundredths, bob.opponent, bob.client, bob.ready),
                (players[1], '1623.50', 162350, b'ann', None, True), 'their fields')
    counts.same(players.get(b'carl'), None, 'nobody')
    counts.same(('bob' in players, b'carl' in players, bob in players, bob._replace(idle=9) in players),
                (True, False, True, False), 'who is there')
    counts.raises(TypeError, lambda: 5 in players)
    players.note(b'8 ann ann logs out.')
    counts.same([player.name for player in players], [b'bob'], 'one is left')
    for place in 1, -1, 1 << 62:
        counts.raises(IndexError, players.__getitem__, place)
    for place in 'bob', None, 1.0:
        counts.raises(TypeError, players.__getitem__, place)
    counts.raises(TypeError, players.note, 5)
    players.clear()
    counts.same((len(players), list(players)), (0, []), 'nobody is left')
    for number in range(4096):
        players.note(b'5 p%d - - 1 0 1500 0 0 0 h - -' % number)
    counts.raises(fibs.Full, players.note, WHO[0])
    players.close()
    for call, words in [(players.note, (WHO[0],)), (players.clear, ()), (players.get, ('bob',)), (players.__len__, ())]:
        counts.raises(fibs.Closed, call, *words)


def each_status_has_its_exception(counts):
    """By the header: each status but DONE and that of memory, its name, and whether Python knows it as bad input."""
    statuses = {int(number) for number in re.findall(r'\bFIBS_STATUS_\w+ = (\d+)', HEADER)}
    known = set(errors.BY_STATUS)
    counts.same(known - statuses, set(), 'no exception is made up')
    missing = {_library.status_name(number) for number in statuses - known}
    counts.same(missing - {'Done', 'Memory'}, set(), 'none is missing')
    for status, kind in errors.BY_STATUS.items():
        why = kind()
        name = kind.__name__.removeprefix('Field' if 300 < status < 400 else '').replace('Closed', 'NoHandle')
        counts.same((why.status, why.name, bool(str(why))), (status, name, True), kind.__name__)
    for kind in fibs.BadName, fibs.NotYou, fibs.FieldMissing, fibs.Closed, fibs.NoDecision, fibs.NoCommand:
        counts.check(issubclass(kind, ValueError) and issubclass(kind, fibs.Error), kind.__name__)
    for name in fibs.__all__:
        counts.check(hasattr(fibs, name), '%s is there' % name)


def records_lie_as_in_c(counts):
    """The rows that are unpacked at once are those of the library."""
    from ctypes import sizeof
    counts.same(_library.ROW.size, sizeof(_library.Row), 'the size of a row')
    row = _library.Row(1, 2, _library.Kind(3, 4, 5, 6), 1)
    counts.same(_library.ROW.unpack(bytes(row)), (1, 2, 3, 4, 5, 6, 1), 'a row')
    counts.same((bytes(row)[_library.KIND_AT], bytes(row)[_library.CUT_AT]), (4, 1), 'where the kind and the cut are')


def the_library_is_found_or_named(counts):
    """As $FIBS_LIBRARY says; what is no library of this version is an ImportError that tells what to do."""
    for path, wanted in [('/nowhere/libfibs.so', 'cargo'), ('libc.so.6', '`make lib`')]:
        told = subprocess.run([sys.executable, '-c', 'import fibs'], capture_output=True, text=True,
                              env={**os.environ, 'FIBS_LIBRARY': path, 'PYTHONPATH': str(ROOT / 'python')})
        counts.check(told.returncode == 1 and 'ImportError' in told.stderr and wanted in told.stderr, told.stderr)


def the_version_is_that_of_the_library(counts):
    header = re.search(r'#define FIBS_VERSION "(\S+)"', HEADER)[1]
    counts.same({header, fibs.__version__, _library.VERSION}, {header}, 'one version')
    counts.same(_library.SONAME, 'libfibs.so.' + '.'.join(header.split('.')[:2]), 'one soname')
    counts.check((ROOT / 'lib' / _library.SONAME).exists(), 'the library has it')


TESTS = [a_board_after_a_decision, a_board_of_the_other_side, the_end_of_a_match, what_is_unfinished_is_told,
         lines_have_their_kinds, a_line_that_was_cut_says_nothing, a_stream_may_be_anything_that_is_read,
         after_a_break_the_iteration_goes_on, a_path_is_opened_and_closed, pieces_are_fed_by_hand,
         boards_have_names_for_their_numbers,
         both_colours_and_directions_count_from_their_own_side, lines_that_are_no_board_say_why,
         the_rules_are_those_of_the_program, decisions_are_spelled_and_read, messages_have_fields,
         each_message_has_a_tuple_of_its_own, a_client_sends_and_waits, what_is_not_taken_is_heard_later,
         a_client_says_why_not, lines_of_ones_own_go_past_the_client, handles_are_given_back_once,
         handles_say_their_state, exceptions_go_to_other_processes, players_come_and_go, each_status_has_its_exception,
         records_lie_as_in_c, the_library_is_found_or_named, the_version_is_that_of_the_library]
