"""What lines say has happened, turns step by step, and what boards say beside their fields."""

import enum
import itertools
import json
import os
import re
import subprocess
import typing

from props.package import ROOT, fibs
from props.table import TURNS

HEADER = (ROOT / 'include' / 'fibs.h').read_text()


def board_with(own, other, dice, side, down):
    """The board of these checkers, for a player of this colour and direction; the rest are off. Place 25 is the bar."""
    places = [side * (own[place] - other[place]) for place in range(1, 25)]
    turn = [side, *dice, 0, 0, 1, 1, 1, 0, side, -1 if down else 1, 0, 25]
    off = [15 - sum(own[1:]), 15 - sum(other[1:25])]
    fields = [0, *(places if down else reversed(places)), 0, *turn, *off, 0, 0, 0, 0, 0, 0]
    return b'board:You:bob:5:0:0:' + b':'.join(b'%d' % number for number in fields)


def sequences(turn):
    """All that can be played step by step from a turn, as it is, with the listed play of each; the turn is then as it
    was."""
    taken = tuple((step.source, step.target) for step in turn.taken)
    found = {taken: turn.play} if turn.play and not turn.next else {}
    for step in turn.next:
        turn.take(*step[:3])
        found.update(sequences(turn))
        turn.undo()
    return found


def by_hand(board):
    """All that is allowed on a board with two dice that differ, of as many steps as a listed play has."""
    found = set()
    count = len(board.plays()[0].steps)
    for dice in itertools.permutations(board.dice or (0, 0), count):
        for sources in itertools.product(range(1, 26), repeat=count):
            steps = tuple((source, max(source - die, 0)) for source, die in zip(sources, dice))
            if board.allows(fibs.Decision.move(steps)):
                found.add(steps)
    return found


def turns_go_on_to_legal_plays(counts):
    for row in TURNS:
        board = fibs.Board(board_with(row.own, row.other, row.dice, 1, True))
        if board.phase != fibs.Phase.MOVE:
            counts.raises(fibs.WrongKind if row.dice == (0, 0) else fibs.NotYours, fibs.Turn, board)
            continue
        turn = fibs.Turn(board)
        found = sequences(turn)
        counts.same(set(found.values()), set(board.plays()), '%s: each listed play is reached' % row.name)
        counts.check(all(board.allows(fibs.Decision.move(steps)) for steps in found), '%s: each is legal' % row.name)
        if row.dice[0] != row.dice[1] and 0 not in row.dice:
            counts.same(set(found), by_hand(board), '%s: all that are legal' % row.name)
        for steps, play in found.items():
            after = board.after(fibs.Decision.move(steps))
            counts.check((after.checkers, after.opponent_checkers) == (board.after(play).checkers,
                                                                       board.after(play).opponent_checkers),
                         '%s: the listed play leads to the same' % row.name)
        for wrong in (0, 0), (25, 1), (1, 24):
            if not any(step[:2] == wrong for step in turn.next):
                counts.raises(fibs.IllegalPlay, turn.take, *wrong)


def a_turn_says_what_is_left(counts):
    turn = fibs.Turn(fibs.Board(BEGUN))
    counts.same((turn.dice, turn.play, turn.taken, repr(turn)), ((3, 6), None, [], '<fibs.Turn: no step>'), 'a turn')
    counts.same(turn.next[0], fibs.NextStep(24, 21, 3, False), 'the first step')
    counts.same(turn.take(24, 18), fibs.NextStep(24, 18, 6, False), 'a step')
    counts.same((turn.dice, turn.checkers[18], turn.opponent_checkers[24]), ((3,), 1, 2), 'what is left')
    turn.take(13, 10)
    counts.same((turn.next, str(turn.play), repr(turn)), ([], '24/18 13/10', '<fibs.Turn: 24/18 13/10>'), 'a play')
    counts.same((turn.undo().source, turn.undo().source, turn.undo(), turn.dice), (13, 24, None, (3, 6)), 'undone')


def boards_say_more_than_fields(counts):
    board = fibs.Board(BEGUN)
    owner = fibs.CubeOwner
    counts.same((board.pips, board.cube_owner, board.crawford, board.is_others),
                ((167, 167), owner.MIDDLE, False, False), 'a board')
    for flags, cube, doubled, wanted in [((1, 0), 2, 0, owner.PLAYER), ((0, 1), 2, 0, owner.OPPONENT),
                                         ((0, 0), 2, 1, owner.OPPONENT), ((0, 0), 1, 0, owner.NOBODY)]:
        line = BEGUN.replace(b':1:1:1:0:1:-1:', b':%d:%d:%d:%d:1:-1:' % (cube, *flags, doubled))
        counts.same(fibs.Board(line).cube_owner, wanted, '%r' % line)
    for scores, cube, flags, wanted in [(b'3:0:2', 1, 0, True), (b'3:2:1', 1, 0, True), (b'3:2:2', 1, 0, False),
                                        (b'3:0:1', 1, 0, False), (b'3:0:2', 2, 0, False), (b'3:0:2', 1, 1, False),
                                        (b'1:0:0', 1, 0, False), (b'9999:0:9998', 1, 0, False)]:
        line = BEGUN.replace(b':1:1:1:0:1:-1:', b':%d:%d:%d:0:1:-1:' % (cube, flags, flags))
        line = line.replace(b'bob:3:0:0:', b'bob:%s:' % scores)
        counts.same(fibs.Board(line).crawford, wanted, 'Crawford, %r' % line)
    watched = fibs.Board(BEGUN.replace(b':You:', b':carl:'))
    counts.raises(fibs.NotYou, lambda: watched.phase)
    counts.same((watched.is_others, watched.pips, watched.seen.phase, watched.seen.player, board.seen is board),
                (True, (167, 167), fibs.Phase.MOVE, b'You', True), 'a board that is watched')
    counts.same(watched.seen.plays(), board.plays(), 'its plays')
    counts.same(board.words[:3], ['Your turn, to move.', 'Your dice 6 and 3.', 'Score 0 to 0, match to 3.'], 'its words')
    counts.check('carl' in watched.words[0] and len(watched.words) == len(board.words) + 1, 'the words of a game that '
                 'is watched: %s' % watched.words)


def saved_matches_are_read(counts):
    for row, wanted in [(b' *bob                 5                2 -  3', (b'bob', 5, 2, 3, True)),
                        (b'**carl  unlimited 0 - 12', (b'carl', None, 0, 12, True)),
                        ('  eve 7 1 - 0 ', (b'eve', 7, 1, 0, False)), (b'* 5 2 - 3', None), (b'***bob 5 2 - 3', (
                            b'*bob', 5, 2, 3, True)), (b'bob 5 2 3', None), (b'bob -5 2 - 3', None), (b'', None),
                        (b'  opponent          matchlength   score (your points first)', None),
                        (b'bob 100000000 2 - 3', None), (b'b:b 5 2 - 3', None)]:
        counts.same(fibs.saved_match(row), wanted, '%r' % row)


# Lines, and what each says has happened.
JOINED = b'** Player bob has joined you for a 3 point match.'
BEGUN = (b'board:You:bob:3:0:0:0:-2:0:0:0:0:5:0:3:0:0:0:-5:5:0:0:0:-3:0:-5:0:0:0:0:2:0:1:6:3:0:0:1:1:1:0:1:-1:0:25:0:0:'
         b'0:0:2:0:0:0')
PLAYED = (b'board:You:bob:3:0:0:0:-2:0:0:0:0:5:0:3:0:1:0:-5:4:0:0:0:-3:1:-5:0:0:0:0:1:0:-1:0:0:4:2:1:1:1:0:1:-1:0:25:0:'
          b'0:0:0:0:0:0:0')
PLAYER, OPPONENT = fibs.events.Side.PLAYER, fibs.events.Side.OPPONENT
HAPPENED = [
    (b'hello', []),
    (b'1 ann 1041253132 localhost', [fibs.events.LoggedIn(b'ann')]),
    (b'bob wants to play an unlimited match with you.', [fibs.events.Invited(b'bob', None)]),
    (b'bob wants to resume a saved match with you.', [fibs.events.InvitedToResume(b'bob')]),
    (b"** There's no saved match with bob. Please give a match length.", [fibs.events.NothingSaved(b'bob')]),
    (JOINED, [fibs.events.Joined(b'bob', 3)]),
    (b'Starting a new game with bob.', [fibs.events.GameBegun(b'bob')]),
    (BEGUN, [fibs.events.Rolled(PLAYER, (6, 3))]),
    (BEGUN, []),
    (PLAYED, [fibs.events.Played(PLAYER, ((24, 18), (13, 10))), fibs.events.Rolled(OPPONENT, (4, 2))]),
    (b"bob can't move.", []),
    (b'** You have to roll the dice before moving.', [
        fibs.events.Refused(b'** You have to roll the dice before moving.')]),
    (b'bob wants to resign. You will win 2 points. Type \'accept\' or \'reject\'.', [
        fibs.events.OfferedToResign(OPPONENT, 2, fibs.events.Worth.GAMMON)]),
    (b'You reject. The game continues.', [fibs.events.Declined(PLAYER)]),
    (b'You double. Please wait for bob to accept or reject.', [fibs.events.Doubled(PLAYER)]),
    (b'bob accepts the double.', [fibs.events.Accepted(OPPONENT, fibs.events.Offer.DOUBLE)]),
    (b'bob doubles. Type \'accept\' or \'reject\'.', [fibs.events.Doubled(OPPONENT)]),
    (b'You give up. bob wins 2 points.', [fibs.events.Rejected(PLAYER)]),
    (b'bob wins the game and gets 2 points. Sorry.', [fibs.events.GameOver(OPPONENT, 2, fibs.events.Worth.SINGLE)]),
    (b'Starting a new game with bob.', [fibs.events.GameBegun(b'bob')]),
    (b'bob wants to resign. You will win 4 points. Type \'accept\' or \'reject\'.', [
        fibs.events.OfferedToResign(OPPONENT, 4, None)]),
    (b'You accept and win 4 points.', [fibs.events.Accepted(PLAYER, fibs.events.Offer.RESIGNATION)]),
    (b'5 bob ann - 1 0 1623.5 100 3 1041253132 host - -', []),
    (b'5 bob ann - 1 0 1619.27 101 3 1041253132 host - -', [fibs.events.RatingChanged(OPPONENT, 161927, 101)]),
    (b"Type 'join' if you want to play the next game, type 'leave' if you don't.", [fibs.events.NextGame()]),
    (b'bob wins the 3 point match 3-0 .', [fibs.events.MatchOver(OPPONENT, 3, (0, 3))]),
    (b'** Player bob has left the game. The game was saved.', [fibs.events.Left(OPPONENT)]),
    (b'** You are not playing.', [fibs.events.NotPlaying()]),
    (b'You are now playing with bob. Your running match was loaded.', [fibs.events.Resumed(b'bob')]),
]


def lines_say_what_has_happened(counts):
    events = fibs.Events()
    counts.same(events.opponent, b'', 'no opponent')
    for line, wanted in HAPPENED:
        found = events.hear(line)
        counts.same(found, wanted, '%r' % line)
        counts.same([type(event) for event in found], [type(event) for event in wanted], 'what it is: %r' % line)
    counts.same((events.opponent, repr(events)), (b'bob', '<fibs.Events: with bob>'), 'the opponent')
    counts.same(events.hear(BEGUN.decode()), [fibs.events.Rolled(PLAYER, (6, 3))], 'a board after what was resumed')
    counts.same(fibs.events.Played(PLAYER, ((24, 18), (13, 10))).play, fibs.Decision.move([(24, 18), (13, 10)]),
                'a play as a decision')
    counts.same(events.hear(fibs.Lines().feed(JOINED + b' ' * fibs.MAX_LINE + b'\n')[0]), [], 'a line that was cut')
    counts.same(events.hear(fibs.read(JOINED)), [fibs.events.Joined(b'bob', 3)], 'one that was not')
    for wrong in 5, None, [JOINED]:
        counts.raises(TypeError, events.hear, wrong)
    events.close()
    for call in (lambda: events.hear(JOINED), lambda: events.opponent,
                 lambda: events.hear(fibs.Line(b'', fibs.TEXT, 0, 0, None, True))):
        counts.raises(fibs.Closed, call)


def bytes_say_that_a_login_is_refused(counts):
    """The server's question, once more, in pieces of any size."""
    asked, again = b'Welcome.\r\nlogin: ', b'\r\nlogin: '
    for size in range(1, 20):
        events = fibs.Events()

        def refusals(data):
            return [event for at in range(0, len(data), size) for event in events.hear_bytes(data[at:at + size])]

        counts.same([refusals(piece) for piece in (asked, again, b'', b'guest', again)],
                    [[], [fibs.events.LoginRefused()], [], [], [fibs.events.LoginRefused()]], 'by %d' % size)
        counts.same(type(refusals(again)[0]), fibs.events.LoginRefused, 'what it is')
        events.open()
        counts.same([refusals(piece) for piece in (asked, b'1 ann 1041253132 localhost\r\n', asked, again)], [[]] * 4,
                    'another connection, on which it is greeted')
    events.hear(JOINED)
    events.open()
    counts.same((events.opponent, events.hear_bytes(bytearray(asked)), events.hear_bytes(memoryview(again))),
                (b'bob', [], [fibs.events.LoginRefused()]), 'its opponent is that of the lines')
    for wrong in 'login: ', 5, None, [again]:
        counts.raises(TypeError, events.hear_bytes, wrong)
    events.close()
    counts.raises(fibs.Closed, events.hear_bytes, again)
    counts.raises(fibs.Closed, events.open)


def as_object(event, number):
    """An event as the program prints it."""
    name = re.sub(r'(?<!^)(?=[A-Z])', '_', type(event).__name__).lower()
    told = {'kind': 'event', 'event': name, 'line_number': number}
    for field, value in event._asdict().items():
        if field == 'score' and isinstance(value, tuple):
            told['score'], told['opponent_score'] = value
        elif field == 'rating_hundredths':
            told['rating'] = float(event.rating)
            assert value == round(100 * told['rating'])
        elif field == 'length' and value is None:
            told[field] = fibs.UNLIMITED
        elif isinstance(value, enum.IntEnum):
            told[field] = value.name.lower()
        else:
            told[field] = value.decode('latin-1') if isinstance(value, bytes) else json.loads(json.dumps(value))
    return told


def events_are_those_of_the_program(counts):
    """A session of two matches, and the worked lines."""
    if not os.path.exists(counts.program):
        counts.leave_out('there is no %s' % counts.program)
        return
    for session in [(ROOT / 'rust/src/tests/session.txt').read_bytes(), b''.join(line + b'\n' for line, _ in HAPPENED)]:
        told = subprocess.run([counts.program, 'show', '--events'], input=session, capture_output=True, check=True)
        wanted = [one for one in map(json.loads, told.stdout.splitlines()) if one['kind'] == 'event']
        with fibs.Events() as events:
            found = [as_object(event, number) for number, line in enumerate(fibs.Lines(session), 1)
                     for event in events.hear(line)]
        counts.same(len(found), len(wanted), 'how many')
        for ours, theirs in zip(found, wanted):
            counts.same(ours, theirs, 'an event')


def each_event_of_the_header_has_its_tuple(counts):
    """In the order of their numbers, with the names of the library."""
    kinds = re.findall(r'\bFIBS_EVENT_(\w+) = (\d+)', HEADER)
    counts.same([int(number) for _, number in kinds], list(range(len(fibs.events.KINDS) + 1)), 'their numbers')
    names = [name for name, value in vars(fibs.events).items()
             if isinstance(value, type) and issubclass(value, tuple) and value.__module__ == 'fibs.events']
    counts.same([re.sub(r'(?<!^)(?=[A-Z])', '_', name).upper() for name in names], [name for name, _ in kinds[1:]],
                'their names')
    counts.same(len(typing.get_args(fibs.events.Event)), len(names), 'any of them is an Event')


TESTS = [turns_go_on_to_legal_plays, a_turn_says_what_is_left, boards_say_more_than_fields, saved_matches_are_read,
         lines_say_what_has_happened, bytes_say_that_a_login_is_refused, events_are_those_of_the_program,
         each_event_of_the_header_has_its_tuple]
