"""Saved sessions: what examples/read_session.py, scripts/fibs-mat and MatchFiles of the package make of them."""

import copy
import os
import pathlib
import pickle
import subprocess
import sys
import tempfile

import matchfiles
from props.package import ROOT, fibs
from props.server import WELCOME

START = {6: 5, 8: 3, 13: 5, 24: 2}


def line(own, other, turn, dice=None, cube=1, doubled=0, scores=(0, 0), length=3, colour=1, direction=-1, name='bob'):
    """A board's line: the checkers of both sides, each by its own places; the turn is that of the player (1), of the
    opponent (-1) or of nobody (0)."""
    places = [0] * 26
    for place, count in own.items():
        if place:
            places[place if direction == -1 else 25 - place] += colour * count
    for place, count in other.items():
        if place:
            places[25 - place if direction == -1 else place] -= colour * count
    own_dice, other_dice = [dice if dice and turn == side else (0, 0) for side in (1, -1)]
    off, other_off = own.get(0, 0), other.get(0, 0)
    fields = ['board', 'You', name, length, *scores, *places, turn * colour, *own_dice, *other_dice, cube, 1, 1,
              doubled, colour, direction, 0, 25, off, other_off, own.get(25, 0), other.get(25, 0), 0, 0, 0, 0]
    return ':'.join(map(str, fields))


def after(checkers, *steps):
    """The checkers after some steps."""
    found = dict(checkers)
    for source, target in steps:
        found[source] -= 1
        found[target] = found.get(target, 0) + 1
    return found


# A match to 3 points: own and other checkers in turn.
OWN1 = after(START, (24, 21), (21, 15))
OTHER1 = after(START, (13, 8), (24, 22))
OWN2 = after(OWN1, (24, 18), (15, 9), (13, 7), (13, 7))
OTHER2 = after(OTHER1, (6, 5), (8, 5))


def session(**how):
    """The lines that the player sees of it."""
    def board(*words, **more):
        return line(*words, **more, **how)
    return [
        WELCOME, 'Starting a new game with bob.', 'You rolled 6, bob rolled 3', "It's your turn to move.",
        board(START, START, 1, (6, 3)), 'Please move 2 pieces.',
        board(OWN1, START, -1),
        'bob rolls 5 and 2.', board(OWN1, START, -1, (5, 2)), 'bob moves 13-8 24-22 .', board(OWN1, OTHER1, 1),
        "It's your turn to roll or double.",
        'You double. Please wait for bob to accept or reject.', board(OWN1, OTHER1, -1),
        'bob accepts the double. The cube shows 2.', board(OWN1, OTHER1, 1, cube=2),
        'You roll 6 and 6.', board(OWN1, OTHER1, 1, (6, 6), cube=2), board(OWN2, OTHER1, -1, cube=2),
        'bob rolls 3 and 1.', board(OWN2, OTHER1, -1, (3, 1), cube=2), board(OWN2, OTHER2, 1, cube=2),
        '12 bob resigning soon', 'bob wants to resign. You will win 2 points. Type \'accept\' or \'reject\'.',
        board(OWN2, OTHER2, 0, cube=2, scores=(2, 0)),
        'You win the game and get 2 points. Congratulations!',
        'Starting a new game with bob.', 'You rolled 1, bob rolled 4', 'bob makes the first move.',
        board(START, START, -1, (1, 4), scores=(2, 0)),
        board(START, after(START, (24, 23), (13, 9)), 1, scores=(2, 0)),
        'You roll 6 and 5.', board(START, after(START, (24, 23), (13, 9)), 1, (6, 5), scores=(2, 0)),
        board(after(START, (24, 18), (18, 13)), after(START, (24, 23), (13, 9)), -1, scores=(2, 0)),
        "bob doubles. Type 'accept' or 'reject'.",
        board(after(START, (24, 18), (18, 13)), after(START, (24, 23), (13, 9)), 1, doubled=1, scores=(2, 0)),
        'You give up. bob wins 1 point.',
        board(after(START, (24, 18), (18, 13)), after(START, (24, 23), (13, 9)), 0, scores=(2, 1)),
        'bob wins the game and gets 1 point. Sorry.']


MATCH = """ 3 point match

 Game 1
 ann : 0                        bob : 0
  1) 63: 24/21 21/15             52: 24/22 13/8
  2)  Doubles => 2                Takes
  3) 66: 24/18 15/9 13/7 13/7    31: 8/5 6/5
      Wins 2 points

 Game 2
 ann : 2                        bob : 0
  1)                             41: 24/23 13/9
  2) 65: 24/18 18/13              Doubles => 2
  3)  Drops                      
                                  Wins 1 point

"""


def data_of(lines):
    """The lines of a session as the server sends them."""
    return b'\r\n'.join(one.encode('latin-1') for one in lines) + b'\r\n'


def run(counts, path, lines, *words):
    """What a program prints of a session, on both streams, and its status."""
    told = subprocess.run([sys.executable, '-B', str(ROOT / path), *words], input=data_of(lines), capture_output=True,
                          env={**os.environ, 'PYTHONPATH': str(ROOT / 'python'),
                               'FIBS': str(pathlib.Path(counts.program).resolve())}, timeout=60)
    return told.stdout.decode(), told.stderr.decode(), told.returncode


def match_of(counts, lines, match='last'):
    """The match file of the match that is played last in a session, or of another one. The package makes the same one
    of the lines as they are read, and of what its own events told of them before."""
    told = run(counts, 'scripts/fibs-mat', lines, '--match', match)
    for has_events in False, True:
        counts.same(made_by_the_package(lines, match, has_events), told, 'by the package, of %r' % (lines[-1:],))
    return told


def made_by_the_package(lines, match, has_events):
    """The same as fibs-mat prints, by MatchFiles."""
    said = []
    files = fibs.MatchFiles(report=said.append)
    with fibs.Events() as events:
        for line in fibs.Lines(data_of(lines)):
            files.hear(line, *[events.hear(line)] * has_events)
    wanted = ({'last': files.latest} if match == 'last' else
              {str(number): file for number, file in enumerate(files.files, 1)}).get(match)
    if not wanted:
        said.append('%d matches can be told' % len(files.files))
    return (wanted.text.decode('latin-1') if wanted else '', ''.join('fibs-mat: %s\n' % one for one in said),
            0 if wanted else 1)


def played_turns_are_printed(counts):
    told, _, status = run(counts, 'examples/read_session.py', session()[:11])
    counts.same((told.splitlines(), status), (
        ['You play bob: 3 points, 0 to 0', 'You: roll 6 and 3', 'You: move 24-21 21-15', 'bob: roll 5 and 2',
         'bob: move 1-3 12-17'], 0), 'turns')


def a_session_becomes_a_match_file(counts):
    for colour in 1, -1:
        for direction in -1, 1:
            counts.same(match_of(counts, session(colour=colour, direction=direction)), (MATCH, '', 0),
                        'colour %d, direction %d' % (colour, direction))


def gnu_backgammon_imports_it(counts):
    if not matchfiles.gnubg():
        counts.leave_out('there is no gnubg')
        return
    found = matchfiles.imported(MATCH)
    counts.check(found, 'it is imported')
    if found:
        length, names, games = found
        counts.same((length, names, [game[:3] for game in games]),
                    (3, ('ann', 'bob'), [((0, 0), 'ann', 2), ((2, 0), 'bob', 1)]), 'its result')
        counts.same([[(who, what) for who, what, _ in game[3]] for game in games], [
            [('ann', 'move'), ('bob', 'move'), ('ann', 'double'), ('bob', 'take'), ('ann', 'move'), ('bob', 'move'),
             ('bob', 'resign')],
            [('bob', 'move'), ('ann', 'move'), ('bob', 'double'), ('ann', 'drop')]], 'its actions')


def what_a_lost_connection_hid_is_filled_in(counts):
    whole = session()
    for case, lines in [
            ('texts', [one for one in whole if one.startswith('board') or one == WELCOME or 'double' in one]),
            ('the roll of the opponent', whole[:7] + whole[10:]),
            ('his roll and the own double', whole[:7] + whole[10:12] + whole[14:]),
            ('the double and its answer', whole[:12] + whole[15:]),
            ('a half line', whole[:7] + [whole[10][:90]] + whole[10:]),
            ('boards that come twice', [one for one in whole for _ in range(1 + one.startswith('board'))]),
            ('messages, watched boards and noise', [noise for one in whole for noise in (
                one, '5 bob ann - 1 0 1500 0 0 0 h - -', whole[4].replace(':You:', ':eve:'), 'board:You:x', '** hm')]),
            ('what was sent, as a log has it', [sent for one in whole for sent in (
                one, '>> roll', '>> move 24-21 21-15', '>> accept', '>> You roll 1 and 1.')])]:
        counts.same(match_of(counts, lines), (MATCH, '', 0), 'without %s' % case)
    told, _, _ = match_of(counts, whole[:4] + whole[6:7] + whole[10:])
    counts.same(told, MATCH, 'the own opening is told by the text')
    told, said, status = match_of(counts, whole[:4] + whole[10:])
    counts.same((told, said, status), (MATCH, '', 0), 'two plays are hidden')
    redoubled = line(OWN2, OTHER1, -1, (3, 1), cube=4)
    told, said, status = match_of(counts, whole[:19] + [redoubled])
    counts.same((told.splitlines()[6:8], said, status), (
        ['  3) 66: 24/18 15/9 13/7 13/7     Doubles => 4', '  4)  Takes                      '], '', 0),
        'the one who took the cube doubles, and that is hidden')


def offers_to_resign_are_no_plays(counts):
    """One that is declined, or that nobody answers, changes nothing, though a server may show it as a turn that is
    given away; one that is accepted ends the game, by a gammon too."""
    whole = session()
    own = ['You want to resign. bob will win 2 points. Please wait for bob to accept or reject.',
           line(OWN1, OTHER1, -1, cube=2), 'bob rejects. The game continues.', line(OWN1, OTHER1, 1, cube=2)]
    his = ["bob wants to resign. You will win 2 points. Type 'accept' or 'reject'.", line(OWN2, OTHER1, 1, cube=2),
           'You reject. The game continues.', line(OWN2, OTHER1, -1, cube=2)]
    at, after_it = whole.index('You roll 6 and 6.'), whole.index('bob rolls 3 and 1.')
    lines = whole[:at] + own + whole[at:after_it] + his + whole[after_it:]
    counts.same(match_of(counts, lines), (MATCH, '', 0), 'offers that are declined')
    counts.same(match_of(counts, [one for one in lines if one not in (own[1], his[1])]), (MATCH, '', 0),
                'the same without boards')
    unanswered = whole[:at] + own[:2] + whole[at:after_it] + his[:2] + whole[after_it:]
    counts.same(match_of(counts, unanswered), (MATCH, '', 0), 'offers that nobody answers')
    ended = [own[0].replace('2', '4'), line(OWN1, OTHER1, -1, cube=2), line(OWN1, OTHER1, 0, cube=2, scores=(0, 4)),
             'bob wins the game and gets 4 points. Sorry.', 'bob wins the 3 point match 4-0 .']
    told, said, status = match_of(counts, whole[:at] + ended)
    counts.same((told.splitlines()[4:], said, status), (
        ['  1) 63: 24/21 21/15             52: 24/22 13/8', '  2)  Doubles => 2                Takes',
         '                                  Wins 4 points and the match', ''], '', 0), 'a gammon that is given up')
    if matchfiles.gnubg():
        found = matchfiles.imported(told)
        counts.same(found and [game[:3] for game in found[2]], [((0, 0), 'bob', 4)], 'as GNU Backgammon has it')


def what_can_not_be_told_is_said(counts):
    whole = session()
    told, said, status = match_of(counts, whole[:1] + whole[18:])
    counts.check(status == 0 and 'the game is left out' in said, 'a beginning that is missing: %s' % said)
    counts.same(told.splitlines()[2:4], [' Game 1', ' ann : 2                        bob : 0'], 'the second game stays')
    far = line({0: 10, 1: 5}, {0: 10, 2: 5}, 1)
    told, said, status = match_of(counts, whole[:7] + [far] + whole[22:])
    counts.check(status == 0 and 'the result is kept' in said, 'a gap: %s' % said)
    counts.same(told.splitlines()[4:6], ['  1) 63: 24/21 21/15             ', '      Wins 2 points'], 'the result')
    for lines in [], [WELCOME], ['hello'], [whole[4].replace(':You:', ':eve:')]:
        told, said, status = match_of(counts, lines)
        counts.same((told, status), ('', 1), 'no match')
        counts.check('0 matches' in said, said)


def each_match_of_a_session_can_be_had(counts):
    again = [one.replace(':bob:', ':eve:').replace('bob', 'eve') for one in session()]
    lines = session() + again
    for match, wanted in ('1', MATCH), ('2', MATCH.replace('bob', 'eve')), ('last', MATCH.replace('bob', 'eve')):
        counts.same(match_of(counts, lines, match), (wanted, '', 0), 'match %s' % match)
    for match in '3', '0', 'first':
        counts.same(match_of(counts, lines, match)[2], 1, 'there is no match %s' % match)
    with tempfile.TemporaryDirectory() as room:
        log = pathlib.Path(room, 'my game.log')
        log.write_bytes(b''.join(one.encode('latin-1') + b'\n' for one in lines))
        for _ in range(2):
            told = subprocess.run([sys.executable, '-B', str(ROOT / 'scripts' / 'fibs-mat'), str(log)], cwd=room,
                                  capture_output=True, text=True, timeout=60,
                                  env={**os.environ, 'FIBS': str(pathlib.Path(counts.program).resolve())})
            counts.same((told.stdout, told.stderr, told.returncode),
                        ('my game-1.mat: ann 2, bob 1 of 3, not finished\n'
                         'my game-2.mat: ann 2, eve 1 of 3, not finished\n', '', 0), 'files are made')
            counts.same({path.name: path.read_text() for path in pathlib.Path(room).glob('*.mat')},
                        {'my game-1.mat': MATCH, 'my game-2.mat': MATCH.replace('bob', 'eve')}, 'files')
    # one that is broken off, and goes on when another one was played: then the board is shown once more
    for at in 5, 11, 16, 18, 24, 27, 32:
        shown = [one for one in session()[:at] if one.startswith('board')][-1:]
        lines = session()[:at] + again + shown + session()[at:]
        counts.same(match_of(counts, lines), (MATCH, '', 0), 'broken off at line %d' % at)
    # a new match with the same player, after one that was not played to its end
    told, said, status = match_of(counts, session()[:12] + session()[1:])
    counts.same((told, said, status), (MATCH, '', 0), 'the same player once more')
    # that one is broken off too, and it goes on, not the one before it
    for at in 27, 32:
        shown = [one for one in session()[:at] if one.startswith('board')][-1:]
        lines = session()[:12] + session()[1:at] + again + shown + session()[at:]
        counts.same(match_of(counts, lines), (MATCH, '', 0), 'the later of two is broken off at line %d' % at)


def what_is_told_twice_is_done_once(counts):
    """A double that is told again to who comes back; and of a session with one match there is no other one."""
    lines = [one for line in session() for one in [line] * (2 if 'double.' in line or 'doubles.' in line else 1)]
    counts.check(len(lines) > len(session()), 'doubles are told twice')
    counts.same(match_of(counts, lines), (MATCH, '', 0), 'doubles that are told twice')
    for wanted, status in ('1', 0), ('0', 1), ('2', 1):
        counts.same(match_of(counts, session(), wanted)[2], status, 'match %s' % wanted)


# The checkers after a play of 5 and 1 that 4 and 2 make too, and the end of its match file.
PLAYED = after(START, (13, 7))
FILE_OF_PLAYED = ['  1) 51: 13/8 8/7                ', '']


def nothing_goes_on_in_the_next_game(counts):
    """What was told before the end of a game or of a match says nothing of the next one: neither a roll of which no
    board came, nor an offer to resign that was accepted, or that nobody answered. A connection hides the next game's
    texts, or its dice but for the text."""
    rolls, offers = 'bob rolls 6 and 6.', "bob wants to resign. You will win 1 point. Type 'accept' or 'reject'."
    won = 'You win the game and get 1 point. Congratulations!'
    joins = '** Player eve has joined you for a 1 point match.'
    for case, told, length, name in [
            ('a roll, then another game', [rolls, won], 3, 'bob'),
            ('a roll, then another match', [rolls, won], 1, 'bob'),
            ('a roll, then a match with another player', [rolls, won, joins], 1, 'eve'),
            ('an offer, then another game', [offers, won], 3, 'bob'),
            ('an offer, then another match', [offers, won], 1, 'bob'),
            ('an offer without an answer, then a match with another player', [offers, joins], 1, 'eve')]:
        next_one = {'length': length, 'name': name, 'scores': (1 if length == 3 else 0, 0)}
        dice = 'You rolled 5, %s rolled 1' % name if rolls in told else line(START, START, 1, (5, 1), **next_one)
        found, said, status = match_of(counts, [
            WELCOME, line(START, START, 1, (6, 3), length=length), line(OWN1, START, -1, length=length), *told,
            dice, line(PLAYED, START, -1, **next_one)])
        counts.same((found.splitlines()[-2:], said, status), (FILE_OF_PLAYED, '', 0), case)


def a_double_that_stood_was_not_dropped(counts):
    """Whoever doubled has not won, or has won more than the cube showed."""
    begun = [WELCOME, line(START, START, 1, (6, 3)), line(OWN1, START, -1)]
    his = [*begun, "bob doubles. Type 'accept' or 'reject'.", line(OWN1, START, 1, doubled=1)]
    own = [*begun, 'bob rolls 5 and 2.', line(OWN1, OTHER1, 1),
           'You double. Please wait for bob to accept or reject.', line(OWN1, OTHER1, -1)]
    for case, lines, end, is_dropped in [
            ('bob wins a point after his double', his, 'bob wins the game and gets 1 point. Sorry.', True),
            ('he loses it', his, 'You win the game and get 1 point. Congratulations!', False),
            ('he wins two', his, 'bob wins the game and gets 2 points. Sorry.', False),
            ('I win a point after my double', own, 'You win the game and get 1 point. Congratulations!', True),
            ('I lose it', own, 'bob wins the game and gets 1 point. Sorry.', False),
            ('I win four', own, 'You win the game and get 4 points. Congratulations!', False)]:
        found, said, status = match_of(counts, [*lines, end])
        counts.same(('Doubles' in found, ' Drops' in found, said, status), (True, is_dropped, '', 0), case)


def the_package_takes_lines_of_any_kind(counts):
    """Bytes, a str, a Line; one that was cut says nothing. A file says what it is of, and for whom."""
    cut = fibs.Lines().feed(session()[6].encode() + b' ' * fibs.MAX_LINE + b'\n')[0]
    for case, kind in [('bytes', str.encode), ('str', str), ('a Line', fibs.read),
                       ('a memoryview', lambda one: memoryview(one.encode()))]:
        files = fibs.MatchFiles('nobody')
        counts.same((files.files, files.latest), ([], None), '%s: nothing yet' % case)
        for one in session():
            files.hear(kind(one))
            files.hear(cut)
        file = fibs.MatchFile(b'bob', MATCH.encode(), b'ann', 3, 2, 1, False)
        counts.same((files.files, files.latest), ([file], file), case)
    for again in copy.copy, copy.deepcopy, pickle.dumps:
        counts.raises(TypeError, again, files)
    for wrong in None, 5, ['board'], session():
        counts.raises(TypeError, files.hear, wrong)
        counts.raises(TypeError, files.hear, wrong, [])


def the_name_and_the_length_are_as_they_are_told(counts):
    how = {'length': 9999, 'name': 'bob'}
    lines = [line(START, START, 1, (6, 3), **how), line(OWN1, START, -1, **how)]
    for name, wanted in ('ann', b'ann'), (b'\xff', b'\xff'), ('\xe9', b'\xc3\xa9'), (None, b'You'):
        files = fibs.MatchFiles(*[name][:name is not None])
        for one in lines:
            files.hear(one.encode('latin-1'))
        file = files.latest
        counts.same((file.name, file.opponent, file.length, file.score, file.opponent_score, file.is_over),
                    (wanted, b'bob', None, 0, 0, False), 'the name %r' % name)
        counts.check(wanted + b' : 0' in file.text and b'bob : 0' in file.text, 'it stands in the file')
    won = fibs.MatchFiles()
    for one in [*session()[:19], 'bob wins the game and gets 4 points. Sorry.']:
        won.hear(one)
    counts.same(won.latest[2:], (b'ann', 3, 0, 4, True), 'a match that is won')


def what_lists_the_plays_may_be_given(counts):
    """A play that it does not list is not found, and that is reported."""
    asked, said = [], []
    files = fibs.MatchFiles(report=said.append, plays=lambda line: asked.append(line) or [[(24, 21), (21, 15)]])
    for one in session()[4], session()[6], session()[10]:
        files.hear(one)
    counts.check(asked and all(fibs.read(one).kind == fibs.BOARD for one in asked), 'boards are asked for')
    counts.same(said, ['line 3: the plays before this board are not known; of the game the result is kept'], 'report')


TESTS = [played_turns_are_printed, the_package_takes_lines_of_any_kind, the_name_and_the_length_are_as_they_are_told,
         what_lists_the_plays_may_be_given, a_session_becomes_a_match_file, gnu_backgammon_imports_it,
         what_a_lost_connection_hid_is_filled_in, offers_to_resign_are_no_plays, what_can_not_be_told_is_said,
         each_match_of_a_session_can_be_had, what_is_told_twice_is_done_once,
         nothing_goes_on_in_the_next_game, a_double_that_stood_was_not_dropped]
