"""Who invites, saved matches, the game so far, the title of the window, its width, and a standing order of one's own."""

import os
import pathlib
import re
import tempfile

from company import HEAD, listed, rows_after
from escapes import BOARD
from offers import ANN_BEGINS
from people import (LOGIN, OWN_INFO, PASSWORD, PASSWORD_FILE, PROGRAM, WELCOME, Client, Listener, Person, Terminal,
                    at_a_table, greeted, near_and_far, same, with_listener)
from terminals import FROM_FILE

SCENES = []

# What keeps the title of a window, puts one there, and puts the old one back.
KEEP, PUT_BACK = b'\x1b[22;0t', b'\x1b[23;0t'


def scene(does):
    """A decorator: the scene is one of those that are played."""
    SCENES.append(does)
    return does


def titled(words):
    """What makes these words the title."""
    return b'\x1b]2;' + words + b'\x1b\\'


BOB = ('bob', '-', 1623.4, 4012, 0, 1)


@scene
@with_listener
def who_invites_is_said_in_a_row(server):
    """With rating and experience if he is listed; in place of the server's two rows; and how one joins."""
    ann = greeted(server)
    listed(server, ann, [BOB, ('carl', '-', 1500, 7, 0, 1)])
    rows = [
        ('bob', 'a 5 point match', 'bob (1623.40, experience 4012) invites you to 5 points: join bob'),
        ('carl', 'a 1 point match', 'carl (1500.00, experience 7) invites you to 1 point: join carl'),
        ('eve', 'an unlimited match', 'eve invites you to an unlimited match: join eve'),
    ]
    for name, what, wanted in rows:
        server.send('%s wants to play %s with you.' % (name, what), "Type 'join %s' to accept." % name, '12 x y')
        ann.reads(wanted)
        ann.reads('x says: y')
    server.send('bob wants to resume a saved match with you.', "Type 'join bob' to accept.", '12 x y')
    ann.reads('bob (1623.40, experience 4012) invites you to resume your saved match: join bob')
    ann.reads('x says: y')
    said = [row for row in ann.lines() if 'wants to' in row or row.startswith('Type ') or row.startswith('You are inv')]
    same("the server's rows, and the hint", said, [])
    ann.type('help')
    ann.advised('invited', 'join bob')
    ann.type('join bob')
    ann.reads('sent join bob')
    same('what was sent', server.line(), 'join bob')
    ann.close()


@scene
@with_listener
def what_is_no_invitation_is_shown_as_it_is(server):
    """Nothing is said that the server has not said; a name of 64 bytes fits in two rows."""
    ann = greeted(server)
    name = 'n' * 64
    server.send('%s wants to play a 99999999999 point match with you.' % name, "Type 'join %s' to accept." % name)
    ann.reads('invites you to 99999999999 points.')
    ann.reads('You are invited:')
    same('how one joins', ann.next_line(), 'join ' + name)
    for text in ('bob wants to play a 05 point match with you.', 'bob wants to play a -1 point match with you.',
                 'bob wants to play a 5 point match with you. Now', 'b:b wants to play a 5 point match with you.'):
        server.send(text)
        same('a text', ann.reads('wants to play'), text)
    server.send('12 x y')
    ann.reads('x says: y')
    same('every row fits', [row for row in ann.lines() if len(row) > 79], [])
    # who plays can't join
    server.send(BOARD, 'bob wants to play a 5 point match with you.', "Type 'join bob' to accept.")
    ann.reads('bob invites you to 5 points.')
    ann.reads("Type 'join bob' to accept.")
    ann.close()


SAVED = ['  opponent          matchlength   score (your points first)', '  bob                     3          2 -  0',
         '**carl          unlimited         10 -  7', ' *' + 'n' * 64 + ' 99 1 - 2']


@scene
@with_listener
def who_has_a_saved_match_is_said_to_be_here(server):
    """By the answer to `show saved`, when he logs in; and a star marks him in the list, in which ann is not."""
    ann = greeted(server)
    listed(server, ann, [BOB, ('carl', '-', 1500, 7, 0, 1), ('ann', '-', 1500, 10, 0, 1), ('eve', '-', 1400, 1, 0, 1)])
    rows = rows_after(ann, 'players', 'players.')
    same('nothing is known', rows, [
        HEAD, 'carl                   1500.00       7     0 m   ready', 'eve                    1400.00       1     0 m   ready',
        'bob                    1623.40    4012     0 m   ready', '3 players.'])
    server.send('7 bob bob logs in.', '12 x y')
    ann.reads('x says: y')
    same('nothing is said', [row for row in ann.lines() if 'is here' in row], [])
    server.send(*SAVED, 'and that is all', '7 bob bob logs in.')
    same('bob', ann.reads('is here'), 'bob is here: your match (2-0 of 3) is saved: invite bob.')
    server.send('7 carl carl logs in.')
    same('carl', ann.reads('is here'), 'carl is here: your match (10-7) is saved: invite carl.')
    server.send('7 %s logs in.' % ('n' * 64))
    same('a long name', [ann.reads('is here'), ann.next_line()],
         ['n' * 24 + ' is here: your match (1-2 of 99) is saved:', 'invite ' + 'n' * 64 + '.'])
    rows = rows_after(ann, 'players', 'players.')
    same('stars', rows, [
        HEAD, 'carl *                 1500.00       7     0 m   ready', 'eve                    1400.00       1     0 m   ready',
        'bob *                  1623.40    4012     0 m   ready',
        '* your match with this player is saved: invite NAME resumes it.', '3 players.'])
    server.send('no saved games.', '7 bob bob logs in.', '12 x again')
    ann.reads('x says: again')
    same('no more', len([row for row in ann.lines() if 'bob is here' in row]), 1)
    same('every row fits', [row for row in ann.lines() if len(row) > 79], [])
    ann.close()


@scene
@with_listener
def a_flood_of_saved_matches_is_no_harm(server):
    """A list of 4096: a hundred are kept, and she plays on; the message of the day is no list."""
    ann = greeted(server)
    server.send('3', SAVED[0], SAVED[1], '4', '7 bob bob logs in.', '12 x y')
    ann.reads('x says: y')
    server.send(SAVED[0], *['  p%04d 3 0 - 1' % at for at in range(4096)], '7 p0001 p0001 logs in.', '7 p4000 p4000 logs in.')
    ann.reads('p0001 is here: your match (0-1 of 3) is saved: invite p0001.')
    server.send('12 x again')
    ann.reads('x says: again')
    same('who is here', [row.split(' ')[0] for row in ann.lines() if 'is here' in row], ['p0001'])
    ann.close()


@near_and_far(SCENES, *ANN_BEGINS)
def a_match_that_was_saved_is_known(table):
    """Bob leaves and logs in again: the score is that of the board."""
    ann = table.ann
    table.begins()
    ann.advised('hint', 'move')
    table.bob.send('bye')
    ann.reads('bob logs out.')
    table.bob.close()
    table.bob = Client(table.server.port, 'bob')
    ann.reads('bob is here: your match (0-0 of 3) is saved: invite bob.')
    ann.type('invite bob')
    table.bob.sees("Type 'join ann' to accept.")


@scene
@at_a_table(*ANN_BEGINS)
def the_game_so_far_is_listed(table):
    """Each roll and play that boards have shown; nothing before."""
    ann = table.ann
    table.begins()
    ann.advised('hint', 'move')
    same('nothing yet', rows_after(ann, 'moves', '.'), ['No board of this game has shown a roll and its play yet.'])
    ann.type('move 8-5 6-5')
    table.bob.sees('ann moves 8-5 6-5 .')
    ann.reads('sent move')
    ann.reads("bob's turn.")
    ann.type('moves')
    ann.reads('  1. You roll 3 and 1: 8-5 6-5')
    same('what it is', rows_after(ann, 'moves back', '.'), ['moves, or moves all.'])


def board_of(turn, own=(0, 0), other=(0, 0), changes=()):
    """A board of a game at its beginning, with these dice, and these checkers elsewhere."""
    fields = BOARD.split(':')
    fields[32] = str(turn)
    fields[33:35] = map(str, own)
    fields[35:37] = map(str, other)
    for place, count in changes:
        fields[6 + place] = str(int(fields[6 + place]) + count)
    return ':'.join(fields)


@scene
@with_listener
def what_boards_do_not_show_is_a_question_mark(server):
    """Both players' plays, a roll that can't be played, a board that is missing; twenty rows, and then all."""
    ann = greeted(server)
    # ann plays 8-5 6-5 with 3 and 1, and bob 1-7 7-12 with 6 and 5: he goes up
    after_own = [(8, -1), (6, -1), (5, 2)]
    server.send(board_of(1, own=(3, 1)), board_of(-1, changes=after_own), board_of(-1, other=(6, 5), changes=after_own),
                board_of(1, changes=[*after_own, (1, 1), (12, -1)]), '12 x y')
    ann.reads('Your turn: roll, or double.')
    same('two turns', rows_after(ann, 'moves', '7-12'), ['  1. You roll 3 and 1: 8-5 6-5', '  2. bob rolls 6 and 5: 1-7 7-12'])
    # a board that no play leads to
    server.send(board_of(1, own=(2, 2)), board_of(-1, changes=[(24, -1), (3, 1)]), '12 x z')
    ann.reads('x says: z')
    rows = rows_after(ann, 'moves', '?')
    same('a play that they do not show', rows[-1], '  3. You roll 2 and 2: ?')
    for _ in range(20):
        server.send(board_of(1, own=(3, 1)), board_of(-1, changes=after_own))
    server.send('12 x last')
    ann.reads('x says: last')
    rows = rows_after(ann, 'moves', ' 23. You roll 3 and 1: 8-5 6-5')
    same('the last twenty', (len(rows), rows[0]), (21, '.. 3 before: moves all'))
    rows = rows_after(ann, 'moves all', ' 23. You roll 3 and 1: 8-5 6-5')
    same('all', (len(rows), rows[0]), (23, '  1. You roll 3 and 1: 8-5 6-5'))
    server.send('Starting a new game with bob.', '12 x new')
    ann.reads('x says: new')
    same('a new game', rows_after(ann, 'moves', '.'), ['No board of this game has shown a roll and its play yet.'])
    ann.close()


@scene
def the_title_says_whose_turn_it_is():
    """On a terminal that has one; the old title is put back; FIBS_QUIET, `no title` and TERM=dumb leave it."""
    with tempfile.TemporaryDirectory() as folder:
        path = os.path.join(folder, 'config')
        pathlib.Path(path).write_text('no title\n')
        for kind, more, has in [('xterm', {}, True), ('tmux-256color', {}, True), ('dumb', {}, False),
                                ('linux', {}, False), ('xterm', {'FIBS_QUIET': '1'}, False),
                                ('xterm', {'FIBS_CONFIG': path}, False)]:
            server = Listener()
            ann = greeted(server, TERM=kind, **{'FIBS_QUIET': '', **more})
            server.send(board_of(1), board_of(-1, other=(6, 5)), '12 x y')
            ann.reads('x says: y')
            ann.quits()
            seen = bytes(ann.seen)
            wanted = [KEEP + titled(b'fibs: your turn, 0-0 of 3'), titled(b"fibs: bob's turn, 0-0 of 3"), PUT_BACK]
            found = [part in seen for part in wanted]
            same('titles of %s, %s' % (kind, more), (found, b'\x1b]' in seen), ([has] * 3, has))
            same('it is put back last', seen.rstrip().endswith(PUT_BACK), has)
            ann.close()
            server.close()


@scene
def the_title_is_put_back_though_what_is_typed_can_not_be_read():
    """It comes from a connection that breaks."""
    server, typed = Listener(), Listener()
    ann = Terminal(['bash', '-c', 'port=$1; shift; exec "$@" < "/dev/tcp/127.0.0.1/$port"', 'bash', str(typed.port),
                    PROGRAM, 'connect', '--password-file', PASSWORD_FILE, '127.0.0.1', str(server.port), 'ann'],
                   TERM='xterm')
    typed.accept()
    server.accept()
    server.line()
    server.send(WELCOME, OWN_INFO % 'ann', board_of(1))
    # an empty line hears the server
    typed.send_bytes(b'\n')
    ann.sees('fibs: your turn')
    typed.reset()
    ann.ends(4)
    same('it is put back', PUT_BACK in ann.seen, True)
    ann.close()
    typed.close()
    server.close()


@scene
def the_order_of_the_settings_is_given_on_each_connection():
    """As if it were typed, and shown; nothing else goes out by itself, and without the line nothing."""
    with tempfile.TemporaryDirectory() as folder:
        path = os.path.join(folder, 'config')
        pathlib.Path(path).write_text('order roll\n')
        server = Listener()
        ann = Person(server.port, FIBS_CONFIG=path)
        for _ in range(2):
            server.accept()
            server.line()
            server.send(WELCOME, OWN_INFO % 'ann')
            ann.reads('ordered: the client rolls if you may not double')
            same('the first commands', [server.line(), server.line()], ['set boardstyle 3', 'board'])
            # the cube is the opponent's: she may not double
            server.send(BOARD.replace(':1:1:1:0:1:', ':2:0:1:0:1:'))
            ann.reads('sent roll, as ordered')
            same('what goes out', server.line(), 'roll')
            server.drop()
            ann.reads('lost: open connects again')
            ann.type('open')
        ann.close()
        server.close()
        pathlib.Path(path).write_text('# order roll\n')
        server = Listener()
        ann = Person(server.port, FIBS_CONFIG=path)
        server.accept()
        server.line()
        server.send(WELCOME, OWN_INFO % 'ann', BOARD.replace(':1:1:1:0:1:', ':2:0:1:0:1:'))
        ann.advised('hint', 'roll')
        ann.type('say hi')
        ann.reads('sent say hi')
        same('without the line', [server.line() for _ in range(3)], ['set boardstyle 3', 'board', 'say hi'])
        ann.close()
        server.close()


@scene
@with_listener
def an_order_of_the_settings_is_in_no_typed_line(server):
    """Of a pipe a typed line may come in parts: the order that the settings ask for waits for its end."""
    with tempfile.TemporaryDirectory() as folder:
        config, pipe = os.path.join(folder, 'config'), os.path.join(folder, 'typed')
        pathlib.Path(config).write_text('order roll\n')
        os.mkfifo(pipe)
        ann = Terminal([*FROM_FILE, pipe, PROGRAM, 'connect', '127.0.0.1', str(server.port), 'ann'], FIBS_CONFIG=config)
        with open(pipe, 'w', buffering=1) as typed:
            # both at once
            typed.write(PASSWORD + '\nsay as you ')
            typed.flush()
            server.accept()
            same('the login', server.line(), LOGIN)
            typed.write('wish\n')
            same('what was typed', server.line(), 'say as you wish')
            ann.sees('ordered: the client rolls')
        ann.ends(0)
        ann.close()


@scene
def a_wrong_setting_is_named_with_its_file_and_line():
    """Also if the path is long, and in any bytes."""
    with tempfile.TemporaryDirectory() as folder:
        path = os.path.join(folder, 'my settings')
        pathlib.Path(path).write_bytes(b'quiet\norder bread\n\xff\xfe\x1b[2J\nno titles\n')
        server = Listener()
        ann = Person(server.port, FIBS_CONFIG=path)
        server.accept()
        server.line()
        server.send(WELCOME, OWN_INFO % 'ann', '12 eve a word')
        ann.reads('eve says: a word')
        said = ' '.join(ann.lines())
        for number, text in (2, 'order bread'), (3, '\\xff\\xfe\\x1b[2J'), (4, 'no titles'):
            same('line %d' % number, 'fibs: line %d of %s is no setting: %s' % (number, path, text) in said, True)
        ann.close()
        server.close()


@scene
@with_listener
def the_width_is_what_one_says(server):
    """`columns 60` cuts the next picture; what is no width is said."""
    ann = greeted(server)
    ann.type('columns 50')
    ann.type('talk')
    ann.reads('Nobody has talked yet.')
    server.send(board_of(1))
    ann.reads('+13-14')
    ann.type('columns x')
    ann.reads('columns 60: how wide the terminal is, from 20 to')
    same('what goes on of a row', ann.next_line(), ' 999.')
    rows = [row for row in ann.lines() if row.startswith((' +', ' |'))]
    same('rows that are wider', [row for row in rows if len(row) > 50], [])
    ann.close()


# The rows of the board below at 40 columns.
NARROW = ['13-14-15-16-17-18-+---19-20-21-22-23-24-', ' O           X    |    X              O ',
          ' O           X    |    X              O ', ' O           X    |    X                ',
          ' O                |    X                ', ' O                |    X                ',
          '                  |BAR                  ', ' X                |    O                ',
          ' X                |    O                ', ' X           O    |    O                ',
          ' X           O    |    O              X ', ' X           O    |    O              X ',
          '12-11-10--9--8--7-+----6--5--4--3--2--1-', 'X bob, score 0, off 0, pips 167, dice -',
          'match to 3, cube 1, centred, your turn', 'O You, score 0, off 0,',
          'pips 167 (even race), dice 4 3']


@scene
@with_listener
def forty_columns_keep_each_place_and_the_dice(server):
    """At 40 columns and at 50, with and without colours, each row fits, and none is broken in a word."""
    for columns, kind in (40, 'dumb'), (50, 'xterm'):
        ann = Person(server.port, columns=columns, COLUMNS=str(columns), TERM=kind)
        server.accept()
        server.line()
        server.send(WELCOME, OWN_INFO % 'ann', board_of(1, own=(4, 3)), '12 bob ' + 'word ' * 60, '12 eve hi')
        ann.reads('eve says: hi')
        rows = ann.lines()
        if columns == 40:
            at = rows.index(NARROW[0])
            same('the picture', rows[at:at + len(NARROW)], NARROW)
        places = drawn_places(rows, columns)
        same('checkers on 24, 13, 8, 6 and 1', [places[place] for place in (24, 13, 8, 6, 1)], [2, 5, 3, 5, 2])
        same('the dice', 'dice 4 3' in ' '.join(rows), True)
        said = [row for row in rows if 'word' in row]
        same('rows of talk that are wider', [row for row in said if len(row) > columns], [])
        same('words', ' '.join(said).split().count('word'), 60)
        ann.close()


def drawn_places(rows, columns):
    """How many checkers the rows of a picture show on each place."""
    edges = [at for at, row in enumerate(rows) if '13-14-' in row or '12-11-' in row]
    upper, lower = edges[0], edges[1]
    places = {}
    for edge, inner in (upper, rows[upper + 1:lower]), (lower, rows[upper + 1:lower]):
        half = inner[:5] if edge == upper else inner[-5:]
        for found in re.finditer(r'\d+', rows[edge]):
            column = found.end() - 1 - (found.end() - found.start() == 2)
            places[int(found[0])] = sum(row[column:column + 1] in ('O', 'X') or row[column + 1:column + 2] in ('O', 'X')
                                        for row in half)
    return places


@scene
@with_listener
def letters_and_side_are_ones_own(server):
    """Other letters for O and X, and one's home above; what is no letter of checkers is named."""
    with tempfile.TemporaryDirectory() as folder:
        path = os.path.join(folder, 'config')
        pathlib.Path(path).write_text('letters @ o\nhome above\nletters B x\nletters x x\nletters + x\nletters xx y\n')
        ann = Person(server.port, FIBS_CONFIG=path)
        server.accept()
        server.line()
        server.send(WELCOME, OWN_INFO % 'ann', board_of(1, own=(4, 3)), '12 bob hi')
        ann.reads('bob says: hi')
        rows = ann.lines()
        for number, text in (3, 'letters B x'), (4, 'letters x x'), (5, 'letters + x'), (6, 'letters xx y'):
            same('line %d' % number, 'fibs: line %d of %s is no setting: %s' % (number, path, text) in ' '.join(rows), True)
        at = rows.index(' +12-11-10--9--8--7-+---+-6--5--4--3--2--1-+   @ You')
        same('the next row', rows[at + 1], ' | o           @    |   | @              o |     score 0')
        same('the last row', rows[at + 12], ' +13-14-15-16-17-18-+---+19-20-21-22-23-24-+   o bob')
        ann.close()


# Screens that are not of 80 columns, 24 rows and letters in bold.
KINDS = [{'columns': 60, 'rows': 15, 'COLUMNS': '60'}, {'columns': 40, 'COLUMNS': '40'}, {'TERM': 'dumb'},
         {'TERM': 'xterm', 'NO_COLOR': '1'}, {'FIBS_WORDS': '1'}]


@scene
@with_listener
def each_kind_of_screen_leads_on(server):
    """At 60 by 15, at 40 columns, with TERM=dumb, NO_COLOR and FIBS_WORDS: whose match is saved, who invites, the game."""
    for kind in KINDS:
        ann = greeted(server, **kind)
        listed(server, ann, [BOB, ('carl', '-', 1500, 7, 0, 1)])
        server.send(*SAVED, 'and that is all', '7 bob bob logs in.')
        same('whose match is saved, %r' % kind, ann.advised('gone', 'invite bob'), ['invite bob'])
        server.send('bob wants to play a 5 point match with you.', "Type 'join bob' to accept.")
        same('how one joins, %r' % kind, ann.advised('invited', 'join bob'), ['join bob'])
        server.send(board_of(1, own=(3, 1)), board_of(-1, changes=[(8, -1), (6, -1), (5, 2)]), '12 x y')
        ann.reads('x says: y')
        same('the game so far, %r' % kind, rows_after(ann, 'moves', '6-5'), ['  1. You roll 3 and 1: 8-5 6-5'])
        marks = ann.screen().count('\x1b[')
        same('marks, %r' % kind, marks == 0 or kind.get('columns') is not None, True)
        drawn = [row for row in ann.lines() if row.startswith((' +', ' |'))]
        same('rows that are drawn, %r' % kind, [row for row in drawn if len(row) > kind.get('columns', 79)], [])
        same('a picture, %r' % kind, bool(drawn), kind.get('columns') != 40 and 'FIBS_WORDS' not in kind)
        ann.close()


@scene
@with_listener
def a_move_is_tried_on_each_kind_of_screen(server):
    """At 60 by 15, at 40 columns, with TERM=dumb, NO_COLOR and FIBS_WORDS: what was tried is what goes out."""
    for kind in KINDS:
        ann = greeted(server, **kind)
        server.send(board_of(1, own=(3, 1)), '12 x y')
        ann.reads('x says: y')
        same('talk, %r' % kind, rows_after(ann, 'talk', 'x says: y')[-1][6:], 'x says: y')
        moves = rows_after(ann, 'plays 24', 'from there.')
        same('moves from 24, %r' % kind, all(' 24-' in row for row in moves[:-1]), True)
        rows = rows_after(ann, 'try 8/5 6/5', 'go sends move 8-5 6-5')
        same('rows of a picture, %r' % kind, any('13-14-15' in row for row in rows), 'FIBS_WORDS' not in kind)
        same('what changes, %r' % kind, 'Your pips: 163.' in ' '.join(rows), 'FIBS_WORDS' in kind)
        ann.type('go')
        ann.reads('sent move 8-5 6-5')
        same('what went out, %r' % kind, server.line(), 'move 8-5 6-5')
        ann.close()
