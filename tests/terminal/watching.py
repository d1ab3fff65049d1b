"""Scenes of one who watches: a board of others is drawn with both names, or told in words; nothing is decided on it."""

from people import Client, Table, greeted, same, with_listener

SCENES = []

# Bob against eve: bob is O and has the turn; `%s` are the two names, and the dice of both.
WATCHED = ('board:%s:%s:3:0:1:0:-2:0:0:0:0:5:0:3:0:0:0:-5:5:0:0:0:-3:0:-5:0:0:0:0:2:0:'
           '1:%s:1:1:1:0:1:-1:0:25:0:0:0:0:0:0:0:0')
NO_DICE, ROLLED = '0:0:0:0', '3:1:0:0'
# after bob's 8-5 6-5
MOVED = ('board:bob:eve:3:0:1:0:-2:0:0:0:2:4:0:2:0:0:0:-5:5:0:0:0:-3:0:-5:0:0:0:0:2:0:'
         '-1:0:0:0:0:1:1:1:0:1:-1:0:25:0:0:0:0:0:0:0:0')
HINT = 'You watch bob and eve: unwatch ends it.'

PICTURE = """\
 +13-14-15-16-17-18-+---+19-20-21-22-23-24-+   X eve
 | O           X    |   | X              O |     score 1
 | O           X    |   | X              O |     off   0
 | O           X    |   | X                |     pips  167
 | O                |   | X                |     dice  -
 | O                |   | X                |   match to 3
 |                  |BAR|                  |   cube 1, in the middle
 | X                |   | O                |   O bob's turn
 | X                |   | O                |     dice  -
 | X           O    |   | O                |     pips  167 (even race)
 | X           O    |   | O              X |     off   0
 | X           O    |   | O              X |     score 0
 +12-11-10--9--8--7-+---+-6--5--4--3--2--1-+   O bob""".split('\n')

WORDS = """\
bob against eve.
bob to roll.
bob's dice none, eve's none.
Score 0 to 1, match to 3.
Cube 1, in the middle.
bob goes down, from 24 to 1.
bob, 167 pips: 2 on 24, 5 on 13, 3 on 8, 5 on 6, none off.
eve, 167 pips: 2 on 1, 5 on 12, 3 on 17, 5 on 19, none off.
Held against bob: 19, 17, 12, 1.
Blots: bob's none; eve's none.""".split('\n')

# The longest names, which begin alike.
LONG = 'n' * 64, 'n' * 63 + 'm'


def scene(does):
    """A decorator: the scene is one of those that are played."""
    SCENES.append(does)
    return does


def board(names=('bob', 'eve'), dice=NO_DICE):
    """A board of two players whom ann may watch."""
    return WATCHED % (*names, dice)


def rows_to(ann, server, *lines):
    """The rows that some lines of the server bring."""
    server.send(*lines, '12 carl that is all')
    rows = []
    while 'carl says: that is all' not in (row := ann.next_line()):
        rows.append(row)
    return rows


def typed(ann, server, word):
    """The rows that a typed line brings: what is typed is answered in its order."""
    ann.type(word)
    ann.type('send that is all')
    rows = []
    while (row := ann.next_line()) != 'sent as it is: that is all':
        rows.append(row)
    same('what was sent', server.line(), 'that is all')
    return [row for row in rows if row not in (word, 'send that is all')]


def watched(server):
    """Ann watches bob, and no board has come: one is asked for."""
    ann = greeted(server)
    ann.type('watch bob')
    ann.reads('sent as it is: watch bob')
    same('what was sent', server.line(), 'watch bob')
    rows = rows_to(ann, server, "You're now watching bob.")
    if 'sent board' not in rows:
        ann.reads('sent board')
    same('what is said', [row for row in rows if row != 'sent board'], ["You're now watching bob."])
    same('what is asked for', server.line(), 'board')
    return ann


@scene
@with_listener
def a_watched_board_is_drawn_with_both_names(server):
    """Whole if a checker has moved, if the players are others or if she asks; else a row. The hint comes once."""
    ann = watched(server)
    same('the first board', rows_to(ann, server, board()), [*PICTURE, HINT])
    same('the same board', rows_to(ann, server, board()), [])
    same('dice', rows_to(ann, server, board(dice=ROLLED)), ['bob rolls 3 and 1.'])
    same('dice that were told', rows_to(ann, server, 'eve rolls 6 and 2.', board(dice='0:0:6:2')),
         ['eve rolls 6 and 2.'])
    rows = rows_to(ann, server, MOVED)
    same('a move', (len(rows), rows[0], rows[7][47:], rows[12]), (13, PICTURE[0], "X eve's turn", PICTURE[12]))
    rows = rows_to(ann, server, board(('eve', 'bob')))
    same('the other side', (len(rows), rows[0][47:], rows[7][47:], rows[13]),
         (14, 'X bob', "O eve's turn", 'You watch eve and bob: unwatch ends it.'))
    same('back', rows_to(ann, server, board())[-1], HINT)
    ann.type('board')
    ann.reads('sent board')
    same('what was sent', server.line(), 'board')
    same('what she asked for', rows_to(ann, server, board()), [*PICTURE, HINT])
    same('help', HINT in typed(ann, server, 'help'), True)
    same('in words', typed(ann, server, 'words'), WORDS)
    same('it decides nothing', [row[-11:] for row in typed(ann, server, 'roll')], ['[5 NoBoard]'])
    ann.quits()
    same('nothing was sent', server.line(), None)


@scene
@with_listener
def watching_ends(server):
    """By `unwatch`, when a match ends or is left, and when a match of her own begins: the hint comes no more."""
    ann = watched(server)
    for what, line in (('stopped', 'You stop watching bob.'), ('nobody', "** You're not watching."),
                       ('won', 'eve wins the 3 point match 3-1 .'), ('left', '** Player bob has left the game.'),
                       ('lost', 'bob drops connection. The game was saved.'),
                       ('her own', board(('You', 'eve'))),
                       ('begun', '** Player eve has joined you for a 3 point match.')):
        same('before ' + what, HINT in rows_to(ann, server, board()), True)
        same('it is said before ' + what, HINT in typed(ann, server, 'help'), True)
        rows_to(ann, server, line)
        same(what, HINT in typed(ann, server, 'help'), False)
    same('again', HINT in rows_to(ann, server, board()), True)
    rows_to(ann, server, 'carl wins the 3 point match 3-1 .')
    same('a match of others', HINT in typed(ann, server, 'help'), True)
    ann.type('unwatch')
    ann.reads('sent as it is: unwatch')
    same('what was sent', server.line(), 'unwatch')
    same('asked to end', HINT in typed(ann, server, 'help'), False)
    ann.close()


@scene
@with_listener
def watched_players_may_have_any_names(server):
    """The longest names, which begin alike; names that look like rows; every row fits."""
    ann = watched(server)
    for names in (LONG, ("nobody's", 'turn'), ('You_watch', 'unwatch'), ('|||', '+13-14-15'), ('**', "s's")):
        rows = rows_to(ann, server, board(names))
        same('rows of %s' % names[0], [row for row in rows if len(row) > 79], [])
        same('the turn of %s' % names[0], rows[7][47:], "O %s's turn" % names[0][:23])
        same('both names of %s' % names[0], (rows[0][47:], rows[12][47:]), ('X ' + names[1][:30], 'O ' + names[0][:30]))
    ann.close()


@scene
def a_match_is_watched_at_a_server():
    """Eve and bob play at a server; ann sees each move, with both names, and what she types is her own affair."""
    table = Table('--dice', '31,42,65,21')
    ann, bob, eve = table.ann, table.bob, Client(table.server.port, 'eve')
    ann.type('watch bob')
    ann.reads('bob is not playing.')
    bob.send('invite eve 3')
    eve.sees("Type 'join bob' to accept.")
    eve.send('join bob')
    bob.sees('Please move ..')
    ann.type('watch bob')
    ann.reads("You're now watching bob.")
    ann.reads("O bob's turn")
    ann.reads(HINT)
    bob.send('move 8-5 6-5')
    ann.reads('bob moves 8-5 6-5 .')
    ann.reads("X eve's turn")
    eve.sees("It's your turn to roll or double.")
    eve.send('double')
    ann.reads('eve doubles.')
    bob.sees('eve doubles. ..')
    bob.send('accept')
    ann.reads('bob accepts the double.')
    eve.send('roll')
    ann.reads('eve rolls ')
    same('the hint came once', len([row for row in ann.lines() if row == HINT]), 1)
    ann.type('unwatch')
    ann.reads('You stop watching bob.')
    ann.type('roll')
    ann.reads('[5 NoBoard]')
    eve.close()
    ann.close()
    bob.close()
    table.server.close()
