"""Lists of players, talk that is kept, and the commands of the server that are words of the terminal."""

import contextlib
import os
import pathlib
import random
import re
import tempfile
import time

from escapes import BOARD
from offers import ANN_BEGINS
from people import OWN_INFO, WELCOME, Listener, Person, at_a_table, greeted, same, with_listener
from seats import drawn

SCENES = []

# Ann is rated 1500.00.
HEAD = 'player                  rating  points    idle   does'


def scene(does):
    """A decorator: the scene is one of those that are played."""
    SCENES.append(does)
    return does


def listed(server, ann, players):
    """The server lists these players (name, opponent, rating, experience, idle, whether ready), and says that she is in
    no match: so her login ends, by a row that counts the others."""
    for name, opponent, rating, points, idle, ready in players:
        server.send('5 %s %s - %d 0 %.2f %d %d 1041253132 localhost - -' % (name, opponent, ready, rating, points, idle))
    server.send('6', "** You're not playing.")
    ann.reads('%d players, ' % sum(name != 'ann' for name, *_ in players))


def rows_after(ann, typed, last, seconds=20):
    """The rows that a typed line brings, up to one that ends so."""
    ann.type(typed)
    rows, end = [], time.monotonic() + seconds
    while True:
        row = ann.next_line(max(0.01, end - time.monotonic()))
        if row != typed:
            rows.append(row)
        if row.endswith(last):
            return rows


@scene
@with_listener
def players_are_listed_by_what_one_looks_for(server):
    """At most a screen, near one's own rating first; in any letters; every row fits."""
    ann = greeted(server)
    listed(server, ann, [('player%03d' % at, 'someone' if at % 3 == 0 else '-', 1000 + 5 * at, at, 60 * at, at % 2)
                         for at in range(300)])
    rows = rows_after(ann, 'players', 'all')
    same('the first rows', rows[:3], ['Nearest to your 1500.00 first:', HEAD,
                                      'player100              1500.00     100     1 h   not ready'])
    same('how many', (len(rows), rows[-1]), (19, '.. 284 more: players all'))
    rows = rows_after(ann, 'players ready', 'all')
    same('who is ready and plays with nobody', rows[2],
         'player101              1505.00     101     1 h   ready')
    same('the others', rows[-1], '.. 84 more: players ready all')
    rows = rows_after(ann, 'players playing', 'all')
    same('who plays', rows[2], 'player099              1495.00      99     1 h   plays someone')
    rows = rows_after(ann, 'players PLAYER00 player29', 'all')
    same('by name', (rows[2].split(' ')[0], rows[-1]), ('player009', '.. 4 more: players PLAYER00 player29 all'))
    rows = rows_after(ann, 'players player00 all', '10 players.')
    same('a rating of three digits', [row for row in rows if row.startswith('player000')],
         ['player000              1000.00       0     0 m   plays someone'])
    same('nobody', rows_after(ann, 'players zoe', '.'), ['Nobody of 300 players.'])
    rows = rows_after(ann, 'players all', '300 players.')
    same('all', len(rows), 302)
    same('every row fits', [row for row in ann.lines() if len(row) > 79], [])
    ann.close()


@scene
@with_listener
def long_names_fit(server):
    """Names of 64 bytes; numbers of as many digits as a player may have."""
    ann = greeted(server)
    listed(server, ann, [('n' * 64, 'm' * 64, 99.99, 12345678, 864000, 1), ('bob', '-', 999.99, 7, 7200, 1)])
    rows = rows_after(ann, 'players', '2 players.')
    same('rows', rows, [HEAD, 'bob                     999.99       7     2 h   ready',
                        'nnnnnnnnnnnnnnnnnnnn     99.99 12345678    10 d   plays mmmmmmmmmmmmmmmm', '2 players.'])
    same('every row fits', [row for row in rows if len(row) > 79], [])
    ann.close()


@scene
@with_listener
def talk_is_kept_and_answered(server):
    """The last twenty rows of people; `re` answers who spoke to her last, and nobody else."""
    ann = greeted(server, TZ='UTC')
    ann.type('re hello')
    ann.reads('re TEXT: answers the player who spoke to you last, if one has.')
    same('no talk', rows_after(ann, 'talk', '.'), ['Nobody has talked yet.'])
    for at in range(25):
        server.send('13 dirk shout number %d' % at)
    server.send('12 bob Good evening', '7 carl carl logs in.', '13 eve nice', 'dirk rolls 3 and 1.')
    ann.reads('dirk rolls 3 and 1.')
    rows = rows_after(ann, 'talk', 'eve shouts: nice')
    same('how many', (len(rows), rows[0].endswith('dirk shouts: shout number 7')), (20, True))
    same('who spoke to her', rows[-2].endswith('bob says: Good evening'), True)
    ann.type(' RE You too')
    ann.reads('sent tell bob You too')
    same('what was sent', server.line(), 'tell bob You too')
    ann.close()


# What is a word of the terminal, and goes to the server as it is.
PASSED = ['watch bob', 'unwatch', 'whois bob', 'away for tea', 'back', 'show saved', 'pip', 'redouble', 'leave']


@scene
@with_listener
def words_of_the_server_are_sent_as_they_are(server):
    """Each is shown as sent, in the order in which it was typed, and once."""
    ann = greeted(server)
    for word in PASSED:
        ann.type(word)
        ann.reads('sent as it is: ' + word)
        same('what was sent', server.line(), word)
    ann.type('show ratings')
    ann.reads('not a word of this client: send show ratings sends it as it is')
    ann.quits()
    same('nothing else', server.line(), None)


def moves_of(rows):
    """The moves of a list, whose last row says how many there are, down its columns."""
    cells = [re.split(' {2,}', row.strip()) for row in rows[:-1]]
    return [row[column] for column in range(len(cells[0])) for row in cells if column < len(row)]


def places_of(move):
    """The places of a move's steps, as numbers."""
    return [int(place.strip('*')) for step in move.split(' ') for place in step.split('-')]


@scene
@at_a_table(*ANN_BEGINS)
def moves_are_listed_from_a_place_and_in_parts(table):
    """In as many columns as fit, ordered down them; those from a place alone."""
    ann = table.ann
    table.begins()
    ann.advised('hint', 'move')
    same('no place', rows_after(ann, 'plays here', '.'), ['plays, plays 24, plays bar, or plays more.'])
    first = rows_after(ann, 'plays', '.')
    same('with 3 and 1 there are', (first[-1], len(moves_of(first))), ('16 legal moves.', 16))
    same('rows', len(first) <= 16 / 3 + 1, True)
    same('down the columns', moves_of(first), sorted(moves_of(first), key=places_of, reverse=True))
    from_24 = rows_after(ann, 'plays 24', '.')
    same('from there', all('24-' in move for move in moves_of(from_24)), True)
    same('how many', (from_24[-1], sum('24-' in move for move in moves_of(first))),
         ('%d legal moves from there.' % len(moves_of(from_24)), len(moves_of(from_24))))
    same('none from the bar', rows_after(ann, 'plays bar', '.'), ['0 legal moves from there.'])


@scene
@at_a_table(*ANN_BEGINS)
def a_move_is_looked_at_before_it_is_sent(table):
    """`try` draws the board after the move, and sends nothing; `go` sends it, once, on that board alone."""
    ann = table.ann
    table.begins()
    ann.advised('hint', 'move')
    same('nothing was tried', rows_after(ann, 'go', 'first.'),
         ['go sends the move that you tried on this board: try 8-5 6-5 shows it first.'])
    same('no move', rows_after(ann, 'try roll', 'nothing.'),
         ['try 8-5 6-5: shows the board after that move, and sends nothing.'])
    ann.type('try 8/2 6/5')
    ann.reads('[9 IllegalPlay]')
    rows = rows_after(ann, 'try 8/5 6/5', 'move 8-5 6-5')
    same('what is said', rows[-1], 'Not sent yet: go sends move 8-5 6-5')
    # three were on 8 and five on 6
    places = drawn([row for row in rows if row.startswith((' |', ' +'))])
    same('checkers on 8, 6 and 5', [places[place] for place in (8, 6, 5)], [2, 4, 2])
    same('nothing was sent', [row for row in ann.lines() if row.startswith('sent move')], [])
    rows_after(ann, 'try 24/23 13/10', 'move 24-23 13-10')
    ann.type('go')
    ann.reads('sent move 24-23 13-10')
    table.bob.sees('ann moves 24-23 13-10 .')
    ann.reads("bob's turn.")
    ann.type('go')
    ann.reads('go sends the move that you tried on this board')


SETTINGS = b'''# what I like
arrivals
quiet
gag dirk
no bell
  words\r

dance with me, and with everybody who is here tonight
server localhost 4321 ann
gag not a name
'''


@scene
def own_settings_are_taken_and_what_is_none_is_said():
    """Each line alone, in their order: a wrong one is named, and the others count."""
    with tempfile.TemporaryDirectory() as folder:
        path = os.path.join(folder, 'config')
        pathlib.Path(path).write_bytes(SETTINGS)
        server = Listener()
        ann = Person(server.port, FIBS_CONFIG=path, FIBS_QUIET='')
        ann.reads('fibs: line 8 of %s is no setting: dance with me' % path)
        ann.reads('fibs: line 10 of %s is no setting: gag not a name' % path)
        server.accept()
        server.line()
        server.send(WELCOME, OWN_INFO % 'ann', '13 bob a shout', '7 carl carl logs in.', '12 dirk psst', '12 eve a word',
                    BOARD)
        ann.reads('eve says: a word')
        ann.reads('You go down, from 24 to 1.')
        same('what was hidden', [row for row in ann.lines() if re.search('psst|shout|carl', row)], [])
        same('bells', b'\x07' in bytes(ann.seen), False)
        ann.close()
        server.close()


@scene
def settings_of_any_bytes_do_no_harm():
    """Random bytes, a folder and a file that is too long: she plays all the same."""
    with tempfile.TemporaryDirectory() as folder:
        path = os.path.join(folder, 'config')
        chance = random.Random(5)
        for content in (bytes(chance.randrange(256) for _ in range(3000)), b'quiet\n' * 11000, None):
            if content is None:
                path = folder
            else:
                pathlib.Path(path).write_bytes(content)
            server = Listener()
            ann = Person(server.port, FIBS_CONFIG=path)
            server.accept()
            server.line()
            server.send(WELCOME, OWN_INFO % 'ann', '12 eve a word')
            ann.reads('eve says: a word')
            seen = set(bytes(ann.seen)) - set(range(32, 127)) - {10, 13}
            same('bytes that a terminal obeys', sorted(seen), [])
            if content is None or len(content) > 1 << 16:
                same('unread', "fibs: the settings of %s can't be read" % path in ' '.join(ann.lines()), True)
            ann.close()
            server.close()


# The board after a move of the opponent.
MOVED = BOARD.replace(':-5:5:0:0:0:-3:', ':-5:5:0:0:-1:-2:')


@contextlib.contextmanager
def seated(**more):
    """Ann, and the server that has greeted her, at a terminal with such an environment."""
    server = Listener()
    ann = Person(server.port, **more)
    server.accept()
    server.line()
    server.send(WELCOME, OWN_INFO % 'ann')
    yield ann, server
    ann.close()
    server.close()


@scene
def the_last_of_two_settings_counts():
    """How a board is told, and where it stands."""
    with tempfile.TemporaryDirectory() as folder:
        path = pathlib.Path(folder, 'config')
        for settings, count in (b'words short\nwords long\n', 2), (b'words long\nwords short\n', 1):
            path.write_bytes(settings)
            with seated(FIBS_CONFIG=str(path)) as (ann, server):
                server.send(BOARD)
                ann.reads("Blots: yours none; bob's none.")
                server.send(MOVED, '12 eve a word')
                ann.reads('eve says: a word')
                same('rows after %r' % settings, ann.screen().count('You go down, from 24 to 1.'), count)
        for settings, stands in (b'board below\nboard above\n', True), (b'board above\nboard below\n', False):
            path.write_bytes(settings)
            with seated(FIBS_CONFIG=str(path), TERM='xterm', LINES='40') as (ann, server):
                server.send(BOARD, '12 eve a word')
                ann.reads('eve says: a word')
                same('a board above after %r' % settings, '\x1b[1J' in ann.screen(), stands)


@scene
def settings_are_read_from_their_place():
    """A file of 65,536 bytes, and not one byte more; where XDG_CONFIG_HOME says, before the home. A pipe is not waited
    for."""
    with tempfile.TemporaryDirectory() as home:
        places = [pathlib.Path(home, name, 'fibs', 'config') for name in ('there', '.config')]
        for path in places:
            path.parent.mkdir(parents=True)
            path.write_text('no setting of %s\n' % path.parent.parent.name)
        for more, path in ({'XDG_CONFIG_HOME': str(places[0].parent.parent)}, places[0]), ({}, places[1]):
            with seated(**{'HOME': home, 'FIBS_CONFIG': None, 'XDG_CONFIG_HOME': None, **more}) as (ann, _):
                ann.reads('Welcome, ann')
                row = 'fibs: line 1 of %s is no setting: no setting of %s' % (path, path.parent.parent.name)
                same('what is said', row in ' '.join(ann.lines()), True)
        path = places[0]
        for size, row in (1 << 16, 'fibs: line 2 of %s is no setting: dance'), (
                (1 << 16) + 1, "fibs: the settings of %s can't be read"):
            path.write_bytes(b'#'.ljust(size - 6, b'x') + b'\ndance')
            with seated(FIBS_CONFIG=str(path)) as (ann, _):
                ann.reads('Welcome, ann')
                same('of %d bytes' % size, row % path in ' '.join(ann.lines()), True)
        path.unlink()
        os.mkfifo(path)
        with seated(FIBS_CONFIG=str(path)) as (ann, _):
            ann.reads('Welcome, ann')
            same('of a pipe', "fibs: the settings of %s can't be read" % path in ' '.join(ann.lines()), True)


@scene
def a_home_that_is_no_folder_has_no_settings():
    """What the path of the settings names as a folder is a device, or they are said to be none by /dev/null: she plays,
    and no row speaks of settings."""
    for more in {'HOME': '/dev/null', 'FIBS_CONFIG': None}, {'FIBS_CONFIG': '/dev/null'}:
        server = Listener()
        ann = Person(server.port, XDG_CONFIG_HOME=None, **more)
        server.accept()
        server.line()
        server.send(WELCOME, OWN_INFO % 'ann', '12 eve a word')
        ann.reads('eve says: a word')
        same('rows of settings', [row for row in ann.lines() if 'settings' in row], [])
        ann.close()
        server.close()


@scene
@with_listener
def moves_are_listed_twenty_rows_at_a_time(server):
    """`plays more` goes on where the list ended, to the last move: none twice, none left out; a board begins anew."""
    ann = greeted(server, columns=50, COLUMNS='50')
    # two and two: more moves than three lists have
    server.send(BOARD.replace(':1:0:0:0:0:1:1:1', ':1:2:2:0:0:1:1:1'))
    ann.reads('Your move, as in: move')
    rows = rows_after(ann, 'plays', 'shows others.')
    first, total = list(rows), int(rows[-1].split(' ')[2])
    moves = moves_of(rows)
    same('rows of a list', len(rows), 21)
    while rows[-1].endswith('shows others.'):
        rows = rows_after(ann, 'plays more', '.')
        moves += moves_of(rows)
    same('how many', (total > 60, len(moves), len(set(moves)), rows[-1]), (True, total, total, '%d legal moves.' % total))
    same('nothing follows', rows_after(ann, 'plays more', '.'), ['%d legal moves.' % total])
    server.send(BOARD.replace(':1:0:0:0:0:1:1:1', ':1:2:2:0:0:1:1:1'))
    server.send('12 bob hi')
    ann.reads('bob says: hi')
    again = rows_after(ann, 'plays more', 'shows others.')
    same('a board begins anew', [row for row in again if not row.startswith('Your move')], first)
    ann.close()
