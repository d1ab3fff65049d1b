"""A quiet screen: what is left out in a match, how a login and a game end, and talk of any letters."""

import re
import time

from company import rows_after
from people import SOON, Client, greeted, near_and_far, same, with_listener

SCENES = []

# Whatever a player's rating is, a login ends by this row.
ENDED = re.compile(r'Rated \d+\.\d\d\. \d+ players?, \d+ ready\. Type players ready, then invite NAME 5\.')


def comes_and_goes(table, name):
    """A player logs in, and his connection breaks."""
    visitor = Client(table.server.port, name)
    table.bob.sees('7 %s ..' % name)
    visitor.close()
    table.bob.sees('8 %s ..' % name)


def rows_with(ann, word):
    return [row for row in ann.lines() if word in row]


@near_and_far(SCENES, '--dice', '31')
def strangers_come_and_go_unseen_in_a_match(table):
    """Before the match they are seen; in it not, until she asks for it; bob always is."""
    ann, bob = table.ann, table.bob
    comes_and_goes(table, 'carl')
    ann.reads('carl drops connection.')
    table.begins()
    ann.hint()
    seen = len(rows_with(ann, 'carl'))
    comes_and_goes(table, 'carl')
    comes_and_goes(table, 'dirk')
    # all that was said before this has come
    bob.send('tell ann over')
    ann.reads('bob says: over')
    same('rows of strangers', (len(rows_with(ann, 'carl')), rows_with(ann, 'dirk')), (seen, []))
    ann.type('arrivals')
    ann.reads('arrivals again ends it.')
    comes_and_goes(table, 'dirk')
    ann.reads('dirk drops connection.')
    listed = [row.split(' ')[0] for row in rows_after(ann, 'players', '1 player.')]
    same('players lists who is there', listed, ['player', 'bob', '1'])
    bob.close()
    ann.reads('bob drops connection')
    ann.was_not_refused()


@near_and_far(SCENES)
def a_login_ends_by_one_row(table):
    """And nothing of what answers the client's own commands is there."""
    ann = table.ann
    row = ann.reads('Rated ', seconds=SOON)
    same('the row', bool(ENDED.fullmatch(row)), True)
    table.bob.send('tell ann now')
    ann.reads('bob says: now')
    same('what was said after it', [row for row in ann.lines() if 'boardstyle' in row or "not playing" in row], [])
    same('the rows behind the message of the day', ann.lines()[ann.lines().index('Good luck.') + 1], row)


@near_and_far(SCENES, '--dice', '31')
def the_end_of_a_game_is_told_once(table):
    """What happened has one row, and what to type has one; so it is at the end of the match."""
    ann, bob = table.ann, table.bob
    table.begins(2)
    ann.hint()
    ann.type('resign n')
    bob.sees('ann wants to resign. ..')
    bob.send('accept')
    ann.advised('next', 'join')
    rows = ann.lines()
    end = next(at for at, row in enumerate(rows) if row.startswith('bob wins the game'))
    same('the rows of the end', rows[end:], [
        'bob wins the game, and 1 point. You 0, bob 1 of 2.', 'The game is over: join goes on, leave saves the match.'])


@near_and_far(SCENES, '--dice', '31,31')
def the_end_of_a_match_says_what_next(table):
    """The result, the rating, what next: one row each, and the lines that the last one names are taken. In small
    portions the rating may come last."""
    ann, bob = table.ann, table.bob
    table.begins(1)
    ann.hint()
    ann.type('resign n')
    bob.sees('ann wants to resign. ..')
    bob.send('accept')
    line, players = ann.advised('again', 'invite bob 1', 'players ready')
    if not rows_with(ann, 'You are rated'):
        ann.reads('You are rated')
    rows = ann.lines()
    end = next(at for at, row in enumerate(rows) if row.startswith('bob wins the game'))
    first, *others = [row.split(' ')[0] for row in rows[end:]]
    same('the rows of the end', (first, sorted(others)), ('bob', ['You', 'invite']))
    # whatever she types for the match that is over names it again
    for typed in ('r', 'board', 'go'):
        ann.type(typed)
        same('what next after ' + typed, ann.advised('again')[0], line)
    same('what was sent', rows_with(ann, 'sent roll'), [])
    ann.type(players)
    ann.reads(' player')
    ann.type(line)
    bob.sees("Type 'join ann' to accept.")
    bob.send('join ann')
    ann.hint()
    same('what was refused', ann.was_refused(), ['You are in no match: invite NAME 5 begins one. [7 NotYours]'])


@with_listener
def players_that_are_not_listed_yet_follow(server):
    """The list of the login takes its time, and comes in portions: it is shown when it is whole, and once."""
    ann = greeted(server)
    ann.type('players')
    ann.reads('Not listed yet: the players are shown')
    for name in 'bob', 'ann', 'eve':
        server.send('5 %s - - 1 0 1500.00 0 0 1 host - -' % name)
        time.sleep(0.3)
    same('what is listed before its end', rows_with(ann, 'bob '), [])
    server.send('6', "** You're not playing. ")
    ann.reads('Rated 1500.00. 2 players, 2 ready.')
    server.send('12 bob hi')
    ann.reads('bob says: hi')
    same('rows', [row.split(' ')[0] for row in ann.lines() if row.startswith(('player ', 'bob ', 'eve ', '2 players'))],
         ['player', 'bob', 'eve', '2'])
    same('what is left out', rows_with(ann, 'not playing'), [])
    ann.quits()
    ann.close()


SCENES.append(players_that_are_not_listed_yet_follow)


@near_and_far(SCENES, '--dice', '31')
def talk_of_any_letters_arrives_as_it_was_typed(table):
    """By the program, in UTF-8 and in Latin-1; a control byte is refused."""
    ann, bob = table.ann, table.bob
    for word, said in ((b'tell', b'don\xe2\x80\x99t'), (b't', b'caf\xc3\xa9 \xe4\xb8\xad'), (b'tell', b'caf\xe9')):
        ann.type_bytes(b'%s bob %s\n' % (word, said))
        # whose lines are read byte by byte
        bob.sees('12 ann ' + said.decode('latin-1'))
        ann.reads('You say to bob: ')
    ann.type_bytes(b'tell bob never\xc2\x9b\n')
    ann.reads('[2 BadText]')
