"""What the server says to each command, and what it does by its options: tables of lines typed and lines that come."""

import re
import subprocess
import sys

from clients import PATIENCE, ROOT, Client, Served, reference, same

QUIET = ['--no-changes']


def served(*options):
    """A decorator: the test is given a server with these options, which is ended after it."""
    def decorated(does):
        def test():
            server = Served(*QUIET, *options)
            try:
                does(server)
            finally:
                server.close()
        test.__name__ = does.__name__
        TESTS.append(test)
        return test
    return decorated


TESTS = []


def two_at_a_table(server, length, names=('ann', 'bob')):
    """Two clients that have begun a match to which the first has invited; what was said is read."""
    first, second = Client(server.port, names[0]), Client(server.port, names[1])
    first.send('invite %s %s' % (names[1], length))
    second.sees("Type 'join %s' to accept." % names[0])
    second.send('join ' + names[0])
    second.sees('Starting a new game with %s.' % names[0])
    first.catches_up()
    second.catches_up()
    return first, second


@served('--account', 'ann:secret', '--account', 'bob:secret')
def logins(server):
    """A login of a client, one with a wrong password, and one that is typed."""
    ann = Client(server.port)
    ann.send('login tests 1008 ann wrong')
    ann.send('login tests 1008 ann secret')
    passed = ann.sees('1 ann ..')
    same('the login before', re.fullmatch(r'1 ann \d+ \S+', passed) is not None, True)
    same('prompts', ann.raw.count(b'login: '), 2)
    ann.sees('2 ann 1 1 0 0 0 0 1 1 0 0 1 0 1 1500.00 0 1 none 0 0 UTC')
    ann.sees('3', 'Good luck.', '4', '5 ann - - 1 0 ..', '6')
    bob = Client(server.port)
    bob.send('bob', 'wrong', 'bob', 'secret')
    bob.shown('login: ', 'password: ', '** User not known or wrong password.\r\nlogin: ', 'password: ', 'Welcome bob.')
    ann.sees('7 bob bob logs in.')
    eve = Client(server.port)
    eve.send(*['eve', 'secret'] * 4)
    while eve.take(PATIENCE):
        pass
    same('the end comes after three', (eve.is_over, eve.raw.count(b'wrong password.')), (True, 3))
    bob.send('bye')
    ann.sees('8 bob bob logs out.')
    bob.shown('                    Goodbye.')
    while bob.take(PATIENCE):
        pass
    same('the end of the connection', bob.is_over, True)
    again = Client(server.port, 'ann')
    same('the older connection', ann.next(), None)
    same('a warning', '** Warning: You are already logged in.' in again.read, True)


@served()
def talk(server):
    ann, bob, eve = (Client(server.port, name) for name in ('ann', 'bob', 'eve'))
    dan = Client(server.port)
    dan.send('dan', 'secret')
    dan.shown('Welcome dan.', 'Good luck.')
    for client in (ann, bob, eve, dan):
        client.catches_up()
    ann.answers('tell bob  two  spaces', '16 bob  two  spaces')
    bob.sees('12 ann  two  spaces')
    ann.answers('tell dan hello', '16 dan hello')
    dan.shown('ann says: hello')
    dan.catches_up()
    dan.answers('t ann yes', 'You say to ann: yes')
    ann.sees('12 dan yes')
    ann.answers('tell joe hello', '** There is no one called joe.')
    ann.answers('say hello', "** You're not playing.")
    ann.answers('shout all', '17 all')
    bob.sees('13 ann all')
    dan.shown('ann shouts: all')
    bob.answers('toggle silent', "** You won't hear what other players shout.")
    ann.answers('shout more', '17 more')
    eve.sees('13 ann all', '13 ann more')
    bob.answers('shout me', "** Please type 'toggle silent' again before you shout.")
    ann.answers('message bob at nine', '10 bob')
    bob.sees('9 ann ..')
    eve.send('bye')
    ann.sees('8 eve eve logs out.')
    ann.answers('message eve at nine', '11 eve')
    eve = Client(server.port, 'eve')
    same('the message waits', re.fullmatch(r'9 ann \d+ at nine', eve.sees('9 ann ..')) is not None, True)
    eve.catches_up()
    eve.answers('gag ann', "** You won't hear what ann says and shouts.")
    ann.catches_up()
    ann.answers('tell eve hi', "** eve won't listen to you.")


@served()
def who_is_there(server):
    ann, bob = Client(server.port, 'ann'), Client(server.port, 'bob')
    ann.catches_up()
    row = '5 %s - - 1 0 1500.00 0 ..'
    ann.answers('who', row % 'ann', row % 'bob', '6')
    ann.answers('rawwho', row % 'ann', row % 'bob', '6')
    ann.answers('who bob', row % 'bob', '6')
    ann.answers('who joe', '** There is no one called joe.')
    bob.catches_up()
    bob.answers('set', 'Settings of variables:', 'boardstyle   3', 'redoubles    none', 'timezone     UTC')
    bob.answers('away at lunch', "You're away. Please type 'back'")
    ann.answers('who bob', '5 bob - - 1 1 1500.00 0 ..', '6')
    bob.answers('back', 'Welcome back.')
    bob.answers('toggle ready', "** You're now refusing to play with someone.")
    ann.answers('invite bob 3', '** bob is refusing games.')
    ann.answers('who ready', row % 'ann', '6')
    ann.answers('toggle dance', "** Don't know how to toggle dance.")
    ann.answers('dance', "** Unknown command: 'dance'")
    ann.answers('', *())
    ann.answers('board', "** You're not playing.")
    ann.quiet()


@served('--dice', '31,42,65,11,21')
def a_game(server):
    """Openings, rolls and plays, in the words for the one and for the other."""
    ann, bob = Client(server.port, 'ann'), Client(server.port, 'bob')
    for client in (ann, bob):
        client.catches_up()
    ann.answers('invite bob', "** There's no saved match with bob. Please give a match length.")
    ann.answers('invite ann 3', "** You can't invite yourself.")
    ann.answers('invite bob three', "** The second argument to 'invite' has to be a number or the word 'unlimited'")
    bob.answers('join ann', "** ann didn't invite you.")
    ann.answers('invite bob 3', '** You invited bob to a 3 point match.')
    bob.sees('ann wants to play a 3 point match with you.', "Type 'join ann' to accept.")
    head, start = 'board:You:%s:3:0:0:', '0:-2:0:0:0:0:5:0:3:0:0:0:-5:5:0:0:0:-3:0:-5:0:0:0:0:2:0:'
    bob.answers('join', '** You are now playing a 3 point match with ann.', 'Starting a new game with ann.',
                'You rolled 1, ann rolled 3', 'ann makes the first move.',
                head % 'ann' + start + '1:0:0:3:1:1:1:1:0:-1:1:25:0:0:0:0:0:0:0:0:0')
    ann.sees('** Player bob has joined you for a 3 point match.')
    ann.answers('roll', 'Starting a new game with bob.', 'You rolled 3, bob rolled 1', "It's your turn to move.",
                head % 'bob' + start + '1:3:1:0:0:1:1:1:0:1:-1:0:25:0:0:0:0:2:0:0:0', 'Please move 2 pieces.',
                '** You did already roll the dice.')
    ann.answers('double', '** You did already roll the dice.')
    ann.answers('move 8-5', '** You must give 2 moves.')
    ann.answers('move 8-5 8-5', "** You can't move 8-5.")
    ann.answers('move 8-3 6-5', "** You can't move 8-3.")
    ann.answers('move eight', "** Can't understand the move 'eight'.")
    bob.answers('move 12-14', "** It's not your turn to move.")
    bob.answers('roll', "** It's not your turn to roll the dice.")
    after = '0:-2:0:0:0:2:4:0:2:0:0:0:-5:5:0:0:0:-3:0:-5:0:0:0:0:2:0:'
    ann.answers('move 8-5 6-5', head % 'bob' + after + '-1:0:0:0:0:1:1:1:0:1:-1:0:25:0:0:0:0:0:0:0:0')
    bob.sees('ann moves 8-5 6-5 .', head % 'ann' + after + '-1:0:0:0:0:1:1:1:0:-1:1:25:0:0:0:0:0:0:0:0:0',
             "It's your turn to roll or double.")
    bob.answers('move 12-14', '** You have to roll the dice before you move.')
    bob.answers('roll', 'You roll 4 and 2.', head % 'ann' + after + '-1:4:2:0:0:1:1:1:0:-1:1:25:0:0:0:0:0:2:0:0:0',
                'Please move 2 pieces.')
    ann.sees('bob rolls 4 and 2.')
    bob.answers('m 12-16 12-14', head % 'ann' + '0:-2:0:0:0:2:4:0:2:0:0:0:-3:5:-1:0:-1:-3:0:-5:0:0:0:0:2:0:..')
    ann.sees('bob moves 12-16 12-14 .', "It's your turn to roll or double.")
    bob.answers('pip', 'Pipcounts: You 161  ann 163.')


@served('--dice', '31,31,31,42')
def resignations_and_doubles(server):
    """Ann begins each game."""
    ann, bob = two_at_a_table(server, 5)
    bob.answers('resign n', "** It's not your turn to resign.")
    ann.answers('resign', "** Type 'n' for normal, 'g' for gammon or 'b' for backgammon after 'resign'.")
    ann.answers('accept', "** Your opponent didn't double or resign.")
    ann.answers('resign g', 'You want to resign. bob will win 2 points.')
    ann.answers('move 8-5 6-5', '** Please wait until bob has accepted or rejected your offer.')
    bob.sees("ann wants to resign. You will win 2 points. Type 'accept' or 'reject'.")
    bob.answers('reject', 'You reject. The game continues.')
    ann.sees('bob rejects. The game continues.')
    ann.answers('resign n', 'You want to resign. bob will win 1 point.')
    bob.sees("ann wants to resign. You will win 1 point. Type 'accept' or 'reject'.")
    bob.answers('accept', 'You accept and win 1 point.', 'board:You:ann:5:1:0:..',
                'You win the game and get 1 point. Congratulations!',
                "Type 'join' if you want to play the next game, type 'leave' if you don't.")
    ann.sees('bob accepts and wins 1 point.', 'board:You:bob:5:0:1:..', 'bob wins the game and gets 1 point. Sorry.')
    same('the game is over', fields(ann, 33), [0])
    ann.catches_up()
    ann.answers('join', '** Please wait for bob to join too.')
    bob.sees("** Player ann wants to play the next game. Type 'join' or 'leave'.")
    bob.answers('join', 'Starting a new game with ann.')
    ann.sees('Starting a new game with bob.', 'Please move 2 pieces.')
    ann.send('move 8-5 6-5')
    bob.sees("It's your turn to roll or double.")
    ann.catches_up()
    bob.answers('double', 'You double. Please wait for ann to accept or reject.', 'board:..')
    same('the board of bob, who is X: the turn is given away', fields(bob, 33, 38, 39, 41), [1, 1, 1, 0])
    ann.sees("bob doubles. Type 'accept' or 'reject'.", 'board:..')
    same('the board of ann, who is O', fields(ann, 33, 38, 41), [1, 1, 1])
    bob.answers('roll', '** Please wait until ann has accepted or rejected your offer.')
    ann.answers('roll', "** Please type 'accept' or 'reject'.")
    ann.answers('accept', 'You accept the double. The cube shows 2.', 'board:..')
    same('the cube', fields(ann, 33, 38, 39, 40, 41), [-1, 2, 1, 0, 0])
    bob.sees('ann accepts the double. The cube shows 2.', 'board:..', "It's your turn to roll.")
    bob.answers('double', "** You can't double.")
    bob.answers('resign b', 'You want to resign. ann will win 6 points.')
    ann.sees('bob wants to resign. You will win 6 points. ..')
    ann.answers('accept', 'You accept and win 6 points.', 'board:You:bob:5:6:1:..',
                'You win the game and get 6 points. Congratulations!', 'You win the 5 point match 6-1 .')
    bob.sees('ann wins the game and gets 6 points. Sorry.', 'ann wins the 5 point match 6-1 .')
    ann.answers('roll', "** You're not playing.")
    # 4 * K * sqrt(5) * 1/2, where K is 5 - 5/100 for a newcomer
    ann.answers('who ann', '5 ann - - 1 0 1522.14 5 ..')


@served('--dice', '31,42')
def a_double_is_rejected(server):
    ann, bob = two_at_a_table(server, 1 + 2)
    ann.send('move 8-5 6-5')
    bob.sees("It's your turn to roll or double.")
    bob.send('double')
    ann.sees("bob doubles. Type 'accept' or 'reject'.", 'board:..')
    ann.answers('reject', 'You give up. bob wins 1 point.', 'board:You:bob:3:0:1:..',
                'bob wins the game and gets 1 point. Sorry.')
    bob.sees('ann gives up. You win 1 point.', 'You win the game and get 1 point. Congratulations!')


@served('--dice', '31,42')
def a_match_is_saved_and_resumed(server):
    """One leaves, one says goodbye, one drops the connection; each time it goes on as it was."""
    ann, bob = two_at_a_table(server, 3)
    board = [line for line in ann.read if line.startswith('board:')][-1]
    for how in 'leave', 'bye', 'drop':
        if how == 'drop':
            bob.close()
        else:
            bob.send(how)
        ann.sees('** Player bob has left the game. The game was saved.')
        if how == 'leave':
            bob.sees('** You terminated the game. The game was saved.')
        else:
            ann.sees('8 bob bob %s' % ('logs out.' if how == 'bye' else 'drops connection.'))
            ann.answers('invite bob', '** There is no one called bob.')
            ann.answers('show saved', '  opponent ..', '  bob                     3          0 -  0')
            bob = Client(server.port, 'bob')
        bob.catches_up()
        ann.catches_up()
        for stars in '**', ' *':
            ann.answers('show saved', '  opponent ..', stars + 'bob                     3          0 -  0')
            bob.send('toggle ready')
            bob.catches_up()
            ann.catches_up()
        ann.answers('invite bob', '** You invited bob to resume a saved match.')
        bob.sees('ann wants to resume a saved match with you.', "Type 'join ann' to accept.")
        bob.answers('join ann', 'You are now playing with ann. Your running match was loaded.', 'turn: ann',
                    'match length: 3', 'points for user ann: 0', 'points for user bob: 0', 'board:..')
        ann.sees('bob has joined you. Your running match was loaded.', 'turn: ann', board, "It's your turn to move.")


@served('--dice', '31,42,65,21')
def watchers(server):
    ann, bob = two_at_a_table(server, 3)
    eve = Client(server.port, 'eve')
    eve.catches_up()
    eve.answers('watch joe', '** There is no one called joe.')
    eve.answers('watch eve', '** eve is not playing.')
    eve.answers('watch bob', "You're now watching bob.")
    bob.sees('eve is watching you.')
    eve.answers('board', 'board:bob:ann:3:0:0:0:-2:..')
    ann.send('move 8-5 6-5')
    eve.sees('ann moves 8-5 6-5 .', 'board:bob:ann:3:0:0:..')
    bob.catches_up()
    bob.answers('whisper close', '18 close')
    eve.sees('14 bob close')
    eve.answers('kibitz well', '19 well')
    bob.sees('15 eve well')
    ann.sees('15 eve well')
    eve.answers('unwatch', 'You stop watching bob.')
    eve.answers('board', "** You're not playing.")
    eve.answers('look ann', 'board:ann:bob:3:0:0:..')
    eve.answers('set boardstyle 1', "Value of 'boardstyle' set to 1.")
    eve.answers('look ann', '   +  13  14  15  16  17  18+---+  19  20  21  22  23  24+',
                '   |   O               X    |   |   X                   O|')
    eve.sees('   O ann: score 0, bar 0, off 0', '   turn: bob, cube: 1')


@served('--refuse', 'double=1', '--refuse', 'roll=2', '--dice', '31,42')
def right_commands_that_are_refused(server):
    ann, bob = two_at_a_table(server, 3)
    ann.send('move 8-5 6-5')
    bob.sees("It's your turn to roll or double.")
    bob.answers('double', "** You can't double now.")
    bob.answers('roll', "** You can't roll now.")
    bob.answers('roll', "** You can't roll now.")
    bob.answers('roll', 'You roll 4 and 2.')


@served('--loose-flags', '--keep-turn-at-double', '--show-resignations', '--dice', '31,42,31')
def other_habits(server):
    """Flags that allow what the match forbids; a double that is not shown; a resignation that is."""
    ann, bob = two_at_a_table(server, 2)
    ann.answers('resign n', 'You want to resign. bob will win 1 point.', 'board:..')
    same('the turn is given away', fields(ann, 33, 34, 35), [-1, 0, 0])
    bob.sees('ann wants to resign. ..', 'board:..')
    bob.send('reject')
    ann.sees('bob rejects. The game continues.', 'board:..')
    same('the turn is there again', fields(ann, 33, 34, 35), [1, 3, 1])
    ann.send('resign n')
    bob.sees('ann wants to resign. ..')
    bob.send('accept', 'join')
    ann.sees("Type 'join' if you want to play the next game, ..")
    ann.send('join')
    ann.sees('Please move 2 pieces.')
    same('the flags of the Crawford game', fields(ann, 39, 40), [1, 1])


@served('--keep-games', '--dice', '31,42')
def a_game_outlives_its_connection(server):
    ann, bob = two_at_a_table(server, 3)
    board = [line for line in ann.read if line.startswith('board:')][-1]
    ann.close()
    bob.quiet(0.3)
    ann = Client(server.port, 'ann')
    ann.catches_up()
    ann.answers('board', board)
    ann.send('move 8-5 6-5')
    bob.sees('ann moves 8-5 6-5 .')


@served('--autoroll', 'no-double', '--dice', '31,42,65,21')
def rolls_by_itself(server):
    ann, bob = two_at_a_table(server, 1)
    ann.send('move 8-5 6-5')
    bob.sees('ann moves 8-5 6-5 .', 'You roll 4 and 2.', 'board:..', 'Please move 2 pieces.')


@served('--dice', '31,42,65', '--no-board', 'double', '--no-board', 'accept', '--no-board', 'move', '--no-board', 'end',
        '--no-board', 'resume')
def boards_that_are_left_out(server):
    """A move, a double, the end of a game and a match that goes on are told by texts alone; `board` shows them."""
    ann, bob = two_at_a_table(server, 5)
    ann.send('move 8-5 6-5')
    bob.sees('ann moves 8-5 6-5 .', 'board:..', "It's your turn to roll or double.")
    ann.quiet()
    bob.answers('double', 'You double. Please wait for ann to accept or reject.')
    ann.sees("bob doubles. Type 'accept' or 'reject'.")
    ann.answers('board', 'board:..')
    same('the double is shown', fields(ann, 41), [1])
    ann.answers('accept', 'You accept the double. The cube shows 2.')
    bob.sees('ann accepts the double. The cube shows 2.', "It's your turn to roll.")
    bob.send('leave')
    ann.sees('** Player bob has left the game. The game was saved.')
    bob.send('invite ann')
    ann.sees("Type 'join bob' to accept.")
    ann.send('join bob')
    bob.sees('ann has joined you. Your running match was loaded.', 'turn: bob', 'match length: 5',
             'points for user ann: 0', 'points for user bob: 0', "It's your turn to roll.")
    bob.answers('resign n', 'You want to resign. ann will win 2 points.')
    ann.sees('bob wants to resign. ..')
    ann.answers('accept', 'You accept and win 2 points.', 'You win the game and get 2 points. Congratulations!',
                "Type 'join' if you want to play the next game, type 'leave' if you don't.")
    same('no board but these was shown', [sum(line.startswith('board:') for line in one.read) for one in (ann, bob)],
         [2, 2])


@served('--hide-doubles', '--refuse', 'roll=always', '--dice', '31,42')
def a_double_that_no_board_shows(server):
    ann, bob = two_at_a_table(server, 3)
    ann.send('move 8-5 6-5')
    bob.sees("It's your turn to roll or double.")
    bob.answers('board', 'board:..')
    bob.answers('double', 'You double. Please wait for ann to accept or reject.', 'board:..')
    same('the board is as it was', bob.read[-1], bob.read[-3])
    ann.sees("bob doubles. Type 'accept' or 'reject'.", 'board:..')
    same('nor is it shown to ann', fields(ann, 33, 41), [-1, 0])
    ann.answers('accept', 'You accept the double. The cube shows 2.', 'board:..')
    bob.sees("It's your turn to roll.")
    for _ in range(20):
        bob.answers('roll', "** You can't roll now.")


@served('--play-past-offers', '--dice', '31,42,65')
def an_offer_to_resign_that_stops_nobody(server):
    ann, bob = two_at_a_table(server, 3)
    ann.answers('resign g', 'You want to resign. bob will win 2 points.')
    bob.sees('ann wants to resign. ..')
    ann.send('move 8-5 6-5')
    bob.sees('ann moves 8-5 6-5 .', "It's your turn to roll or double.")
    bob.answers('accept', "** Your opponent didn't double or resign.")


@served('--forget-offers', '--say-how', '--dice', '31,42')
def a_saved_match_forgets_a_double(server):
    ann, bob = two_at_a_table(server, 3)
    ann.send('move 8-5 6-5')
    bob.sees("It's your turn to roll or double.")
    bob.answers('double', 'You double. Please wait for ann to accept or reject.', 'board:..')
    ann.close()
    bob.sees('ann drops connection. The game was saved.')
    ann = Client(server.port, 'ann')
    ann.send('invite bob')
    bob.sees("Type 'join ann' to accept.")
    bob.send('join ann')
    bob.sees('You are now playing with ann. Your running match was loaded.', "It's your turn to roll or double.")
    ann.send('bye')
    bob.sees('ann logs out. The game was saved.')


@served('--tell-strangers', '--greeting', '1020', '--account', 'ann:secret', '--account', 'bob:secret')
def those_who_are_not_logged_in(server):
    """They hear who comes and goes; the greeting has a size that was chosen."""
    ann = Client(server.port)
    ann.shown('login: ')
    same('the size of the greeting', len(ann.raw), 1020)
    same('its rows fit', max(map(len, ann.raw.split(b'\r\n'))) <= 79, True)
    ann.send('login tests 1008 ann wrong')
    bob = Client(server.port, 'bob')
    ann.shown('login: \r\nlogin: 7 bob bob logs in.')
    bob.send('bye')
    ann.shown('8 bob bob logs out.')


@served('--set', 'ann:automove=1', '--set', 'ready=0')
def settings_of_one_player(server):
    ann, bob = Client(server.port, 'ann'), Client(server.port, 'bob')
    same('automove and ready', [[line.split()[at] for at in (5, 16)] for client in (ann, bob) for line in client.read
                                if line.startswith('2 ')], [['1', '0'], ['0', '0']])


@served('--bot', 'eve:drops=2,returns=yes,plays=last', '--bot-pause', '0', '--dice', '31,42,65,31')
def a_bot_that_drops_and_comes_back(server):
    ann = Client(server.port, 'ann')
    ann.send('invite eve 3')
    ann.sees('Please move 2 pieces.')
    plays(ann)
    ann.sees("It's your turn to roll or double.")
    ann.send('roll')
    ann.sees('Please move 2 pieces.')
    plays(ann)
    ann.sees('** Player eve has left the game. The game was saved.', "Type 'join eve' to accept.")
    ann.send('join eve')
    ann.sees('You are now playing with eve. Your running match was loaded.', 'eve rolls ..')


@served('--bot', 'eve:joins=no,says=no thanks', '--bot', 'bot:resigns=1g,answers=no,leaves=2,plays=last',
        '--bot-pause', '0', '--dice', '31,42,65')
def bots_with_habits(server):
    ann = Client(server.port, 'ann')
    ann.catches_up()
    ann.answers('tell eve play?', '16 eve play?', '12 eve no thanks')
    ann.answers('invite eve 3', '** You invited eve to a 3 point match.')
    ann.quiet()
    ann.send('invite bot 3')
    ann.sees('Please move 2 pieces.')
    ann.answers('resign n', 'You want to resign. bot will win 1 point.', 'bot rejects. The game continues.')
    ann.send('move 8-5 6-5')
    ann.sees("bot wants to resign. You will win 2 points. Type 'accept' or 'reject'.")
    ann.answers('reject', 'You reject. The game continues.', 'bot rolls 4 and 2.')
    ann.sees("It's your turn to roll or double.")
    ann.send('roll')
    ann.sees('Please move 2 pieces.')
    plays(ann)
    ann.sees('** Player bot has left the game. The game was saved.')


def fields(client, *numbers):
    """Fields of the last board that came to a client."""
    board = [line for line in client.read if line.startswith('board:')][-1].split(':')
    return [int(board[number - 1]) for number in numbers]


def plays(client):
    """Any legal play on the last board."""
    line = [line for line in client.read if line.startswith('board:')][-1]
    board = reference.Board(reference.read_board(line.encode()))
    steps = sorted(reference.legal_plays(board.position(), board.dice()))[0]
    client.send(reference.print_decision(steps, board).decode())


@served()
def a_port_that_is_in_use(server):
    """One row says so, and so it does of what is no port."""
    for port, why in (server.port, 'address already in use'), (65536, 'bind(): port must be 0-65535.'):
        told = subprocess.run([sys.executable, '-B', str(ROOT / 'examples' / 'fibs_server'), str(port)],
                              capture_output=True, text=True, timeout=PATIENCE)
        same('what it says', (told.returncode, told.stdout, told.stderr),
             (1, '', "fibs_server: it can't listen on 127.0.0.1:%d: %s\n" % (port, why)))
