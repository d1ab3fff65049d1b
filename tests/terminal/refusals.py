"""Scenes of what is refused: a login, a connection, a word that the client does not have; and of a server, or a client,
that plays by itself."""

import time

from people import PASSWORD, Client, Failed, Person, Served, at_a_table, near_and_far, same
from props.listener import keeps_port
from offers import ANN_BEGINS, BOB_BEGINS
from words import read

SCENES = []


# -- a login ---------------------------------------------------------------------------------------------------------

def with_a_wrong_password(*options, statuses=(3,)):
    """A decorator: ann has given a wrong password; the server asks for the login again. If it says nothing else the
    program ends by itself, with status 3; else she ends it."""
    def decorated(does):
        def scene():
            server = Served('--account', 'ann:' + PASSWORD[::-1], '--account', 'bob:secret', *options)
            try:
                ann = Person(server.port)
                ann.reads('Welcome to a server')
                does(ann, server)
                if 0 in statuses:
                    ann.type('quit')
                ending = ann.report()
                same('the ending', ending in [['ended', str(status)] for status in statuses], True)
                ann.close()
            finally:
                server.close()
        scene.__name__ = does.__name__
        SCENES.append(scene)
        return scene
    return decorated


@with_a_wrong_password()
def a_wrong_password(ann, _server):
    """What she types then is answered by what is wrong."""
    ann.type('roll')
    ann.advised('login', 'quit')


@with_a_wrong_password()
def a_wrong_password_at_rest(ann, _server):
    """It is said without a line being typed."""
    ann.advised('login', 'quit')


@with_a_wrong_password('--delay', '80', '--portions', '30', '--pause', '25')
def a_wrong_password_far_away(ann, _server):
    ann.advised('login', 'quit')


@with_a_wrong_password('--tell-strangers', statuses=(0, 3))
def a_wrong_password_while_others_come_and_go(ann, server):
    """Each of them is told, behind the prompt that she is asked by."""
    def times():
        return len([row for row in ann.lines() if read(row)[0] == 'login'])

    # a busy machine takes its time; when it is said they go on for a while
    end, after = time.monotonic() + 30, 4
    while time.monotonic() < end and after > 0:
        bob = Client(server.port, 'bob')
        bob.send('bye')
        bob.close()
        time.sleep(0.3)
        after -= 0.3 if times() else 0
    same('it is said, and once', times(), 1)


# each line of the server comes a while after the one before it
SLOW = '--portions', '1000000', '--pause', '60'


def a_right_password(name, *options):
    """A scene: the prompt comes in pieces and the answer takes a while. That the login was refused is never said."""
    def scene():
        server = Served(*options)
        try:
            ann = Person(server.port)
            ann.reads('Welcome, ann')
            time.sleep(2.5)
            same('a login that is said to be refused', [row for row in ann.lines() if read(row)[0] == 'login'], [])
            ann.was_not_refused()
            ann.close()
        finally:
            server.close()
    scene.__name__ = 'a_right_password_' + name
    return scene


SCENES += [a_right_password('and_a_prompt_in_pieces', '--portions', '4', '--pause', '5', '--delay', '150'),
           a_right_password('and_a_prompt_in_slow_pieces', '--portions', '4', '--pause', '30', '--delay', '60'),
           # by this seed the command comes last
           a_right_password('and_a_telnet_command_behind_the_prompt', '--telnet', '--seed', '3', *SLOW)]


# -- no connection ---------------------------------------------------------------------------------------------------

def no_server():
    """Nobody listens: the reason is said, and the prompt stays."""
    kept = keeps_port()
    port = kept.getsockname()[1]
    ann = Person(port)
    wanted = 'no connection to 127.0.0.1:%d: connection refused' % port
    same('the first time', ann.reads('no connection').startswith(wanted), True)
    ann.type('open')
    same('the second time', ann.reads('no connection').startswith(wanted), True)
    ann.quits()
    ann.was_not_refused()
    ann.close()
    kept.close()


def no_such_name():
    """The name of the server has no address, since it is misspelled: that is said."""
    ann = Person(4321, host='nowhere.invalid')
    ann.reads('no connection to nowhere.invalid:4321: no address is known; open tries again')
    ann.quits()
    ann.was_not_refused()
    ann.close()


SCENES += [no_server, no_such_name]


# -- a server that plays by itself -----------------------------------------------------------------------------------

ASKED = 'The server plays for you: fix turns it off; the same line again goes out.'


def by_itself(*turned_on):
    """A scene: the account has these on. The screen says so at the login and under the board, and `fix` does the way:
    in a match `bye` is asked about."""
    settings = [word for name in turned_on for word in ('--set', 'ann:%s=1' % name)]

    def scene(table):
        ann, bob = table.ann, table.bob
        ann.advised('auto', 'fix')
        # she is asked once whether she begins so
        ann.type('invite bob 3')
        ann.reads(ASKED)
        table.begins()
        ann.reads('Starting a new game with bob.')
        ann.types_what('auto', 'fix')
        for name in turned_on:
            ann.reads('sent toggle ' + name)
        ann.types_what('leave', 'bye')
        for row in 'sent bye', 'closed, as you asked: connecting again', 'connected to', 'Welcome, ann':
            ann.reads(row)
        ann.types_what('gone', 'invite bob')
        bob.sees("Type 'join ann' to accept.")
        bob.send('join ann')
        ann.types_what('hint', 'move')
        bob.sees('ann moves ..')
        ann.was_not_refused()
    scene.__name__ = 'the_server_plays_by_itself_with_' + '_and_'.join(turned_on)
    near_and_far(SCENES, *ANN_BEGINS, *settings)(scene)


by_itself('automove')
by_itself('greedy')
by_itself('automove', 'greedy')


@near_and_far(SCENES, *ANN_BEGINS, '--set', 'ann:automove=1', '--set', 'ann:greedy=1')
def what_the_server_plays_is_turned_off_before_a_match(table):
    """By one word; then the login ends as any other, and a match begins."""
    ann = table.ann
    ann.types_what('auto', 'fix')
    for row in ('sent toggle automove', 'sent toggle greedy', 'sent bye', 'closed, as you asked: connecting again',
                'Welcome, ann', 'Type players ready, then invite NAME 5.'):
        ann.reads(row)
    ann.type('fix')
    ann.reads('fix: the server plays nothing for you.')
    table.begins()
    ann.advised('hint', 'move')
    ann.type('fix')
    ann.reads('fix: the server plays nothing for you.')
    ann.types_what('hint', 'move')
    table.bob.sees('ann moves ..')
    same('what was sent', [row for row in ann.lines() if row.startswith('sent ') and 'move ' not in row],
         ['sent toggle automove', 'sent toggle greedy', 'sent bye', 'sent invite bob 3'])
    ann.was_not_refused()


@near_and_far(SCENES, *ANN_BEGINS, '--set', 'ann:automove=1')
def who_begins_a_match_though_the_server_plays_is_asked_once(table):
    """By the first line that does; any other one goes out, as it was typed."""
    ann, bob = table.ann, table.bob
    ann.advised('auto', 'fix')
    ann.type('say hi')
    ann.type('invite bob 3')
    same('the row', ann.reads('The server plays for you'), ASKED)
    ann.type('invite bob 1')
    ann.reads('sent invite bob 1')
    bob.sees("Type 'join ann' to accept.")
    ann.type('invite bob 3')
    ann.reads('sent invite bob 3')
    bob.sees("Type 'join ann' to accept.")
    same('how often', ann.lines().count(ASKED), 1)


@near_and_far(SCENES, *ANN_BEGINS)
def what_one_has_toggled_oneself_is_turned_off_by_fix(table):
    """Whatever was said at the login: a setting that is on is turned off, and one that is off stays so."""
    ann = table.ann
    ann.reads('Type players ready, then invite NAME 5.')
    ann.type('fix')
    ann.reads('fix: the server plays nothing for you.')
    for name, on, off in (('automove', '** Forced moves will be done automatically.',
                           "** Forced moves won't be done automatically."),
                          ('greedy', '** Will use automatic greedy bearoffs.',
                           "** Won't use automatic greedy bearoffs.")):
        ann.type('send toggle ' + name)
        ann.reads(on)
        ann.type('fix')
        ann.reads('fix: turns it off.')
        ann.reads('sent as it is: toggle ' + name)
        ann.reads(off)
        ann.type('fix')
        ann.reads('fix: the server plays nothing for you.')
    # twice is as if it were not
    ann.type('send toggle greedy')
    ann.reads('** Will use automatic greedy bearoffs.')
    ann.type('send toggle greedy')
    ann.reads("** Won't use automatic greedy bearoffs.")
    ann.type('fix')
    ann.reads('fix: the server plays nothing for you.')
    ann.was_not_refused()


@near_and_far(SCENES, *ANN_BEGINS, '--set', 'ann:automove=1')
def what_one_has_turned_off_and_on_again_oneself_is_turned_off_by_fix(table):
    """And it logs in again, since the client counts what the login says."""
    ann = table.ann
    ann.advised('auto', 'fix')
    ann.type('toggle automove')
    ann.reads("** Forced moves won't be done automatically.")
    # it is off, and counts until the next login
    ann.type('invite bob 3')
    ann.reads('You logged in with automove or greedy on: fix logs in again.')
    ann.reads('The same line again goes out.')
    ann.type('send toggle automove')
    ann.reads('** Forced moves will be done automatically.')
    ann.type('fix')
    for row in ('sent as it is: toggle automove', 'sent bye', 'closed, as you asked: connecting again', 'Welcome, ann',
                'Type players ready, then invite NAME 5.'):
        ann.reads(row)
    ann.type('fix')
    ann.reads('fix: the server plays nothing for you.')
    same('what was sent', [row for row in ann.lines() if row.startswith('sent ')],
         ['sent toggle automove', 'sent as it is: toggle automove', 'sent as it is: toggle automove', 'sent bye'])


# -- a client that rolls by itself -----------------------------------------------------------------------------------

@near_and_far(SCENES, *BOB_BEGINS)
def a_standing_order(table):
    """To one point she may not double: the client rolls for her when it is her turn, until she withdraws the order."""
    table.begins(points=1)
    table.ann.type('order roll')
    table.ann.reads('ordered: the client rolls if you may not double')
    table.bob.sees('Please move ..')
    table.bob.send('move 17-20 19-20')
    table.ann.reads('sent roll, as ordered')
    table.bob.sees('ann rolls ..')
    table.ann.type('withdraw roll')
    table.ann.reads('withdrawn: you roll yourself')


# -- words -----------------------------------------------------------------------------------------------------------

# What a player of FIBS may type that this client does not have, and the line that its answer names.
OTHER_WORDS = ['ratings bob', 'average bob', 'stat', 'show savedcount', 'toggle report', 'who bob',
               'invite bob unlimited', 'blind bob', 'look bob']


@at_a_table(*ANN_BEGINS)
def each_word_of_the_server_leads_on(table):
    """Nothing is sent by a guess; the line that is named sends it."""
    ann = table.ann
    missing = []
    for word in OTHER_WORDS:
        ann.type(word)
        try:
            ann.reads('send ' + word, seconds=5)
        except Failed:
            missing.append(word)
    for word, wanted in (('exit', 'quit'), ('q', 'quit'), ('resign', 'resign n')):
        ann.type(word)
        try:
            ann.reads(wanted, seconds=5)
        except Failed:
            missing.append(word)
    same('words that lead nowhere', missing, [])
    same('what was sent', [row for row in ann.lines() if row.startswith('sent')], [])
    ann.type('send show saved')
    ann.reads('no saved games.')


SCENES.append(each_word_of_the_server_leads_on)
