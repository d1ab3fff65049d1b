"""Scenes of whose numbers the places have: the player's own, from 24 down to 1, whichever way the server counts."""

import os
import pathlib
import tempfile

from company import rows_after
from offers import ANN_BEGINS, BOB_BEGINS
from partners import board_of
from people import greeted, near_and_far, same, with_listener
from words import sent_by

SCENES = []


def scene(does):
    """A decorator: the scene is one of those that are played."""
    SCENES.append(does)
    return does


def joins(table):
    """Bob invites, ann joins: she goes up by the server's numbers. With the dice 13 it is her move."""
    table.bob.send('invite ann 3')
    table.ann.types_what('invited', 'join bob')
    table.bob.sees('Starting a new game with ann.')


def turned(board):
    """The same board as a server shows it that counts the other way."""
    fields = board.split(':')
    fields[6:32] = reversed(fields[6:32])
    fields[42:45] = '1', '25', '0'
    return ':'.join(fields)


def first_edge(rows):
    """The last row among these that is the upper edge of a picture, without its name."""
    return [row for row in rows if row.startswith(' +1')][-2].rsplit('   ', 1)[0]


@near_and_far(SCENES, *BOB_BEGINS)
def who_goes_up_by_the_server_counts_down(table):
    """The picture, the hint, what is typed, tried and sent, what bob moves, and the game so far."""
    ann = table.ann
    joins(table)
    same('what the hint names', ann.hint(), 'move 24-23 24-21')
    same('the edge', first_edge(ann.lines()), ' +13-14-15-16-17-18-+---+19-20-21-22-23-24-+')
    same('from 24', all(' 24-' in row for row in rows_after(ann, 'plays 24', 'from there.')[:-1]), True)
    rows_after(ann, 'try 24/20', 'go sends move 24-23 23-20')
    rows_after(ann, 'move 17-20 19-20', 'You have no checker on 17. [9 IllegalPlay]')
    ann.type('8/5 6/5')
    ann.reads('sent move 17-20 19-20 (in your numbers 8-5 6-5)')
    table.bob.sees('ann moves 17-20 19-20 .')
    table.bob.send('roll')
    table.bob.sees('board:..')
    table.bob.send('move 8-4 6-4')
    ann.reads('bob moves 17-21 19-21 .')
    ann.advised('hint', 'roll')
    same('the game so far', rows_after(ann, 'moves', '19-21'),
         ['  1. You roll 3 and 1: 8-5 6-5', '  2. bob rolls 4 and 2: 17-21 19-21'])


@near_and_far(SCENES, *BOB_BEGINS)
def the_servers_numbers_are_typed_for(table):
    """After `numbers server` all is as the server counts, until `numbers own`."""
    ann = table.ann
    joins(table)
    same('what the hint names', ann.hint(), 'move 24-23 24-21')
    rows_after(ann, 'numbers server', "Places have the server's numbers now.")
    same('what is advised then', ann.advised('hint', 'move')[0], 'move 1-2 1-4')
    rows = rows_after(ann, 'try 17/20 19/20', 'go sends move 17-20 19-20')
    same('the edge', first_edge(rows), ' +12-11-10--9--8--7-+---+-6--5--4--3--2--1-+')
    ann.type('go')
    same('what is said to be sent', sent_by(ann.reads('sent move')), 'move 17-20 19-20')
    table.bob.sees('ann moves 17-20 19-20 .')
    ann.reads("bob's turn.")
    same('the game so far', rows_after(ann, 'moves', '19-20'), ['  1. You roll 3 and 1: 17-20 19-20'])
    rows_after(ann, 'numbers own', 'you go from 24 down to 1.')
    same('the game so far', rows_after(ann, 'moves', '6-5'), ['  1. You roll 3 and 1: 8-5 6-5'])


@near_and_far(SCENES, *ANN_BEGINS)
def who_goes_down_by_the_server_sees_no_difference(table):
    """Ann invites: both numberings are one."""
    ann = table.ann
    table.begins()
    same('what the hint names', ann.hint(), 'move 24-23 24-21')
    ann.type('8/5 6/5')
    same('what is said to be sent', ann.reads('sent move'), 'sent move 8-5 6-5')
    table.bob.sees('ann moves 8-5 6-5 .')


def hits_are_said(table, bob_hits):
    """Ann leaves a checker alone, bob hits it, and she hits from the bar: each is said once, in her numbers."""
    ann = table.ann
    ann.hint()
    ann.type('24/21 6/5')
    ann.reads("bob's turn.")
    table.bob.send('roll')
    table.bob.sees('board:..')
    table.bob.send(bob_hits)
    ann.reads('bob hits you on 21.')
    ann.advised('hint', 'roll', 'double')
    ann.type('roll')
    ann.hint()
    ann.type('bar/21* 24/20 13/9(2)')
    ann.reads('You hit bob on 21.')
    ann.reads("bob's turn.")
    same('each once', [row for row in ann.lines() if ' hit' in row], ['bob hits you on 21.', 'You hit bob on 21.'])


@near_and_far(SCENES, '--dice', '31,43,44')
def hits_are_said_to_who_goes_down(table):
    table.begins()
    hits_are_said(table, 'move 17-21 12-15')


@near_and_far(SCENES, '--dice', '13,43,44')
def hits_are_said_to_who_goes_up(table):
    joins(table)
    hits_are_said(table, 'move 8-4 13-10')


@scene
@with_listener
def the_settings_file_asks_for_numbers(server):
    """`numbers server`; and what is no setting is named."""
    with tempfile.TemporaryDirectory() as folder:
        path = os.path.join(folder, 'config')
        pathlib.Path(path).write_text('numbers server\nnumbers mine\n')
        ann = greeted(server, FIBS_CONFIG=path)
        same('the second line', 'is no setting: numbers mine' in ' '.join(ann.lines()), True)
        server.send(turned(board_of(1, own=(3, 1))), '12 x y')
        same('what the hint names', ann.hint(), 'move 1-2 1-4')
        same('the edge', first_edge(ann.lines()), ' +12-11-10--9--8--7-+---+-6--5--4--3--2--1-+')
        ann.close()


@scene
@with_listener
def a_text_that_is_not_recognized_says_whose_numbers_it_has(server):
    """It is shown as it came; talk of others has no such words."""
    ann = greeted(server)
    server.send(turned(board_of(1, own=(3, 1))), 'bob moves 1-5 and 2-6', 'bob moves bar-5 20-off .', '12 x moves 1-5')
    ann.reads('x says: moves 1-5')
    rows = [row[6:] if row.endswith('says: moves 1-5') else row for row in ann.lines() if 'moves' in row]
    same('the rows', rows, ["bob moves 1-5 and 2-6 (the server's numbers)", 'bob moves bar-20 5-off .',
                            'x says: moves 1-5'])
    ann.close()
