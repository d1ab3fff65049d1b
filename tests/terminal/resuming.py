"""Scenes of matches that are left, saved, and taken up again, and of what comes between two games."""

import time

from offers import (ANN_BEGINS, BOB_BEGINS, ann_is_to_roll, ann_resigns, ann_rolls, bob_is_to_roll, bob_resigns,
                    goes_on_to_the_next_game, never_advised)
from people import PASSWORD, Client, Person, at_a_table, near_and_far, same
from words import read

SCENES = []

# everything that the server says is so long on its way that a line typed now crosses what bob does now
CROSSING = '--delay', '500'


def bob_joins(table):
    """Bob accepts her invitation to the match that was saved."""
    table.bob.sees("Type 'join ann' to accept.")
    table.bob.send('join ann')


def takes_up(table):
    """She invites him as the screen says, and he joins."""
    table.ann.types_what('gone', 'invite bob')
    bob_joins(table)


def moves_as(table, kind, line):
    table.ann.types_what(kind, line)
    table.bob.sees('ann moves ..')
    table.ann.was_not_refused()


# -- the opponent goes -----------------------------------------------------------------------------------------------

@near_and_far(SCENES, *BOB_BEGINS)
def he_leaves_while_she_thinks_and_comes_back_to_the_same_board(table):
    """The picture comes again, and the hint below it."""
    ann_is_to_roll(table)
    table.bob.send('leave')
    takes_up(table)
    table.ann.reads('Your running match was loaded.')
    table.ann.reads(' +13-14-15-16-17-18-+---+19-20-21-22-23-24-+')
    ann_rolls(table, 'hint')


@near_and_far(SCENES, *ANN_BEGINS)
def he_leaves_before_she_moves_and_comes_back(table):
    table.begins()
    table.ann.hint()
    table.bob.send('leave')
    takes_up(table)
    table.ann.reads(' +13-14-15-16-17-18-+---+19-20-21-22-23-24-+')
    moves_as(table, 'hint', 'move')


@near_and_far(SCENES, *ANN_BEGINS)
def a_new_match_after_one_that_he_left(table):
    """The hint of the old board does not come once more before the first board of the new match."""
    table.begins()
    table.ann.hint()
    table.bob.send('leave')
    table.ann.advised('gone')
    table.begins()
    table.ann.reads('You rolled 4, bob rolled 2')
    rows = []
    while not (row := table.ann.next_line()).startswith(' +'):
        rows.append(row)
    same('hints before the board', [row for row in rows if read(row)[0] == 'hint'], [])
    moves_as(table, 'hint', 'move')


@near_and_far(SCENES, *BOB_BEGINS, '--say-how')
def he_drops_while_she_thinks_and_invites_her(table):
    """She is told that he may, and joins him."""
    ann_is_to_roll(table)
    table.bob.close()
    table.ann.reads('bob drops connection. The game was saved.')
    never_advised(table.ann, ('hint', 'go on', 'board', 'old'), 0.5)
    comes_again(table)
    table.bob.send('invite ann')
    table.ann.types_what('invited', 'join bob')
    ann_rolls(table, 'hint')


def comes_again(table):
    """Bob logs in again, and now the match that was saved can go on: she is told so."""
    table.bob = Client(table.server.port, 'bob')
    table.ann.advised('gone', 'invite bob')


@near_and_far(SCENES, *BOB_BEGINS, '--say-how', '--no-changes')
def he_drops_and_logs_in_again_and_no_list_says_so(table):
    """A server need not list him when he comes. She invites him all the same."""
    ann_is_to_roll(table)
    table.bob.close()
    table.ann.reads('bob drops connection. The game was saved.')
    comes_again(table)
    table.ann.type('help')
    takes_up(table)
    ann_rolls(table, 'hint')


@near_and_far(SCENES, *BOB_BEGINS, '--no-board', 'resume')
def a_match_to_roll_goes_on_without_a_board(table):
    ann_is_to_roll(table)
    table.bob.send('leave')
    takes_up(table)
    table.ann.types_what('hint', 'roll')
    table.bob.sees('ann rolls ..')
    table.ann.was_not_refused()


def comes_again_to_a_match_without_a_board(table):
    """She connects again: the new connection has shown no board."""
    table.comes_again()
    takes_up(table)
    table.ann.types_what('board', 'board')


@near_and_far(SCENES, *BOB_BEGINS, '--no-board', 'resume')
def a_match_to_roll_goes_on_without_a_board_on_a_new_connection(table):
    ann_is_to_roll(table)
    comes_again_to_a_match_without_a_board(table)
    ann_rolls(table, 'hint')


@near_and_far(SCENES, *ANN_BEGINS, '--no-board', 'resume')
def a_match_to_move_goes_on_without_a_board_on_a_new_connection(table):
    table.begins()
    table.ann.hint()
    comes_again_to_a_match_without_a_board(table)
    moves_as(table, 'hint', 'move')


def begun_anew(table):
    """She ends the program and begins it again: it knows nothing of the match."""
    table.ann.quits()
    table.ann.close()
    table.ann = Person(table.server.port)
    table.ann.reads('Welcome, ann')
    table.ann.type('invite bob')
    bob_joins(table)


@near_and_far(SCENES, *ANN_BEGINS, '--show-resignations')
def a_resignation_is_open_when_she_begins_the_program_again(table):
    """The board gives the turn away, and its text comes after it: nothing is hers before, and nothing but the answer
    then, also if the board comes once more."""
    bob_resigns(table)
    begun_anew(table)
    table.ann.reads('turn: bob')
    rows = []
    while not (row := table.ann.next_line()).startswith('bob wants to resign.'):
        rows.append(row)
    same('rows that are not true', [row for row in rows if read(row)[0]], [])
    never_advised(table.ann, ('hint', 'go on', 'board', 'old'))
    table.ann.type('board')
    never_advised(table.ann, ('hint', 'go on', 'board', 'old'), 0.6)
    table.ann.type('help')
    table.ann.types_what('answer', 'accept', 'reject')
    table.bob.sees('ann accepts and wins 1 point.')
    goes_on_to_the_next_game(table)


@near_and_far(SCENES, *BOB_BEGINS)
def it_is_her_turn_when_she_begins_the_program_again(table):
    ann_is_to_roll(table)
    begun_anew(table)
    ann_rolls(table, 'hint')


# -- what crosses his going ------------------------------------------------------------------------------------------

@at_a_table(*BOB_BEGINS, *CROSSING)
def a_roll_crosses_his_leaving(table):
    """The same board comes when the match goes on: the roll that waits is sent."""
    ann_is_to_roll(table)
    table.bob.send('leave')
    table.ann.type('roll')
    # on a busy machine the row that says how to go on comes before this answer
    table.ann.type(table.ann.answered_and_advised("** You're not playing.", 'gone', 'invite bob'))
    bob_joins(table)
    table.ann.reads(' +13-14-15-16-17-18-+---+19-20-21-22-23-24-+')
    ann_rolls(table, 'go on', 'roll')


@at_a_table(*ANN_BEGINS, *CROSSING)
def a_move_crosses_his_leaving(table):
    table.begins()
    move = table.ann.hint()
    table.bob.send('leave')
    table.ann.type(move)
    # on a busy machine the row that says how to go on comes before this answer
    table.ann.type(table.ann.answered_and_advised("** You're not playing.", 'gone', 'invite bob'))
    bob_joins(table)
    moves_as(table, 'go on', move)


@at_a_table(*ANN_BEGINS, *CROSSING, '--say-how')
def a_move_crosses_his_drop_and_he_invites_her(table):
    table.begins()
    move = table.ann.hint()
    table.bob.close()
    # he is gone before the move comes
    time.sleep(0.2)
    table.ann.type(move)
    table.ann.reads("** You're not playing.")
    comes_again(table)
    table.bob.send('invite ann')
    table.ann.types_what('invited', 'join bob')
    moves_as(table, 'go on', move)


@at_a_table(*BOB_BEGINS, *CROSSING)
def a_roll_crosses_his_leaving_and_she_connects_again(table):
    ann_is_to_roll(table)
    table.bob.send('leave')
    table.ann.type('roll')
    # on a busy machine the row that says how to go on comes before this answer
    table.ann.answered_and_advised("** You're not playing.", 'gone', 'invite bob')
    table.comes_again()
    takes_up(table)
    ann_rolls(table, 'hint')


@at_a_table(*BOB_BEGINS, *CROSSING, '--no-board', 'resume')
def a_roll_crosses_his_leaving_and_no_board_comes(table):
    ann_is_to_roll(table)
    table.bob.send('leave')
    table.ann.type('roll')
    # on a busy machine the row that says how to go on comes before this answer
    table.ann.type(table.ann.answered_and_advised("** You're not playing.", 'gone', 'invite bob'))
    bob_joins(table)
    table.ann.types_what('board', 'board')
    ann_rolls(table, 'go on', 'roll')


@near_and_far(SCENES, *BOB_BEGINS, '--forget-offers')
def her_double_is_forgotten(table):
    """He goes while her double is open; the server knows nothing of it when the match goes on."""
    ann_is_to_roll(table)
    table.ann.type('double')
    table.bob.sees("ann doubles. Type 'accept' or 'reject'.")
    table.bob.send('leave')
    takes_up(table)
    table.ann.types_what('hint', 'roll')
    table.bob.sees('ann rolls ..')
    table.ann.was_not_refused()


@near_and_far(SCENES, *BOB_BEGINS, '--forget-offers', '--no-board', 'double')
def her_double_is_forgotten_and_the_board_is_the_same(table):
    """No board showed the double, so that the board that comes is the one on which she doubled."""
    ann_is_to_roll(table)
    table.ann.type('double')
    table.bob.sees("ann doubles. Type 'accept' or 'reject'.")
    table.bob.send('leave')
    takes_up(table)
    ann_rolls(table, 'go on', 'roll')


# -- games and matches that follow ------------------------------------------------------------------------------------

@near_and_far(SCENES, '--dice', '31,31,42', '--no-board', 'end')
def the_same_first_board_in_the_next_match(table):
    """She resigned on the very board that comes again. Nothing offers to resign the new match."""
    ann, bob = table.ann, table.bob
    table.begins(1)
    move = ann.hint()
    ann.type('resign b')
    bob.sees('ann wants to resign. ..')
    bob.send('accept')
    ann.reads('bob wins the 1 point match 3-0 .')
    never_advised(ann, ('hint', 'go on', 'board', 'wait', 'gone', 'next', 'old'), 0.5)
    ann.type('invite bob 1')
    bob_joins(table)
    ann.reads('Starting a new game with bob.')
    ann.reads(' +13-14-15-16-17-18-+---+19-20-21-22-23-24-+')
    moves_as(table, 'go on', move)


@near_and_far(SCENES, '--dice', '31,31,42', '--delay', '500')
def the_same_first_board_after_a_match_that_he_left(table):
    ann, bob = table.ann, table.bob
    table.begins()
    move = ann.hint()
    bob.send('leave')
    ann.type(move)
    ann.reads("** You're not playing.")
    ann.type('invite bob 3')
    bob_joins(table)
    ann.reads('Starting a new game with bob.')
    ann.reads(' +13-14-15-16-17-18-+---+19-20-21-22-23-24-+')
    moves_as(table, 'go on', move)


@near_and_far(SCENES, *ANN_BEGINS)
def she_waits_for_him_between_two_games(table):
    """She is told to wait, and nothing that is not so."""
    table.begins()
    table.ann.hint()
    table.ann.type('resign n')
    table.bob.sees('ann wants to resign. ..')
    table.bob.send('accept')
    table.ann.types_what('next', 'join')
    table.ann.reads('** Please wait for bob to join too.')
    never_advised(table.ann, ('hint', 'go on', 'board', 'next', 'old'), 0.5)
    table.ann.type('help')
    table.ann.advised('wait')
    table.bob.send('join')
    table.bob.sees('Starting a new game with ann.')
    table.ann.was_not_refused()


@near_and_far(SCENES, *ANN_BEGINS)
def she_leaves_between_two_games(table):
    """By the line that the row names; then she is told how the match goes on."""
    table.begins()
    table.ann.hint()
    table.ann.type('resign n')
    table.bob.sees('ann wants to resign. ..')
    table.bob.send('accept')
    table.ann.advised('next', 'leave')
    table.ann.type('leave')
    table.bob.sees('** Player ann has left the game. The game was saved.')
    takes_up(table)
    goes_on_to_the_next_game(table)


@near_and_far(SCENES, *ANN_BEGINS, '--keep-games')
def she_connects_again_between_two_games(table):
    """The board of the new connection says that a game is over."""
    ann, bob = table.ann, table.bob
    table.begins()
    ann.hint()
    ann.type('resign n')
    bob.sees('ann wants to resign. ..')
    bob.send('accept')
    ann.advised('next')
    # somebody logs in by her name and goes: her connection ends, and the table keeps her place
    Client(table.server.port, 'ann', PASSWORD).close()
    ann.types_what('open', 'open')
    ann.reads('Welcome, ann')
    goes_on_to_the_next_game(table)


# -- what changes nothing --------------------------------------------------------------------------------------------

@near_and_far(SCENES, *ANN_BEGINS)
def somebody_else_invites_her_in_a_match(table):
    bob_is_to_roll(table)
    eve = Client(table.server.port, 'eve')
    table.bob.send('roll', 'move 1-5 12-14')
    table.ann.advised('hint', 'roll')
    eve.send('watch bob', 'kibitz ann rejects. The game continues.', 'unwatch', 'invite ann 3',
             'tell ann bob drops connection. The game was saved.')
    table.ann.reads('The game was saved.')
    never_advised(table.ann, ('go on', 'board', 'gone', 'invited', 'next', 'old'), 0.5)
    ann_is_still_to_roll(table)
    eve.close()


def ann_is_still_to_roll(table):
    table.ann.type('help')
    ann_rolls(table, 'hint')


@near_and_far(SCENES, *BOB_BEGINS)
def others_come_and_go_while_she_thinks(table):
    ann_is_to_roll(table)
    Client(table.server.port, 'eve').close()
    never_advised(table.ann, ('go on', 'board', 'gone', 'invited', 'next', 'old'), 0.5)
    ann_is_still_to_roll(table)


# -- a new connection ------------------------------------------------------------------------------------------------

@near_and_far(SCENES, *ANN_BEGINS)
def a_connection_that_ends(table):
    table.begins()
    table.ann.hint()
    table.comes_again()
    takes_up(table)
    moves_as(table, 'hint', 'move')


@near_and_far(SCENES, *ANN_BEGINS)
def after_a_new_connection_she_is_invited(table):
    """The other way that the row names."""
    table.begins()
    table.ann.hint()
    table.comes_again()
    table.ann.advised('gone', 'join bob')
    table.bob.send('invite ann')
    table.ann.types_what('invited', 'join bob')
    moves_as(table, 'hint', 'move')


@near_and_far(SCENES, *BOB_BEGINS, '--keep-games')
def a_connection_that_ends_at_a_server_that_keeps_the_game(table):
    """Her place is still hers: the first board of the new connection says all."""
    ann_is_to_roll(table)
    Client(table.server.port, 'ann', PASSWORD).close()
    table.ann.types_what('open', 'open')
    table.ann.reads('Welcome, ann')
    ann_rolls(table, 'hint')


def comes_again_while_he_waits(table):
    """Her connection ends while he offers to resign, and the new one does not tell it again."""
    bob_resigns(table)
    table.ann.advised('answer')
    Client(table.server.port, 'ann', PASSWORD).close()
    table.ann.types_what('open', 'open')
    table.ann.reads('Welcome, ann')
    never_advised(table.ann, ('hint', 'go on', 'answer', 'board', 'old'), 2.0)
    table.ann.type('help')


@near_and_far(SCENES, *ANN_BEGINS, '--keep-games')
def an_offer_that_is_open_while_she_connects_again(table):
    """She is told how it is answered if she asks."""
    comes_again_while_he_waits(table)
    table.ann.types_what('wait', 'accept', 'reject')
    table.bob.sees('ann accepts and wins 1 point.')
    goes_on_to_the_next_game(table)


@near_and_far(SCENES, *ANN_BEGINS, '--keep-games', '--show-resignations')
def an_offer_that_is_open_while_she_connects_again_and_gives_the_turn_away(table):
    """The board of the new connection says that she may roll."""
    comes_again_while_he_waits(table)
    table.ann.types_what('wait', 'accept', 'reject')
    table.bob.sees('ann accepts and wins 1 point.')
    goes_on_to_the_next_game(table)


@near_and_far(SCENES, *ANN_BEGINS, '--keep-games', '--show-resignations')
def an_offer_that_gave_the_turn_away_is_declined_after_a_new_connection(table):
    """The turn is his again, and no row says otherwise."""
    comes_again_while_he_waits(table)
    table.ann.advised('wait', 'accept', 'reject')
    table.ann.type('reject')
    table.bob.sees('ann rejects. The game continues.')
    never_advised(table.ann, ('hint', 'go on', 'answer', 'board', 'old'))
    table.bob.send('roll', 'move 1-5 12-14')
    ann_rolls(table, 'hint')


@near_and_far(SCENES, *ANN_BEGINS, '--keep-games', '--show-resignations', '--play-past-offers')
def an_offer_that_gave_the_turn_away_is_over_after_a_new_connection(table):
    """He plays on while she is not there, so that the turn of the new board is hers."""
    bob_resigns(table)
    table.ann.advised('answer')
    Client(table.server.port, 'ann', PASSWORD).close()
    table.bob.send('roll', 'move 1-5 12-14')
    table.bob.catches_up()
    table.ann.types_what('open', 'open')
    table.ann.reads('Welcome, ann')
    table.ann.reads(' +12-11-10--9--8--7-+---+-6--5--4--3--2--1-+')
    table.ann.type('help')
    table.ann.types_what('wait', 'accept')
    table.ann.reads("** Your opponent didn't double or resign.")
    table.ann.types_what('board', 'board')
    ann_rolls(table, 'hint')


# -- his offer is made while she has no connection ---------------------------------------------------------------------

def offers_while_she_is_away(table, line, heard):
    """Her connection has ended, and her place is still hers; bob makes an offer, which she does not hear. The new
    connection is told only what the board shows."""
    bob_is_to_roll(table)
    Client(table.server.port, 'ann', PASSWORD).close()
    table.ann.advised('open', 'open')
    table.bob.send(line)
    table.bob.sees(heard)
    table.ann.type('open')
    table.ann.reads('Welcome, ann')


@near_and_far(SCENES, *ANN_BEGINS, '--keep-games')
def a_double_while_she_was_away(table):
    """The board says it."""
    offers_while_she_is_away(table, 'double', 'You double. ..')
    table.ann.types_what('hint', 'accept', 'reject')
    table.bob.sees('ann accepts the double. The cube shows 2.')
    table.ann.was_not_refused()


@near_and_far(SCENES, *ANN_BEGINS, '--keep-games')
def an_offer_to_resign_while_she_was_away(table):
    """No board says it, and no row says anything else; if bob tells her, it goes past the client."""
    offers_while_she_is_away(table, 'resign n', 'You want to resign. ..')
    never_advised(table.ann, ('hint', 'go on', 'answer', 'board', 'old'), 1.5)
    table.ann.type('help')
    never_advised(table.ann, ('hint', 'go on', 'answer', 'board', 'old'))
    table.ann.type('send accept')
    table.bob.sees('ann accepts and wins 1 point.')
    goes_on_to_the_next_game(table)


@near_and_far(SCENES, *ANN_BEGINS, '--keep-games', '--show-resignations')
def an_offer_to_resign_while_she_was_away_that_gives_the_turn_away(table):
    """The board says that she may roll: the server's answer to that tells of the offer."""
    offers_while_she_is_away(table, 'resign n', 'You want to resign. ..')
    table.ann.types_what('hint', 'roll')
    table.ann.types_what('answer', 'accept', 'reject')
    table.ann.reads("sent on the server's word: accept")
    table.bob.sees('ann accepts and wins 1 point.')
    goes_on_to_the_next_game(table)


@at_a_table(*ANN_BEGINS, *CROSSING)
def a_double_crosses_her_leaving(table):
    """She never hears it; the match that was saved comes with it."""
    bob_is_to_roll(table)
    table.bob.send('double')
    table.comes_again()
    takes_up(table)
    table.ann.types_what('hint', 'accept', 'reject')
    table.bob.sees('ann accepts the double. The cube shows 2.')


@at_a_table(*ANN_BEGINS, *CROSSING)
def an_offer_to_resign_crosses_her_leaving(table):
    bob_is_to_roll(table)
    table.bob.send('resign n')
    table.comes_again()
    takes_up(table)
    table.ann.types_what('answer', 'accept', 'reject')
    table.ann.reads("sent on the server's word: accept")
    table.bob.sees('ann accepts and wins 1 point.')
    goes_on_to_the_next_game(table)


SCENES += [a_double_crosses_her_leaving, an_offer_to_resign_crosses_her_leaving]


# -- her own offer is open while her connection ends -------------------------------------------------------------------

# What is false while he has her offer.
FALSE = 'hint', 'go on', 'answer', 'board', 'old'


def she_offers_and_connects_again(table):
    """The match was saved with her offer, of which the new connection is told nothing."""
    ann_resigns(table, 'n')
    table.ann.reads('You want to resign.')
    table.comes_again()
    takes_up(table)
    table.ann.reads('Your running match was loaded.')
    never_advised(table.ann, FALSE)
    table.ann.type('board')
    never_advised(table.ann, FALSE, 0.6)
    table.ann.type('help')


@near_and_far(SCENES, *ANN_BEGINS)
def her_offer_in_a_match_that_was_saved_is_declined(table):
    table.begins()
    table.ann.hint()
    she_offers_and_connects_again(table)
    table.ann.advised('wait', 'move')
    table.bob.send('reject')
    moves_as(table, 'hint', 'move')


@near_and_far(SCENES, *BOB_BEGINS)
def her_offer_in_a_match_that_was_saved_is_accepted(table):
    ann_is_to_roll(table)
    she_offers_and_connects_again(table)
    table.ann.advised('wait', 'roll')
    table.bob.send('accept')
    goes_on_to_the_next_game(table)


@near_and_far(SCENES, *BOB_BEGINS)
def she_rolls_while_he_has_her_offer(table):
    """The server says that she has to wait, and she is told no more than that until he answers."""
    ann_is_to_roll(table)
    she_offers_and_connects_again(table)
    table.ann.types_what('wait', 'roll')
    table.ann.reads('** Please wait until bob has accepted or rejected your offer.')
    never_advised(table.ann, FALSE)
    table.bob.send('reject')
    table.ann.types_what('board', 'board')
    ann_rolls(table, 'go on', 'roll')


@near_and_far(SCENES, *BOB_BEGINS, '--forget-offers')
def her_offer_in_a_match_that_was_saved_is_forgotten(table):
    """The server says that it is her turn."""
    ann_is_to_roll(table)
    ann_resigns(table, 'n')
    table.ann.reads('You want to resign.')
    table.comes_again()
    takes_up(table)
    ann_rolls(table, 'hint')


@near_and_far(SCENES, *BOB_BEGINS, '--keep-games', '--play-past-offers')
def her_offer_is_open_at_a_server_that_keeps_the_game(table):
    """Her place is still hers, and so is her offer. The server lets her play on, as the row says."""
    ann_is_to_roll(table)
    ann_resigns(table, 'n')
    table.ann.reads('You want to resign.')
    Client(table.server.port, 'ann', PASSWORD).close()
    table.ann.types_what('open', 'open')
    table.ann.reads('Welcome, ann')
    never_advised(table.ann, FALSE, 1.5)
    table.ann.type('help')
    ann_rolls(table, 'wait', 'roll')
    table.ann.types_what('hint', 'move')
    table.bob.sees('ann moves ..')


@near_and_far(SCENES, *ANN_BEGINS, '--keep-games', '--play-past-offers')
def an_offer_that_is_over_when_she_answers(table):
    """He has played on meanwhile. She is not told any more that he waits."""
    bob_resigns(table)
    table.ann.advised('answer')
    table.bob.send('roll')
    table.ann.type('accept')
    table.ann.reads("** Your opponent didn't double or resign.")
    never_advised(table.ann, ('answer', 'board', 'old'))
    table.bob.send('move 1-5 12-14')
    ann_rolls(table, 'hint')


SCENES += [a_roll_crosses_his_leaving, a_move_crosses_his_leaving, a_move_crosses_his_drop_and_he_invites_her,
           a_roll_crosses_his_leaving_and_she_connects_again, a_roll_crosses_his_leaving_and_no_board_comes]
