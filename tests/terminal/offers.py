"""Scenes of doubles and resignations: whatever was offered, by whom, and however it was answered, the screen says how
the game goes on."""

from people import at_a_table, near_and_far, same
from words import read

SCENES = []

# With this opening ann begins, and it is her move; with the other one bob begins.
ANN_BEGINS = '--dice', '31,42,65,21,54,62,43'
BOB_BEGINS = '--dice', '13,42,65,21,54,62,43'
# to one point nobody may double, but the boards say that one may
FORBIDDEN = '--loose-flags', *BOB_BEGINS


def ann_is_to_roll(table, points=3):
    """Bob has begun, and it is ann's turn."""
    table.begins(points)
    table.bob.sees('Please move ..')
    table.bob.send('move 17-20 19-20')
    table.ann.advised('hint', 'roll', 'double')


def bob_is_to_roll(table):
    """Ann has begun, and it is bob's turn."""
    table.begins()
    table.ann.types_what('hint', 'move')
    table.bob.sees("It's your turn to roll or double.")


def ann_rolls(table, kind, line='roll'):
    """She rolls as a row says."""
    table.ann.types_what(kind, line)
    table.bob.sees('ann rolls ..')
    table.ann.was_not_refused()


def ann_rolls_again(table, kind):
    """The same, where a line was refused before."""
    table.ann.types_what(kind, 'roll')
    table.bob.sees('ann rolls ..')


def ann_rolls_now(table):
    table.ann.type('roll')
    table.bob.sees('ann rolls ..')
    table.ann.was_not_refused()


# -- the opponent doubles --------------------------------------------------------------------------------------------

@near_and_far(SCENES, *ANN_BEGINS)
def a_double_that_the_board_shows(table):
    bob_is_to_roll(table)
    table.bob.send('double')
    table.ann.types_what('hint', 'accept', 'reject')
    table.bob.sees('ann accepts the double. The cube shows 2.')
    table.ann.was_not_refused()


@near_and_far(SCENES, *ANN_BEGINS, '--no-board', 'double')
def a_double_by_text_alone(table):
    bob_is_to_roll(table)
    table.bob.send('double')
    table.ann.types_what('doubles', 'board')
    table.ann.types_what('hint', 'accept', 'reject')
    table.bob.sees('ann accepts the double. The cube shows 2.')
    table.ann.was_not_refused()


@near_and_far(SCENES, *ANN_BEGINS, '--no-board', 'double')
def a_double_by_text_alone_and_what_one_types_then(table):
    """The word that the server names is answered by what helps."""
    bob_is_to_roll(table)
    table.bob.send('double')
    table.ann.reads("bob doubles. Type 'accept' or 'reject'.")
    table.ann.advised('doubles', 'board')
    table.ann.type('accept')
    table.ann.types_what('doubles', 'board')
    table.ann.types_what('hint', 'accept', 'reject')
    table.bob.sees('ann accepts the double. The cube shows 2.')


@near_and_far(SCENES, *ANN_BEGINS, '--hide-doubles')
def a_double_that_no_board_shows(table):
    bob_is_to_roll(table)
    table.bob.send('double')
    table.ann.types_what('doubles', 'board')
    table.ann.types_what('answer', 'accept', 'reject')
    table.bob.sees('ann accepts the double. The cube shows 2.')
    table.ann.was_not_refused()


@near_and_far(SCENES, *ANN_BEGINS, '--no-board', 'double', '--no-board', 'move')
def a_double_by_text_alone_while_a_move_waits(table):
    bob_is_to_roll(table)
    table.bob.send('double')
    table.ann.types_what('doubles', 'board')
    table.ann.types_what('hint', 'accept', 'reject')
    table.bob.sees('ann accepts the double. The cube shows 2.')
    table.ann.was_not_refused()


# -- ann doubles -----------------------------------------------------------------------------------------------------

def ann_doubles(table, points=3):
    ann_is_to_roll(table, points)
    table.ann.type('double')


@near_and_far(SCENES, *BOB_BEGINS)
def a_double_that_is_taken(table):
    ann_doubles(table)
    table.bob.sees("ann doubles. Type 'accept' or 'reject'.")
    table.bob.send('accept')
    ann_rolls(table, 'hint')


@near_and_far(SCENES, *BOB_BEGINS, '--no-board', 'accept')
def a_double_that_is_taken_by_text_alone(table):
    ann_doubles(table)
    table.bob.sees("ann doubles. Type 'accept' or 'reject'.")
    table.bob.send('accept')
    table.ann.types_what('board', 'board')
    ann_rolls(table, 'hint')


@near_and_far(SCENES, *BOB_BEGINS, '--refuse', 'double=1')
def a_double_that_the_server_refuses_once(table):
    ann_doubles(table)
    ann_rolls(table, 'go on', 'roll')


@near_and_far(SCENES, *BOB_BEGINS, '--refuse', 'double=always')
def a_double_that_the_server_refuses_always(table):
    ann_doubles(table)
    same('what was refused is not named', [line for line in table.ann.advised('go on') if 'double' in line], [])
    table.ann.type('help')
    ann_rolls(table, 'go on', 'roll')


@near_and_far(SCENES, *FORBIDDEN)
def a_double_that_the_match_forbids(table):
    """The board says that she may. Once it was refused, no hint of that game names it."""
    ann_doubles(table, 1)
    ann_rolls(table, 'go on', 'roll')
    table.ann.types_what('hint', 'move')
    table.bob.sees("It's your turn to roll.")
    table.bob.send('roll', 'move 12-17 17-23')
    same('what the next hint names', table.ann.advised('hint'), ['roll'])
    ann_rolls_now(table)


@near_and_far(SCENES, *BOB_BEGINS)
def a_double_to_one_point(table):
    """No board of such a match allows it: she is told why, and how the game goes on."""
    table.begins(1)
    table.bob.sees('Please move ..')
    table.bob.send('move 17-20 19-20')
    table.ann.advised('hint', 'roll')
    table.ann.type('double')
    table.ann.reads('In a match to 1 nobody doubles. [8 WrongKind]')
    table.ann.types_what('hint', 'roll')
    table.bob.sees('ann rolls ..')


@near_and_far(SCENES, *BOB_BEGINS)
def a_double_that_comes_too_late_and_too_early(table):
    """After her roll, and in his turn."""
    ann_is_to_roll(table)
    ann_rolls_now(table)
    table.ann.advised('hint', 'move')
    table.ann.type('double')
    table.ann.reads('You have rolled: one doubles before the roll. [8 WrongKind]')
    table.ann.types_what('hint', 'move')
    table.bob.sees("It's your turn to roll or double.")
    table.ann.reads("bob's turn.")
    table.ann.type('double')
    table.ann.reads("It is your opponent's turn. [7 NotYours]")


@near_and_far(SCENES, *BOB_BEGINS, '--no-board', 'end')
def a_double_that_is_dropped(table):
    """Without a last board, the text alone says that the game is over."""
    ann_doubles(table)
    table.bob.sees("ann doubles. Type 'accept' or 'reject'.")
    table.bob.send('reject')
    goes_on_to_the_next_game(table)


def goes_on_to_the_next_game(table):
    """She joins as a row says, and then it is the next game."""
    table.ann.types_what('next', 'join')
    table.bob.send('join')
    table.bob.sees('Starting a new game with ann.')
    table.ann.reads('Starting a new game with bob.')
    table.ann.was_not_refused()


def never_advised(ann, kinds, seconds=1.0):
    """No row of these kinds comes within so many seconds."""
    same('rows that are not true', ann.rows_of(kinds, seconds), [])


@near_and_far(SCENES, *BOB_BEGINS, '--keep-turn-at-double')
def a_double_of_which_the_opponent_thinks(table):
    """The board shows the turn as it was. She is told to wait, and nothing else."""
    ann_doubles(table)
    table.bob.sees("ann doubles. Type 'accept' or 'reject'.")
    never_advised(table.ann, ('hint', 'go on', 'board', 'old'))
    table.ann.type('board')
    never_advised(table.ann, ('hint', 'go on', 'board', 'old'))
    table.ann.type('help')
    table.ann.advised('wait')
    table.bob.send('accept')
    ann_rolls(table, 'hint')


# -- ann offers to resign --------------------------------------------------------------------------------------------

def ann_resigns(table, kind):
    table.ann.type('resign ' + kind)
    table.bob.sees('ann wants to resign. ..')


@near_and_far(SCENES, *ANN_BEGINS)
def a_resignation_before_a_move_is_declined(table):
    table.begins()
    move = table.ann.hint()
    ann_resigns(table, 'g')
    table.bob.send('reject')
    table.ann.types_what('go on', move)
    table.bob.sees('ann moves ..')
    table.ann.was_not_refused()


@near_and_far(SCENES, *BOB_BEGINS)
def a_resignation_before_a_roll_is_declined(table):
    ann_is_to_roll(table)
    ann_resigns(table, 'n')
    table.bob.send('reject')
    table.ann.advised('go on', 'roll', 'double')
    table.ann.type('help')
    ann_rolls(table, 'go on', 'roll')


@near_and_far(SCENES, *BOB_BEGINS)
def a_resignation_is_declined_and_she_doubles(table):
    """The other line that the row names."""
    ann_is_to_roll(table)
    ann_resigns(table, 'n')
    table.bob.send('reject')
    table.ann.advised('go on', 'roll', 'double')
    table.ann.type('double')
    table.bob.sees("ann doubles. Type 'accept' or 'reject'.")
    table.bob.send('accept')
    ann_rolls(table, 'hint')


@near_and_far(SCENES, *ANN_BEGINS, '--show-resignations')
def a_resignation_is_declined_and_boards_show_it(table):
    """The turn is given away on one board, and there again on the next."""
    table.begins()
    table.ann.hint()
    ann_resigns(table, 'b')
    table.bob.send('reject')
    table.ann.types_what('hint', 'move')
    table.bob.sees('ann moves ..')
    table.ann.was_not_refused()


@near_and_far(SCENES, *ANN_BEGINS)
def a_resignation_is_declined_and_she_connects_again(table):
    table.begins()
    table.ann.hint()
    ann_resigns(table, 'g')
    table.bob.send('reject')
    table.ann.advised('go on')
    table.comes_again()
    table.ann.types_what('gone', 'invite bob')
    table.bob.sees("Type 'join ann' to accept.")
    table.bob.send('join ann')
    table.ann.types_what('hint', 'move')
    table.bob.sees('ann moves ..')
    table.ann.was_not_refused()


@near_and_far(SCENES, *ANN_BEGINS, '--no-board', 'end')
def a_resignation_before_a_move_is_accepted(table):
    table.begins()
    table.ann.hint()
    ann_resigns(table, 'n')
    table.bob.send('accept')
    goes_on_to_the_next_game(table)


@near_and_far(SCENES, *BOB_BEGINS, '--no-board', 'end')
def a_resignation_before_a_roll_is_accepted(table):
    ann_is_to_roll(table)
    ann_resigns(table, 'g')
    table.bob.send('accept')
    goes_on_to_the_next_game(table)


@near_and_far(SCENES, *ANN_BEGINS)
def a_resignation_is_accepted_and_a_last_board_comes(table):
    table.begins()
    table.ann.hint()
    ann_resigns(table, 'n')
    table.bob.send('accept')
    goes_on_to_the_next_game(table)


@near_and_far(SCENES, *ANN_BEGINS)
def a_resignation_before_a_move_is_not_answered(table):
    """Nothing is false while he thinks, whatever she asks; then he answers."""
    table.begins()
    move = table.ann.hint()
    ann_resigns(table, 'g')
    for line in 'board', 'say well?', 'help':
        table.ann.type(line)
        never_advised(table.ann, ('hint', 'go on', 'answer', 'board', 'old'), 0.6)
    table.bob.send('reject')
    table.ann.types_what('go on', move)
    table.bob.sees('ann moves ..')


@near_and_far(SCENES, *BOB_BEGINS, '--play-past-offers')
def a_resignation_before_a_roll_is_never_answered(table):
    """The server lets both play on: what she can do then is said if she asks."""
    ann_is_to_roll(table)
    ann_resigns(table, 'n')
    table.ann.type('board')
    ann_rolls(table, 'wait', 'send roll')


# -- the opponent offers to resign -----------------------------------------------------------------------------------

def bob_resigns(table):
    """It is bob's turn, and he wants to resign."""
    bob_is_to_roll(table)
    table.bob.send('resign n')
    table.ann.reads("bob wants to resign. You will win 1 point. Type 'accept' or 'reject'.")


@near_and_far(SCENES, *ANN_BEGINS)
def the_opponents_resignation_is_accepted(table):
    bob_resigns(table)
    table.ann.types_what('answer', 'accept', 'reject')
    table.bob.sees('ann accepts and wins 1 point.')
    goes_on_to_the_next_game(table)


@near_and_far(SCENES, *ANN_BEGINS)
def the_opponents_resignation_is_rejected(table):
    bob_resigns(table)
    table.ann.advised('answer', 'accept', 'reject')
    table.ann.type('reject')
    table.bob.sees('ann rejects. The game continues.')
    table.bob.send('roll', 'move 1-5 12-14')
    ann_rolls(table, 'hint')


@near_and_far(SCENES, *ANN_BEGINS, '--show-resignations')
def the_opponents_resignation_gives_the_turn_away(table):
    """The board says that she may roll. Until she has answered, nothing else does, whatever she asks."""
    bob_resigns(table)
    never_advised(table.ann, ('hint', 'go on', 'board', 'old'))
    for line in 'board', 'help':
        table.ann.type(line)
        never_advised(table.ann, ('hint', 'go on', 'board', 'old'), 0.6)
    table.ann.type('help')
    table.ann.types_what('answer', 'accept', 'reject')
    table.bob.sees('ann accepts and wins 1 point.')
    goes_on_to_the_next_game(table)


def declined_in_his_turn(table):
    """She declines the offer that he makes in his turn: nothing is hers to do until he has played."""
    bob_resigns(table)
    table.ann.advised('answer', 'accept', 'reject')
    table.ann.type('reject')
    table.bob.sees('ann rejects. The game continues.')
    table.ann.reads('You reject. The game continues.')
    never_advised(table.ann, ('hint', 'go on', 'answer', 'board', 'old'))
    table.ann.type('help')
    never_advised(table.ann, ('hint', 'go on', 'answer', 'board', 'old'))
    table.bob.send('roll', 'move 1-5 12-14')
    ann_rolls(table, 'hint')


@near_and_far(SCENES, *ANN_BEGINS, '--no-board', 'move')
def the_opponents_resignation_is_rejected_and_no_board_shows_her_move(table):
    declined_in_his_turn(table)


@near_and_far(SCENES, *ANN_BEGINS, '--show-resignations')
def the_opponents_resignation_is_rejected_and_a_board_gave_her_the_turn(table):
    declined_in_his_turn(table)


def rows_of(ann, words):
    """The rows of the screen that begin so."""
    return [row for row in ann.lines() if row.startswith(words)]


def refused_by_the_server(ann):
    """The rows by which the server refuses something, without those of before a match."""
    return [row for row in rows_of(ann, '** ') if not row.startswith(("** You're not playing", '** You invited',
                                                                        '** Player '))]


@near_and_far(SCENES, *ANN_BEGINS)
def an_offer_is_answered_once(table):
    """Enter is hit twice. The second line is refused, and the server hears one."""
    bob_resigns(table)
    table.ann.advised('answer', 'accept', 'reject')
    table.ann.type('reject')
    table.ann.type('Reject')
    table.bob.sees('ann rejects. The game continues.')
    table.bob.send('roll', 'move 1-5 12-14')
    ann_rolls_again(table, 'hint')
    # on a busy machine the rows come later than what bob sees
    table.ann.reads('sent roll')
    same('what was sent', rows_of(table.ann, "sent on the server's word"), ["sent on the server's word: reject"])
    same('refused by the client', len(table.ann.was_refused()), 1)
    same('by the server', refused_by_the_server(table.ann), [])


@near_and_far(SCENES, *ANN_BEGINS)
def a_move_against_the_rules_after_an_offer_was_declined(table):
    """It is refused, with its rule. Then a legal one goes out, in another spelling than the row has."""
    table.begins()
    move = table.ann.hint()
    ann_resigns(table, 'g')
    table.bob.send('reject')
    table.ann.advised('go on', move)
    table.ann.type('24/14')
    table.ann.reads('No die plays from 24 to 14. [9 IllegalPlay]')
    table.ann.advised('go on', move)
    table.ann.type('m ' + move.removeprefix('move ').replace('-', '/'))
    table.bob.sees('ann moves ..')
    same('by the server', refused_by_the_server(table.ann), [])


@near_and_far(SCENES, *BOB_BEGINS, '--refuse', 'roll=1')
def a_roll_is_sent_again_once(table):
    """The board came again on which she rolled. She hits Enter twice."""
    ann_is_to_roll(table)
    table.ann.type('roll')
    table.ann.types_what('board', 'board')
    table.ann.types_what('go on', 'roll')
    table.ann.type('roll')
    table.bob.sees('ann rolls ..')
    table.ann.types_what('hint', 'move')
    table.bob.sees('ann moves ..')
    same('what was sent', rows_of(table.ann, 'sent again'), ['sent again: roll'])
    same('by the server', len(refused_by_the_server(table.ann)), 1)


# -- a board that was asked for, and comes after the answer -------------------------------------------------------------

# What the server says is so long on its way, and comes in pieces.
ON_ITS_WAY = '--delay', '300', '--portions', '60', '--pause', '30'


@at_a_table(*BOB_BEGINS, *ON_ITS_WAY, '--refuse', 'double=1')
def a_board_comes_after_the_roll_that_a_refused_double_leads_on_to(table):
    """It is the board on which she doubled. Nobody is to answer that any more."""
    ann_doubles(table)
    table.ann.advised('go on', 'roll')
    table.ann.type('board')
    table.ann.type('roll')
    same('rows that are not true', [row for row in rows_up_to(table, 'You roll 4 and 2.') if read(row)[0]], [])
    table.ann.types_what('hint', 'move')


@at_a_table(*ANN_BEGINS, *ON_ITS_WAY, '--show-resignations')
def a_board_that_gives_the_turn_away_comes_after_the_answer(table):
    """It shows the offer that she has just declined."""
    bob_resigns(table)
    table.ann.advised('answer', 'accept', 'reject')
    table.ann.type('board')
    table.ann.type('reject')
    table.ann.reads("sent on the server's word: reject")
    same('rows that are not true', [row for row in rows_up_to(table, 'You reject. The game continues.')
                                    if read(row)[0]], [])
    never_advised(table.ann, ('hint', 'go on', 'answer', 'board', 'old'))


@at_a_table(*ANN_BEGINS, *ON_ITS_WAY, '--show-resignations', '--no-board', 'move')
def a_board_that_shows_her_move_comes_after_the_answer(table):
    """It is the first one after her move, and it gives the turn away."""
    bob_resigns(table)
    table.ann.type('reject')
    table.ann.reads("sent on the server's word: reject")
    same('rows that are not true', [row for row in rows_up_to(table, 'You reject. The game continues.')
                                    if read(row)[0] not in ('', 'answer')], [])
    never_advised(table.ann, ('hint', 'go on', 'answer', 'board', 'old'))


def rows_up_to(table, last):
    """The rows that she reads up to one."""
    rows = [table.ann.next_line()]
    while rows[-1] != last:
        rows.append(table.ann.next_line())
    return rows


SCENES += [a_board_comes_after_the_roll_that_a_refused_double_leads_on_to,
           a_board_that_gives_the_turn_away_comes_after_the_answer, a_board_that_shows_her_move_comes_after_the_answer]


def says_the_offer_again(typed):
    """A scene: the offer has scrolled off; what she types makes the screen say it again."""
    def scene(table):
        bob_resigns(table)
        table.ann.advised('answer')
        table.bob.send('say well?', 'say well?', 'say well?')
        table.ann.reads('bob says: well?')
        table.ann.reads('bob says: well?')
        table.ann.reads('bob says: well?')
        table.ann.type(typed)
        table.ann.types_what('answer', 'accept', 'reject')
        table.bob.sees('ann accepts and wins 1 point.')
    scene.__name__ = 'an_offer_that_scrolled_off_is_said_again_at_' + typed
    return scene


for word in 'help', 'board', 'double':
    near_and_far(SCENES, *ANN_BEGINS)(says_the_offer_again(word))


@near_and_far(SCENES, *ANN_BEGINS)
def what_others_say_is_no_answer(table):
    """Talk in the words of the server changes nothing."""
    bob_resigns(table)
    table.ann.advised('answer')
    table.bob.send('kibitz bob rejects. The game continues.', 'shout You give up. ann wins 1 point.',
                   'say bob accepts the double.')
    table.ann.reads('bob accepts the double.')
    table.ann.type('help')
    table.ann.types_what('answer', 'accept')
    table.bob.sees('ann accepts and wins 1 point.')


# -- commands that are refused ---------------------------------------------------------------------------------------

@near_and_far(SCENES, *BOB_BEGINS, '--refuse', 'roll=1')
def a_roll_that_the_server_refuses_once(table):
    ann_is_to_roll(table)
    table.ann.type('roll')
    table.ann.types_what('board', 'board')
    ann_rolls(table, 'go on', 'roll')


@near_and_far(SCENES, *ANN_BEGINS, '--refuse', 'move=1')
def a_move_that_the_server_refuses_once(table):
    table.begins()
    table.ann.types_what('hint', 'move')
    table.ann.types_what('board', 'board')
    table.ann.types_what('go on', 'move')
    table.bob.sees('ann moves ..')
    table.ann.was_not_refused()


@near_and_far(SCENES, *ANN_BEGINS, '--refuse', 'accept=1')
def an_answer_that_the_server_refuses_once(table):
    bob_is_to_roll(table)
    table.bob.send('double')
    table.ann.types_what('hint', 'accept')
    table.ann.types_what('board', 'board')
    table.ann.types_what('go on', 'accept', 'reject')
    table.bob.sees('ann accepts the double. The cube shows 2.')
    table.ann.was_not_refused()


# -- what is sent as it is -------------------------------------------------------------------------------------------

@at_a_table(*ANN_BEGINS)
def what_the_client_takes_is_not_sent_as_it_is(table):
    """`send` leaves it to be typed without it; all else goes as it is, and the screen says so."""
    ann, bob = table.ann, table.bob
    table.begins()
    move = ann.hint()
    bob.catches_up()
    ann.type('send ' + move)
    ann.type('send say hello')
    ann.type('send pip')
    ann.reads('Pipcounts: You 167  bob 167.')
    bob.quiet(0.3)
    same('it says what went as it is', 'sent as it is: pip' in ann.lines(), True)
    same('and no other line', [line for line in ann.lines() if line.startswith('sent as it is: ')],
         ['sent as it is: pip'])
    ann.type(move)
    bob.sees('ann moves ..')


SCENES.append(what_the_client_takes_is_not_sent_as_it_is)
