"""Standing orders to roll, worked out by hand: rows as in world.py."""

from world import informed, play, run_all

# An order before the login, and both first boards in one piece.
ORDERED = [
    ('open', 'opened 1'),
    ('order roll', 'ordered 1'),
    ('order roll',),
    ('serve 1 1 1', 'loggedin 1'),
    ('text {WELCOME}',),
    ('text {INFO}',),
    ('deliver 10000', 'welcomed 1', 'informed 1 0 0'),
    ('serve 1 1 1',),
    ('serve 1 1 1',),
    ('deliver 10000', 'shown 1 {MUST_ROLL}', 'sent 1 {MUST_ROLL} roll', 'shown 1 {MUST_ROLL}'),
    ('click roll', 'clicked 1 Waiting'),
    ('serve 1 6 2', 'took 1 {MUST_ROLL} roll'),
    ('withdraw roll', 'withdrawn 1'),
    ('deliver 10000', 'shown 1 {ROLLED}'),
]

# A connection whose first two boards are on their way, and the second one.
READY = [*informed(1), ('serve 1 1 1',), ('serve 1 1 1',)]

READY_AGAIN = [*informed(2), ('serve 2 1 1',), ('serve 2 1 1',)]

# An order is given, and rolls at the first of two boards.
ROLLS = [
    ('order roll', 'ordered 1'),
    ('deliver 10000', 'shown 1 {MUST_ROLL}', 'sent 1 {MUST_ROLL} roll', 'shown 1 {MUST_ROLL}'),
]

# Both boards are shown without an order.
SHOWN = [
    ('deliver 10000', 'shown 1 {MUST_ROLL}', 'shown 1 {MUST_ROLL}'),
]

# A board that is shown makes no order due that is given later; the same board shown again does.
ORDER_AFTER_THE_BOARD = [
    ('order roll', 'ordered 1'),
    ('repeat',),
    ('deliver 10000', 'shown 1 {MUST_ROLL}', 'sent 1 {MUST_ROLL} roll'),
]

# If the user may double, nothing rolls.
MAY_DOUBLE = [
    ('order roll', 'ordered 1'),
    ('deliver 10000', 'shown 1 {TO_ROLL}', 'shown 1 {TO_ROLL}'),
]

# After the roll and a move the turn comes back, all in one piece: a second roll at the third board, none at the fourth.
TURN_GOES_ROUND = [
    ('serve 1 6 2', 'took 1 {MUST_ROLL} roll'),
    ('deliver 10000', 'shown 1 {ROLLED}'),
    ('click move 24-18 13-11', 'clicked 1 ok', 'sent 1 {ROLLED} move 24-18 13-11'),
    ('serve 1 1 1', 'took 1 {ROLLED} move 24-18 13-11'),
    ('own {DOUBLED}',),
    ('own {MUST_ROLL}',),
    ('repeat',),
    ('deliver 10000', 'shown 1 {WALKED}', 'shown 1 {DOUBLED}', 'shown 1 {MUST_ROLL}', 'sent 1 {MUST_ROLL} roll',
     'shown 1 {MUST_ROLL}'),
]

# An order that is given while a decision waits rolls no second time.
WHILE_A_ROLL_WAITS = [
    ('click roll', 'clicked 1 ok', 'sent 1 {MUST_ROLL} roll'),
    ('order roll', 'ordered 1'),
    ('repeat',),
    ('deliver 10000', 'shown 1 {MUST_ROLL}'),
    ('serve 1 6 2', 'took 1 {MUST_ROLL} roll'),
    ('deliver 10000', 'shown 1 {ROLLED}'),
]

# An order that is withdrawn recalls no roll, and one that is given again rolls no second time.
WITHDRAWN_ON_ITS_WAY = [
    ('withdraw roll', 'withdrawn 1'),
    ('order roll', 'ordered 1'),
    ('repeat',),
    ('deliver 10000', 'shown 1 {MUST_ROLL}'),
    ('serve 1 6 2', 'took 1 {MUST_ROLL} roll'),
]

# A loss that keeps nothing of the roll.
LOST_WITH_ITS_ROLL = [
    ('lose 0', 'lost 1 {MUST_ROLL} roll'),
]

# A loss that keeps the roll.
LOST = [
    ('lose 10000', 'lost 1 {MUST_ROLL} roll'),
]

# An order ends with its connection: the next one rolls by an order of its own.
NEXT_CONNECTION = [
    ('deliver 10000', 'shown 2 {MUST_ROLL}', 'shown 2 {MUST_ROLL}'),
    ('order roll', 'ordered 2'),
    ('repeat',),
    ('deliver 10000', 'shown 2 {MUST_ROLL}', 'sent 2 {MUST_ROLL} roll'),
]

# The roll of the older connection is not served after that of the newer login.
SHUT_OUT = [
    ('order roll', 'ordered 2'),
    ('deliver 10000', 'shown 2 {MUST_ROLL}', 'sent 2 {MUST_ROLL} roll', 'shown 2 {MUST_ROLL}'),
    ('serve 1 6 2', 'refused 5 NothingToServe'),
]

# The roll of the lost connection is served before the next one is opened.
SERVED_AFTER_THE_LOSS = [
    ('serve 1 6 2', 'took 1 {MUST_ROLL} roll'),
]

# No order is due if the user has rolled.
NOT_DUE_TO_MOVE = [
    ('order roll', 'ordered 2'),
    ('deliver 10000', 'shown 2 {ROLLED}', 'shown 2 {ROLLED}'),
]

# A board before messages 1 and 2 makes no order due, the same board after them does.
NOT_READY = [
    ('open', 'opened 1'),
    ('order roll', 'ordered 1'),
    ('serve 1 1 1', 'loggedin 1'),
    ('repeat',),
    ('deliver 10000', 'shown 1 {MUST_ROLL}'),
    ('text {WELCOME}',),
    ('text {INFO}',),
    ('deliver 10000', 'welcomed 1', 'informed 1 0 0'),
    ('repeat',),
    ('deliver 10000', 'shown 1 {MUST_ROLL}', 'sent 1 {MUST_ROLL} roll'),
]

# While the server plays by itself no order is due, in one piece with a board at which one is.
SERVER_PLAYS = [
    ('open', 'opened 1'),
    ('order roll', 'ordered 1'),
    ('serve 1 1 1', 'loggedin 1'),
    ('text {WELCOME}',),
    ('text {INFO_AUTOMOVE}',),
    ('repeat',),
    ('text {INFO}',),
    ('repeat',),
    ('deliver 10000', 'welcomed 1', 'informed 1 1 0', 'shown 1 {MUST_ROLL}', 'informed 1 0 0', 'shown 1 {MUST_ROLL}',
     'sent 1 {MUST_ROLL} roll'),
]

# An order that is given between the halves of a board line is there when the line ends.
BETWEEN_HALVES = [
    ('deliver 40',),
    ('order roll', 'ordered 1'),
    ('deliver 10000', 'shown 1 {MUST_ROLL}', 'sent 1 {MUST_ROLL} roll', 'shown 1 {MUST_ROLL}'),
]

# If the user may not double, the order rolls, whatever the cube shows.
AT_THE_LIMIT = [
    ('order roll', 'ordered 1'),
    ('deliver 10000', 'shown 1 {CUBE_AT_LIMIT}', 'sent 1 {CUBE_AT_LIMIT} roll', 'shown 1 {CUBE_AT_LIMIT}'),
]

# What may be doubled by the board is not, even if no double is allowed.
MAY_DOUBLE_BY_THE_BOARD = [
    ('order roll', 'ordered 1'),
    ('deliver 10000', 'shown 1 {MAY_DOUBLE_AT_LIMIT}', 'shown 1 {MAY_DOUBLE_AT_LIMIT}'),
]

# Orders that the client refuses: offline, and a withdrawal without one.
REFUSED_BY_THE_CLIENT = [
    ('order roll',),
    ('withdraw roll',),
    ('open', 'opened 1'),
    ('withdraw roll',),
    ('order roll', 'ordered 1'),
    ('withdraw roll', 'withdrawn 1'),
    ('withdraw roll',),
]

def an_order_rolls_where_it_is_due(counts):
    play(counts, 'before the login', '{MUST_ROLL}', ORDERED)
    play(counts, 'after the board', '{MUST_ROLL}', READY, SHOWN, ORDER_AFTER_THE_BOARD)
    play(counts, 'the turn goes round', '{MUST_ROLL}', READY, ROLLS, TURN_GOES_ROUND)
    play(counts, 'between halves', '{MUST_ROLL}', READY, BETWEEN_HALVES)
    play(counts, 'at the limit', '{CUBE_AT_LIMIT}', READY, AT_THE_LIMIT)


def an_order_rolls_nowhere_else(counts):
    play(counts, 'may double', '{TO_ROLL}', READY, MAY_DOUBLE)
    play(counts, 'may double at the limit', '{MAY_DOUBLE_AT_LIMIT}', READY, MAY_DOUBLE_BY_THE_BOARD)
    play(counts, 'while a roll waits', '{MUST_ROLL}', READY, SHOWN, WHILE_A_ROLL_WAITS)
    play(counts, 'withdrawn on its way', '{MUST_ROLL}', READY, ROLLS, WITHDRAWN_ON_ITS_WAY)
    play(counts, 'not ready', '{MUST_ROLL}', NOT_READY)
    play(counts, 'the server plays', '{MUST_ROLL}', SERVER_PLAYS)


def an_order_ends_with_its_connection(counts):
    play(counts, 'lost with its roll', '{MUST_ROLL}', READY, ROLLS, LOST_WITH_ITS_ROLL, READY_AGAIN, NEXT_CONNECTION)
    play(counts, 'login first', '{MUST_ROLL}', READY, ROLLS, LOST, READY_AGAIN, SHUT_OUT)
    play(counts, 'served first', '{MUST_ROLL}', READY, ROLLS, LOST, SERVED_AFTER_THE_LOSS, READY_AGAIN, NOT_DUE_TO_MOVE)


def a_refused_order_changes_nothing(counts):
    play(counts, 'refused', '{MUST_ROLL}', REFUSED_BY_THE_CLIENT)


def a_run_with_an_order_does_all_its_events(counts):
    run_all(counts, 'no event is refused', '{MUST_ROLL}', ORDERED, 'end 14')


TESTS = [an_order_rolls_where_it_is_due, an_order_rolls_nowhere_else, an_order_ends_with_its_connection,
         a_refused_order_changes_nothing, a_run_with_an_order_does_all_its_events]
