"""Boards and messages of the server for the tests beside: those of rust/src/tests/boards.txt by their names, and more."""

from props import table

# The boards of the table.
NAMED = {name: board.decode() for name, board in table.NAMED.items()}


def changed(name, changes):
    """A board of the table with these fields changed."""
    fields = NAMED[name].split(':')
    return ':'.join(str(changes.get(n, field)) for n, field in enumerate(fields, 1))


# The same games: field 50 alone is another.
TO_ROLL_AGAIN, MUST_ROLL_AGAIN = changed('TO_ROLL', {50: 1}), changed('MUST_ROLL', {50: 1})

# Another game: the player has a point.
MUST_ROLL_SCORED = changed('MUST_ROLL', {5: 1})

# He has moved 24-18 13-11 there.
WALKED = changed('ROLLED', {18: 1, 20: 4, 25: 1, 31: 1, 33: -1, 34: 0, 35: 0})

# The cube is at its limit: he may not double, or he may by the board.
CUBE_AT_LIMIT, MAY_DOUBLE_AT_LIMIT = changed('MUST_ROLL', {38: 1048576}), changed('TO_ROLL', {38: 1048576})

# Message 1.
WELCOME = '1 ann 1041253132 localhost'

# Message 2: both boards are sent, and the user plays himself.
INFO = '2 ann 1 1 0 0 0 0 1 1 10 0 1 0 1 1500.00 0 0 0 0 0 UTC'

# Message 2: automove is 1, greedy, or both.
INFO_AUTOMOVE = '2 ann 1 1 0 1 0 0 1 1 10 0 1 0 1 1500.00 0 0 0 0 0 UTC'
INFO_GREEDY = '2 ann 1 1 0 0 0 0 1 1 10 1 1 0 1 1500.00 0 0 0 0 0 UTC'
INFO_BOTH = '2 ann 1 1 0 1 0 0 1 1 10 1 1 0 1 1500.00 0 0 0 0 0 UTC'

# Message 2: autoboard is 0, moreboards, or both.
INFO_NO_AUTOBOARD = '2 ann 1 0 0 0 0 0 1 1 10 0 1 0 1 1500.00 0 0 0 0 0 UTC'
INFO_NO_MOREBOARDS = '2 ann 1 1 0 0 0 0 1 1 10 0 0 0 1 1500.00 0 0 0 0 0 UTC'
INFO_NO_BOARDS = '2 ann 1 0 0 0 0 0 1 1 10 0 0 0 1 1500.00 0 0 0 0 0 UTC'

# Two parts of a line.
HALF, REST = NAMED['TO_ROLL'][:24], NAMED['TO_ROLL'][24:]

# Each of them by its name.
NAMED.update({name: line for name, line in vars().items() if name.isupper() and name != 'NAMED'})
