"""A match between two sides, 0 and 1: its score, its cube and its game. It knows the rules, and no players."""

import rules

UNLIMITED = 9999
LARGEST_CUBE = 1048576

# What the kinds of resignation are worth, on a cube of 1.
RESIGNATIONS = {'n': 1, 'g': 2, 'b': 3}


class Against(Exception):
    """What a side wants to do is against the rules; the words say why."""


class Match:
    """A match to so many points, or UNLIMITED. `colours` are 1 for O and -1 for X, `directions` -1
    for the side that goes from 24 to 1."""

    def __init__(self, names, length, colours=(1, -1), directions=(-1, 1), crawford=True):
        self.names, self.length = list(names), length
        self.colours, self.directions = colours, directions
        self.score = [0, 0]
        self.crawford = crawford
        # True within the game in which nobody may double, and after it
        self.is_crawford_game = self.did_crawford = False
        self.begins()

    # -- games -----------------------------------------------------------------------------------------------------

    def begins(self):
        """A new game. `opens` says who begins it."""
        self.position = list(rules.beginning())
        self.turn = self.dice = None
        self.cube, self.owner = 1, None
        # the side that has doubled, or has offered to resign so many points, and was not answered yet
        self.doubler = None
        self.resigner, self.offered = None, 0
        self.is_on = True
        if self.is_crawford_game:
            self.is_crawford_game, self.did_crawford = False, True
        elif self.crawford and not self.did_crawford and self.length != UNLIMITED:
            self.is_crawford_game = self.length > 1 and self.length - 1 in self.score

    def opens(self, dice):
        """The side with the larger die begins, with both dice."""
        self.turn = 0 if dice[0] > dice[1] else 1
        self.dice = tuple(dice) if self.turn == 0 else (dice[1], dice[0])
        return self.turn

    def is_won(self):
        """True if a side has the points of the match."""
        return self.length != UNLIMITED and max(self.score) >= self.length

    def ends(self, winner, points):
        """The game is over."""
        self.score[winner] += points
        self.is_on = False
        self.turn = self.dice = self.doubler = self.resigner = None

    # -- positions ---------------------------------------------------------------------------------------------------

    def seen_by(self, side):
        """The position with this side first."""
        return self.position[side], self.position[1 - side]

    def place(self, side, number):
        """The number on the board of a place that the side counts in its own way, bar and off included."""
        return number if self.directions[side] == -1 else 25 - number

    def spelled(self, side, step):
        """A step as the server spells it."""
        words = ['bar' if end == rules.BAR else 'off' if end == rules.OFF else str(self.place(side, end))
                 for end in step]
        return '-'.join(words)

    def numbers(self):
        """What the dice give to play."""
        return rules.numbers_of(self.dice)

    def plays(self):
        """The legal plays of the side whose turn it is."""
        return rules.plays(self.seen_by(self.turn), self.numbers())

    def movable(self):
        """How many checkers the side whose turn it is has to move."""
        return rules.most(self.seen_by(self.turn), self.numbers())

    # -- turns -------------------------------------------------------------------------------------------------------

    def passes_to(self, side):
        """The turn of a side begins."""
        self.turn, self.dice = side, None
        self.declines()

    def is_open(self):
        """True while a double or a resignation waits for its answer."""
        return self.doubler is not None or self.resigner is not None

    def may_double(self, side):
        """True if this side has the right to double: the cube is in the middle, or its own."""
        return self.has_cube(side) and self.cube * 2 <= LARGEST_CUBE

    def has_cube(self, side):
        return self.is_on and self.length > 1 and not self.is_crawford_game and self.owner in (None, side)

    def rolls(self, dice):
        """The side whose turn it is has rolled."""
        self.dice = tuple(dice)
        self.declines()

    def moves(self, steps):
        """Carries a play out. True if it ends the game."""
        end = rules.reached(self.seen_by(self.turn), self.numbers(), steps)
        if end is None:
            raise Against(self.reason(steps))
        self.position[self.turn], self.position[1 - self.turn] = end
        self.dice = None
        return rules.is_over(end)

    def reason(self, steps):
        """Why a play is not legal, in the server's words."""
        position, needed = self.seen_by(self.turn), self.movable()
        if steps and position[0][rules.BAR] and steps[0][0] != rules.BAR:
            return '** You have to remove pieces from the bar in your first move.'
        if len(steps) != needed:
            return '** You must give %d move%s.' % (needed, '' if needed == 1 else 's')
        for at, step in enumerate(steps):
            if rules.walked(position, tuple(steps[:at + 1]), self.numbers()) is None:
                return "** You can't move %s." % self.spelled(self.turn, step)
        return '** You have to play the larger number.'

    def doubles(self, side):
        """The side offers a double."""
        self.doubler = side
        self.declines()

    def takes(self):
        """The offered double is accepted."""
        self.cube, self.owner, self.doubler = self.cube * 2, 1 - self.doubler, None

    def resigns(self, side, kind):
        """The side offers to give the game up."""
        self.resigner, self.offered = side, self.cube * RESIGNATIONS[kind]

    def declines(self):
        """An offer to resign is not accepted, or nobody thinks of it any more."""
        self.resigner, self.offered = None, 0

    def forgets_offers(self):
        """Nobody has doubled, or has offered to resign."""
        self.doubler = None
        self.declines()

    def won_by(self, side):
        """What the side has won that has borne off all its checkers."""
        return self.cube * rules.worth(self.seen_by(side))
