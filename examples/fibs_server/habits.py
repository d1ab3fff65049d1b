"""What a server may do in one way or another: what is not known for sure of FIBS, and what a test asks for."""

import random
from dataclasses import dataclass, field

# How the server rolls by itself when a turn begins: never, if the player may not double, or if he also has
# turned `double` off.
AUTOROLLS = 'never', 'no-double', 'always'

# After what the server may show no board: an offer to double, an accepted one, a move (the one who moved sees none),
# the end of a game, a saved match that goes on.
WITHOUT = 'double', 'accept', 'move', 'end', 'resume'


@dataclass
class Habits:
    """Each habit at what FIBS is believed to do."""
    seed: int = 0
    # pairs of dice that come first, in turn for openings and rolls
    dice: list = field(default_factory=list)
    autoroll: str = 'never'
    # an open double, an open offer to resign, is shown by a board on which the turn is given away
    shows_doubles: bool = True
    shows_resignations: bool = False
    # no board says that one is offered a double
    hides_doubles: bool = False
    # after these no board is shown; one of WITHOUT
    without: frozenset = frozenset()
    # the board says that a player may double even if the rules of the match forbid it
    loose_flags: bool = False
    # valid commands that are refused so many times, by a text alone
    refuses: dict = field(default_factory=dict)
    # a game goes on after its player's connection breaks
    keeps_games: bool = False
    # a match that is saved forgets an offer that nobody has answered
    forgets_offers: bool = False
    # an offer to resign stops nobody, and is over when one plays on
    plays_past_offers: bool = False
    # the opponent of one who goes is told how he went
    tells_how: bool = False
    # who comes and goes is told also to those who are asked for a name
    tells_strangers: bool = False
    # so many bytes come before the first prompt ends, in one piece; 0: the greeting as it is
    greeting: int = 0
    # who plays O, and who goes from 24 to 1, is random
    mixed_sides: bool = False
    # each change of a player is reported by a line 5 and a line 6
    tells_changes: bool = True
    prompts: bool = False

    def __post_init__(self):
        self.chance = random.Random(self.seed)
        self.rolls_to_come = list(self.dice)

    def roll(self):
        """The next pair of dice."""
        if self.rolls_to_come:
            return self.rolls_to_come.pop(0)
        return self.chance.randint(1, 6), self.chance.randint(1, 6)

    def opening(self):
        """The next pair of dice that are not alike."""
        dice = self.roll()
        while dice[0] == dice[1]:
            dice = self.roll()
        return dice

    def sides(self):
        """The colours of the two sides, and their directions."""
        if not self.mixed_sides:
            return (1, -1), (-1, 1)
        colour, direction = self.chance.choice((1, -1)), self.chance.choice((1, -1))
        return (colour, -colour), (direction, -direction)

    def refuses_now(self, command):
        """True if the server refuses this valid command, this time."""
        if not self.refuses.get(command):
            return False
        self.refuses[command] -= 1
        return True
