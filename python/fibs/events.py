"""What has happened, each event as a named tuple of its own: what `Events.hear` gives.

    events = fibs.Events()
    for line in fibs.Lines('session.log'):
        for event in events.hear(line):
            if isinstance(event, fibs.events.Rolled):
                print(event.who, event.dice)

Names and texts are bytes. who is a Side. length is None if the match is unlimited. worth
is None if no board has shown the cube. They compare as tuples: ask by isinstance which event one is.
"""

from __future__ import annotations

from typing import Any, Callable, NamedTuple, Optional, Tuple, Union

from ._decisions import Decision, Step
from ._texts import Word, length_of, rating_of


class Side(Word):
    """A side of a game in which the user plays."""

    PLAYER = 1
    OPPONENT = 2


class Offer(Word):
    """What an accepted offer was."""

    DOUBLE = 1
    RESIGNATION = 2


class Worth(Word):
    """What a game is worth, beside the cube."""

    SINGLE = 1
    GAMMON = 2
    BACKGAMMON = 3


class LoggedIn(NamedTuple):
    """The server has greeted the user."""

    name: bytes


class Invited(NamedTuple):
    """A player invites the user to a new match."""

    name: bytes
    length: Optional[int]


class InvitedToResume(NamedTuple):
    """A player invites the user to go on with a match that was saved."""

    name: bytes


class Joined(NamedTuple):
    """A match begins. name is the opponent."""

    name: bytes
    length: Optional[int]


class Resumed(NamedTuple):
    """A match goes on that was saved. name is the opponent."""

    name: bytes


class GameBegun(NamedTuple):
    """A game begins. name is the opponent."""

    name: bytes


class Rolled(NamedTuple):
    """A side has rolled."""

    who: Side
    dice: Tuple[int, int]


class Played(NamedTuple):
    """A side has played these steps, in its own numbers."""

    who: Side
    steps: Tuple[Step, ...]

    @property
    def play(self) -> Decision:
        """The same as a decision."""
        return Decision.move(self.steps)


class CannotMove(NamedTuple):
    """A side has rolled, and can't move."""

    who: Side


class Doubled(NamedTuple):
    """A side offers a double."""

    who: Side


class Accepted(NamedTuple):
    """A side has accepted the offer of the other."""

    who: Side
    offer: Offer


class Rejected(NamedTuple):
    """A side has rejected the double of the other, which ends the game."""

    who: Side


class OfferedToResign(NamedTuple):
    """A side offers to give up the game, for so many points."""

    who: Side
    points: int
    worth: Optional[Worth]


class Declined(NamedTuple):
    """A side has declined that the other gives up."""

    who: Side


class GameOver(NamedTuple):
    """A game is over. who has won it."""

    who: Side
    points: int
    worth: Optional[Worth]


class NextGame(NamedTuple):
    """The next game of the match waits for `join`."""


class MatchOver(NamedTuple):
    """A match is over. who has won it; the score of the player comes first."""

    who: Side
    length: int
    score: Tuple[int, int]


class Left(NamedTuple):
    """The match was left, and is saved."""

    who: Side


class NotPlaying(NamedTuple):
    """The user plays in no match."""


class RatingChanged(NamedTuple):
    """A rating has changed. experience is the points of the matches played."""

    who: Side
    rating_hundredths: int
    experience: int

    @property
    def rating(self) -> str:
        """The rating as the server writes it, such as 1623.50."""
        return rating_of(self.rating_hundredths)


class NothingSaved(NamedTuple):
    """No match with a player was saved: the answer to an invitation to resume."""

    name: bytes


class Refused(NamedTuple):
    """The server has refused a decision, by this text."""

    text: bytes


class LoginRefused(NamedTuple):
    """The server asks for the login once more: `Events.hear_bytes` alone gives it."""


# Any event.
Event = Union[LoggedIn, Invited, InvitedToResume, Joined, Resumed, GameBegun, Rolled, Played, CannotMove, Doubled,
              Accepted, Rejected, OfferedToResign, Declined, GameOver, NextGame, MatchOver, Left, NotPlaying,
              RatingChanged, NothingSaved, Refused, LoginRefused]


def _who(told: Any) -> Side:
    return Side(told.who)


def _worth(told: Any) -> Optional[Worth]:
    return Worth(told.worth) if told.worth else None


def _name(told: Any) -> bytes:
    return bytes(told.name.bytes[:told.name.len])


def _pair(two: Any) -> Tuple[int, int]:
    return two[0], two[1]


def _steps(told: Any) -> Tuple[Step, ...]:
    return tuple(Step(step.source, step.target) for step in told.play.steps[:told.play.count])


# The events by their kinds in the library, from 1: what each is of its record and of the line.
KINDS: Tuple[Callable[[Any, bytes], Event], ...] = (
    lambda told, line: LoggedIn(_name(told)),
    lambda told, line: Invited(_name(told), length_of(told.length)),
    lambda told, line: InvitedToResume(_name(told)),
    lambda told, line: Joined(_name(told), length_of(told.length)),
    lambda told, line: Resumed(_name(told)),
    lambda told, line: GameBegun(_name(told)),
    lambda told, line: Rolled(_who(told), _pair(told.dice)),
    lambda told, line: Played(_who(told), _steps(told)),
    lambda told, line: CannotMove(_who(told)),
    lambda told, line: Doubled(_who(told)),
    lambda told, line: Accepted(_who(told), Offer(told.offer)),
    lambda told, line: Rejected(_who(told)),
    lambda told, line: OfferedToResign(_who(told), told.points, _worth(told)),
    lambda told, line: Declined(_who(told)),
    lambda told, line: GameOver(_who(told), told.points, _worth(told)),
    lambda told, line: NextGame(),
    lambda told, line: MatchOver(_who(told), told.length, _pair(told.score)),
    lambda told, line: Left(_who(told)),
    lambda told, line: NotPlaying(),
    lambda told, line: RatingChanged(_who(told), told.rating_hundredths, told.experience),
    lambda told, line: NothingSaved(_name(told)),
    lambda told, line: Refused(line),
    lambda told, line: LoginRefused(),
)
