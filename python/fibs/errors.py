"""An exception for each status by which the library refuses a call, by name.

Memory that runs out is Python's own MemoryError, a value of a wrong type its TypeError.
"""

from __future__ import annotations

from ctypes import byref, c_size_t
from typing import Any, ClassVar, Dict, Optional, Tuple, Type

from . import _library


class Error(Exception):
    """The library did not do what it was asked to."""

    # The number that the library answers.
    status: ClassVar[int] = 0

    def __init__(self) -> None:
        super().__init__((type(self).__doc__ or '').split('\n')[0].rstrip('.'))

    def __reduce__(self) -> Tuple[Type[Error], Tuple[()], Dict[str, Any]]:
        # an exception crosses to another process by this
        return type(self), (), self.__dict__

    @property
    def name(self) -> str:
        """The library's name of the status, such as NotYours."""
        return _library.status_name(self.status)


class Refused(Error):
    """A client refuses this now; it is as it was."""


class AlreadyOpen(Refused):
    """A connection is open."""
    status = 1


class Offline(Refused):
    """No connection is open."""
    status = 2


class NotReady(Refused):
    """The server has not yet sent message 1, or not message 2, on this connection."""
    status = 3


class ServerPlays(Refused):
    """The latest message 2 says that the server moves or bears off by itself."""
    status = 4


class NoBoard(Refused):
    """No board on which the user plays was shown on this connection."""
    status = 5


class Waiting(Refused):
    """A decision was sent, and no board that differs was shown since."""
    status = 6


class NotYours(Refused):
    """The player does not decide on this board."""
    status = 7


class WrongKind(Refused):
    """The decision is not one of the board's phase, or the cube forbids it."""
    status = 8


class IllegalPlay(Refused):
    """The move is not legal."""
    status = 9


class NotOn(Refused):
    """The server does not do by itself what the command turns off, or it was already sent."""
    status = 10


class AlreadyOrdered(Refused):
    """A standing order to roll is given already."""
    status = 11


class NotOrdered(Refused):
    """No standing order to roll is given."""
    status = 12


class BadCommand(Error, ValueError):
    """A login or a command has no text that can be sent."""


class BadName(BadCommand):
    """A name has 1 to 64 bytes from 33 to 126, none a colon."""
    status = 101


class BadText(BadCommand):
    """A text is not empty, and has bytes from 32 to 126; a password from 33 to 126."""
    status = 102


class TooLong(BadCommand):
    """A text has at most 400 bytes, a password at most 64."""
    status = 103


class NoPosition(Error, ValueError):
    """The board has no position of a game that the user plays."""


class NotYou(NoPosition):
    """The board is that of a game that the user watches."""
    status = 201


class TooManyOwn(NoPosition):
    """The player has more than 15 checkers."""
    status = 202


class TooManyOther(NoPosition):
    """The opponent has more than 15 checkers."""
    status = 203


class NotABoard(Error, ValueError):
    """The line is not a board.

    field is the first wrong field, counted from 1, which is `board`; None if no line was read.
    """

    field: Optional[int] = None


class FieldMissing(NotABoard):
    """A field is not there."""
    status = 301


class FieldExtra(NotABoard):
    """There is a field too many."""
    status = 302


class FieldNotANumber(NotABoard):
    """A field is not spelled as a number of its kind."""
    status = 303


class FieldOutOfRange(NotABoard):
    """A field has a number that it may not have."""
    status = 304


class FieldBadName(NotABoard):
    """A name, a word or a tail is not valid, the first field is not `board`, or the line was cut."""
    status = 305


class Full(Error):
    """The directory has 4096 players, and the name is a new one."""
    status = 402


class Closed(Error, ValueError):
    """What was closed is used."""
    status = 501


class Held(Error):
    """The handle holds something already."""
    status = 502


class Short(Error):
    """The room is too short."""
    status = 503


class NoDecision(Error, ValueError):
    """The decision is not valid: an unknown kind, more than 4 steps, or a step that no checker can make."""
    status = 504


class NoCommand(Error, ValueError):
    """The text is not a command."""
    status = 505


class NoField(Error, LookupError):
    """The message has no field of this number, or the line is no message."""
    status = 506


class NothingWaits(Error):
    """No decision waits."""
    status = 507


class NoPlayer(Error, LookupError):
    """The directory has no such player."""
    status = 508


class NoStatus(Error, LookupError):
    """There is no status of this number."""
    status = 509


class NoEffect(Error, ValueError):
    """The server does not carry the decision out on the board."""
    status = 510


class NoDirection(Error, ValueError):
    """The direction is neither -1 nor 1."""
    status = 511


class Taken(Error, ValueError):
    """The client takes the line itself, by decide(), plain() or order_roll(), or the line decides in the game."""
    status = 512


def _named(kind: Type[Error]) -> Dict[int, Type[Error]]:
    """Each exception at or below one, by its status."""
    found = {kind.status: kind} if kind.status else {}
    for below in kind.__subclasses__():
        found.update(_named(below))
    return found


BY_STATUS = _named(Error)


def check(status: int) -> None:
    """Raises the exception of a status, unless it says that the call was done."""
    if status == _library.DONE:
        return
    if status == _library.MEMORY:
        raise MemoryError('the library was given no memory')
    raise BY_STATUS.get(status, Error)()


def check_board(status: int, line: bytes) -> None:
    """The same for a call that reads a board from a line: a NotABoard has the wrong field."""
    try:
        check(status)
    except NotABoard as why:
        field = c_size_t()
        _library.lib.fibs_read_board(line, len(line), byref(_library.Board()), byref(field))
        why.field = field.value
        raise
