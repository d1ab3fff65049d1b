"""Boards, and what the rules say of them."""

from __future__ import annotations

from ctypes import byref, c_size_t, c_uint8
from typing import Any, List, Optional, Tuple, Union

from . import _library
from ._decisions import Decision, decision_of, record_of
from ._texts import Text, Word, bytes_of, length_of, number_of, told, told_text
from .errors import Refused, TooManyOther, TooManyOwn, check, check_board
from .events import Side


class Phase(Word):
    """What a player may do on a board."""

    OVER = 1
    ANSWER_DOUBLE = 2
    OPPONENT_ACTS = 3
    ROLL_OR_DOUBLE = 4
    MOVE = 5
    PASSING = 6


class CubeOwner(Word):
    """Who may double next."""

    NOBODY = 0
    PLAYER = 1
    OPPONENT = 2
    MIDDLE = 3


def _fields_of(record: Any) -> Tuple[bytes, bytes, Tuple[int, ...]]:
    """The fields of the library's board."""
    return (bytes(record.player[:record.player_len]), bytes(record.opponent[:record.opponent_len]),
            tuple(record.number))


def _number(field: int, what: str) -> Any:
    return property(lambda board: board.numbers[field - _library.FIRST_FIELD], doc=what)


def _flag(field: int, what: str) -> Any:
    return property(lambda board: board.numbers[field - _library.FIRST_FIELD] == 1, doc=what)


def _dice(field: int, what: str) -> Any:
    def dice(board: Any) -> Optional[Tuple[int, int]]:
        first, second = board.field(field), board.field(field + 1)
        return (first, second) if first or second else None
    return property(dice, doc=what)


class Board:
    """A board: two names, and the numbers of fields 4 to 53 of its line. It does not change.

    Board(line) raises one of NotABoard if the line says none. Two boards are equal if their 53 fields are.
    """

    __slots__ = ('line', '_fields')

    # The one line that says this board: canonical decimals, and no spaces at its end.
    line: bytes

    _fields: Optional[Tuple[bytes, bytes, Tuple[int, ...]]]

    def __init__(self, line: Text) -> None:
        self._take(bytes_of(line).rstrip(b' '), None)
        self._read()

    @classmethod
    def _said(cls, line: bytes) -> Board:
        """The board of a line of which the library has said that it is one. Its fields are read when they are asked
        for."""
        board = cls.__new__(cls)
        board._take(line.rstrip(b' '), None)
        return board

    @classmethod
    def _of(cls, record: Any) -> Board:
        """The library's board."""
        board = cls.__new__(cls)
        board._take(told_text(_library.lib.fibs_board_line, byref(record)), _fields_of(record))
        return board

    def _take(self, line: bytes, fields: Optional[Tuple[bytes, bytes, Tuple[int, ...]]]) -> None:
        object.__setattr__(self, 'line', line)
        object.__setattr__(self, '_fields', fields)

    def _read(self) -> Tuple[bytes, bytes, Tuple[int, ...]]:
        """The fields."""
        fields = self._fields
        if fields is None:
            record, field = _library.Board(), c_size_t()
            line = self.line
            check_board(_library.lib.fibs_read_board(line, len(line), byref(record), byref(field)), line)
            fields = _fields_of(record)
            object.__setattr__(self, '_fields', fields)
        return fields

    @property
    def player(self) -> bytes:
        """The player's name; You in a game of the user."""
        return self._read()[0]

    @property
    def opponent(self) -> bytes:
        """The opponent's name."""
        return self._read()[1]

    @property
    def numbers(self) -> Tuple[int, ...]:
        """The numbers of fields 4 to 53."""
        return self._read()[2]

    def __setattr__(self, name: str, value: object) -> None:
        raise AttributeError('a board does not change')

    def __delattr__(self, name: str) -> None:
        raise AttributeError('a board does not change')

    def __reduce__(self) -> Tuple[type, Tuple[bytes]]:
        return Board, (self.line,)

    def __eq__(self, other: object) -> bool:
        return isinstance(other, Board) and self.line == other.line

    def __hash__(self) -> int:
        return hash(self.line)

    def __repr__(self) -> str:
        return 'Board(%r)' % self.line

    def field(self, n: int) -> int:
        """The number of a field, 4 to 53."""
        if not _library.FIRST_FIELD <= n < _library.FIRST_FIELD + len(self.numbers):
            raise IndexError('a board has the numbers of fields 4 to 53')
        return self.numbers[n - _library.FIRST_FIELD]

    score: int = _number(5, "The player's points.")
    opponent_score: int = _number(6, "The opponent's points.")
    dice: Optional[Tuple[int, int]] = _dice(34, "The player's dice; None if there are none.")
    opponent_dice: Optional[Tuple[int, int]] = _dice(36, "The opponent's dice; None if there are none.")
    cube: int = _number(38, 'What the cube shows.')
    may_double: bool = _flag(39, 'True if the player may double.')
    opponent_may_double: bool = _flag(40, 'True if the opponent may double.')
    was_doubled: bool = _flag(41, 'True if the opponent has just doubled.')
    colour: int = _number(42, "The player's colour: 1 is O, whose checkers are positive, and -1 is X.")
    direction: int = _number(43, 'Where the player goes: -1 from 24 to 1, 1 from 1 to 24.')
    off: int = _number(46, 'How many checkers the player bore off.')
    opponent_off: int = _number(47, 'How many checkers the opponent bore off.')

    @property
    def length(self) -> Optional[int]:
        """How many points the match is to; None if it is unlimited."""
        return length_of(self.field(4))

    @property
    def turn(self) -> Optional[Side]:
        """The side whose turn it is; None if the game is over."""
        colour = self.field(33)
        return (Side.PLAYER if colour == self.colour else Side.OPPONENT) if colour else None

    @property
    def checkers(self) -> Tuple[int, ...]:
        """The player's checkers by place, in own numbers: off at 0, the bar at 25. TooManyOwn."""
        return self._side(self.colour, self.direction == 1, self.off, TooManyOwn)

    @property
    def opponent_checkers(self) -> Tuple[int, ...]:
        """The opponent's checkers by place, in the opponent's own numbers: off at 0, the bar at 25. TooManyOther."""
        return self._side(-self.colour, self.direction == -1, self.opponent_off, TooManyOther)

    @property
    def pips(self) -> Tuple[int, int]:
        """How many pips the player and the opponent have to go. TooManyOwn; TooManyOther."""
        own, other = self.checkers, self.opponent_checkers
        return (sum(place * count for place, count in enumerate(own)),
                sum(place * count for place, count in enumerate(other)))

    @property
    def cube_owner(self) -> CubeOwner:
        """Whose the cube is: who may double next. A side that has just redoubled keeps it until that is answered."""
        found = c_uint8()
        check(_library.lib.fibs_cube_owner(self.line, len(self.line), byref(found)))
        return CubeOwner(found.value)

    @property
    def crawford(self) -> bool:
        """True if the game is that of the Crawford rule, in which nobody doubles: one side alone has one point to go,
        neither side may double, and the cube was not turned."""
        found = c_uint8()
        check(_library.lib.fibs_crawford(self.line, len(self.line), byref(found)))
        return found.value == 1

    @property
    def is_others(self) -> bool:
        """True if it is a board of a game that the user watches. It has no position on which he plays (NotYou)."""
        return self.player != b'You'

    @property
    def words(self) -> List[str]:
        """The board in words, a fact a row, as the program tells it at a terminal: in the player's own numbers. Of a
        game that is watched the first row has the names of both. TooManyOwn; TooManyOther."""
        return told_text(_library.lib.fibs_words, self.line, len(self.line)).decode('ascii').splitlines()

    @property
    def seen(self) -> Board:
        """The board as its player sees it, whose phase and plays are then those of that player; a board of the user's
        own game as it is."""
        if not self.is_others:
            return self
        head, _, rest = self.line.split(b':', 2)
        return Board._said(b':'.join([head, b'You', rest]))

    def _side(self, colour: int, is_up: bool, off: int, fault: type) -> Tuple[int, ...]:
        first = 8 - _library.FIRST_FIELD
        found = [max(colour * number, 0) for number in self.numbers[first:first + 24]]
        if is_up:
            found.reverse()
        bar = 15 - off - sum(found)
        if bar < 0:
            raise fault()
        return off, *found, bar

    @property
    def phase(self) -> Phase:
        """What the player may do. One of NoPosition."""
        return phase(self)

    def plays(self) -> List[Decision]:
        """The legal plays, as of `plays`."""
        return plays(self)

    def allows(self, decision: Decision) -> bool:
        """True if the player may decide so on this board. One of NoPosition; NoDecision."""
        return allows(self, decision)

    def after(self, decision: Decision, dice: Tuple[int, int] = (0, 0)) -> Board:
        """The board after the server carried out a decision: after a play with the checkers moved and hit. A roll
        throws the dice; for every other decision they are ignored. Of a play it is not asked if it is legal, but only
        that there is a checker at each source and no two opponents at each target. NoEffect; one of NoPosition;
        NoDecision."""
        first, second = (number_of(die, 0, 255, 'a die') for die in dice)
        line, record = self.line, record_of(decision)
        return Board._said(told_text(_library.lib.fibs_effect, line, len(line), byref(record), first, second))

    def turned(self) -> Board:
        """The same board with the sides exchanged, as if the user were the opponent: its plays are the opponent's. What
        this board does not tell of the opponent is 0: was_doubled, and fields 50 and 51."""
        return Board._said(told_text(_library.lib.fibs_turned, self.line, len(self.line)))

    def differs(self, other: Board) -> bool:
        """True if the boards differ in what the game is: the other one, if it is shown, ends the waiting of a decision
        that was made on this one."""
        found = c_uint8()
        check(_library.lib.fibs_differs(self.line, len(self.line), other.line, len(other.line), byref(found)))
        return found.value == 1

    @property
    def match_over(self) -> bool:
        """True if the game is over, and the match with it."""
        found = c_uint8()
        check(_library.lib.fibs_match_over(self.line, len(self.line), byref(found)))
        return found.value == 1


# A board, or a line that says one.
BoardLine = Union[Board, Text]


def _line_of(board: BoardLine) -> bytes:
    return board.line if isinstance(board, Board) else bytes_of(board)


def print_board(board: BoardLine) -> bytes:
    """The one line that says the board of a line, as the library prints it. One of NotABoard."""
    line = _line_of(board)
    status, text = told(_library.lib.fibs_print_board, line, len(line))
    check_board(status, line)
    return text


def phase(board: BoardLine) -> Phase:
    """What the player may do on a board. One of NoPosition or NotABoard."""
    line, number = _line_of(board), c_uint8()
    check_board(_library.lib.fibs_phase(line, len(line), byref(number)), line)
    return Phase(number.value)


def refusal(board: BoardLine, decision: Decision) -> Optional[Refused]:
    """Why the player may not decide so on a board: a NotYours, a WrongKind or an IllegalPlay, which is not raised;
    None if he may. One of NoPosition or NotABoard; NoDecision."""
    line = _line_of(board)
    try:
        check_board(_library.lib.fibs_allows(line, len(line), byref(record_of(decision))), line)
    except Refused as why:
        return why
    return None


def allows(board: BoardLine, decision: Decision) -> bool:
    """True if the player may decide so on a board. One of NoPosition or NotABoard; NoDecision."""
    return refusal(board, decision) is None


def plays(board: BoardLine) -> List[Decision]:
    """The plays of a board: for each arrangement of checkers that a legal play reaches the greatest such play, the
    greatest first; none if the player does not move. One of NoPosition or NotABoard."""
    line, room, count = _line_of(board), (_library.Decision * 64)(), c_size_t()
    status = _library.lib.fibs_plays(line, len(line), room, len(room), byref(count))
    if status == _library.SHORT:
        room = (_library.Decision * count.value)()
        status = _library.lib.fibs_plays(line, len(line), room, len(room), byref(count))
    check_board(status, line)
    return [decision_of(play) for play in room[:count.value]]
