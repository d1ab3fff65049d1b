"""Lines, and what has happened by them, as the objects that `fibs show --events` prints."""

from __future__ import annotations

import functools
import re
from typing import Any, Dict, Iterable, Iterator, Union

from ._boards import Board
from ._events import Events
from ._lines import Kind, Line, read
from ._texts import Text
from .errors import NoPosition
from .events import Event
from .messages import Welcome

__all__ = ['Events', 'objects_of']


def objects_of(line: Union[Line, Text], happened: Iterable[Event]) -> Iterator[Dict[str, Any]]:
    """The object of a line, and those of what has happened by it, with what match files are made of."""
    if not isinstance(line, Line):
        line = read(line)
    yield {'kind': 'cut' if line.cut else line.kind.name.lower(), **_members(line)}
    for event in happened:
        told = {member: value.name.lower() if member == 'who' else value for member, value in event._asdict().items()}
        yield {'kind': 'event', 'event': _word_of(type(event).__name__), **told}


def _members(line: Line) -> Dict[str, Any]:
    """What is said of a line beside its kind."""
    if line.kind == Kind.BOARD and not line.cut:
        return _board(line.board)
    message = line.message
    return {'message': 'welcome', 'name': message.name.decode('latin-1')} if isinstance(message, Welcome) else {}


def _board(board: Board) -> Dict[str, Any]:
    """What is said of a board."""
    try:
        phase = board.phase
    except NoPosition:
        return {'phase': None}
    return {'phase': str(phase), 'opponent': board.opponent.decode('latin-1'), 'length': board.field(4),
            'score': board.score, 'opponent_score': board.opponent_score,
            'turn': board.turn.name.lower() if board.turn else None, 'dice': board.dice,
            'opponent_dice': board.opponent_dice, 'cube': board.cube, 'was_doubled': board.was_doubled,
            'checkers': board.checkers, 'opponent_checkers': board.opponent_checkers}


@functools.lru_cache(maxsize=None)
def _word_of(name: str) -> str:
    """The word of an event: that of OfferedToResign is offered_to_resign."""
    return re.sub('(?<=.)(?=[A-Z])', '_', name).lower()
