"""What lines say has happened."""

from __future__ import annotations

from ctypes import byref
from typing import List, Union

from . import _library
from ._handles import Handle
from ._lines import Line
from ._texts import Bytes, Text, bytes_of, piece_of, told_text
from .errors import check
from .events import KINDS, Event


def _told(told: _library.Happened, data: bytes) -> List[Event]:
    """The events of a record, of these bytes."""
    return [KINDS[event.kind - 1](event, data) for event in told.events[:told.count]]


class Events(Handle):
    """What the lines of a client or of a saved session say has happened, as values of `fibs.events`: so a program
    compares no text of the server. Boards decide before texts, and what comes again says nothing new.

    Hear each line once, in order, over connections too: a match goes on after one is lost.
    """

    def __init__(self) -> None:
        super().__init__('fibs_events_new', 'fibs_events_free')

    def _state(self) -> str:
        return 'with %s' % (self.opponent.decode('ascii', 'replace') or 'no opponent')

    def hear(self, line: Union[Line, Text]) -> List[Event]:
        """What a line says has happened, in order; nothing for a Line that was cut. Closed."""
        if isinstance(line, Line):
            if line.cut:
                self._check_held()
                return []
            line = line.text
        data, told = bytes_of(line), _library.Happened()
        check(_library.lib.fibs_events_hear(self._owned.at, data, len(data), byref(told)))
        return _told(told, data)

    def hear_bytes(self, piece: Bytes) -> List[Event]:
        """What bytes of the server say that no line does: `LoginRefused`, once of each question for the login that
        comes again before the server has greeted the user. Give it each piece of a connection as it comes:
        the question has to be its end. The lines go to `hear` besides. Closed."""
        data, told = piece_of(piece), _library.Happened()
        check(_library.lib.fibs_events_hear_bytes(self._owned.at, data, len(data), byref(told)))
        return _told(told, data)

    def open(self) -> None:
        """A connection is opened, on which the server asks for the login anew. The first one need not be told.
        Closed."""
        check(_library.lib.fibs_events_open(self._owned.at))

    @property
    def opponent(self) -> bytes:
        """The opponent of the match that is played, or was played last; empty if none is known. Closed."""
        return told_text(_library.lib.fibs_events_opponent, self._owned.at)
