"""The client: bytes of the server go in, bytes for the server come out."""

from __future__ import annotations

import ctypes
from ctypes import byref, c_uint8
from typing import Any, Iterator, List, NamedTuple, Optional

from . import _library
from ._boards import Board
from ._decisions import Decision, decision_of, record_of
from ._handles import Handle
from ._lines import Line, line_of
from ._texts import Bytes, Text, bytes_of, piece_of, told, told_text
from .errors import check


class Heard(NamedTuple):
    """A line that the client heard.

    confirmed is the decision that waited, if the line confirms it. send is what you have to send at once, often
    nothing. rolled is true if a standing order rolls at this line: the roll is in send.
    """

    line: Line
    confirmed: Optional[Decision]
    send: bytes
    rolled: bool


class Outstanding(NamedTuple):
    """A decision that waits or waited, and the board on which it was made."""

    decision: Decision
    board: Board


class _Kept(NamedTuple):
    """What a client keeps between its calls.

    data came and begins at an address; what begins at start was given to the library last, whose answer is heard. If
    heard has a line (ended is 1), it was not handed out yet; wires have the commands that were not handed out yet.

    It is changed in one step, after what is handed out is made and right before it is: so an exception that comes
    earlier (a signal, no memory) leaves all of it for the next call.
    """

    data: bytes
    address: int
    start: int
    heard: _library.Heard
    wires: List[_library.Wire]

    @property
    def place(self) -> int:
        """Where what was not heard begins in data."""
        return self.start + self.heard.used

    def wire(self) -> _library.Wire:
        """A wire for the commands of one call."""
        if self.wires[-1].len:
            self.wires.append(_library.Wire())
        return self.wires[-1]

    def commands(self) -> bytes:
        """The commands that were not handed out yet."""
        return b''.join([bytes(memoryview(wire.bytes)[:wire.len]) for wire in self.wires if wire.len])


def _nothing_kept() -> _Kept:
    return _Kept(b'', 0, 0, _library.Heard(), [_library.Wire()])


def _decision_of(record: Any) -> Optional[Decision]:
    return decision_of(record) if record.kind else None


class Client(Handle):
    """A client, connection after connection. It opens no socket: give feed what the server sends, and send at once
    what each call hands out, in order.

        with fibs.Client('ann', 'secret') as client, socket.create_connection(('fibs.com', 4321)) as server:
            server.sendall(client.open())
            while piece := server.recv(4096):
                for heard in client.feed(piece):
                    server.sendall(heard.send)

    A decision waits from decide() until a board that differs is shown; until then each other one is refused. The
    client never sends it again by itself: lose() gives the decision that a lost connection left open. One of
    Refused; BadName, BadText, TooLong.

    If a call is interrupted, by a KeyboardInterrupt or since there is no memory, it may have been carried out. Its
    commands are then handed out by the next call that hands out any, before that call's own.
    """

    def __init__(self, name: Text, password: Text) -> None:
        who, word = bytes_of(name), bytes_of(password)
        super().__init__('fibs_client_new', 'fibs_client_free', who, len(who), word, len(word))
        self._name = who.decode('ascii')
        self._text = ctypes.create_string_buffer(_library.MAX_LINE)
        self._kept = _nothing_kept()
        # what the library says of a line, in turn
        self._records = _library.Heard(), _library.Heard()
        # what the library said of lost connections that was not handed out yet
        self._losses: List[_library.Outstanding] = []

    def _state(self) -> str:
        waits, status = self.waiting, _library.lib.fibs_client_ready(self._owned.at)
        how = {_library.OFFLINE: 'not connected', _library.NOT_READY: 'not logged in'}.get(status, 'logged in')
        return '%s, %s%s' % (self._name, how, ', %s waits' % (waits.decision,) if waits else '')

    def _is_open(self) -> bool:
        """True if there is a connection. Closed."""
        self._check_held()
        return bool(_library.lib.fibs_client_ready(self._owned.at) != _library.OFFLINE)

    def open(self) -> bytes:
        """A connection was made: gives the login. What is left of an earlier one is dropped. AlreadyOpen."""
        if not self._is_open():
            self._losses, self._kept = [], _nothing_kept()
        check(_library.lib.fibs_client_open(self._owned.at, byref(self._kept.wire())))
        sent, self._kept = self._kept.commands(), _nothing_kept()
        return sent

    def feed(self, piece: Bytes) -> Iterator[Heard]:
        """Hears a piece of what the server sent, line by line. A line is heard when you take it from the iterator: send
        what it hands out, and decide() if you like, before you take the next one. The next feed first hears what you
        have not taken. Without a connection all bytes are dropped at once. Closed."""
        data, kept, heard = piece_of(piece), self._kept, self._hear()
        if self._is_open():
            data = kept.data[kept.place:] + data
            self._kept = kept._replace(data=data, address=_library.address_of(data), start=-kept.heard.used)
        return heard

    def _hear(self) -> Iterator[Heard]:
        feed, at, text, most = _library.lib.fibs_client_feed, self._owned.at, self._text, _library.MAX_LINE
        first, second = self._records
        first_at, second_at, new = byref(first), byref(second), tuple.__new__
        while True:
            data, address, start, heard, wires = kept = self._kept
            if not heard.ended:
                start += heard.used
                if start >= len(data):
                    return
                # the record that is not kept
                heard, heard_at = (second, second_at) if heard is first else (first, first_at)
                heard.used = heard.ended = 0
                self._kept = new(_Kept, (data, address, start, heard, wires))
                status = feed(at, address + start, len(data) - start, text, most, heard_at, byref(kept.wire()))
                if status:
                    check(status)
                if not heard.ended:
                    return
            line = line_of(ctypes.string_at(text, heard.len), heard.kind, heard.cut == 1)
            if wires[0].len:
                found = Heard(line, _decision_of(heard.confirmed), kept.commands(), heard.rolled == 1)
                self._kept = _Kept(data, address, start + heard.used, _library.Heard(), [_library.Wire()])
            else:
                found = new(Heard, (line, _decision_of(heard.confirmed), b'', heard.rolled == 1))
                heard.ended = 0
            yield found

    @property
    def ready(self) -> bool:
        """True if the server has sent messages 1 and 2 on the open connection. Before that it may take what you send
        for a name or a password: send nothing but the login."""
        status = _library.lib.fibs_client_ready(self._owned.at)
        if status not in (_library.OFFLINE, _library.NOT_READY):
            check(status)
        return bool(status == _library.DONE)

    @property
    def unfinished(self) -> bytes:
        """What follows the last line end of the connection, without telnet commands. A server that refuses a login
        sends no message, but asks again: so if nothing comes for some seconds, the client is not ready and this ends
        in `login: `, the login was refused."""
        return told_text(_library.lib.fibs_client_unfinished, self._owned.at)

    def decide(self, decision: Decision) -> bytes:
        """The user decides: gives the command, and the decision waits from then on. One of Refused; NoDecision."""
        check(_library.lib.fibs_client_decide(self._owned.at, byref(record_of(decision)), byref(self._kept.wire())))
        sent, self._kept = self._kept.commands(), self._kept._replace(wires=[_library.Wire()])
        return sent

    def plain(self, text: Text) -> bytes:
        """A command that decides nothing in the game, such as `who` or `tell bob hi`. NoCommand; Offline, NotOn;
        BadName, BadText, TooLong."""
        data = bytes_of(text)
        check(_library.lib.fibs_client_plain(self._owned.at, data, len(data), byref(self._kept.wire())))
        sent, self._kept = self._kept.commands(), self._kept._replace(wires=[_library.Wire()])
        return sent

    def own_line(self, line: Text) -> bytes:
        """A line of your own with its line end, for what the client has no command for: `leave`, `watch bob`, the
        answer to an offer to resign. The client does not know of it, and refuses a line that it would take itself, and
        each line that decides in the game. Offline, Taken; BadText, TooLong."""
        data = bytes_of(line)
        check(_library.lib.fibs_client_own_line(self._owned.at, data, len(data), byref(self._kept.wire())))
        sent, self._kept = self._kept.commands(), self._kept._replace(wires=[_library.Wire()])
        return sent

    def unguarded_line(self, line: Text) -> bytes:
        """Any line with its line end, also one that decides: for a decision that waits since the server refused it by
        a text, and that the user makes once more. The client does not know of it, and what it promises does not hold
        of it. Offline; BadText, TooLong."""
        data = bytes_of(line)
        check(_library.lib.fibs_client_unguarded_line(self._owned.at, data, len(data), byref(self._kept.wire())))
        sent, self._kept = self._kept.commands(), self._kept._replace(wires=[_library.Wire()])
        return sent

    def order_roll(self) -> None:
        """Gives a standing order for this connection: at each new board on which the user is to roll and may not
        double the client rolls by itself. Offline, AlreadyOrdered."""
        check(_library.lib.fibs_client_order_roll(self._owned.at))

    def withdraw_roll(self) -> None:
        """Withdraws it. A roll that it sent goes on waiting. Offline, NotOrdered."""
        check(_library.lib.fibs_client_withdraw_roll(self._owned.at))

    @property
    def ordered(self) -> bool:
        """True if a standing order is given on the open connection."""
        found = c_uint8()
        check(_library.lib.fibs_client_ordered(self._owned.at, byref(found)))
        return found.value == 1

    def lose(self) -> Optional[Outstanding]:
        """The connection ended: nothing of it is kept, also no command that an interrupted call left. The decision that
        waited, with its board, or None. The client never sends it again by itself."""
        self._check_held()
        self._kept = _nothing_kept()
        waited = _library.Outstanding()
        self._losses.append(waited)
        check(_library.lib.fibs_client_lose(self._owned.at, byref(waited)))
        found = [one for one in self._losses if one.decision.kind]
        lost = Outstanding(decision_of(found[-1].decision), Board._of(found[-1].board)) if found else None
        self._losses = []
        return lost

    @property
    def shown(self) -> Optional[Board]:
        """The board that was shown last on this connection, or None."""
        status, line = told(_library.lib.fibs_client_shown_line, self._owned.at)
        if status == _library.NO_BOARD:
            return None
        check(status)
        return Board._said(line)

    @property
    def waiting(self) -> Optional[Outstanding]:
        """The decision that waits, with its board, or None."""
        found = _library.Outstanding()
        status = _library.lib.fibs_client_waiting(self._owned.at, byref(found))
        if status == _library.NOTHING_WAITS:
            return None
        check(status)
        return Outstanding(decision_of(found.decision), Board._of(found.board))
