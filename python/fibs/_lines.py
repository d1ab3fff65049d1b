"""Lines of a stream, and what they say."""

from __future__ import annotations

import os
from ctypes import byref, c_size_t, c_uint8
from typing import Any, Generator, Iterator, List, NamedTuple, Optional, Protocol, Tuple, Union

from . import _library
from ._boards import Board
from ._handles import Handle
from ._texts import Bytes, Text, Value, Word, bytes_of, piece_of, told_field, told_text
from .errors import FieldBadName, NoField, check
from .messages import Message, message_of


class Kind(Word):
    """What a line is."""

    TEXT = 0
    MESSAGE = 1
    BOARD = 2
    MALFORMED = 3


class Fault(Word):
    """What is wrong with a field of a malformed line."""

    MISSING = 1
    EXTRA = 2
    NOT_A_NUMBER = 3
    OUT_OF_RANGE = 4
    BAD_NAME = 5


# What a log has before each line that was sent. No text of FIBS begins so.
SENT = b'>> '


class Line(NamedTuple):
    """A line without its end, and what it is.

    number is that of a message, also of a malformed one, else 0. field and fault are the first wrong field of a
    malformed line, counted from 1, and what is wrong with it; else 0 and None. cut is true if the line had more than
    MAX_LINE bytes: only the first are kept, and such a line is a text.
    """

    text: bytes
    kind: Kind
    number: int
    field: int
    fault: Optional[Fault]
    cut: bool

    @property
    def sent(self) -> Optional[bytes]:
        """In a log of `fibs connect` or `fibs-play`: the line that was sent. None if a line is the server's."""
        is_sent = self.kind == Kind.TEXT and self.text.startswith(SENT)
        return self.text[len(SENT):] if is_sent else None

    @property
    def board(self) -> Board:
        """The board that the line says. One of NotABoard; a line that was cut is not read, and says none."""
        if self.cut:
            raise FieldBadName
        return Board._said(self.text) if self.kind == Kind.BOARD else Board(self.text)

    @property
    def message(self) -> Optional[Message]:
        """The message that the line is, one of `fibs.messages`; None if the line is anything else."""
        return _message(self.text, self.number) if self.kind == Kind.MESSAGE else None

    @property
    def fields(self) -> Tuple[Optional[Value], ...]:
        """The fields of a message: the same tuple; no fields if the line is anything else."""
        return self.message or ()


_KINDS = tuple(Kind)
_FAULTS = (None, *Fault)
_new = tuple.__new__


def line_of(text: bytes, kind: Any, cut: bool) -> Line:
    """A line of these bytes, with what the library says that it is."""
    return _new(Line, (text, _KINDS[kind.kind], kind.number, kind.field, _FAULTS[kind.fault], cut))


def read(text: Text) -> Line:
    """What a line is. It was not cut, and is without its line end."""
    data = bytes_of(text)
    return line_of(data, _library.lib.fibs_read(data, len(data)), False)


def fields(text: Text) -> Tuple[Optional[Value], ...]:
    """The fields of a message: names, words and texts as bytes, flags, numbers, and ratings in hundredths; None where
    message 5 says that there is none. No fields if the line is no message."""
    return read(text).fields


def _message(data: bytes, number: int) -> Message:
    """The message of this number that a line is."""
    found: List[Value] = []
    try:
        while True:
            found.append(told_field(_library.lib.fibs_read_field, data, len(data), len(found) + 1))
    except NoField:
        return message_of(number, found)


class Stream(Protocol):
    """What lines are read from: a file that is open in binary mode, a socket's makefile('rb'), or any other object with
    a read(size) that gives bytes, and none at its end."""

    def read(self, size: int, /) -> Optional[bytes]: ...


# What Lines takes: bytes, the path of a file, or a stream.
Source = Union[Bytes, str, 'os.PathLike[str]', Stream]


class Lines(Handle):
    """The lines of bytes, of the file of a path, of a binary file that is open, or of any object that has a read(size).

        for line in fibs.Lines('session.log'):
            print(line.kind.name, line.text)

    Without one you feed it: feed(piece) gives the lines that end in the piece, however the bytes of the
    stream are cut. What follows the last line end is no line: finish() gives it as one. close(), or a `with`,
    gives its memory back; a stream that you gave stays open.
    """

    def __init__(self, source: Source = b'', *, rows: int = 4096, room: int = 1 << 18) -> None:
        if rows < 1 or room < _library.MAX_LINE:
            raise ValueError('no room for a line')
        self._pieces = _pieces(source)
        super().__init__('fibs_lines_new', 'fibs_lines_free')
        self._text = (c_uint8 * room)()
        self._rows = (c_uint8 * (rows * _library.ROW.size))()
        self._most = rows
        self._told = _library.Told()
        # lines that were read and not yet taken
        self._found: Iterator[Line] = iter(())

    def _state(self) -> str:
        return '%d bytes after the last line end' % self.held

    def close(self) -> None:
        """Gives the memory back, and closes the file of a path. Once more does nothing."""
        self._pieces.close()
        super().close()

    def __iter__(self) -> Iterator[Line]:
        """The lines that are left. After a break a new loop goes on with the next line."""
        while True:
            yield from self._found
            piece = next(self._pieces, None)
            if piece is None:
                return
            self._found = iter(self.feed(piece))

    def __next__(self) -> Line:
        for line in self:
            return line
        raise StopIteration

    def _calls(self, piece: Bytes) -> Iterator[Tuple[bytes, memoryview]]:
        """Reads a piece, in as many calls as it takes: after each the text and the rows of its lines."""
        data = piece_of(piece)
        start, size = _library.address_of(data), len(data)
        told, at = self._told, 0
        while True:
            check(_library.lib.fibs_read_lines(self._owned.at, start + at, size - at, self._text, len(self._text),
                                               self._rows, self._most, byref(told)))
            at += told.used
            yield bytes(memoryview(self._text)[:told.bytes]), memoryview(self._rows)[:told.lines * _library.ROW.size]
            if at >= size:
                return

    def feed(self, piece: Bytes) -> List[Line]:
        """The lines that end in this piece of the stream. Closed."""
        kinds, faults, new, line = _KINDS, _FAULTS, _new, Line
        found: List[Line] = []
        for text, rows in self._calls(piece):
            found += [new(line, (text[start:start + size], kinds[kind], number, field, faults[fault], cut == 1))
                      for start, size, field, kind, number, fault, cut in _library.ROW.iter_unpack(rows)]
        return found

    def count(self, piece: Bytes) -> Counts:
        """How many lines of each kind end in this piece. Closed."""
        counts = [0] * 6
        for text, rows in self._calls(piece):
            told = rows.tobytes()
            kinds = told[_library.KIND_AT::_library.ROW.size]
            for kind in range(4):
                counts[kind] += kinds.count(kind)
            counts[4] += told[_library.CUT_AT::_library.ROW.size].count(1)
            if SENT in text:
                counts[5] += sum(kind == Kind.TEXT and text.startswith(SENT, start, start + size)
                                 for start, size, _, kind, *_ in _library.ROW.iter_unpack(told))
        return Counts(*counts)

    def finish(self) -> List[Line]:
        """The line that has not ended, as if it ended here; none if nothing follows the last line end. Closed."""
        # if the stream ended within a telnet command, the first line end goes to that
        return (self.feed(b'\n') or self.feed(b'\n')) if self.held else []

    @property
    def unfinished(self) -> bytes:
        """What follows the last line end, without telnet commands: at most MAX_LINE bytes, such as a prompt. Closed."""
        return told_text(_library.lib.fibs_lines_unfinished, self._owned.at)

    def reset(self) -> None:
        """Forgets what has come: the next byte is the first of a new stream. Closed."""
        check(_library.lib.fibs_lines_reset(self._owned.at))

    @property
    def held(self) -> int:
        """How many bytes follow the last line end, at most MAX_LINE. Closed."""
        size = c_size_t()
        check(_library.lib.fibs_lines_held(self._owned.at, byref(size)))
        return size.value


class Counts(NamedTuple):
    """How many texts, messages, boards and malformed lines there are; how many of the texts were cut, and how many are
    lines of a log that were sent."""

    texts: int
    messages: int
    boards: int
    malformed: int
    cut: int
    sent: int


def _pieces(source: Source, size: int = 1 << 16) -> Generator[bytes, None, None]:
    """The pieces of what lines are read from, each as soon as it comes."""
    if isinstance(source, (bytes, bytearray, memoryview)):
        data = memoryview(bytes(source))
        return (bytes(data[at:at + size]) for at in range(0, len(data), size))
    if isinstance(source, (str, os.PathLike)):
        return _opened(source, size)
    if hasattr(source, 'read'):
        return _read(source, size)
    raise TypeError('bytes, a path or a binary file are wanted, not %s' % type(source).__name__)


def _read(stream: Stream, size: int) -> Generator[bytes, None, None]:
    read_some = getattr(stream, 'read1', None) or stream.read
    while piece := read_some(size):
        yield piece


def _opened(path: Union[str, 'os.PathLike[str]'], size: int) -> Generator[bytes, None, None]:
    """The pieces of a file, which is opened at once, and closed with the generator."""
    def pieces() -> Generator[bytes, None, None]:
        with open(path, 'rb') as file:
            yield b''
            yield from _read(file, size)
    found = pieces()
    next(found)
    return found
