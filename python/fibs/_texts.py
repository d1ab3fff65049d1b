"""Texts and values between Python and the library."""

from __future__ import annotations

import ctypes
import enum
from ctypes import byref, c_size_t
from typing import Any, Callable, Optional, Tuple, Union

from . import _library
from .errors import check

# Bytes of a server.
Bytes = Union[bytes, bytearray, memoryview]

# A text that is passed in: of a str its bytes in UTF-8 are taken.
Text = Union[str, Bytes]

# The value of a field of a message: a name, a word or a text as bytes, a flag, a number, a rating in hundredths.
Value = Union[bytes, bool, int]


class Word(enum.IntEnum):
    """A number of the library that has a name; it is printed as the program prints it, such as RollOrDouble."""

    def __str__(self) -> str:
        return ''.join(word.capitalize() for word in self.name.split('_'))

    def __format__(self, form: str) -> str:
        return format(str(self), form)


def length_of(points: int) -> Optional[int]:
    """How many points a match is to; None if it is unlimited."""
    return None if points == _library.UNLIMITED else points


def rating_of(hundredths: int) -> str:
    """A rating as the server writes it, such as 1623.50."""
    return '%d.%02d' % divmod(hundredths, 100)


def bytes_of(text: Text) -> bytes:
    """The bytes of a text."""
    if isinstance(text, bytes):
        return text
    if isinstance(text, str):
        return text.encode('utf-8', 'surrogatepass')
    return piece_of(text)


def piece_of(piece: Bytes) -> bytes:
    """The bytes of a piece of what a server sent. It can't be a str."""
    if isinstance(piece, bytes):
        return piece
    if isinstance(piece, (bytearray, memoryview)):
        return bytes(piece)
    raise TypeError('bytes are wanted, not %s' % type(piece).__name__)


def number_of(number: int, least: int, most: int, what: str) -> int:
    """A number that a record of the library can hold."""
    if not isinstance(number, int):
        raise TypeError('%s is a number, not %s' % (what, type(number).__name__))
    if not least <= number <= most:
        raise ValueError('%s is a number from %d to %d, not %d' % (what, least, most, number))
    return number


def told(function: Callable[..., int], *words: Any) -> Tuple[int, bytes]:
    """What a function answers, and the bytes that it hands out, however many they are."""
    room, size = ctypes.create_string_buffer(512), c_size_t()
    status = function(*words, room, len(room), byref(size))
    if status == _library.SHORT:
        room = ctypes.create_string_buffer(size.value)
        status = function(*words, room, len(room), byref(size))
    return status, room.raw[:size.value]


def told_text(function: Callable[..., int], *words: Any) -> bytes:
    """The bytes that a function hands out."""
    status, text = told(function, *words)
    check(status)
    return text


def told_field(function: Callable[..., int], *words: Any) -> Value:
    """The value of a field."""
    room, field = ctypes.create_string_buffer(512), _library.Field()
    status = function(*words, byref(field), room, len(room))
    if status == _library.SHORT:
        room = ctypes.create_string_buffer(field.len)
        status = function(*words, byref(field), room, len(room))
    check(status)
    if field.kind == _library.FLAG:
        return field.number == 1
    return field.number if field.kind in (_library.NUMBER, _library.RATING) else room.raw[:field.len]
