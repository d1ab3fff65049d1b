"""Matches that the server has saved."""

from __future__ import annotations

from ctypes import byref
from typing import NamedTuple, Optional

from . import _library
from ._texts import Text, bytes_of, length_of


class SavedMatch(NamedTuple):
    """A match that was saved: the opponent, how many points it is to, None if it is unlimited, the points of the user
    and of the opponent, and whether the opponent is logged in."""

    name: bytes
    length: Optional[int]
    score: int
    opponent_score: int
    is_there: bool


def saved_match(text: Text) -> Optional[SavedMatch]:
    """What a row of the answer to `show saved` says, such as ` *bob   5   2 -  3`. None if the text is no such row."""
    data, told = bytes_of(text), _library.Saved()
    _library.lib.fibs_saved_match(data, len(data), byref(told))
    if not told.name.len:
        return None
    own, other = told.score
    return SavedMatch(bytes(told.name.bytes[:told.name.len]), length_of(told.length), own, other, bool(told.there))
