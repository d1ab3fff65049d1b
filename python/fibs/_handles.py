"""What Client, Lines, Events and Directory have in common: each owns something of the library."""

from __future__ import annotations

from typing import Any, NoReturn, TypeVar

from . import _library
from .errors import Closed, check

Self = TypeVar('Self', bound='Handle')


class Handle:
    """Owns something of the library until close(). It can't be copied: two would own one thing."""

    def __init__(self, made_by: str, freed_by: str, *words: Any) -> None:
        self._owned = _library.Owned(made_by, freed_by, *words)
        check(self._owned.status)

    def close(self) -> None:
        """Gives the memory back. Once more does nothing."""
        self._owned.release()

    def __enter__(self: Self) -> Self:
        return self

    def __exit__(self, *error: object) -> None:
        self.close()

    def __reduce_ex__(self, protocol: object) -> NoReturn:
        # what copy, deepcopy and pickle go by
        raise TypeError('a %s can be neither copied nor pickled' % type(self).__name__)

    def __repr__(self) -> str:
        return '<fibs.%s: %s>' % (type(self).__name__, self._state() if self._owned.holds else 'closed')

    def _state(self) -> str:
        """What its repr says of it while it is not closed."""
        raise NotImplementedError

    def _check_held(self) -> None:
        """Closed."""
        if not self._owned.holds:
            raise Closed()
