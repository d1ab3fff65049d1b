"""The players that the server listed."""

from __future__ import annotations

from ctypes import byref, c_size_t
from typing import Iterator, Optional, Union

from . import _library
from ._handles import Handle
from ._texts import Text, bytes_of, number_of, told, told_field
from .errors import NoPlayer, check
from .messages import Player, player_of

_FIELDS = range(1, len(Player._fields) + 1)


class Directory(Handle):
    """The players of messages 5 and 8: each as the last message 5 has it, in the order in which they were first
    listed, or first listed again after a message 8. At most 4096."""

    def __init__(self) -> None:
        super().__init__('fibs_directory_new', 'fibs_directory_free')

    def _state(self) -> str:
        return '%d players' % len(self)

    def note(self, line: Text) -> None:
        """Takes note of a line that was not cut: message 5 sets the player of its name, message 8 takes it out, and
        every other line changes nothing. Full."""
        data = bytes_of(line)
        check(_library.lib.fibs_directory_note(self._owned.at, data, len(data)))

    def clear(self) -> None:
        """Forgets all players."""
        check(_library.lib.fibs_directory_clear(self._owned.at))

    def __len__(self) -> int:
        size = c_size_t()
        check(_library.lib.fibs_directory_len(self._owned.at, byref(size)))
        return size.value

    def __getitem__(self, place: int) -> Player:
        """The player at a place, counted from 0. IndexError."""
        if not 0 <= number_of(place, -1 << 63, (1 << 63) - 1, 'a place') < len(self):
            raise IndexError('there is no player at %d' % place)
        get = _library.lib.fibs_directory_field
        return player_of(told_field(get, self._owned.at, place, n) for n in _FIELDS)

    def __iter__(self) -> Iterator[Player]:
        return (self[place] for place in range(len(self)))

    def __contains__(self, player: Union[Text, Player]) -> bool:
        """True if a player of this name is listed; of a Player, if it is listed as it is."""
        if isinstance(player, Player):
            return self.get(player.name) == player
        return self.get(player) is not None

    def get(self, name: Text) -> Optional[Player]:
        """The player of a name, or None."""
        data, found = bytes_of(name), _library.Player()
        status, texts = told(_library.lib.fibs_directory_player, self._owned.at, data, len(data), byref(found))
        if status == NoPlayer.status:
            return None
        check(status)
        return player_of((_part(texts, found.name), _part(texts, found.opponent), _part(texts, found.watching),
                          found.ready == 1, found.away == 1, found.rating_hundredths, found.experience, found.idle,
                          found.login, _part(texts, found.hostname), _part(texts, found.client),
                          _part(texts, found.email)))


def _part(texts: bytes, part: _library.Part) -> bytes:
    """A text of a player, among those that the library hands out."""
    return texts[part.start:part.start + part.len]
