"""The nineteen messages of a server, each as a named tuple of its own: what `line.message` gives.

    for line in fibs.Lines('session.log'):
        if isinstance(line.message, fibs.messages.Says):
            print(line.message.name, line.message.text)

Names, words and texts are bytes; a text may be empty. Numbers are int, flags are bool, times are in seconds since 1970.
A rating is a field in hundredths, and a text such as 1623.50 by name. They compare as tuples: ask by isinstance which
message one is.
"""

from __future__ import annotations

from typing import Any, Dict, Iterable, NamedTuple, Optional, Type, Union, get_args

from ._texts import rating_of


class Welcome(NamedTuple):
    """1: the user is logged in."""

    name: bytes
    last_login: int
    last_host: bytes


class OwnInfo(NamedTuple):
    """2: the user's settings."""

    name: bytes
    allowpip: bool
    autoboard: bool
    autodouble: bool
    automove: bool
    away: bool
    bell: bool
    crawford: bool
    double: bool
    experience: int
    greedy: bool
    moreboards: bool
    moves: bool
    notify: bool
    rating_hundredths: int
    ratings: bool
    ready: bool
    redoubles: bytes
    report: bool
    silent: bool
    timezone: bytes

    @property
    def rating(self) -> str:
        """The user's rating as the server writes it."""
        return rating_of(self.rating_hundredths)


class MotdBegin(NamedTuple):
    """3: the message of the day begins."""


class MotdEnd(NamedTuple):
    """4: the message of the day has ended."""


class Player(NamedTuple):
    """5: a player. None means no opponent, none watched, no client or no email. idle is in seconds."""

    name: bytes
    opponent: Optional[bytes]
    watching: Optional[bytes]
    ready: bool
    away: bool
    rating_hundredths: int
    experience: int
    idle: int
    login: int
    hostname: bytes
    client: Optional[bytes]
    email: Optional[bytes]

    @property
    def rating(self) -> str:
        """The player's rating as the server writes it."""
        return rating_of(self.rating_hundredths)


def _named(text: Optional[bytes]) -> Optional[bytes]:
    """A text of a player, or None if it is the server's word for none."""
    return None if text == b'-' else text


def player_of(fields: Iterable[Any]) -> Player:
    """The player of the fields of a message 5."""
    player = Player._make(fields)
    return player._replace(opponent=_named(player.opponent), watching=_named(player.watching),
                           client=_named(player.client), email=_named(player.email))


class WhoInfoEnd(NamedTuple):
    """6: a list of players has ended."""


class Login(NamedTuple):
    """7: a player logged in."""

    name: bytes
    text: bytes


class Logout(NamedTuple):
    """8: a player logged out."""

    name: bytes
    text: bytes


class MessageReceived(NamedTuple):
    """9: a message that was left for the user."""

    sender: bytes
    time: int
    text: bytes


class MessageDelivered(NamedTuple):
    """10: the user's message reached a player."""

    name: bytes


class MessageSaved(NamedTuple):
    """11: the user's message is kept for a player."""

    name: bytes


class Says(NamedTuple):
    """12: a player says something to the user."""

    name: bytes
    text: bytes


class Shouts(NamedTuple):
    """13: a player shouts to all."""

    name: bytes
    text: bytes


class Whispers(NamedTuple):
    """14: a player whispers to those who watch."""

    name: bytes
    text: bytes


class Kibitzes(NamedTuple):
    """15: a player kibitzes to those who play and watch."""

    name: bytes
    text: bytes


class YouSay(NamedTuple):
    """16: what the user said to a player."""

    name: bytes
    text: bytes


class YouShout(NamedTuple):
    """17: what the user shouted."""

    text: bytes


class YouWhisper(NamedTuple):
    """18: what the user whispered."""

    text: bytes


class YouKibitz(NamedTuple):
    """19: what the user kibitzed."""

    text: bytes


Message = Union[Welcome, OwnInfo, MotdBegin, MotdEnd, Player, WhoInfoEnd, Login, Logout, MessageReceived,
                MessageDelivered, MessageSaved, Says, Shouts, Whispers, Kibitzes, YouSay, YouShout, YouWhisper,
                YouKibitz]

# By the number of the message.
KINDS: Dict[int, Type[Any]] = dict(enumerate(get_args(Message), 1))


def message_of(number: int, fields: Iterable[Any]) -> Message:
    """The message of a number and its fields."""
    message: Message = player_of(fields) if KINDS[number] is Player else KINDS[number]._make(fields)
    return message
