"""libfibs as Python sees it: where it is found, the layout of its records, what its functions take and answer.

What follows the names and layouts of include/fibs.h is here and nowhere else in the package.
"""

from __future__ import annotations

import ctypes
import os
import struct
from ctypes import POINTER, Structure, byref, c_char_p, c_int32, c_size_t, c_uint8, c_uint32, c_uint64, c_void_p
from typing import Any

# The library that this package is for. While the first number is 0 the second one changes with the records and
# functions.
VERSION = '0.4.0'
SONAME = 'libfibs.so.0.4'

# The statuses for which this package has no exception of its own.
DONE, OFFLINE, NOT_READY, NO_BOARD, MEMORY, SHORT, NOTHING_WAITS = 0, 2, 3, 5, 401, 503, 507

# The kinds of a field's value; those that are left have bytes.
FLAG, NUMBER, RATING = 4, 5, 6

# The length of an unlimited match, as a board has it.
UNLIMITED = 9999

# The field of a board's record that comes first in its numbers, and the one that has the direction of the player.
FIRST_FIELD, DIRECTION = 4, 43


class Kind(Structure):
    field: int
    kind: int
    number: int
    fault: int
    _fields_ = [('field', c_size_t), ('kind', c_uint8), ('number', c_uint8), ('fault', c_uint8)]


class Row(Structure):
    kind: Kind
    cut: int
    _fields_ = [('start', c_size_t), ('len', c_size_t), ('kind', Kind), ('cut', c_uint8)]


class Fed(Structure):
    used: int
    len: int
    ended: int
    cut: int
    _fields_ = [('used', c_size_t), ('len', c_size_t), ('ended', c_uint8), ('cut', c_uint8)]


class Told(Structure):
    used: int
    lines: int
    bytes: int
    _fields_ = [('used', c_size_t), ('lines', c_size_t), ('bytes', c_size_t)]


class Board(Structure):
    player_len: int
    opponent_len: int
    player: Any
    opponent: Any
    number: Any
    _fields_ = [('player_len', c_size_t), ('opponent_len', c_size_t), ('player', c_uint8 * 64),
                ('opponent', c_uint8 * 64), ('number', c_int32 * 50)]


class Field(Structure):
    len: int
    number: int
    kind: int
    _fields_ = [('len', c_size_t), ('number', c_uint64), ('kind', c_uint8)]


class Part(Structure):
    start: int
    len: int
    _fields_ = [('start', c_size_t), ('len', c_size_t)]


class Player(Structure):
    name: Part
    opponent: Part
    watching: Part
    hostname: Part
    client: Part
    email: Part
    experience: int
    idle: int
    login: int
    rating_hundredths: int
    ready: int
    away: int
    _fields_ = [('name', Part), ('opponent', Part), ('watching', Part), ('hostname', Part), ('client', Part),
                ('email', Part), ('experience', c_uint64), ('idle', c_uint64), ('login', c_uint64),
                ('rating_hundredths', c_uint32), ('ready', c_uint8), ('away', c_uint8)]


class Step(Structure):
    source: int
    target: int
    _fields_ = [('source', c_uint8), ('target', c_uint8)]


class Decision(Structure):
    kind: int
    count: int
    steps: Any
    _fields_ = [('kind', c_uint8), ('count', c_uint8), ('steps', Step * 4)]


class Wire(Structure):
    len: int
    bytes: Any
    _fields_ = [('len', c_size_t), ('bytes', c_uint8 * 1542)]


class Outstanding(Structure):
    board: Board
    decision: Decision
    _fields_ = [('board', Board), ('decision', Decision)]


class Heard(Structure):
    used: int
    len: int
    kind: Kind
    ended: int
    cut: int
    confirmed: Decision
    rolled: int
    _fields_ = [('used', c_size_t), ('len', c_size_t), ('kind', Kind), ('ended', c_uint8), ('cut', c_uint8),
                ('confirmed', Decision), ('rolled', c_uint8)]


class Name(Structure):
    len: int
    bytes: Any
    _fields_ = [('len', c_size_t), ('bytes', c_uint8 * 64)]


class Event(Structure):
    experience: int
    name: Name
    points: int
    length: int
    score: Any
    rating_hundredths: int
    play: Decision
    kind: int
    who: int
    worth: int
    offer: int
    dice: Any
    _fields_ = [('experience', c_uint64), ('name', Name), ('points', c_uint32), ('length', c_uint32),
                ('score', c_uint32 * 2), ('rating_hundredths', c_uint32), ('play', Decision), ('kind', c_uint8),
                ('who', c_uint8),
                ('worth', c_uint8), ('offer', c_uint8), ('dice', c_uint8 * 2)]


class Happened(Structure):
    count: int
    events: Any
    _fields_ = [('count', c_size_t), ('events', Event * 7)]


class Saved(Structure):
    name: Name
    length: int
    score: Any
    there: int
    _fields_ = [('name', Name), ('length', c_uint32), ('score', c_uint32 * 2), ('there', c_uint8)]


# A row of many lines, unpacked at once: start, length, the wrong field, kind, number, fault, cut.
ROW = struct.Struct('=QQQBBB5xB7x')

def _offset(record: Any, field: str) -> int:
    """Where a field of a record begins."""
    offset: int = getattr(record, field).offset
    return offset


# Where the kind and the cut of a row are.
KIND_AT, CUT_AT = _offset(Row, 'kind') + _offset(Kind, 'kind'), _offset(Row, 'cut')

_HANDLE = POINTER(c_void_p)
_LENGTH = POINTER(c_size_t)
_DATA = [c_char_p, c_size_t]
_ROOM = [c_void_p, c_size_t]
_PIECE = [c_void_p, c_size_t]

# Each function: what it answers, and its parameters.
_FUNCTIONS: dict[str, tuple[Any, list[Any]]] = {
    'fibs_version': (c_char_p, []),
    'fibs_status_name': (c_char_p, [c_uint32]),
    'fibs_max_line': (c_size_t, []),
    'fibs_lines_new': (c_uint32, [_HANDLE]),
    'fibs_lines_free': (None, [_HANDLE]),
    'fibs_lines_reset': (c_uint32, [_HANDLE]),
    'fibs_lines_held': (c_uint32, [_HANDLE, _LENGTH]),
    'fibs_lines_unfinished': (c_uint32, [_HANDLE, *_ROOM, _LENGTH]),
    'fibs_lines_feed': (c_uint32, [_HANDLE, *_PIECE, *_ROOM, POINTER(Fed)]),
    'fibs_read_lines': (c_uint32, [_HANDLE, *_PIECE, *_ROOM, c_void_p, c_size_t, POINTER(Told)]),
    'fibs_read': (Kind, _DATA),
    'fibs_read_board': (c_uint32, [*_DATA, POINTER(Board), _LENGTH]),
    'fibs_print_board': (c_uint32, [*_DATA, *_ROOM, _LENGTH]),
    'fibs_board_line': (c_uint32, [POINTER(Board), *_ROOM, _LENGTH]),
    'fibs_read_field': (c_uint32, [*_DATA, c_size_t, POINTER(Field), *_ROOM]),
    'fibs_phase': (c_uint32, [*_DATA, POINTER(c_uint8)]),
    'fibs_allows': (c_uint32, [*_DATA, POINTER(Decision)]),
    'fibs_plays': (c_uint32, [*_DATA, POINTER(Decision), c_size_t, _LENGTH]),
    'fibs_effect': (c_uint32, [*_DATA, POINTER(Decision), c_uint8, c_uint8, *_ROOM, _LENGTH]),
    'fibs_turned': (c_uint32, [*_DATA, *_ROOM, _LENGTH]),
    'fibs_differs': (c_uint32, [*_DATA, *_DATA, POINTER(c_uint8)]),
    'fibs_match_over': (c_uint32, [*_DATA, POINTER(c_uint8)]),
    'fibs_cube_owner': (c_uint32, [*_DATA, POINTER(c_uint8)]),
    'fibs_crawford': (c_uint32, [*_DATA, POINTER(c_uint8)]),
    'fibs_words': (c_uint32, [*_DATA, *_ROOM, _LENGTH]),
    'fibs_decision_text': (c_uint32, [POINTER(Decision), c_int32, *_ROOM, _LENGTH]),
    'fibs_read_decision': (c_uint32, [*_DATA, c_int32, POINTER(Decision)]),
    'fibs_client_new': (c_uint32, [_HANDLE, *_DATA, *_DATA]),
    'fibs_client_free': (None, [_HANDLE]),
    'fibs_client_open': (c_uint32, [_HANDLE, POINTER(Wire)]),
    'fibs_client_feed': (c_uint32, [_HANDLE, *_PIECE, *_ROOM, POINTER(Heard), POINTER(Wire)]),
    'fibs_client_ready': (c_uint32, [_HANDLE]),
    'fibs_client_unfinished': (c_uint32, [_HANDLE, *_ROOM, _LENGTH]),
    'fibs_client_decide': (c_uint32, [_HANDLE, POINTER(Decision), POINTER(Wire)]),
    'fibs_client_plain': (c_uint32, [_HANDLE, *_DATA, POINTER(Wire)]),
    'fibs_client_own_line': (c_uint32, [_HANDLE, *_DATA, POINTER(Wire)]),
    'fibs_client_unguarded_line': (c_uint32, [_HANDLE, *_DATA, POINTER(Wire)]),
    'fibs_client_order_roll': (c_uint32, [_HANDLE]),
    'fibs_client_withdraw_roll': (c_uint32, [_HANDLE]),
    'fibs_client_ordered': (c_uint32, [_HANDLE, POINTER(c_uint8)]),
    'fibs_client_lose': (c_uint32, [_HANDLE, POINTER(Outstanding)]),
    'fibs_client_shown_line': (c_uint32, [_HANDLE, *_ROOM, _LENGTH]),
    'fibs_client_waiting': (c_uint32, [_HANDLE, POINTER(Outstanding)]),
    'fibs_events_new': (c_uint32, [_HANDLE]),
    'fibs_events_free': (None, [_HANDLE]),
    'fibs_events_hear': (c_uint32, [_HANDLE, *_DATA, POINTER(Happened)]),
    'fibs_events_hear_bytes': (c_uint32, [_HANDLE, *_DATA, POINTER(Happened)]),
    'fibs_events_open': (c_uint32, [_HANDLE]),
    'fibs_events_opponent': (c_uint32, [_HANDLE, *_ROOM, _LENGTH]),
    'fibs_saved_match': (None, [*_DATA, POINTER(Saved)]),
    'fibs_directory_new': (c_uint32, [_HANDLE]),
    'fibs_directory_free': (None, [_HANDLE]),
    'fibs_directory_note': (c_uint32, [_HANDLE, *_DATA]),
    'fibs_directory_len': (c_uint32, [_HANDLE, _LENGTH]),
    'fibs_directory_clear': (c_uint32, [_HANDLE]),
    'fibs_directory_field': (c_uint32, [_HANDLE, c_size_t, c_size_t, POINTER(Field), *_ROOM]),
    'fibs_directory_player': (c_uint32, [_HANDLE, *_DATA, POINTER(Player), *_ROOM, _LENGTH]),
}


def _path() -> str:
    """The library's file: $FIBS_LIBRARY, the one beside this file, as a wheel has it, or the one that the loader
    knows."""
    beside = os.path.join(os.path.dirname(os.path.abspath(__file__)), 'libfibs.so')
    return os.environ.get('FIBS_LIBRARY') or (beside if os.path.exists(beside) else SONAME)


def _load() -> Any:
    """The library. Its calls keep the interpreter's lock: they are short, and no two run at once."""
    path = _path()
    try:
        library = ctypes.PyDLL(path)
        for name, (answer, parameters) in _FUNCTIONS.items():
            function = getattr(library, name)
            function.restype = answer
            function.argtypes = parameters
        version: str = library.fibs_version().decode()
        if version.split('.')[:2] != VERSION.split('.')[:2]:
            raise OSError('%s is libfibs %s' % (path, version))
    except (OSError, AttributeError) as why:
        raise ImportError('no libfibs %s: %s; `make lib`, which takes gcc and cargo, builds lib/libfibs.so in the '
                          'repository, `make install-lib` installs it, and FIBS_LIBRARY names its file'
                          % (VERSION, why)) from why
    return library


lib = _load()

# How many bytes of a line are kept.
MAX_LINE: int = lib.fibs_max_line()


def address_of(data: bytes) -> int:
    """The address of bytes, for as long as they are kept."""
    return ctypes.cast(c_char_p(data), c_void_p).value or 0


def status_name(status: int) -> str:
    """The library's name of a status, such as NotYours; the empty text if there is no such status."""
    name: bytes = lib.fibs_status_name(status)
    return name.decode()


class Owned:
    """A handle of the library, and what it owns up to release()."""

    # The function by which what is owned is given back, once there is something.
    _free = ''

    def __init__(self, made_by: str, freed_by: str, *words: Any) -> None:
        self._handle = c_void_p()
        self._free = freed_by
        # what the library's functions take
        self.at = byref(self._handle)
        self.status: int = getattr(lib, made_by)(self.at, *words)

    @property
    def holds(self) -> bool:
        """True up to release()."""
        return bool(self._handle)

    def release(self) -> None:
        """Gives the memory back. Once more does nothing."""
        getattr(lib, self._free)(self.at)

    def __del__(self) -> None:
        if self._free:
            self.release()
