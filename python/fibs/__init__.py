"""FIBS, the First Internet Backgammon Server, from Python: its lines, boards, rules, a client, and the players.

    import fibs
    for line in fibs.Lines('session.log'):
        if line.kind == fibs.BOARD:
            print(line.board.phase.name, [str(play) for play in fibs.plays(line.text)])

It uses only the library for C of Liftplum, whose functions are proved, and the standard library. What a server
sends is bytes; a text of your own may also be a str. A call that can't be done raises an Error, one for each reason.
The package has no thread and no socket of its own. Use each Client, Lines, Events and Directory from one thread at a
time.
"""

from . import _library, events, match_files, messages
from ._boards import Board, CubeOwner, Phase, allows, phase, plays, print_board, refusal
from ._client import Client, Heard, Outstanding
from ._decisions import (ACCEPT, DOUBLE, REJECT, RESIGN_BACKGAMMON, RESIGN_GAMMON, RESIGN_NORMAL, ROLL, Decision,
                         DecisionKind, Step)
from ._directory import Directory
from ._events import Events
from ._lines import Counts, Fault, Kind, Line, Lines, Stream, fields, read
from ._saved import SavedMatch, saved_match
from ._turn import NextStep, Turn
from .errors import (AlreadyOpen, AlreadyOrdered, BadCommand, BadName, BadText, Closed, Error, FieldBadName,
                     FieldExtra, FieldMissing, FieldNotANumber, FieldOutOfRange, Full, IllegalPlay, NoBoard,
                     NoCommand, NoDecision, NoDirection, NoEffect, NoField, NoPlayer, NoPosition, NotABoard, NotOn,
                     NotOrdered, NotReady, NotYou, NotYours, Offline, Refused, ServerPlays, Taken, TooLong,
                     TooManyOther, TooManyOwn, Waiting, WrongKind)
from .match_files import MatchFile, MatchFiles
from .messages import Player

TEXT, MESSAGE, BOARD, MALFORMED = Kind.TEXT, Kind.MESSAGE, Kind.BOARD, Kind.MALFORMED

# What field 4 of a board says of an unlimited match, whose length is None.
UNLIMITED = _library.UNLIMITED

# How many bytes of a line are kept.
MAX_LINE = _library.MAX_LINE

# The version of the package and of the library that it is for.
__version__ = '0.4.0'

__all__ = [
    'ACCEPT', 'AlreadyOpen', 'AlreadyOrdered', 'BOARD', 'BadCommand', 'BadName', 'BadText', 'Board', 'Client', 'Closed',
    'Counts', 'CubeOwner', 'DOUBLE', 'Decision', 'DecisionKind', 'Directory', 'Error', 'Events', 'Fault',
    'FieldBadName', 'FieldExtra', 'FieldMissing', 'FieldNotANumber', 'FieldOutOfRange', 'Full', 'Heard', 'IllegalPlay',
    'Kind', 'Line', 'Lines', 'MALFORMED', 'MAX_LINE', 'MESSAGE', 'MatchFile', 'MatchFiles', 'NextStep', 'NoBoard',
    'NoCommand', 'NoDecision', 'NoDirection', 'NoEffect', 'NoField', 'NoPlayer', 'NoPosition', 'NotABoard', 'NotOn',
    'NotOrdered', 'NotReady', 'NotYou', 'NotYours', 'Offline', 'Outstanding', 'Phase', 'Player', 'REJECT',
    'RESIGN_BACKGAMMON', 'RESIGN_GAMMON', 'RESIGN_NORMAL', 'ROLL', 'Refused', 'SavedMatch', 'ServerPlays', 'Step',
    'Stream', 'TEXT', 'Taken', 'TooLong', 'TooManyOther', 'TooManyOwn', 'Turn', 'UNLIMITED', 'Waiting', 'WrongKind',
    'allows', 'events', 'fields', 'match_files', 'messages', 'phase', 'plays', 'print_board', 'read', 'refusal',
    'saved_match',
]
