"""What a player decides."""

from __future__ import annotations

from ctypes import byref
from typing import Any, Iterable, NamedTuple, Tuple

from . import _library
from ._texts import Text, Word, bytes_of, number_of, told_text
from .errors import check


class DecisionKind(Word):
    """The kinds of decisions."""

    ROLL = 1
    DOUBLE = 2
    ACCEPT = 3
    REJECT = 4
    MOVE = 5
    RESIGN_NORMAL = 6
    RESIGN_GAMMON = 7
    RESIGN_BACKGAMMON = 8


class Step(NamedTuple):
    """A step of one checker, in own numbers, in which the player goes down: 25 is the bar, 0 is off."""

    source: int
    target: int


class Decision(NamedTuple):
    """A decision: its kind, and the steps of a move.

    ROLL, DOUBLE, ACCEPT, REJECT and the three RESIGN_.. of this package are decisions; `move` makes a play.
    """

    kind: DecisionKind
    steps: Tuple[Step, ...] = ()

    @classmethod
    def move(cls, steps: Iterable[Tuple[int, int]]) -> Decision:
        """A play of these steps, each a source and a target in own numbers."""
        return cls(DecisionKind.MOVE, tuple(Step(*step) for step in steps))

    @classmethod
    def parse(cls, text: Text, direction: int) -> Decision:
        """The decision whose command the text is, in the server's numbers for a player of this direction (field 43 of
        a board). NoDirection; NoCommand."""
        record, data = _library.Decision(), bytes_of(text)
        check(_library.lib.fibs_read_decision(data, len(data), direction_of(direction), byref(record)))
        return decision_of(record)

    def command(self, direction: int) -> str:
        """The command, in the server's numbers for a player of this direction (field 43 of a board), such as
        `move 24-18`. NoDecision; NoDirection."""
        record = record_of(self)
        return told_text(_library.lib.fibs_decision_text, byref(record), direction_of(direction)).decode('ascii')

    def __str__(self) -> str:
        """A play in own numbers, such as `24/18 13/11`; another decision as its command."""
        if self.kind != DecisionKind.MOVE:
            return self.command(-1)
        return ' '.join('%s/%s' % ('bar' if source == 25 else source, target or 'off') for source, target in self.steps)


ROLL = Decision(DecisionKind.ROLL)
DOUBLE = Decision(DecisionKind.DOUBLE)
ACCEPT = Decision(DecisionKind.ACCEPT)
REJECT = Decision(DecisionKind.REJECT)
RESIGN_NORMAL = Decision(DecisionKind.RESIGN_NORMAL)
RESIGN_GAMMON = Decision(DecisionKind.RESIGN_GAMMON)
RESIGN_BACKGAMMON = Decision(DecisionKind.RESIGN_BACKGAMMON)


def direction_of(direction: int) -> int:
    """A number that field 43 can have."""
    return number_of(direction, -1 << 31, (1 << 31) - 1, 'a direction')


def record_of(decision: Decision) -> Any:
    """A decision as the library has it, which says whether it is valid."""
    if not isinstance(decision, Decision):
        raise TypeError('a Decision is wanted, not %s' % type(decision).__name__)
    steps = decision.steps
    record = _library.Decision(number_of(decision.kind, 0, 255, 'a kind'), min(len(steps), 255))
    for i, (source, target) in enumerate(steps[:4]):
        record.steps[i] = (number_of(source, 0, 255, 'a place'), number_of(target, 0, 255, 'a place'))
    return record


def decision_of(record: Any) -> Decision:
    """The library's decision."""
    steps = record.steps[:record.count]
    return Decision(DecisionKind(record.kind), tuple(Step(step.source, step.target) for step in steps))
