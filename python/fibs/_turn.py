"""A turn step by step."""

from __future__ import annotations

from typing import Dict, Iterator, List, NamedTuple, Optional, Tuple

from ._boards import Board, refusal
from ._decisions import Decision, Step
from .errors import IllegalPlay

# The checkers of a side by place: off at 0, the bar at 25.
_Side = Tuple[int, ...]


class NextStep(NamedTuple):
    """A step that may be played next, in own numbers: the die that it takes, and whether it hits."""

    source: int
    target: int
    die: int
    hits: bool


class _State(NamedTuple):
    """The checkers of both sides, those of the opponent by the player's places too: on the bar at 0, off at 25; the
    dice that are left, the smaller first; and the step that led there."""

    own: _Side
    other: _Side
    dice: Tuple[int, ...]
    step: Optional[NextStep]

    def after(self, source: int, die: int) -> Optional[_State]:
        """What a step by a die leads to, whether or not the others can then be played. None if the rules forbid it."""
        own, target = self.own, max(source - die, 0)
        if not own[source] or own[25] and source != 25 or target and self.other[target] > 1:
            return None
        if source <= die and (any(own[7:]) or source < die and any(own[source + 1:])):
            return None
        hits = target > 0 and self.other[target] == 1
        moved, other, dice = list(own), list(self.other), list(self.dice)
        moved[source] -= 1
        moved[target] += 1
        if hits:
            other[target], other[0] = 0, other[0] + 1
        dice.remove(die)
        return _State(tuple(moved), tuple(other), tuple(dice), NextStep(source, target, die, hits))

    def next(self) -> Iterator[_State]:
        """What one step leads to, from the highest place down."""
        for source in range(25, 0, -1):
            if self.own[source]:
                for die in sorted(set(self.dice)):
                    state = self.after(source, die)
                    if state:
                        yield state


class Turn:
    """The turn of a player who is to move: the steps that were taken, and those that may follow, each of which goes on
    to a legal play of `Board.plays`. It changes by `take` and `undo`.

        turn = fibs.Turn(board)
        turn.take(24, 18)
        print(turn.next, turn.play)
    """

    def __init__(self, board: Board) -> None:
        """NotYours or WrongKind if the player does not move on the board; one of NoPosition."""
        # a play without a step is asked for: it is of the right kind if some play is
        why = refusal(board, Decision.move(()))
        if why and not isinstance(why, IllegalPlay):
            raise why
        first, second = board.dice or (0, 0)
        dice = (first,) * 4 if first == second else tuple(sorted(die for die in (first, second) if die))
        self._states = [_State(board.checkers, board.opponent_checkers[::-1], dice, None)]
        # the listed play of each arrangement that a legal play reaches
        self._listed: Dict[Tuple[_Side, _Side], Decision] = {}
        for play in board.plays():
            after = board.after(play)
            self._listed[after.checkers, after.opponent_checkers[::-1]] = play
        self._known: Dict[_State, bool] = {}

    def _play_of(self, state: _State, taken: int) -> Optional[Decision]:
        """The listed play that reaches the same by as many steps."""
        play = self._listed.get((state.own, state.other))
        return play if play and len(play.steps) == taken else None

    def _leads(self, state: _State, taken: int) -> bool:
        """True if a state after so many steps is that of a listed play, or one that leads there."""
        key = state._replace(step=None)
        if key not in self._known:
            self._known[key] = bool(self._play_of(state, taken)) or any(
                self._leads(after, taken + 1) for after in state.next())
        return self._known[key]

    def _next(self) -> List[_State]:
        taken = len(self._states)
        return [state for state in self._states[-1].next() if self._leads(state, taken)]

    @property
    def next(self) -> List[NextStep]:
        """The steps that may follow; none if the play is whole. A checker that either die bears off is there with each,
        the smaller first."""
        return [state.step for state in self._next() if state.step]

    @property
    def taken(self) -> List[NextStep]:
        """The steps that were taken."""
        return [state.step for state in self._states if state.step]

    @property
    def dice(self) -> Tuple[int, ...]:
        """The dice that are left: after a roll of doubles up to four."""
        return self._states[-1].dice

    @property
    def checkers(self) -> Tuple[int, ...]:
        """The player's checkers by place, after the steps: off at 0, the bar at 25."""
        return self._states[-1].own

    @property
    def opponent_checkers(self) -> Tuple[int, ...]:
        """The opponent's checkers by place, in the opponent's own numbers, after the steps."""
        return self._states[-1].other[::-1]

    @property
    def play(self) -> Optional[Decision]:
        """The listed play that leads to the same arrangement as the steps; None if more has to be played."""
        return self._play_of(self._states[-1], len(self._states) - 1)

    def take(self, source: int, target: int, die: Optional[int] = None) -> NextStep:
        """Takes a step, by this die, or by the smallest that it can be taken by. IllegalPlay if it is not one of the
        next ones: then nothing is taken."""
        for state in self._next():
            step = state.step
            if step and (step.source, step.target) == (source, target) and die in (None, step.die):
                self._states.append(state)
                return step
        raise IllegalPlay()

    def undo(self) -> Optional[NextStep]:
        """Takes the last step back. None if there is none."""
        return self._states.pop().step if len(self._states) > 1 else None

    def __repr__(self) -> str:
        steps = Decision.move(Step(step.source, step.target) for step in self.taken)
        return '<fibs.Turn: %s>' % (str(steps) or 'no step')
