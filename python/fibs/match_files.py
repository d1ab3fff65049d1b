"""Match files of sessions, in the format of Jellyfish, which GNU Backgammon imports (`import mat bob.mat`).

    files = fibs.MatchFiles()
    for line in fibs.Lines('ann.log'):
        files.hear(line)
    for file in files.files:
        pathlib.Path('%s.mat' % file.opponent.decode()).write_bytes(file.text)

The boards say what was played: between two of them lies the shortest run of rolls, plays and doubles that leads from
one to the other, with the dice that the server's texts name. So what a lost connection hid is filled in, if the rules
tell what it was; dice that nobody showed are then such that the play was legal. A game of which the beginning is
missing is left out; one that can't be followed to its end has its result alone.

The program fibs-mat loads this file alone, and needs no library: it hears the objects that `fibs show --events` prints.
"""

from __future__ import annotations

import functools
from dataclasses import dataclass, field, replace
from typing import (TYPE_CHECKING, Any, Callable, Iterable, Iterator, List, Mapping, NamedTuple, NoReturn, Optional,
                    Sequence, Tuple, Union)

if TYPE_CHECKING:
    from ._events import Events
    from ._lines import Line
    from ._texts import Text
    from .events import Event

# The sides.
_OWN, _OTHER = 0, 1

# The sides, as objects of events name them.
_SIDES = {'player': _OWN, 'opponent': _OTHER}

# The checkers of a side by place, in its own numbering; dice, the greater first; a roll of a side; the steps of a play.
_Checkers = Tuple[int, ...]
_Dice = Tuple[int, int]
_Roll = Tuple[int, _Dice]
_Steps = Tuple[Tuple[int, int], ...]

# What lists the legal plays of a board's line, each as its steps in the numbering of the side that plays.
Plays = Callable[[str], Sequence[Sequence[Sequence[int]]]]

# The checkers of a side at the beginning of a game.
_START = tuple({6: 5, 8: 3, 13: 5, 24: 2}.get(place, 0) for place in range(26))

_DICE = [(first, second) for first in range(1, 7) for second in range(1, first + 1)]

# How many plays the search goes from one board to the next: a lost connection hides an own one and the answer to it.
_MOST_PLAYS = 2

# The length of a match that goes on until both leave.
_UNLIMITED = 9999

# What a side does: _ROLL has dice; _PLAY has the dice rolled and its steps, of which there may be none.
_ROLL, _PLAY, _DOUBLE, _TAKE = 'roll', 'play', 'double', 'take'

# Events after which an offer to resign is over: it was declined, or the game goes on without an answer.
_GOES_ON = {'declined', 'rolled', 'played', 'cannot_move', 'doubled'}


class MatchFile(NamedTuple):
    """A match as a file: the opponent, what is to stand in the file, the user's name, how many points the match is to,
    None if it is unlimited, the points of the user and of the opponent, and whether one of them has won it."""

    opponent: bytes
    text: bytes
    name: bytes
    length: Optional[int]
    score: int
    opponent_score: int
    is_over: bool


class _Action(NamedTuple):
    kind: str
    side: int
    dice: _Dice = (0, 0)
    steps: _Steps = ()


class _Board:
    """A board of the user's own game."""

    def __init__(self, told: Mapping[str, Any]) -> None:
        self.opponent: str = told['opponent']
        self.length: int = told['length']
        self.scores: Tuple[int, int] = (told['score'], told['opponent_score'])
        self.sides: Tuple[_Checkers, _Checkers] = (tuple(told['checkers']), tuple(told['opponent_checkers']))
        self.turn = _SIDES.get(told['turn'])
        self.cube: int = told['cube']
        self.was_doubled: bool = told['was_doubled']
        dice = told['dice'] if self.turn == _OWN else told['opponent_dice']
        self.dice = _sorted(dice) if dice and all(dice) else None

    def is_over(self) -> bool:
        return self.turn is None


@dataclass(frozen=True)
class _State:
    """A game: the checkers of both sides, whose turn it is, the dice, the cube and who owns it, and who has doubled."""

    sides: Tuple[_Checkers, _Checkers] = (_START, _START)
    turn: Optional[int] = None
    dice: Optional[_Dice] = None
    cube: int = 1
    owner: Optional[int] = None
    doubler: Optional[int] = None

    def is_won(self) -> bool:
        """True if a side bore off its last checker."""
        return any(side[0] == 15 for side in self.sides)

    def is_shown_by(self, board: _Board) -> bool:
        """True if the board shows this state."""
        if self.sides != board.sides or self.cube != board.cube:
            return False
        if board.is_over():
            return self.is_won()
        if self.doubler is not None:
            return self.doubler == (_OTHER if board.was_doubled else _OWN) and not board.dice
        return not board.was_doubled and self.turn == board.turn and self.dice == board.dice


# -- the way from one board to the next --

# What can be done in a state: the action, the state that it leads to, and the rolls that were told and are left.
_Next = Tuple[_Action, _State, Tuple[_Roll, ...]]

# A way: what was done, and the state at its end.
_Way = Tuple[List[_Action], _State]


def _sorted(dice: Iterable[int]) -> _Dice:
    """Dice with the greater one first."""
    first, second = sorted(dice, reverse=True)
    return first, second


def _line_of(own: _Checkers, other: _Checkers, dice: _Dice) -> str:
    """A board's line for the side that is to move: its checkers and those of the other side, each in its own
    numbering."""
    places = [0] * 26
    for place in range(1, 26):
        places[place] += own[place]
        places[25 - place] -= other[place]
    numbers = [_UNLIMITED, 0, 0, *places, 1, *dice, 0, 0, 1, 0, 0, 0, 1, -1, 0, 25, own[0], other[0], own[25],
               other[25], 0, 0, 0, 0]
    return ':'.join(['board:You:other', *map(str, numbers)])


def _moved(own: _Checkers, other: _Checkers, steps: _Steps) -> Tuple[_Checkers, _Checkers]:
    """The checkers after a play of the side that is own: a lone checker on its way goes to the bar."""
    mine, theirs = list(own), list(other)
    for source, target in steps:
        mine[source] -= 1
        mine[target] += 1
        if target and theirs[25 - target] == 1:
            theirs[25 - target] = 0
            theirs[25] += 1
    return tuple(mine), tuple(theirs)


def _rolls(state: _State, told: Tuple[_Roll, ...]) -> Iterator[_Next]:
    """Each roll of a state without dice, with the rolls that are left: the dice that the server named, or any."""
    if state.turn is None:
        choices = [(side, dice) for side in (_OWN, _OTHER) for dice in _DICE if dice[0] != dice[1]]
    else:
        choices = [(state.turn, dice) for dice in _DICE]
    for side, dice in choices:
        if not told or told[0] == (side, dice):
            yield _Action(_ROLL, side, dice), replace(state, turn=side, dice=dice), told[1:]


def _cubes(state: _State, told: Tuple[_Roll, ...], board: _Board) -> Iterator[_Next]:
    """A double, or the taking of one."""
    if state.doubler is not None:
        taken = replace(state, cube=2 * state.cube, owner=1 - state.doubler, turn=state.doubler, doubler=None)
        yield _Action(_TAKE, 1 - state.doubler), taken, told
    elif state.turn is not None and not state.dice and state.owner in (None, state.turn):
        if board.cube > state.cube or board.was_doubled:
            yield _Action(_DOUBLE, state.turn), replace(state, doubler=state.turn), told


def _pips(checkers: _Checkers) -> int:
    return sum(place * count for place, count in enumerate(checkers))


def _can_become(checkers: _Checkers, shown: _Checkers, is_last: bool, most: int) -> bool:
    """False if no plays, at most so many of this side, make the checkers of a side those that are shown: none is
    taken back that was borne off, a play goes at most 24 pips, and after the last play of the side only hits change
    them."""
    if checkers[0] > shown[0] or _pips(checkers) - _pips(shown) > 24 * most:
        return False
    return not is_last or all(have == left or have == 1 and left == 0
                              for have, left in zip(checkers[1:25], shown[1:25]))


def _can_reach(state: _State, board: _Board, most: int) -> bool:
    """False if so many plays can't lead to what the board shows."""
    if state.cube > board.cube:
        return False
    first = state.turn if state.turn is not None else _OWN
    counts = {first: (most + 1) // 2, 1 - first: most // 2}
    if state.turn is None:
        counts[_OTHER] = counts[_OWN]
    return all(_can_become(state.sides[side], board.sides[side], counts[side] == 0, counts[side])
               for side in (_OWN, _OTHER))


class _Search:
    """Finds what was done between two boards."""

    def __init__(self, plays: Plays) -> None:
        @functools.lru_cache(maxsize=None)
        def legal(own: _Checkers, other: _Checkers, dice: _Dice) -> Tuple[_Steps, ...]:
            found = plays(_line_of(own, other, dice))
            return tuple(tuple((source, target) for source, target in steps) for steps in found)
        # the legal plays of a side that has rolled
        self._legal = legal

    def _plays(self, state: _State, turn: int, dice: _Dice, told: Tuple[_Roll, ...]) -> Iterator[_Next]:
        """Each play of the side that has these dice."""
        rest = replace(state, turn=1 - turn, dice=None)
        own, other = state.sides[turn], state.sides[1 - turn]
        for steps in self._legal(own, other, dice) or ((),):
            mine, theirs = _moved(own, other, steps)
            sides = (mine, theirs) if turn == _OWN else (theirs, mine)
            yield _Action(_PLAY, turn, dice, steps), replace(rest, sides=sides), told

    def _steps_from(self, state: _State, told: Tuple[_Roll, ...], board: _Board, most: int) -> Iterator[_Next]:
        """What can be done in a state on the way to a board."""
        yield from _cubes(state, told, board)
        if state.doubler is None and not state.is_won():
            if not state.dice:
                yield from _rolls(state, told)
            elif most and state.turn is not None:
                yield from self._plays(state, state.turn, state.dice, told)

    def way(self, state: _State, told: Tuple[_Roll, ...], board: _Board, most: int) -> Optional[_Way]:
        """The way from a state to what a board shows, with at most so many plays; or None. Each roll that was told has
        to be on it."""
        if state.is_shown_by(board) and not told:
            return [], state
        if not _can_reach(state, board, most):
            return None
        for action, after, left in self._steps_from(state, told, board, most):
            found = self.way(after, left, board, most - (action.kind == _PLAY))
            if found:
                return [action, *found[0]], found[1]
        return None

    def shortest(self, state: _State, told: Tuple[_Roll, ...], board: _Board) -> Optional[_Way]:
        """The way with the fewest plays; what the server said of dice is left aside if no way has it."""
        for given in ([told, ()] if told else [()]):
            for most in range(_MOST_PLAYS + 1):
                found = self.way(state, given, board, most)
                if found:
                    return found
        return None


# -- games and matches --

@dataclass
class _Game:
    """A game: the scores before it, what was done, and who won how many points, if it is over."""

    scores: Tuple[int, int]
    actions: List[_Action] = field(default_factory=list)
    winner: Optional[int] = None
    points: int = 0
    is_dropped: bool = False

    def scores_after(self) -> Tuple[int, int]:
        own, other = (score + self.points * (side == self.winner) for side, score in enumerate(self.scores))
        return own, other


@dataclass
class _Match:
    """A match: the names of both sides, its length, and the games of which a session tells; the game that is played,
    with its state at the last board, or None if it can't be followed."""

    names: Tuple[str, str]
    length: int
    game: _Game
    state: Optional[_State] = field(default_factory=_State)
    games: List[_Game] = field(default_factory=list)

    def __post_init__(self) -> None:
        self.games.append(self.game)

    def begin_game(self, scores: Tuple[int, int]) -> None:
        self.game, self.state = _Game(scores), _State()
        self.games.append(self.game)

    def goes_on_with(self, board: _Board) -> bool:
        """True if the board can be one of this match: a point that was won stays, and a match that is won is over."""
        return (self.names[_OTHER] == board.opponent and self.length == board.length
                and not (self.is_won() and not board.is_over())
                and all(new >= old for new, old in zip(board.scores, self.game.scores)))

    def is_won(self) -> bool:
        return bool(self.games) and self.is_won_by(self.games[-1])

    def is_won_by(self, game: _Game) -> bool:
        """True if the match is won after a game."""
        return self.length < _UNLIMITED and max(game.scores_after()) >= self.length

    def hear_double(self, side: int) -> None:
        """A side doubles; a player who comes back is told so once more."""
        state = self.state
        if state and state.turn == side and not state.dice and state.doubler is None:
            self.game.actions.append(_Action(_DOUBLE, side))
            self.state = replace(state, doubler=side)

    def end_game(self, winner: int, points: int) -> None:
        """The game is over. A double that was not answered otherwise was given up."""
        game, state = self.game, self.state
        game.winner, game.points = winner, points
        game.is_dropped = state is not None and state.doubler == winner and points == state.cube
        if not game.actions:
            self.games.remove(game)


class MatchFiles:
    """The matches that the lines of a client or of a saved session tell, as files in the format of Jellyfish, which GNU
    Backgammon imports. It can be neither copied nor pickled.

        files = fibs.MatchFiles()
        for line in fibs.Lines('ann.log'):
            files.hear(line)

    The greeting of the server replaces the name. What can't be followed is reported, in words, to `report`, if it is
    given. The legal plays are listed by the library, or else by `plays`, which takes a board's line and gives the steps
    of each.
    """

    def __init__(self, name: Text = 'You', *, report: Optional[Callable[[str], None]] = None,
                 plays: Optional[Plays] = None) -> None:
        data = name.encode('utf-8', 'surrogatepass') if isinstance(name, str) else bytes(name)
        self._name = data.decode('latin-1')
        self._report = report
        self._search = _Search(plays or _plays_by_the_library)
        self._events: Optional[Events] = None
        self._matches: List[_Match] = []
        self._match: Optional[_Match] = None
        # the rolls since the last board
        self._told: Tuple[_Roll, ...] = ()
        self._is_resigning = self._is_text = False
        self._number = 0

    def __reduce__(self) -> NoReturn:
        raise TypeError('fibs.MatchFiles can be neither copied nor pickled')

    def hear(self, line: Union[Line, Text, Mapping[str, Any]], happened: Optional[Iterable[Event]] = None) -> None:
        """Hears a line, and what has happened by it, if `Events.hear` has told that already; else it finds that itself.
        Or hears an object that `fibs show --events` prints, as json.loads gives it. Hear each once, in order, over
        connections too."""
        if isinstance(line, Mapping):
            self._hear(line)
            return
        from . import _objects
        if happened is None:
            self._events = self._events or _objects.Events()
            happened = self._events.hear(line)
        for told in _objects.objects_of(line, happened):
            self._hear(told)

    @property
    def files(self) -> List[MatchFile]:
        """A file for each match that can be told, in the order in which they began."""
        return [_file_of(match) for match in self._matches if match.games]

    @property
    def latest(self) -> Optional[MatchFile]:
        """The file of the match that is played, or was played last, if it can be told; else of the one that began last.
        None if there is none."""
        if self._match and self._match.games:
            return _file_of(self._match)
        return next(iter(self.files[::-1]), None)

    def _hear(self, told: Mapping[str, Any]) -> None:
        """Hears an object."""
        if told['kind'] == 'event':
            # what a board tells is found from the board
            if self._is_text:
                self._hear_text(told, _SIDES.get(told.get('who', '')))
            return
        self._number += 1
        self._is_text = told['kind'] == 'text'
        if told.get('message') == 'welcome':
            self._name = told['name']
        elif told['kind'] == 'board' and told['phase']:
            self._see(_Board(told))

    def _hear_text(self, told: Mapping[str, Any], side: Optional[int]) -> None:
        """Takes note of what a text says."""
        event, match = told['event'], self._match
        if event in _GOES_ON:
            self._is_resigning = False
        if event == 'game_begun':
            self._told = ()
        elif side is None:
            return
        elif event == 'rolled':
            self._told += ((side, _sorted(told['dice'])),)
        elif not match or match.game.winner is not None:
            return
        elif event == 'doubled':
            match.hear_double(side)
        elif event == 'game_over':
            self._end_game(match, side, told['points'])
        elif event == 'offered_to_resign':
            self._is_resigning = True

    def _end_game(self, match: _Match, winner: int, points: int) -> None:
        match.end_game(winner, points)
        self._told = ()

    def _see(self, board: _Board) -> None:
        """Takes note of a board of the own game."""
        match = self._match_of(board)
        if match.game.winner is None and board.scores != match.game.scores:
            match = self._see_result(match, board)
        if match.game.winner is not None and not board.is_over():
            match.begin_game(board.scores)
            self._is_resigning = False
        if match.game.winner is None and not board.is_over() and not self._is_resigning:
            self._follow(match, board)

    def _goes_on(self, match: Optional[_Match], board: _Board) -> bool:
        return match is not None and match.names[_OWN] == self._name and match.goes_on_with(board)

    def _match_of(self, board: _Board) -> _Match:
        """Which match a board is of: the one that is played, else the latest one that can go on with it, or a new
        one."""
        if self._match and self._goes_on(self._match, board):
            return self._match
        self._is_resigning = False
        found = next((match for match in reversed(self._matches) if self._goes_on(match, board)), None)
        self._match = found or self._begin_match(board)
        return self._match

    def _begin_match(self, board: _Board) -> _Match:
        self._match = _Match((self._name, board.opponent), board.length, _Game(board.scores))
        self._matches.append(self._match)
        return self._match

    def _see_result(self, match: _Match, board: _Board) -> _Match:
        """The scores have changed: the game is over, by the last checkers that the board shows off, or otherwise."""
        own, other = (new - old for new, old in zip(board.scores, match.game.scores))
        if match.state and board.is_over() and any(side[0] == 15 for side in board.sides):
            match = self._follow(match, board)
        self._end_game(match, _OWN if own > 0 else _OTHER, max(own, other))
        return match

    def _follow(self, match: _Match, board: _Board) -> _Match:
        """Adds to the game what was done since the last board. Gives the match that it is of."""
        told, self._told = self._told, ()
        if not match.state:
            return match
        found = self._search.shortest(match.state, told, board)
        if not found and match.game.actions and self._search.way(_State(), (), board, 0):
            # another match has begun between the same players
            match = self._begin_match(board)
            found = self._search.shortest(_State(), told, board)
        if found:
            match.game.actions += found[0]
            match.state = found[1]
            return match
        match.state = None
        if self._report:
            self._report('line %d: the plays before this board are not known; %s' % (
                self._number, 'of the game the result is kept' if match.game.actions else 'the game is left out'))
        return match


def _plays_by_the_library(line: str) -> Sequence[Sequence[Sequence[int]]]:
    from ._boards import plays
    return [play.steps for play in plays(line)]


# -- the match file --

def _spelled(action: _Action) -> str:
    """What a side plays, as a match file has it."""
    ends = {0: 'off', 25: 'bar'}
    steps = ['%s/%s' % (ends.get(source, source), ends.get(target, target)) for source, target in action.steps]
    return '%d%d: %s' % (*action.dice, ' '.join(steps))


def _entries(game: _Game) -> Iterator[Tuple[int, str]]:
    """What was done in a game, each with its side: rolls with their plays, and the cube."""
    cube = 1
    for action in game.actions:
        if action.kind == _PLAY:
            yield action.side, _spelled(action)
        elif action.kind == _DOUBLE:
            cube *= 2
            yield action.side, ' Doubles => %d' % cube
        elif action.kind == _TAKE:
            yield action.side, ' Takes'
    if game.is_dropped and game.winner is not None:
        yield 1 - game.winner, ' Drops'


def _rows(game: _Game) -> Iterator[List[str]]:
    """The same in two columns, a pair a row."""
    row = ['', '']
    for side, text in _entries(game):
        if row[side] or side == _OWN and row[_OTHER]:
            yield row
            row = ['', '']
        row[side] = text
    if any(row):
        yield row


def _game_lines(match: _Match, number: int, game: _Game) -> Iterator[str]:
    """The lines of a game."""
    yield ' Game %d' % number
    yield ' %-31s%s' % tuple('%s : %d' % (name, score) for name, score in zip(match.names, game.scores))
    # at least two spaces part the columns
    yield from ('%3d) %-26s  %s' % (n, mine, theirs) for n, (mine, theirs) in enumerate(_rows(game), 1))
    if game.winner is not None:
        yield '%sWins %d point%s%s' % (' ' * (6 if game.winner == _OWN else 34), game.points,
                                       '' if game.points == 1 else 's',
                                       ' and the match' if match.is_won_by(game) else '')
    yield ''


def _match_lines(match: _Match) -> Iterator[str]:
    """The lines of a match file."""
    yield ' %d point match' % (match.length if match.length < _UNLIMITED else 0)
    yield ''
    for number, game in enumerate(match.games, 1):
        yield from _game_lines(match, number, game)


def _file_of(match: _Match) -> MatchFile:
    """A match of which some game is told, as a file."""
    own, other = (name.encode('latin-1') for name in match.names)
    text = ''.join(line + '\n' for line in _match_lines(match)).encode('latin-1')
    return MatchFile(other, text, own, match.length if match.length < _UNLIMITED else None,
                     *match.games[-1].scores_after(), match.is_won())
