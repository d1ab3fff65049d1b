"""Plays: the turns of `turns.txt`, and random boards beside a slow program."""

from checks import allowed, answer, phase_of, read_decision, test
from positions import listed, move_of
from props import reference
from props.table import TURNS


def board_with(own, other, dice, side, down):
    """The board of these checkers, for a player of this colour and direction; the rest are off. Place 25 is the bar."""
    places = [side * (own[place] - other[place]) for place in range(1, 25)]
    turn = [side, *dice, 0, 0, 1, 1, 1, 0, side, -1 if down else 1, 0, 25]
    off = [15 - sum(own[1:]), 15 - sum(other[1:25])]
    fields = [0, *(places if down else reversed(places)), 0, *turn, *off, 0, 0, 0, 0, 0, 0]
    return b'board:You:bob:5:0:0:' + b':'.join(b'%d' % number for number in fields)


# Both colours, in both directions.
SIDES = [(1, True), (1, False), (-1, True), (-1, False)]

REFUSED = {'Move': 'IllegalPlay', 'Passing': 'NotYours', 'RollOrDouble': 'WrongKind'}


@test
def plays_by_the_rules(check):
    for turn in TURNS:
        # If no checker can move, the one play by the rules has no step, and a board has none.
        wanted = [play for play in turn.plays if play]
        phase = 'RollOrDouble' if turn.dice == (0, 0) else 'Move' if wanted else 'Passing'
        for side, down in SIDES:
            board = board_with(turn.own, turn.other, turn.dice, side, down)
            check(phase_of(board), phase, '%s: the phase' % turn.name)
            check(answer(listed, board), wanted, '%s: the list' % turn.name)
            for play in wanted:
                check(allowed(board, move_of(play)), '', '%s: each is legal' % turn.name)
            for play in turn.refused:
                check(allowed(board, move_of(play)), REFUSED[phase], '%s: refused: %s' % (turn.name, play))


@test
def steps_have_places(check):
    for source, target, command in [
        (1, 0, 'move 1-off'),
        (25, 24, 'move bar-24'),
        (0, 0, 'NoDecision'),
        (26, 0, 'NoDecision'),
        (1, 25, 'NoDecision'),
    ]:
        check(answer(move_of([(source, target)]).command, -1), command, '%d to %d' % (source, target))


@test
def a_play_has_four_steps(check):
    step = (24, 18)
    four = move_of([step] * 4)
    check(answer(four.command, -1), 'move 24-18 24-18 24-18 24-18', 'there is room')
    check(answer(move_of([step] * 5).command, -1), 'NoDecision', 'there are four')
    check(read_decision('move 24-18 24-18 24-18 24-18'), four, 'four are read')
    check(read_decision('move 24-18 24-18 24-18 24-18 24-18'), None, 'five are not')


class Numbers:
    """Numbers that look like any."""

    def __init__(self, seed):
        self.seed = seed

    def between(self, low, many):
        """One of so many numbers from the first one on."""
        self.seed = (self.seed * 6364136223846793005 + 1442695040888963407) % 2**64
        return low + (self.seed >> 56) % many


# What a board is aimed at: the lowest place of the player's checkers, how many places they have, and how many they are.
AIMS = {'the larger die': (14, 11, 1), 'doubles': (5, 20, 4), 'the bar': (1, 24, 3), 'bearing off': (1, 6, 5)}


def aimed(numbers, aim):
    """Checkers of both sides and dice that are aimed at something."""
    own, other = [0] * 26, [0] * 26
    first = numbers.between(1, 6)
    dice = first, first if aim == 'doubles' else numbers.between(1, 6)
    low, many, checkers = AIMS[aim]
    for _ in range(checkers):
        place = numbers.between(low, many)
        own[place] += 1
        if aim == 'the larger die':
            # Both dice together reach a place that is held.
            other[place - sum(dice)] = 2
    if aim == 'the bar':
        own[25] = 1 + numbers.between(0, 2)
    for _ in range(4):
        # Against the bar mostly on the places at which checkers enter.
        place = numbers.between(17, 8) if aim == 'the bar' else numbers.between(1, 24)
        if not own[place] and not other[place]:
            other[place] = numbers.between(1, 2)
    return own, other, dice


def in_order(position, dice):
    """All sequences of steps by these dice, one after another, of which none goes on."""
    runs = [((), position)]
    for die in dice:
        longer = []
        for play, reached in runs:
            for source in range(1, 26):
                target = reference.target_of(reached, source, die)
                if target is not None:
                    longer.append((play + ((source, target),), reference.after_step(reached, source, target)))
        if not longer:
            break
        runs = longer
    return [play for play, _ in runs]


def fronts(plays):
    """Each front of these plays."""
    return {play[:count] for play in plays for count in range(len(play) + 1)}


@test
def finds_what_a_slow_program_finds(check):
    numbers = Numbers(2026)
    for aim in AIMS:
        for i in range(12):
            own, other, dice = aimed(numbers, aim)
            line = board_with(own, other, dice, 1 if i % 2 == 0 else -1, i % 3 > 0)
            board, case = reference.Board(line), 'board %d aimed at %s' % (i, aim)
            legal = reference.legal_plays(board.position(), board.dice())
            can_move = legal != {()}
            check(phase_of(line), 'Move' if can_move else 'Passing', case)
            wanted = reference.greatest_plays(board.position(), board.dice()) if can_move else []
            check(answer(listed, line), wanted, case)
            for play in fronts([*legal, *in_order(board.position(), sorted(dice))]):
                why = 'NotYours' if not can_move else '' if play in legal else 'IllegalPlay'
                check(allowed(line, move_of(play)), why, '%s: %s' % (case, play))
