"""The rules of backgammon. Each side counts its own way: it enters from 25, goes down, and bears off at 0.

They were written from the rules, and from nothing that is proved. The tests compare the proved program with them: they
are those of tests/props/reference.py too.
"""

import functools

BAR, OFF = 25, 0
CHECKERS = 15
HOME = 6

# The places at the beginning of a game, and how many checkers are there.
BEGINNING = {24: 2, 13: 5, 8: 3, 6: 5}


def beginning():
    """The position at the beginning of a game: for each side its checkers on 0 (off) to 25 (the bar)."""
    side = tuple(BEGINNING.get(place, 0) for place in range(26))
    return side, side


def mirrored(place):
    """The number that the other side has for a place from 1 to 24."""
    return 25 - place


def pips(side):
    """How far a side has to go."""
    return sum(place * count for place, count in enumerate(side))


def numbers_of(dice):
    """What two dice give to play: a double is played four times. One that is 0 is none."""
    numbers = tuple(die for die in dice if die)
    return numbers * 2 if len(set(numbers)) < len(numbers) else numbers


def target_of(position, source, die):
    """Where the first side's checker on `source` comes to with a die, or None if it may not go."""
    own, other = position
    if not own[source] or (own[BAR] and source != BAR):
        return None
    target = source - die
    if target > OFF:
        return target if other[mirrored(target)] < 2 else None
    if any(own[HOME + 1:]):
        return None
    # A die that is larger than needed bears off the hindmost checker alone.
    return OFF if target == OFF or not any(own[source + 1:]) else None


def after_step(position, source, target):
    """The position after the first side's step, which may hit."""
    own, other = list(position[0]), list(position[1])
    own[source] -= 1
    own[target] += 1
    if target != OFF and other[mirrored(target)]:
        other[mirrored(target)] -= 1
        other[BAR] += 1
    return tuple(own), tuple(other)


def without(numbers, die):
    """The numbers that are left when one of them was played."""
    at = numbers.index(die)
    return numbers[:at] + numbers[at + 1:]


def steps_of(position, numbers):
    """Each step that a side may begin with: its source, its target, and the numbers that are left."""
    for die in sorted(set(numbers), reverse=True):
        for source in range(BAR, OFF, -1):
            target = target_of(position, source, die)
            if target is not None:
                yield source, target, without(numbers, die)


@functools.lru_cache(maxsize=20000)
def most(position, numbers):
    """How many of the numbers can be played."""
    best = 0
    for source, target, left in steps_of(position, numbers):
        best = max(best, 1 + most(after_step(position, source, target), left))
        if best == len(numbers):
            break
    return best


def to_play(position, numbers):
    """The numbers of which a legal play uses as many as can be played: if of two one alone can be played, it is the
    larger one, if that can be."""
    if len(numbers) < 2 or most(position, numbers) > 1:
        return numbers
    larger = max(numbers),
    return larger if most(position, larger) else (min(numbers),)


def walked(position, steps, numbers):
    """The position after these steps, each by one of the numbers; None if they can't be played."""
    if not steps:
        return position
    for source, target, left in steps_of(position, numbers):
        if (source, target) == steps[0]:
            end = walked(after_step(position, source, target), steps[1:], left)
            if end is not None:
                return end
    return None


def reached(position, numbers, steps):
    """The position after a legal play, or None if the play is not legal."""
    numbers = to_play(position, numbers)
    return walked(position, tuple(steps), numbers) if len(steps) == most(position, numbers) else None


def first_steps(position, numbers):
    """The steps with which a play begins that uses as many of the numbers as can be played: each with the position
    after it, and the numbers that are left."""
    needed = most(position, numbers)
    for source, target, left in steps_of(position, numbers):
        after = after_step(position, source, target)
        if most(after, left) == needed - 1:
            yield (source, target), after, left


@functools.lru_cache(maxsize=2000)
def each_order(position, numbers):
    """Each way to play as many of the numbers as can be played."""
    found = {(step,) + rest for step, after, left in first_steps(position, numbers) for rest in each_order(after, left)}
    return frozenset(found or {()})


@functools.lru_cache(maxsize=5000)
def greatest(position, numbers):
    """The greatest of these ways for each position that they lead to."""
    found = {}
    for step, after, left in first_steps(position, numbers):
        for end, rest in greatest(after, left).items():
            found[end] = max((step,) + rest, found.get(end, ()))
    return found or {position: ()}


def legal_plays(position, numbers):
    """The legal plays, in each order of their steps. If no checker may go, it is the play of no step."""
    return each_order(position, to_play(position, numbers))


def plays(position, numbers):
    """The legal plays, one for each position that they lead to, in descending order. None can be: no play."""
    found = greatest(position, to_play(position, numbers)).values()
    return sorted(filter(None, found), reverse=True)


def is_over(position):
    """True if the first side has borne off all its checkers."""
    return position[0][OFF] == CHECKERS


def worth(position):
    """What the first side wins when it has borne off: 1, a gammon 2, a backgammon 3."""
    loser = position[1]
    if loser[OFF]:
        return 1
    # the winner's home are the loser's places 19 to 24
    return 3 if loser[BAR] or any(loser[mirrored(HOME):BAR]) else 2
