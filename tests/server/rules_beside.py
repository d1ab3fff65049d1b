"""The rules of the server beside what they say in fewer words: all runs of steps, of which the longest are legal."""

import random

from clients import Failed, reference, same

rules = reference.rules
POSITIONS = 1500


def position_by_chance(chance):
    """Checkers of both sides: each side by its own numbers, as the server counts."""
    own, other = [0] * 26, [0] * 26
    last = chance.choice([6, 12, 24, 25, 25])
    for _ in range(chance.choice([1, 2, 3, 5, 9])):
        own[chance.randint(1, last)] += 1
    own[rules.OFF] = 15 - sum(own)
    for _ in range(chance.choice([2, 4, 6])):
        place = chance.choice([place for place in range(1, 25) if not own[25 - place]])
        other[place] += min(chance.choice([1, 2, 2]), 15 - sum(other))
    other[rules.OFF] = 15 - sum(other)
    return tuple(own), tuple(other)


def runs(position, numbers):
    """Each run of steps by some of the numbers."""
    yield ()
    for source, target, left in rules.steps_of(position, numbers):
        for steps in runs(rules.after_step(position, source, target), left):
            yield ((source, target),) + steps


def legal_plays_are_the_longest_runs():
    chance, larger = random.Random(8), 0
    for _ in range(POSITIONS):
        position, dice = position_by_chance(chance), (chance.randint(1, 6), chance.randint(1, 6))
        numbers, case = rules.numbers_of(dice), '%s with %s' % (position, dice)
        tried = set(runs(position, numbers))
        longest = max(map(len, tried))
        wanted = {steps for steps in tried if len(steps) == longest}
        if longest == 1 and dice[0] != dice[1]:
            by_larger = {((source, target),) for (source, target), in wanted
                         if rules.target_of(position, source, max(dice)) == target}
            larger += by_larger not in (set(), wanted)
            wanted = by_larger or wanted
        same('the plays of ' + case, set(rules.legal_plays(position, numbers)), wanted)
        same('what is played of ' + case, {steps for steps in tried if rules.reached(position, numbers, steps)}, wanted)
        ends = {rules.reached(position, numbers, steps) for steps in wanted if steps}
        listed = [rules.reached(position, numbers, steps) for steps in rules.plays(position, numbers)]
        same('the ends of the plays of ' + case, sorted(listed), sorted(ends))
        same('how many can be moved of ' + case, rules.most(position, numbers), longest)
    if larger == 0:
        raise Failed('no position was tried in which the larger number has to be played')


TESTS = [legal_plays_are_the_longest_runs]
