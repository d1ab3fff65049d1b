#!/usr/bin/env python3
"""Prints what was played in saved sessions: read_session.py [FILE..], standard input if none is named.

For each board that shows something new: who plays whom, what was rolled, what was played, whether the game is over.
With -c it prints only what lines there are: how many boards, messages, texts, cut and malformed lines, and of a log of
fibs connect how many lines that were sent.

It takes the package for Python: pip install ./python
"""

import sys

import fibs

YOU, OTHER = 'You', 'other'


def line_of(own, other, dice):
    """A board's line for the side that is to move: its checkers and those of the other side, each in its own
    numbering."""
    places = [0] * 26
    for place in range(1, 26):
        places[place] += own[place]
        places[25 - place] -= other[place]
    numbers = [fibs.UNLIMITED, 0, 0, *places, 1, *(dice or (0, 0)), 0, 0, 1, 0, 0, 0, 1, -1, 0, 25, own[0], other[0],
               own[25], other[25], 0, 0, 0, 0]
    return b':'.join([b'board:You:other', *(b'%d' % number for number in numbers)])


def moved(own, other, play):
    """The checkers after a play of the side that is own: a lone checker on its way goes to the bar."""
    own, other = list(own), list(other)
    for source, target in play.steps:
        own[source] -= 1
        own[target] += 1
        if target and other[25 - target] == 1:
            other[25 - target] = 0
            other[25] += 1
    return tuple(own), tuple(other)


def played(before, after):
    """Who played what between two boards, as a name and a command, if it was a legal play of either side."""
    old, new = [(board.checkers, board.opponent_checkers) for board in (before, after)]
    for who, sides, wanted, dice, direction in ((YOU, old, new, before.dice, before.direction),
                                                (OTHER, old[::-1], new[::-1], before.opponent_dice, -before.direction)):
        for play in fibs.plays(line_of(*sides, dice)):
            if moved(*sides, play) == wanted:
                return who, play.command(direction)
    return None


def rolled(before, after):
    """Who rolled what, as a name and two dice, if the later board shows dice that the earlier one does not."""
    for who, old, dice in ((YOU, before and before.dice, after.dice),
                           (OTHER, before and before.opponent_dice, after.opponent_dice)):
        if dice and dice != old:
            return who, dice
    return None


def tell(before, after):
    """What the later of two boards shows."""
    names = {YOU: 'You', OTHER: after.opponent.decode('latin-1')}
    if before is None or before.opponent != after.opponent:
        length = '%d points' % after.length if after.length else 'unlimited'
        print('You play %s: %s, %d to %d' % (names[OTHER], length, after.score, after.opponent_score))
        before = None
    elif (before.checkers, before.opponent_checkers) != (after.checkers, after.opponent_checkers):
        play = played(before, after)
        print('%s: %s' % (names[play[0]], play[1]) if play else 'The checkers have changed, not by one legal play')
    if before is not None and before.cube != after.cube:
        print('The cube shows %d' % after.cube)
    roll = rolled(before, after)
    if roll:
        print('%s: roll %d and %d' % (names[roll[0]], *roll[1]))
    if after.turn is None and (before is None or before.turn is not None):
        print('The game is over')


def board_of(line):
    """The board of a game that the user plays, or None."""
    try:
        return line.board if line.kind == fibs.BOARD and fibs.phase(line.text) else None
    except fibs.NoPosition:
        return None


def read_session(file):
    """Prints what was played."""
    before = None
    for line in fibs.Lines(file):
        after = board_of(line)
        if after not in (None, before):
            tell(before, after)
            before = after


def count_lines(files):
    """Prints how many lines there are of each kind."""
    found = [0] * 6
    for file in files:
        with fibs.Lines() as lines:
            while piece := file.read(1 << 20):
                found = [a + b for a, b in zip(found, lines.count(piece))]
    texts, messages, boards, malformed, cut, sent = found
    print('%d boards, %d messages, %d texts, %d cut, %d malformed%s' % (
        boards, messages, texts - cut - sent, cut, malformed, ', %d sent' % sent if sent else ''))


def main():
    words = sys.argv[1:]
    only_counts = words[:1] == ['-c']
    names = words[1:] if only_counts else words
    files = [open(name, 'rb') for name in names] or [sys.stdin.buffer]
    if only_counts:
        count_lines(files)
    else:
        for file in files:
            read_session(file)


if __name__ == '__main__':
    main()
