"""Reads the tables of rust/src/tests: `boards.txt` and `turns.txt`, each of which says how it is written."""

import pathlib
import re
from types import SimpleNamespace

FOLDER = pathlib.Path(__file__).resolve().parent.parent.parent / 'rust' / 'src' / 'tests'
ENDS = {'bar': 25, 'off': 0}
SEEN = re.compile(r'(\w+) (up|down): (.*?) ?against ?(.*)')
EFFECT = re.compile(r'(.*?)(?: (\d+) (\d+))? -> (.*)')


class Wrong(ValueError):
    """Where a table is wrong."""


def checkers(text):
    """How many checkers are on each place, as `24:2 18:1` says."""
    found = [0] * 26
    for pair in text.split():
        place, count = pair.split(':')
        found[int(place)] = int(count)
    return found


def steps_of(play):
    """The steps of a play, such as `bar-22 6-off`; `none` has no step."""
    steps = (step.split('-') for step in play.split() if step != 'none')
    return tuple((ENDS.get(source) or int(source), ENDS[end] if end in ENDS else int(end)) for source, end in steps)


def parts(text):
    return [part.strip() for part in text.split(',') if part.strip()]


def changes(text):
    """The name of a board, or the fields that change; None for nothing."""
    if text == 'nothing':
        return None
    return text if text[0].isalpha() else {int(n): int(number) for n, number in (c.split('=') for c in text.split())}


def add(row, line):
    """Adds what a line says of a board."""
    effect, seen = EFFECT.fullmatch(line), SEEN.fullmatch(line)
    what, _, rest = line.partition(':')
    if row.board is None and what == 'board':
        row.board = line.encode()
    elif row.board is None or what == 'board':
        raise ValueError
    elif effect:
        row.effects.append((effect[1], (int(effect[2] or 1), int(effect[3] or 1)), changes(effect[4])))
    elif seen or what == 'no position':
        if row.seen or row.fault:
            raise ValueError
        row.seen = (*seen.group(1, 2), *map(checkers, seen.group(3, 4))) if seen else None
        row.fault = '' if seen else rest.strip()
    elif what == 'lists':
        row.count = int(rest)
    elif what.startswith('plays '):
        row.plays = [steps_of(play) for play in parts(rest)]
    elif what.isalpha():
        row.answers += [(text, '' if what == 'allowed' else what) for text in parts(rest)]
    else:
        raise ValueError


def lines(text):
    """What of each line is no comment, with its number, but for empty ones."""
    found = ((at, line.partition('#')[0].rstrip()) for at, line in enumerate(text.splitlines(), 1))
    return [(at, line) for at, line in found if line]


def rows(text):
    """The boards of `boards.txt`. Wrong, with the line."""
    found = []
    for at, line in lines(text):
        try:
            if line.startswith('= '):
                name = line[2:]
                found.append(SimpleNamespace(name=name, board=None, seen=None, fault='', plays=None, count=None,
                                             answers=[], effects=[]))
            elif any(row.board == line.encode() for row in found):
                raise ValueError
            else:
                add(found[-1], line)
        except (ValueError, LookupError):
            why = 'this is no line of a board, or that of another'
            raise Wrong('boards.txt:%d: %s: %s' % (at, why, line)) from None
    for row in found:
        if not row.seen and not row.fault:
            raise Wrong('boards.txt: nothing is seen on the board %r' % row.name)
    return found


def turn(line):
    name, own, other, dice, plays, refused = (column.strip() for column in line.split('|'))
    first, second = map(int, dice.split())
    return SimpleNamespace(name=name, own=checkers(own), other=checkers(other), dice=(first, second),
                           plays=[steps_of(play) for play in parts(plays)],
                           refused=[steps_of(play) for play in parts(refused)])


def turns(text):
    """The turns of `turns.txt`. Wrong, with the line."""
    found = []
    for at, line in lines(text):
        try:
            found.append(turn(line))
        except (ValueError, LookupError):
            raise Wrong('turns.txt:%d: this is no turn: %s' % (at, line)) from None
    return found


ROWS, TURNS = rows((FOLDER / 'boards.txt').read_text()), turns((FOLDER / 'turns.txt').read_text())

# The boards that tests call by a name.
NAMED = {row.name.partition(': ')[0]: row.board for row in ROWS if ': ' in row.name}
