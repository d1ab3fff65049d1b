"""The board as it is sent: style 3, a line of 53 fields, and a small picture for those who have set no style."""

import rules

HOME_AND_BAR = {-1: (0, 25), 1: (25, 0)}


def places_of(match):
    """The 26 places: O's checkers positive, X's negative, those on the bar on 0 or 25."""
    places = [0] * 26
    for side in (0, 1):
        for number in range(1, 26):
            places[match.place(side, number)] += match.colours[side] * match.position[side][number]
    return places


def turn_of(match, habits):
    """The side whose turn the board shows: an open offer is shown as a turn given away, if the server does so."""
    if match.doubler is not None and habits.shows_doubles and not habits.hides_doubles:
        return 1 - match.doubler
    if match.resigner is not None and habits.shows_resignations:
        return 1 - match.resigner
    return match.turn


def doublers_of(match, side, habits):
    """The flags that say whether the player, and the opponent, may double."""
    if habits.loose_flags:
        return [int(match.owner in (None, one)) for one in (side, 1 - side)]
    return [int(match.may_double(one)) for one in (side, 1 - side)]


def board_line(match, side, habits, name='You'):
    """The board as the player of this side sees it; with another name than `You`, as those see it who watch him."""
    other, turn = 1 - side, turn_of(match, habits)
    dice = match.dice or (0, 0)
    own_dice, others_dice = [dice if match.turn == one and turn == one else (0, 0) for one in (side, other)]
    fields = ['board', name, match.names[other], match.length, match.score[side], match.score[other]]
    fields += places_of(match)
    fields += [0 if turn is None else match.colours[turn], *own_dice, *others_dice]
    is_doubled = match.doubler == other and not habits.hides_doubles
    fields += [match.cube, *doublers_of(match, side, habits), int(is_doubled)]
    fields += [match.colours[side], match.directions[side], *HOME_AND_BAR[match.directions[side]]]
    fields += [match.position[one][rules.OFF] for one in (side, other)]
    fields += [match.position[one][rules.BAR] for one in (side, other)]
    can_move = match.movable() if match.dice and turn is not None else 0
    fields += [can_move if turn == side else 0, 0, int(match.did_crawford), 0]
    return ':'.join(map(str, fields))


def picture(match, side, name='You'):
    """The lines of a picture, as it is shown to those who have set another style."""
    places = places_of(match)
    names = name, match.names[1 - side]
    rows = [line_of(range(13, 25), '+'), *half(places, range(13, 25), range(5)),
            '   |%s|BAR|%s|' % (' ' * 24, ' ' * 24),
            *half(places, range(12, 0, -1), range(4, -1, -1)), line_of(range(12, 0, -1), '+')]
    for one, who in ((side, names[0]), (1 - side, names[1])):
        rows.append('   %s %s: score %d, bar %d, off %d' % (
            'O' if match.colours[one] == 1 else 'X', who, match.score[one],
            match.position[one][rules.BAR], match.position[one][rules.OFF]))
    turn = 'nobody' if match.turn is None else names[match.turn != side]
    dice = ' with %d and %d' % match.dice if match.dice else ''
    return rows + ['   turn: %s%s, cube: %d' % (turn, dice, match.cube)]


def line_of(numbers, edge):
    numbers = ['%4d' % number for number in numbers]
    return '   %s%s%s%s%s' % (edge, ''.join(numbers[:6]), edge + '---' + edge, ''.join(numbers[6:]), edge)


def half(places, numbers, depths):
    """The rows of a half of the picture; on the innermost is the number, if a place has more than five."""
    rows = []
    for depth in depths:
        cells = []
        for number in numbers:
            count, letter = abs(places[number]), 'O' if places[number] > 0 else 'X'
            shown = letter if count > depth else ''
            cells.append('%4s' % (str(count) if depth == 4 and count > 5 else shown))
        rows.append('   |%s|   |%s|' % (''.join(cells[:6]), ''.join(cells[6:])))
    return rows
