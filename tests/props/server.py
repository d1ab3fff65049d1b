"""A small model of a backgammon server: a prop of the tests.

It listens on 127.0.0.1, and plays a short ending against a player who logs in. The game outlives its connections, as at
the real server: who comes back finds the board as it is.
"""

import random

from props.listener import OWN_INFO, WELCOME, Listener

HEAD = ['board', 'You', 'bob', '1', '0', '0']

WHO_INFO = [
    '5 ann bob - 1 0 1500.00 10 0 1041253132 localhost fibs_client -',
    '5 bob ann - 1 0 1623.5 100 3 1041253132 host - -',
]


class Game:
    """An ending: the player's checkers are positive and go down, the opponent's are negative and go up."""

    def __init__(self, own, other, dice):
        self.places = [0] * 26
        for place in own:
            self.places[place] += 1
        for place in other:
            self.places[place] -= 1
        self.off = [15 - len(own), 15 - len(other)]
        self.turn = 1
        self.dice = [0, 0]
        self.rolls = list(dice)

    def roll(self):
        """The next pair of dice."""
        if self.rolls:
            return self.rolls.pop(0)
        return [random.randint(1, 6), random.randint(1, 6)]

    def board(self, opponents_dice=(0, 0)):
        """The board line."""
        dice = self.dice if self.turn == 1 else [0, 0]
        fields = HEAD + self.places + [self.turn] + dice + list(opponents_dice)
        fields += [1, 0, 0, 0, 1, -1, 0, 25, self.off[0], self.off[1], 0, 0, 0, 0, 0, 0]
        return ':'.join(str(field) for field in fields)

    def move_own(self, steps):
        """Carries out the player's steps, and answers whether it could."""
        places, off = list(self.places), self.off[0]
        for step in steps:
            source, _, target = step.partition('-')
            if not source.isdigit() or places[int(source)] <= 0:
                return False
            places[int(source)] -= 1
            if target == 'off':
                off += 1
            else:
                places[int(target)] += 1
        self.places, self.off[0] = places, off
        self.dice = [0, 0]
        self.turn = 0 if off == 15 else -1
        return True

    def move_other(self):
        """Rolls and plays for the opponent, the rearmost checker first. The boards that it shows."""
        dice = self.roll()
        shown = [self.board(dice)]
        for die in dice * (2 if dice[0] == dice[1] else 1):
            rear = next((place for place in range(1, 25) if self.places[place] < 0), None)
            if rear is None:
                break
            self.places[rear] += 1
            if rear + die > 24:
                self.off[1] += 1
            else:
                self.places[rear + die] -= 1
        self.turn = 0 if self.off[1] == 15 else 1
        return shown + [self.board()]

    def answer(self, words):
        """The lines by which a command of the player is answered."""
        if words == ['board']:
            return [self.board()]
        if words == ['roll'] and self.turn == 1 and self.dice == [0, 0]:
            self.dice = self.roll()
            return ['** You roll %d and %d.' % tuple(self.dice), self.board()]
        if words[:1] == ['move'] and self.turn == 1 and self.dice != [0, 0] and self.move_own(words[1:]):
            return [self.board()] + (self.move_other() if self.turn else [])
        return ["** You can't do that now."]


class Server(Listener):
    """A listener that greets who logs in, and plays."""

    def log_in(self):
        """Reads a login, and greets the player. None if no login comes."""
        words = (self.line() or '').split(' ')
        if words[:3] != ['login', 'fibs_client', '1008'] or len(words) != 5:
            return None
        name = words[3]
        self.send(WELCOME.replace('ann', name), OWN_INFO % name, '3', 'Welcome.', '4', *WHO_INFO, '6')
        return name

    def serve(self, game, lines=None):
        """Answers so many lines, or all up to the end of the connection."""
        while lines is None or lines > 0:
            line = self.line()
            if line is None:
                return
            if line.startswith('set ') or line.startswith('toggle '):
                self.send('** Done.')
            elif line == 'bye':
                self.drop()
                return
            elif line == 'who':
                self.send(*WHO_INFO, '6')
            elif line.startswith('say '):
                self.send('16 bob ' + line[4:], '12 bob And to you.')
            else:
                self.send(*game.answer(line.split(' ')))
            lines = lines and lines - 1
