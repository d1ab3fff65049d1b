"""A player within the server, for users without a second client: it plays, and has habits that can be chosen."""

import asyncio
import re
from random import Random

# Each habit with its value if none is given, and what it may be.
HABITS = {
    'plays': ('first', 'first, last or random: which of the legal plays'),
    'joins': ('yes', 'yes or no: whether it joins who invites it'),
    'invites': ('', 'POINTS: it invites each player who logs in, or resumes a saved match with him'),
    'takes': ('yes', 'yes or no: how it answers a double'),
    'doubles': ('', 'TURN: it doubles at this turn of its own, if it may'),
    'resigns': ('', 'TURN with n, g or b after it, as 2n: it offers to resign at this turn'),
    'answers': ('yes', 'yes, no or never: how it answers an offer to resign'),
    'leaves': ('', 'TURN: it leaves at this turn; roll or move: it leaves when the other has rolled, or moved'),
    'drops': ('', 'TURN: its connection breaks at this turn, and it comes again'),
    'returns': ('no', 'yes or no: whether it invites the other to the match that it left, once'),
    'next': ('join', 'join or leave: what it does between two games'),
    'says': ('', 'TEXT, without comma: its answer to what is said to it'),
}


class Bot:
    """It takes the place of a connection: it hears what a client would, and answers by commands."""

    host = 'localhost'

    def __init__(self, room, name, habits, pause=0.0):
        self.room, self.pause = room, pause
        self.habits = {key: value for key, (value, _) in HABITS.items()}
        self.habits.update(habits)
        self.chance = Random('%s %s' % (room.habits.seed, name))
        self.is_awake = False
        self.turns = 0
        self.player = room.accounts[name]
        self.player.comes(self, 'bot')

    # -- what it hears ---------------------------------------------------------------------------------------------

    def send(self, *lines):
        """Hears lines, and looks afterwards at the match."""
        for line in lines:
            self.hear(line)
        if not self.is_awake:
            self.is_awake = True
            self.later(self.act)

    def write(self, _data):
        """Prompts are nothing to it."""

    def end(self):
        """Nobody ends it."""

    def hear(self, line):
        inviting = re.match(r"Type 'join (\S+)' to accept", line)
        coming = re.match(r'7 (\S+) ', line)
        saying = re.match(r'12 (\S+) ', line)
        if inviting and self.habits['joins'] == 'yes':
            self.later(self.does, 'join ' + inviting[1])
        elif coming and self.habits['invites']:
            self.later(self.invite, coming[1])
        elif saying and self.habits['says']:
            self.later(self.does, 'tell %s %s' % (saying[1], self.habits['says']))

    def later(self, does, *words):
        asyncio.get_running_loop().call_later(self.pause, does, *words)

    def does(self, line):
        """Types a command."""
        self.room.log(self.player.name, '<', line)
        self.room.command(self.player, line)

    # -- what it does ----------------------------------------------------------------------------------------------

    def invite(self, name):
        if self.player.table:
            return
        other = self.room.accounts[name]
        saved = self.room.saved_match(self.player, other)
        self.does('invite ' + name if saved else 'invite %s %s' % (name, self.habits['invites']))

    def returns(self, name):
        """Invites to the match that it has left, if it does so."""
        if self.habits['returns'] == 'yes':
            self.habits['leaves'] = self.habits['drops'] = ''
            self.later(self.invite, name)

    def drop(self):
        """Its connection breaks, and it has another one."""
        player = self.player
        self.room.leaves(player, 'drops connection.')
        self.player = player
        player.comes(self, 'bot')
        self.room.comes_or_goes(player, 7, 'logs in.')

    def act(self):
        """Does what is to be done now."""
        self.is_awake = False
        table = self.player.table
        if table is None:
            self.turns = 0
            return
        other, command = table.other(self.player).name, self.command(table.match, table.side(self.player), table)
        if command == 'drop':
            self.drop()
        elif command:
            self.does(command)
        if command in ('leave', 'drop'):
            self.returns(other)

    def command(self, match, side, table):
        """The command for the match as it is, if there is one."""
        habits = self.habits
        if not match.is_on:
            self.turns = 0
            return None if side in table.joined else habits['next']
        if match.doubler == 1 - side:
            return 'accept' if habits['takes'] == 'yes' else 'reject'
        if match.resigner == 1 - side:
            return {'yes': 'accept', 'no': 'reject'}.get(habits['answers'])
        if match.is_open():
            return None
        if match.turn != side:
            return 'leave' if habits['leaves'] == 'roll' and match.dice else None
        return self.move(match) if match.dice else self.begin_turn(match, side)

    def begin_turn(self, match, side):
        """Before it rolls: what its habits have for this turn, each once."""
        habits = self.habits
        self.turns += 1
        if habits['leaves'] in ('move', str(self.turns)):
            return 'leave'
        if habits['drops'] == str(self.turns):
            return 'drop'
        if habits['resigns'][:-1] == str(self.turns):
            kind, habits['resigns'] = habits['resigns'][-1], ''
            self.turns -= 1
            return 'resign ' + kind
        if habits['doubles'] == str(self.turns) and match.may_double(side):
            habits['doubles'] = ''
            self.turns -= 1
            return 'double'
        return 'roll'

    def move(self, match):
        """One of the legal plays."""
        plays = match.plays()
        way = self.habits['plays']
        steps = plays[0] if way == 'first' else plays[-1] if way == 'last' else self.chance.choice(plays)
        return 'move ' + ' '.join(match.spelled(match.turn, step) for step in steps)
