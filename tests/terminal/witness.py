"""The server of whole matches, in this process, and a witness of it: what it knew at each moment, and whether it would
have taken a line then."""

import collections
import copy
import re
import sys

from people import ROOT

sys.path.insert(0, str(ROOT / 'examples' / 'fibs_server'))

import rules
from boards import doublers_of
from match import Against
from room import Room
from wire import Link

# What the client sends by itself after a login.
BY_ITSELF = 'set boardstyle 3', 'toggle autoboard', 'toggle moreboards', 'board'

# Why the server refuses a move of one whose turn it is to move: it is against the rules.
AGAINST_THE_RULES = re.compile(r"\*\* You (?:must give|can't move \S|have to remove|have to play)")

# What may stand before a line of the server.
PROMPTS = re.compile('(?:login: |password: |> )*')

# How long what the server has written may be on its way to the screen, on a machine that does much else.
ON_ITS_WAY = 0.25


class Moment:
    """What the server knows of the two players, from some time on."""

    def __init__(self, room, names):
        self.names = names
        players = [room.accounts.get(name) for name in names]
        self.online = {name for name, player in zip(names, players) if player and player.logged_in}
        self.invited = {name: player.invited for name, player in zip(names, players) if player and player.invited}
        self.is_saved = frozenset(names) in room.saved
        table = next((player.table for player in players if player and player.table), None)
        self.match, self.joined = None, set()
        if table:
            self.match = copy.copy(table.match)
            self.match.position = list(table.match.position)
            self.joined = {table.match.names[side] for side in table.joined}
        self.habits = room.habits

    def side(self, name):
        return self.match.names.index(name)

    def must_act(self, name):
        """True if the server waits for this player."""
        match = self.match
        if match is None:
            return False
        if not match.is_on:
            return name not in self.joined
        side = self.side(name)
        if match.doubler is not None:
            return match.doubler != side
        if match.resigner is not None:
            return match.resigner != side
        return match.turn == side

    def has_offered(self, name):
        """True if the player waits for an answer of the other."""
        match = self.match
        return bool(match and match.is_on and self.side(name) in (match.doubler, match.resigner))

    def takes(self, name, line):
        """True if the server would carry this line out."""
        word, _, rest = line.partition(' ')
        other = next(one for one in self.names if one != name)
        if self.match is None:
            return {'invite': self.is_saved and rest == other and other in self.online,
                    'join': self.invited.get(other, ('',))[0] == name and rest == other}.get(word, False)
        if word in ('leave', 'board', 'bye'):
            return True
        if word == 'join':
            return not self.match.is_on
        return self.match.is_on and self.decides(self.match, self.side(name), word, rest)

    def decides(self, match, side, word, rest):
        """True if this decision would be carried out."""
        if word in ('accept', 'reject'):
            return 1 - side in (match.doubler, match.resigner)
        if match.turn != side or match.doubler is not None or match.is_open() and not self.habits.plays_past_offers:
            return False
        if word == 'move':
            return bool(match.dice) and self.is_legal(match, side, rest)
        if word == 'double':
            return not match.dice and match.may_double(side)
        return word == 'resign' or word == 'roll' and not match.dice

    def shows_double(self, name):
        """True if the player is to roll, and his board says that he may double. The server may refuse it all the same."""
        match = self.match
        if match is None or not match.is_on or match.dice or match.is_open():
            return False
        side = self.side(name)
        return match.turn == side and bool(doublers_of(match, side, self.habits)[0])

    def sent_for(self, name, line):
        """What goes to the server if the player types a line: he counts the places so that he goes down, and what
        follows `send` goes as it is."""
        word, _, rest = line.partition(' ')
        if word == 'send':
            return rest
        if word != 'move' or self.match is None:
            return line
        side = self.side(name)
        steps = [[end if end in ('bar', 'off') else str(self.match.place(side, int(end))) for end in step.split('-')]
                 for step in rest.split(' ')]
        return 'move ' + ' '.join(map('-'.join, steps))

    def is_legal(self, match, side, rest):
        steps = []
        for step in rest.split(' '):
            source, _, target = step.partition('-')
            steps.append((rules.BAR if source == 'bar' else match.place(side, int(source)),
                          rules.OFF if target == 'off' else match.place(side, int(target))))
        return rules.reached(match.seen_by(side), match.numbers(), steps) is not None

    def way_on(self, name):
        """A line that the server takes, if it waits for the player."""
        match = self.match
        if not match.is_on:
            return 'join'
        if match.is_open():
            return 'accept'
        if not match.dice:
            return 'roll'
        return 'move ' + ' '.join(match.spelled(match.turn, step) for step in match.plays()[0])

    def in_words(self, name):
        match = self.match
        if match is None:
            return 'no match%s; online %s; invited %s' % (
                ', one is saved' if self.is_saved else '', sorted(self.online), self.invited)
        if not match.is_on:
            return 'between two games; joined %s' % sorted(self.joined)
        return 'turn of %s, dice %s, doubler %s, resigner %s; the player is side %d' % (
            match.turn, match.dice, match.doubler, match.resigner, self.side(name))


class Witnessed(Room):
    """A room of two players, whose moments are kept."""

    def __init__(self, clock, names, *more):
        super().__init__(*more)
        self.clock, self.names, self.moments = clock, names, []
        # lines that were refused, and why; and how each player was told that his account is set
        self.refused, self.informed = [], {}
        self.ended = False
        self.note()

    def note(self):
        self.moments.append(Moment(self, self.names))

    def now(self):
        return self.moments[-1]

    def line(self, link, line):
        link.lines.append(line)
        super().line(link, line)
        self.note()

    def lost(self, link):
        super().lost(link)
        self.note()

    def take_in(self, link, player, client):
        settings = player.settings
        self.informed[player.name] = settings['automove'] or settings['greedy']
        super().take_in(link, player, client)

    def command(self, player, line):
        run = self.commands.run

        def noted(one, typed):
            try:
                run(one, typed)
            except Against as reason:
                self.refused.append((one.name, typed, str(reason)))
                raise
        self.commands.run = noted
        try:
            super().command(player, line)
        finally:
            self.commands.run = run

    def report(self, players, text):
        """The only report that ends a match says who wins."""
        self.ended = self.ended or ' point match against ' in text
        super().report(players, text)


class Counted:
    """A transport that counts the bytes it has written."""

    def __init__(self, transport, clock):
        self.transport, self.clock = transport, clock
        self.times, self.totals = [], [0]

    def write(self, data):
        self.times.append(self.clock())
        self.totals.append(self.totals[-1] + len(data))
        self.transport.write(data)

    def written_by(self, when):
        """How many bytes were written by then."""
        at = len(self.times)
        while at and self.times[at - 1] > when:
            at -= 1
        return self.totals[at]

    def __getattr__(self, name):
        return getattr(self.transport, name)


class Wire(Link):
    """A connection of one of the players. It keeps what was sent on it and after which moment."""

    def __init__(self, room, manners, number):
        # the lines of the player; those of the server, each with the moment that it is of; the boards among them
        self.lines, self.said, self.half, self.boards = [], [], b'', []
        self.marks, self.sent = [], 0
        super().__init__(room, manners, number)

    def connection_made(self, transport):
        self.is_cut_off = False
        super().connection_made(Counted(transport, self.room.clock))

    def write(self, data):
        *lines, self.half = (self.half + data).split(b'\r\n')
        for line in lines:
            said = PROMPTS.sub('', line.decode('latin-1'))
            self.said.append((said, len(self.room.moments)))
            if said.startswith('board:'):
                self.boards.append(said)
        super().write(data)

    def put(self, data):
        """The moment of what is sent within a command is the one after it."""
        self.sent += len(data)
        self.marks.append((self.sent, len(self.room.moments)))
        super().put(data)

    def cut_off(self):
        self.is_cut_off = True
        super().cut_off()

    def moment_of(self, when):
        """The moment of the last byte that had time to come to the screen by then."""
        written = self.transport.written_by(when - ON_ITS_WAY) if self.transport else 0
        found = 0
        for end, moment in self.marks:
            if end > written and found:
                break
            found = moment
            if end >= written:
                break
        return found


def unlike(lines, rows, is_whole):
    """Why the lines of a connection are not what the rows say that was sent, or ''."""
    by_itself, at = collections.Counter(BY_ITSELF), 0
    for line in lines:
        if line.startswith('login '):
            continue
        if at < len(rows) and rows[at] == line:
            at += 1
        elif by_itself[line]:
            by_itself[line] -= 1
        else:
            return '%r came, and the screen says %r' % (line, rows[at:at + 2])
    return 'the screen says %r, which never came' % rows[at] if is_whole and at < len(rows) else ''
