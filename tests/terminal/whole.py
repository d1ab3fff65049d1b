#!/usr/bin/env python3
"""Whole matches of two players who know the screen alone: python3 -B tests/terminal/whole.py PROGRAM [--matches N]
[--seed N] [--beside N] [--log FILE]

Each sits at a pseudo-terminal, reads rows, and types what a hint or an advice names; sometimes he doubles, resigns,
talks, leaves, or says goodbye. The habits of the server, the delays, portions and cuts of the wires are by lot. By what
the server knew at that moment it is judged whether each row was true and led on, whether the match stood still, what
was sent and how often, and what the pictures showed. The last line is 'N passed, M failed', of the matches.

It was seen to find: a hint that names no move if one is to be made; a decision that was sent twice.
"""

import argparse
import asyncio
import json
import random
import sys
import time
from collections import Counter
from types import SimpleNamespace

from people import Failed, same
from seats import Seat
from witness import Wire, Witnessed, unlike

from habits import AUTOROLLS, WITHOUT, Habits
from wire import Manners

# How long a match may take, the program its last row, and a busy machine what is missing then.
LONGEST = 400
LAST_ROW, LATE = 0.4, 20

# The first words of decisions.
DECISIONS = 'roll', 'double', 'accept', 'reject', 'move', 'resign'

# What the gate plays.
MATCHES, BESIDE, SEED = 30, 10, 1


class Game:
    """A match: a server with habits by lot, and two seats."""

    def __init__(self, number, seed):
        self.chance = chance = random.Random('%s %s' % (seed, number))
        self.names = chance.sample(['ann', 'bob', 'fritz_the_cat', 'x', 'Type', 'n' * 24], 2)
        self.doubles, self.resigns = chance.choice([0.05, 0.2, 0.5]), chance.choice([0, 0.02, 0.05])
        self.talks, self.leaves = chance.choice([0, 0.02, 0.05]), chance.choice([0, 0, 0.003, 0.01])
        self.length = chance.choice([1, 1, 2, 3])
        self.habits, self.settings = self.habits_by_lot(), []
        if chance.random() < 0.1:
            self.settings = [(self.names[0], chance.choice(['automove', 'greedy']), 1)]
        self.manners = [self.manners_by_lot() for _ in self.names]
        self.links = {name: [] for name in self.names}

    def habits_by_lot(self):
        chance = self.chance
        return Habits(seed=chance.randrange(10 ** 6), autoroll=chance.choice(['never', 'never', *AUTOROLLS]),
                      shows_doubles=chance.random() < 0.7, shows_resignations=chance.random() < 0.3,
                      hides_doubles=chance.random() < 0.15, loose_flags=chance.random() < 0.3,
                      without=frozenset(one for one in WITHOUT if chance.random() < 0.35),
                      refuses={word: chance.choice([1, 2]) for word in ('roll', 'move', 'double', 'accept')
                               if chance.random() < 0.12},
                      keeps_games=chance.random() < 0.3, forgets_offers=chance.random() < 0.3,
                      plays_past_offers=chance.random() < 0.2, tells_how=chance.random() < 0.5,
                      mixed_sides=chance.random() < 0.5, tells_changes=chance.random() < 0.7,
                      prompts=chance.random() < 0.2)

    def manners_by_lot(self):
        chance = self.chance
        portions, pause = chance.choice([(0, 0), (0, 0), (200, 15), (60, 25), (20, 3)])
        return Manners(portions=portions, pause=pause, delay=chance.choice([0, 0, 30, 80]),
                       cut=chance.choice([0, 0, 0, 400, 150]), telnet=chance.random() < 0.15,
                       seed=chance.randrange(10 ** 6))

    def is_invited_by(self, name, waited):
        """The first of the two invites at once; the other one after a while, if he was not invited."""
        return name == self.names[0] or waited > 1.5

    # -- how it is played --------------------------------------------------------------------------------------------

    async def begin(self):
        loop = asyncio.get_running_loop()
        self.room = Witnessed(loop.time, self.names, self.habits, (), True, ['Good luck.'], self.settings)
        self.servers, self.seats = [], []
        for name, other, manners in zip(self.names, self.names[::-1], self.manners):
            server = await loop.create_server(self.wire_of(name, manners), '127.0.0.1', 0)
            self.servers.append(server)
            self.seats.append(Seat(self, name, other, server.sockets[0].getsockname()[1]))

    def wire_of(self, name, manners):
        def wire():
            link = Wire(self.room, manners, len(self.links[name]))
            self.links[name].append(link)
            return link
        return wire

    async def play(self):
        """Plays it, and says what was found."""
        await self.begin()
        began = time.monotonic()
        players = []
        try:
            await asyncio.wait_for(self.invite(), LONGEST)
            players = [asyncio.ensure_future(seat.plays()) for seat in self.seats]
            while not self.room.ended and time.monotonic() - began < LONGEST:
                await asyncio.sleep(0.05)
            took = time.monotonic() - began
            await asyncio.sleep(LAST_ROW + max(manners.delay for manners in self.manners) / 1000)
            await self.settles()
            return self.found(took)
        finally:
            for one in players:
                one.cancel()
            self.close()

    async def settles(self):
        """Waits for lines and rows that are still on their way: what never comes is missing for good."""
        end = time.monotonic() + LATE
        while time.monotonic() < end and any(map(self.sent_otherwise, self.seats)):
            await asyncio.sleep(0.1)

    async def invite(self):
        """The first player invites the other until the match has begun."""
        first, second = self.seats
        while self.room.now().match is None:
            if first.row and first.row[0] == 'open':
                first.row = None
                first.type('open', 'open')
            elif second.row and second.row[0] == 'open':
                second.row = None
                second.type('open', 'open')
            elif second.inviting:
                line, second.inviting = second.inviting, None
                second.type(line, 'invited')
            elif len(self.room.now().online) == 2 and time.monotonic() - first.last_typed > 2:
                first.type('invite %s %d' % (second.name, self.length), 'begin')
            await asyncio.sleep(0.02)

    def close(self):
        for seat in self.seats:
            seat.close()
        for server in self.servers:
            server.close()
        for links in self.links.values():
            for link in links:
                if link.timer:
                    link.timer.cancel()
                if link.transport:
                    link.transport.abort()

    # -- what was found ----------------------------------------------------------------------------------------------

    def found(self, seconds):
        counts, stalls, alarms, faults, turns = Counter(), [], [], [], []
        for seat in self.seats:
            counts.update(seat.counts)
            stalls += [(seat.name, *stall) for stall in seat.stalls]
            alarms += [(seat.name, *alarm) for alarm in seat.alarms]
            turns += seat.turns
            faults += self.sent_otherwise(seat) + self.heard_twice(seat)
        illegal = [one for one in self.room.refused if is_against_the_rules(one)]
        faults += ['a move against the rules: %r' % (one,) for one in illegal]
        counts['lines that the server refused'] += len(self.room.refused)
        counts['connections'] += sum(map(len, self.links.values()))
        return {'counts': counts, 'stalls': stalls, 'alarms': alarms, 'faults': faults, 'turns': turns,
                'ended': self.room.ended, 'seconds': seconds, 'habits': repr(self.habits),
                'manners': repr(self.manners)}

    def heard_twice(self, seat):
        """The server hears a decision no more often than the player has typed it."""
        typed = Counter(word for line in seat.decided for word in [line.removeprefix('send ').split(' ')[0]])
        heard = Counter(line.split(' ')[0] for link in self.links[seat.name] for line in link.lines)
        return ['%s: %s came %d times, and was typed %d times' % (seat.name, word, heard[word], typed[word])
                for word in DECISIONS if heard[word] > typed[word]]

    def sent_otherwise(self, seat):
        """Each line of a connection is a row of the screen, and no row is there twice."""
        found, links = [], self.links[seat.name]
        for number, link in enumerate(links):
            rows = seat.sent[number] if number < len(seat.sent) else []
            why = unlike(link.lines, rows, is_whole=not link.is_over and number + 1 == len(links))
            if why:
                found.append('%s, connection %d: %s' % (seat.name, number, why))
        return found


def is_against_the_rules(refused):
    """True if a line was refused since its move is against the rules."""
    from witness import AGAINST_THE_RULES
    _, line, reason = refused
    return line.startswith('m') and bool(AGAINST_THE_RULES.match(reason)) and reason != "** You can't move now."


async def play_all(numbers, seed, beside, tell):
    """Plays these matches, so many at the same time."""
    turn = asyncio.Semaphore(beside)

    async def one(number):
        async with turn:
            try:
                result = await Game(number, seed).play()
            except (OSError, asyncio.TimeoutError, LookupError, ValueError) as error:
                result = {'counts': Counter(), 'stalls': [], 'alarms': [], 'turns': [], 'ended': False, 'seconds': 0,
                          'faults': [repr(error)], 'habits': '', 'manners': ''}
            tell(number, result)
            return result
    return await asyncio.gather(*map(one, numbers))


def table(results):
    """What was found, in rows."""
    counts = sum((result['counts'] for result in results), Counter())
    turns = sorted(rows for result in results for rows in result['turns'])
    yield '%d matches, %d to their end, %.0f s each' % (
        len(results), sum(result['ended'] for result in results),
        sum(result['seconds'] for result in results) / max(1, len(results)))
    for name, count in sorted(counts.items()):
        yield '%8d  %s' % (count, name)
    if turns:
        yield '%8d  turns; rows a turn: median %d, nine in ten %d, most %d' % (
            len(turns), turns[len(turns) // 2], turns[len(turns) * 9 // 10], turns[-1])


# What is never to be counted: rows that are false by all that had come to the screen, or could have, and pictures.
BAD = 'false', 'wrong remedy', 'is not taken', 'had named it', 'pictures that no board had', 'wider'


def counted(result, words):
    """How often something was counted that has one of these words in its name."""
    return sum(count for name, count in result['counts'].items() if any(word in name for word in words))


def is_sound(result):
    """True if nothing stood still, nothing was false, and nothing was drawn or sent otherwise than it is."""
    return result['ended'] and not result['stalls'] and not result['faults'] and not counted(result, BAD)


def report(results):
    """Prints the table, and the transcripts of what is wrong."""
    for row in table(results):
        print(row)
    seen = Counter()
    for number, result in enumerate(results):
        if is_sound(result):
            continue
        for what in [('stall', *stall) for stall in result['stalls']] + result['alarms']:
            kind = what[0] if what[0] == 'stall' else (what[1], what[2].split(' ')[-3:])
            seen[str(kind)] += 1
            if seen[str(kind)] <= 4:
                print('-- match %d: %s' % (number, ' | '.join(map(str, what[:-1]))))
                for row in what[-1]:
                    print('      |', row[:100])
        for fault in result['faults'][:3]:
            print('-- match %d: %s' % (number, fault))
    sound = sum(map(is_sound, results))
    print('%d passed, %d failed' % (sound, len(results) - sound))


def thirty_matches_by_the_screen_alone():
    """Side by side: nobody stands still, and no row is false. On a machine that does much else a row may come later than
    the judge allows for: so a match that is not sound is played once more, alone, and counts if it is not sound again."""
    results = asyncio.run(play_all(range(MATCHES), SEED, BESIDE, lambda *_: None))
    for number, first in enumerate(results):
        if is_sound(first):
            continue
        print('        match %d is played again: %s' % (number, in_short(first)), flush=True)
        again, = asyncio.run(play_all([number], SEED, 1, lambda *_: None))
        if not is_sound(again):
            raise Failed('match %d: %s; and again: %s' % (number, in_short(first), in_short(again)))


def in_short(result):
    """What is wrong with a match."""
    return 'ended %s, stalls %r, alarms %r, faults %r' % (
        result['ended'], *(result[kind][:1] for kind in ('stalls', 'alarms', 'faults')))


class Unseated(Seat):
    """A seat at which no program runs: a scene gives it the rows that it reads."""

    def begin(self, port):
        pass


def what_is_sent_after_a_connection_that_ended_at_once():
    """The server accepts a connection, and resets it while the client is still connecting. What comes on the next one is
    compared with the rows of that one."""
    game = Game(0, SEED)
    game.room = Witnessed(time.monotonic, game.names, game.habits)
    name, other = game.names
    seat = Unseated(game, name, other, 0)
    for row in ('connected to 127.0.0.1:4321', 'sent roll', 'lost: open connects again, quit ends',
                'no connection to 127.0.0.1:4321: connection reset; open tries again',
                'connected to 127.0.0.1:4321', 'sent move 8-5 6-5'):
        seat.reads(row)
    for number, lines in enumerate((['roll'], [], ['move 8-5 6-5'])):
        game.links[name].append(Wire(game.room, game.manners[0], number))
        game.links[name][-1].lines += lines
    same('what was sent otherwise', game.sent_otherwise(seat), [])


def an_offer_is_told_by_the_server_alone():
    """What a player has typed or said of one is nothing that the server has told, nor what it said on a connection
    before; and of a double a board tells, if the server's boards do."""
    game = Game(0, SEED)
    name, other = game.names
    seat = Unseated(game, name, other, 0)
    said = ['> whisper bob wants to resign.', 'sent whisper bob wants to resign.',
            '05:05 You whisper: bob wants to resign.']
    connected, offer = 'connected to 127.0.0.1:4321', 'bob wants to resign. You will win 1 point.'
    double = "bob doubles. Type 'accept' or 'reject'."
    resigns, doubles = SimpleNamespace(resigner=1, doubler=None), SimpleNamespace(resigner=None, doubler=1)
    for match, hides, rows, told in (
            (resigns, False, [], False), (resigns, False, said, False), (resigns, False, [offer], True),
            (resigns, False, [offer, connected], False), (doubles, False, [], True), (doubles, True, said, False),
            (doubles, True, [double], True)):
        game.habits.hides_doubles = hides
        seat.rows.clear()
        seat.rows.extend([connected, *rows])
        same('what is told by %r' % rows, seat.was_told(SimpleNamespace(match=match)), told)


def a_hint_is_done_once_its_move_is_sent():
    """Also if it comes again before that, and if the move has other numbers for the server."""
    game = Game(0, SEED)
    game.room = Witnessed(time.monotonic, game.names, game.habits)
    name, other = game.names
    for typed, sent in (('move 24-20 20-15', 'sent move 1-5 5-10 (in your numbers 24-20 20-15)'),
                        ('move 8-5 6-5', 'sent move 8-5 6-5'), ('roll', 'sent roll')):
        seat = Unseated(game, name, other, 0)
        seat.link = lambda: None
        seat.sent.append([])
        seat.awaited, seat.row = typed, ('hint', [typed])
        seat.reads(sent)
        same('what is named after %r' % sent, (seat.row, seat.awaited), (None, ''))


SCENES = [thirty_matches_by_the_screen_alone, what_is_sent_after_a_connection_that_ended_at_once,
          a_hint_is_done_once_its_move_is_sent, an_offer_is_told_by_the_server_alone]


def main():
    line = argparse.ArgumentParser()
    line.add_argument('program')
    line.add_argument('--matches', type=int, default=MATCHES)
    line.add_argument('--first', type=int, default=0)
    line.add_argument('--seed', type=int, default=SEED)
    line.add_argument('--beside', type=int, default=BESIDE)
    line.add_argument('--log')
    options = line.parse_args()
    log = open(options.log, 'a') if options.log else None

    def tell(number, result):
        if log:
            print(json.dumps({'number': number, **result}), file=log, flush=True)
    numbers = range(options.first, options.first + options.matches)
    results = asyncio.run(play_all(numbers, options.seed, options.beside, tell))
    report(results)
    return 0 if all(map(is_sound, results)) else 1


if __name__ == '__main__':
    sys.exit(main())
