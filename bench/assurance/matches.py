#!/usr/bin/env python3
"""Matches of two bots over connections that break: matches.py MATCHES

Each bot is a client of the package for Python (and so of lib/libfibs.so, or of the library that FIBS_LIBRARY names). It
decides at random: plays, rolls, doubles, answers of doubles. They play on the server of examples/fibs_server, in this
process, over real sockets; its wires deliver in portions and with delays, put telnet commands in, and break after some
lines, by lot. Who is cut off comes again, and plays on. A part is one match.

Judged by what the server received on each connection: the decisions there are a front of those that the client handed
out there, and at most the last is missing; the client hands out nothing but its first commands unless the bot decides;
no move is refused as one against the rules; and the match comes to its end.

It was seen to find: a bot's client that sends the waiting decision again after a login.
"""

import argparse
import asyncio
import collections
import concurrent.futures
import os
import random
import re
import sys
import time

from common import TOP, Run, be_nice, common_options, parts

sys.path.insert(0, str(TOP / 'tests' / 'terminal'))

from props.package import fibs
from witness import AGAINST_THE_RULES, BY_ITSELF, Wire, Witnessed

from habits import Habits
from wire import Manners

# How long nobody may decide anything; how long a bot waits before it asks for the board, and before it connects again.
STILL, QUIET, AGAIN = 120, 1.0, 0.02
DECISIONS = 'roll', 'double', 'accept', 'reject', 'move'
WANTED = ['connections', 'cut off', 'lost with a decision', 'the last did not arrive', *DECISIONS]


def is_decision(line):
    return line.split(' ')[0] in DECISIONS


class Bot:
    """One of the two players."""

    def __init__(self, match, name, other, port, invites):
        self.match, self.name, self.other, self.port, self.invites = match, name, other, port, invites
        self.chance = random.Random('%s %s' % (match.seed, name))
        self.client = fibs.Client(name, 'secret')
        # the decisions that were handed out on each connection
        self.sent, self.writer = [], None

    async def plays(self):
        while not self.match.is_over:
            try:
                reader, self.writer = await asyncio.open_connection('127.0.0.1', self.port)
                await self.talks(reader)
            except OSError:
                pass
            lost = self.client.lose()
            self.match.seen['lost with a decision'] += lost is not None
            self.writer.close()
            await asyncio.sleep(AGAIN)

    async def talks(self, reader):
        """One connection, to its end."""
        self.sent.append([])
        login = self.client.open()
        self.match.wrong(login != b'login fibs_client 1008 %s secret\r\n' % self.name.encode(), 'login %r' % login)
        self.writer.write(login)
        while not self.match.is_over:
            try:
                data = await asyncio.wait_for(reader.read(4096), QUIET)
            except asyncio.TimeoutError:
                self.asks()
                continue
            if not data:
                return
            for heard in self.client.feed(data):
                first = [line for line in heard.send.decode().split('\r\n') if line]
                self.match.wrong(any(line not in BY_ITSELF for line in first), 'it sends %r by itself' % first)
                self.writer.write(heard.send)
                self.hears(heard.line)

    def asks(self):
        """Nothing came for a while."""
        if not self.client.ready:
            return
        match = self.match.room.now().match
        if match is not None:
            # between two games what asked him to join may be lost
            self.plain('board' if match.is_on else 'join')
        elif self.invites:
            self.plain('invite %s %d' % (self.other, self.match.length))

    def plain(self, line):
        self.writer.write(self.client.plain(line))

    def hears(self, line):
        text = line.text.decode('latin-1')
        if line.kind == fibs.BOARD:
            self.decides(fibs.Board(line.text))
        elif re.match(r"Type 'join %s' to accept" % self.other, text):
            self.plain('join ' + self.other)
        elif text.startswith("Type 'join' if you want"):
            self.plain('join')

    def decides(self, board):
        """Any decision that the rules allow, if it is the bot's turn."""
        if board.player != b'You' or self.client.waiting:
            return
        choices = {fibs.Phase.ROLL_OR_DOUBLE: [fibs.ROLL] * 4 + [fibs.DOUBLE] * bool(board.may_double),
                   fibs.Phase.ANSWER_DOUBLE: [fibs.ACCEPT, fibs.ACCEPT, fibs.REJECT]}.get(board.phase)
        if board.phase == fibs.Phase.MOVE:
            choices = board.plays()
        if not choices:
            return
        try:
            wire = self.client.decide(self.chance.choice(choices))
        except fibs.Refused as why:
            self.match.wrong(why.name not in ('NotReady', 'WrongKind'), 'refused by %s' % why.name)
            return
        line = wire.decode().rstrip('\r\n')
        self.sent[-1].append(line)
        self.match.seen[line.split(' ')[0]] += 1
        self.writer.write(wire)


class Match:
    """A match of a seed."""

    def __init__(self, seed):
        self.seed, self.chance = seed, random.Random(seed)
        self.names, self.length = ['ann', 'bob'], self.chance.choice([1, 1, 2, 3])
        self.seen, self.faults = collections.Counter(), []
        self.links = {name: [] for name in self.names}
        self.servers, self.is_over = [], False

    def wrong(self, is_wrong, what):
        if is_wrong and len(self.faults) < 5:
            self.faults.append(what)

    def manners(self):
        chance = self.chance
        portions, pause = chance.choice([(0, 0), (0, 0), (200, 5), (40, 2)])
        return Manners(portions=portions, pause=pause, delay=chance.choice([0, 0, 10]),
                       cut=chance.choice([40, 80, 150]), telnet=chance.random() < 0.3,
                       seed=chance.randrange(10 ** 6))

    def wire_of(self, name, manners):
        def wire():
            link = Wire(self.room, manners, len(self.links[name]))
            self.links[name].append(link)
            return link
        return wire

    async def play(self):
        loop, began = asyncio.get_running_loop(), time.monotonic()
        habits = Habits(seed=self.seed, keeps_games=True, mixed_sides=self.chance.random() < 0.5)
        self.room = Witnessed(loop.time, self.names, habits, (), True, ['Good luck.'], [])
        bots = []
        for name, other in zip(self.names, self.names[::-1]):
            server = await loop.create_server(self.wire_of(name, self.manners()), '127.0.0.1', 0)
            self.servers.append(server)
            bots.append(Bot(self, name, other, server.sockets[0].getsockname()[1], name == 'ann'))
        playing = [asyncio.ensure_future(bot.plays()) for bot in bots]
        decisions = 0
        while not self.room.ended and time.monotonic() - began < STILL:
            if self.faults or any(one.done() for one in playing):
                break
            if decisions < sum(self.seen[kind] for kind in DECISIONS):
                decisions, began = sum(self.seen[kind] for kind in DECISIONS), time.monotonic()
            await asyncio.sleep(0.02)
        await asyncio.sleep(0.1)
        self.is_over = True
        for one in playing:
            self.wrong(one.done() and one.exception(), 'a bot ended: %r' % (one.done() and one.exception()))
        await asyncio.wait(playing, timeout=3 * QUIET)
        for server in self.servers:
            server.close()
        self.wrong(not self.room.ended and not self.faults, 'the match stands still')
        for bot in bots:
            self.judge(bot)

    def judge(self, bot):
        """Compares what the server received of a bot with what its client handed out."""
        links = self.links[bot.name]
        self.seen['connections'] += len(links)
        for link, sent in zip(links, bot.sent):
            self.seen['cut off'] += link.is_cut_off
            came = [line for line in link.lines if is_decision(line)]
            self.wrong(came != sent[:len(came)], '%s sent %r, and %r came' % (bot.name, sent[-3:], came[-3:]))
            self.wrong(len(sent) - len(came) > 1, '%s: %d decisions did not arrive' % (bot.name, len(sent) - len(came)))
            self.seen['the last did not arrive'] += len(sent) == len(came) + 1
        for name, line, reason in self.room.refused:
            self.wrong(AGAINST_THE_RULES.match(reason) and line.startswith('m'), '%s: %s: %s' % (name, line, reason))


def play(seed):
    """A part: its seed, one match, how long it took, what was seen, and what was wrong."""
    began, match = time.monotonic(), Match(seed)
    asyncio.run(match.play())
    why = '; '.join(match.faults) if match.faults else None
    return seed, 1, time.monotonic() - began, match.seen, why


def main():
    line = argparse.ArgumentParser(description=__doc__.partition('\n')[0])
    line.add_argument('matches', type=int)
    common_options(line, 10)
    options = line.parse_args()
    be_nice()
    run = Run('matches', options, os.environ['FIBS_LIBRARY'])
    with concurrent.futures.ProcessPoolExecutor(options.jobs) as pool:
        for done in parts(pool, options, options.matches, play):
            run.part(*done)
    return run.end(WANTED)


if __name__ == '__main__':
    sys.exit(main())
