#!/usr/bin/env python3
"""Compares two programs in sessions of `connect`, byte by byte: tests/beside.py PROGRAM OTHER [SESSIONS] [SEED]

In each session a player types what both programs are given at once, and a server of its own answers each of them by
the same rules: an ending is played, with chatter, wrong lines and lost connections at random. What a program prints, on
both streams, what it sends on each connection, what it logs, and its status have to be the same. Those that differ are
played again, alone: a machine may be so busy that an answer comes only after the program has stopped to wait for it.
A log is compared by direction, since it tells what was heard before a line went: of two answers that the server sends
one directly after the other, a read brings the first alone or both.
Prints a line for each session that differs, and then `N passed, M failed`.
"""

import concurrent.futures
import os
import random
import re
import subprocess
import sys
import tempfile
import threading

import fuzz
from props import reference
from props.checks import PATIENCE
from props.server import Game, Server

# How many sessions go on at the same time: they mostly wait.
BESIDE = 24

# How often a session is played alone.
TRIES = 5

# Lines that are typed whatever the game is.
TYPED = [b'', b'roll', b'double', b'accept', b'reject', b'move', b'move 24-18', b'move bar-20', b'resign n',
         b'resign g', b'order roll', b'withdraw roll', b'board', b'who', b'players', b'say good luck', b'say',
         b'tell bob hello', b'tell b:b hello', b'kibitz nice', b'whisper so', b'shout all', b'message bob later',
         b'invite bob 5', b'invite bob 0', b'join bob', b'join', b'toggle ready', b'toggle automove', b'open',
         b'bye', b'dance', b'roll ', b'say \xe9\xff', b'move 6-5 6-5 6-5 6-5', b'x' * 5000]


class Session:
    """What a session has at random, and the same for both programs."""

    def __init__(self, seed):
        rng = random.Random(seed)
        self.seed = seed
        self.own = sorted((rng.randint(1, 8) for _ in range(rng.randint(1, 5))), reverse=True)
        self.other = sorted(rng.randint(17, 24) for _ in range(rng.randint(1, 5)))
        self.dice = [[rng.randint(1, 6), rng.randint(1, 6)] for _ in range(60)]
        self.loses = rng.random() < 0.3
        self.password = rng.choice([b'secret'] * 9 + [b'a secret', b''])
        self.typed = list(self.lines(rng))

    def game(self):
        """The game from its beginning."""
        return Game(self.own, self.other, [list(pair) for pair in self.dice])

    def lines(self, rng):
        """What is typed: mostly what a player types in the game, as it goes if nothing else is typed."""
        game = self.game()
        for _ in range(rng.randint(2, 8)):
            if rng.random() < 0.45:
                yield rng.choice(TYPED)
                continue
            line = b'roll'
            if game.dice != [0, 0]:
                found = re.findall(rb'move [^\n]*', reference.plays(game.board().encode())[0])
                line = rng.choice(found) if found else b'board'
            game.answer(line.decode().split(' '))
            yield line

    def chatter(self, count):
        """What else the server sends with its answer of this number."""
        rng = random.Random(self.seed * 1000 + count)
        return b''.join(fuzz.show_line(rng) for _ in range(rng.choice((0, 0, 1, 2, 5))))


class Ending:
    """The server of one program, in a thread of its own."""

    def __init__(self, session):
        self.session = session
        self.server = Server()
        self.heard = []
        self.thread = threading.Thread(target=self.serve, daemon=True)
        self.thread.start()

    def serve(self):
        """Answers one connection after the other."""
        game = self.session.game()
        try:
            while True:
                self.server.accept()
                self.heard.append([])
                self.server.send_bytes(b'login: ')
                self.answer_all(game)
                self.server.drop()
        except OSError:
            pass

    def answer_all(self, game):
        """Answers the lines of one connection."""
        while True:
            line = self.server.line()
            if line is None:
                return
            self.heard[-1].append(line)
            count = sum(map(len, self.heard))
            if line.startswith('login '):
                said = ['1 ann 1041253132 localhost', '2 ann 1 0 0 0 0 0 1 1 10 0 1 0 1 1500.00 0 0 0 0 0 UTC']
            elif line.startswith(('set ', 'toggle ')):
                said = ['** Done.']
            else:
                said = game.answer(line.split(' '))
            # at once, since a log tells what was heard before an answer went
            ended = ''.join(one + '\r\n' for one in said).encode('latin-1')
            self.server.send_bytes(ended + self.session.chatter(count))
            if line == 'bye' or self.session.loses and count % 7 == 6:
                return


def play(program, session):
    """All that comes of a session with one program."""
    ending = Ending(session)
    with tempfile.TemporaryDirectory() as folder:
        log = os.path.join(folder, 'log')
        words = [program, 'connect', '127.0.0.1', str(ending.server.port), 'ann']
        words += ['--log', log] * (session.seed % 4 == 0)
        typed = b'\n'.join([session.password, *session.typed]) + b'\n'
        done = subprocess.run(words, input=typed, capture_output=True, timeout=PATIENCE * 3)
        logged = None
        if os.path.exists(log):
            with open(log, 'rb') as file:
                logged = file.read()
    ending.server.listener.close()
    ending.thread.join(1)
    return {'status': done.returncode, 'out': done.stdout, 'err': done.stderr, 'heard': ending.heard,
            'log': by_direction(logged)}


def by_direction(logged):
    """The lines of a log that were sent, and those that were heard, each in their order; or None if there is no log."""
    if logged is None:
        return None
    lines = logged.splitlines(keepends=True)
    return [line for line in lines if line.startswith(b'>> ')], [line for line in lines if not line.startswith(b'>> ')]


def compare(programs, seed):
    """What differs in a session, and how much was printed."""
    session = Session(seed)
    with concurrent.futures.ThreadPoolExecutor(2) as both:
        one, other = both.map(lambda program: play(program, session), programs)
    return next(((key, one[key], other[key]) for key in one if one[key] != other[key]), None), one['out'].count(b'\n')


def main():
    """Plays the sessions."""
    programs = [os.path.realpath(path) for path in sys.argv[1:3]]
    sessions, seed = [int(word) for word in sys.argv[3:]] + [200, 1][len(sys.argv) - 3:]
    seeds = range(seed, seed + sessions)
    with concurrent.futures.ThreadPoolExecutor(BESIDE) as pool:
        found = list(zip(seeds, pool.map(lambda seed: compare(programs, seed), seeds)))
    lines = sum(printed for _, (_, printed) in found)
    failed = 0
    for seed in [seed for seed, (why, _) in found if why]:
        for _ in range(TRIES):
            why, _ = compare(programs, seed)
            if not why:
                break
        else:
            failed += 1
            print('FAILED  session %d: %s: %.300r and %.300r' % (seed, *why), flush=True)
    print('%d sessions, in which %d lines were printed' % (sessions, lines))
    print('%d passed, %d failed' % (sessions - failed, failed))
    return 1 if failed else 0


if __name__ == '__main__':
    sys.exit(main())
