#!/usr/bin/env python3
"""A server that says anything at any moment: python3 -B tests/terminal/babble.py PROGRAM [--texts N] [--seed N]
[--beside N]

The texts that say where a match stands, boards, and pieces of both come in any order, cut, or mixed up. Whatever
comes, each row of the screen fits 79 columns; what a row names without `send` is taken when it is typed, and what it
names with `send` is what the client itself would not take. The last line is 'N passed, M failed', of the texts.
"""

import argparse
import concurrent.futures
import random
import re
import socket
import sys
import time
from collections import Counter

from people import PATIENCE, Failed, Person
from witness import rules
from words import REFUSED, read

from boards import board_line
from habits import Habits
from match import Match

# How long the screen has to say what it has to say at rest.
RESTS = 0.06
MATCHES = 6

NAMES = ['bob', 'bob', 'bob', 'eve', 'ann', 'You', 'Type', 'Please', '**', 'n' * 24, 'm' * 64]
MOVES = ['8-5 6-5', 'bar-24 bar-24 bar-24 bar-24', '6-off', '1-2']
# What a server says of a match: NAME is anybody, MOVE a move.
TEXTS = """
** You're not playing. Type 'join' to play the next game.
** You are not playing.
** You're not playing.
** You're not watching or playing.
** Error: you are not playing.
** You have to wait for NAME to accept or reject.
** Please wait until NAME has accepted or rejected your offer.
** You have to accept or reject first.
** Please type 'accept' or 'reject'.
** Please wait for NAME to join too.
Please wait for NAME to join too.
** Player NAME has left the game. The game was saved.
** Player NAME has joined you for a 3 point match.
** Player NAME wants to play the next game. Type 'join' or 'leave'.
** You are now playing a 3 point match with NAME.
** You terminated the game. The game was saved.
** There's no saved match with NAME. Please give a match length.
** Nobody has invited you.
** NAME didn't invite you.
** You can't double.
** You can't move 8-5.
** You can't roll now.
** You can't accept now.
** You can't reject now.
** You can't resign now.
** It's not your turn to move.
** You did already roll the dice.
** You have to roll the dice before you move.
** You have to remove pieces from the bar in your first move.
** You must give 2 moves.
** There is nothing to accept.
** Your opponent didn't double or resign.
** The Crawford rule doesn't allow you to double in this game.
** Can't understand the move 'x'.
You double. Please wait for NAME to accept or reject.
You want to resign. NAME will win 1 point.
You reject. The game continues.
You give up. NAME wins 1 point.
You accept and win 2 points.
You accept the double. The cube shows 2.
You win the game and get 1 point. Congratulations!
You win the 3 point match 3-1 .
You are now playing with NAME. Your running match was loaded.
Starting a new game with NAME.
Type 'join' if you want to play the next game, type 'leave' if you don't.
Type 'join NAME' to accept.
It's your turn to roll or double.
It's your turn to roll.
It's your turn to move.
Please move 2 pieces.
NAME rejects. The game continues.
NAME accepts the double. The cube shows 2.
NAME accepts and wins 1 point.
NAME gives up. You win 1 point.
NAME wins the game and gets 1 point. Sorry.
NAME wins the 3 point match 3-1 .
NAME doubles. Type 'accept' or 'reject'.
NAME wants to resign. You will win 1 point. Type 'accept' or 'reject'.
NAME has joined you. Your running match was loaded.
NAME has joined you for a 3 point match.
NAME wants to play a 3 point match with you.
NAME wants to resume a saved match with you.
NAME drops connection. The game was saved.
NAME logs out. The game was saved.
NAME rolls 3 and 1.
NAME moves MOVE .
NAME can't move.
You roll 3 and 1.
You can't move.
NAME makes the first move.
turn: ann.
login:
12 NAME You win the game
15 NAME bob rejects. The game continues.
7 NAME NAME logs in.
8 NAME NAME drops connection.
""".strip().split('\n')

OWN_INFO = '2 ann 1 1 0 %d 0 0 1 1 10 0 1 %d 1 1500.00 0 0 0 0 0 UTC'


def some_boards(chance, count=80):
    """Boards of matches at any moment, as ann sees them."""
    found = []
    while len(found) < count:
        match = Match(['ann', chance.choice(NAMES[:4] + NAMES[-2:])], chance.choice([1, 3, 9999]))
        match.opens((3, 1) if chance.random() < 0.5 else (1, 3))
        for _ in range(chance.randrange(12)):
            plays = match.plays()
            if plays and match.moves(chance.choice(plays)):
                break
            match.passes_to(1 - match.turn)
            match.rolls((chance.randint(1, 6), chance.randint(1, 6)))
        roll = chance.random()
        if roll < 0.3:
            match.passes_to(chance.randrange(2))
        elif roll < 0.45:
            match.passes_to(chance.randrange(2))
            match.doubles(match.turn)
        elif roll < 0.55:
            match.ends(chance.randrange(2), 1)
        habits = Habits(shows_doubles=chance.random() < 0.5, loose_flags=chance.random() < 0.5)
        found.append(board_line(match, 0, habits))
    return found


class Babble:
    """The server, and ann at her terminal."""

    def __init__(self, seed):
        self.chance, self.counts, self.heard, self.texts = random.Random(seed), Counter(), b'', set()
        self.boards = some_boards(self.chance)
        self.listener = socket.create_server(('127.0.0.1', 0))
        self.ann = Person(self.listener.getsockname()[1])
        self.marks, self.wide = 0, []
        self.connect()

    def connect(self):
        self.connection, _ = self.listener.accept()
        self.connection.settimeout(30)
        automove, greedy = (int(self.chance.random() < 0.1) for _ in 'ag')
        self.tells('1 ann 1041253132 localhost', OWN_INFO % (automove, greedy), '3', 'Hello.', '4', '6')
        self.rests()

    def close(self):
        self.ann.close()
        self.connection.close()
        self.listener.close()

    def tells(self, *lines):
        self.texts.update(lines)
        self.connection.sendall(b''.join(line.encode('latin-1') + b'\r\n' for line in lines))

    def hears(self):
        """Takes what the program has sent, so that it can send more."""
        self.connection.setblocking(False)
        try:
            while piece := self.connection.recv(65536):
                self.heard = (self.heard + piece)[-200:]
        except BlockingIOError:
            pass
        finally:
            self.connection.settimeout(30)

    def line(self):
        """Anything."""
        chance = self.chance
        if chance.random() < 0.25:
            return chance.choice(self.boards)
        text = chance.choice(TEXTS)
        while 'NAME' in text:
            # a line of a number is what others say: it may be longer than a row
            text = text.replace('NAME', chance.choice(NAMES[:-2] if text[0].isdigit() else NAMES), 1)
        text = text.replace('MOVE', chance.choice(MOVES))
        roll = chance.random()
        if roll < 0.05:
            return text[:chance.randrange(len(text) + 1)]
        if roll < 0.08:
            words = text.split(' ')
            chance.shuffle(words)
            return ' '.join(words)
        return text

    def rests(self):
        """The rows that come up to the next rest, after a mark that changes nothing."""
        self.marks += 1
        mark = 'mark %d.' % self.marks
        self.tells('13 zed ' + mark)
        rows = []
        while not rows or not rows[-1].endswith(mark):
            rows.append(self.ann.next_line())
        self.look(rows)
        return self.rest_of_rows()

    def rest_of_rows(self):
        """The rows that come until nothing more comes."""
        rows, end = [], time.monotonic() + RESTS
        while (left := end - time.monotonic()) > 0:
            try:
                rows.append(self.ann.next_line(left))
                end = time.monotonic() + RESTS
            except Failed:
                break
        self.look(rows)
        return rows

    def look(self, rows):
        for row in rows:
            if len(row) > 79 and not any(text in row for text in self.texts if len(text) > 40):
                self.wide.append(row)

    def burst(self, count):
        """So many lines, in pieces now and then; then what the screen names is typed."""
        self.texts = set()
        lines = [self.line() for _ in range(count)]
        self.tells(*lines)
        if self.chance.random() < 0.3:
            self.rest_of_rows()
        rows = self.rests()
        if self.chance.random() < 0.2:
            self.ann.type('help')
            rows += self.rest_of_rows()
        self.hears()
        named = [line for row in rows for line in read(row)[1]]
        self.counts.update('row ' + read(row)[0] for row in rows if read(row)[0])
        if named:
            self.types(self.chance.choice(named), rows, lines)

    def types(self, line, rows, lines):
        """Types a line that was named: it is not refused."""
        if line in ('open', 'quit', 'bye', 'fix', 'players ready'):
            # they send nothing, or end the connection
            return
        self.ann.type(line)
        end = time.monotonic() + PATIENCE
        while not (row := self.ann.next_line(max(0.01, end - time.monotonic()))).startswith('sent'):
            if REFUSED.fullmatch(row):
                raise Failed('%r was refused: %r, after the rows %r and the texts %r' % (line, row, rows, lines[-12:]))
            if row.endswith('he same line again goes out.'):
                # the server plays for her: she is asked once on a connection
                self.ann.type(line)
        self.counts['typed ' + line.split(' ')[0]] += 1
        self.hears()

    def drops(self):
        """The connection ends, and she opens another one."""
        self.connection.close()
        self.ann.reads('lost')
        self.ann.type('open')
        self.connect()


def babbled(seed, texts):
    """So many texts are said: what was seen."""
    babble, said = Babble(seed), 0
    try:
        while said < texts:
            count = babble.chance.choice([1, 1, 2, 2, 3, 5, 10, 30, 80])
            babble.burst(count)
            said += count
            if babble.chance.random() < 0.01:
                babble.drops()
        if any(re.fullmatch(r'.*fault.*', row) for row in babble.ann.lines()[-3:]):
            raise Failed('it ended: %r' % babble.ann.lines()[-3:])
        if babble.wide:
            raise Failed('%d rows of more than 79 columns, as %r' % (len(babble.wide), babble.wide[:2]))
        return babble.counts, said
    finally:
        babble.close()


def anything_at_any_moment():
    """A few thousand texts."""
    with concurrent.futures.ThreadPoolExecutor(4) as pool:
        total = sum((counts for counts, _ in pool.map(babbled, range(4), [2500] * 4)), Counter())
        if total['row hint'] < 5:
            raise Failed('hardly a hint was seen: %r' % total)


SCENES = [anything_at_any_moment]


def main():
    line = argparse.ArgumentParser()
    line.add_argument('program')
    line.add_argument('--texts', type=int, default=10000)
    line.add_argument('--seed', type=int, default=1)
    line.add_argument('--beside', type=int, default=4)
    options = line.parse_args()
    total, said, failed = Counter(), 0, 0
    with concurrent.futures.ProcessPoolExecutor(options.beside) as pool:
        each = options.texts // options.beside
        runs = [pool.submit(babbled, options.seed * 1000 + number, each) for number in range(options.beside)]
        for run in runs:
            try:
                counts, texts = run.result()
                total.update(counts)
                said += texts
            except Failed as why:
                failed += 1
                print('FAILED  %s' % str(why)[:3000])
    for name, count in sorted(total.items()):
        print('%8d  %s' % (count, name))
    print('%d passed, %d failed' % (said, failed))
    return 1 if failed else 0


if __name__ == '__main__':
    sys.exit(main())
