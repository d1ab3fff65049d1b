"""Two bots of examples/gnubg_bot.py play a match at examples/fibs_server, each over a connection that is cut at
random. Their sessions become match files, which GNU Backgammon imports."""

import os
import pathlib
import random
import re
import socket
import subprocess
import sys
import tempfile
import threading
from collections import Counter

import bots
import matchfiles
from props.cutter import Cutter
from props.package import ROOT, fibs

POINTS = 7
# Who plays which side is random, lines come in pieces and with prompts, some valid commands are refused;
# new players are not ready, and are played for by the server.
SERVER = ['--seed', '3', '--mixed-sides', '--portions', '200', '--prompts', '--refuse', 'roll', '--refuse', 'move',
          '--set', 'automove=1', '--set', 'greedy=1', '--set', 'ready=0']
# Each bot's connection is cut so often, and no more once so many games are over: the end of the match is seen by both.
MOST_CUTS, MOST_GAMES = 8, 2


class Player:
    """A bot that plays, with its session and what it printed."""

    def __init__(self, folder, name, server_port, seed, *words):
        self.name, self.cutter = name, Cutter(server_port, seed, MOST_CUTS, MOST_GAMES)
        self.session = folder / (name + '.session')
        self.process = subprocess.Popen(
            [sys.executable, '-B', str(ROOT / 'examples' / 'gnubg_bot.py'), '127.0.0.1', str(self.cutter.port), name,
             *words, '--save', str(self.session), '--patience', '90', '--plies', '0', '--gnubg', matchfiles.gnubg()],
            stdin=subprocess.PIPE, stdout=subprocess.PIPE, stderr=subprocess.STDOUT, text=True,
            env={**os.environ, 'PYTHONPATH': str(ROOT / 'python')})
        self.process.stdin.write('secret\n')
        self.process.stdin.close()
        self.said = []
        self.thread = threading.Thread(target=lambda: self.said.extend(self.process.stdout), daemon=True)
        self.thread.start()

    def wait(self, seconds):
        """Waits for the bot's end. Its status."""
        try:
            self.process.wait(seconds)
        except subprocess.TimeoutExpired:
            self.process.kill()
            self.process.wait()
        self.thread.join(5)
        self.cutter.close()
        self.said = [line.rstrip('\n') for line in self.said]
        return self.process.returncode

    def sends_each_once(self):
        """True if it sent its decisions in their order, each at most once, and nothing else that decides."""
        decided = iter(line.removeprefix('decided ') for line in self.said if line.startswith('decided '))
        return all(sent in decided for sent in self.cutter.decisions)

    def effective(self):
        """How many decisions of each kind took effect, by what the server showed."""
        found = Counter()
        for line in self.said:
            how = re.fullmatch(r'(?:confirmed|the server took) (\w+).*', line)
            if how:
                found[how[1]] += 1
        return found

    def match_file(self):
        told = subprocess.run([sys.executable, '-B', str(ROOT / 'scripts' / 'fibs-mat'), '--match', 'last',
                               str(self.session)], capture_output=True, text=True,
                              env={**os.environ, 'FIBS': str(ROOT / 'bin' / 'fibs')})
        return told.stdout, told.stderr, told.returncode


def play(folder):
    """Plays a match between two bots. Both, and how the match ended."""
    server = subprocess.Popen([sys.executable, '-B', str(ROOT / 'examples' / 'fibs_server'), '0', *SERVER],
                              stdout=subprocess.PIPE, text=True)
    try:
        port = int(server.stdout.readline())
        players = [Player(folder, 'ann', port, 1, '--invite', 'bob', str(POINTS)),
                   Player(folder, 'bob', port, 2, '--join', 'ann')]
        statuses = [player.wait(900) for player in players]
    finally:
        server.terminate()
        server.wait()
    return players, statuses


def result_of(player):
    """The scores of both at the end, as the server tells the player: his own first."""
    found = [re.fullmatch(r'over: (You|\S+) wins? the \d+ point match (\d+)-(\d+) \.', line) for line in player.said]
    found = [one for one in found if one]
    if not found:
        return None
    scores = int(found[0][2]), int(found[0][3])
    return scores if found[0][1] == 'You' else scores[::-1]


def record_of(player, names):
    """The games of the player's match file, as GNU Backgammon imports it, with the scores of both names at the end."""
    text, said, status = player.match_file()
    found = matchfiles.imported(text) if status == 0 else None
    if not found:
        return None, text + said
    length, order, games = found
    scores = Counter(dict(zip(order, games[-1][0])))
    scores[games[-1][1]] += games[-1][2]
    return (length, tuple(scores[name] for name in names), [game[1:] for game in games]), said


def did(player, record):
    """How many decisions of each kind a record has of a player: the first roll of a game is nobody's."""
    found = Counter()
    for _, _, actions in record[2]:
        for place, (who, what, _) in enumerate(actions):
            if who == player.name:
                found['roll'] += what in ('move', 'pass') and place > 0
                found['move'] += what == 'move'
                found['double'] += what == 'double'
                found['accept'] += what == 'take'
                found['reject'] += what == 'drop'
    return +found


def a_match_is_played_once_over_connections_that_are_cut(counts):
    if not matchfiles.gnubg():
        counts.leave_out('there is no gnubg')
        return
    with tempfile.TemporaryDirectory() as folder:
        players, statuses = play(pathlib.Path(folder))
        ann, bob = players
        told = '\n'.join('%s: %s' % (player.name, line) for player in players for line in player.said[-30:])
        counts.same(statuses, [0, 0], 'both play to the end\n%s' % told)
        counts.check(all(player.cutter.cuts > 3 for player in players), 'connections are cut: %s' % [
            player.cutter.cuts for player in players])
        counts.check(all(player.cutter.decisions and player.sends_each_once() for player in players),
                     'each decision is sent once')
        result = result_of(ann)
        counts.check(result and max(result) >= POINTS, 'the match is over: %s' % (result,))
        counts.same(result_of(bob), result and result[::-1], 'both are told so')
        records = []
        for player in players:
            record, said = record_of(player, ('ann', 'bob'))
            counts.check(record, 'the match file of %s is imported: %s' % (player.name, said))
            if record:
                records.append(record)
                counts.same(record[:2], (POINTS, result), 'the result in the match file of %s' % player.name)
                counts.same(did(player, record), player.effective(), 'decisions of %s that took effect' % player.name)
        if len(records) == 2:
            counts.same(records[0], records[1], 'both match files have the same games')


def checkers(**places):
    """The checkers of a side by its own places: p6=5 are five on 6."""
    return [places.get('p%d' % place, 0) for place in range(26)]


START = checkers(p6=5, p8=3, p13=5, p24=2)
HIT = checkers(p6=5, p8=3, p13=4, p24=2, p25=1)
# Races: how many pips a side has to go.
RACE60 = checkers(p6=3, p5=3, p4=3, p3=3, p2=3)
RACE66 = checkers(p6=4, p5=4, p4=3, p3=2, p2=2)
RACE90 = checkers(p8=3, p7=4, p6=5, p5=3)


def board(own=START, other=START, dice=(0, 0), cube=1, may=(1, 1), doubled=0, length=5, opponent='bob', direction=-1):
    """A board on which the player is to act, with both sides by their own places. It has no count of the bars."""
    places = [0] + [own[place] - other[25 - place] for place in range(1, 25)] + [0]
    if direction == 1:
        places.reverse()
    numbers = [length, 0, 0, *places, 1, *dice, 0, 0, cube, *may, doubled, 1, direction, 0, 25, own[0], other[0], 0, 0]
    return fibs.Board(':'.join(['board:You', opponent, *map(str, numbers), '0:0:0:0']))


# A board, and what GNU Backgammon answers, or None if any play will do.
ANSWERS = [
    ('a start', board(dice=(3, 1)), '8/5 6/5'), ('upwards', board(dice=(3, 1), direction=1), '8/5 6/5'),
    ('behind a hit', board(HIT, HIT, (4, 3)), None),
    ('behind a hit, upwards', board(HIT, HIT, (4, 4), direction=1), None),
    ('bearing off', board(RACE60, RACE66, (6, 2)), '6/off 2/off'),
    ('a name', board(dice=(6, 5), opponent='-'), '24/18 18/13'),
    ('one point', board(dice=(6, 5), may=(0, 0), length=1), '24/18 18/13'),
    ('an unlimited match', board(dice=(2, 1), length=9999), None),
    ('a cube', board(dice=(2, 1), cube=4, may=(0, 1)), None),
    ('ahead', board(RACE60, RACE66), 'double'), ('behind', board(RACE90, RACE60), 'roll'),
    ('ahead, with the cube', board(RACE60, RACE66, cube=2, may=(1, 0)), 'double'),
    ('doubled and ahead', board(RACE60, RACE66, doubled=1), 'accept'),
    ('doubled and behind', board(RACE90, RACE60, doubled=1), 'reject'),
    ('redoubled and ahead', board(RACE60, RACE66, doubled=1, cube=2, may=(0, 0)), 'accept'),
    ('redoubled and trailing', board(RACE90, RACE60, doubled=1, cube=2, may=(0, 0)), 'reject'),
]


def bot_module():
    """examples/gnubg_bot.py"""
    sys.path.insert(0, str(ROOT / 'examples'))
    import gnubg_bot
    return gnubg_bot


# A bot that is not run, and has no GNU Backgammon.
NOBODY = ['localhost', '1', 'ann', '--join', 'bob', '--gnubg', 'none']


def bot_of(gnubg_bot, *words):
    """That bot, with more words. It prints nothing."""
    gnubg_bot.say = lambda _: None
    return gnubg_bot.Bot(gnubg_bot.options_of([*NOBODY, *words]), b'secret')


def gnu_backgammon_understands_each_board(counts):
    """However the server spells it: the answer is a listed play, and one that a player would make."""
    gnubg_bot = bot_module()
    if not matchfiles.gnubg():
        counts.leave_out('there is no gnubg')
        return
    gnubg = gnubg_bot.Gnubg(matchfiles.gnubg(), plies=0)
    try:
        for what, one, wanted in ANSWERS:
            answer = gnubg.ask(gnubg_bot.line_for_gnubg(one))
            if one.phase == fibs.Phase.MOVE:
                found = gnubg_bot.play_of(one, answer)
                counts.check(found, '%s: %s is a play' % (what, answer))
                counts.check(wanted is None or found == gnubg_bot.play_of(one, wanted), '%s: %s' % (what, answer))
            else:
                counts.same(str(gnubg_bot.ANSWERS.get(answer)), wanted, '%s: %s' % (what, answer))
        high = board(dice=(3, 1), cube=1 << 20)
        counts.same(gnubg.ask(gnubg_bot.line_for_gnubg(high)), '', 'a cube at which it hangs up')
        counts.check(gnubg.ask(gnubg_bot.line_for_gnubg(board(dice=(3, 1)))), 'it is started anew')
    finally:
        gnubg.close()


FIRST = 'move 24-23 24-21'

# A board, and what is decided by each answer.
DECIDED = [
    (board(dice=(3, 1)), {'8/5 6/5': 'move 8-5 6-5', '24/23 24/21': FIRST, '8/5*/4': FIRST, '': FIRST, 'roll': FIRST,
                          '99/3 -1/2': FIRST, 'bar/21': FIRST, 'Error: badly formed board': FIRST}),
    (board(dice=(3, 3)), {'8/5(2) 6/3(2)': 'move 8-5 8-5 6-3 6-3', '24/15': 'move 24-21 24-21 21-18 21-18'}),
    (board(), {'roll': 'roll', 'double': 'double', '': 'roll', '8/5 6/5': 'roll', 'take': 'roll'}),
    (board(may=(0, 1)), {'double': 'roll', 'roll': 'roll'}),
    (board(doubled=1), {'take': 'accept', 'drop': 'reject', 'beaver': 'accept', '': 'accept', 'roll': 'accept'}),
]


def an_answer_that_is_not_valid_is_not_taken(counts):
    gnubg_bot = bot_module()
    bot = bot_of(gnubg_bot)
    for one, answers in DECIDED:
        for answer, wanted in answers.items():
            bot.ask = lambda _, answer=answer: answer
            decision = bot.decision(one)
            counts.same(decision.command(one.direction), wanted, 'the answer %r' % answer)
            counts.check(one.allows(decision), 'it is allowed')
    counts.same(bot.gnubg.ask(b'board'), '', 'a program that is not there has no answer')
    bot.close()
    told = subprocess.run([sys.executable, '-B', gnubg_bot.__file__, *NOBODY], input='secret\n', capture_output=True,
                          text=True, env={**os.environ, 'PYTHONPATH': str(ROOT / 'python')})
    counts.same(told.returncode, 4, 'without GNU Backgammon: %s' % told.stdout)


def hears(bot, *pieces):
    """The bot talks over a connection for each piece, which is all that comes on it."""
    for piece in pieces:
        bot.server, server = socket.socketpair()
        with bot.server, server:
            server.sendall(piece)
            server.shutdown(socket.SHUT_WR)
            bot.talk()


def half_a_line_ends_in_the_file_of_a_session(counts):
    """However the connection ends: what the next one begins with is a line of its own."""
    gnubg_bot = bot_module()
    for end in b'', b'\r', b'\r\n', b'\n', b'\xff', b'\xff\xfb', b'\xff\n', b'\xff\xfb\n':
        with tempfile.TemporaryDirectory() as folder:
            path = pathlib.Path(folder, 'ann.session')
            bot = bot_of(gnubg_bot, '--save', str(path))
            hears(bot, b'12 bob hi' + end, b'\xff\xfb\x0112 bob hello\r\n')
            bot.close()
            found = [line.text for line in fibs.Lines(path) if line.text]
        counts.same(found, [b'12 bob hi', b'12 bob hello'], 'an end of %r' % end)


class Sent:
    """The bot's end of a connection, which keeps what is sent."""

    def __init__(self):
        self.lines = []

    def sendall(self, data):
        self.lines += data.decode().splitlines()


LOGIN = b'1 ann 1041253132 localhost\r\n'
OWN = b'2 ann 1 1 0 %d 0 0 1 1 10 %d 1 0 0 1500.00 0 %d 0 0 0 UTC\r\n'


def it_is_in_when_the_server_has_taken_the_login(counts):
    bot = bot_of(bot_module())
    bot.server = Sent()
    bot.client.open()
    for what, piece, is_in in [('who comes and goes', b'login: \r\n7 eve eve logs in.\r\n8 eve eve drops.\r\n', False),
                               ('message 1', LOGIN, False), ('message 2', OWN % (0, 0, 1), True),
                               ('a text', b'Welcome.\r\n', True)]:
        bot.hear(piece)
        counts.same(bot.is_in, is_in, what)
    bot.close()


def each_toggle_is_sent_once_on_a_connection(counts):
    for one, again, wanted in [((1, 1, 0), (1, 1, 0), ['ready', 'automove', 'greedy']),
                               ((0, 0, 0), (0, 0, 0), ['ready']), ((0, 0, 1), (1, 0, 1), ['automove'])]:
        bot = bot_of(bot_module())
        bot.server = Sent()
        bot.client.open()
        bot.hear(LOGIN + OWN % one + OWN % again)
        found = [line[7:] for line in bot.server.lines if line.startswith('toggle ')]
        counts.same(found, wanted, 'message 2 with %s, then with %s' % (one, again))
        bot.close()


def what_goes_wrong_is_said(counts):
    if not matchfiles.gnubg():
        counts.leave_out('there is no gnubg')
        return
    server = subprocess.Popen([sys.executable, '-B', str(ROOT / 'examples' / 'fibs_server'), '0', '--account',
                               'ann:secret'], stdout=subprocess.PIPE, text=True)
    try:
        port = server.stdout.readline().strip()
        for words, password, status, said in [
                ((port, 'ann', '--join', 'bob'), 'wrong', 4, 'not logged in'),
                ((port, 'ann', '--join', 'bob'), 'secret', 1, 'bob does not come'),
                ((port, 'ann', '--invite', 'bob', '3'), 'secret', 1, 'bob does not come'),
                ((port, 'a:b', '--join', 'bob'), 'secret', 2, 'BadName'),
                ((port, 'ann', '--join', 'bob'), '', 2, 'BadText'),
                ((port, 'ann', '--invite', 'bob', 'many'), '', 2, 'POINTS is a number'),
                (('1', 'ann', '--join', 'bob', '--tries', '0'), 'secret', 4, 'no server')]:
            told = subprocess.run([sys.executable, '-B', bot_module().__file__, '127.0.0.1', *words, '--patience', '1'],
                                  input=password + '\n', capture_output=True, text=True, timeout=60,
                                  env={**os.environ, 'PYTHONPATH': str(ROOT / 'python')})
            counts.check((told.returncode, 'Traceback' in told.stderr) == (status, False) and
                         said in told.stdout + told.stderr, '%s: status %d, %s' % (words, told.returncode, told))
    finally:
        server.terminate()
        server.wait()


def the_short_bot_plays_over_connections_that_are_cut(counts):
    for fault in bots.wrong_with([sys.executable, '-B', str(ROOT / 'examples' / 'short_bot.py')], 5):
        counts.check(not fault, fault)


TESTS = [the_short_bot_plays_over_connections_that_are_cut, an_answer_that_is_not_valid_is_not_taken,
         half_a_line_ends_in_the_file_of_a_session, it_is_in_when_the_server_has_taken_the_login,
         each_toggle_is_sent_once_on_a_connection, what_goes_wrong_is_said, gnu_backgammon_understands_each_board,
         a_match_is_played_once_over_connections_that_are_cut]
