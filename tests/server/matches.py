"""Whole matches between two clients, or against a bot, each checked by the rules as another program has them."""

import random
import re
import select
import time

from clients import PATIENCE, Client, Failed, Gambler, Served, play, same


def worth_of(board, winner):
    """What a game is worth that was borne off: 1, a gammon 2, a backgammon 3."""
    loser = board.position()[1 - winner]
    if loser[0]:
        return 1
    # the winner's home are the places 19 to 24 of the loser, and 25 is the bar
    return 3 if sum(loser[19:]) else 2


def check_games(client, length):
    """The games of a match: what each was worth, and the Crawford rule."""
    score, crawford_was = [0, 0], False
    for number, (won, off, cube, by_bearing_off, board) in enumerate(client.games):
        same('one side wins', sorted(map(bool, won)), [False, True])
        winner = 0 if won[0] else 1
        if by_bearing_off:
            same('what game %d is worth' % number, won[winner], cube * worth_of(board, winner))
        is_crawford = not crawford_was and length > 1 and length - 1 in score
        crawford_was = crawford_was or is_crawford
        if is_crawford or length == 1:
            same('nobody may double in game %d' % number, client.crawford[number], (0, 0))
        elif cube == 1:
            same('both may double in game %d' % number, client.crawford[number], (1, 1))
        score[0] += won[0]
        score[1] += won[1]
        same('the score', (board.fields[5], board.fields[6]), tuple(score))
        if number + 1 < len(client.games) and max(score) >= length:
            raise Failed('the match goes on after %s' % score)
    same('the match is won', max(score) >= length, True)
    winner = 0 if score[0] > score[1] else 1
    text = 'You win' if winner == 0 else client.opponent() + ' wins'
    wanted = '%s the %d point match %d-%d .' % (text, length, score[winner], score[1 - winner])
    same('the result', client.result, wanted)


def check_beside(one, other):
    """Both have been told the same games, each from his side."""
    same('the games', [(won[::-1], off[::-1], cube) for won, off, cube, *_ in one.games],
         [(won, off, cube) for won, off, cube, *_ in other.games])


def match_between(server, length, seed, **more):
    ann, bob = Gambler(server.port, 'ann', seed, **more), Gambler(server.port, 'bob', seed, **more)
    ann.send('invite bob %d' % length)
    bob.sees("Type 'join ann' to accept.")
    bob.send('join ann')
    play(ann, bob)
    for client in (ann, bob):
        check_games(client, length)
        client.close()
    check_beside(ann, bob)
    return ann.boards + bob.boards


def with_server(options, does):
    server = Served(*options)
    try:
        return does(server)
    finally:
        server.close()


def matches_of_many_lengths():
    """Each by other dice, doubles, resignations and sides."""
    boards = 0
    for seed, length in enumerate((1, 2, 3, 5, 7)):
        options = ['--seed', str(seed), '--mixed-sides']
        boards += with_server(options, lambda server: match_between(
            server, length, seed, doubles=0.05 * seed, resigns=0.004 * seed))
    if boards < 1000:
        raise Failed('only %d boards were seen' % boards)


def matches_by_habits():
    """The habits that change what is shown, or who rolls."""
    for options in (['--autoroll', 'no-double'], ['--autoroll', 'always', '--set', 'double=0'], ['--prompts'],
                    ['--show-resignations'], ['--no-changes'], ['--set', 'automove=1'], ['--set', 'greedy=1']):
        with_server(options, lambda server: match_between(server, 3, 5, doubles=0.1, resigns=0.01))


def a_match_over_bad_connections():
    """In portions, with telnet commands between the bytes, and late: the same match."""
    for options in (['--portions', '7'], ['--telnet'], ['--delay', '3'],
                    ['--portions', '3', '--telnet', '--delay', '2']):
        with_server(options, lambda server: match_between(server, 1, 5))


def matches_against_a_bot():
    for way in ('first', 'last', 'random'):
        server = Served('--bot', 'eve:doubles=3,plays=' + way, '--bot-pause', '0')
        try:
            ann = Gambler(server.port, 'ann', 9, doubles=0.1)
            ann.send('invite eve 3')
            play(ann)
            check_games(ann, 3)
            ann.close()
        finally:
            server.close()


def the_same_seed_gives_the_same_match():
    seen = []
    for _ in range(2):
        server = Served('--seed', '11', '--no-changes')
        try:
            ann, bob = Gambler(server.port, 'ann', 4), Gambler(server.port, 'bob', 4)
            ann.send('invite bob 1')
            bob.sees("Type 'join ann' to accept.")
            bob.send('join ann')
            play(ann, bob)
            seen.append([line for line in ann.read if line.startswith('board:')])
            ann.close(), bob.close()
        finally:
            server.close()
    same('the boards', seen[0], seen[1])


class Stubborn(Gambler):
    """One who connects again when the connection is cut, and plays on: the game as it is kept, or as it was saved."""

    def __init__(self, port, name, seed, other, **more):
        self.other, self.cuts, self.heard = other, 0, 0
        super().__init__(port, name, seed, **more)

    def log_in(self):
        """Not to the end: the connection may be cut before."""
        self.send('login tests 1008 %s %s' % (self.name, self.password), 'set boardstyle 3', 'board')

    def forget(self, seconds=0.1):
        pass

    def hear(self, line):
        self.heard += 1
        # if a connection was cut a play may have been lost, or have been made: the next board says so
        found = re.match(r"Type '(join \S+)' to accept", line)
        if found:
            self.send(found[1])
        elif line == "** You're not playing.":
            self.invite()
        elif self.board and line.startswith("** There's no saved match with "):
            # it is over, and both have lost what was said of that
            self.result = line
        else:
            super().hear(line)

    def invite(self):
        """The one of the two asks for the match again, and for a new one if none was saved."""
        if self.name < self.other and not self.result:
            self.send('invite %s' % self.other)
            if not self.board:
                self.send('invite %s 1' % self.other)

    def goes_on(self):
        """Connects again if the connection was cut, and asks for the board if nothing is heard."""
        if self.is_over:
            self.cuts += 1
            self.connect()
            self.decided = self.expected = None
            self.log_in()
        elif self.heard == 0:
            self.decided = None
            self.send('board')
        self.heard = 0


def play_on(*clients, seconds=PATIENCE * 2):
    """Lets clients play over connections that are cut, until one of them has heard the result."""
    end, asked = time.monotonic() + seconds, time.monotonic()
    while all(client.result is None for client in clients):
        if time.monotonic() > end:
            raise Failed('the match does not end; the last lines are %r' % [client.read[-4:] for client in clients])
        ready = select.select([client.socket for client in clients if not client.is_over], [], [], 0.1)[0]
        for client in clients:
            if client.socket in ready:
                client.take(0)
            while client.at < len(client.read):
                client.hear(client.next())
            if client.is_over:
                client.goes_on()
        if time.monotonic() - asked > 0.5:
            asked = time.monotonic()
            for client in clients:
                client.goes_on()


def matches_over_connections_that_are_cut():
    """The game is kept, or it was saved and is resumed; no board of it is wrong."""
    for options in ['--keep-games'], []:
        server = Served('--cut', '50', '--no-changes', '--seed', '2', *options)
        try:
            ann, bob = Stubborn(server.port, 'ann', 6, 'bob'), Stubborn(server.port, 'bob', 6, 'ann')
            play_on(ann, bob)
            same('connections were cut', ann.cuts + bob.cuts > 3, True)
            ann.close()
            bob.close()
        finally:
            server.close()


WORDS = ('roll double accept reject resign move leave board pip invite join show watch unwatch look say tell shout '
         'kibitz whisper message gag who rawwho whois away back set toggle motd time version wave help bye m 8-5 6-5 '
         'bar-20 3-off off-3 25-1 0-0 99-1 n g b ann bob eve joe 1 3 9999 unlimited 0 -1 saved savedcount ready '
         'boardstyle 2 double greedy automove telnet').split()


def random_commands_never_upset_it():
    """Three at random, who also leave without a word. The server goes on, and says nothing of itself."""
    server = Served('--bot', 'bot:plays=random', '--bot-pause', '0', '--mixed-sides', '--seed', '5')
    chance = random.Random(46)
    try:
        clients = {name: Client(server.port, name) for name in ('ann', 'bob', 'eve')}
        for number in range(3000):
            name = chance.choice(sorted(clients))
            client = clients[name]
            words = [chance.choice(WORDS) for _ in range(chance.choice([1, 1, 2, 3]))]
            client.send('join' if number % 7 == 0 else 'roll' if number % 5 == 0 else ' '.join(words))
            if number % 50 == 0:
                client.forget(0)
            if client.is_over or chance.random() < 0.002:
                client.close()
                clients[name] = Client(server.port, name)
        for name, client in clients.items():
            client.close()
            again = Client(server.port, name)
            again.catches_up()
            again.answers('version', 'fibs_server of Liftplum')
            again.close()
    finally:
        server.close()


TESTS = [
    random_commands_never_upset_it, matches_over_connections_that_are_cut, matches_of_many_lengths, matches_by_habits,
    a_match_over_bad_connections, matches_against_a_bot, the_same_seed_gives_the_same_match,
]
