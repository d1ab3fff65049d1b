#!/usr/bin/env python3
"""Plays a match of three points by its first legal plays, over lost connections too, and leaves:
short_bot.py HOST PORT NAME OPPONENT, with the password as the first line of standard input.

It compares no text of the server: fibs.Events says what has happened.
"""

import socket
import sys

import fibs
from fibs import events


class Bot:
    def __init__(self, name, password, opponent):
        self.client, self.events, self.opponent = fibs.Client(name, password), fibs.Events(), opponent
        self.is_over = self.is_refused = False

    def answers(self, line):
        """What is to be sent after a line."""
        if isinstance(line.message, fibs.messages.OwnInfo):
            # without points: a match that was saved goes on
            yield self.client.plain('invite ' + self.opponent)
        for event in self.events.hear(line):
            print(event, flush=True)
            if isinstance(event, events.NothingSaved):
                # a match that had begun is over then, and its end was not seen
                self.is_over = self.events.opponent != b''
                yield b'' if self.is_over else self.client.plain('invite %s 3' % self.opponent)
            elif isinstance(event, events.OfferedToResign) and event.who == events.Side.OPPONENT:
                yield self.client.own_line('accept')
            elif isinstance(event, events.NextGame):
                yield self.client.plain('join')
            elif isinstance(event, events.MatchOver):
                self.is_over = True
        if line.kind == fibs.BOARD and not self.is_over:
            yield self.decide(line.board)

    def decide(self, board):
        """What is to be sent at a board. A server shows some boards twice: then a decision may wait."""
        if board.player != b'You' or self.client.waiting:
            return b''
        if board.phase == fibs.Phase.MOVE:
            return self.client.decide(board.plays()[0])
        simple = {fibs.Phase.ROLL_OR_DOUBLE: fibs.ROLL, fibs.Phase.ANSWER_DOUBLE: fibs.ACCEPT}.get(board.phase)
        return self.client.decide(simple) if simple else b''

    def converse(self, server):
        """One connection, up to its end or that of the match."""
        self.events.open()
        server.sendall(self.client.open())
        while not self.is_over and not self.is_refused and (piece := server.recv(4096)):
            self.is_refused = any(isinstance(event, events.LoginRefused) for event in self.events.hear_bytes(piece))
            for heard in self.client.feed(piece):
                server.sendall(heard.send)
                for answer in self.answers(heard.line):
                    server.sendall(answer)
        if self.is_over:
            server.sendall(self.client.plain('bye'))


def main():
    host, port, name, opponent = sys.argv[1:]
    bot = Bot(name, sys.stdin.readline().rstrip('\n'), opponent)
    for _ in range(1000):
        try:
            with socket.create_connection((host, int(port))) as server:
                bot.converse(server)
        except OSError:
            pass
        if bot.is_over or bot.is_refused:
            return 0 if bot.is_over else 'the server refuses the login'
        # what waited is decided anew on the board that comes
        print('lost', bot.client.lose(), flush=True)
    return 1


if __name__ == '__main__':
    sys.exit(main())
