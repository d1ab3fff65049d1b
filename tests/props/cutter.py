"""A proxy of a server whose connections break: `from props.cutter import Cutter`."""

import random
import re
import select
import socket
import struct
import threading

# What a server refuses, but a match that is not saved, or not any more.
REFUSED = re.compile(rb"\*\* (?:You can't|You did already|You have to|It's not your turn|Your opponent didn't|"
                     rb"There is nothing|Please (?:type|wait until)).*")

DECISIONS = {'roll', 'double', 'accept', 'reject', 'move', 'resign'}


class Cutter:
    """Takes connections on a port of its own and leads them to a server, until it cuts them: within what goes one
    way, and with a reset or without."""

    def __init__(self, port, seed, most_cuts, most_games):
        """A connection is cut so often, and no more once so many games are over: the end of the match is seen."""
        self.port_of_server, self.chance = port, random.Random(seed)
        self.most_cuts, self.most_games = most_cuts, most_games
        self.cuts, self.games = 0, 0
        # over all connections: the decisions that the player has sent, its last line, and what the server refused
        self.decisions, self.last, self.refused = [], '', []
        # how often the other player has offered to resign
        self.offers = 0
        self.listener = socket.create_server(('127.0.0.1', 0))
        self.port = self.listener.getsockname()[1]
        self.thread = threading.Thread(target=self.listen, daemon=True)
        self.thread.start()

    def listen(self):
        while True:
            try:
                player, _ = self.listener.accept()
            except OSError:
                return
            with player, socket.create_connection(('127.0.0.1', self.port_of_server)) as server:
                sent = []
                self.lead(player, server, sent)
                *lines, _ = b''.join(sent).decode('latin-1').split('\r\n')
                self.decisions += [line for line in lines if line.split(' ')[0] in DECISIONS]
                self.last = lines[-1] if lines else self.last

    def lead(self, player, server, sent):
        """Leads bytes both ways, up to the end of the connection. Those of the player are also put in a list."""
        other = {player: server, server: player}
        begun = b''
        while True:
            for source in select.select(list(other), [], [])[0]:
                try:
                    piece = source.recv(4096)
                except OSError:
                    piece = b''
                if not piece:
                    return
                if source is player:
                    sent.append(piece)
                else:
                    *lines, begun = (begun + piece).split(b'\r\n')
                    self.read(lines)
                is_cut = self.cuts < self.most_cuts and self.games < self.most_games and self.chance.random() < 1 / 15
                try:
                    other[source].sendall(piece[:self.chance.randrange(len(piece) + 1)] if is_cut else piece)
                except OSError:
                    # what the player said before it left is still to be read
                    if source is server:
                        continue
                    return
                if is_cut:
                    self.cuts += 1
                    if self.chance.random() < 0.5:
                        for end in other:
                            end.setsockopt(socket.SOL_SOCKET, socket.SO_LINGER, struct.pack('ii', 1, 0))
                    return

    def read(self, lines):
        """Notes what whole lines of the server say, since a piece can end anywhere."""
        for line in lines:
            self.games += len(re.findall(rb'wins? the game and gets? ', line))
            self.refused += REFUSED.findall(line)
            self.offers += line.count(b' wants to resign.')

    def close(self):
        """Waits for the end of the last connection: only then is it known what was sent there."""
        self.listener.shutdown(socket.SHUT_RDWR)
        self.thread.join(10)
        self.listener.close()
