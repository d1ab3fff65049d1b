"""A connection: lines in, lines out. It behaves badly if that is asked for."""

import asyncio
import re
import socket
import struct
from collections import deque
from dataclasses import dataclass
from random import Random

# 255 255 is a byte of data; 251 to 254 take one byte more; the end is one that is not whole yet.
TELNET = re.compile(rb'\xff(?:(\xff)|[\xfb-\xfe](?:.|(\Z))|[^\xfb-\xff]|(\Z))', re.S)
NOISE = [b'\xff\xf1', b'\xff\xfb\x01', b'\xff\xfc\x01', b'\xff\xfd\x03', b'\xff\xfe\x22', b'\xff\xfb\n', b'\xff\xf9']
LONGEST = 16384


@dataclass
class Manners:
    """How a connection behaves."""
    # pieces of at most so many bytes, each so many milliseconds after the one before it
    portions: int = 0
    pause: float = 0
    # everything is so many milliseconds on its way
    delay: float = 0
    # one in so many lines ends the connection, within the line or before it is read
    cut: int = 0
    # telnet commands come between the bytes
    telnet: bool = False
    seed: int = 0


class Link(asyncio.Protocol):
    """A connection to a player. `room` is told of its lines, and of its end."""

    def __init__(self, room, manners, number):
        self.room, self.manners = room, manners
        self.chance = Random('%s %s' % (manners.seed, number))
        self.transport, self.host = None, '-'
        self.raw, self.data = b'', b''
        self.gathered, self.pieces, self.timer, self.due = b'', deque(), None, 0
        self.is_over = False
        # who has logged in, and before that what was told of him
        self.player, self.name, self.tries = None, None, 0

    # -- in --------------------------------------------------------------------------------------------------------

    def connection_made(self, transport):
        self.transport = transport
        transport.get_extra_info('socket').setsockopt(socket.IPPROTO_TCP, socket.TCP_NODELAY, 1)
        self.host = transport.get_extra_info('peername')[0]
        self.room.opened(self)

    def data_received(self, data):
        self.raw += data
        self.data += self.without_telnet()
        *lines, self.data = self.data.split(b'\n')
        for line in lines:
            if self.is_over:
                return
            if self.is_cut():
                self.cut_off()
                return
            self.room.line(self, line.rstrip(b'\r').decode('latin-1')[:LONGEST])

    def without_telnet(self):
        """What was read without telnet commands; the beginning of one stays."""
        found = list(TELNET.finditer(self.raw))
        end = len(self.raw)
        if found and (found[-1][2] is not None or found[-1][3] is not None):
            end = found[-1].start()
        plain = TELNET.sub(lambda command: command[1] or b'', self.raw[:end])
        self.raw = self.raw[end:]
        return plain

    def connection_lost(self, _error):
        if not self.is_over:
            self.is_over = True
            self.room.lost(self)

    # -- out -------------------------------------------------------------------------------------------------------

    def send(self, *lines):
        """Sends lines."""
        for line in lines:
            self.write(line.encode('latin-1', 'replace') + b'\r\n')

    def write(self, data):
        """Sends bytes, as the connection's manners are."""
        if self.is_over or self.transport.is_closing():
            return
        if self.manners.telnet:
            data = self.noisy(data)
        if self.is_cut():
            self.put(data[:self.chance.randrange(len(data) + 1)])
            self.cut_off()
        else:
            self.put(data)

    def noisy(self, data):
        """The bytes with telnet commands between them."""
        data = data.replace(b'\xff', b'\xff\xff')
        at = self.chance.randrange(len(data) + 1)
        # not between the two bytes 255 of one
        while data[at - 1:at] == b'\xff':
            at -= 1
        return data[:at] + self.chance.choice(NOISE) + data[at:]

    def put(self, data):
        manners, loop = self.manners, asyncio.get_running_loop()
        if not (manners.portions or manners.delay):
            # what is said at one moment leaves by one write
            if not self.gathered:
                loop.call_soon(self.give)
            self.gathered += data
            return
        while data:
            count = self.chance.randint(1, manners.portions) if manners.portions else len(data)
            self.due = max(self.due + manners.pause / 1000, loop.time() + manners.delay / 1000)
            self.pieces.append((self.due, data[:count]))
            data = data[count:]
        self.pump()

    def give(self):
        """Writes what was gathered."""
        gathered, self.gathered = self.gathered, b''
        if gathered and not self.transport.is_closing():
            self.transport.write(gathered)

    def pump(self):
        """Writes the pieces whose time has come."""
        loop = asyncio.get_running_loop()
        self.timer = None
        while self.pieces and self.pieces[0][0] <= loop.time():
            piece = self.pieces.popleft()[1]
            if not self.transport.is_closing():
                self.transport.write(piece)
        if self.pieces:
            self.timer = loop.call_at(self.pieces[0][0], self.pump)
        elif self.is_over:
            self.transport.close()

    # -- how it ends -----------------------------------------------------------------------------------------------

    def is_cut(self):
        return self.manners.cut > 0 and self.chance.randrange(self.manners.cut) == 0

    def cut_off(self):
        """The connection breaks: it is closed, or reset."""
        self.is_over = True
        self.give()
        if self.chance.random() < 0.5:
            linger = struct.pack('ii', 1, 0)
            self.transport.get_extra_info('socket').setsockopt(socket.SOL_SOCKET, socket.SO_LINGER, linger)
            self.pieces.clear()
            self.transport.abort()
        elif not self.pieces:
            self.transport.close()
        asyncio.get_running_loop().call_soon(self.room.lost, self)

    def end(self):
        """Ends the connection after what was sent."""
        self.is_over = True
        self.give()
        if not self.pieces:
            self.transport.close()
