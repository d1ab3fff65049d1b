"""A listener that says what a test tells it to, line by line or byte by byte: a prop of the tests.

It listens on 127.0.0.1, knows nothing of a game, and answers nothing by itself.
"""

import socket
import struct
import time

from props.checks import PATIENCE, Failed

# How many bytes are sent at a time.
PORTION = 65536

WELCOME = '1 ann 1041253132 localhost'

OWN_INFO = '2 %s 1 1 0 0 0 0 1 1 10 0 1 0 1 1500.00 0 0 0 0 0 UTC'


def keeps_port(port=0):
    """A socket that keeps a port, this one or any, on which it does not listen: nobody else gets it. If the port had a
    listener, a process that another test begins at this moment may still hold it, and is waited for."""
    kept, end = socket.socket(), time.monotonic() + PATIENCE
    kept.setsockopt(socket.SOL_SOCKET, socket.SO_REUSEADDR, 1)
    while True:
        try:
            kept.bind(('127.0.0.1', port))
            return kept
        except OSError:
            if time.monotonic() > end:
                raise
            time.sleep(0.01)


class Listener:
    """A listener on a port of its own, and the connection that was accepted last."""

    def __init__(self, port=0, wait=PATIENCE):
        self.wait = wait
        self.listener = socket.socket()
        self.listener.setsockopt(socket.SOL_SOCKET, socket.SO_REUSEADDR, 1)
        self.listener.bind(('127.0.0.1', port))
        self.listener.listen()
        self.port = self.listener.getsockname()[1]
        self.connection = None
        self.unread = b''
        self.received = []

    def accept(self):
        """Takes the next connection."""
        self.listener.settimeout(self.wait)
        self.connection, _ = self.listener.accept()
        self.connection.settimeout(self.wait)
        self.connection.setsockopt(socket.IPPROTO_TCP, socket.TCP_NODELAY, 1)
        self.unread = b''

    def is_alone(self):
        """Nobody has connected."""
        self.listener.setblocking(False)
        try:
            self.listener.accept()
        except BlockingIOError:
            return
        raise Failed('a connection was made')

    def line(self):
        """The next line, without its CR LF; None at the end of the connection."""
        while b'\r\n' not in self.unread:
            piece = self.connection.recv(4096)
            if not piece:
                return None
            self.unread += piece
        line, self.unread = self.unread.split(b'\r\n', 1)
        self.received.append(line.decode('latin-1'))
        return self.received[-1]

    def send(self, *lines):
        """Sends lines, each with CR LF."""
        self.send_bytes(b''.join(line.encode('latin-1') + b'\r\n' for line in lines))

    def send_bytes(self, sent):
        """Sends bytes: a part of a line, or what else comes to a test's mind. Each portion has the time of a call: on a
        machine that does much else a slow reader takes minutes for many megabytes."""
        for start in range(0, len(sent), PORTION):
            self.connection.sendall(sent[start:start + PORTION])

    def drop(self):
        """Ends the connection."""
        self.connection.close()

    def reset(self):
        """Ends the connection at once: nothing that is on its way has to arrive."""
        self.connection.setsockopt(socket.SOL_SOCKET, socket.SO_LINGER, struct.pack('ii', 1, 0))
        self.connection.close()

    def end_sending(self):
        """Sends nothing more, but still reads."""
        self.connection.shutdown(socket.SHUT_WR)

    def close(self):
        """Ends the connection and stops to listen."""
        if self.connection:
            self.connection.close()
        self.listener.close()
