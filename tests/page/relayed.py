"""What fibs-page takes and hands on, as a stranger, a broken page and a broken server meet it: named cases, each true
if it is right."""

import contextlib
import pathlib
import socket
import struct
import subprocess
import sys

ROOT = pathlib.Path(__file__).resolve().parent.parent.parent
KEY = 'dGhlIHNhbXBsZSBub25jZQ=='
# what the protocol gives for this key (RFC 6455, 1.3)
ACCEPT = b's3pPLMBiTxaQ9kYGzzhZRbK+xOo='
BINARY, CLOSE, PING, PONG = 2, 8, 9, 10


class Relay:
    """fibs-page at a free port, and the listener that is its server."""

    def __enter__(self):
        self.listener = socket.create_server(('127.0.0.1', 0))
        self.listener.settimeout(10)
        port = self.listener.getsockname()[1]
        words = [str(ROOT / 'scripts' / 'fibs-page'), '127.0.0.1', str(port), '--listen', '0']
        self.program = subprocess.Popen([sys.executable, '-B', *words], stdout=subprocess.PIPE,
                                        stderr=subprocess.PIPE, text=True)
        address = self.program.stdout.readline().strip()
        self.port = int(address.split(':')[2].split('/')[0])
        self.token = address.partition('#')[2]
        self.host = '127.0.0.1:%d' % self.port
        return self

    def __exit__(self, *_):
        self.program.terminate()
        self.listener.close()
        self.program.wait()
        self.program.stdout.close()
        self.program.stderr.close()

    def ask(self, path='/fibs', host=None, origin=None, spoken=None):
        """A request as a browser makes it. Returns the connection, the status and the head of the answer."""
        asking = socket.create_connection(('127.0.0.1', self.port), 10)
        origin = 'http://' + self.host if origin is None else origin
        spoken = 'fibs, ' + self.token if spoken is None else spoken
        asking.sendall(('GET %s HTTP/1.1\r\nHost: %s\r\nOrigin: %s\r\nUpgrade: websocket\r\nConnection: Upgrade\r\n'
                        'Sec-WebSocket-Protocol: %s\r\nSec-WebSocket-Key: %s\r\nSec-WebSocket-Version: 13\r\n\r\n'
                        % (path, host or self.host, origin, spoken, KEY)).encode())
        head = b''
        while not head.endswith(b'\r\n\r\n'):
            byte = asking.recv(1)
            if not byte:
                break
            head += byte
        return asking, int(head.split(b' ')[1]) if head else 0, head

    def status(self, **words):
        """The status of such a request."""
        asking, status, _ = self.ask(**words)
        asking.close()
        if status == 101:
            self.listener.accept()[0].close()
        return status

    @contextlib.contextmanager
    def talking(self):
        """A page that talks to the server."""
        page, status, _ = self.ask()
        assert status == 101, status
        there = self.listener.accept()[0]
        there.settimeout(10)
        with page, there:
            yield page, there


def masked(data, kind=BINARY, fin=128):
    """A frame of a page."""
    size = bytes([128 | len(data)]) if len(data) < 126 else struct.pack('!BH', 254, len(data))
    key = b'\x05\x17\x00\xff'
    return bytes([fin | kind]) + size + key + bytes(byte ^ key[at % 4] for at, byte in enumerate(data))


def taken(page, size):
    """So many bytes."""
    data = b''
    while len(data) < size:
        piece = page.recv(size - len(data))
        if not piece:
            raise EOFError(data)
        data += piece
    return data


def heard(page):
    """The kind and the bytes of the next frame that the page hears."""
    first, size = taken(page, 2)
    size = struct.unpack('!H', taken(page, 2))[0] if size == 126 else struct.unpack('!Q', taken(page, 8))[0] \
        if size == 127 else size
    return first & 15, taken(page, size)


def code(page):
    """The code of the close that the page hears next."""
    kind, data = heard(page)
    return struct.unpack('!H', data[:2])[0] if kind == CLOSE else None


def strangers(relay):
    """Whom it takes: pages of its own address that know the token, and no others."""
    own, named = relay.host, 'localhost:%d' % relay.port
    other = 'evil.example:%d' % relay.port
    wanted = [
        ('its own page', 101, {}),
        ('its own page by the name localhost', 101, {'host': named, 'origin': 'http://' + named}),
        ('a page of another origin', 403, {'origin': 'http://' + other}),
        ('a page of another origin under a name that leads here', 403, {'host': other, 'origin': 'http://' + other}),
        ('a page of another name of its own', 403, {'origin': 'http://' + named}),
        ('a page without an origin', 403, {'origin': ''}),
        ('a page of the origin null', 403, {'origin': 'null'}),
        ('a page whose host goes on', 403, {'host': own + '.evil.example', 'origin': 'http://' + own}),
        ('a program without the token', 403, {'spoken': 'fibs'}),
        ('a program with another token', 403, {'spoken': 'fibs, ' + 'A' * len(relay.token)}),
        ('a file of the page', 200, {'path': '/page/page.js'}),
        ('a file of the page under another name', 403, {'path': '/page/page.js', 'host': other}),
        ('a file beside those of the page', 404, {'path': '/wasm/Cargo.toml'}),
        ('a file above those of the page', 404, {'path': '/page/../../README.md'}),
        ('the beginning of the address', 302, {'path': '/'}),
    ]
    for name, status, words in wanted:
        yield name, relay.status(**words) == status


def ways(relay):
    """What it hands on, and how it ends."""
    page, _, head = relay.ask()
    yield 'it answers the key', ACCEPT in head and b'Sec-WebSocket-Protocol: fibs\r\n' in head
    relay.listener.accept()[0].close()
    yield 'the end of the server is told', code(page) == 1000
    page.close()
    with relay.talking() as (page, there):
        page.sendall(masked(b'ro', fin=0) + masked(b'll\r\n', kind=0))
        yield 'two parts of a message are handed on', taken(there, 6) == b'roll\r\n'
        there.sendall(bytes(range(256)) * 300)
        got = b''
        while len(got) < 76800:
            got += heard(page)[1]
        yield 'all bytes of the server are handed on', got == bytes(range(256)) * 300
        page.sendall(masked(b'?', kind=PING))
        yield 'a ping is answered', heard(page) == (PONG, b'?')
        page.sendall(masked(b'half')[:5])
        there.sendall(b'hello\r\n')
        yield 'half a frame of the page holds nothing up', heard(page) == (BINARY, b'hello\r\n')
    with relay.talking() as (page, there):
        page.sendall(masked(struct.pack('!H', 1000), kind=CLOSE))
        yield 'a close of the page is answered', code(page) == 1000
        yield 'and ends the connection to the server', there.recv(10) == b''
    with relay.talking() as (page, there):
        # it has seen the connection by then
        there.sendall(b'?')
        heard(page)
        there.setsockopt(socket.SOL_SOCKET, socket.SO_LINGER, struct.pack('ii', 1, 0))
        there.close()
        yield 'a connection that breaks is told', code(page) == 4002
    for name, data, wanted in [
            ('a frame without a mask', b'\x82\x04roll', 1002), ('a text', masked(b'roll', kind=1), 1003),
            ('a frame that is too long', b'\x82\xff' + struct.pack('!Q', 1 << 40) + bytes(4), 1009)]:
        with relay.talking() as (page, there):
            page.sendall(data)
            yield name + ' ends it', code(page) == wanted
            yield name + ' is not handed on', there.recv(10) == b''


def floods(relay):
    """A page that does not read still sends; too many pages are refused."""
    with relay.talking() as (page, there):
        there.setblocking(False)
        sent, full = 0, 0
        while full < 100:
            try:
                sent += there.send(b'x' * 65536)
                full = 0
            except BlockingIOError:
                full += 1
                there.settimeout(0.005)
                with contextlib.suppress(OSError):
                    sent += there.send(b'x')
                there.setblocking(False)
        page.sendall(masked(b'roll\r\n'))
        there.settimeout(10)
        yield 'a page that does not read still sends', taken(there, 6) == b'roll\r\n'
        got = 0
        while got < sent:
            got += len(heard(page)[1])
        yield 'and nothing was dropped', got == sent
    many = [relay.ask()[0] for _ in range(4)]
    theirs = [relay.listener.accept()[0] for _ in range(4)]
    yield 'a fifth page is refused', relay.status() == 503
    for one in many + theirs:
        one.close()


def alone():
    """What it says if there is no server, and as it ends."""
    with Relay() as relay:
        relay.listener.close()
        page, status, _ = relay.ask()
        kind, data = heard(page)
        told = (status, kind, data[:2]) == (101, CLOSE, struct.pack('!H', 4001))
        yield 'no server is told by its code and in words', told and b'no connection to 127.0.0.1' in data
    with Relay() as relay, relay.talking() as (page, _):
        relay.program.terminate()
        yield 'its own end is told', code(page) == 1001
        relay.program.wait()
        yield 'and it says nothing else', relay.program.stderr.read() == ''


def cases():
    """All of them."""
    with Relay() as relay:
        for part in (strangers, ways, floods):
            yield from part(relay)
    yield from alone()
