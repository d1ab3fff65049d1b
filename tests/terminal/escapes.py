"""Servers that flood, and that send what a terminal would obey."""

import datetime
import os
import random
import shutil
import socket
import tempfile
import threading
import time
import zoneinfo

from people import (PASSWORD_FILE, PATIENCE, PROGRAM, Failed, Person, Reader, greeted, leaves, same,
                    with_listener)

# What a terminal does not obey.
HARMLESS = {chr(code) for code in [10, *range(32, 127)]}
MILLION = 1000000

BOARD = ('board:You:bob:3:0:0:0:-2:0:0:0:0:5:0:3:0:0:0:-5:5:0:0:0:-3:0:-5:0:0:0:0:2:0:'
         '1:0:0:0:0:1:1:1:0:1:-1:0:25:0:0:0:0:0:0:0:0')

# Beginnings of lines, after which anything may come.
FRONTS = [b'', b'12 bob ', b'13 bob ', b'7 bob ', b'5 bob - - 1 0 1500.00 1 1 1 h - ', b'9 bob 1041253132 ',
          b'1 ann 1 ', b'board:', BOARD.encode()[:-3], b'2 ann ', b'bob wants to resign. ', b'> login: ']

# What a terminal would obey: CSI, OSC, DCS, C1 controls, a bell, a backspace, a direction mark in UTF-8, ..
COMMANDS = [b'\x1b[2J', b'\x1b]0;title\x07', b'\x1bP1$q\x1b\\', b'\x9b31m', b'\x90', b'\x08', b'\x0c', b'\x07',
            b'\x0e', b'\x7f', '\u202e'.encode(), b'\xc2\x9b2J', b'\x1b[6n', b'\r', b'\x00', b'\\x1b']


def hostile_lines(chance, count):
    """So many random lines, as bytes."""
    lines = []
    for _ in range(count):
        line = chance.choice(FRONTS)
        for _ in range(chance.randrange(4)):
            line += chance.choice(COMMANDS) + bytes(chance.randrange(256) for _ in range(chance.randrange(6)))
        # byte 255 begins a command of telnet, which goes
        lines.append(line.replace(b'\n', b' '))
    return b''.join(line + b'\r\n' for line in lines)


def a_million_lines_never_act_on_the_terminal(server, **more):
    """And nothing of them is written to the server."""
    ann = greeted(server, **more)
    chance = random.Random(46)
    portion = [hostile_lines(chance, 5000) for _ in range(10)]

    def sends():
        for at in range(MILLION // 5000):
            server.send_bytes(portion[at % 10])
        server.send('12 bob done at last')

    sender = threading.Thread(target=sends, daemon=True)
    sender.start()
    found, seen = set(), 0
    end = time.monotonic() + 10 * PATIENCE
    last = b''
    while b'done at last\r\n' not in last:
        with ann.news:
            ann.news.wait(1)
            piece, ann.seen = bytes(ann.seen), bytearray()
        found |= set(piece)
        seen += piece.count(b'\n')
        last = last[-100:] + piece
        if time.monotonic() > end:
            raise Failed('it takes too long: %d lines' % seen)
    sender.join(PATIENCE)
    same('bytes that a terminal obeys', sorted(found - set(map(ord, HARMLESS)) - {13}), [])
    same('lines are shown', seen > MILLION // 4, True)
    ann.quits()
    while server.line() is not None:
        pass
    same('what the server got', server.received[3:], [])


@with_listener
def a_million_lines(server):
    a_million_lines_never_act_on_the_terminal(server)


@with_listener
def letters_of_other_scripts(server):
    """Printable letters are themselves if the terminal has them; no control and no direction mark is."""
    ann = greeted(server, LC_ALL='C.UTF-8')
    server.send_bytes('12 bob Grüße, Ödön: \u202e\u2066\u0085 \\ ok\r\n'.encode())
    line = ann.reads('bob says: ').encode('latin-1').decode()
    same('letters', 'Grüße, Ödön: ' in line, True)
    same('marks', [mark for mark in '\u202e\u2066\u0085' if mark in line], [])
    same('a backslash is itself', line.endswith(' \\ ok'), True)
    # a byte that begins no letter of UTF-8 is one of Latin-1; of both kinds in one line each is itself
    server.send_bytes(b'12 bob Gr\xfc\xdfe, \xd6d\xf6n \xe9 caf\xc3\xa9 \x9b2J \xa0\xad \xff\xff \xe2\x80\x99 \xe2\x82\xac end\r\n')
    line = ann.reads('bob says: Gr').encode('latin-1').decode()
    same('letters of Latin-1', line[line.index('bob'):],
         'bob says: Grüße, Ödön é café \\x9b2J \\xa0\\xad ÿ ’ € end')
    ann.close()


@with_listener
def what_is_malformed_is_shown(server):
    """What is wrong in English, with the number and the name after it; and the line itself."""
    ann = greeted(server)
    server.send('12', '5 bob - - 1 0 15x0 1 1 1 h - -', 'board:You:bob:3', '12 bob end')
    ann.reads('bob says: end')
    shown = '\n'.join(ann.lines())
    for wanted in 'Missing', 'NotANumber', '5 bob - - 1 0 15x0 1 1 1 h - -', 'board:You:bob:3':
        same('%s is shown' % wanted, wanted in shown, True)
    ann.close()


@with_listener
def a_flood_does_not_hold_a_typed_line(server):
    """Of a server that sends lines with no pause and no end, so that both are always ready: what is typed goes out."""
    ann = greeted(server)
    over = threading.Event()
    lines = b''.join(b'13 eve line %d of many, without a pause\r\n' % number for number in range(1000))

    def floods():
        try:
            while not over.is_set():
                server.send_bytes(lines)
        except OSError:
            # ann has gone
            pass

    def forgets():
        """A screen of so many lines is not kept."""
        while not over.is_set():
            time.sleep(0.1)
            with ann.news:
                ann.seen = bytearray(ann.seen[-100:])

    threads = [threading.Thread(target=work, daemon=True) for work in (floods, forgets)]
    for thread in threads:
        thread.start()
    time.sleep(1)
    taken = []
    for number in range(5):
        began = time.monotonic()
        ann.type('say number %d' % number)
        same('received', server.line(), 'say number %d' % number)
        taken.append(time.monotonic() - began)
        time.sleep(0.2)
    over.set()
    print('        measured: a typed line went out of a flood after %s ms'
          % ', '.join('%.0f' % (1000 * each) for each in taken), flush=True)
    ann.close()


def a_host_of_which_one_address_alone_answers():
    """At a terminal the connections go through a network of its own, which finds each address too."""
    for family, _, _, _, (address, *_) in socket.getaddrinfo('localhost', 0, type=socket.SOCK_STREAM):
        try:
            listener = socket.create_server((address, 0), family=family)
        except OSError:
            continue
        with listener:
            ann = Person(listener.getsockname()[1], host='localhost')
            listener.settimeout(PATIENCE)
            connection, _ = listener.accept()
            with connection:
                same('the login', connection.recv(100).split(b' ')[:2], [b'login', b'fibs_client'])
                connection.sendall(b'12 bob hi\r\n')
                ann.reads('bob says: hi')
            ann.close()


@with_listener
def lines_that_are_pasted_are_all_answered(server):
    """A terminal gives each line by itself: what is typed is asked for anew after each."""
    ann = greeted(server)
    lines = ['say number %d' % number for number in range(40)]
    ann.type_bytes(''.join(line + '\n' for line in lines).encode())
    same('received', [server.line() for _ in lines], lines)
    ann.close()


@with_listener
def nothing_typed_is_lost_when_a_line_comes(server):
    ann = greeted(server)
    for number in range(20):
        ann.type_bytes(b'say h')
        server.send('12 bob amid %d' % number)
        ann.reads('amid %d' % number)
        ann.type_bytes(b'ello %d\n' % number)
        same('received', server.line(), 'say hello %d' % number)
    ann.close()


@with_listener
def the_server_is_heard_after_a_stop(server):
    """Ctrl-Z and fg, at rest and within a typed line, which goes: what the server says meanwhile, and what it says then,
    is shown though still nothing is typed."""
    ann = greeted(server)
    for half in b'', b'say never', b'':
        ann.type_bytes(half + b'\x1a')
        ann.is_stopped()
        server.send('12 bob while you were away')
        ann.to_the_foreground()
        ann.reads('bob says: while you were away', seconds=10)
        ann.shown(0.5)
        server.send('12 bob still here')
        ann.reads('bob says: still here', seconds=10)
    ann.type('say back')
    ann.reads('sent say back')
    leaves(ann, server, 'say back')


@with_listener
def eight_megabytes_are_shown_whole(server):
    """Lines of 900 bytes, sent at once."""
    ann = greeted(server)
    at = len(ann.screen())
    lines = ['line_%d_%s' % (number, 'x' * 900) for number in range(9000)]
    sender = threading.Thread(target=server.send, args=lines, daemon=True)
    sender.start()
    ann.sees('line_8999_', 'x\r\n')
    sender.join()
    # what the greeting is answered by may still come before them
    shown = ann.screen()[at:]
    same('all is shown', shown[shown.index('line_0_'):].splitlines() == lines, True)
    leaves(ann, server)


@with_listener
def closed_in_mid_picture(server):
    """The terminal goes while boards are drawn: the program ends by the shell's hangup, or sooner by itself."""
    for more, wanted in ({}, [0, 4, 129]), ({'NOHUP': '1'}, [0, 4]):
        ann = greeted(server, **more)
        boards = threading.Thread(target=sends_until_it_is_over, args=(server,), daemon=True)
        boards.start()
        ann.hint()
        ann.hangs_up()
        kind, status = ann.report()
        same('the ending by %s' % status, (kind, int(status) in wanted), ('ended', True))
        boards.join(PATIENCE)
        server.received.clear()
        ann.close()


def sends_until_it_is_over(server):
    """Board after board."""
    try:
        while True:
            server.send(*[BOARD] * 100)
    except OSError:
        pass


# What is set in the environment, and what is shown then: whether letters are bold, what a letter of another script is,
# and at what time the user was here last.
BOLD, AS_IT_IS, ESCAPED, THEN = '\x1b[1m', '\xc3\xa9', '\\xc3\\xa9', '12:58'
ENVIRONMENTS = [
    ({'TERM': None}, False, ESCAPED, THEN),
    ({'TERM': 'xterm', 'NO_COLOR': ''}, True, ESCAPED, THEN),
    ({'TERM': 'xterm', 'NO_COLOR': '1'}, False, ESCAPED, THEN),
    ({'LC_ALL': 'C', 'LC_CTYPE': 'C.UTF-8', 'LANG': 'C.UTF-8'}, False, ESCAPED, THEN),
    ({'LC_ALL': '', 'LC_CTYPE': '', 'LANG': 'C.UTF-8'}, False, AS_IT_IS, THEN),
    ({'LC_ALL': 'en_US.utf8'}, False, AS_IT_IS, THEN),
    ({'LC_ALL': 'de_DE.UTF-8@euro'}, False, AS_IT_IS, THEN),
    # as a Mac says it; the shell of these scenes is Python, which would set another locale
    ({'LC_ALL': None, 'LC_CTYPE': 'UTF-8', 'LANG': None, 'PYTHONCOERCECLOCALE': '0'}, False, AS_IT_IS, THEN),
    # no locale at all
    ({'LC_ALL': None, 'LC_CTYPE': None, 'LANG': None, 'PYTHONCOERCECLOCALE': '0'}, False, ESCAPED, THEN),
    ({'TZ': 'XYZ-5'}, False, ESCAPED, '17:58'),
    # a name that leads out of the place of the zones is none, and so is one that is not there
    ({'TZ': 'Asia/../Asia/Tokyo'}, False, ESCAPED, THEN),
    ({'TZ': 'Nowhere/Nothing'}, False, ESCAPED, THEN),
    ({'COLUMNS': '0'}, False, ESCAPED, THEN),
]


@with_listener
def what_the_environment_says(server):
    for more, bold, letter, clock in ENVIRONMENTS:
        ann = greeted(server, **more)
        server.send(BOARD)
        ann.hint()
        server.send_bytes('12 bob caf\u00e9\r\n'.encode())
        ann.reads('bob says: caf')
        shown = ann.screen()
        last = next(line for line in ann.lines() if line.startswith('Welcome, ann'))
        same('with %r' % more, (BOLD in shown, 'caf' + letter in shown, ', %s, from' % clock in last, ' O You' in shown),
             (bold, True, True, True))
        ann.quits()
        ann.close()
    for height in None, '0', 'low':
        ann = greeted(server, TERM='xterm', LINES=height)
        ann.type('board above')
        ann.sees('How high is this terminal? rows 40 says it.')
        ann.quits()
        ann.close()


# Where the system has its time zones.
ZONES = '/usr/share/zoneinfo'

# What `TZ` says, and the zone that it names: north and south, with and without a summer time, and half an hour off.
PLACES = [('Europe/Berlin', 'Europe/Berlin'), (':America/New_York', 'America/New_York'),
          ('Australia/Sydney', 'Australia/Sydney'), (':Asia/Kolkata', 'Asia/Kolkata'),
          (ZONES + '/America/St_Johns', 'America/St_Johns'), (':%s/Asia/Tokyo' % ZONES, 'Asia/Tokyo'), ('UTC', 'UTC')]

# Winter, summer, and the seconds about the change of the clock in Berlin, New York and Sydney.
TIMES = [1041253132, 1057000000, 1743296399, 1743296400, 1762063199, 1762063200, 1743868799, 1743868800, 0]


@with_listener
def the_clock_of_the_place(server):
    """By what Python says of the same zones; also if the zones are elsewhere."""
    if not os.path.isdir(ZONES):
        print('        without time zones: not tried', flush=True)
        return
    with tempfile.TemporaryDirectory() as room:
        shutil.copy(os.path.join(ZONES, 'Asia', 'Kathmandu'), os.path.join(room, 'here'))
        for more, name in [*(({'TZ': tz}, name) for tz, name in PLACES),
                           ({'TZ': 'here', 'TZDIR': room}, 'Asia/Kathmandu')]:
            ann = greeted(server, **more)
            server.send(*['9 bob %d at %d' % (time, time) for time in TIMES])
            for then in TIMES:
                shown = datetime.datetime.fromtimestamp(then, zoneinfo.ZoneInfo(name))
                wanted = '%d %s %d, %02d:%02d' % (shown.day, shown.strftime('%B'), shown.year, shown.hour, shown.minute)
                same('%r at %d' % (more, then), ann.reads(' at %d' % then), 'bob left a message on %s: at %d' % (wanted, then))
            server.send('12 bob hi')
            hour = datetime.datetime.now(zoneinfo.ZoneInfo(name))
            said = ann.reads('bob says: hi').split(' ')[0]
            ways = {(hour + datetime.timedelta(minutes=late)).strftime('%H:%M') for late in (-1, 0, 1)}
            same('%s, the time of talk, is one of %s' % (said, ways), said in ways, True)
            ann.quits()
            ann.close()


@with_listener
def a_pipe_is_no_time_zone(server):
    """It is not waited for, and the clock shows UTC. (Python reads the zone as well, so `env` sets it for her alone.)"""
    with tempfile.TemporaryDirectory() as room:
        os.mkfifo(os.path.join(room, 'pipe'))
        ann = greeted(server, Reader(['env', 'TZ=pipe', 'TZDIR=' + room, PROGRAM, 'connect', '--password-file',
                                      PASSWORD_FILE, '127.0.0.1', str(server.port), 'ann']))
        server.send('9 bob %d a word' % TIMES[0])
        same('when', ann.reads(': a word'), 'bob left a message on 30 December 2002, 12:58: a word')
        ann.quits()
        ann.close()


SCENES = [a_million_lines, letters_of_other_scripts, what_is_malformed_is_shown, a_flood_does_not_hold_a_typed_line,
          eight_megabytes_are_shown_whole, a_host_of_which_one_address_alone_answers,
          lines_that_are_pasted_are_all_answered, nothing_typed_is_lost_when_a_line_comes,
          the_server_is_heard_after_a_stop, closed_in_mid_picture, what_the_environment_says, the_clock_of_the_place,
          a_pipe_is_no_time_zone]
