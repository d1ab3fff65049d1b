#!/usr/bin/env python3
"""Tests the built program's `connect` against hostile servers: tests/hostile.py PROGRAM

Whatever the server does, the program holds little memory, answers each typed line, sends nothing twice and nothing
that it should not send, and ends as its documents say. As in connect.py, each step waits for a line or for the end of
a connection, and never for the clock. Prints a line for each case, and then `N passed, M failed`.
"""

import concurrent.futures
import itertools
import os
import socket
import subprocess
import sys
import threading

from props.checks import PATIENCE, Failed, same
from props.server import OWN_INFO, WHO_INFO, Game, Server
from connect import LOGIN, PROGRAM, STYLE, WELCOME, Player, greeted, logged_in, play

# The most memory that the program may hold, in kilobytes.
MOST_MEMORY = 10000

# The most that it may hold with 4096 players whose lines were the longest, 67 MB in all.
MOST_MEMORY_OF_PLAYERS = 76000

# How many players a directory has room for.
MOST_PLAYERS = 4096

# How many bytes of a line are kept.
LINE = 16384

# How often a server is read for one typed line, and how many bytes these reads may give.
TURN_READS = 4096
TURN = TURN_READS * 1024

# How many sessions of a case are held at the same time, and how many cases are played so: they wait most of the time.
MANY = 32
BESIDE = 4

OWN = OWN_INFO % 'ann'


def at_once(trial, rows):
    """Makes the trial with each of the rows, at a server of its own each, many at the same time, up to a failure."""
    def tried(row):
        if failed:
            return
        server = Server()
        try:
            trial(server, row)
        except Exception as error:
            failed.append(Failed('with %.40r: %s' % (row, error)))
        finally:
            server.close()

    failed = []
    with concurrent.futures.ThreadPoolExecutor(MANY) as pool:
        for row in rows:
            pool.submit(tried, row)
    if failed:
        raise failed[0]


def sending(send, *arguments):
    """Sends while the test goes on, since no more is sent than is read."""
    sender = threading.Thread(target=send, args=arguments, daemon=True)
    sender.start()
    return sender


def next_line(player):
    """The next line that is printed, without its end."""
    return player.next_line()[:-1]


def turn_is_over(player):
    """What is printed until the program waits for what is typed: this answer is given without hearing the server."""
    printed = []
    player.type('open')
    while printed[-1:] != ['refused 1 AlreadyOpen']:
        printed.append(player.line()[:-1])
    return printed[:-1]


def holds_little(program, most=MOST_MEMORY):
    """The program never held more than so much memory."""
    with open('/proc/%d/status' % program.pid) as status:
        peaks = [int(line.split()[1]) for line in status if line.startswith('VmHWM:')]
    if not peaks or peaks[0] >= most:
        raise Failed('of the memory that was held this is told: %s kB' % peaks)


def leaves(player, server, *received, most=MOST_MEMORY):
    """The player quits. The server has received these lines, and not a byte more."""
    holds_little(player.program, most)
    player.quits()
    while server.line() is not None:
        pass
    same('all that was received', (server.received, server.unread), (list(received), b''))


def leaves_offline(player, server, *received):
    """The same after the connection is over."""
    player.type('roll')
    player.sees('refused 2 Offline')
    holds_little(player.program)
    player.quits()
    same('all that was received', server.received, list(received))


def at_a_board(server, player, board):
    """The player is greeted, and shown a board on which to roll."""
    server.send(WELCOME, OWN, board)
    player.type('')
    player.sees('message ' + WELCOME, 'message ' + OWN, board, 'phase RollOrDouble')
    same('received', [server.line(), server.line()], [STYLE, 'board'])


def new_game():
    """A game in which the player is to roll."""
    return Game([5, 3], [22, 23], [[2, 1]])


# -- servers that stop within a line ---------------------------------------------------------------------------------

BOARD = new_game().board()

# What comes before the stall and after it, what is printed then, and what is sent for it.
STALLS = [
    (b'1 ann 10412', b'53132 localhost\r\n', ['message ' + WELCOME], [STYLE]),
    (WELCOME.encode() + b'\r', b'\n', ['message ' + WELCOME], [STYLE]),
    (b'1 ann 1041253132 local\xff', b'\xfbhhost\r\n', ['message ' + WELCOME], [STYLE]),
    (b'login: >', b' ' + WELCOME.encode() + b'\r\n', ['message ' + WELCOME], [STYLE]),
    (b'1', b'2 bob hi\r\n', ['message 12 bob hi'], []),
    (b'2 ann 1 1 0 0 0 0 1 1 1', OWN.encode()[23:] + b'\r\n', ['message ' + OWN], ['board']),
    (BOARD.encode()[:40], BOARD.encode()[40:] + b'\r\n', [BOARD, 'phase RollOrDouble'], []),
    (b'a' * LINE, b'\r\n', ['text ' + 'a' * LINE], []),
    (b'a' * LINE, b'a\r\n', ['cut ' + 'a' * LINE], []),
    (b'a' * 100000, b'\r\n', ['cut ' + 'a' * LINE], []),
]


def a_server_that_stalls_in_the_middle_of_a_line(_server):
    def stalled(server, row):
        before, after, printed, commands = row
        player = logged_in(server)
        server.send_bytes(before)
        for typed, answer in (('dance', 'unknown'), ('say hi', 'sent say hi'), ('roll', 'refused 3 NotReady')):
            player.type(typed)
            player.sees(answer)
        server.send_bytes(after)
        player.type('')
        player.sees(*printed)
        leaves(player, server, LOGIN, 'say hi', *commands)

    at_once(stalled, STALLS)


def one_who_quits_while_a_line_is_not_at_its_end(_server):
    def left(server, row):
        player = logged_in(server)
        server.send_bytes(row[0])
        player.type('dance')
        player.sees('unknown')
        leaves(player, server, LOGIN)

    at_once(left, STALLS)


# -- floods ----------------------------------------------------------------------------------------------------------

# A hundred megabytes of lines.
FLOOD_LINES = 25000


def flood_line(number):
    """A line of a flood."""
    return '%08d%s' % (number, 'a' * 3990)


def a_flood_of_a_hundred_megabytes(server):
    def send():
        for first in range(0, FLOOD_LINES, 250):
            server.send(*map(flood_line, range(first, first + 250)))

    player = greeted(server)
    sender = sending(send)
    player.type('dance')
    typed, answered, number, heard = 1, 0, 0, 0
    while number < FLOOD_LINES or answered < typed:
        printed = player.line()
        if printed == 'unknown\n':
            answered, heard = answered + 1, 0
            if number < FLOOD_LINES:
                player.type('dance')
                typed += 1
            continue
        same('printed', printed, 'text %s\n' % flood_line(number))
        number, heard = number + 1, heard + len(flood_line(0)) + 2
        if heard > TURN + LINE:
            raise Failed('%d bytes were heard for one typed line' % heard)
    sender.join(PATIENCE)
    leaves(player, server, LOGIN, STYLE)


def a_flood_that_never_ends(server):
    def send():
        try:
            while True:
                server.send_bytes((b'a' * 2000 + b'\r\n') * 100 + b'\0' * 5000 + b'\r\n')
        except OSError:
            pass

    player = greeted(server)
    sender = sending(send)
    for _ in range(3):
        player.type('dance')
    answers, heard = 0, 0
    while answers < 3:
        line = next_line(player)
        heard += len(line)
        if line == 'unknown':
            answers, heard = answers + 1, 0
        # What is printed is at most four times as long as what was sent, and a little longer.
        if heard > 5 * TURN:
            raise Failed('no answer within %d bytes' % heard)
    holds_little(player.program)
    player.type('quit')
    same('the status', player.program.wait(PATIENCE), 0)
    sender.join(PATIENCE)
    same('the flood ends', sender.is_alive(), False)
    same('received', server.received, [LOGIN, STYLE])


def a_server_that_sends_a_byte_whenever_one_was_read(server):
    player = greeted(server)
    turn_is_over(player)
    server.send_bytes(b'\n')
    player.type('')
    player.type('dance')
    heard, line = 0, player.line()
    while line == 'text \n' and heard <= TURN_READS:
        heard += 1
        server.send_bytes(b'\n')
        line = player.line()
    same('printed after %d reads' % heard, line, 'unknown\n')
    player.sees('text ')
    leaves(player, server, LOGIN, STYLE)


def a_flood_of_which_nobody_reads_any_more(server):
    def send():
        try:
            while True:
                server.send_bytes(b'nice roll\r\n' * 1000)
        except OSError:
            pass

    program = subprocess.Popen([PROGRAM, 'connect', '127.0.0.1', str(server.port), 'ann'], stdin=subprocess.PIPE,
                               stdout=subprocess.PIPE, stderr=subprocess.PIPE)
    program.stdin.write(b'secret\n' + b'\n' * 100)
    program.stdin.close()
    server.accept()
    same('received', server.line(), LOGIN)
    sender = sending(send)
    same('printed', program.stdout.readline(), b'text nice roll\n')
    holds_little(program)
    program.stdout.close()
    same('the status', program.wait(PATIENCE), 4)
    same('said', program.stderr.read(), b'')
    sender.join(PATIENCE)
    same('the flood ends', sender.is_alive(), False)


def ten_thousand_lines_at_once(_server):
    def told(server, row):
        line, printed, commands = row
        player = logged_in(server)
        sender = sending(server.send_bytes, line * 10000)
        player.type('')
        for _ in range(10000):
            player.sees(*printed)
        sender.join(PATIENCE)
        player.type('dance')
        player.sees('unknown')
        leaves(player, server, LOGIN, *commands)

    at_once(told, [
        (b'\n', ['text '], []),
        (b'\r\r\n', ['text \\x0d'], []),
        (b'\0' * 100 + b'\n', ['text ' + '\\x00' * 100], []),
        (b'\xff\xf1\n', ['text '], []),
        (b'13 bob hi\r\n', ['message 13 bob hi'], []),
        (b'13\n', ['malformed 13 1 Missing'], []),
        (WELCOME.encode() + b'\r\n', ['message ' + WELCOME], [STYLE]),
        (OWN.encode() + b'\r\n', ['message ' + OWN], ['board']),
        (BOARD.encode() + b'\r\n', [BOARD, 'phase RollOrDouble'], []),
    ])


def ten_thousand_boards_while_a_roll_waits(server):
    game = new_game()
    board = game.board()
    player = logged_in(server)
    at_a_board(server, player, board)
    player.type('roll')
    same('received', server.line(), 'roll')
    player.sees('sent roll')
    sender = sending(server.send_bytes, (board + '\r\n').encode() * 10000)
    player.type('')
    for _ in range(10000):
        player.sees(board, 'phase RollOrDouble')
    sender.join(PATIENCE)
    player.type('roll')
    player.sees('refused 6 Waiting')
    rolled = game.answer(['roll'])[1]
    server.send(*[rolled] * 100)
    player.type('')
    player.sees(rolled, 'phase Move', 'confirmed roll')
    player.sees(*[rolled, 'phase Move'] * 99)
    leaves(player, server, LOGIN, STYLE, 'board', 'roll')


# -- connections that end --------------------------------------------------------------------------------------------

# The lines of a session, what is printed of each, and what is sent for it.
SESSION = [
    (WELCOME, ['message ' + WELCOME], [STYLE]),
    (OWN, ['message ' + OWN], ['board']),
    ('3', ['message 3'], []),
    ('Welcome.', ['text Welcome.'], []),
    ('4', ['message 4'], []),
    (WHO_INFO[0], ['message ' + WHO_INFO[0]], []),
    (WHO_INFO[1], ['message ' + WHO_INFO[1]], []),
    ('6', ['message 6'], []),
    (BOARD, [BOARD, 'phase RollOrDouble'], []),
]

STREAM = b''.join(line.encode() + b'\r\n' for line, _, _ in SESSION)


def of_the_first(count):
    """What is printed of so many bytes of a session, and what is sent for it."""
    printed, commands, end = [], [], 0
    for line, shown, sent in SESSION:
        end += len(line) + 2
        if end <= count:
            printed += shown
            commands += sent
    return printed, commands


def a_connection_that_is_closed_after_each_byte_of_a_session(_server):
    def closed(server, count):
        printed, commands = of_the_first(count)
        player = logged_in(server)
        server.send_bytes(STREAM[:count])
        server.end_sending()
        player.type('')
        player.sees(*printed, 'lost')
        while server.line() is not None:
            pass
        leaves_offline(player, server, LOGIN, *commands)

    at_once(closed, range(301))


def a_connection_that_is_reset_after_each_third_byte_of_a_session(_server):
    def reset(server, count):
        printed, _ = of_the_first(count)
        player = logged_in(server)
        server.send_bytes(STREAM[:count])
        server.reset()
        player.type('')
        line, heard = next_line(player), []
        while line != 'lost':
            heard.append(line)
            line = next_line(player)
        same('printed', heard, printed[:len(heard)])
        player.type('open')
        server.accept()
        same('received', server.line(), LOGIN)
        server.send(WELCOME)
        player.type('')
        player.sees('message ' + WELCOME)
        leaves(player, server, LOGIN, LOGIN, STYLE)

    at_once(reset, range(0, 301, 3))


def a_command_that_is_typed_after_a_reset(_server):
    def typed(server, command):
        player = greeted(server)
        turn_is_over(player)
        server.reset()
        player.type(command)
        line = next_line(player)
        if line == 'sent ' + command:
            line = next_line(player)
        same('printed', line, 'lost')
        player.type(command)
        player.sees('refused 2 Offline')
        player.type('open')
        server.accept()
        same('received', server.line(), LOGIN)
        server.send(WELCOME)
        player.type('')
        player.sees('message ' + WELCOME)
        leaves(player, server, LOGIN, STYLE, LOGIN, STYLE)

    at_once(typed, ['say hi', 'who', 'board', 'join', 'bye', 'toggle ready', 'shout ' + 'a' * 400])


def resets_one_after_another_while_a_roll_waits(server):
    def sockets():
        return len(os.listdir('/proc/%d/fd' % player.program.pid))

    rounds = 4
    player = logged_in(server)
    held = sockets()
    for _ in range(rounds):
        at_a_board(server, player, BOARD)
        player.type('roll')
        same('received', server.line(), 'roll')
        server.reset()
        player.sees('sent roll', 'lost roll')
        player.type('open')
        server.accept()
        same('received', server.line(), LOGIN)
    same('the open files', sockets(), held)
    leaves(player, server, *[LOGIN, STYLE, 'board', 'roll'] * rounds, LOGIN)


def logins_that_are_reset_unread(server):
    player = Player(server.port)
    for _ in range(50):
        server.accept()
        same('the first byte', server.connection.recv(1, socket.MSG_PEEK), b'l')
        server.reset()
        player.type('')
        player.sees('lost')
        player.type('open')
    server.accept()
    same('received', server.line(), LOGIN)
    leaves(player, server, LOGIN)


# -- odd bytes -------------------------------------------------------------------------------------------------------

# Telnet commands before, within and after a line's bytes: one whose option is LF, one between CR and LF, and byte 255.
TELNET = (b'\xff\xfb\x011 ann 1041\xff\xf1253132 loc\xff\xfd\nalhost\r\xff\xf9\n'
          b'\xff\xfe\xffa\xff\xffb\xff\xfa\r\n> \xff\xfc\r> 12 \xff\xfd\xffbob hi\r\n\xff\xfb\xff')

TELNET_PRINTED = ['message ' + WELCOME, 'text a\\xffb', 'message 12 bob hi']


def telnet_commands_across_every_cut(_server):
    def cut(server, place):
        player = logged_in(server)
        server.send_bytes(TELNET[:place])
        player.type('')
        printed = turn_is_over(player)
        server.send_bytes(TELNET[place:])
        player.type('')
        while len(printed) < len(TELNET_PRINTED):
            printed.append(next_line(player))
        same('printed', printed, TELNET_PRINTED)
        leaves(player, server, LOGIN, STYLE)

    at_once(cut, range(1, len(TELNET)))


# How many bytes of prompts come before a line end.
PROMPT_BYTES = 10000000


def prompts_without_end(_server):
    def prompted(server, row):
        prompt, printed = row
        player = logged_in(server)
        sender = sending(server.send_bytes, prompt * (PROMPT_BYTES // len(prompt)))
        while sender.is_alive():
            player.type('dance')
            player.sees('unknown')
        server.send_bytes(b'\r\n> login: > ' + WELCOME.encode() + b'\r\n')
        player.type('')
        player.sees(printed, 'message ' + WELCOME)
        leaves(player, server, LOGIN, STYLE)

    at_once(prompted, [(b'> ', 'cut '), (b'login: ', 'cut logi'), (b'login: > ', 'cut logi'),
                       (b'>', 'cut ' + '>' * LINE)])


def prompts_as_far_as_a_line_is_kept(_server):
    def prompted(server, row):
        line, printed, commands = row
        player = logged_in(server)
        server.send_bytes(line)
        player.type('')
        player.sees(*printed)
        leaves(player, server, LOGIN, *commands)

    room = (LINE - len(WELCOME)) // 2
    at_once(prompted, [
        (b'> ' * room + WELCOME.encode() + b'\r\n', ['message ' + WELCOME], [STYLE]),
        (b'> ' * (room + 1) + WELCOME.encode() + b'\r\n', ['cut ' + WELCOME[:LINE - 2 * room - 2]], []),
        (b'> ' * (LINE // 2) + b'\r\n', ['text '], []),
        (b'login: \r\nlogin: > \n> \n', ['text '] * 3, []),
    ])


# -- boards of other players' games ----------------------------------------------------------------------------------

def too_many_checkers():
    """A board with one checker too many of the player."""
    game = Game([5] * 15, [22, 23], [])
    game.places[3] = 1
    return game.board()


def boards_of_other_players(_server):
    def watched(server, other):
        game = new_game()
        own = game.board()
        player = logged_in(server)
        server.send(WELCOME, OWN, other)
        player.type('')
        player.sees('message ' + WELCOME, 'message ' + OWN, other)
        player.type('roll')
        player.sees('refused 5 NoBoard')
        server.send(own, other)
        player.type('')
        player.sees(own, 'phase RollOrDouble', other)
        player.type('roll')
        player.sees('sent roll')
        server.send(other, other)
        player.type('')
        player.sees(other, other)
        player.type('roll')
        player.sees('refused 6 Waiting')
        rolled = game.answer(['roll'])[1]
        server.send(rolled, other)
        player.type('')
        player.sees(rolled, 'phase Move', 'confirmed roll', other)
        leaves(player, server, LOGIN, STYLE, 'board', 'roll')

    changed = Game([4, 2], [20], []).board()
    names = ['carol', 'ann', 'bob', 'you', 'YOU', 'Yo', 'Your', 'You_', 'a' * 64]
    at_once(watched, [changed.replace(':You:', ':%s:' % name) for name in names] + [too_many_checkers()])


def shouted(board):
    """Lines in which a board is said, and what is printed of each."""
    said = ['%d bob %s' % (number, board) for number in (7, 8, 12, 13, 14, 15, 16)]
    said += ['%d %s' % (number, board) for number in (17, 18, 19)]
    said += ['9 bob 1041253132 ' + board, '12 bob >  ' + board, '13 bob ' + OWN, '13 bob ' + WELCOME]
    texts = [front + board for front in (' ', 'bob shouts: ', '20 ', '013 bob ', '* > ')] + ['Board' + board[5:]]
    rows = [(line, 'message ' + line) for line in said] + [(line, 'text ' + line) for line in texts]
    rows.append(('13 bob hi\r' + board, 'message 13 bob hi\\x0d' + board))
    rows.append(('13 bob %s%s' % ('a' * (LINE - 7), board), 'cut 13 bob ' + 'a' * (LINE - 7)))
    return rows


def boards_that_are_shouted(server):
    game = new_game()
    own = game.board()
    player = logged_in(server)
    server.send(WELCOME, OWN)
    server.send(*(line for line, _ in shouted(own)))
    player.type('')
    player.sees('message ' + WELCOME, 'message ' + OWN, *(printed for _, printed in shouted(own)))
    player.type('roll')
    player.sees('refused 5 NoBoard')
    server.send(own)
    player.type('')
    player.sees(own, 'phase RollOrDouble')
    player.type('roll')
    player.sees('sent roll')
    rolled = game.answer(['roll'])[1]
    server.send(*(line for line, _ in shouted(rolled)))
    player.type('')
    player.sees(*(printed for _, printed in shouted(rolled)))
    player.type('roll')
    player.sees('refused 6 Waiting')
    server.send(rolled)
    player.type('')
    player.sees(rolled, 'phase Move', 'confirmed roll')
    leaves(player, server, LOGIN, STYLE, 'board', 'roll')


# -- settings --------------------------------------------------------------------------------------------------------

def own_info(autoboard, moreboards, automove, greedy, other):
    """A message 2 with these flags, and all others like `other`."""
    flags = [other, autoboard, other, automove, other, other, other, other]
    more = [greedy, moreboards, other, other]
    words = ['2 ann', *flags, 10, *more, '1500.00', other, other, 'none', other, other, 'UTC']
    return ' '.join(str(word) for word in words)


def every_pattern_of_the_flags_of_message_2(_server):
    def told(server, flags):
        autoboard, moreboards, automove, greedy, other = flags
        info = own_info(*flags)
        commands = [STYLE] + ['toggle autoboard'] * (1 - autoboard) + ['toggle moreboards'] * (1 - moreboards)
        commands += ['board']
        player = logged_in(server)
        server.send(WELCOME, info, BOARD, info)
        player.type('')
        player.sees('message ' + WELCOME, 'message ' + info, BOARD, 'phase RollOrDouble', 'message ' + info)
        if automove or greedy:
            player.type('roll')
            player.sees('refused 4 ServerPlays')
        for typed, is_on in (('toggle automove', automove), ('toggle greedy', greedy)):
            player.type(typed)
            player.sees('sent ' + typed if is_on else 'refused 10 NotOn')
            commands += [typed] * is_on
            player.type(typed)
            player.sees('refused 10 NotOn')
        off = own_info(1 - autoboard, 1 - moreboards, 0, 0, 1 - other)
        server.send(off, WELCOME)
        player.type('')
        player.sees('message ' + off, 'message ' + WELCOME)
        player.type('roll')
        player.sees('sent roll')
        leaves(player, server, LOGIN, *commands, 'roll')

    at_once(told, itertools.product((0, 1), repeat=5))


# -- players ---------------------------------------------------------------------------------------------------------

def more_players_than_there_is_room_for(server, most, length):
    """A server that lists more and more players, in lines of this length."""
    def line(number):
        told = '5 player%d - - 1 0 1500.00 10 0 1041253132 host fibs_client ' % number
        return told + 'a' * max(1, length - len(told))

    count = MOST_PLAYERS + 100
    player = greeted(server)
    sender = sending(lambda: server.send(*map(line, range(count))))
    player.type('')
    for number in range(count):
        player.sees('message ' + line(number))
        if number >= MOST_PLAYERS:
            player.sees('directory 2 Full')
    sender.join(PATIENCE)
    gone = ['8 player%d drops connection.' % number for number in range(100)]
    server.send(*gone, line(MOST_PLAYERS))
    player.type('')
    player.sees(*('message ' + said for said in gone), 'message ' + line(MOST_PLAYERS))
    player.type('players')
    player.sees(*('player player%d 1500.00' % number for number in range(100, MOST_PLAYERS + 1)))
    leaves(player, server, LOGIN, STYLE, most=most)


def more_players_than_a_directory_has_room_for(server):
    more_players_than_there_is_room_for(server, MOST_MEMORY, 80)


def more_players_of_the_longest_lines_than_a_directory_has_room_for(server):
    more_players_than_there_is_room_for(server, MOST_MEMORY_OF_PLAYERS, LINE)


CASES = [
    # it takes longest
    more_players_of_the_longest_lines_than_a_directory_has_room_for,
    a_server_that_stalls_in_the_middle_of_a_line, one_who_quits_while_a_line_is_not_at_its_end,
    a_flood_of_a_hundred_megabytes, a_flood_that_never_ends,
    a_server_that_sends_a_byte_whenever_one_was_read, a_flood_of_which_nobody_reads_any_more,
    ten_thousand_lines_at_once, ten_thousand_boards_while_a_roll_waits,
    a_connection_that_is_closed_after_each_byte_of_a_session,
    a_connection_that_is_reset_after_each_third_byte_of_a_session, a_command_that_is_typed_after_a_reset,
    resets_one_after_another_while_a_roll_waits, logins_that_are_reset_unread, telnet_commands_across_every_cut,
    prompts_without_end, prompts_as_far_as_a_line_is_kept, boards_of_other_players, boards_that_are_shouted,
    every_pattern_of_the_flags_of_message_2, more_players_than_a_directory_has_room_for,
]


if __name__ == '__main__':
    sys.exit(play(CASES, BESIDE))
