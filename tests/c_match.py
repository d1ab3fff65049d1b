#!/usr/bin/env python3
"""Plays examples/bot.c against a server whose connection breaks in the middle of the match: c_match.py COMMAND..

COMMAND is the bot, or a tool that watches it and the bot. The bot has to play the match to its end, on the boards that
it is shown. The connection is lost once while a roll waits that the server has received, and once in the middle of a
board's line. It also plays with the bots of examples/fibs_server, as it invites one, as one invites it, and as one
resigns; and it sees that a login is refused. Prints `N passed, M failed`.
"""

import pathlib
import subprocess
import sys
import threading

from props.server import Game, Server

DICE = [[2, 1], [6, 5], [3, 1], [6, 6], [6, 5], [5, 4], [6, 6]]


def serve(server, faults):
    """One match over three connections."""
    game = Game([5, 5, 4, 3, 3, 2], [20, 21, 22, 22, 23], DICE)
    # The roll is carried out and never answered.
    server.accept()
    faults.append(server.log_in() != 'ann' and 'no login')
    server.serve(game, 2)
    faults.append(server.line() != 'roll' and 'no roll: %s' % server.received)
    game.answer(['roll'])
    server.reset()
    # The move is answered by half a board.
    server.accept()
    server.log_in()
    server.serve(game, 2)
    line = server.line() or ''
    faults.append(not line.startswith('move ') and 'no move: %s' % server.received)
    shown = game.answer(line.split(' '))
    server.send_bytes(shown[0].encode()[:40])
    server.reset()
    # And then all is well.
    server.accept()
    server.log_in()
    server.serve(game)
    faults.append(game.turn != 0 and 'the game is not over')
    faults.append(server.received[-1] != 'bye' and 'no bye: %s' % server.received)


def at_the_example(words, name, opponent, habits):
    """How the bot ends on the server of the examples, and what it prints."""
    place = pathlib.Path(__file__).resolve().parent.parent / 'examples' / 'fibs_server'
    served = [sys.executable, '-B', str(place), '0', '--seed', '5', *habits]
    with subprocess.Popen(served, stdout=subprocess.PIPE, text=True) as server:
        try:
            port = server.stdout.readline().strip()
            bot = subprocess.run([*words, '127.0.0.1', port, name, *opponent], input=b'secret\n', capture_output=True,
                                 timeout=240)
        finally:
            server.terminate()
    return bot.returncode, (bot.stdout + bot.stderr).decode()


def plays_at_the_example(words):
    """What is wrong with the matches there."""
    for what, name, opponent, habits, status, said in [
            ('it invites', 'ann', ['eve'], ['--bot', 'eve'], 0, '> invite eve 1'),
            ('it joins', 'ann', [], ['--bot', 'eve:invites=1'], 0, '> join eve'),
            ('the other resigns', 'ann', ['eve'], ['--bot', 'eve:resigns=3n'], 0, '> accept'),
            ('its login is refused', 'ann', [], ['--account', 'ann:other'], 4, 'refuses the login')]:
        found, out = at_the_example(words, name, opponent, habits)
        yield (found, said in out) != (status, True) and '%s: %d: %s' % (what, found, out[-3000:])


def main():
    server, faults = Server(), []
    thread = threading.Thread(target=serve, args=(server, faults), daemon=True)
    thread.start()
    bot = subprocess.run([*sys.argv[1:], '127.0.0.1', str(server.port), 'ann'], input=b'secret\n', capture_output=True,
                         timeout=120)
    thread.join(30)
    out = bot.stdout.decode()
    faults.append(thread.is_alive() and 'the server waits still')
    faults.append(bot.returncode != 0 and 'status %d: %s' % (bot.returncode, bot.stderr.decode()[-2000:]))
    faults.append(out.count('\nlost ') != 2 and 'it did not lose two connections')
    faults.append('lost roll\n' not in out and 'the roll that waited is not reported')
    faults.append('secret' in out and 'it shows the password')
    faults.extend(plays_at_the_example(sys.argv[1:]))
    told = [fault for fault in faults if fault]
    for fault in told:
        print('FAILED', fault)
    if told:
        print(out)
    print('%d passed, %d failed' % (len(faults) - len(told), len(told)))
    return 1 if told else 0


if __name__ == '__main__':
    sys.exit(main())
