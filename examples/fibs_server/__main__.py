"""A server of backgammon that talks as FIBS does, for those who write clients and for their tests.

    python3 examples/fibs_server 4321 --bot eve

This is its command line; docs/SERVER.md says what it does, and what of it is a guess that an option changes.
"""

import argparse
import asyncio
import math
import os
import signal
import sys

sys.path.insert(0, os.path.dirname(os.path.abspath(__file__)))

from bot import HABITS, Bot
from commands import REFUSED
from habits import AUTOROLLS, WITHOUT, Habits
from players import SETTINGS, Player
from room import Room
from wire import Link, Manners

EXAMPLES = """examples:
  fibs_server 4321 --bot eve                         play against eve, with any name and password
  fibs_server 4321 --bot eve:plays=random --seed 7   the same dice and plays each time
  fibs_server 0 --account ann:secret --account bob:secret
                                                     two players, on a free port, which is printed
  fibs_server 4321 --cut 40 --portions 5 --telnet    a bad connection

habits of a bot, as --bot eve:takes=no,resigns=3n
"""


def dice_of(text):
    """Pairs of dice, as 62,31."""
    pairs = [tuple(map(int, pair)) for pair in text.split(',')]
    if any(len(pair) != 2 or not all(1 <= die <= 6 for die in pair) for pair in pairs):
        raise ValueError(text)
    return pairs


def setting_of(text):
    """A setting of new accounts, as ready=0; or of one player, as ann:automove=1. The player, if one is named, the
    setting and its value."""
    name, _, value = text.partition('=')
    player, _, name = name.rpartition(':')
    if name not in SETTINGS or value not in ('0', '1'):
        raise ValueError(text)
    return player, name, int(value)


def refusal_of(text):
    """A command that is refused, and how often."""
    word, _, count = text.partition('=')
    if word not in REFUSED:
        raise ValueError(text)
    return word, math.inf if count == 'always' else int(count or 1)


def bot_of(text):
    """A bot's name, and its habits."""
    name, _, rest = text.partition(':')
    habits = dict(habit.split('=', 1) for habit in rest.split(',')) if rest else {}
    if not name or any(habit not in HABITS for habit in habits):
        raise ValueError(text)
    return name, habits


def account_of(text):
    """NAME:PASSWORD, with :RATING after it or not."""
    name, password, *rating = text.split(':')
    return Player(name, password, float(rating[0]) if rating else 1500.0)


def parser():
    habits = '\n'.join('  %-8s %s' % (name, text) for name, (_, text) in HABITS.items())
    line = argparse.ArgumentParser(prog='fibs_server', description='A server of backgammon that talks as FIBS does.',
                                   epilog=EXAMPLES + habits, formatter_class=argparse.RawDescriptionHelpFormatter)
    add = line.add_argument
    add('port', nargs='?', type=int, default=0, help='0, or none: a free one, which is printed')
    add('--host', default='127.0.0.1', help='the address on which it listens')
    add('--seed', type=int, default=0, help='the same number gives the same dice and plays')
    add('--log', action='store_true', help='print what each player types, and who comes and goes')
    group = line.add_argument_group('players')
    add = group.add_argument
    add('--account', type=account_of, action='append', default=[], metavar='NAME:PASSWORD[:RATING]',
        help='a player. Without any, a new name with its first password makes one')
    add('--bot', type=bot_of, action='append', default=[], metavar='NAME[:HABIT=VALUE,..]', help='a bot that plays')
    add('--bot-pause', type=float, default=50, metavar='MS', help='how long a bot thinks')
    add('--set', type=setting_of, action='append', default=[], metavar='[PLAYER:]NAME=0|1', dest='settings',
        help='a setting that new accounts have, or the account of a player, as ready=0 or ann:automove=1')
    add('--motd', default='Good luck.', metavar='TEXT', help='the message of the day')
    group = line.add_argument_group('habits')
    add = group.add_argument
    add('--dice', type=dice_of, default=[], metavar='62,31,..', help='the first dice, of openings and rolls in turn')
    add('--autoroll', choices=AUTOROLLS, default='never',
        help='roll for a player who may not double, and with `always` also for one who has turned `double` off')
    add('--keep-turn-at-double', action='store_true', help='an open double is not shown as a turn given away')
    add('--show-resignations', action='store_true', help='an open offer to resign is shown as a turn given away')
    add('--loose-flags', action='store_true', help='boards say that one may double even if the match forbids it')
    add('--hide-doubles', action='store_true', help='no board says that one is offered a double')
    add('--no-board', choices=WITHOUT, action='append', default=[], metavar='AFTER',
        help='show no board after: %s (to the one who moved)' % ', '.join(WITHOUT))
    add('--refuse', type=refusal_of, action='append', default=[], metavar='COMMAND[=TIMES|=always]',
        help='refuse a right command by a text alone: ' + ', '.join(REFUSED))
    add('--play-past-offers', action='store_true',
        help='an offer to resign stops nobody, and is over when one plays on')
    add('--keep-games', action='store_true', help='a game goes on after a connection breaks; who comes again plays on')
    add('--forget-offers', action='store_true', help='a match that is saved forgets an offer that nobody has answered')
    add('--say-how', action='store_true', help='the opponent of one who goes is told how he went')
    add('--mixed-sides', action='store_true', help='chance says who is O, and who goes from 24 to 1')
    add('--no-changes', action='store_true', help='a change of a player is not reported by lines 5 and 6')
    add('--prompts', action='store_true', help='a prompt `> ` after each answer, to a client too')
    add('--greeting', type=int, default=0, metavar='BYTES',
        help='the greeting and the prompt for a name are so many bytes, sent at once')
    add('--tell-strangers', action='store_true',
        help='who comes and goes is told also to those who are not logged in')
    group = line.add_argument_group('connections')
    add = group.add_argument
    add('--portions', type=int, default=0, metavar='BYTES', help='send in pieces of at most so many bytes')
    add('--pause', type=float, default=0, metavar='MS', help='wait between two pieces')
    add('--delay', type=float, default=0, metavar='MS', help='everything is so long on its way to the player')
    add('--cut', type=int, default=0, metavar='N', help='one in N lines ends the connection')
    add('--telnet', action='store_true', help='telnet commands come between the bytes')
    return line


def room_of(options):
    """The room that the options ask for."""
    habits = Habits(seed=options.seed, dice=options.dice, autoroll=options.autoroll,
                    shows_doubles=not options.keep_turn_at_double, shows_resignations=options.show_resignations,
                    hides_doubles=options.hide_doubles, without=frozenset(options.no_board),
                    loose_flags=options.loose_flags, refuses=dict(options.refuse), keeps_games=options.keep_games,
                    forgets_offers=options.forget_offers, plays_past_offers=options.play_past_offers,
                    tells_how=options.say_how, tells_strangers=options.tell_strangers, greeting=options.greeting,
                    mixed_sides=options.mixed_sides, tells_changes=not options.no_changes, prompts=options.prompts)
    log = (lambda name, way, line: print(name, way, line, file=sys.stderr, flush=True)) if options.log else None
    # nobody logs in with the password of a bot, which is no text
    bots = [Player(name, object()) for name, _ in options.bot]
    room = Room(habits, options.account + bots, not options.account, [options.motd], options.settings, log)
    for name, chosen in options.bot:
        Bot(room, name, chosen, options.bot_pause / 1000)
    return room


def reason_of(error):
    """Why a port can't be had, in the words of the system."""
    number = getattr(error, 'errno', None)
    return os.strerror(number).lower() if number and number > 0 else str(error)


async def serve(options):
    """Serves until it is interrupted. The first line that it prints is the port."""
    loop = asyncio.get_running_loop()
    room, count = room_of(options), 0
    manners = Manners(options.portions, options.pause, options.delay, options.cut, options.telnet, options.seed)

    def link():
        nonlocal count
        count += 1
        return Link(room, manners, count)

    try:
        server = await loop.create_server(link, options.host, options.port)
    except (OSError, OverflowError) as error:
        sys.exit('fibs_server: it can\'t listen on %s:%d: %s' % (options.host, options.port, reason_of(error)))
    print(server.sockets[0].getsockname()[1], flush=True)
    over = asyncio.Event()
    for number in (signal.SIGINT, signal.SIGTERM):
        loop.add_signal_handler(number, over.set)
    await over.wait()
    server.close()


if __name__ == '__main__':
    asyncio.run(serve(parser().parse_args()))
