#!/usr/bin/env python3
"""Plays matches with short bots over connections that are cut: tests/bots.py WORDS..

Each of WORDS is a command of a bot, such as `out/short_bot`, to which host, port, name and opponent are added; without
any it is examples/short_bot.py. The password is on its standard input. The opponent, a bot of examples/fibs_server,
resigns. A connection is cut within what goes one way, with a reset or without. The bot has to play the match to its
end, to send no decision that the server refuses, and to answer the offer to resign; if the server refuses its login, it
has to end. What a bot has not done in its time has failed. The sources of those of the repository compare no text of
the server. Prints a line for each fault, and then `N passed, M failed`.
"""

import os
import pathlib
import re
import shlex
import subprocess
import sys
import time

sys.dont_write_bytecode = True
ROOT = pathlib.Path(__file__).resolve().parent.parent
sys.path.insert(0, str(ROOT / 'tests'))
from props.cutter import Cutter  # noqa: E402

# The server's habits: two games at least, since the first one is given up for one point.
SERVER = ['--bot', 'eve:resigns=9n', '--bot-pause', '0', '--mixed-sides', '--portions', '200', '--prompts']
MOST_CUTS, MOST_GAMES = 6, 1

# How many seconds a bot has for its matches and for its login that is refused.
PATIENCE = 900

# A name that the server knows, with another password than that of the bots.
KNOWN = ['--account', 'ann:another', '--portions', '200', '--prompts']

# Words that the texts of a server have and that no answer of a bot needs.
ENGLISH = re.compile(r'wants to|saved match|wins the|You win|not playing|to resign|joined you|rolls |Type \'')


def environment():
    return {'FIBS_LIBRARY': str(ROOT / 'lib' / 'libfibs.so'), **os.environ, 'PYTHONPATH': str(ROOT / 'python')}


class Server:
    """The server of the examples, as `with Server(words) as port`."""

    def __init__(self, words):
        self.words = [sys.executable, '-B', str(ROOT / 'examples' / 'fibs_server'), '0', '--log', *words]

    def __enter__(self):
        self.process = subprocess.Popen(self.words, stdout=subprocess.PIPE, stderr=subprocess.STDOUT, text=True)
        return int(self.process.stdout.readline())

    def __exit__(self, *_):
        self.process.kill()
        self.process.communicate()


def ended(words, port, end):
    """The status of a bot, or None if it has not ended until then; and what it has printed."""
    bot = subprocess.Popen([*words, '127.0.0.1', str(port), 'ann', 'eve'], text=True, env=environment(),
                           stdin=subprocess.PIPE, stdout=subprocess.PIPE, stderr=subprocess.STDOUT)
    try:
        said, _ = bot.communicate('secret\n', timeout=max(end - time.monotonic(), 0.1))
        return bot.returncode, said[-3000:]
    except subprocess.TimeoutExpired:
        bot.kill()
        return None, bot.communicate()[0][-3000:]


def played(words, seed, end):
    """A match at the server of the examples: the bot's status, what it printed, and the proxy."""
    with Server(['--seed', str(seed), *SERVER]) as port:
        cutter = Cutter(port, seed, MOST_CUTS, MOST_GAMES)
        try:
            return *ended(words, cutter.port, end), cutter
        finally:
            cutter.close()


def wrong_with(words, seed, end=None):
    """What is wrong with a bot's match, which has to end until then."""
    status, said, cutter = played(words, seed, end or time.monotonic() + PATIENCE)
    what = '%s, seed %d' % (' '.join(words), seed)
    yield status != 0 and '%s: it ends by %s: %s' % (what, status, said)
    yield cutter.cuts < 3 and '%s: its connection is cut %d times' % (what, cutter.cuts)
    yield cutter.refused and '%s: the server refuses %s' % (what, cutter.refused[:3])
    yield not cutter.offers and '%s: nobody resigns' % what
    yield 'accept' not in cutter.decisions and '%s: it accepts no offer to resign' % what
    yield cutter.last != 'bye' and '%s: it leaves by %r' % (what, cutter.last)


def refused(words, end):
    """Whether a bot goes on though its login is refused."""
    with Server(KNOWN) as port:
        status, said = ended(words, port, end)
    return status in (None, 0) and '%s: the login is refused, and it ends by %s: %s' % (' '.join(words), status, said)


def wrong_of(words):
    """What is wrong with a bot."""
    end = time.monotonic() + PATIENCE
    yield refused(words, end)
    for seed in 3, 8:
        yield from wrong_with(words, seed, end)


def wrong_texts():
    """Which of the short bots has a text of the server in it, or is long."""
    for path in sorted([*ROOT.glob('examples/short_bot.*'), ROOT / 'rust' / 'examples' / 'bot.rs']):
        text = path.read_text()
        found = ENGLISH.search(text)
        yield found and '%s compares %r' % (path.name, found[0])
        lines = text.splitlines()
        yield (len(lines) > 80 or max(map(len, lines)) > 120) and '%s has %d lines, or a long one' % (
            path.name, len(lines))


def main():
    bots = [shlex.split(words) for words in sys.argv[1:]]
    bots = bots or [[sys.executable, '-B', str(ROOT / 'examples' / 'short_bot.py')]]
    faults = [*wrong_texts(), *(fault for words in bots for fault in wrong_of(words))]
    told = [fault for fault in faults if fault]
    for fault in told:
        print('FAILED', fault)
    print('%d passed, %d failed' % (len(faults) - len(told), len(told)))
    return 1 if told else 0


if __name__ == '__main__':
    sys.exit(main())
