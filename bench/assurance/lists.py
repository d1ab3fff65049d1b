#!/usr/bin/env python3
"""Lists of events through `fibs replay` or `fibs loop`, beside a slow reference: lists.py PROGRAM replay|loop|many LISTS

Each list is a script that follows the model, so that most of its events do something. What PROGRAM prints of it has to
be what `plain_replay.rs` prints, byte for byte, with the same status. That program, which rustc builds, makes the lists
by their seed, plays them itself, and runs PROGRAM on each: so a list takes little more than the run of PROGRAM. A part
is ten thousand lists of one seed. Ten of them, and ten more that tests/fuzz.py makes, are given to
tests/props/reference.py too, a slow program that was written from the pages alone: all three have to print the same.

With `many` PROGRAM plays all lists of a part in one process: that is the example `engines` of the crate for Rust
(rust/tests/engines), whose `replay` is of the same text without its proofs, and no process begins for each list.

Counted is what is in the logs: each entry, each refusal of a click and of an event, decisions that a loss left open.
The status is 1 if something differs, or if one of them came less than LEAST times.

It was seen to find: a client that says yes to a second click.
"""

import argparse
import collections
import concurrent.futures
import random
import subprocess
import sys
import tempfile
import time

from common import TOP, Run, be_nice, common_options, parts

import fuzz
from props import reference

PART, SLOW = 10_000, 10
CLICKS = 'ok', 'Offline', 'NotReady', 'ServerPlays', 'NoBoard', 'Waiting', 'NotYours', 'WrongKind', 'IllegalPlay'
REFUSALS = ('2 AlreadyOpen', '3 NotOpen', '4 NoSuchConnection', '5 NothingToServe', '6 UserDecides', '7 BoardAsText',
            '8 BadBoard', '9 BadDice')
WANTED = ['opened', 'loggedin', 'welcomed', 'informed', 'shown', 'sent', 'sent by an order', 'took', 'lost',
          'lost with a decision', 'ordered', 'withdrawn', 'end', 'script', *('clicked ' + why for why in CLICKS),
          *('refused ' + why for why in REFUSALS)]


class Lists:
    """What is run."""

    def __init__(self, options, folder):
        self.options, self.folder, self.tool = options, folder, '%s/plain_replay' % folder
        source = TOP / 'bench' / 'assurance' / 'plain_replay.rs'
        subprocess.run(['rustc', '-O', '-o', self.tool, str(source)], check=True)

    def run(self, *words, given=b''):
        done = subprocess.run([str(word) for word in words], input=given, capture_output=True)
        return done.stdout, done.returncode

    def difference(self, script):
        """What the three say otherwise of a script, or None."""
        wanted = reference.replay(script)[:2]
        mode = 'replay' if self.options.mode == 'many' else self.options.mode
        for who, words in ('PROGRAM', (self.options.program, mode)), ('plain_replay', (self.tool, 'play')):
            found = self.run(*words, given=script)
            if found != wanted:
                return '%s: status %s and %s, script %r' % (who, found[1], wanted[1], script[:4000])
        return None

    def part(self, seed):
        """A part: its seed, how many lists, how long it took, what was seen, and what differs."""
        began, chance, seen = time.monotonic(), random.Random(seed), collections.Counter()
        out, status = self.run(self.tool, 'compare', self.options.program, self.options.mode, seed, PART, self.folder)
        if status:
            return seed, 0, time.monotonic() - began, seen, out.decode() or 'plain_replay: status %d' % status
        for line in out.decode().splitlines():
            count, _, kind = line.partition(' ')
            seen[kind] += int(count)
        slow = [self.run(self.tool, 'make', seed, at)[0] for at in chance.sample(range(PART), SLOW)]
        for script in slow + [fuzz.script(chance) for _ in range(SLOW)]:
            why = self.difference(script)
            if why:
                return seed, PART, time.monotonic() - began, seen, why
        return seed, PART + SLOW, time.monotonic() - began, seen, None


def main():
    line = argparse.ArgumentParser(description=__doc__.partition('\n')[0])
    line.add_argument('program')
    line.add_argument('mode', choices=['replay', 'loop', 'many'])
    line.add_argument('lists', type=int)
    line.add_argument('--folder', help='where each list lies while it is played: best in memory, as /dev/shm')
    common_options(line, 100)
    options = line.parse_args()
    be_nice()
    run = Run('lists: ' + options.mode, options, options.program)
    with tempfile.TemporaryDirectory(dir=options.folder) as folder:
        lists = Lists(options, folder)
        with concurrent.futures.ThreadPoolExecutor(options.jobs) as pool:
            for done in parts(pool, options, -(-options.lists // PART), lists.part):
                run.part(*done)
    return run.end(WANTED)


if __name__ == '__main__':
    sys.exit(main())
