#!/usr/bin/env python3
"""Changed lines through `fibs show` and through a plain program: lines.py PROGRAM MILLIONS

PROGRAM is `fibs`; the plain program is bench/plain_show.rs. The lines are made by `lines.rs`, which rustc builds, of
those of tests/fuzz.py, bench/traffic.awk and examples/capture.txt. Three in four are changed, mostly once, up to six
times. Each part is a million lines; what both print has to be the same, byte for byte. `lines.rs` gives each part to
PROGRAM in a file, shows it by the plain program in its own process, and compares the two.

Counted is what PROGRAM has printed: each message, each fault that a line of its number can have, boards, texts, cut
lines. The status is 1 if something differs, or if one of them came less than LEAST times.

It was seen to find: a `show` that reads `-0` as a number.
"""

import argparse
import concurrent.futures
import random
import subprocess
import sys
import tempfile
import time

from common import TOP, Run, be_nice, common_options, parts

import fuzz

PART = 1_000_000
MADE = 20_000
# the faults that lines of these numbers can have; 0 stands for boards
FAULTS = [((0, 1, 2), ('BadName', 'Extra', 'Missing', 'NotANumber', 'OutOfRange')), ((3, 4, 6), ('Extra',)),
          ((5, 9), ('BadName', 'Missing', 'NotANumber', 'OutOfRange')), ((10, 11), ('BadName', 'Extra', 'Missing')),
          ((7, 8, 12, 13, 14, 15, 16), ('BadName', 'Missing'))]
WANTED = ['board', 'text', 'cut', *('message %d' % number for number in range(1, 20)),
          *('malformed %d %s' % (number, fault) for numbers, faults in FAULTS for number in numbers
            for fault in faults)]


def first_lines(seed):
    """The lines that are changed."""
    chance = random.Random(seed)
    made = b''.join(fuzz.show_line(chance) for _ in range(MADE))
    traffic = subprocess.run(['awk', '-v', 'megabytes=1', '-f', str(TOP / 'bench' / 'traffic.awk')],
                             capture_output=True, check=True).stdout
    lines = (made + traffic + (TOP / 'examples' / 'capture.txt').read_bytes()).split(b'\n')
    return b'\n'.join(line.rstrip(b'\r') for line in lines if len(line) < 600)


class Show:
    """What is run."""

    def __init__(self, options, folder):
        self.options, self.folder, self.tool = options, folder, '%s/lines' % folder
        subprocess.run(['rustc', '-O', '-o', self.tool, str(TOP / 'bench' / 'assurance' / 'lines.rs')], check=True)
        with open('%s/first' % folder, 'wb') as it:
            it.write(first_lines(options.seed))

    def part(self, seed):
        """A part: its seed, its lines, how long it took, what was seen, and what differs."""
        began = time.monotonic()
        with open('%s/first' % self.folder, 'rb') as first:
            done = subprocess.run([self.tool, 'compare', self.options.program, str(seed), str(PART), self.folder],
                                  stdin=first, capture_output=True, text=True)
        if done.returncode:
            return seed, 0, time.monotonic() - began, {}, done.stdout + done.stderr
        seen = {kind: int(count) for count, _, kind in (line.partition(' ') for line in done.stdout.splitlines())}
        return seed, PART, time.monotonic() - began, seen, None


def main():
    line = argparse.ArgumentParser(description=__doc__.partition('\n')[0])
    line.add_argument('program')
    line.add_argument('millions', type=int)
    line.add_argument('--folder', help='where the lines lie while they are shown: some 130 MB for each job')
    common_options(line, 1000)
    options = line.parse_args()
    be_nice()
    run = Run('lines', options, options.program)
    with tempfile.TemporaryDirectory(dir=options.folder) as folder:
        show = Show(options, folder)
        with concurrent.futures.ThreadPoolExecutor(options.jobs) as pool:
            for done in parts(pool, options, options.millions, show.part):
                run.part(*done)
    return run.end(WANTED)


if __name__ == '__main__':
    sys.exit(main())
