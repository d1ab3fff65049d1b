"""What the scripts beside this one share: the log, the counts, and how they end."""

import collections
import concurrent.futures
import hashlib
import json
import os
import pathlib
import signal
import sys
import time

TOP = pathlib.Path(__file__).resolve().parent.parent.parent
sys.path.insert(0, str(TOP / 'tests'))


class Run:
    """A run of a script: what it has done so far. Its log gets a line of JSON for each part that differs, and at the
    end one for the whole run. After a SIGTERM no part begins, and after a second one it ends at once."""

    def __init__(self, name, options, built):
        self.name, self.options = name, options
        self.built = hashlib.sha256(pathlib.Path(built).read_bytes()).hexdigest()
        self.parts, self.done, self.failed, self.began = 0, 0, 0, time.monotonic()
        self.seen = collections.Counter()
        signal.signal(signal.SIGTERM, self.stop)

    def stop(self, *_):
        self.options.minutes = 0
        signal.signal(signal.SIGTERM, signal.SIG_DFL)

    def part(self, seed, done, seconds, seen, why=None):
        """A part was done: of which seed, how many inputs, how long it took, what was in them, and what was wrong."""
        self.parts += 1
        self.done += done
        self.seen.update(seen)
        self.failed += why is not None
        if why is not None:
            print('seed %s: %s' % (seed, why), flush=True)
            self.log({'seed': seed, 'seconds': round(seconds, 1), 'differs': why})

    def log(self, row):
        if self.options.log:
            with open(self.options.log, 'a', encoding='utf-8') as it:
                print(json.dumps({'script': self.name, **row}), file=it)

    def end(self, wanted=()):
        """Prints what was done and seen. The status: 1 if something differed, or if one of the wanted kinds was seen
        less than LEAST times."""
        seconds = time.monotonic() - self.began
        print('%s: %d inputs in %.0f s, %d parts differ' % (self.name, self.done, seconds, self.failed))
        for kind, count in sorted(self.seen.items()):
            print('%12d  %s' % (count, kind))
        rare = [kind for kind in wanted if self.seen[kind] < self.options.least]
        if rare:
            print('seen less than %d times: %s' % (self.options.least, ', '.join(rare)))
        self.log({'seeds': [self.options.seed, self.options.seed + self.parts - 1], 'inputs': self.done,
                  'seconds': round(seconds), 'jobs': self.options.jobs, 'differ': self.failed, 'sha256': self.built,
                  'ended': time.strftime('%Y-%m-%d %H:%M', time.gmtime()), 'rare': rare,
                  'seen': dict(sorted(self.seen.items()))})
        print('%d passed, %d failed' % (self.done, self.failed))
        return 1 if self.failed or rare else 0


def common_options(line, least):
    """The options that each script has."""
    line.add_argument('--seed', type=int, default=1, help='the first seed; each part has the next one')
    line.add_argument('--jobs', type=int, default=1, help='how many parts are done beside each other')
    line.add_argument('--minutes', type=float, default=float('inf'), help='no part begins after so many')
    line.add_argument('--log', help='a file to which the run is added as a line of JSON')
    line.add_argument('--least', type=int, default=least, help='how often each kind has to be seen')


def seeds(options, parts):
    """The seeds of so many parts, until the time is over."""
    began = time.monotonic()
    for at in range(parts):
        if time.monotonic() - began >= 60 * options.minutes:
            return
        yield options.seed + at


def parts(pool, options, count, work):
    """What becomes of so many parts, as many beside each other as there are jobs; none begins after one differs."""
    running = set()
    for seed in seeds(options, count):
        running.add(pool.submit(work, seed))
        if len(running) >= options.jobs:
            done, running = concurrent.futures.wait(running, return_when=concurrent.futures.FIRST_COMPLETED)
            for one in done:
                yield one.result()
            if any(one.result()[-1] for one in done):
                break
    for one in running:
        yield one.result()


def be_nice():
    """Leaves the processors to others."""
    os.nice(15)
