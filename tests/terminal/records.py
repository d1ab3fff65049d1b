"""Match files: what scripts/fibs-mat makes of the logs of matches, and what GNU Backgammon says of them."""

import os
import pathlib
import re
import subprocess
import sys
import tempfile

from hints import match_by_hints
from people import PATIENCE, PROGRAM, ROOT, Failed, same

sys.path.append(str(ROOT / 'tests' / 'python'))

import matchfiles

# Habits of a server, under each of which two matches are kept in a log: on either side and in either direction, over
# connections that are cut within a match and resume it, and with offers to double and to resign.
SERVERS = [
    (['--mixed-sides'], 3, 'resigns=9n,doubles=5'),
    (['--mixed-sides', '--cut', '50', '--keep-games', '--no-changes'], 3, 'doubles=4'),
    (['--mixed-sides', '--prompts', '--portions', '9'], 2, 'resigns=6g,takes=no'),
]

# How a match has ended, in a log.
ENDED = re.compile(r'(You|eve) wins? the \d+ point match (\d+)-(\d+) ')


def results(log):
    """The points of ann and of eve in each match of a log."""
    for who, *scores in ENDED.findall(log.read_text('latin-1')):
        yield tuple(map(int, scores if who == 'You' else scores[::-1]))


def scores_of(match):
    """The points of both players at the end of a match, as GNU Backgammon has it."""
    _, names, games = match
    (first, second), winner, points, _ = games[-1]
    return first + points * (winner == names[0]), second + points * (winner == names[1])


def matches_of_a_log():
    """Each match is a file, whose players, length and result are those of the log, and each play in it is legal."""
    for number, (options, length, bot) in enumerate(SERVERS):
        with tempfile.TemporaryDirectory() as room:
            log = pathlib.Path(room, 'game.log')
            for seed in 1, 2:
                held = log.read_bytes() if log.exists() else b''
                # which line a cut hits depends on who is quicker: a match whose end it hides is played once more, and
                # she does not double there, since a screen says nothing by itself of what has become of that
                for again in range(5):
                    log.write_bytes(held)
                    match_by_hints(*options, seed=10 * number + seed + 1000 * again, words=['--log', str(log)],
                                   bot='invites=%d,plays=random,%s' % (length, bot), doubles='--cut' not in options)
                    begun = log.read_text('latin-1').count('** You are now playing a ')
                    if len(list(results(log))) == begun == seed:
                        break
            made = subprocess.run([ROOT / 'scripts' / 'fibs-mat', log], cwd=room, capture_output=True, text=True,
                                  timeout=10 * PATIENCE, env={**os.environ, 'FIBS': PROGRAM})
            wanted = list(results(log))
            same('matches', len(wanted), 2)
            same('what it says', (made.returncode, made.stderr, made.stdout.splitlines()), (0, '', [
                'game-%d.mat: ann %d, eve %d of %d' % (at, *scores, length) for at, scores in enumerate(wanted, 1)]))
            for at, scores in enumerate(wanted, 1):
                if not matchfiles.gnubg():
                    print('        without gnubg: not imported', flush=True)
                    return
                match = matchfiles.imported(pathlib.Path(room, 'game-%d.mat' % at).read_text())
                if not match:
                    raise Failed('GNU Backgammon imports no match, or finds an illegal play, of %r' % options)
                same('its length and players', match[:2], (length, ('ann', 'eve')))
                same('its result', scores_of(match), scores)


SCENES = [matches_of_a_log]
