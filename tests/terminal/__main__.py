#!/usr/bin/env python3
"""Scenes at a terminal, with the built program: python3 -B tests/terminal PROGRAM [WORD..]

Ann sits at a real pseudo-terminal and types what the screen names; the server is examples/fibs_server with whatever
habit a scene is about. What no server says by itself a scene says by a listener. With WORDs only the scenes are played
that have one in their name. Prints a line for each scene, and what was measured; the last line is 'N passed, M failed'.
"""

import concurrent.futures
import itertools
import subprocess
import sys

import people
import above
import again
import anything
import babble
import company
import costs
import escapes
import game
import hints
import leaving
import logins
import logs
import numbers_of_places
import offers
import partners
import pictures
import play
import quiet
import rated
import records
import refusals
import resized
import resuming
import spoken
import watching
import whole

# How many scenes are played at the same time: they wait most of the time. Those that measure are played alone.
BESIDE = 8


def tried(scene):
    """Plays a scene, and says why it failed."""
    try:
        scene()
        return ''
    except (people.Failed, OSError, subprocess.SubprocessError, ValueError, LookupError) as error:
        return str(error)[:600] or repr(error)


def main():
    words = sys.argv[2:]
    # those that take longest are begun first
    beside = (rated.SCENES + whole.SCENES + babble.SCENES + hints.SCENES + play.SCENES + logins.SCENES + records.SCENES
              + game.SCENES + spoken.SCENES + costs.SCENES + again.SCENES + offers.SCENES + resuming.SCENES
              + refusals.SCENES + logs.SCENES + company.SCENES + partners.SCENES + watching.SCENES + anything.SCENES
              + resized.SCENES + pictures.SCENES + numbers_of_places.SCENES + quiet.SCENES + leaving.SCENES
              + above.SCENES)
    alone = escapes.SCENES + costs.MEASURED
    chosen = [[scene for scene in scenes if not words or any(word in scene.__name__ for word in words)]
              for scenes in (beside, alone)]
    failed = 0
    with concurrent.futures.ThreadPoolExecutor(BESIDE) as pool:
        for scene, why in itertools.chain(zip(chosen[0], pool.map(tried, chosen[0])),
                                          ((scene, None) for scene in chosen[1])):
            why = tried(scene) if why is None else why
            name = 'terminal: ' + scene.__name__.replace('_', ' ')
            print('FAILED  %s: %s' % (name, why) if why else 'ok      ' + name, flush=True)
            failed += bool(why)
    for terminal in list(people.Terminal.running):
        terminal.close()
    print('%d passed, %d failed' % (sum(map(len, chosen)) - failed, failed))
    return 1 if failed else 0


if __name__ == '__main__':
    sys.exit(main())
