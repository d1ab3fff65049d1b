#!/usr/bin/env python3
"""A match by an installed fibs-play: python3 -B tests/terminal/installed.py FIBS_PLAY

Its program and its files are those beside it. Ann invites a bot, types what the screen names, and the match comes to
its end. Where rlwrap is, Tab completes a word of the installed list, and Ctrl-C cancels a line.
"""

import sys
import time

from people import Failed, Served, Typist, same
from terminals import RLWRAP
from words import ENDED, REFUSED, read

PLAY = sys.argv[1]

# How long a row may take to come.
PATIENCE = 180

# The rows that are followed.
FOLLOWED = 'hint', 'answer', 'board', 'doubles', 'go on', 'next'


def begins(server, kind):
    """Ann, who has typed her password."""
    return Typist(['127.0.0.1', str(server.port), 'ann'], kind, play=PLAY, FIBS=None)


def a_match(server):
    """Of one point, from the login to its end."""
    ann = begins(server, 'dumb')
    ann.reads('Welcome, ann')
    ann.type('invite eve 1')
    while not ENDED.fullmatch(line := ann.next_line(PATIENCE)):
        if REFUSED.fullmatch(line):
            raise Failed('it was refused: %r' % line)
        kind, named = read(line)
        if kind in FOLLOWED:
            ann.type(named[0])
    ann.quits()
    ann.close()


def the_keys(server):
    ann = begins(server, 'xterm')
    ann.is_shown('Welcome, ann')
    ann.edits_lines()
    time.sleep(0.5)
    ann.type_bytes(b'withd\t')
    ann.is_shown('withdraw')
    ann.type_bytes(b'\x03')
    ann.is_shown('cancelled')
    ann.type_bytes(b'\x03')
    ann.is_shown('Ctrl-C again leaves')
    ann.type_bytes(b'\x03')
    ann.ends(0)
    same('the terminal is as it was', (ann.echoes(), ann.interrupts()), (True, b'\x03'))
    ann.close()


def main():
    server = Served('--bot', 'eve', '--no-changes')
    try:
        a_match(server)
        if RLWRAP:
            the_keys(server)
        else:
            print('without rlwrap: its keys are not tried')
    finally:
        for terminal in list(Typist.running):
            terminal.close()
        server.close()


if __name__ == '__main__':
    main()
