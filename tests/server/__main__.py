#!/usr/bin/env python3
"""Tests examples/fibs_server: python3 -B tests/server

Scripted clients play whole matches, and each board is checked by the rules as tests/props/reference.py has them; then
comes what the server says to each command. Prints a line for each case; the last line is 'N passed, M failed'.
"""

import concurrent.futures
import subprocess
import sys

import matches
import rules_beside
import sayings
from clients import Failed, reference

# How many cases are played at the same time: they wait most of the time.
BESIDE = 4


def main():
    failed = 0
    cases = rules_beside.TESTS + matches.TESTS + sayings.TESTS
    with concurrent.futures.ThreadPoolExecutor(BESIDE) as pool:
        for case, why in zip(cases, pool.map(tried, cases)):
            name = 'server: ' + case.__name__.replace('_', ' ')
            print('FAILED  %s: %s' % (name, why) if why else 'ok      ' + name, flush=True)
            failed += bool(why)
    print('%d passed, %d failed' % (len(cases) - failed, failed))
    return 1 if failed else 0


def tried(case):
    """Runs a case, and says why it failed."""
    try:
        case()
        return ''
    except (Failed, OSError, subprocess.SubprocessError, reference.Malformed, ValueError, LookupError) as error:
        return str(error)[:700] or repr(error)


if __name__ == '__main__':
    sys.exit(main())
