#!/usr/bin/env python3
"""The package for Python and the programs that use it: tests/python [PROGRAM [PART..]], after `make lib`.

PROGRAM is bin/fibs if none is named; PART is one of PARTS below. What wants mypy,
pip or GNU Backgammon is left out if that is not there, and a line says so. The last line is `N passed, M failed`.
"""

import importlib
import pathlib
import sys
import time

sys.dont_write_bytecode = True
HERE = pathlib.Path(__file__).resolve().parent
sys.path.insert(0, str(HERE.parent))

PARTS = 'calls', 'happened', 'interrupts', 'sessions', 'pages', 'installs', 'matches'


class Counts:
    """What passed and what failed."""

    def __init__(self, program):
        self.program, self.test, self.passed, self.failed = program, '', 0, 0

    def check(self, holds, what):
        self.passed += bool(holds)
        self.failed += not holds
        if not holds:
            print('FAILED %s: %s' % (self.test, what))

    def same(self, found, wanted, what):
        self.check(found == wanted, '%s: %r, and not %r' % (what, found, wanted))

    def raises(self, kind, call, *words, **named):
        """A call raises just this exception."""
        what = '%s%r' % (getattr(call, '__qualname__', call), words)
        try:
            answer = call(*words, **named)
        except Exception as why:
            self.check(type(why) is kind, '%s raises %r, and not %s' % (what, why, kind.__name__))
        else:
            self.check(False, '%s answers %r, and raises no %s' % (what, answer, kind.__name__))

    def leave_out(self, why):
        print('left out %s: %s' % (self.test, why))


def main():
    counts = Counts(sys.argv[1] if len(sys.argv) > 1 else str(HERE.parent.parent / 'bin' / 'fibs'))
    for part in sys.argv[2:] or PARTS:
        began = time.monotonic()
        for test in importlib.import_module(part).TESTS:
            counts.test = test.__name__
            test(counts)
        print('%s: %.1f s' % (part, time.monotonic() - began))
    print('%d passed, %d failed' % (counts.passed, counts.failed))
    return 1 if counts.failed else 0


if __name__ == '__main__':
    sys.exit(main())
