#!/usr/bin/env python3
"""Worked rows through the library for C: python3 -B tests/rows. `make lib` comes first.

Each table has what goes in and what has to come out, from outside the code. A test has the name of a sentence; the last
line is 'N passed, M failed', N being the rows that hold.
"""

import sys

import checks
import boards  # noqa: F401
import commands  # noqa: F401
import directory  # noqa: F401
import lines  # noqa: F401
import messages  # noqa: F401
import plays  # noqa: F401
import positions  # noqa: F401


def main():
    check = checks.Checks()
    for function in checks.TESTS:
        check.run(function)
    print('%d passed, %d failed' % (check.passed, check.failed))
    return 1 if check.failed else 0


if __name__ == '__main__':
    sys.exit(main())
