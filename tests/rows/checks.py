"""What the tables share: the library, the tests, and how many rows hold."""

import pathlib
import sys

sys.path.insert(0, str(pathlib.Path(__file__).resolve().parent.parent))

from props.package import ROOT, fibs  # noqa: E402, F401

# Each test, in its order.
TESTS = []


def test(function):
    """Marks a test: a function of a Checks."""
    TESTS.append(function)
    return function


class Checks:
    """Counts what holds; called with what was found, what is wanted, and the case that a failure names."""

    def __init__(self):
        self.passed = self.failed = 0
        self.name = ''

    def __call__(self, found, wanted, case=''):
        holds = found == wanted
        self.passed += holds
        self.failed += not holds
        if not holds:
            print('FAILED %s: %s: found %r, wanted %r' % (self.name, case, found, wanted))

    def run(self, function):
        """Runs a test. One that checks nothing fails."""
        self.name = function.__name__
        before = self.passed + self.failed
        function(self)
        if self.passed + self.failed == before:
            self(0, 'some rows')


def answer(call, *words):
    """What a call answers, or the name of the status by which it is refused."""
    try:
        return call(*words)
    except fibs.Error as why:
        return why.name


def allowed(board, decision):
    """'' if a decision may be made on a board, or the name of the status that says why not."""
    why = answer(fibs.refusal, board, decision)
    return getattr(why, 'name', why or '')


def phase_of(board):
    """The phase of a board by its printed name, or the name of the status by which it is refused."""
    return answer(lambda: str(fibs.phase(board)))


def read_decision(text, direction=-1):
    """The decision whose command a text is, or None."""
    try:
        return fibs.Decision.parse(text, direction)
    except fibs.NoCommand:
        return None
