"""What has to be the same, and how long it may take."""

# How long something may take to come, on a machine that does much else.
PATIENCE = 180


class Failed(Exception):
    """What came is not what had to come."""


def same(what, found, wanted):
    """They have to be the same."""
    if found != wanted:
        raise Failed('%s: %r, and not %r' % (what, found, wanted))


def try_all(cases, program):
    """Tries each case on a program, and prints how it went, and then `N passed, M failed`. The status is 0 if all have
    passed."""
    failed = 0
    for case in cases:
        name = case.__name__.replace('_', ' ')
        try:
            case(program)
            print('ok      %s' % name)
        except Exception as error:
            failed += 1
            print('FAILED  %s: %s' % (name, str(error)[:600]))
    print('%d passed, %d failed' % (len(cases) - failed, failed))
    return 1 if failed else 0
