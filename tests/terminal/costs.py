"""What a terminal costs: no wakes at rest, milliseconds, memory, and a router that is seen to be dead."""

import os
import re
import statistics
import time

from escapes import BOARD
from people import PASSWORD, PATIENCE, Failed, Served, begun, greeted, leaves, logs_in, same, with_listener
from terminals import RLWRAP, told

from props import peeking

# Kilobytes of memory that a game may take at most.
MEMORY = 3072

ROUNDS = 100


def spent(ann):
    """How often the threads of a job, and of the processes that it has begun, have gone to sleep by themselves; and the
    ticks of the processor that they took."""
    count, ticks = 0, 0
    for job in (ann.job, *ann.below()):
        try:
            for thread in os.listdir('/proc/%d/task' % job):
                with open('/proc/%d/task/%s/status' % (job, thread)) as status:
                    count += int(re.search(r'^voluntary_ctxt_switches:\s+(\d+)', status.read(), re.M)[1])
            ticks += sum(map(int, told('/proc/%d/stat' % job)[11:13]))
        except OSError:
            # it has just ended
            continue
    return count, ticks


def rests(ann):
    """Waits until nothing was done for a while: all that it does by itself has been done."""
    end, before, now = time.monotonic() + PATIENCE, None, spent(ann)
    while before != now:
        if time.monotonic() > end:
            raise Failed('it never rests: %r wakes and ticks, then %r' % (before, now))
        time.sleep(0.2)
        before, now = now, spent(ann)


def is_at_rest(ann, seconds):
    """Nothing happens, and nothing is done."""
    rests(ann)
    before = spent(ann)
    time.sleep(seconds)
    same('wakes, and ticks of the processor', spent(ann), before)


@with_listener
def no_wakes_at_rest(server):
    """By itself, and by fibs-play."""
    for begins in greeted, lambda server: greeted(server, begun(server)):
        ann = begins(server)
        server.send(BOARD)
        ann.hint()
        is_at_rest(ann, 4)
        leaves(ann, server)


@with_listener
def no_wakes_after_a_loss(server):
    """The loss is said at once, however it came; then nothing is done, and the next connection is heard."""
    for end in server.drop, server.reset, server.end_sending:
        ann = greeted(server, begun(server))
        end()
        ann.reads('lost: open connects again, quit ends')
        is_at_rest(ann, 2)
        ann.type('open')
        logs_in(server)
        server.send('12 bob hi again')
        ann.reads('bob says: hi again')
        ann.quits()
        server.received.clear()
        ann.close()


def until_at_the_server(server, ann, line):
    """The milliseconds that a typed line takes to the server."""
    began = time.monotonic()
    ann.type(line)
    same('received', server.line(), line)
    return 1000 * (time.monotonic() - began)


@with_listener
def milliseconds(server):
    """Measured, and not judged: a machine may do much else."""
    ann = greeted(server)
    at_rest, shown, at_once = [], [], []
    for number in range(ROUNDS):
        # it rests when the server has said nothing for a while
        time.sleep(0.04)
        at_rest.append(until_at_the_server(server, ann, 'say number %d' % number))
        time.sleep(0.04)
        began = time.monotonic()
        server.send('12 bob number %d' % number)
        ann.sees('bob says: number %d' % number)
        shown.append(1000 * (time.monotonic() - began))
        at_once.append(until_at_the_server(server, ann, 'say and again %d' % number))
    for what, taken in (('a line that is typed at rest is at the server', at_rest),
                        ('one that is typed directly after a line of the server', at_once),
                        ('a line of the server is on the screen', shown)):
        print('        measured: %s after %.2f ms, of 100 lines 99 within %.2f ms' % (
            what, statistics.median(taken), statistics.quantiles(taken, n=100)[98]), flush=True)
    ann.close()


def to_the_first_row(server, kind):
    """The milliseconds from the end of the password to the first row."""
    ann = begun(server, kind, password=False)
    ann.sees('password: ')
    # who types a password is slower than what is begun
    rests(ann)
    began = time.monotonic()
    ann.type(PASSWORD)
    ann.sees('connected to')
    took = 1000 * (time.monotonic() - began)
    ann.sees('Welcome, ann')
    ann.quits()
    ann.close()
    return took


def the_first_row_with_rlwrap():
    """It comes as soon as without."""
    if not RLWRAP:
        return
    server = Served('--no-changes')
    with_it, without = [[to_the_first_row(server, kind) for _ in range(5)] for kind in ('xterm', 'dumb')]
    server.close()
    more = min(with_it) - min(without)
    print('        measured: with rlwrap the first row comes %.0f ms later, after %.0f ms' % (more, min(with_it)),
          flush=True)


@with_listener
def memory(server):
    ann = greeted(server)
    server.send(*(['13 eve a line of talk that is heard and shown'] * 20000), BOARD)
    ann.advised('hint', seconds=PATIENCE)
    with open('/proc/%d/status' % ann.job) as status:
        peak = int(re.search(r'^VmHWM:\s+(\d+) kB', status.read(), re.M)[1])
    print('        measured: %d kB of memory at most' % peak, flush=True)
    same('at most %d kB' % MEMORY, peak <= MEMORY, True)
    ann.close()


@with_listener
def a_dead_router_is_seen(server):
    """The system asks after the other end when the connection is idle, within two minutes."""
    ann = greeted(server)
    port, established = ':%04X' % server.port, '01'
    kind, end = '01', time.monotonic() + PATIENCE
    # while what was sent last is not acknowledged the timer is that of sending it again
    while kind == '01' and time.monotonic() < end:
        time.sleep(0.01)
        with open('/proc/net/tcp') as table:
            rows = [row for row in map(str.split, table) if row[2].endswith(port) and row[3] == established]
        if not rows:
            raise Failed('no connection to port %d' % server.port)
        kind, when = rows[0][5].split(':')
    same('the timer is that of keepalive, and runs within two minutes',
         (kind, int(when, 16) / os.sysconf('SC_CLK_TCK') <= 120), ('02', True))
    ann.close()


@with_listener
def what_is_set_of_the_connection(server):
    """Each command leaves at once, a server that is gone is known to be gone, and a read waits for 20 milliseconds."""
    ann = greeted(server)
    found = peeking.options(ann.job)
    if found is None:
        print('        the system does not show what is set of its sockets: not tried', flush=True)
    else:
        same('at once, seconds, seconds after a command, milliseconds', found, [(True, 120, 120, 20)])
    ann.close()


SCENES = [no_wakes_at_rest, no_wakes_after_a_loss, memory, a_dead_router_is_seen, what_is_set_of_the_connection]
# what they take of the clock is told
MEASURED = [milliseconds, the_first_row_with_rlwrap]
