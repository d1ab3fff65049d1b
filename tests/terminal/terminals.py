"""Pseudo-terminals for the tests: a command in the foreground of a shell of one job, and one who types and looks."""

import fcntl
import glob
import os
import select
import shutil
import signal
import struct
import subprocess
import sys
import tempfile
import termios
import threading
import time

from props.checks import PATIENCE, Failed, same
from shell import END, signal_job

# The shell is a program.
SHELL = os.path.join(os.path.dirname(os.path.abspath(__file__)), 'shell.py')

# What lets a player type lines, and edits them, if it is installed.
PLAY = os.path.abspath(os.path.join(os.path.dirname(SHELL), '..', '..', 'scripts', 'fibs-play'))
RLWRAP = shutil.which('rlwrap')

# Shells that may run it.
SHELLS = [words for words in ([], ['dash'], ['bash', '--posix'], ['bash']) if not words or shutil.which(words[0])]

# Terminals on which fibs-play edits no lines, and, if rlwrap is installed, one on which it does.
KINDS = ['dumb'] + (['xterm'] if RLWRAP else [])

# A command with its input from a file, or its output to one.
FROM_FILE = ['sh', '-c', 'file=$1; shift; exec "$@" < "$file"', 'sh']
TO_FILE = ['sh', '-c', 'file=$1; shift; exec "$@" > "$file"', 'sh']

# Where matches are recorded, unless a scene names another place.
DATA = tempfile.TemporaryDirectory()
os.environ['XDG_DATA_HOME'] = DATA.name

# No other process knows it.
PASSWORD = 'hunter' + os.urandom(4).hex()

# What the processor's time is counted in.
TICKS = os.sysconf('SC_CLK_TCK')


def told(path):
    """What a file of the system tells of a process, from its state on."""
    with open(path) as stat:
        return stat.read().rsplit(')', 1)[1].split()


class Terminal:
    """A terminal, a command that runs there, and all that was shown."""

    # Those that were begun.
    running = []

    def __init__(self, words, columns=80, rows=24, **more):
        # what is None is not in the environment
        environment = {**os.environ, 'TERM': 'dumb', **more}
        environment = {name: value for name, value in environment.items() if value is not None}
        self.fd, tty = os.openpty()
        self.resizes(columns, rows)
        orders, self.orders = os.pipe()
        self.reports, reports = os.pipe()
        self.shell = subprocess.Popen(
            [sys.executable, '-B', SHELL, str(orders), str(reports), *words], stdin=tty, stdout=tty, stderr=tty,
            pass_fds=(orders, reports), start_new_session=True, env=environment)
        for fd in (tty, orders, reports):
            os.close(fd)
        self.running.append(self)
        self.seen, self.at, self.news = bytearray(), 0, threading.Condition()
        self.stopped, self.stop = os.pipe()
        self.reader = threading.Thread(target=self.read, daemon=True)
        self.reader.start()
        self.job, self.is_over = int(self.report()[0]), False

    def resizes(self, columns, rows=24):
        """The window gets another size."""
        fcntl.ioctl(self.fd, termios.TIOCSWINSZ, struct.pack('HHHH', rows, columns, 0, 0))

    def read(self):
        """Keeps what is shown, until it is told to stop."""
        while True:
            ready, _, _ = select.select([self.fd, self.stopped], [], [])
            if self.stopped in ready:
                return
            try:
                piece = os.read(self.fd, 65536)
            except OSError:
                # nobody has it open any more
                return
            with self.news:
                self.seen += piece
                self.news.notify_all()

    def type_bytes(self, typed):
        """Types bytes."""
        os.write(self.fd, typed)

    def type(self, line):
        """Types a line."""
        self.type_bytes(line.encode('latin-1') + b'\n')

    def sees(self, *texts, seconds=PATIENCE):
        """Waits until these are shown, one after the other, after those that were waited for before."""
        end = time.monotonic() + seconds
        for text in texts:
            wanted = text.encode('latin-1')
            with self.news:
                while (found := self.seen.find(wanted, self.at)) < 0:
                    left = end - time.monotonic()
                    if left <= 0:
                        raise Failed('%r was not shown after %r' % (text, bytes(self.seen[self.at:][-300:])))
                    self.news.wait(left)
                self.at = found + len(wanted)

    def screen(self):
        """All that was shown, with plain line ends."""
        with self.news:
            return bytes(self.seen).decode('latin-1').replace('\r\n', '\n')

    def shown(self, seconds=0.3):
        """What is shown within so many seconds, after what was waited for."""
        time.sleep(seconds)
        with self.news:
            found, self.at = bytes(self.seen[self.at:]), len(self.seen)
            return found.decode('latin-1').replace('\r\n', '\n')

    def report(self, seconds=PATIENCE):
        """The words of the next line that the shell says."""
        said, end = b'', time.monotonic() + seconds
        while not said.endswith(b'\n'):
            if not select.select([self.reports], [], [], max(0, end - time.monotonic()))[0]:
                raise Failed('the command neither ended nor stopped; the screen ends in %r' % self.screen()[-300:])
            piece = os.read(self.reports, 1)
            if not piece:
                raise Failed('the shell is gone')
            said += piece
        words = said.decode().split()
        if words[0] == 'ended':
            self.is_over = True
            self.catches_up()
        return words

    def catches_up(self):
        """Reads up to the mark that the shell sets after all that its job has shown."""
        if self.reader.is_alive():
            self.sees(END.decode())
            with self.news:
                self.seen = self.seen.replace(END, b'')
                self.at = len(self.seen)

    def is_stopped(self):
        """It stops within a while, and the shell has the terminal again. What the job's process has begun stops too: who
        types `fg` is slower than that, and what goes on before it has stopped does not know that it was stopped."""
        same('the job', self.report(), ['stopped'])
        self.wait_until('what the job has begun stops', lambda: set(self.states_below()) <= {'T', 'Z'})

    def to_the_foreground(self):
        """The shell's `fg`."""
        os.write(self.orders, b'f')

    def takes_leave(self, word, after=()):
        """Types a word by which one leaves, and once more if the screen asks, since a match is on. It has done so when
        the command has ended, or one of these texts is shown."""
        at = len(self.seen)
        self.type(word)
        self.wait_until('the screen answers ' + word, lambda: self.has_shown(at, 'You are in a match', *after) or
                        select.select([self.reports], [], [], 0)[0])
        if self.has_shown(at, 'You are in a match'):
            self.type(word)

    def has_shown(self, at, *texts):
        """Whether one of these texts was shown from a place on."""
        with self.news:
            return any(text.encode() in self.seen[at:] for text in texts)

    def quits(self, status=0):
        """Leaves by `quit`, and the command ends so."""
        self.takes_leave('quit')
        self.ends(status)

    def ends(self, status=0):
        """The command ends so: 128 and the number for a signal, as shells have it. All is shown then."""
        same('the ending', self.report(), ['ended', str(status)])

    def echoes(self):
        """Whether the terminal shows what is typed."""
        return bool(termios.tcgetattr(self.fd)[3] & termios.ECHO)

    def is_silent(self):
        """Waits until the terminal does not show what is typed."""
        self.wait_until('the terminal is silent', lambda: not self.echoes())

    def interrupts(self):
        """The key that interrupts."""
        return termios.tcgetattr(self.fd)[6][termios.VINTR]

    def edits_lines(self):
        """Waits until each key is read by a program that shows it, and none interrupts."""
        def is_so():
            modes = termios.tcgetattr(self.fd)
            return not modes[3] & (termios.ICANON | termios.ECHO) and modes[6][termios.VINTR] == b'\0'
        self.wait_until('lines are edited', is_so)

    def looks_away(self):
        """Reads nothing more of what is shown."""
        os.write(self.stop, b's')
        self.reader.join()

    def hangs_up(self):
        """The terminal is closed."""
        self.looks_away()
        os.close(self.fd)
        self.fd = None

    def busy(self, seconds):
        """The seconds of the processor that the command takes within so many seconds."""
        before = self.ticks()
        time.sleep(seconds)
        return (self.ticks() - before) / TICKS

    def ticks(self):
        return sum(map(int, self.told()[11:13]))

    def told(self):
        """What the system tells of the job's process, from its state on."""
        return told('/proc/%d/stat' % self.job)

    def below(self, states=False):
        """The processes that the job's process has begun, or their states."""
        for path in glob.glob('/proc/[0-9]*/stat'):
            try:
                state, parent = told(path)[:2]
            except OSError:
                # it is over
                continue
            if int(parent) == self.job:
                yield state if states else int(path.split('/')[2])

    def states_below(self):
        """The states of the processes that the job's process has begun."""
        return self.below(states=True)

    def is_waiting(self):
        """Waits until the job waits: a shell that has not begun to read yet may let a signal wait for the next key."""
        self.wait_until('the job waits', lambda: self.told()[0] == 'S')

    def wait_until(self, what, is_so):
        """Waits until it is so."""
        end = time.monotonic() + PATIENCE
        while not is_so():
            if time.monotonic() > end:
                raise Failed('never: %s' % what)
            time.sleep(0.002)

    def close(self):
        """Whatever it does, it is over."""
        if self not in self.running:
            return
        self.running.remove(self)
        if not self.is_over:
            signal_job(self.job, signal.SIGKILL)
        self.shell.kill()
        self.shell.wait()
        if self.reader.is_alive():
            self.looks_away()
        for fd in (self.fd, self.orders, self.reports, self.stopped, self.stop):
            if fd is not None:
                os.close(fd)
