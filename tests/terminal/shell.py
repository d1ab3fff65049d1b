"""A shell of one job at a pseudo-terminal: `shell.py ORDERS REPORTS WORDS..`, the first two being descriptors of pipes."""

import fcntl
import os
import signal
import sys
import termios

# What the shell shows after its job, and no job shows.
END = b'\0'

# What a shell ignores, and its job does not.
OF_THE_JOB = [signal.SIGINT, signal.SIGQUIT, signal.SIGTSTP, signal.SIGTTIN, signal.SIGTTOU]


def signal_job(job, number):
    """Sends a signal to a job, which may have ended meanwhile."""
    try:
        os.killpg(job, number)
    except ProcessLookupError:
        pass


def begin(words):
    """The process of a job, which has the terminal."""
    job = os.fork()
    if job == 0:
        try:
            os.setpgid(0, 0)
            os.tcsetpgrp(0, os.getpid())
            for number in [*OF_THE_JOB, signal.SIGPIPE, signal.SIGHUP, signal.SIGTERM]:
                signal.signal(number, signal.SIG_DFL)
            os.execvp(words[0], words)
        finally:
            os._exit(127)
    try:
        os.setpgid(job, job)
    except OSError:
        pass
    return job


def shell(orders, reports, words):
    """Runs one job. It hands a hangup on, unless it was told not to, and reports how the job ends."""
    for number in OF_THE_JOB:
        signal.signal(number, signal.SIG_IGN)
    fcntl.ioctl(0, termios.TIOCSCTTY, 0)
    modes = termios.tcgetattr(0)
    job = begin(words)
    signal.signal(signal.SIGHUP, lambda *_: 'NOHUP' in os.environ or signal_job(job, signal.SIGHUP))
    os.write(reports, b'%d\n' % job)
    while True:
        _, status = os.waitpid(job, os.WUNTRACED)
        if not os.WIFSTOPPED(status):
            break
        os.tcsetpgrp(0, os.getpgrp())
        termios.tcsetattr(0, termios.TCSADRAIN, modes)
        os.write(reports, b'stopped\n')
        os.read(orders, 1)
        os.tcsetpgrp(0, job)
        os.killpg(job, signal.SIGCONT)
    code = os.waitstatus_to_exitcode(status)
    try:
        os.write(1, END)
    except OSError:
        # the terminal is closed
        pass
    os.write(reports, b'ended %d\n' % (code if code >= 0 else 128 - code))
    # The terminal stays as the job left it.
    os.read(orders, 1)


if __name__ == '__main__':
    shell(int(sys.argv[1]), int(sys.argv[2]), sys.argv[3:])
