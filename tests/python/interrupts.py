"""A signal, or memory that runs out, at each instruction of a call of the client: no line and no command is lost, and
none comes twice."""

import dis
import os
import random
import signal
import sys
import traceback

from calls import BOARD, GREETING, MOVES
from props.package import fibs

PACKAGE = os.path.dirname(fibs.__file__)

# The number of a tool of Python's monitoring.
TOOL = 4


def tail(code):
    """The instructions of a function that hands something out, from the one that notes it as handed out: nothing is
    called between them, so that Python looks for no signal there."""
    found, behind = set(), False
    for one in dis.get_instructions(code):
        if behind:
            found.add(one.offset)
        behind = one.opname == 'STORE_ATTR' or behind and not one.opname.startswith(('RETURN', 'YIELD', 'JUMP'))
    return found


TAILS = {function.__code__: tail(function.__code__)
         for function in (fibs.Client.open, fibs.Client.feed, fibs.Client._hear, fibs.Client.decide, fibs.Client.plain,
                          fibs.Client.own_line, fibs.Client.unguarded_line, fibs.Client.lose)}


class Interrupting:
    """Raises an exception at the n-th instruction of the package, if there are so many."""

    def __init__(self, after, kind):
        self.left, self.kind = after, kind

    def __enter__(self):
        # from Python 3.12 on; a trace there leaves instructions out
        self.monitoring = getattr(sys, 'monitoring', None)
        if self.monitoring:
            event = self.monitoring.events.INSTRUCTION
            self.monitoring.use_tool_id(TOOL, 'interrupts')
            self.monitoring.register_callback(TOOL, event, self.reached)
            self.monitoring.set_events(TOOL, event)
        else:
            sys.settrace(self.called)

    def __exit__(self, *error):
        if self.monitoring:
            self.monitoring.set_events(TOOL, 0)
            self.monitoring.free_tool_id(TOOL)
        else:
            sys.settrace(None)

    def reached(self, code, offset):
        if os.path.dirname(code.co_filename) == PACKAGE and offset not in TAILS.get(code, ()):
            self.left -= 1
            if self.left == 0:
                raise self.kind()

    def called(self, frame, event, _):
        if os.path.dirname(frame.f_code.co_filename) != PACKAGE:
            return None
        frame.f_trace_opcodes, frame.f_trace_lines = True, False
        return self.stepped

    def stepped(self, frame, event, _):
        if event == 'opcode' and frame.f_lasti not in TAILS.get(frame.f_code, ()):
            self.left -= 1
            if self.left == 0:
                raise self.kind()
        return self.stepped


def at_each_instruction(once):
    """Does something that is interrupted at the first instruction, at the second, and so on, until it is done first.
    How often it was interrupted."""
    for kind in KeyboardInterrupt, MemoryError:
        after = 1
        while once(Interrupting(after, kind), kind):
            after += 1
    return after - 1


def ready(*lines):
    client = fibs.Client('ann', 'secret')
    client.open()
    list(client.feed(GREETING + b''.join(line + b'\r\n' for line in lines)))
    return client


def a_decision_is_not_lost(counts):
    def once(interrupting, kind):
        client, sent, was_interrupted = ready(BOARD), b'', False
        try:
            with interrupting:
                sent = client.decide(fibs.ROLL)
        except kind:
            was_interrupted = True
        waits = client.waiting is not None
        sent += client.plain('who') + client.plain('say hi')
        counts.same(sent, b'roll\r\n' * waits + b'who\r\nsay hi\r\n', 'at %d' % interrupting.left)
        return was_interrupted
    counts.check(at_each_instruction(once) > 20, 'there are instructions')


def commands_of_other_calls_are_not_lost(counts):
    login = b'login fibs_client 1008 ann secret\r\n'

    def opens(interrupting, kind):
        client, sent, was_interrupted = fibs.Client('ann', 'secret'), b'', False
        client.feed(b'nothing of this')
        try:
            with interrupting:
                sent = client.open()
        except kind:
            was_interrupted = True
        try:
            sent += client.open()
        except fibs.AlreadyOpen:
            sent += client.plain('who').replace(b'who\r\n', b'')
        counts.same(sent, login, 'one login')
        return was_interrupted

    def says(interrupting, kind):
        client, sent, was_interrupted = ready(), b'', False
        try:
            with interrupting:
                sent = client.plain('say hi')
        except kind:
            was_interrupted = True
        sent += b''.join(heard.send for heard in client.feed(b'hello\r\n')) + client.plain('who')
        counts.check(sent in (b'who\r\n', b'say hi\r\nwho\r\n') and (sent != b'who\r\n' or was_interrupted), sent)
        return was_interrupted

    def loses(interrupting, kind):
        client, lost, was_interrupted = ready(BOARD), None, False
        client.decide(fibs.ROLL)
        client.feed(BOARD)
        try:
            with interrupting:
                lost = client.lose()
        except kind:
            was_interrupted = True
            lost = client.lose()
        counts.same(lost and lost.decision, fibs.ROLL, 'what waited')
        counts.same((client.open(), list(client.feed(b'\r\n'))[0].send), (login, b''), 'nothing of the last connection')
        return was_interrupted

    for once in opens, says, loses:
        counts.check(at_each_instruction(once) > 20, 'there are instructions')


def a_line_that_is_heard_is_not_lost(counts):
    pieces = [GREETING + BOARD[:40], BOARD[40:] + b'\r\nhello\r\n' + MOVES + b'\r\nhalf', b' a line\r\n']
    client = fibs.Client('ann', 'secret')
    client.open()
    wanted = [heard for piece in pieces for heard in client.feed(piece)]
    counts.same(len(wanted), 6, 'lines')

    def once(interrupting, kind):
        client, found, was_interrupted = fibs.Client('ann', 'secret'), [], False
        client.open()
        with interrupting:
            for piece in pieces:
                try:
                    for heard in client.feed(piece):
                        found.append(heard)
                except kind:
                    was_interrupted = True
                    # a piece is taken whole or not at all
                    if not client._kept.data.endswith(piece):
                        found += client.feed(piece)
                    found += client.feed(b'')
        counts.same(found, wanted, 'at %d' % interrupting.left)
        return was_interrupted
    counts.check(at_each_instruction(once) > 100, 'there are instructions')


def a_real_signal_at_any_time(counts):
    """As a timer sends it. What comes after a call of the package has returned is not the package's."""
    if sys.version_info < (3, 10):
        counts.leave_out('this Python looks for signals between any two instructions')
        return

    def stop(*_):
        raise KeyboardInterrupt

    rng, before, lost, interrupted = random.Random(5), signal.signal(signal.SIGALRM, stop), [], 0
    for _ in range(4000):
        client, sent = ready(BOARD), b''
        try:
            signal.setitimer(signal.ITIMER_REAL, rng.uniform(1e-6, 3e-5))
            sent = client.decide(fibs.ROLL)
            signal.setitimer(signal.ITIMER_REAL, 0)
        except KeyboardInterrupt:
            frames = traceback.extract_tb(sys.exc_info()[2])
            if not any(os.path.dirname(frame.filename) == PACKAGE for frame in frames):
                continue
            interrupted += 1
        waits = client.waiting is not None
        if sent + client.plain('who') != b'roll\r\n' * waits + b'who\r\n':
            lost.append(frames[-1])
    signal.signal(signal.SIGALRM, before)
    counts.same(lost, [], 'what was lost of %d' % interrupted)
    counts.check(interrupted > 20, 'signals came in calls: %d' % interrupted)


TESTS = [a_decision_is_not_lost, commands_of_other_calls_are_not_lost, a_line_that_is_heard_is_not_lost,
         a_real_signal_at_any_time]
