"""The library for C beside the reference: what it says of lines, and what a script makes a client hand out.

`show` prints what the library says of lines as `fibs show` prints it. `Beside` is the reference's client. It also gives
all that it receives to a client of the library (the package for Python), and compares the answers with its own.
"""

from props import reference
from props.package import fibs

KINDS = {b'roll': fibs.ROLL, b'double': fibs.DOUBLE, b'accept': fibs.ACCEPT, b'reject': fibs.REJECT,
         b'resign n': fibs.RESIGN_NORMAL, b'resign g': fibs.RESIGN_GAMMON, b'resign b': fibs.RESIGN_BACKGAMMON}


class Differs(Exception):
    """The library answers otherwise than the reference."""


def same(what, wanted, found):
    if wanted != found:
        raise Differs('%s: the reference has %r, the library has %r' % (what, wanted, found))


def answer(call, *words):
    """The bytes that a call hands out, or the name of its refusal."""
    try:
        return call(*words)
    except fibs.Error as why:
        return why.name


class Beside(reference.Client):
    def __init__(self, note):
        super().__init__(note)
        self.other = fibs.Client(b'ann', b'secret')

    def sent(self, act, *words):
        """What the reference sends at this."""
        before = len(self.connection.up) if self.connection else 0
        act(*words)
        return self.connection.up[before:] if self.connection else b''

    def open(self, connection):
        super().open(connection)
        same('open', connection.up, answer(self.other.open))

    def close(self):
        told = self.waiting and self.told(*self.waiting)
        super().close()
        same('lose', told, told_of(self.other.lose()))

    def hear(self, data):
        waited = self.waiting
        wanted = self.sent(super().hear, data)
        heard = list(self.other.feed(data))
        same('feed', wanted, b''.join(told.send for told in heard))
        same('rolled', wanted.split(b'\r\n').count(b'roll'), sum(told.rolled for told in heard))
        # If an order rolls at the same line, what waits is not what waited.
        if not self.ordered:
            confirmed = [told.confirmed for told in heard if told.confirmed]
            same('confirmed', bool(waited and not self.waiting), bool(confirmed))
        same('waiting', self.waiting and self.told(*self.waiting), told_of(self.other.waiting))
        same('shown', self.board and self.board.printed, self.other.shown and self.other.shown.line)

    def click(self, decision):
        why = self.refusal(decision)
        wanted = self.sent(super().click, decision)
        given = fibs.Decision.move(decision) if isinstance(decision, tuple) else KINDS[decision]
        same('click', why or wanted, answer(self.other.decide, given))

    def order(self, ordered):
        in_force = self.connection is not None and self.ordered
        why = 'Offline' if self.connection is None else None
        if self.connection is not None and in_force == ordered:
            why = 'AlreadyOrdered' if ordered else 'NotOrdered'
        super().order(ordered)
        same('order', why, answer(self.other.order_roll if ordered else self.other.withdraw_roll))

    def plain(self, line, command):
        wanted = self.sent(super().plain, line, command)
        found = answer(self.other.plain, line)
        same('plain', wanted, found if isinstance(found, bytes) else b'')


def told_of(outstanding):
    """A decision with its board, as the reference gives it."""
    return outstanding and (outstanding.board.line,
                            outstanding.decision.command(outstanding.board.direction).encode())


def replay(script):
    """Runs a script with both clients; what differs, or None."""
    try:
        board, events = reference.read_script(script)
    except ValueError:
        return None
    if not board.is_good():
        return None
    model = reference.Replay(board)
    model.client = Beside(model.note)
    try:
        reference.last_line(model, events)
    except Differs as why:
        return str(why)
    return None


def printed(line):
    """What `fibs show` prints of a line that the library has read."""
    if line.cut:
        return b'cut ' + reference.escaped(line.text)
    if line.kind == fibs.BOARD:
        return fibs.print_board(line.text)
    if line.kind == fibs.MALFORMED:
        return b'malformed %d %d %s' % (line.number, line.field, str(line.fault).encode())
    if line.kind == fibs.TEXT:
        return b'text ' + reference.escaped(line.text)
    kinds = reference.MESSAGES[line.number]
    texts = [text_of(kind, value) for kind, value in zip(kinds, fibs.fields(line.text), strict=True)]
    if kinds[-1:] == [reference.TEXT] and not texts[-1]:
        texts.pop()
    return b'message ' + reference.escaped(b' '.join([b'%d' % line.number, *texts]))


def text_of(kind, value):
    """A field's canonical text."""
    if value is None:
        return b'-'
    if isinstance(value, bytes):
        return value
    return b'%d.%02d' % divmod(value, 100) if kind is reference.rating else b'%d' % value


def show(data):
    """What `fibs show` prints of the bytes, by the library alone; they are read in uneven pieces."""
    out = []
    with fibs.Lines(rows=5, room=3 * fibs.MAX_LINE) as reader:
        for at in range(0, len(data), 777):
            out += map(printed, reader.feed(data[at:at + 777]))
        if reader.held:
            out.append(b'unfinished %d' % reader.held)
    return b''.join(line + b'\n' for line in out)


def outcome(kind, data, expected):
    """The input, what is expected and what the library gives, if they differ."""
    if kind == 'lines':
        found = show(data)
        return found != expected[0] and [data, (expected[0], 0, b''), (found, 0, b'')]
    if kind == 'scripts':
        differs = replay(data)
        return differs and [data, (b'', 0, b''), (b'', 0, differs.encode())]
    return None
