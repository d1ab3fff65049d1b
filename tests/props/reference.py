"""A slow reference of the program, but for `fibs connect`, written from docs/FORMATS.md and docs/PLAYING.md alone. The
rules of backgammon are those by which the server of the examples plays, which were written from no proved code either.

`reference.py show`, `reference.py plays`, `reference.py replay` and `reference.py loop` read standard input, where
`plays` has its LINE, and print what the program prints.
"""
import pathlib
import re
import sys

sys.path.insert(0, str(pathlib.Path(__file__).resolve().parents[2] / 'examples' / 'fibs_server'))
import rules
sys.path.pop(0)
from rules import BAR, OFF, after_step, legal_plays, most, numbers_of, target_of, plays as greatest_plays

# ---- From bytes to lines ------------------------------------------------------------------------------------------

KEPT = 16384
# 255 255 is data; 251 to 254 take one byte more, whatever it is; `?` because a stream may end inside a command.
TELNET = re.compile(rb'\xff(?:(\xff)|[\xfb-\xfe].?|.?)', re.S)
PROMPTS = re.compile(rb'\A(?:login: |> )*')

def without_telnet(stream):
    return TELNET.sub(lambda command: command[1] or b'', stream)

def without_cr(line):
    return line[:-1] if line.endswith(b'\r') else line

def lines_of(stream):
    """The whole lines, each with whether it was cut, and how many bytes follow the last of them."""
    *whole, rest = without_telnet(stream).split(b'\n')
    whole = [without_cr(line) for line in whole]
    return [(PROMPTS.sub(b'', line[:KEPT]), len(line) > KEPT) for line in whole], min(len(rest), KEPT)

# ---- Fields -------------------------------------------------------------------------------------------------------

class Malformed(Exception):
    """A wrong field: its place and its fault."""

NAME = re.compile(rb'[!-9;-~]{1,64}')
DECIMAL = re.compile(rb'0|-?[1-9][0-9]*')
RATING = re.compile(rb'(0|[1-9][0-9]*)(?:\.([0-9]{1,2}))?')
LONGEST_IN_RANGE = 21

def number(text, allowed):
    if not DECIMAL.fullmatch(text):
        raise ValueError('NotANumber')
    # A number of thousands of digits is outside every range; Python would refuse to read it.
    if len(text) > LONGEST_IN_RANGE or int(text) not in allowed:
        raise ValueError('OutOfRange')
    return int(text)

def name(text):
    if not NAME.fullmatch(text):
        raise ValueError('BadName')
    return text

def word(text):
    if not text:
        raise ValueError('BadName')
    return text

def rating(text):
    spelled = RATING.fullmatch(text)
    if not spelled:
        raise ValueError('NotANumber')
    whole, part = spelled[1], (spelled[2] or b'').ljust(2, b'0')
    if len(whole) > LONGEST_IN_RANGE or int(whole + part) > 4294967295:
        raise ValueError('OutOfRange')
    return whole + b'.' + part

def of_numbers(allowed):
    return lambda text: b'%d' % number(text, allowed)

FLAG, NUMBER = of_numbers((0, 1)), of_numbers(range(2 ** 64))

def checked(field, read, text):
    try:
        return read(text)
    except ValueError as fault:
        raise Malformed(field, str(fault)) from None

# ---- The board line -----------------------------------------------------------------------------------------------

def board_word(text):
    if text != b'board':
        raise ValueError('BadName')
    return text

def board_fields():
    ranges = [range(10000)] + [range(100000000)] * 2 + [range(-15, 16)] * 26 + [(-1, 0, 1)] + [range(7)] * 4
    ranges += [range(1, 1048577)] + [(0, 1)] * 3 + [(-1, 1)] * 2 + [(0, 25)] * 2 + [range(16)] * 5 + [range(10000)] * 3
    return [board_word, name, name] + [of_numbers(allowed) for allowed in ranges]

BOARD_FIELDS = board_fields()

def read_board(line):
    """The printed board; fields are counted from 1, so that a surplus one is number 54."""
    texts = line.rstrip(b' ').split(b':')
    printed = []
    for field, read in enumerate(BOARD_FIELDS, 1):
        if field > len(texts):
            raise Malformed(field, 'Missing')
        printed.append(checked(field, read, texts[field - 1]))
    if len(texts) > len(BOARD_FIELDS):
        raise Malformed(len(BOARD_FIELDS) + 1, 'Extra')
    return b':'.join(printed)

# ---- Numbered lines -----------------------------------------------------------------------------------------------

NUMBERED = re.compile(rb'(1[0-9]|[1-9])(?= |\Z)')
TEXT, TAIL = 'text', 'tail'  # the two kinds that are the rest of the line
OWN_INFO = [name] + [FLAG] * 8 + [NUMBER] + [FLAG] * 4 + [rating] + [FLAG] * 2 + [word] + [FLAG] * 2 + [word]
WHO_INFO = [name] * 3 + [FLAG] * 2 + [rating] + [NUMBER] * 3 + [word] * 2 + [TAIL]
MESSAGES = {1: [name, NUMBER, word], 2: OWN_INFO, 3: [], 4: [], 5: WHO_INFO, 6: [], 7: [name, TEXT], 8: [name, TEXT],
            9: [name, NUMBER, TEXT], 10: [name], 11: [name], 12: [name, TEXT], 13: [name, TEXT], 14: [name, TEXT],
            15: [name, TEXT], 16: [name, TEXT], 17: [TEXT], 18: [TEXT], 19: [TEXT]}
TRIMMED = (1, 2, 3, 4, 5, 6, 10, 11)

def read_message(line):
    """The number and the printed fields. What is not yet read is empty or begins with the space before a field."""
    head = NUMBERED.match(line)[1]
    rest = line[len(head):]
    if int(head) in TRIMMED:
        rest = rest.rstrip(b' ')
    printed = [head]
    for field, kind in enumerate(MESSAGES[int(head)], 1):
        if kind is TEXT:
            return printed + [rest[1:]] if rest[1:] else printed
        if not rest:
            raise Malformed(field, 'Missing')
        text, rest = (rest[1:], b'') if kind is TAIL else first_field(rest[1:])
        printed.append(checked(field, word if kind is TAIL else kind, text))
    if rest:
        raise Malformed(len(MESSAGES[int(head)]) + 1, 'Extra')
    return printed

def first_field(rest):
    text, space, after = rest.partition(b' ')
    return text, space + after

# ---- What `fibs show` prints --------------------------------------------------------------------------------------

def escaped(line):
    return b''.join(b'%c' % byte if 32 <= byte <= 126 and byte != 92 else b'\\x%02x' % byte for byte in line)

def shown(line, cut):
    if cut:
        return b'cut ' + escaped(line)
    try:
        if line.startswith(b'board:'):
            return read_board(line)
        if NUMBERED.match(line):
            return b'message ' + escaped(b' '.join(read_message(line)))
    except Malformed as wrong:
        kind = b'0' if line.startswith(b'board:') else NUMBERED.match(line)[1]
        return b'malformed %s %d %s' % (kind, wrong.args[0], wrong.args[1].encode())
    return b'text ' + escaped(line)

def show(stream):
    lines, unfinished = lines_of(stream)
    out = [shown(line, cut) for line, cut in lines]
    if unfinished:
        out.append(b'unfinished %d' % unfinished)
    return b''.join(line + b'\n' for line in out), 0

# ---- Boards, in own numbers: each side goes from 24 down to 1 ------------------------------------------------------

LARGEST_CUBE = 1048576

class Board:
    """A board that was read. Its fields are counted from 1, as in the document."""

    def __init__(self, printed):
        self.printed = printed
        self.fields = [None] + [text if at < 3 else int(text) for at, text in enumerate(printed.split(b':'))]

    def number(self, place):
        """The own number of a place of the board, and the place of an own number."""
        return place if self.fields[43] == -1 else 25 - place

    def checkers(self, colour):
        """The checkers of a colour on places 1 to 24, by own numbers; index 0 and 25 stay empty."""
        counts = [0] * 26
        for place in range(1, 25):
            counts[self.number(place)] = max(0, colour * self.fields[7 + place])
        return counts

    def position(self):
        """The checkers of both sides, each by its own numbers."""
        own, other = self.checkers(self.fields[42]), self.checkers(-self.fields[42])[::-1]
        own[OFF], other[OFF] = self.fields[46:48]
        # The checkers that are nowhere else are on the bar.
        own[BAR], other[BAR] = 15 - sum(own), 15 - sum(other)
        return tuple(own), tuple(other)

    def fault(self):
        """Why the board has no position, or None."""
        colour = self.fields[42]
        if self.fields[2] != b'You':
            return 'NotYou'
        if sum(self.checkers(colour)) + self.fields[46] > 15:
            return 'TooManyOwn'
        return 'TooManyOther' if sum(self.checkers(-colour)) + self.fields[47] > 15 else None

    def is_good(self):
        return self.fault() is None

    def dice(self):
        """The dice still to play: a double is played four times; there may be one die alone."""
        return numbers_of(self.fields[34:36])

    def phase(self):
        fields = self.fields
        if fields[33] == 0:
            return 'Over'
        if fields[41]:
            return 'AnswerDouble'
        if fields[33] != fields[42]:
            return 'OpponentActs'
        if not fields[34] and not fields[35]:
            return 'RollOrDouble'
        return 'Move' if any(rules.steps_of(self.position(), self.dice())) else 'Passing'

    def cube_allows(self, decision):
        """A cube goes up to 1,048,576, so a higher one can neither be offered nor taken."""
        if decision == b'double':
            return self.fields[39] == 1 and self.fields[38] <= LARGEST_CUBE // 2
        return decision != b'accept' or self.fields[38] <= LARGEST_CUBE // 2

    def with_fields(self, changes):
        fields = self.fields[1:]
        for field, value in changes.items():
            fields[field - 1] = value
        return Board(b':'.join(value if isinstance(value, bytes) else b'%d' % value for value in fields))

# ---- What `fibs plays` prints -------------------------------------------------------------------------------------

def plays_of(line):
    """The plays that are listed of a board, by their steps: none if the player does not move."""
    board = Board(line)
    return greatest_plays(board.position(), board.dice()) if board.phase() == 'Move' else []

OBJECT = re.compile(rb'\{"kind":"board","line":"([ !#-\[\]-~]*)".*\}', re.S)

def told_line(word):
    """The line of a word: that of a board whose object it is, or the word itself."""
    found = OBJECT.fullmatch(word)
    return found[1] if found else word

def plays(word):
    """What it prints for its word, the status, and what it says on standard error."""
    line = told_line(word)
    if not line.startswith(b'board:'):
        return b'', 3, b'not a board\n'
    try:
        board = Board(read_board(line))
    except Malformed as wrong:
        return b'', 3, b'malformed 0 %d %s\n' % (wrong.args[0], wrong.args[1].encode())
    if not board.is_good():
        return b'', 3, b'position %s\n' % board.fault().encode()
    out = [b'phase ' + board.phase().encode()]
    out += [print_decision(play, board) for play in plays_of(line)]
    return b''.join(text + b'\n' for text in out), 0, b''

# ---- Commands -----------------------------------------------------------------------------------------------------

PLACE = rb'(?:[1-9]|1[0-9]|2[0-4])'
MOVE = re.compile(rb'move((?: (?:bar|%s)-(?:off|%s)){0,4})' % (PLACE, PLACE))
RESIGNATIONS = (b'resign n', b'resign g', b'resign b')
POINTS = re.compile(rb'0|[1-9][0-9]{0,4}')
PRINTED = re.compile(rb'[ -~]{1,400}')
WORDS = {b'bar': BAR, b'off': OFF}

def read_decision(text):
    """A text, or a tuple of steps in own numbers; None if it is no decision."""
    if text in (b'roll', b'double', b'accept', b'reject') + RESIGNATIONS:
        return text
    if not MOVE.fullmatch(text):
        return None
    steps = [step.split(b'-') for step in text.split(b' ')[1:]]
    return tuple(tuple(WORDS[end] if end in WORDS else int(end) for end in step) for step in steps)

def print_decision(decision, board):
    if isinstance(decision, bytes):
        return decision
    ends = {BAR: b'bar', OFF: b'off', **{place: b'%d' % board.number(place) for place in range(1, 25)}}
    return b' '.join([b'move'] + [ends[source] + b'-' + ends[target] for source, target in decision])

def read_plain(line):
    """A plain command as its word, its name and its text (None if it has none); None if it is not a command."""
    first, space, rest = line.partition(b' ')
    if first in (b'say', b'shout', b'whisper', b'kibitz'):
        return first, None, rest
    if first in (b'tell', b'message'):
        who, _, text = rest.partition(b' ')
        return first, who, text
    if first == b'join' and b' ' not in rest:
        return first, rest if space else None, None
    if first == b'invite':
        return read_invitation(rest)
    if line in (b'board', b'who', b'bye', b'toggle ready', b'toggle automove', b'toggle greedy'):
        return line, None, None
    return None

def read_invitation(rest):
    who, space, points = rest.partition(b' ')
    if space and not (POINTS.fullmatch(points) and int(points) <= 65535):
        return None
    return b'invite', who, None

def has_text(command):
    """Whether a plain command can be written to the server; if not, the client names a fault and sends nothing."""
    _, who, text = command
    return (who is None or bool(NAME.fullmatch(who))) and (text is None or bool(PRINTED.fullmatch(text)))

# ---- The client ---------------------------------------------------------------------------------------------------

class Client:
    """What the client knows on its connection. What it sends goes through `send`, what it notes through `note`."""

    def __init__(self, note):
        self.note = note
        self.connection = None

    def open(self, connection):
        self.connection, self.heard, self.handled = connection, b'', 0
        self.welcomed, self.settings, self.board, self.waiting, self.toggled = False, None, None, None, []
        self.ordered = False
        connection.send(b'login fibs_client 1008 ann secret')

    def close(self):
        waited = self.waiting and self.told(*self.waiting)
        self.note('lost', self.connection.number, *(waited or ()))
        self.connection = None

    @staticmethod
    def told(board, decision):
        return board.printed, print_decision(decision, board)

    def hear(self, data):
        """The lines are those of the whole stream, whatever its pieces were."""
        self.heard += data
        lines, _ = lines_of(self.heard)
        for line, cut in lines[self.handled:]:
            self.handle(shown(line, cut))
        self.handled = len(lines)

    def handle(self, line):
        if line.startswith(b'board:') and Board(line).is_good():
            self.handle_board(Board(line))
        elif line.startswith(b'message 1 '):
            self.handle_welcome()
        elif line.startswith(b'message 2 '):
            self.handle_settings(line.split(b' ')[1:])

    def handle_board(self, board):
        self.note('shown', self.connection.number, board.printed)
        # The same board once more says nothing about the decision that was made on it.
        if self.waiting and self.waiting[0].printed != board.printed:
            self.waiting = None
        self.board = board
        if self.is_due():
            self.decide(b'roll')

    def is_due(self):
        """Whether the standing order rolls on the board shown."""
        if not self.ordered or self.board.fields[39] != 0 or self.board.phase() != 'RollOrDouble':
            return False
        return self.refusal(b'roll') is None

    def handle_welcome(self):
        self.note('welcomed', self.connection.number)
        if not self.welcomed:
            self.connection.send(b'set boardstyle 3')
        self.welcomed = True

    def handle_settings(self, fields):
        first = self.settings is None
        self.settings = fields[5] == b'1', fields[11] == b'1'
        self.note('informed', self.connection.number, fields[5], fields[11])
        if first:
            if fields[3] == b'0':
                self.connection.send(b'toggle autoboard')
            if fields[12] == b'0':
                self.connection.send(b'toggle moreboards')
            self.connection.send(b'board')

    def refusal(self, decision):
        """The first reason to refuse a decision, or None."""
        if self.connection is None:
            return 'Offline'
        if not self.welcomed or self.settings is None:
            return 'NotReady'
        if any(self.settings):
            return 'ServerPlays'
        if self.board is None:
            return 'NoBoard'
        return 'Waiting' if self.waiting else self.refusal_on_board(decision)

    def refusal_on_board(self, decision):
        phase = self.board.phase()
        if phase not in DECIDED:
            return 'NotYours'
        if not decides(phase, decision) or not self.board.cube_allows(decision):
            return 'WrongKind'
        if isinstance(decision, tuple) and rules.reached(self.board.position(), self.board.dice(), decision) is None:
            return 'IllegalPlay'
        return None

    def click(self, decision):
        reason = self.refusal(decision)
        number_of = self.connection.number if self.connection else 0
        self.note('clicked', number_of, reason or 'ok')
        if not reason:
            self.decide(decision)

    def decide(self, decision):
        self.waiting = self.board, decision
        self.note('sent', self.connection.number, *self.told(*self.waiting))
        self.connection.send(print_decision(decision, self.board))

    def order(self, ordered):
        """A standing order to roll is given, or withdrawn; one that is in force is not given again."""
        if self.connection is not None and self.ordered != ordered:
            self.ordered = ordered
            self.note('ordered' if ordered else 'withdrawn', self.connection.number)

    def plain(self, line, command):
        if self.connection is None or not has_text(command):
            return
        if line in (b'toggle automove', b'toggle greedy'):
            if line in self.toggled or not self.settings or not self.settings[line == b'toggle greedy']:
                return
            self.toggled.append(line)
        self.connection.send(line)

DECIDED = {'RollOrDouble': (b'roll', b'double'), 'AnswerDouble': (b'accept', b'reject'), 'Move': ()}

def decides(phase, decision):
    if decision in RESIGNATIONS:
        return phase in ('RollOrDouble', 'Move')
    return isinstance(decision, tuple) if phase == 'Move' else decision in DECIDED[phase]

# ---- The server ---------------------------------------------------------------------------------------------------

class Connection:
    """The two wires of a connection: the bytes on their way up to the server, and down to the client."""

    def __init__(self, number_of):
        self.number, self.up, self.down, self.is_open = number_of, b'', b'', True

    def send(self, line):
        self.up += line + b'\r\n'

    def next_line(self):
        line, end, rest = self.up.partition(b'\r\n')
        if not end:
            return None
        self.up = rest
        return line

class Refused(Exception):
    """An event that is refused: its number and name."""

class Replay:
    """The server, the wires and the client; every method `do_..` is an event of a script."""

    def __init__(self, board):
        self.log, self.connections, self.logged_in, self.board = [], [], 0, board
        self.client = Client(self.note)

    def note(self, what, *values):
        texts = [what.encode()] + [b'%d' % v if isinstance(v, int) else v if isinstance(v, bytes) else v.encode()
                                   for v in values]
        self.log.append(b' '.join(texts))

    def send(self, line):
        """To the connection logged in; if that is lost, the line goes with it."""
        if self.logged_in and self.connections[self.logged_in - 1].is_open:
            self.connections[self.logged_in - 1].down += line + b'\r\n'

    def take(self, connection, line, dice):
        if line.startswith(b'login '):
            self.logged_in = connection.number
            self.note('loggedin', connection.number)
            return
        if read_decision(line) is not None:
            self.decide(connection, line, dice)
        # Whatever was asked, the board is the answer.
        self.send(self.board.printed)

    def decide(self, connection, line, dice):
        decision = own_numbers(read_decision(line), self.board)
        before, phase = self.board, self.board.phase()
        if phase not in DECIDED or not decides(phase, decision):
            self.note('undone', connection.number, before.printed, line)
            return
        self.board = decided(self.board, decision, dice)
        self.note('took', connection.number, before.printed, line)

    def do_open(self):
        if self.client.connection:
            raise Refused(2, 'AlreadyOpen')
        self.connections.append(Connection(len(self.connections) + 1))
        self.note('opened', len(self.connections))
        self.client.open(self.connections[-1])

    def do_click(self, decision):
        self.client.click(decision)

    def do_plain(self, line, command):
        self.client.plain(line, command)

    def do_order(self):
        self.client.order(True)

    def do_withdraw(self):
        self.client.order(False)

    def do_deliver(self, count):
        if not self.client.connection:
            raise Refused(3, 'NotOpen')
        connection = self.client.connection
        arrived, connection.down = connection.down[:count], connection.down[count:]
        self.client.hear(arrived)

    def do_lose(self, count):
        if not self.client.connection:
            raise Refused(3, 'NotOpen')
        connection = self.client.connection
        connection.up, connection.down, connection.is_open = connection.up[:count], b'', False
        self.client.close()

    def do_serve(self, number_of, first, second):
        if not 1 <= number_of <= len(self.connections):
            raise Refused(4, 'NoSuchConnection')
        if not (1 <= first <= 6 and 1 <= second <= 6):
            raise Refused(9, 'BadDice')
        connection = self.connections[number_of - 1]
        line = None if number_of < self.logged_in else connection.next_line()
        if line is None:
            raise Refused(5, 'NothingToServe')
        self.take(connection, line, (first, second))

    def do_own(self, board):
        if not board.is_good():
            raise Refused(8, 'BadBoard')
        if self.board.phase() in DECIDED:
            raise Refused(6, 'UserDecides')
        self.board = board
        self.send(board.printed)

    def do_repeat(self):
        self.send(self.board.printed)

    def do_text(self, line):
        lines, _ = lines_of(line + b'\r\n')
        texts = [shown(*read) for read in lines]
        if len(texts) != 1 or (texts[0].startswith(b'board:') and Board(texts[0]).is_good()):
            raise Refused(7, 'BoardAsText')
        self.send(line)

def own_numbers(decision, board):
    if isinstance(decision, bytes):
        return decision
    return tuple(tuple(end if end in (BAR, OFF) else board.number(end) for end in step) for step in decision)

def decided(board, decision, dice):
    """The server's board after a decision of the user."""
    fields = board.fields
    if decision == b'roll':
        return board.with_fields({34: dice[0], 35: dice[1], 36: 0, 37: 0})
    if decision == b'double' or decision in RESIGNATIONS:
        return board.with_fields({33: -fields[42]})
    if decision == b'accept':
        return board.with_fields({33: -fields[42], 38: fields[38] * 2, 39: 1, 40: 0, 41: 0})
    if decision == b'reject':
        return board.with_fields({33: 0, 41: 0})
    return moved(board, decision)

def moved(board, steps):
    colour, after = board.fields[42], board.position()
    for source, target in steps:
        after = after_step(after, source, target)
    changes = {7 + board.number(n): colour * (after[0][n] - after[1][rules.mirrored(n)]) for n in range(1, 25)}
    # The fields of the bars stay as they were: who is on the bar follows from the other places.
    changes.update({33: 0 if after[0][OFF] == 15 else -colour, 34: 0, 35: 0, 46: after[0][OFF]})
    return board.with_fields(changes)

# ---- Scripts ------------------------------------------------------------------------------------------------------

LARGEST_SCRIPT = 1048576
# The largest value of each number of an event.
LIMITS = {b'deliver': [4294967295], b'lose': [4294967295], b'serve': [4294967295, 255, 255]}

def script_lines(script):
    *whole, last = script.split(b'\n')
    return [without_cr(line) for line in whole] + ([last] if last else [])

def script_board(line):
    if not line.startswith(b'board:'):
        raise ValueError('no board')
    return Board(read_board(line))

def read_event(line):
    """The word of an event and what its method takes; ValueError or Malformed if the line is unreadable."""
    what, space, rest = line.partition(b' ')
    if what in (b'open', b'repeat'):
        values = None if space else ()
    elif what == b'text':
        values = (rest,)
    elif what in (b'order', b'withdraw'):
        values = () if rest == b'roll' else None
    elif what == b'click':
        values = (read_decision(rest),)
    elif what == b'plain':
        values = (rest, read_plain(rest))
    elif what == b'own':
        values = (script_board(rest),)
    else:
        values = read_numbers(rest.split(b' '), LIMITS.get(what, []))
    if values is None or None in values:
        raise ValueError('unreadable')
    return what.decode(), values

def read_numbers(texts, limits):
    if len(texts) != len(limits):
        return None
    return tuple(number(text, range(most + 1)) for text, most in zip(texts, limits))

def read_script(script):
    """The first board and the events; a ValueError with the number of the first line that is unreadable."""
    if len(script) > LARGEST_SCRIPT:
        raise ValueError(0)
    lines, events = script_lines(script) or [b''], []
    for at, line in enumerate(lines, 1):
        try:
            events.append(script_board(line) if at == 1 else read_event(line))
        except (ValueError, Malformed):
            raise ValueError(at) from None
    return events[0], events[1:]

def last_line(model, events):
    """Does the events until one is refused."""
    for done, (what, values) in enumerate(events):
        try:
            getattr(model, 'do_' + what)(*values)
        except Refused as refused:
            return 'refused %d %d %s' % (done, *refused.args), 3
    return 'end %d' % len(events), 0

def replay(script):
    try:
        board, events = read_script(script)
    except ValueError as unreadable:
        return b'script %d\n' % unreadable.args[0], 3
    if not board.is_good():
        return b'refused 0 8 BadBoard\n', 3
    model = Replay(board)
    last, status = last_line(model, events)
    return b''.join(line + b'\n' for line in model.log) + last.encode() + b'\n', status

def loop(script):
    """Over sockets a script has the same result."""
    return replay(script)

def main():
    run = {'show': show, 'plays': plays, 'replay': replay, 'loop': loop}[sys.argv[1]]
    out, status, *said = run(sys.stdin.buffer.read())
    sys.stdout.buffer.write(out)
    sys.stderr.buffer.write(b''.join(said))
    return status

if __name__ == '__main__':
    sys.exit(main())
