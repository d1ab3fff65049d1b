"""Clients over worked histories, by Client of the package for Python."""

import histories
from boards import NAMED
from props.package import fibs

LOGIN = (b'ann', b'secret')

DECISIONS = {'roll': fibs.ROLL, 'double': fibs.DOUBLE, 'accept': fibs.ACCEPT, 'reject': fibs.REJECT}


def line(name):
    """A line of the server, with its end."""
    return NAMED[name].encode() + b'\r\n'


def decision_of(text):
    """The decision that a step names: a move has one step of a checker."""
    word, *steps = text.split()
    if word == 'move':
        return fibs.Decision.move([tuple(map(int, step.split('-'))) for step in steps])
    return DECISIONS[word]


def commands(sent):
    """The commands, each of which ends with CR LF."""
    *texts, end = sent.split(b'\r\n')
    return [text.decode() for text in texts] + (['without CR LF: %r' % end] if end else [])


def hear(client, piece):
    """What the client answers to bytes of the server: commands, what is confirmed, whether an order has rolled."""
    said = []
    for heard in client.feed(piece):
        said += commands(heard.send)
        said += ['confirmed ' + heard.confirmed.command(client.shown.direction)] if heard.confirmed else []
        said += ['rolled'] if heard.rolled else []
    return said


def answer(client, step, cut):
    """What the client says to a step, with its bytes in the pieces that cut makes of them."""
    word, _, rest = step.partition(' ')
    if word in ('line', 'bytes'):
        piece = rest.format(**NAMED).encode('latin-1')
        pieces = cut(piece) + (cut(b'\r\n') if word == 'line' else [])
        return [said for piece in pieces for said in hear(client, piece)]
    if word == 'open':
        return commands(client.open())
    if word == 'lose':
        lost = client.lose()
        return ['lost ' + lost.decision.command(lost.board.direction)] if lost else []
    if word == 'order':
        client.order_roll()
        return ['ordered']
    if word == 'withdraw':
        client.withdraw_roll()
        return ['withdrawn']
    if word == 'move' or step in DECISIONS:
        return commands(client.decide(decision_of(step)))
    return commands(client.plain(step.encode()))


def says(client, step, cut):
    """What the client says to a step, or the name of its refusal."""
    try:
        return '; '.join(answer(client, step, cut))
    except fibs.Error as why:
        return why.name


def whole(piece):
    return [piece]


def byte_by_byte(piece):
    return [piece[at:at + 1] for at in range(len(piece))]


def after(place):
    return lambda piece: [piece[:place], piece[place:]]


def tell(counts, name, steps, cut, how):
    """The client says what is beside each step, up to the first at which it does not."""
    with fibs.Client(*LOGIN) as client:
        for number, (step, wanted) in enumerate(steps, 1):
            said = says(client, step, cut)
            if said != wanted:
                break
    counts.same(said, wanted, '%s, %s, step %d' % (name, how, number))


def check(counts, cases):
    """Each history by whole lines, byte by byte, and with one cut: over the cases the cuts are at all places of a
    line."""
    for first, (name, steps) in enumerate(cases):
        tell(counts, name, steps, whole, 'whole')
        tell(counts, name, steps, byte_by_byte, 'byte by byte')
        for place in range(first % 4, 160, 4):
            tell(counts, name, steps, after(place), 'cut after %d bytes' % place)


def decisions_wait_for_boards_that_differ(counts):
    check(counts, histories.DECISIONS)


def nothing_passes_into_the_next_connection(counts):
    check(counts, histories.CONNECTIONS)


def first_messages_are_answered_once(counts):
    check(counts, histories.MESSAGES)


def where_the_server_plays_the_user_does_not_decide(counts):
    check(counts, histories.FLAGS)


def bytes_become_lines_however_they_are_cut(counts):
    check(counts, histories.BYTES)


def boards_are_shown_and_other_commands_sent(counts):
    check(counts, histories.BOARDS)


def standing_orders_roll_where_they_are_due(counts):
    check(counts, histories.ORDERS)


def ready():
    """A client that may decide as soon as a board is shown."""
    client = fibs.Client(*LOGIN)
    client.open()
    hear(client, line('WELCOME') + line('INFO'))
    return client


def refusal(call, *words):
    """The name of what a call answers that is refused, or None."""
    try:
        call(*words)
    except fibs.Error as why:
        return why.name
    return None


def board(name):
    return fibs.Board(NAMED[name].encode())


ROLL = fibs.ROLL


def a_roll_of_an_order_is_told_as_one(counts):
    """A client says whether an order is in force, and what it has sent."""
    client = ready()
    counts.check(not client.ordered, 'no order is in force')
    counts.same(refusal(client.order_roll), None, 'an order')
    counts.check(client.ordered, 'an order is in force')
    taken, = client.feed(line('MUST_ROLL'))
    counts.check(taken.rolled and taken.confirmed is None, 'it rolls')
    counts.same(commands(taken.send), ['roll'], 'one command')
    asked = fibs.Outstanding(ROLL, board('MUST_ROLL'))
    counts.same(client.waiting, asked, 'it waits')
    counts.check(client.ordered, 'it is in force until it is withdrawn')
    counts.same(client.lose(), asked, 'it is lost')
    counts.check(not client.ordered, 'offline no order is in force')
    client.open()
    counts.check(not client.ordered, 'a connection has orders of its own')


def a_line_is_shown_with_its_reading(counts):
    taken, = ready().feed(b'[board]\r\nrest')
    counts.same(taken.line, fibs.Line(b'[board]', fibs.TEXT, 0, 0, None, False), 'a text')
    counts.check(taken.send == b'' and taken.confirmed is None, 'nothing answers it')


def a_board_confirms_the_decision_with_its_board(counts):
    """With the board is said by the waiting decision; what confirms it has the decision alone."""
    client = ready()
    counts.check(client.shown is None, 'no board')
    hear(client, line('TO_ROLL'))
    first = board('TO_ROLL')
    counts.check(client.shown == first and client.waiting is None, 'a board')
    counts.same(commands(client.decide(ROLL)), ['roll'], 'a roll')
    counts.same(client.waiting, fibs.Outstanding(ROLL, first), 'it waits on its board')
    counts.same(list(client.feed(NAMED['TO_MOVE'].encode())), [], 'no line end')
    taken, = client.feed(b'\n')
    counts.same(taken.line.kind, fibs.BOARD, 'a board')
    counts.same(taken.confirmed, ROLL, 'it is confirmed')
    counts.check(client.shown == board('TO_MOVE') and client.waiting is None, 'another board')


def offline_no_board_is_shown_and_all_bytes_are_dropped(counts):
    client = ready()
    hear(client, line('TO_ROLL'))
    counts.check(client.shown is not None, 'a board is shown')
    counts.check(client.lose() is None, 'nothing waited')
    counts.check(client.shown is None, 'no board is shown')
    counts.same(list(client.feed(line('TO_ROLL'))), [], 'no line is taken')


def a_board_in_a_line_that_was_cut_is_a_text(counts):
    client = ready()
    counts.same(list(client.feed(NAMED['TO_ROLL'].encode() + b' ' * 17000)), [], 'no line end')
    taken, = client.feed(b'\r\n')
    counts.check(taken.line.cut and len(taken.line.text) == 16384, 'it is cut')
    counts.same(taken.line.kind, fibs.TEXT, 'it is a text')
    counts.same(refusal(client.decide, ROLL), 'NoBoard', 'no board is shown')
    hear(client, line('TO_ROLL'))
    counts.same(refusal(client.decide, ROLL), None, 'the next line is whole')


def a_run_rolls_by_a_standing_order(counts):
    """A run hands out the roll of an order among the other commands; an order itself hands out nothing."""
    steps = ['withdraw', 'open', 'order', 'order', 'line {WELCOME}', 'line {INFO}', 'line {MUST_ROLL}',
             'bytes {MUST_ROLL}', 'withdraw', 'bytes \r\n']
    told = ['Offline', 'login fibs_client 1008 ann secret', 'ordered', 'AlreadyOrdered', 'set boardstyle 3', 'board',
            'roll; rolled', '', 'withdrawn', '']
    tell(counts, 'a run', list(zip(steps, told)), whole, 'whole')


TESTS = [decisions_wait_for_boards_that_differ, nothing_passes_into_the_next_connection,
         first_messages_are_answered_once, where_the_server_plays_the_user_does_not_decide,
         bytes_become_lines_however_they_are_cut, boards_are_shown_and_other_commands_sent,
         standing_orders_roll_where_they_are_due, a_roll_of_an_order_is_told_as_one, a_line_is_shown_with_its_reading,
         a_board_confirms_the_decision_with_its_board, offline_no_board_is_shown_and_all_bytes_are_dropped,
         a_board_in_a_line_that_was_cut_is_a_text, a_run_rolls_by_a_standing_order]
