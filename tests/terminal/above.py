"""The board stays in sight: the newest one stands in the upper rows while what is said scrolls below; after one's own
move the board is drawn as it then is; one who watches sees a board without asking for it."""

import os
import signal
import time

from partners import NARROW, board_of
from people import FAR, PATIENCE, Failed, Person, Served, begun, greeted, has_received, leaves, same, with_listener
from screen import Screen
from terminals import RLWRAP
from watching import board as watched_board

SCENES = []

# The board at the beginning of a game, and what is beside it.
EDGE = ' +13-14-15-16-17-18-+---+19-20-21-22-23-24-+   X bob'
LAST = ' +12-11-10--9--8--7-+---+-6--5--4--3--2--1-+   O You'
HEIGHT = 13


def scene(does):
    """A decorator: the scene is one of those that are played."""
    SCENES.append(does)
    return does


class Seen:
    """What stands on the screen of one at a terminal."""

    def __init__(self, ann, columns, rows):
        self.ann, self.screen, self.at = ann, Screen(columns, rows), 0

    def now(self):
        """The rows as they are."""
        with self.ann.news:
            piece, self.at = bytes(self.ann.seen[self.at:]), len(self.ann.seen)
        self.screen.takes(piece)
        return self.screen.text()

    def until(self, what, is_so, seconds=PATIENCE):
        """The rows as soon as they are so."""
        end = time.monotonic() + seconds
        while not is_so(rows := self.now()):
            if time.monotonic() > end:
                raise Failed('never: %s; there is %r' % (what, rows))
            with self.ann.news:
                self.ann.news.wait(0.1)
        return rows

    def resizes(self, columns, rows):
        self.now()
        self.ann.resizes(columns, rows)
        self.screen.resizes(columns, rows)


def is_above(rows, dice, turn='your turn'):
    """The board stands above, with these dice, and a free row below it."""
    return (rows[0] == EDGE and rows[12] == LAST and rows[13] == '' and rows[7].endswith(turn)
            and rows[8].endswith('dice  ' + dice) and LAST not in rows[13:])


def player(server, columns, rows, edits, **more):
    """Ann, who was greeted, and what is on her screen."""
    size = {'columns': columns, 'rows': rows, 'NO_COLOR': '1', 'TERM': 'xterm', **more}
    if edits:
        ann = greeted(server, begun(server, 'xterm', **{**size, 'LINES': None, 'COLUMNS': None}))
    else:
        ann = greeted(server, Person(server.port, **{**size, 'LINES': str(rows), 'COLUMNS': str(columns)}))
    return ann, Seen(ann, columns, rows)


def players(server, *sizes):
    """Ann with and without what edits lines, on terminals of these sizes."""
    for columns, rows in sizes:
        for edits in [False] + [True] * bool(RLWRAP):
            yield columns, rows, edits, *player(server, columns, rows, edits)


@scene
@with_listener
def the_newest_board_stands_above(server):
    """Dice that are rolled are there at once; talk that floods, a line that is being typed and help leave it there."""
    for columns, rows, edits, ann, seen in players(server, (80, 40), (120, 40), (80, 30)):
        server.send(board_of(1))
        seen.until('the board', lambda rows: is_above(rows, '-'))
        server.send(board_of(1, own=(4, 3)))
        seen.until('dice', lambda rows: is_above(rows, '4 3') and 'You roll 4 and 3.' in rows)
        # at 120 columns it takes two rows
        line = 'tell bob I a' + 'b' * (columns - 10 if columns == 120 else 0)
        ann.type_bytes(line.encode())
        seen.until('what is typed', lambda rows: line in ''.join(rows))
        for number in range(60):
            server.send('12 eve row %d' % number)
            if number % 20 == 0:
                time.sleep(0.02)
        server.send(board_of(-1, changes=[(24, -1), (20, 1), (13, -1), (10, 1)]))
        seen.until('all of it', lambda rows: is_above(rows, '-', "the opponent's turn"))
        found = seen.until('its row', lambda rows: "bob's turn." in rows)
        if edits:
            found = seen.until('the line again', lambda rows: ''.join(rows).endswith(line))
        same('talk', sum(row.endswith('eve says: row 59') for row in found), 1)
        ann.type_bytes(b'm here\n')
        same('what was typed', server.line(), line + 'm here')
        ann.type('help')
        seen.until('help', lambda rows: any('help WORD says more' in row for row in rows) and rows[0] == EDGE)
        ann.quits()
        seen.now()
        same('all rows scroll at the end', seen.screen.scrolls_whole(), True)
        has_received(server, line + 'm here')
        ann.close()


@scene
@with_listener
def what_was_lost_of_a_screen_comes_again(server):
    """After a Ctrl-L, and after a window of another size, by the next board or the next line; a stop and fg."""
    if not RLWRAP:
        return
    ann, seen = player(server, 80, 40, True)
    server.send(board_of(1))
    seen.until('the board', lambda rows: is_above(rows, '-'))
    ann.type_bytes(b'tell bob\x0c')
    seen.until('what is typed on a screen that was wiped',
               lambda rows: rows[0] != EDGE and any(row.startswith('tell bob') for row in rows))
    server.send(board_of(1, own=(4, 3)))
    rows = seen.until('the board', lambda rows: is_above(rows, '4 3'))
    ann.type_bytes(b' hi\n')
    same('what was typed', server.line(), 'tell bob hi')
    # which row says so is above no other one
    for columns, high in (100, 36), (80, 44), (120, 40):
        seen.resizes(columns, high)
        ann.type('tell bob here')
        same('what was typed', server.line(), 'tell bob here')
        seen.until('the board at %d by %d' % (columns, high), lambda rows: is_above(rows, '4 3'))
    ann.type_bytes(b'\x1a')
    ann.is_stopped()
    ann.to_the_foreground()
    ann.type('tell bob back')
    same('what was typed', server.line(), 'tell bob back')
    server.send(board_of(-1))
    seen.until('the board', lambda rows: is_above(rows, '-', "the opponent's turn"))
    # a terminal that is too low, and high again
    seen.resizes(80, 24)
    ann.type('tell bob low')
    same('what was typed', server.line(), 'tell bob low')
    seen.until('all rows scroll', lambda rows: seen.screen.scrolls_whole() and 'sent tell bob low' in rows)
    leaves(ann, server, 'tell bob hi', *['tell bob here'] * 3, 'tell bob back', 'tell bob low')
    ann.close()


@scene
@with_listener
def a_board_stands_above_only_where_it_may(server):
    """Not on a lower terminal, unless she says so and it has room; not if it is dumb; not in words. At 40 by 24 it has
    no room."""
    kinds = [(80, 24, {}), (80, 40, {'TERM': 'dumb'}), (80, 40, {'FIBS_WORDS': '1'}), (40, 24, {})]
    for columns, rows, more in kinds:
        ann, seen = player(server, columns, rows, False, **more)
        server.send(board_of(1), '12 x y')
        ann.sees('x says: y')
        ann.type('board above')
        has_room = (columns, more) == (80, {})
        answer = {(80, 24): 'The newest board stands above now', (40, 24): 'This terminal is too low for a board'}
        wanted = answer[columns, rows] if not more else {'TERM': "can't keep a board above",
                                                         'FIBS_WORDS': 'Boards are told in words here'}[min(more)]
        ann.sees(wanted)
        seen.until('the answer', lambda rows: wanted.split()[-1] in ' '.join(rows))
        same('rows that stay, %r' % ((columns, rows, more),), seen.screen.scrolls_whole(), not has_room)
        same('the board above', seen.now()[0] == EDGE, has_room)
        leaves(ann, server)
        ann.close()
    ann, seen = player(server, 40, 40, False)
    server.send(board_of(1))
    seen.until('a narrow board', lambda rows: rows[:HEIGHT] == [row.rstrip() for row in NARROW[:HEIGHT]])
    leaves(ann, server)
    ann.close()


@scene
@with_listener
def whatever_ends_it_all_rows_scroll_again(server):
    """The program or what edits lines is killed, or the shell gets a signal."""
    for signal_number in signal.SIGTERM, signal.SIGKILL, signal.SIGHUP:
        if not RLWRAP:
            return
        ann, seen = player(server, 80, 40, True)
        server.send(board_of(1))
        seen.until('the board', lambda rows: is_above(rows, '-'))
        same('rows that stay', seen.screen.top, HEIGHT + 1)
        if signal_number == signal.SIGKILL:
            for process in ann.below():
                os.kill(process, signal_number)
            ann.ends(137)
        else:
            os.kill(ann.job, signal_number)
            ann.ends(128 + signal_number)
        seen.until('all rows scroll', lambda rows: seen.screen.scrolls_whole())
        ann.close()


@scene
def a_slow_wire_with_portions_shows_each_board_above():
    """A game against a bot over a wire with delay: at each of her turns the board above is that of the turn."""
    server = Served('--bot', 'eve', '--seed', '4', *FAR)
    try:
        ann = Person(server.port, columns=80, rows=40, LINES='40', COLUMNS='80', TERM='xterm', NO_COLOR='1')
        seen = Seen(ann, 80, 40)
        ann.reads('Welcome, ann')
        ann.type('invite eve 1')
        for _ in range(4):
            hint = ann.hint()
            rows = seen.until('her turn', lambda rows: rows[0].startswith(' +') and rows[7].endswith('your turn'))
            same('the dice', rows[8].endswith('-'), hint == 'roll')
            ann.type(hint)
        ann.quits()
    finally:
        server.close()


@scene
@with_listener
def the_board_after_a_move_is_drawn_ahead(server):
    """Where boards scroll: before the server has said anything, and once; in words a row says it."""
    for more, wanted in ({}, True), ({'FIBS_WORDS': '1'}, False):
        ann = greeted(server, **more)
        server.send(board_of(1, own=(4, 3)))
        move = next(line for line in ann.advised('hint') if line.startswith('move'))
        ann.type('move 24-20 13-10')
        same('what was sent, not %s' % move, server.line(), 'move 24-20 13-10')
        rows = []
        while rows[-1:] != ['Sent, not confirmed by the server yet.']:
            rows.append(ann.next_line())
        same('a picture in %r' % rows, rows[-14:-12] == [EDGE, ' | O           X    |   | X  O           O |     score 0'],
             wanted)
        server.send(board_of(-1, changes=[(24, -1), (20, 1), (13, -1), (10, 1)]), '12 x y')
        rows = []
        while 'x says: y' not in (rows[-1:] or [''])[0]:
            rows.append(ann.next_line())
        same('what its board brings', [row for row in rows[:-1] if row], ["bob's turn."])
        leaves(ann, server, 'move 24-20 13-10')
        ann.close()


@scene
@with_listener
def one_who_watches_sees_a_board(server):
    """It is asked for once, by itself, if none comes; not if the server refuses, and not for a text that comes again."""
    ann = greeted(server)
    ann.type('watch zoe')
    same('what was sent', server.line(), 'watch zoe')
    server.send('** There is no one called zoe.', '12 x one')
    ann.reads('x says: one')
    ann.type('watch bob')
    same('what was sent', server.line(), 'watch bob')
    server.send("You're now watching bob.")
    same('what is asked for', server.line(), 'board')
    server.send(watched_board(), '12 x two')
    ann.reads('You watch bob and eve: unwatch ends it.')
    for _ in range(3):
        server.send("You're now watching bob.", '12 x three')
        ann.reads('x says: three')
    ann.type('watch eve')
    same('what was sent', server.line(), 'watch eve')
    # a board comes by itself
    server.send("You're now watching eve.", watched_board(('eve', 'bob')), '12 x four')
    ann.reads('x says: four')
    ann.type('tell bob hi')
    same('nothing more', server.line(), 'tell bob hi')
    leaves(ann, server, 'watch zoe', 'watch bob', 'board', 'watch eve', 'tell bob hi')
    ann.close()
