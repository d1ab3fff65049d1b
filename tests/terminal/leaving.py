"""Who would leave a match is asked once: by `quit`, `bye` and Ctrl-D, with lines that are edited and without."""

from escapes import BOARD
from people import begun, greeted, has_received, near_and_far, same, with_listener
from terminals import KINDS

SCENES = []

QUIT = 'You are in a match with bob: quit again leaves.'

BYE = 'You are in a match with bob: bye again leaves.'

# What follows either.
RESUMES = 'Most servers save it: invite bob then resumes it.'

# How it is said that the server has ended the connection, as one has asked.
CLOSED = 'closed, as you asked: open connects again, quit ends'


@near_and_far(SCENES, '--dice', '31')
def who_would_leave_a_match_is_asked(table):
    """Nothing is sent by it, another line forgets it, and the second one in a row leaves."""
    ann, bob = table.ann, table.bob
    table.begins()
    ann.hint()
    ann.type('quit')
    same('the rows', [ann.reads('You are in a match'), ann.next_line()], [QUIT, RESUMES])
    ann.type('say still here')
    bob.sees('12 ann still here')
    ann.type('quit')
    same('the row', ann.reads('You are in a match'), QUIT)
    ann.type('bye')
    same('the row', ann.reads('You are in a match'), BYE)
    ann.type('bye')
    ann.reads('sent bye')
    ann.reads(CLOSED)
    ann.type('open')
    ann.reads('Welcome, ann')
    # the match is saved, and the row told how it is resumed: nobody is asked
    ann.type('invite bob')
    bob.sees("Type 'join ann' to accept.")
    ann.type('quit')
    ann.ends(0)
    same('rows', [row for row in ann.lines() if row.startswith('You are in a match')], [QUIT, QUIT, BYE])
    ann.was_not_refused()


@near_and_far(SCENES, '--dice', '31')
def the_second_quit_in_a_row_leaves(table):
    """Whatever the server says between the two; before the match it is the first."""
    ann, bob = table.ann, table.bob
    table.begins()
    ann.hint()
    ann.type('quit')
    ann.reads(QUIT)
    bob.send('say stay')
    ann.reads('bob says: stay')
    ann.type('QUIT ')
    ann.ends(0)
    bob.sees('8 ann ..')


@with_listener
def ctrl_d_is_quit(server):
    """In a match it asks, also at the end of a line that is half typed; then it leaves."""
    for kind in KINDS:
        for typed, sent in (b'', []), (b'say hi', ['say hi']):
            if typed and kind != 'dumb':
                # there the key deletes the next letter of the line
                continue
            player = begun(server, kind)
            greeted(server, player)
            server.send(BOARD)
            player.is_shown('Your turn: roll, or double.')
            player.type_bytes(typed + b'\x04' * (1 + len(sent)))
            player.is_shown(QUIT)
            player.type_bytes(b'\x04')
            player.ends(0)
            has_received(server, *sent)
            player.close()


SCENES += [ctrl_d_is_quit]
