"""What the rows of a screen say: each kind of row, its words, and the lines that it tells to type.

This is the one place of the exact words: a scene asks for a kind, and for a line that a row of it names.
"""

import re

MOVE = r'move(?: (?:bar|\d+)-(?:off|\d+))+'
SEND = r'send (?:roll|double|accept|reject|%s)' % MOVE
# a decision in place of the one that waits, or two
WAY = r'(?:roll|double|accept|reject|%s)' % MOVE
WAYS = r'(%s)(?:, or (%s))?\.' % (WAY, WAY)

# Kinds: `hint`, what the client takes now; `answer`, an offer of which texts alone tell; `board`, that is to be asked
# for, and `doubles`, that it is for a double; `go on`, what is decided in place of what waits; `wait`, what is said if
# one asks; `next`, between two games; `again`, after a match; `gone`, a match that may be saved; `invited`; `auto`, the
# server plays by itself; `open`, there is no connection; `leave`, a match is on; `login`, it was refused.
ROWS = [(kind, re.compile(form), more) for kind, form, *more in [
    ('hint', r'Your turn: (roll)\.'),
    ('hint', r'Your turn: (roll), or (double)\.'),
    ('hint', r'Your turn: (roll); the server refused a double in this game\.'),
    ('hint', r'Your turn: (roll); your double is accepted\.'),
    ('hint', r'You are offered a double: (accept), or (reject)\.'),
    ('hint', r'You are offered a double: (reject)\.'),
    ('hint', r'Your move, as in: (%s)' % MOVE),
    ('answer', r'\S+ offers to resign: (accept), or (reject)\.'),
    ('answer', r'\S+ waits for your answer: (accept), or (reject)\.'),
    ('wait', r'\S+ may wait for your answer: (accept), or (reject)\.'),
    ('doubles', r'\S+ doubles: (board), then accept, or reject\.'),
    ('board', r'It may be your turn: (board) shows the game\.'),
    ('board', r'\S+ was refused: (board) shows the game\.'),
    ('go on', r'\S+ declined\? Go on: %s' % WAYS),
    ('go on', r'The board is as it was: %s' % WAYS),
    ('wait', r'If it is your turn: %s' % WAYS),
    ('wait', r'\S+ may still have to answer your offer\.'),
    ('wait', r'\S+ has not answered yet\.'),
    ('wait', r'If the game goes on: (%s)' % SEND),
    ('wait', r'If the game goes on: (roll|accept|%s)' % MOVE),
    ('wait', r'\S+ was sent: (board) asks what became of it\.'),
    ('next', r'The game is over: (join) goes on, (leave) saves the match\.'),
    ('wait', r'\S+ has not joined yet\.'),
    ('gone', r'Your match may be saved: (invite \S+),'),
    ('gone', r'or (join \S+), if you are invited\.'),
    ('wait', r'\S+ is not here now: your match may be saved\.'),
    ('invited', r'You are invited: (join \S+)'),
    ('invited', r'\S+ (?:\(.*\) )?invites you to .*: (join \S+)'),
    ('gone', r'\S+ is here: your match \(.*\) is saved: (invite \S+)\.'),
    ('gone', r'(invite \S+)\.'),
    ('again', r'(invite \S+ \d+) plays another match; (players ready) lists others\.'),
    ('auto', r'You logged in with automove or greedy on: (fix) logs in again(?: with both off)?\.'),
    ('auto', r'The server plays for you: (fix) turns it off; the same line again goes out\.'),
    ('open', r'(?:lost|closed).*: (open) connects again, (quit) ends'),
    ('open', r'no connection to .*', 'open', 'quit'),
    # its last words go on in another row if the name is long
    ('leave', r'You are in a match.*: (quit|bye)(?: again)?(?: leaves\.)?'),
    ('login', r'Not logged in: wrong name or password\? If nothing follows, type (quit)\.'),
    # what was said in place of `go on`, before the screen knew what a text says
    ('old', r'(?:.* )?or the server refused, (send .*); or (bye) and open\.'),
]]

# What a screen says if something was not done.
REFUSED = re.compile(r'.*\[\d+ [A-Z][A-Za-z]+\]|(?:refused|fault) \d+ \w+|unknown.*|No: .*|Type it without send: .*'
                     r'|[Nn]ot a word of this client.*')

# What went to the server, in full.
SENT = re.compile(r"sent as it is: (.*)|sent (?:again: |on the server's word: )?(?:(move .*?) \(in your numbers.*|(.*?)"
                  r'(?:, as ordered)?)')

# The same of a move, in the numbers of who has typed it.
OWN = re.compile(r'sent move .*? \(in your numbers (.*)\)')

# What the server says, that one goes by too.
INVITED = re.compile(r"(?:Type '|\S+ (?:\(.*\) )?invites you to .*: |You are invited: )(join [^\s']+)(?:' to accept\.)?")
ENDED = re.compile(r'(?:(?:You win|\S+ wins) (?:the game.*, and )?|and )the \d+ point match .*')


def read(row):
    """The kind of a row, and the lines that it names; ('', []) if it advises nothing."""
    for kind, form, more in ROWS:
        if found := form.fullmatch(row):
            return kind, [line for line in found.groups() if line] + more
    return '', []


def sent_by(row):
    """The line that went to the server, if a row says so."""
    found = SENT.fullmatch(row)
    return (found[1] or found[2] or found[3]) if found else None


def typed_as(row):
    """The same line as the user types it: a move in his own numbers, if the row says those too."""
    found = OWN.fullmatch(row)
    return 'move ' + found[1] if found else sent_by(row)
