"""What the typed lines, refusals and statuses of `fibs` mean: the one table to which tests/surface.py holds every page.

Each meaning is a pattern that a description has to have, wherever it is: in the man page, the help, the words and the
help of a terminal, docs/PLAYING.md, docs/FORMATS.md, the header for C, the package for Python, the code.
"""

# What a typed line does. The words of a terminal alone are below.
TYPED = {
    'roll': r'roll|game',
    'move': r'play|move|game',
    'double': r'double|cube|game',
    'accept': r'accept|take|game',
    'reject': r'reject|give|game',
    'resign n': r'single|a game',
    'resign g': r'gammon',
    'resign b': r'backgammon',
    'order roll': r'may not double',
    'withdraw roll': r'withdraw|no more|no longer',
    'board': r'board.*(again|once more)',
    'who': r'list',
    'say': r'opponent',
    'kibitz': r'play.*watch|at the board',
    'whisper': r'watch',
    'tell': r'player',
    'message': r'later|leaves|left',
    'shout': r'\ball\b',
    'invite': r'points|match',
    'join': r'invit|match|part',
    'toggle ready': r'ready',
    'toggle automove': r'server plays',
    'toggle greedy': r'server plays',
    'bye': r'leave',
    'players': r'player',
    'open': r'connect.*again',
    'quit': r'\bend',
}

# The words of which only a terminal knows. A page that names one says so.
TERMINAL = {
    'help': r'type|word',
    'players ready': r'invited',
    'players playing': r'who plays?',
    'players all': r'\ball\b',
    'plays': r'legal',
    'plays more': r'next',
    'moves': r'so far',
    'moves all': r'\ball\b|last 20',
    'matches': r'matches.*ended',
    'reconnect': r'opens? .*again|opened again|by itself',
    'stay': r'closed|ends? (this|that)',
    'fix': r'\boff\b',
    'columns': r'wide|width',
    'rows': r'\bhigh\b|height',
    'board above': r'upper rows|in sight',
    'board below': r'scroll',
    'numbers own': r'\b24\b|\bown\b',
    'numbers server': r'server',
    'try': r'board after',
    'go': r'sends? ',
    'words': r'in words',
    'words score': r'\brow\b',
    'words cube': r'\brow\b',
    'words short': r'left out|leave out|by what is new',
    'words long': r'whole',
    'gag': r'player|NAME|says',
    'ungag': r'again',
    'quiet': r'shout',
    'loud': r'shout',
    'arrivals': r'match',
    'talk': r'last 20',
    're': r'spoke to you last',
    'watch': r'as it is|as they are',
    'unwatch': r'as it is|as they are',
    'leave': r'as it is',
    'whois': r'as it is',
    'away': r'as it is|as they are',
    'back': r'as it is|as they are',
    'redouble': r'as it is',
    'pip': r'as it is',
    'show saved': r'as it is',
    'send': r'as it is',
}

# Number and name of each refusal of a client, and what its description has to have.
REFUSALS = [
    (1, 'AlreadyOpen', r'is a connection|(?<!no )connection is open|connected'),
    (2, 'Offline', r'no connection'),
    (3, 'NotReady', r'greeted|message 1|logged in'),
    (4, 'ServerPlays', r'automove|by itself|plays for you'),
    (5, 'NoBoard', r'board on which (you|the user) plays?|in no match'),
    (6, 'Waiting', r'decided|decision was sent'),
    (7, 'NotYours', r'not for you|nothing for you|does not decide'),
    (8, 'WrongKind', r"not that|cube|can't be done"),
    (9, 'IllegalPlay', r'rules|not legal'),
    (10, 'NotOn', r'turn it on|turns off|off already|is off, or will be'),
    (11, 'AlreadyOrdered', r'^(?!.*\bno (standing )?order).*order.*(already|in force)'),
    (12, 'NotOrdered', r'\bno (standing )?order'),
]

# The same of the faults of a plain command or a login, of a board without a position, of a field, and of a directory.
FAULTS = [
    (1, 'BadName', r'\bname\b'),
    (2, 'BadText', r'text.*(empty|printable)'),
    (3, 'TooLong', r'text.*(400|too many)'),
]

# Of a login, what a text may not be and how long it may be is another thing; its name is as any other.
LOGINS = [
    (2, 'BadText', r'password.*printable'),
    (3, 'TooLong', r'password.*64'),
]

POSITIONS = [
    (1, 'NotYou', r'`You`|watch'),
    (2, 'TooManyOwn', r'the player.*15'),
    (3, 'TooManyOther', r'the opponent.*15'),
]

FIELDS = [
    (1, 'Missing', r'not there|ends before'),
    (2, 'Extra', r'too many|follows the last'),
    (3, 'NotANumber', r'not spelled as a number'),
    (4, 'OutOfRange', r'may (not )?have'),
    (5, 'BadName', r'a name, a word or a tail'),
]

DIRECTORY = [(1, 'Memory', r'memory'), (2, 'Full', r'name.*(4096|already)|4096.*name')]

# The same of the events of a script that are refused.
EVENTS = [
    (1, 'Memory', r'memory'),
    (2, 'AlreadyOpen', r'(?<!no )connection is open'),
    (3, 'NotOpen', r'no connection is open'),
    (4, 'NoSuchConnection', r'never was'),
    (5, 'NothingToServe', r'whole line'),
    (6, 'UserDecides', r'user decides'),
    (7, 'BoardAsText', r'more than one line'),
    (8, 'BadBoard', r'not good'),
    (9, 'BadDice', r'1 to 6'),
]

# Where the code has each of them: the file, the enum.
ENUMS = [
    ('fibs_game/src/refusal.rt', 'Refusal', REFUSALS),
    ('fibs_commands/src/plain.rt', 'PlainFault', FAULTS),
    ('fibs_position/src/position_fault.rt', 'PositionFault', POSITIONS),
    ('fibs_fields/src/fault.rt', 'Fault', FIELDS),
    ('fibs_messages/src/directory/fault.rt', 'DirectoryFault', DIRECTORY),
    ('fibs_game/src/world_refusal.rt', 'WorldRefusal', EVENTS),
]

# The statuses of the library for C: a family's hundred, and what its names begin with.
FAMILIES = [(0, '', REFUSALS), (100, '', FAULTS), (200, '', POSITIONS), (300, 'Field', FIELDS), (400, '', DIRECTORY)]

# The statuses, and what the description of each has to have.
STATUSES = {
    0: r'done|help',
    2: r'command line|arguments',
    3: r'refused',
    4: r'read|input',
    5: r'memory',
}
