"""What may hold anything: files of settings, names, long lists, saved matches. It is shown, and nothing acts on it."""

import os
import pathlib
import random
import re
import tempfile

from company import listed, rows_after
from escapes import BOARD
from people import PROGRAM, Terminal, greeted, same, with_listener
from seats import drawn

SCENES = []

# Lines of a file of settings, each of which is one.
SETTINGS = [b'', b'# a remark', b'quiet', b'words', b'no colour', b'no color', b'no bell', b'no title', b'order roll',
            b'home above', b'gag bob', b'gag ' + b'n' * 64, b'letters @ o', b'letters # %',
            b'server localhost 4321 ann', b'log a log', b'  quiet \r', b'\tgag carl']

# What a picture has beside checkers.
OF_PICTURES = b'+-|0123456789BAR'

FILES = 400

# What is said is shown with each file of a folder, up to one of this number.
SHOW_WITH_EACH = 'for file in $(seq 0 "$2"); do FIBS_CONFIG=$1/$file "$0" show < "$1/said"; echo "ended $?"; done'


def scene(does):
    """A decorator: the scene is one of those that are played."""
    SCENES.append(does)
    return does


def is_setting(line):
    """Whether a line of the file is one of those that docs/PLAYING.md lists."""
    line = line.strip(b' \t\n\r\f')
    word, space, rest = line.partition(b' ')
    if word == b'gag':
        return re.fullmatch(rb'[!-9;-~]{1,64}', rest) is not None
    if word == b'letters':
        own, _, other = rest.partition(b' ')
        return own != other and all(re.fullmatch(rb'[!-~]', each) and each not in OF_PICTURES for each in (own, other))
    if word in (b'server', b'log'):
        return space == b' '
    return line in SETTINGS or line.startswith(b'#')


def changed(chance, line):
    """A line of which a byte or some are others, are gone, or are there twice."""
    for _ in range(chance.randrange(1, 3)):
        at = chance.randrange(len(line) + 1)
        more = bytes([chance.choice([0, 9, 27, 32, 35, 58, 127, 155, 255, chance.randrange(256)])])
        line = line[:at] + chance.choice([more, b'', line[at:at + 1] * 2]) + line[at + chance.randrange(2):]
    return line.replace(b'\n', b' ')


def some_lines(chance):
    """The lines of a file: of any bytes, or some of settings that are changed."""
    if chance.randrange(2):
        return [bytes(chance.randrange(256) for _ in range(chance.choice([0, 1, 3, 20, 300]))).replace(b'\n', b'')
                for _ in range(chance.randrange(1, 12))]
    return [changed(chance, line) if chance.randrange(2) else line
            for line in chance.choices(SETTINGS, k=chance.randrange(1, 12))]


@scene
def files_of_any_bytes_are_answered_line_by_line():
    """Some hundred: the file and the number of each line that is no setting are said, of no other one; the last line is
    always taken, and the program goes on."""
    chance = random.Random(67)
    with tempfile.TemporaryDirectory() as folder:
        said = pathlib.Path(folder, 'said')
        said.write_text('12 dirk psst\n12 eve a word\n')
        files = [some_lines(chance) + [b'gag dirk'] for _ in range(FILES)]
        for number, lines in enumerate(files):
            pathlib.Path(folder, '%d' % number).write_bytes(b'\n'.join(lines))
        words = ['sh', '-c', SHOW_WITH_EACH, PROGRAM, folder, '%d' % (FILES - 1)]
        terminal = Terminal(words, LC_ALL='C', TERM='dumb', FIBS_QUIET='1')
        terminal.ends(0)
        same('bytes that a terminal obeys', sorted(set(bytes(terminal.seen)) - set(range(32, 127)) - {10, 13}), [])
        shown = terminal.screen().split('ended 0\n')
        same('how many were answered', len(shown), FILES + 1)
        terminal.close()
        for number, (lines, rows) in enumerate(zip(files, shown)):
            wrong = [at for at, line in enumerate(lines, 1) if not is_setting(line)]
            path = os.path.join(folder, '%d' % number)
            found = re.findall(r'^fibs: line (\d+) of (\S+) is no setting:', rows, re.M)
            same('lines of %r' % lines, found, [('%d' % at, path) for at in wrong])
            same('talk after %r' % lines, ('eve says: a word' in rows, 'psst' in rows), (True, False))


@scene
@with_listener
def a_list_of_4096_players_is_listed(server):
    """At most a screen of it, and all if one asks; every row fits, and she plays on."""
    ann = greeted(server)
    names = ['p%04d' % at + '\\|+'[at % 3] * (at % 60) for at in range(4096)]
    listed(server, ann, [(name, '-', 1500, at, 0, 1) for at, name in enumerate(names)])
    # it does not fit a row
    ann.reads('5.')
    rows = rows_after(ann, 'players', 'players all')
    same('a screen', (len(rows), rows[-1]), (19, '.. 4080 more: players all'))
    rows = rows_after(ann, 'players all', '4096 players.')
    same('all', sorted(row.split(' ')[0] for row in rows[1:-1] if row[0] == 'p' and row[1].isdigit()),
         sorted(name[:20] for name in names))
    server.send('5 one_more - - 1 0 1500.00 1 0 1041253132 localhost - -', '6', BOARD, '12 x y')
    ann.reads('x says: y')
    same('every row fits', [row for row in ann.lines() if len(row) > 79], [])
    ann.type('roll')
    ann.reads('sent roll')
    same('what was sent', server.line(), 'roll')
    ann.close()


# The first is of 64 bytes; the others look like what the screen itself says, or like what is typed.
NAMES = ['n' * 64, '+13-14-15', '|||', 'O', 'X', 'You', '**', "s's", '$(id)', '`id`', '%s%n', '\\x1b[2J', '?', 'roll',
         'quit', "You're", '[8', '>>']


@scene
@with_listener
def opponents_may_have_any_names(server):
    """The board is drawn, and what may be typed is as ever; nothing goes to the server by itself."""
    ann = greeted(server)
    for name in NAMES:
        server.send(BOARD.replace(':bob:', ':%s:' % name), '12 %s word' % name, '12 x that is all')
        rows = []
        while not rows or not rows[-1].endswith('x says: that is all'):
            rows.append(ann.next_line())
        at = rows.index(next(row for row in rows if row.startswith(' +13-14-')))
        same('the opponent %s' % name, rows[at][47:], 'X ' + name[:30])
        places = drawn(rows[at:at + 13])
        same('checkers on 24, 13, 8 and 6 against %s' % name, [places[place] for place in (24, 13, 8, 6)], [2, 5, 3, 5])
        same('every row fits', [row for row in rows if len(row) > 79], [])
        ann.type('help')
        ann.advised('hint', 'roll', 'double')
    ann.quits()
    same('what was sent', server.line(), None)


# How FIBS answers `show saved`: the first row, with and without spaces before it, and rows of a match.
HEAD = '  opponent          matchlength   score (your points first)'
KNOWN_HEADS = [HEAD, HEAD.lstrip(), 'opponent matchlength score (your points first)']
KNOWN_ROWS = [('  bob                     3          2 -  0', '2-0 of 3'),
              ('**bob                     3          2 -  0', '2-0 of 3'),
              (' *bob                    15         12 - 14', '12-14 of 15'), ('bob unlimited 10 - 7', '10-7'),
              ('  bob                  9999          0 -  0', '0-0')]
# What it never sent: below such a first row the numbers may say something else, and such a row is none of a match.
OTHER_HEADS = ['  opponent   score (your points first)   matchlength', '  opponent   pips   score (your points first)',
               '  opponent          matchlength   score (points of the opponent first)', 'opponent matchlength score',
               '  player            matchlength   score (your points first)', 'Your saved matches:', 'opponent ',
               '  opponent  games  matchlength   score (your points first)', HEAD + ' *']
OTHER_ROWS = ['  bob   3   2-0', '  bob   2 - 0   3', '  bob   3   2 -  0   crawford', '  bob   three   2 -  0',
              '  bob   3   2 :  0', '  bob', '  bob   3   -2 -  0', '  bob   3   02 -  0', '  bob vs. eve   3   2 - 0',
              '  bob   3   2 - 99999999999', '  bob\t3\t2 - 0', 'opponent bob 3 2 - 0', '  3   2 - 0']


@scene
@with_listener
def what_is_no_list_of_saved_matches_says_nothing(server):
    """Each form of the server's answer is read; of any other one each row is shown, and nothing is said of a match."""
    ann = greeted(server)
    cases = [(head, row, wanted) for head in KNOWN_HEADS for row, wanted in KNOWN_ROWS]
    cases += [(head, row, None) for head in OTHER_HEADS for row, _ in KNOWN_ROWS]
    cases += [(head, row, None) for head in KNOWN_HEADS for row in OTHER_ROWS]
    for head, row, wanted in cases:
        server.send('no saved games.', head, row, '7 bob bob logs in.', '12 x that is all')
        rows = []
        while not rows or not rows[-1].endswith('x says: that is all'):
            rows.append(ann.next_line())
        said = ['bob is here: your match (%s) is saved: invite bob.' % wanted] if wanted else []
        same('what is said of %r, %r' % (head, row), [each for each in rows if 'is here' in each], said)
        missing = [each for each in (head, row.replace('\t', '\\x09')) if each not in rows]
        same('rows that are not shown', missing, [])
    ann.close()
