#!/usr/bin/env python3
"""Compares what `fibs show --json` prints with docs/lines.schema.json: tests/show_json.py PROGRAM

Each line has to be one JSON object that fits the schema, its members in the order of the schema. It has to give back
the line that was read, and to say what `fibs show` says of it. The rows of docs/FORMATS.md, worked out by hand, have to
be printed as they stand here. Prints a line for each case, and then `N passed, M failed`.
"""

import json
import pathlib
import random
import re
import shutil
import subprocess
import sys

sys.dont_write_bytecode = True
from props.checks import Failed, same, try_all  # noqa: E402
from props.schemas import fault_in, schema  # noqa: E402

ROOT = pathlib.Path(__file__).resolve().parent.parent
FORMATS = (ROOT / 'docs' / 'FORMATS.md').read_text()

BOARD = (b'board:You:someplayer:3:0:1:0:-2:0:0:0:0:5:0:3:0:0:0:-5:5:0:0:0:-3:0:-5:0:0:0:0:2:0:1:6:2:0:0:1:1:1:0:1:-1:'
         b'0:25:0:0:0:0:2:0:0:0')

WHO = b'5 someplayer mgnu_advanced - 0 0 1912.15 827 8 1040515752 192.168.143.5 3DFiBs -'

# Lines, and what is printed for each but the line itself, in the order in which it is printed.
ROWS = [
    (b'1 myself 1041253132 192.168.1.308',
     'message', {'number': 1, 'message': 'welcome', 'name': 'myself', 'last_login': 1041253132,
                 'last_host': '192.168.1.308'}),
    (b'2 myself 1 1 0 0 0 0 1 1 2396 0 1 0 1 3457.85 0 0 0 0 0 Australia/Melbourne',
     'message', {'number': 2, 'message': 'own_info', 'name': 'myself', 'allowpip': True, 'autoboard': True,
                 'autodouble': False, 'automove': False, 'away': False, 'bell': False, 'crawford': True,
                 'double': True, 'experience': 2396, 'greedy': False, 'moreboards': True, 'moves': False,
                 'notify': True, 'rating': 3457.85, 'ratings': False, 'ready': False, 'redoubles': '0',
                 'report': False, 'silent': False, 'timezone': 'Australia/Melbourne'}),
    (b'3', 'message', {'number': 3, 'message': 'motd_begin'}),
    (b'4 ', 'message', {'number': 4, 'message': 'motd_end'}),
    (WHO, 'message', {'number': 5, 'message': 'who_info', 'name': 'someplayer', 'opponent': 'mgnu_advanced',
                      'watching': None, 'ready': False, 'away': False, 'rating': 1912.15, 'experience': 827,
                      'idle': 8, 'login': 1040515752, 'hostname': '192.168.143.5', 'client': '3DFiBs',
                      'email': None}),
    (b'6', 'message', {'number': 6, 'message': 'who_info_end'}),
    (b'7 carol carol logs in.',
     'message', {'number': 7, 'message': 'login', 'name': 'carol', 'text': 'carol logs in.'}),
    (b'8 carol carol drops connection.',
     'message', {'number': 8, 'message': 'logout', 'name': 'carol', 'text': 'carol drops connection.'}),
    (b'9 carol 1041253132 see you tomorrow',
     'message', {'number': 9, 'message': 'message', 'name': 'carol', 'time': 1041253132, 'text': 'see you tomorrow'}),
    (b'10 carol', 'message', {'number': 10, 'message': 'message_delivered', 'name': 'carol'}),
    (b'11 carol', 'message', {'number': 11, 'message': 'message_saved', 'name': 'carol'}),
    (b'12 bob Want to play?',
     'message', {'number': 12, 'message': 'says', 'name': 'bob', 'text': 'Want to play?'}),
    (b'13 bob Anybody for a match?',
     'message', {'number': 13, 'message': 'shouts', 'name': 'bob', 'text': 'Anybody for a match?'}),
    (b'14 bob nice roll', 'message', {'number': 14, 'message': 'whispers', 'name': 'bob', 'text': 'nice roll'}),
    (b'15 bob lucky', 'message', {'number': 15, 'message': 'kibitzes', 'name': 'bob', 'text': 'lucky'}),
    (b'16 bob yes', 'message', {'number': 16, 'message': 'you_say', 'name': 'bob', 'text': 'yes'}),
    (b'17 -', 'message', {'number': 17, 'message': 'you_shout', 'text': '-'}),
    (b'18', 'message', {'number': 18, 'message': 'you_whisper', 'text': ''}),
    (b'19 "well" \\ played\xe9', 'message', {'number': 19, 'message': 'you_kibitz', 'text': '"well" \\ played\xe9'}),
    (BOARD, 'board', {
        'player': 'You', 'opponent': 'someplayer', 'length': 3, 'score': 0, 'opponent_score': 1, 'colour': 'O',
        'direction': -1, 'turn': 'player', 'dice': [6, 2], 'opponent_dice': None, 'cube': 1, 'may_double': True,
        'opponent_may_double': True, 'was_doubled': False, 'off': 0, 'opponent_off': 0, 'can_move': 2,
        'forced_move': 0, 'did_crawford': 0, 'redoubles': 0, 'phase': 'Move',
        'checkers': [0, 0, 0, 0, 0, 0, 5, 0, 3, 0, 0, 0, 0, 5, 0, 0, 0, 0, 0, 0, 0, 0, 0, 0, 2, 0],
        'opponent_checkers': [0, 0, 0, 0, 0, 0, 5, 0, 3, 0, 0, 0, 0, 5, 0, 0, 0, 0, 0, 0, 0, 0, 0, 0, 2, 0],
        'pips': 167, 'opponent_pips': 167}),
    (BOARD.replace(b':You:', b':ann:').replace(b':1:6:2:0:0:', b':-1:0:0:3:3:'), 'board', {
        'player': 'ann', 'opponent': 'someplayer', 'length': 3, 'score': 0, 'opponent_score': 1, 'colour': 'O',
        'direction': -1, 'turn': 'opponent', 'dice': None, 'opponent_dice': [3, 3], 'cube': 1, 'may_double': True,
        'opponent_may_double': True, 'was_doubled': False, 'off': 0, 'opponent_off': 0, 'can_move': 2,
        'forced_move': 0, 'did_crawford': 0, 'redoubles': 0, 'phase': None, 'no_position': 'NotYou'}),
    (b'You roll 6 and 2.', 'text', {}),
    (b'\x00\x1f "\\\x7f\x80\xfe', 'text', {}),
    (b'5 bob', 'malformed', {'number': 5, 'field': 2, 'fault': 'Missing'}),
    (BOARD[:-2], 'malformed', {'number': 0, 'field': 53, 'fault': 'Missing'}),
]


def shown(program, given, *options):
    """The lines that `fibs show` prints of some bytes."""
    done = subprocess.run([program, 'show', *options], input=given, capture_output=True, timeout=60, check=False)
    same('its end', (done.returncode, done.stderr), (0, b''))
    return done.stdout.split(b'\n')[:-1]


def objects(program, given):
    """The objects of some bytes, each of which has to be one of the schema, in printed ASCII without a space more."""
    found = []
    for line in shown(program, given, '--json'):
        one = json.loads(line)
        fault = fault_in(one, schema('lines'), 'lines')
        if fault:
            raise Failed('%r: %s' % (line, fault))
        if re.search(rb'[^ -~]', line):
            raise Failed('%r has another byte' % line)
        found.append(one)
    return found


def unescaped(text):
    """The bytes of which `fibs show` prints this."""
    return re.sub(rb'\\x(..)', lambda it: bytes([int(it[1], 16)]), text)


def the_rows_are_printed(program):
    found = objects(program, b''.join(line + b'\r\n' for line, _, _ in ROWS))
    same('how many', len(found), len(ROWS))
    offset = 0
    for number, (one, (line, kind, rest)) in enumerate(zip(found, ROWS), 1):
        same('%r' % line, list(one.items()), [('kind', kind), ('line', line.decode('latin-1')), *rest.items(),
                                              ('line_number', number), ('offset', offset)])
        offset += len(line) + 2


def the_schema_has_no_other_message(_program):
    words = [one['properties']['message']['const'] for one in schema('lines')['$defs']['message']['oneOf']]
    same('its words', words, [rest['message'] for _, kind, rest in ROWS if kind == 'message'])


def the_first_bytes_are_these(program):
    same('a text', shown(program, b'a"b\\c\xff\xff\x7f\n', '--json'),
         [b'{"kind":"text","line":"a\\u0022b\\u005cc\\u00ff\\u007f","line_number":1,"offset":0}'])
    same('a message', shown(program, b'> 10 carol  \r\n', '--json'),
         [b'{"kind":"message","line":"10 carol  ","number":10,"message":"message_delivered","name":"carol",'
          b'"line_number":1,"offset":0}'])
    same('no line', shown(program, b'', '--json'), [])


def cut_and_unfinished_lines_are_said(program):
    found = objects(program, b'a' * 16385 + b'\n' + b'b' * 16384 + b'\n' + b'c' * 20000)
    same('they', found, [{'kind': 'cut', 'line': 'a' * 16384, 'line_number': 1, 'offset': 0},
                         {'kind': 'text', 'line': 'b' * 16384, 'line_number': 2, 'offset': 16386},
                         {'kind': 'unfinished', 'line': 'c' * 16384, 'bytes': 16384, 'line_number': 3,
                          'offset': 32771}])
    for given, number, offset, rest in ((b'3', 1, 0, '3'), (b'a\nlogin: ', 2, 2, 'login: '),
                                        (b'a\n\n\xff\xfb\x01> b\r', 3, 3, '> b\r')):
        same('%r' % given, objects(program, given)[-1], {'kind': 'unfinished', 'line': rest, 'bytes': len(rest),
                                                         'line_number': number, 'offset': offset})
    same('no byte of a line', objects(program, b'a\n\xff\xfb'),
         [{'kind': 'text', 'line': 'a', 'line_number': 1, 'offset': 0}])


def line_starts(given):
    """Where each line of some bytes begins, and last the one that has not ended: a LF of a telnet command ends none."""
    starts, at = [0], 0
    while at < len(given):
        if given[at] == 255:
            at += 3 if given[at + 1:at + 2] in (b'\xfb', b'\xfc', b'\xfd', b'\xfe') else 2
            continue
        at += 1
        if given[at - 1] == 10:
            starts.append(at)
    return starts


def each_line_has_its_place(program):
    """Of bytes by lot, with telnet commands that have a LF, and in a session."""
    chance = random.Random(17)
    session = (ROOT / 'examples' / 'capture.txt').read_bytes()
    for given in (session, *(bytes(chance.choice(b'ab >\r\n\n\xff\xfb\xfe') for _ in range(4000)) for _ in range(20))):
        found = objects(program, given)
        starts = line_starts(given)
        if len(found) < len(starts):
            starts.pop()
        same('the numbers', [one['line_number'] for one in found], list(range(1, len(starts) + 1)))
        same('the offsets', [one['offset'] for one in found], starts)


def any_line_is_given_back(program):
    """Lines of any bytes but LF, a CR at the end, and the byte of telnet."""
    chance = random.Random(66)
    lines = [b'x' + bytes(chance.choice(range(11, 255)) for _ in range(chance.randrange(40))) + b'y'
             for _ in range(2000)]
    found = objects(program, b''.join(line + b'\n' for line in lines))
    same('they', [one['line'].encode('latin-1') for one in found], lines)


def the_plain_account_says_the_same(program):
    """Of the examples, and of lines with a field changed: the same kinds, texts, boards, numbers and faults."""
    given = b''.join((ROOT / 'examples' / name).read_bytes() for name in ('capture.txt', 'board.txt'))
    chance = random.Random(53)
    for line, _, _ in ROWS:
        for _ in range(40):
            words = re.split(rb'([ :])', line)
            words[chance.randrange(len(words))] = chance.choice([b'', b'-', b'0', b'7', b'You', b'x y', b'-1', b'99'])
            given += b''.join(words) + b'\n'
    plain, found = shown(program, given), objects(program, given)
    same('how many', len(found), len(plain))
    for text, one in zip(plain, found):
        word, _, rest = text.partition(b' ')
        line = one.get('line', '').encode('latin-1')
        if one['kind'] == 'board':
            same('a board', text, line.rstrip(b' '))
        elif one['kind'] == 'malformed':
            same('a fault', text.decode(), 'malformed %(number)d %(field)d %(fault)s' % one)
        else:
            same('a kind', word.decode(), one['kind'])
            if one['kind'] == 'text':
                same('a text', line, unescaped(rest))
            if one['kind'] == 'message':
                same('a number', int(rest.split(b' ')[0]), one['number'])


def a_board_goes_in_again(program):
    """The plays of a board are those of its object's line, and its phase is that of the object."""
    boards = [one for one in objects(program, (ROOT / 'examples' / 'capture.txt').read_bytes() + BOARD + b'\n')
              if one['kind'] == 'board' and one['phase']]
    for one in boards:
        done = subprocess.run([program, 'plays', one['line']], capture_output=True, text=True, timeout=60, check=True)
        same('its phase', done.stdout.splitlines()[0], 'phase %s' % one['phase'])


def the_page_asks_jq_so(program):
    """The commands of the page that ask jq, if it is installed."""
    asked = re.findall(r"^\$ fibs show --json < examples/capture\.txt \| (jq .*)\n((?:[^`$].*\n)*)", FORMATS, re.M)
    same('there are some', len(asked) > 1, True)
    if not shutil.which('jq'):
        return
    for command, wanted in asked:
        script = '"$1" show --json < examples/capture.txt | %s' % command
        done = subprocess.run(['sh', '-c', script, 'sh', program], capture_output=True, text=True, timeout=60,
                              check=False, cwd=ROOT)
        same(command, (done.stdout, done.stderr), (wanted, ''))


CASES = [the_rows_are_printed, the_schema_has_no_other_message, the_first_bytes_are_these,
         cut_and_unfinished_lines_are_said, each_line_has_its_place, any_line_is_given_back, the_plain_account_says_the_same,
         a_board_goes_in_again, the_page_asks_jq_so]


def main():
    if len(sys.argv) != 2:
        sys.exit('usage: tests/show_json.py PROGRAM')
    return try_all(CASES, str(pathlib.Path(sys.argv[1]).resolve()))


if __name__ == '__main__':
    sys.exit(main())
