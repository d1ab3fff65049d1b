#!/usr/bin/env python3
"""Compares what `plays --json`, `replay --json` and `connect --json` print with their schemas, and with the accounts
without `--json`: tests/accounts_json.py PROGRAM

Each line has to be one JSON object that fits docs/plays.schema.json, docs/replay.schema.json or
docs/connect.schema.json. It has to give back the line that is printed without `--json`, and to say the same; a board
has to be the object that `fibs show --json` prints for it. Prints a line for each case, and then `N passed, M failed`.
"""

import json
import pathlib
import re
import shutil
import socket
import subprocess
import sys
import tempfile
import threading

sys.dont_write_bytecode = True
from props.checks import Failed, same, try_all  # noqa: E402
from props.schemas import fault_in, schema  # noqa: E402

ROOT = pathlib.Path(__file__).resolve().parent.parent
FORMATS = (ROOT / 'docs' / 'FORMATS.md').read_text()

# Both dice can be played, but not both one after the other, so the larger has to be; the plays of a double by hand.
BEARING = ('board:You:bob:5:0:0:0:0:0:0:0:0:0:0:0:0:0:0:0:-2:0:0:0:0:0:0:0:0:0:0:1:0:1:6:5:0:0:1:1:1:0:1:-1:0:25:14:13:'
           '0:0:1:0:0:0')

# X's last checker is on the bar, and goes up from the server's 1 to 24; O's are on 24, and a 3 enters on 3.
ENTERING = ':'.join(['board:You:bob:5:0:0', *['0'] * 24, '2', '0', '-1:3:3:0:0:1:1:1:0:-1:1:25:0:14:13:1:0:4:0:0:0'])

# What a player types at a server, after the password.
TYPED = ['', 'roll', 'say hello', 'tell  hi', 'order roll', 'order roll', 'withdraw roll', 'dance', 'players', 'open', '',
         'bye', '', 'open', 'roll', 'quit']


def lines_of(program, words, given, status=0):
    """The lines that the program prints for these words."""
    done = subprocess.run([program, *words], input=given, capture_output=True, timeout=60, check=False)
    same('the end of %s' % words[:2], (done.returncode, done.stderr), (status, b''))
    return done.stdout.split(b'\n')[:-1]


def objects(lines, name):
    """The objects on these lines, each of which has to be one of the schema of this name."""
    found = []
    for line in lines:
        one = json.loads(line)
        fault = fault_in(one, schema(name), name)
        if fault:
            raise Failed('%r: %s' % (line, fault))
        if re.search(rb'[^ -~]', line):
            raise Failed('%r has another byte' % line)
        found.append(one)
    return found


def without_place(one):
    """An object of `show` without the place of its line, which only `show` has, and as its last members."""
    same('its place', list(one)[-2:], ['line_number', 'offset'])
    return dict(list(one.items())[:-2])


def shown(program, line):
    """The object that `show --json` prints for a line, without its place."""
    return without_place(json.loads(lines_of(program, ['show', '--json'], line.encode('latin-1') + b'\n')[0]))


def played(program, line, status=0):
    """The object that `plays --json` prints for a line."""
    return objects(lines_of(program, ['plays', '--json', line], b'', status), 'plays')[0]


def plays_are_these(program):
    same('bearing off', played(program, BEARING)['plays'], [{'command': 'move 24-18', 'steps': [[24, 18]]}])
    same('entering', played(program, ENTERING)['plays'],
         [{'command': 'move bar-3 3-6 6-9 9-12', 'steps': [[25, 22], [22, 19], [19, 16], [16, 13]]}])


def place_of(at, direction):
    """A place of the player's own numbering in a command."""
    return {25: 'bar', 0: 'off'}.get(at) or str(at if direction == -1 else 25 - at)


def plays_say_what_is_listed(program):
    """Of the boards of a session and of an example: as `plays` lists them, and the rest as `show --json` has it."""
    given = b''.join((ROOT / 'examples' / name).read_bytes() for name in ('capture.txt', 'board.txt'))
    boards = [without_place(one) for one in map(json.loads, lines_of(program, ['show', '--json'], given))
              if one['kind'] == 'board' and one['phase']]
    same('there are some', len(boards) > 1, True)
    for board in boards:
        one = played(program, board['line'])
        plays = one.pop('plays')
        same('the board', list(one.items()), list(board.items()))
        listed = lines_of(program, ['plays', board['line']], b'')
        same('the phase', listed[0].decode(), 'phase %s' % board['phase'])
        same('the commands', [play['command'] for play in plays], [line.decode() for line in listed[1:]])
        for play in plays:
            steps = ['-'.join(place_of(at, board['direction']) for at in step) for step in play['steps']]
            same('the steps', ' '.join(['move', *steps]), play['command'])


def other_lines_are_as_shown(program):
    for line in ('hello', '', 'board:You', '12 bob hi', '5 bob', BEARING.replace(':You:', ':ann:')):
        same(line, list(played(program, line, 3).items()), list(shown(program, line).items()))


def listed(program, *words):
    """How `plays` ends for these words, and what it prints."""
    done = subprocess.run([program, 'plays', *words], capture_output=True, timeout=60, check=False)
    return done.returncode, done.stdout, done.stderr


def boards_go_in_again(program):
    """The object of a board is listed as its line is: a board with plays, without them, and without a position."""
    given = b''.join((ROOT / 'examples' / name).read_bytes() for name in ('capture.txt', 'board.txt'))
    given += b'\n'.join(line.encode() for line in (BEARING, ENTERING, BEARING.replace(':You:', ':ann:'))) + b'\n'
    shown_lines = lines_of(program, ['show', '--json'], given)
    boards = [line.decode() for line in shown_lines if json.loads(line)['kind'] == 'board']
    same('there are some', len(boards) > 4, True)
    statuses = set()
    for text in boards:
        line = json.loads(text)['line']
        for options in [], ['--json']:
            wanted = listed(program, *options, line)
            with_plays = listed(program, '--json', line)[1].decode().rstrip('\n')
            for word in text, with_plays:
                same('%s %s' % (options, word), listed(program, *options, word), wanted)
            statuses.add(wanted[0])
    same('with a position, and without', statuses, {0, 3})


def other_words_are_lines(program):
    """What is not the object of a board as it is printed is a line, as it was before."""
    text = json.dumps(shown(program, BEARING), separators=(',', ':'))
    same('an object', listed(program, text)[0], 0)
    named = BEARING.replace(':bob:', ':b"b:')
    escaped = lines_of(program, ['plays', '--json', named], b'')[0].decode()
    for word in (text[:-1], text + ' ', ' ' + text, text.replace('"board"', '"text"'), text.replace(':', ': ', 1),
                 text.replace('"line"', '"lines"'), text.replace(':bob:', ':b\\u006fb:'),
                 text.replace(':bob:', ':b\\"b:'), json.dumps(json.loads(text)), escaped, '{', '{}',
                 '{"kind":"board","line":"', '{"kind":"board","line":"}', '{"kind":"board"}', '{"line":"%s"}' % BEARING,
                 '{"kind":"text","line":"hello"}', '{"kind":"unfinished","line":"board:","bytes":6}'):
        same(word, listed(program, word), (3, b'', b'not a board\n'))
        same(word, played(program, word, 3), {'kind': 'text', 'line': word})
    same('its line', listed(program, named)[0], 0)
    for line, why in ('', b'not a board\n'), ('hello', b'not a board\n'), ('board:You', b'malformed 0 3 Missing\n'):
        word = '{"kind":"board","line":"%s"}' % line
        same(word, listed(program, word), (3, b'', why))


def said_of(entry):
    """What a line of `replay` says by name, but for its board."""
    word, *rest = entry.split(' ')
    if word == 'script':
        return {'number': int(rest[0])}
    if word == 'end':
        return {'done': int(rest[0])}
    if word == 'refused':
        return {'done': int(rest[0]), 'number': int(rest[1]), 'reason': rest[2]}
    said = {'connection': int(rest[0])}
    if word == 'informed':
        said.update(automove=rest[1] == '1', greedy=rest[2] == '1')
    elif word == 'clicked':
        said.update(refusal=None if rest[1] == 'ok' else rest[1])
    elif word == 'shown':
        said.update(board=rest[1])
    elif word in ('sent', 'took', 'undone', 'lost'):
        said.update(command=' '.join(rest[2:]) or None, board=rest[1] if rest[1:] else None)
    return said


def as_replayed(program, script, status):
    """Compares the two accounts of a script."""
    plain = [line.decode('latin-1') for line in lines_of(program, ['replay'], script, status)]
    found = objects(lines_of(program, ['replay', '--json'], script, status), 'replay')
    same('the lines', [one['line'] for one in found], plain)
    for one in found:
        rest = dict(one)
        same('the word', rest.pop('kind'), rest.pop('line').split(' ')[0])
        if rest.get('board'):
            same('a board', list(rest['board'].items()), list(shown(program, rest['board']['line']).items()))
            rest['board'] = rest['board']['line']
        same(one['line'], list(rest.items()), list(said_of(one['line']).items()))
    return {one['kind'] for one in found}


def scripts_are_replayed_so(program):
    """The examples, and scripts that are refused or not run."""
    kinds = set()
    for name in ('double-click.txt', 'lost-connection.txt', 'standing-order.txt'):
        kinds |= as_replayed(program, (ROOT / 'examples' / name).read_bytes(), 0)
    board = (ROOT / 'examples' / 'double-click.txt').read_bytes().split(b'\n')[0]
    for script in (b'', b'x\n', board + b'\nopen\nfly\n', board.replace(b':You:', b':ann:') + b'\n',
                   board + b'\nopen\nopen\n', board + b'\nopen\nlose 0\n', b'a' * 1048577):
        kinds |= as_replayed(program, script, 0 if script.endswith(b'lose 0\n') else 3)
    same('all kinds but one that never comes', kinds, set(
        'opened loggedin welcomed informed shown clicked ordered withdrawn sent took lost end refused script'.split()))


class Once:
    """A server of one connection, which sends these bytes after the login, and ends after `bye`."""

    def __init__(self, sends):
        self.sends = sends
        self.listener = socket.create_server(('127.0.0.1', 0))
        self.port = self.listener.getsockname()[1]
        threading.Thread(target=self.serve, daemon=True).start()

    def serve(self):
        """Serves it."""
        stream, _ = self.listener.accept()
        self.listener.close()
        with stream, stream.makefile('rb') as lines:
            lines.readline()
            stream.sendall(self.sends)
            for line in lines:
                if line == b'bye\r\n':
                    return


def conversed(program, sends, *options):
    """What `connect` prints of such a server."""
    server = Once(sends)
    typed = ''.join(line + '\n' for line in ['secret', *TYPED]).encode()
    printed = lines_of(program, ['connect', *options, '127.0.0.1', str(server.port), 'ann'], typed)
    return printed


def conversations_are_printed_so(program):
    """A saved session and lines of each kind: each object has its line, and says what the line says."""
    sends = (ROOT / 'examples' / 'capture.txt').read_bytes() + b'12 bob "hi" \xe9\r\n5 bob\r\n' + b'a' * 16385 + b'\r\n'
    plain = [line.decode('latin-1') for line in conversed(program, sends)]
    found = objects(conversed(program, sends, '--json'), 'connect')
    same('how many', len(found), len(plain))
    for one, line in zip(found, plain):
        if one['kind'] in ('message', 'board', 'text', 'malformed', 'cut'):
            heard = b'a' * 16385 if one['kind'] == 'cut' else one['line'].encode('latin-1')
            same('as shown', list(one.items()), list(shown(program, heard.decode('latin-1')).items()))
            continue
        same('its line', one['line'], line)
        rest = ' '.join(line.split(' ')[1:])
        said = {'phase': {'phase': rest}, 'confirmed': {'command': rest}, 'sent': {'command': rest},
                'lost': {'command': rest or None}}.get(one['kind'], {})
        if one['kind'] in ('refused', 'fault', 'directory'):
            said = {'number': int(rest.split(' ')[0]), 'reason': rest.split(' ')[1]}
        if one['kind'] == 'player':
            said = {'name': rest.split(' ')[0], 'rating': float(rest.split(' ')[1])}
        same(line, list(one.items())[2:], list(said.items()))
    kinds = {one['kind'] for one in found}
    same('the kinds %s' % kinds, kinds >= {'message', 'board', 'text', 'malformed', 'cut', 'phase', 'sent', 'ordered', 'withdrawn',
                                'refused', 'fault', 'unknown', 'lost', 'player', 'no_connection'}, True)


def a_login_is_refused_as_without(program):
    done = subprocess.run([program, 'connect', '--json', '127.0.0.1', '9', 'a:b'], input=b'secret\n',
                          capture_output=True, timeout=60, check=False)
    same('its end', (done.returncode, done.stdout, done.stderr), (3, b'', b'fault 1 BadName\n'))


def a_full_device_is_a_fault(program):
    if not pathlib.Path('/dev/full').exists():
        return
    script = (ROOT / 'examples' / 'double-click.txt').read_bytes()
    for words in (['plays', '--json', BEARING], ['replay', '--json'], ['connect', '--json', '127.0.0.1', '9', 'ann']):
        with open('/dev/full', 'wb') as full:
            given = b'secret\nroll\n' if words[0] == 'connect' else script
            done = subprocess.run([program, *words], input=given, stdout=full, stderr=subprocess.PIPE, timeout=60,
                                  check=False)
        same(words[0], (done.returncode, done.stderr),
             (4, b'fibs: device\nfibs: standard output: no space left on device\n'))


def the_page_asks_jq_so(program):
    """The commands of the page that ask jq, if it is installed."""
    asked = re.findall(r"^\$ fibs ((?:plays|replay) --json .*) \| (jq .*)\n((?:[^`$].*\n)*)", FORMATS, re.M)
    same('there are some', len(asked) > 2, True)
    if not shutil.which('jq'):
        return
    with tempfile.TemporaryDirectory() as folder:
        (pathlib.Path(folder) / 'fibs').symlink_to(program)
        for words, command, wanted in asked:
            script = 'PATH="$1:$PATH"; fibs %s | %s' % (words, command)
            done = subprocess.run(['sh', '-c', script, 'sh', folder], capture_output=True, text=True, timeout=60,
                                  check=False, cwd=ROOT)
            same(command, (done.stdout, done.stderr), (wanted, ''))


CASES = [plays_are_these, plays_say_what_is_listed, other_lines_are_as_shown, boards_go_in_again,
         other_words_are_lines, scripts_are_replayed_so, conversations_are_printed_so, a_login_is_refused_as_without, a_full_device_is_a_fault, the_page_asks_jq_so]


def main():
    if len(sys.argv) != 2:
        sys.exit('usage: tests/accounts_json.py PROGRAM')
    return try_all(CASES, str(pathlib.Path(sys.argv[1]).resolve()))


if __name__ == '__main__':
    sys.exit(main())
