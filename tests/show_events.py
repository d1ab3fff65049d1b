#!/usr/bin/env python3
"""Asks what `fibs show --events` prints of matches at the examples' server: tests/show_events.py PROGRAM

The two players of a match are recorded, and what is known of it from elsewhere, by the rules and the boards as another
program has them, is compared with the answers of the one-line questions of docs/FORMATS.md. Prints a line for each
case, and then `N passed, M failed`.
"""

import json
import pathlib
import random
import re
import shutil
import subprocess
import sys
from collections import Counter

sys.dont_write_bytecode = True
ROOT = pathlib.Path(__file__).resolve().parent.parent
sys.path.insert(0, str(ROOT / 'tests' / 'server'))
from clients import Gambler, Served, play  # noqa: E402
from props.checks import Failed, same, try_all  # noqa: E402
from props.schemas import fault_in, schema  # noqa: E402

FORMATS = (ROOT / 'docs' / 'FORMATS.md').read_text()
ROLL = re.compile(r'(You|ann|bob) rolls? ([1-6]) and ([1-6])\.')
OPENING = re.compile(r'You rolled ([1-6]), (?:ann|bob) rolled ([1-6])')
# Lines that are added to a session: one that is malformed, refusals, and one that was sent.
ADDED = b'5 bob\r\n** You can\'t roll now.\r\n** It\'s not your turn to move.\r\n>> roll\n7 carol carol logs in.\r\nhal'


def questions():
    """The questions of the page, by their first word."""
    rows = re.findall(r'^\| (\w+): [^|]+ \| `(jq .*)` \|$', FORMATS, re.M)
    return {name: command.replace('\\|', '|') for name, command in rows}


def recorded(length, seed, **more):
    """What the server sent to both players of a match, and what is known of its games."""
    server = Served('--seed', str(seed))
    try:
        ann, bob = Gambler(server.port, 'ann', seed, **more), Gambler(server.port, 'bob', seed, **more)
        ann.send('invite bob %d' % length)
        bob.sees("Type 'join ann' to accept.")
        bob.send('join ann')
        play(ann, bob)
        for client in (ann, bob):
            client.catches_up()
            client.close()
        return ann, bob
    finally:
        server.close()


def objects(program, session):
    done = subprocess.run([program, 'show', '--events'], input=session, capture_output=True, timeout=60, check=True)
    return [json.loads(line) for line in done.stdout.splitlines()]


def asked(program, session, question):
    """What jq answers to a question of the page, line by line."""
    command = '"$1" show --events | %s' % questions()[question]
    done = subprocess.run(['sh', '-c', command, 'sh', program], input=session, capture_output=True, timeout=60,
                          check=True)
    return [json.loads(line) if line[:1] in b'{["0123456789' else line.decode() for line in done.stdout.splitlines()]


def rolls_of(client):
    """The rolls that texts of a session name: who rolled, and what."""
    for line in client.raw.decode('latin-1').splitlines():
        if found := ROLL.fullmatch(line.strip()):
            yield 'player' if found[1] == 'You' else 'opponent', (int(found[2]), int(found[3]))
        elif found := OPENING.fullmatch(line.strip()):
            own, other = int(found[1]), int(found[2])
            yield 'player' if own > other else 'opponent', (own, other)


def the_objects_fit_the_schema(program):
    """Each added object is of one kind, and those of lines are as they were."""
    ann, _ = recorded(3, 3, doubles=0.1, resigns=0.01)
    found = objects(program, ann.raw + ADDED)
    added = [one for one in found if one['kind'] in ('event', 'summary')]
    for one in added:
        if wrong := fault_in(one, schema('events'), 'events'):
            raise Failed('%r: %s' % (one, wrong))
    plain = subprocess.run([program, 'show', '--json'], input=ann.raw + ADDED, capture_output=True, check=True).stdout
    same('the objects of lines', [one for one in found if one not in added],
         [json.loads(line) for line in plain.splitlines()])
    kinds = Counter(one['kind'] for one in found)
    last = found[-1]
    same('the summary comes last', last['kind'], 'summary')
    same('its counts', (last['boards'], last['messages'], last['malformed'], last['events'], last['sent']),
         (kinds['board'], kinds['message'], kinds['malformed'], kinds['event'], 1))
    same('its games', (last['games'], last['matches']), (len(ann.games), 1))
    texts = {number + 1: one for number, one in enumerate(json.loads(line) for line in plain.splitlines())}
    for one in added[:-1]:
        if one['event'] == 'refused':
            same('the number of its line', texts[one['line_number']]['line'], one['text'])


def refusals_of(given):
    """The numbers of the lines that tell a refused login: they begin with the question, a line before them was nothing
    else, and none before them greets."""
    lines = given.replace(b'\r', b'').split(b'\n')
    for number, line in enumerate(lines, 1):
        before = lines[:number - 1]
        greeted = any(one.startswith((b'1 ', b'login: 1 ')) for one in before)
        if line.startswith(b'login: ') and b'login: ' in before and not greeted:
            yield number


def refused_logins_are_told(program):
    """Worked sessions, and lines by lot: each comes right before the object of its line, or before the unfinished one."""
    greeting = b'1 ann 1041253132 localhost\r\n'
    asked = b'login: \r\n'
    chance = random.Random(41)
    parts = [b'login: ', b'login: ', b'login: ', b'login: x', b'1 ann 1 h', b'login: 1 ann 1 h', b'hi', b'login:', b'']
    by_lot = [b'\n'.join(chance.choice(parts) + chance.choice([b'', b'\r']) for _ in range(6)) for _ in range(60)]
    worked = [(asked + b'login: ', [2]), (asked + b'login: ' + greeting, [2]), (asked * 3, [2, 3]),
              (asked, []), (b'login: ', []), (b'login: ' + greeting + asked * 2, []), (asked + greeting + asked, []),
              (b'welcome\r\n' + asked + b'sorry\r\nlogin: who\r\n', [4]), (asked + b'login:', [])]
    for given, wanted in worked + [(one, list(refusals_of(one))) for one in by_lot]:
        same('worked out: %r' % given, list(refusals_of(given)), wanted)
        found = objects(program, given)
        told = [one for one in found if one.get('event') == 'login_refused']
        same('%r' % given, told, [{'kind': 'event', 'event': 'login_refused', 'line_number': number} for number in wanted])
        for one, after in zip(found, found[1:]):
            if one in told:
                same('what follows', after.get('line_number'), one['line_number'])
                same('its kind', after['kind'] in ('text', 'message', 'unfinished', 'malformed'), True)
            if wrong := one['kind'] == 'event' and fault_in(one, schema('events'), 'events'):
                raise Failed('%r: %s' % (one, wrong))
        same('they count as events', found[-1]['events'], sum(one['kind'] == 'event' for one in found))
    same('there are some by lot', sum(map(len, map(list, map(refusals_of, by_lot)))) > 20, True)


def the_page_answers(program):
    """The thirteen questions, over both players' sessions of several matches."""
    same('how many questions there are', len(questions()), 13)
    if not shutil.which('jq'):
        print('left out: jq, which is not installed')
        return
    for length, seed in ((3, 3), (5, 7), (1, 5)):
        ann, bob = recorded(length, seed, doubles=0.1, resigns=0.004)
        for client in (ann, bob):
            answers(program, client)
        same('both played as many pips', asked(program, ann.raw, 'pips'), asked(program, bob.raw, 'pips'))
        lengths = asked(program, ann.raw, 'lengths')
        same('both saw the same games', lengths, asked(program, bob.raw, 'lengths'))
        # the first game is no whole one then
        late = ann.raw[ann.raw.index(b'\nboard:') + 1:]
        same('a log that begins within a game', asked(program, late, 'lengths'), [lengths[0][1:]])


def answers(program, client):
    """The answers of one session."""
    session = client.raw + ADDED
    ask = lambda question: asked(program, session, question)
    rolls, text = list(rolls_of(client)), client.raw.decode('latin-1')
    same('dice', ask('dice'), [dict(Counter(who for who, _ in rolls))])
    same('faces', ask('faces'), [dict(Counter(str(die) for _, dice in rolls for die in dice))])
    same('doubles', ask('doubles'), [sum(dice[0] == dice[1] for _, dice in rolls)])
    same('mobility', ask('mobility'), [len(re.findall(r"can't move\.", text))])
    won = ['player' if own else 'opponent' for (own, _), *_ in client.games]
    same('winners', ask('winners'), [dict(Counter(won))])
    lengths = ask('lengths')[0]
    same('lengths', (len(lengths), sum(lengths)), (len(client.games), len(rolls)))
    cube = {'doubled': len(re.findall(r'doubles?\. (?:Type|Please)', text)),
            'accepted': len(re.findall(r'accepts? the double', text)),
            'rejected': len(re.findall(r'gives? up\. ', text))}
    same('cube', ask('cube'), [{name: count for name, count in cube.items() if count}])
    worth = [{1: 'single', 2: 'gammon', 3: 'backgammon'}[max(points) // cube] for points, _, cube, *_ in client.games]
    same('gammons', ask('gammons'), [worth])
    score = [sum(points[side] for points, *_ in client.games) for side in (0, 1)]
    same('scores', ask('scores'), [[int(re.search(r'the (\d+) point match \d', text)[1]), *score]])
    same('errors', ask('errors'), ["** You can't roll now.", "** It's not your turn to move."])
    same('malformed', ask('malformed'), [[5, 2, 'Missing']])
    own = [float(rating) for rating in re.findall(r'^5 %s \S+ \S+ \d \d ([\d.]+)' % client.name, text, re.M)]
    told = [rating for who, rating in ask('ratings') if who == 'player']
    same('ratings', told, own[-1:])


def main():
    if len(sys.argv) != 2:
        sys.exit('usage: tests/show_events.py PROGRAM')
    return try_all([the_objects_fit_the_schema, refused_logins_are_told, the_page_answers], str(pathlib.Path(sys.argv[1]).resolve()))


if __name__ == '__main__':
    sys.exit(main())
