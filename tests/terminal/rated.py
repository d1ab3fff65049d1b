"""Scenes of what follows a match: how the user is rated, and the record of matches."""

import pathlib
import re
import stat
import tempfile

from hints import Follower
from people import FAR, PASSWORD_FILE, PROGRAM, Failed, Person, Reader, Served, greeted, same, with_listener

RATED = re.compile(r'You are rated (\d+\.\d\d) now \(([+-]\d+\.\d\d)\), experience (\d+)\.')

# A far wire, and one whose portions are so small that no row comes whole.
WIRES = ['--delay', '20'], ['--delay', '60', '--portions', '7'], [*FAR]

# How a bot plays: it wins some matches, and resigns others.
BOTS = 'invites=1,plays=random', 'invites=2,plays=random,resigns=3n', 'invites=1,plays=random,doubles=2'

BEGINS = '** Player bob has joined you for a 1 point match.'

ENDS = 'You win the 1 point match 1-0 .'


def who(name, rating, experience):
    """Message 5 of a player."""
    return '5 %s - - 1 0 %s %d 0 1 host - -' % (name, rating, experience)


def lines_of(home):
    """The fields of each line of the record."""
    path = pathlib.Path(home, 'fibs', 'matches')
    return [line.split('\t') for line in path.read_text().splitlines()] if path.exists() else []


def plays_two(home, seed, options, bot):
    """Two whole matches over a wire, each with its rating; the rows that tell it, and those of the list."""
    server = Served('--bot', 'eve:' + bot, '--bot-pause', '5', '--seed', str(seed), *options)
    follower = Follower(server, seed, XDG_DATA_HOME=home)
    ann, told = follower.ann, []
    for number in range(2):
        if number:
            ann.type('invite eve 1')
        follower.plays_to_the_end()
        told.append(RATED.fullmatch(ann.reads('You are rated')))
    ann.type('matches eve')
    ann.reads('ended ')
    rows = [ann.next_line(), ann.next_line(), ann.next_line()]
    same('how often it is said', len([line for line in ann.lines() if line.startswith('You are rated')]), 2)
    ann.quits()
    ann.close()
    server.close()
    return told, rows


def a_match_is_rated_and_recorded():
    """Over each wire: the difference is that to the rating before, and the list and the record have the same."""
    for seed, (options, bot) in enumerate(zip(WIRES, BOTS)):
        with tempfile.TemporaryDirectory() as home:
            told, rows = plays_two(home, seed, options, bot)
            before, points, balance = '1500.00', 0, [0, 0]
            for row, fields, listed in zip(told, lines_of(home), rows):
                _, opponent, length, score, *rated = fields
                own, other = map(int, score.split('-'))
                points += int(length)
                balance[own < other] += 1
                same('the line', (opponent, rated), ('eve', [before, row[1], row[3]]))
                same('the experience', int(row[3]), points)
                same('the difference', '%+.2f' % (float(row[1]) - float(before)), row[2])
                same('who won', (float(row[2]) > 0, max(own, other)), (own > other, int(length)))
                if not listed.endswith('%s (%s)' % (row[1], row[2])):
                    raise Failed('%r is listed of %r' % (listed, fields))
                before = row[1]
            same('the balance', rows[2], 'eve: %d won, %d lost.' % tuple(balance))
            same('lines', len(lines_of(home)), 2)
            found = pathlib.Path(home, 'fibs')
            same('modes', [stat.S_IMODE(path.stat().st_mode) for path in (found, found / 'matches')], [0o700, 0o600])


def ends_a_match(server, ann, rating, experience):
    """A match of ann's ends, and she is rated so."""
    server.send(BEGINS, ENDS, who('bob', '1490.02', experience), '6', who('ann', rating, experience), '6')
    ann.reads('You are rated %s now' % rating)


# What is where the record is to be, and why it can't be written.
PLACES = [
    (lambda home: pathlib.Path(home, 'fibs', 'matches').mkdir(parents=True), 'it is a directory'),
    (lambda home: pathlib.Path(home, 'fibs').write_text(''), 'a part of its name is no directory'),
    (lambda home: pathlib.Path(home).chmod(0o500), 'permission denied'),
    (lambda home: [pathlib.Path(home, 'fibs').mkdir(), pathlib.Path(home, 'fibs', 'matches').symlink_to('/dev/full')],
     'the device failed'),
]


def is_root():
    """Whether nothing is forbidden."""
    with tempfile.TemporaryDirectory() as room:
        pathlib.Path(room).chmod(0o500)
        try:
            pathlib.Path(room, 'any').write_text('')
        except OSError:
            return False
        return True


@with_listener
def a_record_that_cant_be_written_is_said_once(server):
    """Two matches end, and the game goes on."""
    for make, why in PLACES:
        if why == 'permission denied' and is_root():
            continue
        with tempfile.TemporaryDirectory() as home:
            make(home)
            ann = greeted(server, XDG_DATA_HOME=home)
            ends_a_match(server, ann, '1509.98', 11)
            same('what is said', ann.next_line(), "fibs: the record can't be written: " + why)
            ends_a_match(server, ann, '1519.96', 12)
            server.send('12 bob still here?')
            ann.reads('bob says: still here?')
            same('how often it is said', ann.screen().count("can't be written"), 1)
            ann.quits()
            ann.close()
            pathlib.Path(home).chmod(0o700)


@with_listener
def a_record_on_a_full_device_is_said_once(server):
    """A file that may not grow: the half line has its end before the next one."""
    with tempfile.TemporaryDirectory() as home:
        command = ['sh', '-c', 'trap "" XFSZ; ulimit -f 1; exec "$@"', 'sh', PROGRAM, 'connect', '--password-file',
                   PASSWORD_FILE, '127.0.0.1', str(server.port), 'ann']
        path = pathlib.Path(home, 'fibs', 'matches')
        path.parent.mkdir()
        path.write_text('x' * 500 + '\n')
        ann = greeted(server, Reader(command, XDG_DATA_HOME=home))
        ends_a_match(server, ann, '1509.98', 11)
        same('what is said', ann.next_line(), "fibs: the record can't be written: no space left on device")
        ann.quits()
        ann.close()
        same('what is kept', len(path.read_bytes()), 512)
        server.received.clear()
        ann = greeted(server, XDG_DATA_HOME=home)
        ends_a_match(server, ann, '1509.98', 11)
        ann.quits()
        ann.close()
        same('the last line', [fields[1:] for fields in lines_of(home)[2:]],
             [['bob', '1', '1-0', '1500.00', '1509.98', '11']])


@with_listener
def no_record_is_kept_if_the_settings_say_so(server):
    with tempfile.TemporaryDirectory() as home:
        config = pathlib.Path(home, 'config')
        config.write_text('no record\n')
        ann = greeted(server, XDG_DATA_HOME=home, FIBS_CONFIG=str(config))
        ends_a_match(server, ann, '1509.98', 11)
        ann.type('matches')
        ann.reads('No match is recorded.')
        # one that is not rated yet is no more listed
        server.send(BEGINS, ENDS)
        ann.reads('invite bob 1 plays another match')
        ann.type('matches')
        ann.reads('No match is recorded.')
        ann.quits()
        ann.close()
        same('what is kept', lines_of(home), [])


@with_listener
def a_home_that_is_not_known(server):
    """Without HOME and XDG_DATA_HOME that is said once; one that is no path from the root is as none."""
    for more in {'HOME': None, 'XDG_DATA_HOME': None}, {'HOME': None, 'XDG_DATA_HOME': 'here'}:
        ann = greeted(server, **more)
        ends_a_match(server, ann, '1509.98', 11)
        same('what is said', ann.next_line(), "fibs: the record can't be written: no such file")
        ann.quits()
        ann.close()
        server.received.clear()
    with tempfile.TemporaryDirectory() as home:
        ann = greeted(server, HOME=home, XDG_DATA_HOME=None)
        ends_a_match(server, ann, '1509.98', 11)
        ann.quits()
        ann.close()
        same('lines', len(lines_of(pathlib.Path(home, '.local', 'share'))), 1)


@with_listener
def a_match_is_kept_though_she_leaves_before_it_is_rated(server):
    with tempfile.TemporaryDirectory() as home:
        ann = greeted(server, XDG_DATA_HOME=home)
        server.send(BEGINS, ENDS)
        ann.reads('invite bob 1 plays another match')
        ann.quits()
        ann.close()
        same('the line', [fields[1:] for fields in lines_of(home)], [['bob', '1', '1-0', '1500.00', '-', '-']])


SCENES = [a_match_is_rated_and_recorded, a_record_that_cant_be_written_is_said_once,
          a_record_on_a_full_device_is_said_once, no_record_is_kept_if_the_settings_say_so, a_home_that_is_not_known,
          a_match_is_kept_though_she_leaves_before_it_is_rated]
