"""Directories by lines of the server, and beside a plain list."""

from checks import answer, fibs, test


def at(directory, place):
    """The twelve values of the player at a place, or NoPlayer."""
    try:
        return directory[place]
    except IndexError:
        return 'NoPlayer'


def name_and_rating(player):
    return player and (player[0], player[5])


def shows(check, directory, players, case):
    """The directory has just these names and ratings, in this order."""
    check(len(directory), len(players), case)
    for place, player in enumerate(players):
        check(name_and_rating(at(directory, place)), player, (case, place))
        check(name_and_rating(directory.get(player[0])), player, (case, player[0]))
    check(at(directory, len(players)), 'NoPlayer', case)


# A line, and the names and ratings in the directory after it.
SESSION = [
    (b'5 ann - - 1 0 1500.00 0 3 1040515752 host - -', [(b'ann', 150000)]),
    (b'5 ann bob - 0 0 1512.34 5 0 1040515752 host - -', [(b'ann', 151234)]),
    (b'5 bob ann - 0 0 1600.5 9 0 1040515752 host - -', [(b'ann', 151234), (b'bob', 160050)]),
    (b'7 dora dora logs in.', [(b'ann', 151234), (b'bob', 160050)]),
    (b'6', [(b'ann', 151234), (b'bob', 160050)]),
    (b'5 an - - 1 0 1499.99 0 3 1040515752 host - -', [(b'ann', 151234), (b'bob', 160050), (b'an', 149999)]),
    (b'8 ann ann drops connection.', [(b'bob', 160050), (b'an', 149999)]),
]


@test
def players_come_and_go(check):
    directory = fibs.Directory()
    shows(check, directory, [], 'new')
    for line, players in SESSION:
        check(answer(directory.note, line), None, line)
        shows(check, directory, players, line)
    check(directory.get(b'ann'), None, 'ann is gone')
    directory.clear()
    shows(check, directory, [], 'clear')
    check(directory.get(b'bob'), None, 'bob is gone')


@test
def all_twelve_values_are_kept(check):
    directory = fibs.Directory()
    line = b'5 someplayer mgnu_advanced third 0 1 1912.15 827 8 1040515752 192.168.143.5 3DFiBs a b@c'
    check(answer(directory.note, line), None)
    wanted = [b'someplayer', b'mgnu_advanced', b'third', False, True, 191215, 827, 8, 1040515752, b'192.168.143.5',
              b'3DFiBs', b'a b@c']
    for place, value in enumerate(wanted):
        check(directory.get(b'someplayer')[place], value, place)


# How many bytes a long value has: three of them fill most of a line.
LONG = 1200


@test
def long_values_are_kept(check):
    """However long the values are, they are kept."""
    directory = fibs.Directory()
    line = b' '.join([b'5 ann - - 1 0 1500.00 0 3 1040515752', b'h' * LONG, b'c' * LONG, b'e' * LONG])
    check(answer(directory.note, line), None)
    hostname, client, email = directory.get(b'ann')[9:]
    for value, byte in [(hostname, b'h'), (client, b'c'), (email, b'e')]:
        check(value, byte * LONG, byte)


BOB = b'5 bob - - 1 0 1500 0 3 1040515752 host - -'

# What a full directory, of the names p0 to p4095, is given; what it answers, how many names are in it then, and whether
# bob is: new names, known ones, and those that go.
AT_THE_LIMIT = [
    (BOB, 'Full', 4096, False),
    (b'5 p0 - - 1 0 1700 0 3 1040515752 host - -', None, 4096, False),
    (b'7 bob bob logs in.', None, 4096, False),
    (b'8 bob bob logs out.', None, 4096, False),
    (b'8 p7 p7 logs out.', None, 4095, False),
    (BOB, None, 4096, True),
    (b'5 p7 - - 1 0 1500 0 3 1040515752 host - -', 'Full', 4096, True),
]


@test
def a_full_directory_takes_no_new_name(check):
    directory = fibs.Directory()
    lines = [b'5 p%d - - 1 0 1500 0 3 1040515752 host - -' % name for name in range(4096)]
    check([line for line in lines if answer(directory.note, line) is not None], [], 'the names that are refused')
    for line, told, names, has_bob in AT_THE_LIMIT:
        check(answer(directory.note, line), told, line)
        check(len(directory), names, line)
        check(directory.get(b'bob') is not None, has_bob, line)
    check(name_and_rating(at(directory, 0)), (b'p0', 170000), 'a known name')
    check(name_and_rating(at(directory, 7)), (b'p8', 150000), 'it closes up')
    check(name_and_rating(at(directory, 4095)), (b'bob', 150000), 'there is room again')


def keep(players, name, points):
    """Keeps the points of a name in a list, found by a search from its front, or takes it out if there are none."""
    place = next((i for i, player in enumerate(players) if player[0] == name), None)
    if place is not None and points is not None:
        players[place] = (name, points)
    elif place is not None:
        players.pop(place)
    elif points is not None:
        players.append((name, points))


def line_of(name, points):
    """The message with the points of a name, or its logout if there are none."""
    if points is None:
        return b'8 p%d logs out' % name
    return b'5 p%d - - 1 0 %d 0 3 1040515752 host - -' % (name, points)


@test
def as_a_plain_list_has_it(check):
    directory, players, seed, differs = fibs.Directory(), [], 20, []
    for number in range(3000):
        seed = (seed * 6364136223846793005 + 1442695040888963407) % 2**64
        name = (seed >> 33) % 24
        points = None if (seed >> 60) % 3 == 0 else (seed >> 41) % 3000
        keep(players, name, points)
        told = answer(directory.note, line_of(name, points))
        wanted = [(b'p%d' % name, points * 100) for name, points in players]
        if told is not None or [name_and_rating(player) for player in directory] != wanted:
            differs.append(number)
    check(differs, [], 'the rounds after which they differ')
