"""Commands by their printed texts, and all kinds of lines read as commands."""

from checks import answer, fibs, read_decision, test

DOWN, UP = -1, 1

# What the server says of a player who has automove and greedy on, and all that a client asks for.
GREETING = (b'1 ann 1041253132 localhost\r\n'
            b'2 ann 1 1 0 1 0 0 1 1 10 1 1 0 1 1500.00 0 0 0 0 0 UTC\r\n')


def sent(text):
    """What a client with an open connection hands out for a plain command, or the name of the refusal."""
    with fibs.Client(b'ann', b'secret') as client:
        client.open()
        for _ in client.feed(GREETING):
            pass
        return answer(client.plain, text)


@test
def plain_commands_are_printed(check):
    for text in [
        b'board',
        b'who',
        b'say hi',
        b'say  ',
        b'tell bob hi',
        b'shout hi all',
        b'whisper ~',
        b'kibitz well played',
        b'message bob back at 9',
        b'invite bob',
        b'invite bob 5',
        b'invite bob 65535',
        b'join',
        b'join bob',
        b'toggle ready',
        b'toggle automove',
        b'toggle greedy',
        b'bye',
    ]:
        check(sent(text), text + b'\r\n', text)


@test
def a_bad_name_goes_before_a_long_text_and_that_before_a_bad_text(check):
    for case, text, fault in [
        ('no name', b'message  hi', 'BadName'),
        ('a colon', b'invite b:b', 'BadName'),
        ('127', b'join b\x7f', 'BadName'),
        ('none to join', b'join ', 'BadName'),
        ('no text', b'say ', 'BadText'),
        ('no text to bob', b'tell bob ', 'BadText'),
        ('a line end', b'whisper a\nroll', 'BadText'),
        ('a byte above', b'say caf\xe9', 'BadText'),
    ]:
        check(sent(text), fault, case)


@test
def names_have_64_bytes_and_texts_400_at_most(check):
    name, text = b'n' * 65, b'a' * 401
    for case, command, fault in [
        ('65 bytes', b'invite ' + name + b' 5', 'BadName'),
        ('both', b'tell  ' + text, 'BadName'),
        ('401 bytes', b'shout ' + text, 'TooLong'),
        ('with a line end', b'kibitz \n' + text[1:], 'TooLong'),
        ('401 to bob', b'tell bob ' + text, 'TooLong'),
    ]:
        check(sent(command), fault, case)
    for case, command in [
        ('400 bytes', b'say ' + text[:400]),
        ('64 bytes', b'join ' + name[:64]),
    ]:
        check(sent(command), command + b'\r\n', case)


@test
def lines_are_read_as_plain_commands_by_their_fields(check):
    for line, fault in [
        # the empty text, another one, the empty name
        (b'say', 'BadText'),
        (b'say ', 'BadText'),
        (b'say  x', None),
        (b'say a  b ', None),
        (b'shout \xff\n', 'BadText'),
        (b'tell', 'BadName'),
        (b'tell ', 'BadName'),
        (b'tell bob', 'BadText'),
        (b'tell bob ', 'BadText'),
        (b'tell  bob hi', 'BadName'),
        (b'tell bob  hi', None),
        (b'tell b:b hi there', 'BadName'),
        (b'message bob', 'BadText'),
        (b'invite', 'BadName'),
        (b'invite ', 'BadName'),
        (b'invite bob 0', None),
        (b'invite bob 65535', None),
        (b'invite  7', 'BadName'),
        (b'join', None),
        (b'join ', 'BadName'),
        # none
        (b'invite bob ', 'NoCommand'),
        (b'invite bob 05', 'NoCommand'),
        (b'invite bob +5', 'NoCommand'),
        (b'invite bob -0', 'NoCommand'),
        (b'invite bob 65536', 'NoCommand'),
        (b'invite bob 18446744073709551621', 'NoCommand'),
        (b'invite bob 5 ', 'NoCommand'),
        (b'invite bob 5 6', 'NoCommand'),
        (b'invite bob five', 'NoCommand'),
        (b'join bob ', 'NoCommand'),
        (b'join bob ann', 'NoCommand'),
        (b'toggle', 'NoCommand'),
        (b'toggle ', 'NoCommand'),
        (b'toggle ready ', 'NoCommand'),
        (b'toggle  ready', 'NoCommand'),
        (b'toggle double', 'NoCommand'),
        (b'toggle autoboard', 'NoCommand'),
        (b'toggle read', 'NoCommand'),
        (b'who ', 'NoCommand'),
        (b'who bob', 'NoCommand'),
        (b'board ', 'NoCommand'),
        (b'bye now', 'NoCommand'),
        (b'', 'NoCommand'),
        (b' who', 'NoCommand'),
        (b'Who', 'NoCommand'),
        (b'dance', 'NoCommand'),
    ]:
        check(sent(line), fault or line + b'\r\n', line)


@test
def a_decimal_up_to_a_limit_is_read(check):
    """The points of an invitation, up to 65535."""
    for points, told in [
        (b'5', b'invite bob 5\r\n'),
        (b'65535', b'invite bob 65535\r\n'),
        (b'65536', 'NoCommand'),
        (b'007', 'NoCommand'),
        (b'00', 'NoCommand'),
        (b'', 'NoCommand'),
        (b'-0', 'NoCommand'),
        (b'-5', 'NoCommand'),
        (b'+5', 'NoCommand'),
        (b'5 ', 'NoCommand'),
    ]:
        check(sent(b'invite bob ' + points), told, points)


def play(*steps):
    return fibs.Decision.move(steps)


WORDS = [
    (fibs.ROLL, 'roll'),
    (fibs.DOUBLE, 'double'),
    (fibs.ACCEPT, 'accept'),
    (fibs.REJECT, 'reject'),
    (fibs.RESIGN_NORMAL, 'resign n'),
    (fibs.RESIGN_GAMMON, 'resign g'),
    (fibs.RESIGN_BACKGAMMON, 'resign b'),
]


@test
def commands_are_read_as_the_decisions_that_print_them(check):
    for steps, direction, text in [
        ([], DOWN, 'move'),
        ([(24, 18), (18, 13)], DOWN, 'move 24-18 18-13'),
        ([(24, 18)], UP, 'move 1-7'),
        ([(3, 0), (2, 0)], DOWN, 'move 3-off 2-off'),
        ([(25, 20)], UP, 'move bar-5'),
        ([(18, 24)], DOWN, 'move 18-24'),
        ([(25, 0), (25, 0), (25, 0), (25, 0)], UP, 'move bar-off bar-off bar-off bar-off'),
    ]:
        check(read_decision(text, direction), play(*steps), text)
    for decision, text in WORDS:
        check(read_decision(text, DOWN), decision, text)
        check(read_decision(text, UP), decision, '%s, going up' % text)
        check(answer(decision.command, UP), text, text)


@test
def every_other_line_is_no_decision(check):
    for line in [
        b'',
        b' ',
        b'roll ',
        b' roll',
        b'Roll',
        b'rol',
        b'roll\r',
        b'roll\xff',
        b'double now',
        b'reject accept',
        b'resign',
        b'resign ',
        b'resign x',
        b'resign N',
        b'resign n ',
        b'resign  n',
        b'resign n g',
        b'resign normal',
        b'resign gammon',
        b' resign n',
        b'Resign n',
        b'moves',
        b'move ',
        b'move24-18',
        b'move  24-18',
        b'move 24-18 ',
        b'move 24-18  18-12',
        b'move 24',
        b'move 24-',
        b'move -18',
        b'move 24-18-12',
        b'move 24/18',
        b'move 024-18',
        b'move 24-018',
        b'move +24-18',
        b'move 0-18',
        b'move 24-0',
        b'move 25-20',
        b'move off-3',
        b'move 24-bar',
        b'move 24-25',
        b'move bar20',
        b'move Bar-20',
        b'move 24-18 18-12 12-6 6-off 5-off',
        b'move 24-18,18-12',
    ]:
        check(read_decision(line, DOWN), None, line)
        check(read_decision(line, UP), None, '%r, going up' % line)


def login(name, password):
    """The first command of a client of this name and password."""
    with fibs.Client(name, password) as client:
        return client.open()


@test
def logins_are_made_of_a_name_and_a_password(check):
    password, name = b'p' * 65, b'n' * 65
    for case, of_name, of_password, fault in [
        ('an empty name', b'', b'secret', 'BadName'),
        ('a space in the name', b'a n', b'', 'BadName'),
        ('a name of 65 bytes', name, password, 'BadName'),
        ('a password of 65 bytes', b'ann', password, 'TooLong'),
        ('no password', b'ann', b'', 'BadText'),
        ('a space in the password', b'ann', b'se cret', 'BadText'),
        ('a line end in the password', b'ann', b'secret\n', 'BadText'),
        ('a byte above 126', b'ann', b'\x7f', 'BadText'),
    ]:
        check(answer(fibs.Client, of_name, of_password), fault, case)
    check(answer(login, b'ann', b'secret'), b'login fibs_client 1008 ann secret\r\n')
    name, password = name[:64], password[:64]
    check(answer(login, name, password), b'login fibs_client 1008 ' + name + b' ' + password + b'\r\n', '64 bytes each')


@test
def a_connection_is_set_up_by_four_commands(check):
    with fibs.Client(b'ann', b'secret') as client:
        client.open()
        told = list(client.feed(b'1 ann 1041253132 localhost\r\n'
                                b'2 ann 1 0 0 0 0 0 1 1 10 0 0 0 1 1500.00 0 0 0 0 0 UTC\r\n'))
        commands = b''.join(heard.send for heard in told).split(b'\r\n')
        for place, text in enumerate([b'set boardstyle 3', b'toggle autoboard', b'toggle moreboards', b'board', b'']):
            check(commands[place], text, place)
        check(len(commands), 5, 'no more')


@test
def plays_are_printed_in_the_numbers_of_the_server(check):
    for case, direction, steps, text in [
        ('no step', DOWN, [], 'move'),
        ('no step, going up', UP, [], 'move'),
        ('one step', DOWN, [(24, 18)], 'move 24-18'),
        ('one step, going up', UP, [(24, 18)], 'move 1-7'),
        ('two checkers borne off', DOWN, [(3, 0), (2, 0)], 'move 3-off 2-off'),
        ('one checker borne off, going up', UP, [(3, 0)], 'move 22-off'),
        ('three steps, going up', UP, [(20, 17), (17, 14), (14, 11)], 'move 5-8 8-11 11-14'),
        ('from the bar', DOWN, [(25, 20)], 'move bar-20'),
        ('from the bar, going up', UP, [(25, 5)], 'move bar-20'),
    ]:
        check(answer(play(*steps).command, direction), text, case)


@test
def the_longest_play_is_printed_whole(check):
    steps = [(25, 0), (25, 0), (25, 0), (25, 0)]
    check(answer(play(*steps).command, DOWN), 'move bar-off bar-off bar-off bar-off')


@test
def other_decisions_have_one_text_in_both_directions(check):
    for decision, text in WORDS:
        for direction in [DOWN, UP]:
            check(answer(decision.command, direction), text, direction)
