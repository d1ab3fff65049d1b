"""The commands of a player who is logged in. A method `do_WORD` is the command of this word."""

import time

import rules
from match import RESIGNATIONS, UNLIMITED, Against, Match
from players import TOGGLED
from table import Table, points_word

# Short forms, and other words for the same.
ALIASES = {'m': 'move', 'r': 'roll', 'd': 'double', 'k': 'kibitz', 't': 'tell', 'w': 'who', 'i': 'invite', 'j': 'join',
           'quit': 'bye', 'adios': 'bye', 'ciao': 'bye', 'end': 'bye', 'exit': 'bye', 'logout': 'bye'}

# Commands that a habit can refuse, each with what is said then.
REFUSED = {'roll': "** You can't roll now.", 'double': "** You can't double now.", 'move': "** You can't move now.",
           'accept': "** You can't accept now.", 'reject': "** You can't reject now.",
           'resign': "** You can't resign now."}


class Commands:
    """What each command does."""

    def __init__(self, room):
        self.room = room

    def run(self, player, line):
        """Carries a line out; raises Against with what is to be said if it can't be."""
        word, _, rest = line.strip().partition(' ')
        if not word:
            return
        word = ALIASES.get(word, word)
        command = getattr(self, 'do_' + word, None) if word.isalpha() else None
        if command is None:
            raise Against("** Unknown command: '%s'" % word)
        if word in REFUSED and self.room.habits.refuses_now(word):
            raise Against(REFUSED[word])
        command(player, rest.strip() if word not in SAYINGS else rest)

    # -- a game ----------------------------------------------------------------------------------------------------

    def seat(self, player):
        """The table at which he plays, and his side."""
        if not player.table:
            raise Against("** You're not playing.")
        return player.table, player.table.side(player)

    def do_roll(self, player, _rest):
        table, side = self.seat(player)
        table.roll(side)

    def do_move(self, player, rest):
        table, side = self.seat(player)
        table.move(side, rest.split())

    def do_double(self, player, _rest):
        table, side = self.seat(player)
        table.double(side)

    def do_accept(self, player, _rest):
        table, side = self.seat(player)
        table.accept(side)

    def do_reject(self, player, _rest):
        table, side = self.seat(player)
        table.reject(side)

    def do_resign(self, player, rest):
        table, side = self.seat(player)
        if rest[:1] not in RESIGNATIONS or not rest:
            raise Against("** Type 'n' for normal, 'g' for gammon or 'b' for backgammon after 'resign'.")
        table.resign(side, rest[0])

    def do_leave(self, player, _rest):
        table, side = self.seat(player)
        table.leave(side)

    def do_board(self, player, _rest):
        if player.table:
            player.table.show_board(player, player)
        elif player.watching:
            player.watching.table.show_board(player, player.watching)
        else:
            raise Against("** You're not playing.")

    def do_pip(self, player, _rest):
        table, side = self.seat(player)
        own, other = (rules.pips(table.match.position[one]) for one in (side, 1 - side))
        player.tell('Pipcounts: You %d  %s %d.' % (own, table.other(player).name, other))

    # -- matches ---------------------------------------------------------------------------------------------------

    def do_invite(self, player, rest):
        words = rest.split()
        if not words:
            raise Against('** invite who?')
        if player.table:
            raise Against('** You are already playing.')
        other = self.room.find(words[0])
        if other is player:
            raise Against("** You can't invite yourself.")
        if other.table:
            raise Against('** %s is already playing with someone else.' % other.name)
        if not other.is_on('ready'):
            raise Against('** %s is refusing games.' % other.name)
        if len(words) == 1:
            self.invite_to_resume(player, other)
        else:
            self.invite_to_begin(player, other, words[1])

    def invite_to_resume(self, player, other):
        if not self.room.saved_match(player, other):
            raise Against("** There's no saved match with %s. Please give a match length." % other.name)
        player.invited = other.name, None
        player.tell('** You invited %s to resume a saved match.' % other.name)
        other.tell('%s wants to resume a saved match with you.' % player.name,
                   "Type 'join %s' to accept." % player.name)

    def invite_to_begin(self, player, other, length):
        if length == 'unlimited':
            points, what = UNLIMITED, 'an unlimited match'
        elif length.isdigit() and 0 < int(length) < UNLIMITED:
            points, what = int(length), 'a %s point match' % length
        else:
            raise Against("** The second argument to 'invite' has to be a number or the word 'unlimited'")
        player.invited = other.name, points
        player.tell('** You invited %s to %s.' % (other.name, what))
        other.tell('%s wants to play %s with you.' % (player.name, what))
        if self.room.saved_match(player, other):
            other.tell("WARNING: Don't accept if you want to continue the saved match!")
        other.tell("Type 'join %s' to accept." % player.name)

    def do_join(self, player, rest):
        table = player.table
        if table and not table.match.is_on:
            table.join_next(table.side(player))
            return
        if table:
            raise Against('** You are already playing.')
        inviting = [one for one in self.room.present() if one.invited and one.invited[0] == player.name]
        if rest:
            inviting = [one for one in inviting if one.name == rest]
            if not inviting:
                raise Against("** %s didn't invite you." % rest)
        if not inviting:
            raise Against('** Nobody has invited you.')
        self.begin(inviting[-1], player)

    def begin(self, inviting, player):
        """Begins the match to which a player was invited."""
        room, points = self.room, inviting.invited[1]
        names = frozenset((inviting.name, player.name))
        for one in (inviting, player):
            one.watching = None
        if points is None:
            match = room.saved.pop(names)
            self.resume(match, inviting, player)
            return
        room.saved.pop(names, None)
        colours, directions = room.habits.sides()
        crawford = inviting.is_on('crawford') and player.is_on('crawford')
        match = Match([inviting.name, player.name], points, colours, directions, crawford)
        table = Table(room, match, [inviting, player])
        what = 'an unlimited match' if points == UNLIMITED else 'a %d point match' % points
        player.tell('** You are now playing %s with %s.' % (what, inviting.name))
        inviting.tell('** Player %s has joined you for %s.' % (player.name, what))
        room.report((inviting, player), '%s and %s start %s.' % (player.name, inviting.name, what))
        table.begin_game()
        room.changed(inviting, player)

    def resume(self, match, inviting, player):
        room = self.room
        seats = [inviting, player] if match.names[0] == inviting.name else [player, inviting]
        table = Table(room, match, seats)
        player.tell('You are now playing with %s. Your running match was loaded.' % inviting.name)
        inviting.tell('%s has joined you. Your running match was loaded.' % player.name)
        room.report(seats, '%s and %s are resuming their %s match.' % (
            inviting.name, player.name, 'unlimited' if match.length == UNLIMITED else '%d-point' % match.length))
        table.resume()
        room.changed(inviting, player)

    def do_show(self, player, rest):
        if rest not in ('saved', 'savedcount'):
            raise Against("** Type 'show saved' or 'show savedcount'.")
        saved = self.room.saved_of(player)
        if not saved:
            player.tell('no saved games.')
        elif rest == 'savedcount':
            player.tell('%s has %d saved game%s.' % (player.name, len(saved), '' if len(saved) == 1 else 's'))
        else:
            player.tell('  opponent          matchlength   score (your points first)')
            for name, match in saved:
                side = match.names.index(player.name)
                length = 'unlimited' if match.length == UNLIMITED else match.length
                player.tell('%2s%-20s %4s %10d - %2d' % (
                    self.stars(name), name, length, match.score[side], match.score[1 - side]))

    def stars(self, name):
        """A star if a player is logged in, and two if he is ready to play."""
        return next(('**' if one.is_on('ready') and not one.table else '*'
                     for one in self.room.present() if one.name == name), '')

    # -- watching --------------------------------------------------------------------------------------------------

    def do_watch(self, player, rest):
        if player.table:
            raise Against('** You are already playing.')
        other = self.room.find(rest)
        if not other.table:
            raise Against('** %s is not playing.' % other.name)
        player.watching = other
        player.tell("You're now watching %s." % other.name)
        for one in other.table.players:
            one.tell('%s is watching you.' % player.name)
        self.room.changed(player)

    def do_unwatch(self, player, _rest):
        if not player.watching:
            raise Against("** You're not watching.")
        other, player.watching = player.watching, None
        player.tell('You stop watching %s.' % other.name)
        for one in other.table.players if other.table else ():
            one.tell('%s stops watching you.' % player.name)
        self.room.changed(player)

    def do_look(self, player, rest):
        other = self.room.find(rest)
        if not other.table:
            raise Against('** %s is not playing.' % other.name)
        other.table.show_board(player, other)

    # -- talk ------------------------------------------------------------------------------------------------------

    def do_say(self, player, text):
        table, _ = self.seat(player)
        self.says(player, table.other(player), text)

    def do_tell(self, player, rest):
        name, _, text = rest.partition(' ')
        self.says(player, self.room.find(name), text)

    def says(self, player, other, text):
        """A player says something to another one."""
        if player.name in other.gagged:
            raise Against("** %s won't listen to you." % other.name)
        other.hears(12, player.name, '%s says: ' % player.name, text)
        player.hears(16, other.name, 'You say to %s: ' % other.name, text)

    def do_shout(self, player, text):
        if player.is_on('silent'):
            raise Against("** Please type 'toggle silent' again before you shout.")
        for one in self.room.present():
            if one is not player and not one.is_on('silent') and player.name not in one.gagged:
                one.hears(13, player.name, '%s shouts: ' % player.name, text)
        player.hears(17, None, 'You shout: ', text)

    def do_kibitz(self, player, text):
        self.to_the_table(player, text, (15, 'kibitzes', 19, 'You kibitz: '), with_players=True)

    def do_whisper(self, player, text):
        self.to_the_table(player, text, (14, 'whispers', 18, 'You whisper: '), with_players=False)

    def to_the_table(self, player, text, words, with_players):
        """Tells those who watch a game, and those who play if they are meant too."""
        table = player.table or (player.watching and player.watching.table)
        if not table:
            raise Against("** You're not watching or playing.")
        number, verb, own_number, own = words
        heard = [one for one, _ in table.watchers()] + (table.players if with_players else [])
        heard = [one for one in heard if one is not player]
        for one in heard:
            one.hears(number, player.name, '%s %s: ' % (player.name, verb), text)
        player.hears(own_number, None, own, text)

    def do_message(self, player, rest):
        name, _, text = rest.partition(' ')
        other = self.room.accounts.get(name)
        if other is None:
            raise Against('** There is no one called %s.' % name)
        if other.logged_in:
            other.hears(9, '%s %d' % (player.name, time.time()), '%s left a message: ' % player.name, text)
            player.hears(10, name, '** Your message was delivered to ', '' if player.is_clip else name)
        else:
            other.mail.append((player.name, int(time.time()), text))
            player.hears(11, name, '** Your message was saved for ', '' if player.is_clip else name)

    def do_gag(self, player, rest):
        if rest in player.gagged:
            player.gagged.discard(rest)
            player.tell('** You will hear what %s says.' % rest)
        else:
            player.gagged.add(rest)
            player.tell("** You won't hear what %s says and shouts." % rest)

    # -- who is there ----------------------------------------------------------------------------------------------

    def do_who(self, player, rest):
        wanted = self.room.present()
        if rest == 'ready':
            wanted = [one for one in wanted if one.is_on('ready') and not one.table]
        elif rest == 'playing':
            wanted = [one for one in wanted if one.table]
        elif rest == 'away':
            wanted = [one for one in wanted if one.away is not None]
        elif rest:
            wanted = [self.room.find(rest)]
        if player.is_clip:
            player.tell(*(one.who_info() for one in wanted), '6')
        else:
            player.tell(*(one.who_row() for one in wanted))

    def do_rawwho(self, player, _rest):
        player.tell(*(one.who_info() for one in self.room.present()), '6')

    def do_whois(self, player, rest):
        other = self.room.accounts.get(rest)
        if other is None:
            raise Against('** There is no one called %s.' % rest)
        player.tell('Information about %s:' % other.name,
                    '  Last login:  %s from %s' % (time.ctime(other.last_login), other.last_host),
                    '  Rating: %.2f Experience: %d' % (other.rating, other.experience))
        if other.table:
            player.tell('  %s is playing with %s.' % (other.name, other.opponent))
        if not other.logged_in:
            player.tell('  Not logged in right now.')

    def do_away(self, player, rest):
        player.away = rest
        player.tell("You're away. Please type 'back'")
        self.room.changed(player)

    def do_back(self, player, _rest):
        if player.away is None:
            raise Against("** You're not away.")
        player.away = None
        player.tell('Welcome back.')
        self.room.changed(player)

    # -- settings --------------------------------------------------------------------------------------------------

    def do_set(self, player, rest):
        words = rest.split()
        values = {'boardstyle': player.boardstyle, 'redoubles': player.redoubles, 'timezone': player.timezone}
        if not words:
            player.tell('Settings of variables:', *('%-12s %s' % pair for pair in values.items()))
        elif words[0] not in values:
            raise Against("** Unknown variable '%s'." % words[0])
        elif len(words) == 1:
            player.tell("Value of '%s' is %s" % (words[0], values[words[0]]))
        elif words[0] == 'boardstyle' and words[1] not in ('1', '2', '3'):
            raise Against("** Valid arguments are the numbers 1 to 3.")
        else:
            setattr(player, words[0], words[1])
            player.tell("Value of '%s' set to %s." % (words[0], words[1]))

    def do_toggle(self, player, rest):
        if not rest:
            player.tell('The current settings are:', *('%-12s %s' % (name, 'YES' if player.is_on(name) else 'NO')
                                                       for name in TOGGLED))
        elif rest not in TOGGLED:
            raise Against("** Don't know how to toggle %s." % rest)
        else:
            player.settings[rest] = 1 - player.settings[rest]
            player.tell(TOGGLED[rest][1 - player.settings[rest]])
            if rest == 'ready':
                self.room.changed(player)

    # -- the rest --------------------------------------------------------------------------------------------------

    def do_motd(self, player, _rest):
        player.tell(*(['3', *self.room.motd, '4'] if player.is_clip else self.room.motd))

    def do_time(self, player, _rest):
        player.tell(time.strftime('%A, %B %d %H:%M:%S %Y UTC', time.gmtime()))

    def do_version(self, player, _rest):
        player.tell('fibs_server of Liftplum')

    def do_wave(self, player, _rest):
        player.tell('You wave goodbye.')
        for one in self.room.present():
            if one is not player:
                one.tell('%s waves goodbye.' % player.name)

    def do_help(self, player, _rest):
        player.tell(*HELP)

    def do_bye(self, player, _rest):
        player.tell('', '                    Goodbye.')
        self.room.leaves(player, 'logs out.')


# What `help` says.
HELP = [
    'a match    invite NAME POINTS  invite NAME  join NAME  join  leave  show saved',
    'a game     roll  double  accept  reject  move 8-5 6-5  resign n  board  pip',
    'players    who  who NAME  rawwho  whois NAME  away TEXT  back  toggle ready',
    'talk       say TEXT  tell NAME TEXT  shout TEXT  message NAME TEXT  gag NAME',
    '           kibitz TEXT  whisper TEXT  wave',
    'watching   watch NAME  unwatch  look NAME',
    'settings   set boardstyle 3  toggle NAME',
    'the rest   motd  time  version  help  bye',
]

# Words whose text keeps its spaces.
SAYINGS = 'say', 'shout', 'kibitz', 'whisper', 'tell', 'message'
