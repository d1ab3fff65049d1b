"""The room: who is there, the tables, the saved matches, and how players come and go."""

import time

from commands import Commands
from match import Against
from players import Player

BANNER = ['', '        Welcome to a server that talks as FIBS does.', '']
PROMPT = b'login: '
TRIES = 3


def greeting_of(count):
    """The banner and the first prompt, made up to so many bytes by rows of dots."""
    banner = '\r\n'.join([*BANNER, '']).encode()
    missing = count - len(banner) - len(PROMPT)
    rows = b''
    while missing > 1:
        dots = min(missing - 2, 70)
        # what would be left for one row more has to hold its end
        dots -= missing - 2 - dots == 1
        rows += b'.' * dots + b'\r\n'
        missing -= dots + 2
    return banner + rows + PROMPT


class Room:
    """Everything that the server knows. If it `is_open`, a login with a new name makes an account, which has these
    settings: player (or '' for any), name and value of each."""

    def __init__(self, habits, accounts=(), is_open=True, motd=('Good luck.',), settings=None, log=None):
        self.habits, self.is_open, self.motd = habits, is_open, list(motd)
        self.settings = settings or []
        self.accounts = {player.name: player for player in accounts}
        for player in accounts:
            player.settings.update(self.settings_of(player.name))
        self.saved = {}
        # the connections on which nobody is logged in
        self.strangers = set()
        self.commands = Commands(self)
        self.log = log or (lambda *_: None)

    # -- who is there ----------------------------------------------------------------------------------------------

    def settings_of(self, name, *others):
        """The settings that were asked for by the name of this player, and by these other names."""
        return {setting: value for player, setting, value in self.settings if player in (name, *others)}

    def present(self):
        """Those who are logged in."""
        return [player for player in self.accounts.values() if player.logged_in]

    def find(self, name):
        """The player of this name who is logged in."""
        player = self.accounts.get(name)
        if player is None or not player.logged_in:
            raise Against('** There is no one called %s.' % name)
        return player

    def changed(self, *players):
        """Tells clients how these players are now."""
        if self.habits.tells_changes:
            for one in self.present():
                if one.is_clip:
                    one.tell(*(player.who_info() for player in players if player.logged_in), '6')

    def report(self, players, text):
        """Tells those who want to know, but not these."""
        for one in self.present():
            if one not in players and one.is_on('report'):
                one.tell(text)

    # -- saved matches ---------------------------------------------------------------------------------------------

    def save(self, match):
        self.saved[frozenset(match.names)] = match

    def saved_match(self, one, other):
        return self.saved.get(frozenset((one.name, other.name)))

    def saved_of(self, player):
        """The saved matches of a player, each with the name of the other."""
        return [(next(iter(names - {player.name})), match) for names, match in self.saved.items()
                if player.name in names]

    # -- how players come ------------------------------------------------------------------------------------------

    def opened(self, link):
        """A connection was made."""
        self.strangers.add(link)
        if self.habits.greeting:
            link.write(greeting_of(self.habits.greeting))
        else:
            link.send(*BANNER)
            link.write(PROMPT)

    def line(self, link, line):
        """A line has come on a connection."""
        if link.player:
            self.log(link.player.name, '<', line)
            self.command(link.player, line)
            if link.player and (self.habits.prompts or not link.player.is_clip):
                link.write(b'> ')
        elif link.name is not None:
            self.check(link, link.name, line, None)
        else:
            self.logs_in(link, line)

    def logs_in(self, link, line):
        """A line before the login: `login CLIENT 1008 NAME PASSWORD`, or a name."""
        words = line.split()
        if len(words) == 5 and words[0] == 'login':
            self.check(link, words[3], words[4], words[1])
        elif words:
            link.name = words[0]
            link.write(b'password: ')
        else:
            link.write(PROMPT)

    def check(self, link, name, password, client):
        """Logs a player in, or asks once more."""
        player = self.accounts.get(name)
        if player is None and self.is_open:
            player = self.accounts[name] = Player(name, **self.settings_of(name, ''))
        if player is None or player.password not in (None, password):
            self.refuse(link, client)
            return
        player.password = password
        self.take_in(link, player, client)

    def refuse(self, link, client):
        link.name, link.tries = None, link.tries + 1
        link.send('' if client else '** User not known or wrong password.')
        if link.tries == TRIES:
            self.strangers.discard(link)
            link.end()
        else:
            link.write(PROMPT)

    def take_in(self, link, player, client):
        """The player is logged in; if he already was, the new connection takes the place of the old one."""
        was_here, old = bool(player.logged_in), player.link
        if old:
            old.player = None
            old.end()
        player.comes(link, client)
        link.player = player
        self.strangers.discard(link)
        self.log(player.name, '=', 'logs in')
        if was_here and old:
            player.tell('** Warning: You are already logged in.')
        self.greet(player)
        if not was_here:
            self.comes_or_goes(player, 7, 'logs in.')
        self.changed(player)
        player.last_login, player.last_host = int(time.time()), link.host
        if not player.is_clip:
            link.write(b'> ')

    def greet(self, player):
        """What a player is told at his login."""
        if player.is_clip:
            player.tell(player.welcome(), player.own_info(), '3', *self.motd, '4')
            player.tell(*(one.who_info() for one in self.present()), '6')
        else:
            player.tell('Welcome %s.' % player.name, *self.motd)
        for sender, when, text in player.mail:
            player.hears(9, '%s %d' % (sender, when), '%s left a message: ' % sender, text)
        player.mail.clear()

    def comes_or_goes(self, player, number, how):
        """Tells the others that a player comes or goes."""
        for one in self.present():
            if one is not player and one.is_on('notify'):
                one.hears(number, player.name, '', '%s %s' % (player.name, how))
        if self.habits.tells_strangers:
            for link in self.strangers:
                link.send('%d %s %s %s' % (number, player.name, player.name, how))

    # -- how players go --------------------------------------------------------------------------------------------

    def lost(self, link):
        """A connection has ended by itself."""
        player, link.player = link.player, None
        self.strangers.discard(link)
        if player is None:
            return
        if self.habits.keeps_games and player.table:
            # nobody is told, and who logs in again sits where he sat
            player.link = None
        else:
            self.leaves(player, 'drops connection.')

    def leaves(self, player, how):
        """A player is gone; a match of his is saved."""
        self.log(player.name, '=', how)
        table, link = player.table, player.link
        # he is told nothing of it any more
        player.link, player.logged_in = None, 0
        if table:
            table.leave(table.side(player), how)
        player.offline()
        for one in self.present():
            if one.watching is player:
                one.watching = None
        self.comes_or_goes(player, 8, how)
        self.changed()
        if link:
            link.player = None
            link.end()

    def command(self, player, line):
        """A player's command is carried out; he is told why if it can't be."""
        player.active = time.time()
        try:
            self.commands.run(player, line)
        except Against as reason:
            player.tell(str(reason))
