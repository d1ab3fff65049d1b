"""The players: each account, and what its player does now."""

import time

# The settings of message 2, in its order, with what a new account has.
SETTINGS = {'allowpip': 1, 'autoboard': 1, 'autodouble': 0, 'automove': 0, 'away': 0, 'bell': 0, 'crawford': 1,
            'double': 1, 'greedy': 0, 'moreboards': 1, 'moves': 0, 'notify': 1, 'ratings': 0, 'ready': 1, 'report': 0,
            'silent': 0, 'telnet': 1, 'wrap': 0}

# What `toggle NAME` says when it turns a setting on, and off.
TOGGLED = {
    'allowpip': ("** You allow the use of the server's 'pip' command.",
                 "** You don't allow the use of the server's 'pip' command."),
    'autoboard': ('** The board will be refreshed after every move.',
                  "** The board won't be refreshed after every move."),
    'autodouble': ('** You agree that doublets during opening double the cube.',
                   "** You don't agree that doublets during opening double the cube."),
    'automove': ('** Forced moves will be done automatically.', "** Forced moves won't be done automatically."),
    'bell': ('** Your terminal will ring the bell if someone talks to you or invites you',
             "** Your terminal won't ring the bell if someone talks to you or invites you"),
    'crawford': ('** You insist on playing with the Crawford rule.',
                 '** You would like to play without using the Crawford rule.'),
    'double': ('** You will be asked if you want to double.', "** You won't be asked if you want to double."),
    'greedy': ('** Will use automatic greedy bearoffs.', "** Won't use automatic greedy bearoffs."),
    'moreboards': ('** Will send rawboards after rolling.', "** Won't send rawboards after rolling."),
    'moves': ('** You want a list of moves after this game.', "** You won't see a list of moves after this game."),
    'notify': ("** You'll be notified when new users log in.", "** You won't be notified when new users log in."),
    'ratings': ("** You'll see how the rating changes are calculated.",
                "** You won't see how the rating changes are calculated."),
    'ready': ("** You're now ready to invite or join someone.", "** You're now refusing to play with someone."),
    'report': ('** You will be informed about starting and ending matches.',
               "** You won't be informed about starting and ending matches."),
    'silent': ("** You won't hear what other players shout.", '** You will hear what other players shout.'),
    'telnet': ("** You use telnet and don't need extra 'newlines'.",
               "** You use a client program and will receive extra 'newlines'."),
    'wrap': ('** The server will wrap long lines.', "** The server won't wrap long lines."),
}


class Player:
    """An account, with its connection while the player is logged in."""

    def __init__(self, name, password=None, rating=1500.0, experience=0, **settings):
        self.name, self.password, self.rating, self.experience = name, password, rating, experience
        self.settings = {**SETTINGS, **settings}
        self.boardstyle, self.redoubles, self.timezone, self.email = '1', 'none', 'UTC', '-'
        self.last_login, self.last_host = int(time.time()), 'localhost'
        # messages left for him: sender, time, text
        self.mail = []
        self.gagged = set()
        self.offline()

    def offline(self):
        """He is not logged in."""
        self.link = None
        self.table = self.watching = self.away = self.invited = None
        self.is_clip, self.client = False, '-'
        self.logged_in = self.active = 0

    def comes(self, link, client):
        """He has logged in on a connection; with a client, or without one (None)."""
        self.link, self.is_clip, self.client = link, client is not None, client or '-'
        self.logged_in = self.active = time.time()

    def is_on(self, setting):
        return bool(self.settings[setting])

    @property
    def opponent(self):
        """The opponent's name."""
        return self.table.other(self).name if self.table else None

    # -- what he is told -------------------------------------------------------------------------------------------

    def tell(self, *lines):
        """Sends him lines, if he is there."""
        if self.link:
            self.link.send(*lines)

    def hears(self, number, who, plain, text):
        """Something is said: a numbered line for a client, else one in plain words."""
        if self.is_clip:
            self.tell(' '.join([str(number), *([who] if who else []), *([text] if text else [])]))
        else:
            self.tell(plain + text)

    # -- numbered lines --------------------------------------------------------------------------------------------

    def welcome(self):
        """Message 1."""
        return '1 %s %d %s' % (self.name, self.last_login, self.last_host)

    def own_info(self):
        """Message 2."""
        flags = {**self.settings, 'away': int(self.away is not None)}
        first = [flags[name] for name in list(SETTINGS)[:8]]
        more = [flags[name] for name in ('greedy', 'moreboards', 'moves', 'notify')]
        words = [2, self.name, *first, self.experience, *more, '%.2f' % self.rating, flags['ratings'], flags['ready'],
                 self.redoubles, flags['report'], flags['silent'], self.timezone]
        return ' '.join(map(str, words))

    def who_info(self):
        """Message 5."""
        words = [5, self.name, self.opponent or '-', self.watching.name if self.watching else '-',
                 self.settings['ready'], int(self.away is not None), '%.2f' % self.rating, self.experience,
                 int(time.time() - self.active), int(self.logged_in), self.link.host if self.link else '-',
                 self.client, self.email]
        return ' '.join(map(str, words))

    def who_row(self):
        """A row of `who` without a client."""
        state = 'playing ' + self.opponent if self.table else 'ready' if self.is_on('ready') else '-'
        return '%-12s %-24s %8.2f %6d  %s' % (self.name, state, self.rating, self.experience, self.client)


def rating_changes(winner, loser, length):
    """What a match changes: the rating of the winner, and that of the loser, as FIBS reckons it."""
    root = length ** 0.5
    upset = 1 / (10 ** (abs(winner.rating - loser.rating) * root / 2000) + 1)
    chance = upset if winner.rating >= loser.rating else 1 - upset
    gains = []
    for player in (winner, loser):
        newcomer = max(1.0, 5 - (player.experience + length) / 100)
        gains.append(4 * newcomer * root * chance)
    return gains[0], -gains[1]
