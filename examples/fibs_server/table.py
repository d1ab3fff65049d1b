"""A table: two players and those who watch, the match between them, and what each of them is told of it."""

import re

import rules
from boards import board_line, picture
from match import UNLIMITED, Against
from players import rating_changes

STEP = re.compile(r'(bar|b|\d{1,2})[-/](off|o|\d{1,2})\Z')


def points_word(points):
    return '%d point%s' % (points, '' if points == 1 else 's')


class Table:
    """The players are the sides 0 and 1 of the match."""

    def __init__(self, room, match, players):
        self.room, self.habits, self.match = room, room.habits, match
        self.players = list(players)
        # between two games: those who want the next one
        self.joined = set()
        for player in players:
            player.table, player.invited = self, None

    # -- who is told what ------------------------------------------------------------------------------------------

    def side(self, player):
        return self.players.index(player)

    def other(self, player):
        return self.players[1 - self.side(player)]

    def watchers(self):
        """Those who watch one of the players, with the one whom they watch."""
        return [(one, one.watching) for one in self.room.present() if one.watching in self.players]

    def tell(self, side, own, others):
        """One line for the player of this side, if there is one; another for the opponent and those who watch."""
        self.tell_all(side, own, others, others)

    def tell_all(self, side, own, opponents, watchers):
        """The player of this side, his opponent, and those who watch are told three things."""
        if own is not None:
            self.players[side].tell(own)
        self.players[1 - side].tell(opponents)
        for one, _ in self.watchers():
            one.tell(watchers)

    def show_board(self, viewer, player):
        """Shows the board as this player sees it."""
        name = 'You' if viewer is player else player.name
        side = self.side(player)
        if viewer.boardstyle == '3':
            viewer.tell(board_line(self.match, side, self.habits, name))
        else:
            viewer.tell(*picture(self.match, side, name))

    def viewers(self, after):
        """Those who may see a board after this, each with the player whose board it is."""
        if after not in self.habits.without:
            return [*zip(self.players, self.players), *self.watchers()]
        if after == 'move':
            player = self.players[self.match.turn]
            return [(player, player)]
        return []

    def show_boards(self, setting='autoboard', after=None):
        """Shows the board to all who want it; after some things the server shows none."""
        for viewer, player in self.viewers(after):
            if viewer.is_on(setting):
                self.show_board(viewer, player)

    # -- games -----------------------------------------------------------------------------------------------------

    def begin_game(self):
        """A new game, and its first roll."""
        self.joined.clear()
        for side in (0, 1):
            self.players[side].tell('Starting a new game with %s.' % self.match.names[1 - side])
        dice = self.habits.opening()
        first = self.match.opens(dice)
        for side in (0, 1):
            own, others = dice[side], dice[1 - side]
            self.players[side].tell('You rolled %d, %s rolled %d' % (own, self.match.names[1 - side], others))
        self.tell(first, "It's your turn to move.", '%s makes the first move.' % self.match.names[first])
        self.show_boards()
        self.after_roll()

    def resume(self):
        """A match that was saved goes on."""
        match = self.match
        turn = '-' if match.turn is None else match.names[match.turn]
        length = 'unlimited' if match.length == UNLIMITED else match.length
        for player in self.players:
            player.tell('turn: %s' % turn, 'match length: %s' % length,
                        *('points for user %s: %d' % pair for pair in zip(match.names, match.score)))
        if match.is_on:
            self.show_boards(after='resume')
            self.ask()
        else:
            self.ask_for_next()

    def begin_turn(self, side, after=None):
        """The turn passes to a side."""
        self.match.passes_to(side)
        if self.rolls_by_itself(side):
            self.roll_dice()
        else:
            self.show_boards(after=after)
            self.ask()

    def rolls_by_itself(self, side):
        """True if the server rolls for this side."""
        if self.habits.autoroll == 'never':
            return False
        wants = self.players[side].is_on('double') or self.habits.autoroll == 'no-double'
        return not (wants and self.match.may_double(side))

    def ask(self):
        """Says what is to be done now to the one who has to do it."""
        match = self.match
        if match.doubler is not None:
            self.players[1 - match.doubler].tell("%s doubles. Type 'accept' or 'reject'." % match.names[match.doubler])
        elif match.resigner is not None:
            self.players[1 - match.resigner].tell(self.offer_of(match.resigner))
        elif match.dice:
            self.players[match.turn].tell("It's your turn to move.")
        elif match.may_double(match.turn):
            self.players[match.turn].tell("It's your turn to roll or double.")
        else:
            self.players[match.turn].tell("It's your turn to roll.")

    def roll_dice(self):
        """The side whose turn it is rolls."""
        match = self.match
        dice = self.habits.roll()
        match.rolls(dice)
        self.tell(match.turn, 'You roll %d and %d.' % tuple(dice), '%s rolls %d and %d.' % (
            match.names[match.turn], *dice))
        self.show_boards('moreboards')
        self.after_roll()

    def after_roll(self):
        """What can be moved with the roll: nothing, one thing that the server moves by itself, or what is asked for."""
        match = self.match
        turn, needed = match.turn, match.movable()
        if needed == 0:
            self.tell(turn, "You can't move.", "%s can't move." % match.names[turn])
            self.begin_turn(1 - turn)
            return
        steps = self.moved_by_itself()
        if steps is not None:
            self.players[turn].tell('The only possible move is %s .' % self.spelled(turn, steps))
            self.carry_out(steps)
        else:
            self.players[turn].tell('Please move %d piece%s.' % (needed, '' if needed == 1 else 's'))

    def moved_by_itself(self):
        """The play that the server makes for a player who has asked for it, or None."""
        player, plays = self.players[self.match.turn], self.match.plays()
        if player.is_on('automove') and len(plays) == 1:
            return plays[0]
        if player.is_on('greedy'):
            full = [steps for steps in plays if all(target == rules.OFF for _, target in steps)]
            return full[0] if full else None
        return None

    def spelled(self, side, steps):
        return ' '.join(self.match.spelled(side, step) for step in steps)

    def carry_out(self, steps):
        """Plays for the side whose turn it is; raises Against if that is not legal."""
        match = self.match
        turn = match.turn
        is_over = match.moves(steps)
        moves = '%s moves %s .' % (match.names[turn], self.spelled(turn, steps))
        self.tell(turn, None, moves)
        if is_over:
            self.end_game(turn, match.won_by(turn))
        else:
            self.begin_turn(1 - turn, 'move')

    # -- what a player does ----------------------------------------------------------------------------------------

    def check_turn(self, side, what):
        """Raises Against if this side may not do this now: `roll the dice`, `move`, .."""
        match = self.match
        if not match.is_on:
            raise Against("** You're not playing.")
        if match.is_open() and not self.is_past_offer():
            raise Against('** Please wait until %s has accepted or rejected your offer.' % match.names[1 - side]
                          if side in (match.doubler, match.resigner) else "** Please type 'accept' or 'reject'.")
        if match.turn != side:
            raise Against("** It's not your turn to %s." % what)

    def is_past_offer(self):
        """True if an offer to resign stops nobody."""
        return self.match.doubler is None and self.habits.plays_past_offers

    def roll(self, side):
        """`roll`"""
        self.check_turn(side, 'roll the dice')
        if self.match.dice:
            raise Against('** You did already roll the dice.')
        self.roll_dice()

    def move(self, side, words):
        """`move`, with the words after it."""
        self.check_turn(side, 'move')
        if not self.match.dice:
            raise Against('** You have to roll the dice before you move.')
        self.carry_out([self.step(side, word) for word in words])

    def step(self, side, word):
        """A step in the side's own numbers."""
        found = STEP.match(word)
        if not found:
            raise Against("** Can't understand the move '%s'." % word)
        ends = []
        for end, name, place in zip(found.groups(), 'bo', (rules.BAR, rules.OFF)):
            ends.append(place if end[0] == name else self.match.place(side, int(end)))
        return tuple(ends)

    def double(self, side):
        """`double`"""
        match = self.match
        self.check_turn(side, 'double')
        if match.dice:
            raise Against('** You did already roll the dice.')
        if match.is_crawford_game:
            raise Against("** The Crawford rule doesn't allow you to double in this game.")
        if not match.may_double(side):
            raise Against("** You can't double.")
        match.doubles(side)
        name, other = match.names[side], match.names[1 - side]
        self.tell_all(side, 'You double. Please wait for %s to accept or reject.' % other,
                      "%s doubles. Type 'accept' or 'reject'." % name, '%s doubles.' % name)
        self.show_boards(after='double')

    def accept(self, side):
        """`accept`, of a double or of a resignation."""
        match = self.match
        name = match.names[side]
        if match.doubler == 1 - side:
            match.takes()
            self.tell(side, 'You accept the double. The cube shows %d.' % match.cube,
                      '%s accepts the double. The cube shows %d.' % (name, match.cube))
            self.begin_turn(1 - side, 'accept')
        elif match.resigner == 1 - side:
            points = match.offered
            self.tell(side, 'You accept and win %s.' % points_word(points),
                      '%s accepts and wins %s.' % (name, points_word(points)))
            self.end_game(side, points)
        else:
            raise Against("** Your opponent didn't double or resign.")

    def reject(self, side):
        """`reject`, of a double or of a resignation."""
        match = self.match
        name, other = match.names[side], match.names[1 - side]
        if match.doubler == 1 - side:
            points = points_word(match.cube)
            self.tell_all(side, 'You give up. %s wins %s.' % (other, points),
                          '%s gives up. You win %s.' % (name, points),
                          '%s gives up. %s wins %s.' % (name, other, points))
            self.end_game(1 - side, match.cube)
        elif match.resigner == 1 - side:
            match.declines()
            self.tell(side, 'You reject. The game continues.', '%s rejects. The game continues.' % name)
            if self.habits.shows_resignations:
                self.show_boards()
        else:
            raise Against("** Your opponent didn't double or resign.")

    def resign(self, side, kind):
        """`resign n`, `resign g` or `resign b`"""
        match = self.match
        self.check_turn(side, 'resign')
        match.resigns(side, kind)
        other, points = match.names[1 - side], points_word(match.offered)
        self.tell_all(side, 'You want to resign. %s will win %s.' % (other, points), self.offer_of(side),
                      '%s wants to resign. %s will win %s.' % (match.names[side], other, points))
        if self.habits.shows_resignations:
            self.show_boards()

    def offer_of(self, side):
        """What the opponent is told of an offer to resign."""
        return "%s wants to resign. You will win %s. Type 'accept' or 'reject'." % (
            self.match.names[side], points_word(self.match.offered))

    # -- how games and matches end ---------------------------------------------------------------------------------

    def end_game(self, winner, points):
        """A side has won the game."""
        match = self.match
        match.ends(winner, points)
        name, word = match.names[winner], points_word(points)
        self.show_boards(after='end')
        self.tell_all(winner, 'You win the game and get %s. Congratulations!' % word,
                      '%s wins the game and gets %s. Sorry.' % (name, word),
                      '%s wins the game and gets %s.' % (name, word))
        if match.is_won():
            self.end_match(winner)
        else:
            self.ask_for_next()

    def ask_for_next(self):
        for player in self.players:
            player.tell("Type 'join' if you want to play the next game, type 'leave' if you don't.")

    def end_match(self, winner):
        """The match is over; the table is free."""
        match = self.match
        ends = ' the %d point match %d-%d .' % (match.length, match.score[winner], match.score[1 - winner])
        name = match.names[winner]
        self.tell(winner, 'You win' + ends, name + ' wins' + ends)
        self.rate(winner)
        self.room.report(self.players, '%s wins a %d point match against %s  %d-%d .' % (
            name, match.length, match.names[1 - winner], match.score[winner], match.score[1 - winner]))
        self.dissolve()

    def rate(self, winner):
        """The match changes the ratings of both."""
        won, lost = self.players[winner], self.players[1 - winner]
        changes = rating_changes(won, lost, self.match.length)
        for player, change in zip((won, lost), changes):
            player.rating += change
            player.experience += self.match.length
            for other, by in zip((won, lost), changes):
                if player.is_on('ratings'):
                    player.tell('change for %s: %+.6f' % (other.name, by))

    def dissolve(self):
        """Nobody sits at the table any more."""
        for one, _ in self.watchers():
            one.watching = None
        for player in self.players:
            player.table = None
        self.room.changed(*self.players)

    def join_next(self, side):
        """`join` between two games."""
        if self.match.is_on:
            raise Against('** You are already playing.')
        self.joined.add(side)
        if len(self.joined) == 2:
            self.match.begins()
            self.begin_game()
        else:
            self.players[side].tell('** Please wait for %s to join too.' % self.match.names[1 - side])
            self.players[1 - side].tell('** Player %s wants to play the next game. Type \'join\' or \'leave\'.'
                                        % self.match.names[side])

    def leave(self, side, how=None):
        """`leave`, or the connection has ended in a way that has words: the match is saved."""
        name = self.match.names[side]
        others = '** Player %s has left the game. The game was saved.' % name
        if how and self.habits.tells_how:
            others = '%s %s The game was saved.' % (name, how)
        self.tell(side, '** You terminated the game. The game was saved.', others)
        if self.habits.forgets_offers:
            self.match.forgets_offers()
        self.room.save(self.match)
        self.dissolve()
