#!/usr/bin/perl
# A filter of rlwrap for fibs-play: Ctrl-C cancels what is typed; pressed twice if nothing is, it leaves. If the window
# has another size, the program is told before the next line. Tab completes what belongs where it is pressed: a player
# whom the server listed after `tell`, a place after `m`, else words.
use strict;
use lib ($ENV{RLWRAP_FILTERDIR} or '.');
use RlwrapFilter;

my $pressed = 0;

# The key, what is before the cursor and after it, and the history. The first answer is shown until the next key.
sub cancels {
    my ($key, $before, $after, @history) = @_;
    if ("$before$after" ne '') {
        $pressed = 0;
        return ('cancelled', '', '', @history);
    }
    return ('', '', "quit\n", @history) if $pressed++;
    return ('Ctrl-C again leaves', '', '', @history);
}

# How high the window is, and how wide; 0 if that is not known.
sub size {
    return qx(stty size < /dev/tty 2> /dev/null) =~ /^(\d+) (\d+)$/ ? ($1, $2) : (0, 0);
}

my ($rows, $columns) = size();

# The line that was typed, after the new size, if it is one that the program takes.
sub with_size {
    my ($line) = @_;
    my ($high, $wide) = size();
    $line = "rows $high\n$line" if $high != $rows && $high >= 1 && $high <= 999;
    $line = "columns $wide\n$line" if $wide != $columns && $wide >= 20 && $wide <= 999;
    ($rows, $columns) = ($high, $wide);
    return $line;
}

# The log of this conversation, and what was read of a line that has not ended.
my ($log, $begun) = (undef, '');
seek $log, $ENV{FIBS_PLAY_LOG_BEGIN} // 0, 0 if defined $ENV{FIBS_PLAY_LOG} && open $log, '<', $ENV{FIBS_PLAY_LOG};

# The players who are logged in, by what the log has had so far: message 5 lists one, 7 and 8 say who comes and goes.
my %players;

sub hear_log {
    return unless $log;
    seek $log, 0, 1;
    my @lines = split /\n/, $begun . join('', <$log>), -1;
    $begun = pop @lines // '';
    for (@lines) {
        next unless /^(?:> )*([578]) ([!-9;-~]{1,64}) /;
        $1 == 8 ? delete $players{$2} : ($players{$2} = 1);
    }
}

# The first words after which a player is named, and nothing else; and those after which all that follows is places.
my %names_player = map { $_ => 1 } qw(tell t message invite join watch whois gag ungag matches);
my %has_places = map { $_ => 1 } qw(move m try plays);

# The places that may end what was typed: of `24/1`, the second one.
sub places {
    my ($first, $typed) = @_;
    my ($from, $begun) = $typed =~ m{^(.*[/-])?(.*)$};
    my @all = (1 .. 24, !defined $from || $first eq 'plays' ? 'bar' : 'off');
    return map { ($from // '') . $_ } grep { index($_, $begun) == 0 } @all;
}

# What may follow what was typed, where it stands: a player, a place, or one of the words that rlwrap knows or has read
# on the screen, and players.
sub completes {
    my ($line, $typed, @read) = @_;
    hear_log();
    my @players = grep { index($_, $typed) == 0 } keys %players;
    (my $before = $line) =~ s/\Q$typed\E\z//;
    my ($first, $between) = $before =~ /^\s*(\S+)\s+(.*)$/;
    if (defined $first) {
        $first = lc $first;
        return sort @players if $names_player{$first} && $between eq '';
        return places($first, $typed) if $has_places{$first};
    }
    my %all = map { $_ => 1 } @read, @players;
    return sort keys %all;
}

my $filter = RlwrapFilter->new;
$filter->help_text("Ctrl-C cancels the line, for fibs-play.\n");
$filter->input_handler(\&with_size);
$filter->hotkey_handler(\&cancels);
$filter->completion_handler(\&completes);
# a line was typed
$filter->history_handler(sub { $pressed = 0; $_ });
# rlwrap leaves the terminal alone until its filter answers for the first time: that is when the password is typed.
if (defined $ENV{FIBS_PLAY_ROOM} && open my $gate, '<', "$ENV{FIBS_PLAY_ROOM}/gate") {
    local $SIG{TSTP} = 'IGNORE';
    if (open my $ready, '>', "$ENV{FIBS_PLAY_ROOM}/ready") {
        print $ready "\n";
        close $ready;
    }
    <$gate>;
}
$filter->run;
