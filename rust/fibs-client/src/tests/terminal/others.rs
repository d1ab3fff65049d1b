//! What is said of other players than the opponent: what is known of a match or of an invitation stays.

use super::seats::{Cue, Scene, assert_scenes, plain_settings, shown};
use crate::fibs_wording::environment::Settings;

/// The opponent has left the game.
const LEFT: &[u8] = b"** Player bob has left the game. The game was saved.\r\n";

/// Another player invites the user, and one more.
const EVE_INVITES: &[u8] = b"eve wants to play a 3 point match with you.\r\n";

const CARL_INVITES: &[u8] = b"carl wants to play a 5 point match with you.\r\n";

/// What is said of one player, and what of another one is still advised or said.
static OTHERS: [Scene; 6] = [
    (
        &[
            Cue::Hears(LEFT),
            Cue::Types(b"invite eve"),
            Cue::Hears(b"** There's no saved match with eve. Please give a match length.\r\n"),
            Cue::Types(b"help"),
            Cue::Rests,
        ],
        "invite bob,\nor join bob, if you are invited.\n",
    ),
    (
        &[
            Cue::Hears(LEFT),
            Cue::Hears(EVE_INVITES),
            Cue::Types(b"join carl"),
            Cue::Hears(b"** carl didn't invite you.\r\n"),
            Cue::Types(b"help"),
            Cue::Rests,
        ],
        "about a word.\nYou are invited: join eve\n",
    ),
    (
        &[
            Cue::Hears(LEFT),
            Cue::Hears(EVE_INVITES),
            Cue::Types(b"invite carl"),
            Cue::Hears(b"** There's no saved match with carl. Please give a match length.\r\n"),
            Cue::Types(b"help"),
            Cue::Rests,
        ],
        "about a word.\nYou are invited: join eve\n",
    ),
    (
        &[Cue::Hears(LEFT), Cue::Hears(EVE_INVITES), Cue::Hears(CARL_INVITES), Cue::Types(b"help"), Cue::Rests],
        "about a word.\nYou are invited: join carl\n",
    ),
    (
        &[
            Cue::Hears(LEFT),
            Cue::Hears(b"** You are now playing a 3 point match with eve.\r\n"),
            Cue::Hears(b"Starting a new game with eve.\r\n"),
            Cue::Hears(b"7 bob bob logs in.\r\n"),
        ],
        "bob is here: your match (0-1 of 3) is saved.\n",
    ),
    (
        &[
            Cue::Hears(LEFT),
            Cue::Types(b"invite bob"),
            Cue::Hears(b"** There's no saved match with bob. Please give a match length.\r\n"),
            Cue::Types(b"help"),
            Cue::Rests,
        ],
        "about a word.\n",
    ),
];

#[test]
fn what_is_said_of_one_player_changes_nothing_of_another_one() {
    assert_scenes(plain_settings(), &OTHERS);
}

/// Lists that were asked for, also if the screen is quiet; and a player who has changed before a list came.
static LISTS: [Scene; 4] = [
    (
        &[
            Cue::Hears(b"5 bob - - 1 0 1623.45 0 0 1 host - -\r\n"),
            Cue::Hears(b"5 eve - - 1 0 1500.00 0 0 1 host - -\r\n"),
            Cue::Hears(b"6\r\n"),
            Cue::Types(b"send who ready"),
            Cue::Hears(b"5 bob - - 1 0 1623.45 0 0 1 host - -\r\n"),
            Cue::Hears(b"5 eve - - 1 0 1500.00 0 0 1 host - -\r\n"),
            Cue::Hears(b"6\r\n"),
        ],
        "sent as it is: who ready\n2 players: type players\n",
    ),
    (
        &[
            Cue::Types(b"quiet"),
            Cue::Types(b"send who bob"),
            Cue::Hears(b"5 bob - - 1 0 1623.45 0 0 1 host - -\r\n"),
            Cue::Hears(b"6\r\n"),
        ],
        "sent as it is: who bob\nbob (1623.45): ready\n",
    ),
    (
        &[
            Cue::Types(b"quiet"),
            Cue::Types(b"who"),
            Cue::Hears(b"5 bob - - 1 0 1623.45 0 0 1 host - -\r\n"),
            Cue::Hears(b"6\r\n"),
            Cue::Hears(b"5 bob - - 1 0 1623.45 0 0 1 host - -\r\n"),
            Cue::Hears(b"5 eve - - 1 0 1500.00 0 0 1 host - -\r\n"),
            Cue::Hears(b"6\r\n"),
        ],
        "sent who
player                  rating  points    idle   does
eve                    1500.00       0     0 m   ready
bob                    1623.45       0     0 m   ready
2 players.
",
    ),
    (
        &[
            Cue::Types(b"quiet"),
            Cue::Types(b"send who bob"),
            Cue::Hears(b"6\r\n"),
            Cue::Hears(b"5 bob - - 1 0 1623.45 0 0 1 host - -\r\n"),
            Cue::Hears(b"6\r\n"),
        ],
        "sent as it is: who bob\n",
    ),
];

#[test]
fn a_list_that_was_asked_for_is_answered() {
    assert_scenes(plain_settings(), &LISTS);
}

/// The user is not among the players, who are listed by how near their ratings are to his.
static PLAYERS: [Scene; 1] = [(
    &[
        Cue::Hears(b"5 dave - - 1 0 900.05 0 0 1 host - -\r\n"),
        Cue::Hears(b"5 ann - - 1 0 1500.00 0 0 1 host - -\r\n"),
        Cue::Hears(b"5 bob - - 1 0 1623.45 0 0 1 host - -\r\n"),
        Cue::Hears(b"6\r\n"),
        Cue::Types(b"players"),
    ],
    "player                  rating  points    idle   does
bob                    1623.45       0     0 m   ready
dave                    900.05       0     0 m   ready
2 players.
",
)];

/// The match that is saved has a star, which is explained, wherever its row is.
static STARS: [Scene; 1] = [(
    &[
        Cue::Hears(LEFT),
        Cue::Hears(b"5 dave - - 1 0 900.05 0 0 1 host - -\r\n"),
        Cue::Hears(b"5 bob - - 1 0 1623.45 0 0 1 host - -\r\n"),
        Cue::Hears(b"6\r\n"),
        Cue::Types(b"players"),
    ],
    "player                  rating  points    idle   does
bob *                  1623.45       0     0 m   ready
dave                    900.05       0     0 m   ready
* your match with this player is saved: invite NAME resumes it.
2 players.
",
)];

/// If boards are told in words, players are told in sentences, one a row; no row is wider than the terminal.
static TOLD: [Scene; 2] = [
    (
        &[
            Cue::Hears(LEFT),
            Cue::Hears(b"5 dave eve - 0 1 900.49 12 7200 1 host - -\r\n"),
            Cue::Hears(b"5 bob - - 1 0 1623.50 4012 59 1 host - -\r\n"),
            Cue::Hears(b"5 carol - - 0 0 1700.00 7 90000 1 host - -\r\n"),
            Cue::Hears(b"6\r\n"),
            Cue::Types(b"players"),
        ],
        "\nbob, rated 1624, experience 4012, ready, your match is saved.\n\
carol, rated 1700, experience 7, not ready, idle for 1 day.\n\
dave, rated 900, experience 12, plays eve, away, idle for 2 hours.\n\
3 players.\n",
    ),
    (
        &[
            Cue::Types(b"columns 30"),
            Cue::Hears(b"5 bob - - 1 0 1623.45 4012 0 1 host - -\r\n"),
            Cue::Hears(b"6\r\n"),
            Cue::Types(b"players"),
        ],
        "\nbob, rated 1623, experience\n 4012, ready.\n1 player.\n",
    ),
];

#[test]
fn players_are_told_in_sentences() {
    assert_scenes(Settings { words: true, ..plain_settings() }, &TOLD);
}

/// So is the help.
#[test]
fn the_help_is_told_in_sentences() {
    let told = shown(Settings { words: true, ..plain_settings() }, &[], &[Cue::Types(b"help")]);
    assert!(told.starts_with("roll rolls your dice; r is the same.\n"), "{told}");
    assert!(told.lines().all(|row| row.ends_with('.') && !row.contains("  ")), "{told}");
}

/// A name of more than 24 bytes is whole in a line that is to be typed, which has a row of its own then.
static LONG_NAMES: [Scene; 4] = [
    (
        &[
            Cue::Hears(LEFT),
            Cue::Hears(b"abcdefghijabcdefghijabcdefghijabcdefghij wants to play a 3 point match with you.\r\n"),
            Cue::Types(b"help"),
            Cue::Rests,
        ],
        "about a word.\nYou are invited:\njoin abcdefghijabcdefghijabcdefghijabcdefghij\n",
    ),
    (
        &[
            Cue::Hears(b"** Player abcdefghijabcdefghijabcdefghijabcdefghij has joined you for a 3 point match.\r\n"),
            Cue::Hears(b"** You terminated the game. The game was saved.\r\n"),
            Cue::Rests,
        ],
        "Your match may be saved:\ninvite abcdefghijabcdefghijabcdefghijabcdefghij,
or join abcdefghijabcdefghijabcdefghijabcdefghij,\nif you are invited.\n",
    ),
    (
        &[Cue::Hears(b"12 abcdefghijabcdefghijabcdefghijabcdefghij hi\r\n"), Cue::Types(b"re hello")],
        "\nsent tell abcdefghijabcdefghijabcdefghijabcdefghij hello\n",
    ),
    (
        &[
            Cue::Hears(b"opponent          matchlength   score (your points first)\r\n"),
            Cue::Hears(b"abcdefghijabcdefghijabcdefghijabcdefghij 5 1 - 2\r\n"),
            Cue::Hears(b"** You're not playing.\r\n"),
            Cue::Hears(b"7 abcdefghijabcdefghijabcdefghijabcdefghij logs in.\r\n"),
        ],
        "is saved:\ninvite abcdefghijabcdefghijabcdefghijabcdefghij.\n",
    ),
];

#[test]
fn a_name_that_is_to_be_typed_is_whole() {
    assert_scenes(plain_settings(), &LONG_NAMES);
}

#[test]
fn a_star_is_explained() {
    assert_scenes(plain_settings(), &STARS);
}

#[test]
fn the_user_is_not_listed() {
    assert_scenes(plain_settings(), &PLAYERS);
}
