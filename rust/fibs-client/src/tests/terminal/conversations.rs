//! Conversations, and what a terminal shows of them.

use super::lines::{MOVED, POINT_MADE, SETTINGS, TO_MOVE, TO_ROLL, WELCOME, to_roll_picture};
use super::seats::{
    Cue, Scene, assert_has, assert_scenes, assert_shows, assert_wanted, colour_settings, plain_settings, shown,
};
use crate::fibs_wording::environment::Settings;

/// What a turn shows after the first messages: one picture, and a row for each other thing.
const TURN: &str = concat!(
    "Welcome, ann. Last login: 30 December 2002, 12:58, from localhost.
",
    to_roll_picture!(),
    " You roll, or double, or resign.
Your turn: roll, or double.
sent roll
You roll 6 and 2.
Your move, as in: move 24-22 24-18
You have no checker on 23. [9 IllegalPlay]
Your move, as in: move 24-22 24-18
sent move 24-18 13-11
"
);

/// The first messages, and a turn.
static TURN_STEPS: [Cue<'static>; 15] = [
    Cue::Hears(WELCOME),
    Cue::Hears(SETTINGS),
    Cue::Hears(TO_ROLL),
    Cue::Rests,
    Cue::Rests,
    Cue::Hears(b"It's your turn to roll or double.\r\n"),
    Cue::Types(b"r"),
    Cue::Rests,
    Cue::Hears(b"You roll 6 and 2.\r\n"),
    Cue::Hears(TO_MOVE),
    Cue::Hears(b"Please move 2 pieces.\r\n"),
    Cue::Rests,
    Cue::Types(b"move 23-22"),
    Cue::Rests,
    Cue::Types(b" 24/18 13/11 "),
];

#[test]
fn a_turn_shows_one_picture() {
    assert_shows(plain_settings(), &TURN_STEPS, TURN);
}

/// Connections that come and go, and the last rows that are shown then.
static CONNECTIONS: [Scene; 7] = [
    (
        &[Cue::Loses, Cue::Opens, Cue::Hears(b"\r\n"), Cue::Hears(b"login: "), Cue::Rests, Cue::Rests],
        "connected to fibs.com:4321\nNot logged in: wrong name or password? If nothing follows, type quit.\n",
    ),
    (
        &[
            Cue::Loses,
            Cue::Opens,
            Cue::Rests,
            Cue::Hears(b"login: 1 ann 1041253132 localhost\r\n"),
            Cue::Hears(b"login: "),
            Cue::Rests,
        ],
        "connected to fibs.com:4321\nWelcome, ann. Last login: 30 December 2002, 12:58, from localhost.\n",
    ),
    (
        &[Cue::Loses, Cue::Opens, Cue::Hears(b"login: 7 carol carol logs in.\r\n"), Cue::Rests],
        "connected to fibs.com:4321\ncarol logs in.\n",
    ),
    (
        &[
            Cue::Loses,
            Cue::Opens,
            Cue::Hears(b"login: "),
            Cue::Rests,
            Cue::Rests,
            Cue::Hears(b"7 carol carol logs in.\r\n"),
            Cue::Rests,
            Cue::Rests,
        ],
        "Not logged in: wrong name or password? If nothing follows, type quit.\ncarol logs in.\n",
    ),
    (&[Cue::Loses, Cue::Types(b"roll")], "ends\nThere is no connection: type open. [2 Offline]\n"),
    (
        &[Cue::Types(b"roll"), Cue::Loses],
        "roll may have reached the server or not\nlost: open connects again, quit ends\n",
    ),
    (&[Cue::Fails], "no connection to fibs.com:4321: connection refused; open tries again\n"),
];

#[test]
fn connections_come_and_go() {
    assert_scenes(plain_settings(), &CONNECTIONS);
}

/// Boards that follow each other, each of another game: each is drawn whole, with its hint.
#[test]
fn each_of_many_boards_is_drawn() {
    let board = String::from_utf8(TO_MOVE.to_vec()).expect("it is a text");
    let boards: Vec<String> = (0..20).map(|number| board.replace(":bob:", &format!(":bob{number}:"))).collect();
    let steps: Vec<Cue<'_>> = boards.iter().flat_map(|board| [Cue::Hears(board.as_bytes()), Cue::Rests]).collect();
    let text = shown(plain_settings(), &[Cue::Hears(WELCOME), Cue::Hears(SETTINGS)], &steps);
    let mut rows = text.lines().skip(1);
    assert_wanted(rows.clone().count() == 20 * 15, &text, "20 pictures with their hints");
    for number in 0..20 {
        let drawn: Vec<&str> = rows.by_ref().take(15).collect();
        let is_right = drawn[0].ends_with(&format!("   X bob{number}")) && drawn[14].starts_with("Your move, as in: ");
        assert_wanted(is_right, &drawn.join("\n"), "a picture and its hint");
    }
}

/// Lines that are typed, and the last rows that are shown then.
static TYPED: [Scene; 25] = [
    (&[Cue::Types(b"send accept")], "sent as it is: accept\n"),
    (&[Cue::Types(b"send roll")], "Type it without send: roll\n"),
    (&[Cue::Types(b"roll"), Cue::Types(b"send roll")], "sent as it is: roll\n"),
    (&[Cue::Types(b"nonsense")], "unknown: help lists the words\n"),
    (&[Cue::Types(b"leave")], "sent as it is: leave\n"),
    (&[Cue::Types(b"ratings bob")], "not a word of this client: send ratings bob sends it as it is\n"),
    (&[Cue::Types(b" Show Saved ")], "sent as it is: show saved\n"),
    (&[Cue::Types(b" WATCH Eve ")], "sent as it is: watch Eve\n"),
    (&[Cue::Types(b"help order roll")], "withdraw roll: it no longer does.\n"),
    (&[Cue::Types(b"toggle double")], "not a word of this client: send toggle double sends it as it is\n"),
    (
        &[Cue::Types(b"invite carol unlimited")],
        "not a word of this client: send invite carol unlimited sends it as it is\n",
    ),
    (
        &[Cue::Types(b"average of all that bob has played")],
        "not a word of this client: send average .. sends it as it is\n",
    ),
    (&[Cue::Types(b"exit")], "quit ends the program, bye leaves the server\n"),
    (&[Cue::Types(b"q")], "quit ends the program, bye leaves the server\n"),
    (&[Cue::Types(b"resign")], "If it is declined, roll or move: the screen says which.\n"),
    (
        &[Cue::Types(b"accept"), Cue::Rests],
        "That can't be done on this board: help says what can. [8 WrongKind]\nYour turn: roll, or double.\n",
    ),
    (
        &[Cue::Types(b"toggle greedy"), Cue::Rests],
        "It is off, or will be at your next login; or no settings came yet. [10 NotOn]\nYour turn: roll, or double.\n",
    ),
    (&[Cue::Types(b"help"), Cue::Rests], "help WORD says more about a word.\nYour turn: roll, or double.\n"),
    (&[Cue::Types(b"help roll"), Cue::Rests], "roll (or r): rolls your dice.\n"),
    (&[Cue::Types(b"help DOUBLE ")], "double: offers to double the stake, before you roll. No short form.\n"),
    (&[Cue::Types(b"help nonsense")], "No such word: help lists the words.\n"),
    (&[Cue::Types(b"gag bob "), Cue::Types(b"ungag bob ")], "bob is heard again.\n"),
    (&[Cue::Types(b"gag Bob"), Cue::Types(b"ungag bob")], "Nobody of that name is gagged.\n"),
    (&[Cue::Types(b"moves ALL ")], "No board of this game has shown a roll and its play yet.\n"),
    (
        &[Cue::Types(b"say hi"), Cue::Hears(b"** 1 user heard you.\r\n"), Cue::Rests],
        "sent say hi\n** 1 user heard you.\n",
    ),
];

#[test]
fn typed_lines_are_answered() {
    assert_scenes(plain_settings(), &TYPED);
}

/// Lines of the server among others, and the last rows that are shown then.
static HEARD: [Scene; 3] = [
    (
        &[Cue::Types(b"gag bob"), Cue::Hears(b"12 bob hi\r\n"), Cue::Hears(b"13 bob hi\r\n")],
        "bob is gagged on this screen: ungag NAME ends it.\n",
    ),
    (
        &[
            Cue::Types(b"roll"),
            Cue::Hears(TO_MOVE),
            Cue::Types(b"plays"),
            Cue::Types(b"move 24-18 13-11"),
            Cue::Hears(MOVED),
        ],
        "bob's turn.\n",
    ),
    (
        &[
            Cue::Types(b"who"),
            Cue::Hears(b"5 bob ann - 0 0 1623.45 0 0 1 host - -\r\n"),
            Cue::Hears(b"5 carol - bob 0 1 1701.00 0 0 1 host - -\r\n"),
            Cue::Hears(b"5 dave - - 1 0 900.05 0 0 1 host - -\r\n"),
            Cue::Hears(b"6\r\n"),
        ],
        "sent who
player                  rating  points    idle   does
bob                    1623.45       0     0 m   plays ann
carol                  1701.00       0     0 m   watches bob, away
dave                    900.05       0     0 m   ready
3 players.
",
    ),
];

#[test]
fn lines_of_the_server_are_shown() {
    assert_scenes(plain_settings(), &HEARD);
}

/// Rows of a picture of 72 columns, in bold: dice of the player's, his checkers, and the cube.
static BOLD_ROWS: [&str; 3] = [
    " | X                |   | \x1b[1mO\x1b[0m                |     dice  \x1b[1m6\x1b[0m \x1b[1m2\x1b[0m\n",
    " | X           \x1b[1mO\x1b[0m    |   | \x1b[1mO\x1b[0m              X |     score 0\n",
    " |                  |BAR|                  |   cube 1, centred\n",
];

/// The first board with dice.
static TO_MOVE_STEPS: [Cue<'static>; 2] = [Cue::Hears(WELCOME), Cue::Hears(TO_MOVE)];

#[test]
fn what_is_the_players_is_bold() {
    let settings = Settings { columns: 72, ..colour_settings() };
    assert_has(settings, &TO_MOVE_STEPS, &BOLD_ROWS);
}

/// The first board of a match in which nobody may double.
const NOBODY_DOUBLES: &[u8] =
    b"board:You:bob:1:0:0:0:-2:0:0:0:0:5:0:3:0:0:0:-5:5:0:0:0:-3:0:-5:0:0:0:0:2:0:1:6:2:0:0:1:0:0:0:1:-1:0:25:0:0:0:0:2:0:0:0\r\n";

/// The columns of a terminal, and the row of the cube there.
static CUBE_ROWS: [(usize, &str); 4] = [
    (80, " |                  |BAR|                  |   cube 1, no doubling\n"),
    (72, " |                  |BAR|                  |   cube 1, no doubling\n"),
    (71, "match to 1, cube 1, no doubling, your turn\n"),
    (40, "match to 1, cube 1, no doubling,\nyour turn\n"),
];

#[test]
fn no_word_of_a_picture_is_cut() {
    for (columns, row) in &CUBE_ROWS {
        let settings = Settings { columns: *columns, ..colour_settings() };
        assert_has(settings, &[Cue::Hears(WELCOME), Cue::Hears(NOBODY_DOUBLES)], &[row]);
    }
}

/// Rows of the upper half after the opponent's move: the two checkers that have come to 20 are marked.
static MARKED_ROWS: [&str; 2] = [
    " | \x1b[1mO\x1b[0m           X    |   | X  \x1b[35mX\x1b[0m           \x1b[1mO\x1b[0m |     score 1\n",
    " | \x1b[1mO\x1b[0m                |   | X                |     pips  163\n",
];

/// The opponent's move after the first board.
static LAST_MOVE: [Cue<'static>; 4] =
    [Cue::Hears(WELCOME), Cue::Hears(SETTINGS), Cue::Hears(TO_ROLL), Cue::Hears(POINT_MADE)];

#[test]
fn the_opponents_last_move_is_marked() {
    assert_has(colour_settings(), &LAST_MOVE, &MARKED_ROWS);
    let plain = shown(plain_settings(), &[], &LAST_MOVE);
    assert!(!plain.as_bytes().contains(&b'\x1b'));
}
