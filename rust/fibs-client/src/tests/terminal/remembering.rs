//! What a terminal remembers, and for how long.

use super::lines::{FIRST_BOARD, MOVED, POINT_MADE, RESIGNS, SETTINGS, TO_MOVE, TO_ROLL, WELCOME, to_roll_picture};
use super::seats::{Cue, Scene, assert_scenes, assert_wanted, bell_settings, colour_settings, plain_settings, shown};
use crate::fibs_wording::environment::Settings;

/// The first board against another opponent.
const WITH_CAROL: &[u8] =
    b"board:You:carol:3:0:1:0:-2:0:0:0:0:5:0:3:0:0:0:-5:5:0:0:0:-3:0:-5:0:0:0:0:2:0:1:0:0:0:0:1:1:1:0:1:-1:0:25:0:0:0:0:2:0:0:0\r\n";

/// A board on which the opponent has the turn, and may not double.
const MOVED_BEFORE_A_ROLL: &[u8] =
    b"board:You:bob:3:0:1:0:-2:0:0:0:0:5:0:3:0:0:0:-5:5:0:0:0:-3:1:-5:0:0:0:0:1:0:-1:0:0:0:0:1:1:0:0:1:-1:0:25:0:0:0:0:0:0:0:0\r\n";

/// The board after the opponent's move, of another opponent; and one of so many checkers elsewhere that it was no
/// move.
const POINT_OF_CAROL: &[u8] =
    b"board:You:carol:3:0:1:0:-2:0:0:0:0:5:0:3:0:0:0:-5:5:0:0:0:-2:0:-4:-2:0:0:0:2:0:1:0:0:0:0:1:1:1:0:1:-1:0:25:0:0:0:0:2:0:0:0\r\n";

const FIVE_MOVED: &[u8] =
    b"board:You:bob:3:0:1:0:-2:0:0:0:0:5:0:3:0:0:0:0:5:0:0:0:-3:-5:-5:0:0:0:0:2:0:1:0:0:0:0:1:1:1:0:1:-1:0:25:0:0:0:0:2:0:0:0\r\n";

/// A board against an opponent whose name is wider than a terminal.
const LONG_NAME: &[u8] =
    b"board:You:aaaaaaaaaaaaaaaaaaaaaaaaaaaaaaaaaaaaaaaaaaaaaaaa:3:0:1:0:-2:0:0:0:0:5:0:3:0:0:0:-5:5:0:0:0:-3:0:-5:0:0:0:0:2:0:1:0:0:0:0:1:1:1:0:1:-1:0:25:0:0:0:0:2:0:0:0\r\n";

/// A board on which the user can't move.
const ENTRY_CLOSED: &[u8] =
    b"board:You:bob:5:0:0:0:0:0:0:0:0:14:0:0:0:0:0:0:0:0:0:0:0:0:-2:-2:-2:-2:-2:-2:1:1:3:1:0:0:1:1:1:0:1:-1:0:25:0:3:1:0:0:0:0:0\r\n";

/// The first board after its game.
const GAME_OVER: &[u8] =
    b"board:You:bob:3:0:1:0:-2:0:0:0:0:5:0:3:0:0:0:-5:5:0:0:0:-3:0:-5:0:0:0:0:2:0:0:0:0:0:0:1:1:1:0:1:-1:0:25:0:0:0:0:2:0:0:0\r\n";

/// Of a connection that is lost nothing is said, and of one before it neither.
static LOST: [Scene; 3] = [
    (&[Cue::Hears(RESIGNS), Cue::Loses, Cue::Rests], "point.\n\x07lost: open connects again, quit ends\n"),
    (&[Cue::Hears(RESIGNS), Cue::Loses, Cue::Opens, Cue::Rests], "quit ends\nconnected to fibs.com:4321\n"),
    (
        &[Cue::Hears(b"5 bob - - 1 0 1623.45 0 0 1 host - -\r\n"), Cue::Loses, Cue::Opens, Cue::Hears(b"6\r\n")],
        "quit ends\nconnected to fibs.com:4321\n",
    ),
];

#[test]
fn what_was_said_before_a_loss_is_forgotten() {
    assert_scenes(bell_settings(), &LOST);
}

/// A board of a game that the user watches.
const BOB_AND_EVE: &[u8] =
    b"board:bob:eve:3:0:1:0:-2:0:0:0:0:5:0:3:0:0:0:-5:5:0:0:0:-3:0:-5:0:0:0:0:2:0:1:0:0:0:0:1:1:1:0:1:-1:0:25:0:0:0:0:0:0:0:0\r\n";

/// What the server says of a player who is here.
const BOB_LOGS_IN: &[u8] = b"7 bob bob logs in.\r\n";

/// What was known of another connection: a game that was watched, who invited the user, that the opponent is here, that
/// the server refuses a double, that a board was asked for.
static OTHER_CONNECTIONS: [Scene; 5] = [
    (
        &[Cue::Hears(BOB_AND_EVE), Cue::Loses, Cue::Opens, Cue::Types(b"words")],
        "connected to fibs.com:4321\nYou are in no match: invite NAME 5 begins one.\n",
    ),
    (
        &[
            Cue::Loses,
            Cue::Opens,
            Cue::Hears(b"eve wants to play a 3 point match with you.\r\n"),
            Cue::Loses,
            Cue::Opens,
            Cue::Hears(b"Type 'join eve' to accept.\r\n"),
        ],
        "connected to fibs.com:4321\nType 'join eve' to accept.\n",
    ),
    (
        &[
            Cue::Hears(BOB_LOGS_IN),
            Cue::Loses,
            Cue::Opens,
            Cue::Hears(WELCOME),
            Cue::Hears(SETTINGS),
            Cue::Hears(b"5 carol - - 1 0 1701.00 0 0 1 host - -\r\n"),
            Cue::Hears(b"6\r\n"),
            Cue::Hears(b"** You're not playing.\r\n"),
            Cue::Rests,
        ],
        "from localhost.\ncarol (1701.00): ready\n",
    ),
    (
        &[
            Cue::Types(b"double"),
            Cue::Hears(b"** You can't double.\r\n"),
            Cue::Loses,
            Cue::Opens,
            Cue::Hears(WELCOME),
            Cue::Hears(SETTINGS),
            Cue::Hears(TO_ROLL),
            Cue::Rests,
        ],
        "   O You\nYour turn: roll, or double.\n",
    ),
    (
        &[
            Cue::Types(b"resign n"),
            Cue::Hears(b"You want to resign. bob will win 1 point.\r\n"),
            Cue::Types(b"board"),
            Cue::Loses,
            Cue::Opens,
            Cue::Hears(WELCOME),
            Cue::Hears(SETTINGS),
            Cue::Hears(TO_ROLL),
            Cue::Rests,
        ],
        "   O You\n",
    ),
];

/// What was known of another opponent, or of a match or an invitation that is over: a score, that he is here, that a
/// match is saved, who invites.
static OTHER_OPPONENTS: [Scene; 4] = [
    (
        &[
            Cue::Hears(b"** You are now playing a 3 point match with eve.\r\n"),
            Cue::Hears(b"** Player eve has left the game. The game was saved.\r\n"),
            Cue::Hears(b"7 eve eve logs in.\r\n"),
        ],
        "eve logs in.\n",
    ),
    (
        &[
            Cue::Hears(BOB_LOGS_IN),
            Cue::Hears(b"5 dave - - 1 0 900.05 0 0 1 host - -\r\n"),
            Cue::Hears(b"6\r\n"),
            Cue::Hears(WITH_CAROL),
            Cue::Hears(b"** Player carol has left the game. The game was saved.\r\n"),
            Cue::Rests,
        ],
        "** Player carol has left the game. The game was saved.\n",
    ),
    (
        &[
            Cue::Hears(b"** Player bob has left the game. The game was saved.\r\n"),
            Cue::Hears(b"bob has joined you. Your running match was loaded.\r\n"),
            Cue::Hears(BOB_LOGS_IN),
        ],
        "bob logs in.\n",
    ),
    (
        &[
            Cue::Hears(b"** Player bob has left the game. The game was saved.\r\n"),
            Cue::Hears(b"eve wants to play a 3 point match with you.\r\n"),
            Cue::Hears(b"8 eve eve drops connection.\r\n"),
            Cue::Types(b"help"),
            Cue::Rests,
        ],
        "about a word.\nYour match may be saved: invite bob,\nor join bob, if you are invited.\n",
    ),
];

#[test]
fn what_is_of_another_connection_or_opponent_is_forgotten() {
    assert_scenes(plain_settings(), &OTHER_CONNECTIONS);
    assert_scenes(plain_settings(), &OTHER_OPPONENTS);
}

/// A line that is sent as it is: an answer ends the offer, a decision is what waits, after any the row is said again.
static PASSED: [Scene; 4] = [
    (
        &[Cue::Hears(MOVED), Cue::Hears(RESIGNS), Cue::Rests, Cue::Types(b"send accept"), Cue::Rests],
        "or reject.\nsent as it is: accept\n",
    ),
    (
        &[
            Cue::Hears(MOVED),
            Cue::Hears(RESIGNS),
            Cue::Types(b"send accept "),
            Cue::Hears(b"** You did already roll the dice.\r\n"),
            Cue::Rests,
        ],
        "** You did already roll the dice.\nbob waits for your answer: accept, or reject.\n",
    ),
    (
        &[
            Cue::Types(b"roll"),
            Cue::Hears(b"** You can't roll now.\r\n"),
            Cue::Types(b"board"),
            Cue::Hears(TO_ROLL),
            Cue::Rests,
            Cue::Types(b"send roll"),
            Cue::Rests,
        ],
        "The board is as it was: roll, or double.\nsent as it is: roll\n",
    ),
    (
        &[
            Cue::Types(b"roll"),
            Cue::Hears(b"** You can't roll now.\r\n"),
            Cue::Types(b"board"),
            Cue::Hears(TO_ROLL),
            Cue::Rests,
            Cue::Types(b"pip"),
            Cue::Rests,
        ],
        "sent as it is: pip\nThe board is as it was: roll, or double.\n",
    ),
];

#[test]
fn a_line_that_is_sent_as_it_is_is_noted() {
    assert_scenes(plain_settings(), &PASSED);
}

/// A text that comes twice is shown twice.
static TWICE: [Scene; 1] = [(
    &[Cue::Hears(b"ann has 167 pips.\r\n"), Cue::Hears(b"ann has 167 pips.\r\n")],
    "ann has 167 pips.\nann has 167 pips.\n",
)];

#[test]
fn a_text_is_shown_each_time() {
    assert_scenes(plain_settings(), &TWICE);
}

/// A board is drawn again on another connection, and nobody was waited for; and when a game begins.
static DRAWN_AGAIN: [Scene; 3] = [
    (&[Cue::Loses, Cue::Opens, Cue::Hears(WELCOME), Cue::Hears(TO_ROLL)], "   O You\n"),
    (
        &[Cue::Hears(MOVED), Cue::Loses, Cue::Opens, Cue::Hears(TO_ROLL)],
        concat!("connected to fibs.com:4321\n", to_roll_picture!()),
    ),
    (
        &[Cue::Hears(b"Starting a new game with bob.\r\n"), Cue::Hears(TO_ROLL)],
        concat!("Starting a new game with bob.\n", to_roll_picture!(), " You roll, or double, or resign.\n"),
    ),
];

#[test]
fn a_board_is_drawn_again() {
    assert_scenes(bell_settings(), &DRAWN_AGAIN);
}

/// What is quiet, and whose words are kept.
static QUIET: [Scene; 3] = [
    (
        &[
            Cue::Types(b"quiet"),
            Cue::Hears(b"7 carol carol logs in.\r\n"),
            Cue::Hears(b"8 carol\r\n"),
            Cue::Hears(b"13 carol hi\r\n"),
            Cue::Hears(b"5 bob - - 1 0 1623.45 0 0 1 host - -\r\n"),
            Cue::Hears(b"6\r\n"),
            Cue::Hears(b"12 bob hi\r\n"),
        ],
        "quiet: no shouts, and not who comes and goes; loud shows them.\n\x0713:07 bob says: hi\n",
    ),
    (
        &[
            Cue::Types(b"gag bob"),
            Cue::Hears(b"14 bob hi\r\n"),
            Cue::Hears(b"15 bob hi\r\n"),
            Cue::Hears(b"9 bob 1041253132 hi\r\n"),
            Cue::Hears(b"7 bob bob logs in.\r\n"),
        ],
        "bob is gagged on this screen: ungag NAME ends it.\n",
    ),
    (
        &[
            Cue::Types(b"gag bob"),
            Cue::Types(b"gag carol"),
            Cue::Types(b"ungag bob"),
            Cue::Hears(b"12 carol hi\r\n"),
            Cue::Hears(b"12 bob hi\r\n"),
        ],
        "bob is heard again.\n\x0713:07 bob says: hi\n",
    ),
];

#[test]
fn what_is_quiet_is_not_shown() {
    assert_scenes(bell_settings(), &QUIET);
}

/// The bell: at a turn after the opponent's, at a loss, at a message that was left; not at the opponent's turn.
static RUNG: [Scene; 4] = [
    (&[Cue::Hears(MOVED)], "Your turn: roll, or double.\nbob's turn.\n"),
    (&[Cue::Hears(MOVED), Cue::Hears(TO_ROLL), Cue::Rests], "bob's turn.\n\x07Your turn: roll, or double.\n"),
    (&[Cue::Loses], "Your turn: roll, or double.\n\x07lost: open connects again, quit ends\n"),
    (
        &[Cue::Hears(b"9 carol 1041253132 see you\r\n")],
        "double.\n\x07carol left a message on 30 December 2002, 12:58: see you\n",
    ),
];

#[test]
fn the_bell_rings() {
    assert_scenes(bell_settings(), &RUNG);
}

/// A board of another opponent is drawn; one that was asked for is drawn once; what it says is said once.
static BOARDS: [Scene; 5] = [
    (&[Cue::Hears(WITH_CAROL)], "   O You\n You roll, or double, or resign.\n"),
    (
        &[Cue::Types(b"board"), Cue::Hears(TO_ROLL), Cue::Hears(MOVED)],
        concat!("sent board\n", to_roll_picture!(), " You roll, or double, or resign.\nbob's turn.\n"),
    ),
    (
        &[
            Cue::Hears(b"bob's turn.\r\n"),
            Cue::Hears(MOVED),
            Cue::Hears(MOVED),
            Cue::Hears(MOVED_BEFORE_A_ROLL),
            Cue::Hears(MOVED_BEFORE_A_ROLL),
        ],
        "double.\nbob's turn.\nbob's turn.\n",
    ),
    (
        &[Cue::Hears(ENTRY_CLOSED), Cue::Hears(b"You can't move.\r\n")],
        "double.\nYou can't move: the server passes for you.\n",
    ),
    (&[Cue::Hears(GAME_OVER), Cue::Hears(GAME_OVER)], "double.\nThe game is over. You 0, bob 1 of 3.\n"),
];

#[test]
fn a_board_is_shown_once() {
    assert_scenes(bell_settings(), &BOARDS);
}

/// The rule that a move breaks is that of the last one.
static MOVES: [Scene; 1] = [(
    &[Cue::Types(b"roll"), Cue::Hears(TO_MOVE), Cue::Types(b"move 23-22"), Cue::Types(b"move 22-21")],
    "You have no checker on 23. [9 IllegalPlay]\nYou have no checker on 22. [9 IllegalPlay]\n",
)];

#[test]
fn the_rule_is_that_of_the_last_move() {
    assert_scenes(bell_settings(), &MOVES);
}

/// `go` sends the move that was shown last.
static TRIED: [Scene; 1] = [(
    &[
        Cue::Types(b"roll"),
        Cue::Hears(TO_MOVE),
        Cue::Types(b"try 24-22 24-18"),
        Cue::Types(b"try 13-11 13-7"),
        Cue::Types(b"go"),
    ],
    "Not sent yet: go sends move 13-11 13-7\nsent move 13-11 13-7\n",
)];

#[test]
fn the_move_that_was_tried_last_is_sent() {
    assert_scenes(plain_settings(), &TRIED);
}

/// A list that was asked for is counted, each anew; who changes alone is in a row, and what else changes is listed.
static LISTS: [Scene; 3] = [
    (
        &[
            Cue::Types(b"arrivals"),
            Cue::Types(b"who"),
            Cue::Hears(b"5 bob - - 1 0 1623.45 0 0 1 host - -\r\n"),
            Cue::Hears(b"5 carol - - 1 0 1701.00 0 0 1 host - -\r\n"),
            Cue::Hears(b"6\r\n"),
            Cue::Hears(b"5 dave - - 1 0 900.05 0 0 1 host - -\r\n"),
            Cue::Hears(b"6\r\n"),
        ],
        "sent who
player                  rating  points    idle   does
bob                    1623.45       0     0 m   ready
carol                  1701.00       0     0 m   ready
2 players.
dave (900.05): ready
",
    ),
    (
        &[
            Cue::Types(b"arrivals"),
            Cue::Hears(b"5 bob - - 1 0 1623.45 0 0 1 host - -\r\n"),
            Cue::Hears(b"6\r\n"),
            Cue::Hears(b"5 dave - - 1 0 900.05 0 0 1 host - -\r\n"),
            Cue::Hears(b"6\r\n"),
        ],
        "bob (1623.45): ready\ndave (900.05): ready\n",
    ),
    (
        &[
            Cue::Loses,
            Cue::Opens,
            Cue::Hears(WELCOME),
            Cue::Hears(b"5 bob - - 1 0 1623.45 0 0 1 host - -\r\n"),
            Cue::Hears(b"5 carol - - 1 0 1701.00 0 0 1 host - -\r\n"),
            Cue::Hears(b"6\r\n"),
            Cue::Hears(b"5 bob carol - 0 0 1623.45 0 0 1 host - -\r\n"),
            Cue::Hears(b"5 carol bob - 0 0 1701.00 0 0 1 host - -\r\n"),
            Cue::Hears(b"6\r\n"),
        ],
        "from localhost.\n2 players: type players\n",
    ),
];

#[test]
fn each_list_is_counted_anew() {
    assert_scenes(bell_settings(), &LISTS);
}

/// Boards after which nothing was the opponent's last move.
static UNMARKED: [&[Cue<'static>]; 3] = [
    &[Cue::Hears(FIVE_MOVED)],
    &[Cue::Hears(POINT_OF_CAROL)],
    &[Cue::Hears(POINT_MADE), Cue::Loses, Cue::Opens, Cue::Hears(b"here again\r\n"), Cue::Hears(POINT_MADE)],
];

/// What follows the words `here again` in a text, or all of it if they are not there.
fn last_of(text: &str) -> &str {
    match text.rsplit_once("here again") {
        Some((_, last)) => last,
        None => text,
    }
}

/// Asserts that the last board that is shown has no mark.
fn assert_unmarked(steps: &[Cue<'_>]) {
    let text = shown(colour_settings(), &FIRST_BOARD, steps);
    let last = last_of(&text);
    let is_unmarked = last.contains("O You") && !last.contains("\x1b[35m");
    assert_wanted(is_unmarked, last, "a board without a mark");
}

#[test]
fn what_is_no_last_move_is_not_marked() {
    for steps in &UNMARKED {
        assert_unmarked(steps);
    }
}

/// The width of the widest row of a picture in a text.
fn widest_row(text: &str) -> usize {
    let mut widest = 0;
    for row in text.lines() {
        if row.starts_with(" +") || row.starts_with(" |") {
            widest = row.len().max(widest);
        }
    }
    widest
}

/// No row of a picture is wider than the terminal: a name is as long as there is room.
#[test]
fn a_picture_fits_the_columns() {
    for (columns, widest) in [(44, 44), (71, 44), (72, 72), (79, 79), (200, 79)] {
        let settings = Settings { columns, ..plain_settings() };
        let text = shown(settings, &FIRST_BOARD, &[Cue::Hears(LONG_NAME)]);
        assert_wanted(widest_row(&text) == widest, &text, "rows that fit");
    }
}
