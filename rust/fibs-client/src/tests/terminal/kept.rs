//! What is kept over many lines, over boards that come again, and over other games: how long, and of whom.

use super::lines::{FIRST_BOARD, MOVED, POINT_MADE, RESIGNS, SETTINGS, TO_MOVE, TO_ROLL, UP, WELCOME};
use super::seats::{
    Cue, Cue::Hears, Cue::Types, Scene, assert_ends, assert_scenes, assert_wanted, colour_settings, own_settings,
    plain_settings, shown, shown_then,
};
use crate::fibs_wording::environment::Settings;

/// A game that is watched, before a roll and after one of the second player.
const WATCHED: &[u8] =
    b"board:dave:eve:5:0:0:0:-2:0:0:0:0:5:0:3:0:0:0:-5:5:0:0:0:-3:0:-5:0:0:0:0:2:0:-1:0:0:0:0:1:1:1:0:1:-1:0:25:0:0:0:0:2:0:0:0\r\n";

const EVE_ROLLED: &[u8] =
    b"board:dave:eve:5:0:0:0:-2:0:0:0:0:5:0:3:0:0:0:-5:5:0:0:0:-3:0:-5:0:0:0:0:2:0:-1:0:0:1:3:1:1:1:0:1:-1:0:25:0:0:0:0:2:0:0:0\r\n";

/// Whether it is shown in a match that a player comes, after these players have talked with the user.
fn is_shown(talkers: impl Iterator<Item = usize>, who: usize) -> bool {
    let lines: Vec<String> = talkers.map(|at| format!("12 t{at:03} hi\r\n")).collect();
    let mut before = FIRST_BOARD.to_vec();
    before.extend(lines.iter().map(|line| Hears(line.as_bytes())));
    let comes = format!("7 t{who:03} t{who:03} logs in.\r\n");
    shown_then(plain_settings(), &before, &[Hears(comes.as_bytes())]) == format!("t{who:03} logs in.\n")
}

/// Of those who have talked with the user 256 are known, the last of them, however often each has talked.
#[test]
fn the_last_who_talked_are_known() {
    for (who, is_known) in [(0, false), (1, true), (128, true), (255, true), (256, true), (257, false)] {
        assert_eq!(is_shown(0..257, who), is_known, "{who}");
    }
    assert!(is_shown((0..300).map(|at: usize| at.min(1)), 0), "one who talks much is one");
}

/// What is said of a game that is watched; and that a list in the message of the day is none of saved matches.
static HEARD: [Scene; 3] = [
    (
        &[Types(b"watch dave"), Hears(WATCHED), Hears(b"You're now watching dave.\r\n")],
        "\nYou're now watching dave.\nboard shows the game now, unwatch ends it.\n",
    ),
    (&[Hears(WATCHED), Hears(EVE_ROLLED)], "\neve rolls 1 and 3.\n"),
    (
        &[
            Hears(b"3\r\n"),
            Hears(b"opponent          matchlength   score (your points first)\r\n"),
            Hears(b"bob                     5        1 -  2\r\n"),
            Hears(b"4\r\n"),
            Hears(b"7 bob bob logs in.\r\n"),
        ],
        "\nbob logs in.\n",
    ),
];

/// The user's own game, which goes on, is not the one that is told.
#[test]
fn what_is_heard_is_of_its_own_game() {
    assert_scenes(plain_settings(), &HEARD);
    let before = [&FIRST_BOARD[..], &[Hears(WATCHED)]].concat();
    let text = shown_then(plain_settings(), &before, &[Types(b"words score")]);
    assert_eq!(text, "Score 0 to 0, match to 5.\n");
}

/// How an invitation is accepted was said in a row of its own: it is not said again.
#[test]
fn a_long_invitation_is_told_once() {
    let name = "a_name_of_more_bytes_than_a_row_has_room_for_beside_it";
    let invites = format!("{name} wants to play a 3 point match with you.\r\n");
    let accepts = format!("Type 'join {name}' to accept.\r\n");
    let left = Hears(b"bob drops connection. The game was saved.\r\n");
    let before = [Cue::Opens, Hears(WELCOME), Hears(SETTINGS), Hears(TO_ROLL), left, Hears(invites.as_bytes())];
    assert_eq!(shown_then(plain_settings(), &before, &[Hears(accepts.as_bytes())]), "");
}

/// Marks on a board that stands above stay when it is drawn again, and its row is said once.
#[test]
fn a_board_that_stands_above_is_the_same_when_it_is_drawn_again() {
    let high = Settings { rows: 40, scrolls_below: true, ..colour_settings() };
    let before = [&[Cue::Opens], &FIRST_BOARD[..]].concat();
    let moved = [&before[..], &[Hears(POINT_MADE)]].concat();
    let first = shown_then(high, &before, &[Hears(POINT_MADE)]);
    let again = shown_then(high, &moved, &[Types(b"rows 41")]);
    let marks = |text: &str| text.matches("\x1b[35m").count();
    assert!(marks(&first) > 0 && marks(&again) == marks(&first), "{again}");
    let text = shown_then(high, &before, &[Hears(TO_MOVE), Hears(TO_MOVE)]);
    assert_eq!(text.matches("You roll 6 and 2.").count(), 1, "{text}");
}

/// A board on which the opponent has the turn is drawn whole after a move of the user, and after nothing else.
#[test]
fn a_board_of_the_opponents_turn_is_drawn_after_a_move() {
    let before = [&[Cue::Opens], &FIRST_BOARD[..]].concat();
    assert_eq!(shown_then(plain_settings(), &before, &[Hears(MOVED)]), "bob's turn.\n");
    let rolled = [&before[..], &[Hears(TO_MOVE)]].concat();
    let text = shown_then(plain_settings(), &rolled, &[Hears(MOVED)]);
    assert!(text.contains("|BAR|") && text.ends_with("bob's turn.\n"), "{text}");
}

/// Four checkers may move in a turn, by a double: where they have come to is marked.
#[test]
fn four_checkers_that_have_moved_are_marked() {
    let board = String::from_utf8(TO_ROLL.to_vec()).expect("ASCII");
    let four = board.replace(":-5:5:0:0:0:-3:0:-5:0:0:", ":-3:5:0:0:-2:-1:0:-5:0:-2:");
    assert_ne!(four, board);
    let text = shown(colour_settings(), &FIRST_BOARD, &[Hears(four.as_bytes())]);
    assert_eq!(text.matches("\x1b[35m").count(), 4, "{text}");
}

/// The rows that answer `oldmoves` end with the next decision; a move that was sent is told in both numbers, also in
/// words.
#[test]
fn what_was_sent_last_says_whose_numbers_are_meant() {
    let start = [Hears(WELCOME), Hears(SETTINGS), Hears(UP), Cue::Rests];
    let row: Cue = Hears(b"X: (6 1) 12-18 17-18 \r\n");
    let steps = [Hears(RESIGNS), Types(b"send oldmoves bob"), Types(b"accept"), row];
    assert_ends(own_settings(), &start, &steps, "\nX: (6 1) 12-18 17-18 \n");
    let told = Settings { words: true, ..own_settings() };
    let text = shown_then(told, &start, &[Types(b"21/10")]);
    assert_wanted(text.starts_with("sent move 4-9 9-15 (in your numbers 21-16 16-10)\n"), &text, "both numbers");
}

/// A sentence that is as wide as there is room for is one row.
#[test]
fn a_sentence_that_fits_is_one_row() {
    let told = Settings { words: true, ..plain_settings() };
    for (columns, row) in [
        (43, "\ncarol, rated 1701, experience 0, not ready.\n"),
        (42, "\ncarol, rated 1701, experience 0, not\n ready.\n"),
    ] {
        let typed = format!("columns {}", columns + 1);
        let steps = [
            Types(typed.as_bytes()),
            Hears(b"5 carol - - 0 0 1701.00 0 0 1 host - -\r\n"),
            Hears(b"6\r\n"),
            Types(b"players"),
        ];
        let text = shown(told, &FIRST_BOARD, &steps);
        assert_wanted(text.contains(row), &text, row);
    }
}
