//! Why a double can't be made: a reason that holds of the board.

use super::lines::{DOUBLED, FIRST_BOARD, MOVED, OVER, RESIGNS, TO_MOVE};
use super::seats::{Cue, assert_ends, plain_settings};

/// The first board, with a length and a score, whose turn it is, the cube, and who may double.
fn board(score: &str, turn: i32, cube: &str) -> String {
    format!(
        "board:You:bob:{score}:0:-2:0:0:0:0:5:0:3:0:0:0:-5:5:0:0:0:-3:0:-5:0:0:0:0:2:0:{turn}:0:0:0:0:{cube}:0:1:-1:0:25:0:0:\
         0:0:2:0:0:0\r\n"
    )
}

/// Boards, and what is said of a double.
#[test]
fn a_double_is_refused_with_a_reason_that_holds() {
    let text = |line: &[u8]| String::from_utf8(line.to_vec()).expect("it is a text");
    let cases = [
        (text(TO_MOVE), "You have rolled: one doubles before the roll. [8 WrongKind]"),
        (text(MOVED), "It is your opponent's turn. [7 NotYours]"),
        (text(DOUBLED), "You are offered a double yourself. [8 WrongKind]"),
        (text(OVER), "The game is over. [7 NotYours]"),
        (board("1:0:0", 1, "1:0:0"), "In a match to 1 nobody doubles. [8 WrongKind]"),
        (board("1:0:0", -1, "1:0:0"), "In a match to 1 nobody doubles. [7 NotYours]"),
        (board("3:2:0", 1, "1:0:0"), "This is the Crawford game: nobody doubles in it. [8 WrongKind]"),
        (board("3:0:2", 1, "1:0:0"), "This is the Crawford game: nobody doubles in it. [8 WrongKind]"),
        // he has doubled, so it is not that game, though one side alone lacks a point
        (
            board("3:2:0", -1, "1:0:0").replace(":1:0:0:0:1:-1:", ":1:0:0:1:1:-1:"),
            "You are offered a double yourself. [8 WrongKind]",
        ),
        (board("3:2:2", 1, "1:0:0"), "By this board you may not double. [8 WrongKind]"),
        (board("9999:9998:0", 1, "1:0:0"), "By this board you may not double. [8 WrongKind]"),
        (board("3:2:0", -1, "1:1:1"), "It is your opponent's turn. [7 NotYours]"),
        (board("5:0:0", 1, "2:0:1"), "The cube is your opponent's: only he may double. [8 WrongKind]"),
        (board("5:0:0", 1, "1:0:1"), "By this board you may not double. [8 WrongKind]"),
        (board("5:0:0", 1, "1048576:1:0"), "The cube goes no higher. [8 WrongKind]"),
    ];
    for (board, row) in cases {
        let steps = [Cue::Hears(board.as_bytes()), Cue::Types(b"double")];
        assert_ends(plain_settings(), &FIRST_BOARD, &steps, &format!("\n{row}\n"));
    }
}

/// Another decision is refused as before, also after a double; and while an offer is open that no board shows, that is
/// said.
#[test]
fn a_reason_is_that_of_the_line() {
    let steps = [Cue::Hears(TO_MOVE), Cue::Types(b"double"), Cue::Types(b"accept")];
    let row = "That can't be done on this board: help says what can. [8 WrongKind]\n";
    assert_ends(plain_settings(), &FIRST_BOARD, &steps, row);
    let steps = [Cue::Hears(MOVED), Cue::Hears(RESIGNS), Cue::Types(b"double")];
    assert_ends(plain_settings(), &FIRST_BOARD, &steps, "\nNo board shows it yet. [7 NotYours]\n");
}

/// In place of an offer that was declined.
#[test]
fn a_double_after_a_declined_offer_is_refused_with_its_reason() {
    let steps = [
        Cue::Hears(TO_MOVE),
        Cue::Types(b"resign n"),
        Cue::Hears(b"bob rejects. The game continues.\r\n"),
        Cue::Types(b"double"),
    ];
    let row = "\nYou have rolled: one doubles before the roll. [8 WrongKind]\n";
    assert_ends(plain_settings(), &FIRST_BOARD, &steps, row);
}
