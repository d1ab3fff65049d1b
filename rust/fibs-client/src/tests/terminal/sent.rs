//! The board after a move that was sent.

use super::lines::{FIRST_BOARD, TO_MOVE};
use super::seats::{Cue, assert_wanted, plain_settings, shown};
use crate::fibs_wording::environment::Settings;

/// Up to the move, of which this is the board by the rules, and its picture.
static MOVES: [Cue<'static>; 4] = [Cue::Opens, Cue::Hears(TO_MOVE), Cue::Rests, Cue::Types(b"move 24-18 13-11")];

const AFTER: &[u8] =
    b"board:You:bob:3:0:1:0:-2:0:0:0:0:5:0:3:0:0:1:-5:4:0:0:0:-3:1:-5:0:0:0:0:1:0:-1:0:0:0:0:1:1:1:0:1:-1:0:25:0:0:0:0:0:0:0:0\r\n";

const PICTURE: &str = " +13-14-15-16-17-18-+---+19-20-21-22-23-24-+   X bob
 | O           X  O |   | X              O |     score 1
 | O           X    |   | X                |     off   0
 | O           X    |   | X                |     pips  167
 | O                |   | X                |     dice  -
 |                  |   | X                |   match to 3
 |                  |BAR|                  |   cube 1, in the middle
 | X                |   | O                |   the opponent's turn
 | X                |   | O                |     dice  -
 | X           O    |   | O                |     pips  159 (8 ahead)
 | X           O    |   | O              X |     off   0
 | X  O        O    |   | O              X |     score 0
 +12-11-10--9--8--7-+---+-6--5--4--3--2--1-+   O You
";

const NOT_CONFIRMED: &str = "Sent, not confirmed by the server yet.\n";

/// What follows after the move was sent.
fn after_move(settings: Settings<'_>, steps: &[Cue<'_>]) -> String {
    let before = [&FIRST_BOARD[..], &MOVES[..]].concat();
    let all = shown(settings, &before, steps);
    let sent = "sent move 24-18 13-11\n";
    all.split_once(sent).unwrap_or_else(|| panic!("{all}")).1.to_string()
}

/// Once, and not again when the server shows the same.
#[test]
fn the_board_after_a_move_is_drawn_before_the_server_shows_it() {
    let ahead = format!("{PICTURE}{NOT_CONFIRMED}");
    assert_eq!(after_move(plain_settings(), &[Cue::Rests]), ahead);
    assert_eq!(after_move(plain_settings(), &[Cue::Rests, Cue::Rests]), ahead);
    let same = [Cue::Rests, Cue::Hears(AFTER), Cue::Rests];
    assert_eq!(after_move(plain_settings(), &same), format!("{ahead}bob's turn.\n"));
    // the same move in another game is one more
    let next = [same[0], same[1], Cue::Hears(TO_MOVE), Cue::Rests, Cue::Types(b"move 24-18 13-11"), Cue::Rests];
    assert_eq!(after_move(plain_settings(), &next).matches(NOT_CONFIRMED).count(), 2);
}

/// If the server has shown it before, the board is its own.
#[test]
fn the_servers_board_takes_its_place() {
    let its = format!("{PICTURE}bob's turn.\n");
    assert_eq!(after_move(plain_settings(), &[Cue::Hears(AFTER), Cue::Rests]), its);
    let repeated = [Cue::Hears(AFTER), Cue::Rests, Cue::Hears(AFTER), Cue::Rests];
    assert_eq!(after_move(plain_settings(), &repeated), its);
}

/// Another board is drawn.
#[test]
fn a_board_that_the_server_shows_otherwise_is_drawn() {
    let other = String::from_utf8(AFTER.to_vec()).unwrap().replace(":0:0:1:-5:4:", ":0:0:0:-5:5:");
    let text = after_move(plain_settings(), &[Cue::Rests, Cue::Hears(other.as_bytes()), Cue::Rests]);
    let drawn = text.strip_prefix(&format!("{PICTURE}{NOT_CONFIRMED}")).expect("it is drawn before");
    assert_wanted(
        drawn.contains(" | X           O    |   | O              X |     score 0\n"),
        drawn,
        "no checker on 11",
    );
}

/// In words a row says it; where a board stands above none is drawn below.
#[test]
fn elsewhere_no_board_is_drawn_for_it() {
    let words = Settings { words: true, ..plain_settings() };
    assert_eq!(after_move(words, &[Cue::Rests, Cue::Rests]), NOT_CONFIRMED);
    assert_eq!(after_move(words, &[Cue::Hears(AFTER), Cue::Rests]), "bob's turn.\n");
    let high = Settings { rows: 40, scrolls_below: true, ..plain_settings() };
    assert_eq!(after_move(high, &[Cue::Rests]), "");
}

/// A move that is refused was not sent; nor does what is sent otherwise move anything.
#[test]
fn nothing_is_drawn_of_what_was_not_sent() {
    for line in [&b"move 24-18 13-10"[..], b"try 24-18 13-11", b"board", b"resign n"] {
        let before = [&FIRST_BOARD[..], &MOVES[..3]].concat();
        let text = shown(plain_settings(), &before, &[Cue::Types(line), Cue::Rests]);
        assert_wanted(!text.contains(NOT_CONFIRMED), &text, "nothing ahead");
    }
}

/// A move that enters and hits, by a server that has the opponent's bar on a place too: its board is drawn once.
#[test]
fn a_board_after_a_hit_is_not_drawn_again() {
    let before = b"board:You:bob:1:0:0:-1:-1:0:1:0:0:5:0:2:0:0:0:-4:5:0:0:0:-4:0:-5:0:0:1:0:1:0:-1:3:5:0:0:1:0:0:0:-1:1:25:0:0:0:1:0:2:0:0:0\r\n";
    let after = b"board:You:bob:1:0:0:0:-1:0:-1:0:0:5:0:2:0:0:0:-3:5:0:0:0:-5:0:-5:0:0:1:0:1:1:1:0:0:0:0:1:0:0:0:-1:1:25:0:0:0:0:1:0:0:0:0\r\n";
    let steps =
        [Cue::Opens, Cue::Hears(before), Cue::Rests, Cue::Types(b"move bar-3 12-17"), Cue::Rests, Cue::Hears(after)];
    let text = shown(plain_settings(), &FIRST_BOARD, &steps);
    let ahead = text.split_once(NOT_CONFIRMED).unwrap_or_else(|| panic!("{text}")).1;
    assert_eq!(ahead, "You hit bob on 3.\nbob's turn.\n");
}
