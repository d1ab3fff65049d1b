//! Lines as players type them, and what is sent.

use super::lines::{SETTINGS, UP, WELCOME};
use super::seats::{Cue, assert_ends, plain_settings, shown_then};
use crate::fibs_wording::environment::Settings;

/// A board with the dice 6 and 5, on which the player goes down.
const BOARD: &[u8] =
    b"board:You:bob:3:0:1:0:-2:0:0:0:0:5:0:3:0:0:0:-5:5:0:0:0:-3:0:-5:0:0:0:0:2:0:1:6:5:0:0:1:1:1:0:1:-1:0:25:0:0:0:0:2:0:0:0\r\n";

/// What is typed, and the end of what is shown then.
static LINES: [(&[u8], &str); 41] = [
    (b"24/13", "sent move 24-18 18-13\n"),
    (b"24/18/13", "sent move 24-18 18-13\n"),
    (b"M 24/18 13/8", "sent move 24-18 13-8\n"),
    (b"24-18 13-8", "sent move 24-18 13-8\n"),
    (b"13/8 24/18*", "sent move 13-8 24-18\n"),
    (b"move 24-18* 13-8*", "sent move 24-18 13-8\n"),
    (b"24/18*/13 *", "sent move 24-18 18-13\n"),
    (b"13/8*(1) 24/18(1)*", "sent move 13-8 24-18\n"),
    (b"say 13/8* is best", "sent say 13/8* is best\n"),
    (b"move 24-13", "[9 IllegalPlay]\n"),
    (b"13/7(2)", "[9 IllegalPlay]\n"),
    (b"bar/20 24/18", "[9 IllegalPlay]\n"),
    (b"R", "[8 WrongKind]\n"),
    (b" Double ", "[8 WrongKind]\n"),
    (b"a", "unknown: help lists the words\n"),
    (b"d", "\nd: double?\n"),
    (b"take", "\ntake: accept?\n"),
    (b"Pass", "\npass: reject?\n"),
    (b"drop", "\ndrop: reject?\n"),
    (b"score", "\nscore: board?\n"),
    (b"cube", "\ncube: board?\n"),
    (b"rol", "\nrol: roll?\n"),
    (b"rolll", "\nrolll: roll?\n"),
    (b"rool", "\nrool: roll?\n"),
    (b"rlol", "\nrlol: roll?\n"),
    (b"rxol", "unknown: help lists the words\n"),
    (b"jion bob", "\njion: join?\n"),
    (b"acept", "\nacept: accept?\n"),
    (b"ro", "unknown: help lists the words\n"),
    (b"rollroll", "unknown: help lists the words\n"),
    (b"r\x1bll", "\nr\\x1bll: roll?\n"),
    (b"k Nice  roll ", "sent kibitz Nice  roll \n"),
    (b"T bob Hi", "sent tell bob Hi\n"),
    (b"  say  Hi ", "sent say  Hi \n"),
    (b"Invite Bob 5 ", "sent invite Bob 5\n"),
    (b"Join Bob", "sent join Bob\n"),
    (b"Gag Bob", "Bob is gagged on this screen: ungag NAME ends it.\n"),
    (b"Message Bob Hi There", "sent message Bob Hi There\n"),
    (b"Whisper Hi There", "sent whisper Hi There\n"),
    (b"Shout Hi There", "sent shout Hi There\n"),
    (b"Send Hi There", "sent as it is: Hi There\n"),
];

/// The same board with the dice 3 and 3.
const PAIR: &[u8] =
    b"board:You:bob:3:0:1:0:-2:0:0:0:0:5:0:3:0:0:0:-5:5:0:0:0:-3:0:-5:0:0:0:0:2:0:1:3:3:0:0:1:1:1:0:1:-1:0:25:0:0:0:0:2:0:0:0\r\n";

/// The dice are 6 and 5, and the player has one checker left, on his 24, from which it goes the same way by either die
/// first; the opponent has a checker on 18, which one way hits; the player's checker is on 5; it is on the bar.
const ALONE: &[u8] =
    b"board:You:bob:5:0:0:0:0:0:-2:0:0:0:0:0:0:0:0:0:0:0:0:0:0:0:0:0:0:0:0:1:0:1:6:5:0:0:1:1:1:0:1:-1:0:25:14:13:0:0:1:0:0:0\r\n";

const HITS: &[u8] =
    b"board:You:bob:5:0:0:0:0:0:-1:0:0:0:0:0:0:0:0:0:0:0:0:0:0:-1:0:0:0:0:0:1:0:1:6:5:0:0:1:1:1:0:1:-1:0:25:14:13:0:0:1:0:0:0\r\n";

const HOME: &[u8] =
    b"board:You:bob:5:0:0:0:0:0:-2:0:1:0:0:0:0:0:0:0:0:0:0:0:0:0:0:0:0:0:0:0:0:1:6:5:0:0:1:1:1:0:1:-1:0:25:14:13:0:0:1:0:0:0\r\n";

const ON_BAR: &[u8] =
    b"board:You:bob:5:0:0:0:0:0:-2:0:0:0:0:0:0:0:0:0:0:0:0:0:0:0:0:0:0:0:0:0:1:1:6:5:0:0:1:1:1:0:1:-1:0:25:14:13:1:0:1:0:0:0\r\n";

/// A board, a move that is typed there, and the end of what is shown then. Nothing is sent if two moves may be meant,
/// or if only a part of one was typed.
static MOVES: [(&[u8], &[u8], &str); 11] = [
    (PAIR, b"8/5(2) 6/3(2)", "sent move 8-5 8-5 6-3 6-3\n"),
    (PAIR, b"8/5(2) 6/3", "[9 IllegalPlay]\n"),
    (ALONE, b"24/13", "sent move 24-19 19-13\n"),
    (ALONE, b"24/19", "[9 IllegalPlay]\n"),
    (HITS, b"24/13", "[9 IllegalPlay]\n"),
    (HITS, b"24/18*/13", "sent move 24-18 18-13\n"),
    (HOME, b"5/off", "sent move 5-off\n"),
    (ON_BAR, b"bar/14", "sent move bar-20 20-14\n"),
    (UP, b"4/15", "sent move 4-9 9-15\n"),
    (UP, b"4/10/15", "sent move 4-10 10-15\n"),
    (UP, b"21/10", "[9 IllegalPlay]\n"),
];

/// Steps up to the board.
static SHOWN: [Cue<'static>; 3] = [Cue::Hears(WELCOME), Cue::Hears(SETTINGS), Cue::Hears(BOARD)];

#[test]
fn lines_are_spelled_out() {
    for (line, rows) in &LINES {
        assert_ends(plain_settings(), &SHOWN, &[Cue::Types(line)], rows);
    }
}

#[test]
fn moves_are_spelled_out() {
    for (board, line, rows) in &MOVES {
        let shown = [Cue::Hears(WELCOME), Cue::Hears(SETTINGS), Cue::Hears(board)];
        assert_ends(plain_settings(), &shown, &[Cue::Types(line)], rows);
    }
}

#[test]
fn what_is_said_of_a_line_that_is_no_move_is_spelled_in_narrow_rows() {
    let narrow = Settings { columns: 40, ..plain_settings() };
    let rows =
        "\n  24/18/13   one checker, two steps;\n 24/13 too, if it can go one way only\nplays lists the legal moves.\n";
    assert_ends(narrow, &SHOWN, &[Cue::Types(b"move 9")], rows);
}

#[test]
fn the_legal_moves_are_listed_in_narrow_rows() {
    let narrow = Settings { columns: 40, ..plain_settings() };
    for (board, line, _) in &MOVES {
        let before = [Cue::Hears(WELCOME), Cue::Hears(SETTINGS), Cue::Hears(board)];
        for typed in [&b"plays"[..], b"plays more"] {
            let said = shown_then(narrow, &before, &[Cue::Types(typed)]);
            let wide: Vec<&str> = said.lines().filter(|row| row.len() > 39).collect();
            assert!(wide.is_empty(), "{wide:?} at {}", line.escape_ascii());
        }
    }
}
