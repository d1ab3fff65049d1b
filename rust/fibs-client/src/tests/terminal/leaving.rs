//! Who would leave a match is asked once.

use super::lines::{FIRST_BOARD, MOVED, SETTINGS, TO_ROLL, WELCOME};
use super::seats::{Cue, Cue::Hears, Cue::Types, assert_wanted, ends_after, plain_settings, shown};

const QUIT: &str =
    "You are in a match with bob: quit again leaves.\nMost servers save it: invite bob then resumes it.\n";

const BYE: &str = "You are in a match with bob: bye again leaves.\nMost servers save it: invite bob then resumes it.\n";

/// The last board of a match, and that of a game in it.
const MATCH_OVER: &[u8] =
    b"board:You:bob:3:3:1:0:-2:0:0:0:0:5:0:3:0:0:0:-5:5:0:0:0:-3:0:-5:0:0:0:0:2:0:0:0:0:0:0:1:1:1:0:1:-1:0:25:0:0:0:0:2:0:0:0\r\n";

const GAME_OVER: &[u8] =
    b"board:You:bob:3:2:1:0:-2:0:0:0:0:5:0:3:0:0:0:-5:5:0:0:0:-3:0:-5:0:0:0:0:2:0:0:0:0:0:0:1:1:1:0:1:-1:0:25:0:0:0:0:2:0:0:0\r\n";

/// A board of a game that is watched.
const WATCHED: &[u8] =
    b"board:dave:eve:5:0:1:0:-2:0:0:0:0:5:0:3:0:0:0:-5:5:0:0:0:-3:0:-5:0:0:0:0:2:0:1:6:2:0:0:1:1:1:0:1:-1:0:25:0:0:0:0:2:0:0:0\r\n";

const LONG: &[u8] = b"Starting a new game with a_name_that_is_longer_than_a_row_shows.\r\n";

/// Steps after the first board, by which row the screen ends then, and whether the program does.
type LeaveRow = (&'static [Cue<'static>], &'static str, bool);

/// In a match the first of the two words is answered, and the second one in a row does it.
static LEAVES: [LeaveRow; 25] = [
    (&[Types(b"quit")], QUIT, false),
    (&[Types(b"quit"), Types(b"quit")], QUIT, true),
    (&[Types(b" QUIT "), Types(b"Quit")], QUIT, true),
    (&[Types(b"bye")], BYE, false),
    (&[Types(b"bye"), Types(b"bye")], "resumes it.\nsent bye\n", false),
    (&[Types(b"Bye"), Types(b"BYE ")], "resumes it.\nsent bye\n", false),
    // any other line between the two forgets the first
    (&[Types(b"quit"), Types(b"talk"), Types(b"quit")], QUIT, false),
    (&[Types(b"quit"), Types(b"roll"), Types(b"quit")], QUIT, false),
    (&[Types(b"quit"), Types(b""), Types(b"quit")], QUIT, false),
    (&[Types(b"quit"), Types(b"bye")], BYE, false),
    (&[Types(b"quit"), Types(b"bye"), Types(b"quit")], QUIT, false),
    (&[Types(b"bye"), Types(b"quit"), Types(b"bye")], BYE, false),
    // what the server says does not
    (&[Types(b"quit"), Hears(MOVED), Cue::Rests, Types(b"quit")], "bob's turn.\n", true),
    // a game that is over, or not begun, is of a match that goes on
    (&[Hears(GAME_OVER), Types(b"quit")], QUIT, false),
    (&[Hears(GAME_OVER), Hears(b"Starting a new game with bob.\r\n"), Types(b"quit")], QUIT, false),
    // with a match that is over, left or lost, it is asked no more
    (&[Hears(MATCH_OVER), Types(b"quit")], "and the 3 point match 3-1.\n", true),
    (&[Types(b"quit"), Hears(b"bob wins the 3 point match 3-0 .\r\n"), Types(b"quit")], "match 3-0 .\n", true),
    (&[Hears(b"bob wins the 3 point match 3-0 .\r\n"), Types(b"bye")], "sent bye\n", false),
    (&[Hears(b"bob drops connection. The game was saved.\r\n"), Types(b"quit")], "The game was saved.\n", true),
    (&[Types(b"quit"), Cue::Loses, Types(b"quit")], "lost: open connects again, quit ends\n", true),
    (&[Types(b"bye"), Types(b"bye"), Types(b"quit")], "sent bye\n", true),
    // on the next connection it is asked anew
    (&[Types(b"quit"), Cue::Loses, Cue::Opens, Hears(WELCOME), Hears(TO_ROLL), Types(b"quit")], QUIT, false),
    // in the next match too
    (
        &[
            Types(b"quit"),
            Hears(MATCH_OVER),
            Hears(b"Starting a new game with bob.\r\n"),
            Hears(TO_ROLL),
            Types(b"quit"),
        ],
        QUIT,
        false,
    ),
    // what is sent as it is stays unchecked
    (&[Types(b"send exit")], "sent as it is: exit\n", false),
    (&[Types(b"send bye")], "Type it without send: bye\n", false),
];

/// Asserts by which row the screen ends after some steps, and whether the program does.
fn assert_leaves(steps: &[Cue<'_>], row: &str, ends: bool) {
    let text = shown(plain_settings(), &[], steps);
    assert_wanted(text.ends_with(row), &text, row);
    assert_eq!(ends_after(steps), ends, "{steps:?}");
}

#[test]
fn who_would_leave_a_match_is_asked_once() {
    for (steps, row, ends) in &LEAVES {
        assert_leaves(&[&FIRST_BOARD[..], steps].concat(), row, *ends);
    }
}

/// Who is in no match leaves at once, also if he watches one.
#[test]
fn who_is_in_no_match_is_not_asked() {
    let login = [Hears(WELCOME), Hears(SETTINGS), Cue::Rests];
    for before in [&[][..], &login, &[login[0], login[1], Hears(WATCHED)]] {
        let text = shown(plain_settings(), &[], before);
        assert_leaves(&[before, &[Types(b"quit")]].concat(), &text, true);
    }
    assert_leaves(&[&login[..], &[Types(b"bye")]].concat(), "\nsent bye\n", false);
}

/// Of a long name so much is said that it fits, but in the line that is to be typed it is whole.
#[test]
fn a_long_name_is_cut() {
    let before = [Hears(WELCOME), Hears(SETTINGS), Hears(LONG), Types(b"quit")];
    let text = shown(plain_settings(), &[], &before);
    let row = "You are in a match with a_name_that_is_longer_th: quit again leaves.\n\
               Most servers save it: invite a_name_that_is_longer_than_a_row_shows then\n resumes it.\n";
    assert_wanted(text.ends_with(row), &text, row);
}
