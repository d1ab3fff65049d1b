//! The title of the window.

use super::lines::{FIRST_BOARD, TO_MOVE};
use super::seats::{Cue, assert_wanted, plain_settings, shown};
use crate::fibs_wording::environment::Settings;

/// What a window's title is made of.
const BEGINS: &str = "\x1b]2;";

const ENDS: &str = "\x1b\\";

/// The titles that a window has one after another.
fn titles(steps: &[Cue<'_>]) -> Vec<String> {
    let before = [&[Cue::Opens], &FIRST_BOARD[..]].concat();
    let text = shown(Settings { title: true, ..plain_settings() }, &before, steps);
    let titles = text.split(BEGINS).skip(1).map(|rest| rest.split(ENDS).next().unwrap_or_default().to_owned());
    titles.collect()
}

/// What ends a game, or its connection.
static ENDINGS: [&[Cue<'static>]; 4] = [
    &[Cue::Hears(b"bob wins the 3 point match 3-0 .\r\n")],
    &[Cue::Hears(b"bob drops connection. The game was saved.\r\n")],
    &[Cue::Hears(b"** You're not playing.\r\n")],
    &[Cue::Loses],
];

#[test]
fn no_title_tells_a_game_that_has_ended() {
    for steps in ENDINGS {
        let found = titles(steps);
        assert_wanted(
            found == ["fibs: your turn, 0-1 of 3", "fibs"],
            &found.join("; "),
            "a title of the game, then none",
        );
    }
}

#[test]
fn the_title_is_that_of_the_last_board() {
    let found = titles(&[Cue::Loses, Cue::Opens, Cue::Hears(TO_MOVE)]);
    let wanted = ["fibs: your turn, 0-1 of 3", "fibs", "fibs: your turn, 0-1 of 3"];
    assert_wanted(found == wanted, &found.join("; "), "the title of the game again");
}
