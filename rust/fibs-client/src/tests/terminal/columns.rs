//! How wide the terminal is.

use super::lines::{FIRST_BOARD, TO_MOVE};
use super::seats::{Cue, Cue::Types, Scene, assert_has, assert_scenes, plain_settings, shown_then};
use crate::fibs_wording::environment::Settings;

/// The least and the most columns are taken, and no others.
static WIDTHS: [Scene; 4] = [
    (&[Cue::Types(b"columns 20")], "Your turn: roll, or double.\n"),
    (&[Cue::Types(b"columns 999")], "Your turn: roll, or double.\n"),
    (&[Cue::Types(b"columns 19")], "columns 60: how wide the terminal is, from 20 to 999.\n"),
    (&[Cue::Types(b"columns 1000")], "columns 60: how wide the terminal is, from 20 to 999.\n"),
];

#[test]
fn a_terminal_has_from_20_to_999_columns() {
    assert_scenes(plain_settings(), &WIDTHS);
}

/// A row that is as wide as the terminal is not broken.
#[test]
fn a_row_that_fits_is_whole() {
    let narrow = [&FIRST_BOARD[..], &[Cue::Types(b"columns 26"), Cue::Types(b"words")]].concat();
    assert_has(plain_settings(), &narrow, &["\nYou go down, from 24 to 1.\n"]);
    let narrower = [&FIRST_BOARD[..], &[Cue::Types(b"columns 25"), Cue::Types(b"words")]].concat();
    assert_has(plain_settings(), &narrower, &["\nYou go down, from 24 to\n 1.\n"]);
}

/// Lines that the terminal answers in its own words, beside those that ask for help of a word.
static ANSWERED: [&str; 53] = [
    "help", "words short", "words long", "plays", "plays 25", "plays 8", "try", "try 13/5", "try 24/1", "go", "moves",
    "moves 7", "matches", "players", "players ready", "fix", "talk", "re", "gag", "gag bob", "ungag bob", "ungag",
    "quiet", "loud", "arrivals", "numbers", "numbers own", "numbers server", "columns", "rows", "board above",
    "board under", "reconnect", "stay", "order roll", "withdraw roll", "send", "send move 24-22 24-18", "rol", "take",
    "exit", "quit", "bye", "ratings bob", "send average of all", "toggle greedy", "accept", "double", "move 24-1",
    "move 24-22 24-17", "move 9", "invite", "resign",
];

/// What else it tells in its own words: a decision that may be lost, a connection that can't be made, an order, a line that
/// can't be read.
static HAPPENING: [&[Cue<'static>]; 5] = [
    &[Types(b"move 24-22 24-18"), Cue::Loses, Types(b"roll"), Types(b"reconnect"), Types(b"stay")],
    &[Types(b"reconnect"), Cue::Loses, Cue::Fails],
    &[Cue::Loses, Cue::Opens],
    &[Types(b"order roll"), Types(b"order roll")],
    &[Cue::Hears(b"12\r\n")],
];

/// A row leaves the last column free or is one word; what goes on of it begins with its space, so that on each terminal
/// the rows are, joined again, those of a very wide one.
#[test]
fn all_that_the_terminal_says_itself_has_room() {
    let words = include_str!("../../../../../completions/typed").lines().filter_map(|line| line.split(' ').next());
    let typed: Vec<String> = words.map(|word| format!("help {word}")).chain(ANSWERED.map(str::to_owned)).collect();
    let typed = typed.iter().map(|line| vec![Types(line.as_bytes())]);
    let before = [&FIRST_BOARD[..], &[Cue::Hears(TO_MOVE), Cue::Rests]].concat();
    for mut steps in typed.chain(HAPPENING.map(<[Cue]>::to_vec)) {
        steps.push(Cue::Rests);
        let said = |columns| shown_then(Settings { columns, words: true, ..plain_settings() }, &before, &steps);
        let joined = |rows: &str| rows.replace("\n ", " ");
        let wide = said(999);
        for columns in [24, 30, 40, 60, 80] {
            let rows = said(columns);
            assert_eq!(joined(&rows), joined(&wide), "{steps:?} in {columns} columns");
            let has_room = |row: &str| row.len() < columns || !row.trim_start().contains(' ');
            assert!(rows.lines().all(has_room), "{steps:?} in {columns} columns: {rows}");
        }
    }
}
