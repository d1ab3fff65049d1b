//! The rule that a move breaks, as a terminal names it.

use super::lines::{ONE_AND_ONE, SETTINGS, TO_MOVE, WELCOME};
use super::seats::{Cue, Scene, assert_ends, assert_has, assert_scenes, plain_settings, shown};
use crate::fibs_wording::environment::Settings;

/// A board with dice 5 and 4, on which the checker on 6 can't move and that on 4 can go off.
pub const BEARING_OFF: &[u8] =
    b"board:You:bob:3:0:1:0:-2:-2:1:1:0:1:0:0:0:0:0:0:0:0:0:0:0:0:0:0:0:0:0:0:0:1:5:4:0:0:1:1:1:0:1:-1:0:25:12:11:0:0:1:0:0:0\r\n";

/// A board with dice 6 and 2, on which a single checker of the opponent is on 18; and one with dice 5 and 3, on which
/// two checkers of the player are on the bar.
pub const BLOT: &[u8] =
    b"board:You:bob:3:0:1:0:-2:0:0:0:0:5:0:3:0:0:0:-5:5:0:0:0:-2:-1:-5:0:0:0:0:2:0:1:6:2:0:0:1:1:1:0:1:-1:0:25:0:0:0:0:2:0:0:0\r\n";

/// A board with dice 2 and 2, two checkers on 24, and one of the opponent's on 22.
const ONE_ALONE: &[u8] =
    b"board:You:bob:5:0:0:0:0:0:0:0:0:0:0:0:0:0:0:0:0:0:0:0:0:0:0:0:0:-1:0:2:0:1:2:2:0:0:1:1:1:0:1:-1:0:25:13:14:0:0:1:0:0:0\r\n";

pub const TWO_ON_THE_BAR: &[u8] =
    b"board:You:bob:3:0:1:0:-2:0:0:0:0:5:0:3:0:0:0:-5:5:0:0:0:-3:0:-5:0:0:0:0:0:2:1:5:3:0:0:1:1:1:0:1:-1:0:25:0:0:2:0:2:0:0:0\r\n";

/// Moves, and the rule that each breaks.
static RULES: [Scene; 7] = [
    (&[Cue::Hears(BEARING_OFF), Cue::Types(b"move 3-off")], "\nA checker farther back goes first. [9 IllegalPlay]\n"),
    (&[Cue::Hears(BEARING_OFF), Cue::Types(b"move 6-1")], "\nYour opponent holds 1. [9 IllegalPlay]\n"),
    (&[Cue::Hears(BEARING_OFF), Cue::Types(b"move 4-off")], "\nsent move 4-off\n"),
    (&[Cue::Hears(TO_MOVE), Cue::Types(b"move 6-off")], "\nNo checker goes off before all are home. [9 IllegalPlay]\n"),
    (&[Cue::Hears(TO_MOVE), Cue::Types(b"move 24-18")], "\nBoth dice must be played. [9 IllegalPlay]\n"),
    (&[Cue::Hears(BLOT), Cue::Types(b"move 24-18")], "\nBoth dice must be played. [9 IllegalPlay]\n"),
    (
        &[Cue::Hears(TWO_ON_THE_BAR), Cue::Types(b"move bar-20 8-5")],
        "\nA checker on the bar enters first. [9 IllegalPlay]\n",
    ),
];

#[test]
fn the_rule_that_a_move_breaks_is_named() {
    assert_scenes(plain_settings(), &RULES);
}

/// Two checkers are left, on 24, and the dice are 6 and 4; or one, and by 6 and 5 it can take one step, not two.
const TWO_LEFT: &[u8] =
    b"board:You:bob:5:0:0:0:-2:0:0:0:0:0:0:0:0:0:0:0:0:0:0:0:0:0:0:0:0:0:0:2:0:1:6:4:0:0:1:1:1:0:1:-1:0:25:13:13:0:0:2:0:0:0\r\n";

const ONE_LEFT: &[u8] =
    b"board:You:bob:5:0:0:0:0:0:0:0:0:0:0:0:0:0:0:0:-2:0:0:0:0:0:0:0:0:0:0:1:0:1:6:5:0:0:1:1:1:0:1:-1:0:25:14:13:0:0:1:0:0:0\r\n";

/// Moves of which each step is played by a die, and the rule of the dice that each breaks: none is named if one die is
/// used twice.
static DICE: [Scene; 3] = [
    (
        &[Cue::Hears(ONE_AND_ONE), Cue::Types(b"move 24-23 24-23")],
        "\nAs many dice as can be must be played: 4. [9 IllegalPlay]\n",
    ),
    (&[Cue::Hears(ONE_LEFT), Cue::Types(b"move 24-19")], "\nThe larger die must be played. [9 IllegalPlay]\n"),
    (&[Cue::Hears(TWO_LEFT), Cue::Types(b"m 24/18 18/12")], "\nThe rules don't allow this move. [9 IllegalPlay]\n"),
];

#[test]
fn the_rule_of_the_dice_is_named_unless_a_die_is_used_twice() {
    assert_scenes(plain_settings(), &DICE);
}

/// Moves from a place are those of which any step is from there, in as many columns as have room.
#[test]
fn each_move_from_a_place_is_listed() {
    let row = "  24-22 8-2  24-18 8-6  13-11 8-2  13-7 8-6   8-6 8-2    8-2 6-4\n6 legal moves from there.\n";
    assert_has(plain_settings(), &[Cue::Hears(TO_MOVE), Cue::Types(b"plays 8")], &[row]);
}

/// They are ordered down the columns; a star stands at each step that hits.
#[test]
fn moves_are_listed_down_the_columns() {
    let narrow = Settings { columns: 30, ..plain_settings() };
    let rows = "  24-22 8-2   13-7 8-6\n  24-18* 8-6  8-6 8-2\n  13-11 8-2   8-2 6-4\n6 legal moves from there.\n";
    assert_has(narrow, &[Cue::Hears(BLOT), Cue::Types(b"plays 8")], &[rows]);
    let narrowest = Settings { columns: 14, ..plain_settings() };
    assert_has(narrowest, &[Cue::Hears(BLOT), Cue::Types(b"plays 8")], &["  24-22 8-2\n  24-18* 8-6\n  13-11 8-2\n"]);
}

/// Of two steps to one checker the first hits.
#[test]
fn a_checker_is_hit_once() {
    let row = "  24-22* 24-22 22-20 22-20  24-22* 24-22 22-20 20-18  24-22* 22-20 20-18 18-16\n3 legal moves.\n";
    assert_has(plain_settings(), &[Cue::Hears(ONE_ALONE), Cue::Types(b"plays")], &[row]);
}

/// In words each has a row.
#[test]
fn moves_are_told_one_a_row() {
    let told = Settings { words: true, ..plain_settings() };
    let rows = "  move 24-22 8-2\n  move 24-18 8-6, hits on 18\n  move 13-11 8-2\n";
    assert_has(told, &[Cue::Hears(BLOT), Cue::Types(b"plays 8")], &[rows]);
}

/// Boards, moves that are tried on them, and what is told of each in words: the places with more of the user's checkers
/// or fewer, a hit, his pips, his blots.
static TRIED: [(&[u8], &[u8], &str); 4] = [
    (
        BLOT,
        b"try 24/18* 8/6",
        "After 24-18 8-6: 1 on 24, 1 on 18, 2 on 8, 6 on 6.\nYou hit bob on 18.\nYour pips: 159.\n\
Your blots: 24 and 18.\nNot sent yet: go sends move 24-18 8-6\n",
    ),
    (
        TWO_ON_THE_BAR,
        b"try bar/22 bar/20",
        "After bar-22 bar-20: none on the bar, 1 on 22, 1 on 20.\nYour pips: 161.\nYour blots: 22 and 20.\n\
Not sent yet: go sends move bar-22 bar-20\n",
    ),
    (
        BEARING_OFF,
        b"try 4/off",
        "After 4-off: none on 4, 13 off.\nYour pips: 9.\nYour blots: 6 and 3.\nNot sent yet: go sends move 4-off\n",
    ),
    (
        TO_MOVE,
        b"try 13/5",
        "After 13-11 11-5: 4 on 13, 1 on 5.\nYour pips: 159.\nYour blots: 5.\nNot sent yet: go sends move 13-11 11-5\n",
    ),
];

#[test]
fn a_move_that_is_tried_is_told_by_what_it_changes() {
    let told = Settings { words: true, ..plain_settings() };
    for (board, typed, rows) in &TRIED {
        let start = [Cue::Hears(WELCOME), Cue::Hears(SETTINGS), Cue::Hears(board)];
        assert_ends(told, &start, &[Cue::Types(typed)], rows);
    }
    // no row is wider than the terminal, and what goes on begins with a space
    let narrow = Settings { columns: 30, ..told };
    let start = [Cue::Hears(WELCOME), Cue::Hears(SETTINGS), Cue::Hears(BLOT)];
    let rows = "After 24-18 8-6: 1 on 24, 1\n on 18, 2 on 8, 6 on 6.\nYou hit bob on 18.\n";
    let text = shown(narrow, &start, &[Cue::Types(b"try 24/18 8/6")]);
    assert!(text.contains(rows), "{text}");
}
