//! How a game ended, in words.

use super::lines::{FIRST_BOARD, OVER, SETTINGS, TO_ROLL, WELCOME};
use super::seats::{Cue, Scene, assert_ends, assert_scenes, plain_settings};

/// A board at cube 2, and the one after the player has won its game.
const AT_TWO: &[u8] =
    b"board:You:bob:3:0:1:0:-2:0:0:0:0:5:0:3:0:0:0:-5:5:0:0:0:-3:0:-5:0:0:0:0:2:0:-1:0:0:0:0:2:0:0:0:1:-1:0:25:0:0:0:0:2:0:0:0\r\n";

const WON_AT_TWO: &[u8] =
    b"board:You:bob:3:2:1:0:-2:0:0:0:0:5:0:3:0:0:0:-5:5:0:0:0:-3:0:-5:0:0:0:0:2:0:0:0:0:0:0:2:1:1:0:1:-1:0:25:0:0:0:0:2:0:0:0\r\n";

/// The first board after the player has won by a gammon, and by a backgammon.
const GAMMON: &[u8] =
    b"board:You:bob:3:2:1:0:-2:0:0:0:0:5:0:3:0:0:0:-5:5:0:0:0:-3:0:-5:0:0:0:0:2:0:0:0:0:0:0:1:1:1:0:1:-1:0:25:0:0:0:0:2:0:0:0\r\n";

const BACKGAMMON: &[u8] =
    b"board:You:bob:3:3:1:0:-2:0:0:0:0:5:0:3:0:0:0:-5:5:0:0:0:-3:0:-5:0:0:0:0:2:0:0:0:0:0:0:1:1:1:0:1:-1:0:25:0:0:0:0:2:0:0:0\r\n";

/// The points are those that the score has grown by, and a gammon is twice the cube. If no board was shown before,
/// nothing is known of them.
static ENDINGS: [Scene; 4] = [
    (&[Cue::Hears(AT_TWO), Cue::Hears(WON_AT_TWO)], "\nYou win the game, and 2 points. You 2, bob 1 of 3.\n"),
    (&[Cue::Hears(GAMMON)], "\nYou win the game by a gammon, and 2 points. You 2, bob 1 of 3.\n"),
    (&[Cue::Hears(BACKGAMMON)], "\nYou win the game by a backgammon, and 3 points, and the 3 point match 3-1.\n"),
    (
        &[Cue::Loses, Cue::Opens, Cue::Hears(WELCOME), Cue::Hears(SETTINGS), Cue::Hears(WON_AT_TWO)],
        "\nThe game is over. You 2, bob 1 of 3.\n",
    ),
];

#[test]
fn the_end_of_a_game_is_told() {
    assert_scenes(plain_settings(), &ENDINGS);
}

/// If the board before is of another opponent, it says nothing of the points.
#[test]
fn the_end_of_a_game_is_not_told_by_a_board_of_another_match() {
    let over = String::from_utf8(GAMMON.to_vec()).expect("ASCII").replace(":bob:", ":carol:");
    let row = "\nThe game is over. You 2, carol 1 of 3.\n";
    assert_ends(plain_settings(), &FIRST_BOARD, &[Cue::Hears(over.as_bytes())], row);
}

/// A board with other fields in place of the name, the length and the scores; at its end with another cube.
fn with(line: &[u8], fields: &str, cube: &str) -> String {
    let text = String::from_utf8(line.to_vec()).expect("ASCII");
    let front = text.find(":0:-2:").expect("it has places");
    format!("board:You:{fields}{}", &text[front..]).replace(":0:0:0:0:1:1:1:0:", &format!(":0:0:0:0:{cube}:1:1:0:"))
}

/// The boards before and after the end of a game, by their first fields and the cube, and the row that tells it.
static SCORES: [(&str, &str, &str, &str); 7] = [
    ("bob:3:2:1", "bob:3:4:1", "1", "You win the game by a gammon, and 2 points, and the 3 point match 4-1.\n"),
    ("bob:3:2:2", "bob:3:2:4", "1", "bob wins the game by a gammon, and 2 points, and the 3 point match 4-2.\n"),
    ("bob:9999:0:1", "bob:9999:1:1", "1", "You win the game, and 1 point. You 1, bob 1.\n"),
    ("bob:9:0:1", "bob:9:4:1", "1", "You win the game, and 4 points. You 4, bob 1 of 9.\n"),
    ("bob:9:0:1", "bob:9:3:1", "1", "You win the game by a backgammon, and 3 points. You 3, bob 1 of 9.\n"),
    ("bob:99:0:1", "bob:99:7:1", "2", "You win the game, and 7 points. You 7, bob 1 of 99.\n"),
    (
        "bob_bob_bob_bob_bob_bob_:999:0:0",
        "bob_bob_bob_bob_bob_bob_:999:0:192",
        "64",
        "bob_bob_bob_bob_bob_bob_ wins the game by a backgammon, and 192 points.\n\
You 0, bob_bob_bob_bob_bob_bob_ 192 of 999.\n",
    ),
];

#[test]
fn points_are_those_of_the_cube() {
    for (before, after, cube, row) in SCORES {
        let (before, after) = (with(TO_ROLL, before, cube), with(OVER, after, cube));
        let start = [Cue::Hears(WELCOME), Cue::Hears(SETTINGS), Cue::Hears(before.as_bytes())];
        assert_ends(plain_settings(), &start, &[Cue::Hears(after.as_bytes())], row);
    }
}

/// If the score says nothing, who has borne off all his checkers has won.
#[test]
fn who_has_borne_off_all_has_won() {
    for (off, row) in [
        ("15:3", "\nYou win the game. You 0, bob 1 of 3.\n"),
        ("3:15", "\nbob wins the game. You 0, bob 1 of 3.\n"),
        ("3:3", "\nThe game is over. You 0, bob 1 of 3.\n"),
    ] {
        let places = "0:".repeat(26);
        let line = format!("board:You:bob:3:0:1:{places}0:0:0:0:0:1:1:1:0:1:-1:0:25:{off}:0:0:0:0:0:0\r\n");
        let start = [Cue::Hears(WELCOME), Cue::Hears(SETTINGS)];
        assert_ends(plain_settings(), &start, &[Cue::Hears(line.as_bytes())], row);
    }
}
