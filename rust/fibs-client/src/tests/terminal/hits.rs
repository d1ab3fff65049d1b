//! Checkers that are hit: a row says on which places, by the boards before and after a play.

use super::lines::{SETTINGS, WELCOME};
use super::seats::{Cue, plain_settings, shown};
use crate::fibs_fields::boards::Board;
use crate::fibs_position::{GameBoard, Numbers};
use crate::fibs_terminal::story::Story;
use crate::fibs_wording::environment::Settings;

/// Which way the user goes by the server's numbers.
#[derive(Clone, Copy, PartialEq)]
enum Way {
    Down,
    Up,
}

/// A board in the user's own numbers; who is on no place and not off is on the bar.
#[derive(Clone, Copy)]
struct Drawn {
    way: Way,
    own: &'static [(usize, i32)],
    other: &'static [(usize, i32)],
    off: [i32; 2],
    /// The user's dice, and the opponent's.
    dice: [i32; 4],
    /// 1 if it is the user's turn, -1 if it is the opponent's.
    turn: i32,
    score: i32,
    opponent: &'static str,
}

impl Drawn {
    /// The line by which the server shows it: the user is O.
    fn line(&self) -> String {
        let mut places = [0; 26];
        let at = |place: usize| if self.way == Way::Up { 25 - place } else { place };
        for (place, count) in self.own {
            places[at(*place)] = *count;
        }
        for (place, count) in self.other {
            places[at(*place)] = -*count;
        }
        let places: Vec<String> = places.iter().map(i32::to_string).collect();
        let [a, b, c, d] = self.dice;
        let (direction, home) = if self.way == Way::Up { ("1", "25:0") } else { ("-1", "0:25") };
        format!(
            "board:You:{}:5:{}:0:{}:{}:{a}:{b}:{c}:{d}:1:1:1:0:1:{direction}:{home}:{}:{}:0:0:1:0:0:0",
            self.opponent,
            self.score,
            places.join(":"),
            self.turn,
            self.off[0],
            self.off[1]
        )
    }

    fn game(&self) -> GameBoard {
        let board = Board::read(self.line().as_bytes()).expect("a board");
        GameBoard::of(&board).unwrap_or_else(|_| panic!("no position: {}", self.line()))
    }
}

/// The user has rolled 6 and 5, and bob has single checkers on 18 and 13.
const BEFORE: Drawn = Drawn {
    way: Way::Down,
    own: &[(24, 2), (6, 5)],
    other: &[(18, 1), (13, 1), (1, 3)],
    off: [8, 10],
    dice: [6, 5, 0, 0],
    turn: 1,
    score: 0,
    opponent: "bob",
};

/// He has played 24-18 18-13: one checker hits on both places.
const BOTH_HIT: Drawn = Drawn { own: &[(24, 1), (13, 1), (6, 5)], other: &[(1, 3)], dice: [0; 4], turn: -1, ..BEFORE };

/// He has played 24-18 24-19.
const ONE_HIT: Drawn = Drawn { own: &[(19, 1), (18, 1), (6, 5)], other: &[(13, 1), (1, 3)], ..BOTH_HIT };

/// Bob holds 18 and 13: by the 6 nothing can be played.
const HELD: Drawn = Drawn { other: &[(18, 2), (13, 2)], off: [8, 11], ..BEFORE };

/// Bob has rolled 2 and 2, and the user's checkers on 9, 7, 5 and 3 stand alone.
const FOUR_ALONE: Drawn = Drawn {
    way: Way::Down,
    own: &[(9, 1), (7, 1), (5, 1), (3, 1)],
    other: &[(1, 2), (20, 2)],
    off: [11, 11],
    dice: [0, 0, 2, 2],
    turn: -1,
    score: 0,
    opponent: "bob",
};

/// A checker of his has come from 1 to 9, and hits on each of its four steps; or two have come to 5, and hit on two.
const FOUR_HIT: Drawn = Drawn { own: &[], other: &[(1, 1), (9, 1), (20, 2)], dice: [0; 4], turn: 1, ..FOUR_ALONE };

const TWO_HIT: Drawn = Drawn { own: &[(9, 1), (7, 1)], other: &[(5, 2), (20, 2)], ..FOUR_HIT };

/// What is said of the last of these boards, after those before it.
fn said_of(boards: &[Drawn], numbers: Numbers) -> String {
    let mut story = Story::new();
    let mut text = Vec::new();
    for board in boards {
        text.clear();
        story.append_hits(&board.game(), numbers, &mut text).expect("memory");
        story.hear_board(&board.game()).expect("memory");
    }
    String::from_utf8(text).expect("ASCII")
}

/// The same boards as the server shows them that counts the other way.
fn up(board: Drawn) -> Drawn {
    Drawn { way: Way::Up, ..board }
}

#[test]
fn each_place_on_which_a_play_hits_is_said() {
    for (before, after, own, servers) in [
        (BEFORE, BOTH_HIT, "You hit bob on 18 and 13.\n", "You hit bob on 7 and 12.\n"),
        (BEFORE, ONE_HIT, "You hit bob on 18.\n", "You hit bob on 7.\n"),
        (FOUR_ALONE, FOUR_HIT, "bob hits you on 9, 7, 5 and 3.\n", "bob hits you on 16, 18, 20 and 22.\n"),
        (FOUR_ALONE, TWO_HIT, "bob hits you on 5 and 3.\n", "bob hits you on 20 and 22.\n"),
    ] {
        assert_eq!(said_of(&[before, after], Numbers::TheOwn), own);
        assert_eq!(said_of(&[before, after], Numbers::TheServers), own);
        assert_eq!(said_of(&[up(before), up(after)], Numbers::TheOwn), own);
        assert_eq!(said_of(&[up(before), up(after)], Numbers::TheServers), servers);
    }
}

/// A long name is told by its first bytes, as in other rows.
#[test]
fn a_long_name_is_cut() {
    let long = "abcdefghijabcdefghijabcdefghij";
    let named = |board| Drawn { opponent: long, ..board };
    let said = said_of(&[named(BEFORE), named(ONE_HIT)], Numbers::TheOwn);
    assert_eq!(said, "You hit abcdefghijabcdefghijabcd on 18.\n");
}

#[test]
fn nothing_is_said_twice_or_of_another_game() {
    for (case, boards) in [
        ("the first board", &[ONE_HIT][..]),
        ("the same board", &[BEFORE, ONE_HIT, ONE_HIT]),
        ("the next board", &[BEFORE, ONE_HIT, Drawn { dice: [0, 0, 6, 6], ..ONE_HIT }]),
        ("another score", &[BEFORE, Drawn { score: 1, ..ONE_HIT }]),
        ("another opponent", &[BEFORE, Drawn { opponent: "eve", ..ONE_HIT }]),
        ("after the end", &[Drawn { turn: 0, dice: [0; 4], ..BEFORE }, ONE_HIT]),
        ("two stand there", &[HELD, Drawn { own: &[(19, 1), (24, 1), (6, 5)], turn: -1, dice: [0; 4], ..HELD }]),
    ] {
        assert_eq!(said_of(boards, Numbers::TheOwn), "", "{case}");
    }
}

/// If no play leads from one board to the other, only this is known: who has more checkers on the bar was hit.
#[test]
fn if_boards_are_missing_it_says_who_was_hit() {
    let unrolled = Drawn { dice: [0; 4], ..FOUR_ALONE };
    let twice = Drawn { own: &[(24, 1), (13, 1), (6, 4)], ..BOTH_HIT };
    for (case, boards, said) in [
        ("no dice", [unrolled, TWO_HIT], "You were hit since the last board.\n"),
        (
            "no such play",
            [FOUR_ALONE, Drawn { other: &[(4, 2), (20, 2)], ..TWO_HIT }],
            "You were hit since the last board.\n",
        ),
        ("both", [BEFORE, twice], "You were hit since the last board.\nbob was hit since the last board.\n"),
    ] {
        assert_eq!(said_of(&boards, Numbers::TheOwn), said, "{case}");
    }
}

/// Once on a screen, before what is shown of the board; also on the first board after a lost connection.
#[test]
fn a_screen_says_it_once() {
    let lines: Vec<Vec<u8>> = [BEFORE, ONE_HIT].iter().map(|board| (board.line() + "\r\n").into_bytes()).collect();
    let on = [Cue::Hears(WELCOME), Cue::Hears(SETTINGS), Cue::Hears(&lines[0]), Cue::Rests, Cue::Hears(&lines[1])];
    let settings = Settings { numbers: Numbers::TheOwn, ..plain_settings() };
    let rows = shown(settings, &on, &[Cue::Rests]);
    assert!(rows.ends_with("You hit bob on 18.\nbob's turn.\n"), "{rows}");
    assert_eq!(rows.matches("You hit").count(), 1, "{rows}");
}
