//! Boards that the user watches: their pictures, and the same in words, which were made by hand.

use super::lines::{SETTINGS, WELCOME};
use super::pictures::PLAIN;
use super::seats::{Cue, asks_board, assert_wanted, colour_settings, plain_settings};
use crate::fibs_fields::boards::Board;
use crate::fibs_picture::in_words::{Told, append_told};
use crate::fibs_picture::{NO_ARRIVALS, append_watched};
use crate::fibs_position::{GameBoard, Numbers, PositionFault, WatchedBoard};
use crate::fibs_wording::environment::Settings;

/// A board, the lines of its picture, and its rows in words.
struct Watched {
    name: &'static str,
    board: &'static str,
    picture: &'static str,
    words: &'static str,
}

static WATCHED: [Watched; 5] = [
    Watched {
        name: "O goes down, before his move",
        board: "board:ann:bob:3:0:1:0:-2:0:0:0:0:5:0:3:0:0:0:-5:5:0:0:0:-3:0:-5:0:0:0:0:2:0:1:6:2:0:0:1:1:1:0:1:-1:0:25:0:0:0:0:2:0:0:0",
        picture: " +13-14-15-16-17-18-+---+19-20-21-22-23-24-+   X bob
 | O           X    |   | X              O |     score 1
 | O           X    |   | X              O |     off   0
 | O           X    |   | X                |     pips  167
 | O                |   | X                |     dice  -
 | O                |   | X                |   match to 3
 |                  |BAR|                  |   cube 1, in the middle
 | X                |   | O                |   O ann's turn
 | X                |   | O                |     dice  6 2
 | X           O    |   | O                |     pips  167 (even race)
 | X           O    |   | O              X |     off   0
 | X           O    |   | O              X |     score 0
 +12-11-10--9--8--7-+---+-6--5--4--3--2--1-+   O ann
",
        words: "ann against bob.
ann to move.
ann's dice 6 and 2, bob's none.
Score 0 to 1, match to 3.
Cube 1, in the middle.
ann goes down, from 24 to 1.
ann, 167 pips: 2 on 24, 5 on 13, 3 on 8, 5 on 6, none off.
bob, 167 pips: 2 on 1, 5 on 12, 3 on 17, 5 on 19, none off.
Held against ann: 19, 17, 12, 1.
Blots: ann's none; bob's none.
",
    },
    Watched {
        name: "X goes up, and is offered a double; one on the opponent's bar, who has the cube",
        board: "board:ann:eve:9999:2:7:0:-2:0:0:0:0:6:0:3:0:0:0:-4:4:0:0:0:-3:0:-6:0:0:0:0:1:0:-1:0:0:0:0:4:0:1:1:-1:1:25:0:0:0:0:1:0:0:0:0",
        picture: " +12-11-10--9--8--7-+---+-6--5--4--3--2--1-+   X eve
 | O           X    |   | X              O |     score 7
 | O           X    |   | X              O |     off   0
 | O           X    |   | X                |     pips  161
 | O                |   | X                |     dice  -
 |                  |   | 6                |   unlimited match
 |                  |BAR|                  |   cube 4, X eve's
 |                  |   | 6                |   O ann's turn
 | X                |   | O                |     dice  -
 | X           O    |   | O                |     pips  160 (1 ahead)
 | X           O    |   | O                |     off   0
 | X           O    | X | O              X |     score 2
 +13-14-15-16-17-18-+---+19-20-21-22-23-24-+   O ann
",
        words: "ann against eve.
ann is offered a double.
ann's dice none, eve's none.
Score 2 to 7, unlimited match.
Cube 4, eve's, not ann's.
ann goes up, from 1 to 24.
ann, 160 pips: 2 on 1, 4 on 12, 3 on 17, 6 on 19, none off.
eve, 161 pips: 1 on the bar, 1 on 24, 4 on 13, 3 on 8, 6 on 6, none off.
Held against ann: 6, 8, 13.
Blots: ann's none; eve's 24.
",
    },
    Watched {
        name: "X goes down, can't enter, and has the cube",
        board: "board:ann:bob:5:1:2:0:0:0:-5:0:0:-7:0:0:0:0:0:12:0:0:0:0:0:0:2:1:0:0:0:0:0:-1:6:6:0:0:2:1:0:0:-1:-1:0:25:2:0:1:0:0:0:0:0",
        picture: " +13-14-15-16-17-18-+---+19-20-21-22-23-24-+   X bob
 |                  | O | X  X             |     score 2
 |                  |   | X                |     off   0
 |                  |   |                  |     pips  173
 |                  |   |                  |     dice  -
 |                  |   |                  |   match to 5
 |                  |BAR|                  |   cube 2, O ann's
 |12                |   | 7        O       |   O ann's turn
 | X                |   | O        O       |     dice  6 6
 | X                |   | O        O       |     pips  82 (91 ahead)
 | X                |   | O        O       |     off   2
 | X                |   | O        O       |     score 1
 +12-11-10--9--8--7-+---+-6--5--4--3--2--1-+   O ann
",
        words: "ann against bob.
ann can't move.
ann's dice 6 and 6, bob's none.
Score 1 to 2, match to 5.
Cube 2, ann's.
ann goes down, from 24 to 1.
ann, 82 pips: 1 on the bar, 7 on 6, 5 on 3, 2 off.
bob, 173 pips: 12 on 12, 2 on 19, 1 on 20, none off.
Held against ann: 19, 12.
Blots: ann's none; bob's 20.
",
    },
    Watched {
        name: "the game is over; the longest names and numbers, which begin alike",
        board: "board:abcdefghijabcdefghijabcdefghijKLMNOPQRSTKLMNOPQRSTKLMNOPQRST:abcdefghijabcdefghijabcdefghijklmnopqrstklmnopqrstklmnopqrst:9998:99999999:99999999:0:0:0:0:0:0:0:0:0:0:0:0:0:0:0:0:0:0:0:0:0:0:0:0:0:0:0:0:0:0:0:1048576:0:1:0:1:1:25:0:15:0:0:15:0:0:0:0",
        picture: " +12-11-10--9--8--7-+---+-6--5--4--3--2--1-+   X abcdefghijabcdefghijabcdefghij
 |                  |   |                  |     score 99999999
 |                  |   |                  |     off   0
 |                  |   |                  |     pips  375
 |                  |   |                  |     dice  -
 |                  |   |                  |   match to 9998
 |                  |BAR|                  |   cube 1048576, X abcdefghijabcd's
 |                  |15 |                  |   nobody's turn
 |                  | X |                  |     dice  -
 |                  | X |                  |     pips  0 (375 ahead)
 |                  | X |                  |     off   15
 |                  | X |                  |     score 99999999
 +13-14-15-16-17-18-+---+19-20-21-22-23-24-+   O abcdefghijabcdefghijabcdefghij
",
        words: "abcdefghijabcdefghijabcdefghij against abcdefghijabcdefghijabcdefghij.
The game is over.
abcdefghijabcdefghijabcdefghij's dice none, abcdefghijabcdefghijabcdefghij's none.
Score 99999999 to 99999999, match to 9998.
Cube 1048576, abcdefghijabcdefghijabcdefghij's, not abcdefghijabcdefghijabcdefghij's.
abcdefghijabcdefghijabcdefghij goes up, from 1 to 24.
abcdefghijabcdefghijabcdefghij, 0 pips: 15 off.
abcdefghijabcdefghijabcdefghij, 375 pips: 15 on the bar, none off.
Held against abcdefghijabcdefghijabcdefghij: none.
Blots: abcdefghijabcdefghijabcdefghij's none; abcdefghijabcdefghijabcdefghij's none.
",
    },
    Watched {
        name: "the opponent has the turn and dice; names that look like words of a board",
        board: "board:nobody:in:3:0:1:0:-2:0:0:0:0:5:0:3:0:0:0:-5:5:0:0:0:-3:0:-5:0:0:0:0:2:0:-1:0:0:3:1:1:0:0:0:1:-1:0:25:0:0:0:0:2:0:0:0",
        picture: " +13-14-15-16-17-18-+---+19-20-21-22-23-24-+   X in
 | O           X    |   | X              O |     score 1
 | O           X    |   | X              O |     off   0
 | O           X    |   | X                |     pips  167
 | O                |   | X                |     dice  3 1
 | O                |   | X                |   match to 3
 |                  |BAR|                  |   cube 1, no doubling
 | X                |   | O                |   X in's turn
 | X                |   | O                |     dice  -
 | X           O    |   | O                |     pips  167 (even race)
 | X           O    |   | O              X |     off   0
 | X           O    |   | O              X |     score 0
 +12-11-10--9--8--7-+---+-6--5--4--3--2--1-+   O nobody
",
        words: "nobody against in.
in's turn.
nobody's dice none, in's 3 and 1.
Score 0 to 1, match to 3.
Cube 1, no doubling.
nobody goes down, from 24 to 1.
nobody, 167 pips: 2 on 24, 5 on 13, 3 on 8, 5 on 6, none off.
in, 167 pips: 2 on 1, 5 on 12, 3 on 17, 5 on 19, none off.
Held against nobody: 19, 17, 12, 1.
Blots: nobody's none; in's none.
",
    },
];

/// What is drawn of a board line that is watched, and what is told of it.
fn shown(line: &str) -> (String, String) {
    let board = Board::read(line.as_bytes()).expect("it is a board");
    let watched = WatchedBoard::of(&board).expect("it is watched");
    let (mut drawn, mut told) = (Vec::new(), Vec::new());
    append_watched(&PLAIN, &watched, &NO_ARRIVALS, &mut drawn).expect("there is memory");
    let board = Told::Watched(watched, Numbers::TheServers);
    append_told(&None, &board, 200, &mut told).expect("there is memory");
    (String::from_utf8(drawn).expect("ASCII"), String::from_utf8(told).expect("ASCII"))
}

#[test]
fn watched_boards_are_drawn_and_told() {
    for watched in &WATCHED {
        let (drawn, told) = shown(watched.board);
        assert_eq!(drawn, watched.picture, "{}", watched.name);
        assert_eq!(told, watched.words, "{}", watched.name);
        assert!(drawn.lines().all(|line| line.len() <= 79), "{}", watched.name);
    }
}

/// Boards that differ in who has the turn, who has the cube, or a name alone, of players whose names are one or are
/// words of a board.
#[test]
fn boards_that_differ_are_shown_otherwise() {
    let front = "0:0:1:0:-2:0:0:0:0:5:0:3:0:0:0:-5:5:0:0:0:-3:0:-5:0:0:0:0:2:0";
    let mut seen = Vec::new();
    for names in ["same:same", "nobody:in", "in:nobody", "O:X", "X:O", "no:The", "The:no", "s's:s", "s:s's"] {
        for turn in ["1", "0", "-1"] {
            for cube in ["1:1:1", "1:0:1", "1:1:0", "1:0:0"] {
                let line = format!("board:{names}:{front}:{turn}:0:0:0:0:{cube}:0:1:-1:0:25:0:0:0:0:2:0:0:0");
                seen.push(shown(&line));
            }
        }
    }
    for (at, one) in seen.iter().enumerate() {
        for other in &seen[at + 1..] {
            assert_ne!(one.0, other.0);
            assert_ne!(one.1, other.1);
        }
    }
}

/// No board is both: what is watched is not decided on.
#[test]
fn a_watched_board_is_no_board_of_the_users_game() {
    let watched = WATCHED[0].board;
    let own = watched.replace(":ann:", ":You:");
    let many = watched.replace(":-2:0:0:0:0:5:", ":15:0:0:0:0:5:");
    for (line, is_watched, fault) in
        [(watched, true, Some(PositionFault::NotYou)), (&own, false, None), (&many, false, Some(PositionFault::NotYou))]
    {
        let board = Board::read(line.as_bytes()).expect("it is a board");
        assert_eq!(WatchedBoard::of(&board).is_some(), is_watched, "{line}");
        assert_eq!(GameBoard::of(&board).err(), fault, "{line}");
    }
}

/// Bob against eve, before bob's roll, and after it.
const TO_ROLL: &str = "board:bob:eve:3:0:1:0:-2:0:0:0:0:5:0:3:0:0:0:-5:5:0:0:0:-3:0:-5:0:0:0:0:2:0:1:0:0:0:0:1:1:1:0:1:-1:0:25:0:0:0:0:0:0:0:0";

const ROLLED: &str = "board:bob:eve:3:0:1:0:-2:0:0:0:0:5:0:3:0:0:0:-5:5:0:0:0:-3:0:-5:0:0:0:0:2:0:1:3:1:0:0:1:1:1:0:1:-1:0:25:0:0:0:0:0:0:0:0";

/// After it: bob has moved 8/5 6/5; and what is new then. And a game of others.
const MOVED: &str = "board:bob:eve:3:0:1:0:-2:0:0:0:2:4:0:2:0:0:0:-5:5:0:0:0:-3:0:-5:0:0:0:0:2:0:-1:0:0:0:0:1:1:1:0:1:-1:0:25:0:0:0:0:0:0:0:0";

const NEW: &str = "eve's turn.
bob's dice none, eve's none.
bob, 163 pips: 2 on 24, 5 on 13, 2 on 8, 4 on 6, 2 on 5, none off.
eve, 167 pips: 2 on 1, 5 on 12, 3 on 17, 5 on 19, none off.
";

const OTHERS: &str = "board:ann:eve:3:0:1:0:-2:0:0:0:0:5:0:3:0:0:0:-5:5:0:0:0:-3:0:-5:0:0:0:0:2:0:1:0:0:0:0:1:1:1:0:1:-1:0:25:0:0:0:0:0:0:0:0";

/// The words of the first one, and what is said below a board that is watched.
const TOLD: &str = "bob against eve.
bob to roll.
bob's dice none, eve's none.
Score 0 to 1, match to 3.
Cube 1, in the middle.
bob goes down, from 24 to 1.
bob, 167 pips: 2 on 24, 5 on 13, 3 on 8, 5 on 6, none off.
eve, 167 pips: 2 on 1, 5 on 12, 3 on 17, 5 on 19, none off.
Held against bob: 19, 17, 12, 1.
Blots: bob's none; eve's none.
";

const HINT: &str = "You watch bob and eve: unwatch ends it.\n";

/// What a terminal shows of boards that come one after another, if the user watches bob.
fn seen(settings: Settings<'_>, boards: &[&str]) -> String {
    let lines: Vec<String> = boards.iter().map(|board| format!("{board}\r\n")).collect();
    let before = [
        Cue::Hears(WELCOME),
        Cue::Hears(SETTINGS),
        Cue::Types(b"watch bob"),
        Cue::Hears(b"You're now watching bob.\r\n"),
        Cue::Rests,
    ];
    let steps: Vec<Cue<'_>> = lines.iter().flat_map(|line| [Cue::Hears(line.as_bytes()), Cue::Rests]).collect();
    let all = super::seats::shown(settings, &before, &steps);
    let begun = "You're now watching bob.\n";
    all.split_once(begun).expect("the user watches").1.to_string()
}

/// In words, if these are asked for: the board with its hint, and then the dice alone; broken on a narrow terminal; and
/// what is new alone of a board that comes later, until one is asked for or is of other players.
#[test]
fn a_terminal_tells_watched_boards_in_words() {
    let words = Settings { words: true, ..plain_settings() };
    assert_eq!(seen(words, &[TO_ROLL, TO_ROLL, ROLLED]), format!("{TOLD}{HINT}bob rolls 3 and 1.\n"));
    let narrow = seen(Settings { words: true, columns: 40, ..plain_settings() }, &[TO_ROLL]);
    assert_wanted(narrow.lines().all(|row| row.len() <= 40), &narrow, "40 columns");
    assert_eq!(narrow.replace("\n ", " "), format!("{TOLD}{HINT}"));
    let short = seen(Settings { is_short: true, ..words }, &[TO_ROLL, MOVED, OTHERS]);
    let others = TOLD.replace("bob", "ann");
    assert_eq!(short, format!("{TOLD}{HINT}{NEW}{others}{}", HINT.replace("bob", "ann")));
}

/// Of a picture of 40 columns the words of both players are below it, and every place is there.
#[test]
fn a_narrow_terminal_has_the_words_of_a_watched_picture_below() {
    let text = seen(Settings { columns: 40, ..plain_settings() }, &[TO_ROLL]);
    let rows: Vec<&str> = text.lines().collect();
    assert_wanted(rows.iter().all(|row| row.len() <= 40), &text, "40 columns");
    assert_eq!(rows[0], "13-14-15-16-17-18-+---19-20-21-22-23-24-");
    let below = [
        "X eve, score 1, off 0, pips 167, dice -",
        "match to 3, cube 1, centred,",
        "O bob's turn",
        "O bob, score 0, off 0,",
        "pips 167 (even race), dice -",
        HINT.trim_end(),
    ];
    assert_eq!(rows[13..], below);
}

/// The user's own letters are those of the checkers, and stand before the names of the players, of the turn and of the
/// cube.
#[test]
fn a_watched_picture_has_the_letters_of_ones_own() {
    let board = TO_ROLL.replace(":1:1:1:0:1:", ":2:0:1:0:1:");
    let text = seen(Settings { letters: Some([b'@', b'o']), ..plain_settings() }, &[&board]);
    let rows: Vec<&str> = text.lines().collect();
    let beside = [&rows[0][47..], &rows[6][47..], &rows[7][47..], &rows[12][47..], &rows[1][..20]];
    assert_eq!(beside, ["o eve", "cube 2, o eve's", "@ bob's turn", "@ bob", " | @           o    "]);
}

/// The checkers and the dice of the one who is watched are bold, if the terminal has bold letters.
#[test]
fn what_is_of_the_watched_player_is_bold() {
    let bold = seen(colour_settings(), &[ROLLED]);
    let marks = (bold.matches("\x1b[1mO\x1b[0m").count(), bold.matches("\x1b[1m3\x1b[0m").count());
    assert_wanted(marks == (15, 1), &bold, "15 checkers and a die");
    assert!(!seen(plain_settings(), &[ROLLED]).contains('\x1b'));
}

/// Sixteen checkers of a side: the line is shown as the server sent it, and nothing else.
#[test]
fn a_watched_board_that_can_not_be_drawn_is_a_line() {
    let line = TO_ROLL.replace(":5:0:3:", ":6:0:3:");
    assert_eq!(seen(plain_settings(), &[&line]), format!("{line}\n"));
}

/// A board is asked for once, if the user has asked to watch a game and the server says that he does.
#[test]
fn a_board_of_a_watched_game_is_asked_for_once() {
    let steps = [Cue::Types(b"watch bob"), Cue::Hears(b"You're now watching bob.\r\n"), Cue::Rests, Cue::Rests];
    assert!(asks_board(&steps[..3]));
    assert!(!asks_board(&steps));
    assert!(!asks_board(&steps[1..3]));
    assert!(!asks_board(&[steps[0], Cue::Rests]));
}
