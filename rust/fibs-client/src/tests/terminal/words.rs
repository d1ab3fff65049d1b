//! Boards of both colours and directions, told in words, which were written by hand.

use super::lines::{SETTINGS, TO_MOVE, TO_ROLL, WELCOME};
use super::seats::{Cue, plain_settings, shown};
use crate::fibs_fields::boards::Board;
use crate::fibs_picture::in_words::{Told, append_told};
use crate::fibs_position::{GameBoard, Numbers};
use crate::fibs_wording::environment::Settings;

/// The first board, on which the cube was turned by a double that was accepted.
const TAKEN: &[u8] =
    b"board:You:bob:3:0:1:0:-2:0:0:0:0:5:0:3:0:0:0:-5:5:0:0:0:-3:0:-5:0:0:0:0:2:0:1:0:0:0:0:2:0:1:0:1:-1:0:25:0:0:0:0:2:0:0:0\r\n";

/// A board, and its rows.
struct Rows {
    name: &'static str,
    board: &'static [u8],
    rows: &'static str,
}

static TOLD: [Rows; 7] = [
    Rows {
        name: "O goes down, before his move",
        board: b"board:You:someplayer:3:0:1:0:-2:0:0:0:0:5:0:3:0:0:0:-5:5:0:0:0:-3:0:-5:0:0:0:0:2:0:1:6:2:0:0:1:1:1:0:1:-1:0:25:0:0:0:0:2:0:0:0",
        rows: "Your turn, to move.\n\
Your dice 6 and 2.\n\
Score 0 to 1, match to 3.\n\
Cube 1, in the middle.\n\
You go down, from 24 to 1.\n\
You, 167 pips: 2 on 24, 5 on 13, 3 on 8, 5 on 6, none off.\n\
someplayer, 167 pips: 2 on 1, 5 on 12, 3 on 17, 5 on 19, none off.\n\
Held against you: 19, 17, 12, 1.\n\
Blots: yours none; someplayer's none.\n",
    },
    Rows {
        name: "X goes up, and is offered a double; one on the opponent's bar",
        board: b"board:You:eve:9999:2:7:0:-2:0:0:0:0:6:0:3:0:0:0:-4:4:0:0:0:-3:0:-6:0:0:0:0:1:0:-1:0:0:0:0:4:0:1:1:-1:1:25:0:0:0:0:1:0:0:0:0",
        rows: "Your turn, and you are offered a double.\n\
No dice.\n\
Score 2 to 7, unlimited match.\n\
Cube 4, the opponent's.\n\
You go up, from 1 to 24.\n\
You, 160 pips: 2 on 1, 4 on 12, 3 on 17, 6 on 19, none off.\n\
eve, 161 pips: 1 on the bar, 1 on 24, 4 on 13, 3 on 8, 6 on 6, none off.\n\
Held against you: 6, 8, 13.\n\
Blots: yours none; eve's 24.\n",
    },
    Rows {
        name: "X goes down, and can't enter",
        board: b"board:You:someplayer:5:1:2:0:0:0:-5:0:0:-7:0:0:0:0:0:12:0:0:0:0:0:0:2:1:0:0:0:0:0:-1:6:6:0:0:2:1:0:0:-1:-1:0:25:2:0:1:0:0:0:0:0",
        rows: "Your turn, but you can't move.\n\
Your dice 6 and 6.\n\
Score 1 to 2, match to 5.\n\
Cube 2, yours.\n\
You go down, from 24 to 1.\n\
You, 82 pips: 1 on the bar, 7 on 6, 5 on 3, 2 off.\n\
someplayer, 173 pips: 12 on 12, 2 on 19, 1 on 20, none off.\n\
Held against you: 19, 12.\n\
Blots: yours none; someplayer's 20.\n",
    },
    Rows {
        name: "O goes up, and has won; the longest name and numbers, and fifteen on the opponent's bar",
        board: b"board:You:abcdefghijabcdefghijabcdefghijKLMNOPQRSTKLMNOPQRSTKLMNOPQRST:9998:99999999:99999999:0:0:0:0:0:0:0:0:0:0:0:0:0:0:0:0:0:0:0:0:0:0:0:0:0:0:0:0:0:0:0:1048576:0:1:0:1:1:25:0:15:0:0:15:0:0:0:0",
        rows: "Nobody's turn, the game is over.\n\
No dice.\n\
Score 99999999 to 99999999, match to 9998.\n\
Cube 1048576, the opponent's.\n\
You go up, from 1 to 24.\n\
You, 0 pips: 15 off.\n\
abcdefghijabcdefghijabcdefghij, 375 pips: 15 on the bar, none off.\n\
Held against you: none.\n\
Blots: yours none; abcdefghijabcdefghijabcdefghij's none.\n",
    },
    Rows {
        name: "the opponent has the turn and dice; a name that looks like a row",
        board: b"board:You:You,:3:0:1:0:-2:0:0:0:0:5:0:3:0:0:0:-5:5:0:0:0:-3:0:-5:0:0:0:0:2:0:-1:0:0:3:1:1:0:0:0:1:-1:0:25:0:0:0:0:2:0:0:0",
        rows: "The opponent's turn.\n\
The opponent's dice 3 and 1.\n\
Score 0 to 1, match to 3.\n\
Cube 1, no doubling.\n\
You go down, from 24 to 1.\n\
You, 167 pips: 2 on 24, 5 on 13, 3 on 8, 5 on 6, none off.\n\
You,, 167 pips: 2 on 1, 5 on 12, 3 on 17, 5 on 19, none off.\n\
Held against you: 19, 17, 12, 1.\n\
Blots: yours none; You,'s none.\n",
    },
    Rows {
        name: "dice of both, one of them alone",
        board: b"board:You:someplayer:3:0:1:0:-2:0:0:0:0:5:0:3:0:0:0:-5:5:0:0:0:-3:0:-5:0:0:0:0:2:0:1:6:0:5:4:1:1:1:0:1:-1:0:25:0:0:0:0:2:0:0:0",
        rows: "Your turn, to move.\n\
Your dice 6 and 0, the opponent's 5 and 4.\n\
Score 0 to 1, match to 3.\n\
Cube 1, in the middle.\n\
You go down, from 24 to 1.\n\
You, 167 pips: 2 on 24, 5 on 13, 3 on 8, 5 on 6, none off.\n\
someplayer, 167 pips: 2 on 1, 5 on 12, 3 on 17, 5 on 19, none off.\n\
Held against you: 19, 17, 12, 1.\n\
Blots: yours none; someplayer's none.\n",
    },
    Rows {
        name: "before the roll; all but one of the player's checkers are off",
        board: b"board:You:bob:5:0:4:0:0:0:1:0:0:0:0:0:0:0:0:0:0:0:0:0:0:0:-1:0:0:0:0:0:0:1:0:0:0:0:1:1:1:0:1:-1:0:25:14:14:0:0:1:0:0:0",
        rows: "Your turn, to roll.\n\
No dice.\n\
Score 0 to 4, match to 5.\n\
Cube 1, in the middle.\n\
You go down, from 24 to 1.\n\
You, 3 pips: 1 on 3, 14 off.\n\
bob, 6 pips: 1 on 19, 14 off.\n\
Held against you: none.\n\
Blots: yours 3; bob's 19.\n",
    },
];

/// A board of the user's game.
fn game(line: &[u8]) -> GameBoard {
    GameBoard::of(&Board::read(line).expect("it is a board")).expect("it has a position")
}

/// What is told of a board in so many columns, after another one if there is one.
fn words(before: Option<Told>, told: &Told, columns: usize) -> String {
    let mut said = Vec::new();
    append_told(&before, told, columns, &mut said).expect("there is memory");
    String::from_utf8(said).expect("it is ASCII")
}

#[test]
fn boards_are_told_in_words() {
    for row in &TOLD {
        let told = Told::Game(game(row.board), Numbers::TheServers);
        assert_eq!(words(None, &told, 200), row.rows, "{}", row.name);
    }
}

/// By his own numbers a player who goes up goes down: each place has 25 less the number of the server.
#[test]
fn boards_are_told_in_the_players_own_numbers() {
    let told = Told::Game(game(TOLD[1].board), Numbers::TheOwn);
    let rows = "Your turn, and you are offered a double.
No dice.
Score 2 to 7, unlimited match.
Cube 4, the opponent's.
You go down, from 24 to 1.
You, 160 pips: 2 on 24, 4 on 13, 3 on 8, 6 on 6, none off.
eve, 161 pips: 1 on the bar, 1 on 1, 4 on 12, 3 on 17, 6 on 19, none off.
Held against you: 19, 17, 12.
Blots: yours none; eve's 1.
";
    assert_eq!(words(None, &told, 200), rows);
}

/// Of each number of columns: a row is broken at spaces, fits or is one word, and what goes on begins with its space.
#[test]
fn rows_are_broken_at_spaces() {
    for row in &TOLD {
        let told = Told::Game(game(row.board), Numbers::TheServers);
        for columns in 0..=300 {
            let said = words(None, &told, columns);
            assert_eq!(said.replace("\n ", " "), row.rows, "{}, {columns} columns", row.name);
            let fits = |line: &str| line.len() <= columns || !line[1..].contains(' ');
            assert!(said.lines().all(fits), "{columns} columns: {said}");
        }
    }
    let narrow = "Your turn, to move.
Your dice 6 and 2.
Score 0 to 1, match to 3.
Cube 1, in the middle.
You go down, from 24 to 1.
You, 167 pips: 2 on 24, 5 on 13, 3 on 8,
 5 on 6, none off.
someplayer, 167 pips: 2 on 1, 5 on 12, 3
 on 17, 5 on 19, none off.
Held against you: 19, 17, 12, 1.
Blots: yours none; someplayer's none.
";
    assert_eq!(words(None, &Told::Game(game(TOLD[0].board), Numbers::TheServers), 40), narrow);
}

/// After another board the score, the cube, the way, the held places and the blots are told if they differ.
#[test]
fn what_is_as_it_was_is_left_out() {
    let told = |line: &[u8], numbers| Told::Game(game(line), numbers);
    let first = told(TOLD[0].board, Numbers::TheServers);
    let again = "Your turn, to move.
Your dice 6 and 2.
You, 167 pips: 2 on 24, 5 on 13, 3 on 8, 5 on 6, none off.
someplayer, 167 pips: 2 on 1, 5 on 12, 3 on 17, 5 on 19, none off.
";
    assert_eq!(words(Some(first), &first, 200), again);
    let own = told(TOLD[1].board, Numbers::TheOwn);
    for (row, after) in [
        ("Score 2 to 7, unlimited match.\n", TOLD[5].board),
        ("Cube 4, the opponent's.\n", TOLD[2].board),
        ("You go up, from 1 to 24.\n", TOLD[0].board),
        ("Held against you: 6, 8, 13.\n", TOLD[6].board),
        ("Blots: yours none; eve's 24.\n", TOLD[4].board),
    ] {
        let second = told(TOLD[1].board, Numbers::TheServers);
        assert!(words(Some(told(after, Numbers::TheServers)), &second, 200).contains(row), "{row}");
        assert!(!words(Some(second), &second, 200).contains(row), "{row}");
        // in other numbers than before: what tells no place is as it was
        let places = row.starts_with("You") || row.starts_with("Held") || row.starts_with("Blots");
        assert_eq!(words(Some(own), &second, 200).contains(row), places, "{row}");
    }
}

/// The rows of the first board that a terminal has, and those that `words short` leaves out of the same board.
const WHOLE: &str = "Your turn, to roll.
No dice.
Score 0 to 1, match to 3.
Cube 1, in the middle.
You go down, from 24 to 1.
You, 167 pips: 2 on 24, 5 on 13, 3 on 8, 5 on 6, none off.
bob, 167 pips: 2 on 1, 5 on 12, 3 on 17, 5 on 19, none off.
Held against you: 19, 17, 12, 1.
Blots: yours none; bob's none.
";

/// After bob has moved a checker from 12 to 15 by the user's numbers: the rows that have changed are told.
const BOB_MOVED: &[u8] = b"board:You:bob:3:0:1:0:-2:0:0:0:0:5:0:3:0:0:0:-4:5:0:-1:0:-3:0:-5:0:0:0:0:2:0:1:0:0:0:0:1:1:1:0:1:-1:0:25:0:0:0:0:2:0:0:0\r\n";

const NEW: &str = "Your turn, to roll.
No dice.
You, 167 pips: 2 on 24, 5 on 13, 3 on 8, 5 on 6, none off.
bob, 164 pips: 2 on 1, 4 on 12, 1 on 15, 3 on 17, 5 on 19, none off.
Blots: yours none; bob's 15.
";

/// What is new is told of a board that comes; all of one that is asked for, and of the first one of a connection and of
/// a game.
#[test]
fn what_is_new_of_a_board_is_told() {
    let short = Settings { words: true, is_short: true, ..plain_settings() };
    let start = [Cue::Hears(WELCOME), Cue::Hears(SETTINGS)];
    let told = |before: &[Cue<'_>], steps: &[Cue<'_>]| {
        let all = shown(short, &[&start[..], before].concat(), &[]);
        shown(short, &[&start[..], before, steps].concat(), &[])[all.len()..].to_string()
    };
    let board = Cue::Hears(TO_ROLL);
    let moved = Cue::Hears(BOB_MOVED);
    assert!(told(&[], &[board]).contains(WHOLE));
    assert!(told(&[board], &[moved]).starts_with(NEW), "{}", told(&[board], &[moved]));
    let has_all =
        |text: &str| text.contains("Score 0 to 1, match to 3.\nCube 1") && text.contains("Held against you: ");
    assert!(has_all(&told(&[board, moved], &[Cue::Types(b"words")])));
    assert!(has_all(&told(&[board, Cue::Types(b"board")], &[moved])));
    let game = Cue::Hears(b"Starting a new game with bob.\r\n");
    for between in [&[game][..], &[Cue::Loses, Cue::Opens, start[0], start[1]]] {
        assert!(has_all(&told(&[&[board][..], between].concat(), &[moved])), "{}", told(&[board], between));
    }
    let long = told(&[board, Cue::Types(b"words long")], &[moved]);
    assert!(has_all(&long), "{long}");
    let again = told(&[board, Cue::Types(b"words long"), Cue::Types(b"words short")], &[moved]);
    assert!(again.starts_with(NEW), "{again}");
    let rows = told(&[board], &[Cue::Types(b"words score"), Cue::Types(b"words cube"), Cue::Types(b"words x")]);
    let wanted = "Score 0 to 1, match to 3.\nCube 1, in the middle.\n\
                  words, words score, words cube, words short, or words long.\n";
    assert!(rows.starts_with(wanted), "{rows}");
}

/// Who hears of a board only what is new hears no hint that says the same again: only if he asks. With whole boards, and
/// with pictures, the hint comes. A board that is not told, since no checker has moved, is followed by it.
#[test]
fn a_hint_is_not_said_after_words_that_tell_the_same() {
    let short = Settings { words: true, is_short: true, ..plain_settings() };
    let long = Settings { words: true, ..plain_settings() };
    let pictures = Settings { is_short: true, ..plain_settings() };
    let start = [Cue::Hears(WELCOME), Cue::Hears(SETTINGS)];
    let rows = |settings: Settings<'static>, steps: &[Cue<'_>]| shown(settings, &start, steps);
    let hints = |text: &str| text.matches("Your turn: roll, or double.").count() + text.matches("as in: move").count();
    let board = [Cue::Hears(TO_ROLL), Cue::Rests];
    let rolled = [Cue::Types(b"r"), Cue::Hears(b"You roll 6 and 2.\r\n"), Cue::Hears(TO_MOVE), Cue::Rests];
    for (settings, wanted) in [(short, [0, 0]), (long, [1, 2]), (pictures, [1, 2])] {
        let texts = [rows(settings, &board), rows(settings, &[&board[..], &rolled].concat())];
        assert_eq!(texts.each_ref().map(|text| hints(text)), wanted, "{texts:?}");
    }
    let asked = rows(short, &[&board[..], &[Cue::Types(b"help"), Cue::Rests]].concat());
    assert!(asked.ends_with("\nYour turn: roll, or double.\n"), "{asked}");
    let asked = rows(short, &[&board[..], &rolled, &[Cue::Types(b"move 24-23"), Cue::Rests]].concat());
    assert!(asked.ends_with("\nYour move, as in: move 24-22 24-18\n"), "{asked}");
    let accepted = [
        Cue::Types(b"double"),
        Cue::Hears(b"bob accepts the double. The cube shows 2.\r\n"),
        Cue::Hears(TAKEN),
        Cue::Rests,
    ];
    let taken = rows(short, &[&board[..], &accepted].concat());
    assert!(taken.ends_with("\nYour turn: roll.\n"), "{taken}");
}
