//! The boards of `boards.txt`: what is seen, may be decided and is carried out on each; and what else a position answers.

use crate::fibs_fields::boards::Board;
use crate::fibs_position::{
    Decision, Direction, GameBoard, Position, WatchedBoard, differs, effect, is_good, phase_of,
};
use crate::tests::boards::{AS_SENT, PASSING, TABLE, TO_ANSWER, TO_MOVE, TO_ROLL};
use crate::tests::table::{After, Checkers, Row, rows};

/// How many checkers are on a place.
fn count(checkers: &Checkers, wanted: u8) -> u8 {
    checkers.iter().find(|pair| pair.0 == wanted).map_or(0, |pair| pair.1)
}

/// What is seen on a board is what its row has.
fn assert_seen(row: &Row, position: &Position) {
    let name = row.name;
    assert_eq!(position.phase().name(), row.phase, "{name}: the phase");
    assert_eq!(position.direction() == Direction::Up, row.direction == "up", "{name}: the direction");
    for place in 0..26 {
        assert_eq!(position.own(place), count(&row.own, place), "{name}: the player's checkers on {place}");
    }
    for place in 1..25 {
        assert_eq!(position.other(place), count(&row.other, place), "{name}: the opponent's checkers on {place}");
    }
    let off = [position.other_bar(), position.other_off()];
    assert_eq!(off, [0, 25].map(|place| count(&row.other, place)), "{name}: the opponent's bar, and what is off");
}

/// What may be played and decided on a board is what its row has.
fn assert_allowed(row: &Row, position: &Position) {
    let (name, plays) = (row.name, position.plays().expect("memory is ample"));
    if let Some((most, wanted)) = &row.plays {
        assert!(position.most_dice() == *most && plays == *wanted, "{name}: the dice and the plays");
    }
    assert!(row.count.is_none_or(|count| plays.len() == count), "{name}: {} plays", plays.len());
    for (decision, why) in &row.answers {
        assert_eq!(position.allows(decision).err().map(|why| why.name()), *why, "{name}: {decision:?}");
    }
}

/// The numbers of a board with these changes.
fn changed(board: &Board, changes: &[(usize, i32)]) -> Board {
    changes.iter().fold(*board, |board, change| board.with(change.0, change.1).expect("the field may be so"))
}

/// A board is changed by decisions as its row has it.
fn assert_carried_out(row: &Row, board: &Board, rows: &[Row]) {
    for (decision, dice, after) in &row.effects {
        let wanted = match after {
            After::Nothing => None,
            After::Changed(changes) => Some(changed(board, changes)),
            After::Named(name) => {
                let found = rows.iter().find(|row| row.name.split(": ").next() == Some(name));
                Some(Board::read(found.expect(name).board.as_bytes()).expect(name))
            }
        };
        assert!(effect(board, decision, *dice) == wanted, "{}: after {decision:?}", row.name);
    }
}

#[test]
fn boards_are_as_worked_out() {
    let rows = rows(TABLE).unwrap();
    assert!(rows.len() > 80, "{}", rows.len());
    for row in &rows {
        let board = Board::read(row.board.as_bytes()).expect(row.name);
        assert_eq!(is_good(&board), row.fault.is_none(), "{}: whether it has a position", row.name);
        let phase = row.fault.is_none().then_some(row.phase);
        assert_eq!(phase_of(&board).map(|phase| phase.name()), phase, "{}: its phase", row.name);
        match Position::of(&board) {
            Ok(position) => {
                assert_seen(row, &position);
                assert_allowed(row, &position);
            }
            Err(fault) => {
                assert_eq!(row.fault, Some(fault.name()), "{}", row.name);
                assert!(effect(&board, &Decision::Roll, [1, 1]).is_none(), "{}", row.name);
            }
        }
        assert_carried_out(row, &board, &rows);
    }
}

/// Tables that are wrong, and the line that is named.
static WRONG: [(&str, &str); 6] = [
    ("board:You", "boards.txt:1: "),
    ("= a board\nboard:You\n\nroll 6 2 -> 34:6", "boards.txt:4: "),
    ("= a board\nboard:You\nOver up: 6:15 against\nOver up: 6:15 against", "boards.txt:4: "),
    ("= a board\nboard:You\nno position: NotYou\nallowed: roll, sing", "boards.txt:4: "),
    ("= a board\nboard:You\nno position: NotYou\n= the same\nboard:You", "boards.txt:5: "),
    ("= a board\nboard:You\nallowed: roll", "boards.txt: nothing is seen on the board `a board`"),
];

#[test]
fn the_line_of_a_table_that_is_wrong_is_named() {
    for (text, why) in &WRONG {
        assert!(rows(text).is_err_and(|found| found.starts_with(why)), "{text}");
    }
}

/// Whether the board of a line is one that is watched.
fn is_watched(line: &[u8]) -> Option<bool> {
    Some(WatchedBoard::of(&Board::read(line).ok()?).is_some())
}

#[test]
fn the_users_own_game_is_not_watched() {
    for line in [AS_SENT, TO_ROLL, TO_MOVE, TO_ANSWER, PASSING] {
        let others = [b"board:carl", &line[b"board:You".len()..]].concat();
        assert_eq!((is_watched(line), is_watched(&others)), (Some(false), Some(true)), "{line:?}");
    }
}

/// A client sees no board of another player, so no caller in C does.
#[test]
fn boards_do_not_differ_in_the_player() {
    let first = Board::read(TO_ROLL).expect("it is a board");
    let player = [b"board:Yet", &TO_ROLL[b"board:You".len()..]].concat();
    assert!(!differs(&first, &Board::read(&player).expect("it is a board")));
}

/// The next board of a game takes the place of the one before it, also if they differ in nothing that the game is.
#[test]
fn a_game_has_the_board_that_came_last() {
    let board = Board::read(TO_ROLL).expect("the line is read");
    let mut game = GameBoard::of(&board).expect("it has a position");
    for (field, number, differs) in [(50, 3, false), (50, 4, false), (33, -board.field(33), true)] {
        let next = board.with(field, number).expect("it may have that number");
        assert_eq!(game.follow(&next), Some(differs), "field {field} is {number}");
        assert_eq!(game.board(), &next, "field {field} is {number}");
    }
}
