//! What of boards, names and numbers the library for C does not show. Worked lines are read in tests/rows.

use crate::fibs_fields::boards::Board;
use crate::fibs_fields::name::name_run;
use crate::fibs_messages::laws::{print_reads_back, prints_tell_boards};
use crate::fibs_messages::{Fault, FieldFault, Name, read_decimal, split};
use crate::rattle::may::*;
use crate::tests::boards::{AS_SENT, line_with};

/// Fields, and numbers that a board can't have there.
static REFUSED: [(usize, i32); 8] = [(3, 0), (54, 0), (0, 0), (42, 0), (44, 24), (7, 16), (7, -16), (38, 0)];

fn board() -> Board {
    Board::read(AS_SENT).expect("the line is read")
}

/// Whether a board with its turn changed is printed so, whether the two are told apart by their lines, and by
/// themselves, and whether the line of the first is its own, and is read back.
fn told_apart(board: &Board, turned: &Board) -> [bool; 5] {
    [
        turned.print().as_slice() == line_with(33, b"-1").as_slice(),
        !prints_tell_boards(board, turned),
        board != turned,
        prints_tell_boards(board, board),
        print_reads_back(board) == Ok(*board),
    ]
}

#[test]
fn changes_one_field() {
    let board = board();
    let turned = board.with(33, -1).expect("the turn changes");
    let are_told_apart = told_apart(&board, &turned) == [true; 5];
    assert!(are_told_apart);
}

/// Whether a board can't have this number in a field.
fn is_refused(board: &Board, field: usize, number: i32) -> bool {
    board.with(field, number).is_none()
}

#[test]
fn changes_no_field_to_what_it_can_not_be() {
    let board = board();
    for (field, number) in &REFUSED {
        assert!(is_refused(&board, *field, *number), "field {field}, {number}");
    }
}

/// Lines that are no board, and what is wrong with them.
static ABSENT: [(&str, usize, Fault); 4] = [
    ("", 1, Fault::BadName),
    ("boards:a", 1, Fault::BadName),
    ("board", 2, Fault::Missing),
    ("board  ", 2, Fault::Missing),
];

/// Whether a line is no board, since this is wrong with it.
fn is_no_board(line: &str, wrong: FieldFault) -> bool {
    match Board::read(line.as_bytes()) {
        Ok(_) => false,
        Err(found) => found == wrong,
    }
}

#[test]
fn names_what_is_absent_or_surplus() {
    for (line, field, fault) in &ABSENT {
        let wrong = FieldFault { field: *field, fault: *fault };
        assert!(is_no_board(line, wrong), "{line:?}");
    }
}

/// How many bytes a name has, and whether it is a dash, if the text is a name.
fn name_of(text: &[u8]) -> Option<(usize, bool)> {
    let name = Name::new(text)?;
    Some((name.bytes().len(), name.is_dash()))
}

/// Texts, and what is known of each if it is a name.
static NAMES: [(&[u8], Option<(usize, bool)>); 7] = [
    (b"-", Some((1, true))),
    (b"--", Some((2, false))),
    (&[b'a'; 64], Some((64, false))),
    (b"", None),
    (&[b'a'; 65], None),
    (b"a:b", None),
    (b"a b", None),
];

#[test]
fn names_have_1_to_64_bytes() {
    for (text, name) in &NAMES {
        assert!(name_of(text) == *name, "{text:?}");
    }
}

/// Texts, the limit up to which each is read, and the number.
static DECIMALS: [(&str, u64, Option<u64>); 4] = [
    ("0", 0, Some(0)),
    ("1", 0, None),
    ("18446744073709551615", u64::MAX, Some(u64::MAX)),
    ("18446744073709551616", u64::MAX, None),
];

/// Whether a text is read as this number, or as none above the limit.
fn is_decimal(text: &str, limit: u64, number: Option<u64>) -> bool {
    read_decimal(text.as_bytes(), limit) == number
}

#[test]
fn a_decimal_up_to_a_limit_is_read() {
    for (text, limit, number) in &DECIMALS {
        assert!(is_decimal(text, *limit, *number), "{text}");
    }
}

/// Whether the line of a board, or nothing, is appended.
fn is_appended(board: &Board, out: &mut Vec<u8>) -> bool {
    let before = out.len();
    let wanted = match board.print_into(out) {
        Ok(()) => AS_SENT,
        Err(_) => b"",
    };
    out.get(before..) == Some(wanted)
}

#[test]
fn appends_a_line_of_a_board_or_nothing() {
    let mut out = Vec::may_from_slice(b">").expect("memory is ample");
    let is_right = is_appended(&board(), &mut out);
    assert!(is_right);
}

/// Texts, and their parts before and after the first space.
static SPLIT: [(&str, &[u8], Option<&[u8]>); 6] = [
    ("move 24-18", b"move", Some(b"24-18")),
    ("a b c", b"a", Some(b"b c")),
    ("ab ", b"ab", Some(b"")),
    (" x", b"", Some(b"x")),
    ("roll", b"roll", None),
    ("", b"", None),
];

/// Whether these are the parts of a text before and after its first space.
fn are_parts(text: &str, front: &[u8], rest: Option<&[u8]>) -> bool {
    let (before, after) = split(text.as_bytes(), b' ');
    before == front && after == rest
}

#[test]
fn splits_at_the_first_byte() {
    for (text, front, rest) in &SPLIT {
        assert!(are_parts(text, front, *rest), "at the space of {text:?}");
    }
}

/// Faults with their names and numbers.
static FAULTS: [(Fault, &str, u8); 5] = [
    (Fault::Missing, "Missing", 1),
    (Fault::Extra, "Extra", 2),
    (Fault::NotANumber, "NotANumber", 3),
    (Fault::OutOfRange, "OutOfRange", 4),
    (Fault::BadName, "BadName", 5),
];

#[test]
fn faults_have_names_and_numbers() {
    for (fault, name, number) in &FAULTS {
        let is_told = fault.name() == *name && fault.number() == *number;
        assert!(is_told, "{name}");
    }
}

/// How many bytes at the front of a text may be in a name: those that are a name by themselves.
#[test]
fn a_name_ends_before_a_byte_that_no_name_has() {
    for byte in 0..=255 {
        let text = [b'a', byte, b'b', b' ', b'c'];
        let len = if Name::new(&[byte]).is_some() { 3 } else { 1 };
        assert_eq!(name_run(&text), len, "{byte}");
    }
}
