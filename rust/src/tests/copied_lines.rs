//! Lines that are copied as they stand, and those that are not: messages, and boards.

use crate::fibs_fields::boards::Board;
use crate::fibs_show::copied_lines::canonical_line;
use crate::fibs_show::copied_lines::check::check_board;
use crate::tests::boards::{AS_SENT, FIELDS, line_with};
use crate::tests::messages::printed;

/// Whether a line is copied as this text, or is not copied.
fn is_copied_as(line: &[u8], canonical: Option<&[u8]>) -> bool {
    match (canonical_line(line), canonical) {
        (Some(copied), Some(wanted)) => copied == wanted,
        (None, None) => true,
        _ => false,
    }
}

#[test]
fn lines_of_the_specification_are_copied() {
    for (line, _) in &printed()[..19] {
        assert!(is_copied_as(line, Some(line)), "{line:?}");
    }
}

/// Lines that are messages, and what is copied of them, if anything.
static COPIED: [(&[u8], Option<&[u8]>); 14] = [
    (b"6  ", Some(b"6")),
    (b"1 bob 5 host  ", Some(b"1 bob 5 host")),
    (b"12 bob  x ", Some(b"12 bob  x ")),
    (b"9 bob 0 x", Some(b"9 bob 0 x")),
    (b"5 a - - 1 0 0.07 9999999999999999999 0 0 h - b ", Some(b"5 a - - 1 0 0.07 9999999999999999999 0 0 h - b")),
    (b"5 a - - 1 0 1500.5 0 3 0 h - b", None),
    (b"5 a - - 1 0 1500 0 3 0 h - b", None),
    (b"5 a - - 1 0 01.50 0 3 0 h - b", None),
    (b"5 a - - 1 0 1.505 0 3 0 h - b", None),
    (b"5 a - - 1 0 1.50 0 03 0 h - b", None),
    (b"5 a - - 1  0 1.50 0 3 0 h - b", None),
    (b"12 bob ", None),
    (b"17 ", None),
    (b"20 x", None),
];

#[test]
fn other_spellings_are_not_copied() {
    for (line, canonical) in &COPIED {
        assert!(is_copied_as(line, *canonical), "{line:?}");
    }
}

/// Whether the line with this end says a board, and is the real line but for spaces at its end.
fn is_copied_with(end: &[u8]) -> bool {
    match check_board(line_with(FIELDS, end).as_slice()) {
        Ok(copied) => copied == AS_SENT,
        Err(_) => false,
    }
}

/// Whether the line with this text in a field says no board, whoever reads it, since this field is wrong.
fn is_wrong_with(field: usize, text: &[u8]) -> bool {
    let line = line_with(field, text);
    match (check_board(line.as_slice()), Board::read(line.as_slice())) {
        (Err(wrong), Err(found)) => wrong == found && wrong.field == field,
        _ => false,
    }
}

/// Texts for the last field, and whether the line is copied then.
static ENDS: [(&[u8], bool); 3] = [(b"0", true), (b"0   ", true), (b"1", false)];

/// Fields, and texts that are wrong there.
static WRONG: [(usize, &[u8]); 4] = [(1, b"boar"), (2, b""), (7, b"-0"), (52, b"0 ")];

#[test]
fn a_line_is_copied_without_its_spaces() {
    for (end, copied) in &ENDS {
        assert!(is_copied_with(end) == *copied, "{end:?} at its end");
    }
    for (field, text) in &WRONG {
        assert!(is_wrong_with(*field, text), "{field}");
    }
}
