//! Bytes on the wires, by hand.

use crate::fibs_model::wire::{Wire, is_board_text, line_ends, whole_line};
use crate::rattle::alloc::AllocError;
use crate::rattle::may::*;
use crate::tests::boards::*;

/// Bytes, and how long their first line is, if it is whole.
static WHOLE: [(&[u8], Option<usize>); 9] = [
    (b"", None),
    (b"\r\n", Some(0)),
    (b"board\r\nroll\r\n", Some(5)),
    (b"mov", None),
    (b"roll\r", None),
    (b"roll\nboard\n", None),
    (b"a\rb\r\n", Some(3)),
    (b"a\r\r\n", Some(2)),
    (b"\n\r\n", Some(1)),
];

#[test]
fn whole_lines_end_at_the_first_cr_lf() {
    for (bytes, len) in &WHOLE {
        assert!(whole_line(bytes) == *len, "{bytes:?}");
    }
}

/// Bytes, and how many line ends they have.
static ENDS: [(&[u8], usize); 4] =
    [(b"", 0), (b"roll", 0), (b"a\r\nb\r\n\xff\n", 3), (b"\n\n\n\n\n\n\n\n\n\n\n\n\n\n\n\n\n", 17)];

#[test]
fn line_ends_are_counted() {
    for (bytes, ends) in &ENDS {
        assert!(line_ends(bytes) == *ends, "{bytes:?}");
    }
}

#[test]
fn texts_are_put_with_cr_lf() {
    let mut wire = Wire::with_room(8).expect("memory is ample");
    wire.put(b"roll");
    wire.put(b"");
    assert!(wire.bytes() == b"roll\r\n\r\n".as_slice());
}

/// A text that is put on a wire, how many bytes are taken then, and what is left.
static TAKEN: [(Option<&[u8]>, usize, &[u8]); 10] = [
    (Some(b"move"), 0, b"move\r\n"),
    (None, 1, b"ove\r\n"),
    (None, 1, b"ve\r\n"),
    (None, 1, b"e\r\n"),
    (None, 1, b"\r\n"),
    (None, 1, b"\n"),
    (None, 1, b""),
    (Some(b"board"), 1, b"oard\r\n"),
    (Some(b"roll"), 0, b"oard\r\nroll\r\n"),
    (None, 7, b"oll\r\n"),
];

/// Takes bytes from a wire, if it has so many. Whether it has.
fn is_taken(wire: &mut Wire, count: usize) -> bool {
    let has = count <= wire.bytes().len();
    if has {
        wire.take(count);
    }
    has
}

/// Puts a text on a wire. Whether there is room for it.
fn is_put(wire: &mut Wire, text: &[u8]) -> bool {
    let has_room = wire.may_reserve(text.len() + 2).is_ok();
    if has_room {
        wire.put(text);
    }
    has_room
}

#[test]
fn bytes_that_were_taken_are_on_a_wire_no_longer() {
    let mut wire = Wire::new();
    for (text, count, left) in &TAKEN {
        let has_room = match text {
            Some(text) => is_put(&mut wire, text),
            None => true,
        };
        let is_left = is_taken(&mut wire, *count) && wire.bytes() == *left;
        assert!(has_room && is_left, "{left:?}");
    }
}

#[test]
fn the_next_bytes_are_those_that_a_wire_has() {
    let mut wire = Wire::with_room(6).expect("memory is ample");
    wire.put(b"move");
    let is_next = wire.next(3) == b"mov".as_slice() && wire.next(7) == b"move\r\n".as_slice();
    assert!(is_next);
}

/// How many bytes are taken, how many a cut keeps then, and what is left.
static CUT: [(usize, usize, &[u8]); 3] = [(1, 9, b"oll\r\n"), (1, 2, b"ll"), (0, 0, b"")];

/// Takes bytes from a wire, and cuts it. Whether this is left.
fn is_cut(wire: &mut Wire, count: usize, kept: usize, left: &[u8]) -> bool {
    let has = is_taken(wire, count);
    wire.cut(kept);
    has && wire.bytes() == left
}

#[test]
fn a_cut_leaves_the_first_bytes_on_their_way() {
    let mut wire = Wire::with_room(6).expect("memory is ample");
    wire.put(b"roll");
    for (count, kept, left) in &CUT {
        assert!(is_cut(&mut wire, *count, *kept, left), "{left:?}");
    }
}

/// Appends a part so many times.
fn append_times(text: &mut Vec<u8>, (times, part): (u32, &[u8])) -> Result<(), AllocError> {
    for _ in 0..times {
        text.may_extend_from_slice(part)?;
    }
    Ok(())
}

/// Appends the text of a good board with a part so many times before it, and another at its end.
fn append_framed(text: &mut Vec<u8>, row: &Framed) -> Result<(), AllocError> {
    append_times(text, row.1)?;
    text.may_extend_from_slice(TO_ROLL)?;
    append_times(text, row.2)
}

/// Texts, and whether each is that of a board, or of more than one line.
static TEXTS: [(&str, &[u8], bool); 11] = [
    ("a good board", TO_ROLL, true),
    ("a board of others", OF_OTHERS, false),
    ("a board of 16 checkers", TOO_MANY, false),
    ("half a board", b"board:You:bob:3", false),
    ("a message", b"1 ann 1041253132 localhost", false),
    ("nothing", b"", false),
    ("an empty line", b"\n", true),
    ("two lines", b"a\nb", true),
    ("a return within", b"a\rb", false),
    ("a line end that a command takes", b"\xff\n", false),
    ("a line end that an option takes", b"\xff\xfb\n", false),
];

#[test]
fn texts_that_are_one_line_and_no_good_board_are_none() {
    for (name, text, is) in &TEXTS {
        assert!(is_board_text(text) == *is, "{name}");
    }
}

/// No part.
const NOTHING: (u32, &[u8]) = (0, b"");

/// What is before the text of a good board, what is at its end, and whether that is a board.
type Framed = (&'static str, (u32, &'static [u8]), (u32, &'static [u8]), bool);

static FRAMED: [Framed; 16] = [
    ("spaces at its end", NOTHING, (1, b"  "), true),
    ("a return more at its end", NOTHING, (1, b"\r"), false),
    ("a line more at its end", NOTHING, (1, b"\n"), true),
    ("half a command at its end, which takes the return", NOTHING, (1, b"\xff"), true),
    ("half an option at its end, which takes the return", NOTHING, (1, b"\xff\xfd"), true),
    ("the byte 255 at its end", NOTHING, (1, b"\xff\xff"), false),
    ("a field more at its end", NOTHING, (1, b":0"), false),
    ("4096 spaces at its end", NOTHING, (4096, b" "), true),
    ("16265 spaces at its end", NOTHING, (16265, b" "), true),
    ("16266 spaces at its end", NOTHING, (16266, b" "), false),
    ("16384 spaces at its end", NOTHING, (16384, b" "), false),
    ("after a prompt", (1, b"> "), NOTHING, true),
    ("after prompts of both kinds", (3, b"login: > "), NOTHING, true),
    ("after a command", (2, b"\xff\xf1"), NOTHING, true),
    ("after prompts up to the limit", (8132, b"> "), NOTHING, true),
    ("after prompts beyond the limit", (8133, b"> "), NOTHING, false),
];

/// Whether the client reads such a text as a board.
fn is_seen(row: &Framed) -> Result<bool, AllocError> {
    let mut text = Vec::new();
    append_framed(&mut text, row)?;
    Ok(is_board_text(text.as_slice()))
}

#[test]
fn boards_are_seen_as_the_client_reads_them() {
    for row in &FRAMED {
        let is_seen = is_seen(row) == Ok(row.3);
        assert!(is_seen, "{}", row.0);
    }
}
