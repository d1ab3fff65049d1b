//! The first line of what holds a password.

use super::seats::assert_of;
use crate::fibs_connect::waiting::first_line;

/// What is read, its first line, and what is left of it.
static ROWS: [(&[u8], &[u8], &[u8]); 5] = [
    (b"", b"\n", b""),
    (b"secret", b"secret\n", b""),
    (b"secret\n", b"secret\n", b""),
    (b"secret\r\nroll\n", b"secret\r\n", b"roll\n"),
    (b"\nroll", b"\n", b"roll"),
];

/// Asserts what is taken of a text, and what is left of it.
fn assert_taken(text: &[u8], line: &[u8], rest: &[u8]) {
    let mut source = text;
    let given = first_line(&mut source).expect("it is read");
    let is_taken = given.as_slice() == line && source == rest;
    assert_of(is_taken, text);
}

#[test]
fn the_first_line_is_taken_and_no_more() {
    for (text, line, rest) in &ROWS {
        assert_taken(text, line, rest);
    }
}
