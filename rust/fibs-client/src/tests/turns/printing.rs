//! How the lines of a turn are printed.
use super::connected::{Kind, TestSeat, assert_at, assert_typed, repeated};
use crate::fibs_test_tools::pipe::{After, QUIET};
use crate::fibs_test_tools::text::joined;
use crate::rattle::io;
use crate::rattle::io::Write;

/// What the server sends until the client is ready.
static READY: &[u8] = b"1 ann 1041253132 localhost\r\n\
    2 ann 1 1 0 0 0 0 1 1 10 0 1 0 1 1500.00 0 0 0 0 0 UTC\r\n\
    board:You:bob:3:0:1:0:-2:0:0:0:0:5:0:3:0:0:0:-5:5:0:0:0:-3:0:-5:0:0:0:0:2:0\
    :1:0:0:0:0:1:1:1:0:1:-1:0:25:0:0:0:0:0:0:0:0\r\n";

/// Lines of each kind. The last confirms `roll`.
const LINES: &[u8] = b"1 ann 1041253132 localhost\r\n\
    a\x1b\\\r\n\
    3 x\r\n\
    board:You:bob:3:0:1:0:-2:0:0:0:0:5:0:3:0:0:0:-5:5:0:0:0:-3:0:-5:0:0:0:0:2:0\
    :1:6:2:0:0:1:1:1:0:1:-1:0:25:0:0:0:0:0:0:0:0\r\n";

/// A writer that counts its writes and their bytes.
struct Counts {
    writes: usize,
    bytes: usize,
}

impl Write for Counts {
    fn write(&mut self, buf: &[u8]) -> io::Result<usize> {
        self.writes = self.writes.saturating_add(1);
        self.bytes = self.bytes.saturating_add(buf.len());
        Ok(buf.len())
    }

    fn flush(&mut self) -> io::Result<()> {
        Ok(())
    }
}

/// How a turn of a ready client ends, with a line that is typed, and what the server sends.
fn turn_when_ready(out: &mut Counts, typed: Option<&[u8]>, input: &[u8], after: After) -> Kind {
    let mut seat = TestSeat::open(1000);
    seat.hear(&[READY]);
    seat.print_on(out, typed, input, after)
}

/// Whether a ready client prints all in such a turn, by so many writes, and so many bytes.
fn prints_by(typed: Option<&[u8]>, input: &[u8], after: After, (writes, bytes): (usize, usize)) -> bool {
    let mut out = Counts { writes: 0, bytes: 0 };
    let kind = turn_when_ready(&mut out, typed, input, after);
    kind != Kind::Unprinted && out.writes == writes && out.bytes == bytes
}

/// What is typed, what the server sends, and what is printed.
static PRINTED: [(Option<&[u8]>, &[u8], After, &[u8]); 6] = [
    (
        Some(b"roll"),
        LINES,
        After::End,
        b"sent roll\nmessage 1 ann 1041253132 localhost\ntext a\\x1b\\x5c\nmalformed 3 1 Extra\n\
        board:You:bob:3:0:1:0:-2:0:0:0:0:5:0:3:0:0:0:-5:5:0:0:0:-3:0:-5:0:0:0:0:2:0\
        :1:6:2:0:0:1:1:1:0:1:-1:0:25:0:0:0:0:0:0:0:0\nphase Move\nconfirmed roll\nlost\n",
    ),
    (Some(b"roll"), b"", After::End, b"sent roll\nlost roll\n"),
    (Some(b"dance"), b"", QUIET, b"unknown\n"),
    (Some(b"accept"), b"", QUIET, b"refused 8 WrongKind\n"),
    (Some(b"say "), b"", QUIET, b"fault 2 BadText\n"),
    (None, b"", QUIET, b""),
];

fn lines_in(text: &[u8]) -> usize {
    text.iter().filter(|byte| **byte == b'\n').count()
}

/// Each line leaves with its line end by one write.
#[test]
fn a_printed_line_is_one_write() {
    for (typed, input, after, printed) in &PRINTED {
        let wanted = (lines_in(printed), printed.len());
        let is_right = prints_by(*typed, input, *after, wanted);
        assert_typed(is_right, *typed);
    }
}

/// Asserts that a line of the server's is printed by one write of so many bytes: this front, and so many bytes that are
/// escaped.
fn assert_one_write(front: &[u8], length: usize, bytes: usize) {
    let line = joined(&[front, &repeated(b"\x01", length), b"\r\n"]);
    let is_one = prints_by(None, &line, QUIET, (1, bytes));
    assert_at(is_one, "", bytes, " bytes");
}

/// There is room for a line of any length, each of whose bytes is escaped.
#[test]
fn a_line_of_any_length_is_one_write() {
    for length in [0usize, 511, 512, 513, 600, 1000, 2000, 2057, 2058, 4096] {
        assert_one_write(b"", length, length.saturating_mul(4).saturating_add(6));
    }
}

/// There is room for the longest line, each of whose bytes is escaped: one that is kept whole, one that is cut, and a
/// message.
#[test]
fn the_longest_line_is_one_write() {
    assert_one_write(b"", 16384, 5 + 4 * 16384 + 1);
    assert_one_write(b"", 16385, 4 + 4 * 16384 + 1);
    assert_one_write(b"13 eve ", 16377, 8 + 7 + 4 * 16377 + 1);
}
