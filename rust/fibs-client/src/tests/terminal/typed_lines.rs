//! What comes while a user types, if the server speaks.

use super::seats::assert_of;
use crate::fibs_connect::typed_line::TypedLine;
use crate::fibs_connect::typed_lines::{Next, TypedLines};
use crate::fibs_connect::watch::{First, Unwatched, Watch};
use crate::fibs_test_tools::pipe::{After, Pipe};
use arrayvec::ArrayVec;

/// When the server comes first.
#[derive(Clone, Copy)]
enum Server {
    /// The next times that the watch is asked, so many.
    Next(u32),
    /// Each second time, from the next on if it is `true`.
    InTurn(bool),
}

impl Watch for Server {
    fn first(&mut self) -> First {
        let (is_heard, then) = match *self {
            Server::Next(times) => (times > 0, Server::Next(times.saturating_sub(1))),
            Server::InTurn(next) => (next, Server::InTurn(!next)),
        };
        *self = then;
        if is_heard { First::Heard } else { First::Typed }
    }
}

/// What comes of a text, in reads of at most three bytes: `/` and each line, and `*` if the server speaks.
fn come(text: &[u8], watch: &mut impl Watch) -> ArrayVec<u8, 90> {
    let mut reader = Pipe::new(text, 3, After::End, 0);
    let mut lines = TypedLines::new(90);
    let mut line = TypedLine::new();
    let mut come = ArrayVec::new();
    for _ in 0..30 {
        let _fits = match lines.next(&mut reader, watch, &mut line) {
            Ok(Next::Heard) => come.try_extend_from_slice(b"*"),
            Ok(Next::Typed) => {
                let _fits = come.try_extend_from_slice(b"/");
                come.try_extend_from_slice(line.as_slice())
            }
            Ok(Next::Ended) | Err(_) => break,
        };
    }
    come
}

/// What is typed, when the server speaks, and what comes: the server is heard each time that it speaks, but not within
/// a line, and not while more of what was read waits.
static ROWS: [(&[u8], Server, &[u8]); 5] = [
    (b"roll\nmove", Server::Next(2), b"**/roll/move"),
    (b"roll\nmove\n", Server::InTurn(false), b"/roll/move*"),
    (b"\nroll\n\n", Server::Next(0), b"//roll/"),
    (b"a\nb\nc\n", Server::InTurn(true), b"*/a/b/c*"),
    (b"", Server::Next(1), b"*"),
];

#[test]
fn the_server_is_heard_between_two_lines() {
    for (text, server, wanted) in &ROWS {
        let mut server = *server;
        let is_right = come(text, &mut server).as_slice() == *wanted;
        assert_of(is_right, text);
    }
}

/// Without a watch a text is read as it is.
#[test]
fn without_a_watch_nothing_is_heard() {
    let all = come(b"\nroll\n", &mut Unwatched);
    assert!(all.as_slice() == b"//roll".as_slice());
}
