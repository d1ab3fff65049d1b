//! What is printed is shown before a turn waits for the server.

use super::connected::{Kind, assert_at, first_turn_on};
use crate::rattle::io;
use crate::rattle::io::{ErrorKind, Write};

/// Lines of the server, which are read in some portions.
static LINES: &[u8] = b"1 ann 1041253132 localhost\r\nhello\r\n12 bob hi\r\n13 bob hi\r\nwelcome\r\n";

/// A writer of which one flush fails after so many. It takes all bytes.
struct Screen {
    before: usize,
    failed: bool,
    written: bool,
}

impl Write for Screen {
    fn write(&mut self, buf: &[u8]) -> io::Result<usize> {
        self.written = self.written || self.failed;
        Ok(buf.len())
    }

    fn flush(&mut self) -> io::Result<()> {
        if self.before == 0 && !self.failed {
            self.failed = true;
            return Err(io::Error::from(ErrorKind::BrokenPipe));
        }
        self.before = self.before.saturating_sub(1);
        Ok(())
    }
}

/// Whether one flush fails after so many. That flush stops the turn, and nothing is printed after it.
fn is_stopped(before: usize) -> bool {
    let mut screen = Screen { before, failed: false, written: false };
    let kind = first_turn_on(&mut screen, 10, None, LINES);
    let wanted = if screen.failed { Kind::Unprinted } else { Kind::Quiet };
    let is_right = kind == wanted && !screen.written;
    assert_at(is_right, "after ", before, " flushes");
    screen.failed
}

/// A flush that fails stops the turn, whichever it is.
#[test]
fn each_flush_that_fails_stops_the_turn() {
    let mut stopped = 0u32;
    for before in 0..100 {
        if is_stopped(before) {
            stopped = stopped.saturating_add(1);
        }
    }
    assert!(5 < stopped && stopped < 100, "{stopped} flushes");
}
