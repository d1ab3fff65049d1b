//! What a terminal was told is shown before it waits.

use super::seats::{Stopped, plain_settings};
use crate::fibs_connect::front::Front;
use crate::fibs_connect::words::Words;
use crate::fibs_session::{Client, Directory, Login};
use crate::fibs_terminal::Terminal;
use crate::rattle::cell::Cell;
use crate::rattle::io;
use crate::rattle::io::{ErrorKind, Write};

/// A writer that counts its flushes, each of which may fail.
struct Screen<'a> {
    flushes: &'a Cell<u32>,
    fails: bool,
}

impl Write for Screen<'_> {
    fn write(&mut self, buf: &[u8]) -> io::Result<usize> {
        Ok(buf.len())
    }

    fn flush(&mut self) -> io::Result<()> {
        self.flushes.set(self.flushes.get().saturating_add(1));
        if self.fails {
            return Err(io::Error::from(ErrorKind::BrokenPipe));
        }
        Ok(())
    }
}

/// Whether each of two calls failed, and how often the screen was flushed after it: before the server is waited for,
/// and before the user types.
fn flushed(client: &Client, fails: bool) -> [(bool, u32); 2] {
    let directory = Directory::new();
    let flushes = Cell::new(0);
    let screen = Screen { flushes: &flushes, fails };
    let mut terminal = Terminal::new(screen, Stopped, plain_settings());
    let flush = (terminal.flush().is_err(), flushes.get());
    let rest = (terminal.rest(client, &directory).is_err(), flushes.get());
    [flush, rest]
}

/// Before the server is waited for, and before the user types; and a flush that fails is not overlooked.
#[test]
fn a_terminal_shows_what_it_was_told() {
    let login = Login::new(b"ann", b"secret").expect("it is a login");
    let client = Client::new(login);
    assert!(flushed(&client, false) == [(false, 1), (false, 2)]);
    assert!(flushed(&client, true) == [(true, 1), (true, 2)]);
}
