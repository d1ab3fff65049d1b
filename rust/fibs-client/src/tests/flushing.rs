//! What was printed is shown before the program waits: for the server, for a typed line, for a connection.

use crate::fibs_cli::objects::front::Objects;
use crate::fibs_connect::fault::FrontFault;
use crate::fibs_connect::front::Front;
use crate::fibs_connect::said::Said;
use crate::fibs_connect::typed_line::TypedLine;
use crate::fibs_connect::typed_lines::TypedLines;
use crate::fibs_connect::watch::Unwatched;
use crate::fibs_connect::wish::Wish;
use crate::fibs_connect::words::Words;
use crate::fibs_connect::{answer_lines, converse_on, converse_with};
use crate::fibs_engine::dial::Dial;
use crate::fibs_engine::fault::EngineFault;
use crate::fibs_engine::link::Link;
use crate::fibs_session::{Client, Directory, Login};
use crate::fibs_test_tools::pipe::{After, Pipe};
use crate::rattle::cell::Cell;
use crate::rattle::io;
use crate::rattle::io::{ErrorKind, Read, Write};

/// What the tests see of a conversation.
struct Seen {
    /// How many bytes were written since the last flush.
    hidden: Cell<usize>,
    /// How often the program waited.
    waits: Cell<u32>,
    /// How often it did so while something was hidden.
    late: Cell<u32>,
}

impl Seen {
    fn new() -> Seen {
        Seen { hidden: Cell::new(0), waits: Cell::new(0), late: Cell::new(0) }
    }

    /// The program waits.
    fn wait(&self) {
        self.waits.set(self.waits.get().saturating_add(1));
        if self.hidden.get() > 0 {
            self.late.set(self.late.get().saturating_add(1));
        }
    }

    /// Whether nothing is hidden, and nothing was while the program waited.
    fn is_shown(&self) -> bool {
        self.late.get() == 0 && self.hidden.get() == 0
    }
}

/// A screen, which shows what is written once it is flushed. After so many flushes one fails.
struct Screen<'a> {
    seen: &'a Seen,
    flushes: u32,
    failed: bool,
}

impl Write for Screen<'_> {
    fn write(&mut self, buf: &[u8]) -> io::Result<usize> {
        let hidden = &self.seen.hidden;
        hidden.set(hidden.get().saturating_add(buf.len()));
        Ok(buf.len())
    }

    fn flush(&mut self) -> io::Result<()> {
        if self.flushes == 0 && !self.failed {
            self.failed = true;
            return Err(io::Error::from(ErrorKind::BrokenPipe));
        }
        self.flushes = self.flushes.saturating_sub(1);
        self.seen.hidden.set(0);
        Ok(())
    }
}

/// A stream for which the program waits at each read.
struct Watched<'a> {
    stream: Pipe<'a>,
    seen: &'a Seen,
}

impl Read for Watched<'_> {
    fn read(&mut self, buf: &mut [u8]) -> io::Result<usize> {
        self.seen.wait();
        self.stream.read(buf)
    }
}

impl Write for Watched<'_> {
    fn write(&mut self, buf: &[u8]) -> io::Result<usize> {
        self.stream.write(buf)
    }

    fn flush(&mut self) -> io::Result<()> {
        self.stream.flush()
    }
}

impl Link for Watched<'_> {
    fn receive(&mut self, buf: &mut [u8]) -> io::Result<usize> {
        self.read(buf)
    }

    fn transmit(&mut self, buf: &[u8]) -> io::Result<usize> {
        self.write(buf)
    }
}

/// A server, for which the program waits at each connection.
struct WatchedDoor<'a> {
    seen: &'a Seen,
}

impl<'a> Dial for WatchedDoor<'a> {
    type Stream = Watched<'a>;

    fn dial(&mut self) -> Result<Watched<'a>, ErrorKind> {
        self.seen.wait();
        let heard = b"1 ann 1041253132 localhost\r\n5 bob - - 1 0 1500.5 0 3 1040515752 host - -\r\nhello\r\n";
        Ok(Watched { stream: Pipe::new(heard, 40, After::End, 512), seen: self.seen })
    }
}

/// What is printed of a conversation.
#[derive(Clone, Copy, Debug)]
enum Account {
    Plain,
    Objects,
}

/// How a conversation with each kind of typed line ends, if one flush of the screen fails after so many.
fn conversed_on(seen: &Seen, account: Account, flushes: u32) -> Result<u8, EngineFault> {
    let lines = b"secret\nplayers\ndance\nroll\nopen\nopen\n\nroll\nquit\n";
    let mut typed = Watched { stream: Pipe::new(lines, 5, After::End, 0), seen };
    let mut screen = Screen { seen, flushes, failed: false };
    let mut other = Pipe::new(b"", 1, After::End, 0);
    let mut door = WatchedDoor { seen };
    let watch = &mut Unwatched;
    match account {
        Account::Plain => converse_with(&mut door, b"ann", 1000, &mut typed, watch, &mut screen, &mut other),
        Account::Objects => {
            let mut front = Objects::new(&mut screen);
            converse_on(&mut door, b"ann", 1000, &mut typed, watch, &mut front, &mut other)
        }
    }
}

#[test]
fn nothing_is_hidden_while_the_program_waits() {
    for account in [Account::Plain, Account::Objects] {
        let seen = Seen::new();
        let ending = conversed_on(&seen, account, 1000);
        let is_shown = ending == Ok(0) && seen.is_shown();
        assert!(is_shown, "{account:?}: something is hidden, or the end is a fault");
        assert!(seen.waits.get() > 15, "{account:?}: it waits more often");
    }
}

/// What was written before the conversation is shown before it connects.
#[test]
fn nothing_is_hidden_while_a_connection_is_made() {
    let seen = Seen::new();
    seen.hidden.set(7);
    let mut screen = Screen { seen: &seen, flushes: 1000, failed: false };
    let mut front = Objects::new(&mut screen);
    let login = Login::new(b"ann", b"secret").expect("it is a login");
    let mut typed = Watched { stream: Pipe::new(b"quit\n", 5, After::End, 0), seen: &seen };
    let mut lines = TypedLines::new(1000);
    let mut door = WatchedDoor { seen: &seen };
    let ending = answer_lines(&mut door, login, &mut lines, &mut typed, &mut Unwatched, &mut front);
    assert!(ending == Ok(0) && seen.is_shown(), "something is hidden, or the end is a fault");
}

/// A front end that counts how often it says what may be typed.
struct Rests {
    count: u32,
}

impl Front for Rests {
    fn tell(&mut self, _said: &Said<'_>) -> Result<(), FrontFault> {
        Ok(())
    }

    fn flush(&mut self) -> Result<(), FrontFault> {
        Ok(())
    }
}

impl Words for Rests {
    fn rest(&mut self, _client: &Client, _directory: &Directory) -> Result<(), FrontFault> {
        self.count += 1;
        Ok(())
    }

    fn wish(&mut self, _client: &Client, _directory: &Directory, _line: &mut TypedLine) -> Result<Wish, FrontFault> {
        Ok(Wish::Quit)
    }
}

/// A player who leaves sees what was said last: once before he types, and once after.
#[test]
fn what_was_said_last_is_shown_to_who_leaves() {
    let seen = Seen::new();
    let mut front = Rests { count: 0 };
    let login = Login::new(b"ann", b"secret").expect("it is a login");
    let mut typed = Pipe::new(b"quit\n", 5, After::End, 0);
    let mut lines = TypedLines::new(1000);
    let mut door = WatchedDoor { seen: &seen };
    let ending = answer_lines(&mut door, login, &mut lines, &mut typed, &mut Unwatched, &mut front);
    assert_eq!((ending, front.count), (Ok(0), 2));
}

/// Whether the conversation ends by a fault, which is the device's, if one flush fails after so many.
fn fails_after(account: Account, flushes: u32) -> bool {
    let ending = conversed_on(&Seen::new(), account, flushes);
    let is_fault = ending == Err(EngineFault::Device);
    assert!(is_fault || ending == Ok(0), "{account:?}: after {flushes} flushes");
    is_fault
}

#[test]
fn each_flush_that_fails_is_a_device_fault() {
    for account in [Account::Plain, Account::Objects] {
        let mut failed = 0u32;
        for flushes in 0..100 {
            if fails_after(account, flushes) {
                failed = failed.saturating_add(1);
            }
        }
        // a conversation flushes more than ten times, and fewer than a hundred
        assert!(failed > 10 && failed < 100, "{account:?}: {failed} flushes");
    }
}
