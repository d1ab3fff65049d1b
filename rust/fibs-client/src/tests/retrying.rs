//! Devices whose calls a signal interrupts.
use crate::fibs_engine::fault::EngineFault;
use crate::fibs_engine::link::{RETRIES, read_retrying, write_retrying};
use crate::fibs_show::show::show;
use crate::fibs_test_tools::outcome::Outcome;
use crate::fibs_test_tools::pipe::{After, Pipe};
use crate::rattle::io;
use crate::rattle::io::{ErrorKind, Read, Write};

/// A device with so many interrupted calls before each one that is not.
struct Disturbed<'a> {
    pipe: Pipe<'a>,
    signals: u32,
    left: u32,
}

impl<'a> Disturbed<'a> {
    /// A device on which no call was made yet.
    fn new(pipe: Pipe<'a>, signals: u32) -> Disturbed<'a> {
        Disturbed { pipe, signals, left: signals }
    }

    /// Fails if a signal comes.
    fn wait(&mut self) -> io::Result<()> {
        if self.left == 0 {
            self.left = self.signals;
            return Ok(());
        }
        self.left -= 1;
        Err(io::Error::from(ErrorKind::Interrupted))
    }
}

impl Read for Disturbed<'_> {
    fn read(&mut self, buf: &mut [u8]) -> io::Result<usize> {
        self.wait()?;
        self.pipe.read(buf)
    }
}

impl Write for Disturbed<'_> {
    fn write(&mut self, buf: &[u8]) -> io::Result<usize> {
        self.wait()?;
        self.pipe.write(buf)
    }

    fn flush(&mut self) -> io::Result<()> {
        self.pipe.flush()
    }
}

/// A device whose reads and writes are made again if a signal interrupts them.
struct Retrying<D> {
    device: D,
}

impl<R: Read> Read for Retrying<R> {
    fn read(&mut self, buf: &mut [u8]) -> io::Result<usize> {
        read_retrying(&mut self.device, buf)
    }
}

impl<W: Write> Write for Retrying<W> {
    fn write(&mut self, buf: &[u8]) -> io::Result<usize> {
        write_retrying(&mut self.device, buf)
    }

    fn flush(&mut self) -> io::Result<()> {
        self.device.flush()
    }
}

/// A device with so many interrupted calls in a row, which are made again.
fn interrupted(pipe: Pipe<'_>, signals: u32) -> Retrying<Disturbed<'_>> {
    let device = Disturbed::new(pipe, signals);
    Retrying { device }
}

/// How `show` ends, and what it prints, if so many reads in a row and so many writes in a row are interrupted.
fn shown(reads: u32, writes: u32) -> Outcome {
    let mut input = interrupted(Pipe::new(b"hi\nyou\n", 1, After::End, 0), reads);
    let mut output = interrupted(Pipe::new(b"", 1, After::End, 100), writes);
    let ending = show(&mut input, &mut output);
    Outcome::new(ending, output.device.pipe.output(), b"")
}

/// How many reads and how many writes in a row are interrupted, how `show` ends, and what it prints: they are made
/// again as often as they may be, and of those that are interrupted once more the error is seen.
static ROWS: [(u32, u32, Result<u8, EngineFault>, &[u8]); 9] = [
    (0, 0, Ok(0), b"text hi\ntext you\n"),
    (1, 0, Ok(0), b"text hi\ntext you\n"),
    (0, 1, Ok(0), b"text hi\ntext you\n"),
    (1, 1, Ok(0), b"text hi\ntext you\n"),
    (RETRIES, 0, Ok(0), b"text hi\ntext you\n"),
    (0, RETRIES, Ok(0), b"text hi\ntext you\n"),
    (RETRIES, RETRIES, Ok(0), b"text hi\ntext you\n"),
    (RETRIES + 1, 0, Err(EngineFault::Device), b""),
    (0, RETRIES + 1, Err(EngineFault::Device), b""),
];

#[test]
fn interrupted_calls_are_made_again() {
    for (reads, writes, ending, out) in &ROWS {
        let outcome = shown(*reads, *writes);
        let is_made = outcome.is(*ending, out, b"");
        assert!(is_made, "{reads} and {writes} signals");
    }
}
