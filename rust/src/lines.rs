//! The lines of a stream, lent and owned. Written by hand.

use crate::{Fed, Line, Reading, fibs_lines};
use std::collections::VecDeque;
use std::io::{self, Read};
use std::iter::FusedIterator;

/// The lines of a stream that comes in pieces, however it is cut. Of a line that has not ended at most
/// [`LIMIT`](crate::LIMIT) bytes are kept.
///
/// ```
/// let mut lines = fibs::Lines::new();
/// let fed = lines.feed(b"login: hello\r\nb");
/// assert_eq!((fed.used, fed.line.map(|line| line.bytes)), (14, Some(&b"hello"[..])));
/// ```
#[derive(Default)]
pub struct Lines {
    /// In a box: they have a line.
    lines: Box<fibs_lines::Lines>,
    /// The lines that an iterator left, and the one that is lent.
    left: VecDeque<OwnedLine>,
    lent: OwnedLine,
}

impl Lines {
    /// Lines of an empty stream.
    pub fn new() -> Lines {
        Lines::default()
    }

    /// Reads the piece up to and with the next line end. Says how many bytes it used, and lends the line, if one ends.
    ///
    /// A line that [`owned`](Lines::owned) left is lent first, and no byte is used.
    pub fn feed(&mut self, piece: &[u8]) -> Fed<'_> {
        match self.left.pop_front() {
            None => self.lines.feed(piece),
            Some(line) => {
                self.lent = line;
                Fed { used: 0, line: Some(Line { bytes: &self.lent.bytes, cut: self.lent.cut }) }
            }
        }
    }

    /// The bytes that follow the last line end, without telnet commands.
    pub fn unfinished(&self) -> &[u8] {
        if self.left.is_empty() { self.lines.unfinished() } else { b"" }
    }

    /// Forgets the stream: what comes next begins another one.
    pub fn reset(&mut self) {
        self.lines.reset();
        self.left.clear();
    }

    /// Gives each line that the piece ends to `f`, in order. A line is lent: no memory is taken.
    ///
    /// ```
    /// let mut lines = fibs::Lines::new();
    /// let mut seen = Vec::new();
    /// for piece in [&b"login: hel"[..], b"lo\r\nbye\n> x"] {
    ///     lines.each(piece, |line| seen.push(line.bytes.to_vec()));
    /// }
    /// assert_eq!(seen, [&b"hello"[..], b"bye"]);
    /// assert_eq!(lines.unfinished(), b"> x");
    /// ```
    pub fn each(&mut self, piece: &[u8], mut f: impl FnMut(Line<'_>)) {
        let mut rest = piece;
        while !(rest.is_empty() && self.left.is_empty()) {
            let fed = self.feed(rest);
            if let Some(line) = fed.line {
                f(line);
            }
            rest = rest.get(fed.used..).unwrap_or_default();
        }
    }

    /// The lines that the piece ends, each copied. If you leave some, the next call gives them first.
    ///
    /// ```
    /// let mut lines = fibs::Lines::new();
    /// assert_eq!(lines.owned(b"one\r\ntwo\r\nthr").next().unwrap().bytes, b"one");
    /// let texts: Vec<Vec<u8>> = lines.owned(b"ee\r\n").map(|line| line.bytes).collect();
    /// assert_eq!(texts, [&b"two"[..], b"three"]);
    /// ```
    pub fn owned<'a>(&'a mut self, piece: &'a [u8]) -> OwnedLines<'a> {
        OwnedLines { lines: self, rest: piece }
    }

    /// The lines of a stream, up to its end, each copied.
    ///
    /// ```
    /// for line in fibs::Lines::of(&b"3\r\n4\r\n"[..]) {
    ///     assert!(matches!(line?.reading(), fibs::Reading::Numbered(_)));
    /// }
    /// # Ok::<(), std::io::Error>(())
    /// ```
    pub fn of<R: Read>(stream: R) -> ReadLines<R> {
        ReadLines { stream, lines: Lines::new(), room: vec![0; 1 << 16], from: 0, to: 0 }
    }
}

impl<'a> Line<'a> {
    /// What the line is, by [`read`](crate::read). A line that was cut is a text.
    pub fn reading(&self) -> Reading<'a> {
        if self.cut { Reading::Text(self.bytes) } else { crate::read(self.bytes) }
    }
}

/// A line that is copied.
#[derive(Clone, Debug, Default, PartialEq, Eq, Hash)]
pub struct OwnedLine {
    /// What is kept of it: at most [`LIMIT`](crate::LIMIT) bytes.
    pub bytes: Vec<u8>,
    /// Whether it had more bytes than are kept.
    pub cut: bool,
}

impl OwnedLine {
    /// What the line is, by [`read`](crate::read). A line that was cut is a text.
    pub fn reading(&self) -> Reading<'_> {
        Line { bytes: &self.bytes, cut: self.cut }.reading()
    }
}

impl From<Line<'_>> for OwnedLine {
    fn from(line: Line<'_>) -> OwnedLine {
        OwnedLine { bytes: line.bytes.to_vec(), cut: line.cut }
    }
}

/// The lines that a piece ends: see [`Lines::owned`].
#[derive(Debug)]
pub struct OwnedLines<'a> {
    lines: &'a mut Lines,
    rest: &'a [u8],
}

impl Iterator for OwnedLines<'_> {
    type Item = OwnedLine;

    fn next(&mut self) -> Option<OwnedLine> {
        // one call of `feed` reads a line, or all that is left
        let fed = self.lines.feed(self.rest);
        self.rest = self.rest.get(fed.used..).unwrap_or_default();
        fed.line.map(OwnedLine::from)
    }
}

impl Drop for OwnedLines<'_> {
    /// What was not asked for is kept.
    fn drop(&mut self) {
        while !self.rest.is_empty() {
            let fed = self.lines.lines.feed(self.rest);
            self.rest = self.rest.get(fed.used..).unwrap_or_default();
            self.lines.left.extend(fed.line.map(OwnedLine::from));
        }
    }
}

impl FusedIterator for OwnedLines<'_> {}

/// The lines of a stream: see [`Lines::of`]. A read that a signal interrupts is made again; after another error the
/// next line is asked of the stream again.
#[derive(Debug)]
pub struct ReadLines<R> {
    stream: R,
    lines: Lines,
    room: Vec<u8>,
    from: usize,
    to: usize,
}

impl<R> ReadLines<R> {
    /// The bytes of the line that has not ended.
    pub fn unfinished(&self) -> &[u8] {
        self.lines.unfinished()
    }
}

impl<R: Read> Iterator for ReadLines<R> {
    type Item = io::Result<OwnedLine>;

    fn next(&mut self) -> Option<io::Result<OwnedLine>> {
        loop {
            let piece = self.room.get(self.from..self.to).unwrap_or_default();
            let fed = self.lines.feed(piece);
            self.from += fed.used;
            if let Some(line) = fed.line {
                return Some(Ok(line.into()));
            }
            match self.stream.read(&mut self.room) {
                Ok(0) => return None,
                Ok(got) => (self.from, self.to) = (0, got),
                Err(why) if why.kind() == io::ErrorKind::Interrupted => {}
                Err(why) => return Some(Err(why)),
            }
        }
    }
}
