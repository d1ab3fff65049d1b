//! A client at its connection, for the tests of turns.

use crate::fibs_connect::turns::{Ending, ExchangeFault, exchange};
use crate::fibs_engine::link::Link;
use crate::fibs_session::{Client, Directory, Login};
use crate::fibs_test_tools::pipe::{After, Pipe, QUIET};
use crate::fibs_test_tools::text::{TEXT_ROOM, Text, joined};
use crate::rattle::io::{ErrorKind, Write};

/// A client that has opened a connection.
pub fn opened() -> Client {
    let login = Login::new(b"ann", b"secret").expect("it is a login");
    let mut client = Client::new(login);
    let _command = client.open();
    client
}

/// How a turn ended, in a word.
#[derive(Clone, Copy, PartialEq, Eq)]
pub enum Kind {
    /// Nothing more has come yet.
    Quiet,
    /// The connection is over.
    Lost,
    /// The connection is over, and a decision was not confirmed on it.
    LostWaiting,
    /// What is printed could not be written.
    Unprinted,
}

/// These bytes, so many times.
pub fn repeated(bytes: &[u8], times: usize) -> Text {
    let mut text = Text::new();
    for _ in 0..times {
        let _fits = text.try_extend_from_slice(bytes);
    }
    text
}

/// Whether the bytes are these parts, one after another.
pub fn is_made_of(bytes: &[u8], parts: &[&[u8]]) -> bool {
    let mut rest = bytes;
    for part in parts {
        match rest.strip_prefix(*part) {
            Some(after) => rest = after,
            None => return false,
        }
    }
    rest.is_empty()
}

/// A turn after which the connection goes on. What the server sends is in parts.
#[derive(Clone, Copy)]
pub enum TalkCue<'a> {
    /// The server sends this.
    Hears(&'a [&'a [u8]]),
    /// A line is typed, and then the server sends this.
    Types(&'a [u8], &'a [&'a [u8]]),
}

/// A turn: what is typed, what the server sends, in parts, what follows that, how many bytes the stream takes, and how
/// the turn ends.
#[derive(Clone, Copy)]
pub struct ScriptedTurn<'a> {
    pub typed: Option<&'a [u8]>,
    pub heard: &'a [&'a [u8]],
    pub after: After,
    pub room: usize,
    pub kind: Kind,
}

/// A client on one connection, the players that it knows, and what it has sent and printed. A stream gives it at most
/// `most` bytes at once.
pub struct TestSeat {
    pub client: Client,
    pub directory: Directory,
    pub sent: Text,
    pub printed: Text,
    most: usize,
}

impl TestSeat {
    /// A client that has opened a connection.
    pub fn open(most: usize) -> TestSeat {
        TestSeat { client: opened(), directory: Directory::new(), sent: Text::new(), printed: Text::new(), most }
    }

    /// One turn with a stream and a writer. It notes nothing of what is sent and printed.
    pub(crate) fn turn_on<S: Link, W: Write>(&mut self, stream: &mut S, typed: Option<&[u8]>, out: &mut W) -> Kind {
        let (client, directory) = (&mut self.client, &mut self.directory);
        match exchange(client, directory, Some(stream), typed, out) {
            Ok(Ending::Quiet) => Kind::Quiet,
            Ok(Ending::Lost(None)) => Kind::Lost,
            Ok(Ending::Lost(Some(_))) => Kind::LostWaiting,
            Err(ExchangeFault::Output) => Kind::Unprinted,
        }
    }

    /// One turn in which lines are printed on `out`: what is typed, what the server sends, and what follows that. The
    /// stream takes 100 bytes. It notes nothing of what is sent and printed.
    pub(crate) fn print_on<W: Write>(&mut self, out: &mut W, typed: Option<&[u8]>, heard: &[u8], after: After) -> Kind {
        let mut pipe = Pipe::new(heard, self.most, after, 100);
        self.turn_on(&mut pipe, typed, out)
    }

    /// One turn with a stream in memory, which ends so. It notes what is printed.
    pub(crate) fn turn_with(&mut self, pipe: &mut Pipe<'_>, typed: Option<&[u8]>, kind: Kind) {
        let mut out = Pipe::new(b"", 1, After::End, TEXT_ROOM);
        let ended = self.turn_on(pipe, typed, &mut out);
        let _fits = self.printed.try_extend_from_slice(out.output());
        assert!(ended == kind, "the turn ends otherwise");
    }

    /// Takes a turn. It notes what is sent and printed.
    fn take_turn(&mut self, turn: &ScriptedTurn<'_>) {
        let input = joined(turn.heard);
        let mut pipe = Pipe::new(&input, self.most, turn.after, turn.room);
        self.turn_with(&mut pipe, turn.typed, turn.kind);
        let _fits = self.sent.try_extend_from_slice(pipe.output());
    }

    /// Takes a step. A read that comes after what the server sends fails so.
    pub(crate) fn take(&mut self, step: TalkCue<'_>, after: After) {
        let (typed, heard) = match step {
            TalkCue::Hears(parts) => (None, parts),
            TalkCue::Types(typed, parts) => (Some(typed), parts),
        };
        let turn = ScriptedTurn { typed, heard, after, room: 4096, kind: Kind::Quiet };
        self.take_turn(&turn);
    }

    /// Takes steps one after another.
    pub(crate) fn follow(&mut self, steps: &[TalkCue<'_>], after: After) {
        for step in steps {
            self.take(*step, after);
        }
    }

    /// The server sends this, in parts.
    pub(crate) fn hear(&mut self, parts: &[&[u8]]) {
        self.take(TalkCue::Hears(parts), QUIET);
    }

    /// Asserts what was sent and printed in all, each in parts.
    pub fn assert_did(&self, name: &str, sent: &[&[u8]], printed: &[&[u8]]) {
        assert!(
            is_made_of(&self.sent, sent) && is_made_of(&self.printed, printed),
            "{name}: sent {:?}, printed {:?}",
            self.sent.as_slice(),
            self.printed.as_slice()
        );
    }
}

/// Ways in which what the server sends is cut: how many bytes a read gives at most, and how one fails that finds
/// nothing more.
const CUTS: [(usize, After); 8] = [
    (1, QUIET),
    (2, QUIET),
    (7, QUIET),
    (1000, QUIET),
    (1, After::Fails(ErrorKind::TimedOut)),
    (2, After::Fails(ErrorKind::TimedOut)),
    (7, After::Fails(ErrorKind::TimedOut)),
    (1000, After::Fails(ErrorKind::TimedOut)),
];

/// A conversation: its name, its steps, its last turn, if there is one, and what is sent and printed in it, each in
/// parts.
#[derive(Clone, Copy)]
pub struct Talk<'a> {
    pub name: &'a str,
    pub steps: &'a [TalkCue<'a>],
    pub last: Option<ScriptedTurn<'a>>,
    pub sent: &'a [&'a [u8]],
    pub printed: &'a [&'a [u8]],
}

/// Asserts what is sent and printed in conversations, and how the last turn of each ends.
pub fn assert_talks(talks: &[Talk<'_>]) {
    for talk in talks {
        assert_talk(talk.name, talk.steps, talk.last, talk.sent, talk.printed);
    }
}

/// Asserts what is sent and printed in a conversation, each in parts, and how its last turn ends, if there is one.
pub fn assert_talk(
    name: &str,
    steps: &[TalkCue<'_>],
    last: Option<ScriptedTurn<'_>>,
    sent: &[&[u8]],
    printed: &[&[u8]],
) {
    for cut in CUTS {
        assert_cut(cut, name, steps, last, sent, printed);
    }
}

/// The same if what the server sends is cut so.
fn assert_cut(
    (most, after): (usize, After),
    name: &str,
    steps: &[TalkCue<'_>],
    last: Option<ScriptedTurn<'_>>,
    sent: &[&[u8]],
    printed: &[&[u8]],
) {
    let mut seat = TestSeat::open(most);
    seat.follow(steps, after);
    if let Some(turn) = last {
        seat.take_turn(&turn);
    }
    seat.assert_did(name, sent, printed);
}

/// How the first turn on a connection ends, in which lines are printed on `out`: what is typed, and what the server
/// sends, in reads of at most `most` bytes. Nothing more comes then.
pub fn first_turn_on<W: Write>(out: &mut W, most: usize, typed: Option<&[u8]>, heard: &[u8]) -> Kind {
    let mut seat = TestSeat::open(most);
    seat.print_on(out, typed, heard, QUIET)
}

/// Asserts what is right at a number, which is said between two words.
pub fn assert_at(is_right: bool, before: &str, number: usize, behind: &str) {
    assert!(is_right, "{before}{number}{behind}");
}

/// Asserts what is right after a line that is typed, if there is one.
pub fn assert_typed(is_right: bool, typed: Option<&[u8]>) {
    assert!(is_right, "{typed:?}");
}
