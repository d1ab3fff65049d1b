//! The client with a queue of what is to be sent. Written by hand, over the proved client.

use crate::fibs_session::typed::{deciding::decides, taking::would_take};
use crate::{
    Board, CommandText, Decision, Direction, Line, Login, Outstanding, OwnedLine, Plain, PlainFault, PlainRefusal,
    Reading, Refusal, decision_text, fibs_session, plain_text,
};
use std::fmt;
use std::io::{self, ErrorKind, Write};

/// A client of the server, without I/O: bytes of the server go in, bytes for the server come out.
///
/// What is to be sent is kept until you have sent it: [`outgoing`](Client::outgoing) with [`sent`](Client::sent), or
/// [`write_to`](Client::write_to). A write may take a part of it, and the client may be asked anything meanwhile.
///
/// A decision waits from [`decide`](Client::decide) until a board of another game is shown. Until then each other one
/// is refused, and the client never sends it again by itself: also not after the connection is lost
/// ([`lose`](Client::lose) says which decision that was).
///
/// ```
/// use fibs::{Client, Decision, Login, Refusal};
///
/// let mut client = Client::new(Login::new(b"ann", b"secret")?);
/// client.open()?;
/// # let greeting = b"1 ann 1 here\r\n2 ann 1 1 0 0 0 0 1 1 55 0 1 0 1 3457.85 0 0 unlimited 0 0 UTC\r\n";
/// # let board = b"board:You:bob:1:0:0:0:-2:0:0:0:0:5:0:3:0:0:0:-5:5:0:0:0:-3:0:-5:0:0:0:0:2:0:1:\
/// #     0:0:0:0:1:1:1:0:1:-1:0:25:0:0:0:0:0:0:0:0\r\n";
/// # let from_the_server = [&greeting[..], board].concat();
/// let mut piece = &from_the_server[..];
/// while let Some(heard) = client.hear(&mut piece) {
///     println!("{:?}", heard.reading);
/// }
/// client.decide(&Decision::Roll)?;
/// assert_eq!(client.decide(&Decision::Roll), Err(Refusal::Waiting));
///
/// let mut wire = Vec::new();
/// client.write_to(&mut wire)?;
/// assert!(wire.ends_with(b"board\r\nroll\r\n"));
/// assert_eq!(client.lose().map(|left_open| left_open.decision), Some(Decision::Roll));
/// # Ok::<(), Box<dyn std::error::Error>>(())
/// ```
pub struct Client {
    /// In a box: it has a line of the server.
    client: Box<fibs_session::Client>,
    /// What is to be sent; the first `done` bytes of it were sent.
    queue: Vec<u8>,
    done: usize,
    /// Where in the queue the decision ends that waits, without its line end; 0 if it was sent.
    decided: usize,
}

/// A line that the client has heard, and what it means for the client.
#[derive(Debug)]
#[non_exhaustive]
pub struct Heard<'a> {
    /// The line itself.
    pub line: Line<'a>,
    /// What it is. A line that was cut is a text.
    pub reading: Reading<'a>,
    /// The decision that waited, if the line is a board that confirms it.
    pub confirmed: Option<Outstanding>,
    /// Whether the line is a board at which the standing order was due: the client has rolled.
    pub rolled: bool,
}

impl Heard<'_> {
    /// The same without a borrow, so that the client may be asked and told anything while you hold it.
    ///
    /// ```
    /// # use fibs::{Client, Heard, Login, Message, Plain, Reading};
    /// # let mut client = Client::new(Login::new(b"ann", b"secret")?);
    /// # client.open()?;
    /// let mut piece = &b"12 bob Shall we?\r\n"[..];
    /// while let Some(heard) = client.hear(&mut piece).map(Heard::into_owned) {
    ///     if let Reading::Numbered(Message::Says { name, text }) = heard.reading() {
    ///         client.plain(&Plain::Tell(name.bytes(), text))?;
    ///     }
    /// }
    /// assert!(client.outgoing().ends_with(b"tell bob Shall we?\r\n"));
    /// # Ok::<(), Box<dyn std::error::Error>>(())
    /// ```
    pub fn into_owned(self) -> OwnedHeard {
        OwnedHeard { line: self.line.into(), confirmed: self.confirmed, rolled: self.rolled }
    }
}

/// A line that the client has heard, copied: see [`Heard::into_owned`].
#[derive(Clone, Debug, PartialEq, Eq)]
#[non_exhaustive]
pub struct OwnedHeard {
    /// The line itself.
    pub line: OwnedLine,
    /// The decision that waited, if the line is a board that confirms it.
    pub confirmed: Option<Outstanding>,
    /// Whether the line is a board at which the standing order was due: the client has rolled.
    pub rolled: bool,
}

impl OwnedHeard {
    /// What it is. A line that was cut is a text.
    pub fn reading(&self) -> Reading<'_> {
        self.line.reading()
    }
}

/// A decision that waited when the connection was lost.
#[derive(Clone, Copy, Debug, PartialEq, Eq)]
#[non_exhaustive]
#[must_use = "ask the user whether to decide so again"]
pub struct Lost {
    /// The decision.
    pub decision: Decision,
    /// The board on which it was made.
    pub board: Board,
    /// Whether the server may know of it. If not, its command was still to be sent.
    pub may_be_known: bool,
}

/// Why a line of one's own is not sent. Of several reasons the first is named.
#[derive(Clone, Copy, Debug, PartialEq, Eq, Hash)]
#[non_exhaustive]
pub enum OwnLineRefusal {
    /// What is wrong with its text.
    Fault(PlainFault),
    /// No connection is open.
    Offline,
    /// The client would take the line itself, or it decides in the game.
    Taken,
}

impl fmt::Display for OwnLineRefusal {
    fn fmt(&self, f: &mut fmt::Formatter<'_>) -> fmt::Result {
        match self {
            OwnLineRefusal::Fault(fault) => fault.fmt(f),
            OwnLineRefusal::Offline => Refusal::Offline.fmt(f),
            OwnLineRefusal::Taken => f.pad("the client takes the line itself, or it decides in the game"),
        }
    }
}

impl std::error::Error for OwnLineRefusal {}

impl Lost {
    /// The command of the decision, in the numbers of its board.
    pub fn command(&self) -> CommandText {
        decision_text(&self.decision, Direction::of(&self.board))
    }
}

impl Client {
    /// A client that never had a connection.
    pub fn new(login: Login) -> Client {
        Client { client: Box::new(fibs_session::Client::new(login)), queue: Vec::new(), done: 0, decided: 0 }
    }

    /// A connection was opened: the login command is to be sent. What was left of an earlier connection is forgotten.
    ///
    /// # Errors
    /// [`Refusal::AlreadyOpen`].
    pub fn open(&mut self) -> Result<(), Refusal> {
        let command = self.client.open()?;
        self.forget();
        self.queue_command(&command);
        Ok(())
    }

    /// Reads the piece up to and with the next line end, hears the line, and takes it off the piece. Without a line end
    /// it takes all, and gives nothing. The commands that answer the line are then to be sent.
    ///
    /// Offline all bytes are dropped.
    pub fn hear(&mut self, piece: &mut &[u8]) -> Option<Heard<'_>> {
        let got = self.client.feed(piece);
        *piece = piece.get(got.used..).unwrap_or_default();
        let taken = got.taken?;
        for command in &taken.send {
            append(&mut self.queue, command);
        }
        if taken.rolled {
            // it rolls by the last of these commands
            self.decided = self.queue.len() - END.len();
        }
        Some(Heard { line: taken.line, reading: taken.reading, confirmed: taken.confirmed, rolled: taken.rolled })
    }

    /// Gives each line that the piece ends to `f`, in order.
    pub fn hear_all(&mut self, mut piece: &[u8], mut f: impl FnMut(Heard<'_>)) {
        while let Some(heard) = self.hear(&mut piece) {
            f(heard);
        }
    }

    /// The bytes that are to be sent.
    pub fn outgoing(&self) -> &[u8] {
        self.queue.get(self.done..).unwrap_or_default()
    }

    /// So many of the bytes that are to be sent were sent. More than there are is all.
    pub fn sent(&mut self, bytes: usize) {
        self.done = self.done.saturating_add(bytes);
        if self.done >= self.queue.len() {
            self.forget();
        }
    }

    /// Writes what is to be sent. After an error, as [`WouldBlock`](ErrorKind::WouldBlock), what was written is no
    /// longer kept, and the rest is; a write that a signal interrupts is made again.
    ///
    /// # Errors
    /// That of the writer, or [`WriteZero`](ErrorKind::WriteZero) if it takes no more.
    pub fn write_to(&mut self, mut writer: impl Write) -> io::Result<()> {
        while !self.outgoing().is_empty() {
            match writer.write(self.outgoing()) {
                Ok(0) => return Err(ErrorKind::WriteZero.into()),
                Ok(written) => self.sent(written),
                Err(why) if why.kind() == ErrorKind::Interrupted => {}
                Err(why) => return Err(why),
            }
        }
        writer.flush()
    }

    /// Decides on the board shown: the command is to be sent, and the decision then waits.
    ///
    /// # Errors
    /// The first of the [`Refusal`]s that holds; then nothing has changed.
    pub fn decide(&mut self, decision: &Decision) -> Result<(), Refusal> {
        let command = self.client.decide(decision)?;
        self.queue_command(&command);
        self.decided = self.queue.len() - END.len();
        Ok(())
    }

    /// Says something that decides nothing in the game.
    ///
    /// # Errors
    /// What is wrong with the command, or the first of the [`Refusal`]s that holds; then nothing has changed.
    pub fn plain(&mut self, plain: &Plain<'_>) -> Result<(), PlainRefusal> {
        let command = self.client.plain(plain)?;
        self.queue_command(&command);
        Ok(())
    }

    /// Sends a line of your own, for what has no [`Plain`]: `leave`, `watch bob`, `accept` or `reject` as the answer to
    /// an offer to resign. The client does not know of it. A line that decides in the game is refused, however it is
    /// spelled and whether a decision waits or not; an answer goes if the board shown has no double to be answered.
    ///
    /// ```
    /// # use fibs::{Client, Login, OwnLineRefusal};
    /// # let mut client = Client::new(Login::new(b"ann", b"secret")?);
    /// # client.open()?;
    /// client.own_line(b"leave")?;
    /// assert_eq!(client.own_line(b"r"), Err(OwnLineRefusal::Taken)); // a server may take it for `roll`
    /// # Ok::<(), Box<dyn std::error::Error>>(())
    /// ```
    ///
    /// # Errors
    /// The first of the [`OwnLineRefusal`]s that holds; then nothing has changed.
    pub fn own_line(&mut self, line: &[u8]) -> Result<(), OwnLineRefusal> {
        self.may_send(line)?;
        if would_take(&self.client, line) || decides(&self.client, line) {
            return Err(OwnLineRefusal::Taken);
        }
        self.send_line(line);
        Ok(())
    }

    /// Sends any line, also one that decides: for a decision that waits since the server refused it by a text, and that
    /// the user makes once more. The client does not know of it, and promises nothing of it.
    ///
    /// # Errors
    /// [`OwnLineRefusal::Fault`], [`OwnLineRefusal::Offline`]; then nothing has changed.
    pub fn unguarded_line(&mut self, line: &[u8]) -> Result<(), OwnLineRefusal> {
        self.may_send(line)?;
        self.send_line(line);
        Ok(())
    }

    fn may_send(&self, line: &[u8]) -> Result<(), OwnLineRefusal> {
        plain_text(&Plain::Say(line)).map_err(OwnLineRefusal::Fault)?;
        if self.client.plain_refusal(&Plain::Board).is_some() { Err(OwnLineRefusal::Offline) } else { Ok(()) }
    }

    fn send_line(&mut self, line: &[u8]) {
        self.queue.extend_from_slice(line);
        self.queue.extend_from_slice(END);
    }

    /// Gives a standing order: from now on the client rolls by itself if the player may not double, until the order is
    /// withdrawn or the connection ends.
    ///
    /// # Errors
    /// [`Refusal::Offline`], [`Refusal::AlreadyOrdered`].
    pub fn order_roll(&mut self) -> Result<(), Refusal> {
        self.client.order_roll()
    }

    /// Withdraws the standing order to roll. A `roll` that it sent goes on waiting.
    ///
    /// # Errors
    /// [`Refusal::Offline`], [`Refusal::NotOrdered`].
    pub fn withdraw_roll(&mut self) -> Result<(), Refusal> {
        self.client.withdraw_roll()
    }

    /// The connection was lost: nothing of it is kept. Gives the decision that waited, if one did, with its board, and
    /// whether the server may know of it: then ask the user.
    #[must_use = "the decision that waited is told once"]
    pub fn lose(&mut self) -> Option<Lost> {
        // its command was sent once a byte of its line end was
        let may_be_known = self.decided == 0 || self.done > self.decided;
        self.forget();
        self.client.lose().map(|Outstanding { decision, board, .. }| Lost { decision, board, may_be_known })
    }

    /// Whether the server has sent messages 1 and 2 on an open connection. Before that it may take what is sent for a
    /// name or a password: send nothing but the login.
    pub fn is_ready(&self) -> bool {
        !matches!(self.state(), ConnectionState::Offline | ConnectionState::Login)
    }

    /// The state of the connection.
    pub fn state(&self) -> ConnectionState {
        match self.client.refusal(&Decision::Roll) {
            Some(Refusal::Offline) => ConnectionState::Offline,
            Some(Refusal::NotReady) => ConnectionState::Login,
            Some(Refusal::ServerPlays) => ConnectionState::ServerPlays,
            _ => ConnectionState::Ready,
        }
    }

    /// Why [`decide`](Client::decide) would refuse the decision now. None if it would take it.
    pub fn refusal(&self, decision: &Decision) -> Option<Refusal> {
        self.client.refusal(decision)
    }

    /// Why [`plain`](Client::plain) would refuse the command now. None if it would take it.
    pub fn plain_refusal(&self, plain: &Plain<'_>) -> Option<PlainRefusal> {
        self.client.plain_refusal(plain)
    }

    /// The board that was shown last on this connection.
    pub fn shown(&self) -> Option<&Board> {
        self.client.shown()
    }

    /// The decision that waits, with the board on which it was made.
    pub fn waiting(&self) -> Option<&Outstanding> {
        self.client.waiting()
    }

    /// Whether a standing order to roll is in force on the open connection.
    pub fn is_ordered(&self) -> bool {
        self.client.ordered()
    }

    /// The bytes of the line that has not ended. A prompt of the server is there, since no line end follows it.
    pub fn unfinished(&self) -> &[u8] {
        self.client.unfinished()
    }

    fn queue_command(&mut self, command: &str) {
        append(&mut self.queue, command);
    }

    /// Nothing is to be sent.
    fn forget(&mut self) {
        self.queue.clear();
        self.done = 0;
        self.decided = 0;
    }
}

/// The state of a client's connection.
#[derive(Clone, Copy, Debug, PartialEq, Eq, Hash)]
#[non_exhaustive]
pub enum ConnectionState {
    /// No connection is open.
    Offline,
    /// The login is not answered by messages 1 and 2: it may be refused, if the server asks for it again.
    Login,
    /// The user may be asked.
    Ready,
    /// The server moves or bears off by itself, so the client refuses decisions.
    ServerPlays,
}

/// What ends each command.
const END: &[u8] = b"\r\n";

/// Adds a command and its line end.
fn append(queue: &mut Vec<u8>, command: &str) {
    queue.extend_from_slice(command.as_bytes());
    queue.extend_from_slice(END);
}
