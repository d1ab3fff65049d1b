//! What has happened, line by line. Written by hand.

use crate::Reading;
use crate::fibs_events;
use crate::fibs_events::asking::Asking;
use crate::fibs_events::event::Event;
use crate::rattle::alloc::AllocError;
use std::iter::FusedIterator;

/// What the lines of a client or of a saved session say has happened, as values: who has rolled what, which play was
/// made, who has won. Boards decide before texts, and nothing is told twice for a board or a text that comes again.
///
/// Hear each reading once, in order, over connections too; leave out lines that were cut. That a login is refused no
/// line says: [`hear_bytes`](Events::hear_bytes) does.
///
/// ```
/// use fibs::{Event, Events, Side, read};
///
/// let mut events = Events::new();
/// let joined = "** Player eve has joined you for a 3 point match.";
/// for line in ["1 ann 1041253132 localhost", joined, "eve rolls 6 and 3."] {
///     for event in events.hear(&read(line.as_bytes()))? {
///         println!("{event:?}");
///     }
/// }
/// assert!(events.hear(&read(b"eve rolls 6 and 3."))?.next().is_none());
/// let mut rolls = events.hear(&read(b"You roll 4 and 1."))?;
/// assert_eq!(rolls.next(), Some(Event::Rolled { who: Side::Own, dice: [4, 1] }));
/// # Ok::<(), fibs::AllocError>(())
/// ```
#[derive(Default)]
pub struct Events {
    /// In a box: they keep a board.
    events: Box<Remembered>,
}

struct Remembered {
    lines: fibs_events::Events,
    login: Asking,
}

impl Default for Remembered {
    fn default() -> Remembered {
        Remembered { lines: fibs_events::Events::new(), login: Asking::new() }
    }
}

impl Events {
    /// Nothing was heard.
    pub fn new() -> Events {
        Events::default()
    }

    /// A connection is opened: the server asks for the login anew. The first one need not be told.
    pub fn open(&mut self) {
        self.events.login = Asking::new();
    }

    /// What bytes of the server say that no line does: [`Event::LoginRefused`], once of each question for the login that
    /// comes again before the server has greeted the user. Give it each piece of a connection as it comes: the
    /// question has to be its end. The lines go to [`hear`](Events::hear) besides.
    ///
    /// ```
    /// let mut events = fibs::Events::new();
    /// assert!(events.hear_bytes(b"Welcome to FIBS.\r\nlogin: ").next().is_none());
    /// assert_eq!(events.hear_bytes(b"\r\nlogin: ").next(), Some(fibs::Event::LoginRefused));
    /// ```
    pub fn hear_bytes(&mut self, bytes: &[u8]) -> Happened<'static> {
        let mut events = [None; fibs_events::happened::MOST_EVENTS];
        events[0] = self.events.login.hear(bytes);
        Happened { events, next: 0 }
    }

    /// What a line says has happened, in order.
    ///
    /// # Errors
    /// If memory runs out; then the line is not taken note of.
    pub fn hear<'a>(&mut self, reading: &Reading<'a>) -> Result<Happened<'a>, AllocError> {
        let happened = self.events.lines.hear(reading)?;
        Ok(Happened { events: happened.events(), next: 0 })
    }

    /// The opponent of the match that is played, or was played last; empty if none is known.
    pub fn opponent(&self) -> &[u8] {
        self.events.lines.opponent()
    }
}

/// The events of one line, in order.
#[derive(Clone, Debug)]
pub struct Happened<'a> {
    events: [Option<Event<'a>>; fibs_events::happened::MOST_EVENTS],
    next: usize,
}

impl<'a> Iterator for Happened<'a> {
    type Item = Event<'a>;

    fn next(&mut self) -> Option<Event<'a>> {
        while let Some(event) = self.events.get(self.next) {
            self.next += 1;
            if event.is_some() {
                return *event;
            }
        }
        None
    }
}

impl FusedIterator for Happened<'_> {}
