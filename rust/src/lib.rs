//! A client library for FIBS, the First Internet Backgammon Server: the lines of its stream, boards and messages, the
//! rules of backgammon, and a client that never sends a decision twice by itself.
//!
//! | You want to | Use |
//! |---|---|
//! | find the lines of a stream that comes in pieces | [`Lines`] |
//! | know what a line says | [`read`], [`Reading`], [`Board`], [`Message`] |
//! | know what a player may do, and what it does | [`Position`], [`Decision`], [`effect`] |
//! | play step by step | [`Turn`] |
//! | talk with the server | [`Client`], [`Login`], [`Decision`], [`Plain`] |
//! | know who is there | [`Directory`] |
//! | know what has happened | [`Events`] |
//! | write down matches for GNU Backgammon | [`MatchFiles`] |
//! | print what the program `fibs` prints | [`show`] |
//!
//! ```
//! use fibs::{Client, Decision, Login, Reading, Refusal};
//!
//! let mut client = Client::new(Login::new(b"ann", b"secret")?);
//! client.open()?;
//! assert_eq!(client.outgoing(), b"login fibs_client 1008 ann secret\r\n");
//! client.sent(client.outgoing().len());
//!
//! let mut piece = &b"1 ann 1041253132 localhost\r\n12 bob hel"[..];
//! while let Some(heard) = client.hear(&mut piece) {
//!     assert!(matches!(heard.reading, Reading::Numbered(_)));
//! }
//! assert_eq!(client.outgoing(), b"set boardstyle 3\r\n");
//! assert_eq!(client.unfinished(), b"12 bob hel");
//! assert_eq!(client.decide(&Decision::Roll), Err(Refusal::NotReady));
//! # Ok::<(), Box<dyn std::error::Error>>(())
//! ```
//!
//! # What is proved, and what is tested
//!
//! This crate is built of the sources of Liftplum's crates in Rattle, without their proofs. There each function is
//! proved to meet its contract, for all inputs; a contract is the text under *Contract*, and what its words mean stands
//! in the `specs` of the sources. That rustc makes the same of the text is **tested, not proved**. Trusted besides are
//! the eraser (`build/eraser.rs`), what is written by hand (`src`), rustc, and the crates arrayvec, bstr, indexmap,
//! itoa, memchr and thiserror. `usize` has 64 bits in the proofs.
//!
//! What a contract `requires` of its callers is not public, so no call of this crate panics.
//!
//! # Features
//!
//! | Feature | What it adds |
//! |---|---|
//! | `model` | [`model`]: a server in memory, to test a client with |
//! | `serde` | `Serialize` and `Deserialize` of boards, steps, plays and decisions |
//! | `c` | the functions of `fibs.h`, for a package that makes a library of them |
#![deny(missing_docs, unsafe_code)]

include!(concat!(env!("OUT_DIR"), "/modules.rs"));

mod boards;
mod client;
mod errors;
mod events;
#[cfg(feature = "c")]
#[allow(missing_docs)]
mod handles;
mod lines;
mod match_files;
mod people;
// it has also what only the program uses
#[allow(missing_docs, unused_imports, dead_code)]
mod rattle;
mod saved;
#[cfg(feature = "serde")]
mod serde;
#[cfg(all(test, feature = "model"))]
mod tests;
mod turn;
mod values;
mod words;

pub use client::{Client, ConnectionState, Heard, Lost, OwnLineRefusal, OwnedHeard};
pub use errors::BoardFault;
pub use events::{Events, Happened};
pub use fibs_commands::{
    AnswerText, CommandText, Login, Plain, PlainFault, decision_text, plain_text, read_command, read_plain,
};
pub use fibs_events::event::{Event, Length, Offer, Side};
pub use fibs_lines::{Fed, LIMIT, Line};
pub use fibs_messages::directory::{Directory, DirectoryFault, Player};
pub use fibs_messages::{Board, Fault, Field, FieldFault, Message, Name, OwnInfo, Reading, Tail, WhoInfo, Word, read};
pub use fibs_position::{
    CubeOwner, Decision, Direction, Disallowed, Phase, Play, Position, PositionFault, Stake, Step, WatchedBoard,
    differs, effect,
};
pub use fibs_session::{Outstanding, PlainRefusal, Refusal};
pub use lines::{Lines, OwnedLine, OwnedLines, ReadLines};
pub use match_files::{MatchFile, MatchFiles};
pub use people::rating_text;
pub use rattle::alloc::AllocError;
pub use saved::SavedMatch;
pub use turn::{NextStep, Turn};
pub use values::ValueFault;

/// The numbers of the fields of a board line, for [`Board::get`] and [`Board::with`].
pub mod field {
    pub use crate::fibs_fields::boards::fields::*;
}

/// Functions that do what methods do, or a part of it: for a caller who has no value of their types.
pub mod raw {
    pub use crate::fibs_lines::sent_line;
    pub use crate::fibs_messages::{is_board_line, message_number, print_message, read_decimal};
    pub use crate::fibs_position::{is_die, is_good, phase_of};
}

/// What the program `fibs` prints of a stream and of a board.
pub mod show {
    pub use crate::fibs_engine::fault::EngineFault;
    pub use crate::fibs_show::plays::plays;
    pub use crate::fibs_show::show::show;
}

#[cfg(feature = "model")]
pub mod model;

/// The page for authors, whose blocks are run.
#[cfg(doctest)]
#[doc = include_str!("../../docs/RUST.md")]
struct Page;

/// The functions of `fibs.h`, for a package that makes a library of them.
#[cfg(feature = "c")]
#[doc(hidden)]
#[allow(missing_docs)]
pub mod c {
    pub use crate::fibs_c::*;
}
