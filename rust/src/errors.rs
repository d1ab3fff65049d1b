//! Refusals and faults as errors of Rust: what each says in a sentence; and the missing prints. Written by hand.

use crate::{
    AllocError, Client, Directory, DirectoryFault, Disallowed, Fault, Lines, Login, OwnLineRefusal, PlainFault,
    PlainRefusal, PositionFault, Refusal,
};
use std::error::Error;
use std::fmt;

impl Error for PlainFault {}
impl Error for PlainRefusal {}
impl Error for Refusal {}
impl Error for DirectoryFault {}

/// What an error prints: a sentence, without its full stop.
pub(crate) trait Says {
    fn says(&self) -> &'static str;
}

/// The sentence of each variant.
macro_rules! says {
    ($($name:ident { $($variant:ident: $text:literal,)* })*) => {
        $(impl Says for $name {
            fn says(&self) -> &'static str {
                match self {
                    $($name::$variant => $text,)*
                }
            }
        })*
    };
}

says! {
    Refusal {
        AlreadyOpen: "a connection is open already",
        Offline: "no connection is open",
        NotReady: "the server has not answered the login by messages 1 and 2",
        ServerPlays: "automove or greedy was on at the login: the server may move or bear off by itself",
        NoBoard: "no board on which the user plays was shown on this connection",
        Waiting: "a decision was sent, and no board that differs was shown since",
        NotYours: "the player does not decide on the board that is shown",
        WrongKind: "the board that is shown asks for another kind of decision, or the cube forbids it",
        IllegalPlay: "the move is not legal",
        NotOn: "the setting is off, or was turned off already",
        AlreadyOrdered: "a standing order to roll is in force already",
        NotOrdered: "no standing order to roll is in force",
    }
    Disallowed {
        NotYours: "the player does not decide on the board",
        WrongKind: "the board asks for another kind of decision, or the cube forbids it",
        IllegalPlay: "the move is not legal",
    }
    PositionFault {
        NotYou: "the board is that of a game in which the user does not play",
        TooManyOwn: "the player has more than fifteen checkers",
        TooManyOther: "the opponent has more than fifteen checkers",
    }
    Fault {
        Missing: "the line ends before it",
        Extra: "it follows the last field",
        NotANumber: "it is not spelled as a number of its kind",
        OutOfRange: "it is a number that the field may not have",
        BadName: "it is no name, word or text of its kind",
    }
}

/// Why a board has no [`Turn`](crate::Turn), or is not told in words.
#[derive(Clone, Copy, Debug, PartialEq, Eq, Hash)]
#[non_exhaustive]
pub enum BoardFault {
    /// It has no position.
    Position(PositionFault),
    /// The player may not move on it.
    Disallowed(Disallowed),
    /// Memory ran out.
    Memory,
}

impl BoardFault {
    /// The fault's name.
    pub fn name(self) -> &'static str {
        match self {
            BoardFault::Position(fault) => fault.name(),
            BoardFault::Disallowed(why) => why.name(),
            BoardFault::Memory => DirectoryFault::Memory.name(),
        }
    }
}

impl fmt::Display for BoardFault {
    fn fmt(&self, f: &mut fmt::Formatter<'_>) -> fmt::Result {
        match self {
            BoardFault::Position(fault) => fault.fmt(f),
            BoardFault::Disallowed(why) => why.fmt(f),
            BoardFault::Memory => AllocError.fmt(f),
        }
    }
}

impl Error for BoardFault {}

impl From<PositionFault> for BoardFault {
    fn from(fault: PositionFault) -> BoardFault {
        BoardFault::Position(fault)
    }
}

impl From<Disallowed> for BoardFault {
    fn from(why: Disallowed) -> BoardFault {
        BoardFault::Disallowed(why)
    }
}

impl From<AllocError> for BoardFault {
    fn from(_: AllocError) -> BoardFault {
        BoardFault::Memory
    }
}

impl PlainFault {
    /// The fault's name.
    pub fn name(self) -> &'static str {
        match self {
            PlainFault::BadName => "BadName",
            PlainFault::BadText => "BadText",
            PlainFault::TooLong => "TooLong",
        }
    }
}

impl PlainRefusal {
    /// The refusal's name, or that of the fault.
    pub fn name(self) -> &'static str {
        match self {
            PlainRefusal::Offline => Refusal::Offline.name(),
            PlainRefusal::NotOn => Refusal::NotOn.name(),
            PlainRefusal::Fault(fault) => fault.name(),
        }
    }
}

impl OwnLineRefusal {
    /// The refusal's name, or that of the fault.
    pub fn name(self) -> &'static str {
        match self {
            OwnLineRefusal::Fault(fault) => fault.name(),
            OwnLineRefusal::Offline => Refusal::Offline.name(),
            OwnLineRefusal::Taken => "Taken",
        }
    }
}

impl DirectoryFault {
    /// The fault's name.
    pub fn name(self) -> &'static str {
        match self {
            DirectoryFault::Memory => "Memory",
            DirectoryFault::Full => "Full",
        }
    }
}

/// A debug print that shows no field.
macro_rules! opaque {
    ($($name:ident),*) => {
        $(impl fmt::Debug for $name {
            fn fmt(&self, f: &mut fmt::Formatter<'_>) -> fmt::Result {
                f.debug_struct(stringify!($name)).finish_non_exhaustive()
            }
        })*
    };
}

// a login's print never has the password, nor has that of a client
opaque!(Client, Directory, Lines, Login);
