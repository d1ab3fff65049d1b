//! What a Rust author expects of steps, plays, decisions and names: how they are printed and read, in which order they
//! are. Written by hand.

use crate::{Decision, Name, Play, Stake, Step};
use std::cmp::Ordering;
use std::error::Error;
use std::fmt;
use std::str::FromStr;

impl Step {
    /// A step from a place 1 to 25 to a lower place, 0 to 24, in the player's own numbers: 25 is the bar, 0 is off.
    /// None for any other places.
    ///
    /// ```
    /// use fibs::Step;
    /// assert_eq!(Step::new(24, 18).unwrap().to_string(), "24/18");
    /// assert_eq!([Step::new(8, 8), Step::new(3, 20), Step::new(26, 1), Step::new(0, 0)], [None; 4]);
    /// ```
    pub fn new(source: u8, target: u8) -> Option<Step> {
        if target < source { Step::between(source, target) } else { None }
    }
}

/// A text, or places, that are none of what is asked for.
#[derive(Clone, Copy, Debug, PartialEq, Eq, Hash)]
#[non_exhaustive]
pub enum ValueFault {
    /// It is no step from a place to a lower one.
    NotAStep,
    /// It is not a list of at most four steps, with a space between two.
    NotAPlay,
    /// It is no decision.
    NotADecision,
    /// It is no name.
    NotAName,
}

impl fmt::Display for ValueFault {
    fn fmt(&self, f: &mut fmt::Formatter<'_>) -> fmt::Result {
        f.pad(match self {
            ValueFault::NotAStep => "it is no step from a place to a lower one, such as 24/18, bar/20 or 6/off",
            ValueFault::NotAPlay => "it is no list of at most four steps, such as 24/18 13/11",
            ValueFault::NotADecision => "it is no decision, such as roll, resign g or 24/18 13/11",
            ValueFault::NotAName => "a name has 1 to 64 printable bytes that are no space and no colon",
        })
    }
}

impl Error for ValueFault {}

impl TryFrom<(u8, u8)> for Step {
    type Error = ValueFault;

    fn try_from((source, target): (u8, u8)) -> Result<Step, ValueFault> {
        Step::new(source, target).ok_or(ValueFault::NotAStep)
    }
}

/// In own numbers, as `24/18`, `bar/20` or `6/off`. (The server's numbers, which may be others, have a hyphen.)
impl fmt::Display for Step {
    fn fmt(&self, f: &mut fmt::Formatter<'_>) -> fmt::Result {
        match self.source() {
            25 => f.write_str("bar/"),
            place => write!(f, "{place}/"),
        }?;
        match self.target() {
            0 => f.write_str("off"),
            place => write!(f, "{place}"),
        }
    }
}

impl FromStr for Step {
    type Err = ValueFault;

    fn from_str(text: &str) -> Result<Step, ValueFault> {
        let place = |text: &str| match text {
            "bar" => Some(25),
            "off" => Some(0),
            // of several spellings of a number the canonical one
            text => text.parse::<u8>().ok().filter(|place| place.to_string() == text && (1..25).contains(place)),
        };
        let (source, target) = text.split_once('/').ok_or(ValueFault::NotAStep)?;
        let places = place(source).zip(place(target)).ok_or(ValueFault::NotAStep)?;
        places.try_into()
    }
}

/// In own numbers, as `24/18 13/11`; a play of no step is the empty text.
impl fmt::Display for Play {
    fn fmt(&self, f: &mut fmt::Formatter<'_>) -> fmt::Result {
        for (at, step) in self.steps().iter().enumerate() {
            if at > 0 {
                f.write_str(" ")?;
            }
            step.fmt(f)?;
        }
        Ok(())
    }
}

impl FromStr for Play {
    type Err = ValueFault;

    /// ```
    /// let play: fibs::Play = "bar/20 6/off".parse()?;
    /// assert_eq!((play.steps().len(), play.to_string().as_str()), (2, "bar/20 6/off"));
    /// assert_eq!("24-18".parse::<fibs::Play>(), Err(fibs::ValueFault::NotAPlay));
    /// # Ok::<(), fibs::ValueFault>(())
    /// ```
    fn from_str(text: &str) -> Result<Play, ValueFault> {
        let words = text.split(' ').filter(|_| !text.is_empty());
        let steps = words.map(str::parse).collect::<Result<Vec<Step>, _>>();
        steps.ok().and_then(Play::of).ok_or(ValueFault::NotAPlay)
    }
}

/// Plays are ordered by their first steps, then by their second ones, and so on; [`Position::plays`] lists the greatest
/// first.
///
/// [`Position::plays`]: crate::Position::plays
impl Ord for Play {
    fn cmp(&self, other: &Play) -> Ordering {
        self.order(other)
    }
}

impl PartialOrd for Play {
    fn partial_cmp(&self, other: &Play) -> Option<Ordering> {
        Some(self.cmp(other))
    }
}

/// `roll`, `double`, `accept`, `reject`, `resign n`, `resign g`, `resign b`, or a play in own numbers. A command, in
/// the numbers of the server, is [`decision_text`](crate::decision_text).
impl fmt::Display for Decision {
    fn fmt(&self, f: &mut fmt::Formatter<'_>) -> fmt::Result {
        match self {
            Decision::Move(play) => play.fmt(f),
            decision => f.pad(NAMED.iter().find(|named| named.1 == *decision).map_or("", |named| named.0)),
        }
    }
}

impl FromStr for Decision {
    type Err = ValueFault;

    /// ```
    /// use fibs::Decision;
    /// for text in ["roll", "resign g", "24/18 13/11"] {
    ///     assert_eq!(text.parse::<Decision>()?.to_string(), text);
    /// }
    /// assert_eq!("move 24-18".parse::<Decision>(), Err(fibs::ValueFault::NotADecision));
    /// # Ok::<(), fibs::ValueFault>(())
    /// ```
    fn from_str(text: &str) -> Result<Decision, ValueFault> {
        if let Some(named) = NAMED.iter().find(|named| named.0 == text) {
            return Ok(named.1);
        }
        text.parse().map(Decision::Move).map_err(|_| ValueFault::NotADecision)
    }
}

/// The decisions that are no moves, by their texts.
const NAMED: [(&str, Decision); 7] = [
    ("roll", Decision::Roll),
    ("double", Decision::Double),
    ("accept", Decision::Accept),
    ("reject", Decision::Reject),
    ("resign n", Decision::Resign(Stake::Normal)),
    ("resign g", Decision::Resign(Stake::Gammon)),
    ("resign b", Decision::Resign(Stake::Backgammon)),
];

impl<'a> TryFrom<&'a [u8]> for Name<'a> {
    type Error = ValueFault;

    fn try_from(bytes: &'a [u8]) -> Result<Name<'a>, ValueFault> {
        Name::new(bytes).ok_or(ValueFault::NotAName)
    }
}

impl<'a> TryFrom<&'a str> for Name<'a> {
    type Error = ValueFault;

    fn try_from(text: &'a str) -> Result<Name<'a>, ValueFault> {
        text.as_bytes().try_into()
    }
}

impl Ord for Name<'_> {
    fn cmp(&self, other: &Self) -> Ordering {
        self.bytes().cmp(other.bytes())
    }
}

impl PartialOrd for Name<'_> {
    fn partial_cmp(&self, other: &Self) -> Option<Ordering> {
        Some(self.cmp(other))
    }
}
