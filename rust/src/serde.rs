//! Values by serde: a board is its line, a step a pair, a play a list of steps, what waits a decision with its board.
//! Written by hand.

use crate::{Board, Decision, Outstanding, Play, Stake, Step};
use serde::de::{Error, Unexpected};
use serde::{Deserialize, Deserializer, Serialize, Serializer};

impl Serialize for Board {
    fn serialize<S: Serializer>(&self, serializer: S) -> Result<S::Ok, S::Error> {
        serializer.collect_str(self)
    }
}

impl<'de> Deserialize<'de> for Board {
    fn deserialize<D: Deserializer<'de>>(deserializer: D) -> Result<Board, D::Error> {
        let line = String::deserialize(deserializer)?;
        line.parse().map_err(D::Error::custom)
    }
}

impl Serialize for Step {
    fn serialize<S: Serializer>(&self, serializer: S) -> Result<S::Ok, S::Error> {
        (self.source(), self.target()).serialize(serializer)
    }
}

impl<'de> Deserialize<'de> for Step {
    fn deserialize<D: Deserializer<'de>>(deserializer: D) -> Result<Step, D::Error> {
        let (source, target) = <(u8, u8)>::deserialize(deserializer)?;
        Step::new(source, target).ok_or_else(|| D::Error::invalid_value(Unexpected::Seq, &"the places of a step"))
    }
}

impl Serialize for Play {
    fn serialize<S: Serializer>(&self, serializer: S) -> Result<S::Ok, S::Error> {
        self.steps().serialize(serializer)
    }
}

impl<'de> Deserialize<'de> for Play {
    fn deserialize<D: Deserializer<'de>>(deserializer: D) -> Result<Play, D::Error> {
        let steps = Vec::<Step>::deserialize(deserializer)?;
        let len = steps.len();
        Play::of(steps).ok_or_else(|| D::Error::invalid_length(len, &"at most four steps"))
    }
}

#[derive(Serialize, Deserialize)]
#[serde(remote = "Stake")]
enum StakeByName {
    Normal,
    Gammon,
    Backgammon,
}

// serde builds none of its own, and reads the fields of those that it is given
#[derive(Serialize, Deserialize)]
#[serde(remote = "Decision")]
#[allow(dead_code)]
enum DecisionByName {
    Roll,
    Double,
    Accept,
    Reject,
    Move(Play),
    Resign(#[serde(with = "StakeByName")] Stake),
}

impl Serialize for Decision {
    fn serialize<S: Serializer>(&self, serializer: S) -> Result<S::Ok, S::Error> {
        DecisionByName::serialize(self, serializer)
    }
}

impl<'de> Deserialize<'de> for Decision {
    fn deserialize<D: Deserializer<'de>>(deserializer: D) -> Result<Decision, D::Error> {
        DecisionByName::deserialize(deserializer)
    }
}

#[derive(Serialize, Deserialize)]
#[serde(remote = "Outstanding")]
struct OutstandingByName {
    decision: Decision,
    board: Board,
}

impl Serialize for Outstanding {
    fn serialize<S: Serializer>(&self, serializer: S) -> Result<S::Ok, S::Error> {
        OutstandingByName::serialize(self, serializer)
    }
}

impl<'de> Deserialize<'de> for Outstanding {
    fn deserialize<D: Deserializer<'de>>(deserializer: D) -> Result<Outstanding, D::Error> {
        OutstandingByName::deserialize(deserializer)
    }
}
