//! Matches that the server has saved. Written by hand.

use crate::{Name, field, raw::read_decimal};

/// How many points a match or a score has at most.
const MOST_POINTS: u64 = 99_999_999;

/// A row of what the server answers to `show saved`, as `**bob  5  2 -  3`.
#[derive(Clone, Copy, Debug, PartialEq, Eq, Hash)]
#[non_exhaustive]
pub struct SavedMatch<'a> {
    /// The opponent.
    pub name: Name<'a>,
    /// How many points the match is to. None if it is unlimited.
    pub length: Option<u32>,
    /// The user's points.
    pub score: u32,
    /// The opponent's points.
    pub opponent_score: u32,
    /// Whether the opponent is logged in: a star before the name says so, or two if he is ready.
    pub is_there: bool,
}

impl<'a> SavedMatch<'a> {
    /// Reads a row of the list. None if the text is no such row.
    ///
    /// ```
    /// let saved = fibs::SavedMatch::read(b" *bob                 5                2 -  3").unwrap();
    /// assert_eq!((saved.name.bytes(), saved.length, saved.is_there), (&b"bob"[..], Some(5), true));
    /// assert_eq!((saved.score, saved.opponent_score), (2, 3));
    /// assert_eq!(fibs::SavedMatch::read(b"  opponent          matchlength   score (your points first)"), None);
    /// ```
    pub fn read(text: &'a [u8]) -> Option<SavedMatch<'a>> {
        let words: Vec<&[u8]> = text.split(|byte| *byte == b' ').filter(|word| !word.is_empty()).collect();
        let [starred, length, own, b"-", other] = words[..] else {
            return None;
        };
        let once = starred.strip_prefix(b"*").unwrap_or(starred);
        Some(SavedMatch {
            name: Name::new(once.strip_prefix(b"*").unwrap_or(once))?,
            length: length_in(length)?,
            score: points_in(own)?,
            opponent_score: points_in(other)?,
            is_there: once.len() < starred.len(),
        })
    }
}

/// The length that a word says; None inside if it is unlimited.
fn length_in(word: &[u8]) -> Option<Option<u32>> {
    if word == b"unlimited" {
        return Some(None);
    }
    let points = points_in(word)?;
    // as a board has it
    Some(Some(points).filter(|points| i64::from(*points) != i64::from(field::UNLIMITED)))
}

fn points_in(word: &[u8]) -> Option<u32> {
    u32::try_from(read_decimal(word, MOST_POINTS)?).ok()
}
