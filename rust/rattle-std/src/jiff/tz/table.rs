//! The table of a time zone, as a TZif file has it (RFC 9636).

use super::rule::Rule;
use crate::jiff::Error;
use crate::may::*;

/// The length of a head.
const HEAD: usize = 44;

/// How far a place is ahead of UTC, by its history and, after that, by a rule.
pub struct Table {
    /// How far until the first change.
    first: i32,
    /// When it changes, and how far it is from then on.
    changes: Vec<(i64, i32)>,
    /// What holds from the last change on, if it is told.
    rule: Option<Rule>,
}

/// How many items of each kind a block has, in the order of its head.
struct Counts {
    utc_marks: usize,
    standard_marks: usize,
    leaps: usize,
    changes: usize,
    kinds: usize,
    letters: usize,
}

/// Takes the first bytes of what is left.
fn take<'a>(left: &mut &'a [u8], count: usize) -> Result<&'a [u8], Error> {
    let (taken, rest) = left.split_at_checked(count).ok_or(Error::Zone)?;
    *left = rest;
    Ok(taken)
}

/// A number, whose highest byte comes first.
fn number(bytes: &[u8]) -> i64 {
    let sign = if bytes[0] >= 0x80 { -1 } else { 0 };
    bytes.iter().fold(sign, |number, byte| number << 8 | i64::from(*byte))
}

/// The version of a block, and what its head counts.
fn head(left: &mut &[u8]) -> Result<(u8, Counts), Error> {
    let head = take(left, HEAD)?;
    if !head.starts_with(b"TZif") {
        return Err(Error::Zone);
    }
    let count = |at: usize| (number(&head[20 + 4 * at..24 + 4 * at]) & 0xffff_ffff) as usize;
    let counts = Counts {
        utc_marks: count(0),
        standard_marks: count(1),
        leaps: count(2),
        changes: count(3),
        kinds: count(4),
        letters: count(5),
    };
    Ok((head[4], counts))
}

impl Table {
    /// Reads the bytes of a file.
    pub fn parse(bytes: &[u8]) -> Result<Table, Error> {
        let mut left = bytes;
        let (version, counts) = head(&mut left)?;
        let mut table = block(&mut left, &counts, 4)?;
        if version >= b'2' {
            // the same again, with longer times
            let (_, counts) = head(&mut left)?;
            table = block(&mut left, &counts, 8)?;
            table.rule = foot(left)?;
        }
        Ok(table)
    }

    /// How far the place is ahead at a time.
    pub fn ahead_at(&self, second: i64) -> i32 {
        let passed = self.changes.partition_point(|(when, _)| *when <= second);
        match (passed.checked_sub(1), self.rule) {
            (_, Some(rule)) if passed == self.changes.len() => rule.ahead_at(second),
            (Some(last), _) => self.changes[last].1,
            (None, _) => self.first,
        }
    }
}

/// Reads a block whose times have so many bytes.
fn block(left: &mut &[u8], counts: &Counts, width: usize) -> Result<Table, Error> {
    let times = take(left, counts.changes * width)?;
    let indexes = take(left, counts.changes)?;
    let kinds = take(left, counts.kinds * 6)?;
    take(left, counts.letters)?;
    take(left, counts.leaps * (width + 4))?;
    take(left, counts.standard_marks)?;
    take(left, counts.utc_marks)?;
    let ahead = |kind: usize| kinds.get(6 * kind..6 * kind + 4).map(|four| number(four) as i32).ok_or(Error::Zone);
    let mut changes = Vec::may_with_capacity(counts.changes)?;
    for (time, kind) in times.chunks_exact(width).zip(indexes) {
        changes.may_push((number(time), ahead(usize::from(*kind))?))?;
    }
    if !changes.is_sorted_by_key(|(when, _)| *when) {
        return Err(Error::Zone);
    }
    Ok(Table { first: ahead(0)?, changes, rule: None })
}

/// The rule at the end of a file, between two ends of lines. It may be left out.
fn foot(left: &[u8]) -> Result<Option<Rule>, Error> {
    let text = left.strip_prefix(b"\n").ok_or(Error::Zone)?;
    let end = text.iter().position(|byte| *byte == b'\n').ok_or(Error::Zone)?;
    if end == 0 {
        return Ok(None);
    }
    Rule::parse(&text[..end]).map(Some).ok_or(Error::Zone)
}
