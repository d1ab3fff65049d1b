//! Reads the tables `boards.txt` and `turns.txt`, which tests/rows reads too.

use crate::fibs_position::{Decision, Play, Stake, Step};

/// Checkers: each place and its count.
pub type Checkers = Vec<(u8, u8)>;

/// A board, and what is worked out of it: see the head of `boards.txt`.
#[derive(Default)]
pub struct Row<'a> {
    pub name: &'a str,
    pub board: &'a str,
    /// Why it has no position.
    pub fault: Option<&'a str>,
    pub phase: &'a str,
    pub direction: &'a str,
    pub own: Checkers,
    pub other: Checkers,
    /// How many dice can be played, and the plays.
    pub plays: Option<(u8, Vec<Play>)>,
    /// How many plays are listed.
    pub count: Option<usize>,
    /// Decisions, and why they are not allowed.
    pub answers: Vec<(Decision, Option<&'a str>)>,
    /// Decisions, the dice that are thrown, and the board after them.
    pub effects: Vec<(Decision, [u8; 2], After<'a>)>,
}

/// How a board is after a decision.
pub enum After<'a> {
    Nothing,
    Named(&'a str),
    Changed(Vec<(usize, i32)>),
}

/// A turn, and its plays: see the head of `turns.txt`.
pub struct WorkedTurn<'a> {
    pub name: &'a str,
    pub own: Checkers,
    pub other: Checkers,
    pub dice: [u8; 2],
    pub plays: Vec<Play>,
    pub refused: Vec<Play>,
}

/// Two numbers with a mark between them.
fn pair<A: std::str::FromStr, B: std::str::FromStr>(text: &str, mark: char) -> Option<(A, B)> {
    let (first, second) = text.split_once(mark)?;
    Some((first.parse().ok()?, second.parse().ok()?))
}

/// The parts of a text between marks, each without spaces around it. An empty text has none.
fn parts<'a>(text: &'a str, mark: &'a str) -> impl Iterator<Item = &'a str> {
    text.split(mark).map(str::trim).filter(|part| !part.is_empty())
}

fn checkers(text: &str) -> Option<Checkers> {
    parts(text, " ").map(|part| pair(part, ':')).collect()
}

/// A play as it is written, `none` if it has no step: four steps at most.
fn play(text: &str) -> Option<Play> {
    let place = |end: &str| match end {
        "bar" => Some(25),
        "off" => Some(0),
        _ => end.parse().ok(),
    };
    let mut play = Play::new();
    for step in parts(text, " ").filter(|step| *step != "none") {
        let (source, target) = step.split_once('-')?;
        play.push(Step::between(place(source)?, place(target)?)?).then_some(())?;
    }
    Some(play)
}

fn plays(text: &str) -> Option<Vec<Play>> {
    parts(text, ",").map(play).collect()
}

fn decision(text: &str) -> Option<Decision> {
    Some(match text {
        "roll" => Decision::Roll,
        "double" => Decision::Double,
        "accept" => Decision::Accept,
        "reject" => Decision::Reject,
        "resign n" => Decision::Resign(Stake::Normal),
        "resign g" => Decision::Resign(Stake::Gammon),
        "resign b" => Decision::Resign(Stake::Backgammon),
        _ => Decision::Move(play(text.strip_prefix("move")?)?),
    })
}

/// A decision, with the dice that are thrown if they are written behind it.
fn thrown(text: &str) -> Option<(Decision, [u8; 2])> {
    let words: Vec<&str> = text.split(' ').collect();
    if let [before @ .., first, second] = words.as_slice()
        && let (Ok(first), Ok(second)) = (first.parse(), second.parse())
    {
        return Some((decision(&before.join(" "))?, [first, second]));
    }
    Some((decision(text)?, [1, 1]))
}

fn after(text: &str) -> Option<After<'_>> {
    Some(match text {
        "nothing" => After::Nothing,
        _ if text.starts_with(char::is_alphabetic) => After::Named(text),
        _ => After::Changed(parts(text, " ").map(|change| pair(change, '=')).collect::<Option<_>>()?),
    })
}

impl<'a> Row<'a> {
    /// Adds what a line says, if it is a line of a board.
    fn add(&mut self, line: &'a str) -> Option<()> {
        if self.board.is_empty() {
            self.board = line.starts_with("board:").then_some(line)?;
        } else if let Some((what, becomes)) = line.split_once(" -> ") {
            let (decision, dice) = thrown(what)?;
            self.effects.push((decision, dice, after(becomes)?));
        } else {
            let (what, rest) = line.split_once(':')?;
            match (what, what.split_once(' ')) {
                ("no position", _) if self.phase.is_empty() && self.fault.is_none() => self.fault = Some(rest.trim()),
                (_, Some((phase, direction @ ("up" | "down")))) if self.phase.is_empty() && self.fault.is_none() => {
                    let (own, other) = rest.split_once("against")?;
                    (self.phase, self.direction) = (phase, direction);
                    (self.own, self.other) = (checkers(own)?, checkers(other)?);
                }
                (_, Some(("plays", dice))) if self.plays.is_none() => {
                    self.plays = Some((dice.parse().ok()?, plays(rest)?))
                }
                ("lists", _) => self.count = Some(rest.trim().parse().ok()?),
                (why, None) => {
                    let why = (why != "allowed").then_some(why);
                    for text in parts(rest, ",") {
                        self.answers.push((decision(text)?, why));
                    }
                }
                _ => return None,
            }
        }
        Some(())
    }
}

/// What of each line is no comment, with its number, but for empty ones.
fn lines(text: &str) -> impl Iterator<Item = (usize, &str)> {
    let lines = text.lines().map(|line| line.split('#').next().unwrap_or("").trim_end());
    (1..).zip(lines).filter(|(_, line)| !line.is_empty())
}

/// The rows of `boards.txt`, or where it is wrong, and how.
pub fn rows(text: &str) -> Result<Vec<Row<'_>>, String> {
    let mut rows: Vec<Row> = Vec::new();
    for (at, line) in lines(text) {
        if let Some(name) = line.strip_prefix("= ") {
            rows.push(Row { name, ..Row::default() });
        } else {
            let is_twice = rows.iter().any(|row| row.board == line);
            if is_twice || rows.last_mut().is_none_or(|row| row.add(line).is_none()) {
                return Err(format!("boards.txt:{at}: this is no line of a board, or that of another: {line}"));
            }
        }
    }
    match rows.iter().find(|row| row.phase.is_empty() && row.fault.is_none()) {
        Some(row) => Err(format!("boards.txt: nothing is seen on the board `{}`", row.name)),
        None => Ok(rows),
    }
}

/// The turn of a row of `turns.txt`, if it is one.
fn turn(line: &str) -> Option<WorkedTurn<'_>> {
    let columns: Vec<&str> = line.split('|').map(str::trim).collect();
    let [name, own, other, dice, listed, refused] = columns.as_slice() else { return None };
    let dice: (u8, u8) = pair(dice, ' ')?;
    let (own, other) = (checkers(own)?, checkers(other)?);
    Some(WorkedTurn { name, own, other, dice: [dice.0, dice.1], plays: plays(listed)?, refused: plays(refused)? })
}

/// The turns of `turns.txt`, or where it is wrong.
pub fn turns(text: &str) -> Result<Vec<WorkedTurn<'_>>, String> {
    lines(text).map(|(at, line)| turn(line).ok_or(format!("turns.txt:{at}: this is no turn: {line}"))).collect()
}
