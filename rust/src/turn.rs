//! A turn step by step: which steps go on to a legal play, and which play they make. Written by hand.
//!
//! What one checker may do by one die is asked of the rules, and what a legal play reaches is in the list of plays.
//! What is searched here is which steps lead to an arrangement of that list.

use crate::fibs_rules::Arrangement;
use crate::{Board, BoardFault, Decision, Disallowed, Play, Position, Step};
use std::collections::BTreeMap;

/// A step that may be played next.
#[derive(Clone, Copy, Debug, PartialEq, Eq, Hash)]
#[non_exhaustive]
pub struct NextStep {
    /// From where to where, in the player's own numbers.
    pub step: Step,
    /// The die that it takes.
    pub die: u8,
    /// Whether it hits a checker of the opponent.
    pub hits: bool,
}

/// The checkers, and the dice that are left, the smaller first; and the step that led there.
#[derive(Clone, Debug)]
struct State {
    arrangement: Arrangement,
    dice: Vec<u8>,
    step: Option<NextStep>,
}

/// The turn of a player who is to move: the steps that were taken, and those that may follow.
///
/// ```
/// # let line = "board:You:bob:1:0:0:0:-2:0:0:0:0:5:0:3:0:0:0:-5:5:0:0:0:-3:0:-5:0:0:0:0:2:0:1:\
/// #     6:2:0:0:1:1:1:0:1:-1:0:25:0:0:0:0:2:0:0:0";
/// use fibs::{Board, Disallowed, Turn};
///
/// let board: Board = line.parse()?;
/// let mut turn = Turn::of(&board)?;
/// assert_eq!(turn.next_steps()[0].step, "24/22".parse()?);
/// turn.take("24/18".parse()?, None)?;
/// assert_eq!((turn.dice(), turn.play()), (&[2][..], None));
/// assert_eq!(turn.take("24/18".parse()?, None), Err(Disallowed::IllegalPlay));
/// turn.take("18/16".parse()?, None)?;
/// assert!(turn.next_steps().is_empty());
/// // the play of the list that leads to the same arrangement
/// assert_eq!(turn.play(), Some("24/22 22/16".parse()?));
/// # Ok::<(), Box<dyn std::error::Error>>(())
/// ```
#[derive(Clone, Debug)]
pub struct Turn {
    /// Before the first step, and after each.
    states: Vec<State>,
    /// The listed play of each arrangement that a legal play reaches.
    listed: BTreeMap<Arrangement, Play>,
}

impl Turn {
    /// The turn of the player of a board, before his first step.
    ///
    /// # Errors
    /// Why the board has no position, why the player may not move, or that memory runs out.
    pub fn of(board: &Board) -> Result<Turn, BoardFault> {
        let position = Position::of(board)?;
        // a play without a step is asked for: it is of the right kind where some play is
        match position.allows(&Decision::Move(Play::new())) {
            Err(why) if why != Disallowed::IllegalPlay => return Err(why.into()),
            _ => {}
        }
        let [own, mut other] = position.checkers();
        other.reverse();
        let arrangement = Arrangement::of_counts(own, other);
        let reached = |play: Play| Some((arrangement.carried_out(play.steps())?, play));
        let listed = position.plays()?.into_iter().filter_map(reached).collect();
        let start = State { arrangement, dice: given(board.dice().unwrap_or_default()), step: None };
        Ok(Turn { states: vec![start], listed })
    }

    /// How many steps were taken, and what they led to.
    fn now(&self) -> (usize, &State) {
        let taken = self.states.len() - 1;
        (taken, &self.states[taken])
    }

    /// The checkers of the player and of the opponent after the steps, each in its own numbers: those borne off, those
    /// on the places 1 to 24, and those on the bar.
    pub fn checkers(&self) -> [[u8; 26]; 2] {
        let (own, other) = self.now().1.arrangement.counts();
        let mut other = *other;
        other.reverse();
        [*own, other]
    }

    /// The dice that are left: after a roll of doubles up to four.
    pub fn dice(&self) -> &[u8] {
        &self.now().1.dice
    }

    /// The steps that were taken.
    pub fn taken(&self) -> impl Iterator<Item = NextStep> {
        self.states.iter().filter_map(|state| state.step)
    }

    /// The steps each of which goes on to a legal play, in the order of the list of plays; none if the play is whole. A
    /// checker that either die bears off is there with each.
    pub fn next_steps(&self) -> Vec<NextStep> {
        self.next_states().filter_map(|state| state.step).collect()
    }

    fn next_states(&self) -> impl Iterator<Item = State> {
        let (taken, now) = self.now();
        now.next().into_iter().filter(move |next| self.leads(next, taken + 1))
    }

    /// Whether a state after so many steps is that of a listed play, or one that leads there.
    fn leads(&self, state: &State, taken: usize) -> bool {
        self.play_of(state, taken).is_some() || state.next().iter().any(|next| self.leads(next, taken + 1))
    }

    /// The listed play that reaches the same by as many steps.
    fn play_of(&self, state: &State, taken: usize) -> Option<Play> {
        self.listed.get(&state.arrangement).filter(|play| play.steps().len() == taken).copied()
    }

    /// Takes a step, by this die, or by the smallest that it can be taken by. Gives it as it was listed.
    ///
    /// # Errors
    /// [`Disallowed::IllegalPlay`] if the step is not one of the next ones. Then nothing is taken.
    pub fn take(&mut self, step: Step, die: Option<u8>) -> Result<NextStep, Disallowed> {
        let is_meant = |next: &NextStep| next.step == step && die.is_none_or(|die| next.die == die);
        let state = self.next_states().find(|state| state.step.as_ref().is_some_and(is_meant));
        let next = state.as_ref().and_then(|state| state.step).ok_or(Disallowed::IllegalPlay)?;
        self.states.extend(state);
        Ok(next)
    }

    /// Takes the last step back. None if there is none.
    pub fn undo(&mut self) -> Option<NextStep> {
        if self.states.len() == 1 {
            return None;
        }
        self.states.pop().and_then(|state| state.step)
    }

    /// The play of [`Position::plays`] that leads to the same arrangement as the steps. None if more has to be played.
    pub fn play(&self) -> Option<Play> {
        let (taken, now) = self.now();
        self.play_of(now, taken)
    }
}

impl TryFrom<&Board> for Turn {
    type Error = BoardFault;

    fn try_from(board: &Board) -> Result<Turn, BoardFault> {
        Turn::of(board)
    }
}

impl State {
    /// What one step by a die leads to, whether or not the others can then be played.
    fn next(&self) -> Vec<State> {
        let mut found = Vec::new();
        for source in (1..=25).rev() {
            for (at, die) in self.dice.iter().enumerate() {
                if at == 0 || self.dice[at - 1] != *die {
                    found.extend(self.after(source, *die));
                }
            }
        }
        found
    }

    /// What a step from a place by a die leads to. None if the rules forbid it.
    fn after(&self, source: u8, die: u8) -> Option<State> {
        let arrangement = self.arrangement.one(source, die)?;
        let step = Step::new(source, source.saturating_sub(die))?;
        let hits = arrangement.other(0) > self.arrangement.other(0);
        let mut dice = self.dice.clone();
        dice.remove(dice.iter().position(|left| *left == die)?);
        Some(State { arrangement, dice, step: Some(NextStep { step, die, hits }) })
    }
}

/// The dice that two shown ones give, the smaller first: equal ones four times. A die that is not shown is 0.
fn given(shown: [u8; 2]) -> Vec<u8> {
    match shown {
        [first, second] if first == second => vec![first; 4],
        [first, second] => [first.min(second), first.max(second)].into_iter().filter(|die| *die > 0).collect(),
    }
}
