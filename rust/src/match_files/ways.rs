//! The way from one board to the next: rolls, plays and doubles.

use super::state::{Action, OTHER, OWN, Roll, Seen, State};
use crate::AllocError;
use crate::fibs_rules::{Arrangement, Turn};

/// How many plays the search goes: a lost connection hides an own one and the answer to it.
const MOST_PLAYS: usize = 2;

/// A way: what was done, and the state that it leads to.
pub struct Found {
    pub actions: Vec<Action>,
    pub state: State,
}

/// What can be done in a state, the state that it leads to, and how many of the rolls that were told it takes.
type Next = (Action, State, usize);

/// The way with the fewest plays from a state to what a board shows. Each roll that was told has to be on it; if no way
/// has them, they are left aside. None if there is none.
pub fn shortest(state: &State, told: &[Roll], board: &Seen) -> Result<Option<Found>, AllocError> {
    let given: &[&[Roll]] = if told.is_empty() { &[&[]] } else { &[told, &[]] };
    for told in given {
        for most in 0..=MOST_PLAYS {
            if let Some(way) = way(state, told, board, most)? {
                return Ok(Some(way));
            }
        }
    }
    Ok(None)
}

/// A way with at most so many plays.
pub fn way(state: &State, told: &[Roll], board: &Seen, most: usize) -> Result<Option<Found>, AllocError> {
    let mut actions = Vec::new();
    let end = search(state, told, board, most, &mut actions)?;
    Ok(end.map(|state| Found { actions, state }))
}

/// The state at the end of a way, whose actions are added.
fn search(
    state: &State,
    told: &[Roll],
    board: &Seen,
    most: usize,
    actions: &mut Vec<Action>,
) -> Result<Option<State>, AllocError> {
    if told.is_empty() && board.shows(state) {
        return Ok(Some(*state));
    }
    if !can_reach(state, board, most) {
        return Ok(None);
    }
    for (action, next, taken) in steps(state, told, board, most)? {
        actions.push(action);
        let left = most - usize::from(matches!(action, Action::Play { .. }));
        if let Some(end) = search(&next, told.get(taken..).unwrap_or_default(), board, left, actions)? {
            return Ok(Some(end));
        }
        actions.pop();
    }
    Ok(None)
}

/// What can be done in a state on the way to a board.
fn steps(state: &State, told: &[Roll], board: &Seen, most: usize) -> Result<Vec<Next>, AllocError> {
    if let Some(side) = state.doubler {
        let cube = state.cube.saturating_mul(2);
        let taken = State { cube, owner: Some(1 - side), turn: Some(side), doubler: None, ..*state };
        return Ok(vec![(Action::Take(1 - side), taken, 0)]);
    }
    let mut found: Vec<Next> = doubled(state, board).into_iter().collect();
    match (state.is_won(), state.turn, state.dice) {
        (true, _, _) => {}
        (false, Some(side), Some(dice)) if most > 0 => found.extend(plays(state, side, dice)?),
        (false, Some(_), Some(_)) => {}
        (false, turn, _) => found.extend(rolls(state, turn, told.first())),
    }
    Ok(found)
}

/// A double, if the board shows that there was one.
fn doubled(state: &State, board: &Seen) -> Option<Next> {
    let side = state.turn.filter(|side| state.dice.is_none() && state.owner.is_none_or(|owner| owner == *side))?;
    let is_shown = board.cube > state.cube || board.was_doubled;
    is_shown.then_some((Action::Double(side), State { doubler: Some(side), ..*state }, 0))
}

/// The rolls of a side, or at the beginning of either: that which was told, or any.
fn rolls(state: &State, turn: Option<usize>, told: Option<&Roll>) -> Vec<Next> {
    let mut found = Vec::new();
    for side in turn.map_or(OWN..=OTHER, |side| side..=side) {
        for (first, second) in (1..=6).flat_map(|first| (1..=first).map(move |second| (first, second))) {
            let roll = Roll { side, dice: [first, second] };
            // who begins has the greater die
            if (turn.is_some() || first != second) && told.is_none_or(|told| *told == roll) {
                let next = State { turn: Some(side), dice: Some(roll.dice), ..*state };
                found.push((Action::Roll, next, usize::from(told.is_some())));
            }
        }
    }
    found
}

/// The plays of a side that has rolled; one without a step if nothing can be played.
fn plays(state: &State, side: usize, dice: [u8; 2]) -> Result<Vec<Next>, AllocError> {
    let (own, mut other) = (state.sides[side], state.sides[1 - side]);
    other.reverse();
    let start = Arrangement::of_counts(own, other);
    let mut found = Vec::new();
    for play in Turn::new(start, dice[0], dice[1]).plays()? {
        let Some(reached) = start.carried_out(play.steps()) else { continue };
        let (own, other) = reached.counts();
        let mut sides = [*own; 2];
        sides[side] = *own;
        sides[1 - side] = *other;
        sides[1 - side].reverse();
        let next = State { sides, turn: Some(1 - side), dice: None, ..*state };
        found.push((Action::Play { side, dice, play }, next, 0));
    }
    Ok(found)
}

/// False if so many plays can't lead to what a board shows.
fn can_reach(state: &State, board: &Seen, most: usize) -> bool {
    let first = state.turn.unwrap_or(OWN);
    let mut counts = [most.div_ceil(2); 2];
    if state.turn.is_some() {
        counts[1 - first] = most / 2;
    }
    state.cube <= board.cube
        && [OWN, OTHER].iter().all(|side| can_become(&state.sides[*side], &board.sides[*side], counts[*side]))
}

/// False if no plays, at most so many of this side, make its checkers those that are shown: none is taken back that was
/// borne off, a play goes at most 24 pips, and after the last play of the side only hits change them.
fn can_become(side: &[u8; 26], shown: &[u8; 26], most: usize) -> bool {
    let far = i64::try_from(24 * most).unwrap_or(i64::MAX);
    if side[0] > shown[0] || pips(side) - pips(shown) > far {
        return false;
    }
    most > 0 || (1..25).all(|place| side[place] == shown[place] || (side[place] == 1 && shown[place] == 0))
}

fn pips(side: &[u8; 26]) -> i64 {
    (0..).zip(side).map(|(place, count)| place * i64::from(*count)).sum()
}
