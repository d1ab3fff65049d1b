//! A game as it stands, and what a board shows of it. A side is a number: 0 is the player's.

use crate::{Board, Play, Position, field};

pub const OWN: usize = 0;
pub const OTHER: usize = 1;

/// The checkers of a side at the beginning of a game, in its own numbers.
const START: [u8; 26] = {
    let mut side = [0; 26];
    (side[6], side[8], side[13], side[24]) = (5, 3, 5, 2);
    side
};

/// What a side does. A play may have no step.
#[derive(Clone, Copy)]
pub enum Action {
    Roll,
    Play { side: usize, dice: [u8; 2], play: Play },
    Double(usize),
    Take(usize),
}

/// The dice that a text names, the greater first.
#[derive(Clone, Copy, PartialEq, Eq)]
pub struct Roll {
    pub side: usize,
    pub dice: [u8; 2],
}

/// The checkers of both sides, each in its own numbers, whose turn it is, the dice, the greater first, the cube and who
/// owns it, and who has doubled.
#[derive(Clone, Copy)]
pub struct State {
    pub sides: [[u8; 26]; 2],
    pub turn: Option<usize>,
    pub dice: Option<[u8; 2]>,
    pub cube: i32,
    pub owner: Option<usize>,
    pub doubler: Option<usize>,
}

impl State {
    /// The beginning of a game.
    pub const BEGUN: State = State { sides: [START; 2], turn: None, dice: None, cube: 1, owner: None, doubler: None };

    /// Whether a side bore off its last checker.
    pub fn is_won(&self) -> bool {
        self.sides.iter().any(|side| side[0] == 15)
    }
}

/// What is read of a board of the player's own game.
pub struct Seen {
    pub opponent: String,
    pub length: i32,
    pub scores: [i32; 2],
    pub sides: [[u8; 26]; 2],
    /// None if the game is over.
    pub turn: Option<usize>,
    pub dice: Option<[u8; 2]>,
    pub cube: i32,
    pub was_doubled: bool,
}

impl Seen {
    pub fn of(board: &Board, position: &Position) -> Seen {
        let turn = match board.get(field::TURN) {
            Some(0) => None,
            turn if turn == board.get(field::COLOUR) => Some(OWN),
            _ => Some(OTHER),
        };
        let dice = if turn == Some(OWN) { board.dice() } else { board.opponent_dice() };
        Seen {
            opponent: board.opponent().to_string(),
            length: board.length().unwrap_or(field::UNLIMITED),
            scores: [board.score(), board.opponent_score()],
            sides: position.checkers(),
            turn,
            dice: dice.filter(|dice| !dice.contains(&0)).map(sorted),
            cube: board.cube(),
            was_doubled: board.was_doubled(),
        }
    }

    /// Whether the game is over.
    pub fn is_over(&self) -> bool {
        self.turn.is_none()
    }

    /// Whether it shows a state.
    pub fn shows(&self, state: &State) -> bool {
        if state.sides != self.sides || state.cube != self.cube {
            return false;
        }
        if self.is_over() {
            return state.is_won();
        }
        let doubler = if self.was_doubled { OTHER } else { OWN };
        match state.doubler {
            Some(side) => side == doubler && self.dice.is_none(),
            None => !self.was_doubled && state.turn == self.turn && state.dice == self.dice,
        }
    }
}

/// Dice with the greater one first.
pub fn sorted(dice: [u8; 2]) -> [u8; 2] {
    [dice[0].max(dice[1]), dice[0].min(dice[1])]
}
