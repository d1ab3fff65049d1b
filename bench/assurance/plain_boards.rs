//! Boards and decisions, for `plain_replay.rs`.

use super::plain_rules::{numbers_of, Checkers, Play, BAR, OFF};
use super::plain_show::{check_board, decimal, without_trailing_spaces};

pub const LARGEST_CUBE: i32 = 1_048_576;

/// Prints a number behind a line.
pub fn push_number(line: &mut Vec<u8>, number: i32) {
    if number < 0 {
        line.push(b'-');
    }
    let (mut digits, mut at, mut rest) = ([0; 10], 10, number.unsigned_abs());
    while rest > 0 || at == 10 {
        at -= 1;
        digits[at] = b'0' + (rest % 10) as u8;
        rest /= 10;
    }
    line.extend_from_slice(&digits[at..]);
}

#[derive(Clone, Copy, PartialEq, Eq)]
pub enum Decision {
    Roll,
    Double,
    Accept,
    Reject,
    /// The first letter of what is lost.
    Resign(u8),
    Move(Play),
}

#[derive(Clone, Copy, PartialEq, Eq)]
pub enum Phase {
    Over,
    AnswerDouble,
    OpponentActs,
    RollOrDouble,
    Move,
    Passing,
}

impl Phase {
    pub fn is_decided(self) -> bool {
        matches!(self, Phase::AnswerDouble | Phase::RollOrDouble | Phase::Move)
    }

    /// Whether a decision is of one of its kinds.
    pub fn takes(self, decision: &Decision) -> bool {
        match decision {
            Decision::Roll | Decision::Double => self == Phase::RollOrDouble,
            Decision::Accept | Decision::Reject => self == Phase::AnswerDouble,
            Decision::Resign(_) => matches!(self, Phase::RollOrDouble | Phase::Move),
            Decision::Move(_) => self == Phase::Move,
        }
    }
}

/// A board that was read. Its fields are counted from 1, as in the page; those of names are 0.
#[derive(Clone, PartialEq, Eq)]
pub struct Board {
    pub player: Vec<u8>,
    pub opponent: Vec<u8>,
    pub fields: [i32; 54],
}

impl Board {
    pub fn read(line: &[u8]) -> Option<Board> {
        let line = without_trailing_spaces(line);
        if !line.starts_with(b"board:") || check_board(line).is_err() {
            return None;
        }
        let texts: Vec<&[u8]> = line.split(|byte| *byte == b':').collect();
        let mut fields = [0; 54];
        for (field, text) in fields[4..].iter_mut().zip(&texts[3..]) {
            *field = decimal(text, -99_999_999, 99_999_999).ok()? as i32;
        }
        Some(Board { player: texts[1].to_vec(), opponent: texts[2].to_vec(), fields })
    }

    pub fn printed(&self) -> Vec<u8> {
        let mut line = Vec::with_capacity(160);
        for text in [b"board:", self.player.as_slice(), b":", self.opponent.as_slice()] {
            line.extend_from_slice(text);
        }
        for field in &self.fields[4..] {
            line.push(b':');
            push_number(&mut line, *field);
        }
        line
    }

    /// The own number of a place of the board, and the place of an own number.
    pub fn number(&self, place: usize) -> usize {
        if self.fields[43] == -1 || place == BAR || place == OFF {
            place
        } else {
            25 - place
        }
    }

    pub fn side(&self, colour: i32) -> [u8; 26] {
        let mut counts = [0; 26];
        for place in 1..25 {
            counts[self.number(place)] = (colour * self.fields[7 + place]).max(0) as u8;
        }
        counts
    }

    /// The checkers of a good board: those that are nowhere else are on the bar.
    pub fn checkers(&self) -> Checkers {
        let (mut own, other) = (self.side(self.fields[42]), self.side(-self.fields[42]));
        own[OFF] = self.fields[46] as u8;
        own[BAR] = 15 - own.iter().sum::<u8>();
        Checkers { own, other }
    }

    pub fn is_good(&self) -> bool {
        let on = |colour: i32| self.side(colour).iter().map(|count| i32::from(*count)).sum::<i32>();
        let colour = self.fields[42];
        self.player == b"You" && on(colour) + self.fields[46] <= 15 && on(-colour) + self.fields[47] <= 15
    }

    pub fn dice(&self) -> Vec<usize> {
        numbers_of([self.fields[34], self.fields[35]])
    }

    pub fn phase(&self) -> Phase {
        let fields = &self.fields;
        if fields[33] == 0 {
            return Phase::Over;
        }
        if fields[41] != 0 {
            return Phase::AnswerDouble;
        }
        if fields[33] != fields[42] {
            return Phase::OpponentActs;
        }
        let (dice, checkers) = (self.dice(), self.checkers());
        if dice.is_empty() {
            return Phase::RollOrDouble;
        }
        if dice.iter().any(|die| checkers.can_go(*die)) {
            Phase::Move
        } else {
            Phase::Passing
        }
    }

    /// A cube goes up to 1,048,576, so a higher one can neither be offered nor taken.
    pub fn cube_allows(&self, decision: &Decision) -> bool {
        let goes_up = self.fields[38] <= LARGEST_CUBE / 2;
        match decision {
            Decision::Double => self.fields[39] == 1 && goes_up,
            Decision::Accept => goes_up,
            _ => true,
        }
    }

    /// The server's board after a decision of the user.
    pub fn decided(&self, decision: &Decision, dice: (u8, u8)) -> Board {
        let mut after = self.clone();
        let fields = &mut after.fields;
        match decision {
            Decision::Roll => {
                fields[34..38].copy_from_slice(&[i32::from(dice.0), i32::from(dice.1), 0, 0]);
            }
            Decision::Double | Decision::Resign(_) => fields[33] = -fields[42],
            Decision::Accept => {
                fields[33] = -fields[42];
                fields[38] *= 2;
                fields[39..42].copy_from_slice(&[1, 0, 0]);
            }
            Decision::Reject => {
                fields[33] = 0;
                fields[41] = 0;
            }
            Decision::Move(play) => return self.moved(play),
        }
        after
    }

    pub fn moved(&self, play: &Play) -> Board {
        let mut checkers = self.checkers();
        for (source, target) in play.steps() {
            checkers = checkers.after(usize::from(*source), usize::from(*target));
        }
        let (mut after, colour) = (self.clone(), self.fields[42]);
        for place in 1..25 {
            let count = i32::from(checkers.own[place]) - i32::from(checkers.other[place]);
            after.fields[7 + self.number(place)] = colour * count;
        }
        // the fields of the bars stay as they were: who is on the bar follows from the other places
        after.fields[33] = if checkers.own[OFF] == 15 { 0 } else { -colour };
        after.fields[34..36].copy_from_slice(&[0, 0]);
        after.fields[46] = i32::from(checkers.own[OFF]);
        after
    }
}

/// A decision, its places in the numbers of the text.
pub fn read_decision(text: &[u8]) -> Option<Decision> {
    match text {
        b"roll" => return Some(Decision::Roll),
        b"double" => return Some(Decision::Double),
        b"accept" => return Some(Decision::Accept),
        b"reject" => return Some(Decision::Reject),
        [b'r', b'e', b's', b'i', b'g', b'n', b' ', letter @ (b'n' | b'g' | b'b')] => {
            return Some(Decision::Resign(*letter));
        }
        _ => {}
    }
    let mut words = text.split(|byte| *byte == b' ');
    if words.next() != Some(b"move") {
        return None;
    }
    let place = |name: &[u8], word: &[u8], number: usize| {
        if name == word {
            Some(number)
        } else {
            decimal(name, 1, 24).ok().map(|place| place as usize)
        }
    };
    let mut play = Play::default();
    for word in words {
        let middle = word.iter().position(|byte| *byte == b'-')?;
        if play.count == 4 {
            return None;
        }
        play = play.and(place(&word[..middle], b"bar", BAR)?, place(&word[middle + 1..], b"off", OFF)?);
    }
    Some(Decision::Move(play))
}

/// The same decision in the other numbers of a board.
pub fn renumbered(decision: &Decision, board: &Board) -> Decision {
    let Decision::Move(play) = decision else {
        return *decision;
    };
    let number = |place: u8| board.number(usize::from(place));
    Decision::Move(play.steps().iter().fold(Play::default(), |all, (a, b)| all.and(number(*a), number(*b))))
}

/// The command of a decision whose places are in the numbers of the text.
pub fn command(decision: &Decision) -> Vec<u8> {
    let end = |place: u8| match usize::from(place) {
        BAR => "bar".to_string(),
        OFF => "off".to_string(),
        number => number.to_string(),
    };
    match decision {
        Decision::Roll => b"roll".to_vec(),
        Decision::Double => b"double".to_vec(),
        Decision::Accept => b"accept".to_vec(),
        Decision::Reject => b"reject".to_vec(),
        Decision::Resign(letter) => [b"resign ".as_slice(), &[*letter]].concat(),
        Decision::Move(play) => {
            let steps = play.steps().iter().map(|(a, b)| format!(" {}-{}", end(*a), end(*b)));
            ("move".to_string() + &steps.collect::<String>()).into_bytes()
        }
    }
}
