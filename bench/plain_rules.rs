//! The legal plays of backgammon in plain Rust over std alone, without proofs: written from the rules, and from nothing
//! that is proved. `plain_plays.rs` lists plays by them, the peer of `fibs_bench plays`; `assurance/plain_replay.rs`
//! judges clicks; `rust/tests/plays.rs` compares the lists of positions with theirs.

use std::convert::TryInto;

/// The places of the bar and of the checkers borne off, in the player's own numbering.
pub const BAR: usize = 25;
pub const OFF: usize = 0;

/// Up to four steps, each from a place to a place.
#[derive(Clone, Copy, Default, PartialEq, Eq)]
pub struct Play {
    pub all: [(u8, u8); 4],
    pub count: usize,
}

impl Play {
    pub fn steps(&self) -> &[(u8, u8)] {
        &self.all[..self.count]
    }

    pub fn and(mut self, source: usize, target: usize) -> Play {
        self.all[self.count] = (source as u8, target as u8);
        self.count += 1;
        self
    }
}

/// The checkers of both sides by own numbers: the player goes from 24 down to 1. The other side's are those on 1 to 24.
#[derive(Clone, Copy, PartialEq, Eq)]
pub struct Checkers {
    pub own: [u8; 26],
    pub other: [u8; 26],
}

/// What takes the plays that a search finds.
pub trait Finds {
    /// Whether it asks for each order of steps by equal dice, or only for those whose sources do not rise.
    const EACH_ORDER: bool;

    /// Takes a play, and the checkers after it.
    fn take(&mut self, reached: &Checkers, play: &Play);

    /// Forgets those taken: there is a longer one, or one by the larger die.
    fn forget(&mut self);
}

impl Finds for Vec<Play> {
    const EACH_ORDER: bool = true;

    fn take(&mut self, _: &Checkers, play: &Play) {
        self.push(*play);
    }

    fn forget(&mut self) {
        self.clear();
    }
}

/// What two dice give to play; 0 is none, and a double is played four times.
pub fn numbers_of(dice: [i32; 2]) -> Vec<usize> {
    let [one, two] = dice.map(|die| die as usize);
    match (one, two) {
        (0, 0) => Vec::new(),
        (0, die) | (die, 0) => vec![die],
        _ if one == two => vec![one; 4],
        _ => vec![one, two],
    }
}

impl Checkers {
    /// The place that a checker of `source` reaches with a die, if it may go.
    pub fn target(&self, source: usize, die: usize) -> Option<usize> {
        if self.own[source] == 0 || (source != BAR && self.own[BAR] > 0) {
            return None;
        }
        if source > die {
            return if self.other[source - die] < 2 { Some(source - die) } else { None };
        }
        // all have to be home; with a die that is larger than needed only the hindmost checker is borne off
        let behind = if source < die { source + 1 } else { 7 };
        if self.own[behind..].iter().any(|count| *count > 0) { None } else { Some(OFF) }
    }

    /// The checkers after a step, which may hit.
    pub fn after(&self, source: usize, target: usize) -> Checkers {
        let mut next = *self;
        next.own[source] -= 1;
        next.own[target] += 1;
        if target != OFF {
            next.other[target] = 0;
        }
        next
    }

    /// Whether any checker may go by a die.
    pub fn can_go(&self, die: usize) -> bool {
        (1..=BAR).any(|source| self.target(source, die).is_some())
    }

    /// Finds the plays that use the numbers most fully; if only one of two can be used, the larger if it can be.
    pub fn find(&self, numbers: &[usize], finds: &mut impl Finds) {
        let mut search = Search { longest: 0, finds };
        search.try_all(self, numbers, BAR, &Play::default());
        let [one, two] = numbers[..] else {
            return;
        };
        search.try_all(self, &[two, one], BAR, &Play::default());
        if search.longest == 1 && self.can_go(one.max(two)) {
            search.finds.forget();
            search.try_all(self, &[one.max(two)], BAR, &Play::default());
        }
    }

    /// The legal plays in each order of their steps, those from lower places first; none if no checker may go.
    pub fn legal_plays(&self, numbers: &[usize]) -> Vec<Play> {
        let mut found = Vec::new();
        let backwards: Vec<usize> = numbers.iter().rev().copied().collect();
        self.find(&backwards, &mut found);
        found.reverse();
        found
    }
}

struct Search<'a, F> {
    /// The steps of a play that was found, and none has more.
    longest: usize,
    finds: &'a mut F,
}

impl<F: Finds> Search<'_, F> {
    /// Tries these numbers one after another, from places up to `top`.
    fn try_all(&mut self, from: &Checkers, numbers: &[usize], top: usize, play: &Play) {
        let Some((&die, rest)) = numbers.split_first() else {
            return self.end(from, play);
        };
        let mut is_stuck = true;
        for source in (1..=top).rev() {
            if let Some(target) = from.target(source, die) {
                is_stuck = false;
                let top = if !F::EACH_ORDER && rest.first() == Some(&die) { source } else { BAR };
                self.try_all(&from.after(source, target), rest, top, &play.and(source, target));
            }
        }
        if is_stuck {
            self.end(from, play);
        }
    }

    /// Hands on a play that can't go on, if none that was found is longer.
    fn end(&mut self, reached: &Checkers, play: &Play) {
        if play.count == 0 || play.count < self.longest {
            return;
        }
        if play.count > self.longest {
            self.finds.forget();
            self.longest = play.count;
        }
        self.finds.take(reached, play);
    }
}

const SLOTS: usize = 8192;

/// The greatest play for each arrangement of checkers, in a table that is searched by a hash.
pub struct Plays {
    slots: Vec<u32>,
    pub found: Vec<(Checkers, Play)>,
}

impl Plays {
    pub fn new() -> Plays {
        Plays { slots: vec![0; SLOTS], found: Vec::new() }
    }

    /// Lists the plays by two dice, the greatest first.
    pub fn list(&mut self, from: &Checkers, dice: [i32; 2]) {
        self.forget();
        from.find(&numbers_of(dice), self);
        // those by equal dice were found in this order
        if dice[0] != dice[1] {
            self.found.sort_unstable_by(|a, b| b.1.all.cmp(&a.1.all));
        }
    }
}

impl Finds for Plays {
    const EACH_ORDER: bool = false;

    fn take(&mut self, reached: &Checkers, play: &Play) {
        let mut at = hash(reached) as usize % SLOTS;
        while self.slots[at] != 0 {
            let kept = &mut self.found[self.slots[at] as usize - 1];
            if kept.0 == *reached {
                if kept.1.all < play.all {
                    kept.1 = *play;
                }
                return;
            }
            at = (at + 1) % SLOTS;
        }
        self.found.push((*reached, *play));
        self.slots[at] = self.found.len() as u32;
    }

    fn forget(&mut self) {
        for (reached, _) in self.found.drain(..) {
            let mut at = hash(&reached) as usize % SLOTS;
            while self.slots[at] != 0 {
                self.slots[at] = 0;
                at = (at + 1) % SLOTS;
            }
        }
    }
}

fn hash(reached: &Checkers) -> u64 {
    let mut hash = 0u64;
    for bytes in [&reached.own, &reached.other] {
        for at in [0, 8, 16, 18] {
            let word = u64::from_le_bytes(bytes[at..at + 8].try_into().unwrap());
            hash = (hash ^ word).wrapping_mul(0x9E37_79B9_7F4A_7C15).rotate_left(29);
        }
    }
    hash
}
