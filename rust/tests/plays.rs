//! The lists of plays of the worked boards beside those of a program without proofs.

use fibs::{Board, Phase, Play, Position, field};
use plain_rules::{Checkers, Plays};

#[path = "../../bench/plain_rules.rs"]
#[allow(dead_code, clippy::new_without_default, clippy::unnecessary_sort_by)]
mod plain_rules;

/// The checkers of a position.
fn checkers_of(position: &Position) -> Checkers {
    let on = |place| (position.own_on(place).unwrap_or(0), position.other_on(place).unwrap_or(0));
    let mut checkers = Checkers { own: [0; 26], other: [0; 26] };
    for place in 0..26 {
        let (own, other) = on(place);
        checkers.own[usize::from(place)] = own;
        checkers.other[usize::from(place)] = if (1..25).contains(&place) { other } else { 0 };
    }
    checkers
}

/// How many boards with two dice, on which a checker can move, have the list of the plain program.
#[test]
fn a_plain_program_finds_the_same_plays() {
    let lines = include_str!("../src/tests/boards.txt").lines().filter(|line| line.starts_with("board:"));
    let mut count = 0;
    for line in lines {
        let board: Board = line.parse().unwrap();
        let dice = [field::FIRST_DIE, field::SECOND_DIE].map(|die| board.get(die).unwrap());
        let Ok(position) = Position::try_from(&board) else { continue };
        if position.phase() != Phase::Move || dice.contains(&0) {
            continue;
        }
        let mut plain = Plays::new();
        plain.list(&checkers_of(&position), dice);
        let steps_of = |play: &Play| play.steps().iter().map(|step| (step.source(), step.target())).collect::<Vec<_>>();
        let plays = position.plays().unwrap();
        assert!(plays.iter().map(steps_of).eq(plain.found.iter().map(|(_, play)| play.steps().to_vec())), "{line}");
        count += 1;
    }
    assert!(count > 30, "{count}");
}
