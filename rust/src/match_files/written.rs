//! How a match is written in the format of Jellyfish.

use super::state::{Action, OTHER, OWN};
use super::{Game, Match};
use crate::{Play, field};

/// The text of a match file.
pub fn text_of(of: &Match) -> String {
    let mut text = format!(" {} point match\n\n", if of.length < field::UNLIMITED { of.length } else { 0 });
    for (number, game) in (1..).zip(of.games()) {
        text += &text_of_game(of, number, game);
    }
    text
}

fn text_of_game(of: &Match, number: usize, game: &Game) -> String {
    let [own, other] = [OWN, OTHER].map(|side| format!("{} : {}", of.names[side], game.scores[side]));
    let mut text = format!(" Game {number}\n {own:<31}{other}\n");
    for (number, [own, other]) in (1..).zip(rows(game)) {
        // at least two spaces part the columns
        text += &format!("{number:>3}) {own:<26}  {other}\n");
    }
    if let Some((winner, points)) = game.won {
        let indent = if winner == OWN { 6 } else { 34 };
        let plural = if points == 1 { "" } else { "s" };
        let ends = if of.is_won_by(game) { " and the match" } else { "" };
        text += &format!("{:indent$}Wins {points} point{plural}{ends}\n", "");
    }
    text + "\n"
}

/// What was done in a game in two columns, a pair a row.
fn rows(game: &Game) -> Vec<[String; 2]> {
    let mut rows: Vec<[String; 2]> = Vec::new();
    for (side, text) in entries(game) {
        match rows.last_mut().filter(|row| row[side].is_empty() && row[OTHER].is_empty()) {
            Some(row) => row[side] = text,
            None => {
                let mut row = [String::new(), String::new()];
                row[side] = text;
                rows.push(row);
            }
        }
    }
    rows
}

/// What was done in a game, each with its side: rolls with their plays, and the cube.
fn entries(game: &Game) -> Vec<(usize, String)> {
    let (mut entries, mut cube) = (Vec::new(), 1i64);
    for action in &game.actions {
        match action {
            Action::Roll => {}
            Action::Play { side, dice, play } => entries.push((*side, spelled(*dice, play))),
            Action::Double(side) => {
                cube = cube.saturating_mul(2);
                entries.push((*side, format!(" Doubles => {cube}")));
            }
            Action::Take(side) => entries.push((*side, " Takes".into())),
        }
    }
    if let (true, Some((winner, _))) = (game.is_dropped, game.won) {
        entries.push((1 - winner, " Drops".into()));
    }
    entries
}

/// A roll with its play, as `62: 24/18 13/11`.
fn spelled(dice: [u8; 2], play: &Play) -> String {
    format!("{}{}: {play}", dice[0], dice[1])
}
