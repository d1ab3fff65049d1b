//! Texts, boards and typed lines in any order, cut anywhere: each row fits, and the conversation goes on.

use super::lines::{DOUBLED, FIRST_BOARD, MOVED, OVER, SETTINGS, TO_MOVE, TO_ROLL, WELCOME};
use super::seats::{Cue, assert_wanted, plain_settings, shown};
use crate::rattle::alloc::AllocError;
use crate::rattle::may::*;

/// How many conversations are tried, and how many steps each has.
const CONVERSATIONS: u64 = 60;

const STEPS: usize = 400;

/// The same of short ones.
const SHORT_CONVERSATIONS: u64 = 3000;

const FEW_STEPS: usize = 24;

/// What may happen.
static EVENTS: [Cue<'static>; 64] = [
    Cue::Rests,
    Cue::Rests,
    Cue::Rests,
    Cue::Rests,
    Cue::Rests,
    Cue::Rests,
    Cue::Hears(TO_ROLL),
    Cue::Hears(TO_ROLL),
    Cue::Hears(TO_MOVE),
    Cue::Hears(TO_MOVE),
    Cue::Hears(MOVED),
    Cue::Hears(MOVED),
    Cue::Hears(DOUBLED),
    Cue::Hears(OVER),
    Cue::Types(b"roll"),
    Cue::Types(b"roll"),
    Cue::Types(b"double"),
    Cue::Types(b"move 24-22 24-18"),
    Cue::Types(b"resign g"),
    Cue::Types(b"accept"),
    Cue::Types(b"reject"),
    Cue::Types(b"board"),
    Cue::Types(b"help"),
    Cue::Types(b"send roll"),
    Cue::Types(b"send accept"),
    Cue::Types(b"leave"),
    Cue::Types(b"bye"),
    Cue::Hears(b"bob rejects. The game continues.\r\n"),
    Cue::Hears(b"bob accepts the double. The cube shows 2.\r\n"),
    Cue::Hears(b"bob accepts and wins 2 points.\r\n"),
    Cue::Hears(b"bob gives up. You win 1 point.\r\n"),
    Cue::Hears(b"bob wins the game and gets 1 point. Sorry.\r\n"),
    Cue::Hears(b"bob wins the 3 point match 3-0 .\r\n"),
    Cue::Hears(b"bob doubles. Type 'accept' or 'reject'.\r\n"),
    Cue::Hears(b"bob wants to resign. You will win 1 point.\r\n"),
    Cue::Hears(b"bob has joined you. Your running match was loaded.\r\n"),
    Cue::Hears(b"bob wants to resume a saved match with you.\r\n"),
    Cue::Hears(b"eve wants to play a 3 point match with you.\r\n"),
    Cue::Hears(b"bob rolls 3 and 1.\r\n"),
    Cue::Hears(b"bob moves 8-5 6-5 .\r\n"),
    Cue::Hears(b"bob drops connection. The game was saved.\r\n"),
    Cue::Hears(b"** Please wait for bob to join too.\r\n"),
    Cue::Hears(b"** Player bob has left the game. The game was saved.\r\n"),
    Cue::Hears(
        b"** Player aaaaaaaaaaaaaaaaaaaaaaaaaaaaaaaaaaaaaaaaaaaaaaaaaaaaaaaa has joined you for a 3 point match.\r\n",
    ),
    Cue::Hears(b"Starting a new game with bob.\r\n"),
    Cue::Hears(b"Type 'join aaaaaaaaaaaaaaaaaaaaaaaaaaaaaaaaaaaaaaaaaaaaaaaaaaaaaaaaaaaa' to accept.\r\n"),
    Cue::Hears(b"** You terminated the game. The game was saved.\r\n"),
    Cue::Hears(b"** You're not playing. Type 'join' to play the next game.\r\n"),
    Cue::Hears(b"** You're not playing.\r\n"),
    Cue::Hears(b"** Please wait until bob has accepted or rejected your offer.\r\n"),
    Cue::Hears(b"** You have to accept or reject bob's offer.\r\n"),
    Cue::Hears(b"** There's no saved match with bob. Please give a match length.\r\n"),
    Cue::Hears(b"** bob didn't invite you.\r\n"),
    Cue::Hears(b"** You can't double.\r\n"),
    Cue::Hears(b"** You did already roll the dice.\r\n"),
    Cue::Hears(b"You double. Please wait for bob to accept or reject.\r\n"),
    Cue::Hears(b"You want to resign. bob will win 1 point.\r\n"),
    Cue::Hears(b"You reject. The game continues.\r\n"),
    Cue::Hears(b"You win the game and get 1 point. Congratulations!\r\n"),
    Cue::Hears(b"Type 'join' if you want to play the next game, type 'leave' if you don't.\r\n"),
    Cue::Hears(b"It's your turn to roll or double.\r\n"),
    Cue::Hears(b"Please move 2 pieces.\r\n"),
    Cue::Hears(b"8 bob bob drops connection.\r\n"),
    Cue::Loses,
];

/// The next number of a row that looks like chance: at most 2,147,483,647.
fn next(chance: &mut u64) -> u64 {
    *chance = (*chance % 2_147_483_648 * 1_103_515_245 + 12_345) % 2_147_483_648;
    *chance
}

/// One of the first numbers, drawn at random.
fn one_of(chance: &mut u64, count: usize) -> usize {
    let drawn = next(chance) / 8 % (count as u64).max(1);
    drawn as usize
}

/// The beginning of a line, drawn at random.
fn beginning_of(line: &'static [u8], chance: &mut u64) -> &'static [u8] {
    let kept = one_of(chance, line.len()).min(line.len());
    &line[..kept]
}

/// Pushes an event, drawn at random: a line of the server may be cut anywhere. After a loss a new connection is made.
fn push_event(chance: &mut u64, steps: &mut Vec<Cue<'static>>) -> Result<(), AllocError> {
    let step = EVENTS[one_of(chance, EVENTS.len()).min(63)];
    match step {
        Cue::Hears(line) if one_of(chance, 16) == 0 => {
            steps.may_push(Cue::Hears(beginning_of(line, chance)))?;
            steps.may_push(Cue::Hears(b"\r\n"))?;
        }
        Cue::Loses => {
            steps.may_push(step)?;
            steps.may_push(Cue::Opens)?;
            steps.may_push(Cue::Hears(WELCOME))?;
            steps.may_push(Cue::Hears(SETTINGS))?;
        }
        _ => steps.may_push(step)?,
    }
    Ok(())
}

/// A conversation of so many events, drawn at random.
fn conversation(seed: u64, count: usize) -> Result<Vec<Cue<'static>>, AllocError> {
    let mut steps = Vec::new();
    let mut chance = seed;
    for _ in 0..count {
        push_event(&mut chance, &mut steps)?;
    }
    Ok(steps)
}

/// The widest row of a text, but for the server's rows of a long name, and boards that can't be read.
fn widest(text: &str) -> usize {
    let mut widest = 0;
    for row in text.lines() {
        if !row.starts_with("board:") && !row.contains("aaaaaaaaaaaaaaaaaaaaaaaaaaaaaaaaaaa") {
            widest = row.len().max(widest);
        }
    }
    widest
}

#[test]
fn texts_in_any_order_make_rows_that_fit() {
    for seed in 0..CONVERSATIONS {
        let steps = conversation(seed, STEPS).expect("there is memory");
        let text = shown(plain_settings(), &FIRST_BOARD, steps.as_slice());
        assert_wanted(widest(&text) <= 79, &text, "79 columns");
    }
}

/// Whatever came before, once the user asks for the board, and it is his to decide on it, something is advised.
#[test]
fn no_order_of_texts_is_a_dead_end() {
    for seed in 0..SHORT_CONVERSATIONS {
        let before = conversation(seed * 7919 + 1, seed as usize % FEW_STEPS).expect("there is memory");
        for board in [TO_ROLL, TO_MOVE, DOUBLED] {
            let asks = [Cue::Types(b"board"), Cue::Hears(board), Cue::Types(b"help"), Cue::Rests];
            let text = shown(plain_settings(), &[&FIRST_BOARD[..], &before].concat(), &asks);
            let advised = text.rsplit("help WORD says more about a word.\n").next().unwrap_or_default();
            assert_wanted(!advised.is_empty(), &text, "a way on");
        }
    }
}
