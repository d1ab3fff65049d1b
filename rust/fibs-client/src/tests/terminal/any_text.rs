//! Any texts of the server between typed lines: a decision goes past the client only after a text or a board that calls
//! for it, once for each, and by the rules.

use super::lines::{DOUBLED, MOVED, OVER, SETTINGS, TO_MOVE, TO_ROLL, WELCOME};
use super::seats::{Cue, plain_settings, shown};

/// How many conversations there are, and how many texts each has: 100,000 in all.
const CONVERSATIONS: u64 = 500;

const TEXTS: usize = 200;

/// What the rules allow on each board, by hand.
const ALLOWED: [(&[u8], &[&str]); 5] = [
    (TO_ROLL, &["roll", "double", "resign n", "resign g"]),
    (TO_MOVE, &["move 24-22 24-18", "resign n", "resign g"]),
    (MOVED, &[]),
    (DOUBLED, &["accept", "reject"]),
    (OVER, &[]),
];

/// Texts after which an offer may wait for an answer.
const OFFERS: [&[u8]; 4] = [
    b"bob doubles. Type 'accept' or 'reject'.\r\n",
    b"bob wants to resign. You will win 1 point.\r\n",
    b"** You have to accept or reject bob's offer.\r\n",
    b"** You can't accept now.\r\n",
];

/// Texts that say no to a decision.
const REFUSALS: [&[u8]; 7] = [
    b"bob rejects. The game continues.\r\n",
    b"** You can't double.\r\n",
    b"** You did already roll the dice.\r\n",
    b"** You can't move now.\r\n",
    b"** There is nothing to accept.\r\n",
    b"** It's not your turn to move.\r\n",
    b"** Your opponent didn't offer a double or resignation.\r\n",
];

/// Other texts: none of them calls for a decision that the client refuses.
const OTHERS: [&[u8]; 15] = [
    b"bob accepts the double. The cube shows 2.\r\n",
    b"bob accepts and wins 2 points.\r\n",
    b"bob rolls 3 and 1.\r\n",
    b"bob moves 8-5 6-5 .\r\n",
    b"bob has joined you. Your running match was loaded.\r\n",
    b"bob drops connection. The game was saved.\r\n",
    b"Starting a new game with bob.\r\n",
    b"** Please wait until bob has accepted or rejected your offer.\r\n",
    b"You double. Please wait for bob to accept or reject.\r\n",
    b"You want to resign. bob will win 1 point.\r\n",
    b"You reject. The game continues.\r\n",
    b"It's your turn to roll or double.\r\n",
    b"eve wants to resign. carol will win 1 point.\r\n",
    b"12 bob wants to resign. You will win 1 point.\r\n",
    b"15 bob bob rejects. The game continues.\r\n",
];

/// What is typed: in several spellings, and a move that the rules forbid.
const TYPED: [&[u8]; 16] = [
    b"roll", b" R ", b"double", b"DOUBLE", b"accept", b"Accept", b"reject", b"move 24-22 24-18", b"24/22 24/18",
    b"m 24-22 24-17", b"24/17 24/22", b"resign n", b"resign g", b"board", b"accept", b"roll",
];

/// The next number of a row that looks like chance.
fn next(chance: &mut u64, count: usize) -> usize {
    *chance = (*chance % 2_147_483_648 * 1_103_515_245 + 12_345) % 2_147_483_648;
    (*chance / 64 % count as u64) as usize
}

/// One of these.
fn one_of(chance: &mut u64, lines: &[&'static [u8]]) -> &'static [u8] {
    lines[next(chance, lines.len())]
}

/// What the server says next.
fn said(chance: &mut u64) -> &'static [u8] {
    match next(chance, 8) {
        0 | 1 => ALLOWED[next(chance, 5)].0,
        2 | 3 => one_of(chance, &OFFERS),
        4 | 5 => one_of(chance, &REFUSALS),
        _ => one_of(chance, &OTHERS),
    }
}

/// What is known of the conversation by the lines alone.
struct Known {
    /// The board that came last.
    board: &'static [u8],
    /// Whether something has come that may call for an answer, or for another decision, since one went past the client.
    offered: bool,
    refused: bool,
    /// Whether an answer went past it: what refuses that leaves the offer as it was.
    answered: bool,
}

impl Known {
    /// Takes note of a line of the server.
    fn hear(&mut self, line: &'static [u8]) {
        if ALLOWED.iter().any(|(board, _)| *board == line) {
            self.board = line;
            self.refused = true;
        }
        self.offered |= OFFERS.contains(&line) || (self.answered && REFUSALS.contains(&line));
        self.refused |= REFUSALS.contains(&line) || OFFERS.contains(&line);
    }

    /// Whether a decision may have gone past the client now.
    fn lets(&self, decision: &str) -> bool {
        let allowed = ALLOWED.iter().find(|(board, _)| *board == self.board);
        let is_allowed = allowed.is_some_and(|(_, decisions)| decisions.contains(&decision));
        (self.offered && matches!(decision, "accept" | "reject")) || (self.refused && is_allowed)
    }
}

/// A conversation: before each typed line comes a row of the server that has its place.
fn conversation(seed: u64) -> Vec<(Cue<'static>, String)> {
    let mut chance = seed * 7919 + 11;
    let mut steps = Vec::new();
    for place in 0..TEXTS {
        steps.push((Cue::Hears(said(&mut chance)), String::new()));
        if next(&mut chance, 3) > 0 {
            let typed = one_of(&mut chance, &TYPED);
            steps.push((Cue::Types(typed), format!("~{place}~")));
            if next(&mut chance, 2) == 0 {
                steps.push((Cue::Types(typed), format!("~{place}+~")));
            }
        }
    }
    steps
}

/// The decision that a row says went past the client.
fn past(rows: &str) -> Option<&str> {
    rows.lines().find_map(|row| row.strip_prefix("sent again: ").or(row.strip_prefix("sent on the server's word: ")))
}

/// Plays a conversation, and answers how many decisions went past the client.
fn play(seed: u64) -> usize {
    let plan = conversation(seed);
    let marks: Vec<String> = plan.iter().map(|(_, mark)| format!("{mark}\r\n")).collect();
    let mut steps = vec![Cue::Hears(WELCOME), Cue::Hears(SETTINGS), Cue::Hears(TO_ROLL)];
    for ((step, _), mark) in plan.iter().zip(&marks) {
        if mark.len() > 2 {
            steps.push(Cue::Hears(mark.as_bytes()));
        }
        steps.push(*step);
        steps.push(Cue::Hears(b"~~\r\n"));
    }
    let text = shown(plain_settings(), &[], &steps);
    let mut known = Known { board: TO_ROLL, offered: false, refused: true, answered: false };
    let mut count = 0;
    let mut rest = text.as_str();
    for (step, mark) in &plan {
        if let Cue::Hears(line) = step {
            known.hear(line);
            continue;
        }
        let (rows, after) = rest
            .split_once(&format!("{mark}\n"))
            .and_then(|(_, after)| after.split_once("~~\n"))
            .expect("each typed line has its place");
        rest = after;
        let Some(decision) = past(rows) else { continue };
        assert!(known.lets(decision), "{seed}, {mark}: {decision} went out: {text}");
        known.answered = matches!(decision, "accept" | "reject");
        known.offered = false;
        known.refused = false;
        count += 1;
    }
    count
}

#[test]
fn no_text_lets_a_decision_out_twice_or_against_the_rules() {
    let went: usize = (0..CONVERSATIONS).map(play).sum();
    assert!(went > 1000, "only {went} went past the client");
}
