//! No state is a dead end: from each, whatever line of the server comes next, the screen names what the user may type,
//! or by the rules of the conversation it is not he who is to act.

use super::lines::{DOUBLED, FIRST_BOARD, MOVED, OVER, SETTINGS, TO_MOVE, TO_ROLL, WELCOME};
use super::seats::{Cue, advice_after, assert_ends, plain_settings, shown, standing_after};
use crate::fibs_advice::standing::Standing;

const RESIGNS: Cue<'static> = Cue::Hears(b"bob wants to resign. You will win 1 point.\r\n");

const MATCH_OVER: Cue<'static> = Cue::Hears(b"bob wins the 3 point match 3-0 .\r\n");

const YOU_DOUBLE: Cue<'static> = Cue::Hears(b"You double. Please wait for bob to accept or reject.\r\n");

const YOUR_TURN: Cue<'static> = Cue::Hears(b"It's your turn to roll or double.\r\n");

/// A way from the first board to each state.
static WAYS: [(Standing, &[Cue<'static>]); 25] = [
    (Standing::Free, &[MATCH_OVER]),
    (Standing::Invited, &[MATCH_OVER, Cue::Hears(b"eve wants to play a 3 point match with you.\r\n")]),
    (Standing::Playing, &[]),
    (Standing::Asked, &[Cue::Types(b"roll")]),
    (Standing::Offered, &[Cue::Types(b"double"), YOU_DOUBLE]),
    (Standing::Refused, &[Cue::Types(b"double"), Cue::Hears(b"** You can't double.\r\n")]),
    (Standing::Same, &[Cue::Types(b"roll"), Cue::Hears(b"** You did already roll the dice.\r\n"), Cue::Hears(TO_ROLL)]),
    (Standing::Taken, &[Cue::Types(b"double"), Cue::Hears(b"bob accepts the double. The cube shows 2.\r\n")]),
    (Standing::Due, &[YOUR_TURN]),
    (Standing::Doubled, &[Cue::Hears(MOVED), Cue::Hears(b"bob doubles. Type 'accept' or 'reject'.\r\n")]),
    (Standing::Resigned, &[YOUR_TURN, RESIGNS]),
    (Standing::Conceded, &[Cue::Hears(MOVED), RESIGNS, Cue::Hears(TO_ROLL)]),
    (Standing::Owed, &[YOUR_TURN, Cue::Hears(b"** You have to accept or reject bob's offer.\r\n")]),
    (
        Standing::Unsettled,
        &[
            Cue::Hears(MOVED),
            RESIGNS,
            Cue::Loses,
            Cue::Opens,
            Cue::Hears(WELCOME),
            Cue::Hears(SETTINGS),
            Cue::Hears(MOVED),
        ],
    ),
    (
        Standing::Unanswered,
        &[
            Cue::Types(b"double"),
            YOU_DOUBLE,
            Cue::Loses,
            Cue::Opens,
            Cue::Hears(WELCOME),
            Cue::Hears(SETTINGS),
            Cue::Hears(TO_ROLL),
        ],
    ),
    (Standing::Answered, &[RESIGNS, Cue::Types(b"send accept")]),
    (Standing::Continued, &[RESIGNS, Cue::Types(b"send reject"), Cue::Hears(b"You reject. The game continues.\r\n")]),
    (Standing::Ended, &[Cue::Hears(b"bob wins the game and gets 1 point. Sorry.\r\n")]),
    (Standing::Next, &[Cue::Hears(b"Type 'join' if you want to play the next game, type 'leave' if you don't.\r\n")]),
    (Standing::Joined, &[Cue::Hears(b"** Please wait for bob to join too.\r\n")]),
    (Standing::Gone, &[Cue::Hears(b"bob drops connection. The game was saved.\r\n")]),
    (Standing::Reopened, &[Cue::Loses, Cue::Opens, Cue::Hears(WELCOME), Cue::Hears(SETTINGS)]),
    (Standing::Anew, &[Cue::Hears(b"bob has joined you. Your running match was loaded.\r\n")]),
    (Standing::Fresh, &[Cue::Hears(b"Starting a new game with bob.\r\n")]),
    (Standing::Back, &[Cue::Types(b"roll"), Cue::Hears(b"Starting a new game with bob.\r\n"), Cue::Hears(TO_ROLL)]),
];

/// Who is to act after a line of the server, by the rules of the game and of the conversation alone.
#[derive(Clone, Copy, Debug, PartialEq, Eq)]
enum Next {
    /// The user: it is his to decide, to answer, to ask for the next game.
    User,
    /// Somebody else, or nobody.
    Other,
    /// The opponent, who has an offer of the user before him: a board on which the user has the turn does not show it.
    Opponent,
    /// The line does not say it: the board does.
    BoardSays,
}

/// Lines of the server.
static LINES: [(&[u8], Next); 38] = [
    (TO_ROLL, Next::User),
    (TO_MOVE, Next::User),
    (DOUBLED, Next::User),
    (MOVED, Next::Other),
    (OVER, Next::Other),
    (b"It's your turn to roll or double.\r\n", Next::User),
    (b"It's your turn to move.\r\n", Next::User),
    (b"Please move 2 pieces.\r\n", Next::User),
    (b"bob doubles. Type 'accept' or 'reject'.\r\n", Next::User),
    (b"bob wants to resign. You will win 1 point.\r\n", Next::User),
    (b"** You have to accept or reject bob's offer.\r\n", Next::BoardSays),
    (b"Type 'join' if you want to play the next game, type 'leave' if you don't.\r\n", Next::BoardSays),
    (b"** You're not playing. Type 'join' to play the next game.\r\n", Next::BoardSays),
    (b"eve wants to play a 3 point match with you.\r\n", Next::BoardSays),
    (b"Type 'join eve' to accept.\r\n", Next::BoardSays),
    (b"bob rolls 3 and 1.\r\n", Next::Other),
    (b"bob moves 8-5 6-5 .\r\n", Next::Other),
    (b"You double. Please wait for bob to accept or reject.\r\n", Next::Opponent),
    (b"You want to resign. bob will win 1 point.\r\n", Next::Opponent),
    (b"** Please wait until bob has accepted or rejected your offer.\r\n", Next::Opponent),
    (b"** Please wait for bob to join too.\r\n", Next::Other),
    (b"bob rejects. The game continues.\r\n", Next::BoardSays),
    (b"bob accepts the double. The cube shows 2.\r\n", Next::BoardSays),
    (b"You reject. The game continues.\r\n", Next::BoardSays),
    (b"** You can't double.\r\n", Next::BoardSays),
    (b"** You can't move that.\r\n", Next::BoardSays),
    (b"** You did already roll the dice.\r\n", Next::BoardSays),
    (b"** There is nothing to accept.\r\n", Next::BoardSays),
    (b"Starting a new game with bob.\r\n", Next::BoardSays),
    (b"bob has joined you. Your running match was loaded.\r\n", Next::BoardSays),
    (b"bob wins the game and gets 1 point. Sorry.\r\n", Next::Other),
    (b"bob wins the 3 point match 3-0 .\r\n", Next::Other),
    (b"bob drops connection. The game was saved.\r\n", Next::Other),
    (b"** You're not playing.\r\n", Next::Other),
    (b"** There's no saved match with bob. Please give a match length.\r\n", Next::Other),
    (b"** eve didn't invite you.\r\n", Next::Other),
    (b"8 bob bob drops connection.\r\n", Next::Other),
    (b"The value of your pipcount is 167.\r\n", Next::BoardSays),
];

/// What the screen advises after these steps, if the user asks for it.
fn advised_after(steps: &[Cue<'_>]) -> String {
    let asks = [steps, &[Cue::Types(b"help"), Cue::Rests]].concat();
    let text = shown(plain_settings(), &FIRST_BOARD, &asks);
    text.rsplit("help WORD says more about a word.\n").next().unwrap_or_default().to_owned()
}

/// Whether an advice names a word that leads on: not only `board`, if that was just answered.
fn leads_on(advice: &str, is_board_known: bool) -> bool {
    let words = ["roll", "double", "accept", "reject", "move ", "join", "invite ", "send "];
    words.iter().any(|word| advice.contains(word)) || !is_board_known && advice.contains("board")
}

#[test]
fn each_state_is_reached() {
    for (state, way) in WAYS {
        assert_eq!(standing_after(&FIRST_BOARD, way), state, "{way:?}");
    }
}

/// The states in which the server waits for the user, or has something of his; whether that is said only if he asks;
/// and what is said.
static SAID: [(Standing, bool, &str); 16] = [
    (Standing::Invited, false, "You are invited: join eve\n"),
    (Standing::Playing, false, "Your turn: roll, or double.\n"),
    (Standing::Asked, true, "roll was sent: board asks what became of it.\n"),
    (Standing::Offered, true, "bob has not answered yet.\nIf the game goes on: send roll\n"),
    (Standing::Taken, true, "double was sent: board asks what became of it.\n"),
    (Standing::Due, false, "Your turn: roll, or double.\n"),
    (Standing::Doubled, false, "bob doubles: board, then accept, or reject.\n"),
    (Standing::Resigned, false, "bob offers to resign: accept, or reject.\nYour turn: roll, or double.\n"),
    (Standing::Conceded, false, "bob offers to resign: accept, or reject.\n"),
    (Standing::Owed, false, "bob waits for your answer: accept, or reject.\nYour turn: roll, or double.\n"),
    (Standing::Unsettled, true, "bob may wait for your answer: accept, or reject.\n"),
    (Standing::Unanswered, true, "bob may still have to answer your offer.\nIf the game goes on: roll\n"),
    (Standing::Answered, true, "It was sent: board asks what became of it.\n"),
    (Standing::Next, false, "The game is over: join goes on, leave saves the match.\n"),
    (Standing::Joined, true, "bob has not joined yet.\n"),
    (Standing::Back, true, "If it is your turn: roll, or double.\n"),
];

#[test]
fn who_is_waited_for_is_told() {
    for (state, if_asked, rows) in SAID {
        let (_, way) = WAYS.into_iter().find(|(of, _)| *of == state).expect("each state has a way");
        let asks: &[Cue] = if if_asked { &[Cue::Types(b"help"), Cue::Rests] } else { &[Cue::Rests] };
        assert_ends(plain_settings(), &FIRST_BOARD, &[way, asks].concat(), rows);
    }
}

/// After each line in each state: the row of that state, and no double if the server has refused one. How another match
/// is played is no advice.
#[test]
fn what_is_written_is_what_is_advised() {
    for (_, way) in WAYS {
        for (line, _) in LINES {
            let steps = [way, &[Cue::Rests, Cue::Hears(line), Cue::Rests]].concat();
            let (said, advice) = (advised_after(&steps), advice_after(&FIRST_BOARD, &steps));
            let rows = said.lines().filter(|row| !row.contains("players ready"));
            assert!(rows.eq(advice.lines()), "{steps:?}: {said:?} is written, and advised is {advice:?}");
        }
    }
}

/// Whether the screen names a way on after these steps; if it does not, where that is and what it says is added.
fn look(steps: &[Cue<'_>], is_board_known: bool, ends: &mut Vec<String>) {
    let advice = advised_after(steps);
    if !leads_on(&advice, is_board_known) {
        ends.push(format!("{:?}: {advice:?}", &steps[..steps.len() - 1]));
    }
}

#[test]
fn from_each_state_each_line_leads_on() {
    let mut ends = Vec::new();
    for (_, way) in WAYS {
        for (line, next) in LINES {
            let heard = [way, &[Cue::Rests, Cue::Hears(line), Cue::Rests]].concat();
            if next == Next::User {
                look(&heard, false, &mut ends);
            }
            let boards = if next == Next::Opponent { &[DOUBLED][..] } else { &[TO_ROLL, TO_MOVE, DOUBLED] };
            for board in boards {
                let asked = [Cue::Types(b"board"), Cue::Hears(board), Cue::Rests];
                look(&[&heard[..], &asked].concat(), true, &mut ends);
            }
        }
    }
    assert!(ends.is_empty(), "{} dead ends: {:#?}", ends.len(), &ends[..ends.len().min(20)]);
}
