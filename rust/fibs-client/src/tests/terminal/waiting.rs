//! What the user waits for after texts and boards that cross what he has sent, or that are of another match.

use super::lines::{DOUBLED, FIRST_BOARD, MOVED, RESIGNS, SETTINGS, TO_MOVE, TO_ROLL, WELCOME};
use super::seats::{Cue, Cue::Hears, Cue::Types, Scene, assert_ends, assert_scenes, plain_settings, standing_after};
use crate::fibs_advice::standing::Standing;

const MAY_ROLL: Cue<'static> = Hears(b"It's your turn to roll or double.\r\n");

const LEFT: Cue<'static> = Hears(b"** Player bob has left the game. The game was saved.\r\n");

const RESUMED: Cue<'static> = Hears(b"bob has joined you. Your running match was loaded.\r\n");

const NOT_PLAYING: Cue<'static> = Hears(b"** You're not playing.\r\n");

/// Steps, and what the user waits for then.
static STATES: [(&[Cue<'static>], Standing); 8] = [
    // that it is his turn was on its way when he rolled
    (&[Types(b"roll"), MAY_ROLL], Standing::Asked),
    (&[Types(b"roll"), Hears(b"bob moves 24-18 .\r\n"), MAY_ROLL], Standing::Due),
    // his answer to a double: the board comes as it was asked for, and by itself
    (&[Hears(MOVED), Hears(DOUBLED), Types(b"accept"), Types(b"board"), Hears(DOUBLED)], Standing::Same),
    (&[Hears(MOVED), Hears(DOUBLED), Types(b"accept"), Hears(DOUBLED)], Standing::Asked),
    // no text has said since the match was resumed whose turn it is: the offer may give it away
    (&[Types(b"roll"), RESUMED, Hears(TO_ROLL), Hears(RESIGNS)], Standing::Conceded),
    // it gives a turn away that he did not have
    (&[Hears(MOVED), Hears(RESIGNS), Hears(TO_ROLL)], Standing::Conceded),
    // an answer that is refused gives him no turn
    (&[Types(b"roll"), Hears(RESIGNS), Types(b"accept"), Hears(b"** You can't accept now.\r\n")], Standing::Conceded),
    // an offer of his own that stands
    (&[Types(b"double"), Types(b"board"), Hears(TO_ROLL)], Standing::Offered),
];

#[test]
fn what_crosses_a_decision_is_told_from_its_answer() {
    for (steps, standing) in STATES {
        assert_eq!(standing_after(&FIRST_BOARD, steps), standing, "{steps:?}");
    }
}

const TURN: &str = "It may be your turn: board shows the game.\n";

const MAY_WAIT: &str = "bob may wait for your answer: accept, or reject.\n";

/// Whose turn it is after an offer to resign is over, and how a decision that was refused goes on.
static TURNS: [Scene; 6] = [
    // he had not the turn before it
    (
        &[Hears(MOVED), Hears(RESIGNS), Types(b"accept"), Hears(b"** There is nothing to accept.\r\n"), Cue::Rests],
        "** There is nothing to accept.\n",
    ),
    (
        &[
            Hears(MOVED),
            Hears(RESIGNS),
            Types(b"reject"),
            Hears(TO_ROLL),
            Hears(b"You reject. The game continues.\r\n"),
            Cue::Rests,
        ],
        "\nYou reject. The game continues.\n",
    ),
    // the dice below it are his
    (
        &[
            Hears(MOVED),
            Hears(RESIGNS),
            Hears(TO_MOVE),
            Types(b"reject"),
            Hears(b"You reject. The game continues.\r\n"),
            Cue::Rests,
        ],
        TURN,
    ),
    // the board that answered his roll gave him the dice, and no text did
    (
        &[
            Types(b"roll"),
            Hears(TO_MOVE),
            Hears(RESIGNS),
            Types(b"reject"),
            Hears(b"You reject. The game continues.\r\n"),
            Cue::Rests,
        ],
        TURN,
    ),
    (
        &[Hears(MOVED), Hears(DOUBLED), Types(b"accept"), Hears(b"** You can't accept now.\r\n"), Cue::Rests],
        "accept was refused: board shows the game.\n",
    ),
    (&[Types(b"roll"), MAY_ROLL, Cue::Rests], "sent roll\n"),
];

#[test]
fn a_turn_goes_on_after_an_offer_if_it_was_the_users() {
    assert_scenes(plain_settings(), &TURNS);
}

/// An offer that was open is known of when its match is resumed, and of no other match.
static OFFERS: [Scene; 4] = [
    (&[Hears(MOVED), Hears(RESIGNS), NOT_PLAYING, RESUMED, Hears(MOVED), Types(b"help"), Cue::Rests], MAY_WAIT),
    (&[Hears(MOVED), Hears(RESIGNS), LEFT, RESUMED, Hears(MOVED), Types(b"help"), Cue::Rests], MAY_WAIT),
    (
        &[
            Hears(MOVED),
            Hears(RESIGNS),
            LEFT,
            Types(b"join"),
            Hears(b"** Nobody has invited you.\r\n"),
            RESUMED,
            Hears(MOVED),
            Types(b"help"),
            Cue::Rests,
        ],
        MAY_WAIT,
    ),
    (
        &[
            Hears(MOVED),
            Hears(RESIGNS),
            LEFT,
            Hears(b"eve has joined you. Your running match was loaded.\r\n"),
            Hears(b"board:You:eve:3:0:1:0:-2:0:0:0:0:5:0:3:0:0:0:-5:5:0:0:0:-3:1:-5:0:0:0:0:1:0:-1:0:0:0:0:1:1:1:0:1:-1:0:25:0:0:0:0:0:0:0:0\r\n"),
            Types(b"help"),
            Cue::Rests,
        ],
        "about a word.\n",
    ),
];

#[test]
fn an_offer_is_of_its_match() {
    assert_scenes(plain_settings(), &OFFERS);
}

/// A text names the opponent if no board has, and who joins is the opponent.
#[test]
fn a_text_says_who_the_opponent_is() {
    let start = [Hears(WELCOME), Hears(SETTINGS)];
    let steps = [Hears(RESIGNS), Cue::Rests];
    assert_ends(plain_settings(), &start, &steps, "bob offers to resign: accept, or reject.\n");
    let steps = [Hears(b"** Please wait for eve to join too.\r\n"), Types(b"help"), Cue::Rests];
    assert_ends(plain_settings(), &FIRST_BOARD, &steps, "eve has not joined yet.\n");
}
