//! The hint below a board: it names a move whenever there is one, and that of the board. And what is typed around
//! offers: by what goes to the server past the client, and what does not.

use super::lines::{MOVED, OVER, RESIGNS, SETTINGS, TO_MOVE, TO_ROLL, WELCOME};
use super::seats::{Cue, Scene, assert_ends, assert_scenes, plain_settings};
use crate::fibs_advice::offers::{append_offers, offered};
use crate::fibs_position::Numbers;
use crate::fibs_session::{Client, Login};
use crate::rattle::alloc::AllocError;

/// One checker is left, and the larger die alone can be played.
const ONE_STEP: &[u8] =
    b"board:You:bob:5:0:0:0:0:0:0:0:0:0:0:0:0:0:0:0:-2:0:0:0:0:0:0:0:0:0:0:1:0:1:6:5:0:0:1:1:1:0:1:-1:0:25:14:13:0:0:1:0:0:0\r\n";

/// The last two are borne off.
const TO_BEAR_OFF: &[u8] =
    b"board:You:bob:5:0:0:0:0:1:1:0:0:0:0:0:0:0:0:0:-2:0:0:0:0:0:0:0:0:0:0:0:0:1:6:5:0:0:1:1:1:0:1:-1:0:25:13:13:0:0:2:0:0:0\r\n";

/// A user who goes up plays three of four equal dice.
const TO_MOVE_UP: &[u8] =
    b"board:You:bob:5:0:0:0:0:0:0:0:-1:0:0:0:0:0:0:0:0:0:0:0:2:0:0:0:0:0:0:0:0:-1:3:3:0:0:1:1:1:0:-1:1:25:0:14:13:0:0:3:0:0:0\r\n";

/// All places at which he could enter are held.
const PASSING: &[u8] =
    b"board:You:bob:5:0:0:0:0:0:0:0:0:14:0:0:0:0:0:0:0:0:0:0:0:0:-2:-2:-2:-2:-2:-2:1:1:3:1:0:0:1:1:1:0:1:-1:0:25:0:3:1:0:0:0:0:0\r\n";

/// Boards, and what is said below each.
static SAID: [(&[u8], &[u8]); 8] = [
    (TO_ROLL, b"Your turn: roll, or double.\n"),
    (TO_MOVE, b"Your move, as in: move 24-22 24-18\n"),
    (ONE_STEP, b"Your move, as in: move 24-18\n"),
    (TO_BEAR_OFF, b"Your move, as in: move 3-off 2-off\n"),
    (TO_MOVE_UP, b"Your move, as in: move 5-8 8-11 11-14\n"),
    (PASSING, b""),
    (MOVED, b""),
    (WELCOME, b""),
];

/// A client that was greeted.
fn greeted() -> Client {
    let login = Login::new(b"ann", b"secret").expect("it is a login");
    let mut client = Client::new(login);
    let is_open = client.open().is_ok();
    assert!(is_open, "open");
    client.feed(WELCOME);
    client.feed(SETTINGS);
    client
}

/// Whether this is said below a board.
fn is_said(client: &Client, said: &[u8]) -> Result<bool, AllocError> {
    let mut text = Vec::new();
    append_offers(&offered(client)?, Numbers::TheServers, &mut text)?;
    Ok(text.as_slice() == said)
}

#[test]
fn a_hint_names_a_move_of_each_board_that_has_one() {
    for (line, said) in &SAID {
        let mut client = greeted();
        client.feed(line);
        assert!(is_said(&client, said) == Ok(true), "{said:?}");
    }
}

const RESUMED: &[u8] = b"bob has joined you. Your running match was loaded.\r\n";

const DECLINES: &[u8] = b"bob rejects. The game continues.\r\n";

/// An answer to an offer to resign goes out once, in any letters. After it, without such an offer, if the offer is
/// over, or as long as the server may take it for a password, the client refuses it.
static ANSWERS: [Scene; 13] = [
    (
        &[Cue::Hears(MOVED), Cue::Hears(RESIGNS), Cue::Types(b"accept"), Cue::Types(b"pip")],
        "\nsent on the server's word: accept\nsent as it is: pip\n",
    ),
    (
        &[
            Cue::Hears(MOVED),
            Cue::Hears(RESIGNS),
            Cue::Loses,
            Cue::Opens,
            Cue::Hears(WELCOME),
            Cue::Hears(SETTINGS),
            Cue::Hears(RESUMED),
            Cue::Hears(MOVED),
            Cue::Types(b"accept"),
        ],
        "\nsent on the server's word: accept\n",
    ),
    (
        &[
            Cue::Hears(MOVED),
            Cue::Hears(RESIGNS),
            Cue::Loses,
            Cue::Opens,
            Cue::Hears(WELCOME),
            Cue::Hears(SETTINGS),
            Cue::Hears(RESUMED),
            Cue::Hears(MOVED),
            Cue::Types(b"accept"),
            Cue::Types(b"board"),
            Cue::Hears(MOVED),
            Cue::Types(b"accept"),
        ],
        "\nThere is nothing for you to decide on this board. [7 NotYours]\n",
    ),
    (
        &[Cue::Hears(MOVED), Cue::Hears(RESIGNS), Cue::Loses, Cue::Opens, Cue::Hears(WELCOME), Cue::Types(b"accept")],
        "\nThe server has not greeted you yet. [3 NotReady]\n",
    ),
    (&[Cue::Hears(MOVED), Cue::Hears(RESIGNS), Cue::Types(b"accept")], "\nsent on the server's word: accept\n"),
    (&[Cue::Hears(MOVED), Cue::Hears(RESIGNS), Cue::Types(b" Reject ")], "\nsent on the server's word: reject\n"),
    (
        &[Cue::Hears(MOVED), Cue::Hears(RESIGNS), Cue::Types(b"accept"), Cue::Types(b"accept"), Cue::Rests],
        "\nsent on the server's word: accept\nThere is nothing for you to decide on this board. [7 NotYours]\n\
         It was sent: board asks what became of it.\n",
    ),
    (
        &[Cue::Hears(MOVED), Cue::Hears(RESIGNS), Cue::Types(b"accept"), Cue::Hears(RESIGNS), Cue::Types(b"reject")],
        "\nsent on the server's word: reject\n",
    ),
    (&[Cue::Hears(MOVED), Cue::Types(b"accept")], "\nThere is nothing for you to decide on this board. [7 NotYours]\n"),
    (
        &[
            Cue::Hears(MOVED),
            Cue::Hears(RESIGNS),
            Cue::Hears(b"bob wins the game and gets 1 point.\r\n"),
            Cue::Types(b"accept"),
        ],
        "\nThere is nothing for you to decide on this board. [7 NotYours]\n",
    ),
    (
        &[Cue::Hears(MOVED), Cue::Hears(RESIGNS), Cue::Hears(OVER), Cue::Types(b"accept")],
        "\nThere is nothing for you to decide on this board. [7 NotYours]\n",
    ),
    (&[Cue::Hears(MOVED), Cue::Hears(RESIGNS), Cue::Types(b"roll")], "\nNo board shows it yet. [7 NotYours]\n"),
    (
        &[Cue::Types(b"roll"), Cue::Hears(b"** You have to accept or reject bob's offer.\r\n"), Cue::Types(b"reject")],
        "\nsent on the server's word: reject\n",
    ),
];

/// A decision in place of the one that waits: once for each text, by the rules, and not the one that was refused.
static RENEWED: [Scene; 15] = [
    (&[Cue::Types(b"roll"), Cue::Hears(RESUMED), Cue::Hears(TO_ROLL), Cue::Types(b"roll")], "\nsent again: roll\n"),
    (
        &[
            Cue::Types(b"roll"),
            Cue::Types(b"board"),
            Cue::Hears(TO_ROLL),
            Cue::Types(b"board"),
            Cue::Types(b"roll"),
            Cue::Hears(TO_ROLL),
            Cue::Types(b"roll"),
        ],
        "\nYou have decided, and no new board has come yet. [6 Waiting]\n",
    ),
    (&[Cue::Types(b"resign n"), Cue::Hears(DECLINES), Cue::Types(b"r")], "\nsent on the server's word: roll\n"),
    (
        &[Cue::Types(b"resign n"), Cue::Hears(DECLINES), Cue::Types(b"roll"), Cue::Types(b"roll")],
        "\nsent on the server's word: roll\nYou have decided, and no new board has come yet. [6 Waiting]\n",
    ),
    (
        &[
            Cue::Types(b"resign n"),
            Cue::Hears(DECLINES),
            Cue::Hears(DECLINES),
            Cue::Types(b"roll"),
            Cue::Types(b"roll"),
        ],
        "\nsent on the server's word: roll\nYou have decided, and no new board has come yet. [6 Waiting]\n",
    ),
    (
        &[
            Cue::Types(b"resign n"),
            Cue::Hears(DECLINES),
            Cue::Types(b"roll"),
            Cue::Hears(DECLINES),
            Cue::Types(b"double"),
        ],
        "\nsent on the server's word: double\n",
    ),
    (
        &[Cue::Types(b"resign n"), Cue::Hears(DECLINES), Cue::Types(b"resign n")],
        "\nYou have decided, and no new board has come yet. [6 Waiting]\n",
    ),
    (
        &[Cue::Types(b"resign n"), Cue::Types(b"roll")],
        "\nYou have decided, and no new board has come yet. [6 Waiting]\n",
    ),
    (
        &[Cue::Types(b"resign n"), Cue::Hears(b"You want to resign. bob will win 1 point.\r\n"), Cue::Types(b"roll")],
        "\nYou have decided, and no new board has come yet. [6 Waiting]\n",
    ),
    (
        &[Cue::Types(b"roll"), Cue::Hears(b"** You can't roll now.\r\n"), Cue::Types(b"roll")],
        "\nYou have decided, and no new board has come yet. [6 Waiting]\n",
    ),
    (
        &[Cue::Types(b"roll"), Cue::Types(b"board"), Cue::Hears(TO_ROLL), Cue::Types(b"roll"), Cue::Types(b"roll")],
        "\nsent again: roll\nYou have decided, and no new board has come yet. [6 Waiting]\n",
    ),
    (
        &[Cue::Types(b"roll"), Cue::Types(b"board"), Cue::Hears(TO_ROLL), Cue::Types(b"double")],
        "\nsent on the server's word: double\n",
    ),
    (
        &[Cue::Types(b"double"), Cue::Hears(b"** You can't double.\r\n"), Cue::Types(b"accept")],
        "\nThat can't be done on this board: help says what can. [8 WrongKind]\n",
    ),
    (
        &[Cue::Types(b"double"), Cue::Hears(b"** You can't double.\r\n"), Cue::Types(b"m 24-22 24-18")],
        "\nThat can't be done on this board: help says what can. [8 WrongKind]\n",
    ),
    (
        &[Cue::Types(b"double"), Cue::Hears(b"** You can't double.\r\n"), Cue::Types(b"send roll")],
        "\nsent as it is: roll\n",
    ),
];

/// A move in place of an offer that was declined: in the user's numbers and any spelling, and by the rules.
static MOVES: [(&[u8], &str); 4] = [
    (b"move 24-22 24-18", "\nsent on the server's word: move 24-22 24-18\n"),
    (b"24/18/16", "\nsent on the server's word: move 24-18 18-16\n"),
    (b"move 24-22 24-17", "\nNo die plays from 24 to 17. [9 IllegalPlay]\n"),
    (b"24/22", "\nBoth dice must be played. [9 IllegalPlay]\n"),
];

#[test]
fn an_answer_goes_out_if_an_offer_waits_for_it() {
    assert_scenes(plain_settings(), &ANSWERS);
}

#[test]
fn a_decision_goes_out_in_place_of_one_to_which_the_server_said_no() {
    assert_scenes(plain_settings(), &RENEWED);
}

#[test]
fn a_move_goes_out_in_place_of_an_offer_by_the_rules_alone() {
    for (typed, row) in MOVES {
        let steps = [Cue::Hears(TO_MOVE), Cue::Types(b"resign g"), Cue::Hears(DECLINES), Cue::Types(typed)];
        assert_ends(plain_settings(), &super::lines::FIRST_BOARD, &steps, row);
    }
}
