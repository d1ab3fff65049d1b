//! What the screen says next, in each state of the conversation.

use super::lines::{DOUBLED, FIRST_BOARD, MOVED, OVER, RESIGNS, SETTINGS, TO_MOVE, TO_ROLL, WELCOME};
use super::seats::{Cue, Scene, assert_ends, assert_scenes, assert_wanted, plain_settings, shown_then};

/// What the server says when a match goes on that was saved.
const RESUMED: &[u8] = b"bob has joined you. Your running match was loaded.\r\n";

/// The first board, on which the cube was turned by a double that was accepted.
const TAKEN: &[u8] =
    b"board:You:bob:3:0:1:0:-2:0:0:0:0:5:0:3:0:0:0:-5:5:0:0:0:-3:0:-5:0:0:0:0:2:0:1:0:0:0:0:2:0:1:0:1:-1:0:25:0:0:0:0:2:0:0:0\r\n";

/// A game that is over, and the match with it.
const WON: &[u8] =
    b"board:You:bob:3:3:1:0:-2:0:0:0:0:5:0:3:0:0:0:-5:5:0:0:0:-3:0:-5:0:0:0:0:2:0:0:0:0:0:0:1:1:1:0:1:-1:0:25:0:0:0:0:2:0:0:0\r\n";

/// What the server says of that match.
const WON_MATCH: &[u8] = b"You win the 3 point match 3-1 .\r\n";

/// The settings of a user for whom the server plays by itself: automove; greedy; both.
const AUTOMOVE: &[u8] = b"2 ann 1 1 0 1 0 0 1 1 0 0 1 0 1 1500.00 0 0 none 0 0 UTC\r\n";

const GREEDY: &[u8] = b"2 ann 1 1 0 0 0 0 1 1 0 1 1 0 1 1500.00 0 0 none 0 0 UTC\r\n";

const BOTH: &[u8] = b"2 ann 1 1 0 1 0 0 1 1 0 1 1 0 1 1500.00 0 0 none 0 0 UTC\r\n";

/// What is said while an offer to resign or a double is open, or was declined or refused.
static OFFERS: [Scene; 13] = [
    (
        &[
            Cue::Types(b"resign n"),
            Cue::Hears(b"You want to resign. bob will win 1 point.\r\n"),
            Cue::Rests,
            Cue::Hears(b"bob rejects. The game continues.\r\n"),
            Cue::Rests,
            Cue::Rests,
        ],
        "bob rejects. The game continues.\nbob declined? Go on: roll, or double.\n",
    ),
    (
        &[
            Cue::Types(b"roll"),
            Cue::Hears(TO_MOVE),
            Cue::Types(b"resign g"),
            Cue::Hears(b"bob rejects. The game continues.\r\n"),
            Cue::Rests,
        ],
        "bob rejects. The game continues.\nbob declined? Go on: move 24-22 24-18.\n",
    ),
    (
        &[Cue::Types(b"double"), Cue::Hears(b"** You can't double.\r\n"), Cue::Rests],
        "** You can't double.\nbob declined? Go on: roll.\n",
    ),
    (
        &[
            Cue::Types(b"double"),
            Cue::Hears(b"** You can't double.\r\n"),
            Cue::Types(b"send resign n"),
            Cue::Hears(b"bob rejects. The game continues.\r\n"),
            Cue::Types(b"board"),
            Cue::Hears(TO_ROLL),
            Cue::Rests,
        ],
        "bob declined? Go on: roll.\n",
    ),
    (
        &[
            Cue::Types(b"double"),
            Cue::Hears(b"You double. Please wait for bob to accept or reject.\r\n"),
            Cue::Rests,
            Cue::Types(b"help"),
            Cue::Rests,
        ],
        "about a word.\nbob has not answered yet.\nIf the game goes on: send roll\n",
    ),
    (
        &[
            Cue::Types(b"double"),
            Cue::Hears(b"You double. Please wait for bob to accept or reject.\r\n"),
            Cue::Rests,
            Cue::Types(b"board"),
            Cue::Hears(TO_ROLL),
            Cue::Rests,
        ],
        " You roll, or double, or resign.\nbob has not answered yet.\nIf the game goes on: send roll\n",
    ),
    (
        &[
            Cue::Types(b"double"),
            Cue::Hears(b"bob accepts the double. The cube shows 2.\r\n"),
            Cue::Rests,
            Cue::Hears(b"It's your turn to roll.\r\n"),
            Cue::Rests,
            Cue::Types(b"board"),
            Cue::Hears(TAKEN),
            Cue::Rests,
        ],
        " You roll, or resign.\nYour turn: roll.\n",
    ),
    (
        &[
            Cue::Types(b"double"),
            Cue::Hears(b"bob accepts the double. The cube shows 2.\r\n"),
            Cue::Rests,
            Cue::Hears(b"It's your turn to roll.\r\n"),
            Cue::Rests,
        ],
        "The cube shows 2.\nIt may be your turn: board shows the game.\n",
    ),
    (
        &[Cue::Hears(b"bob accepts the double. The cube shows 2.\r\n"), Cue::Rests],
        "The cube shows 2.\nYour turn: roll; your double is accepted.\n",
    ),
    (
        &[
            Cue::Types(b"roll"),
            Cue::Hears(TO_MOVE),
            Cue::Types(b"move 24-18 13-11"),
            Cue::Hears(MOVED),
            Cue::Hears(b"bob doubles. Type 'accept' or 'reject'.\r\n"),
            Cue::Rests,
            Cue::Types(b"accept"),
            Cue::Rests,
        ],
        "No board shows it yet. [7 NotYours]\nbob doubles: board, then accept, or reject.\n",
    ),
    (
        &[
            Cue::Hears(MOVED),
            Cue::Hears(b"bob doubles. Type 'accept' or 'reject'.\r\n"),
            Cue::Types(b"board"),
            Cue::Hears(DOUBLED),
            Cue::Rests,
        ],
        "You are offered a double: accept, or reject.\n",
    ),
    (
        &[
            Cue::Hears(MOVED),
            Cue::Hears(b"bob doubles. Type 'accept' or 'reject'.\r\n"),
            Cue::Types(b"board"),
            Cue::Hears(MOVED),
            Cue::Rests,
        ],
        "bob waits for your answer: accept, or reject.\n",
    ),
    (
        &[
            Cue::Hears(MOVED),
            Cue::Hears(b"bob kibitzes: ann rejects. The game continues.\r\n"),
            Cue::Hears(b"15 bob bob rejects. The game continues.\r\n"),
            Cue::Rests,
        ],
        "13:07 bob kibitzes: bob rejects. The game continues.\n",
    ),
];

/// A board on which the user has the turn and may not double; and one of a match that was won by more than its length.
const MAY_NOT_DOUBLE: &[u8] =
    b"board:You:bob:3:0:1:0:-2:0:0:0:0:5:0:3:0:0:0:-5:5:0:0:0:-3:0:-5:0:0:0:0:2:0:1:0:0:0:0:1:0:1:0:1:-1:0:25:0:0:0:0:2:0:0:0\r\n";

const WON_BY_MORE: &[u8] =
    b"board:You:bob:3:4:1:0:-2:0:0:0:0:5:0:3:0:0:0:-5:5:0:0:0:-3:0:-5:0:0:0:0:2:0:0:0:0:0:0:1:1:1:0:1:-1:0:25:0:0:0:0:2:0:0:0\r\n";

/// Which row comes before which: an offer before that the server plays; that a double was refused, only if one may be
/// made; how the game goes on, if the board of a match that was resumed is the one on which the decision was made; and
/// nothing once the match is over.
static ORDER: [Scene; 5] = [
    (
        &[Cue::Hears(AUTOMOVE), Cue::Hears(b"bob wants to resign. You will win 1 point.\r\n"), Cue::Rests],
        "You will win 1 point.\nbob offers to resign: accept, or reject.\n",
    ),
    (
        &[Cue::Hears(b"** You can't double.\r\n"), Cue::Rests, Cue::Hears(MAY_NOT_DOUBLE), Cue::Rests],
        "\nYour turn: roll.\n",
    ),
    (
        &[
            Cue::Types(b"roll"),
            Cue::Hears(b"bob has joined you. Your running match was loaded.\r\n"),
            Cue::Hears(TO_ROLL),
            Cue::Types(b"help"),
            Cue::Rests,
        ],
        "about a word.\nIf it is your turn: roll, or double.\n",
    ),
    (
        &[Cue::Types(b"roll"), Cue::Hears(RESUMED), Cue::Types(b"help"), Cue::Rests],
        "about a word.\nroll was sent: board asks what became of it.\n",
    ),
    (
        &[Cue::Loses, Cue::Opens, Cue::Hears(WELCOME), Cue::Hears(SETTINGS), Cue::Hears(WON_BY_MORE), Cue::Rests],
        "\nThe game is over. You 4, bob 1 of 3.\n",
    ),
];

#[test]
fn rows_come_in_their_order() {
    assert_scenes(plain_settings(), &ORDER);
}

#[test]
fn an_offer_leads_on() {
    assert_scenes(plain_settings(), &OFFERS);
}

/// A double that the server has refused is not named again in that game: on the same board, in a later turn, and in
/// place of an offer to resign. In the next game it is.
static REFUSED_DOUBLES: [Scene; 4] = [
    (
        &[Cue::Hears(b"** You can't double.\r\n"), Cue::Rests],
        "** You can't double.\nYour turn: roll; the server refused a double in this game.\n",
    ),
    (
        &[
            Cue::Types(b"double"),
            Cue::Hears(b"** You can't double.\r\n"),
            Cue::Types(b"roll"),
            Cue::Hears(TO_MOVE),
            Cue::Types(b"move 24-18 13-11"),
            Cue::Hears(MOVED),
            Cue::Hears(TO_ROLL),
            Cue::Rests,
        ],
        "\nYour turn: roll; the server refused a double in this game.\n",
    ),
    (
        &[
            Cue::Hears(b"** You can't double.\r\n"),
            Cue::Types(b"resign n"),
            Cue::Hears(b"bob rejects. The game continues.\r\n"),
            Cue::Rests,
        ],
        "bob declined? Go on: roll.\n",
    ),
    (
        &[
            Cue::Hears(b"** You can't double.\r\n"),
            Cue::Hears(b"Starting a new game with bob.\r\n"),
            Cue::Hears(TO_ROLL),
            Cue::Rests,
        ],
        "\nYour turn: roll, or double.\n",
    ),
];

#[test]
fn a_double_that_was_refused_is_not_named_again_in_that_game() {
    assert_scenes(plain_settings(), &REFUSED_DOUBLES);
}

/// An offer of the opponent to resign: it is said once, and again if the user asks.
static RESIGNED: [Scene; 5] = [
    (
        &[
            Cue::Hears(MOVED),
            Cue::Hears(b"bob wants to resign. You will win 1 point.\r\n"),
            Cue::Rests,
            Cue::Hears(b"** 1 user heard you.\r\n"),
            Cue::Rests,
        ],
        "bob offers to resign: accept, or reject.\n** 1 user heard you.\n",
    ),
    (
        &[
            Cue::Hears(MOVED),
            Cue::Hears(b"bob wants to resign. You will win 1 point.\r\n"),
            Cue::Rests,
            Cue::Types(b"say hello"),
            Cue::Types(b"double"),
            Cue::Rests,
        ],
        "No board shows it yet. [7 NotYours]\nbob offers to resign: accept, or reject.\n",
    ),
    (
        &[
            Cue::Hears(b"It's your turn to roll or double.\r\n"),
            Cue::Hears(b"bob wants to resign. You will win 1 point.\r\n"),
            Cue::Rests,
        ],
        "bob offers to resign: accept, or reject.\nYour turn: roll, or double.\n",
    ),
    (
        &[Cue::Hears(MOVED), Cue::Hears(b"eve wants to resign. carol will win 1 point.\r\n"), Cue::Rests],
        "bob's turn.\neve wants to resign. carol will win 1 point.\n",
    ),
    (
        &[Cue::Types(b"roll"), Cue::Hears(b"** You have to accept or reject bob's offer.\r\n"), Cue::Rests],
        "bob waits for your answer: accept, or reject.\n",
    ),
];

/// A match is taken up while an offer to resign is open, and its board shows that as a turn given away: before the text
/// comes, once, twice, and after it. Only if a text has said that it is the user's turn is that named as well.
static GIVEN_AWAY: [Scene; 6] = [
    (
        &[Cue::Hears(RESUMED), Cue::Hears(TO_ROLL), Cue::Hears(RESIGNS), Cue::Rests],
        "You will win 1 point.\nbob offers to resign: accept, or reject.\n",
    ),
    (
        &[Cue::Hears(RESUMED), Cue::Hears(TO_ROLL), Cue::Hears(TO_ROLL), Cue::Rests, Cue::Hears(RESIGNS), Cue::Rests],
        "You will win 1 point.\nbob offers to resign: accept, or reject.\n",
    ),
    (
        &[
            Cue::Hears(RESUMED),
            Cue::Hears(TO_ROLL),
            Cue::Hears(RESIGNS),
            Cue::Rests,
            Cue::Types(b"board"),
            Cue::Hears(TO_ROLL),
            Cue::Rests,
        ],
        " You roll, or double, or resign.\nbob offers to resign: accept, or reject.\n",
    ),
    (
        &[Cue::Hears(RESUMED), Cue::Hears(RESIGNS), Cue::Hears(TO_ROLL), Cue::Rests],
        " You roll, or double, or resign.\nbob offers to resign: accept, or reject.\n",
    ),
    (
        &[Cue::Hears(RESUMED), Cue::Hears(TO_MOVE), Cue::Hears(RESIGNS), Cue::Rests],
        "bob offers to resign: accept, or reject.\nYour move, as in: move 24-22 24-18\n",
    ),
    (
        &[
            Cue::Hears(RESUMED),
            Cue::Hears(TO_ROLL),
            Cue::Hears(b"It's your turn to roll or double.\r\n"),
            Cue::Hears(RESIGNS),
            Cue::Rests,
        ],
        "bob offers to resign: accept, or reject.\nYour turn: roll, or double.\n",
    ),
];

#[test]
fn a_turn_that_is_given_away_is_not_advised() {
    assert_scenes(plain_settings(), &GIVEN_AWAY);
}

/// How the picture of the first board ends.
const PICTURE_END: &str = "   O You\n You roll, or double, or resign.\n";

/// Before that text the server says who has the turn: if it is the opponent, a board that gives it to the user may show
/// an offer, and nothing is said of the turn by itself. What the server says next of it counts.
static HIS_TURN: [Scene; 6] = [
    (&[Cue::Hears(RESUMED), Cue::Hears(b"turn: bob\r\n"), Cue::Hears(TO_ROLL), Cue::Rests], PICTURE_END),
    (&[Cue::Hears(RESUMED), Cue::Hears(b"turn: bob.\r\n"), Cue::Hears(TO_ROLL), Cue::Rests], PICTURE_END),
    (
        &[
            Cue::Hears(RESUMED),
            Cue::Hears(b"turn: bob\r\n"),
            Cue::Hears(TO_ROLL),
            Cue::Rests,
            Cue::Types(b"help"),
            Cue::Rests,
        ],
        "about a word.\nbob may wait for your answer: accept, or reject.\nIf the game goes on: roll\n",
    ),
    (
        &[
            Cue::Hears(RESUMED),
            Cue::Hears(b"turn: bob\r\n"),
            Cue::Hears(TO_ROLL),
            Cue::Rests,
            Cue::Hears(RESIGNS),
            Cue::Rests,
        ],
        "You will win 1 point.\nbob offers to resign: accept, or reject.\n",
    ),
    (
        &[
            Cue::Hears(RESUMED),
            Cue::Hears(b"turn: bob\r\n"),
            Cue::Hears(TO_ROLL),
            Cue::Rests,
            Cue::Hears(b"It's your turn to roll or double.\r\n"),
            Cue::Rests,
        ],
        " You roll, or double, or resign.\nYour turn: roll, or double.\n",
    ),
    (
        &[Cue::Hears(RESUMED), Cue::Hears(b"turn: ann\r\n"), Cue::Hears(TO_ROLL), Cue::Rests],
        " You roll, or double, or resign.\nYour turn: roll, or double.\n",
    ),
];

#[test]
fn a_turn_that_the_server_calls_his_is_not_advised() {
    assert_scenes(plain_settings(), &HIS_TURN);
}

#[test]
fn an_offer_to_resign_is_answered() {
    assert_scenes(plain_settings(), &RESIGNED);
}

/// A decision that was refused, that crossed the end of a match, or of which nothing is heard.
static DECIDED: [Scene; 10] = [
    (
        &[Cue::Types(b"roll"), Cue::Hears(b"** You can't roll now.\r\n"), Cue::Rests],
        "** You can't roll now.\nroll was refused: board shows the game.\n",
    ),
    (
        &[
            Cue::Types(b"roll"),
            Cue::Hears(b"** You can't roll now.\r\n"),
            Cue::Types(b"board"),
            Cue::Hears(TO_ROLL),
            Cue::Rests,
        ],
        " You roll, or double, or resign.\nThe board is as it was: roll, or double.\n",
    ),
    (&[Cue::Types(b"roll"), Cue::Hears(b"You roll 6 and 2.\r\n"), Cue::Rests], "sent roll\nYou roll 6 and 2.\n"),
    (
        &[Cue::Types(b"roll"), Cue::Rests, Cue::Types(b"roll"), Cue::Rests],
        "[6 Waiting]\nroll was sent: board asks what became of it.\n",
    ),
    (
        &[
            Cue::Types(b"roll"),
            Cue::Hears(b"bob drops connection. The game was saved.\r\n"),
            Cue::Hears(b"** You're not playing.\r\n"),
            Cue::Rests,
        ],
        "** You're not playing.\nYour match may be saved: invite bob,\nor join bob, if you are invited.\n",
    ),
    (
        &[
            Cue::Types(b"roll"),
            Cue::Hears(b"** Player bob has left the game. The game was saved.\r\n"),
            Cue::Hears(b"bob wants to resume a saved match with you.\r\n"),
            Cue::Hears(b"Type 'join bob' to accept.\r\n"),
            Cue::Rests,
        ],
        "Type 'join bob' to accept.\nYou are invited: join bob\n",
    ),
    (
        &[
            Cue::Types(b"roll"),
            Cue::Hears(b"** Player bob has left the game. The game was saved.\r\n"),
            Cue::Hears(b"bob has joined you. Your running match was loaded.\r\n"),
            Cue::Hears(TO_ROLL),
            Cue::Hears(b"It's your turn to roll or double.\r\n"),
            Cue::Rests,
        ],
        " You roll, or double, or resign.\nThe board is as it was: roll, or double.\n",
    ),
    (
        &[
            Cue::Types(b"roll"),
            Cue::Hears(b"eve wants to play a 3 point match with you.\r\n"),
            Cue::Hears(b"Type 'join eve' to accept.\r\n"),
            Cue::Rests,
        ],
        "Type 'join eve' to accept.\n",
    ),
    (
        &[
            Cue::Hears(b"** Player bob has left the game. The game was saved.\r\n"),
            Cue::Rests,
            Cue::Hears(b"bob has joined you. Your running match was loaded.\r\n"),
            Cue::Rests,
            Cue::Hears(b"Please move 2 pieces.\r\n"),
            Cue::Types(b"board"),
            Cue::Hears(TO_ROLL),
            Cue::Rests,
        ],
        " You roll, or double, or resign.\nYour turn: roll, or double.\n",
    ),
    (
        &[
            Cue::Types(b"resign n"),
            Cue::Loses,
            Cue::Opens,
            Cue::Hears(WELCOME),
            Cue::Hears(SETTINGS),
            Cue::Hears(b"bob has joined you. Your running match was loaded.\r\n"),
            Cue::Rests,
            Cue::Hears(b"bob rejects. The game continues.\r\n"),
            Cue::Rests,
        ],
        "bob rejects. The game continues.\nIt may be your turn: board shows the game.\n",
    ),
];

#[test]
fn a_decision_leads_on() {
    assert_scenes(plain_settings(), &DECIDED);
}

/// How games and matches end, and begin.
static ENDS: [Scene; 9] = [
    (
        &[Cue::Types(b"resign g"), Cue::Hears(b"bob accepts and wins 2 points.\r\n"), Cue::Rests],
        "sent resign g\nbob accepts and wins 2 points.\n",
    ),
    (
        &[
            Cue::Types(b"double"),
            Cue::Hears(b"bob gives up. You win 1 point.\r\n"),
            Cue::Hears(b"Type 'join' if you want to play the next game, type 'leave' if you don't.\r\n"),
            Cue::Rests,
        ],
        "bob gives up. You win 1 point.\nThe game is over: join goes on, leave saves the match.\n",
    ),
    (
        &[
            Cue::Hears(b"Type 'join' if you want to play the next game, type 'leave' if you don't.\r\n"),
            Cue::Types(b"join"),
            Cue::Hears(b"** Please wait for bob to join too.\r\n"),
            Cue::Rests,
        ],
        "sent join\n** Please wait for bob to join too.\n",
    ),
    (
        &[
            Cue::Hears(b"Type 'join' if you want to play the next game, type 'leave' if you don't.\r\n"),
            Cue::Types(b"join"),
            Cue::Hears(b"** Please wait for bob to join too.\r\n"),
            Cue::Types(b"roll"),
            Cue::Types(b"roll"),
            Cue::Rests,
        ],
        "[6 Waiting]\nbob has not joined yet.\n",
    ),
    (
        &[
            Cue::Types(b"roll"),
            Cue::Hears(b"You win the 3 point match 3-1 .\r\n"),
            Cue::Hears(b"eve wins a 3 point match against carol  3-1 .\r\n"),
            Cue::Rests,
        ],
        "3-1 .\neve wins a 3 point match against carol  3-1 .\n\
         invite bob 3 plays another match; players ready lists others.\n",
    ),
    (&[Cue::Hears(WON), Cue::Rests], "You win the game by a backgammon, and 3 points, and the 3 point match 3-1.\n"),
    (
        &[Cue::Loses, Cue::Opens, Cue::Hears(WELCOME), Cue::Hears(SETTINGS), Cue::Hears(OVER), Cue::Rests],
        "The game is over: join goes on, leave saves the match.\n",
    ),
    (
        &[
            Cue::Types(b"resign b"),
            Cue::Hears(b"bob accepts and wins 3 points.\r\n"),
            Cue::Hears(b"bob wins the 3 point match 3-0 .\r\n"),
            Cue::Hears(b"** Player bob has joined you for a 3 point match.\r\n"),
            Cue::Hears(TO_ROLL),
            Cue::Hears(b"It's your turn to roll or double.\r\n"),
            Cue::Rests,
        ],
        " You roll, or double, or resign.\nThe board is as it was: roll, or double.\n",
    ),
    (
        &[
            Cue::Types(b"double"),
            Cue::Hears(b"** You can't double.\r\n"),
            Cue::Types(b"send roll"),
            Cue::Hears(TO_MOVE),
            Cue::Types(b"resign n"),
            Cue::Hears(b"bob accepts and wins 1 point.\r\n"),
            Cue::Hears(b"Starting a new game with bob.\r\n"),
            Cue::Hears(TO_ROLL),
            Cue::Types(b"resign n"),
            Cue::Hears(b"bob rejects. The game continues.\r\n"),
            Cue::Rests,
        ],
        "bob declined? Go on: roll, or double.\n",
    ),
];

#[test]
fn an_end_leads_on() {
    assert_scenes(plain_settings(), &ENDS);
}

/// A new connection after a match, and one whose server plays by itself.
static LOGINS: [Scene; 6] = [
    (
        &[
            Cue::Loses,
            Cue::Opens,
            Cue::Hears(WELCOME),
            Cue::Hears(SETTINGS),
            Cue::Hears(b"** You're not playing.\r\n"),
            Cue::Rests,
        ],
        "from localhost.\nYour match may be saved: invite bob,\nor join bob, if you are invited.\n",
    ),
    (
        &[
            Cue::Loses,
            Cue::Opens,
            Cue::Hears(WELCOME),
            Cue::Hears(SETTINGS),
            Cue::Hears(b"5 carol - - 1 0 1701.00 0 0 1 host - -\r\n"),
            Cue::Hears(b"6\r\n"),
            Cue::Hears(b"** You're not playing.\r\n"),
            Cue::Rests,
            Cue::Types(b"help"),
            Cue::Rests,
        ],
        "about a word.\nbob is not here now: your match may be saved.\n",
    ),
    (
        &[
            Cue::Loses,
            Cue::Opens,
            Cue::Hears(WELCOME),
            Cue::Hears(SETTINGS),
            Cue::Hears(b"3\r\n"),
            Cue::Hears(b"bob doubles. Type 'accept' or 'reject'.\r\n"),
            Cue::Hears(b"4\r\n"),
            Cue::Rests,
        ],
        "bob doubles. Type 'accept' or 'reject'.\n",
    ),
    (
        &[Cue::Loses, Cue::Opens, Cue::Hears(WELCOME), Cue::Hears(AUTOMOVE), Cue::Hears(TO_ROLL), Cue::Rests],
        "You logged in with automove or greedy on: fix logs in again with both off.\n",
    ),
    (
        &[
            Cue::Loses,
            Cue::Opens,
            Cue::Hears(WELCOME),
            Cue::Hears(BOTH),
            Cue::Hears(TO_ROLL),
            Cue::Types(b"roll"),
            Cue::Rests,
        ],
        "automove or greedy was on when it began. [4 ServerPlays]\n\
You logged in with automove or greedy on: fix logs in again with both off.\n",
    ),
    (
        &[
            Cue::Loses,
            Cue::Opens,
            Cue::Hears(WELCOME),
            Cue::Hears(AUTOMOVE),
            Cue::Hears(TO_ROLL),
            Cue::Types(b"toggle automove"),
            Cue::Types(b"toggle automove"),
            Cue::Rests,
        ],
        "[10 NotOn]\nYou logged in with automove or greedy on: fix logs in again with both off.\n",
    ),
];

#[test]
fn a_login_leads_on() {
    assert_scenes(plain_settings(), &LOGINS);
}

/// The settings of a login, and whether the server plays for the user: all others that are on do not say so.
static PLAYING: [(&[u8], bool); 5] = [
    (SETTINGS, false),
    (b"2 ann 1 1 1 0 1 1 1 1 5 0 1 1 1 1500.00 1 1 none 1 1 UTC\r\n", false),
    (AUTOMOVE, true),
    (GREEDY, true),
    (BOTH, true),
];

/// Boards, and what is said last of each to a user who plays himself and asks: nothing if it is not his turn.
static ASKED: [(&[u8], &str); 4] = [
    (TO_ROLL, "Your turn: roll, or double.\n"),
    (TO_MOVE, "Your move, as in: move 24-22 24-18\n"),
    (DOUBLED, "You are offered a double: accept, or reject.\n"),
    (MOVED, "help WORD says more about a word.\n"),
];

/// By the settings of this login: those of the one before say nothing of it.
#[test]
fn that_the_server_plays_is_said_if_it_does_and_only_then() {
    const ROW: &str = "You logged in with automove or greedy on: fix logs in again with both off.\n";
    let logs_in = |settings| [Cue::Loses, Cue::Opens, Cue::Hears(WELCOME), Cue::Hears(settings)];
    for (settings, plays) in PLAYING {
        for (board, hint) in ASKED {
            for before in [SETTINGS, BOTH] {
                let known = [&FIRST_BOARD[..], &logs_in(before), &[Cue::Rests]].concat();
                let asks = [Cue::Hears(board), Cue::Rests, Cue::Types(b"help"), Cue::Rests];
                let steps = [&logs_in(settings)[..], &asks].concat();
                let text = shown_then(plain_settings(), &known, &steps);
                let row = if plays { ROW } else { hint };
                assert_wanted(text.ends_with(row) && text.contains(ROW) == plays, &text, row);
            }
        }
    }
}

/// What is typed after a match leads on to the next one: the row of what next comes again, but not by itself. `accept` is
/// refused as before, if an invitation waits.
static AFTER_A_MATCH: [Scene; 5] = [
    (
        &[Cue::Hears(WON), Cue::Hears(WON_MATCH), Cue::Rests, Cue::Types(b"r"), Cue::Rests],
        "You are in no match: invite NAME 5 begins one. [7 NotYours]\n\
         invite bob 3 plays another match; players ready lists others.\n",
    ),
    (
        &[
            Cue::Hears(WON),
            Cue::Hears(WON_MATCH),
            Cue::Rests,
            Cue::Types(b"board"),
            Cue::Hears(b"** You're not playing.\r\n"),
            Cue::Rests,
        ],
        "** You're not playing.\ninvite bob 3 plays another match; players ready lists others.\n",
    ),
    (
        &[Cue::Hears(WON), Cue::Hears(WON_MATCH), Cue::Rests, Cue::Types(b"go"), Cue::Rests],
        "\nYou are in no match: invite NAME 5 begins one.\n\
         invite bob 3 plays another match; players ready lists others.\n",
    ),
    (
        &[Cue::Hears(WON), Cue::Hears(WON_MATCH), Cue::Rests, Cue::Hears(b"** 1 user heard you.\r\n"), Cue::Rests],
        "lists others.\n** 1 user heard you.\n",
    ),
    (
        &[
            Cue::Hears(WON),
            Cue::Hears(WON_MATCH),
            Cue::Rests,
            Cue::Hears(b"eve wants to play a 3 point match with you.\r\n"),
            Cue::Hears(b"Type 'join eve' to accept.\r\n"),
            Cue::Types(b"r"),
            Cue::Rests,
        ],
        "You are in no match: invite NAME 5 begins one. [7 NotYours]\nYou are invited: join eve\n",
    ),
];

#[test]
fn what_is_typed_after_a_match_leads_on() {
    assert_scenes(plain_settings(), &AFTER_A_MATCH);
}

#[test]
fn go_before_a_match_speaks_of_no_board() {
    const ROW: &str = "from localhost.\nYou are in no match: invite NAME 5 begins one.\n";
    assert_ends(plain_settings(), &[Cue::Hears(WELCOME), Cue::Hears(SETTINGS)], &[Cue::Types(b"go"), Cue::Rests], ROW);
}
