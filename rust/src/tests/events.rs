//! Events: what each line says has happened, by a table; a session in any pieces; a match that is cut and resumed;
//! lines in any order.

use crate::tests::steps::board_of;
use crate::tests::table::turns;
use crate::{Board, Decision, Event, Events, Length, Lines, Offer, Play, Reading, Side, Stake, read};

/// The board with which a game to 3 points begins: ann has rolled 6 and 3, or nothing yet.
const BEGUN: &str = "board:You:eve:3:0:0:0:-2:0:0:0:0:5:0:3:0:0:0:-5:5:0:0:0:-3:0:-5:0:0:0:0:2:0:1:6:3:0:0:1:1:1:0:1:-1:0:25:0:0:0:0:2:0:0:0";
const TO_ROLL: &str = "board:You:eve:3:0:0:0:-2:0:0:0:0:5:0:3:0:0:0:-5:5:0:0:0:-3:0:-5:0:0:0:0:2:0:1:0:0:0:0:1:1:1:0:1:-1:0:25:0:0:0:0:0:0:0:0";
/// After her 24-18 13-10, which is no good play.
const PLAYED: &str = "board:You:eve:3:0:0:0:-2:0:0:0:0:5:0:3:0:1:0:-5:4:0:0:0:-3:1:-5:0:0:0:0:1:0:-1:0:0:0:0:1:1:1:0:1:-1:0:25:0:0:0:0:0:0:0:0";
/// The same, and eve has rolled 4 and 2.
const EVE_ROLLED: &str = "board:You:eve:3:0:0:0:-2:0:0:0:0:5:0:3:0:1:0:-5:4:0:0:0:-3:1:-5:0:0:0:0:1:0:-1:0:0:4:2:1:1:1:0:1:-1:0:25:0:0:0:0:0:0:0:0";
/// Eve has moved 12-16 17-19 by the numbers of the line.
const EVE_PLAYED: &str = "board:You:eve:3:0:0:0:-2:0:0:0:0:5:0:3:0:1:0:-4:4:0:0:-1:-2:1:-6:0:0:0:0:1:0:1:0:0:0:0:1:1:1:0:1:-1:0:25:0:0:0:0:0:0:0:0";
/// Eve doubles; ann has taken; the score is 0 to 2 and the game over.
const DOUBLED: &str = "board:You:eve:3:0:0:0:-2:0:0:0:0:5:0:3:0:1:0:-5:4:0:0:0:-3:1:-5:0:0:0:0:1:0:-1:0:0:0:0:1:1:1:1:1:-1:0:25:0:0:0:0:0:0:0:0";
const TAKEN: &str = "board:You:eve:3:0:0:0:-2:0:0:0:0:5:0:3:0:1:0:-5:4:0:0:0:-3:1:-5:0:0:0:0:1:0:-1:0:0:0:0:2:1:0:0:1:-1:0:25:0:0:0:0:0:0:0:0";
const LOST: &str = "board:You:eve:3:0:2:0:-2:0:0:0:0:5:0:3:0:1:0:-5:4:0:0:0:-3:1:-5:0:0:0:0:1:0:0:0:0:0:0:2:1:0:0:1:-1:0:25:0:0:0:0:0:0:0:0";
/// The next game, before its first roll.
const NEXT: &str = "board:You:eve:3:0:2:0:-2:0:0:0:0:5:0:3:0:0:0:-5:5:0:0:0:-3:0:-5:0:0:0:0:2:0:1:0:0:0:0:1:1:1:0:1:-1:0:25:0:0:0:0:0:0:0:0";
/// The game is over, and the match too: eve has 4 points.
const LOST_ALL: &str = "board:You:eve:3:0:4:0:-2:0:0:0:0:5:0:3:0:1:0:-5:4:0:0:0:-3:1:-5:0:0:0:0:1:0:0:0:0:0:0:2:1:0:0:1:-1:0:25:0:0:0:0:0:0:0:0";

/// What precedes most rows: ann has logged in, and plays eve.
const LOGGED_IN: &str = "1 ann 1041253132 localhost";
const JOINED: &str = "** Player eve has joined you for a 3 point match.";

fn side(who: Side) -> &'static str {
    match who {
        Side::Own => "ann",
        Side::Other => "eve",
    }
}

fn length(length: Length) -> String {
    match length {
        Length::Points(points) => points.to_string(),
        Length::Unlimited => "unlimited".into(),
    }
}

fn worth(worth: Option<Stake>) -> &'static str {
    match worth {
        None => "?",
        Some(Stake::Normal) => "single",
        Some(Stake::Gammon) => "gammon",
        Some(Stake::Backgammon) => "backgammon",
    }
}

/// An event in words, for the table.
fn words(event: &Event<'_>) -> String {
    match event {
        Event::LoggedIn { name } => format!("logged in {name}"),
        Event::LoginRefused => "login refused".into(),
        Event::Invited { name, length: to } => format!("invited by {name} to {}", length(*to)),
        Event::InvitedToResume { name } => format!("invited by {name} to resume"),
        Event::Joined { name, length: to } => format!("joined {name} to {}", length(*to)),
        Event::Resumed { name } => format!("resumed with {name}"),
        Event::GameBegun { name } => format!("game with {name}"),
        Event::Rolled { who, dice } => format!("{} rolled {} {}", side(*who), dice[0], dice[1]),
        Event::Played { who, play } => {
            let steps: Vec<_> =
                play.steps().iter().map(|step| format!("{}-{}", step.source(), step.target())).collect();
            format!("{} played {}", side(*who), steps.join(" "))
        }
        Event::CannotMove { who } => format!("{} can't move", side(*who)),
        Event::Doubled { who } => format!("{} doubled", side(*who)),
        Event::Accepted { who, offer: Offer::Double } => format!("{} accepted the double", side(*who)),
        Event::Accepted { who, offer: Offer::Resignation } => format!("{} accepted the resignation", side(*who)),
        Event::Rejected { who } => format!("{} rejected", side(*who)),
        Event::OfferedToResign { who, points, worth: w } => format!("{} resigns {points} {}", side(*who), worth(*w)),
        Event::Declined { who } => format!("{} declined", side(*who)),
        Event::GameOver { winner, points, worth: w } => format!("{} won {points} {}", side(*winner), worth(*w)),
        Event::NextGame => "next game".into(),
        Event::MatchOver { winner, length, score } => {
            format!("{} won the match to {length} {}-{}", side(*winner), score[0], score[1])
        }
        Event::Left { who } => format!("{} left", side(*who)),
        Event::NotPlaying => "not playing".into(),
        Event::RatingChanged { who, rating, experience } => format!("{} rated {rating} {experience}", side(*who)),
        Event::NothingSaved { name } => format!("nothing saved with {name}"),
        Event::Refused { text } => format!("refused: {}", text.escape_ascii()),
    }
}

/// The events of lines, in words.
fn heard<'a>(lines: impl IntoIterator<Item = &'a str>) -> Vec<String> {
    let mut events = Events::new();
    let mut said = Vec::new();
    for line in lines {
        said.extend(events.hear(&read(line.as_bytes())).unwrap().map(|event| words(&event)));
    }
    said
}

#[test]
fn each_line_says_what_has_happened() {
    let rows: &[(&[&str], &[&str])] = &[
        (&[LOGGED_IN], &["logged in ann"]),
        (&["eve wants to play a 3 point match with you.", "Type 'join eve' to accept."], &["invited by eve to 3"]),
        (&["eve wants to play an unlimited match with you."], &["invited by eve to unlimited"]),
        (&["eve wants to resume a saved match with you.", "Type 'join eve' to accept."], &["invited by eve to resume"]),
        (
            &["eve wants to play a 3 point match with you.", "eve wants to play a 3 point match with you."],
            &["invited by eve to 3"],
        ),
        (
            &[
                "eve wants to play a 3 point match with you.",
                "8 eve eve logs out.",
                "eve wants to play a 3 point match with you.",
            ],
            &["invited by eve to 3", "invited by eve to 3"],
        ),
        (
            &["eve wants to play a 3 point match with you.", "eve wants to play a 5 point match with you."],
            &["invited by eve to 3", "invited by eve to 5"],
        ),
        (&[JOINED], &["joined eve to 3"]),
        (&[JOINED, JOINED], &["joined eve to 3"]),
        (&["** You are now playing a 5 point match with eve"], &["joined eve to 5"]),
        (&["** You are now playing an unlimited match with eve"], &["joined eve to unlimited"]),
        (&["** Player a has joined you for a 7 point match."], &["joined a to 7"]),
        (&["** Player 12 has joined you for a 7 point match."], &["joined 12 to 7"]),
        (&["You are now playing with eve. Your running match was loaded."], &["resumed with eve"]),
        (&["eve has joined you. Your running match was loaded."], &["resumed with eve"]),
        (&["eve has joined you. Your running match was loaded."; 2], &["resumed with eve"]),
        (&[JOINED, "Starting a new game with eve."], &["joined eve to 3", "game with eve"]),
        // boards alone
        (&[BEGUN], &["ann rolled 6 3"]),
        (&[TO_ROLL], &[]),
        (&[TO_ROLL, BEGUN], &["ann rolled 6 3"]),
        (&[BEGUN, BEGUN, BEGUN], &["ann rolled 6 3"]),
        (&[BEGUN, PLAYED], &["ann rolled 6 3", "ann played 24-18 13-10"]),
        (&[BEGUN, PLAYED, PLAYED], &["ann rolled 6 3", "ann played 24-18 13-10"]),
        (&[BEGUN, EVE_ROLLED], &["ann rolled 6 3", "ann played 24-18 13-10", "eve rolled 4 2"]),
        (&[EVE_ROLLED, EVE_PLAYED], &["eve rolled 4 2", "eve played 13-9 8-6"]),
        (&[PLAYED, DOUBLED], &["eve doubled"]),
        (&[PLAYED, DOUBLED, DOUBLED, TAKEN], &["eve doubled", "ann accepted the double"]),
        (&[PLAYED, TAKEN], &["eve doubled", "ann accepted the double"]),
        (&[TAKEN, LOST], &["eve won 2 single"]),
        (&[TAKEN, LOST, LOST], &["eve won 2 single"]),
        (&[TAKEN, NEXT, BEGUN], &["eve won 2 single", "ann rolled 6 3"]),
        (&[TAKEN, LOST, NEXT, "eve wins the game and gets 1 point. Sorry."], &["eve won 2 single", "eve won 1 single"]),
        (&[TAKEN, LOST_ALL], &["eve won 4 gammon", "eve won the match to 3 0-4"]),
        (
            &[
                "board:ann:eve:3:0:0:0:-2:0:0:0:0:5:0:3:0:0:0:-5:5:0:0:0:-3:0:-5:0:0:0:0:2:0:1:6:3:0:0:1:1:1:0:1:-1:0:25:0:0:0:0:2:0:0:0",
            ],
            &[],
        ),
        // boards before texts: nothing twice
        (&[TO_ROLL, "You roll 6 and 3.", BEGUN], &["ann rolled 6 3"]),
        (&[TO_ROLL, BEGUN, "You roll 3 and 6."], &["ann rolled 6 3"]),
        (&[PLAYED, "eve rolls 4 and 2.", EVE_ROLLED], &["eve rolled 4 2"]),
        (&[PLAYED, "eve rolls 4 and 2.", "eve moves 12-16 17-19 ."], &["eve rolled 4 2", "eve played 13-9 8-6"]),
        (&[PLAYED, "eve rolls 4 and 2.", EVE_PLAYED], &["eve rolled 4 2", "eve played 13-9 8-6"]),
        (
            &[PLAYED, "eve rolls 4 and 2.", "eve moves 12-16 17-19 .", "eve moves 12-16 17-19 .", EVE_PLAYED],
            &["eve rolled 4 2", "eve played 13-9 8-6"],
        ),
        // against the rules, of a side that has not rolled, and of others
        (&[PLAYED, "eve rolls 4 and 2.", "eve moves 12-16 17-20 ."], &["eve rolled 4 2"]),
        (&[PLAYED, "eve moves 12-16 17-19 ."], &[]),
        (&[PLAYED, "eve can't move."], &[]),
        (
            &[
                PLAYED,
                "bob rolls 4 and 2.",
                "bob doubles. Type 'accept' or 'reject'.",
                "bob wins the game and gets 1 point. Sorry.",
            ],
            &[],
        ),
        (&["eve rolls 4 and 2."], &[]),
        // the cube
        (&[PLAYED, "eve doubles. Type 'accept' or 'reject'.", DOUBLED], &["eve doubled"]),
        (
            &[PLAYED, "eve doubles. Type 'accept' or 'reject'.", "You accept the double. The cube shows 2.", TAKEN],
            &["eve doubled", "ann accepted the double"],
        ),
        (
            &[
                TO_ROLL,
                "You double. Please wait for eve to accept or reject.",
                "eve accepts the double. The cube shows 2.",
            ],
            &["ann doubled", "eve accepted the double"],
        ),
        // what a game is worth on a cube that no board has shown yet
        (
            &[
                TO_ROLL,
                "You double. Please wait for eve to accept or reject.",
                "eve accepts the double. The cube shows 2.",
                "You win the game and get 2 points. Congratulations!",
            ],
            &["ann doubled", "eve accepted the double", "ann won 2 single"],
        ),
        (
            &[TO_ROLL, "You double. Please wait for eve to accept or reject.", "eve gives up. You win 1 point."],
            &["ann doubled", "eve rejected"],
        ),
        (
            &[DOUBLED, "You give up. eve wins 1 point.", "eve wins the game and gets 1 point. Sorry."],
            &["eve doubled", "ann rejected", "eve won 1 single"],
        ),
        (&[TO_ROLL, "eve accepts the double. The cube shows 2.", "eve gives up. You win 1 point."], &[]),
        (
            &[
                JOINED,
                "You double. Please wait for eve to accept or reject.",
                "eve accepts the double. The cube shows 2.",
                "eve accepts the double. The cube shows 2.",
            ],
            &["joined eve to 3", "ann doubled", "eve accepted the double"],
        ),
        // resignations
        (&[TO_ROLL, "You want to resign. eve will win 2 points."], &["ann resigns 2 gammon"]),
        (
            &[
                "** Player 99 has joined you for a 7 point match.",
                "You want to resign. 99 will win 1 point.",
                "99 rejects. The game continues.",
                "99 wants to resign. You will win 2 points. Type 'accept' or 'reject'.",
                "You accept and win 2 points.",
                "You win the game and get 2 points. Congratulations!",
            ],
            &[
                "joined 99 to 7", "ann resigns 1 ?", "eve declined", "eve resigns 2 ?", "ann accepted the resignation",
                "ann won 2 ?",
            ],
        ),
        (
            &[
                TO_ROLL,
                "eve wants to resign. You will win 3 points. Type 'accept' or 'reject'.",
                "eve wants to resign. You will win 3 points. Type 'accept' or 'reject'.",
            ],
            &["eve resigns 3 backgammon"],
        ),
        (
            &[
                TO_ROLL,
                "You want to resign. eve will win 1 point.",
                "eve rejects. The game continues.",
                "eve rejects. The game continues.",
            ],
            &["ann resigns 1 single", "eve declined"],
        ),
        (
            &[
                TO_ROLL,
                "eve wants to resign. You will win 1 point. Type 'accept' or 'reject'.",
                "You reject. The game continues.",
            ],
            &["eve resigns 1 single", "ann declined"],
        ),
        (
            &[
                TO_ROLL,
                "You want to resign. eve will win 2 points.",
                "eve accepts and wins 2 points.",
                "eve wins the game and gets 2 points. Sorry.",
            ],
            &["ann resigns 2 gammon", "eve accepted the resignation", "eve won 2 gammon"],
        ),
        (
            &[
                TO_ROLL,
                "eve wants to resign. You will win 1 point. Type 'accept' or 'reject'.",
                "You accept and win 1 point.",
                "You win the game and get 1 point. Congratulations!",
            ],
            &["eve resigns 1 single", "ann accepted the resignation", "ann won 1 single"],
        ),
        (
            &[
                TO_ROLL,
                "You want to resign. eve will win 1 point.",
                "You roll 6 and 3.",
                "eve rejects. The game continues.",
            ],
            &["ann resigns 1 single", "ann rolled 6 3"],
        ),
        // a play by a board alone ends an offer too
        (
            &[
                BEGUN,
                "eve wants to resign. You will win 1 point. Type 'accept' or 'reject'.",
                PLAYED,
                "You accept and win 1 point.",
            ],
            &["ann rolled 6 3", "eve resigns 1 single", "ann played 24-18 13-10"],
        ),
        (
            &[TO_ROLL, "You want to resign. eve will win 1 point.", "You reject. The game continues."],
            &["ann resigns 1 single"],
        ),
        // ends
        (
            &[
                TAKEN,
                LOST,
                "eve wins the game and gets 2 points. Sorry.",
                "Type 'join' if you want to play the next game, type 'leave' if you don't.",
            ],
            &["eve won 2 single", "next game"],
        ),
        (
            &[TAKEN, "eve wins the game and gets 4 points. Sorry.", "eve wins the 3 point match 4-0 .", LOST_ALL],
            &["eve won 4 gammon", "eve won the match to 3 0-4"],
        ),
        (&[JOINED, "You win the 3 point match 3-1 ."], &["joined eve to 3", "ann won the match to 3 3-1"]),
        (&[JOINED, "bob wins the 3 point match 3-1 ."], &["joined eve to 3"]),
        (&[BEGUN, "** Player eve has left the game. The game was saved."], &["ann rolled 6 3", "eve left"]),
        (&[TO_ROLL, "eve drops connection. The game was saved."], &["eve left"]),
        (&[TO_ROLL, "bob drops connection. The game was saved."], &[]),
        (
            &[
                TO_ROLL,
                "** You terminated the game. The game was saved.",
                "** You terminated the game. The game was saved.",
            ],
            &["ann left"],
        ),
        (&["** You're not playing.", "** You're not playing."], &["not playing"]),
        (&["** You're not playing. Type 'join' if you want to play the next game."], &["next game"]),
        // other connections, and another user's
        (
            &[LOGGED_IN, "** You're not playing.", LOGGED_IN, "** You're not playing."],
            &["logged in ann", "not playing", "logged in ann", "not playing"],
        ),
        (
            &[LOGGED_IN, BEGUN, "1 eva 1041253132 localhost", PLAYED],
            &["logged in ann", "ann rolled 6 3", "logged in eva"],
        ),
        (
            &[LOGGED_IN, BEGUN, LOGGED_IN, PLAYED],
            &["logged in ann", "ann rolled 6 3", "logged in ann", "ann played 24-18 13-10"],
        ),
        // answers, each time
        (&["** There's no saved match with eve."], &["nothing saved with eve"]),
        (&["** You can't roll now."; 2], &["refused: ** You can\\'t roll now."; 2]),
        (
            &["** Please wait until eve has accepted or rejected your offer."],
            &["refused: ** Please wait until eve has accepted or rejected your offer."],
        ),
        // ratings
        (
            &[
                LOGGED_IN,
                JOINED,
                "5 ann eve - 0 0 1500.00 0 1 1041253132 host client -",
                "5 ann - - 1 0 1512.50 3 1 1041253132 host client -",
            ],
            &["logged in ann", "joined eve to 3", "ann rated 151250 3"],
        ),
        (
            &[
                LOGGED_IN,
                JOINED,
                "5 eve ann - 0 0 1500.00 9 1 1041253132 host client -",
                "5 eve - - 1 0 1487.5 12 1 1041253132 host client -",
            ],
            &["logged in ann", "joined eve to 3", "eve rated 148750 12"],
        ),
        (&[LOGGED_IN, "5 bob - - 1 0 1500 0 1 1 h c -", "5 bob - - 1 0 1600 0 1 1 h c -"], &["logged in ann"]),
        // what says nothing
        (
            &[
                "Hello", "", "12 eve You roll 6 and 3.", "rolls 6 and 3.", "You roll 7 and 3.", "You roll 6 and 3",
                ">> accept",
            ],
            &[],
        ),
        (&["3", "eve wants to play a 3 point match with you.", "4"], &[]),
        (&[">> wants to play a 3 point match with you."], &[]),
    ];
    for (lines, wanted) in rows {
        assert_eq!(heard(lines.iter().copied()), *wanted, "{lines:?}");
    }
}

/// Each row is of something that was known of a player, a match, a game or a login, and ends with it.
#[test]
fn what_was_known_ends_with_what_it_is_of() {
    const INVITES: &str = "eve wants to play a 3 point match with you.";
    const WINS: &str = "eve wins the game and gets 2 points. Sorry.";
    let won = LOST_ALL.replace(":eve:3:0:4:", ":eve:3:4:0:");
    let longer = [TAKEN.replace(":eve:3:0:0:", ":eve:5:0:4:"), LOST_ALL.replace(":eve:3:0:4:", ":eve:5:0:6:")];
    let closed = "board:You:eve:5:0:0:0:0:0:0:0:0:14:0:0:0:0:0:0:0:0:0:0:0:0:-2:-2:-2:-2:-2:-2:1:1:3:1:0:0:1:1:1:0:1:-1:0:25:0:3:1:0:0:0:0:0";
    let rows: &[(&[&str], &[&str])] = &[
        // invitations
        (&[INVITES, "bob wants to play a 3 point match with you."], &["invited by eve to 3", "invited by bob to 3"]),
        (&[INVITES, "8 bob bob logs out.", INVITES], &["invited by eve to 3"]),
        (&[INVITES, JOINED, INVITES], &["invited by eve to 3", "joined eve to 3", "invited by eve to 3"]),
        (
            &[LOGGED_IN, INVITES, LOGGED_IN, INVITES],
            &["logged in ann", "invited by eve to 3", "logged in ann", "invited by eve to 3"],
        ),
        // another opponent
        (&[JOINED, "** Player bob has joined you for a 3 point match."], &["joined eve to 3", "joined bob to 3"]),
        (
            &[
                "eve has joined you. Your running match was loaded.",
                "bob has joined you. Your running match was loaded.",
            ],
            &["resumed with eve", "resumed with bob"],
        ),
        (&["Starting a new game with eve.", "Starting a new game with bob."], &["game with eve", "game with bob"]),
        (
            &[
                JOINED,
                "5 eve ann - 0 0 1500.00 9 1 1041253132 host client -",
                "** Player bob has joined you for a 3 point match.",
                "5 bob ann - 0 0 1600.00 9 1 1041253132 host client -",
            ],
            &["joined eve to 3", "joined bob to 3"],
        ),
        // the next match
        (
            &[
                JOINED, "Starting a new game with eve.", "You win the 3 point match 3-1 .", JOINED,
                "You win the 3 point match 3-2 .",
            ],
            &[
                "joined eve to 3", "game with eve", "ann won the match to 3 3-1", "joined eve to 3",
                "ann won the match to 3 3-2",
            ],
        ),
        (
            &[TAKEN, &won, TAKEN, &won],
            &["ann won 4 gammon", "ann won the match to 3 4-0", "ann won 4 gammon", "ann won the match to 3 4-0"],
        ),
        (
            &[TAKEN, LOST_ALL, TAKEN, LOST_ALL],
            &["eve won 4 gammon", "eve won the match to 3 0-4", "eve won 4 gammon", "eve won the match to 3 0-4"],
        ),
        (
            &[TAKEN, LOST_ALL, &longer[0], &longer[1]],
            &["eve won 4 gammon", "eve won the match to 3 0-4", "eve won 2 single", "eve won the match to 5 0-6"],
        ),
        // the next game
        (
            &[TAKEN, "Starting a new game with eve.", "You want to resign. eve will win 2 points."],
            &["game with eve", "ann resigns 2 ?"],
        ),
        (&[TAKEN, WINS, BEGUN, WINS], &["eve won 2 single", "ann rolled 6 3", "eve won 2 gammon"]),
        // a double
        (
            &[
                TO_ROLL,
                "You double. Please wait for eve to accept or reject.",
                "eve gives up. You win 1 point.",
                "eve gives up. You win 1 point.",
            ],
            &["ann doubled", "eve rejected"],
        ),
        (
            &[DOUBLED, "You accept the double. The cube shows 2.", "eve rolls 4 and 2.", "eve moves 12-16 17-19 ."],
            &["eve doubled", "ann accepted the double", "eve rolled 4 2", "eve played 13-9 8-6"],
        ),
        // a roll, and a message of the day that a new login cuts off
        (&[closed, "You can't move."], &["ann rolled 3 1", "ann can't move"]),
        (&[LOGGED_IN, "3", LOGGED_IN, JOINED], &["logged in ann", "logged in ann", "joined eve to 3"]),
    ];
    for (lines, wanted) in rows {
        assert_eq!(heard(lines.iter().copied()), *wanted, "{lines:?}");
    }
}

/// The plays that boards tell; the one of no step if a side can't move.
fn plays_told(boards: [Board; 2]) -> Vec<Play> {
    let mut events = Events::new();
    let mut plays = Vec::new();
    for board in boards {
        plays.extend(events.hear(&Reading::Board(board)).unwrap().filter_map(|event| match event {
            Event::Played { play, .. } => Some(play),
            Event::CannotMove { .. } => Some(Play::new()),
            _ => None,
        }));
    }
    plays
}

/// A server asks for no dice: it may carry out what the rules forbid. Of worked turns, as both sides see them, only a
/// legal play is told, also if another one leads to the same checkers.
#[test]
fn boards_tell_no_play_against_the_rules() {
    let mut untold = 0;
    for row in turns(include_str!("turns.txt")).unwrap() {
        let before = board_of(&row);
        for play in &row.refused {
            let Some(after) = before.after(&Decision::Move(*play), [0, 0]) else { continue };
            for boards in [[before, after], [before.turned(), after.turned()]] {
                let told = plays_told(boards);
                assert!(told.iter().all(|play| row.plays.contains(play)), "{}: {play} is told as {told:?}", row.name);
                untold += usize::from(told.is_empty());
            }
        }
    }
    assert!(untold > 20, "{untold}");
}

/// How often bytes that come in pieces of this size say that the login was refused.
fn refusals(events: &mut Events, bytes: &[u8], size: usize) -> usize {
    bytes.chunks(size).map(|piece| events.hear_bytes(piece).filter(|event| *event == Event::LoginRefused).count()).sum()
}

#[test]
fn a_question_that_comes_again_says_that_the_login_was_refused() {
    let rows: &[(&str, usize)] = &[
        ("", 0),
        ("login: ", 0),
        ("login: \r\n", 0),
        ("login: \r\nlogin:", 0),
        ("login: \r\nlogin: ", 1),
        ("login: \nlogin: ", 1),
        ("FIBS\r\nlogin: \r\n** User not known or wrong password.\r\nlogin: ", 1),
        // a text that has the question in it, before it or behind it
        ("Type guest at login: \r\nlogin: ", 0),
        ("login: guest\r\nlogin: ", 0),
        ("login: \r\nlogin: guest", 0),
        ("login: \r\n login: ", 0),
        // the user was greeted
        ("login: 1 ann 1041253132 localhost\r\nlogin: ", 0),
        ("login: \r\n1 ann 1041253132 localhost\r\nlogin: ", 0),
        ("login: \r\nlogin: 1 ann 1041253132 localhost\r\nlogin: \r\nlogin: ", 0),
        ("login: \r\n1998 players\r\nlogin: ", 1),
    ];
    for (bytes, wanted) in rows {
        assert_eq!(refusals(&mut Events::new(), bytes.as_bytes(), 100), *wanted, "{bytes:?}");
        let is_told_within = bytes.contains("\nlogin: 1") || bytes.contains("\nlogin: guest");
        for size in if is_told_within { 100..100 } else { 1..9 } {
            assert_eq!(refusals(&mut Events::new(), bytes.as_bytes(), size), *wanted, "{bytes:?} in pieces of {size}");
        }
    }
}

#[test]
fn each_question_is_told_once_on_each_connection() {
    let mut events = Events::new();
    assert_eq!(refusals(&mut events, b"login: \r\nlogin: ", 100), 1);
    for (piece, wanted) in [("", 0), ("\r", 0), ("\n", 0), ("login: ", 1), ("\r\nlogin: ", 1)] {
        assert_eq!(refusals(&mut events, piece.as_bytes(), 100), wanted, "{piece:?}");
    }
    events.open();
    assert_eq!(refusals(&mut events, b"login: ", 100), 0);
    assert_eq!(refusals(&mut events, b"\r\nlogin: ", 3), 1);
    // what lines say is another matter
    assert_eq!(events.hear(&read(LOGGED_IN.as_bytes())).unwrap().count(), 1);
    assert_eq!(refusals(&mut events, b"\r\nlogin: ", 3), 1);
}

/// A match of three points to its end, as the examples' server told it to one of two players.
const SESSION: &[u8] = include_bytes!("session.txt");

/// The lines of the session.
fn lines_of(bytes: &[u8]) -> Vec<Vec<u8>> {
    Lines::new().owned(bytes).map(|line| line.bytes).collect()
}

/// The events of lines.
fn of_lines(lines: &[Vec<u8>]) -> Vec<String> {
    let mut events = Events::new();
    let mut said = Vec::new();
    for line in lines {
        said.extend(events.hear(&read(line)).unwrap().map(|event| words(&event)));
    }
    said
}

#[test]
fn a_session_in_any_pieces_says_the_same() {
    let whole = of_lines(&lines_of(SESSION));
    assert!(whole.len() > 60 && whole.last().unwrap().contains("rated"), "{whole:?}");
    for size in [1, 2, 3, 7, 1000] {
        let mut lines = Lines::new();
        let read: Vec<_> = SESSION.chunks(size).flat_map(|piece| lines.owned(piece).collect::<Vec<_>>()).collect();
        assert_eq!(of_lines(&read.into_iter().map(|line| line.bytes).collect::<Vec<_>>()), whole, "pieces of {size}");
    }
}

#[test]
fn each_roll_has_one_play_and_each_game_one_end() {
    let whole = of_lines(&lines_of(SESSION));
    let count = |word: &str| whole.iter().filter(|said| said.contains(word)).count();
    assert_eq!(count(" rolled "), count(" played ") + count("can't move"), "{whole:?}");
    assert_eq!((count(" won "), count("won the match")), (2, 1));
}

#[test]
fn a_match_that_is_cut_and_resumed_says_nothing_twice() {
    let lines = lines_of(SESSION);
    let whole = of_lines(&lines);
    let again: Vec<Vec<u8>> = ["1 ann 1041253132 localhost", "bob has joined you. Your running match was loaded."]
        .iter()
        .map(|line| line.as_bytes().to_vec())
        .collect();
    for cut in 0..lines.len() {
        // what comes before the next board is lost
        let Some(next) = lines[cut..].iter().position(|line| matches!(read(line), Reading::Board(_))) else { break };
        let resumed = [&lines[..cut], &again, &lines[cut + next..]].concat();
        let mut rest = whole.iter();
        for said in of_lines(&resumed) {
            let is_of_login = said.starts_with("logged in") || said.starts_with("resumed");
            // a board says where checkers are, and not which was moved first
            let kind = |said: &str| said.split_inclusive(" played").next().map(str::to_string);
            assert!(is_of_login || rest.any(|one| kind(one) == kind(&said)), "cut at line {cut}: {said}");
        }
    }
}

#[test]
fn lines_in_any_order_end_no_program() {
    let lines = lines_of(SESSION);
    let mut seed = 1_u64;
    let mut events = Events::new();
    let mut said = 0;
    for _ in 0..if cfg!(debug_assertions) { 20_000 } else { 1_000_000 } {
        seed = seed.wrapping_mul(6364136223846793005).wrapping_add(1442695040888963407);
        let mut line = lines[(seed >> 33) as usize % lines.len()].clone();
        if seed >> 62 == 0 && !line.is_empty() {
            let at = (seed >> 20) as usize % line.len();
            line[at] = (seed >> 8) as u8;
        }
        said += events.hear(&read(&line)).unwrap().count();
    }
    assert!(said > 200);
}
