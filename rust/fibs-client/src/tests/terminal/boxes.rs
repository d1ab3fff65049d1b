//! What has ended is forgotten: two terminals that differ only in what was of a connection, an opponent, a game or a
//! question that is over say the same ever after.

use super::lines::{DOUBLED, FIRST_BOARD, MOVED, OVER, SETTINGS, TO_MOVE, TO_ROLL, WELCOME};
use super::seats::{Cue, assert_wanted, plain_settings, shown};

/// How many pairs are tried of each law, how much is of what has ended, and how much comes after it.
const PAIRS: u64 = 60;

const MOST_ENDED: usize = 8;

const LATER: usize = 60;

/// A board of another opponent.
const WITH_CAROL: &[u8] =
    b"board:You:carol:3:0:1:0:-2:0:0:0:0:5:0:3:0:0:0:-5:5:0:0:0:-3:0:-5:0:0:0:0:2:0:1:0:0:0:0:1:1:1:0:1:-1:0:25:0:0:0:0:2:0:0:0\r\n";

/// A board of a game that is watched.
const WATCHED: &[u8] =
    b"board:dave:eve:5:0:1:0:-2:0:0:0:0:5:0:3:0:0:0:-5:5:0:0:0:-3:0:-5:0:0:0:0:2:0:1:6:2:0:0:1:1:1:0:1:-1:0:25:0:0:0:0:2:0:0:0\r\n";

/// What may come at any time, and is of no offer and of no other match.
static OF_A_CONNECTION: [Cue<'static>; 36] = [
    Cue::Rests,
    Cue::Rests,
    Cue::Hears(TO_ROLL),
    Cue::Hears(TO_MOVE),
    Cue::Hears(MOVED),
    Cue::Hears(WATCHED),
    Cue::Hears(WATCHED),
    Cue::Types(b"board"),
    Cue::Types(b"board"),
    Cue::Types(b"roll"),
    Cue::Types(b"move 24-18 24-22"),
    Cue::Types(b"move 1-2"),
    Cue::Types(b"who"),
    Cue::Types(b"send who ready"),
    Cue::Types(b"send watch dave"),
    Cue::Types(b"send unwatch"),
    Cue::Types(b"join"),
    Cue::Types(b"plays"),
    Cue::Types(b"quit"),
    Cue::Types(b"quit"),
    Cue::Hears(b"7 bob bob logs in.\r\n"),
    Cue::Hears(b"7 bob bob logs in.\r\n"),
    Cue::Hears(b"8 bob bob drops connection.\r\n"),
    Cue::Hears(b"5 carol - - 1 0 1623.45 0 0 1 host - -\r\n"),
    Cue::Hears(b"5 dave eve - 1 0 1523.45 0 0 1 host - -\r\n"),
    Cue::Hears(b"6\r\n"),
    Cue::Hears(b"3\r\n"),
    Cue::Hears(b"You're now watching dave.\r\n"),
    Cue::Hears(b"eve wants to play a 3 point match with you.\r\n"),
    Cue::Hears(b"Type 'join eve' to accept.\r\n"),
    Cue::Hears(b"** You can't double.\r\n"),
    Cue::Hears(b"** You can't double.\r\n"),
    Cue::Hears(b"** You did already roll the dice.\r\n"),
    Cue::Hears(b"It's your turn to roll or double.\r\n"),
    Cue::Hears(b"bob rolls 3 and 1.\r\n"),
    Cue::Hears(b"** bob didn't invite you.\r\n"),
];

/// What is of an opponent and of the match with him, and no decision waits after it.
static OF_AN_OPPONENT: [Cue<'static>; 18] = [
    Cue::Rests,
    Cue::Hears(TO_ROLL),
    Cue::Hears(TO_MOVE),
    Cue::Hears(MOVED),
    Cue::Hears(DOUBLED),
    Cue::Hears(b"7 bob bob logs in.\r\n"),
    Cue::Hears(b"7 bob bob logs in.\r\n"),
    Cue::Hears(b"8 bob bob drops connection.\r\n"),
    Cue::Hears(b"** You can't double.\r\n"),
    Cue::Hears(b"** You can't double.\r\n"),
    Cue::Hears(b"bob doubles. Type 'accept' or 'reject'.\r\n"),
    Cue::Hears(b"bob wants to resign. You will win 1 point.\r\n"),
    Cue::Hears(b"It's your turn to roll or double.\r\n"),
    Cue::Hears(b"bob rolls 3 and 1.\r\n"),
    Cue::Hears(b"bob wins the game and gets 1 point. Sorry.\r\n"),
    Cue::Hears(b"** You're not playing. Type 'join' to play the next game.\r\n"),
    Cue::Types(b"quit"),
    Cue::Types(b"quit"),
];

/// What comes after it.
static EVENTS: [Cue<'static>; 99] = [
    Cue::Rests,
    Cue::Rests,
    Cue::Rests,
    Cue::Rests,
    Cue::Rests,
    Cue::Rests,
    Cue::Rests,
    Cue::Rests,
    Cue::Rests,
    Cue::Rests,
    Cue::Hears(TO_ROLL),
    Cue::Hears(TO_ROLL),
    Cue::Hears(TO_MOVE),
    Cue::Hears(MOVED),
    Cue::Hears(DOUBLED),
    Cue::Hears(OVER),
    Cue::Hears(WITH_CAROL),
    Cue::Hears(WATCHED),
    Cue::Types(b"roll"),
    Cue::Types(b"double"),
    Cue::Types(b"move 24-22 24-18"),
    Cue::Types(b"move 1-2"),
    Cue::Types(b"resign g"),
    Cue::Types(b"accept"),
    Cue::Types(b"reject"),
    Cue::Types(b"board"),
    Cue::Types(b"help"),
    Cue::Types(b"help"),
    Cue::Types(b"words"),
    Cue::Types(b"words"),
    Cue::Types(b"players"),
    Cue::Types(b"players"),
    Cue::Types(b"plays"),
    Cue::Types(b"plays more"),
    Cue::Types(b"try 24-22 24-18"),
    Cue::Types(b"go"),
    Cue::Types(b"talk"),
    Cue::Types(b"re hi"),
    Cue::Types(b"who"),
    Cue::Types(b"send who ready"),
    Cue::Types(b"send unwatch"),
    Cue::Types(b"send roll"),
    Cue::Types(b"send accept "),
    Cue::Types(b"leave"),
    Cue::Types(b"bye"),
    Cue::Types(b"bye"),
    Cue::Types(b"quit"),
    Cue::Types(b"quit"),
    Cue::Types(b"order roll"),
    Cue::Hears(b"bob rejects. The game continues.\r\n"),
    Cue::Hears(b"bob accepts the double. The cube shows 2.\r\n"),
    Cue::Hears(b"bob accepts and wins 2 points.\r\n"),
    Cue::Hears(b"bob wins the game and gets 1 point. Sorry.\r\n"),
    Cue::Hears(b"bob wins the 3 point match 3-0 .\r\n"),
    Cue::Hears(b"bob doubles. Type 'accept' or 'reject'.\r\n"),
    Cue::Hears(b"bob wants to resign. You will win 1 point.\r\n"),
    Cue::Hears(b"bob has joined you. Your running match was loaded.\r\n"),
    Cue::Hears(b"carol has joined you. Your running match was loaded.\r\n"),
    Cue::Hears(b"bob wants to resume a saved match with you.\r\n"),
    Cue::Hears(b"eve wants to play a 3 point match with you.\r\n"),
    Cue::Hears(b"Type 'join eve' to accept.\r\n"),
    Cue::Hears(b"bob rolls 3 and 1.\r\n"),
    Cue::Hears(b"bob drops connection. The game was saved.\r\n"),
    Cue::Hears(b"carol drops connection. The game was saved.\r\n"),
    Cue::Hears(b"** You terminated the game. The game was saved.\r\n"),
    Cue::Hears(b"** Please wait for bob to join too.\r\n"),
    Cue::Hears(b"** Player carol has joined you for a 3 point match.\r\n"),
    Cue::Hears(b"Starting a new game with bob.\r\n"),
    Cue::Hears(b"** You're not playing. Type 'join' to play the next game.\r\n"),
    Cue::Hears(b"** You're not playing.\r\n"),
    Cue::Hears(b"** You have to accept or reject bob's offer.\r\n"),
    Cue::Hears(b"** There's no saved match with bob. Please give a match length.\r\n"),
    Cue::Hears(b"** eve didn't invite you.\r\n"),
    Cue::Hears(b"** You can't double.\r\n"),
    Cue::Hears(b"** You did already roll the dice.\r\n"),
    Cue::Hears(b"You double. Please wait for bob to accept or reject.\r\n"),
    Cue::Hears(b"You reject. The game continues.\r\n"),
    Cue::Hears(b"It's your turn to roll or double.\r\n"),
    Cue::Hears(b"You can't move.\r\n"),
    Cue::Hears(b"bob's turn.\r\n"),
    Cue::Hears(b"You're now watching dave.\r\n"),
    Cue::Hears(b"dave wins the 5 point match 5-0 .\r\n"),
    Cue::Hears(b"2 ann 1 1 0 0 0 0 1 1 0 0 1 0 1 1500.00 0 0 none 0 0 UTC\r\n"),
    Cue::Hears(b"3\r\n"),
    Cue::Hears(b"4\r\n"),
    Cue::Hears(b"4\r\n"),
    Cue::Hears(b"5 bob - - 1 0 1623.45 0 0 1 host - -\r\n"),
    Cue::Hears(b"5 carol - - 1 0 1623.45 0 0 1 host - -\r\n"),
    Cue::Hears(b"5 dave eve - 1 0 1523.45 0 0 1 host - -\r\n"),
    Cue::Hears(b"6\r\n"),
    Cue::Hears(b"6\r\n"),
    Cue::Hears(b"7 bob bob logs in.\r\n"),
    Cue::Hears(b"7 carol carol logs in.\r\n"),
    Cue::Hears(b"8 bob bob drops connection.\r\n"),
    Cue::Hears(b"8 carol carol drops connection.\r\n"),
    Cue::Hears(b"8 eve eve drops connection.\r\n"),
    Cue::Hears(b"12 carol hi\r\n"),
    Cue::Hears(b"pip\r\n"),
    Cue::Loses,
];

/// How what comes later may begin: what shows most of what was of another connection or match.
static HEADS: [&[Cue<'static>]; 5] = [
    &[],
    &[
        Cue::Hears(b"5 carol - - 1 0 1623.45 0 0 1 host - -\r\n"),
        Cue::Hears(b"6\r\n"),
        Cue::Hears(b"** You're not playing.\r\n"),
        Cue::Rests,
        Cue::Types(b"help"),
        Cue::Rests,
    ],
    &[Cue::Hears(b"Type 'join eve' to accept.\r\n"), Cue::Rests],
    &[Cue::Hears(TO_ROLL), Cue::Rests, Cue::Types(b"words")],
    &[Cue::Types(b"words"), Cue::Types(b"help"), Cue::Rests, Cue::Types(b"players")],
];

/// What may have come before: nothing, or a match was left, or an offer to resign is open.
static BEFORE: [&[Cue<'static>]; 3] = [
    &[],
    &[Cue::Hears(b"bob drops connection. The game was saved.\r\n"), Cue::Rests],
    &[Cue::Hears(b"bob wants to resign. You will win 1 point.\r\n"), Cue::Rests],
];

/// The next number of a row that looks like chance, and one of the first numbers.
fn one_of(chance: &mut u64, count: usize) -> usize {
    *chance = (*chance % 2_147_483_648 * 1_103_515_245 + 12_345) % 2_147_483_648;
    (*chance / 64) as usize % count
}

/// What comes later, drawn at random: after a loss a new connection is made. It begins with a login, or does not.
fn later(chance: &mut u64) -> Vec<Cue<'static>> {
    let mut steps = vec![Cue::Rests];
    if one_of(chance, 4) > 0 {
        steps.extend([Cue::Hears(WELCOME), Cue::Hears(SETTINGS), Cue::Rests]);
    }
    steps.extend(HEADS[one_of(chance, HEADS.len())]);
    for _ in 0..LATER {
        let step = EVENTS[one_of(chance, EVENTS.len())];
        steps.push(step);
        if matches!(step, Cue::Loses) {
            steps.extend([Cue::Opens, Cue::Hears(WELCOME), Cue::Hears(SETTINGS)]);
        }
    }
    steps
}

/// Up to so many of these events, drawn at random.
fn some_of(events: &[Cue<'static>], chance: &mut u64) -> Vec<Cue<'static>> {
    let count = one_of(chance, MOST_ENDED) + 1;
    (0..count).map(|_| events[one_of(chance, events.len())]).collect()
}

/// What the screen shows of the last of these steps.
fn shown_later(before: &[Cue<'_>], steps: &[Cue<'_>]) -> String {
    let known = shown(plain_settings(), before, &[]).len();
    shown(plain_settings(), before, steps).split_off(known)
}

/// Asserts that of one thing or another no trace is left after an end.
fn assert_forgotten(one: &[Cue<'_>], other: &[Cue<'_>], end: &[Cue<'_>], steps: &[Cue<'_>]) {
    let first = [&[Cue::Opens], &FIRST_BOARD[..], one, end].concat();
    let second = [&[Cue::Opens], &FIRST_BOARD[..], other, end].concat();
    let wanted = shown_later(&first, steps);
    let found = shown_later(&second, steps);
    let place = wanted.lines().zip(found.lines()).position(|(a, b)| a != b);
    let why = place.map(|at| format!("{:?} and {:?}", wanted.lines().nth(at), found.lines().nth(at)));
    assert_wanted(wanted == found, &found, &format!("{wanted}: first {why:?}, of {}", words_of(one)));
}

/// The lines of steps.
fn words_of(steps: &[Cue<'_>]) -> String {
    let line = |step: &Cue<'_>| match step {
        Cue::Hears(line) | Cue::Types(line) => String::from_utf8_lossy(line).trim_end().to_owned(),
        _ => String::from("-"),
    };
    steps.iter().map(line).collect::<Vec<_>>().join(" | ")
}

/// Asserts that after an end no trace is left of any of these events.
fn assert_all_forgotten(before: &[&[Cue<'static>]], events: &[Cue<'static>], end: &[Cue<'static>]) {
    for seed in 0..PAIRS * before.len() as u64 {
        let mut chance = seed * 7919 + 1;
        let before = before[one_of(&mut chance, before.len())];
        let ended = [before, &some_of(events, &mut chance)].concat();
        let steps = later(&mut chance);
        assert_forgotten(&ended, before, end, &steps);
    }
}

#[test]
fn a_connection_is_forgotten() {
    assert_all_forgotten(&BEFORE[..2], &OF_A_CONNECTION, &[Cue::Loses, Cue::Opens]);
}

/// The same if an offer was open, which outlives the connection: nothing comes that ends it.
static BESIDE_AN_OFFER: [Cue<'static>; 8] = [
    Cue::Rests,
    Cue::Types(b"board"),
    Cue::Types(b"board"),
    Cue::Types(b"who"),
    Cue::Hears(WATCHED),
    Cue::Hears(b"7 bob bob logs in.\r\n"),
    Cue::Hears(b"3\r\n"),
    Cue::Hears(b"You're now watching dave.\r\n"),
];

#[test]
fn a_connection_with_an_open_offer_is_forgotten() {
    assert_all_forgotten(&BEFORE[2..], &BESIDE_AN_OFFER, &[Cue::Loses, Cue::Opens]);
}

#[test]
fn a_match_that_is_over_is_forgotten() {
    assert_all_forgotten(
        &BEFORE[..1],
        &OF_AN_OPPONENT,
        &[
            Cue::Hears(b"bob wins the 3 point match 3-0 .\r\n"),
            Cue::Hears(b"** Player carol has joined you for a 3 point match.\r\n"),
            Cue::Hears(WITH_CAROL),
            Cue::Rests,
        ],
    );
}

#[test]
fn an_opponent_is_forgotten_when_another_one_is_met() {
    assert_all_forgotten(&BEFORE[..1], &OF_AN_OPPONENT, &[Cue::Hears(WITH_CAROL), Cue::Rests]);
}

/// What is of a game, and is over when the next one begins.
static OF_A_GAME: [Cue<'static>; 12] = [
    Cue::Rests,
    Cue::Hears(TO_ROLL),
    Cue::Hears(TO_MOVE),
    Cue::Hears(MOVED),
    Cue::Hears(DOUBLED),
    Cue::Hears(b"** You can't double.\r\n"),
    Cue::Hears(b"** You can't double.\r\n"),
    Cue::Hears(b"bob wants to resign. You will win 1 point.\r\n"),
    Cue::Hears(b"It's your turn to roll or double.\r\n"),
    Cue::Hears(b"bob rolls 3 and 1.\r\n"),
    Cue::Types(b"quit"),
    Cue::Types(b"quit"),
];

#[test]
fn a_game_is_forgotten_when_the_next_one_begins() {
    assert_all_forgotten(
        &BEFORE[..1],
        &OF_A_GAME,
        &[
            Cue::Hears(b"bob wins the game and gets 1 point. Sorry.\r\n"),
            Cue::Hears(b"Starting a new game with bob.\r\n"),
            Cue::Hears(TO_ROLL),
            Cue::Rests,
        ],
    );
}

/// Ways to the same board: what was decided is confirmed, or came by an order, or as a line as it is.
static ANSWERED: [(&[Cue<'static>], &[Cue<'static>]); 3] = [
    (&[Cue::Types(b"roll")], &[]),
    (&[Cue::Types(b"board")], &[]),
    (&[Cue::Types(b"board"), Cue::Types(b"send roll")], &[Cue::Types(b"send roll")]),
];

#[test]
fn a_question_is_forgotten_when_it_is_answered() {
    for (one, other) in ANSWERED {
        for seed in 0..PAIRS {
            let mut chance = seed * 7919 + 1;
            let steps = later(&mut chance);
            assert_forgotten(one, other, &[Cue::Rests, Cue::Hears(TO_MOVE), Cue::Rests], &steps);
        }
    }
}

/// The user has the turn, and may not double.
const MAY_NOT_DOUBLE: &[u8] =
    b"board:You:bob:3:0:1:0:-2:0:0:0:0:5:0:3:0:0:0:-5:5:0:0:0:-3:0:-5:0:0:0:0:2:0:1:0:0:0:0:1:0:1:0:1:-1:0:25:0:0:0:0:2:0:0:0\r\n";

/// Asserts that after an end no trace is left of one way to it or another, whatever comes then.
fn assert_one_way(one: &[Cue<'static>], other: &[Cue<'static>], end: &[Cue<'static>]) {
    for seed in 0..PAIRS {
        let mut chance = seed * 7919 + 1;
        let steps = later(&mut chance);
        assert_forgotten(one, other, end, &steps);
    }
}

#[test]
fn an_open_offer_is_forgotten_when_the_user_decides() {
    let end = [
        Cue::Loses,
        Cue::Opens,
        Cue::Hears(WELCOME),
        Cue::Hears(SETTINGS),
        Cue::Hears(TO_ROLL),
        Cue::Rests,
        Cue::Types(b"roll"),
        Cue::Hears(TO_MOVE),
        Cue::Rests,
    ];
    assert_one_way(&[Cue::Types(b"double")], &[], &end);
}

#[test]
fn a_saved_match_is_forgotten_when_it_is_resumed() {
    let end = [Cue::Hears(b"bob has joined you. Your running match was loaded.\r\n"), Cue::Hears(TO_ROLL), Cue::Rests];
    assert_one_way(&[Cue::Hears(b"bob drops connection. The game was saved.\r\n"), Cue::Rests], &[], &end);
}

/// What the server says of a roll by an order is said of it as of one by hand.
#[test]
fn a_roll_by_an_order_is_one_that_was_sent() {
    let refused =
        [Cue::Hears(b"** You did already roll the dice.\r\n"), Cue::Rests, Cue::Hears(MAY_NOT_DOUBLE), Cue::Rests];
    let ordered = [&FIRST_BOARD[..], &[Cue::Types(b"order roll"), Cue::Hears(MAY_NOT_DOUBLE), Cue::Rests]].concat();
    let typed = [&FIRST_BOARD[..], &[Cue::Hears(MAY_NOT_DOUBLE), Cue::Rests, Cue::Types(b"roll")]].concat();
    let (found, wanted) = (shown_later(&ordered, &refused), shown_later(&typed, &refused));
    assert_wanted(found == wanted, &found, &wanted);
}

/// A match whose board has not come is saved, and its score is not that of another one.
#[test]
fn a_score_is_of_its_own_match() {
    let left = [
        &FIRST_BOARD[..],
        &[
            Cue::Hears(b"bob wins the 3 point match 3-0 .\r\n"),
            Cue::Hears(b"** Player carol has joined you for a 3 point match.\r\n"),
            Cue::Hears(b"carol drops connection. The game was saved.\r\n"),
        ],
    ]
    .concat();
    let text = shown_later(&left, &[Cue::Hears(b"7 carol carol logs in.\r\n")]);
    assert_wanted(text == "carol logs in.\n", &text, "no score");
    let over = [
        Cue::Hears(b"bob wins the 3 point match 3-0 .\r\n"),
        Cue::Hears(b"carol drops connection. The game was saved.\r\n"),
    ];
    let text = shown_later(&[&FIRST_BOARD[..], &over].concat(), &[Cue::Hears(b"7 bob bob logs in.\r\n")]);
    assert_wanted(text == "bob logs in.\n", &text, "no match that is over");
}

#[test]
fn an_invitation_is_forgotten_when_it_is_over() {
    let ends: [&[Cue<'static>]; 4] = [
        &[Cue::Loses, Cue::Opens, Cue::Hears(WELCOME), Cue::Hears(SETTINGS), Cue::Rests],
        &[Cue::Hears(b"8 eve eve drops connection.\r\n"), Cue::Rests],
        &[Cue::Hears(b"** eve didn't invite you.\r\n"), Cue::Rests],
        &[Cue::Hears(b"** Player carol has joined you for a 3 point match.\r\n"), Cue::Hears(WITH_CAROL), Cue::Rests],
    ];
    let left: [Cue<'static>; 2] = [Cue::Hears(b"bob drops connection. The game was saved.\r\n"), Cue::Rests];
    let invited = [left[0], left[1], Cue::Hears(b"eve wants to play a 3 point match with you.\r\n")];
    for end in ends {
        for seed in 0..PAIRS {
            let mut chance = seed * 7919 + 1;
            let steps = [HEADS[one_of(&mut chance, 3)], &later(&mut chance)].concat();
            assert_forgotten(&invited, &left, end, &steps);
        }
    }
}

/// Texts of the server are shown whatever came before, also twice.
#[test]
fn each_text_is_shown() {
    for seed in 0..PAIRS {
        let mut chance = seed * 7919 + 1;
        let mut before = [&FIRST_BOARD[..], &later(&mut chance)].concat();
        for _ in 0..2 {
            let text = shown_later(&before, &[Cue::Hears(b"The value of your pipcount is 167.\r\n")]);
            assert_wanted(text == "The value of your pipcount is 167.\n", &text, "the text");
            before.push(Cue::Hears(b"The value of your pipcount is 167.\r\n"));
        }
    }
}

/// A board that was asked for before a decision is not waited for after it.
#[test]
fn a_question_is_forgotten_when_the_user_decides() {
    let steps = [Cue::Hears(TO_MOVE), Cue::Rests];
    assert_forgotten(&[Cue::Types(b"board"), Cue::Types(b"roll")], &[Cue::Types(b"roll")], &[Cue::Rests], &steps);
}

/// How a list of saved matches begins, and a row of it.
const LIST_HEAD: &[u8] = b"opponent          matchlength   score (your points first)\r\n";

const LIST_ROW: &[u8] = b"carol                   5        1 -  2\r\n";

/// Asserts that after these steps no match with carol is saved.
fn assert_none_saved(steps: &[Cue<'_>]) {
    let before = [&FIRST_BOARD[..], &[Cue::Types(b"arrivals")], steps].concat();
    let text = shown_later(&before, &[Cue::Hears(b"7 carol carol logs in.\r\n")]);
    assert_wanted(text == "carol logs in.\n", &text, "no score");
}

#[test]
fn a_list_of_saved_matches_ends() {
    assert_none_saved(&[Cue::Hears(LIST_HEAD), Cue::Hears(b"pip\r\n"), Cue::Hears(LIST_ROW)]);
    assert_none_saved(&[Cue::Hears(LIST_HEAD), Cue::Loses, Cue::Opens, Cue::Hears(LIST_ROW)]);
    let before = [&FIRST_BOARD[..], &[Cue::Hears(LIST_HEAD), Cue::Hears(LIST_ROW)]].concat();
    let text = shown_later(&before, &[Cue::Hears(b"7 carol carol logs in.\r\n")]);
    assert_wanted(text.contains("your match (1-2 of 5) is saved"), &text, "a score");
}

#[test]
fn who_spoke_is_answered_by_his_whole_name_unless_he_is_gagged() {
    let name = "a_name_that_is_longer_than_a_row_shows";
    let says = format!("12 {name} hi\r\n");
    let heard = [&FIRST_BOARD[..], &[Cue::Hears(says.as_bytes())]].concat();
    let text = shown_later(&heard, &[Cue::Types(b"re hello")]);
    assert_wanted(text == format!("sent tell {name} hello\n"), &text, "the whole name");
    let gagged = [&FIRST_BOARD[..], &[Cue::Types(b"gag carol"), Cue::Hears(b"12 carol hi\r\n")]].concat();
    let text = shown_later(&gagged, &[Cue::Types(b"re hello")]);
    assert_wanted(text.starts_with("re TEXT: "), &text, "that nobody has spoken");
}

#[test]
fn the_game_that_is_watched_is_told_first() {
    let watched = [&FIRST_BOARD[..], &[Cue::Hears(WATCHED)]].concat();
    let text = shown_later(&watched, &[Cue::Types(b"words")]);
    assert_wanted(text.contains("dave") && !text.contains("bob"), &text, "the game of dave");
}

/// A board of an own game ends what is watched.
#[test]
fn an_own_board_is_told_after_one_that_is_watched() {
    let played = [&FIRST_BOARD[..], &[Cue::Hears(WATCHED), Cue::Hears(TO_MOVE)]].concat();
    let text = shown_later(&played, &[Cue::Types(b"words")]);
    assert_wanted(text.contains("Your dice 6 and 2.") && !text.contains("dave"), &text, "the own game");
}

/// A board that was asked for is drawn whole, also if a line that decides went as it is meanwhile.
#[test]
fn a_board_that_was_asked_for_is_drawn() {
    let moved = [&FIRST_BOARD[..], &[Cue::Hears(MOVED), Cue::Rests]].concat();
    for asks in [&[Cue::Types(b"board")][..], &[Cue::Types(b"board"), Cue::Types(b"send roll")]] {
        let text = shown_later(&[&moved, asks].concat(), &[Cue::Hears(MOVED)]);
        assert_wanted(text.contains("   O You"), &text, "the picture");
    }
    let text = shown_later(&moved, &[Cue::Hears(MOVED)]);
    assert_wanted(text.is_empty(), &text, "nothing");
}
