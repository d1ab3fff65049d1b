//! What is heard, and what it changes: texts and boards that answer, bells, games that are watched, who comes and goes.

use super::lines::{DOUBLED, FIRST_BOARD, MOVED, OVER, SETTINGS, TO_MOVE, TO_ROLL, WELCOME};
use super::seats::{
    Cue, Scene, assert_scenes, assert_wanted, bell_settings, colour_settings, plain_settings, shown, shown_then,
};
use crate::fibs_wording::environment::Settings;

/// The opponent has rolled 1 and 3.
const HE_ROLLED: &[u8] =
    b"board:You:bob:3:0:1:0:-2:0:0:0:0:5:0:3:0:0:0:-5:5:0:0:0:-3:1:-5:0:0:0:0:1:0:-1:0:0:1:3:1:1:1:0:1:-1:0:25:0:0:0:0:0:0:0:0\r\n";

/// A game that is watched: before a roll, and after it.
const WATCHED: &[u8] =
    b"board:dave:eve:5:0:1:0:-2:0:0:0:0:5:0:3:0:0:0:-5:5:0:0:0:-3:0:-5:0:0:0:0:2:0:1:0:0:0:0:1:1:1:0:1:-1:0:25:0:0:0:0:2:0:0:0\r\n";

const WATCHED_ROLL: &[u8] =
    b"board:dave:eve:5:0:1:0:-2:0:0:0:0:5:0:3:0:0:0:-5:5:0:0:0:-3:0:-5:0:0:0:0:2:0:1:6:2:0:0:1:1:1:0:1:-1:0:25:0:0:0:0:2:0:0:0\r\n";

/// The same with the turn of the other player; with a double of his; at the end of the game; of another pair.
const WATCHED_HIS: &[u8] =
    b"board:dave:eve:5:0:1:0:-2:0:0:0:0:5:0:3:0:0:0:-5:5:0:0:0:-3:0:-5:0:0:0:0:2:0:-1:0:0:0:0:1:1:1:0:1:-1:0:25:0:0:0:0:2:0:0:0\r\n";

const WATCHED_DOUBLE: &[u8] =
    b"board:dave:eve:5:0:1:0:-2:0:0:0:0:5:0:3:0:0:0:-5:5:0:0:0:-3:0:-5:0:0:0:0:2:0:1:0:0:0:0:1:1:1:1:1:-1:0:25:0:0:0:0:2:0:0:0\r\n";

const WATCHED_OVER: &[u8] =
    b"board:dave:eve:5:0:1:0:-2:0:0:0:0:5:0:3:0:0:0:-5:5:0:0:0:-3:0:-5:0:0:0:0:2:0:0:0:0:0:0:1:1:1:0:1:-1:0:25:0:0:0:0:2:0:0:0\r\n";

const WATCHED_CARL: &[u8] =
    b"board:dave:carl:5:0:1:0:-2:0:0:0:0:5:0:3:0:0:0:-5:5:0:0:0:-3:0:-5:0:0:0:0:2:0:1:6:2:0:0:1:1:1:0:1:-1:0:25:0:0:0:0:2:0:0:0\r\n";

const YOU_WATCH: &str = "You watch dave and eve: unwatch ends it.\n";

/// What the screen shows of these steps after the first board.
fn shown_after(settings: Settings<'static>, before: &[Cue<'_>], steps: &[Cue<'_>]) -> String {
    shown_then(settings, &[&FIRST_BOARD[..], before].concat(), steps)
}

/// Steps, and all that is shown of the last of them.
type Told = (&'static [Cue<'static>], &'static [Cue<'static>], &'static str);

fn assert_told(settings: Settings<'static>, scenes: &[Told]) {
    for (before, steps, wanted) in scenes {
        let found = shown_after(settings, before, steps);
        assert_wanted(found == *wanted, &found, &format!("{wanted} of {before:?} {steps:?}"));
    }
}

/// When the bell rings, and when it does not.
static BELLS: [Told; 9] = [
    (&[], &[Cue::Hears(b"12 carol hi\r\n")], "\x0713:07 carol says: hi\n"),
    (&[], &[Cue::Hears(b"13 carol hi\r\n")], "13:07 carol shouts: hi\n"),
    (&[], &[Cue::Hears(b"14 carol hi\r\n")], "13:07 carol whispers: hi\n"),
    (
        &[],
        &[Cue::Hears(b"bob wants to resign. You will win 1 point.\r\n")],
        "\x07bob wants to resign. You will win 1 point.\n",
    ),
    (
        &[Cue::Types(b"roll")],
        &[Cue::Loses],
        "\x07roll may have reached the server or not\nlost: open connects again, quit ends\n",
    ),
    (&[Cue::Hears(MOVED)], &[Cue::Hears(MOVED)], ""),
    (&[], &[Cue::Hears(HE_ROLLED)], "bob rolls 1 and 3.\n"),
    (&[], &[Cue::Hears(b"bob rolls 1 and 3.\r\n"), Cue::Hears(HE_ROLLED)], "bob rolls 1 and 3.\n"),
    (&[], &[Cue::Hears(TO_MOVE)], "You roll 6 and 2.\n"),
];

#[test]
fn the_bell_rings_for_what_is_said_to_the_user() {
    assert_told(bell_settings(), &BELLS);
    let text = shown_after(bell_settings(), &[Cue::Hears(MOVED)], &[Cue::Hears(DOUBLED)]);
    assert!(text.starts_with('\x07') && text.contains("X bob"), "{text}");
    let over = String::from_utf8(OVER.to_vec()).expect("ASCII").replace("-3:0:-5:0:0:0:0:2:0:", "-3:1:-5:0:0:0:0:1:0:");
    assert_ne!(over.as_bytes(), OVER);
    let text = shown_after(bell_settings(), &[Cue::Hears(MOVED)], &[Cue::Hears(over.as_bytes())]);
    assert!(!text.contains('\x07') && text.contains("X bob"), "a board of the end is drawn without a bell: {text}");
}

/// Texts that are shown, or say no more than a hint or a board.
static TEXTS: [Told; 8] = [
    (&[], &[Cue::Hears(b"You can't move.\r\n")], "You can't move.\n"),
    (&[], &[Cue::Hears(b"Please give a number.\r\n")], "Please give a number.\n"),
    (&[], &[Cue::Hears(b"Please move 2 pieces.\r\n")], ""),
    (&[], &[Cue::Hears(b"\r\n")], ""),
    (&[], &[Cue::Hears(b"You roll 6 and 2.\r\n"), Cue::Hears(TO_MOVE)], "You roll 6 and 2.\n"),
    (&[Cue::Hears(b"You roll 6 and 2.\r\n")], &[Cue::Hears(b"Please move 2 pieces.\r\n"), Cue::Hears(TO_MOVE)], ""),
    (&[Cue::Hears(b"You roll 6 and 2.\r\n"), Cue::Hears(TO_ROLL)], &[Cue::Hears(TO_MOVE)], "You roll 6 and 2.\n"),
    (&[Cue::Hears(b"You roll 6 and 2.\r\n"), Cue::Hears(b"pip\r\n")], &[Cue::Hears(TO_MOVE)], "You roll 6 and 2.\n"),
];

#[test]
fn a_text_is_shown_unless_it_says_no_more_than_a_board() {
    assert_told(plain_settings(), &TEXTS);
}

/// A row of a board with a long name is not said again after a text that says the same.
#[test]
fn a_long_row_is_known_again() {
    let name = "a_name_of_twenty_six_bytes";
    let board = String::from_utf8(HE_ROLLED.to_vec()).expect("ASCII").replace(":bob:", &format!(":{name}:"));
    let first = String::from_utf8(TO_ROLL.to_vec()).expect("ASCII").replace(":bob:", &format!(":{name}:"));
    let row = format!("{} rolls 1 and 3.\r\n", &name[..24]);
    let steps = [Cue::Hears(first.as_bytes()), Cue::Hears(row.as_bytes()), Cue::Hears(board.as_bytes())];
    let text = shown(plain_settings(), &[], &steps);
    assert_eq!(text.matches("rolls 1 and 3.").count(), 1, "{text}");
}

/// What answers `board` if no board comes.
static NO_BOARD: [Told; 6] = [
    (
        &[Cue::Hears(b"5 carol - - 1 0 1623.45 0 0 1 host - -\r\n"), Cue::Hears(b"6\r\n"), Cue::Types(b"board")],
        &[Cue::Hears(b"** You're not playing.\r\n"), Cue::Rests],
        "** You're not playing.\nbob is not here now: your match may be saved.\n",
    ),
    (
        &[Cue::Hears(b"5 carol - - 1 0 1623.45 0 0 1 host - -\r\n"), Cue::Hears(b"6\r\n")],
        &[Cue::Hears(b"** You're not playing.\r\n"), Cue::Rests],
        "** You're not playing.\n",
    ),
    (
        &[
            Cue::Hears(b"5 carol - - 1 0 1623.45 0 0 1 host - -\r\n"),
            Cue::Hears(b"6\r\n"),
            Cue::Hears(b"7 bob bob logs in.\r\n"),
        ],
        &[Cue::Hears(b"** You're not playing.\r\n"), Cue::Rests],
        "** You're not playing.\nYour match may be saved: invite bob,\nor join bob, if you are invited.\n",
    ),
    (
        &[
            Cue::Hears(b"5 carol - - 1 0 1623.45 0 0 1 host - -\r\n"),
            Cue::Hears(b"5 dave - - 1 0 1623.45 0 0 1 host - -\r\n"),
            Cue::Hears(b"6\r\n"),
            Cue::Types(b"quiet"),
            Cue::Hears(b"7 bob bob logs in.\r\n"),
            Cue::Hears(b"8 bob bob drops connection.\r\n"),
            Cue::Types(b"board"),
        ],
        &[Cue::Hears(b"** You're not playing.\r\n"), Cue::Rests],
        "** You're not playing.\nbob is not here now: your match may be saved.\n",
    ),
    (
        &[
            Cue::Hears(b"5 carol - - 1 0 1623.45 0 0 1 host - -\r\n"),
            Cue::Hears(b"6\r\n"),
            Cue::Types(b"quiet"),
            Cue::Hears(b"7 bob bob logs in.\r\n"),
        ],
        &[Cue::Hears(b"** You're not playing.\r\n"), Cue::Rests],
        "** You're not playing.\nYour match may be saved: invite bob,\nor join bob, if you are invited.\n",
    ),
    (
        &[Cue::Hears(b"bob drops connection. The game was saved.\r\n"), Cue::Rests, Cue::Types(b"join eve")],
        &[Cue::Hears(b"** eve didn't invite you.\r\n"), Cue::Rests],
        "** eve didn't invite you.\nYour match may be saved: invite bob,\nor join bob, if you are invited.\n",
    ),
];

#[test]
fn who_asks_for_a_board_is_answered_without_one() {
    assert_told(plain_settings(), &NO_BOARD);
}

/// A board that was asked for is drawn also if a text came before it that may have come by itself.
#[test]
fn a_board_may_follow_the_next_game() {
    let asked = [
        Cue::Hears(MOVED),
        Cue::Types(b"board"),
        Cue::Hears(b"** You're not playing. Type 'join' to play the next game.\r\n"),
    ];
    let text = shown_after(plain_settings(), &asked, &[Cue::Hears(MOVED)]);
    assert!(text.contains("X bob"), "{text}");
    let asked = [Cue::Hears(MOVED), Cue::Types(b"board"), Cue::Hears(b"** You're not playing.\r\n")];
    let text = shown_after(plain_settings(), &asked, &[Cue::Hears(MOVED)]);
    assert_eq!(text, "");
    let asked = [Cue::Hears(MOVED), Cue::Types(b"board"), Cue::Hears(WATCHED)];
    let text = shown_after(plain_settings(), &asked, &[Cue::Hears(HE_ROLLED)]);
    assert!(text.ends_with("bob rolls 1 and 3.\n") && !text.contains("|BAR|"), "{text}");
}

/// What the message of the day says is no text of a match, and it ends.
static OF_THE_DAY: [Told; 2] = [
    (
        &[
            Cue::Hears(b"bob drops connection. The game was saved.\r\n"),
            Cue::Hears(b"3\r\n"),
            Cue::Hears(b"** There's no saved match with bob. Please give a match length.\r\n"),
            Cue::Hears(b"4\r\n"),
        ],
        &[Cue::Hears(b"7 bob bob logs in.\r\n")],
        "bob logs in.\nbob is here: your match (0-1 of 3) is saved: invite bob.\n",
    ),
    (
        &[Cue::Hears(b"3\r\n"), Cue::Hears(b"4\r\n")],
        &[Cue::Hears(b"bob wants to resign. You will win 1 point.\r\n"), Cue::Rests],
        "bob wants to resign. You will win 1 point.\nbob offers to resign: accept, or reject.\n",
    ),
];

#[test]
fn the_message_of_the_day_is_no_match() {
    assert_told(plain_settings(), &OF_THE_DAY);
}

/// What is said when the opponent of a saved match comes, and whether he can be invited.
static SAVED: [Told; 7] = [
    (
        &[Cue::Hears(b"bob drops connection. The game was saved.\r\n")],
        &[Cue::Hears(b"7 bob bob logs in.\r\n")],
        "bob logs in.\nbob is here: your match (0-1 of 3) is saved: invite bob.\n",
    ),
    (
        &[
            Cue::Hears(b"bob drops connection. The game was saved.\r\n"),
            Cue::Hears(b"eve wants to play a 3 point match with you.\r\n"),
        ],
        &[Cue::Hears(b"7 bob bob logs in.\r\n")],
        "bob logs in.\nbob is here: your match (0-1 of 3) is saved: invite bob.\n",
    ),
    (
        &[
            Cue::Hears(b"bob drops connection. The game was saved.\r\n"),
            Cue::Loses,
            Cue::Opens,
            Cue::Hears(WELCOME),
            Cue::Hears(SETTINGS),
        ],
        &[Cue::Hears(b"7 bob bob logs in.\r\n")],
        "bob logs in.\nbob is here: your match (0-1 of 3) is saved: invite bob.\n",
    ),
    (
        &[Cue::Hears(b"bob drops connection. The game was saved.\r\n"), Cue::Types(b"quiet")],
        &[Cue::Hears(b"7 bob bob logs in.\r\n")],
        "bob is here: your match (0-1 of 3) is saved: invite bob.\n",
    ),
    (
        &[
            Cue::Hears(b"bob drops connection. The game was saved.\r\n"),
            Cue::Hears(b"Starting a new game with bob.\r\n"),
        ],
        &[Cue::Hears(b"7 bob bob logs in.\r\n")],
        "bob logs in.\n",
    ),
    (
        &[
            Cue::Hears(b"bob drops connection. The game was saved.\r\n"),
            Cue::Hears(b"** There's no saved match with bob. Please give a match length.\r\n"),
        ],
        &[Cue::Hears(b"7 bob bob logs in.\r\n")],
        "bob logs in.\n",
    ),
    (
        &[Cue::Hears(b"bob drops connection. The game was saved.\r\n"), Cue::Hears(b"no saved games.  \r\n")],
        &[Cue::Hears(b"7 bob bob logs in.\r\n")],
        "bob logs in.\n",
    ),
];

#[test]
fn who_is_here_of_a_saved_match_is_told() {
    assert_told(plain_settings(), &SAVED);
}

/// The match is saved as the board shows it that came last.
#[test]
fn the_score_of_a_saved_match_is_that_of_its_last_board() {
    for (fields, score) in [("3:2:1", "2-1 of 3"), ("9999:0:1", "0-1")] {
        let first = String::from_utf8(TO_ROLL.to_vec()).expect("ASCII");
        let last = first.replace(":bob:3:0:1:", &format!(":bob:{fields}:"));
        let steps = [
            Cue::Hears(last.as_bytes()),
            Cue::Hears(b"bob drops connection. The game was saved.\r\n"),
            Cue::Hears(b"7 bob bob logs in.\r\n"),
        ];
        let text = shown(plain_settings(), &FIRST_BOARD, &steps);
        let row = format!("bob is here: your match ({score}) is saved: invite bob.\n");
        assert_wanted(text.ends_with(&row), &text, &row);
    }
}

const LEFT: Cue<'static> = Cue::Hears(b"bob drops connection. The game was saved.\r\n");

/// Invitations: who invites, to what, and the line to type, which is said once.
static INVITED: [Told; 9] = [
    (
        &[LEFT, Cue::Rests],
        &[Cue::Hears(b"eve wants to play a 3 point match with you.\r\n"), Cue::Rests, Cue::Rests],
        "eve invites you to 3 points: join eve\n",
    ),
    (
        &[LEFT, Cue::Hears(b"5 eve - - 1 0 1623.45 77 0 1 host - -\r\n")],
        &[Cue::Hears(b"eve wants to play a 3 point match with you.  \r\n")],
        "eve (1623.45, experience 77) invites you to 3 points: join eve\n",
    ),
    (
        &[LEFT, Cue::Rests],
        &[Cue::Hears(b"bob wants to resume a saved match with you.\r\n"), Cue::Rests],
        "bob invites you to resume your saved match: join bob\n",
    ),
    (
        &[LEFT, Cue::Rests],
        &[Cue::Hears(b"eve wants to play an unlimited match with you.\r\n"), Cue::Rests],
        "eve invites you to an unlimited match: join eve\n",
    ),
    (
        &[],
        &[
            Cue::Hears(b"eve wants to play a 3 point match with you.\r\n"),
            Cue::Hears(b"Type 'join eve' to accept.\r\n"),
        ],
        "eve invites you to 3 points.\nType 'join eve' to accept.\n",
    ),
    (
        &[LEFT, Cue::Hears(b"eve wants to play a 3 point match with you.\r\n")],
        &[Cue::Hears(b"Type 'join eve' to accept.  \r\n")],
        "",
    ),
    (
        &[LEFT, Cue::Hears(b"eve wants to play a 3 point match with you.\r\n"), Cue::Rests],
        &[Cue::Hears(b"eve wants to play a 5 point match with you.\r\n"), Cue::Rests],
        "eve invites you to 5 points: join eve\n",
    ),
    (
        &[LEFT, Cue::Hears(b"eve wants to play a 3 point match with you.\r\n")],
        &[
            Cue::Hears(b"carl wants to play a 5 point match with you.\r\n"),
            Cue::Hears(b"Type 'join eve' to accept.\r\n"),
        ],
        "carl invites you to 5 points: join carl\nType 'join eve' to accept.\n",
    ),
    (
        &[LEFT, Cue::Rests],
        &[
            Cue::Hears(
                b"a_name_of_more_bytes_than_a_row_has_room_for_beside_it wants to play a 3 point match with you.\r\n",
            ),
            Cue::Rests,
        ],
        "a_name_of_more_bytes_tha invites you to 3 points.\nYou are invited:\njoin \
         a_name_of_more_bytes_than_a_row_has_room_for_beside_it\n",
    ),
];

#[test]
fn who_invites_is_told_with_the_line_to_type() {
    for (before, steps, wanted) in &INVITED {
        let opened = [&[Cue::Opens, Cue::Hears(WELCOME), Cue::Hears(SETTINGS), Cue::Hears(TO_ROLL)], *before].concat();
        let found = shown_then(plain_settings(), &opened, steps);
        assert_wanted(found == *wanted, &found, wanted);
    }
}

/// A game that is watched: its boards, whom one watches, and what ends it.
static WATCHING: [Told; 14] = [
    (&[Cue::Hears(WATCHED)], &[Cue::Hears(WATCHED_ROLL)], "dave rolls 6 and 2.\n"),
    (&[Cue::Hears(WATCHED)], &[Cue::Hears(WATCHED)], ""),
    (&[Cue::Hears(WATCHED)], &[Cue::Hears(WATCHED_HIS)], "eve's turn.\n"),
    (&[Cue::Hears(WATCHED_HIS)], &[Cue::Hears(WATCHED)], "dave's turn.\n"),
    (&[Cue::Hears(WATCHED)], &[Cue::Hears(WATCHED_DOUBLE)], "eve doubles.\n"),
    (&[Cue::Hears(WATCHED)], &[Cue::Hears(WATCHED_OVER)], "The game is over.\n"),
    (
        &[Cue::Hears(WATCHED)],
        &[Cue::Hears(b"dave rolls 6 and 2.\r\n"), Cue::Hears(WATCHED_ROLL)],
        "dave rolls 6 and 2.\n",
    ),
    (
        &[Cue::Hears(WATCHED), Cue::Hears(b"dave rolls 6 and 2.\r\n"), Cue::Hears(WATCHED_ROLL)],
        &[Cue::Hears(WATCHED), Cue::Hears(WATCHED_ROLL)],
        "dave's turn.\ndave rolls 6 and 2.\n",
    ),
    (
        &[Cue::Hears(WATCHED)],
        &[Cue::Hears(b"You stop watching dave.\r\n"), Cue::Types(b"words")],
        "You stop watching dave.\nYour turn, to roll.\n",
    ),
    (
        &[Cue::Hears(WATCHED)],
        &[Cue::Hears(b"** You're not watching.\r\n"), Cue::Types(b"words")],
        "** You're not watching.\nYour turn, to roll.\n",
    ),
    (
        &[Cue::Hears(WATCHED)],
        &[Cue::Hears(b"eve wins the 5 point match 5-0 .\r\n"), Cue::Types(b"words")],
        "eve wins the 5 point match 5-0 .\nYour turn, to roll.\n",
    ),
    (
        &[Cue::Hears(WATCHED)],
        &[Cue::Hears(b"** Player eve has left the game. The game was saved.\r\n"), Cue::Types(b"words")],
        "** Player eve has left the game. The game was saved.\nYour turn, to roll.\n",
    ),
    (
        &[Cue::Hears(WATCHED)],
        &[Cue::Hears(b"carl wins the 5 point match 5-0 .\r\n"), Cue::Types(b"words")],
        "carl wins the 5 point match 5-0 .\ndave against eve.\n",
    ),
    (
        &[Cue::Hears(WATCHED)],
        &[Cue::Hears(b"You're now watching carl.  \r\n"), Cue::Types(b"words")],
        "You're now watching carl.  \nboard shows the game now, unwatch ends it.\nYour turn, to roll.\n",
    ),
];

#[test]
fn a_game_is_watched_until_it_ends() {
    for (before, steps, wanted) in &WATCHING {
        let found = shown_after(plain_settings(), before, steps);
        let is_told = matches!(steps.last(), Some(Cue::Types(b"words")));
        assert_wanted(found == *wanted || is_told && found.starts_with(wanted), &found, wanted);
    }
}

/// Whom one watches is said with the first board of a pair, and with one that was asked for; not after `unwatch`.
#[test]
fn whom_one_watches_is_said() {
    let text = shown_after(plain_settings(), &[], &[Cue::Hears(WATCHED)]);
    assert!(text.contains("|BAR|") && text.ends_with(YOU_WATCH), "{text}");
    let text = shown_after(plain_settings(), &[Cue::Hears(WATCHED)], &[Cue::Types(b"board"), Cue::Hears(WATCHED)]);
    assert!(text.contains("|BAR|") && text.ends_with(YOU_WATCH), "{text}");
    let text = shown_after(
        plain_settings(),
        &[Cue::Hears(WATCHED), Cue::Types(b"board"), Cue::Hears(WATCHED)],
        &[Cue::Hears(WATCHED)],
    );
    assert_eq!(text, "");
    let text = shown_after(plain_settings(), &[Cue::Hears(WATCHED)], &[Cue::Hears(WATCHED_CARL)]);
    assert!(text.contains("X carl") && text.ends_with("You watch dave and carl: unwatch ends it.\n"), "{text}");
    let text = shown_after(plain_settings(), &[Cue::Hears(WATCHED)], &[Cue::Types(b"help")]);
    assert!(text.ends_with(YOU_WATCH), "{text}");
    let moved =
        String::from_utf8(WATCHED.to_vec()).expect("ASCII").replace("-3:0:-5:0:0:0:0:2:0:", "-3:1:-5:0:0:0:0:1:0:");
    let asked = [Cue::Hears(WATCHED), Cue::Types(b"board"), Cue::Hears(moved.as_bytes())];
    assert_eq!(shown_after(plain_settings(), &asked, &[Cue::Hears(moved.as_bytes())]), "");
    let other = String::from_utf8(WATCHED.to_vec()).expect("ASCII").replace(":dave:eve:", ":carl:eve:");
    let text = shown_after(plain_settings(), &[Cue::Hears(WATCHED)], &[Cue::Hears(other.as_bytes())]);
    assert!(text.contains("O carl") && text.contains("|BAR|"), "{text}");
    let ended = [Cue::Hears(WATCHED), Cue::Types(b"unwatch")];
    let text = shown_after(plain_settings(), &ended, &[Cue::Types(b"help")]);
    assert!(!text.contains("You watch"), "{text}");
    let other = [Cue::Hears(WATCHED), Cue::Types(b"send unset"), Cue::Types(b"board")];
    let text = shown_after(plain_settings(), &other, &[Cue::Hears(WATCHED)]);
    assert!(text.ends_with(YOU_WATCH), "{text}");
}

/// Who is hidden, and from when to when.
static HIDDEN: [Told; 8] = [
    (
        &[Cue::Types(b"quiet")],
        &[Cue::Hears(b"9 carol 1041253132 see you\r\n")],
        "carol left a message on 30 December 2002, 12:58: see you\n",
    ),
    (
        &[Cue::Types(b"quiet")],
        &[Cue::Hears(b"13 carol hi\r\n"), Cue::Hears(b"12 carol hi\r\n")],
        "13:07 carol says: hi\n",
    ),
    (
        &[Cue::Types(b"quiet")],
        &[Cue::Types(b"loud"), Cue::Hears(b"13 carol hi\r\n")],
        "loud: shouts, and who comes and goes; not in a match: arrivals shows that.\n13:07 carol shouts: hi\n",
    ),
    (&[Cue::Types(b"gag car")], &[Cue::Hears(b"12 carol hi\r\n")], "13:07 carol says: hi\n"),
    (&[Cue::Types(b"gag carol")], &[Cue::Types(b"ungag car")], "Nobody of that name is gagged.\n"),
    (&[Cue::Types(b"gag carol"), Cue::Types(b"ungag car")], &[Cue::Hears(b"12 carol hi\r\n")], ""),
    (
        &[Cue::Types(b"gag carol"), Cue::Types(b"gag dave")],
        &[Cue::Hears(b"12 carol hi\r\n"), Cue::Hears(b"12 dave hi\r\n")],
        "",
    ),
    (
        &[Cue::Types(b"gag carol")],
        &[Cue::Types(b"ungag carol"), Cue::Hears(b"12 carol hi\r\n")],
        "carol is heard again.\n13:07 carol says: hi\n",
    ),
];

#[test]
fn who_is_hidden_is_hidden_until_the_user_says_otherwise() {
    assert_told(plain_settings(), &HIDDEN);
}

/// The story of a game goes on if it is resumed, and begins anew with the next one.
#[test]
fn the_story_is_of_a_game() {
    let played = [Cue::Hears(TO_MOVE), Cue::Hears(MOVED)];
    let none = "No board of this game has shown a roll and its play yet.\n";
    let resumes = Cue::Hears(b"bob has joined you. Your running match was loaded.\r\n");
    let begins = Cue::Hears(b"Starting a new game with bob.\r\n");
    for (end, wanted) in [(resumes, "You roll 6 and 2"), (begins, none)] {
        let text = shown_after(plain_settings(), &[&played[..], &[end]].concat(), &[Cue::Types(b"moves")]);
        assert!(text.contains(wanted), "{text}, and not {wanted}");
    }
    let text = shown_after(plain_settings(), &played, &[Cue::Types(b"moves")]);
    assert!(text.starts_with("  1. You roll 6 and 2:") && text.lines().count() == 1, "{text}");
    let text = shown_after(plain_settings(), &played, &[Cue::Types(b"moves x")]);
    assert_eq!(text, "moves, or moves all.\n");
}

/// Marks say where the opponent has moved since the board that was drawn before, as long as no checker moves.
#[test]
fn marks_stay_on_a_board_that_is_drawn_again() {
    let moved = String::from_utf8(TO_ROLL.to_vec()).expect("ASCII").replace(":-3:0:-5:0:0:", ":-2:0:-4:-2:0:");
    assert_ne!(moved.as_bytes(), TO_ROLL);
    let before = [Cue::Hears(moved.as_bytes())];
    let asked = [Cue::Types(b"board"), Cue::Hears(moved.as_bytes())];
    let first = shown_after(colour_settings(), &[], &before);
    let again = shown_after(colour_settings(), &before, &asked);
    assert!(first.contains("\x1b[1m"), "{first}");
    assert_eq!(again.matches("\x1b[1m").count(), first.matches("\x1b[1m").count(), "{again}");
}

/// No title is put without a connection, and the old one is kept once.
#[test]
fn a_title_is_put_on_a_connection_and_the_old_one_is_kept_once() {
    let settings = Settings { title: true, ..plain_settings() };
    let text = shown(settings, &FIRST_BOARD, &[]);
    assert!(!text.contains('\x1b'), "{text}");
    let opened = [&[Cue::Opens], &FIRST_BOARD[..]].concat();
    let text = shown(settings, &opened, &[Cue::Hears(MOVED), Cue::Rests, Cue::Loses]);
    assert_eq!(text.matches("\x1b[22;0t").count(), 1, "{text}");
    let text = shown(settings, &opened, &[Cue::Hears(TO_ROLL), Cue::Rests]);
    let known = shown(settings, &opened, &[]).len();
    assert!(!text[known..].contains('\x1b'), "{text}");
}

/// Why a decision is refused: by the board, and not by what a text has told, if it is refused for another reason.
static REASONS: [Scene; 3] = [
    (
        &[Cue::Hears(MOVED), Cue::Hears(b"bob doubles. Type 'accept' or 'reject'.\r\n"), Cue::Types(b"accept")],
        "No board shows it yet. [7 NotYours]\n",
    ),
    (&[Cue::Hears(TO_MOVE), Cue::Types(b"try 24-18")], "Both dice must be played. [9 IllegalPlay]\n"),
    (&[Cue::Types(b"move 24-18")], "That can't be done on this board: help says what can. [8 WrongKind]\n"),
];

#[test]
fn a_refusal_has_its_own_reason() {
    assert_scenes(plain_settings(), &REASONS);
}
