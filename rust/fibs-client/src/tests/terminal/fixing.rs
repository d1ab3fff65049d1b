//! What the server plays by itself is turned off by `fix`: the lines that are typed for the user, and no other ones.

use super::lines::{FIRST_BOARD, SETTINGS, TO_ROLL, WELCOME};
use super::seats::{Cue, Cue::Types, assert_ends, fixed, plain_settings};
use crate::fibs_terminal::FixLine;

/// The settings of a user for whom the server plays by itself: automove, greedy, both.
const AUTOMOVE: &[u8] = b"2 ann 1 1 0 1 0 0 1 1 0 0 1 0 1 1500.00 0 0 none 0 0 UTC\r\n";

const GREEDY: &[u8] = b"2 ann 1 1 0 0 0 0 1 1 0 1 1 0 1 1500.00 0 0 none 0 0 UTC\r\n";

const BOTH: &[u8] = b"2 ann 1 1 0 1 0 0 1 1 0 1 1 0 1 1500.00 0 0 none 0 0 UTC\r\n";

/// What the server answers to `toggle automove` and `toggle greedy`.
const FORCED: &[u8] = b"** Forced moves will be done automatically.\r\n";

const NOT_FORCED: &[u8] = b"** Forced moves won't be done automatically.\r\n";

const BEARS_OFF: &[u8] = b"** Will use automatic greedy bearoffs.\r\n";

const BEARS_NONE_OFF: &[u8] = b"** Won't use automatic greedy bearoffs.\r\n";

/// What the user has typed himself, and which lines are then typed for him until the connection ends.
static WAYS: [(&[u8], &[Cue<'static>], &[FixLine]); 17] = [
    (AUTOMOVE, &[Types(b"fix")], &[FixLine::Automove, FixLine::Bye]),
    (GREEDY, &[Types(b" FIX ")], &[FixLine::Greedy, FixLine::Bye]),
    (BOTH, &[Types(b"fix")], &[FixLine::Automove, FixLine::Greedy, FixLine::Bye]),
    (BOTH, &[Types(b"toggle automove"), Types(b"fix")], &[FixLine::Greedy, FixLine::Bye]),
    (BOTH, &[Types(b"fix"), Types(b"fix")], &[FixLine::Automove, FixLine::Greedy, FixLine::Bye]),
    (BOTH, &[], &[]),
    (SETTINGS, &[Types(b"fix")], &[]),
    // what he has turned off himself stays off, whether or not the server has said so
    (AUTOMOVE, &[Types(b"toggle automove"), Cue::Hears(NOT_FORCED), Types(b"fix")], &[FixLine::Bye]),
    (AUTOMOVE, &[Types(b"toggle automove"), Types(b"fix")], &[FixLine::Bye]),
    (BOTH, &[Types(b"toggle greedy"), Cue::Hears(BEARS_NONE_OFF), Types(b"fix")], &[FixLine::Automove, FixLine::Bye]),
    // and what he has turned on is turned off: the client would not
    (SETTINGS, &[Types(b"send toggle automove"), Cue::Hears(FORCED), Types(b"fix")], &[FixLine::SendAutomove]),
    (SETTINGS, &[Types(b"send toggle greedy"), Cue::Hears(BEARS_OFF), Types(b"fix")], &[FixLine::SendGreedy]),
    (
        SETTINGS,
        &[Types(b"send toggle greedy"), Types(b"send toggle automove"), Types(b"fix")],
        &[FixLine::SendAutomove, FixLine::SendGreedy],
    ),
    // twice is as if it were not
    (
        AUTOMOVE,
        &[Types(b"toggle automove"), Types(b"send toggle automove"), Cue::Hears(NOT_FORCED), Types(b"fix")],
        &[FixLine::SendAutomove, FixLine::Bye],
    ),
    (
        SETTINGS,
        &[Types(b"send toggle automove"), Types(b"send toggle automove"), Cue::Hears(FORCED), Types(b"fix")],
        &[],
    ),
    // the server may say it of what it was asked for by other words
    (SETTINGS, &[Types(b"send set automove"), Cue::Hears(FORCED), Types(b"fix")], &[FixLine::SendAutomove]),
    // but nobody else
    (SETTINGS, &[Cue::Hears(b"12 bob ** Forced moves will be done automatically.\r\n"), Types(b"fix")], &[]),
];

#[test]
fn the_lines_that_are_typed_for_the_user() {
    for (settings, typed, lines) in WAYS {
        let mut steps = vec![Cue::Hears(WELCOME), Cue::Hears(settings)];
        steps.extend_from_slice(typed);
        for line in lines {
            steps.push(Cue::Rests);
            assert_eq!(fixed(&steps), Some(*line), "after {steps:?}");
            steps.push(Types(line.bytes().trim_ascii_end()));
        }
        steps.push(Cue::Rests);
        // between `bye` and the end of the connection nothing is
        assert_eq!(fixed(&steps), None, "after {steps:?}");
        steps.push(Cue::Loses);
        let is_left = lines.last() == Some(&FixLine::Bye);
        let row =
            if is_left { "closed, as you asked: connecting again\n" } else { "lost: open connects again, quit ends\n" };
        assert_ends(plain_settings(), &[], &steps, row);
        steps.push(Cue::Rests);
        assert_eq!(fixed(&steps), is_left.then_some(FixLine::Open), "after {steps:?}");
        steps.extend([Types(b"open"), Cue::Opens, Cue::Hears(WELCOME), Cue::Hears(BOTH), Cue::Rests, Cue::Loses]);
        assert_ends(plain_settings(), &[], &steps, "lost: open connects again, quit ends\n");
    }
}

/// A connection that ends before `bye` was typed stays closed, or is opened by `reconnect` alone.
#[test]
fn an_end_that_comes_before_ends_it() {
    let begun = [Cue::Hears(WELCOME), Cue::Hears(AUTOMOVE), Types(b"fix"), Cue::Rests];
    assert_ends(plain_settings(), &begun, &[Cue::Loses], "lost: open connects again, quit ends\n");
    let again = [Types(b"reconnect"), Cue::Loses];
    assert_ends(plain_settings(), &begun, &again, "lost: connecting again in 1 s; stay leaves it closed, quit ends\n");
    // `bye` is to be typed: what is lost before it is opened again by one of them alone
    let leaves = [
        Cue::Hears(WELCOME),
        Cue::Hears(AUTOMOVE),
        Types(b"reconnect"),
        Types(b"fix"),
        Cue::Rests,
        Types(b"toggle automove"),
        Cue::Rests,
        Cue::Loses,
        Cue::Rests,
    ];
    assert_eq!(fixed(&leaves), None);
}

/// In a match the `bye` that is typed for the user is only answered. If he does not type it again he stays: then no end
/// of the connection is followed by `open`, whatever he types later.
#[test]
fn who_stays_in_his_match_is_not_logged_in_again() {
    let begun = [
        Cue::Hears(WELCOME),
        Cue::Hears(AUTOMOVE),
        Cue::Hears(b"** You are now playing a 5 point match with bob\r\n"),
        Cue::Hears(TO_ROLL),
        Types(b"fix"),
        Cue::Rests,
        Types(b"toggle automove"),
        Cue::Rests,
        Types(b"bye"),
        Cue::Rests,
    ];
    let left = "closed, as you asked: connecting again\n";
    assert_ends(plain_settings(), &begun, &[Types(b"bye"), Cue::Rests, Cue::Loses], left);
    // the question is open
    let lost = [Cue::Hears(b"** hm\r\n"), Cue::Rests, Cue::Loses];
    assert_ends(plain_settings(), &begun, &lost, "lost: connecting again\n");
    for word in [b"board".as_slice(), b"quit", b"say hello", b"pip", b"send bye", b"", b"help"] {
        let stays = [Types(word), Cue::Rests, Cue::Loses];
        assert_ends(plain_settings(), &begun, &stays, "lost: open connects again, quit ends\n");
        let later = [Types(word), Cue::Rests, Types(b"bye"), Types(b"bye"), Cue::Rests, Cue::Loses];
        assert_ends(plain_settings(), &begun, &later, "closed, as you asked: open connects again, quit ends\n");
    }
    // a text that forgets the question is no answer, and the next line is
    for text in [b"Starting a new game with bob.\r\n".as_slice(), b"bob drops connection. The game was saved.\r\n"] {
        let stays = [Cue::Hears(text), Types(b"pip"), Cue::Rests, Cue::Loses];
        assert_ends(plain_settings(), &begun, &stays, "lost: open connects again, quit ends\n");
    }
    let anew = [Cue::Hears(b"Starting a new game with bob.\r\n"), Types(b"bye"), Types(b"bye"), Cue::Rests, Cue::Loses];
    assert_ends(plain_settings(), &begun, &anew, left);
    // and who asks once more is
    let again = [Types(b"fix"), Cue::Rests, Types(b"bye"), Types(b"bye"), Cue::Rests, Cue::Loses];
    assert_ends(plain_settings(), &begun, &again, left);
}

/// What the user types after a login, and by which row the screen ends.
type BeginRow = (&'static [Cue<'static>], &'static str);

const ASKED: &str = "The server plays for you: fix turns it off; the same line again goes out.\n";

/// Who invites or joins though the server plays is asked by the first line that does, and by no other one.
static BEGINNINGS: [BeginRow; 9] = [
    (&[Types(b"invite bob 3")], ASKED),
    (&[Types(b"invite bob")], ASKED),
    (&[Types(b"join")], ASKED),
    (&[Types(b" JOIN bob")], ASKED),
    (&[Types(b"tell bob hi")], "\nsent tell bob hi\n"),
    (&[Types(b"invite bob 3"), Types(b"invite bob 3")], "goes out.\nsent invite bob 3\n"),
    (&[Types(b"invite bob 3"), Types(b"talk"), Cue::Rests, Types(b"join bob")], "\nsent join bob\n"),
    (&[Types(b"join bob"), Types(b"join bob"), Types(b"invite eve")], "\nsent invite eve\n"),
    // on the next connection he is asked anew
    (&[Types(b"join bob"), Cue::Loses, Cue::Opens, Cue::Hears(WELCOME), Cue::Hears(GREEDY), Types(b"join bob")], ASKED),
];

#[test]
fn who_begins_a_match_is_asked_once() {
    for (steps, row) in &BEGINNINGS {
        assert_ends(plain_settings(), &[Cue::Hears(WELCOME), Cue::Hears(GREEDY), Cue::Rests], steps, row);
    }
    // also if he has turned it on himself, and not if it is off
    let on = [Types(b"send toggle automove"), Cue::Hears(FORCED), Types(b"invite bob 3")];
    assert_ends(plain_settings(), &[Cue::Hears(WELCOME), Cue::Hears(SETTINGS)], &on, ASKED);
    // and if he has turned it off since the login: he can't decide before the next one
    let since = [
        Types(b"toggle greedy"),
        Cue::Hears(b"** Won't use automatic greedy bearoffs.\r\n"),
        Cue::Rests,
        Types(b"invite bob 3"),
    ];
    let row = "\nYou logged in with automove or greedy on: fix logs in again.\nThe same line again goes out.\n";
    assert_ends(plain_settings(), &[Cue::Hears(WELCOME), Cue::Hears(GREEDY), Cue::Rests], &since, row);
    let off = [Types(b"invite bob 3")];
    assert_ends(plain_settings(), &[Cue::Hears(WELCOME), Cue::Hears(SETTINGS)], &off, "\nsent invite bob 3\n");
}

/// What is said if there is nothing to do.
#[test]
fn nothing_is_fixed_that_is_right() {
    assert_ends(plain_settings(), &FIRST_BOARD, &[Types(b"fix")], "fix: the server plays nothing for you.\n");
    assert_ends(plain_settings(), &FIRST_BOARD, &[Cue::Loses, Types(b"fix")], "\nThere is no connection: type open.\n");
    assert_ends(plain_settings(), &[], &[Types(b"fix")], "The server has not greeted you yet.\n");
}

/// What is to be done in the match follows.
#[test]
fn what_is_advised_follows_if_nothing_is_fixed() {
    const ROWS: &str = "fix: the server plays nothing for you.\nYour turn: roll, or double.\n";
    assert_ends(plain_settings(), &FIRST_BOARD, &[Types(b"fix"), Cue::Rests], ROWS);
}
