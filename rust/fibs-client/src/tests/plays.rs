//! The engine `plays`.
use super::outcomes::assert_is;
use crate::fibs_engine::fault::EngineFault;
use crate::fibs_show::plays::plays;
use crate::fibs_test_tools::devices::FailsOnce;
use crate::fibs_test_tools::outcome::Outcome;
use crate::fibs_test_tools::pipe::{After, Pipe};
use crate::fibs_test_tools::text::{Text, text_of};

/// A word of the command line, and what is printed for it.
struct Case {
    name: &'static str,
    word: &'static [u8],
    printed: &'static [u8],
}

/// What is printed for good boards.
static PRINTED: [Case; 12] = [
    Case {
        name: "the larger die alone, since both can't be played",
        word: b"board:You:bob:5:0:0:0:0:0:0:0:0:0:0:0:0:0:0:0:-2:0:0:0:0:0:0:0:0:0:0:1:0:1:6:5:0:0:1:1:1:0:1:-1:0:25:14:13:0:0:1:0:0:0",
        printed: b"phase Move\nmove 24-18\n",
    },
    Case {
        name: "one die",
        word: b"board:You:bob:5:0:0:0:0:0:0:0:0:0:0:0:0:0:0:0:-2:0:0:0:0:0:0:0:0:0:0:1:0:1:6:0:0:0:1:1:1:0:1:-1:0:25:14:13:0:0:1:0:0:0",
        printed: b"phase Move\nmove 24-18\n",
    },
    Case {
        name: "two checkers borne off",
        word: b"board:You:bob:5:0:0:0:0:1:1:0:0:0:0:0:0:0:0:0:-2:0:0:0:0:0:0:0:0:0:0:0:0:1:6:5:0:0:1:1:1:0:1:-1:0:25:13:13:0:0:2:0:0:0",
        printed: b"phase Move\nmove 3-off 2-off\n",
    },
    Case {
        name: "a checker on the bar that cannot enter",
        word: b"board:You:bob:5:0:0:0:0:0:0:0:0:14:0:0:0:0:0:0:0:0:0:0:0:0:-2:-2:-2:-2:-2:-2:1:1:3:1:0:0:1:1:1:0:1:-1:0:25:0:3:1:0:0:0:0:0",
        printed: b"phase Passing\n",
    },
    Case {
        name: "three of four equal dice, going up",
        word: b"board:You:bob:5:0:0:0:0:0:0:0:-1:0:0:0:0:0:0:0:0:0:0:0:2:0:0:0:0:0:0:0:0:-1:3:3:0:0:1:1:1:0:-1:1:25:0:14:13:0:0:3:0:0:0",
        printed: b"phase Move\nmove 5-8 8-11 11-14\n",
    },
    Case {
        name: "two orders that reach one place",
        word: b"board:You:bob:5:0:0:0:0:-2:0:0:0:0:0:0:0:0:0:0:0:0:0:0:0:0:0:0:0:0:0:1:0:1:6:5:0:0:1:1:1:0:1:-1:0:25:14:13:0:0:2:0:0:0",
        printed: b"phase Move\nmove 24-19 19-13\n",
    },
    Case {
        name: "two checkers and two dice",
        word: b"board:You:bob:5:0:0:0:0:0:0:1:0:0:0:1:0:0:0:0:0:0:0:0:0:0:0:0:0:0:0:-2:0:1:2:1:0:0:1:1:1:0:1:-1:0:25:13:13:0:0:2:0:0:0",
        printed: b"phase Move\nmove 8-7 7-5\nmove 8-7 4-2\nmove 8-6 4-3\nmove 4-3 3-1\n",
    },
    Case {
        name: "a hit, and a held place behind it",
        word: b"board:You:bob:5:0:0:0:0:0:0:0:0:0:0:0:0:0:0:-2:0:0:0:0:0:-1:0:0:0:0:0:1:0:1:6:6:0:0:1:1:1:0:1:-1:0:25:14:12:0:0:1:0:0:0",
        printed: b"phase Move\nmove 24-18\n",
    },
    Case {
        name: "no dice",
        word: b"board:You:bob:5:0:0:0:0:0:0:0:0:0:0:0:0:0:0:0:-2:0:0:0:0:0:0:0:0:0:0:1:0:1:0:0:0:0:1:1:1:0:1:-1:0:25:14:13:0:0:1:0:0:0",
        printed: b"phase RollOrDouble\n",
    },
    Case {
        name: "a double to be answered",
        word: b"board:You:bob:5:0:0:0:0:0:0:0:0:0:0:0:0:0:0:0:-2:0:0:0:0:0:0:0:0:0:0:1:0:1:0:0:0:0:1:1:1:1:1:-1:0:25:14:13:0:0:1:0:0:0",
        printed: b"phase AnswerDouble\n",
    },
    Case {
        name: "the opponent's turn",
        word: b"board:You:bob:5:0:0:0:0:0:0:0:0:0:0:0:0:0:0:0:-2:0:0:0:0:0:0:0:0:0:0:1:0:-1:0:0:0:0:1:1:1:0:1:-1:0:25:14:13:0:0:1:0:0:0",
        printed: b"phase OpponentActs\n",
    },
    Case {
        name: "a game that is over",
        word: b"board:You:bob:5:0:0:0:0:0:0:0:0:0:0:0:0:0:0:0:-2:0:0:0:0:0:0:0:0:0:0:1:0:0:0:0:0:0:1:1:1:0:1:-1:0:25:14:13:0:0:1:0:0:0",
        printed: b"phase Over\n",
    },
];

/// What is printed on standard error for all other words.
static REFUSED: [Case; 16] = [
    Case {
        name: "a number of a message",
        word: b"3",
        printed: b"not a board\n",
    },
    Case {
        name: "a malformed message",
        word: b"3 x",
        printed: b"not a board\n",
    },
    Case {
        name: "a message",
        word: b"1 ann 1041253132 localhost",
        printed: b"not a board\n",
    },
    Case {
        name: "nothing",
        word: b"",
        printed: b"not a board\n",
    },
    Case {
        name: "no colon",
        word: b"board",
        printed: b"not a board\n",
    },
    Case {
        name: "a prompt",
        word: b"> board:You:bob:5:0:0:0:0:0:0:0:0:0:0:0:0:0:0:0:-2:0:0:0:0:0:0:0:0:0:0:1:0:1:6:5:0:0:1:1:1:0:1:-1:0:25:14:13:0:0:1:0:0:0",
        printed: b"not a board\n",
    },
    Case {
        name: "a bad name",
        word: b"board: a",
        printed: b"malformed 0 2 BadName\n",
    },
    Case {
        name: "a missing field",
        word: b"board:You",
        printed: b"malformed 0 3 Missing\n",
    },
    Case {
        name: "an absent last field",
        word: b"board:You:bob:5:0:0:0:0:0:0:0:0:0:0:0:0:0:0:0:-2:0:0:0:0:0:0:0:0:0:0:1:0:1:6:5:0:0:1:1:1:0:1:-1:0:25:14:13:0:0:1:0:0",
        printed: b"malformed 0 53 Missing\n",
    },
    Case {
        name: "a field too many",
        word: b"board:You:bob:5:0:0:0:0:0:0:0:0:0:0:0:0:0:0:0:-2:0:0:0:0:0:0:0:0:0:0:1:0:1:6:5:0:0:1:1:1:0:1:-1:0:25:14:13:0:0:1:0:0:0:0",
        printed: b"malformed 0 54 Extra\n",
    },
    Case {
        name: "no number",
        word: b"board:You:bob:3:-0",
        printed: b"malformed 0 5 NotANumber\n",
    },
    Case {
        name: "a number out of its range",
        word: b"board:You:bob:3:-1",
        printed: b"malformed 0 5 OutOfRange\n",
    },
    Case {
        name: "another's board",
        word: b"board:ann:bob:5:0:0:0:0:0:0:0:0:0:0:0:0:0:0:0:-2:0:0:0:0:0:0:0:0:0:0:1:0:1:6:5:0:0:1:1:1:0:1:-1:0:25:14:13:0:0:1:0:0:0",
        printed: b"position NotYou\n",
    },
    Case {
        name: "another's board, with too many checkers",
        word: b"board:ann:bob:5:0:0:0:0:0:0:0:0:0:0:0:0:0:0:0:-2:0:0:0:0:0:0:0:0:0:0:2:0:1:6:5:0:0:1:1:1:0:1:-1:0:25:14:13:0:0:1:0:0:0",
        printed: b"position NotYou\n",
    },
    Case {
        name: "sixteen own checkers",
        word: b"board:You:bob:5:0:0:0:0:0:0:0:0:0:0:0:0:0:0:0:-2:0:0:0:0:0:0:0:0:0:0:2:0:1:6:5:0:0:1:1:1:0:1:-1:0:25:14:13:0:0:1:0:0:0",
        printed: b"position TooManyOwn\n",
    },
    Case {
        name: "sixteen checkers of the opponent",
        word: b"board:You:bob:5:0:0:0:0:0:0:0:0:0:0:0:0:0:0:0:-3:0:0:0:0:0:0:0:0:0:0:1:0:1:6:5:0:0:1:1:1:0:1:-1:0:25:14:13:0:0:1:0:0:0",
        printed: b"position TooManyOther\n",
    },
];

/// The good boards, and what is printed for them.
fn printed_words() -> &'static [Case; 12] {
    &PRINTED
}

/// All other words, and what is printed for them.
fn refused_words() -> &'static [Case; 16] {
    &REFUSED
}

/// How `plays` ends if so many bytes may be printed on both writers, and what it prints.
fn listed(word: &[u8], out_room: usize, err_room: usize) -> Outcome {
    let mut out = Pipe::new(b"", 1, After::End, out_room);
    let mut err = Pipe::new(b"", 1, After::End, err_room);
    let ending = plays(word, &mut out, &mut err);
    Outcome::new(ending, out.output(), err.output())
}

/// Asserts how `plays` ends, and what it prints on both writers.
fn assert_listed(case: &Case, status: u8, printed: [&[u8]; 2]) {
    let outcome = listed(case.word, 512, 512);
    assert_is(case.name, 0, &outcome, Ok(status), printed);
}

#[test]
fn prints_the_plays_of_good_boards() {
    for case in printed_words() {
        assert_listed(case, 0, [case.printed, b""]);
    }
}

#[test]
fn refuses_all_other_words() {
    for case in refused_words() {
        assert_listed(case, 3, [b"", case.printed]);
    }
}

/// A word with so many spaces after it.
fn spaced(word: &[u8], count: usize) -> Text {
    let mut text = text_of(word);
    for _ in 0..count {
        let _fits = text.try_push(b' ');
    }
    text
}

#[test]
fn reads_a_word_of_any_length() {
    let case = &printed_words()[0];
    let word = spaced(case.word, 5000);
    let outcome = listed(&word, 512, 512);
    assert_is("spaces", 5000, &outcome, Ok(0), [case.printed, b""]);
}

/// What is printed on standard output and on standard error, if it is on the first, or else on the second.
fn printed_on(is_out: bool, printed: &[u8]) -> [&[u8]; 2] {
    if is_out { [printed, b""] } else { [b"", printed] }
}

/// Asserts that `plays` stops at a failed write if so many bytes may be printed on the writer that it prints on, and
/// none on the other.
fn assert_stops(case: &Case, room: usize, is_out: bool) {
    let rooms = if is_out { [room, 0] } else { [0, room] };
    let outcome = listed(case.word, rooms[0], rooms[1]);
    let front = case.printed.get(..room).unwrap_or(b"");
    let ending = Err(EngineFault::Device);
    let printed = printed_on(is_out, front);
    assert_is(case.name, room, &outcome, ending, printed);
}

/// Asserts it for each room that does not hold all.
fn assert_stops_at_each(case: &Case, is_out: bool) {
    for room in 0..case.printed.len() {
        assert_stops(case, room, is_out);
    }
}

#[test]
fn stops_at_a_failed_write() {
    assert_stops_at_each(&printed_words()[6], true);
    assert_stops_at_each(&refused_words()[6], false);
}

/// How `plays` ends if one write on each writer fails, and what it prints.
fn listed_with_a_failure(word: &[u8], before: usize) -> Outcome {
    let mut out = FailsOnce::new(before, 1);
    let mut err = FailsOnce::new(before, 1);
    let ending = plays(word, &mut out, &mut err);
    Outcome::new(ending, out.output(), err.output())
}

/// Asserts that `plays` stops if one write on each writer fails after so many.
fn assert_fails(case: &Case, before: usize, is_out: bool) {
    let outcome = listed_with_a_failure(case.word, before);
    let front = case.printed.get(..before).unwrap_or(b"");
    let ending = Err(EngineFault::Device);
    let printed = printed_on(is_out, front);
    assert_is(case.name, before, &outcome, ending, printed);
}

/// Asserts it for each write.
fn assert_fails_at_each(case: &Case, is_out: bool) {
    for before in 0..case.printed.len() {
        assert_fails(case, before, is_out);
    }
}

/// After a failed write neither writer is given more, though it would take it.
#[test]
fn writes_nothing_after_a_failed_write() {
    assert_fails_at_each(&printed_words()[6], true);
    assert_fails_at_each(&refused_words()[6], false);
}
