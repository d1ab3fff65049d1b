//! Scripts: which lines are which events, the first line that is unreadable, and the lines of the log.

use crate::fibs_fields::boards::Board;
use crate::fibs_model::{Entry, Event};
use crate::fibs_position::{Decision, Play, Stake, Step};
use crate::fibs_replay::events::{read_board, read_event};
use crate::fibs_replay::input::read_script;
use crate::fibs_replay::log_lines::{Portion, append_entry};
use crate::fibs_replay::script::first_unreadable;
use crate::fibs_session::{Outstanding, Plain, Refusal};
use crate::fibs_test_tools::pipe::{After, FAULT, Pipe};
use crate::tests::boards::{TO_MOVE_UP, TO_ROLL};
use arrayvec::ArrayVec;

/// Lines that say no event: with no word of an event, or with more than a word.
static NO_WORDS: [&[u8]; 10] =
    [b"", b" ", b"dance", b"Open", b"open ", b" open", b"open 1", b"open\r", b"repeat ", b"repeat 2"];

/// The same of clicks and plain commands.
static NO_CLICKS: [&[u8]; 20] = [
    b"click", b"click ", b"click Roll", b"click roll ", b"click  roll", b"click roll\r", b"click board",
    b"click resign", b"click resign x", b"click resign n ", b"click move ", b"click move 24-18 ", b"click move 25-20",
    b"click move 24-18 18-13 13-8 8-3 3-off", b"plain", b"plain ", b"plain roll", b"plain dance", b"plain who ",
    b"plain invite bob 65536",
];

/// The same of orders.
static NO_ORDERS: [&[u8]; 12] = [
    b"order", b"order ", b"order  roll", b"order roll ", b"order Roll", b"order double", b"order roll\r", b"orderroll",
    b"withdraw", b"withdraw ", b"withdraw  roll", b"withdraw roll ",
];

/// The same of deliveries and losses.
static NO_COUNTS: [&[u8]; 11] = [
    b"deliver",
    b"deliver ",
    b"deliver -1",
    b"deliver +1",
    b"deliver 01",
    b"deliver 1 ",
    b"deliver  1",
    b"deliver 4294967296",
    b"deliver 100000000000000000000000000000000",
    b"lose 4294967296",
    b"lose",
];

/// The same of lines that are served, and of boards.
static NO_SERVICE: [&[u8]; 14] = [
    b"serve", b"serve 1", b"serve 1 1", b"serve 1 1 ", b"serve 1 1 1 ", b"serve 1 1 1 1", b"serve 1  1 1",
    b"serve 1 256 1", b"serve 1 1 256", b"serve 4294967296 1 1", b"own", b"own ", b"own board", b"own board:You",
];

/// Asserts that these lines say no event.
fn assert_unreadable(lines: &[&[u8]]) {
    for line in lines {
        assert!(read_event(line).is_none(), "{line:?}");
    }
}

#[test]
fn lines_that_say_no_event() {
    assert_unreadable(&NO_WORDS);
    assert_unreadable(&NO_CLICKS);
    assert_unreadable(&NO_ORDERS);
    assert_unreadable(&NO_COUNTS);
    assert_unreadable(&NO_SERVICE);
}

/// Whether a line says this event.
fn says(line: &[u8], event: &Event<'_>) -> bool {
    match read_event(line) {
        Some(said) => said == *event,
        None => false,
    }
}

/// Asserts which event a line says.
fn assert_says(line: &[u8], event: &Event<'_>) {
    assert!(says(line, event), "{line:?}");
}

/// Lines that say an event, and the event.
fn events() -> [(&'static [u8], Event<'static>); 17] {
    [
        (b"open", Event::Open),
        (b"repeat", Event::Repeat),
        (b"text", Event::Text(b"")),
        (b"text ", Event::Text(b"")),
        (b"text  a\xff ", Event::Text(b" a\xff ")),
        (b"click roll", Event::Click(Decision::Roll)),
        (b"click reject", Event::Click(Decision::Reject)),
        (b"click resign b", Event::Click(Decision::Resign(Stake::Backgammon))),
        (b"plain who", Event::Plain(Plain::Who)),
        (b"plain say a  b", Event::Plain(Plain::Say(b"a  b"))),
        (b"plain tell", Event::Plain(Plain::Tell(b"", b""))),
        (b"order roll", Event::Order),
        (b"withdraw roll", Event::Withdraw),
        (b"deliver 0", Event::Deliver(0)),
        (b"deliver 4294967295", Event::Deliver(4_294_967_295)),
        (b"lose 4294967295", Event::Lose(4_294_967_295)),
        (b"serve 4294967295 0 255", Event::Serve { conn: 4_294_967_295, dice: [0, 255] }),
    ]
}

#[test]
fn lines_that_say_an_event() {
    for (line, event) in &events() {
        assert_says(line, event);
    }
}

/// A play of these steps, each from one place to another.
fn play_of(steps: &[(u8, u8)]) -> Option<Play> {
    let mut play = Play::new();
    for (from, to) in steps {
        if !play.push(Step::new(*from, *to)?) {
            return None;
        }
    }
    Some(play)
}

/// Asserts that a line clicks a play of these steps.
fn assert_clicks(line: &[u8], steps: &[(u8, u8)]) {
    let play = play_of(steps).expect("it is a play");
    assert_says(line, &Event::Click(Decision::Move(play)));
}

#[test]
fn plays_are_clicked_in_own_numbers() {
    assert_clicks(b"click move", &[]);
    assert_clicks(b"click move bar-20 6-off", &[(25, 20), (6, 0)]);
}

#[test]
fn boards_are_owned_with_spaces_at_the_end() {
    let own = Event::Own(read_board(TO_ROLL).expect("it is a board"));
    for end in &[b"".as_slice(), b"  "] {
        assert_says(&line_with(b"own ", TO_ROLL, end), &own);
    }
    assert_unreadable(&[&line_with(b"own ", TO_ROLL, b"  \r")]);
}

/// The first line of a script, what follows it, and the number of the first line that is unreadable, if there is one.
static SCRIPTS: [(&[u8], &[u8], Option<usize>); 18] = [
    (TO_ROLL, b"", None),
    (TO_ROLL, b"\n", None),
    (TO_ROLL, b"\r\n", None),
    (TO_ROLL, b"  \r\nopen", None),
    (TO_ROLL, b"\nopen\ntext \r\r\nrepeat\r\n", None),
    (TO_ROLL, b"\nopen\ndance", Some(3)),
    (TO_ROLL, b"\nopen\ndance\nprance\n", Some(3)),
    (TO_ROLL, b"\n\nopen\n", Some(2)),
    (TO_ROLL, b"\nopen\n\n", Some(3)),
    (TO_ROLL, b"\nopen\n ", Some(3)),
    (TO_ROLL, b"\nopen\r", Some(2)),
    (TO_ROLL, b"\nopen\r\r\n", Some(2)),
    (TO_ROLL, b"\r", Some(1)),
    (TO_ROLL, b"\r\r\nopen\n", Some(1)),
    (TO_ROLL, b":0\nopen\n", Some(1)),
    (b"", b"", Some(1)),
    (b"", b"\n", Some(1)),
    (b"open", b"\n", Some(1)),
];

/// Asserts which line of a script is the first that is unreadable.
fn assert_first_unreadable(first: &[u8], after: &[u8], number: Option<usize>) {
    let script = line_with(first, after, b"");
    let is_found = first_unreadable(&script) == number;
    assert!(is_found, "{after:?} after {first:?}");
}

#[test]
fn the_first_unreadable_line_is_named() {
    for (first, after, number) in &SCRIPTS {
        assert_first_unreadable(first, after, *number);
    }
}

/// The line of an entry.
fn line_of(entry: &Entry) -> Portion {
    let mut text = Portion::new();
    append_entry(&mut text, entry);
    text
}

/// The largest number of a connection.
const MOST: usize = 18_446_744_073_709_551_615;

/// Entries without a board, and their lines.
fn entries() -> [(Entry, &'static [u8]); 9] {
    [
        (Entry::Opened { conn: 1 }, b"opened 1\n"),
        (Entry::Opened { conn: MOST }, b"opened 18446744073709551615\n"),
        (Entry::LoggedIn { conn: 12 }, b"loggedin 12\n"),
        (Entry::Welcomed { conn: 1 }, b"welcomed 1\n"),
        (Entry::Informed { conn: 1, automove: false, greedy: true }, b"informed 1 0 1\n"),
        (Entry::Informed { conn: 1, automove: true, greedy: false }, b"informed 1 1 0\n"),
        (Entry::Ordered { conn: 1 }, b"ordered 1\n"),
        (Entry::Withdrawn { conn: 12 }, b"withdrawn 12\n"),
        (Entry::Lost { conn: 1, unconfirmed: None }, b"lost 1\n"),
    ]
}

/// The number of a connection, the answer to a click on it, and the line.
static ANSWERS: [(usize, Result<(), Refusal>, &[u8]); 3] = [
    (1, Ok(()), b"clicked 1 ok\n"),
    (0, Err(Refusal::Offline), b"clicked 0 Offline\n"),
    (MOST, Err(Refusal::AlreadyOrdered), b"clicked 18446744073709551615 AlreadyOrdered\n"),
];

/// Whether the line of an entry is this word, the board and the end.
fn is_line(entry: &Entry, word: &[u8], board: &[u8], end: &[u8]) -> bool {
    line_of(entry).as_slice() == line_with(word, board, end).as_slice()
}

/// Asserts the same.
fn assert_line(entry: &Entry, word: &[u8], board: &[u8], end: &[u8]) {
    assert!(is_line(entry, word, board, end), "{word:?} and {end:?}");
}

/// Asserts the line of a click.
fn assert_answered(conn: usize, answer: Result<(), Refusal>, wanted: &[u8]) {
    let clicked = Entry::Clicked { conn, decision: Decision::Roll, answer };
    assert_line(&clicked, wanted, b"", b"");
}

#[test]
fn entries_without_a_board() {
    for (entry, wanted) in &entries() {
        assert_line(entry, wanted, b"", b"");
    }
    for (conn, answer, wanted) in &ANSWERS {
        assert_answered(*conn, *answer, wanted);
    }
}

/// The word, the board and the end of a line.
fn line_with(word: &[u8], board: &[u8], end: &[u8]) -> ArrayVec<u8, 512> {
    let mut line = ArrayVec::new();
    for part in [word, board, end] {
        let _fits = line.try_extend_from_slice(part);
    }
    line
}

/// Entries with a board whose decision is to roll, and what is before and after it in their lines.
fn entries_of(board: Board) -> [(Entry, &'static [u8], &'static [u8]); 4] {
    let decision = Decision::Roll;
    let unconfirmed = Some(Outstanding { board, decision });
    let conn = 1;
    [
        (Entry::Shown { conn, board }, b"shown 1 ", b"\n"),
        (Entry::Sent { conn, board, decision }, b"sent 1 ", b" roll\n"),
        (Entry::Took { conn, board, decision }, b"took 1 ", b" roll\n"),
        (Entry::Lost { conn: 2, unconfirmed }, b"lost 2 ", b" roll\n"),
    ]
}

#[test]
fn entries_with_a_board() {
    let board = read_board(TO_ROLL).expect("it is a board");
    for (entry, word, end) in &entries_of(board) {
        assert_line(entry, word, TO_ROLL, end);
    }
}

#[test]
fn commands_are_in_the_numbers_of_their_own_board() {
    let steps = [(20, 17), (17, 14), (14, 11)];
    let undone = Entry::Undone {
        conn: 3,
        board: read_board(TO_MOVE_UP).expect("it is a board"),
        decision: Decision::Move(play_of(&steps).expect("it is a play")),
    };
    assert_line(&undone, b"undone 3 ", TO_MOVE_UP, b" move 5-8 8-11 11-14\n");
}

/// Whether these bytes are read as a script, and whole or not as is wanted, or as none if that is wanted, in reads of
/// at most `most`. A read after them fails as `after` says.
fn is_read(bytes: &[u8], most: usize, after: After, wanted: Option<bool>) -> bool {
    let mut reader = Pipe::new(bytes, most, after, 0);
    match read_script(&mut [0; 1024], &mut reader) {
        Ok(Some(script)) => wanted == Some(script.as_slice() == bytes),
        Ok(None) => wanted.is_none(),
        Err(_) => false,
    }
}

/// Asserts whether a script of so many bytes is read whole.
fn assert_read(length: usize, most: usize, after: After, wanted: Option<bool>) {
    let bytes = crate::rattle::may::may_from_elem(b'a', length).expect("memory is ample");
    let is_right = is_read(&bytes, most, after, wanted);
    assert!(is_right, "{length} bytes, at most {most} at once");
}

/// As many bytes as may be are read. If there is one more, nothing is read after it.
#[test]
fn a_script_is_read_up_to_its_limit() {
    assert_read(1_048_576, 1000, After::End, Some(true));
    assert_read(1_048_576, 2000, After::End, Some(true));
    assert_read(1_048_577, 1000, FAULT, None);
}
