//! Scripts from end to end: what is printed for them, and how they end.

use crate::fibs_engine::fault::EngineFault;
use crate::fibs_replay::replay;
use crate::fibs_test_tools::devices::FailsOnce;
use crate::fibs_test_tools::outcome::Outcome;
use crate::fibs_test_tools::pipe::{After, FAULT, Pipe};
use crate::fibs_test_tools::text::joined;
use crate::rattle::alloc::AllocError;
use crate::rattle::may::*;
use crate::tests::boards::{DOUBLED, MUST_ROLL, OF_OTHERS, ONE_STEP, ROLLED, STEPPED, TO_MOVE, TO_ROLL};

/// Eight events behind the first board: the client logs in, is welcomed and informed, and is shown the board twice.
pub const LOGS_IN: &[u8] = b"
open
serve 1 1 1
text 1 ann 1041253132 localhost
text 2 ann 1 1 0 0 0 0 1 1 10 0 1 0 1 1500.00 0 0 0 0 0 UTC
deliver 10000
serve 1 1 1
serve 1 1 1
deliver 10000
";

/// The same on a second connection.
const LOGS_IN_AGAIN: &[u8] = b"open
serve 2 1 1
text 1 ann 1041253132 localhost
text 2 ann 1 1 0 0 0 0 1 1 10 0 1 0 1 1500.00 0 0 0 0 0 UTC
deliver 10000
serve 2 1 1
serve 2 1 1
deliver 10000
";

/// How a script ends that is read in portions of at most so many bytes, and what is printed.
pub fn replayed(script: &[u8], most: usize) -> Outcome {
    replayed_into(script, most, After::End, 4096)
}

/// The same with what follows the script, if so many bytes may be printed.
fn replayed_into(script: &[u8], most: usize, after: After, room: usize) -> Outcome {
    let mut reader = Pipe::new(script, most, after, 0);
    let mut writer = Pipe::new(b"", 1, After::End, room);
    let ending = replay(&mut reader, &mut writer);
    Outcome::new(ending, writer.output(), b"")
}

/// Asserts how a script ended, and that this was printed. The name and the number say which case it is.
pub fn assert_is(name: &str, at: usize, outcome: &Outcome, ending: Result<u8, EngineFault>, printed: &[u8]) {
    assert!(outcome.is(ending, printed, b""), "{name}, at {at}: {outcome:?}");
}

/// A second click before the answer comes, and one after it; at the end nothing is left to serve.
pub static SECOND_CLICK: &[&[u8]] =
    &[TO_ROLL, LOGS_IN, b"click roll\nclick roll\nserve 1 6 2\ndeliver 10000\nclick roll\nserve 1 1 1\n"];

static SECOND_CLICK_PRINTED: &[&[u8]] = &[
    b"opened 1\nloggedin 1\nwelcomed 1\ninformed 1 0 0\nshown 1 ",
    TO_ROLL,
    b"\nshown 1 ",
    TO_ROLL,
    b"\nclicked 1 ok\nsent 1 ",
    TO_ROLL,
    b" roll\nclicked 1 Waiting\ntook 1 ",
    TO_ROLL,
    b" roll\nshown 1 ",
    TO_MOVE,
    b"\nclicked 1 WrongKind\nrefused 13 5 NothingToServe\n",
];

/// A resignation, a click before its answer, and one after it; at the end nothing is left to serve.
pub static RESIGNATION: &[&[u8]] =
    &[TO_ROLL, LOGS_IN, b"click resign g\nclick roll\nserve 1 6 2\ndeliver 10000\nclick roll\nserve 1 1 1\n"];

/// A play that a loss leaves on its way; the next connection is shown what came of it.
pub static LOST_PLAY: &[&[u8]] =
    &[ONE_STEP, LOGS_IN, b"click move 24-18\nlose 10000\nserve 1 1 1\n", LOGS_IN_AGAIN, b"click roll\n"];

static LOST_PLAY_PRINTED: &[&[u8]] = &[
    b"opened 1\nloggedin 1\nwelcomed 1\ninformed 1 0 0\nshown 1 ",
    ONE_STEP,
    b"\nshown 1 ",
    ONE_STEP,
    b"\nclicked 1 ok\nsent 1 ",
    ONE_STEP,
    b" move 24-18\nlost 1 ",
    ONE_STEP,
    b" move 24-18\ntook 1 ",
    ONE_STEP,
    b" move 24-18\nopened 2\nloggedin 2\nwelcomed 2\ninformed 2 0 0\nshown 2 ",
    STEPPED,
    b"\nshown 2 ",
    STEPPED,
    b"\nclicked 2 NotYours\nend 20\n",
];

/// Ten events after the first board: a client that is to roll by itself, which it is told twice, logs in.
const LOGS_IN_ORDERED: &[u8] = b"
open
order roll
order roll
serve 1 1 1
text 1 ann 1041253132 localhost
text 2 ann 1 1 0 0 0 0 1 1 10 0 1 0 1 1500.00 0 0 0 0 0 UTC
deliver 10000
serve 1 1 1
serve 1 1 1
deliver 10000
";

/// The client rolls by itself on the first of two boards that come together; then the order is withdrawn.
pub static STANDING_ORDER: &[&[u8]] =
    &[MUST_ROLL, LOGS_IN_ORDERED, b"click roll\nserve 1 6 2\nwithdraw roll\ndeliver 10000\n"];

static STANDING_ORDER_PRINTED: &[&[u8]] = &[
    b"opened 1\nordered 1\nloggedin 1\nwelcomed 1\ninformed 1 0 0\nshown 1 ",
    MUST_ROLL,
    b"\nsent 1 ",
    MUST_ROLL,
    b" roll\nshown 1 ",
    MUST_ROLL,
    b"\nclicked 1 Waiting\ntook 1 ",
    MUST_ROLL,
    b" roll\nwithdrawn 1\nshown 1 ",
    ROLLED,
    b"\nend 14\n",
];

/// An order on a board that is shown, which is then shown again.
pub static ORDER_AFTER_THE_BOARD: &[&[u8]] = &[MUST_ROLL, LOGS_IN, b"order roll\nrepeat\ndeliver 10000\n"];

/// Asserts how a script ends, and what is printed, in parts, however the script is cut.
fn assert_replayed(name: &str, script: &[&[u8]], status: u8, printed: &[&[u8]]) {
    let script = joined(script);
    let wanted = joined(printed);
    for most in [1, 2, 7, 4096] {
        assert_cut(name, &script, most, status, &wanted);
    }
}

/// The same if the script is read in portions of at most so many bytes.
fn assert_cut(name: &str, script: &[u8], most: usize, status: u8, wanted: &[u8]) {
    let outcome = replayed(script, most);
    assert_is(name, most, &outcome, Ok(status), wanted);
}

#[test]
fn a_second_click_sends_nothing() {
    assert_replayed("a second click", SECOND_CLICK, 3, SECOND_CLICK_PRINTED);
}

static RESIGNATION_PRINTED: &[&[u8]] = &[
    b"opened 1\nloggedin 1\nwelcomed 1\ninformed 1 0 0\nshown 1 ",
    TO_ROLL,
    b"\nshown 1 ",
    TO_ROLL,
    b"\nclicked 1 ok\nsent 1 ",
    TO_ROLL,
    b" resign g\nclicked 1 Waiting\ntook 1 ",
    TO_ROLL,
    b" resign g\nshown 1 ",
    DOUBLED,
    b"\nclicked 1 NotYours\nrefused 13 5 NothingToServe\n",
];

/// A resignation goes out once, and gives the turn to the opponent, whatever the dice of the server.
#[test]
fn a_resignation_gives_the_turn_away() {
    assert_replayed("a resignation", RESIGNATION, 3, RESIGNATION_PRINTED);
}

#[test]
fn a_play_that_a_loss_leaves_on_its_way_is_served() {
    assert_replayed("a play that is served", LOST_PLAY, 0, LOST_PLAY_PRINTED);
}

/// A play whose command is cut in half by a loss, and which is clicked again.
static HALF_A_COMMAND: &[&[u8]] =
    &[ONE_STEP, LOGS_IN, b"click move 24-18\nlose 3\n", LOGS_IN_AGAIN, b"click move 24-18\nserve 1 1 1\n"];

static HALF_A_COMMAND_PRINTED: &[&[u8]] = &[
    b"opened 1\nloggedin 1\nwelcomed 1\ninformed 1 0 0\nshown 1 ",
    ONE_STEP,
    b"\nshown 1 ",
    ONE_STEP,
    b"\nclicked 1 ok\nsent 1 ",
    ONE_STEP,
    b" move 24-18\nlost 1 ",
    ONE_STEP,
    b" move 24-18\nopened 2\nloggedin 2\nwelcomed 2\ninformed 2 0 0\nshown 2 ",
    ONE_STEP,
    b"\nshown 2 ",
    ONE_STEP,
    b"\nclicked 2 ok\nsent 2 ",
    ONE_STEP,
    b" move 24-18\nrefused 19 5 NothingToServe\n",
];

#[test]
fn half_a_command_is_never_served() {
    assert_replayed("half a command", HALF_A_COMMAND, 3, HALF_A_COMMAND_PRINTED);
}

#[test]
fn a_standing_order_rolls_once() {
    assert_replayed("a standing order", STANDING_ORDER, 0, STANDING_ORDER_PRINTED);
}

static ORDER_AFTER_THE_BOARD_PRINTED: &[&[u8]] = &[
    b"opened 1\nloggedin 1\nwelcomed 1\ninformed 1 0 0\nshown 1 ",
    MUST_ROLL,
    b"\nshown 1 ",
    MUST_ROLL,
    b"\nordered 1\nshown 1 ",
    MUST_ROLL,
    b"\nsent 1 ",
    MUST_ROLL,
    b" roll\nend 11\n",
];

#[test]
fn an_order_on_a_board_that_is_shown_waits_for_the_next_board() {
    let printed = ORDER_AFTER_THE_BOARD_PRINTED;
    assert_replayed("an order on a board", ORDER_AFTER_THE_BOARD, 0, printed);
}

static ORDER_THAT_MAY_DOUBLE_PRINTED: &[&[u8]] = &[
    b"opened 1\nordered 1\nloggedin 1\nwelcomed 1\ninformed 1 0 0\nshown 1 ",
    TO_ROLL,
    b"\nshown 1 ",
    TO_ROLL,
    b"\nend 10\n",
];

#[test]
fn an_order_does_not_roll_where_the_player_may_double() {
    let printed = ORDER_THAT_MAY_DOUBLE_PRINTED;
    let script = [TO_ROLL, LOGS_IN_ORDERED];
    assert_replayed("an order that may double", &script, 0, printed);
}

/// An order on a connection that is lost, and another connection.
static ORDER_BEFORE_A_LOSS: &[&[u8]] =
    &[MUST_ROLL, LOGS_IN_ORDERED, b"lose 0\nwithdraw roll\norder roll\n", LOGS_IN_AGAIN, b"withdraw roll\n"];

static ORDER_BEFORE_A_LOSS_PRINTED: &[&[u8]] = &[
    b"opened 1\nordered 1\nloggedin 1\nwelcomed 1\ninformed 1 0 0\nshown 1 ",
    MUST_ROLL,
    b"\nsent 1 ",
    MUST_ROLL,
    b" roll\nshown 1 ",
    MUST_ROLL,
    b"\nlost 1 ",
    MUST_ROLL,
    b" roll\nopened 2\nloggedin 2\nwelcomed 2\ninformed 2 0 0\nshown 2 ",
    MUST_ROLL,
    b"\nshown 2 ",
    MUST_ROLL,
    b"\nend 22\n",
];

#[test]
fn an_order_ends_with_its_connection() {
    let printed = ORDER_BEFORE_A_LOSS_PRINTED;
    assert_replayed("an order before a loss", ORDER_BEFORE_A_LOSS, 0, printed);
}

/// The parts of a script, its status and what is printed.
type Row = (&'static [&'static [u8]], u8, &'static [u8]);

/// Scripts that are not run.
static UNREADABLE: [Row; 6] = [
    (&[], 3, b"script 1\n"),
    (&[b"open\n"], 3, b"script 1\n"),
    (&[TO_ROLL, b"\nopen\ndance"], 3, b"script 3\n"),
    (&[TO_ROLL, b"\r\nopen\r\nopen\r"], 3, b"script 3\n"),
    (&[OF_OTHERS, b"\nopen\n"], 3, b"refused 0 8 BadBoard\n"),
    (&[OF_OTHERS, b"\nopen\n\n"], 3, b"script 3\n"),
];

/// Scripts of few events of a connection, most of them with one that is refused.
static SHORT: [Row; 9] = [
    (&[TO_ROLL], 0, b"end 0\n"),
    (&[TO_ROLL, b"\r\nopen\r\n"], 0, b"opened 1\nend 1\n"),
    (&[TO_ROLL, b"\nopen\nopen"], 3, b"opened 1\nrefused 1 2 AlreadyOpen\n"),
    (&[TO_ROLL, b"\ndeliver 0\n"], 3, b"refused 0 3 NotOpen\n"),
    (&[TO_ROLL, b"\nlose 1\n"], 3, b"refused 0 3 NotOpen\n"),
    (&[TO_ROLL, b"\nserve 0 1 1\n"], 3, b"refused 0 4 NoSuchConnection\n"),
    (&[TO_ROLL, b"\nserve 1 0 0\n"], 3, b"refused 0 4 NoSuchConnection\n"),
    (&[TO_ROLL, b"\nopen\nserve 1 0 7\n"], 3, b"opened 1\nrefused 1 9 BadDice\n"),
    (&[TO_ROLL, b"\nopen\nserve 1 1 1\nserve 1 1 1\n"], 3, b"opened 1\nloggedin 1\nrefused 2 5 NothingToServe\n"),
];

/// The same of boards, texts and commands.
static SHOWN: [Row; 7] = [
    (&[TO_ROLL, b"\nown ", TO_MOVE], 3, b"refused 0 6 UserDecides\n"),
    (&[TO_ROLL, b"\nown ", OF_OTHERS], 3, b"refused 0 8 BadBoard\n"),
    (&[STEPPED, b"\nown ", OF_OTHERS], 3, b"refused 0 8 BadBoard\n"),
    (&[STEPPED, b"\nown ", TO_MOVE], 0, b"end 1\n"),
    (&[TO_ROLL, b"\ntext ", TO_ROLL], 3, b"refused 0 7 BoardAsText\n"),
    (&[TO_ROLL, b"\ntext ", OF_OTHERS], 0, b"end 1\n"),
    (&[TO_ROLL, b"\nclick roll\nplain who\n"], 0, b"clicked 0 Offline\nend 2\n"),
];

/// Asserts how the script of each row ends, and what is printed.
fn assert_rows(name: &str, rows: &[Row]) {
    for (parts, status, wanted) in rows {
        assert_replayed(name, parts, *status, &[wanted]);
    }
}

#[test]
fn scripts_that_are_not_run() {
    assert_rows("a script that is not run", &UNREADABLE);
}

#[test]
fn events_that_may_not_be() {
    assert_rows("a script of few events", &SHORT);
    assert_rows("a script of few events", &SHOWN);
}

/// The parts of a script of so many bytes as may be but one, each of them so many times.
static LONG: [(&[u8], usize); 4] = [(TO_ROLL, 1), (b"\n", 1), (b"repeat\n", 149_779), (b"\n\n", 1)];

/// Appends that script.
fn append_long(script: &mut Vec<u8>) -> Result<(), AllocError> {
    for (part, times) in &LONG {
        for _ in 0..*times {
            script.may_extend_from_slice(part)?;
        }
    }
    Ok(())
}

/// Asserts what is printed if a script has one more line end.
fn assert_refused(script: &mut Vec<u8>, wanted: &[u8]) {
    script.may_push(b'\n').expect("memory is ample");
    let outcome = replayed(script, 4096);
    assert_is("a long script", script.len(), &outcome, Ok(3), wanted);
}

/// As many bytes as may be, and one more.
#[test]
fn a_long_script_is_not_run() {
    let mut script = Vec::new();
    append_long(&mut script).expect("memory is ample");
    assert_refused(&mut script, b"script 149781\n");
    assert_refused(&mut script, b"script 0\n");
}

#[test]
fn nothing_is_printed_after_a_failed_read() {
    let outcome = replayed_into(TO_ROLL, 50, FAULT, 4096);
    let ending = Err(EngineFault::Device);
    assert_is("a failed read", TO_ROLL.len(), &outcome, ending, b"");
}

/// If so many bytes may be printed, these are the first of what is printed else.
fn assert_printed_into(script: &[u8], printed: &[u8], room: usize) {
    let outcome = replayed_into(script, 4096, After::End, room);
    let front = printed.get(..room).unwrap_or(b"");
    assert_is("room", room, &outcome, Err(EngineFault::Device), front);
}

#[test]
fn a_front_is_printed_before_a_failed_write() {
    let script = joined(SECOND_CLICK);
    let wanted = joined(SECOND_CLICK_PRINTED);
    for room in 0..wanted.len() {
        assert_printed_into(&script, &wanted, room);
    }
}

/// If a write of three bytes fails after so many, nothing is written after it.
fn assert_written_before(script: &[u8], before: usize) {
    let wanted = b"opened 1\nlost 1\nopened 2\nlost 2\nend 4\n";
    let mut reader = Pipe::new(script, 4096, After::End, 0);
    let mut writer = FailsOnce::new(before, 3);
    let ending = replay(&mut reader, &mut writer);
    let outcome = Outcome::new(ending, writer.output(), b"");
    let front = wanted.get(..before.saturating_mul(3)).unwrap_or(b"");
    assert_is("writes", before, &outcome, Err(EngineFault::Device), front);
}

#[test]
fn nothing_is_written_after_a_failed_write_of_a_log() {
    let script = joined(&[TO_ROLL, b"\nopen\nlose 1\nopen\nlose 1\n"]);
    for before in 0..10 {
        assert_written_before(&script, before);
    }
}
