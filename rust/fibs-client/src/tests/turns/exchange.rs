//! Turns of a client with a stream in memory.

use super::connected::{
    Kind, ScriptedTurn, Talk, TalkCue, TestSeat, assert_at, assert_talk, assert_talks, assert_typed, first_turn_on,
    is_made_of, repeated,
};
use crate::fibs_connect::turns::{Ending, exchange};
use crate::fibs_messages::{Reading, read as read_line};
use crate::fibs_session::{Client, Directory, Login};
use crate::fibs_test_tools::devices::FailsOnce;
use crate::fibs_test_tools::pipe::{After, FAULT, Pipe, QUIET};
use crate::fibs_test_tools::stumbling::Stumbles;
use crate::fibs_test_tools::text::{Text, joined};
use crate::rattle::io::ErrorKind;

const END: &[u8] = b"\r\n";

const LF: &[u8] = b"\n";

const WELCOME: &[u8] = b"1 ann 1041253132 localhost";

const INFO: &[u8] = b"2 ann 1 1 0 0 0 0 1 1 10 0 1 0 1 1500.00 0 0 0 0 0 UTC";

/// The same with autoboard off.
const INFO_WITHOUT_BOARDS: &[u8] = b"2 ann 1 0 0 0 0 0 1 1 10 0 1 0 1 1500.00 0 0 0 0 0 UTC";

const PLAYER: &[u8] = b"5 someplayer mgnu_advanced - 0 0 1912.15 827 8 1040515752 192.168.143.5 3DFiBs -";

/// A board up to its turn, and what follows if the user is to roll, and after the roll of 6 and 2.
const BOARD: &[u8] = b"board:You:bob:3:0:1:0:-2:0:0:0:0:5:0:3:0:0:0:-5:5:0:0:0:-3:0:-5:0:0:0:0:2:0";

const TO_ROLL: &[u8] = b":1:0:0:0:0:1:1:1:0:1:-1:0:25:0:0:0:0:0:0:0:0";

const ROLLED: &[u8] = b":1:6:2:0:0:1:1:1:0:1:-1:0:25:0:0:0:0:0:0:0:0";

/// The first board of a match, after the roll of 6 and 2.
const OPENING: &[u8] = b"board:You:someplayer:3:0:1:0:-2:0:0:0:0:5:0:3:0:0:0:-5:5:0:0:0:-3:0:-5:0:0:0:0:2:0\
    :1:6:2:0:0:1:1:1:0:1:-1:0:25:0:0:0:0:2:0:0:0";

/// The board of a player who goes up, with dice 3 and 3.
const GOING_UP: &[u8] = b"board:You:bob:5:0:0:0:0:0:0:0:-1:0:0:0:0:0:0:0:0:0:0:0:2:0:0:0:0:0:0:0:0\
    :-1:3:3:0:0:1:1:1:0:-1:1:25:0:14:13:0:0:3:0:0:0";

/// A board of a game that is watched.
const WATCHED: &[u8] = b"board:ann:bob:3:0:1:0:-2:0:0:0:0:5:0:3:0:0:0:-5:5:0:0:0:-3:0:-5:0:0:0:0:2:0";

/// What the server sends until the client is ready, what is sent then, and what is printed.
const READY: &[u8] = b"1 ann 1041253132 localhost\r\n\
    2 ann 1 1 0 0 0 0 1 1 10 0 1 0 1 1500.00 0 0 0 0 0 UTC\r\n\
    board:You:bob:3:0:1:0:-2:0:0:0:0:5:0:3:0:0:0:-5:5:0:0:0:-3:0:-5:0:0:0:0:2:0\
    :1:0:0:0:0:1:1:1:0:1:-1:0:25:0:0:0:0:0:0:0:0\r\n";

const SENT: &[u8] = b"set boardstyle 3\r\nboard\r\n";

const PRINTED: &[u8] = b"message 1 ann 1041253132 localhost\n\
    message 2 ann 1 1 0 0 0 0 1 1 10 0 1 0 1 1500.00 0 0 0 0 0 UTC\n\
    board:You:bob:3:0:1:0:-2:0:0:0:0:5:0:3:0:0:0:-5:5:0:0:0:-3:0:-5:0:0:0:0:2:0\
    :1:0:0:0:0:1:1:1:0:1:-1:0:25:0:0:0:0:0:0:0:0\n\
    phase RollOrDouble\n";

/// A line of the server, or some.
static ANSWERED: [Talk<'static>; 6] = [
    Talk {
        name: "a welcome",
        steps: &[TalkCue::Hears(&[WELCOME, END])],
        last: None,
        sent: &[b"set boardstyle 3\r\n"],
        printed: &[b"message ", WELCOME, LF],
    },
    Talk {
        name: "no boards by themselves",
        steps: &[TalkCue::Hears(&[WELCOME, END, INFO_WITHOUT_BOARDS, END])],
        last: None,
        sent: &[b"set boardstyle 3\r\ntoggle autoboard\r\nboard\r\n"],
        printed: &[b"message ", WELCOME, LF, b"message ", INFO_WITHOUT_BOARDS, LF],
    },
    Talk {
        name: "a board of a game that is watched",
        steps: &[TalkCue::Hears(&[WATCHED, TO_ROLL, END])],
        last: None,
        sent: &[],
        printed: &[WATCHED, TO_ROLL, LF],
    },
    Talk {
        name: "lines of other kinds",
        steps: &[TalkCue::Hears(&[b"5 bob\r\n3 x\r\n05 x\r\n\r\na\x1b\\\r\n> hi\r\r\n"])],
        last: None,
        sent: &[],
        printed: &[b"malformed 5 2 Missing\nmalformed 3 1 Extra\ntext 05 x\ntext \ntext a\\x1b\\x5c\ntext hi\\x0d\n"],
    },
    Talk {
        name: "a message as it was spelled",
        steps: &[TalkCue::Hears(&[b"5 bob - - 1 0 1500 0 3 1040515752 host - -  \r\n"])],
        last: None,
        sent: &[],
        printed: &[b"message 5 bob - - 1 0 1500 0 3 1040515752 host - -  \n"],
    },
    Talk {
        name: "a board after a telnet command that looks like a line end",
        steps: &[TalkCue::Hears(&[b"12 eve hi\xff\xfb\n", BOARD, TO_ROLL, END])],
        last: None,
        sent: &[],
        printed: &[b"message 12 eve hi", BOARD, TO_ROLL, LF],
    },
];

static PLAYING: [Talk<'static>; 1] = [Talk {
    name: "a board of one who plays",
    steps: &[TalkCue::Hears(&[READY])],
    last: None,
    sent: &[SENT],
    printed: &[PRINTED],
}];

#[test]
fn a_board_of_one_who_plays_is_printed() {
    assert_talks(&PLAYING);
}

#[test]
fn lines_are_answered_and_printed() {
    assert_talks(&ANSWERED);
}

/// A board that is within another line, and `roll`, which is typed then.
static NOT_SHOWN: [Talk<'static>; 2] = [
    Talk {
        name: "a board that is shouted",
        steps: &[
            TalkCue::Hears(&[WELCOME, END, INFO, END, b"13 eve ", BOARD, TO_ROLL, END]),
            TalkCue::Types(b"roll", &[]),
        ],
        last: None,
        sent: &[SENT],
        printed: &[
            b"message ", WELCOME, LF, b"message ", INFO, LF, b"message 13 eve ", BOARD, TO_ROLL, LF,
            b"refused 5 NoBoard\n",
        ],
    },
    Talk {
        name: "a board after a return",
        steps: &[TalkCue::Hears(&[b"12 eve hi\r", BOARD, TO_ROLL, END]), TalkCue::Types(b"roll", &[])],
        last: None,
        sent: &[],
        printed: &[b"message 12 eve hi\\x0d", BOARD, TO_ROLL, LF, b"refused 3 NotReady\n"],
    },
];

/// A board that is within another line is not shown, so that nothing can be decided on it.
#[test]
fn a_board_within_a_line_is_not_shown() {
    assert_talks(&NOT_SHOWN);
}

static IN_THREE_TURNS: [Talk<'static>; 1] = [Talk {
    name: "a line in three turns",
    steps: &[TalkCue::Hears(&[b"1 ann 10412"]), TalkCue::Hears(&[b"53132 local"]), TalkCue::Hears(&[b"host\r\n"])],
    last: None,
    sent: &[b"set boardstyle 3\r\n"],
    printed: &[b"message 1 ann 1041253132 localhost\n"],
}];

#[test]
fn a_line_may_come_in_three_turns() {
    assert_talks(&IN_THREE_TURNS);
}

/// What is typed, the command that is sent, and the answer.
static TYPED: [(&[u8], &[u8], &[u8]); 19] = [
    (b"dance", b"", b"unknown\n"),
    (b"", b"", b"unknown\n"),
    (b"roll ", b"", b"unknown\n"),
    (b"\xff\x00", b"", b"unknown\n"),
    (b"roll", b"roll\r\n", b"sent roll\n"),
    (b"double", b"double\r\n", b"sent double\n"),
    (b"resign g", b"resign g\r\n", b"sent resign g\n"),
    (b"resign", b"", b"unknown\n"),
    (b"accept", b"", b"refused 8 WrongKind\n"),
    (b"move 24-18", b"", b"refused 8 WrongKind\n"),
    (b"who", b"who\r\n", b"sent who\n"),
    (b"board", b"board\r\n", b"sent board\n"),
    (b"tell bob hi", b"tell bob hi\r\n", b"sent tell bob hi\n"),
    (b"tell b:b hi", b"", b"fault 1 BadName\n"),
    (b"say ", b"", b"fault 2 BadText\n"),
    (b"invite bob 5", b"invite bob 5\r\n", b"sent invite bob 5\n"),
    (b"toggle automove", b"", b"refused 10 NotOn\n"),
    (b"toggle ready", b"toggle ready\r\n", b"sent toggle ready\n"),
    (b"bye", b"bye\r\n", b"sent bye\n"),
];

/// A line is typed when the client is ready, and the server is heard in the same turn.
fn assert_answered(typed: &'static [u8], command: &'static [u8], answer: &'static [u8]) {
    let steps = [TalkCue::Hears(&[READY]), TalkCue::Types(typed, &[b"hi\r\n"])];
    let printed = [PRINTED, answer, b"text hi\n"];
    assert_talk("a typed line", &steps, None, &[SENT, command], &printed);
}

/// Each typed line is answered, whatever it is.
#[test]
fn typed_lines_are_answered() {
    for (typed, command, answer) in &TYPED {
        assert_answered(typed, command, answer);
    }
}

static CONFIRMED: [Talk<'static>; 1] = [Talk {
    name: "a decision that is confirmed",
    steps: &[
        TalkCue::Hears(&[READY]),
        TalkCue::Types(b"roll", &[BOARD, TO_ROLL, END]),
        TalkCue::Types(b"roll", &[BOARD, ROLLED, END]),
    ],
    last: None,
    sent: &[SENT, b"roll\r\n"],
    printed: &[
        PRINTED,
        b"sent roll\n",
        BOARD,
        TO_ROLL,
        b"\nphase RollOrDouble\nrefused 6 Waiting\n",
        BOARD,
        ROLLED,
        b"\nphase Move\nconfirmed roll\n",
    ],
}];

#[test]
fn a_decision_waits_for_its_board() {
    assert_talks(&CONFIRMED);
}

/// A roll that is typed on a connection that is lost then.
static LOST: [Talk<'static>; 2] = [
    Talk {
        name: "a decision that is lost",
        steps: &[TalkCue::Hears(&[READY])],
        last: Some(ScriptedTurn {
            typed: Some(b"roll"),
            heard: &[],
            after: After::End,
            room: 4096,
            kind: Kind::LostWaiting,
        }),
        sent: &[SENT, b"roll\r\n"],
        printed: &[PRINTED, b"sent roll\nlost roll\n"],
    },
    Talk {
        name: "a decision that is lost",
        steps: &[TalkCue::Hears(&[READY])],
        last: Some(ScriptedTurn {
            typed: Some(b"roll"),
            heard: &[],
            after: FAULT,
            room: 4096,
            kind: Kind::LostWaiting,
        }),
        sent: &[SENT, b"roll\r\n"],
        printed: &[PRINTED, b"sent roll\nlost roll\n"],
    },
];

#[test]
fn a_decision_that_waits_is_lost_with_its_connection() {
    assert_talks(&LOST);
}

/// Plays that are typed on a connection that is lost then.
static PLAYS: [Talk<'static>; 2] = [
    Talk {
        name: "a play",
        steps: &[TalkCue::Hears(&[WELCOME, END, INFO, END, GOING_UP, END])],
        last: Some(ScriptedTurn {
            typed: Some(b"move 5-8 8-11 11-14"),
            heard: &[],
            after: FAULT,
            room: 4096,
            kind: Kind::LostWaiting,
        }),
        sent: &[b"set boardstyle 3\r\nboard\r\nmove 5-8 8-11 11-14\r\n"],
        printed: &[
            b"message ",
            WELCOME,
            LF,
            b"message ",
            INFO,
            LF,
            GOING_UP,
            b"\nphase Move\nsent move 5-8 8-11 11-14\nlost move 5-8 8-11 11-14\n",
        ],
    },
    Talk {
        name: "a play",
        steps: &[TalkCue::Hears(&[WELCOME, END, INFO, END, GOING_UP, END])],
        last: Some(ScriptedTurn {
            typed: Some(b"move 20-17 17-14 14-11"),
            heard: &[],
            after: FAULT,
            room: 4096,
            kind: Kind::Lost,
        }),
        sent: &[SENT],
        printed: &[
            b"message ",
            WELCOME,
            LF,
            b"message ",
            INFO,
            LF,
            GOING_UP,
            b"\nphase Move\nrefused 9 IllegalPlay\nlost\n",
        ],
    },
];

/// Plays are typed and printed in the place numbers of the board shown, here that of a player who goes up.
#[test]
fn plays_are_in_the_numbers_of_the_board() {
    assert_talks(&PLAYS);
}

/// The stream fails after each byte of what is sent: what went out is a front, and the lines before are printed.
#[test]
fn each_write_that_fails_ends_the_connection() {
    let wanted: &[u8] = b"set boardstyle 3\r\ntoggle autoboard\r\nboard\r\n";
    for room in 0..wanted.len() {
        let last = ScriptedTurn {
            typed: None,
            heard: &[WELCOME, END, INFO_WITHOUT_BOARDS, END],
            after: QUIET,
            room,
            kind: Kind::Lost,
        };
        let printed: &[&[u8]] = if room < 18 { &[b"lost\n"] } else { &[b"message ", WELCOME, b"\nlost\n"] };
        assert_talk("a write that fails", &[], Some(last), &[&wanted[..room]], printed);
    }
}

/// A turn in which a roll is typed, and the stream takes so many bytes of it.
fn roll_lost(room: usize) -> ScriptedTurn<'static> {
    ScriptedTurn { typed: Some(b"roll"), heard: &[], after: QUIET, room, kind: Kind::LostWaiting }
}

/// The stream fails after each byte of a decision: it is lost, and nothing says that it was sent.
#[test]
fn a_decision_that_is_not_written_is_lost() {
    let command = b"roll\r\n";
    for room in 0..command.len() {
        assert_talk(
            "a decision not written",
            &[TalkCue::Hears(&[READY])],
            Some(roll_lost(room)),
            &[SENT, &command[..room]],
            &[PRINTED, b"lost roll\n"],
        );
    }
}

/// The stream ends, or a read fails, after each byte of a line.
fn assert_cut_off(line: &[u8], after: After) {
    for length in 0..line.len() + 1 {
        assert_lost_after(&line[..length], after);
    }
}

/// The connection is lost after these bytes, which end no line, and nothing else is printed.
fn assert_lost_after(bytes: &[u8], after: After) {
    let last = ScriptedTurn { typed: None, heard: &[bytes], after, room: 4096, kind: Kind::Lost };
    assert_talk("a line that is cut off", &[], Some(last), &[], &[b"lost\n"]);
}

#[test]
fn each_read_that_fails_ends_the_connection() {
    for line in [WELCOME, INFO, OPENING, PLAYER] {
        assert_cut_off(line, After::End);
        assert_cut_off(line, FAULT);
    }
}

/// The kind of a read's error, how the turn ends, and what is printed.
static READ_ERRORS: [(ErrorKind, Kind, &[u8]); 6] = [
    (ErrorKind::WouldBlock, Kind::Quiet, b"text hi\n"),
    (ErrorKind::TimedOut, Kind::Quiet, b"text hi\n"),
    (ErrorKind::NotConnected, Kind::Lost, b"text hi\nlost\n"),
    (ErrorKind::ConnectionAborted, Kind::Lost, b"text hi\nlost\n"),
    (ErrorKind::ConnectionReset, Kind::Lost, b"text hi\nlost\n"),
    (ErrorKind::Interrupted, Kind::Lost, b"text hi\nlost\n"),
];

/// If a read would wait or timed out there is nothing more yet. Each other error ends the connection.
#[test]
fn errors_of_reads_are_told_apart() {
    for (error, kind, printed) in &READ_ERRORS {
        let last =
            ScriptedTurn { typed: None, heard: &[b"hi\r\n"], after: After::Fails(*error), room: 4096, kind: *kind };
        assert_talk("a read that fails", &[], Some(last), &[], &[printed]);
    }
}

/// Whether a turn up to the first board stops after so many printed bytes. The client has heard the lines up to the one
/// that fails, so that it shows the board if the lines before it were printed.
fn is_stopped(before: usize, room: usize) -> bool {
    let mut out = Pipe::new(b"", 1, After::End, room);
    let (kind, is_shown) = turn_to_board(&mut out);
    is_front(kind, out.output(), room) && is_shown == (before <= room)
}

/// How a turn up to the first board ends, and whether the client shows the board then.
fn turn_to_board(out: &mut Pipe<'_>) -> (Kind, bool) {
    let mut seat = TestSeat::open(1000);
    let kind = seat.print_on(out, None, READY, QUIET);
    (kind, seat.client.shown().is_some())
}

/// Whether a turn up to the first board ends so, and prints this, if there is room for so many bytes.
fn is_front(kind: Kind, printed: &[u8], room: usize) -> bool {
    let wanted = if room < PRINTED.len() { Kind::Unprinted } else { Kind::Quiet };
    kind == wanted && PRINTED.get(..room) == Some(printed)
}

/// The writer of the printed lines fails after each byte.
#[test]
fn each_print_that_fails_stops_the_turn() {
    let before = WELCOME.len() + INFO.len() + 2 * b"message \n".len();
    for room in 0..PRINTED.len() + 1 {
        assert_at(is_stopped(before, room), "at ", room, "");
    }
}

/// The server sends a line that is too long, whose end is a board.
fn hear_long_line(seat: &mut TestSeat) {
    let prompts = repeated(b"> ", 8192);
    seat.hear(&[&prompts, BOARD, TO_ROLL, END]);
}

/// A line that was cut is no board.
#[test]
fn a_line_that_is_too_long_is_cut() {
    let mut seat = TestSeat::open(1000);
    hear_long_line(&mut seat);
    seat.assert_did("a line that is cut", &[], &[b"cut \n"]);
    assert!(seat.client.shown().is_none());
}

/// Two turns on one stream: after the first there is more to read, and in the second the stream ends.
fn take_two_turns(seat: &mut TestSeat, line: &Text) {
    let input = joined(&[line.as_slice(), b"\nhi\n"]);
    let mut pipe = Pipe::new(&input, 1, After::End, 0);
    seat.turn_with(&mut pipe, None, Kind::Quiet);
    seat.assert_did("4096 bytes", &[], &[b"text ", line.as_slice(), LF]);
    seat.turn_with(&mut pipe, None, Kind::Lost);
}

/// After 4096 reads a turn is over, though there is more to read.
#[test]
fn a_turn_reads_4096_times() {
    let mut seat = TestSeat::open(1);
    let line = repeated(b"a", 4095);
    take_two_turns(&mut seat, &line);
    let printed = [b"text ", line.as_slice(), b"\ntext hi\nlost\n"];
    seat.assert_did("the rest", &[], &printed);
}

/// What is typed, and what is printed.
static OFFLINE: [(Option<&[u8]>, &[u8]); 7] = [
    (None, b""),
    (Some(b"dance"), b"unknown\n"),
    (Some(b"roll"), b"refused 2 Offline\n"),
    (Some(b"say "), b"refused 2 Offline\n"),
    (Some(b"toggle greedy"), b"refused 2 Offline\n"),
    (Some(b"order roll"), b"refused 2 Offline\n"),
    (Some(b"withdraw roll"), b"refused 2 Offline\n"),
];

/// Whether nothing else is printed in a turn without a connection, and it is quiet.
fn is_answered_offline(typed: Option<&[u8]>, printed: &[u8]) -> bool {
    let mut out = Pipe::new(b"", 1, After::End, 512);
    is_quiet_offline(typed, &mut out) && out.output() == printed
}

/// Whether a turn without a connection is quiet.
fn is_quiet_offline(typed: Option<&[u8]>, out: &mut Pipe<'_>) -> bool {
    let login = Login::new(b"ann", b"secret").expect("it is a login");
    let mut client = Client::new(login);
    let mut directory = Directory::new();
    let none: Option<&mut Pipe<'_>> = None;
    let outcome = exchange(&mut client, &mut directory, none, typed, out);
    matches!(outcome, Ok(Ending::Quiet))
}

#[test]
fn offline_nothing_is_sent() {
    for (typed, printed) in &OFFLINE {
        assert_typed(is_answered_offline(*typed, printed), *typed);
    }
}

/// Message 5 of a player whose name is a number.
fn player_line(number: usize) -> Text {
    let mut buffer = crate::rattle::itoa::Buffer::new();
    let name = buffer.format(number).as_bytes();
    joined(&[b"5 p", name, b" - - 0 0 1500.00 0 0 0 host - -"])
}

/// A directory gets as many players as it may hold.
fn fill(directory: &mut Directory) {
    for number in 0..4096 {
        let line = player_line(number);
        match read_line(&line) {
            Reading::Numbered(message) => directory.note(&message).expect("memory is ample"),
            _ => panic!("it is a message"),
        }
    }
}

#[test]
fn a_directory_that_is_full_says_so() {
    let mut seat = TestSeat::open(1000);
    fill(&mut seat.directory);
    seat.hear(&[b"5 p4096 - - 0 0 1500.00 0 0 0 host - -\r\n5 p7 - - 0 0 1500.00 0 0 0 host - -\r\n"]);
    seat.assert_did(
        "a directory that is full",
        &[],
        &[b"message 5 p4096 - - 0 0 1500.00 0 0 0 host - -\ndirectory 2 Full\n\
            message 5 p7 - - 0 0 1500.00 0 0 0 host - -\n"],
    );
    assert!(seat.directory.len() == 4096);
}

/// Lines of the server that call for commands, and these.
static CALLING: &[u8] = b"1 ann 1041253132 localhost\r\n\
    2 ann 1 0 0 0 0 0 1 1 10 0 1 0 1 1500.00 0 0 0 0 0 UTC\r\n";

static COMMANDS: [&[u8]; 3] = [b"set boardstyle 3\r\n", b"toggle autoboard\r\n", b"board\r\n"];

/// How a turn ends in which two lines of the server call for commands, what the commands are written to, and whether
/// the last line that is printed says that the connection is lost.
struct Came {
    kind: Kind,
    output: FailsOnce,
    says_lost: bool,
}

/// Such a turn, with a line that is typed, if there is one, on a stream that is written to so.
fn came_of(typed: Option<&[u8]>, output: FailsOnce) -> Came {
    let mut seat = TestSeat::open(1000);
    let mut printed = Pipe::new(b"", 1, After::End, 512);
    let mut stream = Stumbles { input: Pipe::new(CALLING, 1000, QUIET, 0), output };
    let kind = seat.turn_on(&mut stream, typed, &mut printed);
    let says_lost = printed.output().ends_with(b"lost\n");
    Came { kind, output: stream.output, says_lost }
}

/// Each command leaves with its line end by one write: one that is typed, and those that the server's lines call for.
#[test]
fn a_command_is_one_write() {
    let came = came_of(Some(b"tell bob hi"), FailsOnce::new(1000, 1000));
    let sent: [&[u8]; 4] = [b"tell bob hi\r\n", COMMANDS[0], COMMANDS[1], COMMANDS[2]];
    let is_sent = came.kind == Kind::Quiet && is_made_of(came.output.output(), &sent);
    assert!(is_sent && came.output.writes() == 4);
}

/// After a write that fails, here after so many that don't, no other is made.
fn assert_sent_before(error: Option<ErrorKind>, before: usize) {
    let came = came_of(None, FailsOnce::of_kind(error, before, 1000));
    let is_front = before <= 3 && is_made_of(came.output.output(), &COMMANDS[..before]);
    let is_lost = came.kind == Kind::Lost && came.says_lost;
    let is_last = came.output.writes() == before.saturating_add(1);
    let is_right = is_lost && is_front && is_last;
    assert_at(is_right, "after ", before, " writes");
}

/// After a write that fails or takes nothing no other is made, though the stream would take it, and also if a signal
/// interrupted it.
#[test]
fn nothing_is_sent_after_a_write_that_fails() {
    for before in 0..COMMANDS.len() {
        assert_sent_before(Some(ErrorKind::BrokenPipe), before);
        assert_sent_before(Some(ErrorKind::Interrupted), before);
        assert_sent_before(None, before);
    }
}

/// A line whose bytes come one a turn.
#[test]
fn a_stream_may_wait_between_any_two_bytes() {
    let mut seat = TestSeat::open(1);
    hear_bytes(&mut seat);
    seat.assert_did("one byte a turn", &[SENT], &[PRINTED]);
}

/// The server sends its lines up to the first board, one byte a turn.
fn hear_bytes(seat: &mut TestSeat) {
    for at in 0..READY.len() {
        seat.hear(&[&READY[at..at + 1]]);
    }
}

/// After a line that can't be printed, here after so many that can, no other is.
fn assert_printed_before(error: Option<ErrorKind>, before: usize) {
    let mut out = FailsOnce::of_kind(error, before, 1000);
    let kind = first_turn_on(&mut out, 1000, Some(b"dance"), READY);
    let is_stopped = kind == Kind::Unprinted && out.writes() == before.saturating_add(1);
    assert_at(is_stopped, "after ", before, " lines");
}

/// After a line that can't be printed no other is, though the writer would take it: after that of a typed line, and
/// after each of the server's lines.
#[test]
fn nothing_is_printed_after_a_print_that_fails() {
    for before in 0..5 {
        assert_printed_before(Some(ErrorKind::BrokenPipe), before);
        assert_printed_before(None, before);
    }
}
