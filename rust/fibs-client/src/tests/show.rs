//! The engines over streams in memory.
use super::outcomes::assert_is;
use crate::fibs_engine::fault::EngineFault;
use crate::fibs_engine::stream_fault::StreamFault;
use crate::fibs_show::show::{show, show_portions};
use crate::fibs_test_tools::devices::{Endless, FailsOnce};
use crate::fibs_test_tools::outcome::Outcome;
use crate::fibs_test_tools::pipe::{After, FAULT, Pipe};
use crate::fibs_test_tools::text::{TEXT_ROOM, Text, joined, text_of};

/// A board as the server sends it, up to its fifth field, from there up to its last, and its last.
const FRONT: &[u8] = b"board:You:someplayer:3:0";

static MIDDLE: &[u8] =
    b":1:0:-2:0:0:0:0:5:0:3:0:0:0:-5:5:0:0:0:-3:0:-5:0:0:0:0:2:0:1:6:2:0:0:1:1:1:0:1:-1:0:25:0:0:0:0:2:0:0";

const LAST: &[u8] = b":0";

/// How `show` ends that reads `input` in portions of at most `most` bytes, and what it prints if `room` bytes may be.
fn shown(input: &[u8], most: usize, after: After, room: usize) -> Outcome {
    let mut reader = Pipe::new(input, most, after, 0);
    let mut writer = Pipe::new(b"", 1, After::End, room);
    let ending = show(&mut reader, &mut writer);
    Outcome::new(ending, writer.output(), b"")
}

/// Asserts what `show` prints, however its input is cut.
fn assert_shown(input: &[u8], wanted: &[u8]) {
    for most in [1, 2, 7, 1024, 5000] {
        assert_cut(input, most, wanted);
    }
}

/// The same if it is read in portions of at most so many bytes.
fn assert_cut(input: &[u8], most: usize, wanted: &[u8]) {
    let outcome = shown(input, most, After::End, TEXT_ROOM);
    assert_is("portions", most, &outcome, Ok(0), [wanted, b""]);
}

/// `front`, so many bytes `a`, and `end`.
fn long_line(front: &[u8], count: usize, end: &[u8]) -> Text {
    let mut line = text_of(front);
    for _ in 0..count {
        let _fits = line.try_push(b'a');
    }
    let _fits = line.try_extend_from_slice(end);
    line
}

/// A board line of these parts, with `end` after it.
fn board_line(front: &[u8], last: &[u8], end: &[u8]) -> Text {
    joined(&[front, MIDDLE, last, end])
}

/// What the server sends, and what is printed.
static LINES: [(&[u8], &[u8]); 14] = [
    (b"", b""),
    (b"3", b"unfinished 1\n"),
    (b"\r\n", b"text \n"),
    (b"a\nbc", b"text a\nunfinished 2\n"),
    (b"05 x\n", b"text 05 x\n"),
    (b"20 x\r\n", b"text 20 x\n"),
    (b"a\x1b\r\n", b"text a\\x1b\n"),
    (b"~\x7f \x1f\\\xff\xff\x00\n", b"text ~\\x7f \\x1f\\x5c\\xff\\x00\n"),
    (b"login: > hello\r\r\n", b"text hello\\x0d\n"),
    (b"a\xff\xfb\x01b\xff\xf1c\n\xff\xfb", b"text abc\n"),
    (b"board: a\n", b"malformed 0 2 BadName\n"),
    (b"board:\n", b"malformed 0 2 BadName\n"),
    (b"board:You\n", b"malformed 0 3 Missing\n"),
    (b"board:You:bob:3:x\n", b"malformed 0 5 NotANumber\n"),
];

#[test]
fn shows_each_line() {
    for (input, wanted) in &LINES {
        assert_shown(input, wanted);
    }
}

#[test]
fn shows_boards() {
    let board = board_line(FRONT, LAST, b"\n");
    for end in [b"\n".as_slice(), b"\r\n", b"  \r\n"] {
        assert_shown(&board_line(FRONT, LAST, end), &board);
    }
}

/// The front and the last field of a board that is wrong, and what is printed.
static WRONG: [(&[u8], &[u8], &[u8]); 4] = [
    (FRONT, b"", b"malformed 0 53 Missing\n"),
    (FRONT, b":0:0", b"malformed 0 54 Extra\n"),
    (b"board:You:someplayer:3:-0", LAST, b"malformed 0 5 NotANumber\n"),
    (b"board:You:someplayer:3:-1", LAST, b"malformed 0 5 OutOfRange\n"),
];

#[test]
fn says_what_is_wrong_with_boards() {
    for (front, last, wanted) in &WRONG {
        assert_shown(&board_line(front, last, b"\r\n"), wanted);
    }
}

/// A telnet command inside a field is no part of it, wherever the stream is cut.
#[test]
fn drops_a_telnet_command_inside_a_field() {
    let line =
        b"board:You:someplayer:3:0:1:0:-2:0:0:0:0:5:0:3:0:0:0:-5:5:0:0:0:-3:0:-5:0:0:0:0:2:0:1:6:2:0:0:1:1:1:0:1:-1:0:2\xff\xfb\x015:0:0:0:0:2:0:0:0\r\n";
    assert_shown(line, &board_line(FRONT, LAST, b"\n"));
}

/// A line's front, its length and its end, and the front and the length of what is printed.
static LONG: [(&[u8], usize, &[u8], &[u8], usize); 5] = [
    (b"", 16384, b"\r\n", b"text ", 16384),
    (b"", 16385, b"\r\n", b"cut ", 16384),
    (b"> ", 16384, b"\n", b"cut ", 16382),
    (b"board:", 16384, b"\n", b"cut board:", 16378),
    (b"\n", 16386, b"", b"text \nunfinished 16384", 0),
];

#[test]
fn cuts_long_lines() {
    for (front, count, end, wanted_front, wanted_count) in &LONG {
        let wanted = long_line(wanted_front, *wanted_count, b"\n");
        assert_shown(&long_line(front, *count, end), &wanted);
    }
}

/// Asserts that `show` stops at a device that fails, and what it has printed. The number says which case it is.
fn assert_fails(at: usize, input: &[u8], most: usize, after: After, room: usize, wanted: &[u8]) {
    let outcome = shown(input, most, after, room);
    let ending = Err(EngineFault::Device);
    assert_is("a device", at, &outcome, ending, [wanted, b""]);
}

/// What is read before a read fails, and what is printed.
static BEFORE_A_FAULT: [(&[u8], &[u8]); 6] = [
    (b"", b""),
    (b"a", b""),
    (b"a\n", b"text a\n"),
    (b"a\n\n", b"text a\ntext \n"),
    (b"a\n\nb\\\r", b"text a\ntext \n"),
    (b"a\n\nb\\\r\nc", b"text a\ntext \ntext b\\x5c\n"),
];

#[test]
fn keeps_whole_lines_at_a_failed_read() {
    for (input, wanted) in &BEFORE_A_FAULT {
        for most in [1, 3, 100] {
            assert_fails(input.len(), input, most, FAULT, 512, wanted);
        }
    }
}

#[test]
fn stops_at_a_failed_write() {
    let wanted = b"text a\ntext bc\nunfinished 1\n";
    for room in 0..wanted.len() {
        for most in [1, 100] {
            assert_fails(room, b"a\nbc\nd", most, After::End, room, &wanted[..room]);
        }
    }
}

/// The messages of a session, and what is printed for them.
static MESSAGES: [(&[u8], &[u8]); 9] = [
    (b"login: 1 myself 1041253132 192.168.1.308\r\n", b"message 1 myself 1041253132 192.168.1.308\n"),
    (
        b"> 2 myself 1 1 0 0 0 0 1 1 2396 0 1 0 1 3457.85 0 0 0 0 0 Australia/Melbourne\r\n",
        b"message 2 myself 1 1 0 0 0 0 1 1 2396 0 1 0 1 3457.85 0 0 0 0 0 Australia/Melbourne\n",
    ),
    (
        b"> > 5 someplayer mgnu_advanced - 0 0 1912.15 827 8 1040515752 192.168.143.5 3DFiBs -\r\n",
        b"message 5 someplayer mgnu_advanced - 0 0 1912.15 827 8 1040515752 192.168.143.5 3DFiBs -\n",
    ),
    (b"5 bob - - 1 0 1500 0 3 1040515752 host - -\n", b"message 5 bob - - 1 0 1500.00 0 3 1040515752 host - -\n"),
    (b"12 bob\n", b"message 12 bob\n"),
    (b"12 eve hi\r there\n", b"message 12 eve hi\\x0d there\n"),
    (b"3 x\n", b"malformed 3 1 Extra\n"),
    (b"5 bob\n", b"malformed 5 2 Missing\n"),
    (b"20 x\n", b"text 20 x\n"),
];

#[test]
fn shows_messages() {
    for (input, wanted) in &MESSAGES {
        assert_shown(input, wanted);
    }
}

/// Whether a stream without end is read so often, if it may be no more often, and these lines are printed.
fn is_asked_so_often(reads: u32, lines: &[u8]) -> bool {
    let mut reader = Endless::new();
    let mut writer = Pipe::new(b"", 1, After::End, 512);
    let ending = show_portions(reads, &mut [0; 8], &mut reader, &mut writer);
    ending == Err(StreamFault::Endless) && reader.asked() == reads && writer.output() == lines
}

/// How often a reader without end is asked, and what is printed.
static ASKED: [(u32, &[u8]); 4] =
    [(0, b""), (1, b"text y\n"), (2, b"text y\ntext y\n"), (3, b"text y\ntext y\ntext y\n")];

/// A reader without end gives its bytes as often as it is asked, and no more often.
#[test]
fn asks_a_reader_without_end_so_often() {
    for (reads, lines) in &ASKED {
        let is_asked = is_asked_so_often(*reads, lines);
        assert!(is_asked, "{reads} reads");
    }
}

/// Whether showing a stream stops at a write of at most `most` bytes which fails after so many, and what is written is
/// the front of all.
fn stops(most: usize, before: usize) -> bool {
    let mut reader = Pipe::new(b"a\nbc\nd", 100, After::End, 0);
    let mut writer = FailsOnce::new(before, most);
    let ending = show_portions(1000, &mut [0; 1024], &mut reader, &mut writer);
    let is_front = b"text a\ntext bc\nunfinished 1\n".starts_with(writer.output());
    ending == Err(StreamFault::Writer) && is_front
}

/// After a failed write nothing more is written, though the writer would take it.
#[test]
fn writes_nothing_after_a_failed_write() {
    let wanted = b"text a\ntext bc\nunfinished 1\n";
    for most in [1, 4, 100] {
        for failing in 0..wanted.len().div_ceil(most) {
            let has_stopped = stops(most, failing);
            assert!(has_stopped, "{failing} of {most}");
        }
    }
}

/// How a stream of one line ends.
fn ending_of(after: After, room: usize) -> Result<(), StreamFault> {
    let mut reader = Pipe::new(b"a\n", 1, after, 0);
    let mut writer = Pipe::new(b"", 1, After::End, room);
    show_portions(1000, &mut [0; 1024], &mut reader, &mut writer)
}

/// Each fault of a stream is a fault of the engine.
#[test]
fn says_what_failed() {
    let endings = [ending_of(FAULT, 512), ending_of(After::End, 3), ending_of(After::End, 512)];
    let wanted = [Err(StreamFault::Reader), Err(StreamFault::Writer), Ok(())];
    let are_right = endings == wanted;
    assert!(are_right, "a reader, a writer, and neither");
}

/// Only memory that ran out is that: what fails else is a device.
#[test]
fn memory_that_ran_out_is_no_fault_of_a_device() {
    assert_eq!(StreamFault::Memory.engine_fault(), EngineFault::Memory);
    for fault in [StreamFault::Reader, StreamFault::Endless, StreamFault::Writer] {
        assert_eq!(fault.engine_fault(), EngineFault::Device, "{fault:?}");
    }
}
