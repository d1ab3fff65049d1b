//! The engines that print JSON objects, over streams in memory.
use super::outcomes::assert_is;
use crate::fibs_cli::objects::replay::replay_json;
use crate::fibs_engine::fault::EngineFault;
use crate::fibs_json::plays::plays_json;
use crate::fibs_json::show::show_json;
use crate::fibs_json::told::told_line;
use crate::fibs_test_tools::outcome::Outcome;
use crate::fibs_test_tools::pipe::{After, FAULT, Pipe};

/// An engine of a stream.
#[derive(Clone, Copy)]
enum Engine {
    Show,
    Replay,
}

/// How an engine ends that reads `input` in portions of at most `most` bytes, and what it prints with `room` for it.
fn printed(engine: Engine, input: &[u8], most: usize, after: After, room: usize) -> Outcome {
    let mut reader = Pipe::new(input, most, after, 0);
    let mut writer = Pipe::new(b"", 1, After::End, room);
    let ending = match engine {
        Engine::Show => show_json(&mut reader, &mut writer),
        Engine::Replay => replay_json(&mut reader, &mut writer),
    };
    Outcome::new(ending, writer.output(), b"")
}

/// The lines of a stream, and their objects.
const LINES: &[u8] = b"> a\"\n10 carol\r\nbc";

const SHOWN: &[u8] =
    b"{\"kind\":\"text\",\"line\":\"a\\u0022\",\"line_number\":1,\"offset\":0}\n{\"kind\":\"message\",\"line\":\"10 carol\",\"number\":10,\"message\":\"message_delivered\",\"name\":\"carol\",\"line_number\":2,\"offset\":5}\n{\"kind\":\"unfinished\",\"line\":\"bc\",\"bytes\":2,\"line_number\":3,\"offset\":15}\n";

/// A script of which an event is refused, and its objects.
const SCRIPT: &[u8] =
    b"board:You:bob:5:0:0:0:0:0:0:0:0:0:0:0:0:0:0:0:-2:0:0:0:0:0:0:0:0:0:0:1:0:1:6:5:0:0:1:1:1:0:1:-1:0:25:14:13:0:0:1:0:0:0\nopen\nclick roll\nopen\n";

const REPLAYED: &[u8] =
    b"{\"kind\":\"opened\",\"line\":\"opened 1\",\"connection\":1}\n{\"kind\":\"clicked\",\"line\":\"clicked 1 NotReady\",\"connection\":1,\"refusal\":\"NotReady\"}\n{\"kind\":\"refused\",\"line\":\"refused 2 2 AlreadyOpen\",\"done\":2,\"number\":2,\"reason\":\"AlreadyOpen\"}\n";

/// Asserts what an engine prints, and that it stops at a write that fails, wherever that is.
fn assert_printed(engine: Engine, input: &[u8], status: u8, wanted: &[u8]) {
    for most in [1, 100] {
        for room in 0..wanted.len() {
            let outcome = printed(engine, input, most, After::End, room);
            let ending = Err(EngineFault::Device);
            assert_is("a write fails", room, &outcome, ending, [&wanted[..room], b""]);
        }
        let outcome = printed(engine, input, most, After::End, wanted.len());
        assert_is("all is written", most, &outcome, Ok(status), [wanted, b""]);
    }
}

#[test]
fn prints_objects_up_to_a_failed_write() {
    assert_printed(Engine::Show, LINES, 0, SHOWN);
    assert_printed(Engine::Replay, SCRIPT, 3, REPLAYED);
    assert_printed(Engine::Replay, b"x", 3, b"{\"kind\":\"script\",\"line\":\"script 1\",\"number\":1}\n");
}

/// What is read before a read fails, and what `show_json` has printed by then.
static BEFORE_A_FAULT: [(&[u8], &[u8]); 4] = [
    (b"", b""),
    (b"a", b""),
    (b"a\n", b"{\"kind\":\"text\",\"line\":\"a\",\"line_number\":1,\"offset\":0}\n"),
    (
        b"a\n\nb",
        b"{\"kind\":\"text\",\"line\":\"a\",\"line_number\":1,\"offset\":0}\n{\"kind\":\"text\",\"line\":\"\",\"line_number\":2,\"offset\":2}\n",
    ),
];

#[test]
fn prints_whole_objects_before_a_failed_read() {
    let ending = Err(EngineFault::Device);
    for (input, wanted) in &BEFORE_A_FAULT {
        for most in [1, 3, 100] {
            let outcome = printed(Engine::Show, input, most, FAULT, 512);
            assert_is("a read fails", input.len(), &outcome, ending, [wanted, b""]);
        }
    }
    let outcome = printed(Engine::Replay, SCRIPT, 100, FAULT, 4096);
    assert_is("the read of a script fails", 0, &outcome, ending, [b"", b""]);
}

#[test]
fn prints_no_object_of_plays_after_a_failed_write() {
    let wanted = b"{\"kind\":\"text\",\"line\":\"hi\"}\n";
    for room in 0..wanted.len() + 1 {
        let mut writer = Pipe::new(b"", 1, After::End, room);
        let answer = plays_json(b"hi", &mut writer);
        let ending = if room < wanted.len() { Err(EngineFault::Device) } else { Ok(3) };
        let outcome = Outcome::new(answer, writer.output(), b"");
        assert_is("a write fails", room, &outcome, ending, [&wanted[..room], b""]);
    }
}

/// A word of the command line, and the line that it says.
static SAID: [(&[u8], &[u8]); 10] = [
    (b"", b""),
    (b"board:You:bob", b"board:You:bob"),
    (b"{\"kind\":\"board\",\"line\":\"board:You:bob\",\"player\":\"You\"}", b"board:You:bob"),
    (b"{\"kind\":\"board\",\"line\":\"a}\"}", b"a}"),
    (b"{\"kind\":\"board\",\"line\":\"\"}", b""),
    (b"{\"kind\":\"board\",\"line\":\"a\"", b"{\"kind\":\"board\",\"line\":\"a\""),
    (b"{\"kind\":\"board\",\"line\":\"a}", b"{\"kind\":\"board\",\"line\":\"a}"),
    (b"{\"kind\":\"board\",\"line\":\"\\u0022\"}", b"{\"kind\":\"board\",\"line\":\"\\u0022\"}"),
    (b"{\"kind\":\"board\",\"line\":\"\x7f\"}", b"{\"kind\":\"board\",\"line\":\"\x7f\"}"),
    (b"{\"kind\":\"cut\",\"line\":\"a\"}", b"{\"kind\":\"cut\",\"line\":\"a\"}"),
];

#[test]
fn the_object_of_a_board_says_its_line() {
    for (word, line) in &SAID {
        let said = told_line(word);
        assert_eq!(said, *line, "{}", String::from_utf8_lossy(word));
    }
}
