//! What of commands the library for C does not show. Their texts, and lines read as commands, are in tests/rows.

use crate::fibs_commands::{Plain, PlainFault, decision_text, plain_text, read_command, read_plain};
use crate::fibs_position::{Decision, Direction, Stake};

/// Plain commands and their texts.
static PRINTED: [(Plain<'static>, &str); 18] = [
    (Plain::Board, "board"),
    (Plain::Who, "who"),
    (Plain::Say(b"hi"), "say hi"),
    (Plain::Say(b" "), "say  "),
    (Plain::Tell(b"bob", b"hi"), "tell bob hi"),
    (Plain::Shout(b"hi all"), "shout hi all"),
    (Plain::Whisper(b"~"), "whisper ~"),
    (Plain::Kibitz(b"well played"), "kibitz well played"),
    (Plain::Message(b"bob", b"back at 9"), "message bob back at 9"),
    (Plain::Invite(b"bob", None), "invite bob"),
    (Plain::Invite(b"bob", Some(5)), "invite bob 5"),
    (Plain::Invite(b"bob", Some(65535)), "invite bob 65535"),
    (Plain::Join(None), "join"),
    (Plain::Join(Some(b"bob")), "join bob"),
    (Plain::ToggleReady, "toggle ready"),
    (Plain::AutomoveOff, "toggle automove"),
    (Plain::GreedyOff, "toggle greedy"),
    (Plain::Bye, "bye"),
];

/// Whether a plain command has this text.
fn is_printed(plain: &Plain<'_>, text: &str) -> bool {
    match plain_text(plain) {
        Ok(command) => command.as_str() == text,
        Err(_) => false,
    }
}

/// Whether a line is read as this plain command.
fn is_read(line: &[u8], plain: &Plain<'_>) -> bool {
    read_plain(line) == Some(*plain)
}

#[test]
fn plain_commands_are_printed() {
    for (plain, text) in &PRINTED {
        let is_read_back = is_read(text.as_bytes(), plain);
        assert!(is_printed(plain, text) && is_read_back, "{text}");
    }
}

/// Plain commands without a text, and why.
static FAULTY: [(Plain<'static>, PlainFault); 3] = [
    // no line is read as a command with a space in its name
    (Plain::Tell(b"b b", b""), PlainFault::BadName),
    (Plain::Say(b""), PlainFault::BadText),
    (Plain::Say(&[b'a'; 401]), PlainFault::TooLong),
];

#[test]
fn faulty_commands_have_no_text() {
    for (plain, fault) in &FAULTY {
        let is_refused = plain_text(plain).err() == Some(*fault);
        assert!(is_refused, "{fault}");
    }
}

/// Lines, and the stakes that they offer to resign in both directions.
static RESIGNED: [(&[u8], Option<Stake>); 6] = [
    (b"resign n", Some(Stake::Normal)),
    (b"resign g", Some(Stake::Gammon)),
    (b"resign b", Some(Stake::Backgammon)),
    (b"resign x", None),
    (b"resign", None),
    (b"resign ", None),
];

/// Whether a line is read so in this direction.
fn is_resigned(line: &[u8], direction: Direction, stake: Option<Stake>) -> bool {
    match (read_command(line, direction), stake) {
        (Some(Decision::Resign(read)), Some(stake)) => read == stake,
        (None, None) => true,
        _ => false,
    }
}

#[test]
fn resignations_are_read_in_both_directions() {
    for (line, stake) in &RESIGNED {
        let up = is_resigned(line, Direction::Up, *stake);
        let down = is_resigned(line, Direction::Down, *stake);
        assert!(up && down, "{line:?}");
    }
}

/// Faults, and their numbers and names.
static FAULTS: [(PlainFault, &str); 3] =
    [(PlainFault::BadName, "1 BadName"), (PlainFault::BadText, "2 BadText"), (PlainFault::TooLong, "3 TooLong")];

/// Whether a fault has this number and this name. It prints a sentence, by hand.
fn is_told(fault: &PlainFault, told: &str) -> bool {
    format!("{} {}", fault.number(), fault.name()) == told
}

#[test]
fn faults_have_numbers_and_names() {
    for (fault, told) in &FAULTS {
        assert!(is_told(fault, told), "{told}");
    }
}

/// Lines, and the plain commands that they are read as.
static READ: [(&[u8], Plain<'static>); 20] = [
    (b"say", Plain::Say(b"")),
    (b"say ", Plain::Say(b"")),
    (b"say  x", Plain::Say(b" x")),
    (b"say a  b ", Plain::Say(b"a  b ")),
    (b"shout \xff\n", Plain::Shout(b"\xff\n")),
    (b"tell", Plain::Tell(b"", b"")),
    (b"tell ", Plain::Tell(b"", b"")),
    (b"tell bob", Plain::Tell(b"bob", b"")),
    (b"tell bob ", Plain::Tell(b"bob", b"")),
    (b"tell  bob hi", Plain::Tell(b"", b"bob hi")),
    (b"tell bob  hi", Plain::Tell(b"bob", b" hi")),
    (b"tell b:b hi there", Plain::Tell(b"b:b", b"hi there")),
    (b"message bob", Plain::Message(b"bob", b"")),
    (b"invite", Plain::Invite(b"", None)),
    (b"invite ", Plain::Invite(b"", None)),
    (b"invite bob 0", Plain::Invite(b"bob", Some(0))),
    (b"invite bob 65535", Plain::Invite(b"bob", Some(65535))),
    (b"invite  7", Plain::Invite(b"", Some(7))),
    (b"join", Plain::Join(None)),
    (b"join ", Plain::Join(Some(b""))),
];

#[test]
fn lines_are_read_as_plain_commands_by_their_fields() {
    for (line, plain) in &READ {
        assert!(is_read(line, plain), "{line:?}");
    }
}

/// Decisions, and their commands.
static DECISIONS: [(Decision, &str); 7] = [
    (Decision::Roll, "roll"),
    (Decision::Double, "double"),
    (Decision::Accept, "accept"),
    (Decision::Reject, "reject"),
    (Decision::Resign(Stake::Normal), "resign n"),
    (Decision::Resign(Stake::Gammon), "resign g"),
    (Decision::Resign(Stake::Backgammon), "resign b"),
];

/// Whether a decision's command is displayed so.
fn is_displayed(decision: &Decision, text: &str) -> bool {
    let command = decision_text(decision, Direction::Up);
    format!("{command}") == text
}

#[test]
fn commands_are_displayed_as_their_texts() {
    for (decision, text) in &DECISIONS {
        assert!(is_displayed(decision, text), "{text}");
    }
}

#[test]
fn texts_are_equal_where_their_bytes_are() {
    let roll = decision_text(&Decision::Roll, Direction::Down);
    let is_same = roll == decision_text(&Decision::Roll, Direction::Up);
    let is_another = roll != decision_text(&Decision::Double, Direction::Down);
    assert!(is_same && is_another, "one word in both directions, and two words");
}
