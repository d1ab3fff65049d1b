//! Messages, and their words.

use super::super::boards::TO_ROLL;
use super::lines::SETTINGS;
use super::seats::{Cue, assert_shows, assert_wanted, plain_settings, shown};
use crate::fibs_session::{DirectoryFault, PlainFault};
use crate::fibs_wording::environment::Settings;
use crate::fibs_wording::reasons::{append_login_fault, append_unnoted};

/// A line of the server, and what is shown of it.
static LINES: [(&[u8], &str); 23] = [
    (b"1 ann 1041253132 localhost\r\n", "Welcome, ann. Last login: 30 December 2002, 12:58, from localhost.\n"),
    (b"12 bob hi\r\n", "13:07 bob says: hi\n"),
    (b"13 bob Anybody\\?\r\n", "13:07 bob shouts: Anybody\\?\n"),
    (b"15 bob \x1b[2J\r\n", "13:07 bob kibitzes: \\x1b[2J\n"),
    (b"16 bob yes\r\n", "13:07 You say to bob: yes\n"),
    (b"17 hello\r\n", "13:07 You shout: hello\n"),
    (b"9 carol 1041253132 see you\r\n", "carol left a message on 30 December 2002, 12:58: see you\n"),
    (b"10 carol\r\n", "Your message reached carol.\n"),
    (b"7 carol carol logs in.\r\n", "carol logs in.\n"),
    (b"8 carol\r\n", "carol leaves.\n"),
    (b"7 carol hi!\r\n", "hi!\n"),
    (b"9 carol 1041253132 \x1b[2J\r\n", "carol left a message on 30 December 2002, 12:58: \\x1b[2J\n"),
    (
        b"1 a_name_of_more_than_24_bytes_in_all 1041253132 localhost\r\n",
        "Welcome, a_name_of_more_than_24_b. Last login: 30 December 2002, 12:58,\nfrom localhost.\n",
    ),
    (b"1 ann 1042502399 \x1b[2J\r\n", "Welcome, ann. Last login: 13 January 2003, 23:59, from \\x1b[2J.\n"),
    (b"18 hello\r\n", "13:07 You whisper: hello\n"),
    (b"19 hello\r\n", "13:07 You kibitz: hello\n"),
    (b"11 carol\r\n", "Your message is kept for carol.\n"),
    (b"4\r\n", ""),
    (b"5 bob - - 1 0 1623.45 0 0 1 host - -\r\n6\r\n", ""),
    (b"12\r\n", "A message that can't be read: field 1 is missing [12 Missing]\n12\n"),
    (
        b"1 ann 99999999999999999999 localhost\r\n",
        "A message that can't be read: field 2 is out of range [1 OutOfRange]\n1 ann 99999999999999999999 localhost\n",
    ),
    (b"board:\r\n", "A board that can't be read: field 2 is no name or word [0 BadName]\nboard:\n"),
    (b"** You're \xc3\xa9 not playing.\r\n", "** You're \\xc3\\xa9 not playing.\n"),
];

#[test]
fn messages_are_worded() {
    for (line, rows) in &LINES {
        assert_shows(plain_settings(), &[Cue::Hears(line)], rows);
    }
}

/// The first message 2 is in the row that ends the login; another one is told whole.
#[test]
fn settings_that_come_again_are_worded() {
    let rows =
        "You are ann, rated 1500.00, experience 0.\nOn: allowpip autoboard crawford double\n    moreboards notify\n";
    assert_shows(plain_settings(), &[Cue::Hears(SETTINGS)], "");
    assert_shows(plain_settings(), &[Cue::Hears(SETTINGS), Cue::Hears(SETTINGS)], rows);
}

/// What the user says is talk too; a text is not hidden since it begins as one that says no more than the hint.
#[test]
fn what_one_says_oneself_is_kept_and_no_other_text_is_hidden() {
    let shouted = [Cue::Hears(b"17 hello\r\n"), Cue::Types(b"talk")];
    assert_shows(plain_settings(), &shouted, "13:07 You shout: hello\n13:07 You shout: hello\n");
    for text in ["It's your turn, ann!", "It's your turn.", "It's your turn tomorrow."] {
        let line = format!("{text}\r\n");
        assert_shows(plain_settings(), &[Cue::Hears(line.as_bytes())], &format!("{text}\n"));
    }
}

#[test]
fn letters_stand_as_they_are() {
    let settings = Settings { utf8: true, bell: true, ..plain_settings() };
    let line = "12 bob \u{e9}\u{202e}\u{9b}\u{4e2d}\r\n";
    let row = "\x0713:07 bob says: \u{e9}\\xe2\\x80\\xae\\xc2\\x9b\u{4e2d}\n";
    assert_shows(settings, &[Cue::Hears(line.as_bytes())], row);
}

/// Asserts that a board line is shown as it came, below what is wrong with it, if that is said.
fn assert_board(line: &str, fault: Option<&str>) {
    let said = fault.map_or(String::new(), |fault| format!("A board that can't be read: {fault}\n"));
    let sent = format!("{line}\r\n");
    assert_shows(plain_settings(), &[Cue::Hears(sent.as_bytes())], &format!("{said}{line}\n"));
}

/// A field that is missing, one that is wrong, a die of seven, one too many; and too many checkers, of which nothing is
/// said.
#[test]
fn boards_of_every_malformed_kind_are_shown() {
    let board = str::from_utf8(TO_ROLL).expect("it is a text");
    let fields: Vec<&str> = board.split(':').collect();
    for number in 2..=53 {
        let (wrong, fault) = match number {
            2 | 3 => ("n".repeat(65), "is no name or word [0 BadName]"),
            _ => ("x".to_string(), "is no number [0 NotANumber]"),
        };
        if number > 2 {
            let front = fields[..number - 1].join(":");
            assert_board(&front, Some(&format!("field {number} is missing [0 Missing]")));
        }
        assert_board(&with_field(&fields, number, &wrong), Some(&format!("field {number} {fault}")));
    }
    assert_board(&with_field(&fields, 34, "7"), Some("field 34 is out of range [0 OutOfRange]"));
    assert_board(&format!("{board}:0"), Some("field 54 is one too many [0 Extra]"));
    assert_board(&with_field(&fields, 46, "15"), None);
    assert_board(&with_field(&fields, 47, "15"), None);
}

/// The line of these fields, of which one is another.
fn with_field(fields: &[&str], number: usize, field: &str) -> String {
    let mut fields = fields.to_vec();
    fields[number - 1] = field;
    fields.join(":")
}

/// What a terminal obeys, among other bytes that are no text.
const HOSTILE: &[u8] = b"\x1b[2J\x1b]0;title\x07\x9b31m\x08\x0c\x7f\x80\xfe";

/// Where it may be in a line, which has `%` there, and whether the line is shown.
static PLACES: [(&[u8], bool); 9] = [
    (b"%", true),
    (b"12 bob %", true),
    (b"7 bob %", true),
    (b"5 bob% - - 0 0 1 1 1 1 h - -", true),
    (b"5 bob - - 0 0 1 1 1 1 h - %", false),
    (b"1 bob 1 %", true),
    (b"board:%", true),
    (b"board:You:b%:3:0:1:0", true),
    (b"%%%%%%%%%%%%%%%%%%%%%%%%%%%%%%%%%%%%%%%%%%%%%%%%%%%%%%%%%%%%%%%%%%%%%%%%%%%%%%%%%%", true),
];

/// A line of the server with what a terminal obeys in its places.
fn hostile_line(line: &[u8]) -> Vec<u8> {
    let parts: Vec<&[u8]> = line.split(|byte| *byte == b'%').collect();
    let mut sent = parts.join(HOSTILE);
    sent.extend_from_slice(b"\r\n");
    sent
}

/// No byte of it reaches the terminal as it is, whatever line it is in; it is told.
#[test]
fn what_a_terminal_obeys_is_told() {
    for (line, is_shown) in &PLACES {
        let text = shown(plain_settings(), &[], &[Cue::Hears(&hostile_line(line))]);
        let is_harmless = text.bytes().all(|byte| byte == b'\n' || (b' '..=b'~').contains(&byte));
        let is_told = text.contains("\\x1b[2J");
        assert_wanted(is_harmless && is_told == *is_shown, &format!("{text:?} of {line:?}"), "escaped bytes");
    }
}

/// Why somebody can't log in, and why a player finds no place in the list.
#[test]
fn reasons_of_a_login_and_of_a_list_are_their_own() {
    let mut text = Vec::new();
    append_login_fault(PlainFault::BadText, &mut text).expect("memory");
    append_login_fault(PlainFault::TooLong, &mut text).expect("memory");
    append_unnoted(DirectoryFault::Memory, &mut text).expect("memory");
    append_unnoted(DirectoryFault::Full, &mut text).expect("memory");
    let wanted = "A password has printable ASCII characters, at least one, no space. [2 BadText]\
                  A password has at most 64 characters. [3 TooLong]\
                  The list of players lacks one: no memory is left. [1 Memory]\
                  The list of players lacks one: it holds 4096. [2 Full]";
    assert_eq!(String::from_utf8_lossy(&text), wanted);
}

/// With letters beyond ASCII; and a row has one column less than the terminal.
#[test]
fn letters_that_take_room_are_shown() {
    let settings = Settings { utf8: true, columns: 30, ..plain_settings() };
    for (line, row) in [
        ("a \u{ac} b\r\n".as_bytes(), "a \u{ac} b\n"),
        (b"caf\xe9\r\n", "caf\u{e9}\n"),
        ("a \u{1160} b\r\n".as_bytes(), "a \\xe1\\x85\\xa0 b\n"),
        (b"a text of twenty-nine columns\r\n", "a text of twenty-nine columns\n"),
        (b"a text that has thirty columns\r\n", "a text that has thirty\ncolumns\n"),
    ] {
        assert_shows(settings, &[Cue::Hears(line)], row);
    }
    let settings = Settings { colour: true, ..plain_settings() };
    assert_shows(settings, &[Cue::Hears(b"12 bob hi\r\n")], "13:07 bob says: hi\n");
}
