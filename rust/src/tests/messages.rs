//! Messages as they are printed, and words and tails by themselves. Worked lines are read in tests/rows.

use crate::fibs_messages::laws::{canonical_lines_read_back, messages_are_well_formed};
use crate::fibs_messages::{Message, Reading, Tail, Word, message_number, print_message, read};
use crate::rattle::alloc::AllocError;
use crate::rattle::may::*;

/// The line of a message, and what is printed for it if that is another line.
pub(crate) type Row = (&'static [u8], &'static [u8]);

const WELCOME: Row = (b"1 myself 1041253132 192.168.1.308", b"");

const OWN_INFO: Row = (b"2 myself 1 1 0 0 0 0 1 1 2396 0 1 0 1 3457.85 0 0 0 0 0 Australia/Melbourne", b"");

const WHO_INFO: Row = (b"5 someplayer mgnu_advanced - 0 0 1912.15 827 8 1040515752 192.168.143.5 3DFiBs -", b"");

const WHO_INFO_RESPELLED: Row =
    (b"5 bob - - 1 0 1500 0 3 1040515752 host - -", b"5 bob - - 1 0 1500.00 0 3 1040515752 host - -");

static PRINTED: [Row; 30] = [
    // Lines of the CLIP specification, which are printed as they came.
    WELCOME,
    OWN_INFO,
    (b"3", b""),
    (b"4", b""),
    WHO_INFO,
    (b"6", b""),
    (b"7 someplayer someplayer logs in.", b""),
    (b"8 someplayer someplayer drops connection.", b""),
    (b"9 someplayer 1041253132 I'll log in at 10pm if you want to finish that game.", b""),
    (b"10 someplayer", b""),
    (b"11 someplayer", b""),
    (b"12 someplayer Do you want to play a game?", b""),
    (b"13 someplayer Anybody for a 5 point match?", b""),
    (b"14 someplayer I think he is using loaded dice  :-)", b""),
    (b"15 someplayer G'Day and good luck from Hobart, Australia.", b""),
    (b"16 someplayer What's this \"G'Day\" stuff you hick?  :-)", b""),
    (b"17 Watch out for someplayer.  He's a Tasmanian.", b""),
    (b"18 Hello and hope you enjoy watching this game.", b""),
    (b"19 Are you sure those dice aren't loaded?", b""),
    // Other spellings.
    WHO_INFO_RESPELLED,
    (b"5 bob - - 1 0 0.5 0 3 1040515752 host -  a b  ", b"5 bob - - 1 0 0.50 0 3 1040515752 host -  a b"),
    (b"5 bob - - 1 0 42949672.95 18446744073709551615 3 0 host - -", b""),
    (b"1 bob 5 host  ", b"1 bob 5 host"),
    (b"3   ", b"3"),
    (b"12 bob", b""),
    (b"12 bob ", b"12 bob"),
    (b"12 bob  x ", b""),
    (b"9 bob 0", b""),
    (b"17", b""),
    (b"17 ", b"17"),
];

/// All of these lines: the first 19 are of the CLIP specification, and are printed as they came.
pub(crate) fn printed() -> &'static [Row; 30] {
    &PRINTED
}

/// How many bytes a word has, and whether it is a dash, if the text is a word.
fn word_of(text: &[u8]) -> Option<(usize, bool)> {
    let word = Word::new(text)?;
    Some((word.bytes().len(), word.is_dash()))
}

/// The same of a tail.
fn tail_of(text: &[u8]) -> Option<(usize, bool)> {
    let tail = Tail::new(text)?;
    Some((tail.bytes().len(), tail.is_dash()))
}

/// Texts, and what is known of each if it is a word, and if it is a tail.
static TEXTS: [(&str, Option<(usize, bool)>, Option<(usize, bool)>); 6] = [
    ("-", Some((1, true)), Some((1, true))),
    ("a:b", Some((3, false)), Some((3, false))),
    ("a b", None, Some((3, false))),
    (" a b", None, Some((4, false))),
    ("a ", None, None),
    ("", None, None),
];

#[test]
fn words_and_tails() {
    for (text, word, tail) in &TEXTS {
        let is_word = word_of(text.as_bytes()) == *word;
        let is_tail = tail_of(text.as_bytes()) == *tail;
        assert!(is_word && is_tail, "{text:?}");
    }
}

/// What is printed for the line of a row.
fn printed_of(row: &Row) -> &'static [u8] {
    if row.1.is_empty() { row.0 } else { row.1 }
}

/// Appends what is printed for the line of a message.
fn append_printed(line: &[u8], out: &mut Vec<u8>) -> Result<(), AllocError> {
    match read(line) {
        Reading::Numbered(message) => print_message(&message, out),
        _ => Ok(()),
    }
}

/// Appends what is printed for each of these lines.
fn append_all(lines: &[Row], out: &mut Vec<u8>) -> Result<(), AllocError> {
    for (line, _) in lines {
        append_printed(line, out)?;
    }
    Ok(())
}

/// Appends what is to be printed for each of these lines.
fn append_wanted(lines: &[Row], out: &mut Vec<u8>) -> Result<(), AllocError> {
    for row in lines {
        out.may_extend_from_slice(printed_of(row))?;
    }
    Ok(())
}

/// Appends what is printed for all lines, and what is to be, again and again.
fn append_often(out: &mut Vec<u8>, wanted: &mut Vec<u8>) -> Result<(), AllocError> {
    for _ in 0..40u32 {
        append_all(printed(), out)?;
        append_wanted(printed(), wanted)?;
    }
    Ok(())
}

/// With ample memory each message is appended, however much is there before it.
#[test]
fn messages_are_appended_one_behind_another() {
    let mut out = Vec::new();
    let mut wanted = Vec::new();
    let appended = append_often(&mut out, &mut wanted);
    assert!(appended.is_ok() && out == wanted);
}

/// Whether what is printed of the message of a line is read back as it.
fn is_read_back(line: &[u8]) -> bool {
    let Reading::Numbered(message) = read(line) else {
        return false;
    };
    messages_are_well_formed(&message);
    match canonical_lines_read_back(line) {
        Reading::Numbered(again) => again == message,
        _ => false,
    }
}

/// What is printed of a message is read back as it.
#[test]
fn a_printed_message_is_read_back() {
    assert!(is_read_back(WHO_INFO.0));
}

/// Lines, and the number with which each begins.
static NUMBERS: [(&[u8], Option<u8>); 9] = [
    (b"12 bob hello", Some(12)),
    (b"123 bob hello", None),
    (b"19", Some(19)),
    (b"190", None),
    (b"1 bob 5 host", Some(1)),
    (b"20 x", None),
    (b"05 x", None),
    (b"1", Some(1)),
    (b"", None),
];

#[test]
fn a_number_ends_at_a_space_or_with_its_line() {
    for (line, number) in &NUMBERS {
        assert_eq!(message_number(line), *number, "{line:?}");
    }
}

/// The settings of message 2, each by the name of its field, as a derived form has them.
#[test]
fn own_info_is_debugged_by_the_names_of_its_fields() {
    let Reading::Numbered(Message::OwnInfo(info)) = read(OWN_INFO.0) else {
        panic!("{OWN_INFO:?}");
    };
    let wanted = format!(
        "OwnInfo {{ name: {:?}, allowpip: true, autoboard: true, autodouble: false, automove: false, away: false, \
         bell: false, crawford: true, double: true, experience: 2396, greedy: false, moreboards: true, moves: false, \
         notify: true, rating: 345785, ratings: false, ready: false, redoubles: {:?}, report: false, silent: false, \
         timezone: {:?} }}",
        info.name, info.redoubles, info.timezone
    );
    assert_eq!(format!("{info:?}"), wanted);
}
