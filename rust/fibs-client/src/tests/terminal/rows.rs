//! Rows that are broken or cut: by the columns that their letters take, and between letters.

use crate::fibs_picture::in_words::append_rows_of;
use crate::fibs_wording::environment::broken::{break_at_spaces, front_of};

/// Texts, the columns that they may take, and the rows that are made of them.
static BROKEN: [(&str, usize, &str); 6] = [
    ("one two three", 8, "one two\nthree"),
    ("aaaa bbbbb cc ddd", 8, "aaaa\nbbbbb cc\nddd"),
    ("\u{e9}\u{e9}\u{e9} two three", 8, "\u{e9}\u{e9}\u{e9} two\nthree"),
    // the first byte and the last that can go on with a letter
    ("\u{c0}\u{ff} a two three", 8, "\u{c0}\u{ff} a two\nthree"),
    ("\u{65e5}\u{672c} \u{8a9e}", 6, "\u{65e5}\u{672c}\n\u{8a9e}"),
    ("\u{65e5}\u{672c} \u{8a9e}", 7, "\u{65e5}\u{672c} \u{8a9e}"),
];

#[test]
fn a_row_is_broken_by_the_columns_of_its_letters() {
    for (text, columns, rows) in &BROKEN {
        let mut broken = text.as_bytes().to_vec();
        break_at_spaces(0, *columns, &mut broken);
        assert_eq!(broken.as_slice(), rows.as_bytes(), "{text} in {columns} columns");
    }
}

/// A byte that begins no letter takes a column, and so does each after it.
#[test]
fn a_byte_that_is_no_letter_takes_a_column() {
    let mut broken = b"aaaa \xc0\xc0\xc0 b".to_vec();
    break_at_spaces(0, 8, &mut broken);
    assert_eq!(broken.as_slice(), b"aaaa \xc0\xc0\xc0\nb");
}

/// Texts of the terminal's own words, the columns that they may take, and the rows that are made of them.
static OWN_ROWS: [(&str, usize, &str); 8] = [
    ("", 8, ""),
    ("one two three", 8, "one two\n three\n"),
    ("one two three\n", 8, "one two\n three\n"),
    ("one\ntwo three four\n\n", 8, "one\ntwo\n three\n four\n\n"),
    ("  one two", 4, " \n one\n two\n"),
    ("incomprehensibilities", 8, "incomprehensibilities\n"),
    ("an incomprehensibility", 8, "an\n incomprehensibility\n"),
    ("one two", 7, "one two\n"),
];

#[test]
fn what_goes_on_of_a_row_begins_with_its_space() {
    for (text, columns, rows) in &OWN_ROWS {
        let mut said = b"before\n".to_vec();
        append_rows_of(text.as_bytes(), *columns, &mut said).unwrap();
        assert_eq!(said, [b"before\n", rows.as_bytes()].concat(), "{text:?} in {columns} columns");
    }
}

/// Texts, how many bytes of them are wanted at most, and what is cut off.
static CUT: [(&str, usize, &str); 5] = [
    ("caf\u{e9}", 5, "caf\u{e9}"),
    ("caf\u{e9}", 4, "caf"),
    ("caf\u{e9}", 3, "caf"),
    ("\u{1f3b2}", 3, ""),
    ("six", 9, "six"),
];

#[test]
fn no_letter_is_cut() {
    for (text, most, front) in &CUT {
        assert_eq!(front_of(text.as_bytes(), *most), front.as_bytes(), "{most} bytes of {text}");
    }
}
