//! Worked streams of a reader of lines, of which more are in `tests/rows`; the line that it lends between its calls, and
//! texts as they are sent.

use crate::fibs_lines::{Line, Lines, sent_line};

/// A board line in pieces of one byte, with a command of telnet between the two digits of field 45.
const IN_PIECES: &[u8] =
    b"board:You:someplayer:3:0:1:0:-2:0:0:0:0:5:0:3:0:0:0:-5:5:0:0:0:-3:0:-5:0:0:0:0:2:0:1:6:2:0:0:1:1:1:0:1:-1:0:2\xff\xfb\x015:0:0:0:0:2:0:0:0\r";

/// The same line without it.
const WHOLE: &[u8] =
    b"board:You:someplayer:3:0:1:0:-2:0:0:0:0:5:0:3:0:0:0:-5:5:0:0:0:-3:0:-5:0:0:0:0:2:0:1:6:2:0:0:1:1:1:0:1:-1:0:25:0:0:0:0:2:0:0:0";

/// As many bytes as a line keeps.
const AS_MANY: &[u8] = &[b'a'; 16_384];

/// One more.
const ONE_MORE: &[u8] = &[b'a'; 16_385];

/// Feeds a piece. Whether all of it is used, and no line ends in it.
fn is_used_without_end(lines: &mut Lines, piece: &[u8]) -> bool {
    let fed = lines.feed(piece);
    fed.used == piece.len() && fed.line.is_none()
}

/// Feeds the bytes one by one. Whether each is used, and no line ends in them.
fn are_used_without_end(lines: &mut Lines, bytes: &[u8]) -> bool {
    for byte in bytes {
        if !is_used_without_end(lines, &[*byte]) {
            return false;
        }
    }
    true
}

/// Feeds a piece. Whether all of it is used, and this line ends in it.
fn ends(lines: &mut Lines, piece: &[u8], line: &Line<'_>) -> bool {
    let fed = lines.feed(piece);
    match &fed.line {
        Some(lent) => fed.used == piece.len() && *lent == *line,
        None => false,
    }
}

/// However a line comes, it is lent whole, and once.
#[test]
fn a_board_line_comes_byte_by_byte() {
    let mut lines = Lines::new();
    let are_used = are_used_without_end(&mut lines, IN_PIECES);
    let wanted = Line { bytes: WHOLE, cut: false };
    let is_lent = ends(&mut lines, b"\n", &wanted);
    assert!(are_used && is_lent, "no end before the last byte, then the line");
}

/// Letters that come before CR LF, and whether the line of them is cut.
static LONG: [(&[u8], bool); 2] = [(AS_MANY, false), (ONE_MORE, true)];

/// A line keeps its first 16,384 bytes.
#[test]
fn a_line_is_cut_at_its_limit() {
    for (letters, cut) in &LONG {
        let mut lines = Lines::new();
        let is_used = is_used_without_end(&mut lines, letters);
        let wanted = Line { bytes: AS_MANY, cut: *cut };
        let is_lent = ends(&mut lines, b"\r\n", &wanted);
        assert!(is_used && is_lent, "{} letters", letters.len());
    }
}

/// A piece, and how much of it is lent from the piece itself as a line.
static LENT_FROM_THE_PIECE: [(&[u8], Option<usize>); 3] =
    [(b"5 a\r\n", Some(5)), (b"5 a\r\nboard", Some(5)), (b"5 a", None)];

/// How much of a piece is lent from it as a line.
fn lent_from(piece: &[u8]) -> Option<usize> {
    let lines = Lines::new();
    Some(lines.whole_line(piece)?.used)
}

/// A line that comes in one piece is lent from the piece.
#[test]
fn a_line_in_one_piece_is_not_copied() {
    for (piece, used) in &LENT_FROM_THE_PIECE {
        assert!(lent_from(piece) == *used, "{piece:?}");
    }
}

/// Texts that are sent, and the line that each is read as, if it has neither LF nor 255.
static SENT: [(&[u8], Option<&[u8]>); 8] = [
    (b"", Some(b"")),
    (b"a", Some(b"a")),
    (b"a\r", Some(b"a\r")),
    (b"a\rb", Some(b"a\rb")),
    (b"> login: 5 a", Some(b"5 a")),
    (b"a\nb", None),
    (b"a\xff\xffb", None),
    (b"\xff\xfb\x01a", None),
];

/// The bytes of the line that a text is read as.
fn bytes_of(text: &[u8]) -> Option<&[u8]> {
    Some(sent_line(text)?.bytes)
}

#[test]
fn texts_as_they_are_sent() {
    for (text, bytes) in &SENT {
        assert!(bytes_of(text) == *bytes, "{text:?}");
    }
}

/// Whether letters are read as the first 16,384 of them, which are cut or not.
fn are_limited(letters: &[u8], cut: bool) -> bool {
    match (sent_line(letters), letters.get(..16384)) {
        (Some(line), Some(bytes)) => line.bytes == bytes && line.cut == cut,
        _ => false,
    }
}

#[test]
fn a_long_text_is_cut() {
    for (count, cut) in &[(16384, false), (16385, true)] {
        let letters = crate::rattle::may::may_from_elem(b'a', *count).expect("memory is ample");
        assert!(are_limited(&letters, *cut), "{count} bytes");
    }
}

/// Pieces as they are fed, and the line that ends in each.
static FED: [(&[u8], Option<Line<'static>>); 3] = [
    (b"one\r\n> two", Some(Line { bytes: b"one", cut: false })),
    (b"> two", None),
    (b"\n", Some(Line { bytes: b"two", cut: false })),
];

/// Whether this line ends in a piece. It is lent by the call, and again until the next one.
fn is_lent(lines: &mut Lines, piece: &[u8], line: Option<Line<'_>>) -> bool {
    lines.feed(piece).line == line && lines.line() == line
}

#[test]
fn the_latest_line_is_lent_again() {
    let mut lines = Lines::default();
    let is_new = lines.line().is_none();
    for (piece, line) in &FED {
        assert!(is_lent(&mut lines, piece, *line), "{piece:?}");
    }
    lines.reset();
    assert!(is_new && lines.line().is_none(), "nothing has come");
}
