//! The boards of `boards.txt` that tests call by a name.

/// The table of worked boards, which says what each of them is.
pub(crate) const TABLE: &str = include_str!("boards.txt");

/// Whether a text goes on so at a place.
const fn goes_on(text: &[u8], at: usize, wanted: &[u8]) -> bool {
    let mut same = 0;
    while same < wanted.len() && at + same < text.len() && text[at + same] == wanted[same] {
        same += 1;
    }
    same == wanted.len()
}

/// Where the line ends that has this place.
const fn line_end(text: &[u8], mut at: usize) -> usize {
    while text[at] != b'\n' {
        at += 1;
    }
    at
}

/// The line below the first one that begins with a name.
const fn below(name: &str) -> &'static [u8] {
    let text = TABLE.as_bytes();
    let mut at = 0;
    while !goes_on(text, at, name.as_bytes()) {
        at += 1;
        assert!(at < text.len(), "boards.txt has no board of this name");
    }
    let start = line_end(text, at + 1) + 1;
    text.split_at(line_end(text, start)).0.split_at(start).1
}

macro_rules! named {
    ($($name:ident)*) => { $(pub(crate) const $name: &[u8] = below(concat!("\n= ", stringify!($name), ": "));)* };
}

named! {
    TO_ROLL MUST_ROLL ROLLED TO_MOVE DOUBLED TO_ANSWER REJECTED ONE_STEP STEPPED TO_HIT HIT TO_BEAR_OFF BORNE_OFF
    TO_MOVE_UP MOVED_UP PASSING OF_OTHERS TOO_MANY AS_SENT
}

/// How many fields a board has.
pub(crate) const FIELDS: usize = 53;

/// The line as a server sent it, with another text in one field.
pub(crate) fn line_with(field: usize, text: &[u8]) -> Vec<u8> {
    let mut fields: Vec<&[u8]> = AS_SENT.split(|byte| *byte == b':').collect();
    fields[field - 1] = text;
    fields.join(&b':')
}
