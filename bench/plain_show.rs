//! The behaviour of `fibs show` in plain Rust over std alone, without proofs. `bench/show` compares `fibs show` with
//! it; `bench/assurance` shows lines by it, and reads those of scripts.
//! Built by `rustc -O`; it reads standard input and writes standard output, and its output is that of `fibs show`.

use std::fmt::Write as _;
use std::io::{self, Read, Write};

/// How many bytes of a line are kept.
const LINE_LIMIT: usize = 16_384;

fn main() -> io::Result<()> {
    let mut input = io::stdin().lock();
    let mut output = io::stdout().lock();
    let mut portion = vec![0; 64 * 1024];
    let mut lines = Lines::default();
    let mut text = Vec::with_capacity(128 * 1024);
    loop {
        let count = input.read(&mut portion)?;
        if count == 0 {
            break;
        }
        lines.feed(&portion[..count], |line, cut| show_line(line, cut, &mut text));
        output.write_all(&text)?;
        text.clear();
    }
    lines.show_unfinished(&mut text);
    output.write_all(&text)?;
    output.flush()
}

/// The state of a stream between two bytes: within plain bytes, after 255, or after 255 and one of 251 to 254.
#[derive(Clone, Copy, Default)]
enum Telnet {
    #[default]
    Plain,
    Command,
    Option,
}

/// The unfinished line of a stream: its first bytes, one more than `LINE_LIMIT` if there are more, how many it has in
/// all, and whether the last is a CR.
#[derive(Default)]
pub struct Lines {
    telnet: Telnet,
    kept: Vec<u8>,
    length: usize,
    ends_in_cr: bool,
}

impl Lines {
    /// Takes a piece of the stream, and gives each line that ends in it, with whether it was cut.
    pub fn feed(&mut self, piece: &[u8], mut line: impl FnMut(&[u8], bool)) {
        let mut rest = piece;
        while let Some(&byte) = rest.first() {
            match (self.telnet, byte) {
                (Telnet::Plain, 255) => self.telnet = Telnet::Command,
                (Telnet::Plain, b'\n') => self.end(&mut line),
                (Telnet::Plain, _) => {
                    let run = rest.iter().position(|byte| matches!(byte, b'\n' | 255)).unwrap_or(rest.len());
                    self.take(&rest[..run]);
                    rest = &rest[run..];
                    continue;
                }
                (Telnet::Command, 255) => {
                    self.take(&[255]);
                    self.telnet = Telnet::Plain;
                }
                (Telnet::Command, 251..=254) => self.telnet = Telnet::Option,
                (Telnet::Command | Telnet::Option, _) => self.telnet = Telnet::Plain,
            }
            rest = &rest[1..];
        }
    }

    fn take(&mut self, run: &[u8]) {
        let room = (LINE_LIMIT + 1).saturating_sub(self.kept.len());
        self.kept.extend_from_slice(&run[..run.len().min(room)]);
        self.length += run.len();
        self.ends_in_cr = run.ends_with(b"\r");
    }

    fn end(&mut self, line: &mut impl FnMut(&[u8], bool)) {
        let length = self.length - usize::from(self.ends_in_cr);
        let mut bytes = &self.kept[..length.min(LINE_LIMIT)];
        while let Some(rest) = bytes.strip_prefix(b"login: ").or(bytes.strip_prefix(b"> ")) {
            bytes = rest;
        }
        line(bytes, length > LINE_LIMIT);
        self.kept.clear();
        self.length = 0;
        self.ends_in_cr = false;
    }

    /// What is shown of bytes after the last line.
    pub fn show_unfinished(&self, text: &mut Vec<u8>) {
        let held = self.kept.len().min(LINE_LIMIT);
        if held > 0 {
            text.extend_from_slice(format!("unfinished {held}\n").as_bytes());
        }
    }
}

/// The first wrong field of a line, and what is wrong with it.
pub struct Wrong(usize, &'static str);

pub fn show_line(line: &[u8], cut: bool, text: &mut Vec<u8>) {
    if cut {
        text.extend_from_slice(b"cut ");
        escape(line, text);
    } else if line.starts_with(b"board:") {
        let line = without_trailing_spaces(line);
        match check_board(line) {
            Ok(()) => text.extend_from_slice(line),
            Err(wrong) => malformed(0, wrong, text),
        }
    } else if let Some((number, fields)) = numbered(line) {
        let start = text.len();
        let mut canonical = Vec::with_capacity(line.len() + 8);
        canonical.extend_from_slice(number.to_string().as_bytes());
        match check_message(number, fields, &mut canonical) {
            Ok(()) => {
                text.extend_from_slice(b"message ");
                escape(&canonical, text);
            }
            Err(wrong) => {
                text.truncate(start);
                malformed(number, wrong, text);
            }
        }
    } else {
        text.extend_from_slice(b"text ");
        escape(line, text);
    }
    text.push(b'\n');
}

fn malformed(number: u8, Wrong(field, why): Wrong, text: &mut Vec<u8>) {
    let mut said = String::new();
    let _ = write!(said, "malformed {number} {field} {why}");
    text.extend_from_slice(said.as_bytes());
}

fn escape(bytes: &[u8], text: &mut Vec<u8>) {
    let digits = b"0123456789abcdef";
    for &byte in bytes {
        if (32..=126).contains(&byte) && byte != b'\\' {
            text.push(byte);
        } else {
            let (high, low) = (digits[usize::from(byte >> 4)], digits[usize::from(byte & 15)]);
            text.extend_from_slice(&[b'\\', b'x', high, low]);
        }
    }
}

pub fn without_trailing_spaces(mut line: &[u8]) -> &[u8] {
    while let [front @ .., b' '] = line {
        line = front;
    }
    line
}

pub fn is_name(field: &[u8]) -> bool {
    (1..=64).contains(&field.len()) && field.iter().all(|byte| byte.is_ascii_graphic() && *byte != b':')
}

/// The value of a canonical decimal: `0`, or an optional `-` and digits without leading zero.
pub fn decimal(field: &[u8], least: i128, most: i128) -> Result<i128, &'static str> {
    let digits = field.strip_prefix(b"-").unwrap_or(field);
    let canonical = field == b"0" || matches!(digits, [b'1'..=b'9', rest @ ..] if rest.iter().all(u8::is_ascii_digit));
    if !canonical {
        return Err("NotANumber");
    }
    let size = digits.iter().take(30).fold(0, |sum: i128, digit| 10 * sum + i128::from(digit - b'0'));
    let value = if digits.len() < field.len() { -size } else { size };
    if (least..=most).contains(&value) { Ok(value) } else { Err("OutOfRange") }
}

pub fn check_board(line: &[u8]) -> Result<(), Wrong> {
    let mut count = 0;
    for (at, field) in line.split(|byte| *byte == b':').enumerate() {
        count = at + 1;
        check_board_field(count, field).map_err(|why| Wrong(count, why))?;
    }
    if count < 53 { Err(Wrong(count + 1, "Missing")) } else { Ok(()) }
}

fn check_board_field(at: usize, field: &[u8]) -> Result<(), &'static str> {
    let (least, most) = match at {
        1 => return if field == b"board" { Ok(()) } else { Err("BadName") },
        2 | 3 => return if is_name(field) { Ok(()) } else { Err("BadName") },
        4 | 51..=53 => (0, 9_999),
        5 | 6 => (0, 99_999_999),
        7..=32 => (-15, 15),
        33 | 42 | 43 => (-1, 1),
        34..=37 => (0, 6),
        38 => (1, 1_048_576),
        39..=41 => (0, 1),
        44 | 45 => (0, 25),
        46..=50 => (0, 15),
        _ => return Err("Extra"),
    };
    match (at, decimal(field, least, most)?) {
        (42 | 43, 0) => Err("OutOfRange"),
        (44 | 45, 1..=24) => Err("OutOfRange"),
        _ => Ok(()),
    }
}

/// The number of a numbered line, and what follows it and one space.
pub fn numbered(line: &[u8]) -> Option<(u8, Option<&[u8]>)> {
    let (number, rest) = match line {
        [b'1', ones @ b'0'..=b'9', rest @ ..] => (10 + ones - b'0', rest),
        [ones @ b'1'..=b'9', rest @ ..] => (ones - b'0', rest),
        _ => return None,
    };
    match rest {
        [] => Some((number, None)),
        [b' ', fields @ ..] => Some((number, Some(fields))),
        _ => None,
    }
}

/// The kinds of a message's fields: `n` a name, `f` a flag, `u` a number, `r` a rating, `w` a word, `t` a tail, `x` a
/// text.
fn kinds(number: u8) -> &'static str {
    match number {
        1 => "nuw",
        2 => "nffffffffuffffrffwffw",
        3 | 4 | 6 => "",
        5 => "nnnffruuuwwt",
        7 | 8 | 12..=16 => "nx",
        9 => "nux",
        10 | 11 => "n",
        _ => "x",
    }
}

/// Appends the canonical fields of a message, each after a space.
pub fn check_message(number: u8, fields: Option<&[u8]>, canonical: &mut Vec<u8>) -> Result<(), Wrong> {
    let mut rest = fields;
    if matches!(number, 1..=6 | 10 | 11) {
        rest = rest.map(without_trailing_spaces).filter(|fields| !fields.is_empty());
    }
    for (at, kind) in kinds(number).bytes().enumerate() {
        if kind == b'x' {
            if let Some(text) = rest.filter(|text| !text.is_empty()) {
                canonical.push(b' ');
                canonical.extend_from_slice(text);
            }
            return Ok(());
        }
        let all = rest.ok_or(Wrong(at + 1, "Missing"))?;
        let end = if kind == b't' { None } else { all.iter().position(|byte| *byte == b' ') };
        let field = &all[..end.unwrap_or(all.len())];
        rest = end.map(|end| &all[end + 1..]);
        canonical.push(b' ');
        check_message_field(kind, field, canonical).map_err(|why| Wrong(at + 1, why))?;
    }
    match rest {
        Some(_) => Err(Wrong(kinds(number).len() + 1, "Extra")),
        None => Ok(()),
    }
}

fn check_message_field(kind: u8, field: &[u8], canonical: &mut Vec<u8>) -> Result<(), &'static str> {
    match kind {
        b'n' if !is_name(field) => return Err("BadName"),
        b'w' | b't' if field.is_empty() => return Err("BadName"),
        b'f' => drop(decimal(field, 0, 1)?),
        b'u' => drop(decimal(field, 0, i128::from(u64::MAX))?),
        b'r' => {
            let hundredths = rating(field)?;
            let (whole, part) = (hundredths / 100, hundredths % 100);
            canonical.extend_from_slice(format!("{whole}.{part:02}").as_bytes());
            return Ok(());
        }
        _ => {}
    }
    canonical.extend_from_slice(field);
    Ok(())
}

/// The hundredths of a rating: a canonical decimal, and up to two decimals after a point.
fn rating(field: &[u8]) -> Result<i128, &'static str> {
    let point = field.iter().position(|byte| *byte == b'.');
    let hundredths = match point.map(|point| &field[point + 1..]) {
        None => 0,
        Some([tens @ b'0'..=b'9']) => 10 * i128::from(tens - b'0'),
        Some([tens @ b'0'..=b'9', ones @ b'0'..=b'9']) => 10 * i128::from(tens - b'0') + i128::from(ones - b'0'),
        Some(_) => return Err("NotANumber"),
    };
    let whole = &field[..point.unwrap_or(field.len())];
    if whole.starts_with(b"-") {
        return Err("NotANumber");
    }
    let value = 100 * decimal(whole, 0, i128::MAX / 200)? + hundredths;
    if value <= i128::from(u32::MAX) { Ok(value) } else { Err("OutOfRange") }
}
