//! Changed lines through `show` of a program, by the million, and through bench/plain_show.rs. See `lines.py`.
//!
//! `lines make SEED COUNT < LINES` prints COUNT lines, each made of one of LINES; the same seed makes the same ones.
//! `lines compare PROGRAM SEED COUNT FOLDER < LINES` gives them to PROGRAM, and prints how often each kind of line is in
//! what it prints, or, with status 1, the first line of which it prints something else. Files are written in FOLDER.
//! Built by `rustc -O`.

#[allow(dead_code)]
mod chance;
#[path = "../plain_show.rs"]
#[allow(dead_code)]
mod plain_show;

use chance::Chance;
use std::collections::BTreeMap;
use std::env;
use std::fs::{self, File};
use std::io::{self, Read, Write};
use std::process::{exit, Command};

/// Numbers at an end of some range, and texts that are nearly numbers.
const NUMBERS: [&[u8]; 40] = [
    b"0", b"1", b"-1", b"-0", b"+1", b"01", b"", b"2", b"4", b"6", b"7", b"15", b"16", b"-15", b"-16", b"24", b"25",
    b"26", b"9999", b"10000", b"99999999", b"100000000", b"1048576", b"1048577", b"4294967295", b"4294967296",
    b"18446744073709551615", b"18446744073709551616", b"-18446744073709551616", b"00", b"-01", b"1.0", b"0x1", b"1e3",
    b"1500.5", b"42949672.95", b"42949672.96", b"1.505", b"-", b"You",
];

/// What is put between two bytes: commands of telnet, prompts, CR, and bytes that are not printed.
const PIECES: [&[u8]; 20] = [
    b"\xff\xfb\x01", b"\xff\xfe\n", b"\xff\xff", b"\xff", b"\xff\xf1", b"\xff\n", b"\xff\xfd\xff", b"\r", b"> ",
    b"login: ", b" ", b":", b"\xff\xfa\x18\x01\xff\xf0", b"\xff\r", b"\0", b"\x7f", b"\x80", b"\\", b"~", b"-",
];

/// The ends of lines; of four in five lines it is LF or CR LF.
const ENDS: [&[u8]; 20] = [
    b"\n", b"\r\n", b"\n", b"\r\n", b"\n", b"\r\n", b"\n", b"\r\n", b"\n", b"\r\n", b"\n", b"\r\n", b"\n", b"\r\n",
    b"\n", b"\r\n", b"\r\r\n", b"\xff\xf1\n", b" \r\n", b"\xff\xfb\n",
];

/// How long a line is made now and then: the limit, and beside it.
const LENGTHS: [usize; 5] = [16_383, 16_384, 16_385, 16_390, 20_000];

/// Of how many lines one is made so long.
const LONG_IN: usize = 200_000;

/// A line that is changed, and what is used again for each.
struct Maker<'a> {
    chance: Chance,
    lines: Vec<&'a [u8]>,
    line: Vec<u8>,
    /// The ends of the line's fields: that of one and the beginning of the next have one byte between them.
    ends: Vec<usize>,
    field: Vec<u8>,
}

impl<'a> Maker<'a> {
    fn new(seed: u64, text: &'a [u8]) -> Maker<'a> {
        let lines = text.split(|byte| *byte == b'\n').collect();
        Maker { chance: Chance::new(seed, 8), lines, line: Vec::new(), ends: Vec::new(), field: Vec::new() }
    }

    /// Replaces a part of the line.
    fn put(&mut self, from: usize, to: usize, with: &[u8]) {
        let old = self.line.len();
        let (line, new) = (&mut self.line, old + with.len() - (to - from));
        line.resize(new.max(old), 0);
        line.copy_within(to..old, from + with.len());
        line[from..from + with.len()].copy_from_slice(with);
        line.truncate(new);
    }

    fn find_fields(&mut self) {
        let (line, ends) = (&self.line, &mut self.ends);
        let separator = if line.starts_with(b"board:") { b':' } else { b' ' };
        ends.clear();
        ends.extend((0..line.len()).filter(|at| line[*at] == separator));
        ends.push(line.len());
    }

    /// The beginning and the end of one of the fields.
    fn some_field(&mut self) -> (usize, usize) {
        let at = self.chance.below(self.ends.len());
        (if at == 0 { 0 } else { self.ends[at - 1] + 1 }, self.ends[at])
    }

    /// Changes a field: it goes, is doubled, goes elsewhere, becomes a number at an end of a range, or gets a byte more.
    fn change_field(&mut self) {
        self.find_fields();
        let (from, to) = self.some_field();
        let (next, past) = self.some_field();
        match self.chance.below(7) {
            0 => self.put(from.saturating_sub(1), to, b""),
            1 => self.put_field((from, to), (from, from), b":"),
            2 => self.put_field((next, past), (from, to), b""),
            3 | 4 => {
                let number = self.chance.one(&NUMBERS);
                self.put(from, to, number);
            }
            5 => {
                let piece = self.chance.one(&PIECES);
                self.put(to, to, piece);
            }
            _ => self.line.truncate(to),
        }
    }

    /// Puts what a field holds, with more behind it, in the place of a part of the line.
    fn put_field(&mut self, (from, to): (usize, usize), place: (usize, usize), more: &[u8]) {
        let mut field = std::mem::take(&mut self.field);
        field.clear();
        field.extend_from_slice(&self.line[from..to]);
        field.extend_from_slice(more);
        self.put(place.0, place.1, &field);
        self.field = field;
    }

    /// Changes a byte, or puts a piece between two.
    fn change_byte(&mut self) {
        let at = self.chance.below(self.line.len() + 1);
        match self.chance.below(5) {
            0 if at < self.line.len() => self.line[at] ^= 1 << self.chance.below(8),
            1 if at < self.line.len() => drop(self.line.remove(at)),
            2 => {
                let piece = self.chance.one(&PIECES);
                self.put(at, at, piece);
            }
            3 => {
                let piece = self.chance.one(&PIECES);
                self.put(0, 0, piece);
            }
            _ => {
                let byte = self.chance.next() as u8;
                self.line.insert(at, byte);
            }
        }
    }

    /// Its first part, and the last part of another line.
    fn change_halves(&mut self) {
        let other = self.lines[self.chance.below(self.lines.len())];
        self.line.truncate(self.chance.below(self.line.len() + 1));
        self.line.extend_from_slice(&other[self.chance.below(other.len() + 1)..]);
    }

    /// A line made of one of these: three in four are changed, mostly once, up to six times; some are two halves.
    fn make(&mut self, text: &mut Vec<u8>) {
        self.line.clear();
        self.line.extend_from_slice(self.lines[self.chance.below(self.lines.len())]);
        if self.chance.below(LONG_IN) == 0 {
            self.line.resize(LENGTHS[self.chance.below(LENGTHS.len())], b' ');
        }
        if self.chance.below(4) > 0 {
            let most = 1 + self.chance.below(6);
            for _ in 0..=self.chance.below(most) {
                match self.chance.below(8) {
                    0..=3 => self.change_field(),
                    4..=6 => self.change_byte(),
                    _ => self.change_halves(),
                }
            }
        }
        text.extend_from_slice(&self.line);
        text.extend_from_slice(self.chance.one(&ENDS));
    }
}

/// So many lines made of those of the standard input.
fn make_all(seed: u64, count: usize) -> io::Result<Vec<u8>> {
    let (mut first, mut text) = (Vec::new(), Vec::with_capacity(count * 80));
    io::stdin().read_to_end(&mut first)?;
    let mut maker = Maker::new(seed, &first);
    for _ in 0..count {
        maker.make(&mut text);
    }
    Ok(text)
}

/// What the plain program shows of these lines.
fn plain(text: &[u8]) -> Vec<u8> {
    let (mut lines, mut shown) = (plain_show::Lines::default(), Vec::with_capacity(text.len()));
    for portion in text.chunks(1 << 16) {
        lines.feed(portion, |line, cut| plain_show::show_line(line, cut, &mut shown));
    }
    lines.show_unfinished(&mut shown);
    shown
}

/// How often each kind of line was printed.
#[derive(Default)]
struct Seen {
    counts: BTreeMap<Vec<u8>, u64>,
    kind: Vec<u8>,
}

impl Seen {
    /// Counts a line by its first word, and a message by its number; a malformed line by its number and its fault.
    fn add(&mut self, line: &[u8]) {
        let mut words = line.split(|byte| *byte == b' ');
        let first = words.next().unwrap_or_default();
        let is_board = first.starts_with(b"board:");
        self.kind.clear();
        self.kind.extend_from_slice(if is_board { b"board" } else { first });
        if first == b"message" || first == b"malformed" {
            self.kind.push(b' ');
            self.kind.extend_from_slice(words.next().unwrap_or_default());
        }
        if first == b"malformed" {
            self.kind.push(b' ');
            self.kind.extend_from_slice(words.nth(1).unwrap_or_default());
        }
        match self.counts.get_mut(&self.kind) {
            Some(count) => *count += 1,
            None => drop(self.counts.insert(self.kind.clone(), 1)),
        }
    }
}

/// Lines, and their number from 1.
fn lines_of(text: &[u8]) -> impl Iterator<Item = &[u8]> {
    text.split_inclusive(|byte| *byte == b'\n')
}

fn compare(program: &str, seed: u64, count: usize, folder: &str) -> io::Result<()> {
    let (given, printed) = (format!("{folder}/{seed}.in"), format!("{folder}/{seed}.out"));
    let text = make_all(seed, count)?;
    File::create(&given)?.write_all(&text)?;
    let out = File::create(&printed)?;
    let status = Command::new(program).arg("show").stdin(File::open(&given)?).stdout(out).status()?;
    let (wanted, found) = (plain(&text), fs::read(&printed)?);
    fs::remove_file(&given)?;
    fs::remove_file(&printed)?;
    if wanted != found || !status.success() {
        let at = lines_of(&wanted).zip(lines_of(&found)).take_while(|(one, other)| one == other).count();
        let told = |shown| lines_of(shown).nth(at).map(|line| line[..line.len().min(300)].escape_ascii().to_string());
        println!("{status}, line {}: {:?}, and not {:?}", at + 1, told(&found), told(&wanted));
        exit(1);
    }
    let mut seen = Seen::default();
    lines_of(&found).for_each(|line| seen.add(line.strip_suffix(b"\n").unwrap_or(line)));
    for (kind, count) in seen.counts {
        println!("{count} {}", String::from_utf8_lossy(&kind));
    }
    Ok(())
}

fn main() {
    let words: Vec<String> = env::args().skip(1).collect();
    let words: Vec<&str> = words.iter().map(String::as_str).collect();
    let done = match words[..] {
        ["make", seed, count] => match (seed.parse(), count.parse()) {
            (Ok(seed), Ok(count)) => make_all(seed, count).and_then(|text| io::stdout().write_all(&text)),
            _ => exit(2),
        },
        ["compare", program, seed, count, folder] => match (seed.parse(), count.parse()) {
            (Ok(seed), Ok(count)) => compare(program, seed, count, folder),
            _ => exit(2),
        },
        _ => exit(2),
    };
    if let Err(why) = done {
        eprintln!("lines: {why}");
        exit(1);
    }
}
