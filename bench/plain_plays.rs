//! The plays of boards in plain Rust over std alone, without proofs: what `fibs_bench plays` counts. `bench/table`
//! compares the two. The rules are those of `plain_rules.rs`.
//! Built by `rustc -O`; it reads board lines with their dice on standard input and prints how many plays they have, one
//! for each arrangement of checkers that a legal play reaches. With the argument `list` it prints the plays too, in the
//! player's own numbering, the greatest first.

#[allow(dead_code)]
mod plain_rules;

use plain_rules::{Checkers, Plays, BAR, OFF};
use std::io::{self, Read, Write};

/// A number of a field.
fn number(field: &[u8]) -> i32 {
    let (sign, digits) = field.strip_prefix(b"-").map_or((1, field), |digits| (-1, digits));
    sign * digits.iter().fold(0, |value, digit| value * 10 + i32::from(digit - b'0'))
}

fn main() -> io::Result<()> {
    let listed = std::env::args().nth(1).is_some_and(|word| word == "list");
    let mut input = Vec::new();
    io::stdin().lock().read_to_end(&mut input)?;
    let mut output = io::BufWriter::new(io::stdout().lock());
    let mut plays = Plays::new();
    let mut count = 0;
    let mut fields = [0; 53];
    for line in input.split(|byte| *byte == b'\n').filter(|line| !line.is_empty()) {
        for (value, field) in fields[3..].iter_mut().zip(line.split(|byte| *byte == b':').skip(3)) {
            *value = number(field);
        }
        let mut start = Checkers { own: [0; 26], other: [0; 26] };
        for place in 1..=24 {
            let own_place = if fields[42] == -1 { place } else { 25 - place };
            let checkers = fields[6 + place] * fields[41];
            let side = if checkers > 0 { &mut start.own } else { &mut start.other };
            side[own_place] = checkers.unsigned_abs() as u8;
        }
        start.own[OFF] = fields[45] as u8;
        start.own[BAR] = fields[47] as u8;
        plays.list(&start, [fields[33], fields[34]]);
        count += plays.found.len();
        if listed {
            for (_, play) in &plays.found {
                let steps: Vec<_> = play.steps().iter().map(|(a, b)| format!("{a}-{b}")).collect();
                writeln!(output, "{}", steps.join(" "))?;
            }
        }
    }
    writeln!(output, "{count}")
}
