//! Counts the lines of a saved session on the standard input by what they are: count < SESSION

use fibs::{Lines, Reading};
use std::io;

fn main() -> io::Result<()> {
    let (mut texts, mut messages, mut boards, mut malformed) = (0_u64, 0_u64, 0_u64, 0_u64);
    let mut lines = Lines::of(io::stdin().lock());
    for line in &mut lines {
        match line?.reading() {
            Reading::Text(_) => texts += 1,
            Reading::Numbered(_) => messages += 1,
            Reading::Board(_) => boards += 1,
            Reading::Malformed { .. } => malformed += 1,
        }
    }
    println!("texts {texts}, messages {messages}, boards {boards}, malformed {malformed}");
    println!("{} bytes of a line that has not ended", lines.unfinished().len());
    Ok(())
}
