//! Prints what the lines of a saved session on the standard input say has happened: events < SESSION

use fibs::{Events, Lines};
use std::error::Error;
use std::io;

fn main() -> Result<(), Box<dyn Error>> {
    let mut events = Events::new();
    let mut lines = Lines::of(io::stdin().lock());
    let mut number = 0_u64;
    for line in &mut lines {
        let line = line?;
        number += 1;
        if line.cut {
            continue;
        }
        for event in events.hear(&line.reading())? {
            println!("{number} {event:?}");
        }
    }
    Ok(())
}
