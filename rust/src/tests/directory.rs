//! Directories: a worked row, and what the library for C does not show. The rest is in tests/rows and tests/c.

use crate::fibs_messages::directory::{Directory, DirectoryFault};
use crate::fibs_messages::{Reading, read};

/// A directory takes note of a line, if it is a message.
fn note(directory: &mut Directory, line: &[u8]) -> Option<Result<(), DirectoryFault>> {
    match read(line) {
        Reading::Numbered(message) => Some(directory.note(&message)),
        _ => None,
    }
}

/// Whether a directory takes note of a line.
fn takes_note(directory: &mut Directory, line: &[u8]) -> bool {
    matches!(note(directory, line), Some(Ok(())))
}

/// The directory has just these names, in this order.
fn has(directory: &Directory, names: &[&[u8]]) -> bool {
    for (place, name) in names.iter().enumerate() {
        match directory.at(place) {
            Some(player) if player.name.as_slice() == *name => {}
            _ => return false,
        }
    }
    directory.len() == names.len()
}

/// Message 5 of a player.
const ANN: &[u8] = b"5 ann - - 1 0 1500.00 0 3 1040515752 host - -";

/// A message, and the names in the directory after it.
static NOTED: [(&[u8], &[&[u8]]); 6] = [
    (ANN, &[b"ann"]),
    (b"5 bob - - 1 0 1500.00 0 3 1040515752 host - -", &[b"ann", b"bob"]),
    (b"5 ann bob - 0 0 1512.34 5 0 1040515752 host - -", &[b"ann", b"bob"]),
    (b"8 ann ann logs out.", &[b"bob"]),
    (ANN, &[b"bob", b"ann"]),
    (b"8 carl carl logs out.", &[b"bob", b"ann"]),
];

/// Whether note is taken of a message, and the directory has just these names then.
fn is_noted(directory: &mut Directory, line: &[u8], names: &[&[u8]]) -> bool {
    takes_note(directory, line) && has(directory, names)
}

/// Note is taken of each message, and leads to these names.
fn assert_noted(directory: &mut Directory) {
    for (line, names) in &NOTED {
        assert!(is_noted(directory, line, names), "{line:?}");
    }
}

/// A known name keeps its place; one that comes again after its logout goes last.
#[test]
fn names_are_in_the_order_in_which_they_came() {
    let mut directory = Directory::new();
    assert_noted(&mut directory);
}

/// Message 5 of a player whose name has these two bytes, counted from a semicolon.
fn line_of(first: u8, second: u8) -> [u8; 41] {
    let mut line = *b"5 .. - - 1 0 1500 0 3 1040515752 host - -";
    line[2] = b';'.wrapping_add(first);
    line[3] = b';'.wrapping_add(second);
    line
}

/// Note is taken of 64 players whose names have this first byte.
fn note_names(directory: &mut Directory, first: u8) {
    for second in 0..64 {
        let is_noted = takes_note(directory, &line_of(first, second));
        assert!(is_noted, "{first} {second}");
    }
}

/// Note is taken of 4096 players.
fn fill(directory: &mut Directory) {
    for first in 0..64 {
        note_names(directory, first);
    }
}

/// A full directory has 4096 names, and refuses one more, but not a known one.
fn is_full(directory: &mut Directory) -> bool {
    matches!(note(directory, ANN), Some(Err(DirectoryFault::Full)))
        && directory.len() == 4096
        && takes_note(directory, &line_of(0, 7))
}

/// There is room for 4096 names. With ample memory each is taken, and a known one is taken also then.
#[test]
fn a_name_too_many_is_refused() {
    let mut directory = Directory::new();
    fill(&mut directory);
    assert!(is_full(&mut directory), "one more, how many, and a known one");
}

/// Whether a directory is empty at first, and when it was cleared, but not with a player.
fn is_emptied(directory: &mut Directory) -> bool {
    let is_empty = directory.is_empty();
    let has_player = takes_note(directory, ANN) && !directory.is_empty();
    directory.clear();
    is_empty && has_player && directory.is_empty()
}

#[test]
fn a_directory_is_empty_until_a_player_comes() {
    let mut directory = Directory::new();
    assert!(is_emptied(&mut directory));
}

/// Whether faults have their names, and print their sentences, also in a wider place.
fn are_named(memory: DirectoryFault, full: DirectoryFault) -> bool {
    [memory.name(), full.name()] == ["Memory", "Full"]
        && format!("{full:?}, {memory:>15}, {memory:<15}.") == "Full,  memory ran out, memory ran out ."
}

#[test]
fn faults_are_told_by_their_numbers_and_names() {
    let (memory, full) = (DirectoryFault::Memory, DirectoryFault::Full);
    assert!(memory.number() == 1 && full.number() == 2, "numbers");
    assert!(are_named(memory, full), "names");
}
