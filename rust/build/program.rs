//! What the program is made of.

use crate::eraser::{Plan, erase_all};
use std::collections::BTreeMap;
use std::fs;
use std::path::Path;

/// The crate of the program.
const PROGRAM: &str = "fibs";

/// What the tests share.
const OF_TESTS: &str = "fibs_test_tools";

/// What is written by hand in place of a file.
pub const BY_HAND: &[(&str, &str, &str)] = &[];

/// Where `--version` has its text, what it says of the program that is proved, and what is true of this one.
const VERSION: (&str, &str, &str) = ("fibs_cli/arguments.rs", "(proved with ", "(built from the proved text, ");

/// Erases the program's crates of a repository into a folder. Gives their names.
pub fn erase(root: &Path, out: &Path) -> Result<Vec<String>, String> {
    let list = root.join("crates.txt");
    let text = fs::read_to_string(&list).map_err(|why| format!("{}: {why}", list.display()))?;
    let mut crates = used_by(PROGRAM, &text);
    crates.push(OF_TESTS.into());
    let names: Vec<&str> = crates.iter().map(String::as_str).collect();
    let plan = Plan { crates: &names, by_hand: BY_HAND, contracts: false, attributes };
    erase_all(&root.join("crates"), out, &plan)?;
    say_version(out)?;
    Ok(crates)
}

/// A crate and all that it uses, in the order of crates.txt, whose lines are `NAME: the libraries that it uses`.
fn used_by(program: &str, list: &str) -> Vec<String> {
    let rows = list.lines().filter(|line| !line.starts_with('#')).filter_map(|line| line.split_once(':'));
    let rows: Vec<(&str, Vec<&str>)> = rows.map(|row| (row.0.trim(), row.1.split_whitespace().collect())).collect();
    let uses: BTreeMap<&str, &Vec<&str>> = rows.iter().map(|(name, uses)| (*name, uses)).collect();
    let mut needed = vec![program];
    let mut at = 0;
    while at < needed.len() {
        for used in uses.get(needed[at]).into_iter().copied().flatten() {
            // all others are libraries of the registry
            if uses.contains_key(used) && !needed.contains(used) {
                needed.push(used);
            }
        }
        at += 1;
    }
    rows.iter().filter(|row| needed.contains(&row.0)).map(|row| row.0.to_string()).collect()
}

/// What a module is allowed: items that are not used from here, another style, and one call of C.
fn attributes(name: &str) -> String {
    let of_tests = if name == OF_TESTS { "#[cfg(test)]\n" } else { "" };
    format!("{of_tests}#[allow(dead_code, unused_imports, unused_variables, unused_mut, clippy::all)]")
}

/// Makes `--version` say that this program is not the one that is proved.
fn say_version(out: &Path) -> Result<(), String> {
    let (file, proved, built) = VERSION;
    let path = out.join(file);
    let text = fs::read_to_string(&path).map_err(|why| format!("{}: {why}", path.display()))?;
    if text.matches(proved).count() != 1 {
        return Err(format!("{}: `{proved}` is not there once", path.display()));
    }
    fs::write(&path, text.replace(proved, built)).map_err(|why| format!("{}: {why}", path.display()))
}
