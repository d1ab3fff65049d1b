//! `surface.txt` has what the crate shows to others: its items, their variants, fields, methods and traits, as they are
//! declared. A change of it is seen, and is to stand in CHANGELOG.md. With `FIBS_WRITE=1` in the environment it is
//! written.

use std::collections::{BTreeMap, BTreeSet};
use std::path::Path;
use std::{env, fs};

/// The files that declare what is shown: those that were erased, and those that are written by hand.
fn files_below(folder: &Path, files: &mut Vec<String>) {
    for entry in fs::read_dir(folder).unwrap() {
        let path = entry.unwrap().path();
        if path.is_dir() && !path.ends_with("tests") && !path.ends_with("fibs_c") {
            files_below(&path, files);
        } else if path.extension().is_some_and(|ending| ending == "rs") {
            files.push(fs::read_to_string(&path).unwrap());
        }
    }
}

/// The names that a list of `use` shows: `a::{B, c}`, without what only the crate sees.
fn names_in(list: &str) -> impl Iterator<Item = String> + '_ {
    let names = list.rsplit_once("::").filter(|(_, last)| !last.contains('}')).map_or(list, |(_, last)| last);
    let names = names.split_once('{').map_or(names, |(_, names)| names);
    names.split(',').map(|name| name.trim_matches(|c: char| !c.is_alphanumeric() && c != '_').to_string())
}

/// A declaration on one line: up to its body.
fn declared(lines: &[&str], at: usize) -> String {
    let mut text = String::new();
    for line in &lines[at..] {
        text += line.trim();
        text.push(' ');
        if line.trim_end().ends_with(['{', ';', '}', ',']) && !text.trim_end().ends_with("(,") || line.contains(" { ") {
            let is_open = text.matches('(').count() > text.matches(')').count();
            if !is_open {
                break;
            }
        }
    }
    text.split(" { ").next().unwrap_or("").trim_end_matches([' ', '{', ';', ',']).to_string()
}

/// The name of the type of a head of `impl`, and the trait, if it has one.
fn implemented(head: &str) -> (String, Option<String>) {
    let rest = head.trim_start_matches("impl").trim_start();
    let rest = if rest.starts_with('<') { rest.split_once("> ").map_or("", |(_, rest)| rest) } else { rest };
    let (name, of) = rest.split_once(" for ").map_or((rest, None), |(of, name)| (name, Some(of.to_string())));
    let name = name.trim_start_matches("crate::").rsplit("::").next().unwrap_or(name);
    (name.split(|c: char| !c.is_alphanumeric() && c != '_').next().unwrap_or("").to_string(), of)
}

fn surface() -> String {
    let root = Path::new(env!("CARGO_MANIFEST_DIR"));
    let (mut erased, mut by_hand) = (Vec::new(), Vec::new());
    files_below(Path::new(env!("OUT_DIR")), &mut erased);
    files_below(&root.join("src"), &mut by_hand);
    let shown: BTreeSet<String> = ["lib.rs", "model.rs"]
        .iter()
        .flat_map(|name| {
            let text = fs::read_to_string(root.join("src").join(name)).unwrap();
            let text: String = text.lines().filter(|line| !line.trim().starts_with("//")).collect();
            let lists: Vec<String> =
                text.split("pub use ").skip(1).filter_map(|t| t.split(';').next()).flat_map(names_in).collect();
            lists
        })
        .chain(["Table".into()])
        .collect();
    let mut found: BTreeMap<String, BTreeSet<String>> = BTreeMap::new();
    // a type that is written by hand stands for that of the text which it has
    let own = |name: &str| by_hand.iter().any(|text| text.contains(&format!("\npub struct {name} {{")));
    let files = erased.iter().map(|text| (text, true)).chain(by_hand.iter().map(|text| (text, false)));
    for (text, is_erased) in files {
        let shown: BTreeSet<&String> = shown.iter().filter(|name| !(is_erased && own(name))).collect();
        let lines: Vec<&str> = text.lines().collect();
        let (mut owner, mut is_shown, mut in_type) = (String::new(), false, false);
        for at in 0..lines.len() {
            let line = lines[at];
            if line.starts_with("impl") {
                let (name, of) = implemented(&declared(&lines, at));
                (owner, is_shown, in_type) = (name, of.is_none(), false);
                if let Some(of) = of.filter(|_| shown.contains(&owner)) {
                    found.entry(owner.clone()).or_default().insert(format!("  is {of}"));
                }
            } else if let Some(rest) =
                ["struct ", "enum ", "fn ", "const ", "type ", "trait "].iter().find_map(|word| {
                    line.strip_prefix("pub ")?.strip_prefix("const ").or(line.strip_prefix("pub "))?.strip_prefix(word)
                })
            {
                owner = rest.split(|c: char| !c.is_alphanumeric() && c != '_').next().unwrap_or("").to_string();
                (is_shown, in_type) = (false, line.contains("struct ") || line.contains("enum "));
                if shown.contains(&owner) {
                    let told =
                        lines[..at].iter().rev().take_while(|line| line.starts_with("#[") || line.starts_with("//"));
                    let told: Vec<&str> = told.copied().filter(|line| line.starts_with("#[")).collect();
                    let entry = found.entry(owner.clone()).or_default();
                    entry.insert(declared(&lines, at));
                    entry.extend(told.iter().map(|line| format!("  {line}")));
                }
            } else if line == "}" {
                (is_shown, in_type) = (false, false);
            } else if shown.contains(&owner) {
                let is_method = is_shown && line.starts_with("    pub fn");
                let is_part = in_type
                    && (line.starts_with("    pub ")
                        || line.starts_with(' ')
                            && line.strip_prefix("    ").is_some_and(|rest| rest.starts_with(char::is_uppercase)));
                if is_method || is_part {
                    found.entry(owner.clone()).or_default().insert(format!("  {}", declared(&lines, at)));
                }
            }
        }
    }
    found
        .into_iter()
        .map(|(name, lines)| format!("{name}\n{}\n", lines.into_iter().map(|l| format!("  {l}\n")).collect::<String>()))
        .collect()
}

#[cfg(all(feature = "model", feature = "serde"))]
#[test]
fn what_the_crate_shows_is_written_down() {
    let (told, file) = (surface(), Path::new(env!("CARGO_MANIFEST_DIR")).join("surface.txt"));
    if env::var_os("FIBS_WRITE").is_some() {
        fs::write(&file, &told).unwrap();
    }
    let stands = fs::read_to_string(&file).unwrap();
    let at = stands.lines().zip(told.lines()).take_while(|(stands, told)| stands == told).count() + 1;
    assert!(stands == told, "surface.txt:{at}: this is not what the crate shows: FIBS_WRITE=1 writes it");
}
