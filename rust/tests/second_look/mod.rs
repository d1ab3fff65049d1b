//! A second look at the eraser, by another way: it compares lines, and knows no token and no form but how a proof
//! begins and the rules of `rules.rs`.
//!
//! What is erased is to have the lines of the source that lie in no proof, as the rules make them. Each line that
//! differs is printed, but for comments: with `-` if it is one of those, with `+` if the erased text has it.

mod rules;

use rules::{BODILESS, Counts, INSIDE, count, is_code, made};

use std::collections::{HashMap, HashSet};
use std::fs;
use std::path::{Path, PathBuf};

/// How a line begins that belongs to a proof; its brackets are closed where the proof ends.
const PROOFS: &[&str] =
    &["ghost ", "pub ghost ", "requires", "ensures", "#[tactic", "#![tactic", "#[derive(Drop)]", "impl Model for"];

/// Crates that are erased together into a folder, and what is written by hand in place of a file.
pub struct Build {
    pub folder: PathBuf,
    pub crates: Vec<String>,
    pub by_hand: &'static [(&'static str, &'static str, &'static str)],
}

/// How often each rule made another line of the sources, the lines that no rule makes, and what is written by hand. A
/// file that two builds have alike is looked at once.
pub fn changed(crates: &Path, builds: &[Build]) -> String {
    let (mut told, mut by_hand, mut counts, mut seen) = (String::new(), String::new(), Counts::new(), HashSet::new());
    for (build, name) in builds.iter().flat_map(|build| build.crates.iter().map(move |name| (build, name))) {
        let source = crates.join(name).join("src");
        for path in sources(&source) {
            let file = path.strip_prefix(&source).unwrap().with_extension("");
            let shown = format!("{name}/src/{}.rt:\n", file.display()).replace('\\', "/");
            let is_by_hand = build.by_hand.iter().any(|row| row.0 == name && file == Path::new(row.1));
            let file = if matches!(file.to_str(), Some("lib" | "main")) { "mod".into() } else { file };
            let new = fs::read_to_string(build.folder.join(name).join(file).with_extension("rs")).unwrap();
            let new: Vec<String> =
                new.lines().filter(|line| is_code(line)).map(|line| line.trim_end().into()).collect();
            if is_by_hand {
                by_hand += &(shown + &if new.is_empty() { "  nothing\n".into() } else { differing(&[], &new) });
            } else if seen.insert((path.clone(), new.clone())) {
                let old = made(name, kept(&fs::read_to_string(&path).unwrap(), &mut counts), &mut counts);
                let lines = differing(&old, &new);
                told += &if lines.is_empty() { lines } else { shown + &lines };
            }
        }
    }
    let rules: String = counts.iter().map(|(rule, count)| format!("{count:5} {rule}\n")).collect();
    format!(
        "How often each rule makes another line of one of the sources, but for paths:\n{rules}\nLines that no rule makes:\n{told}\n\
         What is written by hand in place of a file:\n{by_hand}"
    )
}

fn sources(folder: &Path) -> Vec<PathBuf> {
    let mut found: Vec<PathBuf> = fs::read_dir(folder).unwrap().map(|entry| entry.unwrap().path()).collect();
    found.sort();
    let (folders, files): (Vec<_>, Vec<_>) = found.into_iter().partition(|path| path.is_dir());
    let files = files.into_iter().filter(|path| path.extension().is_some_and(|end| end == "rt"));
    files.chain(folders.iter().flat_map(|folder| sources(folder))).collect()
}

/// The lines of a source that are in no proof. A bracket that stands alone after clauses ends the line before them.
fn kept(source: &str, counts: &mut Counts) -> Vec<String> {
    let (mut lines, mut open, mut is_proof, mut is_clause) = (Vec::<String>::new(), 0, false, false);
    for line in source.lines().map(str::trim_end).filter(|line| !line.is_empty()) {
        let text = line.trim_start();
        if open == 0 {
            let was_clause = is_proof && !line.starts_with('#');
            is_proof = PROOFS.iter().any(|begins| text.starts_with(begins));
            is_clause = ["requires", "ensures"].iter().any(|begins| text.starts_with(begins));
            let function = lines.iter_mut().rev().find(|line| line.contains("fn "));
            if text.starts_with("requires")
                && let Some(name) = function.filter(|line| line.starts_with("    pub fn "))
            {
                count(counts, INSIDE);
                *name = name.replacen("pub ", "pub(crate) ", 1);
            }
            if was_clause && matches!(text, "{" | "{}") {
                while lines.last().is_some_and(|last| last.trim_start().starts_with("// ")) {
                    lines.pop();
                }
                *lines.last_mut().unwrap() += &format!(" {text}");
                continue;
            }
        }
        if is_proof {
            let unquoted = text.split('"').step_by(2).flat_map(str::chars);
            let marked = |marks: [char; 3]| unquoted.clone().filter(|c| marks.contains(c)).count() as i64;
            open += marked(['(', '[', '{']) - marked([')', ']', '}']);
            if is_clause && open == 0 && text.ends_with(';') {
                count(counts, BODILESS);
                *lines.last_mut().unwrap() += ";";
            }
        } else {
            lines.push(line.into());
        }
    }
    lines
}

/// The lines that only one has, in order.
fn differing(old: &[String], new: &[String]) -> String {
    let ids: HashMap<&String, usize> = old.iter().chain(new).zip(0..).collect();
    let (a, b): (Vec<_>, Vec<_>) =
        (old.iter().map(|line| ids[line]).collect(), new.iter().map(|line| ids[line]).collect());
    // the length of the longest common part of what follows each pair of places, after the lines at which both begin
    let same = a.iter().zip(&b).take_while(|(a, b)| a == b).count();
    let mut common = vec![vec![0_u32; b.len() + 1]; a.len() + 1];
    for i in (same..a.len()).rev() {
        let (rows, below) = common.split_at_mut(i + 1);
        let (row, below) = (&mut rows[i], &below[0]);
        for j in (same..b.len()).rev() {
            row[j] = if a[i] == b[j] { below[j + 1] + 1 } else { below[j].max(row[j + 1]) };
        }
    }
    let (mut i, mut j, mut lines) = (same, same, String::new());
    while i < a.len() || j < b.len() {
        if i < a.len() && j < b.len() && a[i] == b[j] {
            (i, j) = (i + 1, j + 1);
        } else if j == b.len() || i < a.len() && common[i + 1][j] >= common[i][j + 1] {
            lines += &format!("  - {}\n", old[i].trim());
            i += 1;
        } else {
            lines += &format!("  + {}\n", new[j].trim());
            j += 1;
        }
    }
    lines
}
