//! What is to become of the lines of a source, by rules that know no more than a line, but for functions of C. Each has
//! a name, and is counted, but for those of paths and of what is used.

use std::collections::BTreeMap;

/// How often each rule was followed.
pub type Counts = BTreeMap<String, usize>;

/// Texts in place of which others are written.
const WRITTEN: &[(&str, &str)] = &[
    ("fn fmt<W: fmt::Write>(&self, f: &mut fmt::Formatter<W>)", "fn fmt(&self, f: &mut fmt::Formatter<'_>)"),
    ("Box::new(", "crate::rattle::may::may_box("),
    (": Drop>", ">"),
    (": Drop {", " {"),
    (" + Drop", ""),
    (", Drop)]", ")]"),
    (", Drop,", ","),
];

/// Methods that take memory and are renamed if what follows tests the result, and those that always are.
#[rustfmt::skip]
const TESTED: &[&str] = &[
    "push", "insert", "entry", "collect", "with_capacity", "to_vec", "reserve", "from_slice", "to_ascii_lowercase",
    "to_string", "from_str", "push_str", "sort_by_key",
];
const ALWAYS: &[&str] = &["extend_from_slice", "reserve_exact", "push_reserved"];

/// How an allocator is written as a parameter, a field or an argument; and the lines that make one a variable.
#[rustfmt::skip]
const ALLOCATORS: &[&str] = &[
    "$alloc:ident", "$alloc", "pub alloc: Global", "alloc: Global", "_alloc: Global", "self.alloc", "rt.alloc()",
    "alloc",
];
const VARIABLES: &[&str] = &[
    "let alloc = rt.alloc();", "let alloc = page.alloc;", "let alloc = self.page.alloc;",
    "let alloc = *self.players.allocator();",
];

/// The ports that are written by hand.
const PORTS: &[&str] = &["itoa", "mio", "jiff", "clap", "libc"];

/// What the sources use without a `use`: the runtime; and what the renamed calls are methods of.
const USED: [&str; 2] = ["use crate::rattle::may::*;", "use crate::rattle::HostRuntime;"];

/// The names of the rules without a text of their own.
const MAY: &str = "`.push(..)?` becomes `.may_push(..)?`, and so with all that takes memory";
const ALLOCATOR: &str = "an allocator is no parameter, field or argument";
const OF_C: &str = "`&[T]` of a function for C becomes a pointer and a length, of which its body begins to make it";
pub const INSIDE: &str = "`pub fn` of a type becomes `pub(crate) fn` if it requires something";
pub const BODILESS: &str = "a function of a trait without its clauses ends with `;`";

pub fn count(counts: &mut Counts, rule: &str) {
    *counts.entry(rule.into()).or_default() += 1;
}

fn is_word(c: char) -> bool {
    c.is_alphanumeric() || c == '_'
}

/// Whether a line has more than a comment.
pub fn is_code(line: &str) -> bool {
    !line.trim().is_empty() && !line.trim_start().starts_with("//")
}

/// The lines of code that are to be made of these of a crate, and how often each rule is followed.
pub fn made(name: &str, lines: Vec<String>, counts: &mut Counts) -> Vec<String> {
    let (mut made, mut slices, mut is_of_c) = (Vec::new(), Vec::new(), false);
    let renamed = counts.get(MAY).copied();
    for line in lines.into_iter().filter(|line| is_code(line)) {
        is_of_c |= line.starts_with("pub extern \"C\" fn");
        let Some(line) = without_allocator(line, counts) else { continue };
        let mut line = with_may(written(with_paths(name, line), counts), counts);
        if is_of_c {
            line = with_pointers(line, &mut slices, counts);
        }
        is_of_c &= !line.ends_with('{');
        made.push(line);
        if !is_of_c {
            made.append(&mut slices);
        }
    }
    let is_used = [counts.get(MAY).copied() != renamed, made.iter().any(|line| line.contains("HostRuntime"))];
    for (used, _) in USED.iter().zip(is_used).filter(|(_, is_used)| *is_used) {
        made.insert(0, used.to_string());
    }
    made
}

fn written(mut line: String, counts: &mut Counts) -> String {
    for (from, to) in WRITTEN {
        if line.contains(from) {
            let becomes = if to.is_empty() { "is left out".into() } else { format!("becomes `{to}`") };
            count(counts, &format!("`{from}` {becomes}"));
            line = line.replace(from, to);
        }
    }
    line
}

/// None if the line has nothing else.
fn without_allocator(line: String, counts: &mut Counts) -> Option<String> {
    if VARIABLES.contains(&line.trim()) {
        count(counts, &format!("`{}` is left out", line.trim()));
        return None;
    }
    let mut without = line.clone();
    for form in ALLOCATORS.iter().filter(|form| line.contains(*form)) {
        if line.trim() == format!("{form},") {
            count(counts, ALLOCATOR);
            return None;
        }
        for (before, after) in [("(", ", "), ("(", ")"), (", ", ", "), (", ", ")")] {
            let kept = if after == ")" { [if before == "(" { "(" } else { "" }, ")"] } else { [before, ""] };
            without = without.replace(&format!("{before}{form}{after}"), &kept.concat());
        }
    }
    if without != line {
        count(counts, ALLOCATOR);
    }
    Some(without)
}

/// A path begins with the name of a module: of this crate, of another, or of what is written by hand.
fn with_paths(name: &str, line: String) -> String {
    let (mut made, mut rest) = (String::new(), line.as_str());
    while !rest.is_empty() {
        let word = rest.split(|c| !is_word(c)).next().unwrap_or("");
        let behind = &rest[word.len()..];
        let is_first = behind.starts_with("::") && !made.ends_with("::");
        made += &match word {
            "crate" if is_first => format!("crate::{name}"),
            "std" if is_first => "crate::rattle".into(),
            _ if is_first && PORTS.contains(&word) => format!("crate::rattle::{word}"),
            _ if is_first && word.starts_with("fibs_") => format!("crate::{word}"),
            _ => word.to_string(),
        };
        let next = behind.find(is_word).unwrap_or(behind.len());
        made += &behind[..next];
        rest = &behind[next..];
    }
    made
}

/// What follows the bracket that is opened at the beginning of a text, if it is closed.
fn behind(text: &str) -> Option<&str> {
    let mut depth = 0;
    for (at, c) in text.char_indices() {
        if text[..at].ends_with("b'") {
            continue;
        }
        depth += i32::from(matches!(c, '(' | '[' | '{')) - i32::from(matches!(c, ')' | ']' | '}'));
        if depth == 0 {
            return Some(&text[at + 1..]);
        }
    }
    None
}

fn with_may(line: String, counts: &mut Counts) -> String {
    if !TESTED.iter().chain(ALWAYS).any(|name| line.contains(name)) {
        return line;
    }
    let mut made = String::new();
    for (at, c) in line.char_indices() {
        let (before, rest) = line.split_at(at);
        let name = rest.split(|c| !is_word(c)).next().unwrap_or("");
        let is_call = (before.ends_with('.') || before.ends_with("::")) && rest[name.len()..].starts_with('(');
        let is_tested = || {
            let after = behind(&rest[name.len()..]).unwrap_or("");
            [".expect(", ".is_ok()", "?"].iter().any(|tests| after.starts_with(tests))
        };
        if is_call && (ALWAYS.contains(&name) || TESTED.contains(&name) && is_tested()) {
            count(counts, MAY);
            made += "may_";
        }
        made.push(c);
    }
    made
}

fn with_pointers(mut line: String, slices: &mut Vec<String>, counts: &mut Counts) -> String {
    for (form, pointer, call) in [(": &[", ": *const ", "slice"), (": &mut [", ": *mut ", "slice_mut")] {
        while let Some(at) = line.find(form) {
            let name = line[..at].rsplit(|c| !is_word(c)).next().unwrap_or("").to_string();
            let (what, rest) = line[at + form.len()..].split_once(']').unwrap_or_default();
            let item = format!("{pointer}{what}, {name}_len: usize");
            slices.push(format!("    let {name} = unsafe {{ crate::handles::{call}({name}, {name}_len) }};"));
            count(counts, OF_C);
            line = format!("{}{item}{rest}", &line[..at]);
        }
    }
    line
}
