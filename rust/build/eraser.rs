//! Makes Rust of the proved sources: the same text without its proofs.
//!
//! It works on tokens and knows no type. Each form of Rattle that Rust has not is a row of `FORMS` or `WRITTEN`, or a
//! name of `MAY`; it refuses what it doesn't know. Rattle's `std` and some of its ports have another shape than Rust's:
//! `crate::rattle`, which is written by hand, stands for them, and rustc refuses what that has not.

use std::collections::BTreeSet;
use std::path::{Path, PathBuf};
use std::{fs, io};

type Rule = fn(&mut Eraser) -> Result<bool, String>;

/// The forms that take a rule: what is done, the words with which they begin (none: any word), and the rule.
#[rustfmt::skip]
pub const FORMS: &[(&str, &[&str], Rule)] = &[
    ("ghost uses, members and fields are deleted", &["ghost"], |e| e.ghost()),
    ("clauses are deleted, or become text of the documentation", &["requires", "ensures"], |e| e.clause()),
    ("attributes of the prover are deleted, and `Drop` in a derive", &["#"], |e| e.attribute()),
    ("`impl Model` is deleted", &["impl"], |e| e.model()),
    ("`Drop` as a bound is deleted: it is another trait in Rust", &["Drop"], |e| e.bound()),
    ("an allocator is no parameter, field, argument or variable",
        &["alloc", "_alloc", "$", "self", "rt", "let"], |e| e.alloc()),
    ("a slice that C gives is a pointer and a length", &["extern", ":", "{"], |e| e.of_c()),
    ("the runtime is a type without a field", &["HostRuntime"], |e| e.runtime()),
    ("paths begin with this crate, or its layer by hand", &[], |e| e.path()),
    ("a call that takes memory, and may fail, is named `may_`", &[], |e| e.may()),
];

/// The forms that are written in another way. A `$` stands for a word, the last one of its form; a space for any space.
pub const WRITTEN: &[(&str, &str)] = &[
    ("fn fmt<W: fmt::Write>(&self, f: &mut fmt::Formatter<W>)", "fn fmt(&self, f: &mut fmt::Formatter<'_>)"),
    ("fn main(", "pub fn main("),
    // rustc would leave it a call, at each line
    ("pub(crate) fn limited(", "#[inline(always)] pub(crate) fn limited("),
    // no other `cfg` is the same in both
    ("#[cfg(test)]", "#[cfg(test)]"),
    // it would compare these bytes one by one
    ("matches!($, [b'b', b'o', b'a', b'r', b'd', b':', ..]", "matches!($, _ if $.starts_with(b\"board:\")"),
    ("match $ { [b'b', b'o', b'a', b'r', b'd', b':', ..]", "match $ {\n        _ if $.starts_with(b\"board:\")"),
    // the crate finds out at each call what the processor has
    ("memchr2(b'\\n', 255, window)", "crate::rattle::simd::first_of(b'\\n', 255, window)"),
    ("fn reserve(", "fn may_reserve("),
    ("Box::new(", "crate::rattle::may::may_box("),
    ("Simd::from_slice(&text[at..])", "Simd::from_place(text, at)"),
    (".write_fmt($)", ".write_fmt(format_args!(\"{$}\"))"),
    ("<Global>", ""),
    ("AllocGlobal", "crate::rattle::alloc::AllocGlobal"),
];

/// Methods that take memory and may fail, if the result is tested at once (else they are others); then those that
/// always.
#[rustfmt::skip]
pub const MAY: [&[&str]; 2] = [
    &["push", "insert", "entry", "collect", "with_capacity", "to_vec", "reserve", "from_slice", "to_ascii_lowercase",
      "to_string", "from_str", "push_str", "sort_by_key"],
    &["extend_from_slice", "reserve_exact", "push_reserved"],
];

/// Calls of such a name that are not tested: they take no memory, or are matched. Any other is refused if it is no
/// statement: in a statement Rattle lets no `Result` go unused.
#[rustfmt::skip]
pub const OTHERS: &[&str] = &[
    "match error.to_string", "names.insert", "play.push", "served.entry", "spot.insert", "text.push_str",
    "u8x16::from_slice", "u8x32::from_slice", "u8x64::from_slice",
];

/// What an allocator that becomes a variable is taken from.
pub const VARIABLES: &[&str] = &["$.alloc", "$.alloc()", "$.$.alloc", "*$.$.allocator()"];

/// Crates that `crate::rattle` stands for, and crates that are the same in Rust.
pub const RATTLE: &[&str] = &["std", "itoa", "mio", "jiff", "clap", "libc"];
pub const SAME: &[&str] = &["arrayvec", "bstr", "indexmap", "memchr", "thiserror", "unicode_width"];

/// The attributes that Rust has too.
pub const ATTRIBUTES: &[&str] = &["derive", "error", "inline", "repr", "unsafe"];

/// Words of Rattle, which mean nothing to Rust, or something else.
pub const WORDS: &[&str] =
    &["Drop", "Global", "Model", "alloc", "cfg", "ensures", "ghost", "prove", "requires", "tactic"];

/// What is erased together: each crate becomes a module of its name.
pub struct Plan<'a> {
    /// The crates: the names of their folders.
    pub crates: &'a [&'a str],
    /// What is written by hand in place of a file: the crate, the name of the file below `src`, and the text.
    pub by_hand: &'a [(&'a str, &'a str, &'a str)],
    /// Whether the clauses of public functions become text of their documentation.
    pub contracts: bool,
    /// The attributes of a module.
    pub attributes: fn(&str) -> String,
}

/// Erases crates that are below a folder: `CRATES/NAME/src/FILE.rt` becomes `OUT/NAME/FILE.rs`, and `OUT/modules.rs`
/// declares the modules. Gives the functions, but for methods of types, that ask something of their callers: they are
/// not to be made public.
pub fn erase_all(crates: &Path, out: &Path, plan: &Plan) -> Result<Vec<String>, String> {
    let (mut required, mut modules) = (Vec::new(), String::new());
    let failed = |path: &Path, why: io::Error| format!("{}: {why}", path.display());
    for name in plan.crates {
        let source = crates.join(name).join("src");
        for path in files_below(&source).map_err(|why| failed(&source, why))? {
            let file = path.strip_prefix(&source).unwrap_or(&path).with_extension("");
            let file = file.to_string_lossy().replace('\\', "/");
            let rust = match plan.by_hand.iter().find(|row| row.0 == *name && row.1 == file) {
                Some(row) => row.2.into(),
                None => {
                    let text = fs::read_to_string(&path).map_err(|why| failed(&path, why))?;
                    let (rust, mut asks) = erase(&text, name, plan)
                        .map_err(|(line, what)| format!("{}:{line}: {what}", path.display()))?;
                    required.append(&mut asks);
                    rust
                }
            };
            let is_root = matches!(file.as_str(), "lib" | "main");
            let target = out.join(name).join(if is_root { "mod.rs".into() } else { file + ".rs" });
            let made = fs::create_dir_all(target.parent().unwrap_or(out)).and_then(|()| fs::write(&target, rust));
            made.map_err(|why| failed(&target, why))?;
            if is_root {
                modules += &format!("{}\n#[path = {target:?}]\nmod {name};\n", (plan.attributes)(name));
            }
        }
    }
    fs::write(out.join("modules.rs"), modules).map_err(|why| failed(out, why))?;
    Ok(required)
}

/// The sources in a folder, in order.
fn files_below(folder: &Path) -> io::Result<Vec<PathBuf>> {
    let mut files = Vec::new();
    for entry in fs::read_dir(folder)? {
        let path = entry?.path();
        if path.is_dir() {
            files.extend(files_below(&path)?);
        } else if path.extension().is_some_and(|ending| ending == "rt") {
            files.push(path);
        }
    }
    files.sort();
    Ok(files)
}

/// Rust of one file of a crate, and its functions that ask something of their callers; or the line and what is wrong.
pub fn erase(text: &str, name: &str, plan: &Plan) -> Result<(String, Vec<String>), (usize, String)> {
    let mut e =
        Eraser { from: tokens_of(text), name, crates: plan.crates, contracts: plan.contracts, ..Eraser::default() };
    while e.at < e.from.len() {
        e.step().map_err(|what| (e.from.get(e.at).map_or(0, |token| token.line), what))?;
    }
    let is_head = |token: &Token| token.kind == Kind::Space || token.text.starts_with("//!");
    let head = e.out.iter().position(|token| !is_head(token)).unwrap_or(e.out.len());
    let texts = |tokens: &[Token]| tokens.iter().map(|token| token.text.as_str()).collect::<String>();
    Ok((texts(&e.out[..head]) + &e.uses.iter().copied().collect::<String>() + &texts(&e.out[head..]), e.required))
}

#[derive(Clone, Copy, PartialEq, Eq)]
#[rustfmt::skip]
enum Kind { Comment, Space, Text, Word, Mark }

#[derive(Clone)]
struct Token {
    kind: Kind,
    text: String,
    line: usize,
}

fn tokens_of(text: &str) -> Vec<Token> {
    let chars: Vec<char> = text.chars().collect();
    let char_at = |at: usize| chars.get(at).copied().unwrap_or(' ');
    let is_word = |at: usize| char_at(at).is_alphanumeric() || char_at(at) == '_';
    let until =
        |from: usize, ends: &dyn Fn(usize) -> bool| (from..chars.len()).find(|i| ends(*i)).unwrap_or(chars.len());
    let quoted = |from: usize| {
        let mut i = from + 1;
        while i < chars.len() && chars[i] != chars[from] {
            i += if chars[i] == '\\' { 2 } else { 1 };
        }
        (i + 1).min(chars.len())
    };
    let (mut at, mut line, mut tokens) = (0, 1, Vec::new());
    while at < chars.len() {
        let (kind, end) = match (chars[at], char_at(at + 1)) {
            ('/', '/') => (Kind::Comment, until(at, &|i| chars[i] == '\n')),
            (c, _) if c.is_whitespace() => (Kind::Space, until(at, &|i| !chars[i].is_whitespace())),
            ('"', _) => (Kind::Text, quoted(at)),
            ('b', '"' | '\'') => (Kind::Text, quoted(at + 1)),
            ('\'', next) if next == '\\' || char_at(at + 2) == '\'' => (Kind::Text, quoted(at)),
            ('\'', _) if is_word(at + 1) => (Kind::Text, until(at + 1, &|i| !is_word(i))),
            (c, _) if c.is_ascii_digit() => (Kind::Text, until(at, &|i| !is_word(i))),
            _ if is_word(at) => (Kind::Word, until(at, &|i| !is_word(i))),
            (':', ':') => (Kind::Mark, at + 2),
            _ => (Kind::Mark, at + 1),
        };
        tokens.push(Token { kind, text: chars[at..end].iter().collect(), line });
        line += chars[at..end].iter().filter(|c| **c == '\n').count();
        at = end;
    }
    tokens
}

/// The eraser of one file.
#[derive(Default)]
pub struct Eraser<'a> {
    name: &'a str,
    crates: &'a [&'a str],
    contracts: bool,
    from: Vec<Token>,
    at: usize,
    out: Vec<Token>,
    /// Where the `use` ends that was met last.
    use_end: usize,
    /// The clauses of the function that was met last, and where its `fn` was written.
    clauses: Vec<String>,
    function: usize,
    /// The trait that was met last, and where it ends.
    in_trait: (String, usize),
    /// Whether a function for C was met whose body is still to come, and with what that begins.
    is_of_c: bool,
    first: String,
    uses: BTreeSet<&'static str>,
    required: Vec<String>,
}

impl Eraser<'_> {
    fn step(&mut self) -> Result<(), String> {
        let token = self.from[self.at].clone();
        if matches!(token.kind, Kind::Word | Kind::Mark) {
            if self.written() {
                return Ok(());
            }
            for (_, begins, rule) in FORMS {
                let is_any = begins.is_empty() && token.kind == Kind::Word;
                if (is_any || begins.contains(&token.text.as_str())) && rule(self)? {
                    return Ok(());
                }
            }
            match token.text.as_str() {
                "use" => self.use_end = self.find(";")?,
                "trait" => self.in_trait = (self.text(self.next(self.at + 1)).into(), self.closing(self.find("{")?)?),
                text if WORDS.contains(&text) && self.at > self.use_end || !text.is_ascii() => {
                    return Err(format!("`{text}` is not of Rust, in a form that is not known"));
                }
                _ => {}
            }
        }
        // the type `fn(..)` has no name
        let is_function = token.text == "fn" && self.is_word(self.next(self.at + 1));
        self.function = if is_function { self.out.len() } else { self.function };
        self.out.push(token);
        self.at += 1;
        Ok(())
    }

    /// A form of `WRITTEN`.
    fn written(&mut self) -> bool {
        let first = self.text(self.at);
        let found = WRITTEN.iter().filter(|(from, _)| from.starts_with(first)).find_map(|(from, to)| {
            let end = self.follows(from)?;
            let word = (self.at..end).rfind(|i| self.is_word(*i)).map_or("", |i| self.text(i));
            Some((to.replace('$', word), if from.ends_with(' ') { self.next(end) } else { end }))
        });
        found.is_some_and(|(to, end)| self.emit(&to, end).is_ok())
    }

    fn ghost(&mut self) -> Result<bool, String> {
        let name = self.next(self.at + 1);
        let mut end = self.next(name + 1);
        let is_use = self.text(name) == "use";
        if is_use {
            end = self.find(";")?;
        } else if matches!(self.text(end), ":" | "=") {
            end = self.next(self.closing(self.next(end + 1))? + 1);
            if self.text(end) == "by" {
                end = self.next(self.closing(self.next(end + 1))? + 1);
            }
        }
        if !self.is_word(name) || !matches!(self.text(end), ";" | ",") {
            return Err("`ghost` begins no form that is known".into());
        }
        self.pop_public();
        self.pop(!is_use);
        self.emit("", end + 1)
    }

    fn clause(&mut self) -> Result<bool, String> {
        let star = self.next(self.at + 1);
        let name = if self.text(star) == "*" { self.next(star + 1) } else { star };
        let open = if self.is_word(name) { self.next(name + 1) } else { name };
        if self.text(open) != "{" || matches!(self.last(), "" | "{" | "}" | ";") {
            return Err(format!("`{}` begins no clause of a function", self.text(self.at)));
        }
        let end = self.closing(open)? + 1;
        self.pop(true);
        self.clauses.push(self.from[self.at..end].iter().map(|token| token.text.as_str()).collect());
        self.at = self.next(end);
        if !matches!(self.text(self.at), "requires" | "ensures") {
            self.ends_clauses();
        }
        Ok(true)
    }

    /// After the last clause of a function: a `requires` keeps it inside the crate, since Rust asks for none.
    fn ends_clauses(&mut self) {
        let clauses = std::mem::take(&mut self.clauses);
        let lead = self.out[..self.function].iter().rposition(|token| token.text.starts_with('\n'));
        let start = lead.map_or(0, |at| at + 1);
        // what stands before it in the same line may be an attribute, or another function
        let head = self.out[start..self.function].iter().rposition(|token| ["{", "}", ";"].contains(&&*token.text));
        let head = head.map_or(start, |at| start + at + 1);
        let start = (head..self.function).find(|at| self.out[*at].text == "pub").unwrap_or(head);
        let indent = lead.map_or("", |at| self.out[at].text.trim_matches('\n')).to_string();
        let in_trait = self.at < self.in_trait.1;
        let is_public = self.out[start].text == "pub" && self.out[start + 1].text != "(";
        if clauses.iter().any(|clause| clause.starts_with("requires")) {
            let name = self.out[self.function + 2].text.clone();
            match (is_public, in_trait) {
                (true, _) if indent.is_empty() => self.required.push(name),
                (true, _) => self.out[start].text = "pub(crate)".into(),
                (false, true) => self.required.push(format!("{}::{name}", self.in_trait.0)),
                (false, false) => {}
            }
        }
        if self.contracts && (is_public || in_trait) {
            let lines = clauses.iter().flat_map(|clause| clause.lines());
            let lines = lines.map(|line| line.strip_prefix(&indent).unwrap_or(line));
            let lines = ["", "# Contract", "", "```text"].into_iter().chain(lines).chain(["```"]);
            let lines = lines.map(|line| format!("{}\n{indent}", format!("/// {line}").trim_end()));
            self.out.insert(start, Token { kind: Kind::Comment, text: lines.collect(), line: 0 });
        }
        if self.text(self.at) != ";" {
            self.write(" ");
        }
    }

    fn attribute(&mut self) -> Result<bool, String> {
        let open = self.at + if self.text(self.at + 1) == "!" { 2 } else { 1 };
        let (word, end) = (self.text(open + 1).to_string(), self.closing(open)?);
        let words = (open + 2..end).filter(|i| self.is_word(*i)).map(|i| self.text(i));
        let (drops, kept): (Vec<&str>, Vec<&str>) = words.partition(|word| *word == "Drop");
        match word.as_str() {
            "derive" if !kept.is_empty() && !drops.is_empty() => {
                self.emit(&format!("#[derive({})]", kept.join(", ")), end + 1)
            }
            "derive" | "tactic" if kept.is_empty() || word == "tactic" => {
                self.pop(false);
                self.emit("", end + 1)
            }
            word if ATTRIBUTES.contains(&word) && open == self.at + 1 => Ok(false),
            word => Err(format!("the attribute `{word}` is not known")),
        }
    }

    fn model(&mut self) -> Result<bool, String> {
        let open = self.find("{")?;
        if !(self.at..open).any(|i| self.text(i) == "Model" && self.text(self.next(i + 1)) == "for") {
            return Ok(false);
        }
        self.pop(true);
        self.emit("", self.closing(open)? + 1)
    }

    fn bound(&mut self) -> Result<bool, String> {
        let more = self.next(self.at + 1);
        match self.last() {
            ":" if self.text(more) == "+" => self.emit("", self.next(more + 1)),
            ":" | "+" => {
                self.pop(false);
                self.out.pop();
                self.pop(false);
                self.emit("", self.at + 1)
            }
            _ => Ok(false),
        }
    }

    fn alloc(&mut self) -> Result<bool, String> {
        if let Some(end) = VARIABLES.iter().find_map(|from| self.follows(&format!("let alloc = {from};"))) {
            self.pop(false);
            return self.emit("", end);
        }
        let forms = ["$alloc: ident", "$alloc", "alloc: Global", "_alloc: Global", "self.alloc", "rt.alloc()", "alloc"];
        let Some(end) = forms.iter().find_map(|form| self.follows(form)) else { return Ok(false) };
        self.pop_public();
        if !matches!((self.last(), self.text(self.next(end))), ("(" | "," | "{", ",") | ("(" | ",", ")" | "}")) {
            return Ok(false);
        }
        let lead = self.out.pop_if(|token| token.kind == Kind::Space);
        self.pop(true);
        let comma = self.next(end);
        let has_comma = self.text(comma) == ",";
        let after = self.next(comma + usize::from(has_comma));
        if !matches!(self.text(after), ")" | "}") {
            self.out.extend(lead);
            return self.emit("", after);
        }
        if !has_comma && self.last() == "," {
            self.out.pop();
        }
        self.emit("", if has_comma { comma + 1 } else { end })
    }

    fn of_c(&mut self) -> Result<bool, String> {
        let (shared, single) = (self.follows(": & ["), self.follows(": & mut ["));
        if self.text(self.at) == "extern" {
            self.is_of_c = self.follows("extern \"C\" fn").is_some();
        } else if self.text(self.at) == "{" {
            self.is_of_c = false;
            let first = std::mem::take(&mut self.first);
            return Ok(!first.is_empty() && self.emit(&format!("{{{first}"), self.at + 1)?);
        } else if let Some(item) = shared.or(single).filter(|_| self.is_of_c) {
            if !self.is_word(item) || self.text(item + 1) != "]" {
                return Err("the items of a slice for C have a name".into());
            }
            let (name, what) = (self.last().to_string(), self.text(item).to_string());
            let (pointer, call) = if shared.is_some() { ("const", "slice") } else { ("mut", "slice_mut") };
            self.first += &format!("\n    let {name} = unsafe {{ crate::handles::{call}({name}, {name}_len) }};");
            return self.emit(&format!(": *{pointer} {what}, {name}_len: usize"), item + 2);
        }
        Ok(false)
    }

    fn runtime(&mut self) -> Result<bool, String> {
        self.uses.insert("use crate::rattle::HostRuntime;\n");
        Ok(false)
    }

    fn path(&mut self) -> Result<bool, String> {
        let word = self.text(self.at);
        let is_first = self.text(self.at + 1) == "::" && self.last() != "::";
        let is_local = |i: usize| self.text(i) == "mod" && self.text(self.next(i + 1)) == word;
        let name = match word {
            _ if !is_first || matches!(word, "super" | "self") => return Ok(false),
            "crate" => self.name,
            "std" => "rattle",
            _ if self.crates.contains(&word) => word,
            _ if RATTLE.contains(&word) => &format!("rattle::{word}"),
            _ if word.starts_with("fibs_") => return Err(format!("the crate `{word}` is not erased here")),
            _ if self.last() == "use"
                && word.starts_with(char::is_lowercase)
                && !SAME.contains(&word)
                && !(0..self.from.len()).any(is_local) =>
            {
                return Err(format!("the crate `{word}` is not known"));
            }
            _ => return Ok(false),
        };
        self.emit(&format!("crate::{name}"), self.at + 1)
    }

    fn may(&mut self) -> Result<bool, String> {
        let name = self.text(self.at);
        if !MAY.concat().contains(&name) || self.text(self.at + 1) != "(" || !matches!(self.last(), "." | "::") {
            return Ok(false);
        }
        let after = self.closing(self.at + 1)? + 1;
        let is_expected = self.text(after) == "." && matches!(self.text(after + 1), "expect" | "is_ok");
        if MAY[0].contains(&name) && !is_expected && self.text(after) != "?" {
            let is_known = self.is_other(name, after);
            return if is_known { Ok(false) } else { Err(format!("what `{name}` gives is not tested at once")) };
        }
        self.uses.insert("use crate::rattle::may::*;\n");
        self.emit(&format!("may_{}", self.text(self.at)), self.at + 1)
    }

    /// Whether a call of this name, which ends before `after`, is one of `OTHERS` or a statement.
    fn is_other(&self, name: &str, after: usize) -> bool {
        let is_path = |token: &Token| token.kind == Kind::Word || matches!(token.text.as_str(), "." | "::");
        let start = self.out.iter().rposition(|token| is_code(token) && !is_path(token)).map_or(0, |at| at + 1);
        let before = start.checked_sub(1).map_or(";", |at| &self.out[at].text);
        let path = self.out[start..].iter().map(|token| token.text.as_str()).collect::<String>() + name;
        let path = path.trim_start();
        let is_statement = matches!((before, self.text(after)), (";" | "{" | "}", ";"));
        OTHERS.contains(&path) || is_statement && !path.starts_with('.') && !path.contains(' ')
    }

    /// The first place from `at` on that is no space and no comment.
    fn next(&self, at: usize) -> usize {
        (at..self.from.len()).find(|i| is_code(&self.from[*i])).unwrap_or(self.from.len())
    }

    fn text(&self, at: usize) -> &str {
        self.from.get(at).map_or("", |token| &token.text)
    }

    fn is_word(&self, at: usize) -> bool {
        self.from.get(at).is_some_and(|token| token.kind == Kind::Word)
    }

    /// Where this form ends, if it follows. A `$` stands for any word.
    fn follows(&self, form: &str) -> Option<usize> {
        tokens_of(form).iter().filter(|token| is_code(token)).try_fold(self.at, |at, token| {
            let at = self.next(at);
            (self.text(at) == token.text || token.text == "$" && self.is_word(at)).then_some(at + 1)
        })
    }

    fn find(&self, text: &str) -> Result<usize, String> {
        (self.at..self.from.len()).find(|i| self.text(*i) == text).ok_or(format!("no `{text}` follows"))
    }

    /// The place of the bracket that closes the one at `at`.
    fn closing(&self, at: usize) -> Result<usize, String> {
        let mut depth = 0;
        for i in (at..self.from.len()).filter(|i| self.from[*i].kind == Kind::Mark) {
            depth +=
                i32::from(matches!(self.text(i), "(" | "[" | "{")) - i32::from(matches!(self.text(i), ")" | "]" | "}"));
            if depth == 0 {
                return if i > at { Ok(i) } else { Err(format!("`{}` opens nothing", self.text(at))) };
            }
        }
        Err(format!("no bracket closes `{}`", self.text(at)))
    }

    /// The last token that was written, but for spaces and comments.
    fn last(&self) -> &str {
        self.out.iter().rev().find(|token| is_code(token)).map_or("", |token| &token.text)
    }

    fn write(&mut self, text: &str) {
        for token in tokens_of(text) {
            self.function = if token.text == "fn" { self.out.len() } else { self.function };
            self.out.push(token);
        }
    }

    /// Writes a text in place of what is up to `end`.
    fn emit(&mut self, text: &str, end: usize) -> Result<bool, String> {
        self.write(text);
        self.at = end;
        Ok(true)
    }

    /// Takes back the spaces that were written last, and with `comments` those too.
    fn pop(&mut self, comments: bool) {
        let is_lead = |token: &Token| token.kind == Kind::Space || comments && token.kind == Kind::Comment;
        self.out.truncate(self.out.iter().rposition(|token| !is_lead(token)).map_or(0, |at| at + 1));
    }

    /// Takes back a `pub`.
    fn pop_public(&mut self) {
        if self.last() == "pub" {
            self.pop(false);
            self.out.pop();
        }
    }
}

fn is_code(token: &Token) -> bool {
    !matches!(token.kind, Kind::Space | Kind::Comment)
}
