//! The eraser: each form that it knows, and each that it refuses.

#[path = "../build/eraser.rs"]
mod eraser;

use eraser::{ATTRIBUTES, FORMS, MAY, OTHERS, Plan, RATTLE, SAME, VARIABLES, WORDS, WRITTEN, erase, erase_all};
use std::fs;
use std::path::Path;

const PLAN: Plan = Plan {
    crates: &["fibs_lines", "fibs_fields"],
    by_hand: &[],
    contracts: false,
    attributes: |name| format!("// {name}"),
};

fn rust_of(text: &str) -> Result<String, (usize, String)> {
    erase(text, "fibs_lines", &PLAN).map(|(rust, _)| rust)
}

/// A form by the words of its row in `FORMS`, what it is written for, and what has to come out.
const ERASED: &[(&str, &str, &str)] = &[
    (
        "ghost",
        "//! A.\n\nghost use Rattle.std.specs.Prelude.{◌≡◌};\nghost use Rattle.x;\n\nfn f() {}\n",
        "//! A.\n\nfn f() {}\n",
    ),
    (
        "ghost",
        "struct A {\n    a: u8,\n    /// Its bound.\n    pub ghost valid: { a ≤ 4 } by { x },\n}",
        "struct A {\n    a: u8,\n}",
    ),
    (
        "ghost",
        "impl A {\n    ghost joins = { record { a = λ _. b; } };\n\n    fn f() {}\n}",
        "impl A {\n\n    fn f() {}\n}",
    ),
    (
        "clauses",
        "fn f(a: u8) -> u8\n    // small\n    requires { a ≤ 4 }\n    ensures* low { result ≡ a }\n{\n    a\n}",
        "fn f(a: u8) -> u8 {\n    a\n}",
    ),
    ("clauses", "trait A {\n    fn f(&self)\n        ensures { true };\n}", "trait A {\n    fn f(&self);\n}"),
    (
        "clauses",
        "impl A {\n    pub fn f(a: u8)\n        requires small { a ≤ 4 }\n    {}\n}",
        "impl A {\n    pub(crate) fn f(a: u8) {}\n}",
    ),
    (
        "clauses",
        "impl A {\n    pub fn f(a: u8)\n        ensures small { a ≤ 4 }\n    {}\n}",
        "impl A {\n    pub fn f(a: u8) {}\n}",
    ),
    (
        "attributes",
        "//! A.\n#![tactic(auto)]\n\n#[tactic(search)]\n#[inline(always)]\nfn f() {}",
        "//! A.\n#[inline(always)]\nfn f() {}",
    ),
    ("attributes", "/// A.\n#[derive(Drop)]\nstruct A;", "/// A.\nstruct A;"),
    ("attributes", "#[derive(Clone, Drop, Debug)]\nstruct A;", "#[derive(Clone, Debug)]\nstruct A;"),
    (
        "`impl Model`",
        "struct A;\n\n/// What it shows.\nimpl<T> Model for A<T> {\n    ghost view = { λ a. a };\n}\n\nfn f() {}",
        "struct A;\n\nfn f() {}",
    ),
    (
        "`Drop`",
        "fn f<T: Drop, U: Clone + Drop>(t: T) {}\ntrait A: Drop + Clone {}\ntrait B: Drop {}",
        "fn f<T, U: Clone>(t: T) {}\ntrait A: Clone {}\ntrait B {}",
    ),
    (
        "an allocator",
        "fn f(&self, alloc: Global) { g(alloc, 1, self.alloc); h(rt.alloc()) }",
        "fn f(&self) { g(1); h() }",
    ),
    (
        "an allocator",
        "fn f(\n    alloc: Global,\n    a: u8,\n) {\n    g(\n        a,\n        alloc,\n    )\n}",
        "fn f(\n    a: u8,\n) {\n    g(\n        a,\n    )\n}",
    ),
    (
        "an allocator",
        "struct A {\n    a: u8,\n    /// Its memory.\n    pub alloc: Global,\n    b: u8,\n}",
        "struct A {\n    a: u8,\n    b: u8,\n}",
    ),
    (
        "an allocator",
        "fn f() {\n    let alloc = *self.players.allocator();\n    A { a, alloc }\n}",
        "fn f() {\n    A { a }\n}",
    ),
    (
        "an allocator",
        "macro_rules! with {\n    ($a:ident, $alloc:ident, $b:ident) => { $a.take($alloc) };\n}",
        "macro_rules! with {\n    ($a:ident, $b:ident) => { $a.take() };\n}",
    ),
    ("an allocator", "fn f(_alloc: Global) {}", "fn f() {}"),
    (
        "a slice",
        "pub extern \"C\" fn f(a: &[u8], b: &mut [Play], c: &mut u8) -> u32\n    ensures { true }\n{\n    0\n}",
        concat!(
            "pub extern \"C\" fn f(a: *const u8, a_len: usize, b: *mut Play, b_len: usize, c: &mut u8) -> u32 {\n",
            "    let a = unsafe { crate::handles::slice(a, a_len) };\n",
            "    let b = unsafe { crate::handles::slice_mut(b, b_len) };\n    0\n}",
        ),
    ),
    ("a slice", "fn f(a: &[u8]) {}", "fn f(a: &[u8]) {}"),
    ("the runtime", "fn f(rt: &HostRuntime) {}", "use crate::rattle::HostRuntime;\nfn f(rt: &HostRuntime) {}"),
    (
        "paths",
        "use crate::line::Line;\nuse fibs_fields::{Name, a::B};\npub(crate) fn f() -> fibs_lines::A { super::g() }",
        concat!(
            "use crate::fibs_lines::line::Line;\nuse crate::fibs_fields::{Name, a::B};\n",
            "pub(crate) fn f() -> crate::fibs_lines::A { super::g() }",
        ),
    ),
    (
        "paths",
        concat!(
            "use std::alloc::{AllocError, Global};\nuse std::{env, io};\nuse itoa::Buffer;\n",
            "use libc::net as c;\nuse arrayvec::ArrayVec;",
        ),
        concat!(
            "use crate::rattle::alloc::{AllocError, Global};\nuse crate::rattle::{env, io};\n",
            "use crate::rattle::itoa::Buffer;\nuse crate::rattle::libc::net as c;\nuse arrayvec::ArrayVec;",
        ),
    ),
    (
        "paths",
        "mod line;\nuse line::Line;\nuse Kind::Text;\nfn fibs_max_line() {}",
        "mod line;\nuse line::Line;\nuse Kind::Text;\nfn fibs_max_line() {}",
    ),
    (
        "a call",
        concat!(
            "//! A.\n\nfn f() {\n    a.push(b'?')?;\n    c.push(1);\n    Vec::with_capacity(3)?;\n",
            "    a.extend_from_slice(b\"x\")\n}",
        ),
        concat!(
            "//! A.\n\nuse crate::rattle::may::*;\nfn f() {\n    a.may_push(b'?')?;\n    c.push(1);\n",
            "    Vec::may_with_capacity(3)?;\n    a.may_extend_from_slice(b\"x\")\n}",
        ),
    ),
    // what looks like a form and is text
    (
        "",
        "const A: &str = \"ghost requires { alloc: Global } ≡\"; // alloc, λ\n/// ensures\nfn f() -> char { '≡' }",
        "const A: &str = \"ghost requires { alloc: Global } ≡\"; // alloc, λ\n/// ensures\nfn f() -> char { '≡' }",
    ),
    (
        "",
        "fn f<'a>(a: &'a str) -> u64 { let b = ['\\'', '\"', '/']; 0x1f + 1_000u64 + (0..2).len() as u64 }",
        "fn f<'a>(a: &'a str) -> u64 { let b = ['\\'', '\"', '/']; 0x1f + 1_000u64 + (0..2).len() as u64 }",
    ),
];

#[test]
fn each_form_is_erased() {
    for (form, rattle, wanted) in ERASED {
        assert_eq!(rust_of(rattle).as_deref(), Ok(*wanted), "{form}: {rattle}");
    }
    for (form, ..) in FORMS {
        assert!(ERASED.iter().any(|row| !row.0.is_empty() && form.starts_with(row.0)), "no test has the form: {form}");
    }
}

#[test]
fn each_form_that_is_written_in_another_way_is() {
    for (from, to) in WRITTEN {
        let (rattle, wanted) = (from.replace('$', "value"), to.replace('$', "value"));
        assert_eq!(rust_of(&rattle), Ok(wanted), "{rattle}");
    }
    assert_eq!(rust_of("fn\n    reserve(a)").as_deref(), Ok("fn may_reserve(a)"));
}

#[test]
fn the_text_that_is_matched_is_looked_at() {
    let board = "[b'b', b'o', b'a', b'r', b'd', b':', ..]";
    for (before, named, after) in [
        ("fn f(line: &[u8], rest: &[u8]) { matches!(rest, ", "_ if rest.starts_with(b\"board:\")", ") }"),
        ("match rest {\n        ", "_ if rest.starts_with(b\"board:\")", " => f(line),\n}"),
        // these take a pattern of Rust too
        ("fn f(line: &[u8], a: A) { matches!(a.rest, ", board, ") }"),
        ("match line {\n    [] => 0,\n    ", board, " => 1,\n}"),
    ] {
        let rattle = format!("{before}{board}{after}");
        assert_eq!(rust_of(&rattle), Ok(format!("{before}{named}{after}")), "{rattle}");
    }
}

#[test]
fn each_call_that_may_fail_is_renamed() {
    for name in MAY.concat() {
        let wanted = format!("use crate::rattle::may::*;\na.may_{name}(b)?");
        assert_eq!(rust_of(&format!("a.{name}(b)?")), Ok(wanted));
        assert_eq!(rust_of(&format!("{name}(b)?")), Ok(format!("{name}(b)?")), "it is no method");
        let wanted = if MAY[0].contains(&name) { "" } else { "may_" };
        assert!(rust_of(&format!("a.{name}(b);")).unwrap().ends_with(&format!("a.{wanted}{name}(b);")));
    }
    for call in OTHERS {
        assert_eq!(rust_of(&format!("let a = {call}(b);")), Ok(format!("let a = {call}(b);")));
    }
}

#[test]
fn an_allocator_is_no_variable() {
    for from in VARIABLES {
        let from = from.replace('$', "a");
        assert_eq!(rust_of(&format!("{{\n    let alloc = {from};\n    b\n}}")).as_deref(), Ok("{\n    b\n}"), "{from}");
    }
}

#[test]
fn each_crate_has_its_place() {
    for name in RATTLE.iter().filter(|name| **name != "std") {
        assert_eq!(rust_of(&format!("use {name}::A;")), Ok(format!("use crate::rattle::{name}::A;")));
    }
    for name in SAME {
        assert_eq!(rust_of(&format!("use {name}::A;")), Ok(format!("use {name}::A;")));
    }
    for name in ATTRIBUTES {
        assert_eq!(rust_of(&format!("#[{name}(Clone)]\nfn f() {{}}")), Ok(format!("#[{name}(Clone)]\nfn f() {{}}")));
    }
}

const OF_ALLOC: &str = "`alloc` is not of Rust, in a form that is not known";

/// What is refused, at which line, and what is said.
const REFUSED: &[(&str, usize, &str)] = &[
    ("fn f() {\n    ghost let a = 1;\n}", 2, "`ghost` begins no form that is known"),
    ("impl A {\n    ghost fn f() {}\n}", 2, "`ghost` begins no form that is known"),
    ("ghost use Rattle.x", 1, "no `;` follows"),
    ("fn f()\n    ensures x y { true }\n{}", 2, "`ensures` begins no clause of a function"),
    ("fn f() {\n    requires { a ≡ b }\n}", 2, "`requires` begins no clause of a function"),
    ("fn f()\n    ensures { true \n", 2, "no bracket closes `{`"),
    ("fn f() {\n\n    let a = b ≤ c;\n}", 3, "`≤` is not of Rust, in a form that is not known"),
    ("fn f() { λ }", 1, "`λ` is not of Rust, in a form that is not known"),
    ("impl Drop for A {}", 1, "`Drop` is not of Rust, in a form that is not known"),
    ("fn f(a: Vec<u8, Global>) {}", 1, "`Global` is not of Rust, in a form that is not known"),
    ("fn f() { alloc.take() }", 1, OF_ALLOC),
    ("fn f() { vec![in alloc; 0; 3] }", 1, OF_ALLOC),
    ("struct A<M: Model>(M);", 1, "`Model` is not of Rust, in a form that is not known"),
    ("fn f() {\n    prove { true }\n}", 2, "`prove` is not of Rust, in a form that is not known"),
    ("fn tactic() {}", 1, "`tactic` is not of Rust, in a form that is not known"),
    ("#[proof(by)]\nfn f() {}", 1, "the attribute `proof` is not known"),
    ("//! A.\n#![allow(unused)]\nfn f() {}", 2, "the attribute `allow` is not known"),
    ("use rand::Rng;", 1, "the crate `rand` is not known"),
    ("use fibs_rules::Play;", 1, "the crate `fibs_rules` is not erased here"),
    ("extern \"C\" fn f(a: &[[u8; 2]]) {}", 1, "the items of a slice for C have a name"),
    ("fn f() { a.push(1", 1, "no bracket closes `(`"),
    ("ghost a = 1;", 1, "`ghost` begins no form that is known"),
    ("let alloc = self.taken(1).alloc;", 1, OF_ALLOC),
    ("fn f() {\n    let _left = items.push(x);\n}", 2, "what `push` gives is not tested at once"),
    ("let _ = Vec::push(&mut items, x);", 1, "what `push` gives is not tested at once"),
    ("drop(self.names.insert(name, 1));", 1, "what `insert` gives is not tested at once"),
    ("let _n = a.map(|x| { kept.push(x) }).count();", 1, "what `push` gives is not tested at once"),
    ("let _r = match a {\n    A => kept.push(1),\n    B => {}\n};", 2, "what `push` gives is not tested at once"),
    ("let _r = loop { break kept.push(1); };", 1, "what `push` gives is not tested at once"),
    ("let _r = A { kept }.kept.push(1);", 1, "what `push` gives is not tested at once"),
    ("#[cfg(target_pointer_width = \"64\")]\nfn f() {}", 1, "the attribute `cfg` is not known"),
    ("if cfg!(target_pointer_width = \"64\") {}", 1, "`cfg` is not of Rust, in a form that is not known"),
    ("let alloc = match items.pop() { Some(_) => page.alloc, None => page.alloc };", 1, OF_ALLOC),
    ("fn f() {\n    if items.push(1).is_err() {}\n}", 2, "what `push` gives is not tested at once"),
    ("fn f() {\n    prove!(true);\n}", 2, "`prove` is not of Rust, in a form that is not known"),
    ("fn f() {\n    g(page.alloc, 3)\n}", 2, OF_ALLOC),
    ("fn f(alloc: u8) {}", 1, OF_ALLOC),
    ("fn f()\n    ensures { b' }\n{}", 2, "no bracket closes `{`"),
];

#[test]
fn each_form_that_is_not_known_is_refused() {
    for (rattle, line, what) in REFUSED {
        assert_eq!(rust_of(rattle), Err((*line, what.to_string())), "{rattle}");
    }
    for word in WORDS {
        let (line, _) = rust_of(&format!("fn f() {{\n    {word}\n}}")).expect_err(word);
        assert_eq!(line, 2, "{word}");
    }
}

#[test]
fn what_asks_of_its_callers_is_named() {
    let text = concat!(
        "pub fn f(a: u8)\n    requires { a ≤ 4 }\n{}\n\npub trait T {\n    fn g(a: u8)\n",
        "        requires { a ≤ 4 };\n    fn h(a: u8)\n        ensures { true };\n}\n\nfn own(a: u8)\n",
        "    requires { a ≤ 4 }\n{}\n\npub fn pick(\n    of: fn(u8) -> u8,\n    a: u8,\n)\n",
        "    requires { a ≤ 4 }\n{}\n\n#[inline] pub fn h(a: u8) requires { a ≤ 4 } {}\n",
        "pub fn i() {} fn j(a: u8) requires { a ≤ 4 } {}\n",
    );
    assert_eq!(erase(text, "fibs_lines", &PLAN).unwrap().1, ["f", "T::g", "pick", "h"]);
    let method = "impl A {\n    #[inline] pub fn f(a: u8) requires { a ≤ 4 } {}\n}";
    assert!(rust_of(method).unwrap().contains("#[inline] pub(crate) fn f("), "{:?}", rust_of(method));
}

#[test]
fn clauses_become_text_of_the_documentation() {
    let text = concat!(
        "impl A {\n    /// Does.\n    #[inline(always)]\n    pub fn f(a: u8) -> u8\n",
        "        ensures one { a\n            ≡ b }\n        ensures two { true }\n    {\n        a\n",
        "    }\n\n    fn own()\n        ensures { true }\n    {}\n}",
    );
    let wanted = concat!(
        "impl A {\n    /// Does.\n    #[inline(always)]\n    ///\n    /// # Contract\n    ///\n",
        "    /// ```text\n    /// ensures one { a\n    ///         ≡ b }\n    /// ensures two { true }\n",
        "    /// ```\n    pub fn f(a: u8) -> u8 {\n        a\n    }\n\n    fn own() {}\n}",
    );
    assert_eq!(erase(text, "fibs_lines", &Plan { contracts: true, ..PLAN }).unwrap().0, wanted);
}

#[test]
fn an_error_names_the_file() {
    let folder = Path::new(env!("CARGO_TARGET_TMPDIR")).join("eraser");
    let source = folder.join("fibs_lines/src/deep");
    fs::create_dir_all(&source).unwrap();
    fs::write(folder.join("fibs_lines/src/lib.rt"), "mod a;\n").unwrap();
    fs::write(source.join("a.rt"), "fn f() {\n    ghost\n}\n").unwrap();
    let plan = Plan { crates: &["fibs_lines"], ..PLAN };
    let why = erase_all(&folder, &folder.join("out"), &plan).unwrap_err();
    assert!(why.ends_with("a.rt:2: `ghost` begins no form that is known"), "{why}");
    let by_hand = Plan { by_hand: &[("fibs_lines", "deep/a", "// by hand\n")], ..plan };
    erase_all(&folder, &folder.join("out"), &by_hand).unwrap();
    assert_eq!(fs::read_to_string(folder.join("out/fibs_lines/deep/a.rs")).unwrap(), "// by hand\n");
    let modules = fs::read_to_string(folder.join("out/modules.rs")).unwrap();
    assert!(
        modules.starts_with("// fibs_lines\n#[path = ") && modules.ends_with("mod.rs\"]\nmod fibs_lines;\n"),
        "{modules}"
    );
}
