//! `changed.txt` has how often each rule of `second_look/rules.rs` makes another line, each line of code that the
//! eraser makes otherwise, and what is written by hand: in all that the crate `fibs` and the program are built of. With
//! `FIBS_WRITE=1` in the environment it is written.

#[path = "../build/eraser.rs"]
#[allow(dead_code)]
mod eraser;
#[path = "../build/library.rs"]
mod library;
#[path = "../build/program.rs"]
mod program;
mod second_look;

use second_look::{Build, changed};
use std::path::{Path, PathBuf};
use std::{env, fs};

/// Erases what the crate and the program are built of, as their builds do, each into a folder of its own. Gives also
/// the functions of the crate that ask something of their callers.
fn erased(name: &str) -> ([Build; 2], Vec<String>) {
    let out = Path::new(env!("CARGO_TARGET_TMPDIR")).join(name);
    let (of_library, of_program) = (out.join("library"), out.join("program"));
    let names: Vec<&str> = library::CRATES.iter().flat_map(|part| part.1).copied().collect();
    let plan =
        eraser::Plan { crates: &names, by_hand: library::BY_HAND, contracts: true, attributes: library::attributes };
    let required = eraser::erase_all(&sources(), &of_library, &plan).unwrap();
    library::show(&of_library, &names).unwrap();
    let crates = program::erase(&sources().join(".."), &of_program).unwrap();
    let names = names.into_iter().map(String::from).collect();
    let builds = [
        Build { folder: of_library, crates: names, by_hand: library::BY_HAND },
        Build { folder: of_program, crates, by_hand: program::BY_HAND },
    ];
    (builds, required)
}

fn sources() -> PathBuf {
    library::sources(Path::new(env!("CARGO_MANIFEST_DIR")))
}

#[test]
fn what_the_eraser_changes_is_written_down() {
    let root = Path::new(env!("CARGO_MANIFEST_DIR"));
    let (builds, required) = erased("changed");
    let (told, file) = (changed(&sources(), &builds), root.join("changed.txt"));
    if env::var_os("FIBS_WRITE").is_some() {
        fs::write(&file, &told).unwrap();
    }
    let stands = fs::read_to_string(&file).unwrap();
    let at = stands.lines().zip(told.lines()).take_while(|(stands, told)| stands == told).count() + 1;
    assert!(stands == told, "changed.txt:{at}: this is not what the eraser does: FIBS_WRITE=1 writes it");
    // what asks something of its callers is in no list of what is public
    let public: String =
        ["lib.rs", "model.rs"].map(|name| fs::read_to_string(root.join("src").join(name)).unwrap()).concat();
    let exports: Vec<&str> = public.split("pub use ").skip(1).filter_map(|text| text.split(';').next()).collect();
    for name in required {
        // of a method of a trait, the trait
        let name = name.split("::").next().unwrap();
        let is_exported = |list: &&str| list.split(|c: char| !c.is_alphanumeric() && c != '_').any(|word| word == name);
        assert!(!exports.iter().any(is_exported), "{name} asks something of its callers");
    }
}

#[test]
fn wrong_erasures_are_seen() {
    let (builds, _) = erased("wrong");
    for (build, file, from, to) in [
        (0, "fibs_lines/lines.rs", "            self.lent = false;\n", ""),
        (0, "fibs_lines/lines.rs", "-> bool {", "-> bool\n        ensures { OnTrue result }\n    {"),
        (0, "fibs_messages/print.rs", "out.may_push(b' ')?", "out.push(b' ')?"),
        (0, "fibs_fields/boards/board.rs", "pub(crate) fn field", "pub fn field"),
        (0, "fibs_rules/turn.rs", "if a == b {", "if a != b {"),
        (0, "fibs_show/plays.rs", "listing_of(position)", "listing_of(alloc, position)"),
        (0, "fibs_c/boards.rs", "slice(line, line_len)", "slice(line, 0)"),
        (0, "fibs_messages/print.rs", "use crate::fibs_messages::field::", "use crate::fibs_fields::field::"),
        (0, "fibs_model/carriers.rs", "Carrier, InMemory, Way", "Carrier, Way"),
        (1, "fibs_engine/noting.rs", "=> Trouble::Unread", "=> Trouble::Closed"),
        (1, "fibs_terminal/talk.rs", "            self.rows.remove(0);\n", ""),
        (1, "fibs_cli/arguments.rs", "(built from the proved text, ", "(proved with "),
        (0, "fibs_model/carriers/carrier.rs", "fn close(&mut self) -> Result<(), Broken>;", "fn close(&mut self);"),
    ] {
        let Build { folder, by_hand, .. } = &builds[build];
        let crates = vec![file.split('/').next().unwrap().to_string()];
        let one = [Build { folder: folder.clone(), crates, by_hand }];
        let (right, text) = (changed(&sources(), &one), fs::read_to_string(folder.join(file)).unwrap());
        assert!(text.contains(from), "{file}: {from}");
        fs::write(folder.join(file), text.replacen(from, to, 1)).unwrap();
        assert!(changed(&sources(), &one) != right, "{file}: `{from}` becomes `{to}`");
        fs::write(folder.join(file), text).unwrap();
        assert!(changed(&sources(), &one) == right);
    }
}
