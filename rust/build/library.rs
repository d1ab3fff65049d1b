//! What the library is made of.

use std::fs;
use std::path::{Path, PathBuf};

/// The folder of the sources: beside this package in the repository, inside it in a package for a registry.
pub fn sources(root: &Path) -> PathBuf {
    let beside = root.join("../crates");
    if beside.join("fibs_lines").is_dir() { beside } else { root.join("crates") }
}

/// The crates of the sources, lowest first, and the feature that each belongs to.
pub const CRATES: &[(&str, &[&str])] = &[
    (
        "",
        &[
            "fibs_lines", "fibs_fields", "fibs_messages", "fibs_rules", "fibs_position", "fibs_picture",
            "fibs_commands", "fibs_events", "fibs_game", "fibs_session", "fibs_engine", "fibs_show",
        ],
    ),
    ("MODEL", &["fibs_model", "fibs_replay"]),
    ("C", &["fibs_c"]),
];

/// What is written by hand in place of a file: what works with sockets is left out, and handles of C are pointers.
pub const BY_HAND: &[(&str, &str, &str)] = &[
    ("fibs_model", "carriers", "mod carrier;\npub use carrier::{Broken, Carrier, InMemory, Way};\n"),
    ("fibs_model", "carriers/sockets", ""),
    ("fibs_engine", "connections/alive", ""),
    ("fibs_engine", "connections/dial", ""),
    ("fibs_engine", "connections/link", ""),
    ("fibs_engine", "connections/logging", ""),
    ("fibs_engine", "noting", ""),
    ("fibs_engine", "connections/pacing", ""),
    ("fibs_engine", "connections/refusing", ""),
    ("fibs_engine", "input", ""),
    ("fibs_engine", "standard", ""),
    ("fibs_engine", "streams", ""),
    (
        "fibs_c",
        "records/client_handle",
        "pub type ClientHandle = crate::handles::Handle<crate::fibs_session::Client>;\n",
    ),
    (
        "fibs_c",
        "records/directory_handle",
        "pub type DirectoryHandle = crate::handles::Handle<crate::fibs_messages::directory::Directory>;\n",
    ),
    ("fibs_c", "records/events_handle", "pub type EventsHandle = crate::handles::Handle<super::listener::Listener>;\n"),
    ("fibs_c", "records/lines_handle", "pub type LinesHandle = crate::handles::Handle<crate::fibs_lines::Lines>;\n"),
    ("fibs_c", "records/loose", ""),
    ("fibs_replay", "play_loop", ""),
];

/// Types of the crate that can be keys of a map, which a type of the text can't: the file, the type, and whether it may
/// grow by a variant or a field.
const KEYS: &[(&str, &str, bool)] = &[
    ("fibs_lines/line.rs", "struct Line<'a> {", false),
    ("fibs_fields/fault.rs", "enum Fault {", true),
    ("fibs_fields/fault.rs", "struct FieldFault {", true),
    ("fibs_fields/name.rs", "struct Name<'a> {", false),
    ("fibs_fields/word.rs", "struct Word<'a> {", false),
    ("fibs_fields/word.rs", "struct Tail<'a> {", false),
    ("fibs_messages/message.rs", "struct OwnInfo<'a> {", true),
    ("fibs_messages/message.rs", "struct WhoInfo<'a> {", true),
    ("fibs_messages/message.rs", "enum Message<'a> {", true),
    ("fibs_messages/line.rs", "enum Reading<'a> {", false),
    ("fibs_messages/directory/fault.rs", "enum DirectoryFault {", true),
    ("fibs_rules/step.rs", "struct Step {", false),
    ("fibs_rules/play.rs", "struct Play {", false),
    ("fibs_position/phase.rs", "enum Phase {", false),
    ("fibs_position/stake.rs", "enum Stake {", false),
    ("fibs_position/cube.rs", "enum CubeOwner {", false),
    ("fibs_position/direction.rs", "enum Direction {", false),
    ("fibs_position/decision.rs", "enum Decision {", false),
    ("fibs_position/position_fault.rs", "enum PositionFault {", true),
    ("fibs_position/disallowed.rs", "enum Disallowed {", true),
    ("fibs_commands/plain.rs", "enum Plain<'a> {", true),
    ("fibs_commands/plain.rs", "enum PlainFault {", true),
    ("fibs_events/event.rs", "enum Side {", false),
    ("fibs_events/event.rs", "enum Length {", false),
    ("fibs_events/event.rs", "enum Offer {", true),
    ("fibs_events/event.rs", "enum Event<'a> {", true),
    ("fibs_game/refusal.rs", "enum Refusal {", true),
    ("fibs_session/histories/refusal.rs", "enum PlainRefusal {", true),
    ("fibs_session/taken.rs", "struct Outstanding {", true),
];

/// What else the crate shows otherwise: the file, what stands there in the text, and in the crate. An error prints a
/// sentence (`src/errors.rs`), and a step goes to a lower place (`src/values.rs`).
const OTHERWISE: &[(&str, &str, &str)] = &[
    (
        "fibs_messages/directory/player.rs",
        "#[derive(Debug)]\npub struct Player {",
        "#[derive(Clone, Debug, PartialEq, Eq, Hash)]\n#[non_exhaustive]\npub struct Player {",
    ),
    ("fibs_rules/step.rs", "pub fn new(source: u8, target: u8)", "pub(crate) fn between(source: u8, target: u8)"),
    ("fibs_commands/command_reader.rs", "Step::new(source, target)", "Step::between(source, target)"),
    ("fibs_c/records/decisions.rs", "Step::new(step.source, step.target)", "Step::between(step.source, step.target)"),
    ("fibs_fields/fault.rs", "f.write_str(self.name())", SAYS),
    ("fibs_position/position_fault.rs", "f.pad(self.name())", SAYS),
    ("fibs_position/disallowed.rs", "f.pad(self.name())", SAYS),
    ("fibs_game/refusal.rs", "f.pad(self.name())", SAYS),
    ("fibs_commands/plain.rs", "\"BadName\"", "\"the name is not 1 to 64 printable bytes without space and colon\""),
    ("fibs_commands/plain.rs", "\"BadText\"", "\"the text is empty, or has a byte that is not printable ASCII\""),
    ("fibs_commands/plain.rs", "\"TooLong\"", "\"the text has too many bytes\""),
    ("fibs_messages/directory/fault.rs", "\"Memory\"", "\"memory ran out\""),
    ("fibs_messages/directory/fault.rs", "\"Full\"", "\"the directory has 4096 players\""),
];

const SAYS: &str = "f.pad(crate::errors::Says::says(self))";

/// Shows it so, in what was erased of these crates into a folder.
pub fn show(out: &Path, crates: &[&str]) -> Result<(), String> {
    let keys = KEYS.iter().map(|(file, item, grows)| {
        let grows = if *grows { "#[non_exhaustive]\n" } else { "" };
        (*file, format!(")]\npub {item}"), format!(", Hash)]\n{grows}pub {item}"))
    });
    let others = OTHERWISE.iter().map(|(file, from, to)| (*file, from.to_string(), to.to_string()));
    for (file, from, to) in keys.chain(others).filter(|row| crates.contains(&row.0.split('/').next().unwrap_or(""))) {
        let path = out.join(file);
        let text = fs::read_to_string(&path).map_err(|why| format!("{}: {why}", path.display()))?;
        if text.matches(&from).count() != 1 {
            return Err(format!("{file} has to have this once: {from}"));
        }
        fs::write(&path, text.replacen(&from, &to, 1)).map_err(|why| format!("{}: {why}", path.display()))?;
    }
    Ok(())
}

/// What a module is allowed: items that are not used from here, another style; the functions for C also pointers.
pub fn attributes(name: &str) -> String {
    let of_c = if name == "fibs_c" { ", unused_mut, unsafe_code" } else { "" };
    format!("#[allow(dead_code, unused_imports, unused_variables, clippy::all{of_c})]")
}
