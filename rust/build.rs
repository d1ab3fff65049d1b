//! Erases the proved sources into `OUT_DIR`: see `build/eraser.rs`.

#[path = "build/eraser.rs"]
mod eraser;
#[path = "build/library.rs"]
mod library;

use library::{BY_HAND, CRATES, attributes, show};
use std::env;
use std::path::PathBuf;
use std::process::exit;

fn main() {
    let is_wanted = |feature: &str| feature.is_empty() || env::var_os(format!("CARGO_FEATURE_{feature}")).is_some();
    let crates: Vec<&str> = CRATES.iter().filter(|part| is_wanted(part.0)).flat_map(|part| part.1).copied().collect();
    let plan = eraser::Plan { crates: &crates, by_hand: BY_HAND, contracts: true, attributes };
    let root = PathBuf::from(env::var_os("CARGO_MANIFEST_DIR").unwrap_or_default());
    let sources = library::sources(&root);
    let out = PathBuf::from(env::var_os("OUT_DIR").unwrap_or_default());
    if let Err(why) = eraser::erase_all(&sources, &out, &plan).and_then(|_| show(&out, &crates)) {
        eprintln!("{why}");
        exit(1);
    }
    for name in crates {
        println!("cargo::rerun-if-changed={}", sources.join(name).join("src").display());
    }
}
