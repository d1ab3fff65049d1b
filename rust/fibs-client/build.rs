//! Erases the proved sources of the program into `OUT_DIR`: see `../build/eraser.rs`.

#[path = "../build/eraser.rs"]
mod eraser;
#[path = "../build/program.rs"]
mod program;

use std::env;
use std::path::PathBuf;
use std::process::exit;

fn main() {
    let root = PathBuf::from(env::var_os("CARGO_MANIFEST_DIR").unwrap_or_default()).join("../..");
    let out = PathBuf::from(env::var_os("OUT_DIR").unwrap_or_default());
    let crates = program::erase(&root, &out).unwrap_or_else(|why| {
        eprintln!("{why}");
        exit(1)
    });
    println!("cargo::rerun-if-changed={}", root.join("crates.txt").display());
    for name in crates {
        println!("cargo::rerun-if-changed={}", root.join("crates").join(name).join("src").display());
    }
}
