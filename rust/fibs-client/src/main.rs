//! `fibs`: a client for FIBS, the First Internet Backgammon Server.
//!
//! The modules are Liftplum's sources without their proofs, erased when this is built. In Rattle each of their
//! functions is proved to meet its contract. What is proved is the program of Rattle: that this one does the same is
//! tested.
#![cfg_attr(all(unix, not(test)), no_main)]

use rattle_std as rattle;

include!(concat!(env!("OUT_DIR"), "/modules.rs"));

#[cfg(test)]
mod tests;

/// The program, without Rust's own start: see [`rattle::start`].
#[cfg(all(unix, not(test)))]
// SAFETY: no other function of this program has this name.
#[unsafe(no_mangle)]
extern "C" fn main(_count: i32, _words: *const *const u8) -> i32 {
    rattle::start();
    i32::from(fibs::main(rattle::HostRuntime).code())
}

#[cfg(any(not(unix), test))]
fn main() -> std::process::ExitCode {
    std::process::ExitCode::from(fibs::main(rattle::HostRuntime).code())
}
