//! What Liftplum's sources use of Rattle's `std`, its runtime and its ports, in the shapes that they have there, over
//! Rust's `std` and the real crates. Written by hand: it is tested, and not proved.
//!
//! In Rattle a program reaches its devices by a handle, [`HostRuntime`], which the calls of [`net`], [`fs`], [`env`],
//! [`time`], [`mio`] and [`jiff`] take. A call that takes memory gives an error if there is none. `base` is what the
//! library uses too.

// its `io` and `time` are hidden by those here, and its tests are those of the library
#[allow(missing_docs, unused_imports, dead_code)]
#[path = "../../src/rattle.rs"]
mod base;
pub mod clap;
pub mod env;
pub mod fs;
pub mod io;
pub mod jiff;
pub mod libc;
pub mod may;
pub mod mio;
pub mod net;
pub mod os;
pub mod process;
mod runtime;
pub mod time;

pub use base::*;
pub use runtime::{HostRuntime, start};
