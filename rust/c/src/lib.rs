//! The functions of `fibs.h`.

pub use fibs::c::*;
