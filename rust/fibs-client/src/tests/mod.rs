//! Tests of the engines and of what a player sees: what is printed of the server's lines, turns of a client with a stream,
//! conversations with a server, scripts, the command line, and a terminal. Allocations that are refused are in
//! `crates/fibs_tests`.
#![allow(clippy::type_complexity, clippy::needless_range_loop)]

#[cfg(unix)]
mod attention;
#[path = "../../../src/tests/boards.rs"]
#[allow(dead_code)]
mod boards;
mod connect;
mod flushing;
mod nobody;
mod objects;
mod once;
mod ordering;
mod outcomes;
mod play_loop;
mod plays;
mod program;
mod questions;
mod replay;
mod retrying;
mod scripts;
mod show;
mod terminal;
mod turns;
