//! Tests of all that scripts rest on: of what a line says, the rules, positions, commands and directories; of clients, of
//! the model server, its wires and its world. Worked lines and turns are in `tests/rows`, histories that the program or
//! the library for C shows in `tests/worlds`. What the prover has to see, and allocations that are refused, are in
//! `crates/fibs_tests`.
#![allow(clippy::type_complexity, clippy::needless_range_loop)]

mod boards;
mod client;
mod commands;
mod copied_lines;
mod directory;
mod events;
mod fields;
mod lines;
mod match_files;
mod messages;
mod positions;
mod server;
mod server_lines;
mod steps;
mod table;
mod turns;
mod wire;
mod world;
