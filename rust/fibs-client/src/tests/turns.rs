//! Turns of a client with a stream.

mod connected;
mod exchange;
mod flushing;
mod orders;
mod printing;
mod reporting;
