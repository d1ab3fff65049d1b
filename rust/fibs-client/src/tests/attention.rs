//! A server is heard while a person types: whichever comes first ends the wait.

use crate::fibs_engine::pacing::{Attention, Pace};
use std::io::{Read, Write};
use std::os::fd::AsRawFd;
use std::os::unix::net::UnixStream;

/// Longer than a test may take.
const FOR_EVER: u64 = 60_000;

/// A server, a keyboard, and who waits for both, so many milliseconds.
fn table_of(millis: u64) -> (UnixStream, UnixStream, UnixStream, UnixStream, Attention) {
    let (server, heard) = UnixStream::pair().unwrap();
    let (keyboard, typed) = UnixStream::pair().unwrap();
    let pace = Pace { millis, typed: Some(typed.as_raw_fd()) };
    let attention = Attention::new(heard.as_raw_fd(), pace).unwrap();
    (server, heard, keyboard, typed, attention)
}

/// What the server has said is read once, also if something is typed; the second time what is typed comes first.
#[test]
fn what_is_typed_ends_the_wait_and_hides_nothing_that_has_come() {
    let (mut server, mut heard, mut keyboard, _typed, attention) = table_of(FOR_EVER);
    server.write_all(b"8").unwrap();
    assert!(attention.may_read(false) && attention.may_read(true), "the server speaks, and nothing is typed");
    keyboard.write_all(b"roll\n").unwrap();
    assert!(attention.may_read(false), "the server has spoken before the line is looked at");
    assert!(!attention.may_read(true), "it was heard, and a line is typed");
    heard.read_exact(&mut [0]).unwrap();
    assert!(!attention.may_read(false), "the server is quiet, and a line is typed");
}

/// If neither comes the wait ends by itself.
#[test]
fn a_quiet_server_is_not_waited_for() {
    let (_server, _heard, _keyboard, _typed, attention) = table_of(1);
    assert!(!attention.may_read(false));
}

/// Each end is something that can be read.
#[test]
fn a_server_or_a_keyboard_that_is_gone_ends_the_wait() {
    let (server, _heard, _keyboard, _typed, attention) = table_of(FOR_EVER);
    drop(server);
    assert!(attention.may_read(false), "the connection is over: a read says so");
    let (_server, _heard, keyboard, _typed, attention) = table_of(FOR_EVER);
    drop(keyboard);
    assert!(!attention.may_read(false), "nothing more is typed");
}

/// What is no terminal is not waited for.
#[test]
fn without_a_keyboard_each_read_waits_by_itself() {
    assert!(Attention::new(0, Pace { millis: 500, typed: None }).is_none());
}
