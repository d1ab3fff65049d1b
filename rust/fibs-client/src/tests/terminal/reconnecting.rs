//! A connection that has ended is opened again, if the user asks for it.

use super::lines::{FIRST_BOARD, SETTINGS, WELCOME};
use super::seats::{Cue, Cue::Types, assert_ends, assert_wanted, due_after, due_by, plain_settings, shown, shown_by};
use crate::rattle::io;
use crate::rattle::time::{Clock, Duration};
use std::cell::Cell;

const CLOSED: &str = "lost: open connects again, quit ends\n";

const LEFT: &str = "closed, as you asked: open connects again, quit ends\n";

/// What follows what the user has typed, and by which row it ends.
type LossRow = (&'static [Cue<'static>], &'static str);

/// It is off unless it is asked for, and after the user has taken leave, has said that it stays closed, or two logins
/// have failed one after the other.
static LOSSES: [LossRow; 16] = [
    (&[Cue::Loses], CLOSED),
    (&[Types(b"reconnect"), Cue::Loses], "lost: connecting again in 1 s; stay leaves it closed, quit ends\n"),
    (&[Types(b"RECONNECT "), Types(b"stay"), Cue::Loses], CLOSED),
    (&[Types(b"reconnect"), Types(b"bye"), Types(b"bye"), Cue::Loses], LEFT),
    // the first one has only asked
    (
        &[Types(b"reconnect"), Types(b"bye"), Cue::Loses],
        "lost: connecting again in 1 s; stay leaves it closed, quit ends\n",
    ),
    (&[Types(b"reconnect"), Types(b"send exit"), Cue::Loses], LEFT),
    (&[Types(b"reconnect"), Types(b"send quit"), Cue::Loses], LEFT),
    (&[Types(b"bye"), Types(b"bye"), Cue::Loses], LEFT),
    // what was asked is no leave
    (&[Types(b"bye"), Cue::Loses], CLOSED),
    // what was typed on the connection before counts no more
    (
        &[Types(b"reconnect"), Types(b"bye"), Types(b"bye"), Cue::Loses, Cue::Opens, Cue::Hears(WELCOME), Cue::Loses],
        "lost: connecting again in 1 s; stay leaves it closed, quit ends\n",
    ),
    (
        &[Types(b"reconnect"), Cue::Loses, Cue::Opens, Cue::Loses],
        "lost: connecting again in 2 s; stay leaves it closed, quit ends\n",
    ),
    (&[Types(b"reconnect"), Cue::Loses, Cue::Opens, Cue::Loses, Cue::Opens, Cue::Loses], CLOSED),
    (
        &[Types(b"reconnect"), Cue::Loses, Cue::Opens, Cue::Loses, Cue::Opens, Cue::Hears(WELCOME), Cue::Loses],
        "lost: connecting again in 4 s; stay leaves it closed, quit ends\n",
    ),
    (&[Cue::Loses, Types(b"reconnect")], "connecting in 1 s; stay leaves it closed, quit ends\n"),
    (&[Cue::Loses, Cue::Fails], "no connection to fibs.com:4321: connection refused; open tries again\n"),
    // it was not lost: the program's first connection is the user's
    (&[Types(b"reconnect"), Cue::Fails], "no connection to fibs.com:4321: connection refused; open tries again\n"),
];

#[test]
fn what_follows_a_loss_is_said() {
    for (steps, row) in &LOSSES {
        assert_ends(plain_settings(), &FIRST_BOARD, steps, row);
    }
}

/// The waits become longer, up to a minute, whatever the server does but to greet for a while.
#[test]
fn the_waits_become_longer() {
    let mut steps = FIRST_BOARD.to_vec();
    steps.extend([Types(b"reconnect"), Cue::Loses]);
    for seconds in [1, 2, 4, 8, 16, 32, 60, 60, 60] {
        steps.push(Cue::Rests);
        assert_eq!(due_after(&steps), Some(Duration::from_secs(seconds)));
        // the program types it, as the user can
        steps.extend([Types(b"open"), Cue::Fails]);
    }
    let text = shown(plain_settings(), &[], &steps);
    let row = "no connection to fibs.com:4321: connection refused; again in 60 s, or stay\n";
    assert_wanted(text.ends_with(row), &text, row);
    steps.extend([Types(b"stay"), Cue::Rests]);
    assert_eq!(due_after(&steps), None);
}

/// What the user can do before the time has come.
static DUES: [(&[Cue<'static>], Option<u64>); 7] = [
    (&[Cue::Rests], Some(1)),
    // other lines change nothing
    (&[Cue::Rests, Types(b"players"), Cue::Rests], Some(1)),
    (&[Cue::Rests, Types(b"stay"), Cue::Rests], None),
    (&[Types(b"open"), Cue::Opens, Cue::Rests], None),
    (&[Types(b"open"), Cue::Opens, Cue::Hears(WELCOME), Cue::Hears(SETTINGS), Cue::Rests], None),
    (&[Cue::Rests, Types(b"open"), Cue::Fails, Cue::Rests], Some(2)),
    (&[Types(b"stay"), Types(b"open"), Cue::Fails, Cue::Rests], None),
];

#[test]
fn a_typed_line_ends_the_wait() {
    for (steps, seconds) in &DUES {
        let mut all = FIRST_BOARD.to_vec();
        all.extend([Types(b"reconnect"), Cue::Loses]);
        all.extend_from_slice(steps);
        assert_eq!(due_after(&all), seconds.map(Duration::from_secs));
    }
    assert_eq!(due_after(&[Cue::Loses, Cue::Rests]), None);
}

/// A clock on which a second passes each time that one looks.
struct Passing(Cell<u64>);

impl Clock for Passing {
    fn monotonic(&self) -> io::Result<Duration> {
        self.0.set(self.0.get() + 1);
        Ok(Duration::from_secs(self.0.get()))
    }

    fn since_1970(&self) -> io::Result<Duration> {
        Ok(Duration::from_secs(0))
    }
}

/// When it is due does not change while the user types; after a connection that has lasted a minute the waits begin
/// anew.
#[test]
fn a_wait_is_measured_from_its_beginning() {
    let mut steps = FIRST_BOARD.to_vec();
    steps.extend([Types(b"reconnect"), Cue::Loses, Cue::Rests]);
    let due = due_by(Passing(Cell::new(0)), &steps);
    assert!(due.is_some());
    steps.extend([Cue::Rests, Types(b"players"), Cue::Rests]);
    assert_eq!(due_by(Passing(Cell::new(0)), &steps), due);
    for (lasted, wait) in [(30, 2), (57, 2), (58, 1), (80, 1)] {
        let mut steps = steps.clone();
        steps.extend([Types(b"open"), Cue::Opens, Cue::Hears(WELCOME)]);
        steps.extend(std::iter::repeat_n(Cue::Hears(SETTINGS), lasted));
        steps.push(Cue::Loses);
        let text = shown_by(Passing(Cell::new(0)), &steps);
        let row = format!("lost: connecting again in {wait} s; stay leaves it closed, quit ends\n");
        assert_wanted(text.ends_with(&row), &text, &row);
    }
}

/// Each connection lasts from when it was made: one that was short is tried again later than the one before, however long
/// that was.
#[test]
fn a_connection_lasts_from_when_it_was_made() {
    let mut steps = FIRST_BOARD.to_vec();
    steps.push(Types(b"reconnect"));
    steps.extend(std::iter::repeat_n(Cue::Hears(SETTINGS), 80));
    steps.extend([Cue::Loses, Types(b"open"), Cue::Opens, Cue::Hears(WELCOME), Cue::Loses]);
    let text = shown_by(Passing(Cell::new(0)), &steps);
    let row = "lost: connecting again in 2 s; stay leaves it closed, quit ends\n";
    assert_wanted(text.ends_with(row), &text, row);
}

/// What is typed as `open` ends the wait, of which a new one begins when that fails.
#[test]
fn open_ends_the_wait_at_once() {
    let mut steps = FIRST_BOARD.to_vec();
    steps.extend([Types(b"reconnect"), Cue::Loses, Cue::Rests]);
    let due = due_by(Passing(Cell::new(0)), &steps);
    steps.extend([Types(b"open"), Cue::Rests]);
    assert!(due_by(Passing(Cell::new(0)), &steps) > due, "a wait that has ended goes on");
}

/// A clock on which so many milliseconds pass each time that one looks, after a start.
struct Ticking(Cell<u64>, u64);

impl Clock for Ticking {
    fn monotonic(&self) -> io::Result<Duration> {
        self.0.set(self.0.get() + self.1);
        Ok(Duration::from_millis(self.0.get()))
    }

    fn since_1970(&self) -> io::Result<Duration> {
        Ok(Duration::from_secs(0))
    }
}

/// That a login was refused is said two seconds after the connection was made, if others come or go and no greeting
/// comes.
#[test]
fn a_server_has_two_seconds_to_greet() {
    const ROW: &str = "Not logged in: wrong name or password? If nothing follows, type quit.\n";
    for line in [b"7 carol carol logs in.\r\n".as_slice(), b"8 carol carol drops connection.\r\n"] {
        let steps = [Cue::Opens, Cue::Hears(line), Cue::Rests];
        // three looks: the connection is made at the first, and the user may type at the third
        for (millis, is_said) in [(1000, true), (999, false), (500, false)] {
            let text = shown_by(Ticking(Cell::new(60_000), millis), &steps);
            assert_eq!(text.ends_with(ROW), is_said, "{millis} ms: {text}");
        }
    }
}
