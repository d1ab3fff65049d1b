//! What goes as if it were typed: when it is due, and where it is put in what is typed.

use super::connect::Door;
use crate::fibs_connect::watch::{First, Patience, Watch};
use crate::fibs_engine::dial::Dial;
use crate::fibs_terminal::FixLine;
use crate::fibs_terminal::ordering::{Dues, OrderedInput, OrderedServer, OrderedWatch};
use crate::fibs_test_tools::pipe::{After, Pipe};
use crate::rattle::io;
use crate::rattle::io::Read;
use crate::rattle::time::{Clock, Duration};
use std::cell::Cell;

/// What is read of what is typed, in pieces of three bytes, if the order is due from the piece with this number on.
fn read_with_order(typed: &[u8], due: usize) -> String {
    let dues = Dues::new();
    let mut pipe = Pipe::new(typed, 3, After::End, 0);
    let mut input = OrderedInput::new(&mut pipe, &dues);
    let mut text = Vec::new();
    let mut room = [0; 64];
    for number in 0.. {
        if number == due {
            dues.order.set(true);
        }
        match input.read(&mut room).expect("it is read") {
            0 => break,
            count => text.extend_from_slice(&room[..count]),
        }
    }
    String::from_utf8(text).expect("ASCII")
}

/// It is never put into a line that is half typed.
#[test]
fn an_order_comes_between_two_lines() {
    assert_eq!(read_with_order(b"roll\nplays\n", 0), "order roll\nroll\nplays\n");
    // `rol` was read, and then `l` with its end and `p`: a piece ends with a line only at the end
    assert_eq!(read_with_order(b"roll\nplays\n", 1), "roll\nplays\norder roll\n");
    assert_eq!(read_with_order(b"hi roll\nok\n", 1), "hi roll\nok\norder roll\n");
    assert_eq!(read_with_order(b"ok\nroll\n", 1), "ok\norder roll\nroll\n");
}

/// So is a line of `fix`, once.
#[test]
fn a_line_of_fix_comes_between_two_lines() {
    let dues = Dues::new();
    let mut pipe = Pipe::new(b"roll\nplays\n", 3, After::End, 0);
    let mut input = OrderedInput::new(&mut pipe, &dues);
    let mut text = Vec::new();
    let mut room = [0; 64];
    for number in 0.. {
        if number == 1 {
            dues.fix.set(Some(FixLine::Bye));
        }
        match input.read(&mut room).expect("it is read") {
            0 => break,
            count => text.extend_from_slice(&room[..count]),
        }
    }
    assert_eq!(String::from_utf8(text).expect("ASCII"), "roll\nplays\nbye\n");
}

/// It is due once a connection was made, and only then; if it is asked for.
#[test]
fn an_order_is_due_on_a_connection() {
    for (is_asked, connections) in [(true, 1), (true, 0), (false, 1), (false, 0)] {
        let dues = Dues::new();
        let mut door = Door { input: b"", room: 64, connections };
        let made = OrderedServer::new(&mut door, is_asked, &dues).dial().is_ok();
        assert_eq!((made, dues.order.get()), (connections == 1, is_asked && connections == 1));
    }
}

/// A clock that stands still until it is moved.
#[derive(Clone, Copy)]
struct Moved<'a>(&'a Cell<u64>);

impl Clock for Moved<'_> {
    fn monotonic(&self) -> io::Result<Duration> {
        Ok(Duration::from_millis(self.0.get()))
    }

    fn since_1970(&self) -> io::Result<Duration> {
        Ok(Duration::from_secs(0))
    }
}

/// Waits of which the times are kept: in one that has a time the clock moves by a part of it, and nothing is ready; one
/// without a time hears the server.
struct Waits<'a> {
    clock: &'a Cell<u64>,
    parts: u64,
    times: Vec<u64>,
}

impl Watch for Waits<'_> {
    fn first(&mut self) -> First {
        self.times.push(u64::MAX);
        First::Heard
    }
}

impl Patience for Waits<'_> {
    fn first_within(&mut self, time: Duration) -> Option<First> {
        let time = time.as_millis() as u64;
        self.times.push(time);
        self.clock.set(self.clock.get() + (time / self.parts).max(1));
        None
    }
}

/// When `open` is due, from when on the wait is watched, in how many parts it wakes; how long each wait is.
type WaitRow = (Option<u64>, u64, u64, &'static [u64]);

/// Nothing wakes it but what is ready, if `open` is never due; if it is due at a time, that is waited for, and once if
/// nothing else ends the wait.
#[test]
fn open_is_typed_when_it_is_due() {
    let rows: [WaitRow; 5] = [
        (None, 0, 1, &[u64::MAX]),
        (Some(4000), 0, 1, &[4000]),
        (Some(4000), 1000, 2, &[3000, 1500, 750, 375, 188, 94, 47, 24, 12, 6, 3, 2, 1]),
        (Some(4000), 4000, 1, &[]),
        (Some(4000), 9000, 1, &[]),
    ];
    for (at, now, parts, times) in rows {
        let (dues, clock) = (Dues::new(), Cell::new(now));
        dues.open_at.set(at.map(Duration::from_millis));
        let mut waits = Waits { clock: &clock, parts, times: Vec::new() };
        let first = OrderedWatch::new(&mut waits, Moved(&clock), &dues).first();
        assert_eq!(waits.times, times, "{at:?} {now}");
        let mut pipe = Pipe::new(b"roll\n", 9, After::End, 0);
        let mut room = [0; 64];
        let mut input = OrderedInput::new(&mut pipe, &dues);
        let count = input.read(&mut room).expect("it is read");
        let wanted: (First, &[u8]) = if at.is_some() { (First::Typed, b"open\n") } else { (First::Heard, b"roll\n") };
        assert_eq!((first, &room[..count]), wanted);
        // it is typed once, and nothing else; no time is waited for any more
        assert_eq!((dues.open_at.get(), dues.open.get()), (None, false));
        let count = input.read(&mut room).expect("it is read");
        let next: &[u8] = if at.is_some() { b"roll\n" } else { b"" };
        assert_eq!(&room[..count], next);
    }
}

/// Something is ready in the first wait; in the next one nothing is, until its time has passed.
struct Ready<'a> {
    clock: &'a Cell<u64>,
    first: Option<First>,
}

impl Watch for Ready<'_> {
    fn first(&mut self) -> First {
        panic!("it waits without a time");
    }
}

impl Patience for Ready<'_> {
    fn first_within(&mut self, time: Duration) -> Option<First> {
        let first = self.first.take();
        if first.is_none() {
            self.clock.set(self.clock.get() + time.as_millis() as u64);
        }
        first
    }
}

/// What is ready before `open` is due ends the wait, and leaves `open` to its time.
#[test]
fn what_is_ready_comes_before_open() {
    for ready in [First::Typed, First::Heard] {
        let (dues, clock) = (Dues::new(), Cell::new(0));
        dues.open_at.set(Some(Duration::from_millis(4000)));
        let mut watch = Ready { clock: &clock, first: Some(ready) };
        assert_eq!(OrderedWatch::new(&mut watch, Moved(&clock), &dues).first(), ready);
        assert_eq!((clock.get(), dues.open.get(), dues.open_at.get().is_some()), (0, false, true));
    }
}

/// A server that asks for the login once more has refused it: that is the end, and no `open`.
#[test]
fn a_refused_login_is_the_end() {
    for (input, is_refused) in [(&b"login: \r\nlogin: "[..], true), (b"login: ", false)] {
        let dues = Dues::new();
        let mut door = Door { input, room: 64, connections: 1 };
        let mut stream = OrderedServer::new(&mut door, false, &dues).dial().expect("there is a connection");
        let mut room = [0; 64];
        while stream.read(&mut room).is_ok_and(|count| count > 0) {}
        assert_eq!((dues.end.get(), dues.open.get()), (is_refused, false));
    }
}

/// What is due, alone, is as something typed: nothing is waited for.
#[test]
fn what_is_due_is_not_waited_for() {
    let rows: [(&str, fn(&Dues)); 5] = [
        ("order", |dues| dues.order.set(true)),
        ("board", |dues| dues.board.set(true)),
        ("fix", |dues| dues.fix.set(Some(FixLine::Bye))),
        ("end", |dues| dues.end.set(true)),
        ("open", |dues| dues.open.set(true)),
    ];
    for (name, falls_due) in rows {
        let (dues, clock) = (Dues::new(), Cell::new(0));
        falls_due(&dues);
        let mut waits = Waits { clock: &clock, parts: 1, times: Vec::new() };
        let first = OrderedWatch::new(&mut waits, Moved(&clock), &dues).first();
        assert_eq!((first, waits.times), (First::Typed, vec![]), "{name}");
    }
}

/// It is never put into a line that is half typed.
#[test]
fn open_comes_between_two_lines() {
    let dues = Dues::new();
    let mut pipe = Pipe::new(b"say hello\n", 4, After::End, 0);
    let mut input = OrderedInput::new(&mut pipe, &dues);
    let (mut text, mut room) = (Vec::new(), [0; 64]);
    for number in 0.. {
        if number == 1 {
            dues.open.set(true);
        }
        match input.read(&mut room).expect("it is read") {
            0 => break,
            count => text.extend_from_slice(&room[..count]),
        }
    }
    assert_eq!(text, b"say hello\nopen\n");
}

/// What is read of what is typed, in pieces of three bytes, and of what goes at its end, in as many reads.
fn read_past_end(typed: &[u8], reads: usize) -> String {
    let dues = Dues::new();
    let mut pipe = Pipe::new(typed, 3, After::End, 0);
    let mut input = OrderedInput::new(&mut pipe, &dues);
    input.quit_at_end();
    let (mut text, mut room) = (Vec::new(), [0; 64]);
    for _ in 0..reads {
        let count = input.read(&mut room).expect("it is read");
        text.extend_from_slice(&room[..count]);
    }
    String::from_utf8(text).expect("ASCII")
}

/// Of lines that are due at once one goes by each read, and leaves the others due; the end goes before all of them, and
/// stays.
#[test]
fn lines_that_are_due_at_once_go_one_by_one() {
    let rows: [(bool, &[&[u8]]); 2] = [
        (false, &[b"open\n", b"order roll\n", b"board\n", b"bye\n", b"roll\n"]),
        (true, &[b"quit\n", b"quit\n", b"quit\n"]),
    ];
    for (ends, wanted) in rows {
        let dues = Dues::new();
        for due in [&dues.open, &dues.order, &dues.board] {
            due.set(true);
        }
        dues.fix.set(Some(FixLine::Bye));
        dues.end.set(ends);
        let mut pipe = Pipe::new(b"roll\n", 9, After::End, 0);
        let (mut input, mut room) = (OrderedInput::new(&mut pipe, &dues), [0; 64]);
        for wanted in wanted {
            let count = input.read(&mut room).expect("it is read");
            assert_eq!(room[..count].escape_ascii().to_string(), wanted.escape_ascii().to_string());
        }
        assert_eq!((dues.end.get(), dues.open.get(), dues.fix.get().is_some()), (ends, ends, ends));
    }
}

/// The program says that its input is a terminal once the password was read, behind which a line may be begun.
#[test]
fn the_end_of_a_terminal_ends_a_line_that_was_begun_before() {
    let dues = Dues::new();
    let mut pipe = Pipe::new(b"rol", 9, After::End, 0);
    let (mut input, mut room) = (OrderedInput::new(&mut pipe, &dues), [0; 64]);
    assert_eq!(input.read(&mut room).expect("it is read"), 3);
    input.quit_at_end();
    let count = input.read(&mut room).expect("it is read");
    assert_eq!(&room[..count], b"\nquit\n");
}

/// At a terminal the end goes as `quit`, each time, and ends a line that was begun.
#[test]
fn the_end_of_a_terminal_goes_as_quit() {
    assert_eq!(read_past_end(b"", 2), "quit\nquit\n");
    assert_eq!(read_past_end(b"roll\n", 3), "roll\nquit\n");
    assert_eq!(read_past_end(b"rol", 3), "rol\nquit\nquit\n");
    // it has no room in part
    let dues = Dues::new();
    let mut pipe = Pipe::new(b"", 3, After::End, 0);
    let mut input = OrderedInput::new(&mut pipe, &dues);
    assert_eq!(input.read(&mut [0; 64]).expect("it is read"), 0);
    input.quit_at_end();
    assert_eq!(input.read(&mut [0; 4]).expect("it is read"), 0);
}
