//! Devices that fail once: what failed is not tried again by itself.

use crate::fibs_engine::dial::{Dial, Endpoint, TcpDial};
use crate::fibs_engine::logging::LoggedServer;
use crate::fibs_engine::pacing::{Pace, PacedServer};
use crate::fibs_test_tools::devices::FailsOnce;
use crate::fibs_test_tools::pipe::{After, Pipe, QUIET};
use crate::fibs_test_tools::stumbling::Stumbles;
use crate::rattle::HostRuntime;
use crate::rattle::cell::Cell;
use crate::rattle::io;
use crate::rattle::io::{ErrorKind, Read};
use crate::rattle::net::{IpAddr, Ipv4Addr, SocketAddr};
use crate::rattle::time::Duration;
use crate::tests::connect::conversed;
use crate::tests::nobody::Nobody;
use crate::tests::outcomes::assert_is;

/// A server whose connections fail at the second write, or take nothing by it.
struct StumblingDoor {
    error: Option<ErrorKind>,
}

impl Dial for StumblingDoor {
    type Stream = Stumbles<'static>;

    fn dial(&mut self) -> Result<Stumbles<'static>, ErrorKind> {
        Ok(Stumbles { input: Pipe::new(b"", 1, QUIET, 0), output: FailsOnce::of_kind(self.error, 1, 20) })
    }
}

/// Asserts that a login of which a part was written is not written once more.
fn assert_written_once(error: Option<ErrorKind>) {
    let mut door = StumblingDoor { error };
    let mut typed = Pipe::new(b"secret\nroll\n", 100, After::End, 0);
    let outcome = conversed(&mut door, &mut typed, 1000, 512);
    let wanted = b"lost\nrefused 2 Offline\n".as_slice();
    assert_is("a login", 0, &outcome, Ok(0), [wanted, b""]);
}

/// A login of which a part was written is not written once more: the server would read both as one line.
#[test]
fn a_login_is_written_once() {
    assert_written_once(Some(ErrorKind::BrokenPipe));
    assert_written_once(None);
}

/// A server that does not answer at first.
struct LateDoor {
    answers: bool,
}

impl Dial for LateDoor {
    type Stream = Pipe<'static>;

    fn dial(&mut self) -> Result<Pipe<'static>, ErrorKind> {
        let answers = self.answers;
        self.answers = true;
        if answers { Ok(Pipe::new(b"", 1, QUIET, 100)) } else { Err(ErrorKind::ConnectionRefused) }
    }
}

#[test]
fn a_connection_is_tried_when_it_is_asked_for() {
    let mut door = LateDoor { answers: false };
    let mut typed = Pipe::new(b"secret\nroll\nopen\nroll\n", 100, After::End, 0);
    let outcome = conversed(&mut door, &mut typed, 1000, 512);
    let wanted = b"no connection\nrefused 2 Offline\nrefused 3 NotReady\n".as_slice();
    assert_is("a connection", 0, &outcome, Ok(0), [wanted, b""]);
}

/// An address that is nobody's.
fn address_of(port: u16) -> SocketAddr {
    SocketAddr::new(IpAddr::V4(Ipv4Addr::new(192, 0, 2, 1)), port)
}

/// Why there is no connection.
fn why_none<D: Dial>(door: &mut D) -> Option<ErrorKind> {
    door.dial().err()
}

/// The same at a terminal.
fn why_none_paced(net: &Nobody<'_>, place: Endpoint<'_>) -> Option<ErrorKind> {
    why_none(&mut PacedServer::new(TcpDial::new(net, place), Pace { millis: 20, typed: None }))
}

/// The same with a log.
fn why_none_logged(net: &Nobody<'_>, place: Endpoint<'_>) -> Option<ErrorKind> {
    why_none(&mut LoggedServer::new(TcpDial::new(net, place), &HostRuntime, None))
}

/// The three of them, if the network is this one.
fn whys_none(net: &Nobody<'_>) -> [Option<ErrorKind>; 3] {
    let place = Endpoint { host: "fibs.example", port: 4321, quiet: Duration::from_millis(20) };
    [why_none(&mut TcpDial::new(net, place)), why_none_paced(net, place), why_none_logged(net, place)]
}

/// If no address of a name answers, each was tried once, and the last says why; with a log and at a terminal too.
#[test]
fn each_address_is_tried_once_and_the_last_says_why() {
    let tries = Cell::new((0, None));
    let net = Nobody::new([address_of(1), address_of(2)], &tries);
    let are_last = whys_none(&net) == [Some(ErrorKind::ConnectionRefused); 3];
    let (count, _) = tries.get();
    assert!(are_last && count == 6, "each once, for this reason");
}

/// A reader that ends, and gives more if it is asked again, as a terminal does.
struct EndsOnce<'a> {
    before: &'a [u8],
    ended: bool,
    after: &'a [u8],
}

impl Read for EndsOnce<'_> {
    fn read(&mut self, buf: &mut [u8]) -> io::Result<usize> {
        if !self.before.is_empty() {
            return self.before.read(buf);
        }
        if !self.ended {
            self.ended = true;
            return Ok(0);
        }
        self.after.read(buf)
    }
}

/// What is typed is over at its first end.
#[test]
fn nothing_is_read_after_the_end_of_what_is_typed() {
    let mut door = LateDoor { answers: true };
    let mut typed = EndsOnce { before: b"secret\n", ended: false, after: b"roll\n" };
    let outcome = conversed(&mut door, &mut typed, 1000, 512);
    assert_is("an end", 0, &outcome, Ok(0), [b"", b""]);
    let is_left = typed.after == b"roll\n".as_slice();
    assert!(is_left, "it was not read");
}
