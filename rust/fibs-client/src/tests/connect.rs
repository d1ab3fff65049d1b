//! Conversations, with streams in memory and on real sockets.

use super::outcomes::assert_is;
use crate::fibs_connect::watch::Unwatched;
use crate::fibs_connect::{converse, converse_with};
use crate::fibs_engine::dial::Dial;
use crate::fibs_engine::fault::EngineFault;
use crate::fibs_test_tools::devices::Endless;
use crate::fibs_test_tools::named::Named;
use crate::fibs_test_tools::outcome::Outcome;
use crate::fibs_test_tools::pipe::{After, FAULT, Pipe, QUIET};
use crate::fibs_test_tools::text::Text;
use crate::rattle::io;
use crate::rattle::io::{ErrorKind, Read};
use crate::rattle::net::{Net, SocketAddr, TcpListener, TcpStream};

/// A server in memory: what each connection gives, how many bytes it takes, and how many connections there are.
pub struct Door<'a> {
    pub input: &'a [u8],
    pub room: usize,
    pub connections: u32,
}

impl<'a> Dial for Door<'a> {
    type Stream = Pipe<'a>;

    fn dial(&mut self) -> Result<Pipe<'a>, ErrorKind> {
        if self.connections == 0 {
            return Err(ErrorKind::ConnectionRefused);
        }
        self.connections -= 1;
        Ok(Pipe::new(self.input, 7, QUIET, self.room))
    }
}

/// What is typed, how often a connection can be made, and the result.
struct Case {
    name: &'static str,
    typed: &'static [u8],
    connections: u32,
    status: u8,
    out: &'static [u8],
    err: &'static [u8],
}

static WELCOME: &[u8] = b"1 ann 1041253132 localhost\r\n\
    5 someplayer mgnu_advanced - 0 0 1912.15 827 8 1040515752 192.168.143.5 3DFiBs -\r\n\
    5 bob - - 1 0 1500.5 0 3 1040515752 host - -\r\n";

static CASES: [Case; 8] = [
    Case { name: "nothing is typed", typed: b"", connections: 1, status: 3, out: b"", err: b"fault 2 BadText\n" },
    Case {
        name: "the password is the empty line",
        typed: b"\r\nroll\n",
        connections: 1,
        status: 3,
        out: b"",
        err: b"fault 2 BadText\n",
    },
    Case {
        name: "the password keeps a return without a line end",
        typed: b"secret\r",
        connections: 1,
        status: 3,
        out: b"",
        err: b"fault 2 BadText\n",
    },
    Case { name: "only the password is typed", typed: b"secret", connections: 1, status: 0, out: b"", err: b"" },
    Case {
        name: "nobody answers",
        typed: b"secret\n\nroll\r\nplayers\nopen\nquit",
        connections: 0,
        status: 0,
        out: b"no connection\nrefused 2 Offline\nno connection\n",
        err: b"",
    },
    Case {
        name: "players are listed, and lines after quit are not answered",
        typed: b"secret\n\nopen\nplayers\nquit\ndance\n",
        connections: 1,
        status: 0,
        out: b"message 1 ann 1041253132 localhost\n\
            message 5 someplayer mgnu_advanced - 0 0 1912.15 827 8 1040515752 192.168.143.5 3DFiBs -\n\
            message 5 bob - - 1 0 1500.5 0 3 1040515752 host - -\n\
            refused 1 AlreadyOpen\nplayer someplayer 1912.15\nplayer bob 1500.50\n",
        err: b"",
    },
    Case {
        name: "a line is typed that is no command",
        typed: b"secret\nplayers \nOpen\nquit",
        connections: 0,
        status: 0,
        out: b"no connection\nunknown\nunknown\n",
        err: b"",
    },
    Case {
        name: "the last line has no end",
        typed: b"secret\nroll",
        connections: 0,
        status: 0,
        out: b"no connection\nrefused 2 Offline\n",
        err: b"",
    },
];

/// How a conversation ends in which what is typed is read so often at most, and what is printed on both writers, of
/// which the first takes `room` bytes.
pub fn conversed<D: Dial>(door: &mut D, typed: &mut impl Read, reads: u32, room: usize) -> Outcome {
    let mut out = Pipe::new(b"", 1, After::End, room);
    let mut err = Pipe::new(b"", 1, After::End, 1024);
    let watch = &mut Unwatched;
    let ending = converse_with(door, b"ann", reads, typed, watch, &mut out, &mut err);
    Outcome::new(ending, out.output(), err.output())
}

/// Asserts how a conversation goes whose typed bytes come in reads of at most `most`.
fn assert_case(case: &Case, most: usize) {
    let mut door = Door { input: WELCOME, room: 4096, connections: case.connections };
    let mut typed = Pipe::new(case.typed, most, After::End, 0);
    let outcome = conversed(&mut door, &mut typed, 1000, 1024);
    let printed = [case.out, case.err];
    assert_is(case.name, most, &outcome, Ok(case.status), printed);
}

/// However the typed bytes come.
#[test]
fn answers_what_is_typed() {
    for case in &CASES {
        for most in [1, 2, 7, 1000] {
            assert_case(case, most);
        }
    }
}

/// Asserts what is printed in a conversation whose connections take so many bytes each.
fn assert_printed(room: usize, wanted: &[u8]) {
    let mut door = Door { input: b"", room, connections: 2 };
    let mut typed = Pipe::new(b"secret\nroll\nopen\n", 100, After::End, 0);
    let outcome = conversed(&mut door, &mut typed, 1000, 1024);
    assert_is("a login", room, &outcome, Ok(0), [wanted, b""]);
}

/// A login that can't be written whole ends its connection, and the next one is another.
#[test]
fn each_write_of_a_login_that_fails_loses_the_connection() {
    let login = b"login fibs_client 1008 ann secret\r\n";
    for room in 0..login.len() {
        assert_printed(room, b"lost\nrefused 2 Offline\nlost\n");
    }
    assert_printed(login.len(), b"refused 3 NotReady\nrefused 1 AlreadyOpen\n");
}

/// A server that nobody reaches.
fn no_door() -> Door<'static> {
    Door { input: b"", room: 0, connections: 0 }
}

/// If the writer takes so many bytes, it has got these, and the end is a fault.
fn assert_written(room: usize, wanted: &[u8]) {
    let mut typed = Pipe::new(b"secret\nroll\n", 100, After::End, 0);
    let outcome = conversed(&mut no_door(), &mut typed, 1000, room);
    let ending = Err(EngineFault::Device);
    assert_is("a writer", room, &outcome, ending, [wanted, b""]);
}

#[test]
fn a_writer_that_fails_is_a_fault() {
    let wanted: &[u8] = b"no connection\nrefused 2 Offline\n";
    for room in 0..wanted.len() {
        assert_written(room, &wanted[..room]);
    }
}

/// Whether the end is a fault, if the reader fails after these bytes.
fn stops_after(typed: &[u8]) -> bool {
    let mut reader = Pipe::new(typed, 100, FAULT, 0);
    let outcome = conversed(&mut no_door(), &mut reader, 1000, 100);
    outcome.ending == Err(EngineFault::Device)
}

#[test]
fn a_reader_that_fails_is_a_fault() {
    let whole: &[u8] = b"secret\nroll\n";
    for length in 0..whole.len() {
        let has_stopped = stops_after(&whole[..length]);
        assert!(has_stopped, "at {length}");
    }
}

/// Whether a conversation whose typed lines have no end is a fault once they were read so often.
fn ends_after(reads: u32) -> bool {
    let mut typed = Endless::new();
    let outcome = conversed(&mut no_door(), &mut typed, reads, 1024);
    outcome.ending == Err(EngineFault::Device) && typed.asked() == reads
}

/// What is typed is read so often, and no more.
#[test]
fn typed_lines_without_end_end() {
    for reads in [0, 1, 5] {
        assert!(ends_after(reads), "{reads} reads");
    }
}

/// How a conversation over sockets ends, and what is printed on both writers.
fn conversed_at<N: Net<Stream = TcpStream>>(net: &N, host: &str, port: u16, typed: &[u8]) -> Outcome {
    let mut typed = Pipe::new(typed, 100, After::End, 0);
    let mut out = Pipe::new(b"", 1, After::End, 100);
    let mut err = Pipe::new(b"", 1, After::End, 100);
    let ending = converse(net, host, port, b"ann", &mut typed, &mut out, &mut err);
    Outcome::new(ending, out.output(), err.output())
}

/// A listener at a free port of this machine.
fn listening<N: Net<Listener = TcpListener, Stream = TcpStream>>(rt: &N) -> TcpListener {
    TcpListener::bind(rt, "127.0.0.1:0").expect("it listens")
}

/// Where a listener is reached.
fn address_of(listener: &TcpListener) -> SocketAddr {
    listener.local_addr().expect("it has an address")
}

/// An address of this machine at which nothing listens.
fn free_address<N: Net<Listener = TcpListener, Stream = TcpStream>>(rt: &N) -> SocketAddr {
    address_of(&listening(rt))
}

#[test]
fn a_port_where_nothing_listens_gives_no_connection() {
    let rt = crate::rattle::HostRuntime;
    let outcome = conversed_at(&rt, "127.0.0.1", free_address(&rt).port(), b"secret\nroll\nquit\n");
    let wanted = [b"no connection\nrefused 2 Offline\n".as_slice(), b""];
    assert_is("nobody listens", 0, &outcome, Ok(0), wanted);
}

/// What a connection gives up to its end, in at most 100 reads.
fn read_whole(stream: &mut TcpStream) -> io::Result<Text> {
    let mut received = [0u8; 100];
    let mut text = Text::new();
    for _ in 0..100 {
        match stream.read(&mut received)? {
            0 => break,
            count => {
                let _fits = text.try_extend_from_slice(&received[..count]);
            }
        }
    }
    Ok(text)
}

/// What the next connection gives up to its end.
fn accepted(listener: &TcpListener) -> io::Result<Text> {
    let (mut far, _peer) = listener.accept()?;
    read_whole(&mut far)
}

/// Asserts that the listener is given the login and no more.
fn assert_login(name: &str, listener: &TcpListener) {
    let received = accepted(listener).expect("it is read");
    let login = b"login fibs_client 1008 ann secret\r\n".as_slice();
    let is_login = received.as_slice() == login;
    assert!(is_login, "{name}");
}

/// Asserts that a conversation over sockets prints nothing, and gives the listener the login and no more.
fn assert_logs_in<N: Net<Stream = TcpStream>>(name: &str, net: &N, host: &str, listener: &TcpListener, typed: &[u8]) {
    let port = address_of(listener).port();
    let outcome = conversed_at(net, host, port, typed);
    assert_is(name, 0, &outcome, Ok(0), [b"", b""]);
    assert_login(name, listener);
}

#[test]
fn a_socket_is_given_the_login_and_no_more() {
    let rt = crate::rattle::HostRuntime;
    let listener = listening(&rt);
    let typed = b"secret\n\nquit\n";
    assert_logs_in("a socket", &rt, "127.0.0.1", &listener, typed);
}

/// Asserts that the listener is given the login if a name has these addresses.
fn assert_named<N: Net<Listener = TcpListener, Stream = TcpStream>>(
    rt: &N,
    name: &str,
    listener: &TcpListener,
    addresses: [SocketAddr; 2],
) {
    let net = Named::new(rt, addresses);
    let typed = b"secret\nquit\n";
    assert_logs_in(name, &net, "fibs.example", listener, typed);
}

/// Of two addresses of a name nobody listens at one, whichever it is: the other one is given the login.
#[test]
fn each_address_of_a_name_is_tried() {
    let rt = crate::rattle::HostRuntime;
    let listener = listening(&rt);
    let there = address_of(&listener);
    let nobody = free_address(&rt);
    assert_named(&rt, "the first address", &listener, [there, nobody]);
    assert_named(&rt, "the second address", &listener, [nobody, there]);
}
