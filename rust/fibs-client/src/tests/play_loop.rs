//! Scripts that are played over real sockets.

use crate::fibs_engine::fault::EngineFault;
use crate::fibs_replay::play_loop::play_loop;
use crate::fibs_test_tools::outcome::Outcome;
use crate::fibs_test_tools::pipe::{After, Pipe};
use crate::fibs_test_tools::text::joined;
use crate::rattle::net::{Net, TcpListener, TcpStream};
use crate::tests::boards::{MUST_ROLL, OF_OTHERS, ONE_STEP, TO_ROLL};
use crate::tests::replay::{
    LOGS_IN, LOST_PLAY, ORDER_AFTER_THE_BOARD, RESIGNATION, SECOND_CLICK, STANDING_ORDER, assert_is, replayed,
};

/// A script in parts, its status and the end of what is printed.
#[derive(Clone, Copy)]
struct Case {
    name: &'static str,
    script: &'static [&'static [u8]],
    status: u8,
    end: &'static [u8],
}

static CONNECTIONS: [Case; 6] = [
    Case {
        name: "a loss that keeps half a line",
        script: &[ONE_STEP, LOGS_IN, b"click move 24-18\nlose 11\nserve 1 1 1\n"],
        status: 3,
        end: b"move 24-18\nrefused 10 5 NothingToServe\n",
    },
    Case {
        name: "two connections at once",
        script: &[TO_ROLL, b"\nopen\nopen\n"],
        status: 3,
        end: b"opened 1\nrefused 1 2 AlreadyOpen\n",
    },
    Case {
        name: "bytes without a connection",
        script: &[TO_ROLL, b"\nclick roll\nplain who\nrepeat\ntext hello\ndeliver 1\n"],
        status: 3,
        end: b"clicked 0 Offline\nrefused 4 3 NotOpen\n",
    },
    Case {
        name: "a connection that never was",
        script: &[TO_ROLL, b"\nopen\nserve 2 0 0\n"],
        status: 3,
        end: b"opened 1\nrefused 1 4 NoSuchConnection\n",
    },
    Case {
        name: "dice that are not from 1 to 6",
        script: &[TO_ROLL, b"\nopen\nserve 1 1 1\nserve 1 6 7\n"],
        status: 3,
        end: b"loggedin 1\nrefused 2 9 BadDice\n",
    },
    Case {
        name: "an older connection",
        script: &[TO_ROLL, b"\nopen\nplain who\nlose 10000\nopen\nserve 2 1 1\nserve 1 1 1\n"],
        status: 3,
        end: b"loggedin 2\nrefused 5 5 NothingToServe\n",
    },
];

static BOARDS: [Case; 6] = [
    Case {
        name: "a board of the server's own where the user decides",
        script: &[TO_ROLL, b"\nown ", ONE_STEP],
        status: 3,
        end: b"refused 0 6 UserDecides\n",
    },
    Case {
        name: "a board as a text",
        script: &[TO_ROLL, b"\ntext > board\ntext > ", ONE_STEP],
        status: 3,
        end: b"refused 1 7 BoardAsText\n",
    },
    Case { name: "a line that is no event", script: &[TO_ROLL, b"\nopen\ndance\nopen"], status: 3, end: b"script 3\n" },
    Case {
        name: "a first board of another player",
        script: &[OF_OTHERS, b"\nopen\n"],
        status: 3,
        end: b"refused 0 8 BadBoard\n",
    },
    Case {
        name: "a click before the connection",
        script: &[TO_ROLL, b"\nclick roll", LOGS_IN],
        status: 0,
        end: b"end 9\n",
    },
    Case {
        name: "a roll of an order that a loss leaves on its way",
        script: &[
            MUST_ROLL,
            LOGS_IN,
            b"order roll\nrepeat\ndeliver 10000\nlose 6\nwithdraw roll\nserve 1 6 2\nopen\nwithdraw roll\n",
        ],
        status: 0,
        end: b" roll\nopened 2\nend 16\n",
    },
];

/// A listener on this machine.
fn listen<N: Net<Listener = TcpListener, Stream = TcpStream>>(rt: &N) -> TcpListener {
    TcpListener::bind(rt, "127.0.0.1:0").expect("a port is free")
}

/// How a script ends that is played over sockets to the listener, and what is printed.
fn played<N: Net<Stream = TcpStream>>(rt: &N, listener: &TcpListener, script: &[u8]) -> Outcome {
    let mut reader = Pipe::new(script, 100, After::End, 0);
    let mut writer = Pipe::new(b"", 1, After::End, 4096);
    let ending = play_loop(rt, listener, &mut reader, &mut writer);
    Outcome::new(ending, writer.output(), b"")
}

/// Asserts that a script ended with this status, and this end of what is printed.
fn assert_ends(name: &str, outcome: &Outcome, status: u8, end: &[u8]) {
    assert!(outcome.ending == Ok(status) && outcome.out.ends_with(end), "{name}: {outcome:?}");
}

/// Asserts that a script is played over sockets as it is replayed, with its status and its end of what is printed.
fn assert_played<N: Net<Stream = TcpStream>>(rt: &N, listener: &TcpListener, case: &Case) {
    let script = joined(case.script);
    let outcome = played(rt, listener, &script);
    let wanted = replayed(&script, 100);
    assert_is(case.name, 0, &outcome, wanted.ending, &wanted.out);
    assert_ends(case.name, &outcome, case.status, case.end);
}

/// Asserts the same of these scripts.
fn assert_all_played<N: Net<Stream = TcpStream>>(rt: &N, listener: &TcpListener, cases: &[Case]) {
    for case in cases {
        assert_played(rt, listener, case);
    }
}

#[test]
fn scripts_are_played_as_they_are_replayed() {
    let rt = crate::rattle::HostRuntime;
    let listener = listen(&rt);
    assert_all_played(&rt, &listener, &CONNECTIONS);
    assert_all_played(&rt, &listener, &BOARDS);
}

/// The decisions and orders of a user who logs in.
fn decisions() -> [Case; 5] {
    [
        Case {
            name: "a second click",
            script: SECOND_CLICK,
            status: 3,
            end: b"clicked 1 WrongKind\nrefused 13 5 NothingToServe\n",
        },
        Case {
            name: "a resignation",
            script: RESIGNATION,
            status: 3,
            end: b"clicked 1 NotYours\nrefused 13 5 NothingToServe\n",
        },
        Case { name: "a loss that keeps all", script: LOST_PLAY, status: 0, end: b"clicked 2 NotYours\nend 20\n" },
        Case { name: "a standing order", script: STANDING_ORDER, status: 0, end: b"0:0:0:0:0:0:0:0\nend 14\n" },
        Case { name: "an order", script: ORDER_AFTER_THE_BOARD, status: 0, end: b" roll\nend 11\n" },
    ]
}

#[test]
fn decisions_are_played_as_they_are_replayed() {
    let rt = crate::rattle::HostRuntime;
    assert_all_played(&rt, &listen(&rt), &decisions());
}

/// Connects to the listener, and closes that connection.
fn connect_in_vain<N: Net<Stream = TcpStream>>(rt: &N, listener: &TcpListener) {
    let address = listener.local_addr().expect("it has an address");
    drop(TcpStream::connect(rt, address).expect("it listens"));
}

/// The connection that the listener accepts first is not the client's: its end shows that bytes are read from it.
#[test]
fn bytes_cross_the_connection_that_is_accepted() {
    let rt = crate::rattle::HostRuntime;
    let listener = listen(&rt);
    connect_in_vain(&rt, &listener);
    let outcome = played(&rt, &listener, &joined(SECOND_CLICK));
    let ending = Err(EngineFault::Device);
    assert_is("another connection", 0, &outcome, ending, b"opened 1\n");
}
