//! The command line, from its words to the exit status.
use super::outcomes::assert_is;
use crate::fibs_cli::arguments::{Answer, Asked, Call, Request};
use crate::fibs_cli::program::{answer, status};
use crate::fibs_engine::fault::EngineFault;
use crate::fibs_test_tools::outcome::Outcome;
use crate::fibs_test_tools::pipe::{After, Pipe};
use crate::rattle::alloc::AllocError;
use crate::rattle::may::*;
use crate::rattle::net::{Net, TcpListener, TcpStream};

/// The words after the program's name, what is on standard input, and the result.
struct Case {
    name: &'static str,
    words: &'static [&'static str],
    input: &'static [u8],
    status: u8,
    out: &'static [u8],
    err: &'static [u8],
}

/// A board on which the larger die alone can be played.
const BOARD: &str = "board:You:bob:5:0:0:0:0:0:0:0:0:0:0:0:0:0:0:0:-2:0:0:0:0:0:0:0:0:0:0:1:0:1:6:5:0:0:1:1:1:0:1:-1:0:25:14:13:0:0:1:0:0:0";

/// Command lines that run an engine.
static SERVED: [Case; 10] = [
    Case {
        name: "show prints on standard output",
        words: &["show"],
        input: b"a\nbc",
        status: 0,
        out: b"text a\nunfinished 2\n",
        err: b"",
    },
    Case { name: "show of nothing prints nothing", words: &["show"], input: b"", status: 0, out: b"", err: b"" },
    Case {
        name: "plays prints on standard output and reads nothing",
        words: &["plays", BOARD],
        input: b"a\n",
        status: 0,
        out: b"phase Move\nmove 24-18\n",
        err: b"",
    },
    Case {
        name: "show prints objects on standard output",
        words: &["show", "--json"],
        input: b"a\n",
        status: 0,
        out: b"{\"kind\":\"text\",\"line\":\"a\",\"line_number\":1,\"offset\":0}\n",
        err: b"",
    },
    Case {
        name: "with both options show prints events too",
        words: &["show", "--json", "--events"],
        input: b"You roll 6 and 2.\n",
        status: 0,
        out: b"{\"kind\":\"text\",\"line\":\"You roll 6 and 2.\",\"line_number\":1,\"offset\":0}\n\
{\"kind\":\"event\",\"event\":\"rolled\",\"line_number\":1,\"who\":\"player\",\"dice\":[6,2]}\n\
{\"kind\":\"summary\",\"lines\":1,\"boards\":0,\"messages\":0,\"texts\":1,\"sent\":0,\"cut\":0,\"malformed\":0,\
\"events\":1,\"games\":0,\"matches\":0}\n",
        err: b"",
    },
    Case {
        name: "plays prints an object on standard output for a line that is no board",
        words: &["plays", "--json", "hello"],
        input: b"a\n",
        status: 3,
        out: b"{\"kind\":\"text\",\"line\":\"hello\"}\n",
        err: b"",
    },
    Case {
        name: "replay prints objects on standard output",
        words: &["replay", "--json"],
        input: b"open\n",
        status: 3,
        out: b"{\"kind\":\"script\",\"line\":\"script 1\",\"number\":1}\n",
        err: b"",
    },
    Case {
        name: "replay reads its script from standard input",
        words: &["replay"],
        input: b"open\n",
        status: 3,
        out: b"script 1\n",
        err: b"",
    },
    Case {
        name: "loop reads its script from standard input",
        words: &["loop"],
        input: b"open\n",
        status: 3,
        out: b"script 1\n",
        err: b"",
    },
    Case {
        name: "plays says on standard error why there are none",
        words: &["plays", "hello"],
        input: b"a\n",
        status: 3,
        out: b"",
        err: b"not a board\n",
    },
];

/// Adds a word to a command line.
fn push_word(line: &mut Vec<String>, word: &str) -> Result<(), AllocError> {
    line.may_push(String::may_from_str(word)?)?;
    Ok(())
}

/// The words of a command line, with the program's name before them.
fn line_of(words: &[&str]) -> Result<Vec<String>, AllocError> {
    let mut line = Vec::new();
    push_word(&mut line, "fibs")?;
    for word in words {
        push_word(&mut line, word)?;
    }
    Ok(line)
}

/// What the program makes of the words of a command line, and what it prints.
fn served<N: Net<Listener = TcpListener, Stream = TcpStream>>(rt: &N, called: &Answer<'_>, input: &[u8]) -> Outcome {
    let mut input = Pipe::new(input, 7, After::End, 0);
    let mut out = Pipe::new(b"", 1, After::End, 4096);
    let mut err = Pipe::new(b"", 1, After::End, 4096);
    let ending = answer(rt, called, &mut input, &mut out, &mut err);
    Outcome::new(ending, out.output(), err.output())
}

/// How the program answers a command line, and what it prints.
fn answered<N: Net<Listener = TcpListener, Stream = TcpStream>>(rt: &N, words: &[&str], input: &[u8]) -> Outcome {
    let line = line_of(words).expect("there is memory for it");
    match crate::fibs_cli::arguments::read(line.as_slice()) {
        Asked::Answer(called) => served(rt, &called, input),
        // no row asks for a server, or for a file
        Asked::Connect(_) | Asked::Files(..) => Outcome::new(Err(EngineFault::Device), b"", b""),
    }
}

/// What a command line asks of a server.
fn is_call(words: &[&str], wanted: &Call<'_>) -> Result<bool, AllocError> {
    let line = line_of(words)?;
    Ok(match crate::fibs_cli::arguments::read(line.as_slice()) {
        Asked::Connect(call) => {
            let files = [call.password_file, call.log] == [wanted.password_file, wanted.log];
            files
                && call.host == wanted.host
                && call.port == wanted.port
                && call.name == wanted.name
                && call.json == wanted.json
        }
        Asked::Answer(_) | Asked::Files(..) => false,
    })
}

#[test]
fn files_are_shown_in_the_order_in_which_they_are_named() {
    for (words, wanted) in [
        (&["show", "a", "--events", "b c"][..], Some((Request::ShowEvents, &["a", "b c"][..]))),
        (&["show", "--json", "--", "--events"], Some((Request::ShowJson, &["--events"]))),
        (&["show", "-"], Some((Request::Show, &["-"]))),
        (&["show", "--events"], None),
        (&["plays", "a"], None),
    ] {
        let line = line_of(words).expect("there is memory for it");
        let found = match crate::fibs_cli::arguments::read(line.as_slice()) {
            Asked::Files(request, files) => Some((std::mem::discriminant(&request), files.as_slice().to_vec())),
            _ => None,
        };
        let wanted = wanted.map(|(request, files)| (std::mem::discriminant(&request), files.to_vec()));
        assert_eq!(found, wanted, "{words:?}");
    }
}

/// Words that ask for a server, and what they ask of it.
static CALLS: [(&[&str], Call<'static>); 4] = [
    (
        &["connect", "fibs.example", "4321", "ann"],
        Call { host: "fibs.example", port: 4321, name: "ann", password_file: None, log: None, json: false },
    ),
    (
        &["connect", "--json", "fibs.example", "4321", "ann"],
        Call { host: "fibs.example", port: 4321, name: "ann", password_file: None, log: None, json: true },
    ),
    (
        &["connect", "--log", "kept", "localhost", "1", "bob"],
        Call { host: "localhost", port: 1, name: "bob", password_file: None, log: Some("kept"), json: false },
    ),
    (
        &["connect", "::1", "65535", "show", "--password-file", "secret"],
        Call { host: "::1", port: 65535, name: "show", password_file: Some("secret"), log: None, json: false },
    ),
];

#[test]
fn asks_a_server_by_its_words() {
    for (words, wanted) in &CALLS {
        assert!(is_call(words, wanted) == Ok(true), "{words:?}");
    }
}

/// Asserts how a command line is served.
fn assert_served<N: Net<Listener = TcpListener, Stream = TcpStream>>(rt: &N, case: &Case) {
    let outcome = answered(rt, case.words, case.input);
    let printed = [case.out, case.err];
    assert_is(case.name, 0, &outcome, Ok(case.status), printed);
}

#[test]
fn serves_each_request() {
    let rt = crate::rattle::HostRuntime;
    for case in &SERVED {
        assert_served(&rt, case);
    }
}

/// Whether a command line is answered by help, which is printed, or by an error, which is said.
fn is_answered(outcome: &Outcome, wanted: u8) -> bool {
    let is_printed = outcome.out.is_empty() == (wanted == 2);
    let is_said = outcome.err.is_empty() == (wanted == 0);
    outcome.ending == Ok(wanted) && is_printed && is_said
}

/// Asserts that a command line is answered with help, which is printed, or with an error, which is said.
fn assert_answered<N: Net<Listener = TcpListener, Stream = TcpStream>>(rt: &N, words: &[&str], wanted: u8) {
    let outcome = answered(rt, words, b"a\n");
    assert!(is_answered(&outcome, wanted), "at {words:?}");
}

/// Words after the program's name, and the status.
static ANSWERED: [(&[&str], u8); 11] = [
    (&["--help"], 0),
    (&["help"], 0),
    (&["show", "--help"], 0),
    (&["help", "plays"], 0),
    (&[], 2),
    (&["dance"], 2),
    (&["loop", "more"], 2),
    (&["plays"], 2),
    (&["connect", "localhost", "0", "ann"], 2),
    (&["connect", "localhost", "65536", "ann"], 2),
    (&["connect", "localhost", "4321"], 2),
];

#[test]
fn answers_each_other_line() {
    let rt = crate::rattle::HostRuntime;
    for (words, wanted) in &ANSWERED {
        assert_answered(&rt, words, *wanted);
    }
}

/// Whether an ending has this status, and this is said of it.
fn is_said_of(ending: Result<u8, EngineFault>, wanted: u8, said: &[u8]) -> bool {
    let mut err = Pipe::new(b"", 1, After::End, 512);
    status(ending, &mut err) == wanted && err.output() == said
}

/// An ending, its status, and what is said.
static ENDINGS: [(Result<u8, EngineFault>, u8, &[u8]); 4] = [
    (Ok(0), 0, b""),
    (Ok(3), 3, b""),
    (Err(EngineFault::Device), 4, b"fibs: device\n"),
    (Err(EngineFault::Memory), 5, b"fibs: memory\n"),
];

#[test]
fn says_why_it_stopped() {
    for (ending, wanted, said) in &ENDINGS {
        let is_said = is_said_of(*ending, *wanted, said);
        assert!(is_said, "{ending:?}");
    }
}
