//! What the server answers, worked out by hand from the rules, and what its refusals are called.

use crate::fibs_fields::boards::Board;
use crate::fibs_model::{Served, Server, WorldRefusal};
use crate::fibs_position::{Decision, Direction, PositionFault};
use crate::fibs_session::decision_text;
use crate::tests::boards::*;

/// A line that the server takes.
#[derive(Clone, Copy)]
enum Line {
    /// The connection's first.
    First(usize, &'static [u8]),
    /// A later one, with the dice.
    Later(usize, &'static [u8], [u8; 2]),
}

use Line::{First, Later};

/// Lines that a server takes, one after another, each with its answer and the board after it.
struct Case {
    name: &'static str,
    begins: &'static [u8],
    lines: &'static [(Line, &'static str, &'static [u8])],
}

static DICE_AND_TURNS: [Case; 3] = [
    Case {
        name: "a roll is carried out once",
        begins: TO_ROLL,
        lines: &[
            (First(1, b"login fibs_client 1008 ann secret"), "LoggedIn", TO_ROLL),
            (Later(1, b"set boardstyle 3", [1, 1]), "Answered", TO_ROLL),
            (Later(1, b"board", [1, 1]), "Answered", TO_ROLL),
            (Later(1, b"roll ", [6, 2]), "Answered", TO_ROLL),
            (Later(1, b"roll", [6, 2]), "Took roll", TO_MOVE),
            (Later(1, b"roll", [6, 2]), "Undone roll", TO_MOVE),
        ],
    },
    Case {
        name: "no die is 0, and a double is none to reject",
        begins: TO_ROLL,
        lines: &[
            (First(1, b""), "LoggedIn", TO_ROLL),
            (Later(1, b"roll", [0, 2]), "Undone roll", TO_ROLL),
            (Later(1, b"roll", [6, 7]), "Undone roll", TO_ROLL),
            (Later(1, b"reject", [1, 1]), "Undone reject", TO_ROLL),
            (Later(1, b"double", [1, 1]), "Took double", DOUBLED),
        ],
    },
    Case {
        name: "a resignation gives the turn away, once",
        begins: TO_ROLL,
        lines: &[
            (First(1, b""), "LoggedIn", TO_ROLL),
            (Later(1, b"resign x", [1, 1]), "Answered", TO_ROLL),
            (Later(1, b"resign g", [1, 1]), "Took resign g", DOUBLED),
            (Later(1, b"resign n", [1, 1]), "Undone resign n", DOUBLED),
        ],
    },
];

static LOGINS: [Case; 1] = [Case {
    name: "a later login ends the service of the older connection",
    begins: ONE_STEP,
    lines: &[
        (Later(1, b"move 24-18", [1, 1]), "Stale", ONE_STEP),
        (First(1, b"move 24-18"), "LoggedIn", ONE_STEP),
        (Later(1, b"mov", [1, 1]), "Answered", ONE_STEP),
        (First(2, b"login fibs_client 1008 ann secret"), "LoggedIn", ONE_STEP),
        (Later(1, b"move 24-18", [1, 1]), "Stale", ONE_STEP),
        (First(1, b"login fibs_client 1008 ann secret"), "Stale", ONE_STEP),
        (Later(3, b"move 24-18", [1, 1]), "Stale", ONE_STEP),
        (Later(2, b"move 24-18", [1, 1]), "Took move 24-18", STEPPED),
        (First(4, b"login fibs_client 1008 ann secret"), "LoggedIn", STEPPED),
    ],
}];

static MOVES: [Case; 3] = [
    Case {
        name: "a checker is hit",
        begins: TO_HIT,
        lines: &[(First(1, b""), "LoggedIn", TO_HIT), (Later(1, b"move 24-18", [1, 1]), "Took move 24-18", HIT)],
    },
    Case {
        name: "the last checkers are borne off",
        begins: TO_BEAR_OFF,
        lines: &[
            (First(1, b""), "LoggedIn", TO_BEAR_OFF),
            (Later(1, b"move 3-off 2-off", [1, 1]), "Took move 3-off 2-off", BORNE_OFF),
            (Later(1, b"roll", [6, 2]), "Undone roll", BORNE_OFF),
        ],
    },
    Case {
        name: "a play of one who goes up is in the numbers of the board",
        begins: TO_MOVE_UP,
        lines: &[
            (First(1, b""), "LoggedIn", TO_MOVE_UP),
            (Later(1, b"move 20-17", [1, 1]), "Undone move 5-8", TO_MOVE_UP),
            (Later(1, b"move 5-8 8-11 11-14", [1, 1]), "Took move 20-17 17-14 14-11", MOVED_UP),
        ],
    },
];

static LIMITS: [Case; 2] = [
    Case {
        name: "a double beyond the limit of the cube can only be rejected",
        begins: TO_ANSWER,
        lines: &[
            (First(1, b""), "LoggedIn", TO_ANSWER),
            (Later(1, b"accept", [1, 1]), "Undone accept", TO_ANSWER),
            (Later(1, b"reject", [1, 1]), "Took reject", REJECTED),
        ],
    },
    Case {
        name: "five steps, and two spaces, are no decision",
        begins: ONE_STEP,
        lines: &[
            (First(1, b""), "LoggedIn", ONE_STEP),
            (Later(1, b"move 24-18 18-12 12-6 6-5 5-4", [1, 1]), "Answered", ONE_STEP),
            (Later(1, b"move  24-18", [1, 1]), "Answered", ONE_STEP),
        ],
    },
];

/// Whether a text is this word and the command of the decision of a player who goes down.
fn is_command(text: &str, word: &str, decision: &Decision) -> bool {
    match text.strip_prefix(word) {
        Some(command) => decision_text(decision, Direction::Down).as_str() == command,
        None => false,
    }
}

/// Whether a text is the answer's name, with the decision of a player who goes down.
fn is_answer(served: &Served, text: &str) -> bool {
    match served {
        Served::Stale => text == "Stale",
        Served::LoggedIn => text == "LoggedIn",
        Served::Took(decision) => is_command(text, "Took ", decision),
        Served::Undone(decision) => is_command(text, "Undone ", decision),
        Served::Answered => text == "Answered",
    }
}

/// The connection that is logged in after the line, if the answer says that it is served.
fn serve(server: &mut Server, line: Line) -> Option<Served> {
    match line {
        First(conn, text) if conn > 0 => Some(server.serve(conn, true, text, [1, 1])),
        Later(conn, text, dice) if conn > 0 => Some(server.serve(conn, false, text, dice)),
        _ => None,
    }
}

fn board(line: &[u8]) -> Option<Board> {
    Board::read(line).ok()
}

fn server(line: &[u8]) -> Option<Server> {
    Server::new(board(line)?).ok()
}

/// Whether a line is answered so, and leads to this board.
fn is_served(server: &mut Server, row: &(Line, &str, &[u8])) -> bool {
    let (line, wanted, after) = *row;
    let is_answered = match serve(server, line) {
        Some(served) => is_answer(&served, wanted),
        None => false,
    };
    is_answered && Some(*server.board()) == board(after)
}

/// Nobody is logged in at first. The lines of a case are answered so, and lead to these boards.
fn assert_served(case: &Case) {
    let mut server = server(case.begins).expect("it is a good board");
    let is_new = server.logged_in() == 0;
    for row in case.lines {
        let is_served = is_served(&mut server, row);
        assert!(is_new && is_served, "{}: {}", case.name, row.1);
    }
}

/// Asserts that the lines of these cases are served so.
fn assert_all_served(cases: &[Case]) {
    for case in cases {
        assert_served(case);
    }
}

#[test]
fn lines_are_served() {
    assert_all_served(&DICE_AND_TURNS);
    assert_all_served(&LOGINS);
    assert_all_served(&MOVES);
    assert_all_served(&LIMITS);
}

/// Boards that a server begins with, or the fault for which it does not.
static BEGUN: [(&str, &[u8], Option<PositionFault>); 3] = [
    ("one to roll on", TO_ROLL, None),
    ("one of others", OF_OTHERS, Some(PositionFault::NotYou)),
    ("16 checkers", TOO_MANY, Some(PositionFault::TooManyOwn)),
];

#[test]
fn only_good_boards_begin() {
    for (name, line, fault) in &BEGUN {
        let board = board(line).expect("it is a board");
        assert!(Server::new(board).err() == *fault, "{name}");
    }
}

const DECIDES: Option<WorldRefusal> = Some(WorldRefusal::UserDecides);

const BAD: Option<WorldRefusal> = Some(WorldRefusal::BadBoard);

/// A board before, one that the server shows of its own, and why it is refused.
type Own = (&'static str, &'static [u8], &'static [u8], Option<WorldRefusal>);

static OWN: [Own; 9] = [
    ("to roll", TO_ROLL, ONE_STEP, DECIDES),
    ("to move", ONE_STEP, ONE_STEP, DECIDES),
    ("to answer a double", TO_ANSWER, TO_ROLL, DECIDES),
    ("to roll, and a board of others", TO_ROLL, OF_OTHERS, BAD),
    ("the opponent's turn", STEPPED, TO_ROLL, None),
    ("the opponent's turn, and a board of others", STEPPED, OF_OTHERS, BAD),
    ("the opponent's turn, and 16 checkers", STEPPED, TOO_MANY, BAD),
    ("passing", PASSING, TO_ROLL, None),
    ("over", BORNE_OFF, TO_ROLL, None),
];

/// Whether the server greets a login, answers its own board so, has the right board then, and is logged in still.
fn shows_its_own(row: &Own) -> Option<[bool; 4]> {
    let (_, before, own, refusal) = *row;
    let mut server = server(before)?;
    let greets = server.serve(3, true, b"", [1, 1]) == Served::LoggedIn;
    let is_answered = server.own(&board(own)?).err() == refusal;
    let stands = if refusal.is_none() { own } else { before };
    let is_shown = Some(*server.board()) == board(stands);
    Some([greets, is_answered, is_shown, server.logged_in() == 3])
}

#[test]
fn boards_of_its_own_come_where_the_user_does_not_decide() {
    for row in &OWN {
        let is_right = shows_its_own(row) == Some([true; 4]);
        assert!(is_right, "login, answer, board and connection: {}", row.0);
    }
}

/// Refusals, with their numbers and names.
static REFUSALS: [(WorldRefusal, &str); 9] = [
    (WorldRefusal::Memory, "1 Memory"),
    (WorldRefusal::AlreadyOpen, "2 AlreadyOpen"),
    (WorldRefusal::NotOpen, "3 NotOpen"),
    (WorldRefusal::NoSuchConnection, "4 NoSuchConnection"),
    (WorldRefusal::NothingToServe, "5 NothingToServe"),
    (WorldRefusal::UserDecides, "6 UserDecides"),
    (WorldRefusal::BoardAsText, "7 BoardAsText"),
    (WorldRefusal::BadBoard, "8 BadBoard"),
    (WorldRefusal::BadDice, "9 BadDice"),
];

/// Whether a refusal has this number and prints so.
fn is_told(refusal: WorldRefusal, wanted: &str) -> bool {
    format!("{} {refusal}", refusal.number()) == wanted
}

#[test]
fn refusals_have_numbers_and_names() {
    for (refusal, wanted) in &REFUSALS {
        assert!(is_told(*refusal, wanted), "{wanted}");
    }
}
