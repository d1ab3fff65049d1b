//! Worked rows of a client, and what neither the built program nor the library for C shows of sessions and clients.
//! More histories, worked out by hand, are told to a client in Python: tests/worlds.

use crate::fibs_fields::boards::Board;
use crate::fibs_lines::Line;
use crate::fibs_messages::Reading;
use crate::fibs_position::{Decision, Numbers};
use crate::fibs_session::typed::meant::{is_command_by, meant_command};
use crate::fibs_session::{
    Client, Input, Login, Outstanding, Plain, PlainFault, PlainRefusal, Refusal, Session, run_client,
};
use crate::rattle::alloc::AllocError;
use crate::rattle::may::*;
use crate::tests::boards::{MUST_ROLL, TO_MOVE, TO_ROLL};
use crate::tests::server_lines::{INFO, INFO_AUTOMOVE, WELCOME};

/// The login of the tests.
fn login() -> Login {
    Login::new(b"ann", b"secret").expect("it is a login")
}

/// A client that may decide as soon as a board is shown.
fn ready() -> Client {
    let mut client = Client::new(login());
    let is_open = client.open().is_ok();
    assert!(is_open, "open");
    feed_line(&mut client, WELCOME);
    feed_line(&mut client, INFO);
    client
}

/// Feeds a line.
fn feed_line(client: &mut Client, line: &[u8]) {
    client.feed(line);
    client.feed(b"\r\n");
}

/// A line that was not cut.
fn whole(bytes: &[u8]) -> Line<'_> {
    Line { bytes, cut: false }
}

/// The user's roll on the board of a line.
fn roll_on(line: &[u8]) -> Option<Outstanding> {
    let board = Board::read(line).ok()?;
    let decision = Decision::Roll;
    Some(Outstanding { board, decision })
}

/// Whether a session answers a line by this one command.
fn hears_one(session: &mut Session, line: &[u8], command: &str) -> bool {
    let taken = session.line(&whole(line));
    match taken.send.as_slice() {
        [one] => one.as_str() == command,
        _ => false,
    }
}

/// Lines that a session hears, and the command by which it answers each.
static HEARD: [(&[u8], &str); 3] = [(WELCOME, "set boardstyle 3"), (INFO, "board"), (MUST_ROLL, "roll")];

/// A session opens a connection, and rolls by a standing order. It answers each line by one command.
fn roll_by_order(session: &mut Session) {
    let is_ordered = session.open().is_ok() && session.order_roll().is_ok();
    assert!(is_ordered, "open, and order");
    for (line, command) in &HEARD {
        assert!(hears_one(session, line, command), "{command}");
    }
}

/// How a session answers while a roll waits: a second one, a name with a space, and the withdrawal of the order.
fn answers_waiting(session: &mut Session) -> [bool; 4] {
    let bad_name = PlainRefusal::Fault(PlainFault::BadName);
    [
        session.decide(&Decision::Roll).err() == Some(Refusal::Waiting),
        session.plain(&Plain::Tell(b"b b", b"hi")).err() == Some(bad_name),
        session.ordered(),
        session.withdraw_roll() == Ok(()),
    ]
}

/// Whether the next line confirms a roll, and no order rolls.
fn confirms(session: &mut Session, roll: &Outstanding) -> bool {
    let taken = session.line(&whole(TO_MOVE));
    taken.confirmed == Some(*roll) && !taken.rolled
}

/// Whether a roll waits on the board that is shown, and the next line confirms it, so that nothing waits then.
fn is_confirmed(session: &mut Session, roll: &Outstanding) -> [bool; 4] {
    let shows = session.shown() == Some(&roll.board);
    let waits = session.waiting() == Some(roll);
    let confirms = confirms(session, roll);
    [shows, waits, confirms, session.lose().is_none()]
}

/// A session is a client without its bytes: it hears whole lines.
#[test]
fn a_session_hears_whole_lines() {
    let mut session = Session::new(login());
    roll_by_order(&mut session);
    let answers = answers_waiting(&mut session);
    assert!(answers == [true; 4], "what it answers while a roll waits");
    let roll = roll_on(MUST_ROLL).expect("it is a board");
    let confirmed = is_confirmed(&mut session, &roll);
    assert!(confirmed == [true; 4], "the board, the roll and its end");
}

/// Whether a session without a connection refuses to decide and to send, and loses nothing.
fn is_offline(session: &mut Session) -> [bool; 3] {
    [
        session.decide(&Decision::Roll).err() == Some(Refusal::Offline),
        session.lose().is_none(),
        session.plain(&Plain::Who).err() == Some(PlainRefusal::Offline),
    ]
}

/// Whether a session opens a connection by its login, and no second one.
fn opens_once(session: &mut Session) -> bool {
    let is_login = match session.open() {
        Ok(command) => command.as_str() == "login fibs_client 1008 ann secret",
        Err(_) => false,
    };
    is_login && session.open().err() == Some(Refusal::AlreadyOpen)
}

#[test]
fn a_new_session_is_offline_until_it_logs_in() {
    let mut session = Session::new(login());
    let refused = is_offline(&mut session);
    assert!(refused == [true; 3], "what it answers offline");
    assert!(opens_once(&mut session), "the login, and a second connection");
}

/// A call of a client.
enum Call {
    Open,
    Line(&'static [u8]),
    Roll,
    Order,
    Withdraw,
    Lose,
}

/// Makes a call. Says why it is refused; `Waiting` if a decision is lost.
fn refusal_of(client: &mut Client, call: &Call) -> Option<Refusal> {
    match call {
        Call::Open => client.open().err(),
        Call::Line(line) => {
            feed_line(client, line);
            None
        }
        Call::Roll => client.decide(&Decision::Roll).err(),
        Call::Order => client.order_roll().err(),
        Call::Withdraw => client.withdraw_roll().err(),
        Call::Lose => client.lose().map(|_| Refusal::Waiting),
    }
}

/// Each call is answered so, and an order is in force after it or not.
fn assert_answered(client: &mut Client, calls: &[(Call, Option<Refusal>, bool)]) {
    for (at, (call, why, ordered)) in calls.iter().enumerate() {
        let is_answered = refusal_of(client, call) == *why;
        assert!(is_answered && client.ordered() == *ordered, "call {at}");
    }
}

/// Feeds a piece. Says how much of it is used, and whether a line ended.
fn feed(client: &mut Client, piece: &[u8]) -> (usize, bool) {
    let got = client.feed(piece);
    (got.used, got.taken.is_some())
}

/// Whether a line is this text.
fn is_text(reading: &Reading<'_>, text: &[u8]) -> bool {
    match reading {
        Reading::Text(read) => *read == text,
        _ => false,
    }
}

/// Feeds a piece. Says how much of it is used, if this text ends in it.
fn feed_text(client: &mut Client, piece: &[u8], text: &[u8]) -> Option<usize> {
    let got = client.feed(piece);
    match &got.taken {
        Some(taken) if is_text(&taken.reading, text) => Some(got.used),
        _ => None,
    }
}

/// Feeds a piece. Gives what the line that ends in it confirms.
fn feed_confirming(client: &mut Client, piece: &[u8]) -> Option<Outstanding> {
    let got = client.feed(piece);
    match &got.taken {
        Some(taken) => taken.confirmed,
        None => None,
    }
}

static ROLLED: [(Call, Option<Refusal>, bool); 2] = [(Call::Line(TO_ROLL), None, false), (Call::Roll, None, false)];

/// Whether the line end confirms a roll on this board, so that nothing waits then.
fn ends_confirming(client: &mut Client, line: &[u8]) -> bool {
    let confirmed = feed_confirming(client, b"\n");
    let roll = roll_on(line);
    roll.is_some() && confirmed == roll && client.lose().is_none()
}

/// Whether all of a piece is used, and no line ends in it.
fn is_used_without_end(client: &mut Client, piece: &[u8]) -> bool {
    feed(client, piece) == (piece.len(), false)
}

/// How much of a piece is used: up to its first line end, or all of it. What confirms a decision has its board.
#[test]
fn a_piece_is_used_up_to_its_first_line_end() {
    let mut client = ready();
    let text = feed_text(&mut client, b"[board]\r\nrest", b"[board]") == Some(9);
    assert_answered(&mut client, &ROLLED);
    let without_end = is_used_without_end(&mut client, TO_MOVE);
    let confirmed = ends_confirming(&mut client, TO_ROLL);
    let offline = is_used_without_end(&mut client, TO_ROLL);
    let are_used = [text, without_end, confirmed, offline];
    assert!(are_used == [true; 4], "a text, a board, its end, and offline");
}

/// The front of a board's line, and its rest.
const FRONT: &[u8] = b"board:You:bob:3:0:1:0:-2";

const REST: &[u8] =
    b":0:0:0:0:5:0:3:0:0:0:-5:5:0:0:0:-3:0:-5:0:0:0:0:2:0:1:0:0:0:0:1:1:1:0:1:-1:0:25:0:0:0:0:0:0:0:0\r\n";

static REOPENED: [(Call, Option<Refusal>, bool); 2] = [(Call::Lose, None, false), (Call::Open, None, false)];

static GREETED_LATE: [(Call, Option<Refusal>, bool); 4] = [
    (Call::Roll, Some(Refusal::NotReady), false),
    (Call::Line(WELCOME), None, false),
    (Call::Line(INFO), None, false),
    (Call::Roll, Some(Refusal::NoBoard), false),
];

/// Whether a piece is a text, and no board is shown after it.
fn is_just_a_text(client: &mut Client, piece: &[u8]) -> bool {
    let is_text = match &client.feed(piece).taken {
        Some(taken) => matches!(taken.reading, Reading::Text(_)),
        None => false,
    };
    is_text && client.shown().is_none()
}

/// Half a line is forgotten with its connection: its other half is a text on the next one.
#[test]
fn half_a_line_does_not_pass_into_the_next_connection() {
    let mut client = ready();
    feed_line(&mut client, TO_ROLL);
    let has_ended = feed(&mut client, FRONT).1;
    assert_answered(&mut client, &REOPENED);
    let is_text = is_just_a_text(&mut client, REST);
    assert!(is_text && !has_ended, "no line has ended, and then a text");
    assert_answered(&mut client, &GREETED_LATE);
}

static GREETED_BY_A_PLAYER: [(Call, Option<Refusal>, bool); 5] = [
    (Call::Open, None, false),
    (Call::Line(WELCOME), None, false),
    (Call::Line(INFO_AUTOMOVE), None, false),
    (Call::Line(TO_ROLL), None, false),
    (Call::Roll, Some(Refusal::ServerPlays), false),
];

static GREETED_AGAIN: [(Call, Option<Refusal>, bool); 6] = [
    (Call::Roll, Some(Refusal::ServerPlays), false),
    (Call::Lose, None, false),
    (Call::Open, None, false),
    (Call::Line(WELCOME), None, false),
    (Call::Line(INFO), None, false),
    (Call::Line(TO_ROLL), None, false),
];

/// Whether automove is turned off by its command, and neither it nor greedy is on then for a second one.
fn is_turned_off(client: &mut Client) -> bool {
    let is_off = match client.plain(&Plain::AutomoveOff) {
        Ok(command) => command.as_str() == "toggle automove",
        Err(_) => false,
    };
    let not_on = Some(PlainRefusal::NotOn);
    let again = client.plain(&Plain::AutomoveOff).err() == not_on;
    is_off && again && client.plain(&Plain::GreedyOff).err() == not_on
}

/// Whether the user rolls.
fn rolls(client: &mut Client) -> bool {
    match client.decide(&Decision::Roll) {
        Ok(command) => command.as_str() == "roll",
        Err(_) => false,
    }
}

/// Where the server plays, the user does not decide, also after he has turned that off; on the next connection he does.
#[test]
fn where_the_server_plays_the_user_does_not_decide() {
    let mut client = Client::new(login());
    assert_answered(&mut client, &GREETED_BY_A_PLAYER);
    let is_off = is_turned_off(&mut client);
    assert!(is_off, "turned off");
    assert_answered(&mut client, &GREETED_AGAIN);
    assert!(rolls(&mut client), "a roll");
}

/// Whether a line of the board on which a roll waits confirms nothing, and a second roll is refused then.
fn goes_on_waiting(client: &mut Client) -> bool {
    client.feed(TO_ROLL);
    let confirms_none = feed_confirming(client, b"\r\n").is_none();
    confirms_none && client.decide(&Decision::Roll).err() == Some(Refusal::Waiting)
}

/// Whether the board after the roll confirms it, and the next decision is judged on that board.
fn is_rolled(client: &mut Client) -> bool {
    client.feed(TO_MOVE);
    let confirmed = feed_confirming(client, b"\r\n");
    let roll = roll_on(TO_ROLL);
    let is_confirmed = roll.is_some() && confirmed == roll;
    is_confirmed && client.decide(&Decision::Double).err() == Some(Refusal::WrongKind)
}

/// A decision waits until a board of another game comes.
#[test]
fn an_equal_board_confirms_nothing() {
    let mut client = ready();
    feed_line(&mut client, TO_ROLL);
    let rolls = rolls(&mut client);
    let waits = [goes_on_waiting(&mut client), goes_on_waiting(&mut client)];
    let is_rolled = is_rolled(&mut client);
    assert!(rolls && waits == [true; 2], "it goes on waiting at each of two equal boards");
    assert!(is_rolled, "the next board confirms the roll");
}

static ORDERED: [(Call, Option<Refusal>, bool); 6] = [
    (Call::Withdraw, Some(Refusal::Offline), false),
    (Call::Open, None, false),
    (Call::Withdraw, Some(Refusal::NotOrdered), false),
    (Call::Order, None, true),
    (Call::Lose, None, false),
    (Call::Open, None, false),
];

/// An order ends with its connection.
#[test]
fn a_new_connection_has_no_order() {
    let mut client = Client::new(login());
    assert_answered(&mut client, &ORDERED);
}

/// Refusals with their numbers, and as `{}` and `{:?}` print them.
static TOLD: [(Refusal, &str); 12] = [
    (Refusal::AlreadyOpen, "1 AlreadyOpen AlreadyOpen"),
    (Refusal::Offline, "2 Offline Offline"),
    (Refusal::NotReady, "3 NotReady NotReady"),
    (Refusal::ServerPlays, "4 ServerPlays ServerPlays"),
    (Refusal::NoBoard, "5 NoBoard NoBoard"),
    (Refusal::Waiting, "6 Waiting Waiting"),
    (Refusal::NotYours, "7 NotYours NotYours"),
    (Refusal::WrongKind, "8 WrongKind WrongKind"),
    (Refusal::IllegalPlay, "9 IllegalPlay IllegalPlay"),
    (Refusal::NotOn, "10 NotOn NotOn"),
    (Refusal::AlreadyOrdered, "11 AlreadyOrdered AlreadyOrdered"),
    (Refusal::NotOrdered, "12 NotOrdered NotOrdered"),
];

/// Refusals of commands that decide nothing, with their numbers and as `{}` prints them.
static PLAIN_TOLD: [(PlainRefusal, &str); 3] = [
    (PlainRefusal::Offline, "2 Offline"),
    (PlainRefusal::NotOn, "10 NotOn"),
    (PlainRefusal::Fault(PlainFault::BadText), "2 BadText"),
];

/// Whether a refusal has this number and these names. It prints a sentence, by hand.
fn is_told(why: &Refusal, wanted: &str) -> bool {
    format!("{} {} {why:?}", why.number(), why.name()) == wanted
}

/// The same of a refusal of a command that decides nothing.
fn is_plain_told(why: &PlainRefusal, wanted: &str) -> bool {
    format!("{} {}", why.number(), why.name()) == wanted
}

#[test]
fn refusals_are_told_by_their_numbers_and_names() {
    for (why, wanted) in &TOLD {
        assert!(is_told(why, wanted), "{wanted}");
    }
    for (why, wanted) in &PLAIN_TOLD {
        assert!(is_plain_told(why, wanted), "{wanted}");
    }
}

/// Refusals in columns, by their widths.
fn in_columns() -> String {
    let (offline, plain_offline) = (Refusal::Offline, PlainRefusal::Offline);
    let (illegal, long) = (Refusal::IllegalPlay, PlainRefusal::Fault(PlainFault::TooLong));
    format!("{offline:>22}|{plain_offline:<22}|{illegal:^23}|{long:>28}")
}

/// Refusals in columns.
static COLUMNS: &str =
    " no connection is open|no connection is open | the move is not legal | the text has too many bytes";

/// Whether the columns are these.
fn are_in_columns() -> bool {
    in_columns() == COLUMNS
}

/// A width is kept, so that refusals are in columns.
#[test]
fn refusals_are_padded_to_a_width() {
    assert!(are_in_columns(), "{COLUMNS}");
}

/// Messages 1 and 2 with their line ends.
const GREETING: &[u8] = b"1 ann 1041253132 localhost\r\n\
    2 ann 1 1 0 0 0 0 1 1 10 0 1 0 1 1500.00 0 0 0 0 0 UTC\r\n";

/// How many connections a long run opens.
const CONNECTIONS_OF_A_RUN: u32 = 200;

/// A part so many times.
fn repeated(times: u32, part: &[u8]) -> Result<Vec<u8>, AllocError> {
    let mut bytes = Vec::new();
    for _ in 0..times {
        bytes.may_extend_from_slice(part)?;
    }
    Ok(bytes)
}

/// The inputs of so many connections, on each of which this piece comes.
fn connections(piece: &[u8]) -> Result<Vec<Input<'_>>, AllocError> {
    let inputs = [Input::Open, Input::Piece(piece), Input::Lose];
    let mut all = Vec::new();
    for _ in 0..CONNECTIONS_OF_A_RUN {
        all.may_extend_from_slice(&inputs)?;
    }
    Ok(all)
}

/// Whether a long run hands out all of its commands.
fn is_whole_run(login: Login, piece: &[u8]) -> Result<bool, AllocError> {
    let answers = b"login fibs_client 1008 ann secret\r\nset boardstyle 3\r\nboard\r\n";
    let wanted = repeated(CONNECTIONS_OF_A_RUN, answers)?;
    let inputs = connections(piece)?;
    Ok(run_client(login, inputs.as_slice())? == wanted)
}

/// However much comes and goes, a run with ample memory hands out all of it.
#[test]
fn a_long_run_hands_out_every_command() {
    let piece = repeated(100, GREETING).expect("memory is ample");
    let is_whole = is_whole_run(login(), &piece) == Ok(true);
    assert!(piece.len() > 8000 && is_whole, "each command of a long piece");
}

/// A board on which the player goes up by the server's numbers, with dice.
const GOES_UP: &[u8] =
    b"board:You:bob:5:0:0:0:0:0:0:-1:0:0:0:0:0:0:0:0:0:0:0:0:0:0:0:2:0:0:0:0:0:-1:6:5:0:0:1:1:1:0:-1:1:25:0:14:13:0:0:1:0:0:0";

/// A line is a command by either numbers, or by none: a decision, talk, an order.
#[test]
fn a_line_is_a_command_by_all_numbers() {
    let mut client = ready();
    feed_line(&mut client, GOES_UP);
    for (line, is_one) in [
        ("move 21-15", true),
        ("move bar-20", true),
        ("roll", true),
        ("say hello", true),
        ("order roll", true),
        ("withdraw roll", true),
        ("move 21-25", false),
        ("dance", false),
    ] {
        let found = [Numbers::TheOwn, Numbers::TheServers].map(|it| is_command_by(&client, it, line.as_bytes()));
        assert_eq!(found, [is_one; 2], "{line}");
    }
}

/// What is sent for a move has the server's numbers, by whatever numbers it was typed.
#[test]
fn a_move_is_meant_by_the_numbers_of_who_types() {
    let mut client = ready();
    feed_line(&mut client, GOES_UP);
    for (numbers, line, command) in [
        (Numbers::TheOwn, "move 21-15", Some("move 4-10")),
        (Numbers::TheServers, "move 4-10", Some("move 4-10")),
        (Numbers::TheOwn, "roll", Some("roll")),
        (Numbers::TheOwn, "say hello", None),
        (Numbers::TheOwn, "dance", None),
    ] {
        let meant = meant_command(&client, numbers, line.as_bytes());
        assert_eq!(meant.as_ref().map(|it| it.as_str()), command, "{line} by {numbers:?}");
    }
}
