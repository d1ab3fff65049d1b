//! What the crate says of a session, of a client, and of bad input.

use fibs::{
    Board, Client, ConnectionState, Decision, Directory, Disallowed, Fault, FieldFault, Heard, Lines, Login, Message,
    Name, Outstanding, OwnedLine, Phase, Plain, PlainFault, PlainRefusal, Play, Player, Position, PositionFault,
    Reading, Refusal, Step, ValueFault,
};
use std::collections::{HashMap, HashSet};
use std::io::{self, ErrorKind, Read, Write};

const BOARD: &str = "board:You:bob:3:0:1:0:-2:0:0:0:0:5:0:3:0:0:0:-5:5:0:0:0:-3:0:-5:0:0:0:0:2:0:1:6:2:0:0:1:1:1:0:1:\
    -1:0:25:0:0:0:0:2:0:0:0";
const ROLL: &str = "board:You:bob:3:0:1:0:-2:0:0:0:0:5:0:3:0:0:0:-5:5:0:0:0:-3:0:-5:0:0:0:0:2:0:1:0:0:0:0:1:1:1:0:1:\
    -1:0:25:0:0:0:0:2:0:0:0";
const GREETING: &str =
    "login: 1 ann 1041253132 localhost\r\n2 ann 1 1 0 0 0 0 1 1 10 0 1 0 1 1500.00 0 0 0 0 0 UTC\r\n";

fn client() -> Client {
    Client::new(Login::new(b"ann", b"secret").unwrap())
}

/// The lines that a client hears, with the decision that each confirms.
fn hear(client: &mut Client, text: &str) -> Vec<(Vec<u8>, Option<Decision>)> {
    let (mut piece, mut found) = (text.as_bytes(), Vec::new());
    while let Some(heard) = client.hear(&mut piece) {
        found.push((heard.line.bytes.to_vec(), heard.confirmed.map(|was| was.decision)));
    }
    assert!(piece.is_empty());
    found
}

#[test]
fn lines_are_the_same_however_they_are_cut() {
    let mut session = [GREETING, BOARD, "\r\nHello\r\n\r\n"].concat().into_bytes();
    session.extend(vec![b'x'; 40_000]);
    session.extend(b"\r\n\xff\xfb\x01last\n");
    let told = |size: usize| -> Vec<OwnedLine> {
        let mut lines = Lines::new();
        let found = session.chunks(size).flat_map(|piece| lines.owned(piece).collect::<Vec<_>>()).collect();
        assert_eq!(lines.unfinished(), b"");
        found
    };
    let whole = told(session.len());
    assert_eq!(whole.len(), 7);
    assert!(whole[5].cut && whole[5].bytes.len() == fibs::LIMIT);
    assert_eq!(whole[6].bytes, b"last");
    for size in [1, 2, 7, 4096] {
        assert_eq!(told(size), whole, "pieces of {size}");
    }
    let read: Vec<OwnedLine> = Lines::of(&session[..]).map(Result::unwrap).collect();
    assert_eq!(read, whole);
    let mut each: Vec<OwnedLine> = Vec::new();
    Lines::new().each(&session, |line| each.push(line.into()));
    assert_eq!(each, whole);
}

#[test]
fn a_line_that_was_cut_is_a_text() {
    let session = [BOARD, &" ".repeat(fibs::LIMIT), "\n", BOARD, "  \n12 bob hi\n"].concat();
    let lines: Vec<OwnedLine> = Lines::of(session.as_bytes()).map(Result::unwrap).collect();
    assert!(matches!(lines[0].reading(), Reading::Text(text) if text.len() == fibs::LIMIT));
    assert!(matches!(lines[1].reading(), Reading::Board(_)));
    let mut read = Vec::new();
    Lines::new().each(session.as_bytes(), |line| read.push(line.reading() == fibs::read(line.bytes)));
    assert_eq!(read, [false, true, true]);
}

#[test]
fn a_stream_that_fails_is_asked_again() {
    struct Stream(Vec<Result<&'static [u8], ErrorKind>>);
    impl Read for Stream {
        fn read(&mut self, room: &mut [u8]) -> io::Result<usize> {
            let piece = self.0.remove(0)?;
            room[..piece.len()].copy_from_slice(piece);
            Ok(piece.len())
        }
    }
    let parts = vec![Ok(&b"a\nb"[..]), Err(ErrorKind::Interrupted), Err(ErrorKind::WouldBlock), Ok(b"c\nd"), Ok(b"")];
    let mut lines = Lines::of(Stream(parts));
    assert_eq!(lines.next().unwrap().unwrap().bytes, b"a");
    assert_eq!(lines.next().unwrap().unwrap_err().kind(), ErrorKind::WouldBlock);
    assert_eq!(lines.next().unwrap().unwrap().bytes, b"bc");
    assert!(lines.next().is_none());
    assert_eq!(lines.unfinished(), b"d");
}

#[test]
fn what_is_not_asked_for_comes_first_in_the_next_call() {
    let texts =
        |lines: &mut Lines, piece: &[u8]| -> Vec<Vec<u8>> { lines.owned(piece).map(|line| line.bytes).collect() };
    let session = b"12 a b\n12 c d\n12 e f\nhal";
    let mut lines = Lines::new();
    assert_eq!(lines.owned(session).next().unwrap().bytes, b"12 a b");
    assert_eq!(lines.unfinished(), b"");
    assert_eq!(texts(&mut lines, b"f\r\n"), [&b"12 c d"[..], b"12 e f", b"half"]);
    // by the other calls too
    lines.owned(session).next();
    let fed = lines.feed(b"f\n");
    assert_eq!((fed.used, fed.line.unwrap().bytes), (0, &b"12 c d"[..]));
    let mut each = Vec::new();
    lines.each(b"f\n", |line| each.push(line.bytes.to_vec()));
    assert_eq!(each, [&b"12 e f"[..], b"half"]);
    lines.owned(session).next();
    lines.reset();
    assert_eq!((texts(&mut lines, b"f\n"), lines.unfinished()), (vec![b"f".to_vec()], &b""[..]));
    let mut rest = lines.owned(b"d\n");
    assert_eq!(rest.next().unwrap().bytes, b"d");
    assert_eq!((rest.next(), rest.next()), (None, None));
}

#[test]
fn who_speaks_is_answered_while_the_line_is_held() {
    let mut client = client();
    client.open().unwrap();
    client.sent(client.outgoing().len());
    let mut piece = &b"12 bob Hello\r\njoe wants to play a 5 point match with you.\r\n"[..];
    while let Some(heard) = client.hear(&mut piece).map(Heard::into_owned) {
        if let Reading::Numbered(Message::Says { name, text }) = heard.reading() {
            client.plain(&Plain::Tell(name.bytes(), text)).unwrap();
        } else if let Some(name) = heard.line.bytes.split(|byte| *byte == b' ').next() {
            client.plain(&Plain::Join(Some(name))).unwrap();
        }
    }
    assert_eq!(client.outgoing(), b"tell bob Hello\r\njoin joe\r\n");
}

#[test]
fn a_lost_decision_tells_whether_the_server_may_know_of_it() {
    for (sent, may_be_known) in [(0, false), (3, false), (4, false), (5, true), (6, true)] {
        let mut client = client();
        client.open().unwrap();
        hear(&mut client, &format!("{GREETING}{ROLL}\r\n"));
        client.sent(client.outgoing().len());
        client.decide(&Decision::Roll).unwrap();
        client.sent(sent);
        let lost = client.lose().unwrap();
        assert_eq!((lost.decision, lost.may_be_known, lost.command().as_str()), (Decision::Roll, may_be_known, "roll"));
        assert_eq!(client.lose(), None);
    }
    // a roll by a standing order too
    let mut client = client();
    client.open().unwrap();
    hear(&mut client, GREETING);
    client.sent(client.outgoing().len());
    client.order_roll().unwrap();
    hear(&mut client, &format!("{}\r\n", ROLL.replace(":1:1:1:0:1:-1:", ":1:0:1:0:1:-1:")));
    client.sent(2);
    assert!(!client.lose().unwrap().may_be_known);
}

#[test]
fn a_line_of_ones_own_never_decides() {
    use fibs::OwnLineRefusal::{Fault, Offline, Taken};
    let mut client = client();
    assert_eq!((client.own_line(b"leave"), client.unguarded_line(b"roll")), (Err(Offline), Err(Offline)));
    assert_eq!(client.state(), ConnectionState::Offline);
    client.open().unwrap();
    assert_eq!((client.own_line(b"a\nroll"), client.is_ready()), (Err(Fault(PlainFault::BadText)), false));
    hear(&mut client, &format!("{GREETING}{ROLL}\r\n"));
    assert_eq!((client.state(), client.is_ready()), (ConnectionState::Ready, true));
    client.decide(&Decision::Roll).unwrap();
    client.sent(client.outgoing().len());
    // whether a decision waits or not, and however it is spelled
    for line in ["roll", "r", "ROLL", " roll", "move 24-18", "m 24 18", "double", "redouble", "resign n", "who"] {
        assert_eq!(client.own_line(line.as_bytes()), Err(Taken), "{line}");
    }
    assert_eq!(client.outgoing(), b"");
    for line in ["accept", "reject", "leave", "watch bob", "moves", "rolls"] {
        client.own_line(line.as_bytes()).unwrap();
    }
    client.sent(client.outgoing().len());
    // no answer to a double
    hear(&mut client, &format!("{}\r\n", ROLL.replace(":1:1:1:0:1:-1:", ":1:1:1:1:1:-1:")));
    assert_eq!(client.shown().unwrap().phase(), Ok(Phase::AnswerDouble));
    for line in ["accept", "a", "Reject", "rej"] {
        assert_eq!(client.own_line(line.as_bytes()), Err(Taken), "{line}");
    }
    client.unguarded_line(b"roll").unwrap();
    assert_eq!((client.outgoing(), client.waiting()), (&b"roll\r\n"[..], None));
}

#[test]
fn a_client_is_small_where_it_lies() {
    assert!(size_of::<Client>() <= 2048 && size_of::<Lines>() <= 2048, "{}", size_of::<Client>());
}

#[test]
fn a_board_has_names_for_its_fields() {
    let board: Board = BOARD.parse().unwrap();
    assert_eq!((board.length(), board.score(), board.opponent_score()), (Some(3), 0, 1));
    assert_eq!((board.dice(), board.opponent_dice(), board.cube()), (Some([6, 2]), None, 1));
    assert_eq!((board.may_double(), board.opponent_may_double(), board.was_doubled()), (true, true, false));
    assert_eq!((board.off(), board.opponent_off(), board.pips()), (0, 0, Ok((167, 167))));
    assert_eq!(BOARD.replace("bob:3:", "bob:9999:").parse::<Board>().unwrap().length(), None);
    let play = Decision::Move(Position::of(&board).unwrap().plays().unwrap()[0]);
    let after = board.after(&play, [0, 0]).unwrap();
    assert_eq!((after.pips(), board.differs(&after), board.differs(&board)), (Ok((159, 167)), true, false));
    assert_eq!((board.refusal(&play), board.refusal(&Decision::Roll)), (Ok(None), Ok(Some(Disallowed::WrongKind))));
    let turned = board.turned();
    assert_eq!((turned.score(), turned.opponent_dice(), turned.opponent()), (1, Some([6, 2]), board.opponent()));
    assert_eq!(turned.phase(), Ok(Phase::OpponentActs));
    assert_eq!(turned.turned().phase(), Ok(Phase::Move));
    for (fields, is_over) in
        [("3:2:1:", false), ("3:3:1:", true), ("3:1:4:", true), ("1:0:0:", true), ("9999:90:2:", false)]
    {
        let line = ROLL.replace(":bob:3:0:1:", &format!(":bob:{fields}")).replace(":2:0:1:0:0:0:0:", ":2:0:0:0:0:0:0:");
        assert_eq!(line.parse::<Board>().unwrap().is_match_over(), is_over, "{line}");
    }
    assert!(!BOARD.replace("bob:3:0:", "bob:3:3:").parse::<Board>().unwrap().is_match_over());
}

#[test]
fn a_client_plays() {
    let mut client = client();
    assert_eq!(client.plain(&Plain::Who), Err(PlainRefusal::Offline));
    client.open().unwrap();
    assert_eq!(client.open(), Err(Refusal::AlreadyOpen));
    assert_eq!(hear(&mut client, GREETING).len(), 2);
    assert_eq!(client.decide(&Decision::Roll), Err(Refusal::NoBoard));
    hear(&mut client, &format!("{ROLL}\r\n"));
    let position = Position::try_from(client.shown().unwrap()).unwrap();
    assert_eq!(position.phase(), Phase::RollOrDouble);
    client.sent(client.outgoing().len());
    assert_eq!(client.refusal(&Decision::Roll), None);
    client.decide(&Decision::Roll).unwrap();
    assert_eq!(client.outgoing(), b"roll\r\n");
    assert_eq!(client.decide(&Decision::Roll), Err(Refusal::Waiting));
    assert_eq!(client.waiting().unwrap().decision, Decision::Roll);
    assert_eq!(client.outgoing(), b"roll\r\n", "a refusal changes nothing");
    assert_eq!(hear(&mut client, &format!("{BOARD}\r\n"))[0].1, Some(Decision::Roll));
    let play = Decision::Move(Position::try_from(client.shown().unwrap()).unwrap().plays().unwrap()[0]);
    client.decide(&play).unwrap();
    assert_eq!(client.outgoing(), b"roll\r\nmove 24-22 24-18\r\n");
    let lost = client.lose().unwrap();
    assert_eq!((lost.decision, lost.board), (play, BOARD.parse().unwrap()));
    assert!(client.shown().is_none() && client.lose().is_none() && client.outgoing().is_empty());
    assert!(hear(&mut client, GREETING).is_empty(), "offline nothing is heard");
}

#[test]
fn what_is_to_be_sent_is_kept_until_it_is() {
    /// Takes so many bytes at each write, or fails.
    struct Socket(Vec<Result<usize, ErrorKind>>, Vec<u8>);
    impl Write for Socket {
        fn write(&mut self, bytes: &[u8]) -> io::Result<usize> {
            let taken = self.0.remove(0)?.min(bytes.len());
            self.1.extend(&bytes[..taken]);
            Ok(taken)
        }
        fn flush(&mut self) -> io::Result<()> {
            Ok(())
        }
    }
    let login = b"login fibs_client 1008 ann secret\r\n";
    let mut client = client();
    client.open().unwrap();
    assert_eq!(client.outgoing(), login);
    let mut socket = Socket(vec![Ok(3), Err(ErrorKind::Interrupted), Ok(2), Err(ErrorKind::WouldBlock)], Vec::new());
    assert_eq!(client.write_to(&mut socket).unwrap_err().kind(), ErrorKind::WouldBlock);
    assert_eq!((&socket.1[..], client.outgoing()), (&login[..5], &login[5..]));
    hear(&mut client, "1 ann 1 here\r\n");
    socket.0 = vec![Ok(0)];
    assert_eq!(client.write_to(&mut socket).unwrap_err().kind(), ErrorKind::WriteZero);
    socket.0 = vec![Ok(20), Ok(100)];
    client.write_to(&mut socket).unwrap();
    assert_eq!(socket.1, [&login[..], b"set boardstyle 3\r\n"].concat());
    assert_eq!(client.outgoing(), b"");
    client.sent(usize::MAX);
    assert_eq!(client.lose(), None);
    client.open().unwrap();
    client.sent(3);
    assert_eq!(client.outgoing(), &login[3..]);
    assert_eq!(client.lose(), None);
    client.open().unwrap();
    assert_eq!(client.outgoing(), login, "what was left of a connection is forgotten");
}

#[test]
fn a_standing_order_rolls() {
    let mut client = client();
    assert_eq!(client.order_roll(), Err(Refusal::Offline));
    client.open().unwrap();
    client.order_roll().unwrap();
    assert!(client.is_ordered());
    assert_eq!(client.order_roll(), Err(Refusal::AlreadyOrdered));
    hear(&mut client, GREETING);
    let board = ROLL.replace(":1:1:1:0:1:-1:", ":1:0:1:0:1:-1:") + "\r\n";
    assert!(client.hear(&mut board.as_bytes()).unwrap().rolled);
    assert!(client.outgoing().ends_with(b"\r\nroll\r\n"));
    client.withdraw_roll().unwrap();
    assert_eq!(client.withdraw_roll(), Err(Refusal::NotOrdered));
}

#[test]
fn bad_input_is_an_error() {
    assert_eq!(Login::new(b"", b"x").err(), Some(PlainFault::BadName));
    assert_eq!(Login::new(b"ann", "x".repeat(65).as_bytes()).err(), Some(PlainFault::TooLong));
    assert_eq!(Login::new(b"ann", b"a b").err(), Some(PlainFault::BadText));
    assert!(Board::read(b"").is_err() && Board::try_from(&b"board:"[..]).is_err());
    let fault: FieldFault = "board:You:bob:x".parse::<Board>().unwrap_err();
    assert_eq!((fault.field, fault.fault), (4, Fault::NotANumber));
    assert_eq!(Step::new(26, 1), None);
    assert_eq!(Play::of([Step::new(6, 5).unwrap(); 5]), None);
    let position = Position::try_from(&BOARD.parse::<Board>().unwrap()).unwrap();
    let step = Step::new(24, 18).unwrap();
    assert_eq!(position.allows(&Decision::Move(Play::of([step]).unwrap())), Err(Disallowed::IllegalPlay));
    assert_eq!(position.allows(&Decision::Roll), Err(Disallowed::WrongKind));
    let legal = Play::of([step, Step::new(13, 11).unwrap()]).unwrap();
    assert_eq!(position.allows(&Decision::Move(legal)), Ok(()));
    assert_eq!((position.own_on(26), position.other_on(0), position.other_on(25)), (None, None, None));
    let watched: Board = BOARD.replace("You", "joe").parse().unwrap();
    assert_eq!(Position::try_from(&watched).err(), Some(PositionFault::NotYou));
    assert_eq!(fibs::read(b""), Reading::Text(b""));
    let board: Board = BOARD.parse().unwrap();
    assert_eq!([3, 4, 53, 54].map(|n| board.get(n)), [None, Some(3), Some(0), None]);
    assert_eq!(board.to_string().parse::<Board>(), Ok(board));
    assert_eq!(HashSet::from([board, board, ROLL.parse().unwrap()]).len(), 2);
    // steps that are none
    assert_eq!([(8, 8), (3, 20), (0, 0), (26, 1), (5, 25)].map(Step::try_from), [Err(ValueFault::NotAStep); 5]);
    for text in ["", "24", "24/", "24-18", "3/20", "024/18", "+24/18", "26/1", "0/0", "off/1", "24/bar"] {
        assert_eq!(text.parse::<Step>(), Err(ValueFault::NotAStep), "{text}");
    }
    for text in ["8/7 8/7 8/7 8/7 8/7", "24/18,13/11", "24/18  13/11", "move 24-18"] {
        assert_eq!(text.parse::<Play>(), Err(ValueFault::NotAPlay), "{text}");
    }
    assert_eq!(
        (Name::try_from("a b"), "dance".parse::<Decision>()),
        (Err(ValueFault::NotAName), Err(ValueFault::NotADecision))
    );
}

#[test]
fn values_are_keys_sorted_printed_and_read() {
    let position = Position::try_from(&BOARD.parse::<Board>().unwrap()).unwrap();
    let plays = position.plays().unwrap();
    assert!(plays.iter().rev().is_sorted(), "the greatest comes first");
    let counts: HashMap<Play, usize> = plays.iter().map(|play| (*play, 1)).collect();
    assert_eq!(counts.len(), plays.len());
    for play in plays {
        let decision = Decision::Move(play);
        assert_eq!((play.to_string().parse(), decision.to_string().parse()), (Ok(play), Ok(decision)));
    }
    fn is_key<T: std::hash::Hash + Eq + Clone + std::fmt::Debug>() {}
    is_key::<(Step, Decision, Phase, Message, Reading, Name, Outstanding, Refusal, Fault, Board, Player)>();
    assert!(Name::try_from("ann").unwrap() < Name::try_from("bob").unwrap());
}

#[test]
fn errors_print_a_sentence_and_have_a_name() {
    let mut client = client();
    let why = client.decide(&Decision::Roll).unwrap_err();
    assert_eq!((why.name(), why.to_string().as_str()), ("Offline", "no connection is open"));
    let why = client.plain(&Plain::Who).unwrap_err();
    assert_eq!((why.name(), why.to_string().as_str()), ("Offline", "no connection is open"));
    let why = "board:You:bob:x".parse::<Board>().unwrap_err();
    assert_eq!(
        (why.fault.name(), why.to_string().as_str()),
        ("NotANumber", "field 4: it is not spelled as a number of its kind")
    );
    for why in [PlainFault::BadName, PlainFault::BadText, PlainFault::TooLong] {
        assert!(why.to_string().contains(' ') && !why.to_string().contains(why.name()), "{why}");
    }
    for why in [PositionFault::NotYou, PositionFault::TooManyOwn, PositionFault::TooManyOther] {
        assert!(why.to_string().contains(' ') && !why.name().contains(' '), "{why}");
    }
}

#[test]
fn messages_have_names_for_their_fields() {
    let Reading::Numbered(Message::Says { name, text }) = fibs::read(b"12 bob hi\xff there") else { panic!() };
    assert_eq!((name.to_string(), name.as_ref(), text), ("bob".into(), &b"bob"[..], &b"hi\xff there"[..]));
    let Reading::Numbered(Message::Welcome { last_host, .. }) = fibs::read(b"1 ann 2 h\xc3\xb6st") else { panic!() };
    assert_eq!(last_host.to_string(), "h\\xc3\\xb6st");
    assert!(matches!(fibs::read(b"12 b:b hi"), Reading::Malformed { number: 12, field: 1, fault: Fault::BadName }));
}

#[test]
fn a_directory_lists() {
    let mut directory = Directory::new();
    let note = |directory: &mut Directory, line: String| {
        let Reading::Numbered(message) = fibs::read(line.as_bytes()) else { panic!("{line}") };
        directory.note(&message)
    };
    for i in 0..4096 {
        note(&mut directory, format!("5 p{i} - - 1 0 1500.05 0 3 1040515752 host client mail")).unwrap();
    }
    let full = note(&mut directory, "5 more - - 1 0 1500.05 0 3 1040515752 host client mail".into());
    let full = full.unwrap_err();
    assert_eq!((full.name(), full.to_string().as_str()), ("Full", "the directory has 4096 players"));
    note(&mut directory, "8 p0 p0 drops connection.".into()).unwrap();
    assert_eq!((directory.len(), directory.iter().count()), (4095, 4095));
    assert_eq!(directory.iter().next().unwrap().name, b"p1");
    assert!(directory.get(b"p0").is_none() && directory.at(4095).is_none());
    directory.clear();
    assert!(directory.is_empty());
}

#[test]
fn a_debug_print_shows_no_password() {
    let mut client = client();
    client.open().unwrap();
    for text in [format!("{client:?}"), format!("{:?}", Login::new(b"ann", b"secret").unwrap())] {
        assert!(!text.contains("secret"), "{text}");
    }
}

#[test]
fn errors_are_errors_and_values_go_to_other_threads() {
    fn is_error<T: std::error::Error + Send + Sync + 'static>() {}
    fn goes<T: Send + Sync>() {}
    is_error::<Refusal>();
    is_error::<PlainRefusal>();
    is_error::<PlainFault>();
    is_error::<FieldFault>();
    is_error::<Fault>();
    is_error::<PositionFault>();
    is_error::<Disallowed>();
    is_error::<fibs::DirectoryFault>();
    is_error::<fibs::AllocError>();
    is_error::<fibs::show::EngineFault>();
    goes::<(Client, Lines, Directory, Board, Position, Decision)>();
}

#[cfg(feature = "serde")]
#[test]
fn values_go_through_serde() {
    let board: Board = BOARD.parse().unwrap();
    assert_eq!(serde_json::to_string(&board).unwrap(), format!("{BOARD:?}"));
    assert_eq!(serde_json::from_str::<Board>(&format!("{BOARD:?}")).unwrap(), board);
    assert!(serde_json::from_str::<Board>("\"board:You\"").is_err());
    let play = Position::try_from(&board).unwrap().plays().unwrap()[0];
    for (decision, text) in [
        (Decision::Roll, "\"Roll\""),
        (Decision::Move(play), r#"{"Move":[[24,22],[24,18]]}"#),
        (Decision::Resign(fibs::Stake::Gammon), r#"{"Resign":"Gammon"}"#),
    ] {
        assert_eq!(serde_json::to_string(&decision).unwrap(), text);
        assert_eq!(serde_json::from_str::<Decision>(text).unwrap(), decision);
    }
    assert!(serde_json::from_str::<Play>("[[30,1]]").is_err());
    assert!(serde_json::from_str::<Play>("[[6,5],[6,5],[6,5],[6,5],[6,5]]").is_err());
}
