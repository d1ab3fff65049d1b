//! The crate `fibs` for JavaScript: functions that read an input which the caller has written, and leave an answer in
//! JSON. `index.js` calls them, and no other program. A byte is the character of its number in both directions, since a
//! line of the server may have any bytes.

#[cfg(feature = "engines")]
mod engines;
mod json;

use fibs::{
    AllocError, Board, BoardFault, Client, ConnectionState, Decision, Direction, Directory, DirectoryFault, Disallowed,
    Events, FieldFault, Lines, Login, MatchFiles, Outstanding, OwnLineRefusal, PlainFault, PlainRefusal, Position,
    PositionFault, Reading, Refusal, SavedMatch, Step, Turn, decision_text, read_command, read_plain,
};
use json::Json;
use std::mem;
use std::sync::Mutex;

/// What JavaScript holds by a number.
enum Object {
    Lines(Box<Lines>, Piece),
    Directory(Directory),
    Events(Events),
    MatchFiles(Box<MatchFiles>),
    Client(Box<Client>, Directory, Piece),
}

/// A piece of a stream: the bytes from a place on are not read yet.
#[derive(Default)]
struct Piece {
    bytes: Vec<u8>,
    at: usize,
}

impl Piece {
    fn rest(&self) -> &[u8] {
        self.bytes.get(self.at..).unwrap_or_default()
    }

    /// So many bytes are left. Of a piece that is read nothing is kept.
    fn leave(&mut self, left: usize) {
        self.at = self.bytes.len().saturating_sub(left);
        if left == 0 {
            *self = Piece::default();
        }
    }
}

/// How many bytes of lines are answered at once, about.
const ANSWERED: usize = 1 << 15;

struct State {
    input: Vec<u8>,
    output: String,
    objects: Vec<Option<Object>>,
    /// The turn that was asked for last, with its board: the next question is often of the same one.
    turn: Option<(Board, Turn)>,
}

static STATE: Mutex<State> =
    Mutex::new(State { input: Vec::new(), output: String::new(), objects: Vec::new(), turn: None });

/// Runs `f` on the state. Nothing else has it: there is one thread, and no call is within another.
fn with<T>(f: impl FnOnce(&mut State) -> T) -> T {
    match STATE.lock() {
        Ok(mut state) => f(&mut state),
        Err(poisoned) => f(&mut poisoned.into_inner()),
    }
}

/// Makes room for an input of so many bytes, and says where.
// SAFETY: no other function of the module has this name; so below.
#[unsafe(no_mangle)]
pub extern "C" fn input(len: usize) -> *mut u8 {
    with(|state| {
        state.input.clear();
        state.input.resize(len, 0);
        state.input.as_mut_ptr()
    })
}

/// Where the last answer is.
#[unsafe(no_mangle)]
pub extern "C" fn output() -> *const u8 {
    with(|state| state.output.as_ptr())
}

/// How long the last answer is.
#[unsafe(no_mangle)]
pub extern "C" fn output_len() -> usize {
    with(|state| state.output.len())
}

/// Answers the input.
fn answer(f: impl FnOnce(&[u8]) -> String) {
    with(|state| state.output = f(&state.input));
}

/// What the line in the input says.
#[unsafe(no_mangle)]
pub extern "C" fn read() {
    answer(|line| Json::of(|json| json.reading(line, &fibs::read(line))));
}

/// The legal plays of the board in the input, as commands.
#[unsafe(no_mangle)]
pub extern "C" fn plays() {
    answer(|line| plays_of(line).unwrap_or_else(|why| why));
}

fn plays_of(line: &[u8]) -> Result<String, String> {
    let position = Position::of(&board_of(line)?).map_err(fault)?;
    let plays = position.plays().map_err(fault)?;
    Ok(Json::of(|json| {
        json.list(plays, |json, play| {
            json.text(decision_text(&Decision::Move(play), position.direction()).as_bytes());
        });
    }))
}

fn board_of(line: &[u8]) -> Result<Board, String> {
    Board::read(line).map_err(fault)
}

fn board_json(board: &Board) -> String {
    Json::of(|json| json.reading(&board.to_string().into_bytes(), &Reading::Board(*board)))
}

/// The line of a board, and what follows it after a line end.
fn parts(input: &[u8]) -> (&[u8], &[u8]) {
    let end = input.iter().position(|byte| *byte == b'\n').unwrap_or(input.len());
    (&input[..end], input.get(end + 1..).unwrap_or_default())
}

/// The board in the input, and the decision whose command follows it.
fn decided(input: &[u8]) -> Result<(Board, Decision), String> {
    let (line, command) = parts(input);
    let board = board_of(line)?;
    let decision = read_command(command, board.direction()).ok_or_else(|| own_fault(NO_DECISION))?;
    Ok((board, decision))
}

/// The turn on the board in the input, after the steps that follow it, each as `FROM/TO/DIE`.
#[unsafe(no_mangle)]
pub extern "C" fn turn() {
    with(|state| state.output = turn_of(&state.input, &mut state.turn).unwrap_or_else(|why| why));
}

fn turn_of(input: &[u8], kept: &mut Option<(Board, Turn)>) -> Result<String, String> {
    let (line, steps) = parts(input);
    let board = board_of(line)?;
    if kept.as_ref().is_none_or(|(of, _)| *of != board) {
        *kept = Some((board, Turn::of(&board).map_err(fault)?));
    }
    let Some((_, turn)) = kept else { return Err(fault(Disallowed::IllegalPlay)) };
    while turn.undo().is_some() {}
    for text in steps.split(|byte| *byte == b' ').filter(|text| !text.is_empty()) {
        let (step, die) = step_of(text).ok_or_else(|| fault(Disallowed::IllegalPlay))?;
        turn.take(step, die).map_err(fault)?;
    }
    let command = turn.play().map(|play| decision_text(&Decision::Move(play), board.direction()));
    Ok(Json::of(|json| json.turn(turn, command.as_ref().map(|text| text.as_bytes()))))
}

/// A step and its die; no die if it is any.
fn step_of(text: &[u8]) -> Option<(Step, Option<u8>)> {
    let numbers: Vec<&str> = str::from_utf8(text).ok()?.split('/').collect();
    let [from, to, die] = numbers[..] else { return None };
    let step = Step::new(from.parse().ok()?, to.parse().ok()?)?;
    Some((step, if die.is_empty() { None } else { Some(die.parse().ok()?) }))
}

/// The steps of the command that follows the board in the input, in the player's own numbers.
#[unsafe(no_mangle)]
pub extern "C" fn in_own() {
    answer(|input| in_own_of(input).unwrap_or_else(|why| why));
}

fn in_own_of(input: &[u8]) -> Result<String, String> {
    let (_, decision) = decided(input)?;
    Ok(Json::of(|json| match decision {
        Decision::Move(play) => json.list(play.steps(), |json, step| json.step(step)),
        _ => json.raw("[]"),
    }))
}

/// The board in the input in words, a fact a row.
#[unsafe(no_mangle)]
pub extern "C" fn words() {
    answer(|line| words_of(line).unwrap_or_else(|why| why));
}

fn words_of(line: &[u8]) -> Result<String, String> {
    let rows = board_of(line)?.words().map_err(fault)?;
    Ok(Json::of(|json| json.list(rows, |json, row| json.text(row.as_bytes()))))
}

/// The saved match that the text in the input is a row of, or nothing.
#[unsafe(no_mangle)]
pub extern "C" fn saved_match() {
    answer(|text| {
        Json::of(|json| match SavedMatch::read(text) {
            Some(saved) => json.saved(&saved),
            None => json.raw("null"),
        })
    });
}

/// Why the board in the input does not allow the decision that follows it, or nothing.
#[unsafe(no_mangle)]
pub extern "C" fn refusal() {
    answer(|input| refusal_of(input).unwrap_or_else(|why| why));
}

fn refusal_of(input: &[u8]) -> Result<String, String> {
    let (board, decision) = decided(input)?;
    Ok(name_of(board.refusal(&decision).map_err(fault)?))
}

/// The board after the decision that follows it in the input, and these dice.
#[unsafe(no_mangle)]
pub extern "C" fn after(first: u32, second: u32) {
    answer(|input| after_of(input, [first, second]).unwrap_or_else(|why| why));
}

fn after_of(input: &[u8], dice: [u32; 2]) -> Result<String, String> {
    let (board, decision) = decided(input)?;
    let dice = dice.map(|die| u8::try_from(die).unwrap_or_default());
    board.after(&decision, dice).map(|board| board_json(&board)).ok_or_else(|| own_fault(NO_EFFECT))
}

/// The board in the input with the sides exchanged.
#[unsafe(no_mangle)]
pub extern "C" fn turned() {
    answer(|line| board_of(line).map(|board| board_json(&board.turned())).unwrap_or_else(|why| why));
}

/// Whether the two boards in the input differ in what the game is.
#[unsafe(no_mangle)]
pub extern "C" fn differs() {
    answer(|input| differs_of(input).unwrap_or_else(|why| why));
}

fn differs_of(input: &[u8]) -> Result<String, String> {
    let (line, other) = parts(input);
    Ok(board_of(line)?.differs(&board_of(other)?).to_string())
}

/// Keeps an object, and says its number.
fn keep(state: &mut State, object: Object) -> usize {
    let place = state.objects.iter().position(Option::is_none).unwrap_or(state.objects.len());
    if place == state.objects.len() {
        state.objects.push(None);
    }
    state.objects[place] = Some(object);
    state.output = "null".into();
    place + 1
}

/// A reader of lines.
#[unsafe(no_mangle)]
pub extern "C" fn new_lines() -> usize {
    with(|state| keep(state, Object::Lines(Box::new(Lines::new()), Piece::default())))
}

/// A directory of players.
#[unsafe(no_mangle)]
pub extern "C" fn new_directory() -> usize {
    with(|state| keep(state, Object::Directory(Directory::new())))
}

/// The events of a stream of lines.
#[unsafe(no_mangle)]
pub extern "C" fn new_events() -> usize {
    with(|state| keep(state, Object::Events(Events::new())))
}

/// The match files of a stream of lines; the input is the user's name.
#[unsafe(no_mangle)]
pub extern "C" fn new_match_files() -> usize {
    with(|state| {
        let files = MatchFiles::new(&String::from_utf8_lossy(&state.input));
        keep(state, Object::MatchFiles(Box::new(files)))
    })
}

/// A client of the name and the password in the input, the name in its first bytes; 0 if they are not valid.
#[unsafe(no_mangle)]
pub extern "C" fn new_client(name_len: usize) -> usize {
    with(|state| {
        let (name, password) = state.input.split_at(name_len.min(state.input.len()));
        match Login::new(name, password) {
            Ok(login) => {
                let client = Box::new(Client::new(login));
                keep(state, Object::Client(client, Directory::new(), Piece::default()))
            }
            Err(why) => {
                state.output = fault(why);
                0
            }
        }
    })
}

/// Forgets an object.
#[unsafe(no_mangle)]
pub extern "C" fn free(id: usize) {
    with(|state| {
        if let Some(object) = state.objects.get_mut(id.wrapping_sub(1)) {
            *object = None;
        }
    });
}

/// Does something with an object and the input: `what` is a number of index.js.
#[unsafe(no_mangle)]
pub extern "C" fn call(id: usize, what: u32) {
    with(|state| {
        state.output = match state.objects.get_mut(id.wrapping_sub(1)) {
            Some(Some(Object::Lines(lines, piece))) => of_lines(lines, piece, what, &mut state.input),
            Some(Some(Object::Directory(directory))) => of_directory(directory, what, &state.input),
            Some(Some(Object::Events(events))) => of_events(events, what, &state.input),
            Some(Some(Object::MatchFiles(files))) => of_match_files(files, what, &state.input),
            Some(Some(Object::Client(client, directory, piece))) => {
                of_client(client, directory, piece, what, &mut state.input)
            }
            _ => own_fault(CLOSED),
        };
    });
}

/// The input is the next piece; what is left of the piece before was read.
fn give(piece: &mut Piece, input: &mut Vec<u8>) -> String {
    *piece = Piece { bytes: mem::take(input), at: 0 };
    "null".into()
}

fn of_lines(lines: &mut Lines, piece: &mut Piece, what: u32, input: &mut Vec<u8>) -> String {
    match what {
        0 => give(piece, input),
        1 => next_lines(lines, piece),
        2 => Json::of(|json| json.text(lines.unfinished())),
        _ => {
            lines.reset();
            *piece = Piece::default();
            "null".into()
        }
    }
}

/// The next lines of a piece, or nothing if none ends.
fn next_lines(lines: &mut Lines, piece: &mut Piece) -> String {
    let mut rest = piece.rest();
    let found = Json::of(|json| {
        while json.len() < ANSWERED && !rest.is_empty() {
            let fed = lines.feed(rest);
            rest = rest.get(fed.used..).unwrap_or_default();
            if let Some(line) = fed.line {
                if json.len() == 0 {
                    json.open('[');
                }
                json.line(line.bytes, line.cut, &line.reading());
                json.close('}');
            }
        }
        match json.len() {
            0 => json.raw("null"),
            _ => json.close(']'),
        }
    });
    let left = rest.len();
    piece.leave(left);
    found
}

fn of_events(events: &mut Events, what: u32, input: &[u8]) -> String {
    match what {
        0 => match events.hear(&fibs::read(input)) {
            Ok(happened) => Json::of(|json| json.list(happened, |json, event| json.event(&event))),
            Err(why) => fault(why),
        },
        1 => Json::of(|json| json.text(events.opponent())),
        2 => Json::of(|json| json.list(events.hear_bytes(input), |json, event| json.event(&event))),
        _ => {
            events.open();
            "null".into()
        }
    }
}

fn of_match_files(files: &mut MatchFiles, what: u32, input: &[u8]) -> String {
    match what {
        0 => done(files.hear(&fibs::read(input))),
        _ => Json::of(|json| {
            json.list(files.files(), |json, file| {
                json.open('{');
                json.texts(&[("opponent", file.opponent.as_bytes()), ("text", file.text.as_bytes())]);
                json.close('}');
            });
        }),
    }
}

fn of_directory(directory: &mut Directory, what: u32, input: &[u8]) -> String {
    match what {
        0 => match fibs::read(input) {
            Reading::Numbered(message) => done(directory.note(&message)),
            _ => "null".into(),
        },
        1 => Json::of(|json| match directory.get(input) {
            Some(player) => json.player(player),
            None => json.raw("null"),
        }),
        2 => players_of(directory),
        _ => {
            directory.clear();
            "null".into()
        }
    }
}

fn of_client(
    client: &mut Client,
    directory: &mut Directory,
    piece: &mut Piece,
    what: u32,
    input: &mut Vec<u8>,
) -> String {
    match what {
        0 => give(piece, input),
        1 => next_heard(client, directory, piece),
        2 => Json::of(|json| json.text(client.unfinished())),
        3 => {
            let opened = client.open();
            sent(client, opened)
        }
        4 => match read_command(input, client.shown().map_or(Direction::Down, Direction::of)) {
            Some(decision) => {
                let decided = client.decide(&decision);
                sent(client, decided)
            }
            None => own_fault(NO_DECISION),
        },
        5 => match read_plain(input) {
            Some(plain) => {
                let taken = client.plain(&plain);
                sent(client, taken)
            }
            None => own_fault(NOT_PLAIN),
        },
        6 => done(client.order_roll()),
        7 => done(client.withdraw_roll()),
        8 => {
            let lost = client.lose();
            directory.clear();
            *piece = Piece::default();
            Json::of(|json| match lost {
                None => json.raw("null"),
                // what was given out was sent, as far as this module knows
                Some(lost) => waits(json, &lost.command(), &lost.board),
            })
        }
        9 => Json::of(|json| match client.shown() {
            Some(board) => json.raw(&board_json(board)),
            None => json.raw("null"),
        }),
        10 => Json::of(|json| outstanding(json, client.waiting())),
        11 => client.is_ordered().to_string(),
        12 => players_of(directory),
        13 => {
            let taken = client.own_line(input);
            sent(client, taken)
        }
        14 => {
            let taken = client.unguarded_line(input);
            sent(client, taken)
        }
        15 => match read_command(input, client.shown().map_or(Direction::Down, Direction::of)) {
            Some(decision) => name_of(client.refusal(&decision)),
            None => own_fault(NO_DECISION),
        },
        _ => Json::of(|json| {
            json.text(match client.state() {
                ConnectionState::Offline => b"offline",
                ConnectionState::Login => b"login",
                ConnectionState::ServerPlays => b"serverPlays",
                _ => b"ready",
            });
        }),
    }
}

/// The next line that the client hears, with what is to be sent after it; or nothing if none ends.
fn next_heard(client: &mut Client, directory: &mut Directory, piece: &mut Piece) -> String {
    let mut rest = piece.rest();
    let found = Json::of(|json| {
        let Some(heard) = client.hear(&mut rest) else {
            return json.raw("null");
        };
        if let Reading::Numbered(message) = &heard.reading {
            // a directory that is full lists no further player
            let _ = directory.note(message);
        }
        json.line(heard.line.bytes, heard.line.cut, &heard.reading);
        outstanding(json.key("confirmed"), heard.confirmed.as_ref());
        json.key("rolled").raw(&heard.rolled.to_string());
        json.key("send");
        json.text(&outgoing(client));
        json.close('}');
    });
    let left = rest.len();
    piece.leave(left);
    found
}

/// What a client hands out, which is then sent.
fn outgoing(client: &mut Client) -> Vec<u8> {
    let bytes = client.outgoing().to_vec();
    client.sent(bytes.len());
    bytes
}

/// A decision that waits.
fn waits(json: &mut Json, command: &str, board: &Board) {
    json.open('{');
    json.key("command").text(command.as_bytes());
    json.key("board").text(board.to_string().as_bytes());
    json.close('}');
}

fn outstanding(json: &mut Json, outstanding: Option<&Outstanding>) {
    match outstanding {
        None => json.raw("null"),
        Some(waiting) => waits(json, &waiting.command(), &waiting.board),
    }
}

fn players_of(directory: &Directory) -> String {
    Json::of(|json| json.list(directory.iter(), |json, player| json.player(player)))
}

/// What is to be sent, or why nothing is.
fn sent<E: Refused>(client: &mut Client, given: Result<(), E>) -> String {
    match given {
        Ok(()) => Json::of(|json| json.text(&outgoing(client))),
        Err(why) => fault(why),
    }
}

/// Nothing, or why it was not done.
fn done<E: Refused>(given: Result<(), E>) -> String {
    given.map_or_else(fault, |()| "null".into())
}

/// Why something is refused: a name, and a sentence.
trait Refused {
    fn named(&self) -> &'static str;
    fn says(&self) -> String;
}

macro_rules! refused {
    ($($name:ident),*) => {
        $(impl Refused for $name {
            fn named(&self) -> &'static str {
                self.name()
            }

            fn says(&self) -> String {
                self.to_string()
            }
        })*
    };
}

refused!(BoardFault, DirectoryFault, Disallowed, OwnLineRefusal, PlainFault, PlainRefusal, PositionFault, Refusal);

impl Refused for FieldFault {
    fn named(&self) -> &'static str {
        self.fault.name()
    }

    fn says(&self) -> String {
        self.to_string()
    }
}

impl Refused for AllocError {
    fn named(&self) -> &'static str {
        "Memory"
    }

    fn says(&self) -> String {
        "memory ran out".into()
    }
}

/// A refusal, which JavaScript throws.
fn fault(why: impl Refused) -> String {
    own_fault((why.named(), &why.says()))
}

fn own_fault((name, says): (&str, &str)) -> String {
    Json::of(|json| {
        json.open('{');
        json.key("refused").text(name.as_bytes());
        json.key("says").text(says.as_bytes());
        json.close('}');
    })
}

/// The name of a refusal, or nothing.
fn name_of(why: Option<impl Refused>) -> String {
    why.map_or_else(|| "null".into(), |why| format!("\"{}\"", why.named()))
}

const NO_DECISION: (&str, &str) = ("NotADecision", "the text is not the command of a decision");
const NOT_PLAIN: (&str, &str) = ("NotPlain", "the text is not one of the plain commands");
const NO_EFFECT: (&str, &str) = ("NoEffect", "the server does not carry the decision out on the board");
const CLOSED: (&str, &str) = ("Closed", "it was closed");
