//! What `fibs replay` and `fibs loop` print of scripts, in plain Rust over std alone, without proofs; scripts by the
//! million, each run by the program too. See `lists.py`.
//!
//! It was written from docs/FORMATS.md, docs/PLAYING.md and tests/props/reference.py; lines are read by
//! bench/plain_show.rs, and plays judged by bench/plain_rules.rs.
//! `plain_replay compare PROGRAM replay|loop|many SEED COUNT FOLDER` makes COUNT scripts, and gives each to PROGRAM; it
//! prints how often each kind of line is in the logs, or, with status 1, the first script of which PROGRAM prints
//! something else. With `many` PROGRAM gets all of them in one process. Files are written in FOLDER.
//! `plain_replay make SEED AT` prints the script of this place, `plain_replay play < SCRIPT` what is printed for it.
//! Built by `rustc -O`.

mod chance;
mod plain_boards;
#[path = "../plain_rules.rs"]
#[allow(dead_code)]
mod plain_rules;
mod plain_scripts;
#[path = "../plain_show.rs"]
#[allow(dead_code)]
mod plain_show;

use plain_boards::{command, push_number, read_decision, renumbered, Board, Decision, Phase};
use plain_show::{check_message, decimal, is_name, numbered, Lines};
use std::collections::BTreeMap;
use std::env;
use std::fs::{self, File};
use std::io::{self, Read, Seek, Write};
use std::os::unix::fs::FileExt;
use std::process::{exit, Command};

const LARGEST_SCRIPT: usize = 1_048_576;

/// Whether a line is a plain command; if it is, whether it can be written to the server.
fn plain(line: &[u8]) -> Option<bool> {
    let mut parts = line.splitn(2, |byte| *byte == b' ');
    let (first, rest) = (parts.next().unwrap_or_default(), parts.next());
    let is_text = |text: &[u8]| (1..=400).contains(&text.len()) && text.iter().all(|byte| (32..=126).contains(byte));
    match (first, rest) {
        (b"say" | b"shout" | b"whisper" | b"kibitz", text) => Some(is_text(text.unwrap_or_default())),
        (b"tell" | b"message", words) => {
            let mut words = words.unwrap_or_default().splitn(2, |byte| *byte == b' ');
            let (name, text) = (words.next().unwrap_or_default(), words.next().unwrap_or_default());
            Some(is_name(name) && is_text(text))
        }
        (b"join", None) => Some(true),
        (b"join", Some(name)) if !name.contains(&b' ') => Some(is_name(name)),
        (b"invite", words) => {
            let mut words = words.unwrap_or_default().splitn(2, |byte| *byte == b' ');
            let (name, points) = (words.next().unwrap_or_default(), words.next());
            match points {
                Some(points) if decimal(points, 0, 65_535).is_err() => None,
                _ => Some(is_name(name)),
            }
        }
        _ => match line {
            b"board" | b"who" | b"bye" | b"toggle ready" | b"toggle automove" | b"toggle greedy" => Some(true),
            _ => None,
        },
    }
}

enum Event {
    Open,
    Repeat,
    Order,
    Withdraw,
    Click(Decision),
    /// A command, and whether it can be written.
    Plain(Vec<u8>, bool),
    Text(Vec<u8>),
    Own(Board),
    Deliver(usize),
    Lose(usize),
    Serve(usize, u8, u8),
}

fn read_event(line: &[u8]) -> Option<Event> {
    let mut parts = line.splitn(2, |byte| *byte == b' ');
    let (first, rest) = (parts.next().unwrap_or_default(), parts.next());
    let number = |text: &[u8], most: i128| decimal(text, 0, most).ok();
    let all = i128::from(u32::MAX);
    Some(match (first, rest) {
        (b"open", None) => Event::Open,
        (b"repeat", None) => Event::Repeat,
        (b"text", text) => Event::Text(text.unwrap_or_default().to_vec()),
        (b"order", Some(b"roll")) => Event::Order,
        (b"withdraw", Some(b"roll")) => Event::Withdraw,
        (b"click", Some(text)) => Event::Click(read_decision(text)?),
        (b"plain", Some(text)) => Event::Plain(text.to_vec(), plain(text)?),
        (b"own", Some(line)) => Event::Own(Board::read(line)?),
        (b"deliver", Some(count)) => Event::Deliver(number(count, all)? as usize),
        (b"lose", Some(count)) => Event::Lose(number(count, all)? as usize),
        (b"serve", Some(words)) => {
            let words: Vec<&[u8]> = words.split(|byte| *byte == b' ').collect();
            let [conn, one, two] = words[..] else {
                return None;
            };
            Event::Serve(number(conn, all)? as usize, number(one, 255)? as u8, number(two, 255)? as u8)
        }
        _ => return None,
    })
}

/// The first board and the events, or the number of the first line that is unreadable.
fn read_script(script: &[u8]) -> Result<(Board, Vec<Event>), usize> {
    if script.len() > LARGEST_SCRIPT {
        return Err(0);
    }
    let mut lines: Vec<&[u8]> = script.split(|byte| *byte == b'\n').collect();
    let last = lines.pop().unwrap_or_default();
    let mut lines: Vec<&[u8]> = lines.iter().map(|line| line.strip_suffix(b"\r").unwrap_or(line)).collect();
    if !last.is_empty() {
        lines.push(last);
    }
    let board = lines.first().and_then(|line| Board::read(line)).ok_or(1usize)?;
    let mut events = Vec::new();
    for (at, line) in lines.iter().enumerate().skip(1) {
        events.push(read_event(line).ok_or(at + 1)?);
    }
    Ok((board, events))
}

/// The bytes on their way, up to the server and down to the client, of one connection.
#[derive(Default)]
struct Wires {
    up: Vec<u8>,
    down: Vec<u8>,
    is_open: bool,
}

impl Wires {
    fn send(&mut self, line: &[u8]) {
        self.up.extend_from_slice(line);
        self.up.extend_from_slice(b"\r\n");
    }

    fn line_end(&self) -> Option<usize> {
        self.up.windows(2).position(|bytes| bytes == b"\r\n")
    }
}

/// What the client knows on its connection.
#[derive(Default)]
struct Client {
    lines: Lines,
    is_welcomed: bool,
    /// Whether automove is on, and greedy.
    settings: Option<[bool; 2]>,
    board: Option<Board>,
    waiting: Option<(Board, Decision)>,
    toggled: [bool; 2],
    is_ordered: bool,
}

/// A refused event: its number and name.
type Refused = &'static str;

/// The server, the wires and the client.
struct Model {
    log: Vec<u8>,
    wires: Vec<Wires>,
    /// The connection that is logged in, or 0.
    logged_in: usize,
    board: Board,
    client: Client,
    /// The client's connection, or 0.
    current: usize,
}

impl Model {
    fn new(board: Board) -> Model {
        Model { log: Vec::new(), wires: Vec::new(), logged_in: 0, board, client: Client::default(), current: 0 }
    }

    fn note(&mut self, what: &str, conn: usize, more: &[&[u8]]) {
        self.log.extend_from_slice(what.as_bytes());
        self.log.push(b' ');
        push_number(&mut self.log, conn as i32);
        for part in more {
            self.log.push(b' ');
            self.log.extend_from_slice(part);
        }
        self.log.push(b'\n');
    }

    fn note_decision(&mut self, what: &str, conn: usize, board: &Board, decision: &Decision) {
        let text = command(&renumbered(decision, board));
        self.note(what, conn, &[&board.printed(), &text]);
    }

    fn wire(&mut self) -> &mut Wires {
        let at = self.current - 1;
        &mut self.wires[at]
    }

    /// To the connection that is logged in; if that is lost, the line goes with it.
    fn send(&mut self, line: &[u8]) {
        if self.logged_in > 0 && self.wires[self.logged_in - 1].is_open {
            let down = &mut self.wires[self.logged_in - 1].down;
            down.extend_from_slice(line);
            down.extend_from_slice(b"\r\n");
        }
    }

    fn hear(&mut self, bytes: &[u8]) {
        let (mut lines, mut heard) = (std::mem::take(&mut self.client.lines), Vec::new());
        lines.feed(bytes, |line, cut| {
            if !cut {
                heard.push(line.to_vec());
            }
        });
        self.client.lines = lines;
        for line in heard {
            self.hear_line(&line);
        }
    }

    fn hear_line(&mut self, line: &[u8]) {
        if line.starts_with(b"board:") {
            if let Some(board) = Board::read(line).filter(Board::is_good) {
                self.hear_board(board);
            }
        } else if let Some((number @ 1..=2, fields)) = numbered(line) {
            let mut said = Vec::new();
            if check_message(number, fields, &mut said).is_ok() {
                let fields: Vec<&[u8]> = said.split(|byte| *byte == b' ').collect();
                if number == 1 {
                    self.hear_welcome()
                } else {
                    self.hear_settings(&fields)
                }
            }
        }
    }

    fn hear_board(&mut self, board: Board) {
        self.note("shown", self.current, &[&board.printed()]);
        // the same board once more says nothing about the decision that was made on it
        if self.client.waiting.as_ref().is_some_and(|(before, _)| *before != board) {
            self.client.waiting = None;
        }
        let may_not_double = board.fields[39] == 0 && board.phase() == Phase::RollOrDouble;
        self.client.board = Some(board);
        if self.client.is_ordered && may_not_double && self.refusal(&Decision::Roll).is_none() {
            self.decide(Decision::Roll);
        }
    }

    fn hear_welcome(&mut self) {
        self.note("welcomed", self.current, &[]);
        if !self.client.is_welcomed {
            self.wire().send(b"set boardstyle 3");
        }
        self.client.is_welcomed = true;
    }

    /// The first of these fields is empty, since each comes after a space.
    fn hear_settings(&mut self, fields: &[&[u8]]) {
        let is_first = self.client.settings.is_none();
        self.client.settings = Some([fields[5] == b"1", fields[11] == b"1"]);
        self.note("informed", self.current, &[fields[5], fields[11]]);
        if is_first {
            if fields[3] == b"0" {
                self.wire().send(b"toggle autoboard");
            }
            if fields[12] == b"0" {
                self.wire().send(b"toggle moreboards");
            }
            self.wire().send(b"board");
        }
    }

    /// The first reason to refuse a decision.
    fn refusal(&self, decision: &Decision) -> Option<&'static str> {
        let client = &self.client;
        if self.current == 0 {
            return Some("Offline");
        }
        let Some(settings) = client.settings.filter(|_| client.is_welcomed) else {
            return Some("NotReady");
        };
        if settings.contains(&true) {
            return Some("ServerPlays");
        }
        let Some(board) = &client.board else {
            return Some("NoBoard");
        };
        if client.waiting.is_some() {
            return Some("Waiting");
        }
        let phase = board.phase();
        if !phase.is_decided() {
            return Some("NotYours");
        }
        if !phase.takes(decision) || !board.cube_allows(decision) {
            return Some("WrongKind");
        }
        match decision {
            Decision::Move(play) if !board.checkers().legal_plays(&board.dice()).contains(play) => Some("IllegalPlay"),
            _ => None,
        }
    }

    fn decide(&mut self, decision: Decision) {
        let Some(board) = self.client.board.clone() else {
            return;
        };
        self.note_decision("sent", self.current, &board, &decision);
        let text = command(&renumbered(&decision, &board));
        self.wire().send(&text);
        self.client.waiting = Some((board, decision));
    }

    fn plain(&mut self, line: &[u8], is_text: bool) {
        if self.current == 0 || !is_text {
            return;
        }
        if line == b"toggle automove" || line == b"toggle greedy" {
            let which = usize::from(line == b"toggle greedy");
            if self.client.toggled[which] || !self.client.settings.is_some_and(|settings| settings[which]) {
                return;
            }
            self.client.toggled[which] = true;
        }
        self.wire().send(line);
    }

    /// The server takes a line.
    fn take(&mut self, conn: usize, line: &[u8], dice: (u8, u8)) {
        if line.starts_with(b"login ") {
            self.logged_in = conn;
            return self.note("loggedin", conn, &[]);
        }
        if let Some(said) = read_decision(line) {
            let (before, decision) = (self.board.clone(), renumbered(&said, &self.board));
            let phase = before.phase();
            let is_done = phase.is_decided() && phase.takes(&decision);
            if is_done {
                self.board = before.decided(&decision, dice);
            }
            self.note(if is_done { "took" } else { "undone" }, conn, &[&before.printed(), line]);
        }
        // whatever was asked, the board is the answer
        self.send(&self.board.printed());
    }

    fn serve(&mut self, conn: usize, dice: (u8, u8)) -> Result<(), Refused> {
        if conn == 0 || conn > self.wires.len() {
            return Err("4 NoSuchConnection");
        }
        if !(1..=6).contains(&dice.0) || !(1..=6).contains(&dice.1) {
            return Err("9 BadDice");
        }
        let end = self.wires[conn - 1].line_end().filter(|_| conn >= self.logged_in).ok_or("5 NothingToServe")?;
        let line: Vec<u8> = self.wires[conn - 1].up.drain(..end + 2).collect();
        self.take(conn, &line[..end], dice);
        Ok(())
    }

    fn text(&mut self, line: &[u8]) -> Result<(), Refused> {
        let (mut lines, mut count, mut is_board) = (Lines::default(), 0, false);
        for piece in [line, b"\r\n"] {
            lines.feed(piece, |line, cut| {
                count += 1;
                is_board |= !cut && Board::read(line).is_some_and(|board| board.is_good());
            });
        }
        if count != 1 || is_board {
            return Err("7 BoardAsText");
        }
        self.send(line);
        Ok(())
    }

    fn lose(&mut self, kept: usize) {
        let wire = self.wire();
        wire.up.truncate(kept);
        wire.down.clear();
        wire.is_open = false;
        match std::mem::take(&mut self.client).waiting {
            Some((board, decision)) => self.note_decision("lost", self.current, &board, &decision),
            None => self.note("lost", self.current, &[]),
        }
        self.current = 0;
    }

    fn act(&mut self, event: &Event) -> Result<(), Refused> {
        let is_open = self.current > 0;
        match event {
            Event::Open if is_open => return Err("2 AlreadyOpen"),
            Event::Deliver(_) | Event::Lose(_) if !is_open => return Err("3 NotOpen"),
            Event::Open => {
                self.wires.push(Wires { is_open: true, ..Wires::default() });
                self.current = self.wires.len();
                self.client = Client::default();
                self.note("opened", self.current, &[]);
                self.wire().send(b"login fibs_client 1008 ann secret");
            }
            Event::Repeat => self.send(&self.board.printed()),
            Event::Order | Event::Withdraw => {
                let wanted = matches!(event, Event::Order);
                if is_open && self.client.is_ordered != wanted {
                    self.client.is_ordered = wanted;
                    self.note(if wanted { "ordered" } else { "withdrawn" }, self.current, &[]);
                }
            }
            Event::Click(decision) => {
                let why = self.refusal(decision);
                self.note("clicked", self.current, &[why.unwrap_or("ok").as_bytes()]);
                if why.is_none() {
                    self.decide(*decision);
                }
            }
            Event::Plain(line, is_text) => self.plain(line, *is_text),
            Event::Text(line) => return self.text(line),
            Event::Own(board) if !board.is_good() => return Err("8 BadBoard"),
            Event::Own(_) if self.board.phase().is_decided() => return Err("6 UserDecides"),
            Event::Own(board) => {
                self.board = board.clone();
                self.send(&board.printed());
            }
            Event::Deliver(count) => {
                let down = &mut self.wire().down;
                let bytes: Vec<u8> = down.drain(..down.len().min(*count)).collect();
                self.hear(&bytes);
            }
            Event::Lose(kept) => self.lose(*kept),
            Event::Serve(conn, one, two) => return self.serve(*conn, (*one, *two)),
        }
        Ok(())
    }
}

/// What is printed for a script, and the status.
fn play(script: &[u8]) -> (Vec<u8>, i32) {
    let (board, events) = match read_script(script) {
        Ok(read) => read,
        Err(line) => return (format!("script {line}\n").into_bytes(), 3),
    };
    if !board.is_good() {
        return (b"refused 0 8 BadBoard\n".to_vec(), 3);
    }
    let mut model = Model::new(board);
    for (done, event) in events.iter().enumerate() {
        if let Err(why) = model.act(event) {
            model.log.extend_from_slice(format!("refused {done} {why}\n").as_bytes());
            return (model.log, 3);
        }
    }
    model.log.extend_from_slice(format!("end {}\n", events.len()).as_bytes());
    (model.log, 0)
}

/// How often each kind of line was in the logs.
#[derive(Default)]
struct Seen {
    counts: BTreeMap<Vec<u8>, u64>,
    kind: Vec<u8>,
}

impl Seen {
    fn add(&mut self, kind: &[&[u8]]) {
        self.kind.clear();
        for part in kind {
            self.kind.extend_from_slice(part);
        }
        match self.counts.get_mut(&self.kind) {
            Some(count) => *count += 1,
            None => drop(self.counts.insert(self.kind.clone(), 1)),
        }
    }

    /// Counts the lines of a log by their first words, clicks and refusals by why they were refused.
    fn add_log(&mut self, log: &[u8]) {
        let mut before: &[u8] = b"";
        for line in log.split(|byte| *byte == b'\n').filter(|line| !line.is_empty()) {
            let mut words = line.splitn(3, |byte| *byte == b' ');
            let first = words.next().unwrap_or_default();
            let last = words.nth(1);
            match last {
                Some(why) if first == b"clicked" || first == b"refused" => self.add(&[first, b" ", why]),
                _ => self.add(&[first]),
            }
            if first == b"lost" && last.is_some() {
                self.add(&[b"lost with a decision"]);
            }
            if first == b"sent" && before == b"shown" {
                self.add(&[b"sent by an order"]);
            }
            before = first;
        }
    }

    fn print(&self) {
        for (kind, count) in &self.counts {
            println!("{count} {}", String::from_utf8_lossy(kind));
        }
    }
}

/// A program that is given one script after another, each in a process of its own: from a file and to a file, which
/// takes less time than pipes.
struct Runs<'a> {
    words: &'a [&'a str],
    given: File,
    printed: File,
    log: Vec<u8>,
}

impl<'a> Runs<'a> {
    fn new(words: &'a [&'a str], folder: &str, seed: u64) -> io::Result<Runs<'a>> {
        let open = |kind| {
            let path = format!("{folder}/{seed}.{kind}");
            let file = File::options().read(true).write(true).create(true).truncate(true).open(&path)?;
            fs::remove_file(path).map(|()| file)
        };
        Ok(Runs { words, given: open("in")?, printed: open("out")?, log: Vec::new() })
    }

    /// What it prints for a script, and its status.
    fn run(&mut self, script: &[u8]) -> io::Result<(&[u8], Option<i32>)> {
        self.given.write_all_at(script, 0)?;
        self.given.set_len(script.len() as u64)?;
        self.printed.set_len(0)?;
        for file in [&mut self.given, &mut self.printed] {
            file.rewind()?;
        }
        let (stdin, stdout) = (self.given.try_clone()?, self.printed.try_clone()?);
        let status = Command::new(self.words[0]).args(&self.words[1..]).stdin(stdin).stdout(stdout).status()?;
        self.log.resize(self.printed.metadata()?.len() as usize, 0);
        self.printed.read_exact_at(&mut self.log, 0)?;
        Ok((&self.log, status.code()))
    }
}

/// Ends if what was printed differs.
fn judge(at: u64, wanted: (&[u8], Option<i32>), found: (&[u8], Option<i32>)) {
    if wanted != found {
        println!("list {at}: status {:?} and {:?}", found.1, wanted.1);
        exit(1);
    }
}

fn compare(words: &[&str], (seed, count): (u64, u64), folder: &str) -> io::Result<()> {
    let (mut runs, mut seen) = (Runs::new(words, folder, seed)?, Seen::default());
    for at in 0..count {
        let script = plain_scripts::script(seed, at);
        let (log, status) = play(&script);
        judge(at, (&log, Some(status)), runs.run(&script)?);
        seen.add_log(&log);
    }
    seen.print();
    Ok(())
}

/// The same with a program that takes many scripts in one process, as rust/tests/engines does.
fn compare_many(program: &str, (seed, count): (u64, u64), folder: &str) -> io::Result<()> {
    let (mut given, mut wanted, mut seen) = (Vec::new(), Vec::new(), Seen::default());
    for at in 0..count {
        let script = plain_scripts::script(seed, at);
        let (log, status) = play(&script);
        given.extend_from_slice(format!("{}\n", script.len()).as_bytes());
        given.extend_from_slice(&script);
        seen.add_log(&log);
        wanted.push((log, status));
    }
    let words = [program, "many", "replay"];
    let mut runs = Runs::new(&words, folder, seed)?;
    let (mut answers, status) = runs.run(&given)?;
    judge(0, (b"", Some(0)), (b"", status));
    for (at, (log, status)) in wanted.iter().enumerate() {
        let whole = [format!("{status} {} 0\n", log.len()).as_bytes(), log].concat();
        let (answer, rest) = answers.split_at(answers.len().min(whole.len()));
        judge(at as u64, (&whole, None), (answer, None));
        answers = rest;
    }
    seen.print();
    Ok(())
}

fn main() -> io::Result<()> {
    let words: Vec<String> = env::args().skip(1).collect();
    let words: Vec<&str> = words.iter().map(String::as_str).collect();
    let number = |word: &str| word.parse().unwrap_or_default();
    match words[..] {
        ["compare", program, "many", seed, count, folder] => {
            compare_many(program, (number(seed), number(count)), folder)
        }
        ["compare", program, mode, seed, count, folder] => {
            compare(&[program, mode], (number(seed), number(count)), folder)
        }
        ["make", seed, at] => io::stdout().write_all(&plain_scripts::script(number(seed), number(at))),
        ["play"] => {
            let mut script = Vec::new();
            io::stdin().read_to_end(&mut script)?;
            let (log, status) = play(&script);
            io::stdout().write_all(&log)?;
            exit(status)
        }
        _ => exit(2),
    }
}
