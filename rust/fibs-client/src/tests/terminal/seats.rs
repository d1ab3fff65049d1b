//! A client and a terminal, to which a server's lines and typed lines are given.

use super::lines::FIRST_BOARD;
use crate::fibs_advice::advised::{Aside, advised};
use crate::fibs_advice::saying::append_advice;
use crate::fibs_advice::standing::Standing;
use crate::fibs_connect::fault::FrontFault;
use crate::fibs_connect::front::Front;
use crate::fibs_connect::said::Said;
use crate::fibs_connect::typed_line::TypedLine;
use crate::fibs_connect::wish::Wish;
use crate::fibs_connect::words::Words;
use crate::fibs_messages::Reading;
use crate::fibs_position::{GameBoard, Numbers};
use crate::fibs_session::typed::typing::{Typed, read_typed};
use crate::fibs_session::{Client, Directory, Login, Taken};
use crate::fibs_terminal::FixLine;
use crate::fibs_terminal::Terminal;
use crate::fibs_wording::environment::{RecordFile, Settings, Zone};
use crate::rattle::HostRuntime;
use crate::rattle::io;
use crate::rattle::io::{ErrorKind, Write};
use crate::rattle::time::{Clock, Duration};
use std::cell::Cell;
use std::fmt;

/// A clock that stands still, at 13:07 on 5 January 2003.
#[derive(Clone, Copy)]
pub struct Stopped;

impl Clock for Stopped {
    fn monotonic(&self) -> io::Result<Duration> {
        Ok(Duration::from_secs(0))
    }

    fn since_1970(&self) -> io::Result<Duration> {
        Ok(Duration::from_secs(1_041_772_020))
    }
}

/// A cue of a scene: what happens at a seat.
#[derive(Clone, Copy)]
pub enum Cue<'a> {
    /// The server sends a line.
    Hears(&'a [u8]),
    /// The user types a line.
    Types(&'a [u8]),
    /// The terminal lets the user type.
    Rests,
    /// A connection is made.
    Opens,
    /// No connection can be made.
    Fails,
    /// The connection is over.
    Loses,
}

impl fmt::Debug for Cue<'_> {
    fn fmt(&self, f: &mut fmt::Formatter<'_>) -> fmt::Result {
        match self {
            Cue::Hears(line) => write!(f, "< {}", line.escape_ascii()),
            Cue::Types(line) => write!(f, "> {}", line.escape_ascii()),
            Cue::Rests => f.write_str("rests"),
            Cue::Opens => f.write_str("opens"),
            Cue::Fails => f.write_str("fails"),
            Cue::Loses => f.write_str("loses"),
        }
    }
}

/// The settings of a plain terminal of 80 columns.
pub fn plain_settings() -> Settings<'static> {
    Settings {
        title: false,
        letters: None,
        is_turned: false,
        numbers: Numbers::TheServers,
        columns: 80,
        rows: 0,
        scrolls_below: false,
        above: None,
        colour: false,
        bell: false,
        words: false,
        is_short: false,
        utf8: false,
        zone: Zone::utc(),
        host: b"fibs.com",
        port: 4321,
    }
}

/// A client, and the players that it knows.
struct TestSeat {
    client: Client,
    directory: Directory,
    /// The line that was typed last ends the program.
    has_ended: bool,
}

impl TestSeat {
    /// The seat of a user who is connected.
    fn new() -> TestSeat {
        let login = Login::new(b"ann", b"secret").expect("it is a login");
        let mut client = Client::new(login);
        let _login = client.open();
        let directory = Directory::new();
        TestSeat { client, directory, has_ended: false }
    }

    /// Tells what the server says by a line.
    fn hear<F: Front>(&mut self, line: &[u8], front: &mut F) -> Result<(), FrontFault> {
        let heard = self.client.read(line);
        match self.client.got(heard).taken {
            Some(taken) => tell_taken(&mut self.directory, &taken, front),
            None => Ok(()),
        }
    }

    /// Gives a line to the client, and tells what it answers.
    fn say<F: Front>(&mut self, line: &[u8], front: &mut F) -> Result<(), FrontFault> {
        match read_typed(&self.client, line) {
            Typed::Decision(decision) => front.tell(&match &self.client.decide(&decision) {
                Ok(command) => Said::Sent(command),
                Err(why) => Said::Refused(*why),
            }),
            Typed::Plain(plain) => front.tell(&match &self.client.plain(&plain) {
                Ok(command) => Said::Sent(command),
                Err(why) => Said::NotSent(*why),
            }),
            Typed::Order => front.tell(&match self.client.order_roll() {
                Ok(()) => Said::Ordered,
                Err(why) => Said::Refused(why),
            }),
            Typed::Withdrawal => Ok(()),
            Typed::Unknown => front.tell(&Said::Unknown),
        }
    }

    /// Takes a line that is typed.
    fn take_line<F: Words>(&mut self, line: &[u8], front: &mut F) -> Result<(), FrontFault> {
        let mut typed = TypedLine::new();
        let _fits = typed.try_extend_from_slice(line);
        let wish = front.wish(&self.client, &self.directory, &mut typed)?;
        self.has_ended = matches!(wish, Wish::Quit);
        match wish {
            Wish::Say => self.say(typed.as_slice(), front),
            Wish::Send => front.tell(&Said::Passed(typed.as_slice())),
            Wish::Open | Wish::Players | Wish::Quit | Wish::TooLong | Wish::Listen | Wish::Answered => Ok(()),
        }
    }

    /// Takes a step.
    fn take_step<F: Words>(&mut self, step: Cue<'_>, front: &mut F) -> Result<(), FrontFault> {
        match step {
            Cue::Hears(line) => self.hear(line, front),
            Cue::Types(line) => self.take_line(line, front),
            Cue::Rests => front.rest(&self.client, &self.directory),
            Cue::Opens => {
                let _login = self.client.open();
                self.directory.clear();
                front.tell(&Said::Opened)
            }
            Cue::Fails => front.tell(&Said::NoConnection(ErrorKind::ConnectionRefused)),
            Cue::Loses => front.tell(&Said::Lost(&self.client.lose())),
        }
    }

    /// Takes steps one after another.
    fn take_steps<F: Words>(&mut self, steps: &[Cue<'_>], front: &mut F) -> Result<(), FrontFault> {
        for step in steps {
            self.take_step(*step, front)?;
        }
        Ok(())
    }

    /// Takes some steps, and those after them.
    fn take_both<F: Words>(&mut self, before: &[Cue<'_>], steps: &[Cue<'_>], front: &mut F) -> Result<(), FrontFault> {
        self.take_steps(before, front)?;
        self.take_steps(steps, front)
    }
}

/// Tells of a line, with the board of the user's game that it says.
fn tell_heard<F: Front>(game: Option<&GameBoard>, taken: &Taken<'_>, front: &mut F) -> Result<(), FrontFault> {
    front.tell(&Said::Heard(&taken.line, &taken.reading, game))
}

/// Tells what was taken of a line.
fn tell_taken<F: Front>(directory: &mut Directory, taken: &Taken<'_>, front: &mut F) -> Result<(), FrontFault> {
    let found = game_in(&taken.reading);
    tell_heard(found.as_ref(), taken, front)?;
    note(directory, &taken.reading, front)?;
    if let Some(asked) = &taken.confirmed {
        front.tell(&Said::Confirmed(asked))?;
    }
    if taken.rolled { front.tell(&Said::Rolled) } else { Ok(()) }
}

/// The board that a reading says, with its position, if the user plays in its game.
fn game_in(reading: &Reading<'_>) -> Option<GameBoard> {
    match reading {
        Reading::Board(board) => GameBoard::of(board).ok(),
        _ => None,
    }
}

/// Tells of the user's game, and notes a player.
fn note<F: Front>(directory: &mut Directory, reading: &Reading<'_>, front: &mut F) -> Result<(), FrontFault> {
    match reading {
        Reading::Board(_) => match game_in(reading) {
            Some(game) => front.tell(&Said::Game(&game)),
            None => Ok(()),
        },
        Reading::Numbered(message) => match directory.note(message) {
            Ok(_) => Ok(()),
            Err(_) => Err(FrontFault::Output),
        },
        _ => Ok(()),
    }
}

/// What the screen shows after some steps and those after them, of a user who is connected.
pub fn shown(settings: Settings<'_>, before: &[Cue<'_>], steps: &[Cue<'_>]) -> String {
    let mut shown = Vec::new();
    show_on(settings, before, steps, &mut shown).expect("it is shown");
    String::from_utf8(shown).expect("it is UTF-8")
}

/// The same on any writer.
pub fn show_on<W: Write>(
    settings: Settings<'_>,
    before: &[Cue<'_>],
    steps: &[Cue<'_>],
    out: W,
) -> Result<(), FrontFault> {
    let mut terminal = Terminal::new(out, Stopped, settings);
    TestSeat::new().take_both(before, steps, &mut terminal)
}

/// What the screen shows after some steps, if a record is kept in a folder; then nothing more is heard.
pub fn shown_with_record(folder: &str, steps: &[Cue<'_>]) -> String {
    let mut shown = Vec::new();
    let mut terminal = Terminal::new(&mut shown, Stopped, plain_settings());
    terminal.keep_record(RecordFile::at(&HostRuntime, folder.into()).expect("there is memory"));
    TestSeat::new().take_steps(steps, &mut terminal).expect("it is shown");
    terminal.end_record().expect("it is shown");
    drop(terminal);
    String::from_utf8(shown).expect("it is UTF-8")
}

/// What the screen shows after some steps, by another clock.
pub fn shown_by<C: Clock>(clock: C, steps: &[Cue<'_>]) -> String {
    let mut shown = Vec::new();
    let mut terminal = Terminal::new(&mut shown, clock, plain_settings());
    TestSeat::new().take_steps(steps, &mut terminal).expect("it is shown");
    drop(terminal);
    String::from_utf8(shown).expect("it is UTF-8")
}

/// When a connection is opened again after some steps, the last of which lets the user type.
pub fn due_after(steps: &[Cue<'_>]) -> Option<Duration> {
    due_by(Stopped, steps)
}

/// The same by another clock.
pub fn due_by<C: Clock>(clock: C, steps: &[Cue<'_>]) -> Option<Duration> {
    let due = Cell::new(Some(Duration::from_secs(9999)));
    let mut terminal = Terminal::new(Vec::new(), clock, plain_settings());
    terminal.reconnect_by(&due);
    TestSeat::new().take_steps(steps, &mut terminal).expect("it is shown");
    due.get()
}

/// Takes some steps, and forgets before the last one what those before it have asked for.
fn take_last<F: Words>(steps: &[Cue<'_>], front: &mut F, forget: impl FnOnce()) {
    let mut seat = TestSeat::new();
    let (last, before) = steps.split_last().expect("there is a step");
    seat.take_steps(before, front).expect("it is shown");
    forget();
    seat.take_step(*last, front).expect("it is shown");
}

/// Which line of `fix` is to be typed by the last of some steps.
pub fn fixed(steps: &[Cue<'_>]) -> Option<FixLine> {
    let typed = Cell::new(None);
    let mut terminal = Terminal::new(Vec::new(), Stopped, plain_settings());
    terminal.fix_by(&typed);
    take_last(steps, &mut terminal, || typed.set(None));
    typed.get()
}

/// Whether a board of the game that the user watches is to be asked for by the last of some steps.
pub fn asks_board(steps: &[Cue<'_>]) -> bool {
    let asks = Cell::new(false);
    let mut terminal = Terminal::new(Vec::new(), Stopped, plain_settings());
    terminal.ask_for_boards(&asks);
    take_last(steps, &mut terminal, || asks.set(false));
    asks.get()
}

/// Whether the line that was typed last ends the program.
pub fn ends_after(steps: &[Cue<'_>]) -> bool {
    let mut terminal = Terminal::new(Vec::new(), Stopped, plain_settings());
    let mut seat = TestSeat::new();
    seat.take_steps(steps, &mut terminal).expect("it is shown");
    seat.has_ended
}

/// What the user waits for after some steps and those after them.
pub fn standing_after(before: &[Cue<'_>], steps: &[Cue<'_>]) -> Standing {
    let mut terminal = Terminal::new(Vec::new(), Stopped, plain_settings());
    TestSeat::new().take_both(before, steps, &mut terminal).expect("it is shown");
    terminal.screen.memory.here.situation.standing
}

/// What is advised after some steps and those after them, if no player is listed.
pub fn advice_after(before: &[Cue<'_>], steps: &[Cue<'_>]) -> String {
    let mut terminal = Terminal::new(Vec::new(), Stopped, plain_settings());
    let mut seat = TestSeat::new();
    seat.take_both(before, steps, &mut terminal).expect("it is shown");
    let situation = &terminal.screen.memory.here.situation;
    let aside = Aside { is_listed: true, had_time: false };
    let advice = advised(&seat.client, situation, aside).expect("there is memory");
    let (opponent, inviter) = (situation.opponent.name.as_slice(), situation.inviter.name.as_slice());
    let mut text = Vec::new();
    append_advice(&advice, Numbers::TheServers, opponent, inviter, &mut text).expect("there is memory");
    String::from_utf8(text).expect("ASCII")
}

/// Asserts that a text is as it is wanted.
pub fn assert_wanted(is_wanted: bool, text: &str, wanted: &str) {
    assert!(is_wanted, "wanted {wanted}, and there is {text}");
}

/// Asserts that a text is answered as it should be.
pub fn assert_of(is_right: bool, text: &[u8]) {
    assert!(is_right, "{text:?}");
}

/// What the screen shows of some steps after those before them.
pub fn shown_then(settings: Settings<'_>, before: &[Cue<'_>], steps: &[Cue<'_>]) -> String {
    let known = shown(settings, before, &[]).len();
    shown(settings, before, steps).split_off(known)
}

/// Asserts what the screen shows after some steps.
pub fn assert_shows(settings: Settings<'_>, steps: &[Cue<'_>], wanted: &str) {
    let text = shown(settings, &[], steps);
    assert_wanted(text.as_str() == wanted, &text, wanted);
}

/// Asserts that what the screen shows after some steps and those after them ends by these rows.
pub fn assert_ends(settings: Settings<'_>, before: &[Cue<'_>], steps: &[Cue<'_>], rows: &str) {
    let text = shown(settings, before, steps);
    assert_wanted(text.ends_with(rows), &text, rows);
}

/// Steps, and the last rows that are shown then.
pub type Scene = (&'static [Cue<'static>], &'static str);

/// Asserts for each scene that what the screen shows from the first board on ends by its rows.
pub fn assert_scenes(settings: Settings<'_>, scenes: &[Scene]) {
    for (steps, rows) in scenes {
        assert_ends(settings, &FIRST_BOARD, steps, rows);
    }
}

/// Asserts that what the screen shows after steps has each of these rows.
pub fn assert_has(settings: Settings<'_>, steps: &[Cue<'_>], rows: &[&str]) {
    let text = shown(settings, &[], steps);
    for row in rows {
        assert_wanted(text.contains(*row), &text, row);
    }
}

/// The settings of a terminal whose user reads his own numbers.
pub fn own_settings() -> Settings<'static> {
    Settings { numbers: Numbers::TheOwn, ..plain_settings() }
}

/// The settings of a terminal with a bell.
pub fn bell_settings() -> Settings<'static> {
    Settings { bell: true, ..plain_settings() }
}

/// The settings of a terminal of 80 columns, with colours.
pub fn colour_settings() -> Settings<'static> {
    Settings { colour: true, ..plain_settings() }
}
