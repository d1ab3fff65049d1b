//! A worked row of the world, and what no script can say of it: a text of more than one line, and how it goes on
//! after a refused growth. More histories, worked out by hand, are told by the built program: tests/worlds.

use crate::fibs_fields::boards::Board;
use crate::fibs_model::{Event, World, WorldRefusal};
use crate::fibs_position::Decision;
use crate::fibs_replay::run::script_login;
use crate::fibs_session::Login;
use crate::rattle::alloc::AllocError;
use crate::rattle::may::*;
use crate::tests::boards::*;
use crate::tests::server_lines::{INFO, INFO_NO_BOARDS, WELCOME};

fn board(line: &[u8]) -> Option<Board> {
    Board::read(line).ok()
}

fn world(line: &[u8]) -> World {
    let board = board(line).expect("it is a board");
    let login = Login::new(b"ann", b"secret").expect("it is a login");
    World::new(board, login).expect("it is a good board")
}

#[test]
fn a_text_of_two_lines_may_not_be() {
    let mut world = world(TO_ROLL);
    let is_refused = world.step(&Event::Text(b"a\nb")) == Err(WorldRefusal::BoardAsText);
    assert!(is_refused && world.log().is_empty() && world.shown().is_none());
}

#[test]
fn a_world_does_not_begin_with_a_board_of_others() {
    let others = board(OF_OTHERS).expect("it is a board");
    let login = Login::new(b"ann", b"secret").expect("it is a login");
    let is_refused = matches!(World::new(others, login), Err(WorldRefusal::BadBoard));
    assert!(is_refused);
}

/// Why each of the events is refused on a world in which the user decides, if it is.
fn refusals(world: &mut World, own: Board) -> [Option<WorldRefusal>; 7] {
    let serve = Event::Serve { conn: 1, dice: [1, 1] };
    let with_no_die = Event::Serve { conn: 1, dice: [0, 1] };
    [
        world.step(&Event::Own(own)).err(),
        world.step(&Event::Text(TO_ROLL)).err(),
        world.step(&Event::Deliver(1)).err(),
        world.step(&serve).err(),
        world.step(&Event::Open).err(),
        world.step(&Event::Open).err(),
        world.step(&with_no_die).err(),
    ]
}

#[test]
fn each_event_has_its_refusals() {
    let mut world = world(TO_ROLL);
    let own = board(TO_MOVE).expect("it is a board");
    assert!(
        refusals(&mut world, own)
            == [
                Some(WorldRefusal::UserDecides),
                Some(WorldRefusal::BoardAsText),
                Some(WorldRefusal::NotOpen),
                Some(WorldRefusal::NoSuchConnection),
                None,
                Some(WorldRefusal::AlreadyOpen),
                Some(WorldRefusal::BadDice),
            ]
    );
}

/// A text of a good board with this many spaces after it.
fn padded(spaces: usize) -> Result<Vec<u8>, AllocError> {
    let mut text = Vec::new();
    text.may_extend_from_slice(TO_ROLL)?;
    for _ in 0..spaces {
        text.may_push(b' ')?;
    }
    Ok(text)
}

/// Events that log in.
fn logged_in() -> [Event<'static>; 2] {
    let serve = Event::Serve { conn: 1, dice: [1, 1] };
    [Event::Open, serve]
}

/// Why a text is refused of a server that is logged in, if it is; and whether the client has heard a board when all is
/// delivered.
fn text_of_a_board(world: &mut World, text: &[u8]) -> (Option<WorldRefusal>, bool) {
    let is_in = world.run(&logged_in()).refusal.is_none();
    let refusal = world.step(&Event::Text(text)).err();
    let is_told = world.step(&Event::Deliver(20_000)).is_ok();
    let is_shown = world.shown().is_some();
    (refusal, is_shown || !is_in || !is_told)
}

/// Spaces after a board, and why that text is refused.
static PADDED: [(usize, Option<WorldRefusal>); 2] = [(4_096, Some(WorldRefusal::BoardAsText)), (16_384, None)];

/// A text that the client hears as a board is no text. With as many spaces as a line keeps it is one, which is cut.
#[test]
fn a_board_with_many_spaces_may_be_a_text() {
    for (spaces, refusal) in &PADDED {
        let mut world = world(TO_ROLL);
        let text = padded(*spaces).expect("memory is ample");
        let told = text_of_a_board(&mut world, &text);
        assert!(told == (*refusal, false), "{spaces} spaces");
    }
}

/// How many of so many events are done, and the length of the log then, if none is refused.
fn counts_of_runs(world: &mut World) -> Option<[usize; 3]> {
    let repeated = world.run(&[Event::Repeat; 100]);
    let clicked = world.run(&[Event::Click(Decision::Roll); 1000]);
    if repeated.refusal.is_some() || clicked.refusal.is_some() {
        return None;
    }
    Some([repeated.done, clicked.done, world.log().len()])
}

/// With ample memory a run ends where its events end, however many they are.
#[test]
fn a_long_run_is_whole() {
    let mut world = world(TO_ROLL);
    assert!(counts_of_runs(&mut world) == Some([100, 1000, 1000]));
}

/// The events of a second click before the answer, and a line that is not there.
fn clicked_twice() -> [Event<'static>; 14] {
    let serve = Event::Serve { conn: 1, dice: [1, 1] };
    [
        Event::Open,
        serve,
        Event::Text(WELCOME),
        Event::Text(INFO),
        Event::Deliver(10000),
        serve,
        serve,
        Event::Deliver(10000),
        Event::Click(Decision::Roll),
        Event::Click(Decision::Roll),
        Event::Serve { conn: 1, dice: [6, 2] },
        Event::Deliver(10000),
        Event::Click(Decision::Roll),
        serve,
    ]
}

/// How many of the events are taken step by step, and why the next is refused.
fn steps_taken(world: &mut World, events: &[Event<'_>]) -> (usize, Option<WorldRefusal>) {
    for (place, event) in events.iter().enumerate() {
        if let Err(refusal) = world.step(event) {
            return (place, Some(refusal));
        }
    }
    (events.len(), None)
}

/// How many of the events are done in a row, and why the next is refused.
fn run_in_a_row(world: &mut World, events: &[Event<'_>]) -> (usize, Option<WorldRefusal>) {
    let end = world.run(events);
    (end.done, end.refusal)
}

/// Whether both worlds have a log of so many lines, and the first shows this board.
fn are_at(world: &World, twin: &World, lines: usize, shown: &Board) -> bool {
    world.log() == twin.log() && world.log().len() == lines && world.shown() == Some(shown)
}

/// Whether a run in a row, and one step by step, stop at the line that is not there.
fn stop_alike(in_a_row: &mut World, stepwise: &mut World) -> bool {
    let events = clicked_twice();
    let wanted = (13, Some(WorldRefusal::NothingToServe));
    let is_stopped = run_in_a_row(in_a_row, &events) == wanted;
    is_stopped && steps_taken(stepwise, &events) == wanted
}

/// A run does the events before the first that is refused. Step by step each of them is taken, and the log is the same.
#[test]
fn a_run_stops_at_a_line_that_is_not_there() {
    let mut in_a_row = world(TO_ROLL);
    let mut stepwise = world(TO_ROLL);
    let moves = board(TO_MOVE).expect("it is a board");
    let is_stopped = stop_alike(&mut in_a_row, &mut stepwise);
    assert!(is_stopped && are_at(&in_a_row, &stepwise, 12, &moves));
}

/// Both messages are on their way, and an order will be due at the board that answers what they call for. No line is on
/// its way to the server.
fn before_the_longest_way() -> [Event<'static>; 5] {
    [
        Event::Open,
        Event::Serve { conn: 1, dice: [1, 1] },
        Event::Order,
        Event::Text(WELCOME),
        Event::Text(INFO_NO_BOARDS),
    ]
}

/// How many events bring the world to rest, and why one is refused.
fn settle(world: &mut World, dice: [u8; 2]) -> (usize, Option<WorldRefusal>) {
    let end = world.settle(dice);
    (end.done, end.refusal)
}

/// The messages come; four answers are served; their boards come, and the order rolls; the roll is served; its board
/// comes. A world at rest stays as it is.
#[test]
fn a_world_settles_by_eight_events_more_than_lines() {
    let mut world = world(MUST_ROLL);
    let rolled = board(ROLLED).expect("it is a board");
    let is_begun = run_in_a_row(&mut world, &before_the_longest_way()) == (5, None);
    let is_settled = settle(&mut world, [6, 2]) == (8, None) && settle(&mut world, [1, 1]) == (0, None);
    assert!(is_begun && is_settled && world.shown() == Some(&rolled));
}

/// The same as serving and delivering event by event.
#[test]
fn a_world_settles_after_a_second_click() {
    let mut settled = world(TO_ROLL);
    let mut stepwise = world(TO_ROLL);
    let moves = board(TO_MOVE).expect("it is a board");
    let events = clicked_twice();
    let is_begun = run_in_a_row(&mut settled, events.get(..10).unwrap_or(&[])) == (10, None);
    let is_run = run_in_a_row(&mut stepwise, events.get(..12).unwrap_or(&[])) == (12, None);
    let is_settled = settle(&mut settled, [6, 2]) == (2, None);
    assert!(is_begun && is_run && is_settled && are_at(&settled, &stepwise, 11, &moves));
}

/// Why a new world, and then one with a connection, does not settle with dice that are not from 1 to 6.
fn refusals_to_settle(world: &mut World) -> [(usize, Option<WorldRefusal>); 4] {
    let closed = [settle(world, [1, 1]), settle(world, [0, 7])];
    let opened = run_in_a_row(world, &[Event::Open]);
    [closed[0], closed[1], opened, settle(world, [6, 7])]
}

#[test]
fn a_world_settles_on_a_connection_with_dice() {
    let mut world = world(TO_ROLL);
    let refused = refusals_to_settle(&mut world);
    let not_open = (0, Some(WorldRefusal::NotOpen));
    assert!(refused == [not_open, not_open, (1, None), (0, Some(WorldRefusal::BadDice))]);
}

/// The login of scripts, as `loop` sends it.
#[test]
fn scripts_log_in_as_ann() {
    assert_eq!(script_login().command().as_str(), "login fibs_client 1008 ann secret");
}
