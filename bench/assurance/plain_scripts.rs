//! Scripts of events that follow the model of `plain_replay.rs`, so that most of their events do something.
//!
//! They are made as those of tests/fuzz.py are; the same seed and place make the same script. Two in three begin with the
//! seven events after which a client can click. As many come then as one of COUNTS says, and 200 in one of forty.

use super::chance::Chance;
use super::plain_boards::{command, push_number, Decision, Phase};
use super::plain_rules::BAR;
use super::{read_event, read_script, Model};

const COUNTS: [usize; 8] = [2, 5, 8, 12, 16, 24, 40, 80];

const LOTS: &str = "4294967295";
const FIRST: &str = "1 ann 1041253132 localhost";

const ANY_DECISION: [&str; 12] = [
    "roll", "double", "accept", "reject", "move", "move 8-5", "move bar-20 24-18", "move 3-off", "resign n",
    "resign g", "resign b", "move 5-8",
];

const PLAIN: [&str; 32] = [
    "board", "who", "say hi", "say", "say ", "tell bob hi", "tell  hi", "tell bob", "tell", "shout x", "whisper  x",
    "kibitz y", "message bob x", "invite bob", "invite bob 5", "invite", "invite  7", "join", "join bob", "join ",
    "toggle ready", "toggle automove", "toggle automove", "toggle greedy", "toggle greedy", "bye", "say \u{e9}",
    "join a:b", "invite bob 65535", "invite bob 0", "say a\\b", "tell a\\b ~",
];

/// Lines that are no events, but for a few.
const ODD: [&str; 60] = [
    "",
    " open",
    "open ",
    "Open",
    "open 1",
    "deliver",
    "deliver ",
    "deliver 01",
    "deliver 4294967296",
    "deliver -1",
    "deliver  1",
    "deliver 0",
    "lose",
    "lose 4294967296",
    "lose x",
    "serve 1 1",
    "serve 1 1 1 1",
    "serve 1 256 1",
    "serve 01 1 1",
    "repeat ",
    "own",
    "own ",
    "own board:",
    "textx",
    "click",
    "click ",
    "click Roll",
    "click roll ",
    "click move ",
    "click move 25-20",
    "click move 8-5 6-5 8-5 6-5 6-5",
    "click move 0-1",
    "click move 3-bar",
    "click move bar-off",
    "click move 5-08",
    "click move 5-",
    "click resign x",
    "click resign n ",
    "plain",
    "plain who ",
    "plain invite bob 65536",
    "plain invite bob 05",
    "plain join bob ann",
    "plain toggle double",
    "plain roll",
    "plain login fibs_client 1008 ann secret",
    "plain set boardstyle 3",
    "serve 4294967296 1 1",
    "text",
    "text ",
    "order",
    "order Roll",
    "order roll 1",
    "orders roll",
    "withdraw",
    "withdraw roll ",
    "x",
    "\r",
    "#",
    "roll",
];

/// Events that are refused, but for a few; `GOOD` stands for a good board, `BAD` for another one.
const REFUSED: [&str; 22] = [
    "open", "deliver 1", "lose 1", "serve 0 1 1", "serve 1 0 1", "serve 1 1 7", "serve 9 1 1", "serve 9 0 9",
    "serve 1 1 1", "serve 1 255 1", "own BAD", "own BAD", "own GOOD", "text GOOD", "serve 2 1 1", "text > GOOD",
    "serve 1 7 7", "text login: GOOD  ", "text  GOOD", "own GOOD ", "lose 4294967295", "deliver 0",
];

/// Lines of a server that say no board, and what nearly are lines of one.
const TOLD: [&str; 40] = [
    "",
    "> ",
    "login: ",
    "board",
    "board:",
    " board:You",
    "Board:You",
    "0",
    "01 x",
    "20 x",
    "1",
    "19",
    "3",
    "4",
    "6",
    "12",
    "12 ",
    "1\r",
    "10",
    "2",
    "> 1 ann 1041253132 localhost",
    "login: > 1 ann 5 -",
    "1 ann 5 localhost ",
    "1 ann 05 h",
    "1 a:b 5 host",
    "1 ann 18446744073709551616 host",
    "1 ann 5 host x",
    "3 x",
    "7 bob bob logs in.",
    "8 bob bob drops.",
    "5 bob - - 1 0 1500.00 0 3 1040515752 host - -",
    "6",
    "9 bob 1041253132 hi",
    "10 bob",
    "11 bob",
    "13 bob hi there",
    "17 x",
    "18  x",
    "** You roll 6 and 2.",
    "bob rolls 3 and 4.",
];

/// What is put into a line.
const PIECES: [&[u8]; 18] = [
    b"\xff\xfb\x01", b"\xff\xfe\x0c", b"\xff\xff", b"\xff", b"\xff\xf1", b"\xff\xfd\xff", b"\r", b"\r\r", b"> ",
    b"login: ", b" ", b":", b"\xff\xfa\x18\x01\xff\xf0", b"\xff\r", b"\0", b"\x7f", b"\\", b"-",
];

/// What a script is made by.
fn chance_of(seed: u64, at: u64) -> Chance {
    Chance::new(seed ^ at.wrapping_mul(0xd6e8_feb8_6659_fd93), 12)
}

/// So many checkers on some of these places, at most so many of which are used.
fn spread(chance: &mut Chance, places: &[usize], count: i32, most: usize) -> [i32; 26] {
    let mut left = places.to_vec();
    let used: Vec<usize> = (0..most.min(places.len())).map(|_| left.swap_remove(chance.below(left.len()))).collect();
    let mut held = [0; 26];
    for _ in 0..count {
        held[chance.one(&used)] += 1;
    }
    held
}

fn own_checkers(chance: &mut Chance) -> [i32; 26] {
    let all: Vec<usize> = (1..25).collect();
    let (most, few) = (2 + chance.below(8), chance.of(1, 3));
    match chance.below(5) {
        0 => spread(chance, &[0, 1, 2, 3, 4, 5, 6], 15, most),
        1 => spread(chance, &[&all[..], &[BAR; 6]].concat(), 15, most),
        2 => spread(chance, &[0, 0, 0, 1, 2, 3, 4, 5, 6, 7, BAR], 15, most),
        3 => {
            let mut held = [0; 26];
            (held[6], held[8], held[13], held[24]) = (5, 3, 5, 2);
            held
        }
        _ => {
            let mut held = spread(chance, &all, few, 3);
            held[0] = 15 - few;
            held
        }
    }
}

/// The opponent's checkers, on places that the player does not hold.
fn other_checkers(chance: &mut Chance, own: &[i32; 26]) -> [i32; 26] {
    let free: Vec<usize> = (1..25).filter(|place| own[*place] == 0).collect();
    let (most, few) = (1 + chance.below(12), chance.of(0, 4));
    match chance.below(4) {
        0 => spread(chance, &[&free[..], &[BAR]].concat(), 15, most),
        1 => {
            let far: Vec<usize> = free.into_iter().filter(|place| *place >= 12).chain([BAR]).collect();
            spread(chance, &far, 15, 4 + most / 2)
        }
        2 => {
            let home: Vec<usize> = free.iter().copied().filter(|place| *place >= 19).collect();
            let points = if home.is_empty() { &free } else { &home };
            let mut held = [0; 26];
            for at in 0..14 {
                held[points[at / 2 % points.len()]] += 1;
            }
            held[BAR] = 1;
            held
        }
        _ => {
            let mut held = spread(chance, &[&free[..], &[BAR]].concat(), few, 4);
            held[0] = 15 - few;
            held
        }
    }
}

/// A board of the user's own game, mostly with 15 checkers each, in a phase in which mostly the user decides.
fn good_board(chance: &mut Chance, must_roll: bool) -> String {
    let own = own_checkers(chance);
    let other = other_checkers(chance, &own);
    let (colour, direction) = (chance.one(&[-1, 1]), chance.one(&[-1, 1]));
    let mut places = [0; 26];
    for place in 1..25 {
        places[if direction == -1 { place } else { 25 - place }] = colour * (own[place] - other[place]);
    }
    if chance.happens(100) {
        places[chance.one(&[0, 25])] = chance.of(-3, 3);
    }
    let phase = if must_roll { 0 } else { chance.below(10) };
    let mut dice = [0, 0];
    if (2..6).contains(&phase) || phase == 9 {
        dice = [chance.of(1, 6), chance.of(1, 6)];
        dice[1] = if phase == 9 && chance.happens(500) { 0 } else { dice[1] };
        dice[1] = if phase != 9 && chance.happens(100) { dice[0] } else { dice[1] };
    }
    let turn = match phase {
        7 => -colour,
        8 => 0,
        9 => chance.of(-1, 1),
        6 if chance.happens(500) => -colour,
        _ => colour,
    };
    let other_dice = if chance.happens(200) { [chance.of(0, 6), chance.of(0, 6)] } else { [0, 0] };
    let any_cube = chance.of(1, 1_048_576);
    let cube = chance.one(&[1, 1, 2, 4, 64, 1_048_576, 524_288, 3, 524_289, any_cube]);
    let flags = [chance.of(0, 1), chance.of(0, 1), i32::from(phase == 6 || chance.happens(20))];
    let score = [chance.one(&[0, 3, 99_999_999]), chance.one(&[0, 1, 99_999_998])];
    let ends = if direction == -1 { [0, 25] } else { [25, 0] };
    let mut off_bar = [own[0], other[0], own[BAR], other[BAR]];
    if chance.happens(80) {
        off_bar[chance.below(4)] = chance.of(0, 15);
    }
    let last = [chance.of(0, 4), chance.of(0, 1), chance.of(0, 1), chance.one(&[0, 1, 9999])];
    let parts: [&[i32]; 11] = [
        &[chance.one(&[0, 1, 3, 5, 9999])],
        &score,
        &places,
        &[turn],
        &dice,
        &other_dice,
        &[cube],
        &flags,
        &[colour, direction],
        &ends,
        &[&off_bar[..], &last].concat(),
    ];
    let opponent = chance.one(&["bob", "someplayer", "-", "a\\b"]);
    let mut line = Vec::with_capacity(160);
    line.extend_from_slice(b"board:You:");
    line.extend_from_slice(opponent.as_bytes());
    for value in parts.iter().copied().flatten() {
        line.push(b':');
        push_number(&mut line, *value);
    }
    String::from_utf8(line).unwrap_or_default()
}

/// The line with a byte or a piece changed.
fn changed(chance: &mut Chance, mut line: Vec<u8>) -> Vec<u8> {
    let at = chance.below(line.len() + 1);
    match chance.below(5) {
        0 if at < line.len() => line[at] ^= 1 << chance.below(8),
        1 if at < line.len() => drop(line.remove(at)),
        2 if at < line.len() => line.insert(at, line[at]),
        3 => drop(line.splice(0..0, chance.one(&PIECES).iter().copied())),
        _ => drop(line.splice(at..at, chance.one(&PIECES).iter().copied())),
    }
    line
}

fn settings(chance: &mut Chance) -> String {
    let mut flag = |times| u8::from(chance.happens(times));
    let (autoboard, automove, greedy, moreboards) = (flag(700), flag(100), flag(100), flag(700));
    format!("2 ann 1 {autoboard} 0 {automove} 0 0 1 1 10 {greedy} {moreboards} 0 1 1500.00 0 0 0 0 0 UTC")
}

/// A line of the server that mostly is no good board.
fn told(chance: &mut Chance) -> Vec<u8> {
    let line = match chance.below(8) {
        0 => good_board(chance, false).replacen(":You:", ":eve:", 1).into_bytes(),
        1 => {
            let board = good_board(chance, false).into_bytes();
            changed(chance, board)
        }
        2 => {
            let info = settings(chance).into_bytes();
            changed(chance, info)
        }
        3 => changed(chance, FIRST.as_bytes().to_vec()),
        4 if chance.happens(100) => {
            let board = good_board(chance, false);
            let line = chance.one(&[board.as_str(), FIRST, ""]).as_bytes().to_vec();
            let pad = chance.one::<&[u8]>(&[b" ", b"a", b"> ", b"login: ", b"0"]);
            let length: usize = chance.one(&[4096, 16_383, 16_384, 16_385, 16_390, 20_000]);
            let more = pad.repeat(length.saturating_sub(line.len()).div_ceil(pad.len()));
            if pad.len() > 1 { [more, line].concat() } else { [line, more].concat() }
        }
        _ => chance.one(&TOLD).as_bytes().to_vec(),
    };
    [b"text ".to_vec(), line.into_iter().filter(|byte| *byte != b'\n').collect()].concat()
}

/// A play of the board, now and then with a step changed, gone, more, or in another order: it may be legal still.
fn some_play(chance: &mut Chance, model: &Model) -> Vec<u8> {
    let board = model.client.board.as_ref().unwrap_or(&model.board);
    let plays = board.checkers().legal_plays(&board.dice());
    let mut play = plays[chance.below(plays.len())];
    if chance.happens(300) {
        match chance.below(4) {
            0 if play.count > 0 => play.count -= 1,
            1 if play.count < 4 => play = play.and(chance.below(25) + 1, chance.below(25)),
            2 if play.count > 0 => play.all[chance.below(play.count)].1 = chance.below(25) as u8,
            _ => {
                let count = play.count;
                play.all[..count].reverse();
            }
        }
    }
    [b"click ".to_vec(), command(&Decision::Move(play))].concat()
}

/// Mostly what the board asks for, sometimes anything.
fn click(chance: &mut Chance, model: &Model) -> Vec<u8> {
    let phase = model.client.board.as_ref().unwrap_or(&model.board).phase();
    let word = match phase {
        _ if chance.happens(100) => chance.one(&ANY_DECISION),
        Phase::Move => return some_play(chance, model),
        Phase::RollOrDouble => chance.one(&["roll", "roll", "double"]),
        Phase::AnswerDouble => chance.one(&["accept", "reject"]),
        _ => chance.one(&ANY_DECISION),
    };
    format!("click {word}").into_bytes()
}

/// A line of a connection that has one, if there is one; seldom one that is too old, which ends the script.
fn serve(chance: &mut Chance, model: &Model) -> Vec<u8> {
    let has_line = |at: &usize| model.wires[*at - 1].line_end().is_some();
    let whole: Vec<usize> = (1..=model.wires.len()).filter(has_line).collect();
    let ready: Vec<usize> = whole.iter().copied().filter(|conn| *conn >= model.logged_in).collect();
    let mut conn = chance.below(model.wires.len() + 2);
    if !ready.is_empty() && chance.happens(990) {
        conn = chance.one(&ready);
    } else if ready.is_empty() && chance.happens(500) {
        conn = model.wires.len();
    }
    if !whole.is_empty() && chance.happens(20) {
        conn = whole[0];
    }
    format!("serve {conn} {} {}", chance.of(1, 6), chance.of(1, 6)).into_bytes()
}

fn deliver(chance: &mut Chance, model: &Model) -> Vec<u8> {
    let waiting = model.wires.last().filter(|_| model.current > 0).map_or(0, |wires| wires.down.len());
    let (any, few) = (chance.below(waiting + 2), chance.below(61));
    let some = chance.one(&[0, 1, 2, waiting.saturating_sub(1), waiting, waiting + 1, any, few]);
    if chance.happens(600) { format!("deliver {LOTS}") } else { format!("deliver {some}") }.into_bytes()
}

fn lose(chance: &mut Chance, model: &Model) -> Vec<u8> {
    let sent = model.wires.last().filter(|_| model.current > 0).map_or(0, |wires| wires.up.len());
    let (any, near) = (chance.below(sent + 1), sent.saturating_sub(chance.below(3)));
    let some = chance.one(&[0, any, near]);
    if chance.happens(400) { format!("lose {LOTS}") } else { format!("lose {some}") }.into_bytes()
}

/// The weight of each kind of event in this state, in the order in which `event` makes them.
fn wishes(model: &Model) -> [usize; 13] {
    let client = &model.client;
    let ready =
        (1..=model.wires.len()).any(|conn| conn >= model.logged_in && model.wires[conn - 1].line_end().is_some());
    let own = if model.board.phase().is_decided() { 2 } else { 300 };
    // told, plain, click, repeat, own, open, serve, deliver, lose, message 1, message 2, order, withdraw
    let mut wishes = [30, 30, 20, 10, own, 0, 0, 0, 0, 0, 0, 0, 0];
    if model.current == 0 {
        wishes[5..9].copy_from_slice(&[600, if ready { 250 } else { 10 }, 5, 5]);
        return wishes;
    }
    let is_any = model.wires.last().is_some_and(|wires| !wires.down.is_empty());
    wishes[6..9].copy_from_slice(&[if ready { 500 } else { 0 }, if is_any { 200 } else { 20 }, 40]);
    if model.logged_in > 0 && (model.current == model.logged_in || !ready) {
        wishes[9] = if client.is_welcomed { 0 } else { 400 };
        wishes[10] = if client.settings.is_some() { 10 } else { 400 };
    }
    if client.settings.is_some_and(|settings| settings.contains(&true)) {
        wishes[10] = 100;
    }
    if client.board.is_some() && client.waiting.is_none() {
        wishes[2] = 400;
    }
    wishes[11] = if client.is_ordered { 10 } else { 40 };
    wishes[12] = if client.is_ordered { 10 } else { 2 };
    wishes
}

fn event(chance: &mut Chance, model: &Model) -> Vec<u8> {
    let weights = wishes(model);
    let mut left = chance.below(weights.iter().sum());
    let mut wish = 0;
    while left >= weights[wish] {
        left -= weights[wish];
        wish += 1;
    }
    let must_roll = model.client.is_ordered && chance.happens(300);
    match wish {
        0 => told(chance),
        1 => [b"plain ".as_slice(), chance.one(&PLAIN).as_bytes()].concat(),
        2 => click(chance, model),
        3 => b"repeat".to_vec(),
        4 => format!("own {}", good_board(chance, must_roll)).into_bytes(),
        5 => b"open".to_vec(),
        6 => serve(chance, model),
        7 => deliver(chance, model),
        8 => lose(chance, model),
        9 => format!("text {FIRST}").into_bytes(),
        10 => format!("text {}", settings(chance)).into_bytes(),
        11 => b"order roll".to_vec(),
        _ => b"withdraw roll".to_vec(),
    }
}

fn refused_event(chance: &mut Chance) -> Vec<u8> {
    let (good, bad) = (good_board(chance, false), good_board(chance, false).replacen(":You:", ":bob:", 1));
    chance.one(&REFUSED).replace("GOOD", &good).replace("BAD", &bad).into_bytes()
}

/// Joins lines; one script in 25 gets a line that is odd or unreadable, some have CRs, or no end of their last line.
fn spoiled(chance: &mut Chance, mut lines: Vec<Vec<u8>>) -> Vec<u8> {
    if chance.happens(40) {
        let some = lines[chance.below(lines.len())].clone();
        let odd = match chance.below(3) {
            0 => chance.one(&ODD).as_bytes().to_vec(),
            1 => changed(chance, some),
            _ => refused_event(chance),
        };
        lines.insert(1 + chance.below(lines.len()), odd);
    }
    let end = chance.one::<&[u8]>(&[b"\n", b"\n", b"\n", b"\r\n"]);
    let mut text = lines.join(end);
    if chance.happens(15) {
        text = changed(chance, text);
    }
    let last = chance.one::<&[u8]>(&[b"", b"\r\n", b"\r", b"\n\n"]);
    text.extend_from_slice(if chance.happens(800) { end } else { last });
    text
}

/// What a client hears before it can click.
fn first_events(chance: &mut Chance) -> [Vec<u8>; 7] {
    let mut serve = || format!("serve 1 {} {}", chance.of(1, 6), chance.of(1, 6));
    let (login, style, deliver) = (serve(), serve(), format!("deliver {LOTS}"));
    let told = [format!("text {FIRST}"), format!("text {}", settings(chance))];
    let [first, settings] = told;
    ["open".to_string(), login, first, settings, deliver.clone(), style, deliver].map(String::into_bytes)
}

/// The events of a script, each an event of the model; the last one may be refused.
fn events(chance: &mut Chance, model: &mut Model) -> Vec<Vec<u8>> {
    let mut lines = Vec::new();
    if chance.happens(667) {
        lines.extend(first_events(chance));
        for line in &lines {
            let _ = read_event(line).map(|event| model.act(&event));
        }
    }
    let count = if chance.happens(25) { 200 } else { chance.one(&COUNTS) };
    for _ in 0..count {
        let line = if chance.happens(4) { refused_event(chance) } else { event(chance, model) };
        let is_done = read_event(&line).is_some_and(|event| model.act(&event).is_ok());
        lines.push(line);
        if !is_done {
            break;
        }
    }
    lines
}

/// The script of this seed and place.
pub fn script(seed: u64, at: u64) -> Vec<u8> {
    let chance = &mut chance_of(seed, at);
    let mut first = good_board(chance, false).into_bytes();
    if chance.happens(30) {
        first = changed(chance, first);
    }
    let begun = read_script(&first).ok().map(|(board, _)| board).filter(|board| board.is_good());
    let more = begun.map(|board| events(chance, &mut Model::new(board))).unwrap_or_default();
    let mut lines = [vec![first], more].concat();
    if chance.happens(100) {
        lines.push(chance.one(&["open", "x", "repeat"]).as_bytes().to_vec());
    }
    spoiled(chance, lines)
}
