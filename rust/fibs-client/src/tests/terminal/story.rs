//! The game so far: each play of a game is told by the boards before and after it.

use super::lines::{SETTINGS, WELCOME};
use super::seats::{Cue, plain_settings, shown_then};
use crate::fibs_events::finding::played;
use crate::fibs_events::mirror::mirrored;
use crate::fibs_fields::boards::Board;
use crate::fibs_position::{Decision, GameBoard, Numbers, Play, effect};
use crate::fibs_terminal::story::Story;

/// The board with which a game begins, without dice.
const FIRST: &[u8] = b"board:You:bob:3:0:0:0:-2:0:0:0:0:5:0:3:0:0:0:-5:5:0:0:0:-3:0:-5:0:0:0:0:2:0:1:0:0:0:0:1:1:1:0:1:-1:0:25:0:0:0:0:0:0:0:0";

/// How many games are played.
const GAMES: u64 = 40;

/// The most turns of a game.
const TURNS: usize = 400;

/// Numbers that look like chance (xorshift).
struct Chance(u64);

impl Chance {
    fn below(&mut self, limit: u64) -> u64 {
        self.0 ^= self.0 << 13;
        self.0 ^= self.0 >> 7;
        self.0 ^= self.0 << 17;
        self.0 % limit
    }
}

fn good(board: &Board) -> GameBoard {
    GameBoard::of(board).unwrap_or_else(|_| panic!("no position"))
}

/// The board with these dice of the player who has the turn.
fn rolled(board: &Board, dice: [u8; 2]) -> GameBoard {
    good(&effect(board, &Decision::Roll, dice).expect("a roll"))
}

/// Any play on a board that shows dice; the empty one if nothing can be played.
fn any_play(game: &GameBoard, chance: &mut Chance) -> Play {
    let plays = game.position().plays().expect("memory");
    match plays.len() {
        0 => Play::new(),
        count => plays[chance.below(count as u64) as usize],
    }
}

/// The checkers of a board, by the fields that have them.
fn checkers(board: &Board) -> Vec<i32> {
    (8..32).chain(46..48).map(|field| board.field(field)).collect()
}

#[test]
fn each_play_of_a_game_is_told() {
    for seed in 1..=GAMES {
        let mut chance = Chance(seed);
        // always as the one sees it who has the turn
        let mut board = Board::read(FIRST).expect("a board");
        for _ in 0..TURNS {
            let dice = [chance.below(6) as u8 + 1, chance.below(6) as u8 + 1];
            let before = rolled(&board, dice);
            let play = any_play(&before, &mut chance);
            let after = effect(before.board(), &Decision::Move(play), [0, 0]).expect("a legal play");
            let told = played(&before, &after).expect("memory").expect("a play");
            let plays = before.position().plays().expect("memory");
            let is_legal = if plays.is_empty() { told.steps().is_empty() } else { plays.contains(&told) };
            assert!(is_legal, "game {seed}: {told:?}");
            let again = effect(before.board(), &Decision::Move(told), [0, 0]).expect("it is legal");
            assert_eq!(checkers(&again), checkers(&after), "game {seed}");
            assert_eq!(mirrored(&mirrored(&after)), after);
            if after.field(33) == 0 {
                break;
            }
            board = mirrored(&after);
        }
    }
}

/// What the rows of a story say after these boards.
fn story_of(boards: &[Board], is_all: bool) -> String {
    let mut story = Story::new();
    for board in boards {
        story.hear_board(&good(board)).expect("memory");
    }
    let mut text = Vec::new();
    story.append_turns(Numbers::TheServers, is_all, &mut text).expect("memory");
    String::from_utf8(text).expect("ASCII")
}

#[test]
fn a_story_has_both_players_in_their_order() {
    let first = Board::read(FIRST).expect("a board");
    let before = rolled(&first, [3, 1]);
    let play = any_play(&before, &mut Chance(7));
    let after = effect(before.board(), &Decision::Move(play), [0, 0]).expect("a legal play");
    // the opponent rolls, and can't be seen to play
    let his = rolled(&mirrored(&after), [6, 6]);
    let his_seen = mirrored(his.board());
    let rows = story_of(&[first, *before.board(), *before.board(), after, his_seen, first], false);
    let rows: Vec<&str> = rows.lines().collect();
    assert_eq!(rows.len(), 2);
    assert!(rows[0].starts_with("  1. You roll 3 and 1: "), "{}", rows[0]);
    assert_eq!(rows[1], "  2. bob rolls 6 and 6: ?");
    assert_eq!(story_of(&[first], true), "No board of this game has shown a roll and its play yet.\n");
}

/// Of very many turns the oldest are forgotten, and each keeps its number.
#[test]
fn the_oldest_turns_of_a_long_game_are_forgotten() {
    let first = Board::read(FIRST).expect("a board");
    let before = *rolled(&first, [3, 1]).board();
    let play = any_play(&good(&before), &mut Chance(7));
    let after = effect(&before, &Decision::Move(play), [0, 0]).expect("a legal play");
    let another = *rolled(&first, [6, 5]).board();
    let gone = effect(&another, &Decision::Move(any_play(&good(&another), &mut Chance(7))), [0, 0]).expect("a play");
    let boards = [[another, gone].repeat(2), [before, after].repeat(500)].concat();
    let rows = story_of(&boards, true);
    assert!(!rows.contains("You roll 6 and 5:"), "{rows}");
    let turns: Vec<&str> = rows.lines().filter(|row| row.contains("You roll 3 and 1:")).collect();
    assert_eq!(turns.len(), 500, "{rows}");
    assert!(turns[0].starts_with("  3. ") && turns[499].starts_with("502. "), "{} and {}", turns[0], turns[499]);
}

/// A match of another length is another match.
#[test]
fn a_match_of_another_length_has_a_story_of_its_own() {
    let first = Board::read(FIRST).expect("a board");
    let before = *rolled(&first, [3, 1]).board();
    let play = any_play(&good(&before), &mut Chance(7));
    let after = effect(&before, &Decision::Move(play), [0, 0]).expect("a legal play");
    let line = String::from_utf8(FIRST.to_vec()).expect("ASCII");
    let longer = line.replacen(":3:0:0:", ":5:0:0:", 1);
    assert_ne!(line, longer);
    let other = Board::read(longer.as_bytes()).expect("a board");
    assert!(story_of(&[before, after], true).contains("You roll 3 and 1"));
    assert_eq!(story_of(&[before, after, other], true), "No board of this game has shown a roll and its play yet.\n");
}

/// The line of a board with other fields.
fn with_fields(line: &[u8], fields: &[(usize, &str)]) -> Board {
    let mut parts: Vec<_> = line.split(|byte| *byte == b':').map(|part| String::from_utf8_lossy(part)).collect();
    for (field, value) in fields {
        parts[*field] = (*value).into();
    }
    Board::read(parts.join(":").as_bytes()).expect("a board")
}

/// A board on which the player can't move.
const CLOSED: &[u8] =
    b"board:You:bob:5:0:0:0:0:0:0:0:0:14:0:0:0:0:0:0:0:0:0:0:0:0:-2:-2:-2:-2:-2:-2:1:1:3:1:0:0:1:1:1:0:1:-1:0:25:0:3:1:0:0:0:0:0";

#[test]
fn who_cannot_move_has_no_move() {
    let closed = Board::read(CLOSED).expect("a board");
    let after = with_fields(CLOSED, &[(32, "-1"), (33, "0"), (34, "0")]);
    assert_eq!(story_of(&[closed, after], false), "  1. You roll 3 and 1: no move\n");
}

/// By 6 and 5 the checker on 24 can go to 13 by 18 alone: the opponent holds 19.
#[test]
fn a_turn_has_the_steps_of_its_play() {
    let before = *rolled(&Board::read(FIRST).expect("a board"), [6, 5]).board();
    let after = with_fields(FIRST, &[(19, "6"), (30, "1"), (32, "-1")]);
    assert_eq!(story_of(&[before, after], false), "  1. You roll 6 and 5: 24-18 18-13\n");
}

/// A turn: the board with its dice, and the one after it, with the score of the player.
fn turn(score: &str) -> [Board; 2] {
    let first = with_fields(FIRST, &[(4, score)]);
    let before = *rolled(&first, [3, 1]).board();
    let play = any_play(&good(&before), &mut Chance(7));
    [before, effect(&before, &Decision::Move(play), [0, 0]).expect("a legal play")]
}

#[test]
fn another_score_is_another_game_and_the_end_is_of_the_same() {
    let (one, other) = (turn("0"), turn("1"));
    let rows = story_of(&[one[0], one[1], other[0], other[1]], true);
    assert!(rows.lines().count() == 1 && rows.starts_with("  1. You roll 3 and 1:"), "{rows}");
    let text = String::from_utf8(one[1].print().as_slice().to_vec()).expect("ASCII");
    let over = with_fields(text.as_bytes(), &[(4, "1"), (32, "0"), (33, "0"), (34, "0"), (35, "0"), (36, "0")]);
    let rows = story_of(&[one[0], over], true);
    assert!(rows.lines().count() == 1 && rows.starts_with("  1. You roll 3 and 1:"), "{rows}");
}

#[test]
fn the_last_twenty_turns_are_listed() {
    let one = turn("0");
    for (count, before) in [(20, ""), (21, ".. 1 before: moves all\n"), (25, ".. 5 before: moves all\n")] {
        let rows = story_of(&one.repeat(count), false);
        assert!(
            rows.starts_with(before) && rows.lines().filter(|row| row.contains("You roll")).count() == 20,
            "{rows}"
        );
        assert!(rows.contains(&format!("\n{count:3}. You roll")), "{rows}");
    }
}

/// `moves` lists them, and `moves all` lists the others too.
#[test]
fn the_last_twenty_turns_are_listed_unless_all_are_asked_for() {
    let boards = turn("0").repeat(21);
    let lines: Vec<_> = boards.iter().map(|board| [board.print().as_slice(), b"\r\n"].concat()).collect();
    let mut before = vec![Cue::Hears(WELCOME), Cue::Hears(SETTINGS)];
    before.extend(lines.iter().map(|line| Cue::Hears(line)));
    for (typed, first, count) in [(&b"moves"[..], ".. 1 before: moves all\n  2. ", 20), (b"moves all", "  1. ", 21)] {
        let rows = shown_then(plain_settings(), &before, &[Cue::Types(typed)]);
        let turns = rows.lines().filter(|row| row.contains(". You roll 3 and 1: ")).count();
        assert!(rows.starts_with(first) && turns == count, "{rows}");
    }
}

#[test]
fn a_long_name_is_cut_in_a_story() {
    let first = with_fields(FIRST, &[(2, "a_name_of_more_than_24_bytes_in_all")]);
    let before = *rolled(&first, [3, 1]).board();
    let play = any_play(&good(&before), &mut Chance(7));
    let after = effect(&before, &Decision::Move(play), [0, 0]).expect("a legal play");
    let his = rolled(&mirrored(&after), [6, 6]);
    let rows = story_of(&[before, after, mirrored(his.board()), first], false);
    assert!(rows.contains("  2. a_name_of_more_than_24_b rolls 6 and 6: "), "{rows}");
}
