//! Turns step by step, over the worked turns of `turns.txt` and the boards of `boards.txt`; boards in words; and what a
//! board says of the cube.

use crate::tests::boards::{OF_OTHERS, PASSING, TABLE, TO_MOVE, TO_MOVE_UP, TO_ROLL, TOO_MANY};
use crate::tests::table::{Checkers, WorkedTurn, rows, turns};
use crate::{Board, BoardFault, CubeOwner, Decision, Play, Position, Step, Turn, WatchedBoard};

/// The board of a worked turn, for a player of O who goes down.
pub fn board_of(turn: &WorkedTurn) -> Board {
    let mut places = [0; 26];
    for (side, sign) in [(&turn.own, 1), (&turn.other, -1)] {
        for (place, count) in side {
            places[usize::from(*place)] += sign * i32::from(*count);
        }
    }
    let places: Vec<String> = places.iter().map(i32::to_string).collect();
    let count = |side: &Checkers| side.iter().map(|pair| pair.1).sum::<u8>();
    let bar = turn.own.iter().find(|pair| pair.0 == 25).map_or(0, |pair| pair.1);
    let [first, second] = turn.dice;
    let off = [15 - count(&turn.own), 15 - count(&turn.other)];
    let line = format!(
        "board:You:bob:3:0:0:{}:1:{first}:{second}:0:0:1:1:1:0:1:-1:0:25:{}:{}:{bar}:0:0:0:0:0",
        places.join(":"),
        off[0],
        off[1]
    );
    line.parse().expect(turn.name)
}

/// All plays that the steps which are offered make, with the orders in which they were taken.
fn explore(turn: &mut Turn, found: &mut Vec<(Play, Vec<Step>)>) {
    let next = turn.next_steps();
    assert_eq!(turn.play().is_some(), next.is_empty(), "a play is whole if and only if nothing follows");
    if let Some(play) = turn.play() {
        found.push((play, turn.taken().map(|next| next.step).collect()));
    }
    for step in next {
        let dice = turn.dice().len();
        assert_eq!(turn.take(step.step, Some(step.die)), Ok(step));
        assert_eq!(turn.dice().len() + 1, dice);
        explore(turn, found);
        assert_eq!(turn.undo(), Some(step));
    }
}

/// Whether the steps of a play can be taken, and are a whole one then.
fn is_taken(turn: &Turn, play: &Play) -> bool {
    let mut turn = turn.clone();
    play.steps().iter().all(|step| turn.take(*step, None).is_ok()) && turn.play().is_some()
}

#[test]
fn the_steps_of_worked_turns_make_their_plays() {
    for row in turns(include_str!("turns.txt")).unwrap() {
        let (name, board) = (row.name, board_of(&row));
        if row.plays == [Play::new()] {
            let why = board.refusal(&Decision::Move(Play::new())).unwrap();
            assert_eq!(Turn::of(&board).err(), why.map(BoardFault::Disallowed), "{name}");
            continue;
        }
        let mut turn = Turn::of(&board).expect(name);
        let mut found = Vec::new();
        explore(&mut turn, &mut found);
        assert_eq!(turn.undo(), None, "{name}");
        for (_, steps) in &found {
            let play = Play::of(steps.iter().copied()).unwrap();
            assert_eq!(board.refusal(&Decision::Move(play)), Ok(None), "{name}: {play}");
        }
        for play in &row.plays {
            assert!(found.iter().any(|pair| pair.0 == *play && pair.1 == play.steps()), "{name}: {play}");
        }
        assert!(found.iter().all(|pair| row.plays.contains(&pair.0)), "{name}: nothing else");
        assert!(!row.refused.iter().any(|play| is_taken(&turn, play)), "{name}: what is refused");
    }
}

#[test]
fn a_board_has_a_turn_where_the_player_moves() {
    for row in rows(TABLE).unwrap() {
        let board = Board::read(row.board.as_bytes()).expect(row.name);
        let wanted = match (row.fault, row.phase) {
            (Some(fault), _) => Some(fault),
            (None, "Move") => None,
            (None, "RollOrDouble" | "AnswerDouble") => Some("WrongKind"),
            (None, _) => Some("NotYours"),
        };
        assert_eq!(Turn::of(&board).err().map(BoardFault::name), wanted, "{}", row.name);
    }
}

/// The player has a checker on 24 and has rolled 6 and 5; the opponent has a blot on 18.
const TO_HIT_ONCE: &str = "board:You:bob:1:0:0:0:0:-2:0:0:0:0:0:0:0:0:0:0:0:0:0:0:0:-1:0:0:0:0:0:1:0:1:6:5:0:0:1:1:\
    1:0:1:-1:0:25:14:12:0:0:0:0:0:0";

#[test]
fn a_turn_says_what_is_hit() {
    let board: Board = TO_HIT_ONCE.parse().unwrap();
    let mut turn = Turn::of(&board).unwrap();
    let hits: Vec<(u8, bool)> = turn.next_steps().iter().map(|next| (next.step.target(), next.hits)).collect();
    assert_eq!(hits, [(19, false), (18, true)]);
    assert!(turn.take("24/18".parse().unwrap(), None).is_ok_and(|next| next.hits && next.die == 6));
    let [own, other] = turn.checkers();
    assert_eq!((own[18], other[25 - 18], other[25]), (1, 0, 1));
}

#[test]
fn a_board_that_is_watched_has_a_position_and_words() {
    let board = Board::read(OF_OTHERS).unwrap();
    assert!(board.is_others() && Position::of(&board).is_err());
    let watched = WatchedBoard::of(&board).unwrap();
    let [own, other] = watched.position().checkers();
    assert_eq!([own, other].map(|side| side.iter().map(|count| u32::from(*count)).sum::<u32>()), [15, 15]);
    assert_eq!(board.words().unwrap().len(), 10);
    let board = Board::read(TO_MOVE).unwrap();
    assert!(!board.is_others() && WatchedBoard::of(&board).is_none());
    assert_eq!(board.pips(), Ok(Position::of(&board).unwrap().pips()));
    // in the player's own numbers, whichever way the server counts
    for line in [TO_MOVE, TO_MOVE_UP, TO_ROLL, PASSING] {
        assert_eq!(Board::read(line).unwrap().words().unwrap()[4], "You go down, from 24 to 1.");
    }
    assert!(Board::read(TOO_MANY).unwrap().words().is_err());
}

#[test]
fn a_board_says_whose_the_cube_is() {
    let line = String::from_utf8(TO_ROLL.to_vec()).unwrap();
    for (cube, owner) in [
        (":1:1:1:0:1:-1:", CubeOwner::Middle),
        (":2:1:0:0:1:-1:", CubeOwner::Player),
        (":2:0:1:0:1:-1:", CubeOwner::Opponent),
        (":2:0:0:1:1:-1:", CubeOwner::Opponent),
        (":1:0:0:0:1:-1:", CubeOwner::Nobody),
    ] {
        let board: Board = line.replace(":1:1:1:0:1:-1:", cube).parse().unwrap();
        assert_eq!(board.cube_owner(), owner, "{cube}");
        for (scores, is_near) in [(":3:2:0:", true), (":3:0:2:", true), (":3:2:2:", false), (":1:0:0:", false)] {
            let board: Board = board.to_string().replace(":3:0:1:", scores).parse().unwrap();
            assert_eq!(board.is_crawford(), is_near && owner == CubeOwner::Nobody, "{cube} {scores}");
        }
    }
    let owners = [CubeOwner::Nobody, CubeOwner::Player, CubeOwner::Opponent, CubeOwner::Middle];
    assert_eq!(owners.map(CubeOwner::number), [0, 1, 2, 3]);
}
