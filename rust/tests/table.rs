//! A client of your own against a server in memory: a whole game, in pieces of one byte, with lost connections.
#![cfg(feature = "model")]

use fibs::model::Table;
use fibs::{Board, Client, Decision, Login, Phase, Position, field};

/// The opponent has few checkers left, and the player bears off.
const ENDING: &str = "board:You:bob:1:0:0:0:2:2:2:2:2:2:0:0:0:0:0:0:0:0:0:0:0:0:0:0:0:0:-1:-1:0:1:0:0:0:0:\
    1:1:1:0:1:-1:0:25:3:13:0:0:0:0:0:0";

/// What a bot of yours decides: the part that is tested here.
fn decision_on(board: &Board) -> Option<Decision> {
    let position = Position::try_from(board).ok()?;
    match position.phase() {
        Phase::RollOrDouble => Some(Decision::Roll),
        Phase::AnswerDouble => Some(Decision::Accept),
        Phase::Move => Some(Decision::Move(*position.plays().ok()?.first()?)),
        _ => None,
    }
}

/// The board after the opponent's turn, in which he did nothing.
fn passed(board: &Board) -> Board {
    let own = board.get(field::COLOUR).unwrap();
    let with = |board: Board, n, value| board.with(n, value).unwrap();
    [field::OTHER_FIRST_DIE, field::OTHER_SECOND_DIE].iter().fold(with(*board, field::TURN, own), |b, n| with(b, *n, 0))
}

#[test]
fn a_game_is_played_to_its_end() {
    let mut table = Table::new(ENDING.parse().unwrap()).unwrap();
    let mut client = Client::new(Login::new(b"ann", b"secret").unwrap());
    client.open().unwrap();
    let mut turns = 0;
    for step in 1.. {
        assert!(step < 1000, "no end: {}", table.board());
        let answer = table.hear(client.outgoing(), [6, 5]);
        client.sent(client.outgoing().len());
        for byte in answer {
            client.hear_all(&[byte], |_| ());
        }
        if step % 7 == 0 {
            table.lose();
            let _ = client.lose();
            client.open().unwrap();
            continue;
        }
        let Some(board) = client.shown().copied() else { continue };
        match Position::try_from(&board).unwrap().phase() {
            Phase::Over => break,
            Phase::OpponentActs => {
                let said = table.own(&passed(&board)).unwrap();
                client.hear_all(&said, |_| ());
                turns += 1;
            }
            _ => {}
        }
        let decision = client.shown().and_then(decision_on).filter(|decision| client.refusal(decision).is_none());
        if let Some(decision) = decision {
            client.decide(&decision).unwrap();
        }
    }
    assert_eq!(table.board().get(field::OWN_OFF), Some(15));
    assert!(turns >= 3, "{turns}");
}
