//! Two clients on one thread, without waiting on either: each plays the first legal play in a match of one point
//! against somebody who takes invitations: watch HOST:PORT NAME NAME OPPONENT OPPONENT

use fibs::{Client, Decision, Login, Message, Phase, Plain, Position, Reading};
use std::error::Error;
use std::io::{ErrorKind, Read};
use std::net::TcpStream;
use std::thread;
use std::time::Duration;

/// A client with its socket.
struct Seat {
    client: Client,
    stream: TcpStream,
    opponent: Vec<u8>,
    is_over: bool,
}

fn main() -> Result<(), Box<dyn Error>> {
    let words: Vec<String> = std::env::args().skip(1).collect();
    let [address, names @ ..] = &words[..] else { return Err("watch HOST:PORT NAME NAME OPPONENT OPPONENT".into()) };
    let (names, opponents) = names.split_at(names.len() / 2);
    let mut seats = Vec::new();
    for (name, opponent) in names.iter().zip(opponents) {
        let stream = TcpStream::connect(address)?;
        stream.set_nonblocking(true)?;
        let mut client = Client::new(Login::new(name.as_bytes(), b"secret")?);
        client.open()?;
        seats.push(Seat { client, stream, opponent: opponent.clone().into(), is_over: false });
    }
    while !seats.iter().all(|seat| seat.is_over) {
        for seat in seats.iter_mut().filter(|seat| !seat.is_over) {
            turn(seat)?;
        }
        thread::sleep(Duration::from_millis(1)); // a program with more to do asks the system which socket is ready
    }
    Ok(())
}

/// Sends what the socket takes now, and hears what has come.
fn turn(seat: &mut Seat) -> Result<(), Box<dyn Error>> {
    let mut room = [0; 4096];
    match seat.client.write_to(&seat.stream) {
        Err(why) if why.kind() == ErrorKind::WouldBlock => {} // the client keeps the rest
        other => other?,
    }
    let got = match seat.stream.read(&mut room) {
        Err(why) if why.kind() == ErrorKind::WouldBlock => return Ok(()),
        other => other?,
    };
    if got == 0 {
        return Err("the connection ended".into());
    }
    let mut piece = &room[..got];
    while let Some(heard) = seat.client.hear(&mut piece) {
        match heard.reading {
            Reading::Numbered(Message::OwnInfo(_)) => {
                seat.client.plain(&Plain::Invite(&seat.opponent, Some(1)))?;
            }
            Reading::Board(board) => act(seat, &board)?,
            _ => {}
        }
    }
    Ok(())
}

/// Decides on a board, if the client takes the decision.
fn act(seat: &mut Seat, board: &fibs::Board) -> Result<(), Box<dyn Error>> {
    let Ok(position) = Position::try_from(board) else { return Ok(()) };
    let decision = match position.phase() {
        Phase::RollOrDouble => Decision::Roll,
        Phase::AnswerDouble => Decision::Accept,
        Phase::Move => Decision::Move(position.plays()?[0]),
        Phase::Over => {
            println!("over: {:?} to {} borne off", position.own_on(0), position.other_off());
            seat.is_over = true;
            return Ok(());
        }
        _ => return Ok(()),
    };
    if seat.client.refusal(&decision).is_none() {
        seat.client.decide(&decision)?;
    }
    Ok(())
}
