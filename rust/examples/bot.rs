//! Plays a match of three points by its first legal plays, over lost connections too, and leaves: bot HOST PORT NAME
//! OPPONENT, with the password on standard input. It compares no text of the server: `Events` says what has happened.

use fibs::{Client, Decision, Event, Events, Heard, Login, Message, OwnedHeard, Phase, Plain, Position, Reading, Side};
use std::{error::Error, io::Read, net::TcpStream};

struct Bot {
    client: Client,
    events: Events,
    opponent: String,
    is_over: bool,
}

impl Bot {
    /// Says and decides what a line asks for.
    fn answer(&mut self, heard: &OwnedHeard) -> Result<(), Box<dyn Error>> {
        let reading = heard.reading();
        if let Reading::Numbered(Message::OwnInfo(_)) = reading {
            // without points: a match that was saved goes on; if none is, one that had begun has ended unseen
            self.client.plain(&Plain::Invite(self.opponent.as_bytes(), None))?;
        }
        for event in self.events.hear(&reading)?.inspect(|event| println!("{event:?}")) {
            match event {
                Event::NothingSaved { .. } if !self.events.opponent().is_empty() => self.is_over = true,
                Event::NothingSaved { .. } => self.client.plain(&Plain::Invite(self.opponent.as_bytes(), Some(3)))?,
                Event::OfferedToResign { who: Side::Other, .. } => self.client.own_line(b"accept")?,
                Event::NextGame => self.client.plain(&Plain::Join(None))?,
                Event::MatchOver { .. } => self.is_over = true,
                _ => {}
            }
        }
        if matches!(reading, Reading::Board(_)) && !self.is_over { self.decide() } else { Ok(()) }
    }

    /// Decides on the board that is shown. A server shows some boards twice: then a decision may wait.
    fn decide(&mut self) -> Result<(), Box<dyn Error>> {
        let shown = self.client.shown().map(Position::try_from);
        let (Some(Ok(position)), None) = (shown, self.client.waiting()) else { return Ok(()) };
        let decision = match position.phase() {
            Phase::RollOrDouble => Decision::Roll,
            Phase::AnswerDouble => Decision::Accept,
            Phase::Move => Decision::Move(position.plays()?[0]),
            _ => return Ok(()),
        };
        Ok(self.client.decide(&decision)?)
    }

    /// Plays until the match is over, or the connection.
    fn converse(&mut self, mut stream: TcpStream) -> Result<(), Box<dyn Error>> {
        self.client.open()?;
        self.events.open();
        let (mut room, mut got) = ([0; 4096], 1);
        while !self.is_over && got > 0 {
            got = self.client.write_to(&stream).and_then(|()| stream.read(&mut room)).unwrap_or(0);
            let mut piece = &room[..got];
            self.events.hear_bytes(piece).next().map_or(Ok(()), |_| Err("the server refuses the login"))?;
            while let Some(heard) = self.client.hear(&mut piece).map(Heard::into_owned) {
                self.answer(&heard)?;
            }
        }
        if self.is_over {
            self.client.plain(&Plain::Bye)?;
            self.client.write_to(&stream)?;
        }
        Ok(())
    }
}

fn main() -> Result<(), Box<dyn Error>> {
    let words: Vec<String> = std::env::args().skip(1).collect();
    let [host, port, name, opponent] = &words[..] else { return Err("bot HOST PORT NAME OPPONENT".into()) };
    let password = std::io::stdin().lines().next().ok_or("no password")??;
    let client = Client::new(Login::new(name.as_bytes(), password.as_bytes())?);
    let mut bot = Bot { client, events: Events::new(), opponent: opponent.clone(), is_over: false };
    while !bot.is_over {
        bot.converse(TcpStream::connect(format!("{host}:{port}"))?)?;
        println!("lost: {:?}", bot.client.lose().map(|lost| lost.decision));
    }
    Ok(())
}
