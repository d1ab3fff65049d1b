//! What a line says, in JSON. A byte is the character of its number.

use fibs::{
    Board, CubeOwner, Event, Length, Message, Name, Offer, OwnInfo, Play, Player, Position, Reading, SavedMatch, Side,
    Stake, Step, Turn, WatchedBoard, WhoInfo, field,
};
use std::fmt::Write;

/// A text in JSON that is being written.
pub struct Json {
    out: String,
}

impl Json {
    /// What is written.
    pub fn of(write: impl FnOnce(&mut Json)) -> String {
        let mut json = Json { out: String::new() };
        write(&mut json);
        json.out
    }

    /// How many bytes are written.
    pub fn len(&self) -> usize {
        self.out.len()
    }

    /// Something that is JSON as it is.
    pub fn raw(&mut self, text: &str) {
        self.out.push_str(text);
    }

    /// Begins a list or an object, as a further item if one came before.
    pub fn open(&mut self, bracket: char) {
        self.comma();
        self.out.push(bracket);
    }

    /// Ends it.
    pub fn close(&mut self, bracket: char) {
        self.out.push(bracket);
    }

    fn comma(&mut self) {
        if !self.out.is_empty() && !self.out.ends_with(['[', '{', ':', ',']) {
            self.out.push(',');
        }
    }

    /// The name of what follows.
    pub fn key(&mut self, name: &str) -> &mut Json {
        self.comma();
        let _ = write!(self.out, "\"{name}\":");
        self
    }

    /// A text of any bytes.
    pub fn text(&mut self, bytes: &[u8]) {
        self.out.push('"');
        for byte in bytes {
            match byte {
                b'"' | b'\\' => self.out.extend(['\\', char::from(*byte)]),
                32..=126 => self.out.push(char::from(*byte)),
                _ => {
                    let _ = write!(self.out, "\\u{byte:04x}");
                }
            }
        }
        self.out.push('"');
    }

    /// A list.
    pub fn list<T>(&mut self, items: impl IntoIterator<Item = T>, mut write: impl FnMut(&mut Json, T)) {
        self.open('[');
        for item in items {
            self.comma();
            write(self, item);
        }
        self.close(']');
    }

    /// Fields that are texts.
    pub fn texts(&mut self, fields: &[(&str, &[u8])]) {
        for (name, text) in fields {
            self.key(name).text(text);
        }
    }

    fn numbers<T: ToString>(&mut self, fields: &[(&str, T)]) {
        for (name, number) in fields {
            self.key(name).raw(&number.to_string());
        }
    }

    fn flags(&mut self, fields: &[(&str, bool)]) {
        for (name, flag) in fields {
            self.key(name).raw(&flag.to_string());
        }
    }

    /// A rating, which is in hundredths.
    fn rating(&mut self, rating: u32) {
        self.key("rating").raw(&format!("{}.{:02}", rating / 100, rating % 100));
        self.numbers(&[("ratingHundredths", rating)]);
    }

    /// Fields that are texts, or null where the server says `-`: there is none.
    fn perhaps(&mut self, fields: &[(&str, &[u8])]) {
        for (name, text) in fields {
            match *text {
                b"-" => self.key(name).raw("null"),
                text => self.key(name).text(text),
            }
        }
    }

    /// Begins the object of a line of the stream, with what the line says.
    pub fn line(&mut self, bytes: &[u8], cut: bool, reading: &Reading<'_>) {
        self.open('{');
        self.key("text").text(bytes);
        self.key("cut").raw(&cut.to_string());
        self.key("reading").reading(bytes, reading);
    }

    /// What has happened.
    pub fn event(&mut self, event: &Event<'_>) {
        self.open('{');
        match event {
            Event::LoggedIn { name } => self.named("loggedIn", name),
            Event::LoginRefused => self.texts(&[("event", b"loginRefused")]),
            Event::Invited { name, length } => {
                self.named("invited", name);
                self.length(*length);
            }
            Event::InvitedToResume { name } => self.named("invitedToResume", name),
            Event::Joined { name, length } => {
                self.named("joined", name);
                self.length(*length);
            }
            Event::Resumed { name } => self.named("resumed", name),
            Event::GameBegun { name } => self.named("gameBegun", name),
            Event::Rolled { who, dice } => {
                self.of_side("rolled", *who);
                self.key("dice").list(dice, |json, die| json.raw(&die.to_string()));
            }
            Event::Played { who, play } => {
                self.of_side("played", *who);
                self.steps(play);
            }
            Event::CannotMove { who } => self.of_side("cannotMove", *who),
            Event::Doubled { who } => self.of_side("doubled", *who),
            Event::Accepted { who, offer } => {
                self.of_side("accepted", *who);
                self.texts(&[("offer", if *offer == Offer::Double { b"double" } else { b"resignation" })]);
            }
            Event::Rejected { who } => self.of_side("rejected", *who),
            Event::OfferedToResign { who, points, worth } => self.points("offeredToResign", *who, *points, *worth),
            Event::Declined { who } => self.of_side("declined", *who),
            Event::GameOver { winner, points, worth } => self.points("gameOver", *winner, *points, *worth),
            Event::NextGame => self.texts(&[("event", b"nextGame")]),
            Event::MatchOver { winner, length, score } => {
                self.of_side("matchOver", *winner);
                self.numbers(&[("length", *length)]);
                self.key("score").list(score, |json, points| json.raw(&points.to_string()));
            }
            Event::Left { who } => self.of_side("left", *who),
            Event::NotPlaying => self.texts(&[("event", b"notPlaying")]),
            Event::RatingChanged { who, rating, experience } => {
                self.of_side("ratingChanged", *who);
                self.rating(*rating);
                self.numbers(&[("experience", *experience)]);
            }
            Event::NothingSaved { name } => self.named("nothingSaved", name),
            Event::Refused { text } => self.texts(&[("event", b"refused"), ("text", text)]),
            _ => self.texts(&[("event", b"other")]),
        }
        self.close('}');
    }

    fn named(&mut self, event: &str, name: &Name<'_>) {
        self.texts(&[("event", event.as_bytes()), ("name", name.bytes())]);
    }

    fn of_side(&mut self, event: &str, who: Side) {
        let who: &[u8] = if who == Side::Own { b"player" } else { b"opponent" };
        self.texts(&[("event", event.as_bytes()), ("who", who)]);
    }

    fn length(&mut self, length: Length) {
        self.key("length").raw(&match length {
            Length::Points(points) => points.to_string(),
            Length::Unlimited => "null".into(),
        });
    }

    fn points(&mut self, event: &str, who: Side, points: u32, worth: Option<Stake>) {
        self.of_side(event, who);
        self.numbers(&[("points", points)]);
        self.key("worth").raw(match worth {
            None => "null",
            Some(Stake::Normal) => "\"single\"",
            Some(Stake::Gammon) => "\"gammon\"",
            Some(Stake::Backgammon) => "\"backgammon\"",
        });
    }

    fn steps(&mut self, play: &Play) {
        self.key("steps").list(play.steps(), |json, step| {
            json.raw(&format!("[{},{}]", step.source(), step.target()));
        });
    }

    /// What a line says.
    pub fn reading(&mut self, line: &[u8], reading: &Reading<'_>) {
        self.open('{');
        match reading {
            Reading::Numbered(message) => self.message(message),
            Reading::Board(board) => self.board(board),
            Reading::Text(_) => {
                self.key("kind").raw("\"text\"");
                self.key("text").text(line);
            }
            Reading::Malformed { number, field, fault } => {
                self.key("kind").raw("\"malformed\"");
                self.key("number").raw(&number.to_string());
                self.key("field").raw(&field.to_string());
                self.key("fault").raw(&format!("\"{}\"", fault.name()));
            }
        }
        self.close('}');
    }

    fn board(&mut self, board: &Board) {
        let get = |n: usize| board.get(n).unwrap_or(0);
        self.key("kind").raw("\"board\"");
        self.key("line").text(board.to_string().as_bytes());
        self.texts(&[("player", board.player().bytes()), ("opponent", board.opponent().bytes())]);
        match get(field::MATCH_LENGTH) {
            9999 => self.key("length").raw("null"),
            length => self.key("length").raw(&length.to_string()),
        }
        self.key("score").list([field::OWN_SCORE, field::OTHER_SCORE], |json, n| json.raw(&get(n).to_string()));
        self.numbers(&[("colour", get(field::COLOUR)), ("direction", get(field::DIRECTION))]);
        self.key("turn").raw(match get(field::TURN) {
            0 => "null",
            turn if turn == get(field::COLOUR) => "\"player\"",
            _ => "\"opponent\"",
        });
        self.dice("dice", [get(field::FIRST_DIE), get(field::SECOND_DIE)]);
        self.dice("opponentDice", [get(field::OTHER_FIRST_DIE), get(field::OTHER_SECOND_DIE)]);
        self.numbers(&[("cube", get(field::CUBE))]);
        self.flags(&[
            ("mayDouble", get(field::MAY_DOUBLE) == 1),
            ("opponentMayDouble", get(field::OTHER_MAY_DOUBLE) == 1),
            ("wasDoubled", get(field::WAS_DOUBLED) == 1),
            ("crawford", board.is_crawford()),
            ("matchOver", board.is_match_over()),
            ("isOthers", board.is_others()),
        ]);
        self.key("cubeOwner").raw(match board.cube_owner() {
            CubeOwner::Player => "\"player\"",
            CubeOwner::Opponent => "\"opponent\"",
            CubeOwner::Middle => "\"middle\"",
            CubeOwner::Nobody => "\"nobody\"",
        });
        self.key("off").list([board.off(), board.opponent_off()], |json, count| json.raw(&count.to_string()));
        self.position(board);
    }

    fn dice(&mut self, name: &str, dice: [i32; 2]) {
        match dice {
            [0, 0] => self.key(name).raw("null"),
            dice => self.key(name).list(dice, |json, die| json.raw(&die.to_string())),
        }
    }

    /// The phase and the checkers, each side's in its own numbers: the bar is 25, off is 0. Of a board that is watched
    /// they are those that its player sees.
    fn position(&mut self, board: &Board) {
        let own = Position::of(board);
        match &own {
            Err(why) => self.key("noPosition").raw(&format!("\"{}\"", why.name())),
            Ok(_) => self.key("noPosition").raw("null"),
        }
        match own.ok().or_else(|| WatchedBoard::of(board).map(|watched| *watched.position())) {
            None => {
                for name in ["phase", "checkers", "pips"] {
                    self.key(name).raw("null");
                }
            }
            Some(position) => {
                self.key("phase").raw(&format!("\"{}\"", position.phase()));
                self.sides(position.checkers());
                let (own, other) = position.pips();
                self.key("pips").list([own, other], |json, pips| json.raw(&pips.to_string()));
            }
        }
    }

    /// The checkers of each side.
    fn sides(&mut self, checkers: [[u8; 26]; 2]) {
        self.key("checkers").list(checkers, |json, side| {
            json.list(side, |json, count| json.raw(&count.to_string()));
        });
    }

    /// Where a step goes, in the player's own numbers.
    pub fn step(&mut self, step: &Step) {
        self.open('{');
        self.ends(step);
        self.close('}');
    }

    fn ends(&mut self, step: &Step) {
        self.numbers(&[("from", step.source()), ("to", step.target())]);
    }

    /// A turn, with the command that it makes, if it is whole.
    pub fn turn(&mut self, turn: &Turn, command: Option<&[u8]>) {
        self.open('{');
        self.sides(turn.checkers());
        self.key("dice").list(turn.dice(), |json, die| json.raw(&die.to_string()));
        self.key("next").list(turn.next_steps(), |json, next| {
            json.open('{');
            json.ends(&next.step);
            json.numbers(&[("die", next.die)]);
            json.flags(&[("hits", next.hits)]);
            json.close('}');
        });
        match command {
            Some(command) => self.texts(&[("command", command)]),
            None => self.key("command").raw("null"),
        }
        self.close('}');
    }

    /// A match that was saved.
    pub fn saved(&mut self, saved: &SavedMatch<'_>) {
        self.open('{');
        self.texts(&[("name", saved.name.bytes())]);
        self.key("length").raw(&saved.length.map_or("null".into(), |length| length.to_string()));
        self.key("score").list([saved.score, saved.opponent_score], |json, points| json.raw(&points.to_string()));
        self.flags(&[("isThere", saved.is_there)]);
        self.close('}');
    }

    fn message(&mut self, message: &Message<'_>) {
        self.key("kind").raw("\"message\"");
        self.key("number").raw(&message.number().to_string());
        self.key("message").raw(&format!("\"{}\"", name_of(message)));
        match message {
            Message::Welcome { name, last_login, last_host } => {
                self.texts(&[("name", name.bytes()), ("lastHost", last_host.bytes())]);
                self.numbers(&[("lastLogin", last_login)]);
            }
            Message::OwnInfo(info) => self.own_info(info),
            Message::WhoInfo(info) => self.who_info(info),
            Message::MotdBegin | Message::MotdEnd | Message::WhoInfoEnd => {}
            Message::Login { name, text }
            | Message::Logout { name, text }
            | Message::Says { name, text }
            | Message::Shouts { name, text }
            | Message::Whispers { name, text }
            | Message::Kibitzes { name, text }
            | Message::YouSay { name, text } => self.texts(&[("name", name.bytes()), ("text", text)]),
            Message::MessageReceived { sender, time, text } => {
                self.texts(&[("sender", sender.bytes()), ("text", text)]);
                self.numbers(&[("time", time)]);
            }
            Message::MessageDelivered { name } | Message::MessageSaved { name } => {
                self.texts(&[("name", name.bytes())]);
            }
            Message::YouShout { text } | Message::YouWhisper { text } | Message::YouKibitz { text } => {
                self.texts(&[("text", text)]);
            }
            _ => {}
        }
    }

    fn own_info(&mut self, info: &OwnInfo<'_>) {
        self.texts(&[
            ("name", info.name.bytes()),
            ("redoubles", info.redoubles.bytes()),
            ("timezone", info.timezone.bytes()),
        ]);
        self.flags(&[
            ("allowpip", info.allowpip),
            ("autoboard", info.autoboard),
            ("autodouble", info.autodouble),
            ("automove", info.automove),
            ("away", info.away),
            ("bell", info.bell),
            ("crawford", info.crawford),
            ("double", info.double),
            ("greedy", info.greedy),
            ("moreboards", info.moreboards),
            ("moves", info.moves),
            ("notify", info.notify),
            ("ratings", info.ratings),
            ("ready", info.ready),
            ("report", info.report),
            ("silent", info.silent),
        ]);
        self.numbers(&[("experience", info.experience)]);
        self.rating(info.rating);
    }

    fn who_info(&mut self, info: &WhoInfo<'_>) {
        self.texts(&[("name", info.name.bytes()), ("hostname", info.hostname.bytes())]);
        self.perhaps(&[
            ("opponent", info.opponent.bytes()),
            ("watching", info.watching.bytes()),
            ("client", info.client.bytes()),
            ("email", info.email.bytes()),
        ]);
        self.flags(&[("ready", info.ready), ("away", info.away)]);
        self.numbers(&[("experience", info.experience), ("idle", info.idle), ("login", info.login)]);
        self.rating(info.rating);
    }

    /// A player of a directory.
    pub fn player(&mut self, player: &Player) {
        self.open('{');
        self.texts(&[("name", &player.name), ("hostname", &player.hostname)]);
        self.perhaps(&[
            ("opponent", &player.opponent),
            ("watching", &player.watching),
            ("client", &player.client),
            ("email", &player.email),
        ]);
        self.flags(&[("ready", player.ready), ("away", player.away)]);
        self.numbers(&[("experience", player.experience), ("idle", player.idle), ("login", player.login)]);
        self.rating(player.rating);
        self.close('}');
    }
}

/// The name of a message in JavaScript.
fn name_of(message: &Message<'_>) -> &'static str {
    match message {
        Message::Welcome { .. } => "welcome",
        Message::OwnInfo(_) => "ownInfo",
        Message::MotdBegin => "motdBegin",
        Message::MotdEnd => "motdEnd",
        Message::WhoInfo(_) => "whoInfo",
        Message::WhoInfoEnd => "whoInfoEnd",
        Message::Login { .. } => "login",
        Message::Logout { .. } => "logout",
        Message::MessageReceived { .. } => "messageReceived",
        Message::MessageDelivered { .. } => "messageDelivered",
        Message::MessageSaved { .. } => "messageSaved",
        Message::Says { .. } => "says",
        Message::Shouts { .. } => "shouts",
        Message::Whispers { .. } => "whispers",
        Message::Kibitzes { .. } => "kibitzes",
        Message::YouSay { .. } => "youSay",
        Message::YouShout { .. } => "youShout",
        Message::YouWhisper { .. } => "youWhisper",
        Message::YouKibitz { .. } => "youKibitz",
        _ => "another",
    }
}
