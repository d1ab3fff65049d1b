//! What a Rust author expects of boards, positions, plays and messages. Written by hand.

use crate::{
    AllocError, Board, CubeOwner, Decision, Direction, Disallowed, FieldFault, Message, Phase, Play, Position,
    PositionFault, Reading, Side, Step, differs, effect, fibs_messages::print_message, fibs_position::is_crawford,
    field, read,
};
use std::fmt;
use std::hash::{Hash, Hasher};
use std::str::FromStr;

impl Board {
    /// The number of field `n`. None if `n` is not 4 to 53.
    ///
    /// ```
    /// # let line = "board:You:bob:1:0:0:0:-2:0:0:0:0:5:0:3:0:0:0:-5:5:0:0:0:-3:0:-5:0:0:0:0:2:0:1:\
    /// #     6:2:0:0:1:1:1:0:1:-1:0:25:0:0:0:0:2:0:0:0";
    /// let board: fibs::Board = line.parse()?;
    /// assert_eq!(board.get(fibs::field::FIRST_DIE), Some(6));
    /// assert_eq!(board.get(3), None);
    /// assert_eq!(board.to_string(), line);
    /// # Ok::<(), fibs::FieldFault>(())
    /// ```
    pub fn get(&self, n: usize) -> Option<i32> {
        (4..=53).contains(&n).then(|| self.field(n))
    }

    /// How many points the match is to. None if it is unlimited.
    pub fn length(&self) -> Option<i32> {
        Some(self.field(field::MATCH_LENGTH)).filter(|length| *length != field::UNLIMITED)
    }

    /// The player's points.
    pub fn score(&self) -> i32 {
        self.field(field::OWN_SCORE)
    }

    /// The opponent's points.
    pub fn opponent_score(&self) -> i32 {
        self.field(field::OTHER_SCORE)
    }

    /// The player's dice, if he has rolled.
    ///
    /// ```
    /// # let line = "board:You:bob:3:0:1:0:-2:0:0:0:0:5:0:3:0:0:0:-5:5:0:0:0:-3:0:-5:0:0:0:0:2:0:1:\
    /// #     6:2:0:0:1:1:1:0:1:-1:0:25:0:0:0:0:2:0:0:0";
    /// let board: fibs::Board = line.parse()?;
    /// assert_eq!((board.dice(), board.opponent_dice()), (Some([6, 2]), None));
    /// assert_eq!((board.length(), board.score(), board.opponent_score()), (Some(3), 0, 1));
    /// assert_eq!((board.pips()?, board.is_match_over()), ((167, 167), false));
    /// # Ok::<(), Box<dyn std::error::Error>>(())
    /// ```
    pub fn dice(&self) -> Option<[u8; 2]> {
        self.pair(field::FIRST_DIE)
    }

    /// The opponent's dice, if he has rolled.
    pub fn opponent_dice(&self) -> Option<[u8; 2]> {
        self.pair(field::OTHER_FIRST_DIE)
    }

    fn pair(&self, n: usize) -> Option<[u8; 2]> {
        Some([self.small(n), self.small(n + 1)]).filter(|dice| *dice != [0, 0])
    }

    fn small(&self, n: usize) -> u8 {
        u8::try_from(self.field(n)).unwrap_or_default()
    }

    /// Whose turn it is. None if the game is over.
    ///
    /// ```
    /// # let line = "board:You:bob:3:0:1:0:-2:0:0:0:0:5:0:3:0:0:0:-5:5:0:0:0:-3:0:-5:0:0:0:0:2:0:1:\
    /// #     6:2:0:0:1:1:1:0:1:-1:0:25:0:0:0:0:2:0:0:0";
    /// let board: fibs::Board = line.parse()?;
    /// assert_eq!((board.turn(), board.turned().turn()), (Some(fibs::Side::Own), Some(fibs::Side::Other)));
    /// # Ok::<(), fibs::FieldFault>(())
    /// ```
    pub fn turn(&self) -> Option<Side> {
        match self.field(field::TURN) {
            0 => None,
            turn if turn == self.field(field::COLOUR) => Some(Side::Own),
            _ => Some(Side::Other),
        }
    }

    /// What the cube shows.
    pub fn cube(&self) -> i32 {
        self.field(field::CUBE)
    }

    /// Whether the player may double.
    pub fn may_double(&self) -> bool {
        self.field(field::MAY_DOUBLE) == 1
    }

    /// Whether the opponent may double.
    pub fn opponent_may_double(&self) -> bool {
        self.field(field::OTHER_MAY_DOUBLE) == 1
    }

    /// Whether the opponent has just doubled.
    pub fn was_doubled(&self) -> bool {
        self.field(field::WAS_DOUBLED) == 1
    }

    /// How many checkers the player has borne off.
    pub fn off(&self) -> u8 {
        self.small(field::OWN_OFF)
    }

    /// How many checkers the opponent has borne off.
    pub fn opponent_off(&self) -> u8 {
        self.small(field::OTHER_OFF)
    }

    /// Which way the player goes by the numbers of the server.
    pub fn direction(&self) -> Direction {
        Direction::of(self)
    }

    /// How many pips the player and the opponent have to go.
    ///
    /// # Errors
    /// Why the board has no position.
    pub fn pips(&self) -> Result<(u32, u32), PositionFault> {
        Ok(Position::of(self)?.pips())
    }

    /// Whose the cube is: who may double next.
    pub fn cube_owner(&self) -> CubeOwner {
        CubeOwner::of(self)
    }

    /// Whether the game is that of the Crawford rule, in which nobody doubles, as far as the board shows it: one side
    /// alone has one point to go, neither may double, the cube shows 1, and the opponent has not just doubled.
    ///
    /// ```
    /// # let line = "board:You:bob:3:2:1:0:-2:0:0:0:0:5:0:3:0:0:0:-5:5:0:0:0:-3:0:-5:0:0:0:0:2:0:1:\
    /// #     6:2:0:0:1:0:0:0:1:-1:0:25:0:0:0:0:2:0:0:0";
    /// let board: fibs::Board = line.parse()?;
    /// assert_eq!((board.length(), board.score(), board.opponent_score()), (Some(3), 2, 1));
    /// assert_eq!((board.is_crawford(), board.cube_owner()), (true, fibs::CubeOwner::Nobody));
    /// # Ok::<(), fibs::FieldFault>(())
    /// ```
    pub fn is_crawford(&self) -> bool {
        is_crawford(self)
    }

    /// Whether the board is one of a game in which the user does not play. [`WatchedBoard`](crate::WatchedBoard) has
    /// the position that its player sees.
    pub fn is_others(&self) -> bool {
        self.player().bytes() != b"You"
    }

    /// What the player may do.
    ///
    /// # Errors
    /// Why the board has no position.
    pub fn phase(&self) -> Result<Phase, PositionFault> {
        Ok(Position::of(self)?.phase())
    }

    /// Why the player may not decide so on this board. None if he may.
    ///
    /// # Errors
    /// Why the board has no position.
    pub fn refusal(&self, decision: &Decision) -> Result<Option<Disallowed>, PositionFault> {
        Ok(Position::of(self)?.allows(decision).err())
    }

    /// Whether the game is over, and the match with it: a side has the points that it is to, or it is to one point.
    pub fn is_match_over(&self) -> bool {
        let length = self.field(field::MATCH_LENGTH);
        self.field(field::TURN) == 0 && (length <= 1 || length <= self.score() || length <= self.opponent_score())
    }

    /// The board after the server carried out a decision; a roll throws these dice. Of a play it is not asked if it is
    /// legal. None if the server does not carry it out.
    pub fn after(&self, decision: &Decision, dice: [u8; 2]) -> Option<Board> {
        effect(self, decision, dice)
    }

    /// Whether the boards differ in what the game is: then the other one, if it is shown, ends the waiting of a
    /// decision that was made on this one.
    pub fn differs(&self, other: &Board) -> bool {
        differs(self, other)
    }

    /// The same board with the sides exchanged, as if the user were the opponent: its plays are the opponent's. What
    /// this board does not tell of the opponent is 0: whether he was doubled, and fields 50 and 51.
    #[must_use]
    pub fn turned(&self) -> Board {
        (4..=53).fold(*self, |board, n| {
            let value = match n {
                field::WAS_DOUBLED | 50 | 51 => 0,
                field::COLOUR | field::DIRECTION => -self.field(n),
                n => self.field(
                    SIDES
                        .iter()
                        .find_map(|[a, b]| [(a, b), (b, a)].into_iter().find(|pair| *pair.0 == n))
                        .map_or(n, |pair| *pair.1),
                ),
            };
            board.with(n, value).unwrap_or(board)
        })
    }
}

/// The fields that say the same of one side and of the other.
const SIDES: [[usize; 2]; 7] = [[5, 6], [34, 36], [35, 37], [39, 40], [44, 45], [46, 47], [48, 49]];

impl fmt::Display for Board {
    /// The line that says the board, without a line end.
    fn fmt(&self, f: &mut fmt::Formatter<'_>) -> fmt::Result {
        f.write_str(std::str::from_utf8(&self.print()).map_err(|_| fmt::Error)?)
    }
}

impl TryFrom<&[u8]> for Board {
    type Error = FieldFault;

    fn try_from(line: &[u8]) -> Result<Board, FieldFault> {
        Board::read(line)
    }
}

impl FromStr for Board {
    type Err = FieldFault;

    fn from_str(line: &str) -> Result<Board, FieldFault> {
        Board::read(line.as_bytes())
    }
}

impl Hash for Board {
    fn hash<H: Hasher>(&self, state: &mut H) {
        self.print().hash(state);
    }
}

impl TryFrom<&Board> for Position {
    type Error = PositionFault;

    fn try_from(board: &Board) -> Result<Position, PositionFault> {
        Position::of(board)
    }
}

impl Position {
    /// The player's checkers on a place, counted so that he goes down: 1 to 24, 25 for his bar, 0 for those borne off.
    /// None for another place.
    ///
    /// ```
    /// # let line = "board:You:bob:1:0:0:0:-2:0:0:0:0:5:0:3:0:0:0:-5:5:0:0:0:-3:0:-5:0:0:0:0:2:0:1:\
    /// #     6:2:0:0:1:1:1:0:1:-1:0:25:0:0:0:0:2:0:0:0";
    /// let board: fibs::Board = line.parse()?;
    /// let position = fibs::Position::try_from(&board)?;
    /// assert_eq!(position.own_on(24), Some(2));
    /// let best = fibs::Decision::Move(position.plays()?[0]);
    /// assert_eq!(fibs::decision_text(&best, position.direction()).as_str(), "move 24-22 24-18");
    /// # Ok::<(), Box<dyn std::error::Error>>(())
    /// ```
    pub fn own_on(&self, place: u8) -> Option<u8> {
        (place <= 25).then(|| self.own(place))
    }

    /// The opponent's checkers on a place 1 to 24 of the player's numbering. None for another place.
    pub fn other_on(&self, place: u8) -> Option<u8> {
        (1..=24).contains(&place).then(|| self.other(place))
    }

    /// The checkers of the player and of the opponent, each in its own numbers: those borne off, those on the places 1
    /// to 24, and those on the bar.
    pub fn checkers(&self) -> [[u8; 26]; 2] {
        let [mut own, mut other] = [[0; 26]; 2];
        for place in 0..26 {
            own[usize::from(place)] = self.own(place);
            other[usize::from(place)] = match place {
                0 => self.other_off(),
                25 => self.other_bar(),
                place => self.other(25 - place),
            };
        }
        [own, other]
    }

    /// How many pips the player and the opponent have to go.
    pub fn pips(&self) -> (u32, u32) {
        let [own, other] =
            self.checkers().map(|side| (0..).zip(side).map(|(place, count)| place * u32::from(count)).sum());
        (own, other)
    }
}

impl Play {
    /// The play of these steps, in their order. None if they are more than four.
    ///
    /// ```
    /// use fibs::{Play, Step};
    /// let play = Play::of([Step::new(8, 5).unwrap(), Step::new(6, 5).unwrap()]).unwrap();
    /// assert_eq!(play.steps().len(), 2);
    /// assert_eq!(Play::of([Step::new(8, 5).unwrap(); 5]), None);
    /// ```
    pub fn of(steps: impl IntoIterator<Item = Step>) -> Option<Play> {
        let mut play = Play::new();
        steps.into_iter().all(|step| play.push(step)).then_some(play)
    }
}

impl<'a> From<&'a [u8]> for Reading<'a> {
    fn from(line: &'a [u8]) -> Reading<'a> {
        read(line)
    }
}

impl Message<'_> {
    /// The canonical line of the message, without a line end.
    ///
    /// ```
    /// let fibs::Reading::Numbered(message) = fibs::read(b"12 bob hi") else { panic!() };
    /// assert_eq!(message.to_line()?, b"12 bob hi");
    /// # Ok::<(), fibs::AllocError>(())
    /// ```
    ///
    /// # Errors
    /// [`AllocError`] if memory runs out.
    pub fn to_line(&self) -> Result<Vec<u8>, AllocError> {
        let mut line = Vec::new();
        print_message(self, &mut line)?;
        Ok(line)
    }
}
