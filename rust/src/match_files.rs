//! Match files of a session: the same as `scripts/fibs-mat` makes of its log. Written by hand.
//!
//! The boards say what was played: between two of them lies the shortest run of rolls, plays and doubles that leads
//! from one to the other, with the dice that the server's texts name.

mod state;
mod ways;
mod written;

use crate::{AllocError, Event, Events, Message, Position, Reading, Side, field};
use state::{Action, OTHER, OWN, Roll, Seen, State, sorted};
use ways::Found;

/// The matches that the lines of a client or of a saved session tell, as files in the format of Jellyfish, which GNU
/// Backgammon imports.
///
/// What a lost connection hid is filled in, if the rules tell what it was; dice that nobody showed are then such that
/// the play was legal. A game of which the beginning is missing is left out; one that can't be followed to its end has
/// its result alone.
///
/// ```
/// use fibs::{MatchFiles, read};
///
/// # let begun = "board:You:eve:3:0:0:0:-2:0:0:0:0:5:0:3:0:0:0:-5:5:0:0:0:-3:0:-5:0:0:0:0:2:0:1:6:3:0:0:1:1:1:0:1:\
/// #     -1:0:25:0:0:0:0:2:0:0:0";
/// # let played = "board:You:eve:3:0:0:0:-2:0:0:0:0:5:0:3:0:1:0:-5:4:0:0:0:-3:1:-5:0:0:0:0:1:0:-1:0:0:0:0:1:1:1:0:1:\
/// #     -1:0:25:0:0:0:0:0:0:0:0";
/// let mut files = MatchFiles::new("ann");
/// for line in [begun, played] {
///     files.hear(&read(line.as_bytes()))?;
/// }
/// let file = &files.files()[0];
/// assert_eq!((file.opponent.as_str(), file.text.lines().last()), ("eve", Some("")));
/// assert!(file.text.contains("  1) 63: 24/18 13/10 "));
/// # Ok::<(), fibs::AllocError>(())
/// ```
#[derive(Default)]
pub struct MatchFiles {
    name: String,
    events: Events,
    matches: Vec<Match>,
    /// Which match is played.
    playing: Option<usize>,
    /// The rolls since the last board.
    told: Vec<Roll>,
    is_resigning: bool,
}

/// A match as a file.
#[derive(Clone, Debug, PartialEq, Eq, Hash)]
#[non_exhaustive]
pub struct MatchFile {
    /// The opponent.
    pub opponent: String,
    /// What is to stand in the file.
    pub text: String,
}

/// A game: the scores before it, what was done, and who won how many points, if it is over.
#[derive(Default)]
struct Game {
    scores: [i32; 2],
    actions: Vec<Action>,
    won: Option<(usize, i32)>,
    is_dropped: bool,
}

/// A match: the names of both sides, its length, the games before, and the one that is played, with its state at the
/// last board, or None if it can't be followed.
struct Match {
    names: [String; 2],
    length: i32,
    earlier: Vec<Game>,
    game: Game,
    state: Option<State>,
}

impl MatchFiles {
    /// Nothing was heard. The greeting of the server replaces the user's name.
    pub fn new(name: &str) -> MatchFiles {
        MatchFiles { name: name.into(), ..MatchFiles::default() }
    }

    /// Hears what a line says. Hear each once, in order, over connections too; leave out lines that were cut.
    ///
    /// # Errors
    /// If memory runs out; then what was done up to this line may not be told.
    pub fn hear(&mut self, reading: &Reading<'_>) -> Result<(), AllocError> {
        let happened = self.events.hear(reading)?;
        match reading {
            // what a board tells is found from the board
            Reading::Text(_) => happened.for_each(|event| self.hear_text(&event)),
            Reading::Numbered(Message::Welcome { name, .. }) => self.name = name.to_string(),
            Reading::Board(board) => {
                if let Ok(position) = Position::of(board) {
                    self.see(&Seen::of(board, &position))?;
                }
            }
            Reading::Numbered(_) | Reading::Malformed { .. } => {}
        }
        Ok(())
    }

    /// A file for each match that can be told, in the order in which they began.
    pub fn files(&self) -> Vec<MatchFile> {
        let is_told = |one: &&Match| one.games().next().is_some();
        let file = |one: &Match| MatchFile { opponent: one.names[OTHER].clone(), text: written::text_of(one) };
        self.matches.iter().filter(is_told).map(file).collect()
    }

    fn hear_text(&mut self, event: &Event<'_>) {
        self.is_resigning &= !goes_on(event);
        match event {
            Event::GameBegun { .. } => self.told.clear(),
            Event::Rolled { who, dice } => self.told.push(Roll { side: index(*who), dice: sorted(*dice) }),
            _ => self.hear_of_game(event),
        }
    }

    /// Hears of the game that is played, if there is one.
    fn hear_of_game(&mut self, event: &Event<'_>) {
        let Some(one) = self.playing.and_then(|at| self.matches.get_mut(at)).filter(|one| one.game.won.is_none())
        else {
            return;
        };
        match event {
            Event::Doubled { who } => one.hear_double(index(*who)),
            Event::GameOver { winner, points, .. } => {
                one.end_game(index(*winner), i32::try_from(*points).unwrap_or(i32::MAX));
                self.told.clear();
            }
            Event::OfferedToResign { .. } => self.is_resigning = true,
            _ => {}
        }
    }

    /// Takes note of a board of the own game.
    fn see(&mut self, board: &Seen) -> Result<(), AllocError> {
        let mut at = self.match_of(board);
        let game = &self.matches[at].game;
        if game.won.is_none() && board.scores != game.scores {
            at = self.see_result(at, board)?;
        }
        let one = &mut self.matches[at];
        if one.game.won.is_some() && !board.is_over() {
            one.begin_game(board.scores);
            self.is_resigning = false;
        }
        if self.matches[at].game.won.is_none() && !board.is_over() && !self.is_resigning {
            self.follow(at, board)?;
        }
        Ok(())
    }

    /// The scores have changed: the game is over, by the last checkers that the board shows off, or otherwise.
    fn see_result(&mut self, at: usize, board: &Seen) -> Result<usize, AllocError> {
        let scores = self.matches[at].game.scores;
        let won = [OWN, OTHER].map(|side| board.scores[side] - scores[side]);
        let is_off = board.is_over() && board.sides.iter().any(|side| side[0] == 15);
        let at = if is_off { self.follow(at, board)? } else { at };
        self.matches[at].end_game(if won[OWN] > 0 { OWN } else { OTHER }, won[OWN].max(won[OTHER]));
        self.told.clear();
        Ok(at)
    }

    /// Which match a board is of: the one that is played, or the latest one that can go on with it, or a new one.
    fn match_of(&mut self, board: &Seen) -> usize {
        let goes_on = |one: &Match| one.goes_on(&self.name, board);
        let playing = self.playing.filter(|at| self.matches.get(*at).is_some_and(goes_on));
        playing.unwrap_or_else(|| {
            self.is_resigning = false;
            let latest = self.matches.iter().rposition(|one| one.goes_on(&self.name, board));
            let at = latest.unwrap_or_else(|| self.begin_match(board));
            self.playing = Some(at);
            at
        })
    }

    fn begin_match(&mut self, board: &Seen) -> usize {
        let game = Game { scores: board.scores, ..Game::default() };
        let names = [self.name.clone(), board.opponent.clone()];
        self.matches.push(Match { names, length: board.length, earlier: vec![], game, state: Some(State::BEGUN) });
        self.playing = Some(self.matches.len() - 1);
        self.matches.len() - 1
    }

    /// Adds to the game what was done since the last board. Gives the match that it is of.
    fn follow(&mut self, mut at: usize, board: &Seen) -> Result<usize, AllocError> {
        let told = std::mem::take(&mut self.told);
        let Some(state) = self.matches[at].state else { return Ok(at) };
        let mut found = ways::shortest(&state, &told, board)?;
        let is_told = !self.matches[at].game.actions.is_empty();
        if found.is_none() && is_told && ways::way(&State::BEGUN, &[], board, 0)?.is_some() {
            // another match has begun between the same players
            at = self.begin_match(board);
            found = ways::shortest(&State::BEGUN, &told, board)?;
        }
        let one = &mut self.matches[at];
        one.state = found.map(|Found { actions, state }| {
            one.game.actions.extend(actions);
            state
        });
        Ok(at)
    }
}

impl Game {
    fn scores_after(&self) -> [i32; 2] {
        let mut scores = self.scores;
        if let Some((winner, points)) = self.won {
            scores[winner] = scores[winner].saturating_add(points);
        }
        scores
    }

    /// Whether nothing is told of it: it is over, and what was done is not known.
    fn is_left_out(&self) -> bool {
        self.won.is_some() && self.actions.is_empty()
    }
}

impl Match {
    /// The games that are told.
    fn games(&self) -> impl DoubleEndedIterator<Item = &Game> {
        self.earlier.iter().chain([&self.game]).filter(|game| !game.is_left_out())
    }

    fn begin_game(&mut self, scores: [i32; 2]) {
        let game = std::mem::replace(&mut self.game, Game { scores, ..Game::default() });
        self.earlier.push(game);
        self.state = Some(State::BEGUN);
    }

    /// Whether the board can be one of this match: a point that was won stays, and a match that is won is over.
    fn goes_on(&self, name: &str, board: &Seen) -> bool {
        let is_won = self.games().next_back().is_some_and(|game| self.is_won_by(game));
        self.names[OWN] == name
            && self.names[OTHER] == board.opponent
            && self.length == board.length
            && (!is_won || board.is_over())
            && [OWN, OTHER].iter().all(|side| board.scores[*side] >= self.game.scores[*side])
    }

    /// Whether the match is won after a game.
    fn is_won_by(&self, game: &Game) -> bool {
        self.length < field::UNLIMITED && game.scores_after().iter().any(|score| *score >= self.length)
    }

    /// A side doubles; a player who comes back is told so once more.
    fn hear_double(&mut self, side: usize) {
        if let Some(state) = &mut self.state
            && (state.turn, state.dice, state.doubler) == (Some(side), None, None)
        {
            state.doubler = Some(side);
            self.game.actions.push(Action::Double(side));
        }
    }

    /// The game is over. A double that was not answered otherwise was given up.
    fn end_game(&mut self, winner: usize, points: i32) {
        self.game.won = Some((winner, points));
        self.game.is_dropped = self.state.is_some_and(|state| state.doubler == Some(winner) && points == state.cube);
    }
}

/// Whether an offer to resign is over: it was declined, or the game goes on without an answer.
fn goes_on(event: &Event<'_>) -> bool {
    matches!(
        event,
        Event::Declined { .. }
            | Event::Rolled { .. }
            | Event::Played { .. }
            | Event::CannotMove { .. }
            | Event::Doubled { .. }
    )
}

fn index(side: Side) -> usize {
    match side {
        Side::Own => OWN,
        Side::Other => OTHER,
    }
}
