//! A board in words. Written by hand.

use crate::fibs_picture::in_words::{Told, append_told};
use crate::fibs_position::{GameBoard, Numbers, WatchedBoard};
use crate::{Board, BoardFault};

impl Board {
    /// The board in words, a fact a row, as the program tells it at a terminal: in the player's own numbers. Of a game
    /// that is watched the first row has the names of both.
    ///
    /// ```
    /// # let line = "board:You:bob:1:0:0:0:-2:0:0:0:0:5:0:3:0:0:0:-5:5:0:0:0:-3:0:-5:0:0:0:0:2:0:1:\
    /// #     6:2:0:0:1:1:1:0:1:-1:0:25:0:0:0:0:2:0:0:0";
    /// let board: fibs::Board = line.parse()?;
    /// assert_eq!(board.words()?[..3], ["Your turn, to move.", "Your dice 6 and 2.", "Score 0 to 0, match to 1."]);
    /// # Ok::<(), Box<dyn std::error::Error>>(())
    /// ```
    ///
    /// # Errors
    /// Why the board has no position, or that memory runs out.
    pub fn words(&self) -> Result<Vec<String>, BoardFault> {
        let told = match WatchedBoard::of(self) {
            Some(watched) => Told::Watched(watched, Numbers::TheOwn),
            None => Told::Game(GameBoard::of(self)?, Numbers::TheOwn),
        };
        let mut text = Vec::new();
        // no row is broken
        append_told(&None, &told, usize::MAX, &mut text)?;
        Ok(String::from_utf8_lossy(&text).lines().map(String::from).collect())
    }
}
