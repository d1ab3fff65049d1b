//! Lines that the server sends.

use super::seats::Cue;

/// The first messages of a connection.
pub const WELCOME: &[u8] = b"1 ann 1041253132 localhost\r\n";

pub const SETTINGS: &[u8] = b"2 ann 1 1 0 0 0 0 1 1 0 0 1 0 1 1500.00 0 0 none 0 0 UTC\r\n";

/// A board before its roll, on which a double may be offered.
pub const TO_ROLL: &[u8] =
    b"board:You:bob:3:0:1:0:-2:0:0:0:0:5:0:3:0:0:0:-5:5:0:0:0:-3:0:-5:0:0:0:0:2:0:1:0:0:0:0:1:1:1:0:1:-1:0:25:0:0:0:0:2:0:0:0\r\n";

/// The picture of this board, without the line that says what can be done.
macro_rules! to_roll_picture {
    () => {
        " +13-14-15-16-17-18-+---+19-20-21-22-23-24-+   X bob
 | O           X    |   | X              O |     score 1
 | O           X    |   | X              O |     off   0
 | O           X    |   | X                |     pips  167
 | O                |   | X                |     dice  -
 | O                |   | X                |   match to 3
 |                  |BAR|                  |   cube 1, in the middle
 | X                |   | O                |   your turn
 | X                |   | O                |     dice  -
 | X           O    |   | O                |     pips  167 (even race)
 | X           O    |   | O              X |     off   0
 | X           O    |   | O              X |     score 0
 +12-11-10--9--8--7-+---+-6--5--4--3--2--1-+   O You
"
    };
}
pub(crate) use to_roll_picture;

/// The same board with dice.
pub const TO_MOVE: &[u8] =
    b"board:You:bob:3:0:1:0:-2:0:0:0:0:5:0:3:0:0:0:-5:5:0:0:0:-3:0:-5:0:0:0:0:2:0:1:6:2:0:0:1:1:1:0:1:-1:0:25:0:0:0:0:2:0:0:0\r\n";

/// The same board, with dice by which 42 moves are legal.
pub const ONE_AND_ONE: &[u8] =
    b"board:You:bob:3:0:1:0:-2:0:0:0:0:5:0:3:0:0:0:-5:5:0:0:0:-3:0:-5:0:0:0:0:2:0:1:1:1:0:0:1:1:1:0:1:-1:0:25:0:0:0:0:4:0:0:0\r\n";

/// The board after the move, on which the opponent has the turn.
pub const MOVED: &[u8] =
    b"board:You:bob:3:0:1:0:-2:0:0:0:0:5:0:3:0:0:0:-5:5:0:0:0:-3:1:-5:0:0:0:0:1:0:-1:0:0:0:0:1:1:1:0:1:-1:0:25:0:0:0:0:0:0:0:0\r\n";

/// A board after the opponent has moved from his 8 and his 6 to his 5, which is the player's 20.
pub const POINT_MADE: &[u8] =
    b"board:You:bob:3:0:1:0:-2:0:0:0:0:5:0:3:0:0:0:-5:5:0:0:0:-2:0:-4:-2:0:0:0:2:0:1:0:0:0:0:1:1:1:0:1:-1:0:25:0:0:0:0:2:0:0:0\r\n";

/// A board after the move, on which the opponent offers a double.
pub const DOUBLED: &[u8] =
    b"board:You:bob:3:0:1:0:-2:0:0:0:0:5:0:3:0:0:0:-5:5:0:0:0:-3:1:-5:0:0:0:0:1:0:1:0:0:0:0:2:0:1:1:1:-1:0:25:0:0:0:0:2:0:0:0\r\n";

/// A game that is over, in a match that goes on.
pub const OVER: &[u8] =
    b"board:You:bob:3:0:2:0:-2:0:0:0:0:5:0:3:0:0:0:-5:5:0:0:0:-3:0:-5:0:0:0:0:2:0:0:0:0:0:0:1:1:1:0:1:-1:0:25:0:0:0:0:2:0:0:0\r\n";

/// The dice are 6 and 5, and the player, who goes up, has one checker left, on the server's 4: that is his 21.
pub const UP: &[u8] =
    b"board:You:bob:5:0:0:0:0:0:0:-1:0:0:0:0:0:0:0:0:0:0:0:0:0:0:0:2:0:0:0:0:0:-1:6:5:0:0:1:1:1:0:-1:1:25:0:14:13:0:0:1:0:0:0\r\n";

/// What the server says if the opponent wants to resign.
pub const RESIGNS: &[u8] = b"bob wants to resign. You will win 1 point.\r\n";

/// Steps up to the first board, at which the user may type.
pub static FIRST_BOARD: [Cue<'static>; 4] =
    [Cue::Hears(WELCOME), Cue::Hears(SETTINGS), Cue::Hears(TO_ROLL), Cue::Rests];
