//! Which board is reported of a line: that of the line, and of no other.

use super::connected::opened;
use crate::fibs_connect::fault::FrontFault;
use crate::fibs_connect::front::Front;
use crate::fibs_connect::said::Said;
use crate::fibs_connect::turns::talk;
use crate::fibs_position::GameBoard;
use crate::fibs_session::Directory;
use crate::fibs_test_tools::pipe::{Pipe, QUIET};
use crate::tests::boards::{MUST_ROLL, OF_OTHERS, ROLLED, TO_MOVE, TO_ROLL};

/// Lines of the server, and whether each says a board of the user's game. The first two boards are of one phase, and so
/// are the last two.
const LINES: [(&[u8], bool); 7] = [
    (b"hello", false),
    (TO_ROLL, true),
    (b"12 bob hi", false),
    (MUST_ROLL, true),
    (OF_OTHERS, false),
    (ROLLED, true),
    (TO_MOVE, true),
];

/// What is reported of lines and of boards.
#[derive(Debug, PartialEq, Eq)]
enum Report {
    /// A line, and the board with it.
    Heard(String, Option<String>),
    /// A board.
    Game(String),
}

/// A front end that keeps what is reported.
struct Reports(Vec<Report>);

impl Front for Reports {
    fn tell(&mut self, said: &Said<'_>) -> Result<(), FrontFault> {
        match said {
            Said::Heard(line, _, game) => self.0.push(Report::Heard(text_of(line.bytes), game.map(printed))),
            Said::Game(game) => self.0.push(Report::Game(printed(game))),
            _ => {}
        }
        Ok(())
    }

    fn flush(&mut self) -> Result<(), FrontFault> {
        Ok(())
    }
}

fn text_of(bytes: &[u8]) -> String {
    String::from_utf8_lossy(bytes).into_owned()
}

fn printed(game: &GameBoard) -> String {
    text_of(&game.board().print())
}

#[test]
fn a_line_is_reported_with_its_own_board() {
    let mut heard = Vec::new();
    let mut wanted = Vec::new();
    for (line, is_game) in LINES {
        heard.extend_from_slice(&[line, b"\r\n"].concat());
        wanted.push(Report::Heard(text_of(line), is_game.then(|| text_of(line))));
        if is_game {
            wanted.push(Report::Game(text_of(line)));
        }
    }
    for most in [1, 7, 1000] {
        let (mut client, mut directory) = (opened(), Directory::new());
        let mut pipe = Pipe::new(&heard, most, QUIET, 100);
        let mut reports = Reports(Vec::new());
        let ending = talk(&mut client, &mut directory, &mut pipe, None, &mut reports);
        assert!(ending.is_ok());
        assert_eq!(reports.0, wanted);
    }
}
