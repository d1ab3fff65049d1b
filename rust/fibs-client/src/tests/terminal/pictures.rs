//! Boards of both colours and directions, and their pictures, which were drawn by hand; and what the last line of a
//! picture says can be done.

use crate::fibs_fields::boards::Board;
use crate::fibs_picture::{Look, NO_ARRIVALS, append_game};
use crate::fibs_position::{GameBoard, Numbers};

/// How a terminal of 80 columns draws that shows nothing in bold.
pub const PLAIN: Look = Look {
    own: b'O',
    other: b'X',
    numbers: Numbers::TheServers,
    is_turned: false,
    is_marked: false,
    is_long: true,
    columns: 80,
};

/// The game of a board line.
fn game_of(line: &[u8]) -> GameBoard {
    let board = Board::read(line).expect("it is a board");
    GameBoard::of(&board).expect("the user plays in its game")
}

/// What is drawn of a board line, with what can be done.
fn drawn(line: &[u8], look: &Look) -> String {
    let mut text = Vec::new();
    append_game(look, &game_of(line), &NO_ARRIVALS, true, &mut text).expect("there is memory");
    String::from_utf8(text).expect("it is ASCII")
}

/// A board, and the lines of its picture.
struct Picture {
    name: &'static str,
    board: &'static [u8],
    lines: [&'static [u8]; 14],
}

static PICTURES: [Picture; 5] = [
    Picture {
        name: "O goes down, before his move",
        board: b"board:You:someplayer:3:0:1:0:-2:0:0:0:0:5:0:3:0:0:0:-5:5:0:0:0:-3:0:-5:0:0:0:0:2:0:1:6:2:0:0:1:1:1:0:1:-1:0:25:0:0:0:0:2:0:0:0",
        lines: [
            b" +13-14-15-16-17-18-+---+19-20-21-22-23-24-+   X someplayer",
            b" | O           X    |   | X              O |     score 1",
            b" | O           X    |   | X              O |     off   0",
            b" | O           X    |   | X                |     pips  167",
            b" | O                |   | X                |     dice  -",
            b" | O                |   | X                |   match to 3",
            b" |                  |BAR|                  |   cube 1, in the middle",
            b" | X                |   | O                |   your turn",
            b" | X                |   | O                |     dice  6 2",
            b" | X           O    |   | O                |     pips  167 (even race)",
            b" | X           O    |   | O              X |     off   0",
            b" | X           O    |   | O              X |     score 0",
            b" +12-11-10--9--8--7-+---+-6--5--4--3--2--1-+   O You",
            b" You move, or resign.",
        ],
    },
    Picture {
        name: "X goes up, and is offered a double; more than five on a place, and one on the opponent's bar",
        board: b"board:You:eve:9999:2:7:0:-2:0:0:0:0:6:0:3:0:0:0:-4:4:0:0:0:-3:0:-6:0:0:0:0:1:0:-1:0:0:0:0:4:0:1:1:-1:1:25:0:0:0:0:1:0:0:0:0",
        lines: [
            b" +12-11-10--9--8--7-+---+-6--5--4--3--2--1-+   X eve",
            b" | O           X    |   | X              O |     score 7",
            b" | O           X    |   | X              O |     off   0",
            b" | O           X    |   | X                |     pips  161",
            b" | O                |   | X                |     dice  -",
            b" |                  |   | 6                |   unlimited match",
            b" |                  |BAR|                  |   cube 4, the opponent's",
            b" |                  |   | 6                |   your turn",
            b" | X                |   | O                |     dice  -",
            b" | X           O    |   | O                |     pips  160 (1 ahead)",
            b" | X           O    |   | O                |     off   0",
            b" | X           O    | X | O              X |     score 2",
            b" +13-14-15-16-17-18-+---+19-20-21-22-23-24-+   O You",
            b" You are offered a double: accept, or reject.",
        ],
    },
    Picture {
        name: "X goes down, and can't enter; twelve on a place",
        board: b"board:You:someplayer:5:1:2:0:0:0:-5:0:0:-7:0:0:0:0:0:12:0:0:0:0:0:0:2:1:0:0:0:0:0:-1:6:6:0:0:2:1:0:0:-1:-1:0:25:2:0:1:0:0:0:0:0",
        lines: [
            b" +13-14-15-16-17-18-+---+19-20-21-22-23-24-+   X someplayer",
            b" |                  | O | X  X             |     score 2",
            b" |                  |   | X                |     off   0",
            b" |                  |   |                  |     pips  173",
            b" |                  |   |                  |     dice  -",
            b" |                  |   |                  |   match to 5",
            b" |                  |BAR|                  |   cube 2, yours",
            b" |12                |   | 7        O       |   your turn",
            b" | X                |   | O        O       |     dice  6 6",
            b" | X                |   | O        O       |     pips  82 (91 ahead)",
            b" | X                |   | O        O       |     off   2",
            b" | X                |   | O        O       |     score 1",
            b" +12-11-10--9--8--7-+---+-6--5--4--3--2--1-+   O You",
            b" You can't move.",
        ],
    },
    Picture {
        name: "O goes up, and has won; the longest name and numbers, and fifteen on the opponent's bar",
        board: b"board:You:abcdefghijabcdefghijabcdefghijKLMNOPQRSTKLMNOPQRSTKLMNOPQRST:9998:99999999:99999999:0:0:0:0:0:0:0:0:0:0:0:0:0:0:0:0:0:0:0:0:0:0:0:0:0:0:0:0:0:0:0:1048576:0:1:0:1:1:25:0:15:0:0:15:0:0:0:0",
        lines: [
            b" +12-11-10--9--8--7-+---+-6--5--4--3--2--1-+   X abcdefghijabcdefghijabcdefghij",
            b" |                  |   |                  |     score 99999999",
            b" |                  |   |                  |     off   0",
            b" |                  |   |                  |     pips  375",
            b" |                  |   |                  |     dice  -",
            b" |                  |   |                  |   match to 9998",
            b" |                  |BAR|                  |   cube 1048576, the opponent's",
            b" |                  |15 |                  |   nobody's turn",
            b" |                  | X |                  |     dice  -",
            b" |                  | X |                  |     pips  0 (375 ahead)",
            b" |                  | X |                  |     off   15",
            b" |                  | X |                  |     score 99999999",
            b" +13-14-15-16-17-18-+---+19-20-21-22-23-24-+   O You",
            b" The game is over.",
        ],
    },
    Picture {
        name: "fifteen of each side on one place, and the largest cube in the middle",
        board: b"board:You:nnnnnnnnnnnnnnnnnnnnnnnnnnnnnnnnnnnnnnnnnnnnnnnnnnnnnnnnnnnn:9998:0:0:0:-15:0:0:0:0:0:0:0:0:0:0:0:0:0:0:0:0:0:0:0:0:0:0:15:0:1:0:0:0:0:1048576:1:1:0:1:-1:0:25:0:0:0:0:0:0:0:0",
        lines: [
            b" +13-14-15-16-17-18-+---+19-20-21-22-23-24-+   X nnnnnnnnnnnnnnnnnnnnnnnnnnnnnn",
            b" |                  |   |                O |     score 0",
            b" |                  |   |                O |     off   0",
            b" |                  |   |                O |     pips  360",
            b" |                  |   |                O |     dice  -",
            b" |                  |   |               15 |   match to 9998",
            b" |                  |BAR|                  |   cube 1048576, in the middle",
            b" |                  |   |               15 |   your turn",
            b" |                  |   |                X |     dice  -",
            b" |                  |   |                X |     pips  360 (even race)",
            b" |                  |   |                X |     off   0",
            b" |                  |   |                X |     score 0",
            b" +12-11-10--9--8--7-+---+-6--5--4--3--2--1-+   O You",
            b" You roll, or resign.",
        ],
    },
];

#[test]
fn boards_are_drawn() {
    for picture in &PICTURES {
        let lines = drawn(picture.board, &PLAIN);
        let wanted: Vec<&[u8]> = picture.lines.to_vec();
        let found: Vec<&[u8]> = lines.lines().map(str::as_bytes).collect();
        assert_eq!(found, wanted, "{}", picture.name);
    }
}

/// What was in the text before the picture stays there.
#[test]
fn a_picture_is_appended() {
    let mut text = b"before".to_vec();
    let game = game_of(PICTURES[0].board);
    append_game(&PLAIN, &game, &NO_ARRIVALS, true, &mut text).expect("there is memory");
    assert_eq!(text, format!("before{}", drawn(PICTURES[0].board, &PLAIN)).into_bytes());
}

/// How many letters are drawn of so many checkers: for more than five there is a number in place of the fifth.
fn letters(count: u8) -> usize {
    if count > 5 { 4 } else { usize::from(count) }
}

/// The column of the checkers of a place, and the first of its five rows. Those of the player's home are below, at the
/// right.
fn where_is(place: u8) -> (usize, usize) {
    let (from_left, row) = if place > 12 { (place - 13, 1) } else { (12 - place, 7) };
    let column = 3 + 3 * usize::from(from_left);
    (if from_left < 6 { column } else { column + 5 }, row)
}

/// How many letters of checkers are where a place is.
fn letters_at(place: u8, lines: &[&[u8]]) -> usize {
    let (column, first) = where_is(place);
    lines[first..first + 5].iter().filter(|line| matches!(line[column], b'O' | b'X')).count()
}

#[test]
fn a_place_is_where_its_checkers_are_drawn() {
    for picture in &PICTURES {
        let game = game_of(picture.board);
        for place in 1..25u8 {
            let count = game.position().own(place).max(game.position().other(place));
            let found = letters_at(place, &picture.lines);
            assert_eq!(found, letters(count), "{}: place {place}", picture.name);
        }
    }
}

/// A board, and the last line of its picture.
struct Deed {
    name: &'static str,
    board: &'static [u8],
    said: &'static [u8],
}

static DEEDS: [Deed; 8] = [
    Deed {
        name: "before the roll",
        board: b"board:You:bob:3:0:1:0:-2:0:0:0:0:5:0:3:0:0:0:-5:5:0:0:0:-3:0:-5:0:0:0:0:2:0:1:0:0:0:0:1:1:1:0:1:-1:0:25:0:0:0:0:2:0:0:0",
        said: b"\n You roll, or double, or resign.\n",
    },
    Deed {
        name: "before the roll, and the cube is the opponent's",
        board: b"board:You:bob:3:0:1:0:-2:0:0:0:0:5:0:3:0:0:0:-5:5:0:0:0:-3:0:-5:0:0:0:0:2:0:1:0:0:0:0:2:0:1:0:1:-1:0:25:0:0:0:0:2:0:0:0",
        said: b"\n You roll, or resign.\n",
    },
    Deed {
        name: "before the roll, and the cube can't be doubled",
        board: b"board:You:bob:3:0:1:0:-2:0:0:0:0:5:0:3:0:0:0:-5:5:0:0:0:-3:0:-5:0:0:0:0:2:0:1:0:0:0:0:1048576:1:0:0:1:-1:0:25:0:0:0:0:2:0:0:0",
        said: b"\n You roll, or resign.\n",
    },
    Deed {
        name: "before the move",
        board: b"board:You:bob:3:0:1:0:-2:0:0:0:0:5:0:3:0:0:0:-5:5:0:0:0:-3:0:-5:0:0:0:0:2:0:1:3:1:0:0:1:1:1:0:1:-1:0:25:0:0:0:0:2:0:0:0",
        said: b"\n You move, or resign.\n",
    },
    Deed {
        name: "a double is offered",
        board: b"board:You:bob:3:0:1:0:-2:0:0:0:0:5:0:3:0:0:0:-5:5:0:0:0:-3:0:-5:0:0:0:0:2:0:1:0:0:0:0:2:0:1:1:1:-1:0:25:0:0:0:0:2:0:0:0",
        said: b"\n You are offered a double: accept, or reject.\n",
    },
    Deed {
        name: "a double is offered that can't be taken",
        board: b"board:You:bob:3:0:1:0:-2:0:0:0:0:5:0:3:0:0:0:-5:5:0:0:0:-3:0:-5:0:0:0:0:2:0:1:0:0:0:0:1048576:0:1:1:1:-1:0:25:0:0:0:0:2:0:0:0",
        said: b"\n You are offered a double: reject.\n",
    },
    Deed {
        name: "the opponent's turn",
        board: b"board:You:bob:3:0:1:0:-2:0:0:0:0:5:0:3:0:0:0:-5:5:0:0:0:-3:0:-5:0:0:0:0:2:0:-1:0:0:5:2:1:1:1:0:1:-1:0:25:0:0:0:0:2:0:0:0",
        said: b"\n The opponent plays.\n",
    },
    Deed {
        name: "a game that is over",
        board: b"board:You:bob:3:0:1:0:-2:0:0:0:0:5:0:3:0:0:0:-5:5:0:0:0:-3:0:-5:0:0:0:0:2:0:0:0:0:0:0:1:1:1:0:1:-1:0:25:0:0:0:0:2:0:0:0",
        said: b"\n The game is over.\n",
    },
];

#[test]
fn what_can_be_done_is_said() {
    for deed in &DEEDS {
        assert!(drawn(deed.board, &PLAIN).as_bytes().ends_with(deed.said), "{}", deed.name);
    }
}

/// A look, and the picture of the first board above. Below the least columns of the words beside the board they stand
/// below it; the outer walls are left out where the whole board is too wide.
struct Looks {
    look: Look,
    picture: &'static str,
}

static LOOKS: [Looks; 4] = [
    Looks {
        look: Look { columns: 40, is_long: false, ..PLAIN },
        picture: "13-14-15-16-17-18-+---19-20-21-22-23-24-
 O           X    |    X              O 
 O           X    |    X              O 
 O           X    |    X                
 O                |    X                
 O                |    X                
                  |BAR                  
 X                |    O                
 X                |    O                
 X           O    |    O                
 X           O    |    O              X 
 X           O    |    O              X 
12-11-10--9--8--7-+----6--5--4--3--2--1-
X someplayer, score 1, off 0, pips 167,
dice -
match to 3, cube 1, centred, your turn
O You, score 0, off 0,
pips 167 (even race), dice 6 2
",
    },
    Looks {
        look: Look { columns: 71, is_long: false, is_turned: true, own: b'@', other: b'o', ..PLAIN },
        picture: " +12-11-10--9--8--7-+---+-6--5--4--3--2--1-+
 | o           @    |   | @              o |
 | o           @    |   | @              o |
 | o           @    |   | @                |
 | o                |   | @                |
 | o                |   | @                |
 |                  |BAR|                  |
 | @                |   | o                |
 | @                |   | o                |
 | @           o    |   | o                |
 | @           o    |   | o              @ |
 | @           o    |   | o              @ |
 +13-14-15-16-17-18-+---+19-20-21-22-23-24-+
@ You, score 0, off 0, pips 167 (even race), dice 6 2
match to 3, cube 1, centred, your turn
o someplayer, score 1, off 0, pips 167, dice -
",
    },
    Looks {
        look: Look { columns: 72, is_long: false, is_marked: true, ..PLAIN },
        picture: " +13-14-15-16-17-18-+---+19-20-21-22-23-24-+   X someplayer
 | [1mO[0m           X    |   | X              [1mO[0m |     score 1
 | [1mO[0m           X    |   | X              [1mO[0m |     off   0
 | [1mO[0m           X    |   | X                |     pips  167
 | [1mO[0m                |   | X                |     dice  -
 | [1mO[0m                |   | X                |   match to 3
 |                  |BAR|                  |   cube 1, centred
 | X                |   | [1mO[0m                |   your turn
 | X                |   | [1mO[0m                |     dice  [1m6[0m [1m2[0m
 | X           [1mO[0m    |   | [1mO[0m                |     pips  167 (even race)
 | X           [1mO[0m    |   | [1mO[0m              X |     off   0
 | X           [1mO[0m    |   | [1mO[0m              X |     score 0
 +12-11-10--9--8--7-+---+-6--5--4--3--2--1-+   O You
",
    },
    Looks {
        look: Look { numbers: Numbers::TheOwn, ..PLAIN },
        picture: " +13-14-15-16-17-18-+---+19-20-21-22-23-24-+   X someplayer
 | O           X    |   | X              O |     score 1
 | O           X    |   | X              O |     off   0
 | O           X    |   | X                |     pips  167
 | O                |   | X                |     dice  -
 | O                |   | X                |   match to 3
 |                  |BAR|                  |   cube 1, in the middle
 | X                |   | O                |   your turn
 | X                |   | O                |     dice  6 2
 | X           O    |   | O                |     pips  167 (even race)
 | X           O    |   | O              X |     off   0
 | X           O    |   | O              X |     score 0
 +12-11-10--9--8--7-+---+-6--5--4--3--2--1-+   O You
 You move, or resign.
",
    },
];

#[test]
fn a_board_is_drawn_for_each_terminal() {
    for case in &LOOKS {
        assert_eq!(drawn(PICTURES[0].board, &case.look), case.picture, "{:?}", case.look);
    }
}

/// A player who goes up by the server's numbers has his own from 24 down to 1 at the edges; nothing else differs.
#[test]
fn ones_own_numbers_go_down() {
    let own = drawn(PICTURES[1].board, &Look { numbers: Numbers::TheOwn, ..PLAIN });
    let servers = drawn(PICTURES[1].board, &PLAIN);
    let rows: Vec<&str> = own.lines().collect();
    assert_eq!(&rows[0][..44], " +13-14-15-16-17-18-+---+19-20-21-22-23-24-+");
    assert_eq!(&rows[12][..44], " +12-11-10--9--8--7-+---+-6--5--4--3--2--1-+");
    let others: Vec<&str> = servers.lines().collect();
    assert_eq!(rows[1..12], others[1..12]);
}

/// What tells two boards apart, the columns, and for each board the opponent, the score, the turn and the cube.
type Pair = (&'static str, usize, [[&'static str; 4]; 2]);

/// Pairs of boards whose pictures were once the same: words were cut, or a name was taken for a word.
static PAIRS: [Pair; 4] = [
    (
        "nobody has the turn, or one who is called so",
        80,
        [["nobody", "1", "0", "1:0:0"], ["nobody", "1", "-1", "1:0:0"]],
    ),
    ("a score of eight digits", 60, [["bob", "12345678", "1", "1:1:1"], ["bob", "12345679", "1", "1:1:1"]]),
    ("a cube that nobody may turn, or `dead` may", 60, [["dead", "1", "1", "128:0:0"], ["dead", "1", "1", "128:0:1"]]),
    ("a cube that both may turn, or `fred` may", 60, [["fred", "1", "1", "1024:1:1"], ["fred", "1", "1", "1024:0:1"]]),
];

#[test]
fn boards_that_differ_are_drawn_otherwise() {
    for (what, columns, boards) in &PAIRS {
        let look = Look { columns: *columns, is_long: false, ..PLAIN };
        let [one, other] = boards.map(|[opponent, score, turn, cube]| {
            let line = format!(
                "board:You:{opponent}:3:{score}:1:0:-2:0:0:0:0:5:0:3:0:0:0:-5:5:0:0:0:-3:0:-5:0:0:0:0:2:0:\
                 {turn}:0:0:0:0:{cube}:0:1:-1:0:25:0:0:0:0:0:0:0:0"
            );
            drawn(line.as_bytes(), &look)
        });
        assert_ne!(one, other, "{what}");
    }
}
