//! The newest board stands in the upper rows, as a terminal shows what it is sent, which is written here from what
//! ECMA-48 and the manual of the VT100 say.

use super::lines::{FIRST_BOARD, MOVED, SETTINGS, TO_MOVE, TO_ROLL, WELCOME, to_roll_picture};
use super::seats::{Cue, assert_wanted, plain_settings, shown};
use crate::fibs_wording::environment::Settings;

/// A screen: its rows, where the cursor is and where it was kept, and which rows scroll.
struct Shown {
    rows: Vec<Vec<char>>,
    columns: usize,
    at: (usize, usize),
    kept: (usize, usize),
    scrolls: (usize, usize),
    /// The rows that have left it above, or left those that scroll.
    gone: Vec<String>,
}

impl Shown {
    /// One on which so many rows were written, and the cursor is below them.
    fn new(rows: usize, columns: usize, written: usize) -> Shown {
        let mut shown = Shown {
            rows: vec![vec![' '; columns]; rows],
            columns,
            at: (0, 0),
            kept: (0, 0),
            scrolls: (0, rows - 1),
            gone: Vec::new(),
        };
        for number in 0..written {
            shown.take(&format!("before {number}\n"));
        }
        shown
    }

    /// The row with this number, the first one is 1.
    fn row(&self, number: usize) -> String {
        self.rows[number - 1].iter().collect::<String>().trim_end().to_string()
    }

    /// All rows that have something, also those that have left.
    fn said(&self) -> Vec<String> {
        let here = (1..=self.rows.len()).map(|number| self.row(number));
        self.gone.iter().cloned().chain(here).filter(|row| !row.is_empty()).collect()
    }

    /// A line end: all that scrolls goes up at the last row of it.
    fn end_line(&mut self) {
        self.at.1 = 0;
        if self.at.0 == self.scrolls.1 {
            let row = self.rows.remove(self.scrolls.0);
            self.gone.push(row.iter().collect::<String>().trim_end().to_string());
            self.rows.insert(self.scrolls.1, vec![' '; self.columns]);
        } else if self.at.0 + 1 < self.rows.len() {
            self.at.0 += 1;
        }
    }

    fn put(&mut self, letter: char) {
        if self.at.1 == self.columns {
            self.end_line();
        }
        let (row, column) = self.at;
        self.rows[row][column] = letter;
        self.at.1 += 1;
    }

    /// A control sequence: its number, 0 if it has none, and its last byte.
    fn control(&mut self, number: usize, last: char) {
        let count = number.max(1);
        let (top, bottom) = self.scrolls;
        match (last, number) {
            ('A', _) => {
                let least = if self.at.0 >= top { top } else { 0 };
                self.at.0 = self.at.0.saturating_sub(count).max(least);
            }
            ('B', _) => {
                let most = if self.at.0 <= bottom { bottom } else { self.rows.len() - 1 };
                self.at.0 = (self.at.0 + count).min(most);
            }
            ('H', _) => self.at = (count.min(self.rows.len()) - 1, 0),
            ('J', 1) => {
                for row in 0..self.at.0 {
                    self.rows[row].fill(' ');
                }
                self.rows[self.at.0][..=self.at.1].fill(' ');
            }
            ('J', 2) => self.rows.iter_mut().for_each(|row| row.fill(' ')),
            ('K', 2) => self.rows[self.at.0].fill(' '),
            ('L', _) => {
                for _ in 0..count {
                    self.rows.remove(bottom);
                    self.rows.insert(self.at.0, vec![' '; self.columns]);
                }
            }
            ('r', _) => {
                self.scrolls = (count - 1, self.rows.len() - 1);
                self.at = (0, 0);
            }
            ('m', _) => {}
            _ => panic!("no terminal knows {number}{last}"),
        }
    }

    /// Takes what it is sent.
    fn take(&mut self, text: &str) {
        let mut letters = text.chars();
        while let Some(letter) = letters.next() {
            match letter {
                '\n' => self.end_line(),
                '\x1b' => match letters.next() {
                    Some('7') => self.kept = self.at,
                    Some('8') => self.at = self.kept,
                    Some('[') => {
                        let mut digits = String::new();
                        let last = loop {
                            match letters.next() {
                                Some(digit) if digit.is_ascii_digit() => digits.push(digit),
                                Some(last) => break last,
                                None => panic!("a control sequence does not end"),
                            }
                        };
                        self.control(digits.parse().unwrap_or(0), last);
                    }
                    other => panic!("no terminal knows {other:?}"),
                },
                _ => self.put(letter),
            }
        }
    }

    /// Asserts that the upper rows are these, with a free one below, and that the cursor is below them.
    fn assert_above(&self, picture: &str) {
        let wanted: Vec<&str> = picture.lines().collect();
        let found: Vec<String> = (1..=wanted.len() + 1).map(|number| self.row(number)).collect();
        assert_eq!(found[..wanted.len()], wanted, "{:#?}", self.said());
        assert_eq!(found[wanted.len()], "", "a free row");
        assert!(self.at.0 > wanted.len(), "the cursor is in row {}", self.at.0 + 1);
    }
}

/// A terminal of 80 columns, and so many rows, of which the lower ones can scroll.
fn high(rows: usize) -> Settings<'static> {
    Settings { rows, scrolls_below: true, ..plain_settings() }
}

/// What such a terminal is sent for these steps after those up to the first board.
fn sent(settings: Settings<'_>, steps: &[Cue<'_>]) -> String {
    shown(settings, &[&[Cue::Opens], &FIRST_BOARD[..]].concat(), steps)
}

/// The picture of the first board, with what is changed in it.
fn picture(changes: &[(&str, &str)]) -> String {
    let mut text = to_roll_picture!().to_string();
    for (old, new) in changes {
        assert_eq!(text.matches(old).count(), 1, "{old}");
        text = text.replace(old, new);
    }
    text
}

/// The picture with the dice 6 and 2.
fn rolled() -> String {
    picture(&[(
        "| X                |   | O                |     dice  -",
        "| X                |   | O                |     dice  6 2",
    )])
}

/// Wherever the cursor was before: nothing that was said is lost, and what comes is said below, up to the last row.
#[test]
fn the_first_board_stands_above_and_nothing_is_lost() {
    for written in [0, 1, 12, 13, 14, 20, 33, 39, 40, 60] {
        let mut screen = Shown::new(40, 80, written);
        screen.take(&sent(high(40), &[]));
        screen.assert_above(to_roll_picture!());
        assert_eq!(screen.at, (39, 0), "after {written} rows");
        let said = screen.said();
        for number in 0..written {
            assert!(said.contains(&format!("before {number}")), "row {number} of {written}: {said:#?}");
        }
        assert!(said.contains(&"Welcome, ann. Last login: 30 December 2002, 12:58, from localhost.".to_string()));
        assert_eq!(screen.row(39), "Your turn: roll, or double.");
    }
}

/// The dice of a roll, a move and whose turn it is are at once those of the board that came last.
#[test]
fn each_board_that_comes_stands_above() {
    let mut screen = Shown::new(40, 80, 3);
    screen.take(&sent(high(40), &[Cue::Types(b"roll"), Cue::Hears(TO_MOVE)]));
    screen.assert_above(&rolled());
    assert_eq!(screen.row(39), "You roll 6 and 2.");
    let mut screen = Shown::new(40, 80, 3);
    screen.take(&sent(high(40), &[Cue::Hears(TO_MOVE), Cue::Rests, Cue::Hears(MOVED)]));
    assert_eq!(screen.row(8), " | X                |   | O                |   the opponent's turn");
    assert_eq!(screen.row(2), " | O           X  O |   | X              O |     score 1");
    assert_eq!(screen.row(39), "bob's turn.");
}

/// A text of the server says what the row would: then none is said, and the cursor stays where it was.
#[test]
fn a_board_of_which_nothing_is_said_changes_no_row_below() {
    let before = [Cue::Hears(b"bob rolls 3 and 1.\r\n")];
    let rolls = String::from_utf8(MOVED.to_vec()).unwrap().replace(":-1:0:0:0:0:1:", ":-1:0:0:3:1:1:");
    let board = [before[0], Cue::Hears(rolls.as_bytes())];
    let (text, all) = (sent(high(40), &before), sent(high(40), &board));
    let mut screen = Shown::new(40, 80, 60);
    screen.take(&text);
    let below: Vec<String> = (15..=40).map(|number| screen.row(number)).collect();
    let added = all.strip_prefix(&text).expect("more is sent");
    assert!(added.ends_with('\n'), "{added:?}");
    screen.take(added);
    assert_eq!((15..=40).map(|number| screen.row(number)).collect::<Vec<String>>(), below);
    assert_eq!(screen.at, (39, 0));
    assert!(screen.row(5).ends_with("dice  3 1"), "{}", screen.row(5));
}

/// As many rows as may come.
#[test]
fn a_flood_scrolls_below() {
    let talk =
        [Cue::Hears(b"13 eve a longer text, so that it takes a row of its own, and this is much more than that\r\n");
            90];
    let mut screen = Shown::new(40, 80, 3);
    screen.take(&sent(high(40), &talk));
    screen.assert_above(to_roll_picture!());
    assert_eq!(screen.at, (39, 0));
}

/// After a screen that was wiped, as Ctrl-L does, and after rows that all scroll again, as after a change of the size.
#[test]
fn the_next_board_mends_what_the_terminal_has_lost() {
    let text = sent(high(40), &[]);
    let all = sent(high(40), &[Cue::Types(b"roll"), Cue::Hears(TO_MOVE), Cue::Rests]);
    let added = all.strip_prefix(&text).expect("more is sent");
    for lost in ["\x1b[H\x1b[2J", "\x1b[H\x1b[2Jtyped", "\x1b7\x1b[r\x1b8", "\x1b7\x1b[r\x1b8a\nb\nc\nd\n"] {
        let mut screen = Shown::new(40, 80, 60);
        screen.take(&text);
        screen.take(lost);
        screen.take(added);
        screen.assert_above(&rolled());
        assert_eq!(screen.row(39), "Your move, as in: move 24-22 24-18", "after {lost:?}");
        assert_eq!(screen.row(38), "You roll 6 and 2.", "after {lost:?}");
    }
}

/// What is typed in a row of the terminal itself stays there in its columns.
#[test]
fn a_board_leaves_the_cursor_in_its_column() {
    let text = sent(high(40), &[]);
    let all = sent(high(40), &[Cue::Hears(TO_MOVE)]);
    let added = all.strip_prefix(&text).expect("more is sent").strip_suffix("You roll 6 and 2.\n").expect("and a row");
    let mut screen = Shown::new(40, 80, 60);
    screen.take(&text);
    screen.take("tell bob I am");
    screen.take(added);
    assert_eq!((screen.row(40).as_str(), screen.at), ("tell bob I am", (39, 13)));
}

/// From 30 rows on, and if the user has said so with 9 rows below; never if the terminal can't, or words are told.
#[test]
fn a_board_stands_above_only_where_it_may() {
    let stands = |settings: Settings<'_>| sent(settings, &[]).contains("\x1b[15r");
    assert!(stands(high(30)) && !stands(high(29)) && !stands(high(0)));
    assert!(!stands(Settings { scrolls_below: false, ..high(40) }));
    assert!(!stands(Settings { words: true, ..high(40) }));
    assert!(!stands(Settings { above: Some(false), ..high(40) }));
    let asked = |rows| Settings { above: Some(true), ..high(rows) };
    assert!(stands(asked(22)) && !stands(asked(21)) && !stands(asked(0)));
    assert!(!stands(Settings { scrolls_below: false, ..asked(40) }) && !stands(Settings { words: true, ..asked(40) }));
    let scrolls = sent(high(29), &[]);
    assert_wanted(!scrolls.contains('\x1b'), &scrolls, "no control sequence");
}

/// What is no conversation, as the program's `show`, scrolls.
#[test]
fn what_no_server_says_scrolls() {
    let text = shown(high(40), &[], &[Cue::Hears(WELCOME), Cue::Hears(SETTINGS), Cue::Hears(TO_ROLL)]);
    assert_wanted(!text.contains('\x1b'), &text, "no control sequence");
}

/// The words by which the user says where it stands, and what is said of them.
#[test]
fn the_user_says_where_the_newest_board_stands() {
    let mut screen = Shown::new(24, 80, 30);
    screen.take(&sent(high(24), &[Cue::Types(b"board above")]));
    screen.assert_above(to_roll_picture!());
    assert_eq!(screen.row(23), "The newest board stands above now: board below lets it scroll.");
    screen.take(&sent(high(24), &[Cue::Types(b"board above"), Cue::Types(b"Board Below")])[..]);
    assert_eq!(screen.scrolls, (0, 23));
    let last = |settings, steps: &[Cue<'_>]| sent(settings, steps).lines().last().map(str::to_string).expect("a row");
    let above = [Cue::Types(b"board above")];
    assert_eq!(last(high(21), &above), "This terminal is too low for a board above: it scrolls.");
    assert_eq!(last(high(0), &above), "How high is this terminal? rows 40 says it.");
    assert_eq!(last(Settings { scrolls_below: false, ..high(40) }, &above), "This terminal can't keep a board above.");
    assert_eq!(last(Settings { words: true, ..high(40) }, &above), "Boards are told in words here: none stands above.");
    assert_eq!(last(high(40), &[Cue::Types(b"board left")]), "board, board above, or board below.");
    let below = "\x1b7\x1b[r\x1b8Boards scroll now: board above has the newest one stand above.";
    assert_eq!(last(high(40), &[Cue::Types(b"board below")]), below);
    assert_eq!(last(high(40), &[Cue::Types(b"rows 1000")]), "rows 40: how high the terminal is, from 1 to 999.");
    assert_eq!(last(high(40), &[Cue::Types(b"rows 0")]), "rows 40: how high the terminal is, from 1 to 999.");
}

/// Before the first board it is not said that it stands there: whether it has room is not known.
#[test]
fn before_a_board_it_is_said_where_the_next_ones_stand() {
    let last = |settings| {
        let steps = [Cue::Opens, Cue::Hears(WELCOME), Cue::Hears(SETTINGS), Cue::Types(b"board above")];
        shown(settings, &[], &steps).lines().last().map(str::to_string).expect("a row")
    };
    let next = "Boards stand above from now on, if they have room: board below ends that.";
    for rows in [21, 24, 40] {
        assert_eq!(last(high(rows)), next, "{rows} rows");
    }
    assert_eq!(last(high(0)), "How high is this terminal? rows 40 says it.");
    assert_eq!(last(Settings { scrolls_below: false, ..high(40) }), "This terminal can't keep a board above.");
}

/// A terminal that gets another size: the board is drawn for it, or scrolls from then on.
#[test]
fn another_size_is_taken_at_once() {
    let mut screen = Shown::new(24, 80, 30);
    screen.take(&sent(high(24), &[Cue::Types(b"rows 24"), Cue::Types(b"rows 40")]));
    screen.assert_above(to_roll_picture!());
    let all = sent(high(40), &[Cue::Types(b"columns 40")]);
    let mut narrow = Shown::new(40, 40, 3);
    narrow.take(all.strip_prefix(&sent(high(40), &[])).expect("more is sent"));
    assert_eq!(narrow.row(1), "13-14-15-16-17-18-+---19-20-21-22-23-24-");
    assert_eq!(narrow.row(14), "X bob, score 1, off 0, pips 167, dice -");
    let mut low = Shown::new(29, 80, 3);
    low.take(&sent(high(40), &[Cue::Types(b"rows 29"), Cue::Hears(TO_MOVE)]));
    assert_eq!(low.scrolls, (0, 28));
}

/// A board of a game that is watched stands there too, the first one as well, and a row below says what it shows.
#[test]
fn a_watched_board_stands_above() {
    let board = String::from_utf8(TO_ROLL.to_vec()).unwrap().replace("You:bob", "ann:bob");
    let steps = [
        Cue::Opens,
        Cue::Hears(WELCOME),
        Cue::Hears(SETTINGS),
        Cue::Hears(b"You're now watching ann.\r\n"),
        Cue::Hears(board.as_bytes()),
    ];
    let mut screen = Shown::new(40, 80, 3);
    screen.take(&shown(high(40), &[], &steps));
    screen.assert_above(&picture(&[("your turn", "O ann's turn"), ("O You", "O ann")]));
    assert_eq!([screen.row(38), screen.row(39)], ["ann's turn.", "You watch ann and bob: unwatch ends it."]);
}

/// It is drawn for another size as well, and scrolls in a terminal that gets too low.
#[test]
fn a_watched_board_takes_another_size_at_once() {
    let board = String::from_utf8(TO_ROLL.to_vec()).unwrap().replace("You:bob", "ann:bob");
    let start = [
        Cue::Opens,
        Cue::Hears(WELCOME),
        Cue::Hears(SETTINGS),
        Cue::Hears(b"You're now watching ann.\r\n"),
        Cue::Hears(board.as_bytes()),
    ];
    let watched = |height, typed| shown(high(height), &[], &[&start[..], &[Cue::Types(typed)]].concat());
    let mut screen = Shown::new(24, 80, 30);
    screen.take(&watched(24, b"rows 40"));
    screen.assert_above(&picture(&[("your turn", "O ann's turn"), ("O You", "O ann")]));
    let mut low = Shown::new(29, 80, 3);
    low.take(&watched(40, b"rows 29"));
    assert_eq!(low.scrolls, (0, 28));
}

/// Once no game is watched its board stays there as long as the terminal has room, and then scrolls.
#[test]
fn what_was_watched_stands_as_long_as_there_is_room() {
    let board = String::from_utf8(TO_ROLL.to_vec()).unwrap().replace("You:bob", "ann:bob");
    let start = [
        Cue::Opens,
        Cue::Hears(WELCOME),
        Cue::Hears(SETTINGS),
        Cue::Types(b"board above"),
        Cue::Hears(b"You're now watching ann.\r\n"),
        Cue::Hears(board.as_bytes()),
        Cue::Hears(b"You stop watching ann.\r\n"),
    ];
    let last = |typed: &[Cue<'_>]| {
        let all = shown(high(40), &[], &[&start[..], typed].concat());
        all.lines().last().map(str::to_string).expect("a row")
    };
    let above = Cue::Types(b"board above");
    assert_eq!(last(&[above]), "The newest board stands above now: board below lets it scroll.");
    let stands = last(&[Cue::Types(b"rows 24"), above]);
    assert_eq!(stands, "The newest board stands above now: board below lets it scroll.");
    let low = last(&[Cue::Types(b"rows 12"), above]);
    assert_eq!(low, "Boards stand above from now on, if they have room: board below ends that.");
}
