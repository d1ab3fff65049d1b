//! Words and moves as players type them, what is named of a move against the rules, and what a word answers.

use super::lines::{FIRST_BOARD, MOVED, ONE_AND_ONE, TO_MOVE, UP};
use super::seats::{Cue, assert_wanted, own_settings, plain_settings, shown, shown_then};
use crate::fibs_wording::environment::Settings;

/// Dice 1 and 6, checkers on 7, 6 and 3; dice 5 and 4, checkers on 6, 4 and 3; dice 5 and 3, two on the bar.
const ONE_OUTSIDE: &[u8] =
    b"board:You:bob:3:0:1:0:-2:-2:1:0:0:1:1:0:0:0:0:0:0:0:0:0:0:0:0:0:0:0:0:0:0:1:1:6:0:0:1:1:1:0:1:-1:0:25:12:11:0:0:2:0:0:0\r\n";

const BEARING_OFF: &[u8] =
    b"board:You:bob:3:0:1:0:-2:-2:1:1:0:1:0:0:0:0:0:0:0:0:0:0:0:0:0:0:0:0:0:0:0:1:5:4:0:0:1:1:1:0:1:-1:0:25:12:11:0:0:1:0:0:0\r\n";

const TWO_ON_THE_BAR: &[u8] =
    b"board:You:bob:3:0:1:0:-2:0:0:0:0:5:0:3:0:0:0:-5:5:0:0:0:-3:0:-5:0:0:0:0:0:2:1:5:3:0:0:1:1:1:0:1:-1:0:25:0:0:2:0:2:0:0:0\r\n";

/// What the screen shows of a typed line after these steps.
fn answered(settings: Settings<'static>, before: &[Cue<'_>], typed: &str) -> String {
    shown_then(settings, &[&FIRST_BOARD[..], before].concat(), &[Cue::Types(typed.as_bytes())])
}

/// Asserts what each line shows on its board.
fn assert_rows(settings: Settings<'static>, rows: &[(&'static [u8], &str, &str)]) {
    for (board, typed, wanted) in rows {
        let found = answered(settings, &[Cue::Hears(board)], typed);
        assert_wanted(found == *wanted, &found, &format!("{wanted} of {typed}"));
    }
}

/// A board, a move that is against the rules, and the rule.
static RULES: [(&[u8], &str, &str); 12] = [
    (TO_MOVE, "move 24-18 18-15", "No die plays from 18 to 15. [9 IllegalPlay]\n"),
    (TO_MOVE, "move 24-22 24-22 24-22", "You have no checker on 24. [9 IllegalPlay]\n"),
    (ONE_OUTSIDE, "move 7-6 3-off", "A checker farther back goes first. [9 IllegalPlay]\n"),
    (ONE_OUTSIDE, "move 3-off", "No checker goes off before all are home. [9 IllegalPlay]\n"),
    (TWO_ON_THE_BAR, "move 20-15", "A checker on the bar enters first. [9 IllegalPlay]\n"),
    (TO_MOVE, "move 24-19", "No die plays from 24 to 19. [9 IllegalPlay]\n"),
    (TO_MOVE, "move 24-22 13-8", "No die plays from 13 to 8. [9 IllegalPlay]\n"),
    (BEARING_OFF, "move 4-off 6-2", "Your opponent holds 2. [9 IllegalPlay]\n"),
    (TO_MOVE, "move 24-22 24-22", "The rules don't allow this move. [9 IllegalPlay]\n"),
    (TO_MOVE, "move bar-20", "You have no checker on the bar. [9 IllegalPlay]\n"),
    (UP, "move 9-15", "You have no checker on 9. [9 IllegalPlay]\n"),
    (UP, "try move 9-15", "try 8-5 6-5: shows the board after that move, and sends nothing.\n"),
];

#[test]
fn the_rule_is_the_first_that_is_broken() {
    assert_rows(plain_settings(), &RULES);
}

/// Moves in many spellings.
static MOVES: [(&[u8], &str, &str); 16] = [
    (TWO_ON_THE_BAR, "b/20 bar/22", "sent move bar-20 bar-22\n"),
    (BEARING_OFF, "4/o 6/1*", "Your opponent holds 1. [9 IllegalPlay]\n"),
    (BEARING_OFF, "4/o", "sent move 4-off\n"),
    (ONE_AND_ONE, "6/5(4)", "sent move 6-5 6-5 6-5 6-5\n"),
    (ONE_AND_ONE, "8/7(3) 6/5", "sent move 8-7 8-7 8-7 6-5\n"),
    (ONE_AND_ONE, "6/5(2) 8/7(2)", "sent move 8-7 8-7 6-5 6-5\n"),
    (ONE_AND_ONE, "24/23/22/21/20", "sent move 24-23 23-22 22-21 21-20\n"),
    (ONE_AND_ONE, "24/20", "sent move 24-23 23-22 22-21 21-20\n"),
    (ONE_AND_ONE, "6/5(2)x 8/7(2)", "unknown: help lists the words\n"),
    (ONE_AND_ONE, "6/5(5)", "unknown: help lists the words\n"),
    (TO_MOVE, "24/18  24/22", "sent move 24-18 24-22\n"),
    (TO_MOVE, "  24/18 24/22  ", "sent move 24-18 24-22\n"),
    (TO_MOVE, "24*/18* 24/22", "sent move 24-18 24-22\n"),
    (TO_MOVE, "24-18/16", "unknown: help lists the words\n"),
    (TO_MOVE, "M 24/18 24/22", "sent move 24-18 24-22\n"),
    (TO_MOVE, "8/6 24/20", "No die plays from 24 to 20. [9 IllegalPlay]\n"),
];

#[test]
fn a_move_is_read_in_many_spellings() {
    for (board, typed, wanted) in &MOVES {
        let found = answered(plain_settings(), &[Cue::Hears(board)], typed);
        let steps = |text: &str| {
            let mut steps: Vec<_> = text.trim_end().split(' ').map(str::to_owned).collect();
            steps.sort_unstable();
            steps
        };
        assert_wanted(steps(&found) == steps(wanted), &found, &format!("{wanted} of {typed}"));
    }
}

/// What is said to people is sent as it was typed, but for its word; and what other words answer.
static WORDS: [(&[u8], &str, &str); 27] = [
    (TO_MOVE, "K Hi! There  you", "sent kibitz Hi! There  you\n"),
    (TO_MOVE, "T Bob Hi! There", "sent tell Bob Hi! There\n"),
    (TO_MOVE, "  SHOUT Hi! There", "sent shout Hi! There\n"),
    (TO_MOVE, "SAY Hi", "sent say Hi\n"),
    (TO_MOVE, "Whisper Hi", "sent whisper Hi\n"),
    (TO_MOVE, "Message Carol Hi", "sent message Carol Hi\n"),
    (TO_MOVE, "RE Hello There", "re TEXT: answers the player who spoke to you last, if one has.\n"),
    (TO_MOVE, "INVITE Carol 5  ", "sent invite Carol 5\n"),
    (TO_MOVE, "Gag Carol ", "Carol is gagged on this screen: ungag NAME ends it.\n"),
    (TO_MOVE, "ungag Carol", "Nobody of that name is gagged.\n"),
    (TO_MOVE, "EXIT", "quit ends the program, bye leaves the server\n"),
    (TO_MOVE, "exit now", "quit ends the program, bye leaves the server\n"),
    (TO_MOVE, "q", "quit ends the program, bye leaves the server\n"),
    (TO_MOVE, "ratings", "not a word of this client: send ratings sends it as it is\n"),
    (TO_MOVE, "Ratings bob", "not a word of this client: send ratings bob sends it as it is\n"),
    (TO_MOVE, "ratings a_name_of_more_bytes", "not a word of this client: send ratings .. sends it as it is\n"),
    (TO_MOVE, "send", "send LINE: LINE goes to the server as it is, unchecked.\n"),
    (TO_MOVE, "away see you  ", "sent as it is: away see you  \n"),
    (TO_MOVE, "AWAY See You  ", "sent as it is: away See You\n"),
    (TO_MOVE, "WHOIS Bob", "sent as it is: whois Bob\n"),
    (TO_MOVE, "Show Saved", "sent as it is: show saved\n"),
    (TO_MOVE, "show ratings", "not a word of this client: send show ratings sends it as it is\n"),
    (TO_MOVE, "columns 1000", "columns 60: how wide the terminal is, from 20 to 999.\n"),
    (TO_MOVE, "help nothing", "No such word: help lists the words.\n"),
    (TO_MOVE, "xyzzy", "unknown: help lists the words\n"),
    (MOVED, "plays", "There is nothing to move on this board.\n"),
    (TO_MOVE, "plays 25", "plays, plays 24, plays bar, or plays more.\n"),
];

#[test]
fn each_word_is_taken_as_it_is_meant() {
    assert_rows(plain_settings(), &WORDS);
    let help = answered(plain_settings(), &[], "?");
    assert_eq!(help, answered(plain_settings(), &[], "help"));
    let gagged = [Cue::Types(b"gag Bob")];
    assert_eq!(answered(plain_settings(), &gagged, "UNGAG Bob"), "Bob is heard again.\n");
    let spoken = [Cue::Hears(b"12 carol hi\r\n")];
    assert_eq!(answered(plain_settings(), &spoken, "RE Hello There  "), "sent tell carol Hello There  \n");
}

/// Places are in the numbers that the user reads, in all that he is told.
#[test]
fn places_have_the_users_numbers_everywhere() {
    let board = [Cue::Hears(UP)];
    let rows = answered(own_settings(), &board, "send move 4-9 9-15");
    assert_eq!(rows, "Type it without send: move 21-16 16-10\n");
    assert!(answered(own_settings(), &board, "words").contains("1 on 21"), "the own board");
    assert!(answered(plain_settings(), &board, "words").contains("1 on 4"), "the board as the server counts");
    assert!(answered(own_settings(), &board, "plays 21").contains("21-16"), "moves from a place");
    let watched = String::from_utf8(UP.to_vec()).expect("ASCII").replace(":You:bob:", ":dave:eve:");
    let watched = [Cue::Hears(watched.as_bytes())];
    assert!(answered(own_settings(), &watched, "words").contains("1 on 21"), "a board that is watched");
    let steps = [Cue::Hears(b"bob moves 20-14 20-15 .\r\n".as_slice())];
    let known = [&FIRST_BOARD[..], &board].concat();
    let text = shown(own_settings(), &known, &steps);
    assert!(text.ends_with("bob moves 5-11 5-10 .\n"), "{text}");
    for said in ["dave moves 20-14 20-15 .\r\n", "bob would move 20-14 20-15\r\n"] {
        let steps = [Cue::Hears(said.as_bytes())];
        let text = shown(own_settings(), &known, &steps);
        assert!(text.ends_with(&format!("{} (the server's numbers)\n", said.trim_end())), "{text}");
    }
    for said in ["bob takes 20-14\r\n", "bob may move 20\r\n", "bob moved 0-14\r\n"] {
        let steps = [Cue::Hears(said.as_bytes())];
        let text = shown(own_settings(), &known, &steps);
        assert!(text.ends_with(&format!("\n{}\n", said.trim_end())), "{text}");
    }
    for said in ["you may move 6-off\r\n", "you may move bar-20\r\n"] {
        let steps = [Cue::Hears(said.as_bytes())];
        let text = shown(own_settings(), &known, &steps);
        assert!(text.ends_with(" (the server's numbers)\n"), "{text}");
    }
}

/// A terminal becomes wider again.
#[test]
fn a_terminal_becomes_as_wide_as_the_user_says() {
    let typed = [Cue::Types(b"columns 30"), Cue::Types(b"columns 79")];
    let text = "a text of the server that has more than thirty bytes\r\n";
    let steps = [&typed[..], &[Cue::Hears(text.as_bytes())]].concat();
    let shown = shown(plain_settings(), &FIRST_BOARD, &steps);
    assert!(shown.ends_with(&text.replace("\r\n", "\n")), "{shown}");
    assert!(!answered(plain_settings(), &typed[..1], "words").lines().any(|row| row.len() > 30));
}

/// Texts that name players: who is who, and whose texts count.
#[test]
fn a_text_names_whom_it_is_about() {
    let asks = |steps: &[&'static [u8]]| {
        let mut cues: Vec<_> = steps.iter().map(|line| Cue::Hears(line)).collect();
        cues.extend([Cue::Types(b"help"), Cue::Rests]);
        let text = shown(plain_settings(), &FIRST_BOARD, &cues);
        text.rsplit("about a word.\n").next().unwrap_or_default().to_owned()
    };
    let begun: &[u8] = b"** You are now playing a 3 point match with eve.\r\n";
    let left: &[u8] = b"** Player eve has left the game. The game was saved.\r\n";
    assert!(asks(&[begun, left]).contains("invite eve,\n"), "{}", asks(&[begun, left]));
    let doubles: &[u8] = b"bob doubles. Type 'accept' or 'reject'.\r\n";
    assert_eq!(asks(&[MOVED, doubles, b"dave rolls 3 and 1.\r\n"]), "bob doubles: board, then accept, or reject.\n");
    assert_eq!(asks(&[b"dave doubles. Type 'accept' or 'reject'.\r\n"]), "Your turn: roll, or double.\n");
    let hostile: &[u8] = b"Starting a new game with \x1b[2J.\r\n";
    let over = asks(&[hostile, b"** You're not playing.\r\n"]);
    assert!(!over.contains('\x1b'), "{over}");
}

/// What is said after a decision that is refused in the same words as before.
#[test]
fn what_is_advised_is_said_again_after_a_decision() {
    let refused = Cue::Hears(b"** You can't double.\r\n");
    let steps = [Cue::Types(b"double"), refused, Cue::Rests, Cue::Types(b"send double"), refused, Cue::Rests];
    let text = shown(plain_settings(), &FIRST_BOARD, &steps);
    assert_eq!(text.matches("Go on: roll").count(), 2, "{text}");
    let ordered = [Cue::Types(b"order roll"), Cue::Hears(MOVED)];
    let may_not = String::from_utf8(FIRST_BOARD_LINE.to_vec()).expect("ASCII");
    let steps = [&ordered[..], &[Cue::Hears(may_not.as_bytes())]].concat();
    let text = shown(plain_settings(), &FIRST_BOARD, &steps);
    assert!(text.contains("sent roll, as ordered\n"), "{text}");
}

/// The user has the turn, and may not double.
const FIRST_BOARD_LINE: &[u8] =
    b"board:You:bob:3:0:1:0:-2:0:0:0:0:5:0:3:0:0:0:-5:5:0:0:0:-3:0:-5:0:0:0:0:2:0:1:0:0:0:0:1:0:1:0:1:-1:0:25:0:0:0:0:2:0:0:0\r\n";

/// At 79 columns nothing that `help` says is broken, and its screen leaves two rows of 24 for the hint and what is typed.
#[test]
fn help_fits_a_terminal() {
    let typed = include_str!("../../../../../completions/typed");
    let words: Vec<&str> = typed.lines().filter_map(|line| line.split(' ').next()).collect();
    assert!(words.contains(&"arrivals") && words.len() > 40);
    for word in words {
        let line = format!("help {word}");
        let rows = answered(plain_settings(), &[], &line);
        assert_wanted(rows.lines().all(|row| row.len() <= 79), &rows, "79 columns");
        assert_eq!(rows, answered(plain_settings(), &[Cue::Types(b"columns 200")], &line));
    }
    let spoken = Settings { words: true, ..plain_settings() };
    assert_eq!(answered(spoken, &[], "help"), answered(spoken, &[Cue::Types(b"columns 200")], "help"));
    let screen = answered(plain_settings(), &[], "help");
    assert_wanted(screen.lines().count() <= 22, &screen, "22 rows");
    assert_eq!(screen, answered(plain_settings(), &[Cue::Types(b"columns 200")], "help"));
}
