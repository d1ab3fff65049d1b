//! Places in the user's own numbers, if he goes up by the server's.

use super::lines::{MOVED, POINT_MADE, SETTINGS, TO_MOVE, TO_ROLL, UP, WELCOME};
use super::seats::{Cue, assert_ends, assert_has, own_settings, plain_settings, shown};
use crate::fibs_wording::environment::Settings;

/// The same dice, and a player who goes down from his 24 with his last checker.
const DOWN: &[u8] =
    b"board:You:bob:5:0:0:0:0:0:-2:0:0:0:0:0:0:0:0:0:0:0:0:0:0:0:0:0:0:0:0:1:0:1:6:5:0:0:1:1:1:0:1:-1:0:25:14:13:0:0:1:0:0:0\r\n";

/// The player goes up, and one of his checkers is on the bar.
const ON_BAR: &[u8] =
    b"board:You:bob:5:0:0:-1:0:0:0:0:0:0:0:0:0:0:0:0:0:0:0:0:0:0:0:2:0:0:0:0:0:-1:6:5:0:0:1:1:1:0:-1:1:25:0:14:13:1:0:1:0:0:0\r\n";

/// The player goes up, and has two checkers left, on the server's 20 and 19: his 5 and 6.
const HOME: &[u8] =
    b"board:You:bob:5:0:0:0:0:2:0:0:0:0:0:0:0:0:0:0:0:0:0:0:0:0:-1:-1:0:0:0:0:0:-1:6:5:0:0:1:1:1:0:-1:1:25:0:13:13:0:0:1:0:0:0\r\n";

/// Steps up to a board, at which the user may type.
fn on(board: &'static [u8]) -> [Cue<'static>; 4] {
    [Cue::Hears(WELCOME), Cue::Hears(SETTINGS), Cue::Hears(board), Cue::Rests]
}

/// A board, a line that is typed there, and the end of what is shown then.
static TYPED: [(&[u8], &[u8], &str); 20] = [
    (UP, b"21/10", "sent move 4-9 9-15 (in your numbers 21-16 16-10)\n"),
    (UP, b"m 21/15/10", "sent move 4-10 10-15 (in your numbers 21-15 15-10)\n"),
    (UP, b"move 21-16 16-10", "sent move 4-9 9-15 (in your numbers 21-16 16-10)\n"),
    (UP, b"21-15 15-10", "sent move 4-10 10-15 (in your numbers 21-15 15-10)\n"),
    (UP, b"4/15", "You have no checker on 4. [9 IllegalPlay]\n"),
    (UP, b"move 4-9 9-15", "You have no checker on 4. [9 IllegalPlay]\n"),
    (UP, b"move 21-17", "No die plays from 21 to 17. [9 IllegalPlay]\n"),
    (UP, b"plays", "  21-16 16-10\n1 legal move.\n"),
    (UP, b"plays 21", "  21-16 16-10\n1 legal move from there.\n"),
    (UP, b"plays 4", "0 legal moves from there.\n"),
    (UP, b"send move 4-9 9-15", "Type it without send: move 21-16 16-10\n"),
    (UP, b"send move 21-16 16-10", "sent as it is: move 21-16 16-10\n"),
    (UP, b"try 21/10", "Not sent yet: go sends move 21-16 16-10\n"),
    (UP, b"numbers server", "Places have the server's numbers now.\n"),
    (UP, b"Numbers Own", "Places have your own numbers now: you go from 24 down to 1.\n"),
    (UP, b"numbers", "numbers own: places from 24 down to 1. numbers server: as it counts them.\n"),
    (DOWN, b"24/13", "sent move 24-19 19-13\n"),
    (DOWN, b"move 24-19 19-13", "sent move 24-19 19-13\n"),
    (ON_BAR, b"bar/20 20/14", "sent move bar-5 5-11 (in your numbers bar-20 20-14)\n"),
    (HOME, b"6/off 5/off", "sent move 19-off 20-off (in your numbers 6-off 5-off)\n"),
];

#[test]
fn what_is_typed_has_the_users_own_numbers() {
    for (board, line, rows) in &TYPED {
        assert_ends(own_settings(), &on(board), &[Cue::Types(line)], rows);
    }
}

/// After an offer was declined the row names a move in his numbers, and that is what goes out.
#[test]
fn a_move_in_place_of_an_offer_has_the_users_own_numbers() {
    let declined = [Cue::Types(b"resign g"), Cue::Hears(b"bob rejects. The game continues.\r\n"), Cue::Rests];
    assert_ends(own_settings(), &on(UP), &declined, "bob declined? Go on: move 21-16 16-10.\n");
    for typed in [&b"move 21-16 16-10"[..], b"21/10"] {
        let steps = [&declined[..], &[Cue::Types(typed)]].concat();
        let text = shown(own_settings(), &on(UP), &steps).replace('\n', " ");
        let wanted = "sent on the server's word: move 4-9 9-15 (in your numbers 21-16 16-10) ";
        assert!(text.ends_with(wanted), "{text}");
    }
    let steps = [&declined[..], &[Cue::Types(b"move 4-9 9-15")]].concat();
    assert_ends(own_settings(), &on(UP), &steps, "You have no checker on 4. [9 IllegalPlay]\n");
}

#[test]
fn the_hint_is_taken_if_it_is_typed() {
    for (settings, hint, sent) in [
        (own_settings(), "move 21-16 16-10", "sent move 4-9 9-15 (in your numbers 21-16 16-10)\n"),
        (plain_settings(), "move 4-9 9-15", "sent move 4-9 9-15\n"),
    ] {
        let row = format!("Your move, as in: {hint}\n");
        assert_ends(settings, &on(UP), &[], &row);
        assert_ends(settings, &on(UP), &[Cue::Types(hint.as_bytes())], sent);
    }
}

#[test]
fn a_move_that_is_tried_is_sent_in_the_servers_numbers() {
    let steps = [Cue::Types(b"try 21/10"), Cue::Types(b"go")];
    assert_ends(own_settings(), &on(UP), &steps, "sent move 4-9 9-15 (in your numbers 21-16 16-10)\n");
    let turned = [Cue::Types(b"try 21/10"), Cue::Types(b"numbers server"), Cue::Types(b"go")];
    assert_ends(own_settings(), &on(UP), &turned, "sent move 4-9 9-15\n");
}

#[test]
fn the_servers_numbers_come_back() {
    let steps = [Cue::Types(b"numbers server"), Cue::Types(b"4/15")];
    assert_ends(own_settings(), &on(UP), &steps, "sent move 4-9 9-15\n");
}

/// A text of the server, and how it is shown to a player who goes up.
static TEXTS: [(&[u8], &str); 9] = [
    (b"bob moves 24-22 22-21 .\r\n", "bob moves 1-3 3-4 .\n"),
    (b"bob moves bar-20 6-off .\r\n", "bob moves bar-5 19-off .\n"),
    (b"bob moves 24-22 .  \r\n", "bob moves 1-3 .\n"),
    (b"bob moves 24-22 22-21\r\n", "bob moves 24-22 22-21 (the server's numbers)\n"),
    (b"bob moves 24-22 and sighs .\r\n", "bob moves 24-22 and sighs . (the server's numbers)\n"),
    (b"bob moves 8-5  .\r\n", "bob moves 8-5  . (the server's numbers)\n"),
    (b"bob can't move.\r\n", "bob can't move.\n"),
    (b"score in 5 point match: bob-3 You-2\r\n", "score in 5 point match: bob-3 You-2\n"),
    (b"bob moves on\r\n", "bob moves on\n"),
];

#[test]
fn a_move_that_the_server_tells_has_the_users_numbers() {
    for (text, row) in &TEXTS {
        assert_ends(own_settings(), &on(UP), &[Cue::Hears(text)], row);
        let said = String::from_utf8_lossy(text);
        let as_it_came = format!("{}\n", said.trim_end_matches("\r\n"));
        assert_ends(own_settings(), &on(DOWN), &[Cue::Hears(text)], &as_it_came);
        assert_ends(plain_settings(), &on(UP), &[Cue::Hears(text)], &as_it_came);
    }
    // whose they are is not known before a board comes
    let start = [Cue::Hears(WELCOME), Cue::Hears(SETTINGS)];
    let steps = [Cue::Hears(b"bob moves 24-22 .\r\n")];
    assert_ends(own_settings(), &start, &steps, "bob moves 24-22 . (the server's numbers)\n");
}

/// Of the boards of a match the last one counts; no board of the match before does.
#[test]
fn a_move_has_the_numbers_of_the_board_that_came_last() {
    for (first, last, row) in [(DOWN, UP, "bob moves 1-3 .\n"), (UP, DOWN, "bob moves 24-22 .\n")] {
        let boards = [Cue::Hears(WELCOME), Cue::Hears(SETTINGS), Cue::Hears(first), Cue::Hears(last)];
        assert_ends(own_settings(), &boards, &[Cue::Hears(b"bob moves 24-22 .\r\n")], row);
    }
    let begins = Cue::Hears(b"** You are now playing a 3 point match with eve.\r\n");
    let steps = [begins, Cue::Hears(b"eve moves 24-22 .\r\n")];
    assert_ends(own_settings(), &on(UP), &steps, "eve moves 24-22 . (the server's numbers)\n");
}

#[test]
fn a_move_that_may_be_lost_is_named_in_both_numbers() {
    let before = [Cue::Hears(WELCOME), Cue::Hears(SETTINGS), Cue::Hears(UP), Cue::Rests, Cue::Types(b"21/10")];
    let row = "move 4-9 9-15 (in your numbers 21-16 16-10) may have reached the server or not\n";
    assert_has(own_settings(), &[&before[..], &[Cue::Loses]].concat(), &[row]);
}

/// The line of the same board as a server shows it that counts the other way.
pub fn counted_otherwise(line: &[u8]) -> Vec<u8> {
    let text = String::from_utf8_lossy(line);
    let mut fields: Vec<&str> = text.trim_end().split(':').collect();
    fields[6..32].reverse();
    fields[42] = if fields[42] == "1" { "-1" } else { "1" };
    fields[43..45].reverse();
    format!("{}\r\n", fields.join(":")).into_bytes()
}

#[test]
fn a_board_looks_the_same_whichever_way_the_server_counts() {
    for line in [UP, DOWN, ON_BAR, HOME, TO_ROLL, TO_MOVE, MOVED, POINT_MADE] {
        let other = counted_otherwise(line);
        for settings in [own_settings(), Settings { words: true, ..own_settings() }] {
            let shows = |line: &[u8]| {
                let steps =
                    [Cue::Hears(WELCOME), Cue::Hears(SETTINGS), Cue::Hears(line), Cue::Rests, Cue::Types(b"words")];
                shown(settings, &[], &steps)
            };
            let text = shows(line);
            assert_eq!(text, shows(&other));
            assert!(text.contains("You go down, from 24 to 1."), "{text}");
        }
        let plain = shown(plain_settings(), &on(WELCOME)[..2], &[Cue::Hears(line)]);
        let turned = shown(plain_settings(), &on(WELCOME)[..2], &[Cue::Hears(&other)]);
        assert_ne!(plain, turned);
    }
}

#[test]
fn a_board_that_is_watched_has_the_numbers_of_the_player_below() {
    let watched: Vec<u8> = [&b"board:eve"[..], &TO_ROLL[9..]].concat();
    let other = counted_otherwise(&watched);
    let shows =
        |line: &[u8]| shown(own_settings(), &[], &[Cue::Hears(WELCOME), Cue::Hears(SETTINGS), Cue::Hears(line)]);
    assert_eq!(shows(&watched), shows(&other));
    let start = [Cue::Hears(WELCOME), Cue::Hears(SETTINGS), Cue::Hears(&other)];
    assert_ends(own_settings(), &start, &[Cue::Hears(b"bob moves 12-15 .\r\n")], "bob moves 13-10 .\n");
    // a move of another game is not turned by this board
    let carls = "carl moves 12-15 . (the server's numbers)\n";
    assert_ends(own_settings(), &start, &[Cue::Hears(b"carl moves 12-15 .\r\n")], carls);
}

/// What is known of the user's own match says nothing of a game of others, of which no board has come.
#[test]
fn a_move_of_others_is_not_turned_by_an_own_board() {
    let own = [Cue::Hears(WELCOME), Cue::Hears(SETTINGS), Cue::Hears(UP)];
    let turned = Cue::Hears(b"bob moves 12-15 .\r\n");
    assert_ends(own_settings(), &own, &[turned], "bob moves 13-10 .\n");
    let as_it_came = "eve moves 8-5 6-5 . (the server's numbers)\n";
    assert_ends(own_settings(), &own, &[Cue::Hears(b"eve moves 8-5 6-5 .\r\n")], as_it_came);
    let over = [own[0], own[1], own[2], Cue::Hears(b"You win the 5 point match 5-0 .\r\n")];
    assert_ends(own_settings(), &over, &[Cue::Hears(b"eve moves 8-5 6-5 .\r\n")], as_it_came);
    let bobs = "bob moves 8-5 6-5 . (the server's numbers)\n";
    assert_ends(own_settings(), &over, &[Cue::Hears(b"bob moves 8-5 6-5 .\r\n")], bobs);
}

/// After a match with somebody else has begun the client still reads what is typed on the board that it has: so does
/// the row that says what was sent.
#[test]
fn what_is_sent_before_the_first_board_of_a_match_has_both_numbers() {
    let begins: [Cue; 1] = [Cue::Hears(b"** You are now playing a 3 point match with eve.\r\n")];
    let steps = [begins[0], Cue::Types(b"21/10")];
    assert_ends(own_settings(), &on(UP), &steps, "sent move 4-9 9-15 (in your numbers 21-16 16-10)\n");
}

/// The rows that answer `oldmoves` say whose numbers they have, until something else is sent.
#[test]
fn old_moves_have_the_servers_numbers() {
    let row: Cue = Cue::Hears(b"X: (6 1) 12-18 17-18 \r\n");
    let noted = "X: (6 1) 12-18 17-18 (the server's numbers)\n";
    for board in [UP, DOWN] {
        assert_ends(own_settings(), &on(board), &[Cue::Types(b"send oldmoves bob"), row], noted);
        assert_ends(own_settings(), &on(board), &[Cue::Types(b"send oldmoves"), row], noted);
        assert_ends(own_settings(), &on(board), &[Cue::Types(b"send oldmoves"), row, row], &noted.repeat(2));
        assert_ends(
            own_settings(),
            &on(board),
            &[Cue::Types(b"send oldmoves"), Cue::Hears(b"Moves of bob\r\n")],
            "\nMoves of bob\n",
        );
        let after = [Cue::Types(b"send oldmoves"), Cue::Types(b"say Hi"), row];
        assert_ends(own_settings(), &on(board), &after, "\nX: (6 1) 12-18 17-18 \n");
        assert_ends(plain_settings(), &on(board), &[Cue::Types(b"send oldmoves"), row], "\nX: (6 1) 12-18 17-18 \n");
    }
}
