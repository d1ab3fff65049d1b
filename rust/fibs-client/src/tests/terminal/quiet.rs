//! A quiet screen: which lines of a server are left out, and that no other one is.

use super::lines::{FIRST_BOARD, SETTINGS, TO_MOVE, WELCOME};
use super::seats::{Cue, Scene, assert_scenes, assert_shows, assert_wanted, plain_settings, shown};

/// Lines that tell of a stranger who comes, changes and goes.
const COMES: &[u8] = b"7 carol carol logs in.\r\n";

const CHANGES: &[u8] = b"5 carol - - 1 0 1701.00 0 0 1 host - -\r\n6\r\n";

const GOES: &[u8] = b"8 carol carol drops connection.\r\n";

/// What is shown of these three.
const ROWS: &str = "carol logs in.\ncarol (1701.00): ready\ncarol drops connection.\n";

/// What `arrivals` says.
const ARRIVALS: &str = "arrivals: who comes and goes is shown in a match too; arrivals again ends it.\n";

/// Gives the lines of the stranger after these steps, of which the last rows are these; then those lines show this.
fn assert_coming(steps: &[Cue<'_>], rows: &str, wanted: &str) {
    let before = shown(plain_settings(), &FIRST_BOARD, steps);
    assert_wanted(before.ends_with(rows), &before, rows);
    let all = [steps, &hears(COMES), &hears(CHANGES), &hears(GOES)].concat();
    let text = shown(plain_settings(), &FIRST_BOARD, &all);
    let after = text.strip_prefix(&before).unwrap_or("it changes what was shown");
    assert_wanted(after == wanted, after, wanted);
}

/// Each line of some bytes, heard.
fn hears(lines: &[u8]) -> Vec<Cue<'_>> {
    lines.split_inclusive(|byte| *byte == b'\n').map(Cue::Hears).collect()
}

#[test]
fn who_comes_and_goes_is_left_out_in_a_match() {
    assert_coming(&[], "", "");
    assert_coming(&[Cue::Types(b"arrivals")], ARRIVALS, ROWS);
    assert_coming(&[Cue::Types(b"arrivals"), Cue::Types(b"Arrivals ")], "arrivals shows it.\n", "");
    assert_coming(&[Cue::Types(b"arrivals"), Cue::Types(b"quiet")], "loud shows them.\n", "");
    assert_coming(&[Cue::Types(b"quiet"), Cue::Types(b"arrivals")], ARRIVALS, ROWS);
    assert_coming(&[Cue::Types(b"arrivals"), Cue::Types(b"gag carol")], "ungag NAME ends it.\n", "");
    assert_coming(&[Cue::Hears(b"You win the 3 point match 3-1 .\r\n")], "match 3-1 .\n", ROWS);
    assert_coming(&[Cue::Hears(b"bob drops connection. The game was saved.\r\n")], "saved.\n", ROWS);
}

/// Who has talked with the user, invites him, or has a saved match with him.
#[test]
fn who_has_to_do_with_the_user_is_shown() {
    assert_coming(&[Cue::Hears(b"12 carol hi\r\n")], "carol says: hi\n", ROWS);
    assert_coming(&[Cue::Hears(b"16 carol hi\r\n")], "You say to carol: hi\n", ROWS);
    assert_coming(&[Cue::Hears(b"12 carola hi\r\n")], "carola says: hi\n", "");
    assert_coming(&[Cue::Hears(b"13 carol hi\r\n")], "carol shouts: hi\n", "");
    assert_coming(&[Cue::Hears(b"12 carol hi\r\n"), Cue::Loses, Cue::Opens, Cue::Hears(TO_MOVE)], "", "");
    let saved = [
        Cue::Hears(b"opponent          matchlength   score (your points first)\r\n"),
        Cue::Hears(b"carol                   5        1 -  2\r\n"),
    ];
    let rows = ROWS.replacen('\n', "\ncarol is here: your match (1-2 of 5) is saved.\n", 1);
    assert_coming(&saved, "1 -  2\n", &rows);
}

/// That the opponent goes, comes or changes is shown, and what people say.
static SHOWN: [Scene; 3] = [
    (&[Cue::Hears(b"8 bob bob drops connection.\r\n")], "\nbob drops connection.\n"),
    (&[Cue::Hears(b"7 bob bob logs in.\r\n")], "\nbob logs in.\n"),
    (&[Cue::Hears(b"13 carol hi\r\n"), Cue::Hears(b"15 dave ho\r\n")], "carol shouts: hi\n13:07 dave kibitzes: ho\n"),
];

#[test]
fn the_opponent_and_talk_are_shown_in_a_match() {
    assert_scenes(plain_settings(), &SHOWN);
}

/// Without a match who comes and goes is shown, and the user himself is not.
#[test]
fn who_comes_and_goes_is_shown_without_a_match() {
    let own = b"5 ann - - 1 0 1500.00 0 0 1 host - -\r\n6\r\n";
    let steps = [vec![Cue::Hears(SETTINGS)], hears(COMES), hears(CHANGES), hears(own), hears(GOES)].concat();
    assert_shows(plain_settings(), &steps, ROWS);
}

/// The first lines of a login: the greeting, and the players.
const LISTED: &[u8] = b"1 ann 1041253132 localhost\r\n\
2 ann 1 0 0 0 0 0 1 1 0 0 0 0 1 1500.00 0 0 none 0 0 UTC\r\n\
5 ann - - 1 0 1500.00 0 0 1 host - -\r\n5 bob - - 1 0 1623.45 0 0 1 host - -\r\n\
5 eve dan - 1 0 1500.00 0 0 1 host - -\r\n5 dan eve - 1 0 1500.00 0 0 1 host - -\r\n6\r\n";

/// What the server answers to the commands by which the client begins.
const ANSWERS: &[u8] = b"Value of 'boardstyle' set to 3.\r\n** The board will be refreshed after every move.\r\n\
** Will send rawboards after rolling.\r\n** You're not playing.\r\n";

/// What a login shows at first.
const GREETED: &str = "Welcome, ann. Last login: 30 December 2002, 12:58, from localhost.\n";

/// What ends it.
const ENDED: &str = "Rated 1500.00. 3 players, 1 ready. Type players ready, then invite NAME 5.\n";

/// Asserts what is shown of a login by these lines.
fn assert_login(lines: &[&[u8]], rows: &str) {
    let steps: Vec<Cue<'_>> = lines.iter().flat_map(|some| hears(some)).collect();
    let wanted = format!("{GREETED}{rows}");
    assert_shows(plain_settings(), &steps, &wanted);
}

#[test]
fn a_login_ends_by_one_row() {
    assert_login(&[LISTED, ANSWERS], ENDED);
    // the answers may come first, and only once is the row said
    let (first, list) = LISTED.split_at(LISTED.iter().position(|byte| *byte == b'5').unwrap_or(0));
    let cut = first.len() + list.windows(3).position(|bytes| bytes == b"\n5 ").map_or(0, |at| at + 1);
    assert_login(&[&LISTED[..cut], ANSWERS, &LISTED[cut..]], ENDED);
    assert_login(
        &[LISTED, ANSWERS, b"5 bob - - 1 0 1623.45 0 0 1 host - -\r\n6\r\n"],
        &format!("{ENDED}bob (1623.45): ready\n"),
    );
    // any other text in place of the answer to `board`
    assert_login(&[LISTED, &ANSWERS[..ANSWERS.len() - 24], b"what?\r\n"], &format!("what?\n{ENDED}"));
}

/// What the client asked once is answered once; what the user asks is shown, and any other text.
#[test]
fn a_board_that_is_watched_ends_a_login() {
    let watched = b"board:dave:eve:5:0:0:0:-2:0:0:0:0:5:0:3:0:0:0:-5:5:0:0:0:-3:0:-5:0:0:0:0:2:0:-1:0:0:0:0:1:1:1:0:1:-1:0:25:0:0:0:0:2:0:0:0\r\n";
    let steps: Vec<Cue<'_>> = hears(LISTED).into_iter().chain(hears(watched)).collect();
    let text = shown(plain_settings(), &[], &steps);
    assert_wanted(text.ends_with(ENDED), &text, ENDED);
}

#[test]
fn only_answers_to_the_clients_own_commands_are_left_out() {
    let again = str::from_utf8(ANSWERS).expect("it is a text").replace('\r', "");
    assert_login(&[LISTED, ANSWERS, ANSWERS], &format!("{ENDED}{again}"));
    for other in ["Value of 'boardstyle' set to 2.", "Value of 'boardstyle' set to 3. ok", "** You're not playing. Oh"]
    {
        let line = format!("{other}\r\n");
        assert_login(&[&LISTED[..28], line.as_bytes()], &format!("{other}\n"));
    }
    // its settings were on: the server says by itself that one is turned on
    let on = [WELCOME, SETTINGS, b"** Will send rawboards after rolling.\r\n"];
    assert_login(&on, "** Will send rawboards after rolling.\n");
}

/// How the row ends, by who is there and what the user is to do.
#[test]
fn what_to_type_after_a_login_is_what_can_be_done() {
    let row = |list: &[u8], rows: &str| assert_login(&[WELCOME, SETTINGS, list, b"** You're not playing.\r\n"], rows);
    row(b"5 ann - - 1 0 1500.00 0 0 1 h - -\r\n6\r\n", "Rated 1500.00. Nobody else is here.\n");
    row(
        b"5 ann - - 1 0 1500.00 0 0 1 h - -\r\n5 bob - - 0 0 1.00 0 0 1 h - -\r\n6\r\n",
        "Rated 1500.00. 1 player, none ready. players lists them.\n",
    );
    let board = str::from_utf8(TO_MOVE).expect("it is a text");
    let text = shown(plain_settings(), &hears(LISTED), &[Cue::Hears(board.as_bytes())]);
    let row = format!("{GREETED}Rated 1500.00. 3 players, 1 ready.\n");
    assert_wanted(text.starts_with(&row), &text, &row);
    let greedy = str::from_utf8(LISTED).expect("it is a text").replace("0 0 0 0 1 1500.00", "0 1 0 0 1 1500.00");
    assert_login(&[greedy.as_bytes(), ANSWERS], "Rated 1500.00. 3 players, 1 ready.\n");
}

/// Boards at the end of a game, and of a match, which ann wins, and which bob wins.
const WON: &[u8] =
    b"board:You:bob:5:2:1:0:-2:0:0:0:0:5:0:3:0:0:0:-5:5:0:0:0:-3:0:-5:0:0:0:0:2:0:0:0:0:0:0:2:1:1:0:1:-1:0:25:0:0:0:0:2:0:0:0\r\n";

const LOST: &[u8] =
    b"board:You:bob:3:0:3:0:-2:0:0:0:0:5:0:3:0:0:0:-5:5:0:0:0:-3:0:-5:0:0:0:0:2:0:0:0:0:0:0:1:1:1:0:1:-1:0:25:0:0:0:0:2:0:0:0\r\n";

/// How the server goes on, and what is shown: what the board has told is not said again; what it has not is.
static ENDINGS: [Scene; 7] = [
    // no match is over by this game
    (
        &[Cue::Hears(WON), Cue::Hears(b"You win the 5 point match 2-1 .\r\n")],
        "You 2, bob 1 of 5.\nYou win the 5 point match 2-1 .\n",
    ),
    // and a board of another game has told nothing of the one before
    (
        &[Cue::Hears(WON), Cue::Hears(TO_MOVE), Cue::Hears(b"You win the game and get 2 points. Congratulations!\r\n")],
        "\nYou win the game and get 2 points. Congratulations!\n",
    ),
    (
        &[
            Cue::Hears(WON),
            Cue::Hears(b"You win the game and get 2 points. Congratulations!\r\n"),
            Cue::Hears(b"Type 'join' if you want to play the next game, type 'leave' if you don't.\r\n"),
            Cue::Rests,
        ],
        "and 2 points. You 2, bob 1 of 5.\nThe game is over: join goes on, leave saves the match.\n",
    ),
    (
        &[Cue::Hears(WON), Cue::Hears(b"You win the game and get 1 point. Congratulations!\r\n")],
        "and 2 points. You 2, bob 1 of 5.\nYou win the game and get 1 point. Congratulations!\n",
    ),
    (
        &[
            Cue::Hears(LOST),
            Cue::Hears(b"bob wins the game and gets 2 points. Sorry.\r\n"),
            Cue::Hears(b"bob wins the 3 point match 3-0 .\r\n"),
        ],
        "\nbob wins the game by a gammon, and 2 points, and the 3 point match 3-0.\n",
    ),
    (
        &[Cue::Hears(LOST), Cue::Hears(b"bob wins the 5 point match 3-0 .\r\n")],
        "match 3-0.\nbob wins the 5 point match 3-0 .\n",
    ),
    (
        &[Cue::Hears(b"bob wins the game and gets 1 point. Sorry.\r\n")],
        "or double.\nbob wins the game and gets 1 point. Sorry.\n",
    ),
];

#[test]
fn the_end_of_a_game_is_told_once() {
    assert_scenes(plain_settings(), &ENDINGS);
}

/// Texts that are left out, each after the steps that make it so.
static LEFT_OUT: [(&[Cue<'static>], &str); 12] = [
    (&FIRST_BOARD, "It's your turn to move."),
    (&FIRST_BOARD, "It's your turn to roll."),
    (&FIRST_BOARD, "It's your turn to roll or double."),
    (&FIRST_BOARD, "It's your turn. Please roll or double"),
    (&FIRST_BOARD, "Please move 1 piece."),
    (&FIRST_BOARD, "Please move 2 pieces."),
    (&[Cue::Hears(WELCOME)], "Value of 'boardstyle' set to 3."),
    (&[Cue::Hears(WELCOME), Cue::Hears(SETTINGS)], "** You're not playing."),
    (&[Cue::Hears(WON)], "Type 'join' if you want to play the next game, type 'leave' if you don't."),
    (&[Cue::Hears(TO_MOVE), Cue::Hears(WON)], "You win the game and get 2 points. Congratulations!"),
    (&[Cue::Hears(TO_MOVE), Cue::Hears(LOST)], "bob wins the game and gets 2 points. Sorry."),
    (&[Cue::Hears(TO_MOVE), Cue::Hears(LOST)], "bob wins the 3 point match 3-0 ."),
];

/// What is shown of a text after these steps.
fn shown_of(steps: &[Cue<'_>], said: &str) -> String {
    let line = format!("{said}\r\n");
    let before = shown(plain_settings(), &[], steps);
    let text = shown(plain_settings(), steps, &[Cue::Hears(line.as_bytes())]);
    text.strip_prefix(&before).unwrap_or("it changes what was shown").replace('\n', " ")
}

/// The text with another byte at a place, without it, and with one more there.
fn unlike(said: &str, at: usize) -> [String; 3] {
    let (front, back) = (&said[..at], &said[at + 1..]);
    let other = if said.as_bytes()[at] == b'X' { 'Y' } else { 'X' };
    [format!("{front}{other}{back}"), format!("{front}{back}"), format!("{front}{other}{}", &said[at..])]
}

/// Nothing is dropped that is not one of them whole: with one letter more, fewer or another it is shown.
#[test]
fn a_text_that_is_not_recognized_whole_is_shown() {
    for (steps, said) in &LEFT_OUT {
        let text = shown_of(steps, said);
        assert_wanted(text.is_empty(), &text, &format!("nothing of {said}"));
        for at in 0..said.len() {
            for other in unlike(said, at) {
                let text = shown_of(steps, &other);
                let is_shown = text.trim_end() == other.trim_end() || other.trim_end() == *said;
                assert_wanted(is_shown, &text, &format!("all of {other}"));
            }
        }
    }
}

/// Talk that goes out, as it was typed or spelled out, and what is refused as before.
static TALK: [Scene; 9] = [
    (&[Cue::Types("say don\u{2019}t".as_bytes())], "say don\\xe2\\x80\\x99t\n"),
    (&[Cue::Types("tell carol caf\u{e9}".as_bytes())], "tell carol caf\\xc3\\xa9\n"),
    (&[Cue::Types(b"K caf\xe9")], "kibitz caf\\xe9\n"),
    (&[Cue::Hears(b"12 carol hi\r\n"), Cue::Types("re \u{4e2d}".as_bytes())], "tell carol \\xe4\\xb8\\xad\n"),
    (&[Cue::Types(b"say caf\xe9\x1b[2J")], "[2 BadText]\n"),
    (&[Cue::Types("say caf\u{9b}".as_bytes())], "[2 BadText]\n"),
    (&[Cue::Types(b"say caf\xff")], "[2 BadText]\n"),
    (&[Cue::Types(b"say caf\x9b")], "[2 BadText]\n"),
    (&[Cue::Loses, Cue::Types("say caf\u{e9}".as_bytes())], "[2 Offline]\n"),
];

#[test]
fn talk_of_any_letters_goes_out_as_it_was_typed() {
    assert_scenes(plain_settings(), &TALK);
    let named = [Cue::Types("tell caf\u{e9} hi".as_bytes())];
    let text = shown(plain_settings(), &FIRST_BOARD, &named);
    assert_wanted(text.ends_with("[1 BadName]\n"), &text, "a refusal of the name");
}
