//! Players that are listed, matches that are saved, moves that are listed, and talk that is kept.

use super::lines::{ONE_AND_ONE, SETTINGS, TO_MOVE, WELCOME};
use super::numbers::counted_otherwise;
use super::rules::{BEARING_OFF, BLOT, TWO_ON_THE_BAR};
use super::seats::{Cue, assert_wanted, own_settings, plain_settings, shown, shown_then};
use crate::fibs_fields::boards::Board;
use crate::fibs_position::{Direction, GameBoard, Numbers, Play};
use crate::fibs_wording::environment::Settings;

/// What the screen shows of a typed line, after these lines of the server.
fn answered(heard: &[String], typed: &str) -> String {
    let mut before = vec![Cue::Hears(WELCOME), Cue::Hears(SETTINGS)];
    before.extend(heard.iter().map(|line| Cue::Hears(line.as_bytes())));
    shown_then(plain_settings(), &before, &[Cue::Types(typed.as_bytes())])
}

/// The line of a player: with whom he plays, whom he watches, whether he is ready and away, and the rest.
fn player(name: &str, does: &str, rating: &str, experience: u64, idle: u64) -> String {
    format!("5 {name} {does} {rating} {experience} {idle} 0 host - -\r\n")
}

/// Some players.
fn some() -> Vec<String> {
    vec![
        player("alba", "bob - 1 0", "1500.00", 120, 3599),
        player("bob", "alba - 1 0", "1623.45", 123_456_789, 3600),
        player("carl", "- alba 0 0", "999.99", 1, 86_399),
        player("dora", "- - 1 1", "1500.00", 7, 86_400),
        player("readyman", "alba carl 0 0", "1400.00", 0, 0),
        player("a_name_of_more_than_twenty_bytes", "- - 1 0", "1500.00", 0, 60),
        "6\r\n".to_owned(),
    ]
}

const HEAD: &str = "player                  rating  points    idle   does\n";

const ALBA: &str = "alba                   1500.00     120    59 m   plays bob\n";
const BOB: &str = "bob                    1623.45 123456789     1 h   plays alba\n";
const CARL: &str = "carl                    999.99       1    23 h   watches alba\n";
const DORA: &str = "dora                   1500.00       7     1 d   away\n";
const LONG: &str = "a_name_of_more_than_   1500.00       0     1 m   ready\n";
const READYMAN: &str = "readyman               1400.00       0     0 m   plays alba\n";

/// Words, and who is listed then.
static WORDS: [(&str, &[&str], &str); 8] = [
    ("players ready", &[DORA, LONG], "2 players.\n"),
    ("players playing", &[ALBA, READYMAN, BOB], "3 players.\n"),
    ("players READY Dor", &[DORA], "1 player.\n"),
    ("players dora", &[DORA], "1 player.\n"),
    ("players CARL", &[CARL], "1 player.\n"),
    ("players ready re", &[], "Nobody of 6 players.\n"),
    ("players playing re", &[READYMAN], "1 player.\n"),
    ("players a_", &[LONG], "1 player.\n"),
];

#[test]
fn players_are_listed_by_words() {
    for (words, rows, count) in WORDS {
        let wanted = if rows.is_empty() { count.to_owned() } else { format!("{HEAD}{}{count}", rows.concat()) };
        let found = answered(&some(), words);
        assert_wanted(found == wanted, &found, &format!("{words}: {wanted}"));
    }
    let one = [player("alba", "- - 1 0", "1500.00", 0, 0), "6\r\n".to_owned()];
    let found = answered(&one, "players playing");
    assert_wanted(found == "Nobody of 1 player.\n", &found, "one player");
    let found = shown_then(plain_settings(), &[Cue::Loses], &[Cue::Types(b"players")]);
    assert_wanted(found == "Nobody is listed: who asks for the list.\n", &found, "nobody is listed");
}

/// So many players, with ratings that are so far apart.
fn many(count: usize) -> Vec<String> {
    (0..count)
        .map(|at| player(&format!("Pl{at:02}"), "- - 1 0", &format!("{}.00", 1000 + 100 * at), 0, 0))
        .chain(["6\r\n".to_owned()])
        .collect()
}

/// Who is listed, in this order.
fn names(text: &str) -> Vec<&str> {
    text.lines().filter(|row| row.starts_with("Pl")).map(|row| &row[..4]).collect()
}

#[test]
fn the_nearest_are_listed_first_and_no_more_than_sixteen() {
    let found = answered(&many(16), "players");
    assert_eq!(names(&found).len(), 16, "{found}");
    assert!(found.ends_with("16 players.\n") && !found.contains("first:"), "{found}");
    // the own rating is 1500
    let found = answered(&many(18), "players p");
    assert!(found.starts_with("Nearest to your 1500.00 first:\n"), "{found}");
    assert!(names(&found).starts_with(&["Pl05", "Pl04", "Pl06", "Pl03", "Pl07"]), "{found}");
    assert!(found.ends_with(".. 2 more: players p all\n"), "{found}");
    assert!(!names(&found).contains(&"Pl17") && !names(&found).contains(&"Pl16"), "{found}");
    let found = answered(&many(18), "players p all");
    assert!(names(&found).len() == 18 && found.ends_with("18 players.\n"), "{found}");
    let found = answered(&many(17), "players P");
    assert!(found.ends_with(".. 1 more: players P all\n"), "{found}");
    let words = "players ".to_owned() + &"pl".repeat(25) + " p";
    let found = answered(&many(17), &words);
    assert!(found.ends_with(".. 1 more: players .. all\n"), "{found}");
    let unrated: Vec<_> = many(18).into_iter().map(|line| Cue::Hears(line.into_bytes().leak())).collect();
    let found = shown(plain_settings(), &unrated, &[Cue::Types(b"players")]);
    assert!(found.starts_with("The best first:\n") && names(&found).starts_with(&["Pl17", "Pl16"]), "{found}");
}

const NOT_YET: &str = "Not listed yet: the players are shown as soon as the server has listed them.\n";

/// Before the list of the login has come, before its end too: it is shown when it has come, once, and only as it was
/// asked for last.
#[test]
fn players_that_are_not_listed_yet_are_shown_when_they_are() {
    let rows = format!("{HEAD}{DORA}{LONG}2 players.\n");
    let list = some();
    let mut list: Vec<_> = list.iter().map(|line| Cue::Hears(line.as_bytes())).collect();
    let types = Cue::Types(b"players ready");
    let login = [Cue::Hears(WELCOME), Cue::Hears(SETTINGS)];
    let after = [Cue::Hears(b"** You're not playing. \r\n"), Cue::Hears(b"5 dora - - 1 1 1500.00 7 86400 0 h - -\r\n")];
    for at in 0..list.len() {
        let steps =
            [&list[..at], &[Cue::Types(b"players"), types], &list[at..], &after, &[Cue::Hears(b"6\r\n")]].concat();
        let text = shown_then(plain_settings(), &login, &steps);
        let wanted = format!("{NOT_YET}{NOT_YET}{rows}");
        assert_wanted(text.starts_with(&wanted), &text, &wanted);
        assert!(text.matches(HEAD).count() == 1 && !text.contains("not playing"), "{text}");
    }
    // before the server has greeted the user
    let steps = [&[types], &login[..], &list].concat();
    let text = shown(plain_settings(), &[], &steps);
    assert_wanted(text.starts_with(NOT_YET) && text.ends_with(&rows), &text, &rows);
    // the list that `who` brings is shown in its place
    list.insert(0, Cue::Types(b"who"));
    list.insert(0, types);
    let text = shown_then(plain_settings(), &login, &[&list[..], &after[..1]].concat());
    assert!(text.matches(HEAD).count() == 1 && text.contains("6 players.\n"), "{text}");
}

/// Who the server says last that the user is counts.
#[test]
fn the_user_is_who_the_server_says_last() {
    let again = "2 ann 1 1 0 0 0 0 1 1 0 0 1 0 1 1600.00 0 0 none 0 0 UTC\r\n".to_owned();
    let own = [vec![again, player("ann", "- - 1 0", "1600.00", 0, 0)], many(18)].concat();
    let found = answered(&own, "players");
    assert!(found.starts_with("Nearest to your 1600.00 first:\n") && !found.contains("ann "), "{found}");
}

/// Rows of the server about saved matches, and what is said when carol logs in.
static SAVED: [(&[&str], &str); 9] = [
    (&["opponent matchlength score (your points first)", "**carol 5 1 - 2"], "(1-2 of 5)"),
    (&["opponent matchlength score (your points first)", "carol 5 1 - 2"], "(1-2 of 5)"),
    (&["opponent matchlength score (your points first)", "*carol unlimited 1 - 2"], "(1-2)"),
    (&["opponent matchlength score (your points first)", "carol 9999 1 - 2"], "(1-2)"),
    (&["opponent matchlength score (your points first)", "carol 5 1 - 2 x"], ""),
    (&["opponent matchlength score (your points first) x", "carol 5 1 - 2"], ""),
    (&["opponent matchlength score (your points first)", "carol 5 1 - 2", "carol 5 3 - 2"], "(3-2 of 5)"),
    (
        &[
            "opponent matchlength score (your points first)",
            "carol 5 1 - 2",
            "opponent matchlength score (your points first)",
            "dave 5 1 - 2",
        ],
        "",
    ),
    (&["opponent matchlength score (your points first)", "carol 5 1 - 2", "  no saved games.  "], ""),
];

#[test]
fn a_list_of_saved_matches_is_read() {
    for (rows, score) in SAVED {
        let lines: Vec<_> = rows.iter().map(|row| format!("{row}\r\n")).collect();
        let mut steps = vec![Cue::Hears(WELCOME), Cue::Hears(SETTINGS)];
        steps.extend(lines.iter().map(|line| Cue::Hears(line.as_bytes())));
        steps.push(Cue::Hears(b"7 carol carol logs in.\r\n"));
        let found = shown(plain_settings(), &[], &steps);
        let wanted = match score {
            "" => "carol logs in.\n".to_owned(),
            score => format!("carol is here: your match {score} is saved: invite carol.\n"),
        };
        assert_wanted(found.ends_with(&wanted), &found, &wanted);
    }
}

/// A hundred matches are kept, and no more.
#[test]
fn a_hundred_saved_matches_are_kept() {
    let mut lines = vec!["opponent matchlength score (your points first)\r\n".to_owned()];
    lines.extend((1..102).map(|at| format!("p{at} 5 1 - 2\r\n")));
    lines.extend(["7 p100 p100 logs in.\r\n".to_owned(), "7 p101 p101 logs in.\r\n".to_owned()]);
    let steps: Vec<_> = lines.iter().map(|line| Cue::Hears(line.as_bytes())).collect();
    let found = shown(plain_settings(), &[], &steps);
    assert!(found.contains("p100 is here: your match"), "{found}");
    assert!(found.ends_with("p101 logs in.\n"), "{found}");
}

/// The rows of moves that a text lists.
fn moves(text: &str) -> Vec<&str> {
    text.lines().filter(|row| row.starts_with("  ")).collect()
}

/// The settings of a user to whom boards are told in words.
fn told_settings() -> Settings<'static> {
    Settings { words: true, ..plain_settings() }
}

/// In words each move has a row.
#[test]
fn moves_are_listed_screen_by_screen() {
    let board = [Cue::Hears(WELCOME), Cue::Hears(SETTINGS), Cue::Hears(ONE_AND_ONE)];
    let list = |typed: &[&'static [u8]]| {
        let steps: Vec<_> = typed.iter().map(|line| Cue::Types(line)).collect();
        shown_then(told_settings(), &board, &steps)
    };
    let first = list(&[b"plays"]);
    assert_eq!(moves(&first).len(), 20, "{first}");
    assert!(first.contains("\n20 of ") && first.ends_with(" legal moves: plays more shows others.\n"), "{first}");
    let both = list(&[b"plays", b"plays more"]);
    assert!(both.starts_with(&first));
    let more = &both[first.len()..];
    assert!(!moves(more).is_empty() && moves(more).iter().all(|row| !moves(&first).contains(row)), "{both}");
    assert!(
        first.contains("\n20 of 42 legal moves: plays more") && more.contains("\n40 of 42 legal moves: plays more")
    );
    let all = list(&[b"plays", b"plays more", b"plays more"]);
    assert!(moves(&all).len() == 42 && all.ends_with("\n42 legal moves.\n"), "{all}");
    // a word that is not valid does not move the place at which the list goes on; the list begins anew with a valid one
    assert!(list(&[b"plays", b"plays x", b"plays more"]).ends_with(more));
    assert!(list(&[b"plays", b"plays more", b"plays"]).ends_with(&first));
    let place = list(&[b"plays 24"]);
    assert!(!moves(&place).is_empty() && moves(&place).iter().all(|row| row.contains("24-23")), "{place}");
    assert!(place.contains(" from there"), "{place}");
    let place = list(&[b"plays 6", b"plays more"]);
    assert!(!moves(&place).is_empty() && moves(&place).iter().all(|row| row.contains(" 6-5")), "{place}");
    assert!(list(&[b"plays 17"]).ends_with("0 legal moves from there.\n"));
}

/// A place of the user's own numbers as he reads it.
fn place_word(place: u8, is_turned: bool) -> String {
    match place {
        0 => "off".to_owned(),
        25 => "bar".to_owned(),
        _ if is_turned => (25 - place).to_string(),
        _ => place.to_string(),
    }
}

/// A move as he types it.
fn move_words(play: &Play, is_turned: bool) -> String {
    let ends = |place| place_word(place, is_turned);
    let steps = play.steps().iter().map(|step| format!("{}-{}", ends(step.source()), ends(step.target())));
    steps.collect::<Vec<_>>().join(" ")
}

/// The moves that are listed on all screens of a word, without what is said of hits.
fn listed_by(settings: Settings<'_>, board: &[u8], word: &str) -> Vec<String> {
    let before = [Cue::Hears(WELCOME), Cue::Hears(SETTINGS), Cue::Hears(board)];
    let steps = [&[Cue::Types(word.as_bytes())][..], &[Cue::Types(b"plays more"); 3]].concat();
    let text = shown_then(settings, &before, &steps);
    let cells = moves(&text).into_iter().flat_map(|row| row.split("  ").map(str::trim));
    let told = cells.map(|cell| cell.trim_start_matches("move ").split(", hits").next().unwrap_or("").replace('*', ""));
    let mut listed: Vec<String> = told.filter(|steps| !steps.is_empty()).collect();
    listed.sort_unstable();
    listed
}

/// Asserts that the moves of a board that leave a place, or all, are listed in either numbers, drawn in one column and
/// told.
fn assert_listed(line: &[u8], place: Option<u8>) {
    let board = Board::read(line.trim_ascii_end()).expect("a board");
    let game = GameBoard::of(&board).unwrap_or_else(|_| panic!("no position"));
    let plays = game.position().plays().expect("memory");
    let leaves = |play: &&Play| place.is_none_or(|place| play.steps().iter().any(|step| step.source() == place));
    let chosen: Vec<&Play> = plays.iter().filter(leaves).collect();
    for settings in [plain_settings(), own_settings()] {
        let is_turned = settings.numbers == Numbers::TheServers && game.direction() == Direction::Up;
        let word = place.map_or("plays".to_owned(), |place| format!("plays {}", place_word(place, is_turned)));
        let mut wanted: Vec<String> = chosen.iter().map(|play| move_words(play, is_turned)).collect();
        wanted.sort_unstable();
        for settings in [Settings { columns: 30, ..settings }, Settings { words: true, ..settings }] {
            assert_eq!(listed_by(settings, line, &word), wanted, "{word} on {}", line.escape_ascii());
        }
    }
}

#[test]
fn each_legal_move_is_listed_once_and_no_other_one() {
    for line in [ONE_AND_ONE, BLOT, TWO_ON_THE_BAR, BEARING_OFF] {
        for line in [line.to_vec(), counted_otherwise(line)] {
            for place in (1..=25).map(Some).chain([None]) {
                assert_listed(&line, place);
            }
        }
    }
}

/// One move is one; and a list goes on only on its board.
#[test]
fn a_list_of_moves_is_of_its_board() {
    let before = [Cue::Hears(WELCOME), Cue::Hears(SETTINGS), Cue::Hears(ONE_AND_ONE), Cue::Types(b"plays")];
    let steps = [Cue::Hears(TO_MOVE), Cue::Types(b"plays more")];
    let again = [Cue::Hears(TO_MOVE), Cue::Types(b"plays")];
    let (found, wanted) = (shown(plain_settings(), &before, &steps), shown(plain_settings(), &before, &again));
    assert_wanted(found == wanted, &found, &wanted);
}

/// Of talk the last twenty rows are kept, as they were shown.
#[test]
fn the_last_twenty_rows_of_talk_are_kept() {
    let heard: Vec<_> = (1..=21).map(|at| format!("13 carol no {at}\r\n")).collect();
    let found = answered(&heard, "talk");
    let wanted: Vec<_> = (2..=21).map(|at| format!("13:07 carol shouts: no {at}\n")).collect();
    assert_wanted(found == wanted.concat(), &found, "twenty rows");
    for line in
        ["9 carol 1041253132 see you\r\n", "19 well\r\n", "18 well\r\n", "15 carol well\r\n", "14 carol well\r\n"]
    {
        let found = answered(&[line.to_owned()], "talk");
        assert_wanted(found != "Nobody has talked yet.\n", &found, line);
    }
    let narrow = [Cue::Types(b"columns 30"), Cue::Hears(b"13 carol one two three four five six\r\n")];
    let found = shown(plain_settings(), &narrow, &[Cue::Types(b"talk")]);
    let row = "13:07 carol shouts: one two\nthree four five six\n";
    assert_wanted(found.ends_with(&row.repeat(2)), &found, row);
}

/// `re` answers who spoke last, and says what it does if no text follows.
#[test]
fn who_spoke_last_is_answered() {
    let heard = ["12 carol hi\r\n".to_owned(), "12 dave hi\r\n".to_owned()];
    for (typed, wanted) in [
        ("re yes", "sent tell dave yes\n"),
        ("re", "re TEXT: answers the player who spoke to you last, if one has.\n"),
        ("re  two  spaces", "sent tell dave  two  spaces\n"),
    ] {
        let found = answered(&heard, typed);
        assert_wanted(found == wanted, &found, wanted);
    }
}

/// The rows of a player who is listed when he changes, and who is counted if a list was asked for.
#[test]
fn who_changes_is_told_and_a_list_is_counted() {
    let long = [player("a_name_of_more_than_24_bytes_in_all", "- - 1 0", "1500.00", 0, 0), "6\r\n".to_owned()];
    let steps: Vec<_> = long.iter().map(|line| Cue::Hears(line.as_bytes())).collect();
    let found = shown(plain_settings(), &[], &steps);
    assert_wanted(found == "a_name_of_more_than_24_b (1500.00): ready\n", &found, "24 bytes of the name");
    let listed: Vec<_> = some().into_iter().map(|line| Cue::Hears(line.into_bytes().leak())).collect();
    let asked = [&[Cue::Hears(WELCOME), Cue::Hears(SETTINGS), Cue::Types(b"who")], &listed[..]].concat();
    let found = shown(plain_settings(), &[], &asked);
    assert_wanted(found.ends_with("\n6 players.\n"), &found, "a count");
    let again = [&asked[..], &listed[..]].concat();
    let found = shown(plain_settings(), &[], &again);
    assert_wanted(found.matches("6 players").count() == 1, &found, "one count alone");
}
