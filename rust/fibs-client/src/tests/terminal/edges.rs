//! The first and the last of what has a limit: names, lines, lists, rows, numbers, times.

use super::lines::{FIRST_BOARD, ONE_AND_ONE, SETTINGS, WELCOME};
use super::seats::{
    Cue, Cue::Hears, Cue::Types, Scene, assert_ends, assert_scenes, assert_wanted, own_settings, plain_settings, shown,
    shown_then,
};
use crate::fibs_wording::dates::append_time;
use crate::fibs_wording::environment::broken::break_at_spaces;
use crate::fibs_wording::environment::{Setting, Settings, Zone, read_setting};
use crate::fibs_wording::matches::{Ending, read_ending};

/// What is typed: the longest words that are said again, and those that are one byte longer; the least height; names
/// that are none; words with one letter too many; a word that is refused.
static TYPED: [Scene; 11] = [
    (
        &[Types(b"date aaaaaaaaaaaaaaaaaaa")],
        "not a word of this client: send date aaaaaaaaaaaaaaaaaaa sends it as it is\n",
    ),
    (&[Types(b"date aaaaaaaaaaaaaaaaaaaa")], "not a word of this client: send date .. sends it as it is\n"),
    (&[Types(b"rows 0")], "rows 40: how high the terminal is, from 1 to 999.\n"),
    (&[Types(b"rows 1")], "Your turn: roll, or double.\n"),
    (&[Types(b"rows 999")], "Your turn: roll, or double.\n"),
    (&[Types(b"rows 1000")], "rows 40: how high the terminal is, from 1 to 999.\n"),
    (&[Types(b"gag a b")], "gag NAME: whose words are kept from the screen.\n"),
    (&[Types(b"rooll")], "rooll: roll?\n"),
    (&[Types(b"acccept")], "acccept: accept?\n"),
    (
        &[Types(b"order roll"), Types(b"order roll")],
        "\nYou have given the order to roll already. [11 AlreadyOrdered]\n",
    ),
    (&[Cue::Loses, Types(b"words")], "\nThere is no connection: type open.\n"),
];

#[test]
fn what_is_typed_has_its_limits() {
    assert_scenes(plain_settings(), &TYPED);
}

/// Why a plain command was not sent: what is wrong with a name or a text, or that there is no connection.
#[test]
fn why_a_command_was_not_sent() {
    let name = "A name has 1 to 64 printable ASCII characters, no space or colon. [1 BadName]\n";
    let cases: [(&[Cue<'_>], &str); 3] = [
        (&[Types(b"tell b:ob hello")], name),
        (&[Types(b"tell bob \x7f")], "A text has printable ASCII characters, at least one. [2 BadText]\n"),
        (&[Cue::Loses, Types(b"who")], "There is no connection: type open. [2 Offline]\n"),
    ];
    for (steps, row) in cases {
        assert_ends(plain_settings(), &FIRST_BOARD, steps, row);
    }
    assert_ends(plain_settings(), &FIRST_BOARD, &[Types(b"talk")], "\nNobody has talked yet.\n");
}

/// A time that no clock shows.
#[test]
fn a_time_that_is_no_clock_time() {
    let mut text = Vec::new();
    append_time(u64::MAX, &Zone::utc(), &mut text).expect("there is memory");
    assert_eq!(text, b"--:--");
}

/// An answer of so many bytes that the line that tells it is the longest is told, and refused for its text.
#[test]
fn the_longest_answer_is_a_line() {
    const LONGEST: usize = 4096;
    for (bytes, row) in
        [(LONGEST, "A text has at most 400 characters. [5 TooLong]\n"), (LONGEST + 1, "13:07 carol says: hi\n")]
    {
        let line = format!("re {}", "x".repeat(bytes - "tell carol ".len()));
        let steps = [Hears(b"12 carol hi\r\n"), Types(line.as_bytes())];
        let text = shown(plain_settings(), &FIRST_BOARD, &steps);
        let last = text.lines().last().unwrap_or_default();
        assert_eq!(last.split(" [").next(), row.trim_end().split(" [").next(), "{bytes} bytes");
    }
}

/// The line of a player.
fn player(name: &str, rating: &str, idle: u64) -> String {
    format!("5 {name} - - 1 0 {rating} 0 {idle} 0 host - -\r\n")
}

/// What answers a typed line after these players were listed.
fn answered(settings: Settings<'_>, players: &[String], typed: &str) -> String {
    let mut before = vec![Hears(WELCOME), Hears(SETTINGS)];
    before.extend(players.iter().map(|line| Hears(line.as_bytes())));
    before.push(Hears(b"6\r\n"));
    shown_then(settings, &before, &[Types(typed.as_bytes())])
}

/// Ratings of one digit more have a column less before them.
#[test]
fn ratings_stand_below_each_other() {
    let players = [("a", "1000.00"), ("b", "999.99"), ("c", "100.00"), ("d", "99.99"), ("e", "10.00"), ("f", "9.99")];
    let players: Vec<String> = players.iter().map(|(name, rating)| player(name, rating, 0)).collect();
    let text = answered(plain_settings(), &players, "players");
    let points: Vec<Option<usize>> = text.lines().skip(1).take(6).map(|row| row.find('.')).collect();
    assert_eq!(points, [Some(27); 6], "{text}");
}

/// An hour is no minute more, and a day no hour.
#[test]
fn who_is_idle_is_told_by_whole_hours_and_days() {
    let told = Settings { words: true, ..plain_settings() };
    for (idle, row, sentence) in [
        (3599, "59 m", "ready.\n"),
        (3600, "1 h", "idle for 1 hour.\n"),
        (7199, "1 h", "idle for 1 hour.\n"),
        (86_399, "23 h", "idle for 23 hours.\n"),
        (86_400, "1 d", "idle for 1 day.\n"),
        (172_800, "2 d", "idle for 2 days.\n"),
    ] {
        let players = [player("bob", "1500.00", idle)];
        let text = answered(plain_settings(), &players, "players");
        assert_wanted(text.contains(&format!(" {row}   ready\n")), &text, row);
        let text = answered(told, &players, "players");
        assert_wanted(text.contains(sentence), &text, sentence);
    }
}

/// So many players whose names begin alike.
fn many(count: usize) -> Vec<String> {
    (0..count).map(|at| player(&format!("Pl{at:02}"), "1500.00", 0)).collect()
}

/// Words of forty bytes that ask for a list are said again.
#[test]
fn the_words_that_list_more_are_said_again() {
    let forty = format!("pl{}", " pl0".repeat(9) + " p");
    assert_eq!(forty.len(), 40);
    let text = answered(plain_settings(), &many(17), &format!("players {forty}"));
    assert_wanted(text.ends_with(&format!(".. 1 more: players {forty} all\n")), &text, &forty);
    let text = answered(plain_settings(), &many(17), &format!("players {forty}l"));
    assert_wanted(text.ends_with(".. 1 more: players .. all\n"), &text, "no words");
}

/// A word that says which players are asked for is no beginning of a name.
#[test]
fn all_is_no_name() {
    let players = ["bob", "allan", "readyman"].map(|name| player(name, "1500.00", 0));
    let text = answered(plain_settings(), &players, "players bo all ready");
    assert!(text.contains("bob ") && !text.contains("allan") && text.ends_with("\n1 player.\n"), "{text}");
}

/// The user's rating is what the list says of him last.
#[test]
fn a_list_tells_the_users_own_rating() {
    let mut players = many(17);
    players.push("5 ann - - 1 0 1600.00 0 0 0 host - -\r\n".to_owned());
    let text = answered(plain_settings(), &players, "players");
    assert_wanted(text.starts_with("Nearest to your 1600.00 first:\n"), &text, "the rating of the list");
}

/// Columns of moves are as many as there is room for, with two spaces before each.
#[test]
fn a_column_of_moves_has_its_spaces() {
    for (columns, most) in [(76, 3), (75, 2)] {
        let typed = format!("columns {columns}");
        let steps = [Hears(ONE_AND_ONE), Types(typed.as_bytes()), Types(b"plays")];
        let text = shown(plain_settings(), &FIRST_BOARD, &steps);
        let rows: Vec<&str> =
            text.lines().filter(|row| row.starts_with("  ") && row.contains('/') | row.contains('-')).collect();
        let found = rows.iter().map(|row| row.trim().split("  ").filter(|cell| !cell.is_empty()).count()).max();
        assert_eq!(found, Some(most), "{text}");
    }
}

/// A space of a row before is never broken; a row that ends one begins the next at its own word.
#[test]
fn a_row_is_broken_at_its_own_spaces() {
    for (text, columns, rows) in [
        ("ab cd\nlonglonglong", 8, "ab cd\nlonglonglong"),
        ("ab cd\nlonglonglong ef", 8, "ab cd\nlonglonglong\nef"),
        ("aaaa bbbb cccc dd", 9, "aaaa bbbb\ncccc dd"),
        ("aaaa bbbb ccccc dd", 7, "aaaa\nbbbb\nccccc\ndd"),
    ] {
        let mut broken = text.as_bytes().to_vec();
        break_at_spaces(0, columns, &mut broken);
        assert_eq!(broken.as_slice(), rows.as_bytes(), "{text} in {columns} columns");
    }
}

/// Ten minutes past ten, by two digits each.
#[test]
fn a_time_has_two_digits() {
    for (time, row) in [
        (1_041_243_000, "carol left a message on 30 December 2002, 10:10: hi\n"),
        (1_041_242_940, "carol left a message on 30 December 2002, 10:09: hi\n"),
        (1_041_206_400, "carol left a message on 30 December 2002, 00:00: hi\n"),
    ] {
        let line = format!("9 carol {time} hi\r\n");
        assert_ends(plain_settings(), &FIRST_BOARD, &[Hears(line.as_bytes())], row);
    }
}

/// Who has lost a match has not more points than who has won it.
#[test]
fn a_score_is_that_of_who_has_won() {
    for (text, is_read) in [
        ("You win the 3 point match 3-1 .", true),
        ("You win the 3 point match 3-5 .", false),
        ("bob wins the 3 point match 3-3 .", false),
    ] {
        let found = read_ending(text.as_bytes(), b"bob");
        assert!(matches!(found, Some(Ending { score }) if score.is_some() == is_read), "{text}: {found:?}");
    }
}

/// A server has three words.
#[test]
fn a_server_of_the_settings_has_a_host_a_port_and_a_name() {
    for (line, is_one) in
        [("server a 1 b", true), ("server  a  1  b ", true), ("server a 1", false), ("server a 1 b c", false)]
    {
        assert_eq!(matches!(read_setting(line.as_bytes()), Some(Setting::Nothing)), is_one, "{line}");
    }
}

/// A text that names no place from 1 to 24 names no step.
#[test]
fn a_step_has_places_from_1_to_24() {
    const UP: &[u8] = super::lines::UP;
    let start = [Hears(WELCOME), Hears(SETTINGS), Hears(UP), Cue::Rests];
    for (text, row) in [
        (&b"bob moved 24-22\r\n"[..], "bob moved 24-22 (the server's numbers)\n"),
        (b"bob moved 25-22\r\n", "\nbob moved 25-22\n"),
        (b"bob moved 1-0\r\n", "\nbob moved 1-0\n"),
    ] {
        assert_ends(own_settings(), &start, &[Hears(text)], row);
    }
}

/// Words that leave the last column free are in one row; with a column less those to type have a row of their own.
#[test]
fn words_that_fit_are_in_one_row() {
    let (who, how) = ("bob is here: your match (0-1 of 3) is saved:", "invite bob.");
    let wide = who.len() + 1 + how.len();
    for (columns, row) in [(wide + 1, format!("\n{who} {how}\n")), (wide, format!("\n{who}\n{how}\n"))] {
        let settings = Settings { columns, ..plain_settings() };
        let steps = [Hears(b"bob drops connection. The game was saved.\r\n"), Hears(b"7 bob bob logs in.\r\n")];
        assert_ends(settings, &FIRST_BOARD, &steps, &row);
    }
}

/// A greeting of 79 letters is one row, and one of 80 two.
#[test]
fn a_greeting_that_fits_is_one_row() {
    let front = "Welcome, ann. Last login: 30 December 2002, 12:58, from ";
    for (letters, between) in [(79, " "), (80, "\n")] {
        let host = "h".repeat(letters - front.len() - 1);
        let line = format!("1 ann 1041253132 {host}\r\n");
        let text = shown(plain_settings(), &[], &[Hears(line.as_bytes())]);
        assert_eq!(text, format!("{}{between}from {host}.\n", front.trim_end_matches(" from ")));
    }
}

/// The settings that are on have a second row only if it has some.
#[test]
fn settings_have_the_rows_that_they_need() {
    for (line, rows) in [
        (
            &b"2 ann 1 1 0 0 0 0 1 1 0 0 1 0 1 1500.00 0 0 none 0 0 UTC\r\n"[..],
            "On: allowpip autoboard crawford double\n    moreboards notify\n",
        ),
        (b"2 ann 1 1 0 0 0 0 0 0 0 0 0 0 0 1500.00 0 0 none 0 0 UTC\r\n", "On: allowpip autoboard\n"),
    ] {
        let text = shown(plain_settings(), &FIRST_BOARD, &[Hears(line)]);
        let on = text.rfind("On:").map_or("", |at| &text[at..]);
        assert_eq!(on, rows);
    }
}

/// The fields of message 2 after the name, in the server's order, and what they are if they are no setting that is off.
static OWN_FIELDS: [(&str, Option<&str>); 20] = [
    ("allowpip", None),
    ("autoboard", None),
    ("autodouble", None),
    ("automove", None),
    ("away", None),
    ("bell", None),
    ("crawford", None),
    ("double", None),
    ("experience", Some("0")),
    ("greedy", None),
    ("moreboards", None),
    ("moves", None),
    ("notify", None),
    ("rating", Some("1500.00")),
    ("ratings", None),
    ("ready", None),
    ("redoubles", Some("none")),
    ("report", None),
    ("silent", None),
    ("timezone", Some("UTC")),
];

/// A setting that is on alone is named alone, by its own name.
#[test]
fn each_setting_is_named_by_its_own_field() {
    for (at, (name, other)) in OWN_FIELDS.iter().enumerate() {
        if other.is_some() {
            continue;
        }
        let fields = OWN_FIELDS.iter().map(|(field, value)| value.unwrap_or(if field == name { "1" } else { "0" }));
        let line = format!("2 ann {}\r\n", fields.collect::<Vec<_>>().join(" "));
        // the second row begins after greedy
        let row = if at < 10 { format!("On: {name}\n") } else { format!("On:\n    {name}\n") };
        assert_ends(plain_settings(), &FIRST_BOARD, &[Hears(line.as_bytes())], &row);
    }
}
