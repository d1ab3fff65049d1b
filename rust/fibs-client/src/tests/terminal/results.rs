//! What the matches of a user change: how he is rated, and the lines of his record.

use super::lines::{SETTINGS, WELCOME};
use super::seats::{Cue, Cue::Hears, assert_wanted, plain_settings, shown, shown_with_record};
use crate::fibs_wording::matches::read_match;
use std::fs;
use std::os::unix::fs::PermissionsExt;
use std::path::PathBuf;

/// The first board of a match to three points, and its last: the user has won 3 to 1.
const FIRST: &[u8] =
    b"board:You:bob:3:2:1:0:-2:0:0:0:0:5:0:3:0:0:0:-5:5:0:0:0:-3:0:-5:0:0:0:0:2:0:1:0:0:0:0:1:1:1:0:1:-1:0:25:0:0:0:0:2:0:0:0\r\n";

const LAST: &[u8] =
    b"board:You:bob:3:3:1:0:-2:0:0:0:0:5:0:3:0:0:0:-5:5:0:0:0:-3:0:-5:0:0:0:0:2:0:0:0:0:0:0:1:1:1:0:1:-1:0:25:0:0:0:0:2:0:0:0\r\n";

const BEGINS: &[u8] = b"** Player bob has joined you for a 3 point match.\r\n";

const WINS: &[u8] = b"You win the 3 point match 3-1 .\r\n";

const LOSES: &[u8] = b"bob wins the 3 point match 3-2 .\r\n";

/// How the server rates the user, and another player, after a match.
const RATED: &[u8] = b"5 ann - - 1 0 1509.98 3 0 1 host - -\r\n";

const AS_BEFORE: &[u8] = b"5 ann - - 0 0 1500.00 0 0 1 host - -\r\n";

const OF_BOB: &[u8] = b"5 bob - - 1 0 1490.02 3 0 1 host - -\r\n";

/// The same at the next login.
const SETTINGS_AFTER: &[u8] = b"2 ann 1 1 0 0 0 0 1 1 3 0 1 0 1 1509.98 0 0 none 0 0 UTC\r\n";

const RATING_ROW: &str = "You are rated 1509.98 now (+9.98), experience 3.\n";

/// Steps, and the rows that say how the user is rated, as often as they are said.
type RatedScene = (&'static [Cue<'static>], &'static [&'static str]);

/// A rating is said once a match, from the user's own line alone, and if it is known what it was before.
static RATINGS: [RatedScene; 10] = [
    (&[Hears(SETTINGS), Hears(BEGINS), Hears(WINS), Hears(OF_BOB), Hears(RATED), Hears(RATED)], &[RATING_ROW]),
    (
        &[Hears(SETTINGS), Hears(FIRST), Hears(LOSES), Hears(b"5 ann - - 1 0 1490.02 3 0 1 host - -\r\n")],
        &["You are rated 1490.02 now (-9.98), experience 3.\n"],
    ),
    // a line that says what was known before does not tell the rating after the match
    (&[Hears(SETTINGS), Hears(BEGINS), Hears(WINS), Hears(AS_BEFORE), Hears(RATED)], &[RATING_ROW]),
    // the line of the login's own list is known too
    (&[Hears(WELCOME), Hears(AS_BEFORE), Hears(BEGINS), Hears(WINS), Hears(RATED)], &[RATING_ROW]),
    // nothing is known, of whom the line is or what was before
    (&[Hears(BEGINS), Hears(WINS), Hears(RATED)], &[]),
    (&[Hears(WELCOME), Hears(BEGINS), Hears(WINS), Hears(RATED)], &[]),
    // no match has ended, or none of the user's
    (&[Hears(SETTINGS), Hears(RATED)], &[]),
    (&[Hears(SETTINGS), Hears(WINS), Hears(RATED)], &[]),
    (&[Hears(SETTINGS), Hears(FIRST), Hears(b"carl wins the 3 point match 3-2 .\r\n"), Hears(RATED)], &[]),
    // the connection ended in between: the next login tells it
    (
        &[
            Hears(SETTINGS),
            Hears(BEGINS),
            Hears(WINS),
            Cue::Loses,
            Cue::Opens,
            Hears(WELCOME),
            Hears(OF_BOB),
            Hears(SETTINGS_AFTER),
            Hears(RATED),
        ],
        &[RATING_ROW],
    ),
];

#[test]
fn a_rating_is_said_once_after_a_match() {
    for (steps, rows) in &RATINGS {
        let text = shown(plain_settings(), &[], steps);
        let said: Vec<&str> = text.split_inclusive('\n').filter(|row| row.starts_with("You are rated")).collect();
        assert_wanted(said == *rows, &text, &rows.concat());
    }
}

/// A name as long as one may be.
const LONG: &str = "a_name_of_sixty_four_bytes_as_long_as_a_player_may_have_one_here";

/// Steps, and what the screen shows of them from the end of the match on, if that is said.
static NEXTS: [(&[Cue<'static>], &str); 6] = [
    // the result, the rating, what next: once
    (
        &[Hears(SETTINGS), Hears(BEGINS), Hears(WINS), Hears(OF_BOB), Hears(RATED), Cue::Rests, Cue::Rests],
        "You win the 3 point match 3-1 .\nYou are rated 1509.98 now (+9.98), experience 3.\n\
         invite bob 3 plays another match; players ready lists others.\n",
    ),
    // if the server tells no rating, at once
    (
        &[Hears(BEGINS), Hears(WINS), Cue::Rests, Hears(RATED), Cue::Rests],
        "You win the 3 point match 3-1 .\ninvite bob 3 plays another match; players ready lists others.\n",
    ),
    // a text that says no score
    (&[Hears(BEGINS), Hears(b"You win the match .\r\n"), Cue::Rests], "You win the match .\n"),
    (
        &[Hears(BEGINS), Hears(b"You win the 3 point match .\r\n"), Cue::Rests],
        "You win the 3 point match .\nAnother match: players ready lists those who can be invited.\n",
    ),
    // the user is invited, or the connection is another one
    (
        &[
            Hears(WELCOME),
            Hears(SETTINGS),
            Hears(BEGINS),
            Hears(WINS),
            Hears(b"bob wants to play a 3 point match with you.\r\n"),
            Cue::Rests,
        ],
        "You win the 3 point match 3-1 .\nbob wants to play a 3 point match with you.\nYou are invited: join bob\n",
    ),
    (
        &[Hears(BEGINS), Hears(WINS), Cue::Loses, Cue::Opens, Cue::Rests],
        "You win the 3 point match 3-1 .\nlost: open connects again, quit ends\nconnected to fibs.com:4321\n",
    ),
];

#[test]
fn how_another_match_is_played_is_said_once_after_one() {
    for (steps, wanted) in &NEXTS {
        let text = shown(plain_settings(), &[], steps);
        let said = text.find("You win the").map_or("", |at| &text[at..]);
        assert_wanted(said == *wanted, &text, wanted);
    }
    // of others nothing is said
    let text = shown(plain_settings(), &[Hears(FIRST)], &[Hears(b"carl wins the 3 point match 3-2 .\r\n"), Cue::Rests]);
    assert!(!text.contains("another match"), "{text}");
}

#[test]
fn the_line_that_invites_to_another_match_is_whole_in_a_row() {
    let begins = format!("** Player {LONG} has joined you for a 9998 point match.\r\n");
    let ends = "You win the 9998 point match 9998-1 .\r\n";
    let text = shown(plain_settings(), &[], &[Hears(begins.as_bytes()), Hears(ends.as_bytes()), Cue::Rests]);
    let rows = format!("\ninvite {LONG} 9998\n plays another match; players ready lists others.\n");
    assert_wanted(text.ends_with(&rows), &text, &rows);
    assert!(text.lines().all(|row| row.len() <= 79), "{text}");
}

/// A folder of this name that is not there.
fn folder(name: &str) -> PathBuf {
    let folder = std::env::temp_dir().join(format!("fibs-record-{}-{name}", std::process::id()));
    let _none = fs::remove_dir_all(&folder);
    folder
}

/// What the screen shows after steps, and what the record has that is kept in a folder.
fn recorded(name: &str, steps: &[Cue<'_>]) -> (String, String) {
    let folder = folder(name);
    let text = shown_with_record(folder.join("fibs").to_str().expect("it is UTF-8"), steps);
    let file = fs::read_to_string(folder.join("fibs/matches")).unwrap_or_default();
    let _gone = fs::remove_dir_all(&folder);
    (text, file)
}

/// Steps, and the lines that the record has then.
type RecordScene = (&'static [Cue<'static>], &'static str);

/// What is kept is the match that has ended: the board that came last counts before the text, if the match is over on
/// it, and no board of another match does.
static RECORDS: [RecordScene; 13] = [
    (
        &[Hears(SETTINGS), Hears(BEGINS), Hears(FIRST), Hears(LAST), Hears(WINS), Hears(RATED), Hears(RATED)],
        "2003-01-05 13:07\tbob\t3\t3-1\t1500.00\t1509.98\t3\n",
    ),
    (&[Hears(BEGINS), Hears(FIRST), Hears(LOSES)], "2003-01-05 13:07\tbob\t3\t2-3\t-\t-\t-\n"),
    (
        &[Hears(SETTINGS), Hears(BEGINS), Hears(LAST), Hears(b"You win the 5 point match 5-4 .\r\n"), Hears(RATED)],
        "2003-01-05 13:07\tbob\t3\t3-1\t1500.00\t1509.98\t3\n",
    ),
    // the last board of the match before it says nothing of a match of which no board came
    (
        &[Hears(SETTINGS), Hears(LAST), Hears(WINS), Hears(RATED), Hears(BEGINS), Hears(LOSES)],
        "2003-01-05 13:07\tbob\t3\t3-1\t1500.00\t1509.98\t3\n2003-01-05 13:07\tbob\t3\t2-3\t1509.98\t-\t-\n",
    ),
    (
        &[
            Hears(LAST),
            Hears(b"** Player carl has joined you for a 3 point match.\r\n"),
            Hears(b"carl wins the 3 point match 3-0 .\r\n"),
        ],
        "2003-01-05 13:07\tcarl\t3\t0-3\t-\t-\t-\n",
    ),
    // two matches without a rating: each is kept once, the second at the end
    (
        &[Hears(FIRST), Hears(LOSES), Hears(BEGINS), Hears(WINS)],
        "2003-01-05 13:07\tbob\t3\t2-3\t-\t-\t-\n2003-01-05 13:07\tbob\t3\t3-1\t-\t-\t-\n",
    ),
    // its rating comes after the next match has begun, or with the next login
    (
        &[Hears(SETTINGS), Hears(FIRST), Hears(WINS), Hears(BEGINS), Hears(RATED), Hears(LOSES)],
        "2003-01-05 13:07\tbob\t3\t3-1\t1500.00\t1509.98\t3\n2003-01-05 13:07\tbob\t3\t2-3\t1509.98\t-\t-\n",
    ),
    (
        &[Hears(SETTINGS), Hears(FIRST), Hears(WINS), Cue::Loses, Cue::Opens, Hears(SETTINGS_AFTER)],
        "2003-01-05 13:07\tbob\t3\t3-1\t1500.00\t1509.98\t3\n",
    ),
    // a match that was saved and resumed ends once; one that is only saved does not
    (
        &[
            Hears(FIRST),
            Cue::Loses,
            Cue::Opens,
            Hears(b"bob has joined you. Your running match was loaded.\r\n"),
            Hears(WINS),
        ],
        "2003-01-05 13:07\tbob\t3\t3-1\t-\t-\t-\n",
    ),
    (&[Hears(FIRST), Hears(b"** Player bob has left the game. The game was saved.\r\n"), Hears(WINS)], ""),
    // the rating before it is not known
    (
        &[Hears(WELCOME), Hears(BEGINS), Hears(FIRST), Hears(WINS), Hears(RATED)],
        "2003-01-05 13:07\tbob\t3\t3-1\t-\t1509.98\t3\n",
    ),
    // a text that is no end of a match, or has no score of one
    (&[Hears(FIRST), Hears(b"You win the 3 point match 1-0 .\r\n"), Hears(RATED)], ""),
    (&[Hears(b"3\r\n"), Hears(FIRST), Hears(WINS), Hears(b"4\r\n")], ""),
];

#[test]
fn the_record_has_the_matches_that_ended() {
    for (number, (steps, lines)) in RECORDS.iter().enumerate() {
        let (text, file) = recorded(&format!("kept-{number}"), steps);
        assert_wanted(file == *lines, &format!("{file}after\n{text}"), lines);
    }
}

/// A match that has ended.
static ENDED: [Cue<'static>; 3] = [Hears(SETTINGS), Hears(FIRST), Hears(WINS)];

/// What the record has after the line of such a match was appended to this.
fn appended_to(name: &str, before: &str) -> String {
    let folder = folder(name);
    fs::create_dir_all(&folder).expect("it is made");
    fs::write(folder.join("matches"), before).expect("it is written");
    let _text = shown_with_record(folder.to_str().expect("it is UTF-8"), &ENDED);
    let file = fs::read_to_string(folder.join("matches")).expect("it is read");
    let _gone = fs::remove_dir_all(&folder);
    file
}

#[test]
fn a_line_follows_the_end_of_the_last_one() {
    let line = "2003-01-05 13:07\tbob\t3\t3-1\t1500.00\t-\t-\n";
    for (before, between) in [("", ""), ("any\n", ""), ("2002-01-01 10:00\tbob\t3", "\n"), ("\n", "")] {
        assert_eq!(appended_to("half", before), format!("{before}{between}{line}"));
    }
}

/// A length of eleven digits is read, and no longer one.
#[test]
fn the_longest_match_of_a_record_is_read() {
    for (length, is_read) in [("99999999999", true), ("100000000000", false)] {
        let line = format!("2003-01-05 13:07\tbob\t{length}\t{length}-0\t-\t-\t-");
        assert_eq!(read_match(line.as_bytes()).is_some(), is_read, "{length}");
    }
}

/// File and folder are their owner's alone.
#[test]
fn nobody_else_may_read_the_record() {
    let folder = folder("modes");
    let inner = folder.join("share/fibs");
    let _text = shown_with_record(inner.to_str().expect("it is UTF-8"), &ENDED);
    for (path, mode) in [(inner.clone(), 0o700), (inner.join("matches"), 0o600)] {
        let found = fs::metadata(&path).expect("it is there").permissions().mode() & 0o777;
        assert_eq!(found, mode, "{}", path.display());
    }
    let _gone = fs::remove_dir_all(&folder);
}

/// Two matches, and a list.
static TWO: [Cue<'static>; 5] = [Hears(FIRST), Hears(WINS), Hears(BEGINS), Hears(LOSES), Cue::Types(b"matches")];

/// That the record can't be written is said once; that it can't be read, each time.
#[test]
fn a_record_that_is_a_folder_is_said_once() {
    let folder = folder("folder");
    fs::create_dir_all(folder.join("matches")).expect("it is made");
    let text = shown_with_record(folder.to_str().expect("it is UTF-8"), &TWO);
    let _gone = fs::remove_dir_all(&folder);
    let rows: Vec<&str> = text.lines().filter(|row| row.starts_with("fibs:")).collect();
    assert_eq!(
        rows,
        ["fibs: the record can't be written: it is a directory", "fibs: the record can't be read: it is a directory"]
    );
    let (text, _) = recorded("none", &[Cue::Types(b"matches"), Cue::Types(b"MATCHES bob ")]);
    assert_eq!(text, "No match is recorded.\nNo match with bob is recorded.\n");
}

/// Lines of a record, some of which are not valid.
const FILE: &str = "2003-01-01 10:00\tbob\t5\t5-3\t1500.00\t1509.98\t5\n\
    2003-01-02 10:00\tbob\t5\t2-5\t1509.98\t1499.98\t10\n\
    2003-01-02 10:00\tbob\t5\n\
    2003-01-02 10:00:00\tbob\t5\t5-3\t1500.00\t1509.98\t5\n\
    2003-01-02 10:00\tbobby\t1\t1-0\t-\t-\t-\n\
    \x1b[2J\tbob\t5\t5-3\t1500.00\t1509.98\t5\n\
    -\tbob\t5\t5-x\t1500.00\t1509.98\t5\n\
    2003-01-02 10:00\tBob\t1\t1-0\t-\t1.50\t-\n\
    2003-01-03 10:00\tbob\t3\t3-1\t-\t1500.00\t3\textra\n";

/// What is typed, and the rows that answer it.
static LISTS: [(&[u8], &str); 6] = [
    (
        b"matches bob",
        "ended             opponent              score       rating
2003-01-01 10:00  bob                   5-3 of 5    1509.98 (+9.98)
2003-01-02 10:00  bob                   2-5 of 5    1499.98 (-10.00)
bob: 1 won, 1 lost.
",
    ),
    (
        b"Matches  ",
        "ended             opponent              score       rating
2003-01-01 10:00  bob                   5-3 of 5    1509.98 (+9.98)
2003-01-02 10:00  bob                   2-5 of 5    1499.98 (-10.00)
2003-01-02 10:00  bobby                 1-0 of 1
2003-01-02 10:00  Bob                   1-0 of 1    1.50
4 matches: 3 won, 1 lost.
",
    ),
    (
        b"matches Bob",
        "ended             opponent              score       rating
2003-01-02 10:00  Bob                   1-0 of 1    1.50
Bob: 1 won, 0 lost.
",
    ),
    (
        b"MATCHES Bob ",
        "ended             opponent              score       rating
2003-01-02 10:00  Bob                   1-0 of 1    1.50
Bob: 1 won, 0 lost.
",
    ),
    (b"matches bo", "No match with bo is recorded.\n"),
    (b"matches \xff\x1b", "No match is recorded.\n"),
];

#[test]
fn the_matches_with_a_player_are_those_whose_opponent_he_is() {
    let folder = folder("lists");
    fs::create_dir_all(&folder).expect("it is made");
    fs::write(folder.join("matches"), FILE).expect("it is written");
    for (line, rows) in &LISTS {
        let text = shown_with_record(folder.to_str().expect("it is UTF-8"), &[Cue::Types(line)]);
        assert_wanted(text == *rows, &text, rows);
    }
    let _gone = fs::remove_dir_all(&folder);
}

/// A screen of them is listed, the last; one that is not rated yet is the last of all.
#[test]
fn a_screen_of_matches_is_listed() {
    let folder = folder("many");
    fs::create_dir_all(&folder).expect("it is made");
    let lines: String = (0..100).map(|number| format!("2003-01-01 10:00\tbob\t{}\t99-0\t-\t-\t-\n", number)).collect();
    fs::write(folder.join("matches"), lines).expect("it is written");
    let steps = [Hears(FIRST), Hears(WINS), Cue::Types(b"matches bob")];
    let text = shown_with_record(folder.to_str().expect("it is UTF-8"), &steps);
    let _gone = fs::remove_dir_all(&folder);
    let rows: Vec<&str> = text.lines().skip_while(|row| !row.starts_with("The last")).collect();
    assert_eq!(rows.len(), 19, "{text}");
    assert_eq!(rows[0], "The last 16 of 101:");
    assert_eq!(rows[2], "2003-01-01 10:00  bob                   99-0 of 85");
    assert_eq!(rows[17], "2003-01-05 13:07  bob                   3-1 of 3");
    assert_eq!(rows[18], "bob: 101 won, 0 lost.");
}

/// A match that waits for its rating is listed behind a line that has no end.
#[test]
fn a_match_is_listed_after_half_a_line() {
    let folder = folder("behind");
    fs::create_dir_all(&folder).expect("it is made");
    fs::write(folder.join("matches"), FILE.lines().next().expect("it has a line")).expect("it is written");
    let steps = [Hears(FIRST), Hears(WINS), Cue::Types(b"matches")];
    let text = shown_with_record(folder.to_str().expect("it is UTF-8"), &steps);
    let _gone = fs::remove_dir_all(&folder);
    assert_wanted(text.ends_with("\n2 matches: 2 won, 0 lost.\n"), &text, "two matches");
}

/// Of a record of more than four megabytes the last part is read.
#[test]
fn the_last_matches_of_a_long_record_are_listed() {
    let folder = folder("long");
    fs::create_dir_all(&folder).expect("it is made");
    let line = "2003-01-01 10:00\tbob\t1\t1-0\t-\t-\t-\n";
    let last = "2003-01-02 10:00\teve\t1\t1-0\t-\t-\t-\n";
    fs::write(folder.join("matches"), line.repeat((5 << 20) / line.len()) + last).expect("it is written");
    let text = shown_with_record(folder.to_str().expect("it is UTF-8"), &[Cue::Types(b"matches eve")]);
    let _gone = fs::remove_dir_all(&folder);
    assert_wanted(text.ends_with("\neve: 1 won, 0 lost.\n"), &text, "the last match");
}
