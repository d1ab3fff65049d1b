//! Match files of a session that is worked out by hand. tests/javascript compares those of whole matches with what
//! scripts/fibs-mat makes.

use crate::{MatchFiles, read};

/// The boards of a game to 3 points: ann has rolled 6 and 3; she has played 24/18 13/10; and after a roll of 4 and 2
/// eve has played 13/9 8/6.
const BEGUN: &str = "board:You:eve:3:0:0:0:-2:0:0:0:0:5:0:3:0:0:0:-5:5:0:0:0:-3:0:-5:0:0:0:0:2:0:1:6:3:0:0:1:1:1:0:1:\
    -1:0:25:0:0:0:0:2:0:0:0";
const PLAYED: &str = "board:You:eve:3:0:0:0:-2:0:0:0:0:5:0:3:0:1:0:-5:4:0:0:0:-3:1:-5:0:0:0:0:1:0:-1:0:0:0:0:1:1:1:0:\
    1:-1:0:25:0:0:0:0:0:0:0:0";
const ANSWERED: &str = "board:You:eve:3:0:0:0:-2:0:0:0:0:5:0:3:0:1:0:-4:4:0:0:-1:-2:1:-6:0:0:0:0:1:0:1:0:0:0:0:1:1:1:0:\
    1:-1:0:25:0:0:0:0:0:0:0:0";

fn changed(board: &str, changes: &[(&str, &str)]) -> String {
    changes.iter().fold(board.into(), |line, (from, to)| line.replace(from, to))
}

/// The lines of a session: eve doubles, ann takes, and gives up; in the next game a lost connection hides the plays.
fn session() -> Vec<String> {
    let taken = (":1:1:1:0:1:-1:", ":2:1:0:0:1:-1:");
    let later = (":3:0:0:", ":3:0:2:");
    let rows = [
        "1 ann 1041253132 localhost",
        "** Player eve has joined you for a 3 point match.",
        BEGUN,
        PLAYED,
        "eve doubles. Type 'accept' or 'reject'.",
        &changed(PLAYED, &[(":1:1:1:0:1:-1:", ":1:1:1:1:1:-1:")]),
        &changed(PLAYED, &[taken]),
        "eve rolls 4 and 2.",
        &changed(PLAYED, &[taken, (":-1:0:0:0:0:", ":-1:0:0:4:2:")]),
        &changed(ANSWERED, &[taken]),
        "eve wins the game and gets 2 points. Sorry.",
        &changed(ANSWERED, &[taken, later, (":1:0:0:0:0:2:", ":0:0:0:0:0:2:")]),
        &changed(BEGUN, &[later]),
        "1 ann 1041253132 localhost",
        &changed(ANSWERED, &[later]),
    ];
    rows.map(String::from).into()
}

const WANTED: &str = " 3 point match

 Game 1
 ann : 0                        eve : 0
  1) 63: 24/18 13/10              Doubles => 2
  2)  Takes                      42: 13/9 8/6
                                  Wins 2 points

 Game 2
 ann : 0                        eve : 2
  1) 63: 24/18 13/10             42: 13/9 8/6

";

#[test]
fn a_session_becomes_a_file_for_each_match() {
    let mut files = MatchFiles::new("nobody");
    assert!(files.files().is_empty());
    let with_bob = changed(BEGUN, &[(":eve:3:", ":bob:9999:")]);
    for line in session().iter().chain([&with_bob]) {
        files.hear(&read(line.as_bytes())).expect("memory is ample");
    }
    let files = files.files();
    let opponents: Vec<&str> = files.iter().map(|file| file.opponent.as_str()).collect();
    assert_eq!(opponents, ["eve", "bob"]);
    assert_eq!(files[0].text, WANTED);
    assert_eq!(files[1].text, " 0 point match\n\n Game 1\n ann : 0                        bob : 0\n\n");
}

/// A player who rolls takes his offer back.
#[test]
fn an_offer_to_resign_that_nobody_answers_changes_nothing() {
    let mut lines = session();
    let rolls = lines.iter().position(|line| line.starts_with("eve rolls")).expect("she rolls once");
    lines.insert(rolls, "eve wants to resign. You will win 4 points. Type 'accept' or 'reject'.".into());
    let mut files = MatchFiles::new("ann");
    for line in &lines {
        files.hear(&read(line.as_bytes())).expect("memory is ample");
    }
    assert_eq!(files.files()[0].text, WANTED);
}

/// The file of ann's match with eve, whose first play ann has made, after these lines.
fn after_a_play(lines: &[&str]) -> String {
    let begun = ["1 ann 1041253132 localhost", "** Player eve has joined you for a 3 point match.", BEGUN, PLAYED];
    let mut files = MatchFiles::new("ann");
    for line in begun.iter().chain(lines) {
        files.hear(&read(line.as_bytes())).expect("memory is ample");
    }
    files.files()[0].text.clone()
}

const WON: &str = "You win the game and get 1 point. Congratulations!";

/// Neither a roll of which no board came, nor an offer to resign that was accepted. Of the next game the dice of the
/// first play are only told, or only shown; the play could be that of 4 and 2.
#[test]
fn nothing_goes_on_in_the_next_game() {
    let score = (":3:0:0:0:-2:", ":3:1:0:0:-2:");
    let rolled = changed(BEGUN, &[score, (":6:3:0:0:", ":5:1:0:0:")]);
    let to_7 = (":5:0:3:0:0:0:-5:5:", ":5:1:3:0:0:0:-5:4:");
    let played = changed(BEGUN, &[score, to_7, (":1:6:3:0:0:", ":-1:0:0:0:0:")]);
    let offer = "eve wants to resign. You will win 1 point. Type 'accept' or 'reject'.";
    for told in [["eve rolls 6 and 6.", WON, "You rolled 5, eve rolled 1"], [offer, WON, &rolled]] {
        let file = after_a_play(&[&told[..], &[&played]].concat());
        assert!(file.ends_with("\n  1) 51: 13/8 8/7                \n\n"), "{}: {file}", told[0]);
    }
}

#[test]
fn a_double_that_stood_was_not_dropped() {
    let doubled = changed(PLAYED, &[(":1:1:1:0:1:-1:", ":1:1:1:1:1:-1:")]);
    for (end, is_dropped) in [
        ("eve wins the game and gets 1 point. Sorry.", true),
        ("eve wins the game and gets 2 points. Sorry.", false),
        (WON, false),
    ] {
        let file = after_a_play(&["eve doubles. Type 'accept' or 'reject'.", &doubled, end]);
        assert_eq!((file.contains("Doubles => 2"), file.contains(" Drops")), (true, is_dropped), "{end}: {file}");
    }
}
