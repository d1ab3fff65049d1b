//! What a line of the user's own settings asks for, and what is said of a line that is no setting.

use super::seats::{Stopped, assert_wanted, plain_settings};
use crate::fibs_position::Numbers;
use crate::fibs_terminal::Terminal;
use crate::fibs_wording::environment::{Config, Setting, Settings, Telling, read_setting};
use crate::rattle::HostRuntime;
use std::env;
use std::fs;
use std::process::{Command, id};

/// What a line asks for, in a word.
fn asked(line: &str) -> &'static str {
    match read_setting(line.as_bytes()) {
        None => "none",
        Some(Setting::Nothing) => "nothing",
        Some(Setting::Gag(_)) => "gag",
        Some(Setting::Quiet) => "quiet",
        Some(Setting::Arrivals) => "arrivals",
        Some(Setting::Words(Telling::Long)) => "long words",
        Some(Setting::Words(Telling::Short)) => "short words",
        Some(Setting::NoColour) => "no colour",
        Some(Setting::NoBell) => "no bell",
        Some(Setting::NoRecord) => "no record",
        Some(Setting::NoTitle) => "no title",
        Some(Setting::OrderRoll) => "order roll",
        Some(Setting::Reconnect) => "reconnect",
        Some(Setting::Letters(_)) => "letters",
        Some(Setting::HomeAbove) => "home above",
        Some(Setting::Numbers(Numbers::TheOwn)) => "own numbers",
        Some(Setting::Numbers(Numbers::TheServers)) => "numbers of the server",
        Some(Setting::BoardAbove(true)) => "board above",
        Some(Setting::BoardAbove(false)) => "board below",
    }
}

/// Each line of the settings asks for one thing. One that says less or more asks for none.
#[test]
fn a_line_of_the_settings_asks_for_one_thing() {
    for (line, wanted) in [
        ("", "nothing"),
        (" \r", "nothing"),
        ("quiet", "quiet"),
        ("arrivals", "arrivals"),
        ("gag bob", "gag"),
        ("words", "long words"),
        ("words long", "long words"),
        ("words short", "short words"),
        ("no colour", "no colour"),
        ("no color", "no colour"),
        ("no bell", "no bell"),
        ("no title", "no title"),
        ("no record", "no record"),
        ("order roll", "order roll"),
        ("reconnect", "reconnect"),
        ("letters O X", "letters"),
        ("home above", "home above"),
        ("numbers own", "own numbers"),
        ("numbers server", "numbers of the server"),
        ("board above", "board above"),
        ("board below", "board below"),
        ("server fibs.com 4321 bob", "nothing"),
        ("log games", "nothing"),
    ] {
        assert_eq!(asked(line), wanted, "{line}");
    }
    for line in [
        "gag", "no", "order", "home", "letters", "numbers", "board", "server", "log", "quiet now", "reconnect now",
        "arrivals  now", "words  long", "words long now", "no  bell", "no bells", "no quiet", "order double",
        "home below", "numbers mine", "board left", "Quiet", "roll",
    ] {
        assert_eq!(asked(line), "none", "{line}");
    }
}

/// A digit is a place of a picture, and no letter of checkers; nor are two letters that are one.
#[test]
fn the_letters_of_checkers_are_none_that_a_picture_has() {
    for line in ["letters 0 X", "letters O 9", "letters X X", "letters + X", "letters O A", "letters OX X", "letters O"]
    {
        assert!(read_setting(line.as_bytes()).is_none(), "{line}");
    }
    for (line, letters) in [("letters a b", *b"ab"), ("  letters @ #\r", *b"@#")] {
        assert!(matches!(read_setting(line.as_bytes()), Some(Setting::Letters(found)) if found == letters), "{line}");
    }
}

/// A remark asks for nothing, whatever it says.
#[test]
fn a_remark_is_no_setting() {
    for line in ["# order roll", "#order roll", "# quiet", "#", " # words "] {
        assert!(matches!(read_setting(line.as_bytes()), Some(Setting::Nothing)), "{line}");
    }
    for line in ["order roll", " order roll\r"] {
        assert!(matches!(read_setting(line.as_bytes()), Some(Setting::OrderRoll)), "{line}");
    }
}

/// What a terminal says of the settings in the file that the environment names.
fn said_of_file() -> String {
    let mut said = Vec::new();
    let mut terminal = Terminal::new(&mut said, Stopped, Settings { columns: 999, ..plain_settings() });
    terminal.configure(&Config::read(&HostRuntime).expect("there is memory")).expect("it is shown");
    drop(terminal);
    String::from_utf8(said).expect("it is UTF-8")
}

/// Is there in the environment of the process that says what the file has.
const AGAIN: &str = "SAYS_SETTINGS";

/// The environment is that of a process: this test runs itself in another one, with a file of settings.
#[test]
fn a_line_that_is_no_setting_is_told_with_its_number_and_its_file() {
    if env::var_os(AGAIN).is_some() {
        return print!("{}", said_of_file());
    }
    let path = env::temp_dir().join(format!("fibs-settings-{}", id()));
    fs::write(&path, "quiet\ndance with me\nno bell\n").expect("it is written");
    let name = "tests::terminal::settings::a_line_that_is_no_setting_is_told_with_its_number_and_its_file";
    let mut again = Command::new(env::current_exe().expect("it has a path"));
    let ran = again.args([name, "--exact", "--nocapture"]).env(AGAIN, "1").env("FIBS_CONFIG", &path).output();
    fs::remove_file(&path).expect("it is there");
    let said = String::from_utf8(ran.expect("it runs").stdout).expect("it is UTF-8");
    let rows: Vec<&str> = said.lines().filter_map(|row| row.find("fibs: ").map(|at| &row[at..])).collect();
    let wanted = format!("fibs: line 2 of {} is no setting: dance with me", path.display());
    assert_wanted(rows == [wanted.as_str()], &said, &wanted);
}
