//! What the texts of a server say of the match, and of whom.

use crate::fibs_events::told::{Told, read_told};

/// A text, what it says, and the player whom it names.
type Row = (&'static str, Option<Told>, &'static str);

/// Texts as servers print them, and texts that look like them.
static TEXTS: [Row; 61] = [
    ("bob rejects. The game continues.", Some(Told::Declined), "bob"),
    ("bob accepts the double. The cube shows 2.", Some(Told::Taken), "bob"),
    ("bob accepts and wins 2 points.", Some(Told::GameOver), "bob"),
    ("bob gives up. You win 1 point.", Some(Told::GameOver), "bob"),
    ("bob wins the game and gets 1 point. Sorry.", Some(Told::GameOver), "bob"),
    ("bob wins the 3 point match 3-0 .", Some(Told::MatchOver), "bob"),
    ("bob doubles. Type 'accept' or 'reject'.", Some(Told::Doubles), "bob"),
    ("bob wants to resign. You will win 1 point. Type 'accept' or 'reject'.", Some(Told::Resigns), "bob"),
    ("bob has joined you. Your running match was loaded.", Some(Told::Resumes), "bob"),
    ("bob wants to resume a saved match with you.", Some(Told::Invited), "bob"),
    ("bob wants to play a 3 point match with you.", Some(Told::Invited), "bob"),
    ("bob rolls 3 and 1.", Some(Told::Plays), "bob"),
    ("bob moves 8-5 6-5 .", Some(Told::Plays), "bob"),
    ("bob drops connection. The game was saved.", Some(Told::Saved), "bob"),
    ("** Please wait for bob to join too.", Some(Told::Joined), "bob"),
    ("Please wait for bob to join too.", Some(Told::Joined), "bob"),
    ("** Player bob has left the game. The game was saved.", Some(Told::Saved), "bob"),
    ("** Player bob has joined you for a 3 point match.", Some(Told::Begins), "bob"),
    ("** Player bob wants to play the next game. Type 'join' or 'leave'.", Some(Told::NextGame), "bob"),
    ("You are now playing with bob. Your running match was loaded.", Some(Told::Resumes), "bob"),
    ("Starting a new game with bob.", Some(Told::Begins), "bob"),
    ("Type 'join bob' to accept.", Some(Told::Invited), "bob"),
    ("** You are now playing a 3 point match with bob.", Some(Told::Begins), "bob"),
    ("** You terminated the game. The game was saved.", Some(Told::Saved), ""),
    ("** You're not playing. Type 'join' to play the next game.", Some(Told::NextGame), ""),
    ("** You're not playing.", Some(Told::NotPlaying), ""),
    ("** You are not playing.", Some(Told::NotPlaying), ""),
    ("** You're not watching or playing.", Some(Told::NotPlaying), ""),
    ("** Please wait until bob has accepted or rejected your offer.", Some(Told::Offered), ""),
    ("** You have to wait for bob to accept or reject.", Some(Told::Offered), ""),
    ("** You have to accept or reject bob's offer.", Some(Told::MustAnswer), ""),
    ("** Please type 'accept' or 'reject'.", Some(Told::MustAnswer), ""),
    ("** There's no saved match with bob. Please give a match length.", Some(Told::NoMatch), "bob"),
    ("** bob didn't invite you.", Some(Told::NotInvited), "bob"),
    ("** Nobody has invited you.", Some(Told::NotInvited), ""),
    ("** You can't double.", Some(Told::NoDouble), ""),
    ("** The Crawford rule doesn't allow you to double in this game.", Some(Told::NoDouble), ""),
    ("** You did already roll the dice.", Some(Told::Refused), ""),
    ("** There is nothing to accept.", Some(Told::NoOffer), ""),
    ("** Your opponent didn't double or resign.", Some(Told::NoOffer), ""),
    ("** It's not your turn to move.", Some(Told::Refused), ""),
    ("** You have to roll the dice before you move.", Some(Told::Refused), ""),
    ("** Can't understand the move 'x'.", Some(Told::Refused), ""),
    ("You double. Please wait for bob to accept or reject.", Some(Told::Offered), ""),
    ("You want to resign. bob will win 1 point.", Some(Told::Offered), ""),
    ("You reject. The game continues.", Some(Told::Continues), ""),
    ("You give up. bob wins 1 point.", Some(Told::GameOver), ""),
    ("You accept and win 1 point.", Some(Told::GameOver), ""),
    ("You win the game and get 1 point. Congratulations!", Some(Told::GameOver), ""),
    ("You win the 3 point match 3-1 .", Some(Told::MatchOver), ""),
    ("Type 'join' if you want to play the next game, type 'leave' if you don't.", Some(Told::NextGame), ""),
    ("It's your turn to roll or double.  ", Some(Told::ToRoll), ""),
    ("It's your turn. Please roll or double", Some(Told::ToRoll), ""),
    ("Please move 2 pieces.", Some(Told::ToMove), ""),
    ("bob wants to resign. eve will win 1 point.", None, ""),
    ("You roll 3 and 1.", None, ""),
    ("bob kibitzes: ann rejects. The game continues.", None, ""),
    ("eve wins a 3 point match against bob  3-1 .", None, ""),
    ("** You can't invite yourself.", None, ""),
    ("** 1 user heard you.", None, ""),
    ("", None, ""),
];

#[test]
fn a_text_says_one_thing() {
    for (text, told, name) in &TEXTS {
        let found = read_told(text.as_bytes());
        assert!(found.map(|report| report.told) == *told, "{text}");
        let named = match found {
            Some(report) => report.name,
            None => b"",
        };
        assert!(named == name.as_bytes(), "{text}");
    }
}

/// A name is one that a player may have, whatever a text says: the screen shows it as it is.
#[test]
fn a_text_names_no_player_whose_name_is_not_valid() {
    let Some(report) = read_told(b"Starting a new game with \x1b[2J.") else {
        panic!("it begins a game");
    };
    assert!(report.told == Told::Begins && report.name.is_empty());
    assert!(read_told(b"b:b rejects. The game continues.").is_none());
    assert!(read_told(b"\xc3\xa9 doubles. Type 'accept' or 'reject'.").is_none());
}
