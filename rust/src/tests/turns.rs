//! Turns, plays and arrangements as values.

use crate::fibs_rules::{Arrangement, Play, Step, Turn};
use crate::tests::table::turns;

/// Counts by place; the checkers that are left are at `rest`.
fn counts(placed: &[(u8, u8)], rest: usize) -> [u8; 26] {
    let mut counts = [0u8; 26];
    let mut on = 0u8;
    for (place, count) in placed {
        if *place < 26 {
            counts[usize::from(*place)] = *count;
        }
        on = on.saturating_add(*count);
    }
    if rest < 26 {
        counts[rest] = 15u8.saturating_sub(on);
    }
    counts
}

/// The arrangement of these counts, if each side has fifteen checkers.
fn arrangement(own: &[(u8, u8)], other: &[(u8, u8)]) -> Option<Arrangement> {
    Arrangement::new(counts(own, 0), counts(other, 25))
}

/// Without a die that can be played there is a play still, the one without a step, which no list of a board has.
#[test]
fn turns_are_as_worked_out() {
    let none = Play::new();
    for row in turns(include_str!("turns.txt")).unwrap() {
        let [one, other] = row.dice;
        let start = arrangement(&row.own, &row.other).expect(row.name);
        let turn = Turn::new(start, one, other);
        assert!(turn.plays().expect("memory is ample") == row.plays, "{}: the list", row.name);
        assert!(row.plays.iter().all(|play| turn.is_legal(play)), "{}: each is legal", row.name);
        assert!(!row.refused.iter().any(|play| turn.is_legal(play)), "{}: refused", row.name);
        let most = row.plays.iter().map(|play| play.steps().len()).max();
        assert_eq!(most, Some(usize::from(turn.most_dice())), "{}: the dice", row.name);
        assert_eq!(turn.can_move(), row.plays != [none], "{}: a checker moves", row.name);
    }
}

/// Tables that are wrong, and the line that is named.
static WRONG: [(&str, &str); 4] = [
    ("a turn | 24:1 | 13:2 | 6 5 | 24-18", "turns.txt:1: "),
    ("\na turn | 24:1 | 13:2 | 6 5 | 24-18 | none | none", "turns.txt:2: "),
    ("# a\na turn | 24 | 13:2 | 6 5 | 24-18 | none", "turns.txt:2: "),
    ("a turn | 24:1 | 13:2 | 6 5 | 24 | none", "turns.txt:1: "),
];

#[test]
fn the_line_of_a_table_that_is_wrong_is_named() {
    for (text, why) in &WRONG {
        assert!(turns(text).is_err_and(|found| found.starts_with(why)), "{text}");
    }
}

/// Whether a step can be pushed four times.
fn is_pushed_four_times(play: &mut Play, step: Step) -> bool {
    for _ in 0..4 {
        if !play.push(step) {
            return false;
        }
    }
    true
}

#[test]
fn a_play_has_four_steps() {
    let mut play = Play::new();
    let step = Step::new(24, 18).expect("it is a step");
    let is_pushed = is_pushed_four_times(&mut play, step);
    let full = play;
    let is_refused = !play.push(step);
    assert!(is_pushed && is_refused && play == full);
}

/// Where a step leads, as the server carries it out, which asks for no dice.
fn leads_to(start: &Arrangement, source: u8, target: u8) -> Option<Option<Arrangement>> {
    let step = Step::between(source, target)?;
    Some(start.carried_out(&[step]))
}

/// Whether a step leads to the hit, and two that can't be made lead nowhere.
fn lead_right(start: &Arrangement, hit: Arrangement) -> [bool; 3] {
    [
        leads_to(start, 24, 18) == Some(Some(hit)),
        leads_to(start, 24, 12) == Some(None),
        leads_to(start, 20, 19) == Some(None),
    ]
}

#[test]
fn carried_out() {
    let start = arrangement(&[(24, 2)], &[(18, 1), (12, 2)]);
    let hit = arrangement(&[(24, 1), (18, 1)], &[(0, 1), (12, 2)]);
    let start = start.expect("it is an arrangement");
    let led = lead_right(&start, hit.expect("it is an arrangement"));
    assert!(led == [true; 3], "24 to 18, 24 to 12, and 20 to 19");
}
