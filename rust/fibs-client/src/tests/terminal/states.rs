//! What the user waits for: the table of states, computed. No state is a dead end.

use crate::fibs_advice::standing::{Shown, Standing};
use crate::fibs_events::told::Told;

/// All states.
const STATES: [Standing; 25] = [
    Standing::Free,
    Standing::Invited,
    Standing::Playing,
    Standing::Asked,
    Standing::Offered,
    Standing::Refused,
    Standing::Same,
    Standing::Taken,
    Standing::Due,
    Standing::Doubled,
    Standing::Resigned,
    Standing::Conceded,
    Standing::Owed,
    Standing::Unsettled,
    Standing::Unanswered,
    Standing::Answered,
    Standing::Continued,
    Standing::Ended,
    Standing::Next,
    Standing::Joined,
    Standing::Gone,
    Standing::Reopened,
    Standing::Anew,
    Standing::Fresh,
    Standing::Back,
];

/// What a text may say.
const TOLD: [Told; 24] = [
    Told::Declined,
    Told::Refused,
    Told::NoDouble,
    Told::NoOffer,
    Told::Offered,
    Told::MustAnswer,
    Told::Continues,
    Told::Taken,
    Told::ToRoll,
    Told::ToMove,
    Told::Plays,
    Told::Doubles,
    Told::Resigns,
    Told::GameOver,
    Told::NextGame,
    Told::Joined,
    Told::MatchOver,
    Told::Saved,
    Told::NotPlaying,
    Told::Begins,
    Told::Resumes,
    Told::Invited,
    Told::NoMatch,
    Told::NotInvited,
];

/// What a board may say.
const SHOWN: [Shown; 7] = [
    Shown::GameOver,
    Shown::MatchOver,
    Shown::Double,
    Shown::DoubleStands,
    Shown::OfferStands,
    Shown::Stands,
    Shown::Plain,
];

/// An event of a conversation.
#[derive(Clone, Copy, Debug)]
enum Event {
    Told(Told),
    /// A board; whether the user has asked for it.
    Board(Shown, bool),
    Confirmed,
    Sent,
    Answered,
    Leaves,
    LogsOut,
    Another,
}

/// All events of the server.
fn of_the_server() -> Vec<Event> {
    let texts = TOLD.into_iter().map(Event::Told);
    let boards = SHOWN.into_iter().flat_map(|shown| [Event::Board(shown, false), Event::Board(shown, true)]);
    texts.chain(boards).chain([Event::Confirmed, Event::LogsOut, Event::Another]).collect()
}

/// All events.
fn events() -> Vec<Event> {
    let own = [Event::Sent, Event::Answered, Event::Leaves];
    of_the_server().into_iter().chain(own).collect()
}

/// The table: the state after an event.
fn after(state: Standing, event: Event) -> Standing {
    match event {
        Event::Told(told) => state.after(told),
        Event::Board(shown, asked) => state.after_board(shown, asked),
        Event::Confirmed => state.after_confirmed(),
        Event::Sent => state.after_sent(),
        Event::Answered => state.after_answer(),
        Event::Leaves => state.after_bye(),
        Event::LogsOut => state.after_not_invited(),
        Event::Another => state.after_another(),
    }
}

/// The states that can come after a state by some of these events.
fn reached(from: Standing, events: &[Event]) -> Vec<Standing> {
    let mut all = vec![from];
    let mut next = 0;
    while next < all.len() {
        for event in events {
            let state = after(all[next], *event);
            if !all.contains(&state) {
                all.push(state);
            }
        }
        next += 1;
    }
    all
}

#[test]
fn from_each_state_each_can_come_but_one_of_a_new_connection() {
    for state in STATES {
        let all = reached(state, &events());
        // of a connection before this one, and of an offer that was open then: those are not reached by events
        let missing: Vec<_> = STATES.into_iter().filter(|state| !all.contains(state)).collect();
        assert!(
            missing.iter().all(|state| matches!(
                state,
                Standing::Reopened | Standing::Conceded | Standing::Unsettled | Standing::Unanswered
            )),
            "{state:?}: {missing:?}"
        );
    }
}

#[test]
fn the_server_alone_leads_from_each_state_to_a_game_and_out_of_it() {
    for state in STATES {
        let all = reached(state, &of_the_server());
        assert!(all.contains(&Standing::Playing) && all.contains(&Standing::Free), "{state:?}: {all:?}");
    }
}

/// After the answer to `board`, whatever board that is, what the client takes is said, or the state's own row leads on.
#[test]
fn a_board_that_was_asked_for_leads_on() {
    let boards: Vec<_> = SHOWN.into_iter().map(|shown| Event::Board(shown, true)).collect();
    for state in STATES {
        for event in &boards {
            let state_after = after(state, *event);
            let leads_on = !state_after.hides_offers()
                || matches!(
                    state_after,
                    Standing::Offered
                        | Standing::Conceded
                        | Standing::Ended
                        | Standing::Next
                        | Standing::Joined
                        | Standing::Free
                        | Standing::Unsettled
                        | Standing::Unanswered
                        | Standing::Continued
                );
            assert!(leads_on, "{state:?}, {event:?}: {state_after:?}");
        }
    }
}

/// The table: for each event the states that it changes.
fn table() -> String {
    let mut table = String::new();
    for event in events() {
        table.push_str(&format!("{event:?}:"));
        for state in STATES {
            let next = after(state, event);
            if next != state {
                table.push_str(&format!(" {state:?}->{next:?}"));
            }
        }
        table.push('\n');
    }
    table
}

/// A change of the table is to be read, row by row.
#[test]
fn the_table_is_the_one_that_was_read() {
    let found = table();
    for (row, wanted) in found.lines().zip(include_str!("states.txt").lines()) {
        assert_eq!(row, wanted, "{found}");
    }
    assert_eq!(found.lines().count(), events().len());
}
