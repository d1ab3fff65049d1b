//! Standing orders to roll.
use super::connected::{Kind, ScriptedTurn, Talk, TalkCue, assert_talk, assert_talks};
use crate::fibs_test_tools::pipe::{FAULT, QUIET};

const END: &[u8] = b"\r\n";

/// A board up to its turn.
const BOARD: &[u8] = b"board:You:bob:3:0:1:0:-2:0:0:0:0:5:0:3:0:0:0:-5:5:0:0:0:-3:0:-5:0:0:0:0:2:0";

/// What follows if the user is to roll and may double, if he may not, the same with the cube at 2, and after his
/// roll of 6 and 2.
const MAY_DOUBLE: &[u8] = b":1:0:0:0:0:1:1:1:0:1:-1:0:25:0:0:0:0:0:0:0:0";

const TO_ROLL: &[u8] = b":1:0:0:0:0:1:0:1:0:1:-1:0:25:0:0:0:0:0:0:0:0";

const TO_ROLL_FOR_TWO: &[u8] = b":1:0:0:0:0:2:0:1:0:1:-1:0:25:0:0:0:0:0:0:0:0";

const ROLLED: &[u8] = b":1:6:2:0:0:1:0:1:0:1:-1:0:25:0:0:0:0:0:0:0:0";

/// What the server sends before the first board, what is sent then, and what is printed.
const GREETING: &[u8] = b"1 ann 1041253132 localhost\r\n\
    2 ann 1 1 0 0 0 0 1 1 10 0 1 0 1 1500.00 0 0 0 0 0 UTC\r\n";

const SENT: &[u8] = b"set boardstyle 3\r\nboard\r\n";

const GREETED: &[u8] = b"message 1 ann 1041253132 localhost\n\
    message 2 ann 1 1 0 0 0 0 1 1 10 0 1 0 1 1500.00 0 0 0 0 0 UTC\n";

/// Lines that are typed one after another on one connection, and what is printed. A standing order is given once, and
/// withdrawn if it was given. Neither sends anything.
static TYPED: [Talk<'static>; 6] = [
    Talk {
        name: "orders",
        steps: &[TalkCue::Types(b"order roll", &[])],
        last: None,
        sent: &[],
        printed: &[b"ordered\n"],
    },
    Talk {
        name: "orders",
        steps: &[TalkCue::Types(b"order roll", &[]), TalkCue::Types(b"order roll", &[])],
        last: None,
        sent: &[],
        printed: &[b"ordered\nrefused 11 AlreadyOrdered\n"],
    },
    Talk {
        name: "orders",
        steps: &[TalkCue::Types(b"withdraw roll", &[])],
        last: None,
        sent: &[],
        printed: &[b"refused 12 NotOrdered\n"],
    },
    Talk {
        name: "orders",
        steps: &[
            TalkCue::Types(b"order roll", &[]),
            TalkCue::Types(b"withdraw roll", &[]),
            TalkCue::Types(b"withdraw roll", &[]),
            TalkCue::Types(b"order roll", &[]),
        ],
        last: None,
        sent: &[],
        printed: &[b"ordered\nwithdrawn\nrefused 12 NotOrdered\nordered\n"],
    },
    Talk {
        name: "orders",
        steps: &[
            TalkCue::Types(b"order  roll", &[]),
            TalkCue::Types(b"order roll ", &[]),
            TalkCue::Types(b"order", &[]),
            TalkCue::Types(b"Order roll", &[]),
            TalkCue::Types(b"order double", &[]),
        ],
        last: None,
        sent: &[],
        printed: &[b"unknown\nunknown\nunknown\nunknown\nunknown\n"],
    },
    Talk {
        name: "orders",
        steps: &[
            TalkCue::Types(b"withdraw  roll", &[]),
            TalkCue::Types(b"withdraw roll ", &[]),
            TalkCue::Types(b"withdraw", &[]),
            TalkCue::Types(b" withdraw roll", &[]),
        ],
        last: None,
        sent: &[],
        printed: &[b"unknown\nunknown\nunknown\nunknown\n"],
    },
];

#[test]
fn orders_are_given_and_withdrawn() {
    assert_talks(&TYPED);
}

static ROLLS_ONCE: [Talk<'static>; 1] = [Talk {
    name: "one roll",
    steps: &[
        TalkCue::Hears(&[GREETING, BOARD, TO_ROLL, END]),
        TalkCue::Types(b"order roll", &[]),
        TalkCue::Types(b"board", &[BOARD, TO_ROLL, END, BOARD, TO_ROLL, END]),
        TalkCue::Types(b"roll", &[]),
    ],
    last: None,
    sent: &[SENT, b"board\r\nroll\r\n"],
    printed: &[
        GREETED,
        BOARD,
        TO_ROLL,
        b"\nphase RollOrDouble\nordered\nsent board\n",
        BOARD,
        TO_ROLL,
        b"\nphase RollOrDouble\nsent roll\n",
        BOARD,
        TO_ROLL,
        b"\nphase RollOrDouble\nrefused 6 Waiting\n",
    ],
}];

/// On the board that is shown already nothing is sent. At the next board it rolls, and says so after the board's own
/// lines; on the same board not again.
#[test]
fn an_order_rolls_once_a_board() {
    assert_talks(&ROLLS_ONCE);
}

static SAID_LAST: [Talk<'static>; 1] = [Talk {
    name: "a roll that is confirmed",
    steps: &[
        TalkCue::Types(b"order roll", &[GREETING, BOARD, ROLLED, END]),
        TalkCue::Types(b"move 24-18 13-11", &[BOARD, TO_ROLL_FOR_TWO, END]),
    ],
    last: None,
    sent: &[SENT, b"move 24-18 13-11\r\nroll\r\n"],
    printed: &[
        b"ordered\n",
        GREETED,
        BOARD,
        ROLLED,
        b"\nphase Move\nsent move 24-18 13-11\n",
        BOARD,
        TO_ROLL_FOR_TWO,
        b"\nphase RollOrDouble\nconfirmed move 24-18 13-11\nsent roll\n",
    ],
}];

/// The line of a board: itself, its phase, the decision that it confirms, and then the roll of the order.
#[test]
fn the_roll_is_said_last() {
    assert_talks(&SAID_LAST);
}

static NOT_DUE: [Talk<'static>; 1] = [Talk {
    name: "no roll",
    steps: &[
        TalkCue::Types(b"order roll", &[GREETING, BOARD, MAY_DOUBLE, END]),
        TalkCue::Types(b"withdraw roll", &[BOARD, TO_ROLL, END]),
    ],
    last: None,
    sent: &[SENT],
    printed: &[
        b"ordered\n", GREETED, BOARD, MAY_DOUBLE, b"\nphase RollOrDouble\nwithdrawn\n", BOARD, TO_ROLL,
        b"\nphase RollOrDouble\n",
    ],
}];

/// If the user may double he is asked, and after a withdrawal too.
#[test]
fn an_order_that_is_not_due_sends_nothing() {
    assert_talks(&NOT_DUE);
}

/// The turn in which the client rolls by itself is the last, and the stream takes so many bytes of it.
fn roll_lost(room: usize) -> ScriptedTurn<'static> {
    ScriptedTurn { typed: None, heard: &[BOARD, TO_ROLL, END], after: QUIET, room, kind: Kind::LostWaiting }
}

/// The stream fails after each byte of the roll: it is lost, and neither the board nor the roll is printed.
#[test]
fn a_roll_that_is_not_written_is_lost() {
    let command = b"roll\r\n";
    for room in 0..command.len() {
        assert_talk(
            "a roll not written",
            &[TalkCue::Types(b"order roll", &[GREETING])],
            Some(roll_lost(room)),
            &[SENT, &command[..room]],
            &[b"ordered\n", GREETED, b"lost roll\n"],
        );
    }
}

/// The turn in which the client rolls by itself is the last, and the connection is lost then.
static LOST: [Talk<'static>; 1] = [Talk {
    name: "a roll that is lost",
    steps: &[TalkCue::Types(b"order roll", &[GREETING])],
    last: Some(ScriptedTurn {
        typed: None,
        heard: &[BOARD, TO_ROLL, END],
        after: FAULT,
        room: 4096,
        kind: Kind::LostWaiting,
    }),
    sent: &[SENT, b"roll\r\n"],
    printed: &[b"ordered\n", GREETED, BOARD, TO_ROLL, b"\nphase RollOrDouble\nsent roll\nlost roll\n"],
}];

/// A roll that was written whole is lost with its connection as any other.
#[test]
fn a_roll_that_waits_is_lost_with_its_connection() {
    assert_talks(&LOST);
}
