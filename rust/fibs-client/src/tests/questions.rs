//! A server that asks for the login once more is told from one that asks once, however its bytes are cut.

use crate::fibs_events::asking::Asking;
use crate::fibs_lines::Questions;

/// What a server sends, and whether it asks once more at its end.
const ROWS: [(&[u8], bool); 19] = [
    (b"", false),
    (b"login: ", false),
    (b"Hello.\r\n\r\nlogin: ", false),
    (b"login: \r\nlogin: ", true),
    (b"login: \nlogin: ", true),
    (b"Hello.\r\nlogin: \r\n** User not known or wrong password.\r\nlogin: ", true),
    (b"login: \r\nlogin: \r\nlogin: ", true),
    // one of the two is no question, or has not come whole
    (b"login: \r\nlogin:", false),
    (b"login: \r\nlogin: x", false),
    (b"login: \r\nlogin: \r\n", false),
    (b"login: x\r\nlogin: ", false),
    (b"my login: \r\nlogin: ", false),
    (b"login:  \r\nlogin: ", false),
    (b"login\r\nlogin: ", false),
    // the user was greeted, by message 1, behind the question or not
    (b"login: 1 ann 1041253132 localhost\r\nlogin: \r\nlogin: ", false),
    (b"login: \r\n1 ann 1041253132 localhost\r\nlogin: ", false),
    (b"11 bob\r\nlogin: \r\nlogin: ", true),
    (b"1\r\nlogin: \r\nlogin: ", true),
    (b"x1 ann\r\nlogin: \r\nlogin: ", true),
];

#[test]
fn a_server_that_asks_once_more_is_told_from_one_that_asks_once() {
    for (bytes, wanted) in ROWS {
        for cut in 0..=bytes.len() {
            let mut questions = Questions::new();
            questions.hear(&bytes[..cut]);
            questions.hear(&bytes[cut..]);
            assert_eq!(questions.is_again(), wanted, "{:?} cut at {cut}", bytes.escape_ascii().to_string());
        }
    }
}

#[test]
fn the_event_of_a_refused_login_is_told_of_the_same_bytes() {
    for (bytes, wanted) in ROWS {
        assert_eq!(Asking::new().hear(bytes).is_some(), wanted, "{:?}", bytes.escape_ascii().to_string());
    }
}
