//! Lines of the server, for tests.

/// Message 1.
pub(crate) const WELCOME: &[u8] = b"1 ann 1041253132 localhost";

/// Message 2: both boards are sent, and the user plays himself.
pub(crate) const INFO: &[u8] = b"2 ann 1 1 0 0 0 0 1 1 10 0 1 0 1 1500.00 0 0 0 0 0 UTC";

/// Message 2 of a user to whom no boards are sent by themselves.
pub(crate) const INFO_NO_BOARDS: &[u8] = b"2 ann 1 0 0 0 0 0 1 1 10 0 0 0 1 1500.00 0 0 0 0 0 UTC";

/// Message 2: automove is 1.
pub(crate) const INFO_AUTOMOVE: &[u8] = b"2 ann 1 1 0 1 0 0 1 1 10 0 1 0 1 1500.00 0 0 0 0 0 UTC";
