//! The handle by which a program reaches its devices, and what is done before its `main`.

use crate::alloc::AllocError;
use crate::io::{Stderr, Stdin, Stdout};

/// What a program does before its `main`, in place of Rust's own start, which `no_main` leaves out: that one opens
/// `/dev/null` for each standard stream that is closed, on which nothing fails, and panics if it finds no memory.
///
/// A write to a pipe that is closed is an error, and ends no program.
pub fn start() {
    #[cfg(unix)]
    // SAFETY: no handler is set.
    unsafe {
        libc::signal(libc::SIGPIPE, libc::SIG_IGN);
    }
}

/// How much memory the real crates may take of which a refusal would end the process.
const SPARE: usize = 256 * 1024;

/// An error if there is not so much memory. It is given back.
pub(crate) fn spare_memory() -> Result<(), AllocError> {
    Vec::<u8>::new().try_reserve_exact(SPARE).map_err(|_| AllocError)
}

/// The devices of the process.
#[derive(Clone, Copy)]
pub struct HostRuntime;

impl HostRuntime {
    /// The standard input.
    pub fn stdin(&self) -> Stdin {
        Stdin
    }

    /// The standard output.
    pub fn stdout(&self) -> Stdout {
        Stdout
    }

    /// The standard error.
    pub fn stderr(&self) -> Stderr {
        Stderr
    }
}
