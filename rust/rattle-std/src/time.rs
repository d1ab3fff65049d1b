//! `std::time` of Rattle: a clock is asked by its handle.

use crate::HostRuntime;
use std::io;
use std::sync::OnceLock;
use std::time::{Instant, SystemTime};

pub use crate::base::time::*;

/// When the process first asked for a time since its start.
static START: OnceLock<Instant> = OnceLock::new();

/// A clock.
pub trait Clock {
    /// The time since a start, which is the same for all. It never goes back.
    fn monotonic(&self) -> io::Result<Duration>;

    /// The time since 1970.
    fn since_1970(&self) -> io::Result<Duration>;
}

impl Clock for HostRuntime {
    fn monotonic(&self) -> io::Result<Duration> {
        Ok(START.get_or_init(Instant::now).elapsed())
    }

    fn since_1970(&self) -> io::Result<Duration> {
        SystemTime::now().duration_since(SystemTime::UNIX_EPOCH).map_err(io::Error::other)
    }
}

impl<C: Clock> Clock for &C {
    fn monotonic(&self) -> io::Result<Duration> {
        (**self).monotonic()
    }

    fn since_1970(&self) -> io::Result<Duration> {
        (**self).since_1970()
    }
}
