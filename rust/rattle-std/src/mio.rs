//! Waiting for descriptors, over the crate `mio`. Where it has no descriptors nothing can be watched, and `Poll::new`
//! fails.

#[cfg(unix)]
mod system {
    use crate::alloc::AllocError;
    use std::io::{self, ErrorKind};
    use std::os::fd::{AsRawFd, RawFd};
    use std::time::Duration;

    pub use mio::{Interest, Registry, Token};

    /// A set of descriptors.
    pub struct Poll {
        inner: mio::Poll,
    }

    impl Poll {
        /// An empty one.
        pub fn new<N>(_net: &N) -> io::Result<Poll> {
            Ok(Poll { inner: mio::Poll::new()? })
        }

        /// Where descriptors are added to it.
        pub fn registry(&self) -> &Registry {
            self.inner.registry()
        }

        /// Waits. A signal ends it with no event.
        pub fn poll(&mut self, events: &mut Events, timeout: Option<Duration>) -> io::Result<()> {
            match self.inner.poll(&mut events.inner, timeout) {
                Err(error) if error.kind() == ErrorKind::Interrupted => {
                    events.inner.clear();
                    Ok(())
                }
                answer => answer,
            }
        }
    }

    impl AsRawFd for Poll {
        fn as_raw_fd(&self) -> RawFd {
            self.inner.as_raw_fd()
        }
    }

    /// What one wait gave.
    pub struct Events {
        inner: mio::Events,
    }

    impl Events {
        /// Room for so many.
        pub fn may_with_capacity(capacity: usize) -> Result<Events, AllocError> {
            Ok(Events { inner: mio::Events::with_capacity(capacity) })
        }
    }

    impl<'a> IntoIterator for &'a Events {
        type Item = &'a mio::event::Event;
        type IntoIter = mio::event::Iter<'a>;

        fn into_iter(self) -> Self::IntoIter {
            self.inner.iter()
        }
    }

    /// What Unix alone has.
    pub mod unix {
        pub use mio::unix::SourceFd;
    }
}

#[cfg(not(unix))]
#[allow(missing_docs)]
mod system {
    use crate::alloc::AllocError;
    use crate::os::fd::{AsRawFd, RawFd};
    use std::io::{self, ErrorKind};
    use std::time::Duration;

    #[derive(Clone, Copy, PartialEq, Eq)]
    pub struct Token(pub usize);

    #[derive(Clone, Copy)]
    pub struct Interest;

    impl Interest {
        pub const READABLE: Interest = Interest;
    }

    pub enum Registry {}

    impl Registry {
        pub fn register<S>(&self, _source: &mut S, _token: Token, _interest: Interest) -> io::Result<()> {
            match *self {}
        }

        pub fn reregister<S>(&self, _source: &mut S, _token: Token, _interest: Interest) -> io::Result<()> {
            match *self {}
        }
    }

    /// There is none.
    pub enum Poll {}

    impl Poll {
        pub fn new<N>(_net: &N) -> io::Result<Poll> {
            Err(ErrorKind::Unsupported.into())
        }

        pub fn registry(&self) -> &Registry {
            match *self {}
        }

        pub fn poll(&mut self, _events: &mut Events, _timeout: Option<Duration>) -> io::Result<()> {
            match *self {}
        }
    }

    impl AsRawFd for Poll {
        fn as_raw_fd(&self) -> RawFd {
            match *self {}
        }
    }

    pub struct Event(Token);

    impl Event {
        pub fn token(&self) -> Token {
            self.0
        }
    }

    pub struct Events([Event; 0]);

    impl Events {
        pub fn may_with_capacity(_capacity: usize) -> Result<Events, AllocError> {
            Ok(Events([]))
        }
    }

    impl<'a> IntoIterator for &'a Events {
        type Item = &'a Event;
        type IntoIter = std::slice::Iter<'a, Event>;

        fn into_iter(self) -> Self::IntoIter {
            self.0.iter()
        }
    }

    pub mod unix {
        pub struct SourceFd<'a>(pub &'a u64);
    }
}

pub use system::*;
