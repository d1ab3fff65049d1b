//! `std::io`, and the three standard streams as Rattle has them: each call is one call of the system, and nothing is
//! kept in between.

pub use std::io::*;

use crate::alloc::AllocError;

/// Whether a stream is a terminal. Rust's own trait can't be given to other types.
pub trait IsTerminal {
    /// True if it is one.
    fn is_terminal(&self) -> bool;
}

/// The standard input.
#[derive(Clone, Copy)]
pub struct Stdin;

/// The standard output.
#[derive(Clone, Copy)]
pub struct Stdout;

/// The standard error.
#[derive(Clone, Copy)]
pub struct Stderr;

impl IsTerminal for Stdin {
    fn is_terminal(&self) -> bool {
        std::io::IsTerminal::is_terminal(&std::io::stdin())
    }
}

impl IsTerminal for Stdout {
    fn is_terminal(&self) -> bool {
        std::io::IsTerminal::is_terminal(&std::io::stdout())
    }
}

impl IsTerminal for Stderr {
    fn is_terminal(&self) -> bool {
        std::io::IsTerminal::is_terminal(&std::io::stderr())
    }
}

#[cfg(unix)]
mod system {
    use super::{Result, Stderr, Stdin, Stdout};
    use std::fs::File;
    use std::io::{Read, Write};
    use std::mem::ManuallyDrop;
    use std::os::fd::{AsRawFd, FromRawFd, RawFd};

    impl AsRawFd for Stdin {
        fn as_raw_fd(&self) -> RawFd {
            0
        }
    }

    /// A standard stream as a file without a buffer, which is never closed.
    fn file(fd: RawFd) -> ManuallyDrop<File> {
        // SAFETY: it is never closed here, and a descriptor that is not open gives an error at each call.
        ManuallyDrop::new(unsafe { File::from_raw_fd(fd) })
    }

    impl Read for Stdin {
        fn read(&mut self, buf: &mut [u8]) -> Result<usize> {
            file(0).read(buf)
        }
    }

    impl Write for Stdout {
        fn write(&mut self, buf: &[u8]) -> Result<usize> {
            file(1).write(buf)
        }

        fn flush(&mut self) -> Result<()> {
            Ok(())
        }
    }

    impl Write for Stderr {
        fn write(&mut self, buf: &[u8]) -> Result<usize> {
            file(2).write(buf)
        }

        fn flush(&mut self) -> Result<()> {
            Ok(())
        }
    }
}

/// Elsewhere the streams are those of Rust's `std`, flushed at each write.
#[cfg(not(unix))]
mod system {
    use super::{Result, Stderr, Stdin, Stdout};
    use crate::os::fd::{AsRawFd, RawFd};
    use std::io::{Read, Write};

    impl AsRawFd for Stdin {
        fn as_raw_fd(&self) -> RawFd {
            0
        }
    }

    impl Read for Stdin {
        fn read(&mut self, buf: &mut [u8]) -> Result<usize> {
            std::io::stdin().read(buf)
        }
    }

    impl Write for Stdout {
        fn write(&mut self, buf: &[u8]) -> Result<usize> {
            let mut out = std::io::stdout();
            out.write_all(buf)?;
            out.flush()?;
            Ok(buf.len())
        }

        fn flush(&mut self) -> Result<()> {
            std::io::stdout().flush()
        }
    }

    impl Write for Stderr {
        fn write(&mut self, buf: &[u8]) -> Result<usize> {
            std::io::stderr().write(buf)
        }

        fn flush(&mut self) -> Result<()> {
            Ok(())
        }
    }
}

impl From<AllocError> for Error {
    fn from(_error: AllocError) -> Error {
        ErrorKind::OutOfMemory.into()
    }
}
