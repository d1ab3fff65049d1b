//! The calls of C that the sources make themselves. An option that a system has not is not set.

use crate::os::fd::RawFd;

/// The descriptor of the standard input.
pub const STDIN_FILENO: RawFd = 0;

/// The descriptor of the standard output.
pub const STDOUT_FILENO: RawFd = 1;

/// The descriptor of the standard error.
pub const STDERR_FILENO: RawFd = 2;

/// The error of a call to a descriptor that is closed, or not open in this direction.
pub const EBADF: i32 = 9;

/// What the calls take.
pub mod types {
    #[cfg(unix)]
    pub use libc::pollfd;

    /// A descriptor, what is asked of it, and the answer.
    #[cfg(not(unix))]
    #[allow(missing_docs, non_camel_case_types)]
    pub struct pollfd {
        pub fd: crate::os::fd::RawFd,
        pub events: i16,
        pub revents: i16,
    }
}

/// Options of sockets, and what descriptors are ready for.
#[cfg(unix)]
pub mod net {
    use super::types::pollfd;
    use std::os::fd::RawFd;

    pub use libc::{IPPROTO_TCP, POLLHUP, POLLIN, SO_KEEPALIVE, SOL_SOCKET, TCP_KEEPCNT, TCP_KEEPINTVL};

    #[cfg(any(target_os = "macos", target_os = "ios"))]
    pub use libc::TCP_KEEPALIVE as TCP_KEEPIDLE;
    #[cfg(not(any(target_os = "macos", target_os = "ios")))]
    pub use libc::TCP_KEEPIDLE;

    #[cfg(any(target_os = "linux", target_os = "android", target_os = "fuchsia"))]
    pub use libc::TCP_USER_TIMEOUT;
    /// This system has no such option: none has this number.
    #[cfg(not(any(target_os = "linux", target_os = "android", target_os = "fuchsia")))]
    pub const TCP_USER_TIMEOUT: i32 = -1;

    /// Sets an option of a socket to the first `len` bytes of `value`.
    ///
    /// # Safety
    /// The option is one that takes bytes.
    pub unsafe fn setsockopt(fd: RawFd, level: i32, name: i32, value: &[u8; 16], len: u32) -> i32 {
        assert!(len <= 16);
        // SAFETY: the system reads `len` bytes, which `value` has.
        unsafe { libc::setsockopt(fd, level, name, value.as_ptr().cast(), len) }
    }

    /// Waits until a descriptor is ready, for so many milliseconds at most, and says what each is ready for.
    pub fn poll(fds: &mut [pollfd], timeout: i32) -> i32 {
        // SAFETY: the system reads and writes as many as `fds` has.
        unsafe { libc::poll(fds.as_mut_ptr(), fds.len() as libc::nfds_t, timeout) }
    }
}

/// Options of sockets: none is set.
#[cfg(not(unix))]
#[allow(missing_docs)]
pub mod net {
    use super::types::pollfd;
    use crate::os::fd::RawFd;

    pub const POLLIN: i16 = 1;
    pub const POLLHUP: i16 = 0x10;
    pub const IPPROTO_TCP: i32 = 6;
    pub const SOL_SOCKET: i32 = 0xffff;
    pub const SO_KEEPALIVE: i32 = 8;
    pub const TCP_KEEPIDLE: i32 = 3;
    pub const TCP_KEEPCNT: i32 = 16;
    pub const TCP_KEEPINTVL: i32 = 17;
    pub const TCP_USER_TIMEOUT: i32 = -1;

    /// It says that no option was set.
    ///
    /// # Safety
    /// It does nothing.
    pub unsafe fn setsockopt(_fd: RawFd, _level: i32, _name: i32, _value: &[u8; 16], _len: u32) -> i32 {
        -1
    }

    /// It says nothing of any descriptor, so none is closed.
    pub fn poll(_fds: &mut [pollfd], _timeout: i32) -> i32 {
        -1
    }
}
