//! `std::os` of Rattle: descriptors. Elsewhere than on Unix they are sockets.

/// Descriptors.
#[cfg(unix)]
pub mod fd {
    pub use std::os::fd::{AsRawFd, IntoRawFd, RawFd};
}

/// Descriptors.
#[cfg(not(unix))]
pub mod fd {
    /// A descriptor.
    pub type RawFd = u64;

    /// What has one.
    pub trait AsRawFd {
        /// Its descriptor.
        fn as_raw_fd(&self) -> RawFd;
    }

    /// What can give its descriptor away.
    pub trait IntoRawFd {
        /// Its descriptor, which stays open.
        fn into_raw_fd(self) -> RawFd;
    }
}

/// What Unix alone has. Elsewhere it is asked for in vain.
pub mod unix {
    /// Files.
    pub mod fs {
        /// How a file is opened.
        pub trait OpenOptionsExt {
            /// Who may do what with the file, if it is made.
            fn mode(self, mode: u32) -> Self;
        }

        /// How a directory is made.
        pub trait DirBuilderExt {
            /// Who may do what with the directory.
            fn mode(self, mode: u32) -> Self;
        }
    }
}
