//! `std::fs` of Rattle: files, which are opened by the handle.

use crate::HostRuntime;
use crate::os::fd::{IntoRawFd, RawFd};
use crate::os::unix::fs::{DirBuilderExt, OpenOptionsExt};
use std::io;

/// What the system says of a file.
pub struct Metadata {
    inner: std::fs::Metadata,
}

impl Metadata {
    /// Whether it is one with bytes, and no directory, pipe or device.
    pub fn is_file(&self) -> bool {
        self.inner.is_file()
    }

    /// Whether it is a directory.
    pub fn is_dir(&self) -> bool {
        self.inner.is_dir()
    }
}

/// What the system says of the file at a path, which may be a link to it.
pub fn metadata(_rt: &HostRuntime, path: &str) -> io::Result<Metadata> {
    Ok(Metadata { inner: std::fs::metadata(path)? })
}

/// A file. It is closed when it is dropped.
pub struct File {
    inner: std::fs::File,
}

impl File {
    /// Opens a file, to read it.
    pub fn open(_rt: &HostRuntime, path: &str) -> io::Result<File> {
        Ok(File { inner: std::fs::File::open(path)? })
    }
}

/// The descriptor stays open.
impl IntoRawFd for File {
    #[cfg(unix)]
    fn into_raw_fd(self) -> RawFd {
        self.inner.into_raw_fd()
    }

    #[cfg(windows)]
    fn into_raw_fd(self) -> RawFd {
        std::os::windows::io::IntoRawHandle::into_raw_handle(self.inner) as RawFd
    }
}

impl io::Read for File {
    fn read(&mut self, buf: &mut [u8]) -> io::Result<usize> {
        self.inner.read(buf)
    }
}

impl io::Write for File {
    fn write(&mut self, buf: &[u8]) -> io::Result<usize> {
        self.inner.write(buf)
    }

    fn flush(&mut self) -> io::Result<()> {
        self.inner.flush()
    }
}

impl io::Seek for File {
    fn seek(&mut self, to: io::SeekFrom) -> io::Result<u64> {
        self.inner.seek(to)
    }
}

/// How a directory is made.
pub struct DirBuilder {
    inner: std::fs::DirBuilder,
}

impl DirBuilder {
    /// Without those that it is in, for everybody.
    #[allow(clippy::new_without_default)]
    pub fn new() -> DirBuilder {
        DirBuilder { inner: std::fs::DirBuilder::new() }
    }

    /// Whether those that it is in are made too, and it may be there.
    pub fn recursive(mut self, recursive: bool) -> DirBuilder {
        self.inner.recursive(recursive);
        self
    }

    /// Makes it.
    pub fn create(&self, _rt: &HostRuntime, path: &str) -> io::Result<()> {
        self.inner.create(path)
    }
}

impl DirBuilderExt for DirBuilder {
    #[cfg(unix)]
    fn mode(mut self, mode: u32) -> DirBuilder {
        std::os::unix::fs::DirBuilderExt::mode(&mut self.inner, mode);
        self
    }

    #[cfg(not(unix))]
    fn mode(self, _mode: u32) -> DirBuilder {
        self
    }
}

/// How a file is opened.
pub struct OpenOptions {
    inner: std::fs::OpenOptions,
}

impl OpenOptions {
    /// Not at all yet.
    #[allow(clippy::new_without_default)]
    pub fn new() -> OpenOptions {
        OpenOptions { inner: std::fs::OpenOptions::new() }
    }

    /// Whether it is read.
    pub fn read(mut self, read: bool) -> OpenOptions {
        self.inner.read(read);
        self
    }

    /// Whether it is written to.
    pub fn write(mut self, write: bool) -> OpenOptions {
        self.inner.write(write);
        self
    }

    /// Whether it is written to at its end.
    pub fn append(mut self, append: bool) -> OpenOptions {
        self.inner.append(append);
        self
    }

    /// Whether it is made if it is not there.
    pub fn create(mut self, create: bool) -> OpenOptions {
        self.inner.create(create);
        self
    }

    /// Opens a file so.
    pub fn open(&self, _rt: &HostRuntime, path: &str) -> io::Result<File> {
        Ok(File { inner: self.inner.open(path)? })
    }
}

impl OpenOptionsExt for OpenOptions {
    #[cfg(unix)]
    fn mode(mut self, mode: u32) -> OpenOptions {
        std::os::unix::fs::OpenOptionsExt::mode(&mut self.inner, mode);
        self
    }

    #[cfg(not(unix))]
    fn mode(self, _mode: u32) -> OpenOptions {
        self
    }
}
