//! `std::net` of Rattle: sockets, which a net makes. The net of the process is its handle.

use crate::HostRuntime;
use crate::os::fd::{AsRawFd, RawFd};
use std::io::{self, ErrorKind, Read, Write};
use std::time::Duration;

pub use std::net::{IpAddr, Ipv4Addr, SocketAddr};

/// The most addresses of one name that are tried.
const MOST_ADDRS: usize = 32;

/// What makes sockets.
pub trait Net {
    /// Its connections.
    type Stream;

    /// What accepts its connections.
    type Listener;

    /// Accepts connections at an address.
    fn bind(&self, addr: SocketAddr) -> io::Result<Self::Listener>;

    /// Connects to an address.
    fn connect(&self, addr: SocketAddr) -> io::Result<Self::Stream>;

    /// Connects to an address, in so long at most.
    fn connect_timeout(&self, addr: SocketAddr, timeout: Duration) -> io::Result<Self::Stream>;

    /// The addresses of a name, and how many they are.
    fn lookup_host(&self, host: &str, port: u16, found: &mut [SocketAddr]) -> io::Result<usize>;
}

impl Net for HostRuntime {
    type Stream = TcpStream;

    type Listener = TcpListener;

    fn bind(&self, addr: SocketAddr) -> io::Result<TcpListener> {
        Ok(TcpListener { inner: std::net::TcpListener::bind(addr)? })
    }

    fn connect(&self, addr: SocketAddr) -> io::Result<TcpStream> {
        Ok(TcpStream { inner: std::net::TcpStream::connect(addr)? })
    }

    fn connect_timeout(&self, addr: SocketAddr, timeout: Duration) -> io::Result<TcpStream> {
        Ok(TcpStream { inner: std::net::TcpStream::connect_timeout(&addr, timeout)? })
    }

    fn lookup_host(&self, host: &str, port: u16, found: &mut [SocketAddr]) -> io::Result<usize> {
        let mut count = 0;
        for (place, addr) in found.iter_mut().zip(std::net::ToSocketAddrs::to_socket_addrs(&(host, port))?) {
            *place = addr;
            count += 1;
        }
        Ok(count)
    }
}

/// The addresses of a name.
pub type HostAddrs = std::iter::Take<std::array::IntoIter<SocketAddr, MOST_ADDRS>>;

fn one_addr(addr: SocketAddr) -> HostAddrs {
    [addr; MOST_ADDRS].into_iter().take(1)
}

/// What has addresses.
pub trait ToSocketAddrs {
    /// Its addresses.
    fn to_socket_addrs<N: Net>(&self, net: &N) -> io::Result<HostAddrs>;
}

impl ToSocketAddrs for SocketAddr {
    fn to_socket_addrs<N: Net>(&self, _net: &N) -> io::Result<HostAddrs> {
        Ok(one_addr(*self))
    }
}

impl ToSocketAddrs for (&str, u16) {
    fn to_socket_addrs<N: Net>(&self, net: &N) -> io::Result<HostAddrs> {
        let (host, port) = *self;
        if let Ok(ip) = host.parse() {
            return Ok(one_addr(SocketAddr::new(ip, port)));
        }
        let mut found = [SocketAddr::from(([0, 0, 0, 0], port)); MOST_ADDRS];
        let count = net.lookup_host(host, port, &mut found)?;
        Ok(found.into_iter().take(count))
    }
}

/// An address and a port, as `127.0.0.1:0`.
impl ToSocketAddrs for &str {
    fn to_socket_addrs<N: Net>(&self, _net: &N) -> io::Result<HostAddrs> {
        match self.parse() {
            Ok(addr) => Ok(one_addr(addr)),
            Err(_) => Err(ErrorKind::InvalidInput.into()),
        }
    }
}

/// A connection. It is closed when it is dropped.
pub struct TcpStream {
    inner: std::net::TcpStream,
}

/// What accepts connections.
pub struct TcpListener {
    inner: std::net::TcpListener,
}

/// What can be made at the first of these addresses at which it can.
fn first<T>(addrs: impl Iterator<Item = SocketAddr>, make: impl Fn(SocketAddr) -> io::Result<T>) -> io::Result<T> {
    let mut last = ErrorKind::InvalidInput.into();
    for addr in addrs {
        match make(addr) {
            Ok(made) => return Ok(made),
            Err(error) => last = error,
        }
    }
    Err(last)
}

impl TcpStream {
    /// Connects to the first of these addresses that answers.
    pub fn connect<N: Net, A: ToSocketAddrs>(net: &N, addr: A) -> io::Result<N::Stream> {
        first(addr.to_socket_addrs(net)?, |addr| net.connect(addr))
    }

    /// Connects to an address, in so long at most.
    pub fn connect_timeout<N: Net>(net: &N, addr: &SocketAddr, timeout: Duration) -> io::Result<N::Stream> {
        net.connect_timeout(*addr, timeout)
    }

    /// How long a read waits.
    pub fn set_read_timeout(&self, wait: Option<Duration>) -> io::Result<()> {
        self.inner.set_read_timeout(wait)
    }

    /// Whether what is written goes at once.
    pub fn set_nodelay(&self, nodelay: bool) -> io::Result<()> {
        self.inner.set_nodelay(nodelay)
    }
}

impl Read for TcpStream {
    fn read(&mut self, buf: &mut [u8]) -> io::Result<usize> {
        self.inner.read(buf)
    }
}

impl Write for TcpStream {
    fn write(&mut self, buf: &[u8]) -> io::Result<usize> {
        self.inner.write(buf)
    }

    fn flush(&mut self) -> io::Result<()> {
        self.inner.flush()
    }
}

impl AsRawFd for TcpStream {
    #[cfg(unix)]
    fn as_raw_fd(&self) -> RawFd {
        self.inner.as_raw_fd()
    }

    #[cfg(windows)]
    fn as_raw_fd(&self) -> RawFd {
        std::os::windows::io::AsRawSocket::as_raw_socket(&self.inner)
    }
}

impl TcpListener {
    /// Accepts connections at the first of these addresses at which it can.
    pub fn bind<N: Net, A: ToSocketAddrs>(net: &N, addr: A) -> io::Result<N::Listener> {
        first(addr.to_socket_addrs(net)?, |addr| net.bind(addr))
    }

    /// Its address.
    pub fn local_addr(&self) -> io::Result<SocketAddr> {
        self.inner.local_addr()
    }

    /// The next connection.
    pub fn accept(&self) -> io::Result<(TcpStream, SocketAddr)> {
        let (stream, addr) = self.inner.accept()?;
        Ok((TcpStream { inner: stream }, addr))
    }
}
