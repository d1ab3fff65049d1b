//! A network in which nobody answers.

use crate::rattle::cell::Cell;
use crate::rattle::io;
use crate::rattle::io::ErrorKind;
use crate::rattle::net::{Net, SocketAddr, TcpListener, TcpStream};
use crate::rattle::time::Duration;

/// How often an address was tried, and how long the last of them might take.
pub(crate) type Tries = (u32, Option<Duration>);

/// A network in which each name has these two addresses, none of which answers.
pub(crate) struct Nobody<'a> {
    addresses: [SocketAddr; 2],
    tries: &'a Cell<Tries>,
}

impl<'a> Nobody<'a> {
    /// The network, which counts its tries.
    pub(crate) fn new(addresses: [SocketAddr; 2], tries: &'a Cell<Tries>) -> Nobody<'a> {
        Nobody { addresses, tries }
    }

    /// Counts one, and says why the address does not answer: the first one is silent, the second one refuses.
    fn tried(&self, addr: SocketAddr, most: Option<Duration>) -> io::Error {
        let (count, _) = self.tries.get();
        self.tries.set((count.saturating_add(1), most));
        let [silent, _refuses] = self.addresses;
        io::Error::from(if addr == silent { ErrorKind::TimedOut } else { ErrorKind::ConnectionRefused })
    }
}

impl Net for Nobody<'_> {
    type Stream = TcpStream;

    type Listener = TcpListener;

    fn bind(&self, _addr: SocketAddr) -> io::Result<TcpListener> {
        Err(io::Error::from(ErrorKind::AddrInUse))
    }

    fn connect(&self, addr: SocketAddr) -> io::Result<TcpStream> {
        Err(self.tried(addr, None))
    }

    fn connect_timeout(&self, addr: SocketAddr, timeout: Duration) -> io::Result<TcpStream> {
        Err(self.tried(addr, Some(timeout)))
    }

    fn lookup_host(&self, _host: &str, _port: u16, found: &mut [SocketAddr]) -> io::Result<usize> {
        let count = found.len().min(self.addresses.len());
        found[..count].copy_from_slice(&self.addresses[..count]);
        Ok(count)
    }
}
