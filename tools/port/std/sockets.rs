//! Sockets.
use crate::io;
use std::io::{Read, Write};
use std::os::unix::io::AsRawFd;
pub use std::net::{IpAddr, Ipv4Addr, Ipv6Addr, Shutdown, SocketAddr, ToSocketAddrs};

pub trait Net {
    type Listener;
    type Stream;
}

pub struct TcpListener(std::net::TcpListener);

impl TcpListener {
    pub fn bind<R: Net, A: ToSocketAddrs>(_: &R, address: A) -> io::Result<TcpListener> {
        Ok(TcpListener(std::net::TcpListener::bind(address)?))
    }
    pub fn accept(&self) -> io::Result<(TcpStream, SocketAddr)> {
        let (stream, peer) = self.0.accept()?;
        Ok((TcpStream(stream), peer))
    }
    pub fn as_raw_fd(&self) -> i32 {
        self.0.as_raw_fd()
    }
}

pub struct TcpStream(std::net::TcpStream);

impl TcpStream {
    pub fn connect<R: Net, A: ToSocketAddrs>(_: &R, address: A) -> io::Result<TcpStream> {
        Ok(TcpStream(std::net::TcpStream::connect(address)?))
    }
    pub fn set_nodelay(&self, is: bool) -> io::Result<()> {
        self.0.set_nodelay(is)
    }
    pub fn shutdown(&self, which: Shutdown) -> io::Result<()> {
        self.0.shutdown(which)
    }
}
impl Read for &TcpStream {
    fn read(&mut self, buffer: &mut [u8]) -> io::Result<usize> {
        (&self.0).read(buffer)
    }
}
impl Write for &TcpStream {
    fn write(&mut self, bytes: &[u8]) -> io::Result<usize> {
        (&self.0).write(bytes)
    }
    fn flush(&mut self) -> io::Result<()> {
        Ok(())
    }
}
