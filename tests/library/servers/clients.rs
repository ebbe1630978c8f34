use std::alloc::Global;
use std::io::Write;
use std::net::{Net, Shutdown, SocketAddr, TcpListener, TcpStream};
use std::time::{Clock, Duration};
use std::{io, thread};

pub(super) const LOOK: &str = "{\"do\":\"look\"}\n";

pub(super) const LEAVE: &str = "{\"do\":\"leave\"}\n";

pub(super) const ACCUSE: &str = "{\"do\":\"accuse\",\"port\":1}\n";

/// Departures over port 0, to the safe node, and over port 1, to the black hole.
pub(super) const DEPART: &str = "{\"do\":\"depart\",\"port\":0}\n";

pub(super) const DEPART_TO_THE_HOLE: &str = "{\"do\":\"depart\",\"port\":1}\n";

pub(super) const GONE: &str = "{\"ok\":\"gone\"}\n";

pub(super) const BYE: &str = "{\"ok\":\"bye\"}\n";

pub(super) const NOTED: &str = "{\"ok\":\"noted\"}\n";

pub(super) const OVER: &str = "{\"ok\":\"over\"}\n";

/// Denials of an unknown key, of a key that was used before, and of a first line other than Enter.
pub(super) const UNKNOWN: &str = "{\"no\":\"key\"}\n";

pub(super) const TAKEN: &str = "{\"no\":\"taken\"}\n";

pub(super) const STRANGE: &str = "{\"no\":\"enter\"}\n";

/// The answers of a home base without anything on its whiteboard, and after an arrival by the link with label 0.
pub(super) const HERE: &str = "{\"board\":\"\",\"from\":null,\"ok\":\"here\",\"ports\":2}\n";

pub(super) const COME: &str = "{\"board\":\"\",\"from\":0,\"ok\":\"here\",\"ports\":2}\n";

/// Where clients connect to.
#[derive(Drop)]
pub(super) struct Client<'a, R> {
    rt: &'a R,
    alloc: Global,
    address: SocketAddr,
}

impl<'a, R: Net<Listener = TcpListener, Stream = TcpStream> + Clock> Client<'a, R> {
    pub(super) fn new(rt: &'a R, alloc: Global, address: SocketAddr) -> Client<'a, R> {
        Client { rt, alloc, address }
    }

    /// Opens a connection and sends these lines.
    pub(super) fn says(&self, lines: &str) -> io::Result<TcpStream> {
        let stream = TcpStream::connect(self.rt, self.address)?;
        (&mut &stream).write_all(lines.as_bytes())?;
        Ok(stream)
    }

    /// Opens a connection, enters with a key, and sends further lines.
    pub(super) fn enters(&self, key: &str, lines: &str) -> io::Result<TcpStream> {
        let enter = format!(in self.alloc; "{{\"do\":\"enter\",\"key\":\"{key}\"}}\n{lines}")?;
        self.says(enter.as_str())
    }

    /// All that the client of a connection hears once it has ended its input.
    pub(super) fn hears(&self, stream: TcpStream) -> io::Result<String> {
        stream.shutdown(Shutdown::Write)?;
        io::read_to_string(self.alloc, &stream)
    }

    /// Waits until `bytes` bytes can be read, at most 256. Fails if the server sends fewer.
    pub(super) fn waits_for(&self, stream: &TcpStream, bytes: usize) -> io::Result<()> {
        let mut buffer = [0; 256];
        for _ in 0..10_000 {
            if stream.peek(&mut buffer)? >= bytes {
                return Ok(());
            }
            thread::sleep(self.rt, Duration::from_millis(1));
        }
        Err(io::Error::other("nothing came"))
    }
}
