//! An end's connection by TCP: ports that are open for one peer, or the socket that joins it with that peer. Nothing here
//! waits, but for a connection that is made; and no more is held than a buffer.
use crate::sys::{self, Poll};
use proved::{Addresses, codes};
use std::io::{self, ErrorKind, Read, Write};
use std::net::{Ipv4Addr, Shutdown, SocketAddr, SocketAddrV4, TcpListener, TcpStream};
use std::time::{Duration, Instant};

/// Bytes that a peer has sent and that are not taken yet are not more: at least the longest record.
const ROOM: usize = 1 << 18;
/// How long a connection to one address is tried, and to all of a list.
const EACH: Duration = Duration::from_secs(3);
const ALL: Duration = Duration::from_secs(12);

#[derive(Default)]
pub enum Peer {
    #[default]
    None,
    /// Open ports.
    Listening(Vec<TcpListener>),
    Joined(Joined),
}

/// A socket with a peer. Its buffer holds what came and is not taken yet, or what goes and is not sent yet.
pub struct Joined {
    socket: TcpStream,
    pub name: SocketAddr,
    /// Bytes that went over it.
    pub bytes: u64,
    buffer: Vec<u8>,
    start: usize,
    end: usize,
    /// Whether the peer's stream has ended, to its last byte; and whether it is known that no more comes than waits in the system.
    pub ended: bool,
    pub ends: bool,
    /// When the end of one's own was sent, or last was not confirmed.
    closing: Option<Instant>,
}

fn would_wait(e: &io::Error) -> bool {
    matches!(e.kind(), ErrorKind::WouldBlock | ErrorKind::Interrupted)
}

/// Tries the addresses in their order, until one answers, all is tried, the time is over or `stop` says so. Each that does not
/// is told.
pub fn connect(list: &Addresses, stop: impl Fn() -> bool, told: impl Fn(SocketAddr, &str)) -> Option<Joined> {
    let until = Instant::now() + ALL;
    let all = list.hosts.iter().zip(&list.ports).take(list.count as usize);
    for (host, port) in all {
        let Ok(port) = u16::try_from(*port) else { continue };
        let at = SocketAddr::from(SocketAddrV4::new(Ipv4Addr::from(*host), port));
        let left = EACH.min(until.saturating_duration_since(Instant::now()));
        if left.is_zero() || stop() {
            told(at, "not tried, the time is over");
            return None;
        }
        match TcpStream::connect_timeout(&at, left).and_then(|socket| Joined::new(socket, at)) {
            Ok(joined) => return Some(joined),
            Err(e) => told(at, &e.to_string()),
        }
    }
    None
}

impl Joined {
    fn new(socket: TcpStream, name: SocketAddr) -> io::Result<Joined> {
        // The system may join a port with itself where nobody listens.
        if socket.local_addr()? == name {
            return Err(ErrorKind::ConnectionRefused.into());
        }
        socket.set_nonblocking(true)?;
        // Until it may end in order. So a program that is killed breaks it too.
        sys::break_on_close(&socket, true)?;
        // Of a peer that has gone already, which the first read or write tells.
        let _ = socket.set_nodelay(true);
        let _ = sys::keep_alive(&socket);
        let buffer = vec![0; ROOM];
        Ok(Joined { socket, name, bytes: 0, buffer, start: 0, end: 0, ended: false, ends: false, closing: None })
    }

    /// What came and is not taken yet, or goes and is not sent yet.
    pub fn held(&self) -> &[u8] {
        &self.buffer[self.start..self.end]
    }

    pub fn taken(&mut self, n: usize) {
        self.start += n;
    }

    /// Reads what has come, as far as there is room. False if there is nothing now.
    pub fn fill(&mut self) -> io::Result<bool> {
        if self.ended {
            return Ok(true);
        }
        self.buffer.copy_within(self.start..self.end, 0);
        (self.start, self.end) = (0, self.end - self.start);
        match self.socket.read(&mut self.buffer[self.end..]) {
            Ok(n) => {
                self.ended = n == 0 && self.end < ROOM;
                self.end += n;
                self.bytes += n as u64;
                Ok(n > 0 || self.ended)
            }
            Err(e) if would_wait(&e) => Ok(false),
            Err(e) => Err(e),
        }
    }

    /// Sends as much as the peer takes; 0 if it takes nothing now.
    pub fn send(&mut self, bytes: &[u8]) -> io::Result<usize> {
        match self.socket.write(bytes) {
            Ok(n) => {
                self.bytes += n as u64;
                Ok(n)
            }
            Err(e) if would_wait(&e) => Ok(0),
            Err(e) => Err(e),
        }
    }

    /// Where one record goes that is to be sent, when all before it has been.
    pub fn room(&mut self) -> &mut [u8] {
        (self.start, self.end) = (0, 0);
        &mut self.buffer[..codes::LONGEST_RECORD]
    }

    pub fn filled(&mut self, n: usize) {
        self.end = n;
    }

    /// Sends what is held. Whether all of it is sent.
    pub fn flush(&mut self) -> io::Result<bool> {
        while self.start < self.end {
            let n = match self.socket.write(&self.buffer[self.start..self.end]) {
                Err(e) if would_wait(&e) => return Ok(false),
                other => other?,
            };
            self.bytes += n as u64;
            self.start += n;
        }
        Ok(true)
    }

    /// Sends the stream's end. Whether the peer has all: it closes too, or does not, but its system has confirmed all for so long.
    pub fn close(&mut self, patience: Duration) -> io::Result<bool> {
        let since = match self.closing {
            Some(since) => since,
            None => {
                self.socket.shutdown(Shutdown::Write)?;
                Instant::now()
            }
        };
        let (rest, ended) = (sys::unconfirmed(&self.socket)?, self.has_ended());
        self.ends = ended;
        self.closing = Some(if rest > 0 { Instant::now() } else { since });
        // Last: a connection that broke has ended too.
        let done = rest == 0 && (ended || since.elapsed() >= patience);
        self.socket.take_error()?.map_or(Ok(done), Err)
    }

    pub fn is_closing(&self) -> bool {
        self.closing.is_some()
    }

    /// The peer is to see that the connection ended, and did not break, when it is closed.
    pub fn end_in_order(&self) {
        let _ = sys::break_on_close(&self.socket, false);
    }

    /// Whether the peer sends no more.
    pub fn has_ended(&self) -> bool {
        sys::has_ended(&self.socket)
    }

    pub fn is_broken(&self) -> bool {
        sys::is_broken(&self.socket)
    }

    /// Whether bytes of the peer wait in the system.
    pub fn has_bytes(&self) -> bool {
        self.socket.peek(&mut [0]).is_ok_and(|n| n > 0)
    }

    pub fn poll(&self, events: i16) -> Poll {
        Poll::new(&self.socket, events)
    }
}

impl Peer {
    pub fn joined(&mut self) -> Option<&mut Joined> {
        if let Peer::Joined(joined) = self { Some(joined) } else { None }
    }

    /// Takes the first that connects; the ports are closed then. None if nobody has yet.
    pub fn accept(&mut self) -> Option<io::Result<SocketAddr>> {
        let Peer::Listening(open) = self else { return None };
        let came = open.iter().find_map(|listener| match listener.accept() {
            Err(e) if would_wait(&e) || e.kind() == ErrorKind::ConnectionAborted => None,
            other => Some(other),
        })?;
        Some(came.and_then(|(socket, name)| Joined::new(socket, name)).map(|joined| {
            let name = joined.name;
            *self = Peer::Joined(joined);
            name
        }))
    }

    /// Bytes that went over the connection.
    pub fn bytes(&self) -> u64 {
        if let Peer::Joined(joined) = self { joined.bytes } else { 0 }
    }

    /// The open ports.
    pub fn ports(&self) -> Vec<SocketAddr> {
        match self {
            Peer::Listening(open) => open.iter().filter_map(|l| l.local_addr().ok()).collect(),
            _ => Vec::new(),
        }
    }
}
