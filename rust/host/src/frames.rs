//! Records from a socket: fragments are joined behind one mark, as the core takes them.
use crate::sys;
use proved::codes;
use std::io::{ErrorKind, Read};
use std::net::TcpStream;
use std::time::{Duration, Instant};
use wire::{HEADER, LAST, put_word, word};

/// The longest record, without its mark.
const LONGEST: usize = codes::LARGEST_MESSAGE;
/// An empty fragment that is not the last could be sent for ever.
const MOST_FRAGMENTS: usize = 4_096;
/// From the first byte of a record to its last.
const RECORD_LIMIT: Duration = Duration::from_secs(30);
/// What is read at once.
const ROOM: usize = 1 << 18;

/// How a connection ended.
#[derive(Debug, PartialEq)]
pub enum End {
    /// Between two records.
    Closed,
    /// No record began in its time.
    Silent,
    /// Inside a record.
    Cut,
    TooLong,
    TooSlow,
}

pub struct Frames {
    socket: TcpStream,
    buffer: Vec<u8>,
    start: usize,
    end: usize,
    record: Vec<u8>,
    /// The socket's limit as it is set.
    limit: Duration,
    whole_within: Duration,
}

impl Frames {
    pub fn new(socket: TcpStream) -> Frames {
        let (buffer, record) = (vec![0; ROOM], Vec::new());
        Frames { socket, buffer, start: 0, end: 0, record, limit: Duration::ZERO, whole_within: RECORD_LIMIT }
    }

    /// Whether a byte, or the connection's end, waits to be read.
    pub fn waiting(&mut self) -> bool {
        if self.start < self.end || self.socket.set_nonblocking(true).is_err() {
            return true;
        }
        let seen = self.socket.peek(&mut [0]);
        let back = self.socket.set_nonblocking(false);
        back.is_err() || !matches!(seen, Err(e) if e.kind() == ErrorKind::WouldBlock)
    }

    /// Reads what is there into the empty buffer; 0 is the end.
    fn refill(&mut self, limit: Duration) -> Result<usize, End> {
        if limit.is_zero() {
            return Err(End::TooSlow);
        }
        if limit != self.limit {
            self.socket.set_read_timeout(Some(limit)).map_err(|_| End::Cut)?;
            self.limit = limit;
        }
        loop {
            match self.socket.read(&mut self.buffer) {
                Ok(n) => {
                    (self.start, self.end) = (0, n);
                    return Ok(n);
                }
                Err(e) if e.kind() == ErrorKind::Interrupted => {}
                Err(e) if e.kind() == ErrorKind::WouldBlock => return Err(End::TooSlow),
                // Also a client that does not answer the system any more.
                Err(_) => return Err(End::Cut),
            }
        }
    }

    /// Adds `n` bytes to the record.
    fn gather(&mut self, mut n: usize, deadline: Instant) -> Result<(), End> {
        while n > 0 {
            if self.start == self.end {
                // A client that sends a record in pieces waits for the word that the first has come.
                let _ = sys::quick_ack(&self.socket);
                if self.refill(deadline.saturating_duration_since(Instant::now()))? == 0 {
                    return Err(End::Cut);
                }
            }
            let k = n.min(self.end - self.start);
            self.record.extend_from_slice(&self.buffer[self.start..self.start + k]);
            self.start += k;
            n -= k;
        }
        Ok(())
    }

    /// Reads the next record: its first byte comes within `idle`, and its last by `until`, where that is said.
    pub fn read(&mut self, idle: Duration, until: Option<Instant>) -> Result<(), End> {
        let now = Instant::now();
        let left = until.map_or(idle, |u| idle.min(u.saturating_duration_since(now)));
        if self.start == self.end {
            let came = self.refill(left).map_err(|e| if e == End::TooSlow { End::Silent } else { e })?;
            if came == 0 {
                return Err(End::Closed);
            }
        }
        let deadline = Instant::now() + self.whole_within;
        let deadline = until.map_or(deadline, |u| u.min(deadline));
        self.record.clear();
        self.record.extend([0; 4]);
        for _ in 0..MOST_FRAGMENTS {
            let at = self.record.len();
            self.gather(4, deadline)?;
            let mark = word(&self.record, at);
            self.record.truncate(at);
            let n = (mark & !LAST) as usize;
            if n > LONGEST - (at - 4) {
                return Err(End::TooLong);
            }
            self.gather(n, deadline)?;
            if mark & LAST != 0 {
                let whole = LAST | (self.record.len() - 4) as u32;
                put_word(&mut self.record, 0, whole);
                return Ok(());
            }
        }
        Err(End::TooLong)
    }

    /// The record that was read last.
    pub fn record(&self) -> &[u8] {
        &self.record
    }

    /// The next record, if it was read together with the last and is whole, in one fragment.
    pub fn next(&self) -> Option<&[u8]> {
        let rest = &self.buffer[self.start..self.end];
        let mark = rest.get(..4).map(|b| word(b, 0)).filter(|m| m & LAST != 0)?;
        rest.get(..4 + (mark & !LAST) as usize).filter(|r| r.len() >= HEADER && r.len() <= 4 + LONGEST)
    }
}

#[cfg(test)]
mod tests {
    use super::*;
    use std::io::Write;
    use std::net::TcpListener;
    use wire::{message, request, words};

    fn pair() -> (TcpStream, Frames) {
        let listener = TcpListener::bind("127.0.0.1:0").unwrap();
        let client = TcpStream::connect(listener.local_addr().unwrap()).unwrap();
        (client, Frames::new(listener.accept().unwrap().0))
    }

    const LONG: Duration = Duration::from_secs(20);

    #[test]
    fn record_that_comes_slowly_is_given_up() {
        let (mut client, mut frames) = pair();
        frames.whole_within = Duration::from_millis(300);
        // A byte now and then, for ever.
        let drip = std::thread::spawn(move || {
            let all = [&words(&[0x8000_0100])[..], &[0; 200]].concat();
            for byte in all {
                if client.write_all(&[byte]).is_err() {
                    return;
                }
                std::thread::sleep(Duration::from_millis(20));
            }
        });
        assert_eq!(frames.read(LONG, None), Err(End::TooSlow));
        drop(frames);
        drip.join().unwrap();
        // Nothing at all, and too late for another reason.
        let (_client, mut frames) = pair();
        assert_eq!(frames.read(Duration::from_millis(50), None), Err(End::Silent));
        assert_eq!(frames.read(LONG, Some(Instant::now() + Duration::from_millis(50))), Err(End::Silent));
        assert_eq!(frames.read(LONG, Some(Instant::now())), Err(End::Silent));
    }

    #[test]
    fn next_record_is_known_if_it_came_too() {
        let (mut client, mut frames) = pair();
        let (a, b) = (request(1, message::TAPE_WRITE, &[1; 8]), request(2, message::TAPE_READ, &[2; 4]));
        client.write_all(&[&a[..], &b, &a[..10]].concat()).unwrap();
        std::thread::sleep(Duration::from_millis(100));
        frames.read(LONG, None).unwrap();
        assert_eq!((frames.record(), frames.next()), (&a[..], Some(&b[..])));
        frames.read(LONG, None).unwrap();
        assert_eq!((frames.record(), frames.next()), (&b[..], None));
    }
}
