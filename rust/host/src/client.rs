//! A small NDMP client: for `mossgoblin try`, the tests and the benchmark.
use proved::{Challenge, Data, Mover, codes};
use std::collections::VecDeque;
use std::fmt;
use std::io::{self, Read, Write};
use std::net::TcpStream;
use std::time::Duration;
use wire::md5::login_digest;
use wire::message::*;
use wire::{HEADER, Header, LAST, quad, quads, request, text, word, word_at, words};

/// A vault that does not answer for so long is given up.
const PATIENCE: Duration = Duration::from_secs(20);

/// Tape open's modes.
pub const TO_READ: u32 = 0;
pub const TO_WRITE: u32 = 1;

#[derive(Debug)]
pub enum Error {
    Connection(io::Error),
    /// The request's reply has this error.
    Refused {
        message: u32,
        error: u32,
    },
    /// An answer that no vault gives.
    Odd(String),
}

pub type Result<T> = std::result::Result<T, Error>;

impl From<io::Error> for Error {
    fn from(e: io::Error) -> Error {
        Error::Connection(e)
    }
}

impl fmt::Display for Error {
    fn fmt(&self, f: &mut fmt::Formatter) -> fmt::Result {
        match self {
            Error::Connection(e) if e.kind() == io::ErrorKind::UnexpectedEof => {
                write!(f, "the vault closed the connection")
            }
            Error::Connection(e) if matches!(e.kind(), io::ErrorKind::WouldBlock | io::ErrorKind::TimedOut) => {
                write!(f, "no answer within {} seconds", PATIENCE.as_secs())
            }
            Error::Connection(e) => write!(f, "{e}"),
            Error::Refused { message, error } => {
                write!(f, "{} was refused with {error}{}", name(*message), meaning(*error))
            }
            Error::Odd(what) => write!(f, "not an answer of a vault: {what}"),
        }
    }
}

/// A refusal's number in words.
pub fn meaning(error: u32) -> &'static str {
    match error {
        codes::NOT_SUPPORTED => " (not supported)",
        codes::DEVICE_OPENED => " (the device is open already, here or in another session)",
        codes::NOT_AUTHORIZED => " (not authorized)",
        codes::PERMISSION_DENIED => " (the tape is open for reading only)",
        codes::NOT_OPEN => " (the device is not open)",
        codes::IO_ERROR => " (the cartridge is damaged)",
        codes::ILLEGAL_ARGUMENTS => " (illegal arguments)",
        codes::NO_TAPE_LOADED => " (no cartridge is in the drive)",
        codes::AT_MARK => " (at a mark)",
        codes::AT_END => " (at the tape's end)",
        codes::BAD_FILE => " (another session has the tape, or its cartridge is damaged)",
        codes::NO_DEVICE => " (no such device)",
        codes::UNDECODABLE => " (not to be decoded)",
        codes::ILLEGAL_STATE => " (not in this state)",
        codes::NO_MEMORY => " (more variables than the vault keeps)",
        codes::OTHER_NOT_LISTENING => " (the other end does not listen)",
        codes::READ_IN_PROGRESS => " (a read is in progress)",
        codes::PRECONDITION => " (no window is set, or one that does not begin at 0)",
        _ => "",
    }
}

/// A reply or a notice.
#[derive(Debug)]
pub struct Message {
    pub header: Header,
    pub body: Vec<u8>,
}

impl Message {
    /// The first word of the body: a reply's error, or why a notice is sent.
    pub fn first(&self) -> u32 {
        word_at(&self.body, 0).unwrap_or(0)
    }
}

/// How a backup or a recover went: the windows that were set after the first, and how it ended.
#[derive(Clone, Copy, Debug, PartialEq)]
pub struct Ended {
    pub pauses: u32,
    pub why: Why,
}

#[derive(Clone, Copy, Debug, PartialEq)]
pub enum Why {
    /// The data end halted for this reason.
    Halted(u32),
    /// The mover paused for a reason that is no window's: the tape's end, or a mark.
    Paused(u32),
}

pub struct Client {
    pub socket: TcpStream,
    pub sequence: u32,
    /// The number that the vault's next message must have.
    expected: u32,
    /// Those that came before a reply.
    pub notices: VecDeque<Message>,
}

impl Client {
    pub fn connect(address: &str) -> Result<Client> {
        let socket = TcpStream::connect(address)?;
        socket.set_nodelay(true)?;
        socket.set_read_timeout(Some(PATIENCE))?;
        Ok(Client { socket, sequence: 0, expected: 1, notices: VecDeque::new() })
    }

    /// The next message, whatever it is.
    pub fn receive(&mut self) -> Result<Message> {
        let mut record = vec![0; HEADER];
        self.socket.read_exact(&mut record)?;
        let length = (word(&record, 0) & !LAST) as usize;
        if word(&record, 0) & LAST == 0 || !(HEADER - 4..=codes::LARGEST_MESSAGE).contains(&length) {
            return Err(Error::Odd(format!("a record mark of {:08x}", word(&record, 0))));
        }
        record.resize(4 + length, 0);
        self.socket.read_exact(&mut record[HEADER..])?;
        let header = Header::of(&record).unwrap_or_default();
        if header.sequence != self.expected {
            return Err(Error::Odd(format!("message {} came where {} was due", header.sequence, self.expected)));
        }
        self.expected = self.expected.wrapping_add(1);
        Ok(Message { header, body: record.split_off(HEADER) })
    }

    /// A request and its reply; notices that come before it are kept.
    pub fn call(&mut self, message: u32, body: &[u8]) -> Result<Message> {
        self.sequence += 1;
        self.socket.write_all(&request(self.sequence, message, body))?;
        self.reply(message)
    }

    /// The reply to the request that was sent last.
    pub fn reply(&mut self, message: u32) -> Result<Message> {
        loop {
            let m = self.receive()?;
            match (m.header.kind, m.header.message, m.header.reply_to) {
                (0, ..) => self.notices.push_back(m),
                (1, number, to) if (number, to) == (message, self.sequence) => return Ok(m),
                (_, number, to) => return Err(Error::Odd(format!("a reply to {to}, message {number:x}"))),
            }
        }
    }

    /// The reply's error and its body, of a request whose reply begins with the error.
    pub fn ask(&mut self, message: u32, body: &[u8]) -> Result<(u32, Vec<u8>)> {
        let m = self.call(message, body)?;
        if m.header.error != 0 || m.body.len() < 4 {
            return Err(Error::Refused { message, error: m.header.error });
        }
        Ok((m.first(), m.body))
    }

    /// A request whose reply must have this error.
    pub fn expect(&mut self, message: u32, body: &[u8], error: u32) -> Result<Vec<u8>> {
        match self.ask(message, body)? {
            (told, body) if told == error => Ok(body),
            (error, _) => Err(Error::Refused { message, error }),
        }
    }

    /// A request that must be accepted.
    pub fn good(&mut self, message: u32, body: &[u8]) -> Result<Vec<u8>> {
        self.expect(message, body, 0)
    }

    pub fn notice(&mut self) -> Result<Message> {
        if let Some(m) = self.notices.pop_front() {
            return Ok(m);
        }
        let m = self.receive()?;
        match (m.header.kind, m.header.reply_to) {
            (0, 0) => Ok(m),
            (kind, to) => Err(Error::Odd(format!("kind {kind}, reply to {to}, where a notice was due"))),
        }
    }

    /// A notice of this kind; why it was sent.
    pub fn noticed(&mut self, message: u32) -> Result<u32> {
        let m = self.notice()?;
        if m.header.message != message {
            return Err(Error::Odd(format!("notice {:x} where {message:x} was due", m.header.message)));
        }
        Ok(m.first())
    }

    /// Waits for the notice of connection, and opens.
    pub fn open(&mut self) -> Result<()> {
        self.noticed(NOTIFY_CONNECTED)?;
        self.good(CONNECT_OPEN, &words(&[codes::VERSION_FOUR])).map(drop)
    }

    /// The same, and logs in by MD5: the password itself is not sent.
    pub fn login(&mut self, id: &[u8], password: &[u8]) -> Result<()> {
        self.open()?;
        self.auth(id, password)
    }

    /// Asks for a challenge, and logs in by MD5.
    pub fn auth(&mut self, id: &[u8], password: &[u8]) -> Result<()> {
        let challenge = self.challenge()?;
        // A password of another length lets nobody in.
        let never = Error::Refused { message: CONNECT_CLIENT_AUTH, error: codes::NOT_AUTHORIZED };
        let digest = login_digest(password, &challenge).ok_or(never)?;
        self.good(CONNECT_CLIENT_AUTH, &[&words(&[codes::MD5_AUTH]), &text(id), &digest[..]].concat()).map(drop)
    }

    /// A challenge for a login by MD5.
    pub fn challenge(&mut self) -> Result<Challenge> {
        let body = self.good(CONFIG_GET_AUTH_ATTR, &words(&[codes::MD5_AUTH]))?;
        let given = body.get(8..).and_then(|bytes| bytes.try_into().ok());
        given
            .filter(|_| word(&body, 4) == codes::MD5_AUTH)
            .ok_or_else(|| Error::Odd(format!("auth attributes of {} bytes", body.len())))
    }

    pub fn tape_open(&mut self, mode: u32) -> Result<()> {
        self.good(TAPE_OPEN, &[text("tape0"), words(&[mode])].concat()).map(drop)
    }

    pub fn tape_close(&mut self) -> Result<()> {
        self.good(TAPE_CLOSE, b"").map(drop)
    }

    pub fn window(&mut self, offset: u64, length: u64) -> Result<()> {
        self.good(MOVER_SET_WINDOW, &quads(&[offset, length])).map(drop)
    }

    /// Record size, window, mover listen, data connect.
    pub fn join(&mut self, mode: u32, record: u32, window: u64) -> Result<()> {
        self.good(MOVER_SET_RECORD_SIZE, &words(&[record]))?;
        self.join_as_sized(mode, window)
    }

    /// The same at the record size in force, which is 10,240 where none was set.
    pub fn join_as_sized(&mut self, mode: u32, window: u64) -> Result<()> {
        self.window(0, window)?;
        self.good(MOVER_LISTEN, &words(&[mode, codes::LOCAL_ADDRESS]))?;
        self.good(DATA_CONNECT, &words(&[codes::LOCAL_ADDRESS])).map(drop)
    }

    pub fn start_backup(&mut self) -> Result<()> {
        self.good(DATA_START_BACKUP, &[text("dump"), words(&[0])].concat()).map(drop)
    }

    pub fn start_recover(&mut self) -> Result<()> {
        self.good(DATA_START_RECOVER, &[words(&[0, 0]), text("dump")].concat()).map(drop)
    }

    /// The bytes that the mover has moved.
    pub fn moved(&mut self) -> Result<u64> {
        let state = self.good(MOVER_GET_STATE, b"")?;
        if state.len() < 36 {
            return Err(Error::Odd(format!("a mover state of {} bytes", state.len())));
        }
        Ok(quad(&state, 28))
    }

    /// Gives windows of one length until the data end halts, or the mover pauses for another reason than the window's
    /// end to tape or a seek out of the window from tape. `each` is told the bytes moved at each new window.
    pub fn run(&mut self, length: u64, mut each: impl FnMut(u64)) -> Result<Ended> {
        let mut pauses = 0;
        loop {
            let m = self.notice()?;
            match (m.header.message, m.first()) {
                (NOTIFY_DATA_HALTED, why) => {
                    self.noticed(NOTIFY_MOVER_HALTED)?;
                    return Ok(Ended { pauses, why: Why::Halted(why) });
                }
                (NOTIFY_MOVER_PAUSED, Mover::END_OF_WINDOW | Mover::SEEK) => {
                    pauses += 1;
                    let moved = self.moved()?;
                    each(moved);
                    self.window(moved, length)?;
                    self.good(MOVER_CONTINUE, b"")?;
                }
                (NOTIFY_MOVER_PAUSED, why) => {
                    // A recover that the tape's end cuts short has halted.
                    if word_at(&self.call(DATA_GET_STATE, b"")?.body, 12) != Some(Data::HALTED) {
                        return Ok(Ended { pauses, why: Why::Paused(why) });
                    }
                }
                (number, _) => return Err(Error::Odd(format!("notice {number:x} in a run"))),
            }
        }
    }

    /// Data stop, mover stop; a move that was left PAUSED is aborted first.
    pub fn stop(&mut self) -> Result<()> {
        let state = self.call(DATA_GET_STATE, b"")?.body;
        if word_at(&state, 12) != Some(Data::HALTED) {
            self.good(DATA_ABORT, b"")?;
        }
        self.good(DATA_STOP, b"")?;
        self.good(MOVER_STOP, b"")?;
        // Those of the abort stand behind its reply.
        self.notices.clear();
        Ok(())
    }

    /// Opens the tape, joins both ends and starts a backup or a recover, by the mover's mode.
    pub fn begin(&mut self, mode: u32, record: u32, window: u64) -> Result<()> {
        let backup = mode == Mover::TO_TAPE;
        self.tape_open(if backup { TO_WRITE } else { TO_READ })?;
        self.join(mode, record, window)?;
        if backup { self.start_backup() } else { self.start_recover() }
    }

    /// Stops both ends and closes the tape.
    pub fn finish(&mut self) -> Result<()> {
        self.stop()?;
        self.tape_close()
    }

    fn whole(&mut self, mode: u32, record: u32, window: u64) -> Result<Ended> {
        self.begin(mode, record, window)?;
        let ended = self.run(window, |_| ())?;
        self.finish()?;
        Ok(ended)
    }

    /// A backup from the tape's start, in windows of this length.
    pub fn backup(&mut self, record: u32, window: u64) -> Result<Ended> {
        self.whole(Mover::TO_TAPE, record, window)
    }

    /// A recover from the tape's start.
    pub fn recover(&mut self, record: u32, window: u64) -> Result<Ended> {
        self.whole(Mover::FROM_TAPE, record, window)
    }
}
