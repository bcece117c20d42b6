//! What data's method works on while it is ACTIVE.
use crate::restore::Target;
use crate::stream::Stream;

pub enum Job {
    Backup(Box<Stream>),
    Recover(Recover),
}

pub struct Recover {
    pub target: Target,
    pub dest: Vec<u8>,
    /// Whether the client gave a mover read before it started: then those bytes are the stream.
    pub given: bool,
    /// Whether the stream has ended and was found whole: what was restored gets its names.
    pub closed: bool,
}
