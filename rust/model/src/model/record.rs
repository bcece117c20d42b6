//! "A record on the wire".

use super::xdr::{Reader, Writer};

pub struct Record<'a> {
    pub sequence: u32,
    pub kind: u32,
    pub message: u32,
    pub body: &'a [u8],
}

/// "The mark (top bit set, 31 bits of length), then six header words: sequence, time stamp, type (0 request, 1 reply),
/// message, reply sequence, error; then the body. Length, without the mark, 24 to 36,864. A record that breaks this, or
/// whose length plus 4 isn't the lent input's, closes the session without a reply."
pub fn framed(input: &[u8]) -> Option<Record<'_>> {
    let mut r = Reader(input);
    let mark = r.word()?;
    if mark < 1 << 31 {
        return None;
    }
    let length = (mark - (1 << 31)) as usize;
    if !(24..=36_864).contains(&length) || length + 4 != input.len() {
        return None;
    }
    let sequence = r.word()?;
    let _time = r.word()?;
    let kind = r.word()?;
    let message = r.word()?;
    let _reply_sequence = r.word()?;
    let _error = r.word()?;
    // "The body is handed on as the part of the record after byte 28."
    Some(Record { sequence, kind, message, body: r.0 })
}

/// A message of the vault, whole: mark, header, body.
pub fn sent(
    sequence: u32,
    time: u32,
    kind: u32,
    message: u32,
    reply_sequence: u32,
    error: u32,
    body: &[u8],
) -> Vec<u8> {
    let mut w =
        Writer::words(&[1 << 31 | (24 + body.len() as u32), sequence, time, kind, message, reply_sequence, error]);
    w.0.extend(body);
    w.0
}

/// "Sent unasked: data halted, connection status, mover halted, mover paused."
pub enum Notice {
    DataHalted(u32),
    Connected,
    MoverHalted(u32),
    MoverPaused(u32, u64),
}

impl Notice {
    /// "A notice is type 0 with reply sequence 0."
    pub fn sent(&self, sequence: u32, time: u32) -> Vec<u8> {
        let mut body = Writer::default();
        let message = match *self {
            Notice::DataHalted(reason) => {
                body.word(reason);
                0x501
            }
            // "connection status (connected 0, version 4, empty text)"
            Notice::Connected => {
                body = Writer::words(&[0, 4, 0]);
                0x502
            }
            Notice::MoverHalted(reason) => {
                body.word(reason);
                0x503
            }
            // "mover paused carries the kept seek position"
            Notice::MoverPaused(reason, seek) => {
                body.word(reason);
                body.hyper(seek);
                0x504
            }
        };
        sent(sequence, time, 0, message, 0, 0, &body.0)
    }
}
