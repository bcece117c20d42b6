//! What goes over the wire: words, texts and records as RFC 4506 and the NDMP draft have them. No rule of the vault
//! stands here.
pub mod md5;
pub mod message;

/// Before the body of a record: the mark, and six words of header.
pub const HEADER: usize = 28;

/// The mark of a record's last fragment has this bit; the others are its length.
pub const LAST: u32 = 0x8000_0000;

/// The word at a place that is there.
#[inline]
pub fn word(bytes: &[u8], at: usize) -> u32 {
    u32::from_be_bytes(bytes[at..at + 4].try_into().unwrap())
}

/// The word at a place that may not be there.
pub fn word_at(bytes: &[u8], at: usize) -> Option<u32> {
    (at.checked_add(4)? <= bytes.len()).then(|| word(bytes, at))
}

#[inline]
pub fn put_word(bytes: &mut [u8], at: usize, word: u32) {
    bytes[at..at + 4].copy_from_slice(&word.to_be_bytes());
}

/// Two words as one number, the high one first.
pub fn quad(bytes: &[u8], at: usize) -> u64 {
    (word(bytes, at) as u64) << 32 | word(bytes, at + 4) as u64
}

pub fn words(of: &[u32]) -> Vec<u8> {
    of.iter().flat_map(|w| w.to_be_bytes()).collect()
}

pub fn quads(of: &[u64]) -> Vec<u8> {
    of.iter().flat_map(|w| w.to_be_bytes()).collect()
}

/// A text or opaque data: length, bytes, and zeros up to a multiple of four.
pub fn text(bytes: impl AsRef<[u8]>) -> Vec<u8> {
    let bytes = bytes.as_ref();
    let mut v = words(&[bytes.len() as u32]);
    v.extend(bytes);
    v.resize(v.len().next_multiple_of(4), 0);
    v
}

/// The six words behind a record's mark.
#[derive(Clone, Copy, Debug, Default, PartialEq)]
pub struct Header {
    pub sequence: u32,
    pub time: u32,
    /// 0 for a request or a notice, 1 for a reply.
    pub kind: u32,
    pub message: u32,
    pub reply_to: u32,
    pub error: u32,
}

impl Header {
    /// Of a whole record, its mark with it.
    pub fn of(record: &[u8]) -> Option<Header> {
        (record.len() >= HEADER).then(|| Header {
            sequence: word(record, 4),
            time: word(record, 8),
            kind: word(record, 12),
            message: word(record, 16),
            reply_to: word(record, 20),
            error: word(record, 24),
        })
    }

    /// The record with this header and body, in one fragment.
    pub fn record(self, body: &[u8]) -> Vec<u8> {
        let mark = LAST | (HEADER - 4 + body.len()) as u32;
        let mut v = Vec::with_capacity(HEADER + body.len());
        v.extend(words(&[mark, self.sequence, self.time, self.kind, self.message, self.reply_to, self.error]));
        v.extend(body);
        v
    }
}

/// A request with its mark and header.
pub fn request(sequence: u32, message: u32, body: &[u8]) -> Vec<u8> {
    Header { sequence, message, ..Header::default() }.record(body)
}

#[cfg(test)]
mod tests {
    use super::*;

    #[test]
    fn texts_are_filled() {
        assert_eq!(text(""), [0, 0, 0, 0]);
        assert_eq!(text("tape0"), *b"\0\0\0\x05tape0\0\0\0");
        assert_eq!(text(b"dump"), *b"\0\0\0\x04dump");
    }

    #[test]
    fn records_are_read_back() {
        let header = Header { sequence: 7, time: 8, kind: 1, message: message::TAPE_OPEN, reply_to: 9, error: 10 };
        let record = header.record(&words(&[1, 2]));
        assert_eq!(word(&record, 0), 0x8000_0020);
        assert_eq!(Header::of(&record), Some(header));
        assert_eq!((Header::of(&record[..27]), quad(&record, HEADER)), (None, 1 << 32 | 2));
        assert_eq!((word_at(&record, 32), word_at(&record, 33), word_at(&record, usize::MAX)), (Some(2), None, None));
    }
}
