//! 02 No. 3, "Give us our variables back": the store of a session's environment. Reading: the four words of a pair are
//! name start, name length, value start, value length, and a start counts from the first text's first byte.

use super::refusals::{Outcome, refuse};
use super::requests::Pair;
use super::state::{State, data};
use super::xdr::{Reader, Writer};

/// "a lent store of 16,384 bytes"
pub const STORE: usize = 16_384;

/// "with PATHNAME_SEPARATOR as `/` added, last"
const SEPARATOR: Pair = (b"PATHNAME_SEPARATOR", b"/");

/// "a count (at most 64), four words a pair ..., then the texts without gaps, name before value"
fn laid_out(pairs: &[Pair]) -> Vec<u8> {
    let mut w = Writer::words(&[pairs.len() as u32]);
    let mut start = 0;
    for (name, value) in pairs {
        for text in [name, value] {
            w.word(start);
            w.word(text.len() as u32);
            start += text.len() as u32;
        }
    }
    for (name, value) in pairs {
        w.0.extend(*name);
        w.0.extend(*value);
    }
    w.0
}

/// "22 if the pairs do not fit"
pub fn fits(pairs: &[Pair]) -> bool {
    let texts: usize = pairs.iter().map(|(name, value)| name.len() + value.len()).sum();
    4 + 16 * pairs.len() + texts <= STORE
}

/// "Keep the pairs of an accepted start request, in order"; "bytes past them stay".
pub fn keep(store: &mut [u8], pairs: &[Pair]) {
    let bytes = laid_out(pairs);
    store[..bytes.len()].copy_from_slice(&bytes);
}

/// "data stop makes the count 0": the first word, and nothing else.
pub fn forget(store: &mut [u8]) {
    store[..4].copy_from_slice(&[0; 4]);
}

/// The pairs of a store. None: "a store not laid out so".
pub fn kept(store: &[u8]) -> Option<Vec<Pair<'_>>> {
    let mut r = Reader(store);
    let count = r.word().filter(|n| *n <= 64)? as usize;
    let words: Vec<u32> = (0..4 * count).map(|_| r.word()).collect::<Option<_>>()?;
    let mut texts = Vec::new();
    for place in words.chunks(2) {
        // "without gaps": each starts where the one before ended.
        let before: usize = texts.iter().map(|t: &&[u8]| t.len()).sum();
        if place[0] as usize != before {
            return None;
        }
        texts.push(r.take(place[1] as usize)?);
    }
    Some(texts.chunks(2).map(|t| (t[0], t[1])).collect())
}

/// "Answer 0x404 from it in ACTIVE and HALTED"; "19 in other states"; "7 at 0x404 for a store not laid out so".
/// PATHNAME_SEPARATOR "when the client gave none": by its name, whatever the value.
pub fn get(s: &State, store: &[u8]) -> Outcome {
    refuse(!matches!(s.data.state, data::ACTIVE | data::HALTED), 19)?;
    let mut pairs = kept(store).ok_or(7u32)?;
    if pairs.iter().all(|(name, _)| *name != SEPARATOR.0) {
        pairs.push(SEPARATOR);
    }
    let mut w = Writer::words(&[0, pairs.len() as u32]);
    for (name, value) in pairs {
        w.opaque(name);
        w.opaque(value);
    }
    Ok(w)
}
