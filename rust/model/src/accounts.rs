//! Accounts as a host may lend them, right and wrong: a count, then kind, id and password of each.

use crate::model::accounts::{Challenge, MD5, TEXT};
use crate::model::md5::md5;
use crate::random::Random;
use wire::{put_word, text, words};

#[derive(Clone, PartialEq, Debug)]
pub struct Entry {
    pub kind: u32,
    pub id: Vec<u8>,
    pub password: Vec<u8>,
}

impl Entry {
    pub fn of(kind: u32, id: &[u8], password: &[u8]) -> Entry {
        Entry { kind, id: id.to_vec(), password: password.to_vec() }
    }

    /// Whether it lets in whoever knows it.
    pub fn serves(&self) -> bool {
        self.kind == MD5 && (1..=32).contains(&self.password.len())
    }
}

/// The buffer that says so many, with these in it.
fn counted(count: u32, entries: &[Entry]) -> Vec<u8> {
    let each = entries.iter().flat_map(|e| [words(&[e.kind]), text(&e.id), text(&e.password)].concat());
    words(&[count]).into_iter().chain(each).collect()
}

pub fn of(entries: &[Entry]) -> Vec<u8> {
    counted(entries.len() as u32, entries)
}

/// One of each kind, whose ids and passwords have a fill.
pub fn both() -> Vec<Entry> {
    vec![Entry::of(TEXT, b"id", b"words"), Entry::of(MD5, b"id", b"five5")]
}

/// So many entries, each with an id of its own.
fn many(n: u8) -> Vec<Entry> {
    (0..n).map(|i| Entry::of(TEXT + i as u32 % 2, &[b'a' + i], &[b'p', b'0' + i])).collect()
}

/// Buffers of every kind by name, as `kind` gives it, and whether they are laid out right.
pub fn kinds() -> Vec<(&'static str, Vec<u8>, bool)> {
    let right = of(&both());
    let but = |at: usize, x: u8| {
        let mut buffer = right.clone();
        buffer[at] = x;
        buffer
    };
    let third = |kind: u32| of(&[both(), vec![Entry::of(kind, b"id", b"x")]].concat());
    let last = right.len() - 1;
    vec![
        ("no bytes", vec![], false),
        ("no entries", of(&[]), true),
        ("1 to 7 entries", right.clone(), true),
        ("8 entries", of(&many(8)), true),
        ("9 entries", of(&many(9)), false),
        ("a count above 9", counted(u32::MAX, &both()), false),
        ("a kind of 0", third(0), false),
        ("a kind of 3", third(3), false),
        ("cut short", right[..last].to_vec(), false),
        ("one entry fewer than said", counted(3, &both()), false),
        ("one entry more than said", counted(1, &both()), false),
        ("bytes left over", [&right[..], &[0]].concat(), false),
        ("fill not zero", but(last, 1), false),
    ]
}

/// What kind of buffer this is, by its first fault or its size.
pub fn kind(buffer: &[u8]) -> &'static str {
    if buffer.is_empty() {
        return "no bytes";
    }
    match walk(buffer) {
        Err(fault) => fault,
        Ok(0) => "no entries",
        Ok(8) => "8 entries",
        Ok(_) => "1 to 7 entries",
    }
}

/// Whether buffers of this kind are laid out right.
pub fn is_laid(kind: &str) -> bool {
    matches!(kind, "no entries" | "1 to 7 entries" | "8 entries")
}

fn walk(mut rest: &[u8]) -> Result<u32, &'static str> {
    let word = |rest: &mut &[u8]| rest.split_off(..4).map(|b| wire::word(b, 0)).ok_or("cut short");
    let count = word(&mut rest)?;
    match count {
        9 => return Err("9 entries"),
        10.. => return Err("a count above 9"),
        _ => {}
    }
    for _ in 0..count {
        if rest.is_empty() {
            return Err("one entry fewer than said");
        }
        match word(&mut rest)? {
            0 => return Err("a kind of 0"),
            3.. => return Err("a kind of 3"),
            _ => {}
        }
        for _ in 0..2 {
            let n = word(&mut rest)? as usize;
            let bytes = rest.split_off(..n + (4 - n % 4) % 4).ok_or("cut short")?;
            if bytes[n..].iter().any(|b| *b != 0) {
                return Err("fill not zero");
            }
        }
    }
    match rest.len() {
        0 => Ok(count),
        12.. => Err("one entry more than said"),
        _ => Err("bytes left over"),
    }
}

/// The entries that a buffer was meant to have: what can be read of it, whatever its count, its kinds and its fill. Of
/// one that is laid out right these are its entries.
pub fn meant(mut rest: &[u8]) -> Vec<Entry> {
    let mut all = vec![];
    let _count = rest.split_off(..4);
    while let Some(entry) = one(&mut rest) {
        all.push(entry);
    }
    all
}

/// The last text may lack its fill.
fn one(rest: &mut &[u8]) -> Option<Entry> {
    let kind = wire::word(rest.split_off(..4)?, 0);
    let mut text = || {
        let n = wire::word(rest.split_off(..4)?, 0) as usize;
        let bytes = rest.split_off(..n)?;
        *rest = &rest[rest.len().min((4 - n % 4) % 4)..];
        Some(bytes.to_vec())
    };
    Some(Entry { kind, id: text()?, password: text()? })
}

/// The digest that a client makes of a password: 004's, which is cut where it is above 32 bytes, or of all of it.
pub fn digest(password: &[u8], challenge: &Challenge, cut: bool) -> [u8; 16] {
    let n = if cut { password.len().min(32) } else { password.len() };
    let zeros = vec![0; 64usize.saturating_sub(2 * n)];
    md5(&[&password[..n], &zeros, challenge, &password[..n]].concat())
}

/// Entries of which one lets in at least.
pub fn right(r: &mut Random) -> Vec<Entry> {
    let count = r.pick(&[1, 1, 2, 2, 3, 4, 5, 6, 7, 8, 8]);
    let mut all: Vec<Entry> = vec![];
    while all.len() < count {
        if r.percent(4) {
            all.push(Entry::of(r.pick(&[TEXT, MD5]), b"", b""));
            continue;
        }
        // An id may stand twice, by either kind.
        let again = all.iter().map(|e| e.id.clone()).next_back().filter(|_| r.percent(35));
        let id = again.unwrap_or_else(|| id(r));
        let kind = r.pick(&[TEXT, MD5]);
        let same = all.last().map(|e| e.password.clone()).filter(|_| r.percent(10));
        let password = same.unwrap_or_else(|| password(r));
        all.push(Entry { kind, id, password });
    }
    if !all.iter().any(Entry::serves) {
        let i = r.below(count as u64) as usize;
        (all[i].kind, all[i].password) = (MD5, b"secret!".to_vec());
    }
    all
}

fn id(r: &mut Random) -> Vec<u8> {
    match r.below(8) {
        0 => vec![],
        1 => {
            let n = r.below(200) as usize;
            r.bytes(n)
        }
        _ => r.pick(&[&b"admin"[..], b"a", b"op", b"id\0", b"vault"]).to_vec(),
    }
}

fn password(r: &mut Random) -> Vec<u8> {
    match r.below(10) {
        0 => vec![],
        1..=6 => {
            let n = r.pick(&[1, 2, 31, 32, 33, 33, 34, 64]);
            r.bytes(n)
        }
        7 => {
            let n = r.below(200) as usize;
            r.bytes(n)
        }
        _ => b"secret!".to_vec(),
    }
}

/// A buffer that may be wrong in one place, or have entries of one kind alone.
pub fn any(r: &mut Random) -> Vec<u8> {
    let mut entries = right(r);
    if r.percent(20) {
        let kind = r.pick(&[TEXT, TEXT, MD5]);
        entries.iter_mut().for_each(|e| e.kind = kind);
    }
    let mut buffer = of(&entries);
    match r.below(8) {
        0 => {}
        1..=3 => {
            let all = kinds();
            buffer = all[r.below(all.len() as u64) as usize].1.clone();
        }
        // A count, a kind, a length, or four bytes of a text.
        4 => {
            let place = 4 * r.below(buffer.len() as u64 / 4) as usize;
            let x = r.pick(&[0, 1, 2, 3, 8, 9, u32::MAX, u32::MAX - 3]);
            put_word(&mut buffer, place, x);
        }
        5 => {
            let n = r.below(buffer.len() as u64 + 6) as usize;
            buffer.resize(n, 0);
        }
        6 => {
            let nine: Vec<Entry> = (0..9).map(|_| right(r)[0].clone()).collect();
            buffer = of(&nine);
        }
        // The last byte, which may be one of a fill.
        _ => *buffer.last_mut().unwrap() ^= 1,
    }
    buffer
}

#[cfg(test)]
mod tests {
    use super::*;
    use crate::model::accounts::laid_out;

    #[test]
    fn kinds_are_what_their_names_say() {
        for (name, buffer, laid) in kinds() {
            assert_eq!(kind(&buffer), name);
            assert_eq!((laid_out(&buffer).is_some(), is_laid(name)), (laid, laid), "{name}");
        }
    }

    /// Every buffer but the empty ones has entries to log in by, also one that is not laid out right.
    #[test]
    fn entries_are_meant() {
        for (name, buffer, laid) in kinds() {
            let all = meant(&buffer);
            assert_eq!(all.is_empty(), matches!(name, "no bytes" | "no entries"), "{name}");
            if laid {
                assert_eq!(of(&all), buffer);
            }
            for kind in [TEXT, MD5] {
                assert_eq!(all.iter().any(|e| e.kind == kind), !all.is_empty(), "{name}");
            }
        }
    }

    #[test]
    fn random_ones_are_of_all_kinds() {
        let mut r = Random(1);
        let mut seen = vec![];
        for _ in 0..2_000 {
            let entries = right(&mut r);
            let buffer = of(&entries);
            assert_eq!(
                (kind(&buffer), meant(&buffer)),
                (if entries.len() == 8 { "8 entries" } else { "1 to 7 entries" }, entries)
            );
            let buffer = any(&mut r);
            assert_eq!(laid_out(&buffer).is_some(), is_laid(kind(&buffer)));
            seen.push(kind(&buffer));
        }
        assert!(kinds().iter().all(|(name, ..)| seen.contains(name)));
    }
}
