//! The archive's form: ustar with pax headers. What the vault adds stands in pax comments, which every tar passes over:
//! one at the start, one behind an entry that is not whole, and one at the end with the stream's length and digest.
use crate::folder::parts;
use crate::sha256::Sha256;
use std::time::SystemTime;

pub const BLOCK: usize = 512;

/// Sizes and times above this do not fit in the format's digits.
pub const MOST: u64 = (1 << 33) - 1;
/// The same of owners.
const MOST_OWNER: u32 = (1 << 21) - 1;

pub const BEGINS: &str = "mossgoblin stream 1. This is a tar archive that a tape vault made, and any tar reads it: \
    comments such as this one are passed over. The last header before the two blocks of zeros at the end is a comment \
    as well, and tells how many bytes stand before that header, and their SHA-256, so that a stream which was cut short \
    or changed is found out.";
const OF_A_FILE: &str = " It holds one file.";
const OF_A_FOLDER: &str = " It holds a folder.";
pub const ENDS: &str = "mossgoblin stream ends: ";
/// Of the entry before it.
pub const NOT_WHOLE: &str = "mossgoblin entry is not whole: ";
/// Of the entry behind it: it has holes; it has more names.
pub const SPARSE: &str = "mossgoblin entry has holes";
pub const LINKED: &str = "mossgoblin entry has other names";

/// What a stream that the vault made holds.
#[derive(Clone, Copy, Debug, PartialEq)]
pub enum Holds {
    File,
    Folder,
}

/// How many bytes of a stream tell what it is.
pub const START: usize = 2 * BLOCK;

/// The first bytes of a stream.
pub fn start(holds: Holds) -> Vec<u8> {
    let what = if holds == Holds::File { OF_A_FILE } else { OF_A_FOLDER };
    comment(b"mossgoblin", &format!("{BEGINS}{what}"))
}

/// What the first bytes of a stream tell.
#[derive(Clone, Copy, Debug, PartialEq)]
pub enum Start {
    Known(Holds),
    /// Nearly such a start: it was changed.
    Damaged,
    Other,
}

pub fn started(bytes: &[u8]) -> Start {
    let both = [Holds::File, Holds::Folder];
    if let Some(holds) = both.into_iter().find(|h| bytes.starts_with(&start(*h))) {
        return Start::Known(holds);
    }
    let whole = start(Holds::Folder);
    let told = whole.iter().filter(|b| **b != 0).count();
    let same = whole.iter().zip(bytes).filter(|(a, b)| **a != 0 && a == b).count();
    if same > told / 2 { Start::Damaged } else { Start::Other }
}

/// The headers that end a stream: length and digest of the bytes before, and two blocks of zeros.
pub fn end(digest: &Sha256) -> Vec<u8> {
    let mut all = comment(b"mossgoblin.end", &told_end(digest));
    all.resize(all.len() + 2 * BLOCK, 0);
    all
}

pub fn told_end(digest: &Sha256) -> String {
    format!("{ENDS}{} bytes, sha256 {}", digest.length, digest.hex())
}

/// A header that is passed over by those who do not know it.
pub fn comment(name: &[u8], text: &str) -> Vec<u8> {
    let body = pax("comment", text.as_bytes());
    let mut all = header(&Entry { name, kind: b'g', size: body.len() as u64, ..Entry::default() });
    all.extend(body);
    all.resize(all.len().next_multiple_of(BLOCK), 0);
    all
}

/// One record of a pax header: its own length in digits, key and value.
fn pax(key: &str, value: &[u8]) -> Vec<u8> {
    let rest = key.len() + value.len() + 3;
    let mut n = rest + 1;
    while rest + n.to_string().len() != n {
        n += 1;
    }
    [n.to_string().as_bytes(), b" ", key.as_bytes(), b"=", value, b"\n"].concat()
}

#[derive(Clone, Copy)]
pub struct Entry<'a> {
    pub name: &'a [u8],
    pub kind: u8,
    pub link: &'a [u8],
    pub size: u64,
    pub mode: u32,
    pub user: u32,
    pub group: u32,
    pub time: SystemTime,
    /// What else is told of it.
    pub notes: &'a [&'a str],
}

impl Default for Entry<'_> {
    fn default() -> Self {
        let time = SystemTime::UNIX_EPOCH;
        Entry { name: b"", kind: b'0', link: b"", size: 0, mode: 0o644, user: 0, group: 0, time, notes: &[] }
    }
}

fn octal(field: &mut [u8], value: u64) {
    let digits = field.len() - 1;
    let text = format!("{value:0digits$o}");
    field[..digits].copy_from_slice(&text.as_bytes()[text.len() - digits..]);
}

/// Where a name is parted into prefix and name, if it fits in the fields.
fn parted(name: &[u8]) -> Option<(&[u8], &[u8])> {
    if name.len() <= 100 {
        return Some((b"", name));
    }
    let at = (0..name.len().min(156)).find(|i| name[*i] == b'/' && name.len() - i - 1 <= 100 && *i > 0)?;
    (at + 1 < name.len()).then(|| (&name[..at], &name[at + 1..]))
}

fn header(e: &Entry) -> Vec<u8> {
    let mut b = vec![0; BLOCK];
    let short = &e.name[..e.name.len().min(100)];
    let (prefix, name) = parted(e.name).unwrap_or((b"", short));
    let link = &e.link[..e.link.len().min(100)];
    b[..name.len()].copy_from_slice(name);
    octal(&mut b[100..108], (e.mode & 0o7777) as u64);
    octal(&mut b[108..116], e.user.min(MOST_OWNER) as u64);
    octal(&mut b[116..124], e.group.min(MOST_OWNER) as u64);
    octal(&mut b[124..136], e.size);
    octal(&mut b[136..148], (parts(e.time).0.max(0) as u64).min(MOST));
    b[156] = e.kind;
    b[157..157 + link.len()].copy_from_slice(link);
    b[257..265].copy_from_slice(b"ustar\x0000");
    b[345..345 + prefix.len()].copy_from_slice(prefix);
    b[148..156].fill(b' ');
    let sum: u64 = b.iter().map(|x| *x as u64).sum();
    octal(&mut b[148..155], sum);
    b[154] = 0;
    b
}

/// Seconds, with the part of a second behind a point: what ustar's field cannot hold.
fn precise(time: SystemTime) -> Option<String> {
    match parts(time) {
        (0.., 0) => None,
        (s, 0) => Some(s.to_string()),
        (s @ 0.., n) => Some(format!("{s}.{n:09}")),
        // Counted down from 1970.
        (s, n) => Some(format!("-{}.{:09}", -(s + 1), 1_000_000_000 - n)),
    }
}

/// The headers of an entry, with a pax header first for what its fields cannot hold.
pub fn headers(e: &Entry) -> Vec<u8> {
    let mut more = Vec::new();
    if parted(e.name).is_none() {
        more.extend(pax("path", e.name));
    }
    if e.link.len() > 100 {
        more.extend(pax("linkpath", e.link));
    }
    for (key, owner) in [("uid", e.user), ("gid", e.group)] {
        if owner > MOST_OWNER {
            more.extend(pax(key, owner.to_string().as_bytes()));
        }
    }
    if let Some(time) = precise(e.time) {
        more.extend(pax("mtime", time.as_bytes()));
    }
    for note in e.notes {
        more.extend(pax("comment", note.as_bytes()));
    }
    let mut all = Vec::new();
    if !more.is_empty() {
        all.extend(header(&Entry { name: b"pax", kind: b'x', size: more.len() as u64, ..Entry::default() }));
        all.extend(&more);
        all.resize(all.len().next_multiple_of(BLOCK), 0);
    }
    all.extend(header(e));
    all
}

#[cfg(test)]
mod tests {
    use super::*;
    use std::time::Duration;

    #[test]
    fn starts_are_known_and_damage_is_seen() {
        for holds in [Holds::File, Holds::Folder] {
            let whole = start(holds);
            assert_eq!((whole.len(), started(&whole)), (START, Start::Known(holds)));
            for at in 0..START {
                let mut changed = whole.clone();
                changed[at] ^= 0x20;
                assert_eq!(started(&changed), Start::Damaged, "byte {at}");
            }
            assert_eq!(started(&whole[..1_000]), Start::Damaged);
        }
        for other in [&b""[..], &[0; 4_096], b"hello", &headers(&Entry { name: b"a", ..Entry::default() })] {
            assert_eq!(started(other), Start::Other);
        }
    }

    #[test]
    fn times_in_digits() {
        let at =
            |s: i64, n: u32| SystemTime::UNIX_EPOCH - Duration::from_secs(100) + Duration::new((s + 100) as u64, n);
        for (s, n, text) in [
            (5, 0, None),
            (5, 7, Some("5.000000007")),
            (-5, 0, Some("-5")),
            (-1, 500_000_000, Some("-0.500000000")),
            (-2, 999_999_999, Some("-1.000000001")),
        ] {
            assert_eq!(precise(at(s, n)).as_deref(), text);
        }
    }
}
