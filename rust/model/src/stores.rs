//! Stores of an environment as a host may lend them, and environments as a start may have them.

use crate::random::Random;
use wire::{put_word, text, word, word_at, words};

pub const LENGTH: usize = 16_384;

/// Lengths that a store does not have.
pub const OTHERS: [usize; 6] = [0, 3, 4, LENGTH - 1, LENGTH + 1, 36_864];

pub const SEPARATOR: &[u8] = b"PATHNAME_SEPARATOR";

/// Names that are nearly that one.
const NEARLY: [&[u8]; 5] = [
    b"PATHNAME_SEPARATO",
    b"PATHNAME_SEPARATORS",
    b"PATHNAME_SEPARATOR\0",
    b"pathname_separator",
    b"QATHNAME_SEPARATOR",
];

pub type Pairs = Vec<(Vec<u8>, Vec<u8>)>;

/// The bytes that pairs take: a count, four words each, the texts.
fn room(pairs: &Pairs) -> usize {
    4 + pairs.iter().map(|(name, value)| 16 + name.len() + value.len()).sum::<usize>()
}

// Stores.

/// The pairs as they lie, over bytes that are not zero.
pub fn of(pairs: &Pairs) -> Vec<u8> {
    let mut store = words(&[pairs.len() as u32]);
    let mut start = 0;
    for (name, value) in pairs {
        let next = start + name.len();
        store.extend(words(&[start as u32, name.len() as u32, next as u32, value.len() as u32]));
        start = next + value.len();
    }
    store.extend(pairs.iter().flat_map(|(name, value)| [&name[..], value].concat()));
    store.resize(LENGTH.max(store.len()), 0x5b);
    store.truncate(LENGTH);
    store
}

/// The store of two pairs with one of its words changed.
fn but(at: usize, x: usize) -> Vec<u8> {
    let mut store = of(&vec![(b"NAME".to_vec(), b"value".to_vec()), (b"B".to_vec(), vec![])]);
    put_word(&mut store, 4 * at, x as u32);
    store
}

/// Stores of every kind by name, as `kind` gives it, and whether they are laid out right.
pub fn kinds() -> Vec<(&'static str, Vec<u8>, bool)> {
    let value_first = [words(&[1, 3, 2, 0, 3]), vec![0x61; LENGTH - 20]].concat();
    let from_the_front = [words(&[1, 20, 2, 22, 3]), vec![0x61; LENGTH - 20]].concat();
    let wraps = [words(&[2, 0, u32::MAX, u32::MAX, 1, 0, 1, 1, 1]), vec![0x61; LENGTH - 36]].concat();
    let mut too_many = words(&[65]);
    too_many.resize(LENGTH, 0);
    vec![
        ("no pairs", of(&vec![]), true),
        ("1 to 63 pairs", but(0, 2), true),
        ("64 pairs", of(&of_kind("64 pairs")), true),
        ("exactly full", of(&of_kind("exactly full")), true),
        ("64 pairs, exactly full", of(&of_kind("64 pairs, exactly full")), true),
        ("a count of 65", too_many, false),
        ("a count above 65", but(0, u32::MAX as usize), false),
        ("a first start other than 0", but(1, 1), false),
        ("the value before the name", value_first, false),
        ("starts from the store's front", from_the_front, false),
        ("a gap before a value", but(3, 5), false),
        ("an overlap at a value", but(3, 3), false),
        ("a gap before a name", but(5, 10), false),
        ("an overlap at a name", but(5, 8), false),
        // 36 bytes before the texts, and 10 of them before the last.
        ("texts one byte past the end", but(8, LENGTH - 36 - 10 + 1), false),
        ("texts past the end", but(8, u32::MAX as usize - 10), false),
        ("starts that wrap", wraps, false),
    ]
}

/// Whether stores of this kind are laid out right.
pub fn is_laid(kind: &str) -> bool {
    matches!(kind, "no pairs" | "1 to 63 pairs" | "64 pairs" | "exactly full" | "64 pairs, exactly full")
}

/// What kind of store this is, by its length, its first fault or its size.
pub fn kind(store: &[u8]) -> &'static str {
    if store.len() != LENGTH {
        return "of another length";
    }
    let count = word(store, 0) as usize;
    match count {
        0 => return "no pairs",
        65 => return "a count of 65",
        66.. => return "a count above 65",
        _ => {}
    }
    let first = 4 + 16 * count;
    let mut sum = 0;
    for i in 0..2 * count {
        let (start, length) = (word(store, 4 + 8 * i) as u64, word(store, 8 + 8 * i) as u64);
        if start != sum {
            return fault(store, i, start, sum, first as u64);
        }
        sum += length;
    }
    match (first as u64 + sum, count) {
        (16_385, _) => "texts one byte past the end",
        (16_386.., _) => "texts past the end",
        (16_384, 64) => "64 pairs, exactly full",
        (16_384, _) => "exactly full",
        (_, 64) => "64 pairs",
        _ => "1 to 63 pairs",
    }
}

/// Of the first start that is not the sum of the lengths before it.
fn fault(store: &[u8], i: usize, start: u64, sum: u64, first: u64) -> &'static str {
    match i {
        _ if sum > u32::MAX as u64 => "starts that wrap",
        0 if start == first => "starts from the store's front",
        0 if word(store, 12) == 0 && word(store, 16) as u64 == start => "the value before the name",
        0 => "a first start other than 0",
        _ if i % 2 == 0 && start > sum => "a gap before a name",
        _ if i % 2 == 0 => "an overlap at a name",
        _ if start > sum => "a gap before a value",
        _ => "an overlap at a value",
    }
}

/// How the names of a store, whose layout is right, stand to the one that is added.
pub fn named(store: &[u8]) -> &'static str {
    let count = word(store, 0) as usize;
    let name = |i: usize| {
        let at = 4 + 16 * count + word(store, 4 + 16 * i) as usize;
        &store[at..at + word(store, 8 + 16 * i) as usize]
    };
    let exactly: Vec<usize> = (0..count).filter(|i| name(*i) == SEPARATOR).collect();
    match exactly[..] {
        [] if count == 0 => "no pairs",
        [] if (0..count).any(|i| NEARLY.contains(&name(i))) => "a name nearly so",
        [] if (0..count).any(|i| name(i).is_empty()) => "an empty name",
        [] => "other names",
        [i] if word(store, 16 + 16 * i) == 0 => "its name, an empty value",
        [i] if i + 1 < count => "its name, not last",
        [_] => "its name, last",
        _ => "its name twice",
    }
}

/// A store of each kind that `named` gives.
pub fn named_kinds() -> Vec<(&'static str, Vec<u8>)> {
    let pair = |name: &[u8], value: &[u8]| (name.to_vec(), value.to_vec());
    let mut nearly: Pairs = NEARLY.map(|name| pair(name, b"/")).to_vec();
    nearly.push(pair(b"VALUE", SEPARATOR));
    vec![
        ("no pairs", of(&vec![])),
        ("a name nearly so", of(&nearly)),
        ("an empty name", of(&vec![pair(b"", b""), pair(b"A", b"")])),
        ("other names", of(&vec![pair(b"A", b"PATHNAME_SEPARATOR")])),
        ("its name, an empty value", of(&vec![pair(SEPARATOR, b"")])),
        ("its name, not last", of(&vec![pair(b"A", b"1"), pair(SEPARATOR, b"\\"), pair(b"B", b"2")])),
        ("its name, last", of(&vec![pair(b"A", b"1"), pair(SEPARATOR, b":")])),
        ("its name twice", of(&vec![pair(SEPARATOR, b"/"), pair(SEPARATOR, b"\\")])),
    ]
}

/// A store of the right length.
pub fn any(r: &mut Random) -> Vec<u8> {
    match r.below(10) {
        0 | 1 => vec![0; LENGTH],
        2 | 3 => of(&pairs(r)),
        4..=7 => {
            let all = kinds();
            all[r.below(all.len() as u64) as usize].1.clone()
        }
        // One word among the first is another.
        8 => {
            let mut store = of(&pairs(r));
            let now = word_at(&store, 0).unwrap_or(0) as u64;
            let place = 4 * r.below(4 * now.min(64) + 2) as usize;
            let was = word(&store, place);
            let x = r.pick(&[0, 1, 64, 65, 16_364, 16_384, u32::MAX, was.wrapping_add(1), was.wrapping_sub(1)]);
            put_word(&mut store, place, x);
            store
        }
        _ => r.bytes(LENGTH),
    }
}

// Environments.

/// Environments of every kind by name, as `sent` gives it, with the number that answers a start of a right method in the
/// right state.
pub const SENT: [(&str, u32); 12] = [
    ("no pairs", 0),
    ("1 pair", 0),
    ("2 to 63 pairs", 0),
    ("empty texts", 0),
    ("64 pairs", 0),
    ("65 pairs", 18),
    ("exactly full", 0),
    ("one byte too much", 22),
    ("64 pairs, exactly full", 0),
    ("64 pairs, one byte too much", 22),
    ("far too much", 22),
    ("a count of all ones", 18),
];

/// So many pairs whose last value makes them take so many bytes.
fn filling(count: usize, bytes: usize) -> Pairs {
    let mut pairs = vec![(b"N".to_vec(), vec![]); count];
    pairs[count - 1].1 = vec![0x61; bytes - room(&pairs)];
    pairs
}

/// The pairs of that name; a count of all ones is not theirs.
pub fn of_kind(name: &str) -> Pairs {
    let one = (b"A".to_vec(), b"one".to_vec());
    match name {
        "1 pair" => vec![one],
        "2 to 63 pairs" => vec![one.clone(), (b"B".to_vec(), vec![]), one],
        "empty texts" => vec![(vec![], vec![]); 3],
        "64 pairs" => vec![one; 64],
        "65 pairs" => vec![one; 65],
        "exactly full" => filling(2, LENGTH),
        "one byte too much" => filling(2, LENGTH + 1),
        "64 pairs, exactly full" => filling(64, LENGTH),
        "64 pairs, one byte too much" => filling(64, LENGTH + 1),
        "far too much" => filling(1, 30_000),
        _ => vec![],
    }
}

/// The environment's bytes in a start.
pub fn listed(pairs: &Pairs) -> Vec<u8> {
    let texts = pairs.iter().flat_map(|(name, value)| [text(name), text(value)].concat());
    words(&[pairs.len() as u32]).into_iter().chain(texts).collect()
}

/// What kind of environment this is, the first bytes of which are its list. None: it does not decode.
pub fn sent(list: &[u8]) -> Option<&'static str> {
    let count = word_at(list, 0)?;
    match count {
        0 => return Some("no pairs"),
        65 => return Some("65 pairs"),
        u32::MAX => return Some("a count of all ones"),
        66.. => return None,
        _ => {}
    }
    let (mut at, mut texts) = (4, 0);
    for _ in 0..2 * count {
        let n = word_at(list, at)? as usize;
        at = (at + 4).checked_add(n.checked_next_multiple_of(4)?)?;
        texts += n;
    }
    Some(match (4 + 16 * count as usize + texts, count) {
        (16_384, 64) => "64 pairs, exactly full",
        (16_384, _) => "exactly full",
        (16_385, 64) => "64 pairs, one byte too much",
        (16_385, _) => "one byte too much",
        (16_386.., _) => "far too much",
        (_, _) if texts == 0 => "empty texts",
        (_, 64) => "64 pairs",
        (_, 1) => "1 pair",
        _ => "2 to 63 pairs",
    })
}

/// A few pairs, or at a limit.
pub fn pairs(r: &mut Random) -> Pairs {
    match r.below(20) {
        0..=3 => vec![],
        4..=9 => {
            let n = r.within(1, 4);
            (0..n).map(|_| (some(r, 9), some(r, 9))).collect()
        }
        10..=13 => {
            let name = if r.percent(60) { SEPARATOR } else { r.pick(&NEARLY) };
            let (before, after, again) = (r.below(3), r.below(2), r.percent(15));
            let mut pairs: Pairs = (0..before).map(|_| (some(r, 5), some(r, 5))).collect();
            pairs.push((name.to_vec(), some(r, 3)));
            pairs.extend((0..after).map(|_| (some(r, 5), some(r, 5))));
            if again {
                pairs.push((name.to_vec(), b"/".to_vec()));
            }
            pairs
        }
        14 => (0..64).map(|_| (some(r, 4), some(r, 4))).collect(),
        15 => filling(r.pick(&[1, 2, 40]), LENGTH - 1 + r.below(3) as usize),
        16 => (0..r.within(1, 64)).map(|_| (vec![], vec![])).collect(),
        _ => of_kind(r.pick(&SENT).0),
    }
}

fn some(r: &mut Random, most: u64) -> Vec<u8> {
    let n = r.below(most);
    r.bytes(n as usize)
}

#[cfg(test)]
mod tests {
    use super::*;
    use crate::model::environment::kept;
    use crate::model::requests::decode;

    #[test]
    fn kinds_are_what_their_names_say() {
        for (name, store, laid) in kinds() {
            assert_eq!((kind(&store), store.len()), (name, LENGTH));
            assert_eq!((kept(&store).is_some(), is_laid(name)), (laid, laid), "{name}");
        }
        for (name, store) in named_kinds() {
            assert_eq!(named(&store), name);
        }
        for length in OTHERS {
            assert_eq!(kind(&vec![0; length]), "of another length");
        }
    }

    #[test]
    fn environments_are_what_their_names_say() {
        for (name, number) in SENT {
            if name == "a count of all ones" {
                continue;
            }
            let list = listed(&of_kind(name));
            assert_eq!(sent(&list), Some(name));
            assert_eq!(sent(&[&list[..], &[9, 9, 9, 9]].concat()), Some(name));
            let body = [text("dump"), list].concat();
            assert_eq!(decode(0x401, &body).is_some(), number != 18, "{name}");
        }
        assert_eq!((sent(&words(&[1, 4])), sent(&words(&[1])), sent(&[])), (None, None, None));
    }

    #[test]
    fn random_ones_are_of_all_kinds() {
        let mut r = Random(1);
        let (mut stores, mut names) = (vec![], vec![]);
        for _ in 0..4_000 {
            let store = any(&mut r);
            stores.push(kind(&store));
            if kept(&store).is_some() {
                names.push(named(&store));
            }
        }
        assert!(kinds().iter().all(|(name, ..)| stores.contains(name)));
        assert!(named_kinds().iter().all(|(name, _)| names.contains(name)));
    }
}
