//! The variables of a data end: pairs of a name and a value, which a client gives with a start and asks for afterwards.
//! The core keeps them in a store that each session lends it; here they are only read from there, for the log and for
//! what is followed.
use proved::codes;
use wire::word_at;

/// So many pairs are told in the log, and of each text so many characters.
const MOST_TOLD: usize = 16;
const MOST_SHOWN: usize = 200;

#[derive(Debug, PartialEq)]
pub struct Pair<'a> {
    pub name: &'a [u8],
    pub value: &'a [u8],
}

/// A store without pairs.
pub fn none() -> Vec<u8> {
    vec![0; codes::STORE_LENGTH]
}

/// The pairs of a store, in their order. None where it is not laid out as the core leaves it.
pub fn pairs(store: &[u8]) -> Option<Vec<Pair<'_>>> {
    let count = word_at(store, 0).filter(|n| *n <= codes::MOST_LISTED)? as usize;
    let texts = store.get(4 + 16 * count..)?;
    let mut sum = 0;
    let mut text = |at: usize| {
        let (start, length) = (word_at(store, at)? as usize, word_at(store, at + 4)? as usize);
        let text = texts.get(sum..)?.get(..length).filter(|_| start == sum)?;
        sum += length;
        Some(text)
    };
    (0..count).map(|i| Some(Pair { name: text(4 + 16 * i)?, value: text(12 + 16 * i)? })).collect()
}

/// The value of a variable, the last where it is given twice.
pub fn value<'a>(pairs: &[Pair<'a>], name: &[u8]) -> Option<&'a [u8]> {
    pairs.iter().rev().find(|p| p.name == name).map(|p| p.value)
}

/// A text of the client for the log: cut, and in quotes, with those inside doubled, so that none looks like two.
pub fn quoted(text: &[u8]) -> String {
    let all = String::from_utf8_lossy(text);
    let shown: String = all.chars().take(MOST_SHOWN).collect();
    let more = if shown.len() < all.len() { ".." } else { "" };
    format!("\"{}\"{more}", shown.replace('"', "\"\""))
}

/// Pairs for the log: the count, and the first of them.
pub fn told(pairs: &[Pair]) -> String {
    let plain = |c: &u8| c.is_ascii_alphanumeric() || *c == b'_';
    let name = |n: &[u8]| {
        let is_plain = (1..=MOST_SHOWN).contains(&n.len()) && n.iter().all(plain);
        if is_plain { String::from_utf8_lossy(n).into_owned() } else { quoted(n) }
    };
    let some: Vec<String> =
        pairs.iter().take(MOST_TOLD).map(|p| format!("{}={}", name(p.name), quoted(p.value))).collect();
    let rest = match pairs.len() - some.len() {
        0 => String::new(),
        n => format!(", and {n} more"),
    };
    format!("{} variables: {}{rest}", pairs.len(), some.join(", "))
}

#[cfg(test)]
mod tests {
    use super::*;
    use crate::own::noise;
    use wire::{put_word, words};

    /// A store with these pairs, as the header of the C interface has it.
    fn store(of: &[(&str, &str)]) -> Vec<u8> {
        let (mut head, mut texts) = (words(&[of.len() as u32]), Vec::new());
        for text in of.iter().flat_map(|(name, value)| [name, value]) {
            head.extend(words(&[texts.len() as u32, text.len() as u32]));
            texts.extend(text.as_bytes());
        }
        let mut all = [head, texts].concat();
        assert!(all.len() <= codes::STORE_LENGTH);
        all.resize(codes::STORE_LENGTH, 0xa5);
        all
    }

    fn pair<'a>(name: &'a str, value: &'a str) -> Pair<'a> {
        Pair { name: name.as_bytes(), value: value.as_bytes() }
    }

    #[test]
    fn stores_are_read() {
        assert_eq!(pairs(&none()), Some(Vec::new()));
        let all = store(&[("FILESYSTEM", "/vol"), ("", "x"), ("TYPE", ""), ("TYPE", "dump")]);
        let read = pairs(&all).unwrap();
        assert_eq!(read, [pair("FILESYSTEM", "/vol"), pair("", "x"), pair("TYPE", ""), pair("TYPE", "dump")]);
        assert_eq!((value(&read, b"TYPE"), value(&read, b"HIST")), (Some(&b"dump"[..]), None));
        // Full to the last byte.
        let long = "x".repeat(codes::STORE_LENGTH - 21);
        assert_eq!(pairs(&store(&[("A", &long)])), Some(vec![pair("A", &long)]));
        assert_eq!(pairs(&store(&[("", ""); 64])).unwrap().len(), 64);
    }

    #[test]
    fn other_stores_are_none() {
        let good = store(&[("AB", "c"), ("D", "e")]);
        // The count; a start, of each text; a length that shifts the next start; one that passes the end.
        for (at, word) in
            [(0, 65), (0, u32::MAX), (4, 1), (12, 1), (20, 4), (28, 0), (8, 3), (32, u32::MAX), (32, 16_384)]
        {
            let mut bad = good.clone();
            put_word(&mut bad, at, word);
            assert_eq!(pairs(&bad), None, "{at} {word}");
        }
        for n in 0..41 {
            assert_eq!(pairs(&good[..n]), None, "{n}");
        }
        assert_eq!(pairs(&good[..41]), pairs(&good));
        // Any bytes at all, with a count that may be one.
        for seed in 0..200 {
            let mut any = noise(seed, codes::STORE_LENGTH);
            any[..4].copy_from_slice(&words(&[seed as u32 % 66]));
            assert_eq!(pairs(&any).is_some(), seed % 66 == 0, "{seed}");
        }
    }

    #[test]
    fn pairs_are_told() {
        let all = store(&[("FILESYSTEM", "/vol"), ("", ""), ("A B", "n\", TYPE=\"dump")]);
        let line = "3 variables: FILESYSTEM=\"/vol\", \"\"=\"\", \"A B\"=\"n\"\", TYPE=\"\"dump\"";
        assert_eq!(told(&pairs(&all).unwrap()), line);
        assert_eq!(quoted(b"/\xff"), "\"/\u{fffd}\"");
        let (whole, cut) = ("\u{fc}".repeat(MOST_SHOWN), "\u{fc}".repeat(MOST_SHOWN + 1));
        assert_eq!(quoted(whole.as_bytes()), format!("\"{whole}\""));
        assert_eq!(quoted(cut.as_bytes()), format!("\"{whole}\".."));
        let many = store(&[("A", "1"); 64]);
        let line = told(&pairs(&many).unwrap());
        assert!(line.starts_with("64 variables: A=\"1\", ") && line.ends_with("A=\"1\", and 48 more"), "{line}");
        assert_eq!(line.matches("A=").count(), MOST_TOLD);
    }
}
