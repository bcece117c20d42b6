//! The list of slots: which cartridge is in each place, by name; as its file has it, and as a start finds it.
use crate::log::printable;
use std::ffi::{OsStr, OsString};
use std::os::unix::ffi::{OsStrExt, OsStringExt};

/// The drive and eight slots.
pub const PLACES: usize = 9;
/// The list's first line.
const HEAD: &[u8] = b"mossgoblin slots 1";

/// What is in each place, by name: the name of a file in the folder, or the whole path of the one cartridge that is
/// given beside it.
pub type Names = [Option<OsString>; PLACES];

/// A place as people name it.
pub fn place(i: usize) -> String {
    if i == 0 { "drive".into() } else { (15 + i).to_string() }
}

/// The same within a sentence.
pub fn the_place(i: usize) -> String {
    if i == 0 { "the drive".into() } else { format!("slot {}", 15 + i) }
}

/// A name for a line: nothing in it is done, and it is cut.
pub fn shown(name: &OsStr) -> String {
    let text = name.to_string_lossy();
    let cut: String = text.chars().take(200).collect();
    printable(&cut) + if cut.len() < text.len() { ".." } else { "" }
}

/// The list as its file has it: a line for each place, empty ones without a name.
pub fn written(names: &Names) -> Vec<u8> {
    let mut all = [HEAD, b"\n"].concat();
    for (i, name) in names.iter().enumerate() {
        all.extend(place(i).bytes());
        if let Some(name) = name {
            all.push(b' ');
            all.extend(name.as_bytes());
        }
        all.push(b'\n');
    }
    all
}

/// Reads what `written` wrote, and nothing else.
pub fn read(bytes: &[u8]) -> Result<Names, String> {
    let lines: Vec<&[u8]> = bytes.split(|b| *b == b'\n').collect();
    if lines[0] != HEAD {
        return Err("line 1: not a list of slots".into());
    }
    // Behind the last line's end there is nothing.
    if lines.len() != PLACES + 2 || !lines[PLACES + 1].is_empty() {
        return Err(format!("{} lines where {} are due", bytes.iter().filter(|b| **b == b'\n').count(), PLACES + 1));
    }
    let mut names = Names::default();
    for i in 0..PLACES {
        let wrong = |what: &str| Err(format!("line {}: {what}", i + 2));
        let name = match lines[i + 1].strip_prefix(place(i).as_bytes()) {
            Some([]) => continue,
            Some([b' ', name @ ..]) if !name.is_empty() => OsString::from_vec(name.to_vec()),
            _ => return wrong(&format!("expected {}, and a name where it is not empty", place(i))),
        };
        if names.contains(&Some(name.clone())) {
            return wrong("a cartridge that stands in another line too");
        }
        names[i] = Some(name);
    }
    Ok(names)
}

/// Where cartridges are at a start, by their numbers among those that were found.
#[derive(Debug, PartialEq)]
pub struct Found {
    pub at: [Option<usize>; PLACES],
    /// Places of the list whose cartridge is not there any more.
    pub gone: Vec<(usize, OsString)>,
    /// Those that the list does not have.
    pub new: Vec<usize>,
}

/// Each cartridge is where the list has it. Of the others the one that was given is in the drive, and the rest are in
/// empty slots, in the order of their names.
pub fn find(list: Option<Names>, names: &[OsString], given: Option<usize>) -> Result<Found, String> {
    let mut found = Found { at: [None; PLACES], gone: Vec::new(), new: Vec::new() };
    for (i, name) in list.into_iter().flatten().enumerate() {
        match name.map(|name| names.iter().position(|n| *n == name).ok_or(name)) {
            Some(Ok(n)) => found.at[i] = Some(n),
            Some(Err(name)) => found.gone.push((i, name)),
            None => {}
        }
    }
    let is_new = |found: &Found, n: usize| !found.at.contains(&Some(n));
    if let Some(n) = given.filter(|n| is_new(&found, *n)) {
        if let Some(other) = found.at[0] {
            let (name, other) = (shown(&names[n]), shown(&names[other]));
            return Err(format!(
                "{name} cannot be in the drive, as {other} is there; \
                 start without --cartridge and move that to a slot first"
            ));
        }
        found.at[0] = Some(n);
        found.new.push(n);
    }
    for (n, name) in names.iter().enumerate() {
        if is_new(&found, n) {
            let free = (1..PLACES).find(|i| found.at[*i].is_none());
            let full = || format!("no slot is empty for {}; take a cartridge out of the folder", shown(name));
            found.at[free.ok_or_else(full)?] = Some(n);
            found.new.push(n);
        }
    }
    Ok(found)
}

#[cfg(test)]
mod tests {
    use super::*;

    fn names(of: [&str; PLACES]) -> Names {
        of.map(|n| (!n.is_empty()).then(|| n.into()))
    }

    fn some(of: &[&str]) -> Vec<OsString> {
        of.iter().map(OsString::from).collect()
    }

    #[test]
    fn list_is_read_back() {
        for of in [
            [""; PLACES],
            ["a", "", "b c", "", "", " x ", "", "", "/srv/tape 1"],
            ["16", "17", "drive", "-", "\u{fc}", "\t", "g", "h", "i"],
        ] {
            assert_eq!(read(&written(&names(of))), Ok(names(of)));
        }
        let mut odd = names([""; PLACES]);
        odd[4] = Some(OsString::from_vec(vec![0xff, 0x80]));
        assert_eq!(read(&written(&odd)), Ok(odd));
    }

    #[test]
    fn damaged_lists_are_refused() {
        let good = written(&names(["a", "b", "", "", "", "", "", "", "c"]));
        assert!(read(&good).is_ok());
        // Cut anywhere, with anything behind it, with any line twice or left out.
        for n in 0..good.len() {
            assert!(read(&good[..n]).is_err(), "{n}");
        }
        assert!(read(&[&good[..], b"x"].concat()).is_err() && read(&[&good[..], b"\n"].concat()).is_err());
        let lines: Vec<&[u8]> = good.split_inclusive(|b| *b == b'\n').collect();
        for i in 0..lines.len() {
            let without = [&lines[..i], &lines[i + 1..]].concat().concat();
            let twice = [&lines[..=i], &lines[i..]].concat().concat();
            assert!(read(&without).is_err() && read(&twice).is_err(), "{i}");
        }
        for (old, new, why) in [
            ("16 b", "16 a", "line 3: a cartridge that stands in another line too"),
            ("16 b", "16 ", "line 3: expected 16"),
            ("16 b", "160 b", "line 3: expected 16"),
            ("drive a", "1 a", "line 2: expected drive"),
            ("slots 1", "slots 2", "line 1: not a list of slots"),
        ] {
            let text = String::from_utf8(good.clone()).unwrap().replace(old, new);
            let told = read(text.as_bytes()).unwrap_err();
            assert!(told.starts_with(why), "{told}");
        }
    }

    #[test]
    fn cartridges_are_found_in_their_places() {
        let at = |list: Option<[&str; PLACES]>, all: &[&str], given| find(list.map(names), &some(all), given);
        let places = |of: &[(usize, usize)]| {
            let mut at = [None; PLACES];
            of.iter().for_each(|(place, n)| at[*place] = Some(*n));
            at
        };
        // At first: the given one in the drive, the others in the slots.
        let first = at(None, &["a", "b", "/c"], Some(2)).unwrap();
        assert_eq!((first.at, first.gone), (places(&[(0, 2), (1, 0), (2, 1)]), vec![]));
        assert_eq!(at(None, &["a", "b"], None).unwrap().at, places(&[(1, 0), (2, 1)]));
        assert_eq!(at(None, &["a", "b"], Some(1)).unwrap().at, places(&[(0, 1), (1, 0)]));
        // Then where they were, whatever was given; new ones in empty slots, and one that is gone leaves its place
        // empty.
        let list = Some(["b", "", "", "x", "", "", "", "", "/c"]);
        let then = at(list, &["a", "b", "d", "/c"], Some(3)).unwrap();
        assert_eq!(then.at, places(&[(0, 1), (1, 0), (2, 2), (8, 3)]));
        assert_eq!((then.gone, then.new), (vec![(3, "x".into())], vec![0, 2]));
        assert_eq!(at(list, &[], None).unwrap().gone.len(), 3);
        // A new one that was given does not push another out of the drive.
        assert!(at(list, &["b", "/e"], Some(1)).unwrap_err().contains("/e cannot be in the drive, as b is there"));
        let full = Some(["", "a", "b", "c", "d", "e", "f", "g", "/i"]);
        let all = ["a", "b", "c", "d", "e", "f", "g", "h", "/i"];
        assert!(at(full, &all, Some(8)).unwrap_err().contains("no slot is empty for h"));
    }

    #[test]
    fn names_are_shown_and_not_done() {
        assert_eq!(shown(OsStr::new("a\x1b[2J\u{202e}b")), "a\\u{1b}[2J\\u{202e}b");
        assert_eq!(shown(OsStr::new(&"n".repeat(300))).len(), 202);
    }
}
