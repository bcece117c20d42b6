//! What a client asks for in a start request besides the method: a FILESYSTEM, and names of a recover. The core has read the
//! request and accepted it, and kept its variables; here the names, which it does not keep, are read once more.
use crate::place::plain;
use crate::variables::{Pair, quoted, value};
use std::ffi::OsStr;
use std::os::unix::ffi::OsStrExt;
use std::path::{Path, PathBuf};
use wire::{HEADER, Header, message, word_at};

#[derive(Debug, Default, PartialEq)]
pub struct Wishes {
    filesystem: Option<Vec<u8>>,
    prefix: Option<Vec<u8>>,
    pub names: Vec<Name>,
}

/// A name of a recover.
#[derive(Debug, Default, PartialEq)]
pub struct Name {
    pub original: Vec<u8>,
    /// Whether it is to go elsewhere, or by another name.
    pub moved: bool,
}

struct Words<'a>(&'a [u8], usize);

impl Words<'_> {
    fn word(&mut self) -> Option<u32> {
        let w = word_at(self.0, self.1)?;
        self.1 += 4;
        Some(w)
    }

    fn text(&mut self) -> Option<Vec<u8>> {
        let n = self.word()? as usize;
        let bytes = self.0.get(self.1..self.1.checked_add(n)?)?.to_vec();
        self.1 += n.next_multiple_of(4);
        Some(bytes)
    }

    fn name(&mut self) -> Option<Name> {
        let [original, to, new, other] = [self.text()?, self.text()?, self.text()?, self.text()?];
        (self.1, _) = (self.1 + 16, other);
        let moved = !to.is_empty() && to != original || !new.is_empty();
        Some(Name { original, moved })
    }
}

/// The names of a record of data start recover, which stand behind its variables.
fn names(record: &[u8]) -> Option<Vec<Name>> {
    let mut w = Words(record, HEADER);
    for _ in 0..w.word()? {
        w.text()?;
        w.text()?;
    }
    (0..w.word()?).map(|_| w.name()).collect()
}

/// The id of a record of client auth, which stands behind the type.
pub fn login(record: &[u8]) -> Option<Vec<u8>> {
    let mut w = Words(record, HEADER);
    w.word()?;
    w.text()
}

fn path(bytes: &[u8]) -> &Path {
    Path::new(OsStr::from_bytes(bytes))
}

/// Whether a client means this path, as it was told to the vault or in full.
fn is_named(told: &Path, asked: &[u8]) -> bool {
    path(asked) == told || told.canonicalize().is_ok_and(|full| path(asked) == full)
}

impl Wishes {
    /// Of a start that was accepted: its variables, and its record.
    pub fn of(pairs: &[Pair], record: &[u8]) -> Wishes {
        let given = |name: &[u8]| value(pairs, name).map(<[u8]>::to_vec);
        let recover = Header::of(record).is_some_and(|h| h.message == message::DATA_START_RECOVER);
        let names = if recover { names(record).unwrap_or_default() } else { Vec::new() };
        Wishes { filesystem: given(b"FILESYSTEM"), prefix: given(b"PREFIX"), names }
    }

    /// What the client names that is not this path, for the log: the FILESYSTEM, and the PREFIX of a recover.
    pub fn others(&self, told: &Path, backup: bool) -> Vec<String> {
        let named = [("FILESYSTEM", &self.filesystem), ("PREFIX", if backup { &None } else { &self.prefix })];
        let named = named.into_iter().filter_map(|(name, value)| Some((name, value.as_ref()?)));
        named.filter(|(_, v)| !is_named(told, v)).map(|(name, v)| format!("{name} {}", quoted(v))).collect()
    }

    /// The names in the archive that are meant: those of the client, without what it calls the file system, or the
    /// folder that the vault backs up. None if all is meant.
    pub fn wanted(&self, stream: Option<&Path>) -> Result<Vec<PathBuf>, String> {
        let mut all = Vec::new();
        for name in &self.names {
            let told = path(&name.original);
            // Clients are known that name it by PREFIX in a recover.
            let root = self.filesystem.as_ref().or(self.prefix.as_ref());
            let roots = [root.map(|r| path(r)), stream];
            let below = roots.into_iter().flatten().find_map(|root| told.strip_prefix(root).ok());
            let below = below.unwrap_or_else(|| told.strip_prefix("/").unwrap_or(told));
            match plain(below.as_os_str().as_bytes()).map_err(|e| e.to_string())? {
                Some(name) => all.push(name),
                None => return Ok(Vec::new()),
            }
        }
        Ok(all)
    }
}

#[cfg(test)]
mod tests {
    use super::*;
    use wire::{request, text, words};

    /// A recover with one variable and these names.
    fn recover(names: &[[&str; 4]], key: &str, value: &str) -> Wishes {
        let mut body = [words(&[2]), text("HIST"), text("n"), text(key), text(value)].concat();
        body.extend(words(&[names.len() as u32]));
        for name in names {
            name.iter().for_each(|part| body.extend(text(part)));
            body.extend([0; 16]);
        }
        let record = request(1, message::DATA_START_RECOVER, &[body, text("dump")].concat());
        Wishes::of(&[Pair { name: key.as_bytes(), value: value.as_bytes() }], &record)
    }

    #[test]
    fn names_are_those_of_the_archive() {
        let wishes = |names: &[[&str; 4]], fs: &str| recover(names, "FILESYSTEM", fs);
        let wanted = |names: &[&str], fs: &str| {
            let all: Vec<[&str; 4]> = names.iter().map(|n| [*n, "", "", ""]).collect();
            wishes(&all, fs).wanted(Some(Path::new("/srv/data")))
        };
        let paths = |names: &[&str]| Ok(names.iter().map(PathBuf::from).collect());
        assert_eq!(wanted(&["/vol/a/b", "c"], "/vol"), paths(&["a/b", "c"]));
        assert_eq!(wanted(&["/srv/data/x", "/y/", "./z"], "/vol"), paths(&["x", "y", "z"]));
        for all in ["/vol", "/", ".", "/srv/data", ""] {
            assert_eq!(wanted(&["a", all], "/vol"), paths(&[]), "{all}");
        }
        assert!(wanted(&["../a"], "/vol").is_err());
        let by_prefix = recover(&[["/vol/a", "", "", ""]], "PREFIX", "/vol");
        assert_eq!(by_prefix.wanted(None), paths(&["a"]));
        let moved = |to, new| wishes(&[["/vol/a", to, new, ""]], "/vol").names[0].moved;
        assert_eq!([moved("", ""), moved("/vol/a", ""), moved("/b", ""), moved("", "c")], [false, false, true, true]);
        assert_eq!((names(&request(1, 0x402, &words(&[0, 9]))), names(&request(1, 0x402, b""))), (None, None));
    }

    #[test]
    fn other_file_systems_are_found() {
        let fs = |value: &str| recover(&[], "FILESYSTEM", value);
        let told = Path::new("/srv/data");
        for same in ["/srv/data", "/srv/data/", "/srv/./data"] {
            assert_eq!(fs(same).others(told, true), Vec::<String>::new(), "{same}");
        }
        assert_eq!(fs("/vol").others(told, true), ["FILESYSTEM \"/vol\""]);
        assert_eq!(fs("").others(told, false), ["FILESYSTEM \"\""]);
        let prefix = recover(&[], "PREFIX", "/vol");
        assert_eq!((prefix.others(told, false), prefix.others(told, true).len()), (vec!["PREFIX \"/vol\"".into()], 0));
        // In full, where the vault was told less.
        let here = Path::new(".").canonicalize().unwrap();
        assert!(is_named(Path::new("."), here.as_os_str().as_bytes()) && !is_named(Path::new("."), b"/vol"));
    }
}
