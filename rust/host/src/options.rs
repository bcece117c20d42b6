//! The command line as people write it: `--name VALUE` and `--name=VALUE`, in any order, `--` before a name that begins
//! with a dash.
use std::ffi::{OsStr, OsString};
use std::os::unix::ffi::{OsStrExt, OsStringExt};

/// An option of a command: with a value, or alone.
pub struct Known {
    pub name: &'static str,
    pub valued: bool,
}

pub const fn valued(name: &'static str) -> Known {
    Known { name, valued: true }
}

pub const fn alone(name: &'static str) -> Known {
    Known { name, valued: false }
}

/// What was written: options in their order, and the other words.
#[derive(Debug, Default)]
pub struct Written {
    options: Vec<(&'static str, OsString)>,
    pub words: Vec<OsString>,
    pub help: bool,
}

impl Written {
    /// The value of an option; the last one counts.
    pub fn value(&self, name: &str) -> Option<&OsStr> {
        self.options.iter().rev().find(|(n, _)| *n == name).map(|(_, v)| v.as_os_str())
    }

    pub fn has(&self, name: &str) -> bool {
        self.value(name).is_some()
    }

    pub fn text(&self, name: &str) -> Result<Option<&str>, String> {
        let value = self.value(name).map(|v| v.to_str().ok_or(format!("{name}: not readable as text: {v:?}")));
        value.transpose()
    }
}

pub fn parse(args: impl IntoIterator<Item = OsString>, known: &[Known]) -> Result<Written, String> {
    let mut written = Written::default();
    let mut args = args.into_iter();
    while let Some(arg) = args.next() {
        let bytes = arg.as_bytes();
        if bytes == b"--" {
            written.words.extend(args.by_ref());
        } else if bytes == b"--help" || bytes == b"-h" {
            written.help = true;
        } else if bytes.starts_with(b"-") && bytes != b"-" {
            option(&mut written, bytes, known, &mut args)?;
        } else {
            written.words.push(arg);
        }
    }
    Ok(written)
}

fn option(
    written: &mut Written,
    bytes: &[u8],
    known: &[Known],
    args: &mut impl Iterator<Item = OsString>,
) -> Result<(), String> {
    let (name, value) = match bytes.iter().position(|b| *b == b'=') {
        Some(at) => (&bytes[..at], Some(OsString::from_vec(bytes[at + 1..].to_vec()))),
        None => (bytes, None),
    };
    let name = String::from_utf8_lossy(name);
    let Some(found) = known.iter().find(|k| k.name == name) else {
        return Err(format!("unknown option {name}{}", nearest(&name, known.iter().map(|k| k.name))));
    };
    let value = match (found.valued, value) {
        (false, Some(_)) => return Err(format!("{name} takes no value")),
        (false, None) => OsString::new(),
        (true, Some(value)) => value,
        (true, None) => args.next().ok_or(format!("{name}: a value is missing"))?,
    };
    written.options.push((found.name, value));
    Ok(())
}

/// A question for a word that is nearly one of the known ones.
pub fn nearest(word: &str, known: impl Iterator<Item = &'static str>) -> String {
    let best = known.map(|k| (distance(word, k), k)).min();
    match best {
        Some((n, k)) if n <= 2 => format!(" (did you mean {k}?)"),
        _ => String::new(),
    }
}

/// How many letters must be changed, added or left out.
fn distance(a: &str, b: &str) -> usize {
    let b: Vec<char> = b.chars().collect();
    let mut row: Vec<usize> = (0..=b.len()).collect();
    for (i, x) in a.chars().take(64).enumerate() {
        let mut corner = row[0];
        row[0] = i + 1;
        for (j, y) in b.iter().enumerate() {
            let here = (corner + (x != *y) as usize).min(row[j] + 1).min(row[j + 1] + 1);
            corner = row[j + 1];
            row[j + 1] = here;
        }
    }
    row[b.len()]
}

#[cfg(test)]
mod tests {
    use super::*;

    const KNOWN: [Known; 2] = [valued("--listen"), alone("--quiet")];

    fn read(args: &[&str]) -> Result<Written, String> {
        parse(args.iter().map(OsString::from), &KNOWN)
    }

    #[test]
    fn both_ways_to_write_a_value() {
        for args in [&["--listen", "a=b", "x"][..], &["x", "--listen=a=b"], &["--listen=c", "--listen=a=b", "--", "x"]]
        {
            let w = read(args).unwrap();
            assert_eq!((w.text("--listen"), w.has("--quiet")), (Ok(Some("a=b")), false));
            assert_eq!(w.words, ["x"]);
        }
        assert_eq!(read(&["--", "--quiet"]).unwrap().words, ["--quiet"]);
        assert!(read(&["--listen=", "-h"]).unwrap().help);
        assert_eq!(read(&["--listen="]).unwrap().text("--listen"), Ok(Some("")));
    }

    #[test]
    fn errors_say_what_is_wrong() {
        for (args, why) in [
            (&["--lsten", "x"][..], "unknown option --lsten (did you mean --listen?)"),
            (&["--nonsense=1"], "unknown option --nonsense"),
            (&["--listen"], "--listen: a value is missing"),
            (&["--quiet=yes"], "--quiet takes no value"),
        ] {
            assert_eq!(read(args).unwrap_err(), why);
        }
    }

    #[test]
    fn distances() {
        for (a, b, n) in
            [("", "abc", 3), ("serve", "serve", 0), ("sevre", "serve", 2), ("lst", "list", 1), ("try", "new", 3)]
        {
            assert_eq!(distance(a, b), n);
        }
    }
}
