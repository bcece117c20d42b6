//! Compares what a backup read with what a recover wrote: two folders, or two files.
use std::collections::BTreeSet;
use std::ffi::OsString;
use std::fs::{self, File};
use std::io::{self, ErrorKind, Read};
use std::path::Path;

/// What was found equal.
#[derive(Debug, Default, PartialEq)]
pub struct Equal {
    pub files: u64,
    pub folders: u64,
    pub links: u64,
    pub bytes: u64,
}

/// What is equal, or the first difference in words.
pub fn compare(from: &Path, to: &Path) -> Result<Equal, String> {
    let mut equal = Equal::default();
    let from_folder = from.is_dir();
    if from_folder != to.is_dir() {
        return Err(format!("one is a folder and the other is not: {} and {}", from.display(), to.display()));
    }
    if from_folder {
        folders(from, to, &mut equal)?;
        // The two themselves are not on the tape.
        equal.folders -= 1;
    } else {
        files(from, to, &mut equal)?;
    }
    Ok(equal)
}

fn names(folder: &Path) -> Result<BTreeSet<OsString>, String> {
    let all = fs::read_dir(folder).and_then(|list| list.map(|e| Ok(e?.file_name())).collect());
    all.map_err(|e: io::Error| format!("{}: {e}", folder.display()))
}

fn folders(from: &Path, to: &Path, equal: &mut Equal) -> Result<(), String> {
    equal.folders += 1;
    let (a, b) = (names(from)?, names(to)?);
    if let Some(name) = a.symmetric_difference(&b).next() {
        let (has, lacks) = if a.contains(name) { (from, to) } else { (to, from) };
        return Err(format!("{} is there, and not in {}", has.join(name).display(), lacks.display()));
    }
    for name in &a {
        let (x, y) = (from.join(name), to.join(name));
        let kind = |p: &Path| p.symlink_metadata().map(|m| m.file_type()).map_err(|e| format!("{}: {e}", p.display()));
        let (kx, ky) = (kind(&x)?, kind(&y)?);
        if kx != ky {
            return Err(format!("of two kinds: {} and {}", x.display(), y.display()));
        }
        if kx.is_dir() {
            folders(&x, &y, equal)?;
        } else if kx.is_symlink() {
            if fs::read_link(&x).ok() != fs::read_link(&y).ok() {
                return Err(format!("links to two places: {} and {}", x.display(), y.display()));
            }
            equal.links += 1;
        } else if kx.is_file() {
            files(&x, &y, equal)?;
        }
    }
    Ok(())
}

/// Reads until the buffer is full or the file ends.
fn fill(file: &mut File, buffer: &mut [u8]) -> io::Result<usize> {
    let mut n = 0;
    while n < buffer.len() {
        match file.read(&mut buffer[n..]) {
            Ok(0) => break,
            Ok(k) => n += k,
            Err(e) if e.kind() == ErrorKind::Interrupted => {}
            Err(e) => return Err(e),
        }
    }
    Ok(n)
}

/// Two files byte for byte.
fn files(from: &Path, to: &Path, equal: &mut Equal) -> Result<(), String> {
    let open = |p: &Path| File::open(p).map_err(|e| format!("{}: {e}", p.display()));
    let (mut a, mut b) = (open(from)?, open(to)?);
    let (mut x, mut y) = (vec![0; 1 << 16], vec![0; 1 << 16]);
    let mut at = 0;
    loop {
        let n = fill(&mut a, &mut x).map_err(|e| format!("{}: {e}", from.display()))?;
        let m = fill(&mut b, &mut y).map_err(|e| format!("{}: {e}", to.display()))?;
        if x[..n] != y[..m] {
            return Err(format!("{} and {} differ from byte {at} on", from.display(), to.display()));
        }
        (equal.bytes, at) = (equal.bytes + n as u64, at + n as u64);
        if m == 0 {
            equal.files += 1;
            return Ok(());
        }
    }
}

#[cfg(test)]
mod tests {
    use super::*;
    use crate::own::{Scratch, noise, sample};

    #[test]
    fn every_kind_of_difference_is_found() {
        let s = Scratch::new().unwrap();
        let (from, to) = (s.path("from"), s.path("to"));
        sample(&from).unwrap();
        sample(&to).unwrap();
        let whole = Equal { files: 6, folders: 5, links: 1, bytes: 302_032 };
        assert_eq!(compare(&from, &to), Ok(whole));
        let changed = |change: &dyn Fn(), back: &dyn Fn()| {
            change();
            let told = compare(&from, &to);
            back();
            assert!(compare(&from, &to).is_ok());
            told.unwrap_err()
        };
        let write =
            |name: &'static str, bytes: &'static [u8]| move |to: &Path| fs::write(to.join(name), bytes).unwrap();
        let (short, right) = (write("a", b"hell\n\n"), write("a", b"hello\n"));
        assert!(changed(&|| short(&to), &|| right(&to)).contains("differ"));
        let longer = write("a", b"hello\n\0");
        assert!(changed(&|| longer(&to), &|| right(&to)).contains("differ"));
        let extra = write("more", b"");
        assert!(
            changed(&|| extra(&to), &|| fs::remove_file(to.join("more")).unwrap()).contains("is there, and not in")
        );
        let link = |target: &str| {
            fs::remove_file(to.join("inner/link")).unwrap();
            std::os::unix::fs::symlink(target, to.join("inner/link")).unwrap();
        };
        assert!(changed(&|| link("../b"), &|| link("../a")).contains("two places"));
        let kind = || {
            fs::remove_file(to.join("b.empty")).unwrap();
            fs::create_dir(to.join("b.empty")).unwrap();
        };
        let back = || {
            fs::remove_dir(to.join("b.empty")).unwrap();
            fs::write(to.join("b.empty"), b"").unwrap();
        };
        assert!(changed(&kind, &back).contains("two kinds"));
    }

    #[test]
    fn files_of_two_lengths() {
        let s = Scratch::new().unwrap();
        let (from, to) = (s.path("from"), s.path("to"));
        let bytes = noise(1, 100_000);
        fs::write(&from, &bytes).unwrap();
        fs::write(&to, &bytes).unwrap();
        assert_eq!(compare(&from, &to), Ok(Equal { files: 1, bytes: 100_000, ..Equal::default() }));
        fs::write(&to, [&bytes[..], &[0; 352]].concat()).unwrap();
        assert!(compare(&to, &from).unwrap_err().contains("from byte"));
        assert!(compare(&from, &to).unwrap_err().contains("from byte"));
    }
}
