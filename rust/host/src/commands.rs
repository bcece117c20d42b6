//! The commands on files: `new`, `list` and `check` of cartridges, `library` of a folder of them, `accounts`.
use crate::accounts;
use crate::args::size;
use crate::cartridge;
use crate::library::Shelves;
use crate::options::{Known, Written, valued};
use crate::slots::{Found, find, place, shown};
use proved::Entry;
use std::ffi::OsString;
use std::io::{BufWriter, Write, stdout};
use std::path::Path;

/// Why a command was not carried out: its words are wrong, or it failed.
#[derive(Debug)]
pub enum Failed {
    Words(String),
    Work(String),
}

impl From<String> for Failed {
    fn from(why: String) -> Failed {
        Failed::Work(why)
    }
}

/// A number with its thousands apart.
pub fn grouped(n: u64) -> String {
    let digits = n.to_string();
    let mut text = String::new();
    for (i, d) in digits.chars().enumerate() {
        if i > 0 && (digits.len() - i).is_multiple_of(3) {
            text.push(',');
        }
        text.push(d);
    }
    text
}

/// So many of a thing, in words.
pub fn counted(n: u64, what: &str) -> String {
    format!("{} {what}{}", grouped(n), if n == 1 { "" } else { "s" })
}

pub fn new(w: &Written) -> Result<(), Failed> {
    let [file, room] = &w.words[..] else { return Err(Failed::Words("expected FILE and SIZE".into())) };
    let bytes = room.to_str().and_then(size);
    let bytes = bytes.ok_or(Failed::Words(format!("{room:?}: expected a size of at most 128M, such as 64M")))?;
    cartridge::create(Path::new(file), bytes)?;
    println!("made {}: room for {} bytes in at most 4,096 records and marks", file.display(), grouped(bytes as u64));
    Ok(())
}

fn one_file(w: &Written) -> Result<&OsString, Failed> {
    match &w.words[..] {
        [file] => Ok(file),
        _ => Err(Failed::Words("expected one FILE".into())),
    }
}

/// The entries of a cartridge in their order, as the core tells them; and its room.
fn entries(file: &OsString) -> Result<(Vec<Entry>, (usize, usize)), Failed> {
    let image = cartridge::look(Path::new(file))?;
    Ok((cartridge::entries(&image).collect(), cartridge::room(&image)))
}

pub fn list(w: &Written) -> Result<(), Failed> {
    let (all, (capacity, body)) = entries(one_file(w)?)?;
    let used: usize = all.iter().map(|e| e.len).sum();
    printed(|out| {
        writeln!(out, "cartridge {} of {capacity} entries, {used} of {body} bytes", all.len())?;
        for (i, Entry { len, start, .. }) in all.iter().enumerate() {
            match len {
                0 => writeln!(out, "{i} mark at {start}")?,
                n => writeln!(out, "{i} record {n} at {start}")?,
            }
        }
        Ok(())
    })
}

/// Lines on standard output, whose reader may have seen enough.
fn printed(print: impl Fn(&mut dyn Write) -> std::io::Result<()>) -> Result<(), Failed> {
    let mut out = BufWriter::new(stdout().lock());
    match print(&mut out).and_then(|()| out.flush()) {
        Err(e) if e.kind() != std::io::ErrorKind::BrokenPipe => Err(Failed::Work(format!("standard output: {e}"))),
        _ => Ok(()),
    }
}

pub const LIBRARY: [Known; 1] = [valued("--cartridge")];

/// A line for each place: what is there, and what is on it. Nothing is changed.
pub fn library(w: &Written) -> Result<(), Failed> {
    let [folder] = &w.words[..] else { return Err(Failed::Words("expected one DIR".into())) };
    let shelves = Shelves::open(Path::new(folder))?;
    let inside = shelves.cartridges()?;
    let beside = w.value("--cartridge").map(Path::new);
    let given = beside.map(|b| shelves.given(b, &inside)).transpose()?;
    let mut names: Vec<OsString> = inside.into_iter().map(|(name, _)| name).collect();
    let (count, list) = (names.len(), shelves.list()?);
    let first = given.map(|g| g.among(&mut names));
    let Found { at, gone, .. } = find(list, &names, first).map_err(|why| shelves.told(why))?;
    let mut bad = 0;
    let mut lines = Vec::new();
    for (i, n) in at.iter().enumerate() {
        let told = match n {
            Some(n) => {
                let image = match beside {
                    Some(b) if *n == count => cartridge::look(b),
                    _ => shelves.look(&names[*n]),
                };
                let image = image.map(|image| summary(&image));
                bad += image.is_err() as usize;
                format!("{}: {}", shown(&names[*n]), image.unwrap_or_else(|why| why))
            }
            None => match gone.iter().find(|(at, _)| *at == i) {
                Some((_, name)) => format!("empty; {} was here, and is not in the folder", shown(name)),
                None => "empty".into(),
            },
        };
        lines.push(format!("{}: {told}", place(i)));
    }
    printed(|out| lines.iter().try_for_each(|line| writeln!(out, "{line}")))?;
    match bad {
        0 => Ok(()),
        n => Err(Failed::Work(format!("{n} of {} could not be read", names.len()))),
    }
}

/// What is on a sound cartridge, in one line.
fn summary(image: &[u8]) -> String {
    let (all, (capacity, body)) = (cartridge::entries(image).collect::<Vec<Entry>>(), cartridge::room(image));
    let used: usize = all.iter().map(|e| e.len).sum();
    let marks = all.iter().filter(|e| e.len == 0).count();
    let records = counted((all.len() - marks) as u64, "record");
    let marks = counted(marks as u64, "mark");
    let (used, body, n) = (grouped(used as u64), grouped(body as u64), all.len());
    format!("{records}, {marks}, {used} of {body} bytes, {n} of {capacity} entries")
}

pub fn accounts(w: &Written) -> Result<(), Failed> {
    let lines = accounts::listing(Path::new(one_file(w)?))?;
    printed(|out| out.write_all(&lines))
}

pub fn check(w: &Written) -> Result<(), Failed> {
    if w.words.is_empty() {
        return Err(Failed::Words("expected a FILE".into()));
    }
    let mut bad = 0;
    for file in &w.words {
        match cartridge::look(Path::new(file)) {
            Ok(image) => println!("{}: sound: {}", file.display(), summary(&image)),
            Err(why) => {
                bad += 1;
                println!("{why}");
            }
        }
    }
    match bad {
        0 => Ok(()),
        n => Err(Failed::Work(format!("{n} of {} not found sound", w.words.len()))),
    }
}

#[cfg(test)]
mod tests {
    #[test]
    fn thousands_are_apart() {
        for (n, text) in [(0, "0"), (999, "999"), (1_000, "1,000"), (1_234_567, "1,234,567")] {
            assert_eq!(super::grouped(n), text);
        }
    }
}
