//! Where a recover writes: a folder into which an archive is unpacked, or a file. The stream's first bytes tell what it is.
use crate::folder::{Id, is_folder};
use crate::format::{ENDS, Holds, START, Start, started};
use crate::place::{Meta, Place, Writing};
use crate::untar::{Counts, Options, Untar};
use std::ffi::OsString;
use std::io;
use std::os::unix::fs::PermissionsExt;
use std::path::{Path, PathBuf};
use std::time::Instant;

/// A digest that is not where it belongs is looked for in so many bytes at the end.
const TAIL: usize = 1 << 16;

/// A file for the bytes as they come.
struct Plain {
    place: Place,
    writing: Option<Writing>,
    /// An archive is kept as it is, and judged.
    judge: Option<Untar>,
    tail: Vec<u8>,
}

enum Way {
    /// The first bytes, which tell the way.
    Start(Vec<u8>),
    Unpack(Box<Untar>),
    Plain(Box<Plain>),
}

pub struct Target {
    path: PathBuf,
    /// What the stream comes from, for people.
    from: &'static str,
    options: Option<Options>,
    way: Way,
    bytes: u64,
}

fn bad(why: impl ToString) -> io::Error {
    io::Error::new(io::ErrorKind::InvalidData, why.to_string())
}

/// The folder and the name of a file that may be there; a link that the operator named is followed.
pub fn parted(path: &Path) -> io::Result<(PathBuf, OsString)> {
    let path = if path.try_exists()? { path.canonicalize()? } else { path.to_path_buf() };
    let name = path.file_name().ok_or_else(|| bad(format!("{}: not the name of a file", path.display())))?;
    Ok((path.parent().unwrap_or(Path::new("")).to_path_buf(), name.to_os_string()))
}

/// Nothing, a file, or a folder may be written to; and never the cartridge.
pub fn may_write(path: &Path, except: &[Id]) -> Result<(), String> {
    match path.metadata() {
        Ok(m) if except.contains(&Id::of(&m)) => Err("is the cartridge itself; choose another name".into()),
        Ok(m) if m.is_dir() || m.is_file() => Ok(()),
        Ok(_) => Err("neither a folder nor a file".into()),
        Err(e) if e.kind() != io::ErrorKind::NotFound => Err(e.to_string()),
        Err(_) if path.is_symlink() => Err("a link that leads nowhere".into()),
        Err(_) => Ok(()),
    }
}

impl Target {
    pub fn open(path: &Path, from: &'static str, options: Options) -> io::Result<Target> {
        may_write(path, &options.except).map_err(bad)?;
        // Opened and left again: so that a folder that is not there is told at once.
        let folder = if is_folder(path)? { path.to_path_buf() } else { parted(path)?.0 };
        Place::new(&folder, &options.except)?;
        let way = Way::Start(Vec::new());
        Ok(Target { path: path.to_path_buf(), from, options: Some(options), way, bytes: 0 })
    }

    /// Takes the way that the first bytes tell.
    fn decide(&mut self, head: &[u8]) -> io::Result<()> {
        let options = self.options.take().ok_or_else(|| bad("begun twice"))?;
        let start = started(head);
        if start == Start::Damaged {
            return Err(bad("the stream was changed: it begins nearly as the vault's streams do"));
        }
        self.way = if is_folder(&self.path)? {
            Way::Unpack(Box::new(Untar::new(&self.path, options)?))
        } else {
            let (folder, name) = parted(&self.path)?;
            match start {
                Start::Known(Holds::File) => Way::Unpack(Box::new(Untar::one(&folder, &name, options)?)),
                _ => Way::Plain(Box::new(Plain::new(&self.path, options, start != Start::Other)?)),
            }
        };
        self.put(head)
    }

    fn put(&mut self, part: &[u8]) -> io::Result<()> {
        match &mut self.way {
            Way::Start(_) => Ok(()),
            Way::Unpack(untar) => untar.take(part).map(drop),
            Way::Plain(plain) => plain.take(part),
        }
    }

    pub fn take(&mut self, part: &[u8]) -> io::Result<()> {
        self.bytes += part.len() as u64;
        if let Way::Start(head) = &mut self.way {
            head.extend(part);
            if head.len() < START {
                return Ok(());
            }
            let head = std::mem::take(head);
            return self.decide(&head);
        }
        self.put(part)
    }

    /// Whether the stream has told by itself that it has ended.
    pub fn done(&self) -> bool {
        match &self.way {
            Way::Start(_) => false,
            Way::Unpack(untar) => untar.done(),
            Way::Plain(plain) => plain.judge.as_ref().is_some_and(Untar::done),
        }
    }

    /// Whether the stream cannot tell its end: it is a file's bytes and nothing else, as older vaults wrote them.
    pub fn is_endless(&self) -> bool {
        match &self.way {
            Way::Start(head) => {
                !head.is_empty() && started(head) == Start::Other && is_folder(&self.path).is_ok_and(|f| !f)
            }
            Way::Unpack(_) => false,
            Way::Plain(plain) => plain.judge.is_none(),
        }
    }

    /// Why a stream that stops here is not whole.
    pub fn cut_short(&self) -> String {
        let from = self.from;
        match self.bytes {
            0 => format!("there is no stream on {from} here"),
            n => format!("{from} ends before the stream does, after {n} bytes: it was cut short"),
        }
    }

    /// The stream has ended: it is judged.
    pub fn close(&mut self) -> io::Result<()> {
        if let Way::Start(head) = &mut self.way {
            let head = std::mem::take(head);
            self.decide(&head)?;
        }
        let (done, some) = (self.done(), self.bytes > 0);
        match &mut self.way {
            Way::Plain(plain) if some => plain.close(),
            _ if done => Ok(()),
            _ => Err(bad(self.cut_short())),
        }
    }

    /// Gives what was restored its names, until all is done or so late.
    pub fn commit(&mut self, until: Instant) -> io::Result<bool> {
        match &mut self.way {
            Way::Start(_) => Ok(true),
            Way::Unpack(untar) => untar.commit(until),
            Way::Plain(plain) => plain.place.commit(until),
        }
    }

    /// What was made goes away again.
    pub fn abandon(&mut self) {
        self.way = Way::Start(Vec::new());
    }

    /// What was asked for and is not there.
    pub fn missing(&self) -> Vec<String> {
        if let Way::Unpack(untar) = &self.way { untar.missing() } else { Vec::new() }
    }

    /// What was restored, whether a digest proved it, and how many entries have not their owner.
    pub fn counts(&self) -> (Counts, bool, u64) {
        match &self.way {
            Way::Unpack(untar) => (untar.counts, untar.is_proved(), untar.unowned()),
            Way::Plain(plain) => {
                (Counts { files: 1, ..Counts::default() }, plain.judge.as_ref().is_some_and(Untar::is_proved), 0)
            }
            Way::Start(_) => (Counts::default(), false, 0),
        }
    }
}

impl Plain {
    fn new(path: &Path, options: Options, judged: bool) -> io::Result<Plain> {
        let (folder, name) = parted(path)?;
        if !options.wanted.is_empty() {
            (options.warn)("the names of this recover are not followed: --restore-to is a file");
        }
        if !judged {
            (options.warn)("the stream carries no digest: nothing tells whether it is as it was written");
        }
        let mut place = Place::new(&folder, &options.except)?;
        // A file that is replaced keeps its mode.
        let mode = path.metadata().map_or(0o600, |m| m.permissions().mode() & 0o777);
        let meta = Meta { mode, owner: None, time: None };
        let writing = Some(place.begin(Path::new(&name), b"", meta, false, true)?);
        Ok(Plain { place, writing, judge: judged.then(Untar::judge), tail: Vec::new() })
    }

    fn take(&mut self, part: &[u8]) -> io::Result<()> {
        // Behind an archive's end is fill.
        let n = self.judge.as_mut().map_or(Ok(part.len()), |judge| judge.take(part))?;
        if let Some(w) = &mut self.writing {
            w.put(&part[..n])?;
        }
        if self.tail.len() > TAIL {
            self.tail.drain(..self.tail.len() - TAIL / 2);
        }
        self.tail.extend(&part[..n]);
        Ok(())
    }

    fn close(&mut self) -> io::Result<()> {
        match &self.judge {
            Some(judge) if !judge.done() => return Err(bad("the archive was cut short")),
            None if self.tail.windows(ENDS.len()).any(|w| w == ENDS.as_bytes()) => {
                return Err(bad("the stream was changed: it ends as the vault's streams do, and does not begin so"));
            }
            _ => {}
        }
        self.writing.take().map_or(Ok(()), |w| self.place.close(w))
    }
}
