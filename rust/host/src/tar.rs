//! A folder or a file as a tar archive, made as it is read. Names are looked up in open folders, one after the other: no
//! link is followed, whatever is swapped meanwhile, and nothing but a file is waited for.
use crate::folder::{Folder, Id, is_folder};
use crate::format::{self, BLOCK, Entry, Holds, MOST, NOT_WHOLE, headers};
use crate::sha256::Sha256;
use crate::sys;
use std::collections::{HashMap, VecDeque};
use std::ffi::{OsStr, OsString};
use std::fmt::Display;
use std::fs::{File, Metadata};
use std::io::{self, Cursor, Read};
use std::os::unix::ffi::OsStrExt;
use std::os::unix::fs::MetadataExt;
use std::path::{Path, PathBuf};
use std::time::{Duration, SystemTime};

/// What a backup is told besides its path.
pub struct Options {
    /// A file that cannot be read ends the backup; otherwise it is left out.
    pub strict: bool,
    /// Files that are never read: the cartridge.
    pub except: Vec<Id>,
    /// Takes a line for each file that is left out or not kept whole.
    pub warn: Box<dyn Fn(&str) + Send>,
}

impl Options {
    pub fn warning(warn: impl Fn(&str) + Send + 'static) -> Options {
        Options { strict: false, except: Vec::new(), warn: Box::new(warn) }
    }
}

/// What went into the archive, and what did not.
#[derive(Clone, Copy, Debug, Default, PartialEq)]
pub struct Counts {
    pub files: u64,
    pub folders: u64,
    pub links: u64,
    /// Not in the archive, or not whole.
    pub left_out: u64,
}

/// A file whose bytes come next.
struct Reading {
    file: File,
    path: PathBuf,
    size: u64,
    left: u64,
    time: SystemTime,
    /// Why the rest cannot be read: it becomes zeros.
    lacks: Option<String>,
}

pub struct Tar {
    root: Folder,
    /// For messages.
    shown: PathBuf,
    /// Names below the root that are still to come.
    names: VecDeque<PathBuf>,
    /// The folder that the last name was in.
    at: Option<(PathBuf, Folder)>,
    /// Headers, fill, or the archive's end.
    bytes: Cursor<Vec<u8>>,
    file: Option<Reading>,
    /// The first name of each file that has several.
    linked: HashMap<Id, Vec<u8>>,
    digest: Sha256,
    ended: bool,
    options: Options,
    pub counts: Counts,
    /// How long the archive is, where that is known.
    pub length: Option<u64>,
}

fn time(meta: &Metadata) -> SystemTime {
    meta.modified().unwrap_or(SystemTime::UNIX_EPOCH)
}

/// A file has holes if it has fewer blocks than bytes.
fn has_holes(meta: &Metadata) -> bool {
    meta.blocks() * 512 < meta.len()
}

/// Attributes that are lost; those that the system gives every file are not named.
fn attributes(file: &File) -> bool {
    sys::attributes(file).split(|b| *b == 0).any(|name| !name.is_empty() && name != b"security.selinux")
}

impl Tar {
    pub fn new(path: &Path, options: Options) -> io::Result<Tar> {
        if is_folder(path)? { Tar::folder(path, options) } else { Tar::file(path, options) }
    }

    fn empty(root: Folder, shown: PathBuf, holds: Holds, options: Options) -> Tar {
        Tar {
            root,
            shown,
            names: VecDeque::new(),
            at: None,
            bytes: Cursor::new(format::start(holds)),
            file: None,
            linked: HashMap::new(),
            digest: Sha256::default(),
            ended: false,
            options,
            counts: Counts::default(),
            length: None,
        }
    }

    fn folder(path: &Path, options: Options) -> io::Result<Tar> {
        let root = Folder::open(path)?;
        let names = sorted(root.names()?);
        let mut tar = Tar::empty(root, path.to_path_buf(), Holds::Folder, options);
        tar.names = names.into_iter().map(PathBuf::from).collect();
        Ok(tar)
    }

    fn file(path: &Path, options: Options) -> io::Result<Tar> {
        // A link that the operator named is followed.
        let whole = path.canonicalize()?;
        let (folder, name) = (whole.parent().unwrap_or(Path::new("/")), whole.file_name().unwrap_or_default());
        let options = Options { strict: true, ..options };
        let mut tar = Tar::empty(Folder::open(folder)?, folder.to_path_buf(), Holds::File, options);
        tar.names.push_back(PathBuf::from(name));
        // The entry is begun at once, so that the length is known; what comes is read as if it had been put together.
        let start = std::mem::take(&mut tar.bytes).into_inner();
        tar.advance()?;
        let size = tar.file.as_ref().map(|f| f.size).ok_or_else(|| io::Error::other("is not a file"))?;
        tar.bytes = Cursor::new([start, std::mem::take(&mut tar.bytes).into_inner()].concat());
        let headers = tar.bytes.get_ref().len() as u64;
        tar.length = Some(headers + size.next_multiple_of(BLOCK as u64) + 4 * BLOCK as u64);
        Ok(tar)
    }

    fn shown(&self, name: &Path) -> String {
        self.shown.join(name).display().to_string()
    }

    fn left_out(&mut self, name: &Path, why: &dyn Display) {
        self.counts.left_out += 1;
        (self.options.warn)(&format!("left out: {}: {why}", self.shown(name)));
    }

    /// A file that cannot be read is left out, or ends the backup.
    fn leave_out(&mut self, name: &Path, why: &dyn Display) -> io::Result<()> {
        if self.options.strict {
            return Err(io::Error::other(format!("{}: {why}", self.shown(name))));
        }
        self.left_out(name, why);
        Ok(())
    }

    /// Opens the folder that a name is in, by each name on the way.
    fn open_parent(&mut self, name: &Path) -> io::Result<()> {
        let parent = name.parent().unwrap_or(Path::new(""));
        if self.at.as_ref().is_none_or(|(at, _)| at != parent) {
            self.at = None;
            self.at = Some((parent.to_path_buf(), self.root.below(parent)?));
        }
        Ok(())
    }

    /// Begins the next entry, or the end.
    fn advance(&mut self) -> io::Result<()> {
        let Some(name) = self.names.pop_front() else {
            self.ended = true;
            self.bytes = Cursor::new(format::end(&self.digest));
            return Ok(());
        };
        match self.open_parent(&name).and_then(|()| self.begin(&name)) {
            Ok(None) => Ok(()),
            Ok(Some(why)) => {
                self.left_out(&name, &why);
                Ok(())
            }
            Err(e) => self.leave_out(&name, &e),
        }
    }

    /// Begins an entry. What is given back is why it is no entry of an archive.
    fn begin(&mut self, name: &Path) -> io::Result<Option<&'static str>> {
        let Some((_, at)) = &self.at else { return Ok(Some("no folder")) };
        let last = name.file_name().unwrap_or_default();
        let meta = at.look(last)?;
        if self.options.except.contains(&Id::of(&meta)) {
            return Ok(Some("the cartridge itself"));
        }
        let entry = Entry {
            name: name.as_os_str().as_bytes(),
            mode: meta.mode(),
            user: meta.uid(),
            group: meta.gid(),
            time: time(&meta),
            ..Entry::default()
        };
        if meta.is_dir() {
            let folder = at.folder(last)?;
            let names = sorted(folder.names()?);
            let slashed = [entry.name, b"/"].concat();
            self.bytes = Cursor::new(headers(&Entry { name: &slashed, kind: b'5', ..entry }));
            self.warn_attributes(name, folder.file());
            names.into_iter().rev().for_each(|n| self.names.push_front(name.join(n)));
            self.at = Some((name.to_path_buf(), folder));
            self.counts.folders += 1;
        } else if meta.is_symlink() {
            let target = at.link_target(last)?;
            self.bytes = Cursor::new(headers(&Entry { kind: b'2', link: target.as_bytes(), ..entry }));
            self.counts.links += 1;
        } else if meta.is_file() {
            return self.begin_file(name, last, &meta);
        } else {
            return Ok(Some("neither file, folder nor link"));
        }
        Ok(None)
    }

    fn begin_file(&mut self, name: &Path, last: &OsStr, meta: &Metadata) -> io::Result<Option<&'static str>> {
        let Some((_, at)) = &self.at else { return Ok(Some("no folder")) };
        let bytes = name.as_os_str().as_bytes();
        let first = self.linked.get(&Id::of(meta)).filter(|_| meta.nlink() > 1);
        let entry = Entry {
            name: bytes,
            mode: meta.mode(),
            user: meta.uid(),
            group: meta.gid(),
            time: time(meta),
            ..Entry::default()
        };
        if let Some(first) = first {
            self.bytes = Cursor::new(headers(&Entry { kind: b'1', link: first, ..entry }));
            self.counts.links += 1;
            return Ok(None);
        }
        let file = at.read(last)?;
        let opened = file.metadata()?;
        if !opened.is_file() || Id::of(&opened) != Id::of(meta) {
            return Err(io::Error::other("became another file while it was looked at"));
        }
        if opened.len() > MOST {
            return Err(io::Error::other("too long for the archive"));
        }
        let mut notes = Vec::new();
        if has_holes(&opened) {
            notes.push(format::SPARSE);
        }
        if opened.nlink() > 1 {
            notes.push(format::LINKED);
            self.linked.insert(Id::of(meta), bytes.to_vec());
        }
        self.bytes = Cursor::new(headers(&Entry { size: opened.len(), time: time(&opened), notes: &notes, ..entry }));
        self.warn_attributes(name, &file);
        self.counts.files += 1;
        let (size, left) = (opened.len(), opened.len());
        self.file = Some(Reading { file, path: name.to_path_buf(), size, left, time: time(&opened), lacks: None });
        Ok(None)
    }

    fn warn_attributes(&self, name: &Path, file: &File) {
        if attributes(file) {
            (self.options.warn)(&format!("extended attributes are not kept: {}", self.shown(name)));
        }
    }

    /// Some of a file's bytes; 0 when they have all come. The size stands in the header already: what a file lacks of it
    /// becomes zeros, and a note behind the entry says that it is not whole.
    fn read_file(&mut self, buf: &mut [u8]) -> io::Result<usize> {
        let Some(r) = &mut self.file else { return Ok(0) };
        let most = buf.len().min(r.left.try_into().unwrap_or(usize::MAX));
        if most == 0 {
            return self.close_file().map(|()| 0);
        }
        if r.lacks.is_none() {
            let lacks = match r.file.read(&mut buf[..most]) {
                Ok(0) => "became shorter while it was read".to_string(),
                Ok(n) => {
                    r.left -= n as u64;
                    return Ok(n);
                }
                Err(e) if e.kind() == io::ErrorKind::Interrupted => return Err(e),
                Err(e) => e.to_string(),
            };
            let path = r.path.clone();
            r.lacks = Some(lacks.clone());
            self.counts.files -= 1;
            // Its other names are read anew.
            self.linked.retain(|_, first| first != path.as_os_str().as_bytes());
            self.leave_out(&path, &format_args!("{lacks}; zeros stand in its place"))?;
            return Ok(0);
        }
        buf[..most].fill(0);
        r.left -= most as u64;
        Ok(most)
    }

    fn close_file(&mut self) -> io::Result<()> {
        let Some(r) = self.file.take() else { return Ok(()) };
        let mut rest = vec![0; fill(r.size) as usize];
        if let Some(lacks) = &r.lacks {
            rest.extend(format::comment(b"mossgoblin.note", &format!("{NOT_WHOLE}{lacks}")));
        } else if r.file.metadata().is_ok_and(|now| now.len() != r.size || time(&now) != r.time) {
            (self.options.warn)(&format!("changed while it was read: {}", self.shown(&r.path)));
        }
        self.bytes = Cursor::new(rest);
        Ok(())
    }

    /// Some bytes, or the next entry is begun: 0 bytes are no end.
    fn some(&mut self, buf: &mut [u8]) -> io::Result<usize> {
        let n = self.bytes.read(buf)?;
        match n {
            0 if self.file.is_some() => self.read_file(buf),
            0 if !self.ended => self.advance().map(|()| 0),
            _ => Ok(n),
        }
    }

    /// Whether all of the archive has been read.
    pub fn is_over(&self) -> bool {
        self.ended && self.bytes.position() == self.bytes.get_ref().len() as u64
    }

    /// Reads until the buffer is full, the archive ends, or so much time has passed.
    pub fn fill(&mut self, buf: &mut [u8], limit: Duration) -> (usize, io::Result<()>) {
        let begun = std::time::Instant::now();
        let mut n = 0;
        while n < buf.len() && !self.is_over() {
            match self.some(&mut buf[n..]) {
                Ok(k) => {
                    // The end is not part of what it tells.
                    if !self.ended {
                        self.digest.add(&buf[n..n + k]);
                    }
                    n += k;
                }
                Err(e) if e.kind() == io::ErrorKind::Interrupted => {}
                Err(e) => return (n, Err(e)),
            }
            if begun.elapsed() >= limit {
                break;
            }
        }
        (n, Ok(()))
    }
}

/// Bytes up to the next block.
fn fill(size: u64) -> u64 {
    size.next_multiple_of(BLOCK as u64) - size
}

fn sorted(mut names: Vec<OsString>) -> Vec<OsString> {
    names.sort();
    names
}
