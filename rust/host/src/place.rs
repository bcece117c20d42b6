//! Where restored entries go: a folder. Each is made under a temporary name beside its own, and synced; all get their own
//! names at the end, when the stream is known to be whole. Until then what stood there stays, and what was made goes away
//! again with this value.
use crate::folder::{Folder, Id};
use std::collections::{BTreeSet, HashMap, VecDeque};
use std::ffi::{OsStr, OsString};
use std::fs::{File, Permissions};
use std::io;
use std::os::unix::ffi::OsStrExt;
use std::os::unix::fs::{FileExt, MetadataExt, PermissionsExt, fchown};
use std::path::{Component, Path, PathBuf};
use std::time::{Instant, SystemTime};

/// Zeros of this length are a hole, in a file that had holes.
const HOLE: usize = 4_096;

/// The start of every temporary name.
pub const TEMPORARY: &str = ".mossgoblin-";

#[derive(Clone, Copy)]
pub struct Meta {
    pub mode: u32,
    /// Owner and group, where they are known.
    pub owner: Option<(u32, u32)>,
    pub time: Option<SystemTime>,
}

/// A path below the root, in a folder.
#[derive(Clone, Debug, PartialEq, Eq, PartialOrd, Ord)]
struct At {
    folder: PathBuf,
    name: OsString,
}

struct Waiting {
    temporary: At,
    name: OsString,
}

/// A file that is being written.
pub struct Writing {
    file: File,
    temporary: At,
    /// None if it is kept only for its other names.
    name: Option<OsString>,
    entry: Vec<u8>,
    meta: Meta,
    holes: bool,
    length: u64,
}

pub struct Place {
    root: Folder,
    /// For messages.
    shown: PathBuf,
    /// The folder that was used last.
    at: Option<(PathBuf, Folder)>,
    /// Files that are never replaced: the cartridge.
    except: Vec<Id>,
    count: u64,
    /// Temporary names that have no other name yet.
    loose: BTreeSet<At>,
    waiting: VecDeque<Waiting>,
    /// The files by their names in the archive: for hard links.
    files: HashMap<Vec<u8>, At>,
    /// Folders that were made, the outer ones first; and modes and times of folders, which are set at the end, the inner
    /// ones first: a folder may be read-only.
    made: Vec<PathBuf>,
    folders: Vec<(PathBuf, Meta)>,
    /// Folders in which names were made.
    touched: BTreeSet<PathBuf>,
    /// Entries whose owner could not be set.
    pub unowned: u64,
}

fn bad(why: impl ToString) -> io::Error {
    io::Error::new(io::ErrorKind::InvalidData, why.to_string())
}

/// A name in an archive as a path: of plain names only, none for the folder itself.
pub fn plain(name: &[u8]) -> io::Result<Option<PathBuf>> {
    let told = Path::new(OsStr::from_bytes(name));
    let mut path = PathBuf::new();
    for part in told.components() {
        match part {
            Component::Normal(p) => path.push(p),
            Component::CurDir => {}
            _ => return Err(bad(format!("{}: refused, leads out of the folder", told.display()))),
        }
    }
    Ok((!path.as_os_str().is_empty()).then_some(path))
}

impl Place {
    pub fn new(root: &Path, except: &[Id]) -> io::Result<Place> {
        Ok(Place {
            root: Folder::open(root)?,
            shown: root.to_path_buf(),
            at: None,
            except: except.to_vec(),
            count: 0,
            loose: BTreeSet::new(),
            waiting: VecDeque::new(),
            files: HashMap::new(),
            made: Vec::new(),
            folders: Vec::new(),
            touched: BTreeSet::new(),
            unowned: 0,
        })
    }

    pub fn shown(&self, path: &Path) -> String {
        self.shown.join(path).display().to_string()
    }

    fn about(&self, path: &Path, e: io::Error) -> io::Error {
        bad(format!("{}: {e}", self.shown(path)))
    }

    /// The folder at a path; those on the way are made where they are missing. Each must be a folder itself and no link.
    fn enter(&mut self, path: &Path, make: bool) -> io::Result<&Folder> {
        if self.at.as_ref().is_none_or(|(at, _)| at != path) {
            self.at = None;
            let mut folder = self.root.below(Path::new(""))?;
            let mut so_far = PathBuf::new();
            for name in path.iter() {
                so_far.push(name);
                let next = match folder.folder(name) {
                    Err(e) if e.kind() == io::ErrorKind::NotFound && make => {
                        folder.make(name, 0o700).map_err(|e| self.about(&so_far, e))?;
                        self.made.push(so_far.clone());
                        self.touched.insert(so_far.parent().unwrap_or(Path::new("")).to_path_buf());
                        folder.folder(name)
                    }
                    other => other,
                };
                folder = next.map_err(|e| {
                    let (whole, at) = (self.shown(path), self.shown(&so_far));
                    bad(format!("{whole}: refused, leads through {at}, which is no folder that can be opened: {e}"))
                })?;
            }
            self.at = Some((path.to_path_buf(), folder));
        }
        let (_, folder) = self.at.as_ref().ok_or_else(|| bad("no folder"))?;
        Ok(folder)
    }

    /// What has a name may be replaced: it is no folder, and not the cartridge.
    fn may_replace(&mut self, path: &Path) -> io::Result<()> {
        let (folder, name) = (path.parent().unwrap_or(Path::new("")), path.file_name().unwrap_or_default());
        let there = self.enter(folder, true)?.look(name);
        match there {
            Ok(m) if m.is_dir() => Err(bad(format!("{}: is a folder", self.shown(path)))),
            Ok(m) if self.except.contains(&Id::of(&m)) => {
                Err(bad(format!("{}: refused, is the cartridge of this vault", self.shown(path))))
            }
            Err(e) if e.kind() != io::ErrorKind::NotFound => Err(self.about(path, e)),
            _ => Ok(()),
        }
    }

    /// Makes something under a temporary name in a folder.
    fn temporary<T>(&mut self, folder: &Path, make: impl Fn(&Folder, &OsStr) -> io::Result<T>) -> io::Result<(At, T)> {
        loop {
            self.count += 1;
            let name = OsString::from(format!("{TEMPORARY}{}-{}", std::process::id(), self.count));
            match make(self.enter(folder, true)?, &name) {
                Err(e) if e.kind() == io::ErrorKind::AlreadyExists => {}
                Err(e) => return Err(self.about(&folder.join(name), e)),
                Ok(made) => {
                    let at = At { folder: folder.to_path_buf(), name };
                    self.loose.insert(at.clone());
                    self.touched.insert(folder.to_path_buf());
                    return Ok((at, made));
                }
            }
        }
    }

    /// Begins a file. `kept` is whether it gets its name; otherwise only its other names may be wanted.
    pub fn begin(&mut self, path: &Path, entry: &[u8], meta: Meta, holes: bool, kept: bool) -> io::Result<Writing> {
        let folder = if kept { path.parent().unwrap_or(Path::new("")).to_path_buf() } else { PathBuf::new() };
        if kept {
            self.may_replace(path)?;
        }
        let (temporary, file) = self.temporary(&folder, |folder, name| folder.create(name, 0o600))?;
        let name = kept.then(|| path.file_name().unwrap_or_default().to_os_string());
        Ok(Writing { file, temporary, name, entry: entry.to_vec(), meta, holes, length: 0 })
    }

    /// The file is whole: it is on the disk when this returns, and waits for its name.
    pub fn close(&mut self, w: Writing) -> io::Result<()> {
        let told = |e: io::Error| {
            bad(format!("{}: {e}", self.shown.join(&w.temporary.folder).join(&w.temporary.name).display()))
        };
        w.file.set_len(w.length).map_err(told)?;
        if let Some((user, group)) = w.meta.owner {
            self.unowned += !owned(&w.file, user, group) as u64;
        }
        w.file.set_permissions(Permissions::from_mode(w.meta.mode)).map_err(told)?;
        if let Some(time) = w.meta.time {
            w.file.set_modified(time).map_err(told)?;
        }
        w.file.sync_all().map_err(told)?;
        self.files.insert(w.entry, w.temporary.clone());
        if let Some(name) = w.name {
            self.waiting.push_back(Waiting { temporary: w.temporary, name });
        }
        Ok(())
    }

    /// The file that was closed last is not wanted after all.
    pub fn drop_last(&mut self, entry: &[u8]) {
        if let Some(at) = self.files.remove(entry) {
            self.waiting.retain(|w| w.temporary != at);
            self.remove(&at);
        }
    }

    pub fn link(&mut self, path: &Path, target: &OsStr, meta: Meta) -> io::Result<()> {
        self.may_replace(path)?;
        let folder = path.parent().unwrap_or(Path::new("")).to_path_buf();
        let (temporary, ()) = self.temporary(&folder, |folder, name| folder.link(target, name))?;
        let folder = self.enter(&folder, false)?;
        let owned = meta.owner.is_none_or(|(user, group)| folder.set_owner(&temporary.name, user, group).is_ok());
        if let Some(time) = meta.time {
            folder.set_time(&temporary.name, time).map_err(bad)?;
        }
        self.unowned += !owned as u64;
        self.waiting.push_back(Waiting { temporary, name: path.file_name().unwrap_or_default().to_os_string() });
        Ok(())
    }

    /// Another name of a file of this archive. False if it was not restored.
    pub fn hard_link(&mut self, path: &Path, entry: &[u8]) -> io::Result<bool> {
        let Some(first) = self.files.get(entry).cloned() else { return Ok(false) };
        self.may_replace(path)?;
        let from = self.root.below(&first.folder)?;
        let folder = path.parent().unwrap_or(Path::new("")).to_path_buf();
        let (temporary, ()) = self.temporary(&folder, |folder, name| folder.hard_link(&from, &first.name, name))?;
        self.waiting.push_back(Waiting { temporary, name: path.file_name().unwrap_or_default().to_os_string() });
        Ok(true)
    }

    pub fn folder(&mut self, path: &Path, meta: Meta) -> io::Result<()> {
        self.enter(path, true)?;
        self.folders.push((path.to_path_buf(), meta));
        Ok(())
    }

    /// Gives the entries their names, and folders their modes and times, until all is done and on the disk, or so late.
    pub fn commit(&mut self, until: Instant) -> io::Result<bool> {
        while Instant::now() < until {
            if let Some(w) = self.waiting.pop_front() {
                let path = w.temporary.folder.join(&w.name);
                self.may_replace(&path)?;
                let named = self.enter(&w.temporary.folder, false)?.rename(&w.temporary.name, &w.name);
                named.map_err(|e| self.about(&path, e))?;
                self.loose.remove(&w.temporary);
            } else if let Some(at) = self.loose.first().cloned() {
                self.remove(&at);
            } else if let Some(path) = self.touched.pop_first() {
                self.enter(&path, false)?.sync().map_err(|e| self.about(&path, e))?;
            } else if let Some((path, meta)) = self.folders.pop() {
                self.dress(&path, meta).map_err(|e| self.about(&path, e))?;
            } else {
                self.made.clear();
                return Ok(true);
            }
        }
        Ok(false)
    }

    fn dress(&mut self, path: &Path, meta: Meta) -> io::Result<()> {
        let file = self.enter(path, false)?.file().try_clone()?;
        if let Some((user, group)) = meta.owner {
            self.unowned += !owned(&file, user, group) as u64;
        }
        if let Some(time) = meta.time {
            file.set_modified(time)?;
        }
        file.set_permissions(Permissions::from_mode(meta.mode))?;
        file.sync_all()
    }

    fn remove(&mut self, at: &At) {
        if let Ok(folder) = self.enter(&at.folder, false) {
            let _ = folder.remove(&at.name);
        }
        self.loose.remove(at);
    }
}

/// Whether a file has this owner now.
fn owned(file: &File, user: u32, group: u32) -> bool {
    let has = file.metadata().is_ok_and(|m| (m.uid(), m.gid()) == (user, group));
    has || fchown(file, Some(user), Some(group)).is_ok()
}

impl Drop for Place {
    fn drop(&mut self) {
        while let Some(at) = self.loose.first().cloned() {
            self.remove(&at);
        }
        self.at = None;
        // A folder that holds anything else stays.
        for path in std::mem::take(&mut self.made).iter().rev() {
            if let (Ok(parent), Some(name)) =
                (self.root.below(path.parent().unwrap_or(Path::new(""))), path.file_name())
            {
                let _ = parent.remove_folder(name);
            }
        }
    }
}

impl Writing {
    pub fn put(&mut self, mut part: &[u8]) -> io::Result<()> {
        while !part.is_empty() {
            let n = if self.holes { part.len().min(HOLE - self.length as usize % HOLE) } else { part.len() };
            let (now, later) = part.split_at(n);
            if !(self.holes && now.iter().all(|b| *b == 0)) {
                self.file.write_all_at(now, self.length)?;
            }
            self.length += n as u64;
            part = later;
        }
        Ok(())
    }
}
