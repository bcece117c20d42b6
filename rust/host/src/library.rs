//! The places of the changer: the drive and the slots 16 to 23, and which cartridge is in each. With a folder
//! (`--library`) the list of them is on the disk too, by names: what a session was told of them outlives the program.
use crate::cartridge::{self, Cartridge, Shelf, locked};
use crate::folder::{Folder, Id};
use crate::slots::{Found, Names, find, read, shown, the_place, written};
use proved::Slots;
use std::ffi::{OsStr, OsString};
use std::io::{self, Read};
use std::os::unix::ffi::OsStrExt;
use std::os::unix::fs::FileExt;
use std::path::{Path, PathBuf};

/// Cartridges in the folder: one for each slot.
const MOST: usize = 8;
/// The list of the folder, and the name that it has until it is whole.
pub const LIST: &str = ".slots";
const NEW_LIST: &str = ".slots.new";
/// Nine paths are shorter.
const LONGEST: u64 = 65_536;
/// As many as the system follows.
const MOST_LINKS: usize = 40;

/// A folder that is a library's.
pub struct Shelves {
    folder: Folder,
    path: PathBuf,
    id: Id,
}

impl Shelves {
    pub fn open(path: &Path) -> Result<Shelves, String> {
        let told = |e: io::Error| match e.kind() {
            io::ErrorKind::NotFound => format!("library {}: no such folder; make it first", path.display()),
            io::ErrorKind::NotADirectory => format!("library {}: not a folder", path.display()),
            _ => format!("library {}: {e}", path.display()),
        };
        let folder = Folder::open(path).map_err(told)?;
        let id = Id::of(&folder.file().metadata().map_err(told)?);
        Ok(Shelves { folder, path: path.to_path_buf(), id })
    }

    pub fn told(&self, e: impl std::fmt::Display) -> String {
        format!("library {}: {e}", self.path.display())
    }

    /// The cartridges of the folder in the order of their names, each with what it is. Folders, and names that begin
    /// with a dot, are none.
    pub fn cartridges(&self) -> Result<Vec<(OsString, Id)>, String> {
        let mut names = self.folder.names().map_err(|e| self.told(e))?;
        names.sort();
        let mut all: Vec<(OsString, Id)> = Vec::new();
        for name in names {
            if name.as_bytes().starts_with(b".") {
                continue;
            }
            let told = |e: &str| self.told(format_args!("{}: {e}", shown(&name)));
            let meta = self.folder.look(&name).map_err(|e| told(&e.to_string()))?;
            if meta.is_dir() {
                continue;
            }
            if !meta.is_file() {
                return Err(told("neither a file nor a folder; put the cartridge file itself there"));
            }
            if name.as_bytes().contains(&b'\n') {
                return Err(told("a line end is in its name; give it another"));
            }
            let id = Id::of(&meta);
            if let Some((other, _)) = all.iter().find(|(_, known)| *known == id) {
                return Err(told(&format!("the same file as {}; take one of the names away", shown(other))));
            }
            if all.len() == MOST {
                return Err(told("the ninth file, and there are eight slots; take one out of the folder"));
            }
            all.push((name, id));
        }
        Ok(all)
    }

    /// The list; None where there is none yet.
    pub fn list(&self) -> Result<Option<Names>, String> {
        let told = |e: &dyn std::fmt::Display| self.told(format_args!("{LIST}: {e}"));
        let mut file = match self.folder.read(OsStr::new(LIST)) {
            Err(e) if e.kind() == io::ErrorKind::NotFound => return Ok(None),
            other => other.map_err(|e| told(&e))?,
        };
        if !file.metadata().map_err(|e| told(&e))?.is_file() {
            return Err(told(&"not a file; take it away"));
        }
        let mut bytes = Vec::new();
        file.by_ref().take(LONGEST + 1).read_to_end(&mut bytes).map_err(|e| told(&e))?;
        let names = if bytes.len() as u64 > LONGEST { Err("too long".into()) } else { read(&bytes) };
        let advice = "mend it, or remove it: then the cartridges are in the slots in the order of their names";
        names.map(Some).map_err(|why| told(&format_args!("{why}; {advice}")))
    }

    /// Whether a path, or a link that it leads through, is one of the list's own names here: what has one of these is
    /// replaced or removed.
    fn is_own(&self, path: &Path) -> bool {
        let mut at = path.to_path_buf();
        for _ in 0..MOST_LINKS {
            let Some(name) = at.file_name() else { return false };
            let folder = match at.parent() {
                Some(p) if !p.as_os_str().is_empty() => p,
                _ => Path::new("."),
            };
            let here = || folder.metadata().is_ok_and(|m| Id::of(&m) == self.id);
            if (name == LIST || name == NEW_LIST) && here() {
                return true;
            }
            let Ok(to) = at.read_link() else { return false };
            at = folder.join(to);
        }
        false
    }

    /// A cartridge that the operator names, there already or to be made, is none of the list's files.
    fn apart(&self, path: &Path) -> Result<(), String> {
        match self.is_own(path) {
            true => Err(format!("cartridge {}: a name of the library's own list; choose another", path.display())),
            false => Ok(()),
        }
    }

    /// Which cartridge `--cartridge` is.
    pub fn given(&self, path: &Path, inside: &[(OsString, Id)]) -> Result<Given, String> {
        self.apart(path)?;
        let told = |e: &dyn std::fmt::Display| format!("cartridge {}: {e}", path.display());
        let meta = path.metadata().map_err(|e| match e.kind() {
            io::ErrorKind::NotFound => told(&"no such file; --new-cartridge SIZE makes one"),
            _ => told(&e),
        })?;
        if let Some(n) = inside.iter().position(|(_, id)| *id == Id::of(&meta)) {
            return Ok(Given::Inside(n));
        }
        let whole = path.canonicalize().map_err(|e| told(&e))?;
        if whole.as_os_str().as_bytes().contains(&b'\n') {
            return Err(told(&"a line end is in its path; give it another"));
        }
        Ok(Given::Beside(whole.into()))
    }

    /// A file of the folder that no vault has open.
    pub fn look(&self, name: &OsStr) -> Result<Vec<u8>, String> {
        self.folder.read(name).map_err(|e| e.to_string()).and_then(cartridge::seen)
    }

    fn load(&self, name: &OsStr) -> Result<Cartridge, String> {
        let advice = "every file of a library is a cartridge";
        cartridge::load_in(&self.folder, name, &self.path.join(name)).map_err(|why| format!("{why}; {advice}"))
    }

    /// The folder is where the next start will find it, and no new list is left there of a vault that was killed.
    fn clear(&self) -> io::Result<()> {
        match self.path.metadata() {
            Ok(there) if Id::of(&there) == self.id => {}
            Err(e) if e.kind() != io::ErrorKind::NotFound => return Err(e),
            _ => return Err(io::Error::other("the folder has no longer its name")),
        }
        match self.folder.remove(OsStr::new(NEW_LIST)) {
            Err(e) if e.kind() != io::ErrorKind::NotFound => Err(e),
            _ => Ok(()),
        }
    }

    /// The new list is on the disk when this returns, under another name: the list itself is as it was.
    fn prepare(&self, names: &Names) -> io::Result<()> {
        self.clear()?;
        let file = self.folder.create(OsStr::new(NEW_LIST), 0o600)?;
        file.write_all_at(&written(names), 0)?;
        file.sync_all()
    }

    /// The list that is there, and its name, are on the disk when this returns: a vault that was killed may have left
    /// them in memory. It takes no room.
    fn confirm(&self) -> io::Result<()> {
        self.clear()?;
        self.folder.read(OsStr::new(LIST))?.sync_all()?;
        self.folder.sync()
    }

    /// The new list has the name of the list, on the disk too when this returns. If it fails either may have it.
    fn replace(&self) -> io::Result<()> {
        self.folder.rename(OsStr::new(NEW_LIST), OsStr::new(LIST))?;
        self.folder.sync()
    }
}

/// What can be known to be wrong with a folder before a cartridge is made.
pub fn check(path: &Path, made: &Path) -> Result<(), String> {
    let shelves = Shelves::open(path)?;
    shelves.apart(made)?;
    shelves.cartridges()?;
    shelves.list().map(drop)
}

struct Member {
    name: OsString,
    /// None while it is in the drive and in memory.
    shelf: Option<Shelf>,
}

pub struct Library {
    /// The numbers of cartridges, from 1, as the core has them.
    pub slots: Slots,
    members: Vec<Member>,
    shelves: Option<Shelves>,
    /// Whether the disk may have another list than this one, as a new one was given its name and that failed.
    unsure: bool,
}

/// What a start found, besides the library itself.
pub struct Opened {
    pub library: Library,
    /// The cartridge in the drive.
    pub drive: Option<Cartridge>,
    /// What no file may be restored over.
    pub ids: Vec<Id>,
    /// What the operator is to know.
    pub notes: Vec<String>,
}

impl Library {
    /// One cartridge, in the drive. Nothing of it is kept on the disk.
    pub fn one(path: &Path) -> Result<Opened, String> {
        let drive = cartridge::load(path)?;
        let mut slots = Slots::default();
        slots[0] = 1;
        let members = vec![Member { name: path.into(), shelf: None }];
        let library = Library { slots, members, shelves: None, unsure: false };
        Ok(Opened { library, ids: drive.ids(), drive: Some(drive), notes: Vec::new() })
    }

    /// The cartridges of a folder, and one beside it, which may also be one of the folder's.
    pub fn open(path: &Path, beside: Option<&Path>) -> Result<Opened, String> {
        let shelves = Shelves::open(path)?;
        shelves.folder.file().try_lock().map_err(|e| shelves.told(locked(e)))?;
        let inside = shelves.cartridges()?;
        let given = beside.map(|b| shelves.given(b, &inside)).transpose()?;
        let mut names: Vec<OsString> = inside.into_iter().map(|(name, _)| name).collect();
        let count = names.len();
        let first = given.map(|g| g.among(&mut names));
        let list = shelves.list()?;
        let was = list.clone();
        let found = find(list, &names, first).map_err(|why| shelves.told(why))?;
        let mut library = Library { slots: Slots::default(), members: Vec::new(), shelves: None, unsure: false };
        for (i, n) in found.at.iter().enumerate() {
            library.slots[i] = n.map_or(0, |n| n as u32 + 1);
        }
        let (mut drive, mut ids) = (None, Vec::new());
        for (n, name) in names.iter().enumerate() {
            let loaded = match beside {
                Some(b) if n == count => cartridge::load(b)?,
                _ => shelves.load(name)?,
            };
            ids.extend(loaded.ids());
            let shelf = Some(loaded.shelve());
            library.members.push(Member { name: name.clone(), shelf });
        }
        library.shelves = Some(shelves);
        if library.slots[0] != 0 {
            drive = Some(library.load()?);
        }
        let notes = notes(&library, &found, was.is_some());
        library.begin(was).map_err(|e| format!("library {}: {LIST}: {e}", path.display()))?;
        Ok(Opened { library, drive, ids, notes })
    }

    fn names(&self) -> Names {
        self.slots.map(|n| self.name(n).map(OsStr::to_os_string))
    }

    pub fn name(&self, number: u32) -> Option<&OsStr> {
        let at = (number as usize).checked_sub(1)?;
        self.members.get(at).map(|m| m.name.as_os_str())
    }

    /// What is in each place, for a page.
    pub fn shown(&self) -> Vec<Option<String>> {
        self.slots.iter().map(|n| self.name(*n).map(shown)).collect()
    }

    /// How many cartridges there are.
    pub fn count(&self) -> usize {
        self.members.len()
    }

    /// The cartridge in the drive, from its shelf.
    pub fn load(&mut self) -> Result<Cartridge, String> {
        let member = (self.slots[0] as usize).checked_sub(1).and_then(|at| self.members.get_mut(at));
        let member = member.ok_or("the drive is empty")?;
        let shelf = member.shelf.take().ok_or("the cartridge in the drive is with another session")?;
        shelf.load().map_err(|(shelf, why)| {
            member.shelf = Some(shelf);
            why
        })
    }

    /// A cartridge that was in the drive, and is stored, goes to its shelf.
    pub fn put_away(&mut self, number: u32, cartridge: Cartridge) {
        if let Some(member) = (number as usize).checked_sub(1).and_then(|at| self.members.get_mut(at)) {
            member.shelf = Some(cartridge.shelve());
        }
    }

    /// The list is on the disk when this returns, whole. Where not so much as a new file could be written, as on a full
    /// disk, the disk has what it had.
    fn write(&mut self) -> io::Result<()> {
        let Some(shelves) = &self.shelves else { return Ok(()) };
        shelves.prepare(&self.names())?;
        self.unsure = true;
        shelves.replace()?;
        self.unsure = false;
        Ok(())
    }

    /// The list is on the disk. Where it is as it was nothing is written: a full disk is no hindrance to a start.
    fn begin(&mut self, was: Option<Names>) -> io::Result<()> {
        match &self.shelves {
            Some(shelves) if was == Some(self.names()) => shelves.confirm(),
            _ => self.write(),
        }
    }

    /// The disk has the list, also where it could not be written before.
    pub fn settle(&mut self) -> io::Result<()> {
        if self.unsure { self.write() } else { Ok(()) }
    }

    /// The places are these from now on, and on the disk. If they cannot be written they are as before, and where the
    /// disk may have them it is made sure of that before anything more is told of them.
    pub fn becomes(&mut self, next: Slots) -> io::Result<()> {
        let before = std::mem::replace(&mut self.slots, next);
        let done = self.write();
        if done.is_err() {
            self.slots = before;
        }
        done
    }
}

/// One of the folder, or one beside it, which the list names by its whole path.
pub enum Given {
    Inside(usize),
    Beside(OsString),
}

impl Given {
    /// Its number among all cartridges, of which the one beside the folder is the last.
    pub fn among(self, names: &mut Vec<OsString>) -> usize {
        match self {
            Given::Inside(n) => n,
            Given::Beside(name) => {
                names.push(name);
                names.len() - 1
            }
        }
    }
}

fn notes(library: &Library, found: &Found, listed: bool) -> Vec<String> {
    let mut all = Vec::new();
    for (i, name) in &found.gone {
        all.push(format!("library: {} was in {} and is gone; the place is empty", shown(name), the_place(*i)));
    }
    for n in found.new.iter().filter(|_| listed) {
        let at = found.at.iter().position(|m| m == &Some(*n)).unwrap_or(0);
        all.push(format!("library: {} is new, and in {}", shown(&library.members[*n].name), the_place(at)));
    }
    if found.at.iter().all(Option::is_some) {
        all.push("library: all nine places are full, and no cartridge can be moved".into());
    }
    all
}

#[cfg(test)]
mod tests {
    use super::*;
    use crate::own::Scratch;
    use std::fs;
    use std::os::unix::fs::symlink;

    #[test]
    fn only_files_are_cartridges() {
        let s = Scratch::new().unwrap();
        let names = |s: &Shelves| s.cartridges().map(|all| all.into_iter().map(|(n, _)| n).collect::<Vec<_>>());
        let shelves = Shelves::open(&s.0).unwrap();
        for name in ["b", "a", ".hidden", ".slots"] {
            fs::write(s.path(name), b"").unwrap();
        }
        fs::create_dir(s.path("folder")).unwrap();
        assert_eq!(names(&shelves).unwrap(), ["a", "b"]);
        symlink("a", s.path("l")).unwrap();
        assert!(names(&shelves).unwrap_err().contains("l: neither a file nor a folder"));
        fs::remove_file(s.path("l")).unwrap();
        fs::hard_link(s.path("a"), s.path("z")).unwrap();
        assert!(names(&shelves).unwrap_err().contains("z: the same file as a"));
        fs::remove_file(s.path("z")).unwrap();
        fs::write(s.path("x\ny"), b"").unwrap();
        assert!(names(&shelves).unwrap_err().contains("x\\ny: a line end is in its name"));
        fs::remove_file(s.path("x\ny")).unwrap();
        (1..=6).for_each(|i| fs::write(s.path(&format!("c{i}")), b"").unwrap());
        assert_eq!(names(&shelves).unwrap().len(), 8);
        fs::write(s.path("d"), b"").unwrap();
        assert!(names(&shelves).unwrap_err().contains("d: the ninth file"));
    }

    #[test]
    fn lists_that_are_no_files_or_too_long_are_refused() {
        let s = Scratch::new().unwrap();
        let shelves = Shelves::open(&s.0).unwrap();
        assert_eq!(shelves.list(), Ok(None));
        symlink("/etc/passwd", s.path(LIST)).unwrap();
        assert!(shelves.list().is_err(), "a link is not followed");
        fs::remove_file(s.path(LIST)).unwrap();
        fs::create_dir(s.path(LIST)).unwrap();
        assert!(shelves.list().unwrap_err().contains("not a file"));
        fs::remove_dir(s.path(LIST)).unwrap();
        fs::write(s.path(LIST), vec![b'x'; LONGEST as usize + 1]).unwrap();
        assert!(shelves.list().unwrap_err().contains("too long; mend it, or remove it"));
        // What was killed between two writes is no hindrance, and the list is its owner's.
        fs::write(s.path(NEW_LIST), b"left").unwrap();
        let mut of = Names::default();
        of[0] = Some("a".into());
        shelves.prepare(&of).and_then(|()| shelves.replace()).unwrap();
        assert_eq!((shelves.list(), s.path(NEW_LIST).exists()), (Ok(Some(of)), false));
        use std::os::unix::fs::PermissionsExt;
        assert_eq!(fs::metadata(s.path(LIST)).unwrap().permissions().mode() & 0o777, 0o600);
    }
}
