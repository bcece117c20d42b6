//! The cartridge: its image in memory, which the core reads and writes, and the file, which follows in a safe order.
use crate::folder::{Folder, Id};
use crate::sys;
use std::ffi::{OsStr, OsString};
use std::fs::{self, File, OpenOptions, TryLockError};
use std::io::{self, Read, Seek};
use std::os::unix::fs::{FileExt, MetadataExt, OpenOptionsExt};
use std::path::{Path, PathBuf};
use std::time::{Duration, Instant};
use wire::{word_at, words};

pub const CAPACITY: usize = 4_096;
pub const MOST_BODY: usize = 134_217_728;
/// The words before the table.
const HEAD: usize = 16;

/// What the order of writes needs of a file.
pub trait Disk {
    fn put(&mut self, at: usize, bytes: &[u8]) -> io::Result<()>;
    /// All that was put before is on the disk when this returns.
    fn sync(&mut self) -> io::Result<()>;
}

/// The file that was opened, by the name that it was opened by.
pub struct OnDisk {
    file: File,
    path: PathBuf,
    id: Id,
    length: u64,
}

impl Disk for OnDisk {
    fn put(&mut self, at: usize, bytes: &[u8]) -> io::Result<()> {
        self.file.write_all_at(bytes, at as u64)
    }

    fn sync(&mut self) -> io::Result<()> {
        self.file.sync_data()
    }
}

impl OnDisk {
    /// Whether what is written here is what the next start will read.
    fn is_still_there(&self) -> Result<(), &'static str> {
        let Ok(own) = self.file.metadata() else { return Err("cannot be looked at") };
        if own.nlink() == 0 {
            return Err("was removed");
        }
        if own.len() != self.length {
            return Err("has another length");
        }
        match self.path.metadata() {
            Ok(named) if Id::of(&named) == self.id => Ok(()),
            Ok(_) => Err("was replaced: another file has its name"),
            Err(_) => Err("has no longer its name"),
        }
    }
}

pub struct Cartridge<D = OnDisk> {
    pub image: Vec<u8>,
    disk: D,
    /// No header on the disk has more entries than this.
    stored: usize,
    /// The lowest position written since the file was up to date.
    low: Option<usize>,
}

impl<D: Disk> Cartridge<D> {
    /// The image is sound, and the disk holds it.
    pub fn new(image: Vec<u8>, disk: D) -> Cartridge<D> {
        let stored = word_at(&image, 8).unwrap_or(0) as usize;
        Cartridge { image, disk, stored, low: None }
    }

    /// The core has written at this position: it cut the list there, and added entries.
    pub fn written(&mut self, position: usize) {
        self.low = Some(self.low.map_or(position, |low| low.min(position)));
    }

    fn number(&self, at: usize) -> usize {
        word_at(&self.image, at).unwrap_or(0) as usize
    }

    /// Room for entries and for bytes.
    pub fn room(&self) -> (usize, usize) {
        room(&self.image)
    }

    /// How many records and marks there are.
    pub fn entries(&self) -> usize {
        self.number(8)
    }

    /// The lengths of the entries from this one on.
    pub fn lengths(&self, from: usize) -> impl Iterator<Item = u32> {
        (from..self.number(8)).map(|i| self.number(HEAD + 8 * i) as u32)
    }

    /// The file could not follow: what was written since goes away, and the list ends where that began. Up to there the
    /// file has it.
    pub fn cut_back(&mut self) -> Option<usize> {
        let low = self.low?;
        let kept = self.number(HEAD + 8 * low + 4);
        self.image[8..16].copy_from_slice(&words(&[low as u32, kept as u32]));
        Some(low)
    }

    fn header(&mut self, n: usize, used: usize) -> io::Result<()> {
        self.disk.put(8, &words(&[n as u32, used as u32]))?;
        self.disk.sync()
    }

    /// Brings the file up to date. In every state between two writes the file is a sound image: first the list is cut
    /// where new entries begin, then their bytes and words are written, which nothing refers to yet, and then the
    /// header takes them in. What fails stays to be done by the next call.
    /// Gives the first position whose entry may be another than before.
    pub fn store(&mut self) -> io::Result<Option<usize>> {
        let Some(low) = self.low else { return Ok(None) };
        let (capacity, n, used) = (self.number(4), self.number(8), self.number(12));
        let kept = self.number(HEAD + 8 * low + 4);
        let body = HEAD + 8 * capacity;
        if low < self.stored {
            self.header(low, kept)?;
            self.stored = low;
        }
        self.disk.put(body + kept, &self.image[body + kept..body + used])?;
        self.disk.put(HEAD + 8 * low, &self.image[HEAD + 8 * low..HEAD + 8 * n])?;
        self.disk.sync()?;
        self.stored = n;
        self.header(n, used)?;
        self.low = None;
        Ok(Some(low))
    }
}

impl Cartridge {
    /// Nothing is told to a client before this was asked.
    pub fn is_still_there(&self) -> Result<(), String> {
        let told =
            |why| format!("the cartridge {} {why}; nothing more is told to this client", self.disk.path.display());
        self.disk.is_still_there().map_err(told)
    }

    /// What no file may be restored over: the file, and a link that has its name.
    pub fn ids(&self) -> Vec<Id> {
        let link = self.disk.path.symlink_metadata().map(|m| Id::of(&m));
        [self.disk.id].into_iter().chain(link).collect()
    }

    /// Out of memory, after it was stored.
    pub fn shelve(self) -> Shelf {
        debug_assert!(self.low.is_none(), "the file lacks something");
        Shelf(self.disk)
    }
}

/// A cartridge that is not in memory: its file, which stays open and locked, has all of it.
pub struct Shelf(OnDisk);

impl Shelf {
    /// Reads the image again. One that cannot be read stays on its shelf.
    pub fn load(self) -> Result<Cartridge, (Shelf, String)> {
        let mut disk = self.0;
        let image = disk.file.rewind().map_err(|e| e.to_string()).and_then(|()| bytes(&mut disk.file));
        match image.and_then(|image| if proved::sound(&image) { Ok(image) } else { Err(unsound(&image)) }) {
            Ok(image) => Ok(Cartridge::new(image, disk)),
            Err(why) => {
                let why = format!("cartridge {}: {why}", disk.path.display());
                Err((Shelf(disk), why))
            }
        }
    }
}

/// The entries of a sound image, in their order, as the core tells them.
pub fn entries(image: &[u8]) -> impl Iterator<Item = proved::Entry> {
    (0..).map(|i| proved::entry(image, i)).take_while(|e| e.error == 0)
}

/// The bytes of a cartridge file that is open; too long a file is not read.
fn bytes(file: &mut File) -> Result<Vec<u8>, String> {
    let meta = file.metadata().map_err(|e| e.to_string())?;
    if !meta.is_file() {
        return Err("not a file".into());
    }
    let length = meta.len();
    if length > (HEAD + 8 * CAPACITY + MOST_BODY) as u64 {
        return Err(format!("too long for a cartridge: {length} bytes"));
    }
    let mut image = Vec::with_capacity(length as usize);
    file.read_to_end(&mut image).map_err(|e| e.to_string())?;
    Ok(image)
}

/// What can be said of an image that the core does not take.
fn unsound(image: &[u8]) -> String {
    let known = (0..4).map(|i| word_at(image, 4 * i)).collect::<Option<Vec<u32>>>();
    let told =
        known.map(|w| format!("; its words: version {}, capacity {}, entries {}, used {}", w[0], w[1], w[2], w[3]));
    format!("not a sound cartridge image: {} bytes{}", image.len(), told.unwrap_or_default())
}

/// Why a file could not be locked.
pub fn locked(e: TryLockError) -> String {
    match e {
        TryLockError::WouldBlock => "in use by another program; end that vault or rmt first".into(),
        TryLockError::Error(e) => format!("cannot be locked: {e}"),
    }
}

/// Between two looks whether a file is free.
const LOOK: Duration = Duration::from_millis(20);

/// Locks a file, which is waited for so long.
fn lock(file: &File, patience: Duration) -> Result<(), TryLockError> {
    let until = Instant::now() + patience;
    loop {
        match file.try_lock() {
            Err(TryLockError::WouldBlock) if Instant::now() < until => std::thread::sleep(LOOK),
            other => return other,
        }
    }
}

/// Reads a cartridge file and keeps it locked against a second host. It has all its blocks and is on the disk before
/// anything of it is told: a host that was killed may have left it with bytes that are not.
pub fn load(path: &Path) -> Result<Cartridge, String> {
    load_within(path, Duration::ZERO)
}

/// The same of one that another host may have for so long.
pub fn load_within(path: &Path, patience: Duration) -> Result<Cartridge, String> {
    let told = |e: &dyn std::fmt::Display| format!("cartridge {}: {e}", path.display());
    let file = OpenOptions::new().read(true).write(true).open(path).map_err(|e| match e.kind() {
        io::ErrorKind::NotFound => told(&"no such file; --new-cartridge SIZE makes one"),
        _ => told(&e),
    })?;
    take(file, path, patience)
}

/// The same of a name in a folder that is open, which is no link.
pub fn load_in(folder: &Folder, name: &OsStr, path: &Path) -> Result<Cartridge, String> {
    let file = folder.change(name).map_err(|e| format!("cartridge {}: {e}", path.display()))?;
    take(file, path, Duration::ZERO)
}

fn take(mut file: File, path: &Path, patience: Duration) -> Result<Cartridge, String> {
    let told = |e: &dyn std::fmt::Display| format!("cartridge {}: {e}", path.display());
    lock(&file, patience).map_err(|e| told(&locked(e)))?;
    let image = bytes(&mut file).map_err(|e| told(&e))?;
    if !proved::sound(&image) {
        return Err(told(&unsound(&image)));
    }
    let length = image.len() as u64;
    sys::allocate(&file, length).map_err(|e| told(&e))?;
    file.sync_all().map_err(|e| told(&e))?;
    match sync_folder(path) {
        // A folder that may be entered and not read cannot be synced by this user.
        Err(e) if e.kind() == io::ErrorKind::PermissionDenied => {}
        other => other.map_err(|e| told(&e))?,
    }
    let id = file.metadata().map(|m| Id::of(&m)).map_err(|e| told(&e))?;
    Ok(Cartridge::new(image, OnDisk { file, path: path.to_path_buf(), id, length }))
}

/// Reads a sound cartridge file that no vault has open.
pub fn look(path: &Path) -> Result<Vec<u8>, String> {
    let told = |e: &dyn std::fmt::Display| format!("{}: {e}", path.display());
    let file = File::open(path).map_err(|e| match e.kind() {
        io::ErrorKind::NotFound => told(&"no such file; `mossgoblin new` makes a cartridge"),
        _ => told(&e),
    })?;
    seen(file).map_err(|e| told(&e))
}

/// The same of a file that is open.
pub fn seen(mut file: File) -> Result<Vec<u8>, String> {
    file.try_lock_shared().map_err(locked)?;
    let image = bytes(&mut file)?;
    if proved::sound(&image) { Ok(image) } else { Err(unsound(&image)) }
}

/// The room of an image: entries, and bytes of data.
pub fn room(image: &[u8]) -> (usize, usize) {
    let capacity = word_at(image, 4).unwrap_or(0) as usize;
    (capacity, image.len().saturating_sub(HEAD + 8 * capacity))
}

/// Makes an empty cartridge with this room for data. It gets its name when it is whole, and never in the place of
/// another file.
pub fn create(path: &Path, body: usize) -> Result<(), String> {
    let told = |e: io::Error| match e.kind() {
        io::ErrorKind::AlreadyExists => {
            format!("cartridge {}: exists already and is not overwritten; choose another name", path.display())
        }
        _ => format!("cartridge {}: {e}", path.display()),
    };
    if path.symlink_metadata().is_ok() {
        return Err(told(io::ErrorKind::AlreadyExists.into()));
    }
    // With a dot: one that a kill leaves is no cartridge of a library.
    let mut name = OsString::from(".");
    name.push(path.file_name().unwrap_or_default());
    name.push(format!(".new-{}", std::process::id()));
    let beside = path.with_file_name(name);
    let made = write_empty(&beside, body).and_then(|()| fs::hard_link(&beside, path));
    let _ = fs::remove_file(&beside);
    made.and_then(|()| sync_folder(path)).map_err(told)
}

/// The name of a file is on the disk when this returns.
fn sync_folder(path: &Path) -> io::Result<()> {
    Folder::open(path.parent().unwrap_or(Path::new("")))?.sync()
}

/// With all its blocks, so that a disk without room is told now and not during a backup.
fn write_empty(path: &Path, body: usize) -> io::Result<()> {
    let file = OpenOptions::new().write(true).create_new(true).mode(0o600).open(path)?;
    sys::allocate(&file, (HEAD + 8 * CAPACITY + body) as u64)?;
    file.write_all_at(&words(&[1, CAPACITY as u32]), 0)?;
    file.sync_all()
}
