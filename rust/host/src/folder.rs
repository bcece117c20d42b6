//! A folder that is open. Names in it are opened, made and removed through its handle, each by itself and never through a
//! link, so that a name that is swapped between two looks leads nowhere else.
use crate::sys;
use std::ffi::{OsStr, OsString};
use std::fs::{File, Metadata};
use std::io;
use std::os::unix::fs::MetadataExt;
use std::path::{Component, Path};
use std::time::SystemTime;

/// What a file is, whatever its names are: its device and inode.
#[derive(Clone, Copy, Debug, PartialEq, Eq, Hash)]
pub struct Id(u64, u64);

impl Id {
    pub fn of(meta: &Metadata) -> Id {
        Id(meta.dev(), meta.ino())
    }
}

/// Whether a path that the operator gave is a folder. What is not there is none; what cannot be looked at is an error.
pub fn is_folder(path: &Path) -> io::Result<bool> {
    match path.metadata() {
        Err(e) if e.kind() == io::ErrorKind::NotFound => Ok(false),
        other => other.map(|m| m.is_dir()),
    }
}

pub struct Folder(File);

impl Folder {
    /// By a path that the operator gave: links in it are followed.
    pub fn open(path: &Path) -> io::Result<Folder> {
        let file = File::open(if path.as_os_str().is_empty() { Path::new(".") } else { path })?;
        if file.metadata()?.is_dir() { Ok(Folder(file)) } else { Err(io::ErrorKind::NotADirectory.into()) }
    }

    pub fn folder(&self, name: &OsStr) -> io::Result<Folder> {
        sys::open(&self.0, name, sys::READ | sys::FOLDER, 0).map(Folder)
    }

    /// The folder at a relative path, one name after the other.
    pub fn below(&self, path: &Path) -> io::Result<Folder> {
        let mut at = Folder(self.0.try_clone()?);
        for part in path.components() {
            match part {
                Component::Normal(name) => at = at.folder(name)?,
                Component::CurDir => {}
                _ => return Err(io::ErrorKind::InvalidInput.into()),
            }
        }
        Ok(at)
    }

    /// What has this name; it is not opened.
    pub fn look(&self, name: &OsStr) -> io::Result<Metadata> {
        sys::open(&self.0, name, sys::LOOK, 0)?.metadata()
    }

    /// A file to be read; there is no wait for anything that is no file.
    pub fn read(&self, name: &OsStr) -> io::Result<File> {
        sys::open(&self.0, name, sys::READ | sys::NO_WAIT, 0)
    }

    /// A file to be read and written; there is no wait either.
    pub fn change(&self, name: &OsStr) -> io::Result<File> {
        sys::open(&self.0, name, sys::READ_WRITE | sys::NO_WAIT, 0)
    }

    /// A new file; there was nothing of that name.
    pub fn create(&self, name: &OsStr, mode: u32) -> io::Result<File> {
        sys::open(&self.0, name, sys::WRITE | sys::CREATE | sys::EXCLUSIVE, mode)
    }

    pub fn make(&self, name: &OsStr, mode: u32) -> io::Result<()> {
        sys::make_folder(&self.0, name, mode)
    }

    pub fn remove(&self, name: &OsStr) -> io::Result<()> {
        sys::remove(&self.0, name, false)
    }

    pub fn remove_folder(&self, name: &OsStr) -> io::Result<()> {
        sys::remove(&self.0, name, true)
    }

    pub fn rename(&self, name: &OsStr, new: &OsStr) -> io::Result<()> {
        sys::rename(&self.0, name, new)
    }

    pub fn link(&self, target: &OsStr, name: &OsStr) -> io::Result<()> {
        sys::link(target, &self.0, name)
    }

    pub fn link_target(&self, name: &OsStr) -> io::Result<OsString> {
        sys::link_target(&self.0, name)
    }

    /// Another name, here, of a file in a folder.
    pub fn hard_link(&self, from: &Folder, file: &OsStr, name: &OsStr) -> io::Result<()> {
        sys::hard_link(&from.0, file, &self.0, name)
    }

    pub fn set_owner(&self, name: &OsStr, user: u32, group: u32) -> io::Result<()> {
        sys::set_owner(&self.0, name, user, group)
    }

    /// The time of a name itself, also of a link.
    pub fn set_time(&self, name: &OsStr, time: SystemTime) -> io::Result<()> {
        let (seconds, nanos) = parts(time);
        let both = || sys::Time { seconds, nanos: nanos as i64 };
        sys::set_times(&self.0, name, [both(), both()])
    }

    pub fn names(&self) -> io::Result<Vec<OsString>> {
        sys::names(&self.0)
    }

    /// The names in it are on the disk when this returns.
    pub fn sync(&self) -> io::Result<()> {
        self.0.sync_all()
    }

    pub fn file(&self) -> &File {
        &self.0
    }
}

/// Whole seconds since 1970, which may be negative, and the part of a second behind them.
pub fn parts(time: SystemTime) -> (i64, u32) {
    match time.duration_since(SystemTime::UNIX_EPOCH) {
        Ok(after) => (after.as_secs() as i64, after.subsec_nanos()),
        Err(before) => {
            let before = before.duration();
            match before.subsec_nanos() {
                0 => (-(before.as_secs() as i64), 0),
                n => (-(before.as_secs() as i64) - 1, 1_000_000_000 - n),
            }
        }
    }
}

#[cfg(test)]
mod tests {
    use super::*;
    use crate::own::Scratch;
    use std::fs;
    use std::os::unix::fs::symlink;
    use std::time::Duration;

    #[test]
    fn links_are_not_followed() {
        let s = Scratch::new().unwrap();
        fs::create_dir_all(s.path("in/a/b")).unwrap();
        fs::write(s.path("in/a/b/f"), b"x").unwrap();
        fs::write(s.path("out"), b"out").unwrap();
        symlink("../out", s.path("in/l")).unwrap();
        symlink("a", s.path("in/d")).unwrap();
        let f = Folder::open(&s.path("in")).unwrap();
        let name = OsStr::new;
        assert!(f.read(name("l")).is_err() && f.folder(name("d")).is_err() && f.below(Path::new("d/b")).is_err());
        assert!(f.create(name("l"), 0o600).is_err() && f.below(Path::new("../in")).is_err());
        assert!(f.look(name("l")).unwrap().is_symlink());
        assert_eq!(f.link_target(name("l")).unwrap(), "../out");
        assert_eq!(f.below(Path::new("a/b")).unwrap().names().unwrap(), ["f"]);
        let mut all = f.names().unwrap();
        all.sort();
        assert_eq!((all, f.names().unwrap().len()), (["a", "d", "l"].map(OsString::from).to_vec(), 3));
        assert!(f.look(name("a\0")).is_err());
    }

    #[test]
    fn times_before_1970() {
        for (seconds, nanos) in [(0, 0), (5, 7), (-1, 0), (-1, 999_999_999), (-7, 1)] {
            let whole = Duration::from_secs(100);
            let time = SystemTime::UNIX_EPOCH - whole + Duration::new((seconds + 100) as u64, nanos);
            assert_eq!(parts(time), (seconds, nanos));
        }
    }
}
