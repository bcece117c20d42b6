//! What the status page shows, kept up to date by those who serve. Only this is shared with the page, never a session or
//! the cartridge itself.
use crate::cartridge::{CAPACITY, Cartridge, Disk};
use crate::ends::Far;
use proved::Session;
use std::collections::BTreeMap;
use std::ffi::OsStr;
use std::sync::{Mutex, MutexGuard, PoisonError};
use std::time::Instant;

#[derive(Clone)]
pub struct Seen {
    pub peer: String,
    pub since: Instant,
    pub session: Session,
    /// The stream's length, where it is known.
    pub whole: Option<u64>,
    /// The peers of data and mover.
    pub far: [Far; 2],
}

/// The tape as its file has it; without a file's name there is none in the drive.
#[derive(Clone, Default)]
pub struct Tape {
    pub file: String,
    pub capacity: usize,
    pub body: usize,
    /// The length of each entry; a mark's is 0.
    pub lengths: Vec<u32>,
    /// The session that has it.
    pub holder: Option<usize>,
}

#[derive(Clone, Default)]
pub struct All {
    pub sessions: BTreeMap<usize, Seen>,
    pub tape: Tape,
    /// The drive, then the slots; the name of the cartridge there.
    pub places: Vec<Option<String>>,
}

pub struct Watch {
    pub since: Instant,
    all: Mutex<All>,
}

impl Watch {
    pub fn new() -> Watch {
        Watch { since: Instant::now(), all: Mutex::default() }
    }

    /// Another cartridge is in the drive, by this name. What is on it is known when it has been read.
    pub fn loaded<D: Disk>(&self, file: Option<&OsStr>, cartridge: Option<&Cartridge<D>>) {
        let file = file.map_or(String::new(), |f| f.display().to_string());
        let (capacity, body) = cartridge.map_or((0, 0), Cartridge::room);
        self.lock().tape = Tape { file, capacity, body, ..Tape::default() };
        if let Some(c) = cartridge {
            self.written(c, 0);
        }
    }

    /// The cartridges in their places, by name.
    pub fn placed(&self, names: Vec<Option<String>>) {
        self.lock().places = names;
    }

    fn lock(&self) -> MutexGuard<'_, All> {
        self.all.lock().unwrap_or_else(PoisonError::into_inner)
    }

    pub fn all(&self) -> All {
        self.lock().clone()
    }

    pub fn came(&self, number: usize, peer: String, session: Session) {
        let since = Instant::now();
        self.lock().sessions.insert(number, Seen { peer, since, session, whole: None, far: Default::default() });
    }

    pub fn is(&self, number: usize, session: &Session, whole: Option<u64>, far: [Far; 2]) {
        if let Some(seen) = self.lock().sessions.get_mut(&number) {
            (seen.session, seen.whole, seen.far) = (*session, whole, far);
        }
    }

    pub fn went(&self, number: usize) {
        self.lock().sessions.remove(&number);
    }

    pub fn holds(&self, number: Option<usize>) {
        self.lock().tape.holder = number;
    }

    /// The file's entries are those of the image, from this one on.
    pub fn written<D: Disk>(&self, cartridge: &Cartridge<D>, from: usize) {
        let mut all = self.lock();
        all.tape.lengths.truncate(from);
        let have = all.tape.lengths.len();
        all.tape.lengths.extend(cartridge.lengths(have).take(CAPACITY));
    }
}
