//! What sessions share: the places and the cartridges in them, and who has the tape and the changer. A session has the
//! tape from tape open to close, and the changer from scsi open to close, or until the connection ends; the places it
//! has for one request only. No lock is held while anything is read, written or waited for.
use crate::cartridge::Cartridge;
use crate::library::Library;
use proved::Slots;
use std::io;
use std::sync::{Condvar, Mutex, MutexGuard, PoisonError};
use std::time::Duration;

/// How long tape open and scsi open wait: a client that has just gone may not have been noticed yet.
const WAIT: Duration = Duration::from_secs(1);
/// How long a request waits for one that has the places, and waits for a disk.
const LONG: Duration = Duration::from_secs(60);

#[derive(Clone, Copy)]
pub enum Device {
    Tape,
    Changer,
}

struct State {
    /// None while a request has it.
    library: Option<Library>,
    /// The places as they are on the disk.
    slots: Slots,
    /// The image of the cartridge in the drive, where no session has it and it is in memory.
    drive: Option<Cartridge>,
    /// The numbers of the sessions that have tape and changer.
    holders: [Option<usize>; 2],
}

pub struct Vault {
    state: Mutex<State>,
    back: Condvar,
}

impl Vault {
    pub fn new(library: Library, drive: Option<Cartridge>) -> Vault {
        let slots = library.slots;
        let state = State { library: Some(library), slots, drive, holders: [None; 2] };
        Vault { state: Mutex::new(state), back: Condvar::new() }
    }

    fn lock(&self) -> MutexGuard<'_, State> {
        self.state.lock().unwrap_or_else(PoisonError::into_inner)
    }

    /// Waits until something is so, or so long.
    fn wait(&self, most: Duration, so: impl Fn(&State) -> bool) -> MutexGuard<'_, State> {
        let waited = self.back.wait_timeout_while(self.lock(), most, |s| !so(s));
        waited.unwrap_or_else(PoisonError::into_inner).0
    }

    /// The places, for a session that begins.
    pub fn slots(&self) -> Slots {
        self.lock().slots
    }

    /// The places for one request; a device that it asks for is waited for, and may still be another session's.
    pub fn visit(&self, wants: Option<Device>) -> Option<Visit<'_>> {
        let free = |s: &State| wants.is_none_or(|d| s.holders[d as usize].is_none());
        drop(self.wait(WAIT, |s| s.library.is_some() && free(s)));
        let library = self.wait(LONG, |s| s.library.is_some()).library.take();
        library.map(|library| Visit { vault: self, library: Some(library) })
    }

    /// The tape is free again, with its cartridge.
    pub fn give(&self, cartridge: Cartridge) {
        let mut state = self.lock();
        state.drive = Some(cartridge);
        state.holders[Device::Tape as usize] = None;
        self.back.notify_all();
    }

    pub fn give_changer(&self) {
        self.lock().holders[Device::Changer as usize] = None;
        self.back.notify_all();
    }

    /// The places, and the image in the drive, when all sessions have ended; none where one still has them.
    pub fn last(&self) -> Option<(Library, Option<Cartridge>)> {
        let free = |s: &State| s.library.is_some() && s.holders[Device::Tape as usize].is_none();
        let mut state = self.wait(WAIT, free);
        if !free(&state) {
            return None;
        }
        let drive = state.drive.take();
        state.library.take().map(|library| (library, drive))
    }
}

/// The places, while a request looks at them. They go back with this value, as they are then.
pub struct Visit<'a> {
    vault: &'a Vault,
    library: Option<Library>,
}

impl Visit<'_> {
    pub fn library(&mut self) -> &mut Library {
        self.library.as_mut().expect("it goes back with this value only")
    }

    /// The session that has a device.
    pub fn holder(&self, device: Device) -> Option<usize> {
        self.vault.lock().holders[device as usize]
    }

    pub fn enter(&self, device: Device, number: usize) {
        self.vault.lock().holders[device as usize] = Some(number);
    }

    /// The image in the drive, from memory.
    pub fn drive(&self) -> Option<Cartridge> {
        self.vault.lock().drive.take()
    }

    /// The file of the cartridge in the drive has all that is in memory.
    pub fn store(&self) -> io::Result<()> {
        let Some(mut cartridge) = self.drive() else { return Ok(()) };
        let done = cartridge.store();
        self.vault.lock().drive = Some(cartridge);
        done.map(drop)
    }
}

impl Drop for Visit<'_> {
    fn drop(&mut self) {
        let mut state = self.vault.lock();
        if let Some(library) = self.library.take() {
            state.slots = library.slots;
            state.library = Some(library);
        }
        self.vault.back.notify_all();
    }
}
