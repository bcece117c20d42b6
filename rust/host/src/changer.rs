//! A session's tape and changer among those of other sessions: who has them, the places that the core is lent, and what
//! a move makes of them.
use crate::cartridge::{Cartridge, OnDisk};
use crate::library::Library;
use crate::line::{Line, Over, Result};
use crate::slots::{shown, the_place};
use crate::vault::{Device, Visit};
use proved::{Session, Slots, codes};
use wire::{HEADER, Header, message, word_at};

/// What other sessions have, so far as it bears on a request. The core knows one session: it is asked as if that one
/// had opened the device, and answers as to a device that is open. The session keeps its own.
#[derive(Clone, Copy, Default)]
pub struct Others {
    pub tape: bool,
    pub changer: bool,
}

impl Others {
    pub fn lent(self, mut s: Session) -> Session {
        s.tape.opened |= self.tape;
        s.changer.opened |= self.changer;
        s
    }

    pub fn back(self, own: Session, mut next: Session) -> Session {
        if self.tape {
            next.tape = own.tape;
        }
        if self.changer {
            next.changer.opened = own.changer.opened;
        }
        next
    }
}

/// The first place that a move emptied, and the one that it filled.
fn moved(before: &Slots, after: &Slots) -> Option<(usize, usize)> {
    let from = (0..before.len()).find(|i| before[*i] != 0 && after[*i] != before[*i])?;
    let to = after.iter().position(|n| *n == before[from])?;
    Some((from, to))
}

/// The opcode of an execute CDB.
fn opcode(record: &[u8]) -> Option<u32> {
    let is = Header::of(record)?.message == message::SCSI_EXECUTE_CDB && word_at(record, HEADER + 12)? > 0;
    is.then(|| record.get(HEADER + 16).map(|b| *b as u32)).flatten()
}

impl<'a> Line<'a> {
    /// The places, once the disk is known to have them.
    fn visit(&self, wants: Option<Device>) -> Result<Visit<'a>> {
        let late = || Over::Failed("the changer was waited for: another request has it, and waits for the disk".into());
        let mut visit = self.shared.vault.visit(wants).ok_or_else(late)?;
        visit.library().settle().map_err(|e| Over::Failed(format!("the list of slots could not be written: {e}")))?;
        Ok(visit)
    }

    /// Takes the cartridge that is in the drive, if no other session has the tape.
    pub fn take(&mut self) -> Result<()> {
        let mut visit = self.visit(Some(Device::Tape))?;
        self.core.changer.slots = visit.library().slots;
        if self.core.changer.slots[0] == 0 || visit.holder(Device::Tape).is_some() {
            return Ok(());
        }
        self.held = match visit.drive() {
            None => self.load(visit.library()),
            here => here,
        };
        if self.held.is_some() {
            visit.enter(Device::Tape, self.number);
            if let Some(watch) = &self.shared.watch {
                watch.holds(Some(self.number));
            }
        }
        Ok(())
    }

    /// From its shelf. One that cannot be read is no sound one.
    fn load(&self, library: &mut Library) -> Option<Cartridge> {
        let loaded = library.load().map_err(|why| self.progress.error(why)).ok()?;
        if let Some(watch) = &self.shared.watch {
            watch.loaded(library.name(library.slots[0]), Some(&loaded));
        }
        Some(loaded)
    }

    /// Takes the changer, if no other session has it.
    pub fn take_changer(&mut self) -> Result<()> {
        let visit = self.visit(Some(Device::Changer))?;
        self.others.changer = visit.holder(Device::Changer).is_some();
        if !self.others.changer {
            visit.enter(Device::Changer, self.number);
            self.has_changer = true;
        }
        Ok(())
    }

    /// The session is lent the places as they are, for one request.
    pub fn look(&mut self) -> Result<()> {
        let mut visit = self.visit(None)?;
        self.core.changer.slots = visit.library().slots;
        self.others.tape = visit.holder(Device::Tape).is_some_and(|n| n != self.number);
        self.visit = Some(visit);
        Ok(())
    }

    /// What a request made of the places is on the disk, and then the places are free for others. A cartridge that
    /// leaves the drive is stored first: once it has left, nothing would bring the rest of it to its file.
    pub fn keep(&mut self) -> Result<()> {
        self.others = Default::default();
        let Some(mut visit) = self.visit.take() else { return Ok(()) };
        let (before, after) = (visit.library().slots, self.core.changer.slots);
        let Some((from, to)) = moved(&before, &after) else { return Ok(()) };
        let name = visit.library().name(after[to]).map_or(String::new(), shown);
        let failed = |what, e| Over::Failed(format!("{name} was not moved: the {what} could not be written: {e}"));
        if before[0] != after[0] {
            visit.store().map_err(|e| failed("cartridge file", e))?;
        }
        visit.library().becomes(after).map_err(|e| failed("list of slots", e))?;
        if before[0] != after[0] {
            if let Some(cartridge) = visit.drive() {
                visit.library().put_away(before[0], cartridge);
            }
            if let Some(watch) = &self.shared.watch {
                watch.loaded::<OnDisk>(visit.library().name(after[0]), None);
            }
        }
        if let Some(watch) = &self.shared.watch {
            watch.placed(visit.library().shown());
        }
        let (from, to) = (the_place(from), the_place(to));
        self.progress.line(format_args!("{name} moved from {from} to {to}"));
        Ok(())
    }

    pub fn hand_back_changer(&mut self) {
        if std::mem::take(&mut self.has_changer) {
            self.shared.vault.give_changer();
        }
    }

    /// Why a move was refused, if the record asked for one and this is its answer; one that is ignored has none.
    pub fn refused_move(&self, record: &[u8], answer: &[u8]) -> Option<String> {
        let status = word_at(answer, HEADER + 4)?;
        if opcode(record) != Some(codes::MOVE_MEDIUM) || status == 0 {
            return None;
        }
        let c = &self.core.changer;
        let why = match (c.code, c.qualifier) {
            (0x21, 0x01) => "no such place",
            (0x3b, 0x0d) => "the destination is full",
            (0x3b, 0x0e) => "the source is empty",
            (0x53, 0x02) => "the tape is open",
            _ => "not a command of twelve bytes",
        };
        Some(format!("move refused: {why} ({:02X}h/{:02X}h/{:02X}h)", c.key, c.code, c.qualifier))
    }
}
