//! The TAPE requests: "Data and mover states", last point, and "The cartridge".

use super::cartridge::{Cartridge, Walked};
use super::refusals::{Outcome, refuse};
use super::state::{State, Tape, mover};
use super::xdr::Writer;

/// A closed tape's position is forgotten (reading).
const CLOSED: Tape = Tape { open: false, writable: false, position: 0 };

/// "Tape open: mode 0 reads, 1 also writes, else 9; position 0."
pub fn open(s: &mut State, image: &mut [u8], device: &[u8], mode: u32) -> Outcome {
    refuse(mode > 1, 9)?;
    refuse(device != b"tape0", 16)?;
    refuse(s.tape.open, 3)?;
    // 02 No. 7: "10 (no tape loaded) at tape open, after 3"
    refuse(s.changer.loaded() == 0, 10)?;
    // "15 at tape open"
    refuse(Cartridge::read(image).is_none(), 15)?;
    s.tape = Tape { open: true, writable: mode == 1, position: 0 };
    Ok(Writer::words(&[0]))
}

/// "6: ... TAPE request but open, its device not open"
fn opened(s: &State) -> Result<(), u32> {
    refuse(!s.tape.open, 6)
}

/// "TAPE requests but get state and open: 19 while the mover is in LISTEN or ACTIVE."
fn idle_tape(s: &State) -> Result<(), u32> {
    opened(s)?;
    refuse(matches!(s.mover.state, mover::LISTEN | mover::ACTIVE), 19)
}

pub fn close(s: &mut State) -> Outcome {
    idle_tape(s)?;
    s.tape = CLOSED;
    Ok(Writer::words(&[0]))
}

/// "7 at tape read, write, MTIO, get state; there 7 also if the position is above n"
fn standing<'a>(s: &State, image: &'a mut [u8]) -> Result<Cartridge<'a>, u32> {
    Cartridge::standing(image, s.tape.position).ok_or(7)
}

/// "Get state never gives 19; fields in 004's order, for TAPE only file number ... and block number ...; what is not
/// kept is zero".
pub fn get_state(s: &State, image: &mut [u8]) -> Outcome {
    opened(s)?;
    let (file, block) = standing(s, image)?.place(s.tape.position);
    Ok(Writer::words(&[0, 0, 0, file, 0, 0, block, 0, 0, 0, 0]))
}

pub fn mtio(s: &mut State, image: &mut [u8], op: u32, count: u32) -> Outcome {
    idle_tape(s)?;
    // "5: tape open read-only: write, MTIO 5"
    refuse(op == 5 && !s.tape.writable, 5)?;
    // "6 off; others 9"; 02 No. 7: "MTIO 6 no longer gives 1"
    refuse(op > 6, 9)?;
    let position = s.tape.position;
    let cartridge = standing(s, image)?;
    if op == 6 {
        // 02 No. 7: "MTIO 6, which rewinds and closes the tape device, residue 0". The cartridge stays in the drive
        // (reading).
        s.tape = CLOSED;
        return Ok(Writer::words(&[0, 0]));
    }
    let walked = match op {
        0 | 1 => cartridge.space_files(position, count, op == 0),
        2 | 3 => cartridge.space_records(position, count, op == 2),
        // "REW ignores count, residue 0."
        4 => Walked { error: 0, position: 0, residue: 0 },
        _ => cartridge.write_marks(position, count),
    };
    s.tape.position = walked.position;
    Ok(Writer::words(&[walked.error, walked.residue]))
}

pub fn write(s: &mut State, image: &mut [u8], data: &[u8]) -> Outcome {
    idle_tape(s)?;
    refuse(!s.tape.writable, 5)?;
    // "above 32,768: 9"
    refuse(data.len() > 32_768, 9)?;
    let position = s.tape.position;
    let cartridge = standing(s, image)?;
    // "Write: length 0 changes nothing"
    if !data.is_empty() {
        // "no room: 13, nothing cut"
        refuse(!cartridge.has_room(position, data.len() as u64), 13)?;
        cartridge.write(position, data, data.len() as u64);
        s.tape.position += 1;
    }
    Ok(Writer::words(&[0, data.len() as u32]))
}

pub fn read(s: &mut State, image: &mut [u8], count: u32) -> Outcome {
    idle_tape(s)?;
    refuse(count > 32_768, 9)?;
    let position = s.tape.position;
    let cartridge = standing(s, image)?;
    // "Read: count 0 gives nothing"
    if count == 0 {
        return Ok(Writer::words(&[0, 0]));
    }
    let (error, next, bytes) = cartridge.read_at(position, count);
    let mut w = Writer::words(&[error]);
    w.opaque(bytes);
    s.tape.position = next;
    Ok(w)
}
