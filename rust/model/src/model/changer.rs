//! "The changer", and 02 No. 7, "Work the changer".

use super::refusals::{Outcome, refuse};
use super::state::{Slots, State};
use super::xdr::Writer;

/// Key, code and qualifier.
type Sense = [u8; 3];

/// "the sense `70 00 05 00 00 00 00 0A 00 00 00 00 20 00 00 00 00 00`": byte 2 is the key, byte 12 the code, and byte 13
/// the code's qualifier; "With none pending, bytes 2 and 12 are 0."
fn sense_bytes([key, code, qualifier]: Sense) -> [u8; 18] {
    [0x70, 0, key, 0, 0, 0, 0, 0x0a, 0, 0, 0, 0, code, qualifier, 0, 0, 0, 0]
}

const NONE: Sense = [0; 3];

/// The sense of an opcode that is not known.
const UNKNOWN_OPCODE: Sense = [5, 0x20, 0];

/// "status 2 with sense 05h/24h/00h for a CDB under 12 bytes"
const SHORT_CDB: Sense = [5, 0x24, 0];

/// "05h/21h/01h for an unknown element, the transport or a transport field other than 0"
const NO_PLACE: Sense = [5, 0x21, 1];

/// "05h/3Bh/0Dh for a full destination"
const DESTINATION_FULL: Sense = [5, 0x3b, 0x0d];

/// "05h/3Bh/0Eh for an empty source"
const SOURCE_EMPTY: Sense = [5, 0x3b, 0x0e];

/// "05h/53h/02h for a move from or to the drive while the tape is open"
const DRIVE_HELD: Sense = [5, 0x53, 2];

pub fn open(s: &mut State, device: &[u8]) -> Outcome {
    // "16, 3: name other than ... `changer0` (SCSI); that same device already open"
    refuse(device != b"changer0", 16)?;
    refuse(s.changer.open, 3)?;
    // "Open, close and reset clear it." They leave the slots (reading).
    s.changer.open = true;
    s.changer.sense = NONE;
    Ok(Writer::words(&[0]))
}

/// "6: SCSI ... request but open, its device not open"
fn opened(s: &State) -> Result<(), u32> {
    refuse(!s.changer.open, 6)
}

pub fn close(s: &mut State) -> Outcome {
    opened(s)?;
    s.changer.open = false;
    s.changer.sense = NONE;
    Ok(Writer::words(&[0]))
}

pub fn reset(s: &mut State) -> Outcome {
    opened(s)?;
    s.changer.sense = NONE;
    Ok(Writer::words(&[0]))
}

/// controller, id, lun: not kept, zero.
pub fn get_state(s: &State) -> Outcome {
    opened(s)?;
    Ok(Writer::words(&[0, 0, 0, 0]))
}

pub fn execute(s: &mut State, data_in: u32, cdb: &[u8]) -> Outcome {
    opened(s)?;
    // "CDB length 0 or above 16: 9."
    refuse(cdb.is_empty() || cdb.len() > 16, 9)?;
    let done: Result<Vec<u8>, Sense> = match cdb[0] {
        // "CDB 00h: status 0 ... and 00h keeps what is pending."
        0x00 => Ok(vec![]),
        // "03h (REQUEST SENSE): the pending sense, cut to the CDB's fifth byte (none in a shorter CDB) and the data-in
        // length, then cleared."
        0x03 => {
            let mut given = sense_bytes(s.changer.sense).to_vec();
            let fifth = cdb.get(4).copied().unwrap_or(0) as usize;
            given.truncate(fifth.min(data_in as usize));
            s.changer.sense = NONE;
            Ok(given)
        }
        // 02 No. 7: "Both keep the pending sense when they succeed"
        0xa5 => move_medium(&s.changer.slots, s.tape.open, cdb).map(|next| {
            s.changer.slots = next;
            vec![]
        }),
        0xb8 => element_status(&s.changer.slots, cdb).map(|(mut status, allocation)| {
            // "cut to allocation and data-in length"
            status.truncate(allocation.min(data_in) as usize);
            status
        }),
        _ => Err(UNKNOWN_OPCODE),
    };
    // "Other opcodes: status 2, and the sense ... becomes pending and is returned as the extended sense, with no
    // data-in"
    let (status, given, extended) = match done {
        Ok(given) => (0, given, vec![]),
        Err(sense) => {
            s.changer.sense = sense;
            (2, vec![], sense_bytes(sense).to_vec())
        }
    };
    // 004: error, status, dataout_len, datain, ext_sense
    let mut w = Writer::words(&[0, status, 0]);
    w.opaque(&given);
    w.opaque(&extended);
    Ok(w)
}

/// Two bytes of a CDB.
fn short(cdb: &[u8], at: usize) -> u32 {
    cdb[at] as u32 * 256 + cdb[at + 1] as u32
}

/// "transport 0, drive 1, slots 16 to 23": which of the nine places an address is. None for the transport and for
/// what is no element.
fn place(address: u32) -> Option<usize> {
    match address {
        1 => Some(0),
        16..=23 => Some(address as usize - 15),
        _ => None,
    }
}

/// SMC's MOVE MEDIUM: transport, source and destination in bytes 2 to 7; the rest is "flag and reserved bits". Gives
/// the next list.
fn move_medium(slots: &Slots, tape_open: bool, cdb: &[u8]) -> Result<Slots, Sense> {
    if cdb.len() < 12 {
        return Err(SHORT_CDB);
    }
    let transport = short(cdb, 2);
    let (Some(from), Some(to), 0) = (place(short(cdb, 4)), place(short(cdb, 6)), transport) else {
        return Err(NO_PLACE);
    };
    if slots[to] != 0 {
        return Err(DESTINATION_FULL);
    }
    if slots[from] == 0 {
        return Err(SOURCE_EMPTY);
    }
    if tape_open && (from == 0 || to == 0) {
        return Err(DRIVE_HELD);
    }
    let mut next = *slots;
    next[to] = slots[from];
    next[from] = 0;
    Ok(next)
}

/// The element type codes of SMC: 1 transport, 2 storage, 3 import and export, 4 data transfer. All ten by rising
/// address, with byte 2 of the descriptor: bit 0 is full, bit 3 access ("access bits 1 but at the transport").
fn elements(slots: &Slots) -> Vec<(u8, u16, u8)> {
    let held = |i: usize| 0x08 | (slots[i] != 0) as u8;
    let mut all = vec![(1, 0, 0x00), (4, 1, held(0))];
    all.extend((0..8).map(|i| (2, 16 + i as u16, held(1 + i))));
    all
}

/// SMC's READ ELEMENT STATUS: the type in the low four bits of byte 1 (0 is all), the start in bytes 2 and 3, the
/// number in bytes 4 and 5, the allocation length in bytes 7 to 9. Gives the whole data, and that length.
fn element_status(slots: &Slots, cdb: &[u8]) -> Result<(Vec<u8>, u32), Sense> {
    if cdb.len() < 12 {
        return Err(SHORT_CDB);
    }
    let kind = cdb[1] & 0x0f;
    let (start, number) = (short(cdb, 2), short(cdb, 4));
    let allocation = cdb[7] as u32 * 65_536 + short(cdb, 8);
    // "by rising address from any start"; "unknown types have no elements"
    let mut reported = elements(slots);
    reported.retain(|(t, address, _)| (kind == 0 || *t == kind) && *address as u32 >= start);
    reported.truncate(number as usize);

    // Pages, each of one type: a header of 8 bytes, then "12-byte descriptors", "no volume tags or source".
    let mut pages: Vec<u8> = vec![];
    for page in reported.chunk_by(|a, b| a.0 == b.0) {
        pages.extend([page[0].0, 0, 0, 12, 0, 0, 0, 12 * page.len() as u8]);
        for (_, address, held) in page {
            let [high, low] = address.to_be_bytes();
            pages.extend([high, low, *held, 0, 0, 0, 0, 0, 0, 0, 0, 0]);
        }
    }
    // First element address reported, number of elements, a reserved byte, and how many bytes follow.
    let [high, low] = reported.first().map_or(0, |(_, address, _)| *address).to_be_bytes();
    let mut status = vec![high, low, 0, reported.len() as u8, 0, 0, 0, pages.len() as u8];
    status.extend(pages);
    Ok((status, allocation))
}
