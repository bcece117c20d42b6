//! Slot lists, CDBs of MOVE MEDIUM and READ ELEMENT STATUS, and what they are to the session that they meet.

use crate::random::Random;
use proved::{Session, Slots};
use wire::{text, word, word_at, words};

/// Addresses: the transport, the drive, slots, and what is none of them.
pub const ADDRESSES: [u16; 16] = [0, 1, 2, 15, 16, 17, 18, 19, 20, 22, 23, 24, 256, 257, 272, 65_535];

/// Starts of a status.
pub const STARTS: [u16; 12] = [0, 1, 2, 15, 16, 17, 20, 23, 24, 256, 272, 65_535];

/// How many elements a status may ask for.
pub const NUMBERS: [u16; 14] = [0, 1, 2, 3, 4, 5, 6, 7, 8, 9, 10, 11, 256, 65_535];

/// Lengths that a status is cut to, by the allocation and by the data in.
const CUTS: [u32; 16] = [0, 1, 7, 8, 9, 16, 28, 48, 100, 151, 152, 153, 160, 256, 0x1_0000, 0xff_ffff];

/// Cartridges: some that agree in a byte or in a half.
const CARTRIDGES: [u32; 16] = [1, 2, 3, 4, 5, 6, 7, 8, 9, 10, 255, 256, 0x1_0000, 0x1_0001, 0x8000_0000, u32::MAX];

/// The body of an execute CDB.
pub fn execute(cdb: &[u8], data_in: u32) -> Vec<u8> {
    [words(&[1, 60_000, data_in]), text(cdb), text(b"")].concat()
}

pub fn moving(transport: u16, from: u16, to: u16) -> [u8; 12] {
    let ([a, b], [c, d], [e, f]) = (transport.to_be_bytes(), from.to_be_bytes(), to.to_be_bytes());
    [0xa5, 0, a, b, c, d, e, f, 0, 0, 0, 0]
}

pub fn status(kind: u8, start: u16, number: u16, allocation: u32) -> [u8; 12] {
    let ([a, b], [c, d], [_, e, f, g]) = (start.to_be_bytes(), number.to_be_bytes(), allocation.to_be_bytes());
    [0xb8, kind, a, b, c, d, 0, e, f, g, 0, 0]
}

/// A list that names none twice, each place full this often; the drive is full where it is wanted.
pub fn list(r: &mut Random, full: u64, loaded: bool) -> Slots {
    let mut left = CARTRIDGES.to_vec();
    let mut slots = [0; 9];
    for (i, slot) in slots.iter_mut().enumerate() {
        let here = if i == 0 { loaded } else { r.percent(full) };
        let named = left.swap_remove(r.below(left.len() as u64) as usize);
        *slot = if here { named } else { 0 };
    }
    slots
}

/// A list that names one twice.
pub fn named_twice(r: &mut Random, mut slots: Slots) -> Slots {
    let i = r.below(9) as usize;
    let j = (i + r.within(1, 8) as usize) % 9;
    slots[i] = if slots[j] == 0 { 77 } else { slots[j] };
    slots[j] = slots[i];
    slots
}

/// A CDB of either kind, most of them whole and with what makes sense on this session.
pub fn cdb(r: &mut Random, s: &Session) -> (Vec<u8>, u32) {
    let some = r.pick(&[0, 18, 152, 1000]);
    let (bytes, data_in) = if r.percent(50) { (likely_move(r, s), some) } else { any_status(r) };
    let mut cdb = bytes.to_vec();
    // Flags and reserved bits.
    if r.percent(20) {
        let ignored: &[usize] = if cdb[0] == 0xa5 { &[1, 8, 9, 10, 11] } else { &[6, 10, 11] };
        cdb[r.pick(ignored)] = r.next() as u8;
    }
    match r.below(12) {
        0 => cdb.truncate(r.pick(&[1, 2, 6, 10, 11, 11])),
        1 => cdb.resize(r.pick(&[13, 14, 15, 16, 16]), r.pick(&[0, 0xff])),
        2 if r.percent(20) => cdb.resize(17, 0),
        _ => {}
    }
    (cdb, data_in)
}

fn likely_move(r: &mut Random, s: &Session) -> [u8; 12] {
    let places = |full: bool| (0..9).filter(|i| (s.changer.slots[*i] != 0) == full).map(address).collect::<Vec<u16>>();
    let (full, empty) = (places(true), places(false));
    let some = |r: &mut Random, of: &[u16]| if of.is_empty() { r.pick(&ADDRESSES) } else { r.pick(of) };
    let transport = if r.percent(4) { r.pick(&ADDRESSES) } else { 0 };
    let (from, to) = match r.below(16) {
        0 => (r.pick(&ADDRESSES), r.pick(&ADDRESSES)),
        1 => (some(r, &full), some(r, &full)),
        2 => (some(r, &empty), some(r, &empty)),
        3 => (some(r, &empty), some(r, &full)),
        4 => (1, some(r, &empty)),
        5 => (some(r, &full), 1),
        6 => (some(r, &full), r.pick(&ADDRESSES)),
        7 => (r.pick(&ADDRESSES), some(r, &empty)),
        8 => {
            let one = r.pick(&ADDRESSES);
            (one, one)
        }
        _ => (some(r, &full), some(r, &empty)),
    };
    moving(transport, from, to)
}

/// A status, and the data-in length: of all from the beginning, so many; of all from anywhere; of all, cut; any.
fn any_status(r: &mut Random) -> ([u8; 12], u32) {
    match r.below(5) {
        0 | 1 => (status(0, 0, r.pick(&NUMBERS), 500), 500),
        2 => (status(0, r.pick(&STARTS), 65_535, 500), r.pick(&[152, 500, u32::MAX])),
        3 => {
            let cut = if r.percent(60) { r.pick(&CUTS) } else { r.below(160) as u32 };
            let (allocation, data_in) = r.pick(&[(cut, 500), (500, cut), (cut, cut + 1), (cut + 1, cut)]);
            (status(0, 0, 10, allocation.min(0xff_ffff)), data_in)
        }
        _ => {
            let kind = r.pick(&[0, 1, 2, 2, 4, 3, 5, 15, 0x10, 0xf0, 0xe2, 0x14]);
            let number = if r.percent(50) { 65_535 } else { r.pick(&NUMBERS) };
            (status(kind, r.pick(&STARTS), number, r.pick(&CUTS)), r.pick(&[8, 60, 1000, 1000, u32::MAX]))
        }
    }
}

/// The address of a place.
pub fn address(place: usize) -> u16 {
    if place == 0 { 1 } else { place as u16 + 15 }
}

/// The place of an address.
fn place(address: u16) -> Option<usize> {
    (0..9).find(|i| self::address(*i) == address)
}

/// CDB and data-in length of an execute CDB's body.
fn parts(body: &[u8]) -> Option<(&[u8], u32)> {
    let length = word_at(body, 12)? as usize;
    Some((body.get(16..16usize.checked_add(length)?)?, word_at(body, 8)?))
}

/// Status, how many bytes of data in, and code and qualifier of the sense, of an accepted execute CDB; `sent` is the
/// reply.
fn answer(sent: &[u8]) -> (u32, usize, String) {
    let data = word(sent, 40) as usize;
    let sense = 44 + data.div_ceil(4) * 4;
    let told = sent.get(sense + 16..sense + 18).map_or("0".into(), |b| format!("{:02x}/{:02x}", b[0], b[1]));
    (word(sent, 32), data, told)
}

/// The cases that an accepted execute CDB is.
pub fn cases(body: &[u8], sent: &[u8], before: &Session, after: &Session) -> Vec<String> {
    let Some((cdb, data_in)) = parts(body) else { return vec![] };
    let (status, data, sense) = answer(sent);
    let pending = [before.changer.key, before.changer.code, before.changer.qualifier] != [0; 3];
    let opcode = match cdb[0] {
        0xa5 => "move",
        0xb8 => "status",
        _ => return vec![],
    };
    let mut all = vec![format!("{opcode}, CDB of {} bytes: {status}", cdb.len())];
    if pending {
        let kept = before.changer.key == after.changer.key && before.changer.code == after.changer.code;
        let what = if status == 0 { "success" } else { "refusal" };
        all.push(format!("{opcode}, {what} with a sense pending, {}", if kept { "kept" } else { "replaced" }));
    }
    if cdb.len() < 12 {
        all.push(format!("{opcode}, short: {sense}"));
    } else if opcode == "move" {
        all.extend(move_cases(cdb, before).into_iter().map(|case| format!("move, {case}: {sense}")));
    } else {
        all.extend(status_cases(cdb, data_in, data, before));
    }
    all
}

fn short(cdb: &[u8], at: usize) -> u16 {
    u16::from_be_bytes([cdb[at], cdb[at + 1]])
}

fn move_cases(cdb: &[u8], s: &Session) -> Vec<&'static str> {
    let (transport, from, to) = (short(cdb, 2), short(cdb, 4), short(cdb, 6));
    let held = |i: Option<usize>| i.is_some_and(|i| s.changer.slots[i] != 0);
    let known = place(from).is_some() && place(to).is_some() && transport == 0;
    let (full, empty) = (held(place(to)), !held(place(from)));
    let (drive, open) = (from == 1 || to == 1, s.tape.opened);
    let tests = [
        ("a transport field", transport != 0 && place(from).is_some() && place(to).is_some()),
        ("from the transport", from == 0 && place(to).is_some() && transport == 0),
        ("to the transport", to == 0 && place(from).is_some() && transport == 0),
        ("from no element", from != 0 && place(from).is_none() && place(to).is_some() && transport == 0),
        ("to no element", to != 0 && place(to).is_none() && place(from).is_some() && transport == 0),
        ("from no element, to a full one", place(from).is_none() && full),
        ("from an empty one, to no element", place(to).is_none() && place(from).is_some() && empty),
        ("full", known && full && !empty),
        ("empty", known && empty && !full),
        ("full and empty", known && full && empty && from != to),
        ("full, of the drive with the tape open", known && full && !empty && drive && open && from != to),
        ("full and empty, of the drive with the tape open", known && full && empty && drive && open),
        ("to itself, full", known && from == to && full),
        ("to itself, empty", known && from == to && empty),
        ("from the drive with the tape open", known && !full && !empty && from == 1 && open),
        ("from slot to slot with the tape open", known && !full && !empty && !drive && open),
        ("from slot to slot with the tape closed", known && !full && !empty && !drive && !open),
        ("from the drive", known && !full && !empty && from == 1 && !open),
        ("to the drive", known && !full && !empty && to == 1 && !open),
        ("of the drive in PAUSED", known && !full && !empty && drive && s.mover.state_name() == "PAUSED" && !open),
        ("flags set", known && !full && !empty && !open && [1, 8, 9, 10, 11].iter().any(|i| cdb[*i] != 0)),
    ];
    tests.into_iter().filter(|(_, applies)| *applies).map(|(case, _)| case).collect()
}

fn status_cases(cdb: &[u8], data_in: u32, data: usize, s: &Session) -> Vec<String> {
    let (kind, start, number) = (cdb[1] % 16, short(cdb, 2), short(cdb, 4));
    let allocation = u32::from_be_bytes([0, cdb[7], cdb[8], cdb[9]]);
    let of = |kind: u8| match kind {
        0 => "all",
        1 => "the transport",
        2 => "the slots",
        4 => "the drive",
        _ => "an unknown type",
    };
    let mut all = vec![format!("status of {}", of(kind))];
    if kind == 0 && allocation.min(data_in) >= 152 {
        all.push(format!("status from {start}"));
        if start == 0 {
            all.push(format!("status of {number} elements: {data} bytes"));
        }
    }
    // How long the whole would be is not asked here: a cut is one for certain at 152 and more.
    let whole = kind == 0 && start == 0 && number >= 10;
    let tests = [
        ("cut by the allocation", whole && data as u32 == allocation && allocation < data_in.min(152)),
        ("cut by the data in", whole && data as u32 == data_in && data_in < allocation.min(152)),
        ("cut to nothing", whole && data == 0),
        ("whole", whole && data == 152),
        ("one byte short of whole", whole && data == 151),
        ("with the tape open", whole && s.tape.opened),
        ("flags set", whole && (cdb[1] != 0 || cdb[6] != 0 || cdb[10] != 0 || cdb[11] != 0)),
        ("an empty drive", whole && data == 152 && s.changer.slots[0] == 0),
        ("nothing at all", whole && data == 152 && s.changer.slots == [0; 9]),
        ("nine cartridges", whole && data == 152 && !s.changer.slots.contains(&0)),
    ];
    all.extend(tests.into_iter().filter(|(_, applies)| *applies).map(|(case, _)| format!("status, {case}")));
    all
}

/// Everything of it that has to be reached.
pub fn wanted() -> Vec<String> {
    let mut all = vec![];
    for opcode in ["move", "status"] {
        all.extend([1, 6, 11].map(|n| format!("{opcode}, CDB of {n} bytes: 2")));
        all.extend([12, 13, 16].map(|n| format!("{opcode}, CDB of {n} bytes: 0")));
        all.push(format!("{opcode}, success with a sense pending, kept"));
        all.push(format!("{opcode}, refusal with a sense pending, replaced"));
        all.push(format!("{opcode}, short: 24/00"));
    }
    for (case, sense) in [
        ("a transport field", "21/01"),
        ("from the transport", "21/01"),
        ("to the transport", "21/01"),
        ("from no element", "21/01"),
        ("to no element", "21/01"),
        ("from no element, to a full one", "21/01"),
        ("from an empty one, to no element", "21/01"),
        ("full", "3b/0d"),
        ("empty", "3b/0e"),
        ("full and empty", "3b/0d"),
        ("full, of the drive with the tape open", "3b/0d"),
        ("full and empty, of the drive with the tape open", "3b/0d"),
        ("to itself, full", "3b/0d"),
        ("to itself, empty", "3b/0e"),
        ("from the drive with the tape open", "53/02"),
        ("from slot to slot with the tape open", "0"),
        ("from slot to slot with the tape closed", "0"),
        ("from the drive", "0"),
        ("to the drive", "0"),
        ("of the drive in PAUSED", "0"),
        ("flags set", "0"),
    ] {
        all.push(format!("move, {case}: {sense}"));
    }
    for of in ["all", "the transport", "the slots", "the drive", "an unknown type"] {
        all.push(format!("status of {of}"));
    }
    all.extend(STARTS.map(|start| format!("status from {start}")));
    let bytes = [8, 28, 48, 68, 80, 92, 104, 116, 128, 140, 152, 152, 152, 152];
    all.extend(NUMBERS.iter().zip(bytes).map(|(number, n)| format!("status of {number} elements: {n} bytes")));
    for case in [
        "cut by the allocation",
        "cut by the data in",
        "cut to nothing",
        "whole",
        "one byte short of whole",
        "with the tape open",
        "flags set",
        "an empty drive",
        "nothing at all",
        "nine cartridges",
    ] {
        all.push(format!("status, {case}"));
    }
    all
}

#[cfg(test)]
mod tests {
    use super::*;

    #[test]
    fn lists_name_what_they_say() {
        let mut r = Random(5);
        for i in 0..1000 {
            let slots = list(&mut r, 50, i % 2 == 0);
            let twice = |slots: &Slots| (0..9).any(|i| slots[i] != 0 && slots[i + 1..].contains(&slots[i]));
            assert_eq!((slots[0] != 0, twice(&slots)), (i % 2 == 0, false));
            assert!(twice(&named_twice(&mut r, slots)));
        }
        assert_eq!((0..9).map(address).collect::<Vec<_>>(), [1, 16, 17, 18, 19, 20, 21, 22, 23]);
        assert_eq!((place(1), place(16), place(23)), (Some(0), Some(1), Some(8)));
        assert_eq!((place(0), place(2), place(15), place(24)), (None, None, None, None));
    }
}
