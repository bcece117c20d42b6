//! Cases of 02 No. 7, worked out by hand from the request and from SMC's layouts.

use super::by_hand::{Desk, bytes};
use super::calls::{self, ROOM};
use super::relation::broken;
use super::state::{EMPTY, Slots, State, mover};
use super::xdr::Writer;

/// The drive has 9; slot 17 has 3, slot 23 has 7.
const SOME: Slots = [9, 0, 3, 0, 0, 0, 0, 0, 7];

/// All ten elements of it: 144 bytes follow the first eight.
const WHOLE: &str = "
    0000 000a 00 000090
    01 00 000c 00 00000c
        0000 00 000000000000000000
    04 00 000c 00 00000c
        0001 09 000000000000000000
    02 00 000c 00 000060
        0010 08 000000000000000000
        0011 09 000000000000000000
        0012 08 000000000000000000
        0013 08 000000000000000000
        0014 08 000000000000000000
        0015 08 000000000000000000
        0016 08 000000000000000000
        0017 09 000000000000000000";

/// The changer is open; the tape is closed.
fn desk(slots: Slots) -> Desk {
    let mut d = Desk::new();
    d.s.tape = State::at_rest(EMPTY).tape;
    (d.s.changer.open, d.s.changer.slots) = (true, slots);
    d
}

fn unhex(text: &str) -> Vec<u8> {
    let digits: Vec<u8> = text.bytes().filter(u8::is_ascii_hexdigit).collect();
    digits.chunks(2).map(|d| u8::from_str_radix(std::str::from_utf8(d).unwrap(), 16).unwrap()).collect()
}

/// The reply's words behind the header.
fn execute(d: &mut Desk, cdb: &[u8], data_in: u32) -> Vec<u8> {
    let mut w = Writer::words(&[0, 0, data_in]);
    w.opaque(cdb);
    w.opaque(b"");
    d.send(0x206, &w.0)[28..].to_vec()
}

/// Error 0, status 0, no data out, these bytes, no sense.
fn good(data: &[u8]) -> Vec<u8> {
    let mut w = Writer::words(&[0, 0, 0]);
    w.opaque(data);
    w.opaque(b"");
    w.0
}

/// Error 0, status 2, no data, the eighteen bytes.
fn checked(sense: &str) -> Vec<u8> {
    let [key, code, qualifier] = unhex(sense)[..] else { panic!("{sense}") };
    let all = [0x70, 0, key, 0, 0, 0, 0, 0x0a, 0, 0, 0, 0, code, qualifier, 0, 0, 0, 0];
    [bytes(&[0, 2, 0, 0, 18]), all.to_vec(), vec![0, 0]].concat()
}

fn request_sense(d: &mut Desk) -> Vec<u8> {
    execute(d, &[3, 0, 0, 0, 18, 0], 18)[16..34].to_vec()
}

fn status(kind: u8, start: u16, number: u16, allocation: u32) -> [u8; 12] {
    let ([a, b], [c, d], [_, e, f, g]) = (start.to_be_bytes(), number.to_be_bytes(), allocation.to_be_bytes());
    [0xb8, kind, a, b, c, d, 0, e, f, g, 0, 0]
}

fn moving(transport: u16, from: u16, to: u16) -> [u8; 12] {
    let ([a, b], [c, d], [e, f]) = (transport.to_be_bytes(), from.to_be_bytes(), to.to_be_bytes());
    [0xa5, 0, a, b, c, d, e, f, 0, 0, 0, 0]
}

#[test]
fn all_elements() {
    let whole = unhex(WHOLE);
    assert_eq!(whole.len(), 152);
    assert_eq!(execute(&mut desk(SOME), &status(0, 0, 10, 0xff_ffff), u32::MAX), good(&whole));
    assert_eq!(execute(&mut desk(SOME), &status(0, 0, 65_535, 152), 152), good(&whole));
    // None full, and all.
    let none = execute(&mut desk(EMPTY), &status(0, 0, 10, 152), 152);
    assert_eq!((none[16 + 18], none[16 + 38], none[16 + 58], none[16 + 142]), (0, 8, 8, 8));
    let all = execute(&mut desk([1, 2, 3, 4, 5, 6, 7, 8, 9]), &status(0, 0, 10, 152), 152);
    assert_eq!((all[16 + 18], all[16 + 38], all[16 + 58], all[16 + 142]), (0, 9, 9, 9));
}

#[test]
fn elements_of_a_type() {
    let none = "0000 0000 00 000000";
    let transport = "0000 0001 00 000014 01 00 000c 00 00000c 0000 00 000000000000000000";
    let drive = "0001 0001 00 000014 04 00 000c 00 00000c 0001 09 000000000000000000";
    let slots = format!("0010 0008 00 000068 {}", &WHOLE[WHOLE.find("02 00 000c").unwrap()..]);
    for kind in 0..=255u8 {
        let expected = match kind % 16 {
            0 => WHOLE,
            1 => transport,
            2 => &slots,
            4 => drive,
            _ => none,
        };
        assert_eq!(execute(&mut desk(SOME), &status(kind, 0, 10, 500), 500), good(&unhex(expected)), "type {kind:02x}");
    }
}

/// What is reported: the addresses, and the lengths of the pages' descriptors.
fn reported(kind: u8, start: u16, number: u16) -> (Vec<u16>, Vec<(u8, u32)>) {
    let reply = execute(&mut desk(SOME), &status(kind, start, number, 0xff_ffff), u32::MAX);
    let word = |at: usize| u32::from_be_bytes(reply[at..at + 4].try_into().unwrap());
    let short = |at: usize| u16::from_be_bytes(reply[at..at + 2].try_into().unwrap());
    assert_eq!((word(0), word(4), word(8)), (0, 0, 0));
    let (length, mut at) = (word(12) as usize, 24);
    let (mut addresses, mut pages) = (vec![], vec![]);
    while at < 16 + length {
        let data = word(at + 4);
        assert_eq!((reply[at + 1], short(at + 2), data % 12), (0, 12, 0));
        pages.push((reply[at], data));
        addresses.extend((0..data as usize / 12).map(|i| short(at + 8 + 12 * i)));
        at += 8 + data as usize;
    }
    assert_eq!((at, reply[at..].to_vec()), (16 + length, vec![0; 4]));
    let first = addresses.first().copied().unwrap_or(0);
    assert_eq!((short(16), short(18) as usize, word(20)), (first, addresses.len(), length as u32 - 8));
    (addresses, pages)
}

#[test]
fn starts() {
    let slots = |from: u16| (from..24).collect::<Vec<u16>>();
    for (start, kind, expected) in [
        (0, 0, [vec![0, 1], slots(16)].concat()),
        (1, 0, [vec![1], slots(16)].concat()),
        (2, 0, slots(16)),
        (15, 0, slots(16)),
        (16, 0, slots(16)),
        (20, 0, slots(20)),
        (23, 0, vec![23]),
        (24, 0, vec![]),
        (65_535, 0, vec![]),
        (0, 1, vec![0]),
        (1, 1, vec![]),
        (16, 1, vec![]),
        (0, 4, vec![1]),
        (1, 4, vec![1]),
        (2, 4, vec![]),
        (256, 4, vec![]),
        (0, 2, slots(16)),
        (15, 2, slots(16)),
        (16, 2, slots(16)),
        (20, 2, slots(20)),
        (23, 2, vec![23]),
        (24, 2, vec![]),
        (256 + 16, 2, vec![]),
        (0, 3, vec![]),
        (16, 3, vec![]),
    ] {
        assert_eq!(reported(kind, start, 10).0, expected, "type {kind} from {start}");
        assert_eq!(reported(kind, start, 65_535).0, expected, "type {kind} from {start}");
    }
}

#[test]
fn numbers() {
    // Bytes of descriptors: of the transport, the drive, the slots. A type with nothing to report has no page.
    for (number, pages) in [
        (0, vec![]),
        (1, vec![(1, 12)]),
        (2, vec![(1, 12), (4, 12)]),
        (3, vec![(1, 12), (4, 12), (2, 12)]),
        (4, vec![(1, 12), (4, 12), (2, 24)]),
        (5, vec![(1, 12), (4, 12), (2, 36)]),
        (6, vec![(1, 12), (4, 12), (2, 48)]),
        (7, vec![(1, 12), (4, 12), (2, 60)]),
        (8, vec![(1, 12), (4, 12), (2, 72)]),
        (9, vec![(1, 12), (4, 12), (2, 84)]),
        (10, vec![(1, 12), (4, 12), (2, 96)]),
        (11, vec![(1, 12), (4, 12), (2, 96)]),
        (256, vec![(1, 12), (4, 12), (2, 96)]),
        (65_535, vec![(1, 12), (4, 12), (2, 96)]),
    ] {
        assert_eq!(reported(0, 0, number).1, pages, "{number} of all");
    }
    assert_eq!(reported(0, 1, 2), (vec![1, 16], vec![(4, 12), (2, 12)]));
    assert_eq!(reported(0, 22, 9), (vec![22, 23], vec![(2, 24)]));
    assert_eq!(reported(2, 18, 3), (vec![18, 19, 20], vec![(2, 36)]));
    assert_eq!((reported(2, 16, 0), reported(4, 1, 0), reported(1, 0, 0)), Default::default());
}

#[test]
fn cut_at_every_byte() {
    let whole = unhex(WHOLE);
    for n in 0..=160u32 {
        let cut = good(&whole[..152.min(n as usize)]);
        assert_eq!(execute(&mut desk(SOME), &status(0, 0, 10, n), u32::MAX), cut, "allocation {n}");
        assert_eq!(execute(&mut desk(SOME), &status(0, 0, 10, 0xff_ffff), n), cut, "data in {n}");
        assert_eq!(execute(&mut desk(SOME), &status(0, 0, 10, n), n + 1), cut);
        assert_eq!(execute(&mut desk(SOME), &status(0, 0, 10, n + 1), n), cut);
    }
    // 24 bits of an allocation.
    for allocation in [0x100, 0x1_0000, 0x80_0000] {
        assert_eq!(execute(&mut desk(SOME), &status(0, 0, 10, allocation), 200), good(&whole));
    }
}

#[test]
fn a_status_keeps_slots_and_sense() {
    let mut d = desk(SOME);
    d.s.changer.sense = [1, 2, 3];
    let before = d.s.changer.clone();
    execute(&mut d, &status(0, 0, 10, 500), 500);
    assert_eq!(d.s.changer, before);
    // The drive can be reached while the tape is open too.
    d.s.tape.open = true;
    assert_eq!(execute(&mut d, &status(0, 0, 10, 500), 500), good(&unhex(WHOLE)));
}

#[test]
fn moves() {
    for (from, to, next) in [
        (1, 16, [0, 9, 3, 0, 0, 0, 0, 0, 7]),
        (1, 22, [0, 0, 3, 0, 0, 0, 0, 9, 7]),
        (17, 16, [9, 3, 0, 0, 0, 0, 0, 0, 7]),
        (17, 18, [9, 0, 0, 3, 0, 0, 0, 0, 7]),
        (23, 19, [9, 0, 3, 0, 7, 0, 0, 0, 0]),
        (23, 20, [9, 0, 3, 0, 0, 7, 0, 0, 0]),
        (23, 21, [9, 0, 3, 0, 0, 0, 7, 0, 0]),
    ] {
        let mut d = desk(SOME);
        d.s.changer.sense = [1, 2, 3];
        // No data in, whatever is asked for; what is pending stays.
        assert_eq!(execute(&mut d, &moving(0, from, to), 100), good(&[]), "{from} to {to}");
        assert_eq!((d.s.changer.slots, d.s.changer.sense), (next, [1, 2, 3]));
        // Back again.
        assert_eq!(execute(&mut d, &moving(0, to, from), 0), good(&[]));
        assert_eq!(d.s.changer.slots, SOME);
    }
    let mut d = desk([0, 0, 0, 0, 0, 0, 0, 0, u32::MAX]);
    assert_eq!(execute(&mut d, &moving(0, 23, 1), 0), good(&[]));
    assert_eq!(d.s.changer.slots, [u32::MAX, 0, 0, 0, 0, 0, 0, 0, 0]);
}

/// The tape may be open; the sense is pending afterwards, given once, and the slots stay.
fn refused(slots: Slots, tape: bool, cdb: &[u8], sense: &str) {
    let mut d = desk(slots);
    (d.s.tape.open, d.s.changer.sense) = (tape, [1, 2, 3]);
    assert_eq!(execute(&mut d, cdb, 100), checked(sense), "{cdb:x?}");
    assert_eq!(d.s.changer.slots, slots);
    assert_eq!(request_sense(&mut d), checked(sense)[20..38]);
    assert_eq!(request_sense(&mut d), [0x70, 0, 0, 0, 0, 0, 0, 0x0a, 0, 0, 0, 0, 0, 0, 0, 0, 0, 0]);
}

#[test]
fn senses_of_a_move() {
    let (unknown, full, empty, held) = ("05 21 01", "05 3b 0d", "05 3b 0e", "05 53 02");
    for address in [0, 2, 15, 24, 255, 256, 257, 272, 65_535] {
        refused(SOME, false, &moving(0, address, 16), unknown);
        refused(SOME, false, &moving(0, 1, address), unknown);
        refused(SOME, true, &moving(0, address, address), unknown);
        // Before a full destination and an empty source.
        refused(SOME, true, &moving(0, address, 17), unknown);
        refused(SOME, true, &moving(0, 16, address), unknown);
    }
    for transport in [1, 16, 255, 256, 65_535] {
        refused(SOME, true, &moving(transport, 1, 16), unknown);
        refused(SOME, true, &moving(transport, 16, 17), unknown);
    }
    refused(SOME, false, &moving(0, 23, 17), full);
    refused(SOME, false, &moving(0, 17, 1), full);
    refused(SOME, false, &moving(0, 1, 23), full);
    refused(SOME, false, &moving(0, 16, 18), empty);
    refused([0, 1, 0, 0, 0, 0, 0, 0, 0], false, &moving(0, 1, 18), empty);
    // Full before empty, both before held.
    refused(SOME, false, &moving(0, 16, 17), full);
    refused(SOME, true, &moving(0, 16, 1), full);
    refused(SOME, true, &moving(0, 1, 17), full);
    refused(SOME, true, &moving(0, 16, 22), empty);
    refused(SOME, true, &moving(0, 1, 16), held);
    refused(SOME, true, &moving(0, 1, 22), held);
    // To its own place: never a success.
    refused(SOME, false, &moving(0, 1, 1), full);
    refused(SOME, true, &moving(0, 1, 1), full);
    refused(SOME, false, &moving(0, 17, 17), full);
    refused(SOME, false, &moving(0, 16, 16), empty);
    refused([0; 9], false, &moving(0, 1, 1), empty);
    // From slot to slot the open tape is not asked.
    let mut d = desk(SOME);
    d.s.tape.open = true;
    assert_eq!(execute(&mut d, &moving(0, 17, 18), 0), good(&[]));
    assert_eq!(d.s.changer.slots, [9, 0, 0, 3, 0, 0, 0, 0, 7]);
}

#[test]
fn lengths_of_a_cdb() {
    let whole = unhex(WHOLE);
    for n in 1..12 {
        refused(SOME, false, &moving(0, 1, 16)[..n], "05 24 00");
        refused(SOME, false, &status(0, 0, 10, 500)[..n], "05 24 00");
        // First of all.
        refused(SOME, true, &moving(9, 9, 9)[..n], "05 24 00");
    }
    for n in 12..=16 {
        let mut long = moving(0, 1, 16).to_vec();
        long.resize(n, 0xff);
        let mut d = desk(SOME);
        assert_eq!(execute(&mut d, &long, 0), good(&[]));
        assert_eq!(d.s.changer.slots, [0, 9, 3, 0, 0, 0, 0, 0, 7]);
        let mut long = status(0, 0, 10, 500).to_vec();
        long.resize(n, 0xff);
        assert_eq!(execute(&mut desk(SOME), &long, 500), good(&whole));
    }
    for opcode in [0xa5, 0xb8] {
        for cdb in [vec![opcode; 17], vec![opcode; 40]] {
            let mut d = desk(SOME);
            d.s.changer.sense = [1, 2, 3];
            assert_eq!(execute(&mut d, &cdb, 500), bytes(&[9, 0, 0, 0, 0]));
            assert_eq!((d.s.changer.slots, d.s.changer.sense), (SOME, [1, 2, 3]));
        }
    }
}

#[test]
fn flags_and_reserved_bits_are_ignored() {
    // MOVE MEDIUM: bytes 1, 8, 9, 10 (invert), 11 (control).
    for i in [1, 8, 9, 10, 11] {
        let mut cdb = moving(0, 1, 16);
        cdb[i] = 0xff;
        let mut d = desk(SOME);
        assert_eq!(execute(&mut d, &cdb, 0), good(&[]), "byte {i}");
        assert_eq!(d.s.changer.slots, [0, 9, 3, 0, 0, 0, 0, 0, 7]);
    }
    // READ ELEMENT STATUS: the high half of byte 1 (VolTag, LUN), bytes 6 (CURDATA, DVCID), 10, 11 (control).
    for (i, bits) in [(1, 0xf0), (6, 0xff), (10, 0xff), (11, 0xff)] {
        let mut cdb = status(0, 0, 10, 500);
        cdb[i] |= bits;
        assert_eq!(execute(&mut desk(SOME), &cdb, 500), good(&unhex(WHOLE)), "byte {i}");
    }
    // Flags, timeout and data out of the request.
    let mut w = Writer::words(&[0xffff_ffff, 0xffff_ffff, 500]);
    w.opaque(&status(0, 0, 10, 500));
    w.opaque(b"data out");
    assert_eq!(desk(SOME).send(0x206, &w.0)[28..], good(&unhex(WHOLE)));
}

#[test]
fn only_what_moves_changes_the_slots() {
    let mut d = desk(SOME);
    d.s.changer.open = false;
    let name = bytes(&[8, 0x6368_616e, 0x6765_7230]);
    d.s.changer.sense = [1, 2, 3];
    assert_eq!(d.send(0x200, &name)[28..], [0; 4]);
    assert_eq!((d.s.changer.slots, d.s.changer.sense), (SOME, [0; 3]));
    d.s.changer.sense = [1, 2, 3];
    assert_eq!((d.number(0x204, &[]), d.s.changer.slots, d.s.changer.sense), (0, SOME, [0; 3]));
    assert_eq!(execute(&mut d, &[0x12; 6], 0), checked("05 20 00"));
    assert_eq!((d.number(0x201, &[]), d.s.changer.slots, d.s.changer.sense), (0, SOME, [0; 3]));
    // Not open, and not logged in.
    assert_eq!(execute(&mut d, &moving(0, 1, 16), 0), bytes(&[6, 0, 0, 0, 0]));
    d.s.authorized = false;
    assert_eq!(execute(&mut d, &moving(0, 1, 16), 0), bytes(&[4, 0, 0, 0, 0]));
    // The session's end.
    assert_eq!(d.send(0x902, &[]), []);
    assert_eq!((d.s.closed, d.s.changer.slots), (true, SOME));
}

/// `tape0`, and the mode.
fn tape_open(d: &mut Desk, name: [u32; 2], mode: u32) -> u32 {
    d.number(0x300, &[5, name[0], name[1], mode])
}

const TAPE0: [u32; 2] = [0x7461_7065, 0x3000_0000];
const TAPE1: [u32; 2] = [0x7461_7065, 0x3100_0000];

#[test]
fn no_tape_is_loaded() {
    let mut d = desk([0, 9, 3, 0, 0, 0, 0, 0, 7]);
    assert_eq!((tape_open(&mut d, TAPE0, 2), tape_open(&mut d, TAPE1, 0)), (9, 16));
    assert_eq!((tape_open(&mut d, TAPE0, 0), tape_open(&mut d, TAPE0, 1)), (10, 10));
    // Before the image is looked at.
    d.image[3] = 2;
    assert_eq!((tape_open(&mut d, TAPE0, 1), d.s.tape.open), (10, false));
    assert_eq!(execute(&mut d, &moving(0, 16, 1), 0), good(&[]));
    assert_eq!(tape_open(&mut d, TAPE0, 1), 15);
    d.image[3] = 1;
    assert_eq!((tape_open(&mut d, TAPE0, 1), tape_open(&mut d, TAPE0, 1)), (0, 3));
    assert_eq!(execute(&mut d, &moving(0, 1, 16), 0), checked("05 53 02"));
    assert_eq!((d.number(0x301, &[]), execute(&mut d, &moving(0, 1, 16), 0)), (0, good(&[])));
    assert_eq!(tape_open(&mut d, TAPE0, 0), 10);
}

#[test]
fn off_line() {
    for (writable, count) in [(true, 0), (true, 1), (false, 7), (false, u32::MAX)] {
        let mut d = Desk::new();
        d.image = bytes(&[1, 3, 2, 0, 0, 0, 0, 0, 0, 0]);
        (d.s.tape.writable, d.s.tape.position) = (writable, 2);
        assert_eq!(d.ask(0x303, &[6, count]), (0, vec![0, 0]));
        assert_eq!(d.s.tape, State::at_rest(EMPTY).tape);
        // The cartridge stays in the drive, and the image as it is.
        assert_eq!(d.s.changer.slots, [1, 0, 0, 0, 0, 0, 0, 0, 0]);
        assert_eq!(d.image, bytes(&[1, 3, 2, 0, 0, 0, 0, 0, 0, 0]));
        assert_eq!(d.ask(0x303, &[6, count]), (0, vec![6, 0]));
        assert_eq!((tape_open(&mut d, TAPE0, 1), d.s.tape.position), (0, 0));
    }
    let mut d = Desk::new();
    assert_eq!(d.ask(0x303, &[7, 0]), (0, vec![9, 0]));
    // Above n, and unsound: 7, and the tape stays open.
    d.s.tape.position = 1;
    assert_eq!((d.ask(0x303, &[6, 0]), d.s.tape.open, d.s.tape.position), ((0, vec![7, 0]), true, 1));
    d.s.tape.position = 0;
    d.image[3] = 2;
    assert_eq!((d.ask(0x303, &[6, 0]), d.s.tape.open), ((0, vec![7, 0]), true));
    assert_eq!((d.number(0x301, &[]), d.s.tape.open), (0, false));
}

#[test]
fn off_line_and_the_mover() {
    for state in [mover::LISTEN, mover::ACTIVE] {
        let mut d = Desk::new();
        (d.s.mover.state, d.s.mover.address, d.s.mover.mode) = (state, 1, 0);
        assert_eq!((d.ask(0x303, &[6, 0]), d.s.tape.open), ((0, vec![19, 0]), true));
    }
    for state in [mover::IDLE, mover::HALTED] {
        let mut d = Desk::new();
        d.s.mover.state = state;
        let before = d.s.mover.clone();
        assert_eq!((d.ask(0x303, &[6, 0]), d.s.tape.open, &d.s.mover), ((0, vec![0, 0]), false, &before));
    }
    // PAUSED: it stays so; continue is 6 until a tape is open, which may be another.
    let mut d = desk([9, 0, 3, 0, 0, 0, 0, 0, 7]);
    assert_eq!(tape_open(&mut d, TAPE0, 1), 0);
    (d.s.mover.state, d.s.mover.address, d.s.mover.mode) = (mover::PAUSED, 1, 0);
    assert_eq!((d.ask(0x303, &[6, 0]), d.number(0xa02, &[])), ((0, vec![0, 0]), 6));
    assert_eq!(execute(&mut d, &moving(0, 1, 16), 0), good(&[]));
    assert_eq!((tape_open(&mut d, TAPE0, 1), d.number(0xa02, &[])), (10, 6));
    assert_eq!(execute(&mut d, &moving(0, 23, 1), 0), good(&[]));
    assert_eq!((tape_open(&mut d, TAPE0, 1), d.number(0xa02, &[])), (0, 0));
    assert_eq!((d.s.mover.state, d.s.changer.slots), (mover::ACTIVE, [7, 9, 3, 0, 0, 0, 0, 0, 0]));
}

#[test]
fn opening_with_a_list() {
    let notice = bytes(&[1 << 31 | 36, 1, 6, 0, 0x502, 0, 0, 0, 4, 0]);
    for slots in [SOME, EMPTY, [1, 2, 3, 4, 5, 6, 7, 8, 9], [0, 0, 0, 0, 0, 0, 0, 0, u32::MAX]] {
        let (s, given) = calls::open(&slots, 6, ROOM);
        assert_eq!((given.code, given.sent, s.closed, s.changer.slots), (0, notice.clone(), false, slots));
    }
    for (i, j) in (0..9).flat_map(|i| (0..i).map(move |j| (i, j))) {
        let mut slots = [11, 12, 13, 14, 15, 16, 17, 18, 19];
        slots[i] = slots[j];
        let (s, given) = calls::open(&slots, 6, ROOM);
        assert_eq!((given.code, given.sent, s.closed, s.changer.slots), (1002, vec![], true, EMPTY), "{i} as {j}");
        // A short output first.
        let (s, given) = calls::open(&slots, 6, ROOM - 1);
        assert_eq!((given.code, given.sent, s.closed, s.changer.slots), (1001, vec![], true, EMPTY));
    }
    let (s, given) = calls::open(&SOME, 6, ROOM - 1);
    assert_eq!((given.code, given.sent, s.closed, s.changer.slots), (1001, vec![], true, EMPTY));
}

#[test]
fn relation_of_slots() {
    let told = |slots: Slots, tape: bool| {
        let mut s = Desk::new().s;
        (s.tape.open, s.changer.slots) = (tape, slots);
        broken(&s)
    };
    assert_eq!((told(SOME, true), told(SOME, false), told(EMPTY, false)), (None, None, None));
    // Whether the changer is open does not count.
    assert_eq!(told([0, 9, 3, 0, 0, 0, 0, 0, 7], true), Some(12));
    assert_eq!(told([0, 9, 3, 0, 0, 0, 0, 0, 7], false), None);
    assert_eq!(told(EMPTY, true), Some(12));
    for (i, j) in (0..9).flat_map(|i| (0..i).map(move |j| (i, j))) {
        let mut slots = [11, 12, 13, 14, 15, 16, 17, 18, 19];
        slots[i] = slots[j];
        assert_eq!((told(slots, true), told(slots, false)), (Some(11), Some(11)), "{i} as {j}");
    }
    // Every call that has a session.
    let mut d = Desk::new();
    d.s.changer.slots = [4, 4, 0, 0, 0, 0, 0, 0, 0];
    let before = d.s.clone();
    for given in [
        calls::move_to_tape(&mut d.s, &mut d.image, b"abcd", true, 6, ROOM),
        calls::move_from_tape(&mut d.s, &mut d.image, &mut [0; 4], 6, ROOM),
        calls::end_method(&mut d.s, true, 6, ROOM),
        calls::made(&mut d.s, true, 6, ROOM),
        calls::lost(&mut d.s, false, 6, ROOM),
    ] {
        assert_eq!((given.code, given.sent), (1002, vec![]));
    }
    assert_eq!(d.s, before);
}
