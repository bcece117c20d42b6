//! Cases of 02 No. 5, worked out by hand from the request and from 001.

use super::State;
use super::by_hand::{Desk, bytes};
use super::calls::{self, ROOM};
use super::relation::broken;
use super::rmt::{Command, read};
use super::state::{EMPTY, Tape, mover};

const E5: &str = "E5\nI/O error\n";
const E6: &str = "E6\nNo such device or address\n";
const E22: &str = "E22\nInvalid argument\n";

/// The tape is open for writing, with record `abcd`, a mark, and record `efg`; two entries and five bytes more have room.
fn desk() -> Desk {
    let mut d = Desk::new();
    d.image = [bytes(&[1, 5, 3, 7, 4, 0, 0, 4, 3, 4, 8, 8, 9, 9]), b"abcdefghijkl".to_vec()].concat();
    d
}

/// The same, closed.
fn shut() -> Desk {
    let mut d = desk();
    d.s.tape = State::at_rest(EMPTY).tape;
    d
}

/// The reply. Nothing of the session but its tape changes.
fn tell(d: &mut Desk, command: impl AsRef<[u8]>) -> String {
    let mut expected = d.s.clone();
    let given = calls::rmt(&mut d.s, &mut d.image, command.as_ref(), ROOM);
    assert_eq!((given.code, given.count, broken(&d.s)), (0, 0, None));
    expected.tape = d.s.tape.clone();
    assert_eq!(d.s, expected);
    String::from_utf8(given.sent).unwrap()
}

/// The reply, and where the tape stands afterwards; the image stays.
fn at(position: u64, command: &str) -> (String, u64) {
    let mut d = desk();
    d.s.tape.position = position;
    let before = d.image.clone();
    let reply = tell(&mut d, command);
    assert_eq!(d.image, before);
    (reply, d.s.tape.position)
}

fn told(reply: &str, position: u64) -> (String, u64) {
    (reply.into(), position)
}

/// Refused: nothing changes.
fn refused(d: &mut Desk, command: impl AsRef<[u8]>, reply: &str) {
    let (s, image) = (d.s.clone(), d.image.clone());
    assert_eq!(tell(d, &command), reply, "{:?}", String::from_utf8_lossy(command.as_ref()));
    assert_eq!((&d.s, &d.image), (&s, &image));
}

#[test]
fn numbers() {
    let count = |digits: &str| match read(format!("R{digits}\n").as_bytes()) {
        Some(Command::Read { count }) => Some(count),
        None => None,
        other => panic!("{other:?}"),
    };
    for (digits, value) in [
        ("0", 0),
        ("9", 9),
        ("10", 10),
        ("00", 0),
        ("0000000000", 0),
        ("0000000007", 7),
        ("0123456789", 123_456_789),
        ("1234567890", 1_234_567_890),
        ("4294967295", u32::MAX),
    ] {
        assert_eq!(count(digits), Some(value), "{digits}");
    }
    for digits in [
        "",
        "4294967296",
        "4294967300",
        "5000000000",
        "9999999999",
        "00000000000",
        "00000000001",
        "12345678901",
        "18446744073709551617",
        "+1",
        "-1",
        " 1",
        "1 ",
        "1\r",
        "1\0",
        "/",
        ":",
        "a",
        "0x1",
        "1,000",
        "\u{661}",
    ] {
        assert_eq!(count(digits), None, "{digits}");
    }
}

#[test]
fn commands_that_read() {
    for (command, means) in [
        (&b"Otape0\n0\n"[..], Command::Open { path: b"tape0", mode: 0 }),
        (b"O\n2\n", Command::Open { path: b"", mode: 2 }),
        (b"Oa\0\xff b\n4294967295\n", Command::Open { path: b"a\0\xff b", mode: u32::MAX }),
        (b"OO1\n03\n", Command::Open { path: b"O1", mode: 3 }),
        (b"C\n", Command::Close),
        (b"Ctape0\n", Command::Close),
        (b"C\0\xff1 C\n", Command::Close),
        (b"R0\n", Command::Read { count: 0 }),
        (b"R0000000512\n", Command::Read { count: 512 }),
        (b"W0\n", Command::Write { data: b"" }),
        (b"W0000000000\n", Command::Write { data: b"" }),
        (b"W1\n\n", Command::Write { data: b"\n" }),
        (b"W3\nab\n", Command::Write { data: b"ab\n" }),
        (b"W5\nR5\n\n\n", Command::Write { data: b"R5\n\n\n" }),
        (b"I0\n0\n", Command::Operate { operation: 0, count: 0 }),
        (b"I0000000005\n4294967295\n", Command::Operate { operation: 5, count: u32::MAX }),
    ] {
        assert_eq!(read(command), Some(means));
        // One whole command: none of it is missing, and nothing is behind it.
        for n in 0..command.len() {
            assert_eq!(read(&command[..n]), None, "{n} bytes of {command:?}");
        }
        for more in [&b"\n"[..], b"\0", b"0", b" ", b"C\n"] {
            assert_eq!(read(&[command, more].concat()), None);
        }
    }
}

#[test]
fn commands_that_do_not() {
    let all: [&[u8]; 41] = [
        b"",
        b"\n",
        b"O",
        b"C",
        b"R",
        b"W",
        b"I",
        b"O\n",
        b"R\n",
        b"W\n",
        b"I\n",
        b"I\n\n",
        b"I1\n",
        b"I\n1\n",
        b"I1\n\n",
        b"Otape0\n",
        b"Otape0\n\n",
        b"Otape0\nr\n",
        b"Otape0\n-1\n",
        b"Otape0\n0",
        b"Otape0\n0\n0\n",
        b"Otape0 0\n",
        b"Ctape0\n0\n",
        b"Ctape0\n\n",
        b"R5",
        b"R5\r\n",
        b"R 5\n",
        b"R5\n5\n",
        b"W3\nab",
        b"W3\nabcd",
        b"W3abc",
        b"W\nabc",
        b"W4294967295\nabc",
        b"I6\n0\n",
        b"I7\n1\n",
        b"I0000000006\n1\n",
        b"I4294967295\n1\n",
        b"L0\n0\n",
        b"S\n",
        b"r5\n",
        b"X\n",
    ];
    for command in all {
        assert_eq!(read(command), None);
        // In 18's place: whoever asks, and whatever the tape is.
        let mut d = desk();
        refused(&mut d, command, E22);
        d.s.authorized = false;
        refused(&mut d, command, E22);
        d = shut();
        refused(&mut d, command, E22);
        d.image.clear();
        refused(&mut d, command, E22);
        d = desk();
        (d.s.mover.state, d.s.mover.address, d.s.mover.mode) = (mover::LISTEN, 1, 0);
        refused(&mut d, command, E22);
    }
    for letter in (0..=255u8).filter(|b| !b"OCRWI".contains(b)) {
        for rest in [&b"\n"[..], b"0\n", b"0\n0\n", b"tape0\n0\n"] {
            assert_eq!(read(&[&[letter][..], rest].concat()), None);
        }
    }
}

#[test]
fn opening() {
    for (mode, writable) in [("0", false), ("1", true), ("2", true), ("0000000002", true), ("00", false)] {
        let mut d = shut();
        let before = d.image.clone();
        assert_eq!(tell(&mut d, format!("Otape0\n{mode}\n")), "A0\n");
        assert_eq!((&d.s.tape, &d.image), (&Tape { open: true, writable, position: 0 }, &before));
        // 3.
        refused(&mut d, format!("Otape0\n{mode}\n"), E5);
        // 9 and 16 come before it.
        refused(&mut d, "Otape0\n3\n", E22);
        refused(&mut d, "Otape1\n0\n", E6);
    }
    let mut d = shut();
    for mode in ["3", "4", "10", "11", "100", "4294967295"] {
        refused(&mut d, format!("Otape0\n{mode}\n"), E22);
        refused(&mut d, format!("Otape1\n{mode}\n"), E22);
    }
    for path in ["", "tape", "tape00", "tape1", "Tape0", "/dev/tape0", "tape0\0", " tape0", "tape0\r", "changer0"] {
        refused(&mut d, format!("O{path}\n1\n"), E6);
    }
    // 15.
    d.image[3] = 2;
    refused(&mut d, "Otape0\n1\n", E5);
    refused(&mut d, "Otape1\n1\n", E6);
    refused(&mut d, "Otape0\n3\n", E22);
    // 10.
    let mut d = shut();
    d.s.changer.slots = [0, 1, 2, 0, 0, 0, 0, 0, 0];
    for sound in [1, 2] {
        d.image[3] = sound;
        refused(&mut d, "Otape0\n0\n", E5);
        refused(&mut d, "Otape1\n0\n", E6);
        refused(&mut d, "Otape0\n3\n", E22);
    }
    // With an image of no bytes too.
    let mut d = shut();
    d.image.clear();
    refused(&mut d, "Otape0\n0\n", E5);
}

#[test]
fn closing() {
    for path in ["", "tape0", "tape1", "\0", "any thing at all"] {
        let mut d = desk();
        d.s.tape.position = 2;
        let before = d.image.clone();
        assert_eq!(tell(&mut d, format!("C{path}\n")), "A0\n");
        assert_eq!((&d.s.tape, &d.image), (&State::at_rest(EMPTY).tape, &before));
        refused(&mut d, format!("C{path}\n"), E6);
        assert_eq!(tell(&mut d, "Otape0\n1\n"), "A0\n");
    }
    // An image that is not sound, and a position above n.
    let mut d = desk();
    (d.image[3], d.s.tape.position) = (2, 9);
    assert_eq!((tell(&mut d, "C\n"), d.s.tape.open), ("A0\n".into(), false));
    // As by NDMP: MTIO 6 closes it.
    let mut d = desk();
    assert_eq!(d.number(0x303, &[6, 0]), 0);
    for command in ["Ctape0\n", "R1\n", "W1\nx", "I0\n1\n", "I5\n0\n"] {
        refused(&mut d, command, E6);
    }
}

#[test]
fn reading() {
    assert_eq!(at(0, "R4\n"), told("A4\nabcd", 1));
    assert_eq!(at(0, "R5\n"), told("A4\nabcd", 1));
    assert_eq!(at(0, "R32768\n"), told("A4\nabcd", 1));
    // The rest is lost.
    assert_eq!(at(0, "R2\n"), told("A2\nab", 1));
    assert_eq!(at(2, "R0000000003\n"), told("A3\nefg", 3));
    // Nothing is asked for: nothing is passed, wherever it stands.
    assert_eq!((at(0, "R0\n"), at(1, "R0\n"), at(3, "R0\n")), (told("A0\n", 0), told("A0\n", 1), told("A0\n", 3)));
    // A mark is passed; the end is not.
    assert_eq!((at(1, "R4\n"), at(3, "R4\n")), (told(E5, 2), told(E5, 3)));
    let mut d = desk();
    for command in ["R32769\n", "R65536\n", "R4294967295\n"] {
        refused(&mut d, command, E22);
    }
    // Above n.
    assert_eq!((at(4, "R4\n"), at(4, "R0\n")), (told(E5, 4), told(E5, 4)));
    // Not sound; 9 comes before it.
    d.image[3] = 2;
    refused(&mut d, "R4\n", E5);
    refused(&mut d, "R0\n", E5);
    refused(&mut d, "R32769\n", E22);
    // A closed tape comes before that.
    let mut d = shut();
    refused(&mut d, "R32769\n", E6);
    refused(&mut d, "R1\n", E6);
}

#[test]
fn data_may_be_any_bytes() {
    let mut d = desk();
    d.image[16 + 40..][..4].copy_from_slice(&[0, 10, 255, 128]);
    let given = calls::rmt(&mut d.s, &mut d.image, b"R4\n", ROOM);
    assert_eq!(given.sent, b"A4\n\0\n\xff\x80");
    d.s.tape.position = 0;
    assert_eq!(tell(&mut d, b"W6\n\0\n\xff\x80A\n"), "A6\n");
    assert_eq!(d.image[16 + 40..][..7], *b"\0\n\xff\x80A\ng");
}

#[test]
fn writing() {
    let mut d = desk();
    d.s.tape.position = 1;
    assert_eq!(tell(&mut d, "W2\nxy"), "A2\n");
    // Cut at the position; old entries and bytes past the end stay.
    let expected = [bytes(&[1, 5, 2, 6, 4, 0, 2, 4, 3, 4, 8, 8, 9, 9]), b"abcdxyghijkl".to_vec()].concat();
    assert_eq!((d.image.clone(), d.s.tape.position), (expected, 2));
    assert_eq!((tell(&mut d, "W0000000006\nuvwxyz"), d.s.tape.position), ("A6\n".into(), 3));
    // No byte is left, but two entries are.
    refused(&mut d, "W1\nx", E5);
    refused(&mut d, "W0\n", "A0\n");
    assert_eq!((tell(&mut d, "I0\n2\n"), d.s.tape.position), ("A0\n".into(), 5));
    refused(&mut d, "W0\n", "A0\n");
    refused(&mut d, "I0\n1\n", E5);
    // Nothing is cut where it does not fit.
    d.s.tape.position = 1;
    refused(&mut d, format!("W9\n{}", "x".repeat(9)), E5);
    // 9; 5 comes before it, and so does 6.
    let long = format!("W32769\n{}", "x".repeat(32_769));
    refused(&mut d, &long, E22);
    d.image[3] = 2;
    refused(&mut d, &long, E22);
    refused(&mut d, "W1\nx", E5);
    refused(&mut d, "W0\n", E5);
    d.image[3] = 1;
    d.s.tape.writable = false;
    refused(&mut d, &long, E5);
    refused(&mut d, "W1\nx", E5);
    refused(&mut d, "W0\n", E5);
    let mut d = shut();
    refused(&mut d, &long, E6);
    refused(&mut d, "W0\n", E6);
}

#[test]
fn the_longest_record() {
    let mut d = Desk::new();
    d.image = bytes(&[1, 1, 0, 0, 0, 0]);
    d.image.resize(24 + 40_000, 0);
    let data = "z".repeat(32_768);
    assert_eq!(tell(&mut d, format!("W32768\n{data}")), "A32768\n");
    assert_eq!((tell(&mut d, "I5\n7\n"), d.s.tape.position), ("A0\n".into(), 0));
    // The longest reply: 32,775 bytes.
    let reply = tell(&mut d, "R32768\n");
    assert_eq!((reply.len(), reply), (32_775, format!("A32768\n{data}")));
}

#[test]
fn operations() {
    // 1 and 2 pass marks, to the other side of the last of them.
    assert_eq!((at(0, "I1\n1\n"), at(3, "I2\n1\n")), (told("A0\n", 2), told("A0\n", 1)));
    assert_eq!((at(2, "I2\n1\n"), at(1, "I1\n1\n")), (told("A0\n", 1), told("A0\n", 2)));
    // To an end: refused, and moved.
    assert_eq!((at(0, "I1\n2\n"), at(2, "I1\n1\n")), (told(E5, 3), told(E5, 3)));
    assert_eq!((at(3, "I2\n2\n"), at(1, "I2\n1\n")), (told(E5, 0), told(E5, 0)));
    assert_eq!((at(0, "I2\n1\n"), at(3, "I1\n1\n")), (told(E5, 0), told(E5, 3)));
    // 3 and 4 pass records; a mark on the way is passed, and refused. Case j: FSR 3 from 0.
    assert_eq!((at(0, "I3\n1\n"), at(0, "I3\n3\n")), (told("A0\n", 1), told(E5, 2)));
    assert_eq!((at(2, "I3\n1\n"), at(2, "I3\n2\n")), (told("A0\n", 3), told(E5, 3)));
    assert_eq!((at(3, "I4\n1\n"), at(3, "I4\n2\n")), (told("A0\n", 2), told(E5, 1)));
    assert_eq!((at(1, "I4\n1\n"), at(1, "I4\n2\n")), (told("A0\n", 0), told(E5, 0)));
    // 5 ignores its count.
    for count in ["0", "1", "0000000009", "4294967295"] {
        assert_eq!(at(3, &format!("I5\n{count}\n")), told("A0\n", 0));
    }
    // Of none: nothing, at an end too.
    for operation in 0..5 {
        assert_eq!(at(0, &format!("I{operation}\n0\n")), told("A0\n", 0));
        assert_eq!(at(3, &format!("I{operation}\n0\n")), told("A0\n", 3));
        // Above n.
        assert_eq!(at(4, &format!("I{operation}\n0\n")), told(E5, 4));
    }
    assert_eq!(at(4, "I5\n0\n"), told(E5, 4));
    // All of them.
    assert_eq!((at(0, "I1\n4294967295\n"), at(3, "I4\n4294967295\n")), (told(E5, 3), told(E5, 1)));
    let mut d = desk();
    d.image[3] = 2;
    for operation in 0..6 {
        refused(&mut d, format!("I{operation}\n0\n"), E5);
        refused(&mut shut(), format!("I{operation}\n0\n"), E6);
    }
}

#[test]
fn marks() {
    let mut d = desk();
    d.s.tape.position = 1;
    // All of them fit or none is written.
    refused(&mut d, "I0\n5\n", E5);
    refused(&mut d, "I0\n4294967295\n", E5);
    refused(&mut d, "I0\n0\n", "A0\n");
    assert_eq!((tell(&mut d, "I0\n4\n"), d.s.tape.position), ("A0\n".into(), 5));
    let expected = [bytes(&[1, 5, 5, 4, 4, 0, 0, 4, 0, 4, 0, 4, 0, 4]), b"abcdefghijkl".to_vec()].concat();
    assert_eq!(d.image, expected);
    // 5, before anything of the tape is looked at; no other operation is.
    let mut d = desk();
    d.s.tape.writable = false;
    refused(&mut d, "I0\n0\n", E5);
    refused(&mut d, "I0\n1\n", E5);
    assert_eq!((tell(&mut d, "I1\n1\n"), tell(&mut d, "I5\n1\n")), ("A0\n".into(), "A0\n".into()));
}

#[test]
fn before_auth() {
    let long = format!("W32769\n{}", "x".repeat(32_769));
    let all = [
        "Otape0\n1\n",
        "Otape0\n3\n",
        "Otape1\n3\n",
        "Ctape0\n",
        "R1\n",
        "R32769\n",
        "W1\nx",
        &long,
        "I0\n1\n",
        "I5\n0\n",
    ];
    for mut d in [desk(), shut()] {
        d.s.authorized = false;
        for command in all {
            refused(&mut d, command, E5);
        }
        for command in ["I6\n0\n", "L0\n0\n", "S\n", "W2\nx", "Otape0\n\n", ""] {
            refused(&mut d, command, E22);
        }
    }
}

#[test]
fn while_the_mover_has_the_tape() {
    let long = format!("W32769\n{}", "x".repeat(32_769));
    for state in [mover::LISTEN, mover::ACTIVE] {
        let mut d = desk();
        (d.s.mover.state, d.s.mover.address, d.s.mover.mode) = (state, 1, 0);
        // 19 comes before 9.
        for command in ["Ctape0\n", "R1\n", "R0\n", "R32769\n", "W1\nx", &long, "I0\n1\n", "I3\n1\n", "I5\n0\n"] {
            refused(&mut d, command, E5);
        }
        // Open is never that.
        refused(&mut d, "Otape0\n1\n", E5);
        refused(&mut d, "Otape1\n1\n", E6);
        refused(&mut d, "Otape0\n3\n", E22);
    }
    for state in [mover::IDLE, mover::PAUSED, mover::HALTED] {
        let mut d = desk();
        (d.s.mover.state, d.s.mover.mode) = (state, 0);
        d.s.mover.address = (state != mover::IDLE) as u32;
        assert_eq!((tell(&mut d, "R4\n"), tell(&mut d, "I5\n0\n")), ("A4\nabcd".into(), "A0\n".into()));
        assert_eq!((tell(&mut d, "W1\nx"), tell(&mut d, "Ctape0\n")), ("A1\n".into(), "A0\n".into()));
        assert_eq!(tell(&mut d, "Otape0\n2\n"), "A0\n");
    }
}

#[test]
fn counter_and_mark_stay() {
    let mut d = shut();
    (d.s.fresh, d.s.number) = (true, u32::MAX);
    for (command, reply) in [("Otape0\n2\n", "A0\n"), ("R4\n", "A4\nabcd"), ("R4\n", E5), ("X\n", E22), ("C\n", "A0\n")]
    {
        assert_eq!(tell(&mut d, command), reply);
        assert_eq!((d.s.fresh, d.s.number), (true, u32::MAX));
    }
    d.s.authorized = false;
    assert_eq!(tell(&mut d, "Otape0\n2\n"), E5);
    // CONNECT open may still follow.
    assert_eq!((d.number(0x900, &[4]), d.s.fresh, d.s.number), (0, false, 0));
}

#[test]
fn before_all_else() {
    let with = |d: &mut Desk, command: &[u8], room: usize| {
        let (s, image) = (d.s.clone(), d.image.clone());
        let given = calls::rmt(&mut d.s, &mut d.image, command, room);
        assert_eq!((&d.s, &d.image, given.sent.len(), given.count), (&s, &image, 0, 0));
        given.code
    };
    for command in [&b"R4\n"[..], b"W1\nx", b"I0\n1\n", b"Ctape0\n", b"I6\n0\n", b""] {
        let mut d = desk();
        assert_eq!((with(&mut d, command, 0), with(&mut d, command, ROOM - 1)), (1001, 1001));
        d.s.closed = true;
        assert_eq!((with(&mut d, command, ROOM - 1), with(&mut d, command, ROOM)), (1001, 0));
        d.s.changer.slots = EMPTY;
        assert_eq!((with(&mut d, command, ROOM - 1), with(&mut d, command, ROOM)), (1001, 1002));
        d.s.closed = false;
        assert_eq!((with(&mut d, command, ROOM - 1), with(&mut d, command, ROOM)), (1001, 1002));
    }
}
