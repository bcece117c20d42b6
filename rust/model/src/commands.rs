//! Commands of rmt, right and wrong, and what they are to the session that they meet.

use crate::random::Random;
use crate::world::World;
use proved::Session;
use wire::word_at;

/// A command in its parts: the letter, the lines behind it, and the data behind those.
#[derive(Clone)]
pub struct Command {
    letter: u8,
    lines: Vec<Vec<u8>>,
    data: Vec<u8>,
}

/// Names of a device that are none of the tape, and one that is.
pub const NAMES: [&[u8]; 10] =
    [b"tape0", b"", b"tape", b"tape00", b"tape1", b"/dev/tape0", b"tape0\0", b"Tape0", b"tape0\r", b"changer0"];

/// Digits that do not read, and the name of each way.
pub const WRONG_NUMBERS: [(&str, &[u8]); 16] = [
    ("no digits", b""),
    ("4,294,967,296", b"4294967296"),
    ("ten digits that are too many", b"4294967300"),
    ("ten digits that are too many", b"9999999999"),
    ("eleven digits", b"10000000000"),
    ("eleven digits", b"42949672950"),
    ("eleven digits, the first a 0", b"00000000000"),
    ("eleven digits, the first a 0", b"00000000001"),
    ("a sign", b"+1"),
    ("a sign", b"-1"),
    ("a blank", b" 1"),
    ("a blank", b"1 "),
    ("a CR", b"1\r"),
    ("a byte beside the digits", b"/"),
    ("a byte beside the digits", b"1:"),
    ("another byte", b"1a"),
];

/// The other ways not to read, each with the letters that have it.
const WRONG: [(&str, &str); 13] = [
    ("nothing", ""),
    ("a letter alone", ""),
    ("L", ""),
    ("S", ""),
    ("a small letter", ""),
    ("another letter", ""),
    ("operation 6", "I"),
    ("operations from 7 on", "I"),
    ("a line is missing", "OCRWI"),
    ("bytes behind", "OCRI"),
    ("a LF in the name", "OC"),
    ("one byte of data too few", "W"),
    ("one byte of data too many", "W"),
];

fn decimal(n: u32) -> Vec<u8> {
    n.to_string().into_bytes()
}

impl Command {
    pub fn open(path: &[u8], mode: u32) -> Command {
        Command { letter: b'O', lines: vec![path.to_vec(), decimal(mode)], data: vec![] }
    }

    pub fn close(path: &[u8]) -> Command {
        Command { letter: b'C', lines: vec![path.to_vec()], data: vec![] }
    }

    pub fn read(count: u32) -> Command {
        Command { letter: b'R', lines: vec![decimal(count)], data: vec![] }
    }

    pub fn write(data: Vec<u8>) -> Command {
        Command { letter: b'W', lines: vec![decimal(data.len() as u32)], data }
    }

    pub fn operate(operation: u32, count: u32) -> Command {
        Command { letter: b'I', lines: vec![decimal(operation), decimal(count)], data: vec![] }
    }

    /// The lines that are numbers.
    fn numbers(&self) -> std::ops::Range<usize> {
        match self.letter {
            b'O' => 1..self.lines.len(),
            b'C' => 0..0,
            _ => 0..self.lines.len(),
        }
    }

    /// One of the numbers spelled so; a close has none.
    pub fn spelled(mut self, which: usize, digits: &[u8]) -> Command {
        let numbers = self.numbers();
        if !numbers.is_empty() {
            self.lines[numbers.start + which % numbers.len()] = digits.to_vec();
        }
        self
    }

    pub fn bytes(&self) -> Vec<u8> {
        let mut all = vec![self.letter];
        for line in &self.lines {
            all.extend(line);
            all.push(b'\n');
        }
        all.extend(&self.data);
        all
    }
}

/// What a client would send next to this tape.
pub fn likely(r: &mut Random, s: &Session, size: u32) -> Command {
    if !s.tape.opened && r.percent(85) {
        return Command::open(b"tape0", r.pick(&[0, 1, 1, 2, 2]));
    }
    match r.below(16) {
        0 => Command::close(r.pick(&NAMES)),
        1..=4 => Command::read(r.pick(&[0, 1, size, size, size + 1, 32_768, 32_768])),
        5..=8 => {
            let length = r.pick(&[0, 1, size, size, size, size + 1]);
            Command::write(r.bytes(length.min(32_768) as usize))
        }
        9 => Command::operate(5, r.pick(&[0, 1, u32::MAX])),
        _ => Command::operate(r.below(5) as u32, r.pick(&[0, 1, 1, 1, 2, 2, 3, 5, u32::MAX])),
    }
}

/// Marks past the end of the largest table, and up to it.
pub fn marks(r: &mut Random, s: &Session) -> [Command; 2] {
    let left = 4096u32.saturating_sub(s.tape.position as u32);
    [r.pick(&[left + 1, left + 1, 4096, 4097, u32::MAX]), left].map(|count| Command::operate(0, count))
}

pub fn any_open(r: &mut Random) -> Command {
    let long = [b't'; 300];
    let name = match r.below(20) {
        0 => &long[..r.pick(&[255, 256, 300])],
        1..=9 => r.pick(&NAMES),
        _ => b"tape0",
    };
    Command::open(name, r.pick(&[0, 1, 1, 2, 2, 3, 3, 4, 10, u32::MAX]))
}

/// A command with arguments of every kind; its numbers are spelled right.
pub fn any(r: &mut Random, size: u32) -> Command {
    match r.below(10) {
        0 | 1 => any_open(r),
        2 if r.percent(70) => Command::close(r.pick(&NAMES)),
        2 if r.percent(30) => Command::close(&vec![b'n'; r.pick(&[255, 256, 300, 40_000])]),
        // Any bytes but a LF.
        2 => {
            let n = r.below(20) as usize;
            Command::close(&r.bytes(n).into_iter().filter(|b| *b != b'\n').collect::<Vec<u8>>())
        }
        3 | 4 => Command::read(r.pick(&[0, 1, size, 32_767, 32_768, 32_769, 65_536, u32::MAX])),
        5 | 6 => {
            let length = r.pick(&[0, 1, 2, 3, size as usize, 32_767, 32_768, 32_769, 36_865, 70_000]);
            Command::write(r.bytes(length))
        }
        _ => {
            let operation = r.pick(&[0, 0, 1, 2, 3, 4, 5, 5, 6, 7, u32::MAX]);
            Command::operate(operation, r.pick(&[0, 1, 2, 4, 4096, 4097, u32::MAX, u32::MAX - 1, 1 << 31]))
        }
    }
}

/// The same command, now and then with zeros in front of its numbers.
pub fn spelled(r: &mut Random, mut command: Command) -> Vec<u8> {
    for i in command.numbers() {
        if r.percent(15) {
            let digits = command.lines[i].len();
            let zeros = r.pick(&[1, 10usize.saturating_sub(digits), 10usize.saturating_sub(digits)]);
            if digits + zeros <= 10 {
                command.lines[i].splice(0..0, vec![b'0'; zeros]);
            }
        }
    }
    command.bytes()
}

/// A command that mostly does not read, in one way.
pub fn bent(r: &mut Random, command: Command) -> Vec<u8> {
    let mut bytes = command.bytes();
    let near: [u8; 12] = [b'\n', b'\r', b' ', b'+', b'-', b'/', b':', b'0', b'9', 0, 0x80, 0xff];
    match r.below(30) {
        0 => bytes.clear(),
        1 => bytes.truncate(1),
        2 => bytes = r.pick(&[&b"L0\n0\n"[..], b"L100\n1\n", b"L\n", b"S\n", b"S\n", b"S\n", b"S0\n"]).to_vec(),
        3 => bytes[0] = bytes[0].to_ascii_lowercase(),
        4 => bytes[0] = r.next() as u8,
        5 => bytes = command.spelled(0, &decimal(r.pick(&[6, 6, 7, 8, 256, 65_536, u32::MAX]))).bytes(),
        // The last LF, or more of it.
        6 => {
            let left = bytes.len() - r.within(1, bytes.len().min(3) as u64) as usize;
            bytes.truncate(left);
        }
        7 => bytes.truncate(r.below(bytes.len() as u64) as usize),
        8 => {
            let mut shorter = command;
            shorter.lines.pop();
            bytes = shorter.bytes();
        }
        9 => bytes.push(r.pick(&near)),
        10 => {
            let n = r.within(1, 4) as usize;
            bytes.extend(r.bytes(n));
        }
        // One byte of data too few or too many.
        11 | 12 => {
            let length = command.data.len() as u32;
            let count = if r.percent(50) { length.saturating_sub(1) } else { length + 1 };
            bytes = command.spelled(0, &decimal(count)).bytes();
        }
        13 => {
            let i = r.below(bytes.len().min(20) as u64) as usize;
            bytes[i] = if r.percent(70) { r.pick(&near) } else { r.next() as u8 };
        }
        14 => {
            let i = r.within(1, bytes.len().min(20) as u64) as usize;
            bytes.insert(i, r.pick(&near));
        }
        15 | 16 if matches!(command.letter, b'O' | b'C') => {
            let mut parted = command;
            let i = r.below(parted.lines[0].len() as u64 + 1) as usize;
            parted.lines[0].insert(i, b'\n');
            bytes = parted.bytes();
        }
        _ => {
            let (_, digits) = r.pick(&WRONG_NUMBERS);
            let which = r.below(2) as usize;
            bytes = command.spelled(which, digits).bytes();
        }
    }
    bytes
}

/// The way in which digits do not read.
fn wrong_number(digits: &[u8]) -> Option<&'static str> {
    if let Some(other) = digits.iter().find(|b| !b.is_ascii_digit()) {
        return Some(match other {
            b'+' | b'-' => "a sign",
            b' ' => "a blank",
            b'\r' => "a CR",
            b'/' | b':' => "a byte beside the digits",
            _ => "another byte",
        });
    }
    match digits {
        [] => Some("no digits"),
        b"4294967296" => Some("4,294,967,296"),
        _ if digits.len() == 10 && digits > &b"4294967296"[..] => Some("ten digits that are too many"),
        [b'0', ..] if digits.len() == 11 => Some("eleven digits, the first a 0"),
        _ if digits.len() >= 11 => Some("eleven digits"),
        _ => None,
    }
}

/// The value of digits that read.
fn value(digits: &[u8]) -> u64 {
    std::str::from_utf8(digits).ok().and_then(|d| d.parse().ok()).unwrap_or(u64::MAX)
}

/// The lines of a command and what is behind them; None where it has too few.
fn lines(command: &[u8]) -> Option<(Vec<&[u8]>, &[u8])> {
    let many = if matches!(command[0], b'O' | b'I') { 2 } else { 1 };
    let mut all: Vec<&[u8]> = command[1..].splitn(many + 1, |b| *b == b'\n').collect();
    let behind = all.pop()?;
    (all.len() == many).then_some((all, behind))
}

/// The first way in which a command does not read, of those that are listed.
fn wrong(command: &[u8]) -> Option<&'static str> {
    match command {
        [] => return Some("nothing"),
        [_] => return Some("a letter alone"),
        [b'L', ..] => return Some("L"),
        b"S\n" => return Some("S"),
        [b'o' | b'c' | b'r' | b'w' | b'i', ..] => return Some("a small letter"),
        [b'O' | b'C' | b'R' | b'W' | b'I', ..] => {}
        _ => return Some("another letter"),
    }
    let Some((lines, behind)) = lines(command) else { return Some("a line is missing") };
    // Its last lines would do.
    if matches!(command[0], b'O' | b'C')
        && let Some((b'\n', before)) = behind.split_last()
    {
        let last = before.rsplit(|b| *b == b'\n').next().unwrap_or(before);
        if command[0] == b'C' || wrong_number(last).is_none() {
            return Some("a LF in the name");
        }
    }
    let numbers = match command[0] {
        b'O' => &lines[1..],
        b'C' => &[],
        _ => &lines[..],
    };
    if let Some(way) = numbers.iter().find_map(|digits| wrong_number(digits)) {
        return Some(way);
    }
    match (command[0], value(lines[0])) {
        (b'W', count) if behind.len() as u64 + 1 == count => Some("one byte of data too few"),
        (b'W', count) if behind.len() as u64 == count + 1 => Some("one byte of data too many"),
        (b'W', _) => None,
        _ if !behind.is_empty() => Some("bytes behind"),
        (b'I', 6) => Some("operation 6"),
        (b'I', 7..) => Some("operations from 7 on"),
        _ => None,
    }
}

/// A command by its letter and, of I, its operation.
fn name(command: &[u8]) -> String {
    match lines(command) {
        Some((lines, _)) if command[0] == b'I' => format!("I{}", value(lines[0])),
        _ => (command[0] as char).to_string(),
    }
}

/// What each command can be answered with: NDMP's number, and so rmt's.
const NUMBERS: [(&str, &[u32]); 10] = [
    ("O", &[0, 3, 4, 9, 10, 15, 16]),
    ("C", &[0, 4, 6, 19]),
    ("R", &[0, 4, 6, 7, 9, 12, 13, 19]),
    ("W", &[0, 4, 5, 6, 7, 9, 13, 19]),
    ("I0", &[0, 4, 5, 6, 7, 13, 19]),
    ("I1", &[0, 4, 6, 7, 13, 19]),
    ("I2", &[0, 4, 6, 7, 13, 19]),
    ("I3", &[0, 4, 6, 7, 12, 13, 19]),
    ("I4", &[0, 4, 6, 7, 12, 13, 19]),
    ("I5", &[0, 4, 6, 7, 19]),
];

/// The reply's letter and, of a refusal, its number.
fn reply(number: u32) -> &'static str {
    match number {
        0 => "A",
        9 | 18 => "E22",
        6 | 16 => "E6",
        _ => "E5",
    }
}

/// How the session and the command met, each with the reply that it is to have.
const MET: [(&str, &str); 53] = [
    ("O, mode 0", "A"),
    ("O, mode 1", "A"),
    ("O, mode 2", "A"),
    ("O, mode 3 and another name", "E22"),
    ("O, mode 3 and the tape open", "E22"),
    ("O, mode 3 and the drive empty", "E22"),
    ("O, mode 3 before auth", "E5"),
    ("O, another name and the tape open", "E6"),
    ("O, another name and the drive empty", "E6"),
    ("O, another name and a damaged image", "E6"),
    ("O, another name before auth", "E5"),
    ("O, the drive empty and a damaged image", "E5"),
    ("O, a closed tape that stands elsewhere", "A"),
    ("O, no name", "E6"),
    ("O, a name with a NUL", "E6"),
    ("O, a name with a path", "E6"),
    ("O, a longer name", "E6"),
    ("C, no name", "A"),
    ("C, another name", "A"),
    ("C, a damaged image", "A"),
    ("R, none", "A"),
    ("R, less than the record", "A"),
    ("R, more than the record", "A"),
    ("R, 32,768 bytes", "A"),
    ("R, 32,769", "E22"),
    ("R, 4,294,967,295", "E22"),
    ("R, 32,769 and no tape", "E6"),
    ("R, 32,769 and a damaged image", "E22"),
    ("R, a mark, which is passed", "E5"),
    ("R, the end", "E5"),
    ("W, none", "A"),
    ("W, 32,768 bytes", "A"),
    ("W, 32,769 bytes", "E22"),
    ("W, more than a record of NDMP's has room for", "E22"),
    ("W, above 32,768 and read-only", "E5"),
    ("W, above 32,768 and no tape", "E6"),
    ("W, none and read-only", "E5"),
    ("W, none and a damaged image", "E5"),
    ("I, none", "A"),
    ("I, 4,294,967,295", "E5"),
    ("I0, no room", "E5"),
    ("I0, all that a table of 4,096 has room for", "A"),
    ("I0, one more than a table of 4,096 has room for", "E5"),
    ("I1, moved to the end", "E5"),
    ("I2, moved to the beginning", "E5"),
    ("I3, moved over a mark", "E5"),
    ("I4, moved over a mark", "E5"),
    ("I3, moved to the end", "E5"),
    ("I4, moved to the beginning", "E5"),
    ("I5, moved, whatever the count", "A"),
    ("a number of ten digits, the first a 0", "A"),
    ("the mark of a first request is set", "A"),
    ("a store of another length", "A"),
];

/// Everything about commands that has to be reached.
pub fn wanted() -> Vec<String> {
    let mut all = vec![];
    for (name, numbers) in NUMBERS {
        all.extend(numbers.iter().map(|n| format!("{name} {n}: {}", reply(*n))));
    }
    let mut ways: Vec<&str> = WRONG_NUMBERS.iter().map(|(way, _)| *way).collect();
    ways.dedup();
    for way in &ways {
        all.extend("ORWI".chars().map(|letter| format!("{letter} 18, {way}: E22")));
    }
    for (way, letters) in WRONG {
        all.extend(letters.chars().map(|letter| format!("{letter} 18, {way}: E22")));
        ways.push(way);
    }
    for way in ways {
        all.extend(["before", "after"].map(|auth| format!("{auth} auth 18, {way}: E22")));
    }
    all.extend(MET.map(|(case, reply)| format!("{case}: {reply}")));
    // With the mover in each state.
    for (state, number) in [("IDLE", 0), ("LISTEN", 19), ("ACTIVE", 19), ("PAUSED", 0), ("HALTED", 0)] {
        all.extend(["C", "R", "W", "I"].map(|name| format!("{name} {number} in {state}: {}", reply(number))));
    }
    for number in [4, 18] {
        all.push(format!("the mark of a first request is set, {number}: {}", reply(number)));
    }
    all
}

/// What a command was, by NDMP's number of its answer; each case has the reply that it got.
pub fn cases(command: &[u8], number: &str, sent: &[u8], before: &Session, world: &World) -> Vec<String> {
    let told = match sent {
        [b'A', ..] => "A",
        b"E5\nI/O error\n" => "E5",
        b"E6\nNo such device or address\n" => "E6",
        b"E22\nInvalid argument\n" => "E22",
        _ => "another reply",
    };
    let mut all = vec![];
    if before.first {
        all.push("the mark of a first request is set".to_string());
        all.push(format!("the mark of a first request is set, {number}"));
    }
    if number == "18" {
        let auth = if before.login.authorized { "after" } else { "before" };
        if let Some(way) = wrong(command) {
            all.push(format!("{auth} auth 18, {way}"));
            let listed = command.first().filter(|letter| b"OCRWI".contains(letter));
            all.extend(listed.map(|letter| format!("{} 18, {way}", *letter as char)));
        }
    } else if let Some((lines, _)) = lines(command) {
        all.push(format!("{} {number}", name(command)));
        all.push(format!("{} {number} in {}", command[0] as char, before.mover.state_name()));
        all.extend(met(command[0], &lines, number, before, world).into_iter().map(String::from));
        if lines.iter().any(|l| l.len() == 10 && l[0] == b'0') {
            all.push("a number of ten digits, the first a 0".into());
        }
    }
    if world.store.len() != crate::stores::LENGTH {
        all.push("a store of another length".into());
    }
    all.into_iter().map(|case| format!("{case}: {told}")).collect()
}

/// The cases of `MET` for a command that reads.
fn met(letter: u8, lines: &[&[u8]], number: &str, before: &Session, world: &World) -> Vec<&'static str> {
    let tests: Vec<(&'static str, bool)> = match letter {
        b'O' => met_open(lines, before, world),
        b'C' => vec![
            ("C, no name", lines[0].is_empty()),
            ("C, another name", lines[0] == b"tape1"),
            ("C, a damaged image", !proved::sound(&world.image)),
        ],
        b'R' => met_read(value(lines[0]), number, before, world),
        b'W' => met_write(value(lines[0]), before, world),
        _ => met_operation(value(lines[0]), value(lines[1]), number, before, world),
    };
    tests.into_iter().filter(|(_, applies)| *applies).map(|(case, _)| case).collect()
}

fn met_open(lines: &[&[u8]], before: &Session, world: &World) -> Vec<(&'static str, bool)> {
    let (name, mode) = (lines[0], value(lines[1]));
    let (another, open, writable) = (name != b"tape0", world.session.tape.opened, world.session.tape.writable);
    let (authorized, empty, damaged) =
        (before.login.authorized, before.changer.slots[0] == 0, !proved::sound(&world.image));
    let right = authorized && mode < 3;
    vec![
        ("O, mode 0", mode == 0 && open && !writable),
        ("O, mode 1", mode == 1 && open && writable),
        ("O, mode 2", mode == 2 && open && writable),
        ("O, mode 3 and another name", mode == 3 && another && authorized),
        ("O, mode 3 and the tape open", mode == 3 && before.tape.opened && authorized),
        ("O, mode 3 and the drive empty", mode == 3 && empty && authorized),
        ("O, mode 3 before auth", mode == 3 && !authorized),
        ("O, another name and the tape open", right && another && before.tape.opened),
        ("O, another name and the drive empty", right && another && empty),
        ("O, another name and a damaged image", right && another && damaged),
        ("O, another name before auth", another && !authorized),
        ("O, the drive empty and a damaged image", right && !another && empty && damaged),
        ("O, a closed tape that stands elsewhere", open && !before.tape.opened && before.tape.position > 0),
        ("O, no name", right && name.is_empty()),
        ("O, a name with a NUL", right && name == b"tape0\0"),
        ("O, a name with a path", right && name == b"/dev/tape0"),
        ("O, a longer name", right && name == b"tape00"),
    ]
}

fn met_read(count: u64, number: &str, before: &Session, world: &World) -> Vec<(&'static str, bool)> {
    let place = before.tape.position.checked_mul(8).and_then(|n| n.checked_add(16));
    let record = place.and_then(|at| word_at(&world.image, at)).unwrap_or(0) as u64;
    let (accepted, damaged) = (number == "0", !proved::sound(&world.image));
    let passed = world.session.tape.position == before.tape.position.wrapping_add(1);
    let reached = before.login.authorized && !matches!(before.mover.state_name(), "LISTEN" | "ACTIVE");
    vec![
        ("R, none", accepted && count == 0),
        ("R, less than the record", accepted && passed && count < record),
        ("R, more than the record", accepted && passed && count > record),
        ("R, 32,768 bytes", accepted && passed && record == 32_768 && count == 32_768),
        ("R, 32,769", number == "9" && count == 32_769),
        ("R, 4,294,967,295", number == "9" && count == u32::MAX as u64),
        ("R, 32,769 and no tape", reached && count == 32_769 && !before.tape.opened),
        ("R, 32,769 and a damaged image", reached && count == 32_769 && damaged && before.tape.opened),
        ("R, a mark, which is passed", number == "12" && passed),
        ("R, the end", number == "13" && !passed),
    ]
}

fn met_write(count: u64, before: &Session, world: &World) -> Vec<(&'static str, bool)> {
    let t = &before.tape;
    let reached = before.login.authorized && !matches!(before.mover.state_name(), "LISTEN" | "ACTIVE");
    let (may, moved) = (reached && t.opened && t.writable, world.session.tape.position != t.position);
    vec![
        ("W, none", may && count == 0 && proved::sound(&world.image)),
        ("W, 32,768 bytes", moved && count == 32_768),
        ("W, 32,769 bytes", may && count == 32_769),
        ("W, more than a record of NDMP's has room for", may && count > 36_864),
        ("W, above 32,768 and read-only", reached && t.opened && !t.writable && count > 32_768),
        ("W, above 32,768 and no tape", reached && !t.opened && count > 32_768),
        ("W, none and read-only", reached && t.opened && !t.writable && count == 0),
        ("W, none and a damaged image", may && count == 0 && !proved::sound(&world.image)),
    ]
}

fn met_operation(
    operation: u64,
    count: u64,
    number: &str,
    before: &Session,
    world: &World,
) -> Vec<(&'static str, bool)> {
    let (from, to) = (before.tape.position, world.session.tape.position);
    let largest = operation == 0 && word_at(&world.image, 4) == Some(4096);
    let end = (from as u64).wrapping_add(count);
    vec![
        ("I0, all that a table of 4,096 has room for", largest && number == "0" && end == 4096),
        ("I0, one more than a table of 4,096 has room for", largest && number == "13" && end == 4097),
        ("I, none", number == "0" && count == 0 && operation < 5),
        ("I, 4,294,967,295", number == "13" && count == u32::MAX as u64),
        ("I0, no room", operation == 0 && number == "13"),
        ("I1, moved to the end", operation == 1 && number == "13" && to > from),
        ("I2, moved to the beginning", operation == 2 && number == "13" && to < from),
        ("I3, moved over a mark", operation == 3 && number == "12" && to > from),
        ("I4, moved over a mark", operation == 4 && number == "12" && to < from),
        ("I3, moved to the end", operation == 3 && number == "13" && to > from),
        ("I4, moved to the beginning", operation == 4 && number == "13" && to < from),
        ("I5, moved, whatever the count", operation == 5 && number == "0" && to < from && count > 0),
    ]
}

#[cfg(test)]
mod tests {
    use super::*;
    use crate::model::rmt;

    #[test]
    fn numbers_are_what_their_names_say() {
        for (way, digits) in WRONG_NUMBERS {
            assert_eq!(wrong_number(digits), Some(way));
            for command in
                [Command::open(b"tape0", 0), Command::read(0), Command::write(vec![]), Command::operate(0, 0)]
            {
                for which in 0..2 {
                    let bytes = command.clone().spelled(which, digits).bytes();
                    assert_eq!((wrong(&bytes), rmt::read(&bytes)), (Some(way), None));
                }
            }
        }
        for digits in ["0", "9", "0000000000", "4294967295", "4294967294"] {
            assert_eq!(wrong_number(digits.as_bytes()), None);
        }
    }

    #[test]
    fn random_ones_are_of_all_kinds() {
        let mut r = Random(1);
        let mut met = std::collections::BTreeSet::new();
        for _ in 0..20_000 {
            let command = any(&mut r, 100);
            let bytes = if r.percent(50) { bent(&mut r, command) } else { spelled(&mut r, command) };
            // What is listed as wrong does not read; all that does not read need not be listed.
            let way = wrong(&bytes);
            assert!(way.is_none() || rmt::read(&bytes).is_none(), "{way:?}");
            met.extend(way);
        }
        let all = WRONG_NUMBERS.iter().map(|(way, _)| *way).chain(WRONG.iter().map(|(way, _)| *way));
        assert_eq!(met, all.collect());
    }
}
