//! Compares the proved moves with the same in plain Rust: first what they give, then how long they take.
use std::collections::BTreeMap;
use std::hint::black_box;

use bench::common::{RECORD, Random, head, image, median, medians, row, timed, turn};
use bench::plain_moves::{self as plain, Told};
use bench::tape;
use proved::{Answer, Changer, Data, Login, Moved, Mover, OUTPUT, Session, Tape};

const TIME: u32 = 0x5eed_0001;

// ---- do both give the same?

const SIZES: [usize; 6] = [1, 5, 16, 16, 40, RECORD];

/// Records of the size, marks among them, and some records of another length.
fn random_image(random: &mut Random, size: usize) -> (Vec<u8>, usize) {
    let capacity = 1 + random.below(12);
    let lens: Vec<usize> = (0..random.below(capacity + 1))
        .map(|_| match random.below(10) {
            0 => 0,
            1 => 1 + random.below(60),
            _ => size,
        })
        .collect();
    let room = random.one(&[0, size - 1, size, 3 * size]);
    let mut v = image(capacity, &lens, lens.iter().sum::<usize>() + room);
    if random.below(4) == 0 {
        random.damage(&mut v, lens.len());
    }
    (v, lens.len())
}

fn random_mover(random: &mut Random, size: usize, position: usize) -> Mover {
    let unit = size as u64;
    let other = random.below(5) as u32;
    let state = random.one(&[Mover::ACTIVE, Mover::ACTIVE, Mover::ACTIVE, Mover::ACTIVE, Mover::ACTIVE, other]);
    let offset = unit * random.one(&[0, 0, 1, 3, u64::MAX / unit - 3]);
    let records = random.one(&[1, 2, 2, 3]);
    let length = random.one(&[unit * records, unit * records, Mover::ENDLESS]);
    let place = random.one(&[0, 1, unit - 1, unit, 2 * unit, length - 1, length, length.wrapping_add(1), u64::MAX]);
    let seek = offset.wrapping_add(place);
    Mover {
        state,
        mode: random.one(&[Mover::TO_TAPE, Mover::FROM_TAPE]),
        pause: random.below(6) as u32,
        halt: random.below(6) as u32,
        size: size as u32,
        address: if state == Mover::IDLE { 0 } else { random.one(&[0, 0, 0, 1]) },
        offset,
        length,
        moved: if state < Mover::ACTIVE { 0 } else { offset + unit * random.below(1 + records as usize) as u64 },
        seek,
        left: random.one(&[0, 1, 3, unit, 1000, u64::MAX - seek]),
        origin: random.below(1 + position.min(12)),
    }
}

/// The data end as the mover's state, mode and address type ask for, or nearly.
fn random_data(random: &mut Random, m: &Mover) -> Data {
    let joined = matches!(m.state, Mover::ACTIVE | Mover::PAUSED) && m.address == 0;
    let (state, address) = if joined {
        (random.one(&[Data::ACTIVE, Data::ACTIVE, Data::ACTIVE, Data::CONNECTED]), 0)
    } else {
        let apart = [(Data::IDLE, 0), (Data::HALTED, 0), (Data::LISTEN, 0), (Data::HALTED, 1), (Data::LISTEN, 1)];
        let (state, address) = random.one(&apart);
        random.one(&[(state, address), (state, address), (Data::ACTIVE, 1), (Data::CONNECTED, 1)])
    };
    let operation = if m.mode == Mover::TO_TAPE { Data::BACKUP } else { Data::RECOVER };
    Data {
        state,
        operation: random.one(&[operation, operation, operation, operation, operation, operation, 3 - operation, 0]),
        reason: random.below(6) as u32,
        address,
        processed: random.one(&[0, 1000, u64::MAX]),
    }
}

/// One number of a session changed, so that it may break the relation, or a flag of it.
fn disturb(random: &mut Random, s: &mut Session) {
    match random.below(20) {
        15 => s.source.address = random.below(3) as u32,
        16 => s.mover.address = random.below(3) as u32,
        17 => s.changer.slots[0] = random.below(4) as u32,
        18 => s.changer.slots[8] = random.below(4) as u32,
        0 => s.source.state = random.below(6) as u32,
        1 => s.mover.state = random.below(6) as u32,
        2 => s.mover.mode = random.below(3) as u32,
        3 => s.mover.size = random.one(&[0, 1, 7, 32768, 32769]),
        4 => s.mover.offset = s.mover.offset.wrapping_add(random.one(&[1, u64::MAX])),
        5 => s.mover.length = random.one(&[0, 1, u64::MAX]),
        6 => s.mover.moved = s.mover.moved.wrapping_add(random.one(&[1, s.mover.size as u64, u64::MAX])),
        7 => s.mover.left = u64::MAX,
        8 => s.mover.origin = s.tape.position.wrapping_add(1),
        9 => s.tape.opened = false,
        10 => s.tape.writable = false,
        11 => s.closed = true,
        12 => s.login.authorized = false,
        13 => s.first = false,
        14 => s.sequence = u32::MAX,
        _ => s.changer.key = 5,
    }
}

fn random_session(random: &mut Random, size: usize, entries: usize) -> Session {
    let inside = random.below(entries + 1);
    let position = random.one(&[inside, inside, inside, inside, entries, entries + 1, usize::MAX]);
    let mover = random_mover(random, size, position);
    let mut s = Session {
        closed: false,
        first: random.below(2) == 0,
        login: Login { authorized: true, challenged: true, challenge: [0x5a; 64] },
        sequence: random.below(1 << 32) as u32,
        source: random_data(random, &mover),
        mover,
        tape: Tape { opened: true, writable: true, position },
        changer: Changer {
            opened: random.below(2) == 0,
            key: 0,
            code: 0,
            qualifier: 0,
            slots: [1, 0, 2, 0, 0, 0, 0, 0, 3],
        },
    };
    if random.below(4) == 0 {
        disturb(random, &mut s);
    }
    s
}

/// What both sides work on, and which rules were met.
struct Pair {
    seen: BTreeMap<(&'static str, &'static str), u32>,
    image: [Vec<u8>; 2],
    out: [Vec<u8>; 2],
}

impl Pair {
    fn to_tape(&mut self, s: Session, stream: &[u8], last: bool, time: u32, room: usize) -> Session {
        let ([a, b], [x, y]) = (&mut self.image, &mut self.out);
        let mut next = s;
        let moved = proved::move_to_tape(s, a, stream, last, time, &mut x[..room]);
        let told = plain::move_to_tape(&mut next, b, stream, last, time, &mut y[..room]);
        self.same("to tape", s, moved, told, next)
    }

    fn from_tape(&mut self, s: Session, dest: usize, time: u32, room: usize) -> Session {
        let ([a, b], [x, y]) = (&mut self.image, &mut self.out);
        let mut next = s;
        let (mut dest, mut other) = (vec![0xa5; dest], vec![0xa5; dest]);
        let moved = proved::move_from_tape(s, a, &mut dest, time, &mut x[..room]);
        let told = plain::move_from_tape(&mut next, b, &mut other, time, &mut y[..room]);
        assert!(dest == other, "what is handed over differs, of {s:?}");
        self.same("from tape", s, moved, told, next)
    }

    fn end(&mut self, s: Session, ok: bool, time: u32, room: usize) -> Session {
        let [x, y] = &mut self.out;
        let mut next = s;
        let Answer { code, len, session } = proved::end_method(s, ok, time, &mut x[..room]);
        let told = plain::end_method(&mut next, ok, time, &mut y[..room]);
        self.same("end", s, Moved { code, count: 0, len, session }, told, next)
    }

    fn same(&mut self, call: &'static str, s: Session, moved: Moved, told: Told, next: Session) -> Session {
        let Told { rule, code, count, len } = told;
        assert_eq!(moved, Moved { code, count, len, session: next }, "{call}, rule {rule}, of {s:?}");
        assert!(self.image[0] == self.image[1], "the images differ after {call}, rule {rule}, of {s:?}");
        assert!(self.out[0] == self.out[1], "the outputs differ after {call}, rule {rule}, of {s:?}");
        *self.seen.entry((call, rule)).or_default() += 1;
        next
    }

    /// A few calls in a row on a new image; a call that changes nothing is followed by one on another session, and so
    /// is a halt or a pause.
    fn run(&mut self, random: &mut Random) {
        let size = random.one(&SIZES);
        let (image, entries) = random_image(random, size);
        self.image = [image.clone(), image];
        let mut s = random_session(random, size, entries);
        let stream: Vec<u8> = (0..3 * size).map(|i| (i * 31 + size) as u8).collect();
        for _ in 0..6 {
            let time = random.below(1 << 32) as u32;
            let room = if random.below(40) == 0 { OUTPUT - 1 } else { random.one(&[OUTPUT, OUTPUT + 9]) };
            let next = match (random.below(16), s.mover.mode) {
                (0, _) => self.end(s, random.below(2) == 0, time, room),
                (1, Mover::FROM_TAPE) | (2.., Mover::TO_TAPE) => {
                    let n = random.one(&[0, 1, size - 1, size, size, size, size + 1, 3 * size]);
                    self.to_tape(s, &stream[..n.min(3 * size)], random.below(4) == 0, time, room)
                }
                _ => self.from_tape(s, random.one(&[0, 1, size - 1, size, size + 7]), time, room),
            };
            let again = next == s || next.mover.state != Mover::ACTIVE;
            s = if again { random_session(random, size, entries) } else { next };
        }
    }
}

const OUTCOMES: [(&str, &[&str]); 3] = [
    ("to tape", &["1001", "1002", "closed", "1", "2", "3", "4", "5", "6", "7", "7, filled"]),
    (
        "from tape",
        &[
            "1001",
            "1002",
            "closed",
            "idle",
            "fault",
            "nothing left",
            "no room",
            "SEEK",
            "EOF",
            "EOM",
            "wrong length",
            "bytes",
        ],
    ),
    ("end", &["1001", "1002", "closed", "nothing", "SUCCESSFUL", "INTERNAL_ERROR"]),
];

fn compare() {
    let mut random = Random(0x9e37_79b9_7f4a_7c15);
    let out = vec![0xa5; OUTPUT + 9];
    let mut pair = Pair { seen: BTreeMap::new(), image: [vec![], vec![]], out: [out.clone(), out] };
    for _ in 0..10_000 {
        pair.run(&mut random);
    }
    for (call, rules) in OUTCOMES {
        for rule in rules {
            assert!(
                pair.seen.contains_key(&(call, *rule)),
                "{call}: rule {rule} was not met: the comparison is too weak"
            );
        }
    }
    println!(
        "equal results: {} calls on 10,000 sessions and images; every rule and outcome was met:",
        pair.seen.values().sum::<u32>()
    );
    for (call, rules) in OUTCOMES {
        let counts: Vec<String> = rules.iter().map(|rule| format!("{rule}: {}", pair.seen[&(call, *rule)])).collect();
        println!("  {call} — {}", counts.join("; "));
    }
}

// ---- how long do they take?

const PARTS: usize = 32;

/// What all kinds work on: the same image, stream, destination and output.
struct Bed {
    image: Vec<u8>,
    first: usize,
    count: usize,
    source: Vec<u8>,
    dest: Vec<u8>,
    out: Vec<u8>,
    opened: Session,
    session: Session,
}

impl Bed {
    /// `small` entries of 64 bytes, then `count` records of 32,768, in an image that they fill.
    fn new(small: usize, count: usize) -> Bed {
        let mut lens = vec![64; small];
        lens.resize(small + count, RECORD);
        let mut out = vec![0; OUTPUT];
        let Answer { code, len, session } = proved::open(&[1, 0, 0, 0, 0, 0, 0, 0, 0], TIME, &mut out);
        assert_eq!((code, len, session.sequence), (0, 40, 2), "a new session");
        Bed {
            image: image(small + count, &lens, lens.iter().sum()),
            first: small,
            count,
            source: (0..PARTS * RECORD).map(|i| (i * 7 + i / 253) as u8).collect(),
            dest: vec![0; RECORD],
            out,
            opened: session,
            session,
        }
    }

    fn start(&self, at: usize) -> usize {
        self.first * 64 + (at - self.first) * RECORD
    }

    /// Both ends ACTIVE in a mode, with the tape at an entry, and a window from entry 0 on that does not end. To tape
    /// the entries end there; from tape there are all of them.
    fn ready(&mut self, mode: u32, at: usize) {
        let entries = if mode == Mover::TO_TAPE { at } else { self.first + self.count };
        let used = self.start(entries);
        tape::put(&mut self.image, 8, entries);
        tape::put(&mut self.image, 12, used);
        let unit = RECORD as u64;
        let s = &mut self.session;
        *s = self.opened;
        (s.source.state, s.source.operation) =
            (Data::ACTIVE, if mode == Mover::TO_TAPE { Data::BACKUP } else { Data::RECOVER });
        let m = &mut s.mover;
        (m.state, m.mode, m.size, m.offset, m.length) = (Mover::ACTIVE, mode, RECORD as u32, 0, u64::MAX / unit * unit);
        (m.moved, m.seek, m.left, m.origin) = (at as u64 * unit, at as u64 * unit, 1 << 60, 0);
        s.tape = Tape { opened: true, writable: true, position: at };
    }

    /// After the last record both sides pause EOM: the tape is full, or has come to its end.
    fn meet_end(&mut self, mode: u32) {
        let end = self.first + self.count;
        self.ready(mode, end);
        let (s, mut other) = (self.session, self.session);
        let (moved, told) = if mode == Mover::TO_TAPE {
            let part = &self.source[..RECORD];
            (
                proved::move_to_tape(s, &mut self.image, part, false, TIME, &mut self.out),
                plain::move_to_tape(&mut other, &mut self.image, part, false, TIME, &mut self.out),
            )
        } else {
            (
                proved::move_from_tape(s, &self.image, &mut self.dest, TIME, &mut self.out),
                plain::move_from_tape(&mut other, &self.image, &mut self.dest, TIME, &mut self.out),
            )
        };
        assert_eq!((moved.count, moved.len, moved.session), (told.count, told.len, other));
        assert_eq!(
            (other.mover.state, other.mover.pause, other.tape.position),
            (Mover::PAUSED, 1, end),
            "not the tape's end"
        );
    }
}

type Kind = fn(&mut Bed, usize, usize);

fn part(source: &[u8], i: usize) -> &[u8] {
    let at = i % PARTS * RECORD;
    &source[at..at + RECORD]
}

const TO: [Kind; 3] = [
    |b, at, n| {
        for i in at..at + n {
            let moved = proved::move_to_tape(
                b.session,
                black_box(&mut b.image),
                black_box(part(&b.source, i)),
                false,
                TIME,
                black_box(&mut b.out),
            );
            assert_eq!(moved.count, RECORD);
            b.session = moved.session;
        }
    },
    |b, at, n| {
        for i in at..at + n {
            let told = plain::move_to_tape(
                &mut b.session,
                black_box(&mut b.image),
                black_box(part(&b.source, i)),
                false,
                TIME,
                black_box(&mut b.out),
            );
            assert_eq!(told.count, RECORD);
        }
    },
    |b, at, n| {
        for i in at..at + n {
            let start = 16 + (b.first + b.count) * 8 + b.start(i);
            black_box(&mut b.image)[start..start + RECORD].copy_from_slice(black_box(part(&b.source, i)));
        }
    },
];

const FROM: [Kind; 3] = [
    |b, at, n| {
        for _ in at..at + n {
            let moved = proved::move_from_tape(
                b.session,
                black_box(&b.image),
                black_box(&mut b.dest),
                TIME,
                black_box(&mut b.out),
            );
            assert_eq!(moved.count, RECORD);
            b.session = moved.session;
        }
    },
    |b, at, n| {
        for _ in at..at + n {
            let told = plain::move_from_tape(
                &mut b.session,
                black_box(&b.image),
                black_box(&mut b.dest),
                TIME,
                black_box(&mut b.out),
            );
            assert_eq!(told.count, RECORD);
        }
    },
    |b, at, n| {
        for i in at..at + n {
            let start = 16 + (b.first + b.count) * 8 + b.start(i);
            black_box(&mut b.dest).copy_from_slice(&black_box(&b.image)[start..start + RECORD]);
        }
    },
];

/// On the inputs that are measured, proved and plain leave the same image, destination and session, and the bytes of
/// the copy.
fn compare_bed(bed: &mut Bed) {
    let was = bed.image.clone();
    for (mode, kinds) in [(Mover::TO_TAPE, TO), (Mover::FROM_TAPE, FROM)] {
        let mut firsts = None;
        for kind in &kinds[..2] {
            bed.image.copy_from_slice(&was);
            bed.dest.fill(0xa5);
            bed.ready(mode, bed.first);
            kind(bed, bed.first, bed.count);
            let (image, dest, session) =
                firsts.get_or_insert_with(|| (bed.image.clone(), bed.dest.clone(), bed.session));
            assert!(
                *image == bed.image && *dest == bed.dest && *session == bed.session,
                "the results on an input that is measured differ"
            );
        }
        let (image, dest, _) = firsts.unwrap();
        kinds[2](bed, bed.first, bed.count);
        assert!(image == bed.image && dest == bed.dest, "the copy differs");
    }
}

/// The whole tape again and again, in pieces that the kinds take in turn: the sum of the medians of the pieces, in
/// nanoseconds. The first pass is the warm-up.
fn passes(bed: &mut Bed, mode: u32, kinds: &[Kind; 3], times: usize) -> [f64; 3] {
    const PIECE: usize = 256;
    let pieces = bed.count / PIECE;
    let mut taken = vec![[const { Vec::new() }; 3]; pieces];
    for pass in 0..=times {
        for (piece, taken) in taken.iter_mut().enumerate() {
            for k in 0..3 {
                let k = turn(pass * pieces + piece, k, 3);
                bed.ready(mode, piece * PIECE);
                let time = timed(|| kinds[k](bed, piece * PIECE, PIECE)).as_nanos() as f64;
                if pass > 0 {
                    taken[k].push(time);
                }
            }
        }
        bed.meet_end(mode);
    }
    [0, 1, 2].map(|k| taken.iter_mut().map(|t| median(&mut t[k])).sum())
}

fn measure() {
    println!();
    head();
    let ways = [(Mover::TO_TAPE, &TO, "to tape"), (Mover::FROM_TAPE, &FROM, "from tape")];
    for (mode, kinds, what) in ways {
        for (entries, named) in [(16, "16"), (256, "256"), (4096, "4,096")] {
            let mut bed = Bed::new(entries - 16, 16);
            compare_bed(&mut bed);
            let (at, n) = (bed.first, bed.count);
            let t = medians(3, 1000, |k| {
                bed.ready(mode, at);
                timed(|| kinds[k](&mut bed, at, n))
            });
            row(&format!("{what}, 32,768 bytes, {named} entries"), n, t[0], t[1], t[2]);
        }
    }
    let mut whole = Bed::new(0, 4096);
    compare_bed(&mut whole);
    let mut rates = Vec::new();
    for (mode, kinds, what) in ways {
        let t = passes(&mut whole, mode, kinds, 8);
        row(&format!("{what}, 1 GiB, eight tapes of 4,096 records"), whole.count, t[0], t[1], t[2]);
        let [proved, plain, copy] = t.map(|t| (whole.count * RECORD) as f64 / t * 1e9 / (1 << 30) as f64);
        rates.push(format!("{what}, 1 GiB: proved {proved:.1}, plain {plain:.1}, memcpy {copy:.1} GiB a second"));
    }
    println!();
    rates.iter().for_each(|line| println!("{line}"));
    measure_idle();
}

/// The call alone: a session whose data end is not yet ACTIVE, so that nothing moves.
fn measure_idle() {
    let mut bed = Bed::new(0, 16);
    bed.ready(Mover::TO_TAPE, 0);
    bed.session.source.state = Data::CONNECTED;
    let kinds: [fn(&mut Bed); 2] = [
        |b| {
            b.session = proved::move_to_tape(
                b.session,
                black_box(&mut b.image),
                black_box(&b.source),
                false,
                TIME,
                black_box(&mut b.out),
            )
            .session
        },
        |b| {
            _ = plain::move_to_tape(
                &mut b.session,
                black_box(&mut b.image),
                black_box(&b.source),
                false,
                TIME,
                black_box(&mut b.out),
            )
        },
    ];
    let t = medians(2, 1000, |k| timed(|| (0..1000).for_each(|_| kinds[k](&mut bed))));
    println!("a call that moves nothing (rule 1): proved {:.0} ns, plain {:.0} ns", t[0] / 1000.0, t[1] / 1000.0);
}

fn main() {
    let args: Vec<String> = std::env::args().skip(1).collect();
    if args.is_empty() {
        compare();
        measure();
        return;
    }
    // some moves of one kind, for a count of instructions
    let [mode, kind, entries, times] = [0, 1, 2, 3].map(|i| args[i].parse::<usize>().unwrap());
    let mut bed = Bed::new(entries - 16, 16);
    let (at, n) = (bed.first, bed.count);
    for _ in 0..times {
        bed.ready(mode as u32, at);
        [TO, FROM][mode][kind](&mut bed, at, n);
    }
}
