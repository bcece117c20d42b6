//! Compares the proved tape operations with the same in plain Rust: first what they give, then how long they take.
use std::collections::BTreeMap;
use std::hint::black_box;

use bench::common::{RECORD, Random, head, image, medians, row, timed};
use bench::plain_tape as plain;
use bench::proved_tape::{self as proved, Part, Wrote};

const BSR: u32 = 3;

// ---- do both give the same?

fn random_image(random: &mut Random) -> Vec<u8> {
    let capacity = 1 + random.below(12);
    let lens: Vec<usize> = (0..random.below(capacity + 1))
        .map(|_| match random.below(8) {
            0..=2 => 0,
            3 => RECORD,
            _ => 1 + random.below(60),
        })
        .collect();
    let room = random.one(&[0, 20, 100, 2 * RECORD]);
    let mut v = image(capacity, &lens, lens.iter().sum::<usize>() + room);
    random.damage(&mut v, lens.len());
    v
}

/// Runs both on copies of the same image and the same buffer, and stops at the first difference.
fn same(seen: &mut BTreeMap<(&'static str, u32), u32>, random: &mut Random) {
    let mut image = random_image(random);
    let was = plain::sound(&image);
    assert_eq!(proved::sound(&image), was, "sound differs");
    assert_eq!(plain::sound_by_index(&image), was, "sound by index differs");
    *seen.entry(("sound", was as u32)).or_default() += 1;
    let mut position = random.one(&[0, 0, 1, 2, 3, 5, 12, 13, 4096, usize::MAX]);
    for _ in 0..8 {
        let mut other = image.clone();
        let times = random.one(&[0, 1, 2, 3, 20, 50, 32768, 32769, u32::MAX]);
        match random.below(3) {
            0 => {
                let n = random.one(&[0, 1, 19, 60, RECORD, RECORD + 1]);
                let bytes: Vec<u8> = (0..n).map(|i| (i * 31 + n) as u8).collect();
                let (a, b) = (proved::write(&mut image, position, &bytes), plain::write(&mut other, position, &bytes));
                assert_eq!(a, b, "write of {n} bytes at {position} differs");
                *seen.entry(("write", a.error)).or_default() += 1;
                position = a.position;
            }
            1 => {
                let mut out = vec![0xa5; random.one(&[0, 1, 20, 59, RECORD - 1, RECORD, RECORD + 9])];
                let mut other_out = out.clone();
                let (a, b) = (
                    proved::read(&image, position, times, &mut out),
                    plain::read(&other, position, times, &mut other_out),
                );
                assert_eq!(a, b, "read of {times} at {position} differs");
                assert!(out == other_out, "what a read of {times} at {position} hands out differs");
                *seen.entry(("read", a.error)).or_default() += 1;
                position = a.position;
            }
            _ => {
                let op = random.one(&[0, 1, 2, 3, 4, 5, 6, 7, u32::MAX]);
                let (a, b) =
                    (proved::mtio(&mut image, op, position, times), plain::mtio(&mut other, op, position, times));
                assert_eq!(a, b, "mtio {op} of {times} at {position} differs");
                *seen.entry(("mtio", a.error)).or_default() += 1;
                position = a.position;
            }
        }
        assert!(image == other, "the images differ");
    }
}

fn compare() {
    let mut random = Random(0x9e37_79b9_7f4a_7c15);
    let mut seen = BTreeMap::new();
    for _ in 0..20_000 {
        same(&mut seen, &mut random);
    }
    assert!(!proved::sound(&[]) && !plain::sound(&[]));
    let all = [
        ("sound", vec![0, 1]),
        ("write", vec![0, 7, 9, 13]),
        ("read", vec![0, 7, 9, 12, 13, 1001]),
        ("mtio", vec![0, 1, 7, 9, 12, 13]),
    ];
    for (call, answers) in &all {
        for answer in answers {
            assert!(
                seen.contains_key(&(*call, *answer)),
                "no {call} was answered {answer}: the comparison is too weak"
            );
        }
    }
    println!(
        "equal results: {} calls on 20,000 images, sound and damaged; every answer was met",
        seen.values().sum::<u32>()
    );
}

// ---- how long do they take?

/// What all kinds work on: the same image, source and buffer, so that none has them nearer or better placed.
struct Bed {
    image: Vec<u8>,
    first: usize,
    count: usize,
    source: Vec<u8>,
    out: Vec<u8>,
}

impl Bed {
    /// `small` entries of 64 bytes, then `count` records of 32,768, in an image that they fill.
    fn new(small: usize, count: usize) -> Bed {
        let mut lens = vec![64; small];
        lens.resize(small + count, RECORD);
        Bed {
            image: image(small + count, &lens, lens.iter().sum()),
            first: small,
            count,
            source: (0..RECORD).map(|i| (i * 7) as u8).collect(),
            out: vec![0; RECORD],
        }
    }

    fn start(&self, i: usize) -> usize {
        16 + (self.first + self.count) * 8 + self.first * 64 + i * RECORD
    }

    /// Back from the end to the first of the large records.
    fn rewind(&mut self) -> usize {
        let back = proved::mtio(&mut self.image, BSR, self.first + self.count, self.count as u32);
        assert_eq!((back.error, back.position), (0, self.first));
        back.position
    }

    fn write(&mut self, mut position: usize, write: impl Fn(&mut [u8], usize, &[u8]) -> Wrote) {
        for _ in 0..self.count {
            position = write(black_box(&mut self.image), position, black_box(&self.source)).position;
        }
        assert_eq!(position, self.first + self.count);
    }

    fn read(&mut self, mut position: usize, read: impl Fn(&[u8], usize, u32, &mut [u8]) -> Part) {
        for _ in 0..self.count {
            position = read(black_box(&self.image), position, RECORD as u32, black_box(&mut self.out)).position;
        }
        assert_eq!(position, self.first + self.count);
    }
}

type Kind = fn(&mut Bed, usize);

const SOUND: [Kind; 4] = [
    |b, _| _ = black_box(proved::sound(black_box(&b.image))),
    |b, _| _ = black_box(plain::sound(black_box(&b.image))),
    |b, _| _ = black_box(plain::sound_by_index(black_box(&b.image))),
    |b, _| {
        let table = &black_box(&b.image)[16..16 + RECORD];
        black_box(&mut b.out).copy_from_slice(table)
    },
];

const WRITE: [Kind; 3] = [
    |b, at| b.write(at, proved::write),
    |b, at| b.write(at, plain::write),
    |b, _| {
        for i in 0..b.count {
            let start = b.start(i);
            black_box(&mut b.image)[start..start + RECORD].copy_from_slice(black_box(&b.source));
        }
    },
];

const READ: [Kind; 3] = [
    |b, at| b.read(at, proved::read),
    |b, at| b.read(at, plain::read),
    |b, _| {
        for i in 0..b.count {
            let start = b.start(i);
            black_box(&mut b.out).copy_from_slice(&black_box(&b.image)[start..start + RECORD]);
        }
    },
];

fn in_turn(bed: &mut Bed, kinds: &[Kind], rounds: usize) -> Vec<f64> {
    medians(kinds.len(), rounds, |k| {
        let at = bed.rewind();
        timed(|| kinds[k](bed, at))
    })
}

/// On the inputs that are measured, every kind leaves the same image and the same buffer.
fn compare_bed(bed: &mut Bed) {
    assert!(
        proved::sound(&bed.image) && plain::sound(&bed.image) && plain::sound_by_index(&bed.image),
        "sound differs"
    );
    for kinds in [READ, WRITE] {
        let was = bed.image.clone();
        let mut first = None;
        for kind in kinds {
            bed.image.copy_from_slice(&was);
            bed.out.fill(0xa5);
            let at = bed.rewind();
            kind(bed, at);
            let (image, out) = first.get_or_insert_with(|| (bed.image.clone(), bed.out.clone()));
            assert!(*image == bed.image && *out == bed.out, "the results on an input that is measured differ");
        }
    }
}

fn measure() {
    println!();
    head();
    let mut few = Bed::new(0, 16);
    let mut many = Bed::new(4080, 16);
    let mut whole = Bed::new(0, 4096);
    for bed in [&mut few, &mut many, &mut whole] {
        compare_bed(bed);
    }
    let t = in_turn(&mut many, &SOUND, 2000);
    row("sound, 4,096 entries", 1, t[0], t[1], t[3]);
    row("  the same, plain Rust by index", 1, t[0], t[2], t[3]);
    for (what, kinds) in [("write", &WRITE), ("read", &READ)] {
        for (where_, bed, rounds) in [
            ("16 entries", &mut few, 1000),
            ("4,096 entries", &mut many, 500),
            ("a whole tape, 4,096 records", &mut whole, 41),
        ] {
            let t = in_turn(bed, kinds, rounds);
            row(&format!("{what} 32,768 bytes, {where_}"), bed.count, t[0], t[1], t[2]);
        }
    }
}

fn main() {
    let args: Vec<String> = std::env::args().collect();
    match args.get(1).map(String::as_str) {
        None => {
            compare();
            measure();
        }
        // `sound` of one kind some times, for a count of instructions
        Some("sound") => {
            let kind = SOUND[args[2].parse::<usize>().unwrap()];
            let mut bed = Bed::new(4080, 16);
            for _ in 0..args[3].parse().unwrap() {
                kind(&mut bed, 0);
            }
        }
        Some(other) => panic!("no such thing to measure: {other}"),
    }
}
