//! Cartridges, sound and damaged.

use crate::random::Random;

fn put(image: &mut [u8], word: usize, x: u32) {
    wire::put_word(image, 4 * word, x);
}

fn get(image: &[u8], word: usize) -> u32 {
    wire::word(image, 4 * word)
}

/// A sound image, most of its records of the given size. Words past the entries and bytes past the end are rubbish.
pub fn sound(r: &mut Random, size: u32) -> Vec<u8> {
    let big = size > 2000;
    let capacity = if r.percent(2) { 4096 } else { r.pick(&[1, 2, 3, 5, 8, 12, if big { 6 } else { 40 }]) };
    let n = match r.below(4) {
        0 => 0,
        1 | 2 if size < 50 => capacity,
        1 => capacity.min(12),
        _ => r.within(0, capacity.min(20)),
    };
    let marks = r.pick(&[0, 0, 15, 40]);
    let others = r.pick(&[0, 0, 0, 20]);
    let mut lengths = vec![];
    for _ in 0..n {
        lengths.push(if r.percent(marks) {
            0
        } else if r.percent(others) {
            r.within(1, (2 * size as u64).min(32_768)) as u32
        } else {
            size
        });
    }
    let used: u64 = lengths.iter().map(|l| *l as u64).sum();
    let slack = match r.below(5) {
        0 => 0,
        1 => size as u64 - 1,
        2 => size as u64,
        3 => 3 * size as u64 + 1,
        _ => {
            if big {
                4 * size as u64
            } else {
                20 * size as u64
            }
        }
    };
    let mut image = r.bytes((16 + 8 * capacity + used + slack) as usize);
    put(&mut image, 0, 1);
    put(&mut image, 1, capacity as u32);
    put(&mut image, 2, n as u32);
    put(&mut image, 3, used as u32);
    let mut start = 0;
    for (i, length) in lengths.iter().enumerate() {
        put(&mut image, 4 + 2 * i, *length);
        put(&mut image, 5 + 2 * i, start);
        start += length;
    }
    image
}

/// A table of 4,096 entries, of which so many are marks, and no room for a record.
pub fn largest(marks: u32) -> Vec<u8> {
    let mut image = vec![0; 16 + 8 * 4096];
    for (i, x) in [1, 4096, marks].into_iter().enumerate() {
        put(&mut image, i, x);
    }
    image
}

/// The longest record, and room for another.
pub fn longest() -> Vec<u8> {
    let mut image = vec![0x6c; 16 + 8 * 2 + 65_536];
    for (i, x) in [1, 2, 1, 32_768, 32_768, 0].into_iter().enumerate() {
        put(&mut image, i, x);
    }
    image
}

/// An image with one thing wrong, or nearly. Some stay sound: the model judges.
pub fn damaged(r: &mut Random, size: u32) -> Vec<u8> {
    let mut image = sound(r, size);
    let n = get(&image, 2);
    match r.below(11) {
        // A table of as many entries as may be, or of one more; all else is sound.
        10 => {
            let capacity = r.pick(&[4096, 4097]);
            image = vec![0; 16 + 8 * capacity as usize + 100];
            for (i, x) in [1, capacity, 2, 9, 9, 0, 0, 9].into_iter().enumerate() {
                put(&mut image, i, x);
            }
        }
        0 => put(&mut image, 0, r.pick(&[0, 2, 0x0100_0000])),
        1 => {
            let c = get(&image, 1);
            put(&mut image, 1, r.pick(&[0, c + 1, c - 1, 4097, u32::MAX, 0x2000_0000]));
        }
        2 => {
            let c = get(&image, 1);
            put(&mut image, 2, r.pick(&[c + 1, n + 1, n.wrapping_sub(1), u32::MAX]));
        }
        3 => {
            let used = get(&image, 3);
            put(&mut image, 3, r.pick(&[used + 1, used.wrapping_sub(1), u32::MAX]));
        }
        4 | 5 if n > 0 => {
            let i = 4 + 2 * r.below(n as u64) as usize;
            let (length, start) = (get(&image, i), get(&image, i + 1));
            if r.percent(50) {
                put(&mut image, i, r.pick(&[length + 1, length.wrapping_sub(1), 32_769, u32::MAX]));
            } else {
                put(&mut image, i + 1, r.pick(&[start + 1, start.wrapping_sub(1), start | 1 << 31]));
            }
        }
        // The last record is longer than any may be, and all else fits it.
        6 => {
            image = vec![0; 16 + 8 + 40_000];
            let length = r.pick(&[32_768, 32_769]);
            for (i, x) in [1, 1, 1, length, length, 0].into_iter().enumerate() {
                put(&mut image, i, x);
            }
        }
        7 => image.truncate(r.below(40) as usize),
        8 => {
            let cut = r.below(image.len() as u64 + 1) as usize;
            image.truncate(cut);
        }
        _ => {
            let i = r.below(image.len() as u64) as usize;
            image[i] ^= 1 << r.below(8);
        }
    }
    image
}
