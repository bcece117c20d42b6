//! The same rules in plain Rust, with bounds checks: what the proved code is compared with.
use crate::common::RECORD;
use crate::proved_tape::{Part, Spaced, Wrote};
pub use crate::tape::sound;
use crate::tape::{faulty, header, kept, put_entry, word};

/// `sound` with each word read by its index, which is checked.
#[inline(never)]
pub fn sound_by_index(image: &[u8]) -> bool {
    let Some(h) = header(image) else { return false };
    let mut sum = 0;
    for i in 0..h.entries {
        let len = word(image, 16 + i * 8);
        if len > RECORD || word(image, 20 + i * 8) != sum {
            return false;
        }
        sum += len;
    }
    sum == h.used
}

#[inline(never)]
pub fn write(image: &mut [u8], position: usize, bytes: &[u8]) -> Wrote {
    let stays = |error| Wrote { error, count: 0, position };
    if bytes.len() > RECORD {
        return stays(9);
    }
    if faulty(image, position) {
        return stays(7);
    }
    if bytes.is_empty() {
        return stays(0);
    }
    let capacity = word(image, 4);
    let keep = kept(image, position);
    let start = 16 + capacity * 8 + keep;
    if position >= capacity || start + bytes.len() > image.len() {
        return stays(13);
    }
    put_entry(image, position, keep, bytes.len());
    image[start..start + bytes.len()].copy_from_slice(bytes);
    Wrote { error: 0, count: bytes.len() as u32, position: position + 1 }
}

#[inline(never)]
pub fn read(image: &[u8], position: usize, times: u32, out: &mut [u8]) -> Part {
    let nothing = |error, position| Part { error, position, start: 0, len: 0 };
    if times as usize > RECORD {
        return nothing(9, position);
    }
    if faulty(image, position) {
        return nothing(7, position);
    }
    if times == 0 {
        return nothing(0, position);
    }
    if position == word(image, 8) {
        return nothing(13, position);
    }
    let len = word(image, 16 + position * 8).min(times as usize);
    if len == 0 {
        return nothing(12, position + 1);
    }
    if out.len() < len {
        return nothing(1001, position);
    }
    let start = 16 + word(image, 4) * 8 + word(image, 20 + position * 8);
    out[..len].copy_from_slice(&image[start..start + len]);
    Part { error: 0, position: position + 1, start, len }
}

fn space(image: &[u8], op: u32, position: usize, times: u32) -> Spaced {
    let (forward, marks) = (op % 2 == 0, op < 2);
    let (mut at, mut left) = (position, times);
    while left > 0 {
        if if forward { at == word(image, 8) } else { at == 0 } {
            return Spaced { error: 13, position: at, residue: left };
        }
        let entry = if forward { at } else { at - 1 };
        let mark = word(image, 16 + entry * 8) == 0;
        at = if forward { at + 1 } else { at - 1 };
        if mark && !marks {
            return Spaced { error: 12, position: at, residue: left };
        }
        if mark == marks {
            left -= 1;
        }
    }
    Spaced { error: 0, position: at, residue: 0 }
}

#[inline(never)]
pub fn mtio(image: &mut [u8], op: u32, position: usize, times: u32) -> Spaced {
    let stays = |error, residue| Spaced { error, position, residue };
    if op > 6 {
        return stays(9, 0);
    }
    if op == 6 {
        return stays(1, 0);
    }
    if faulty(image, position) {
        return stays(7, 0);
    }
    match op {
        4 => Spaced { error: 0, position: 0, residue: 0 },
        5 => {
            let n = times as usize;
            if position + n > word(image, 4) {
                return stays(13, times);
            }
            let keep = kept(image, position);
            for at in position..position + n {
                put_entry(image, at, keep, 0);
            }
            Spaced { error: 0, position: position + n, residue: 0 }
        }
        _ => space(image, op, position, times),
    }
}
