//! The cartridge in plain Rust, with bounds checks: what the rules of a request and of a move share.
use crate::common::RECORD;

#[inline]
pub fn word(s: &[u8], at: usize) -> usize {
    wire::word(s, at) as usize
}

#[inline]
pub fn put(s: &mut [u8], at: usize, v: usize) {
    wire::put_word(s, at, v as u32);
}

pub struct Header {
    pub entries: usize,
    pub used: usize,
}

pub fn header(image: &[u8]) -> Option<Header> {
    if image.len() < 16 {
        return None;
    }
    let (capacity, entries, used) = (word(image, 4), word(image, 8), word(image, 12));
    if word(image, 0) != 1 || !(1..=4096).contains(&capacity) || entries > capacity {
        return None;
    }
    let body = image.len().checked_sub(16 + capacity * 8)?;
    if body > 134_217_728 || used > body {
        return None;
    }
    Some(Header { entries, used })
}

#[inline(never)]
pub fn sound(image: &[u8]) -> bool {
    let Some(h) = header(image) else { return false };
    let mut sum = 0;
    for entry in image[16..16 + h.entries * 8].chunks_exact(8) {
        let (len, start) = (word(entry, 0), word(entry, 4));
        if len > RECORD || start != sum {
            return false;
        }
        sum += len;
    }
    sum == h.used
}

pub fn faulty(image: &[u8], position: usize) -> bool {
    !sound(image) || word(image, 8) < position
}

pub fn kept(image: &[u8], position: usize) -> usize {
    if position < word(image, 8) { word(image, 20 + position * 8) } else { word(image, 12) }
}

pub fn put_entry(image: &mut [u8], position: usize, keep: usize, len: usize) {
    put(image, 8, position + 1);
    put(image, 12, keep + len);
    put(image, 16 + position * 8, len);
    put(image, 20 + position * 8, keep);
}
