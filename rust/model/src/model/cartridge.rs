//! "The cartridge".

use super::xdr::Reader;

/// A sound image, read. Positions count entries.
pub struct Cartridge<'a> {
    image: &'a mut [u8],
    pub capacity: u64,
    /// The lengths of the n entries; 0 is a mark.
    pub entries: Vec<u32>,
    room: u64,
}

/// How a tape operation ended: its error (0, 12 or 13), the new position, and what is left of the count.
pub struct Walked {
    pub error: u32,
    pub position: u64,
    pub residue: u32,
}

impl<'a> Cartridge<'a> {
    /// "Four words: 1, capacity C (1 to 4,096), entries n, bytes used. Then C entries of two words: length (0 is a
    /// mark, else 1 to 32,768) and start. Then B body bytes to the image's end, at most 134,217,728. Sound: first word
    /// 1, sizes and lengths in range, n at most C, used at most B, the start of entry i is the sum of lengths before
    /// it, used the sum of all n. Entries past n are not read."
    pub fn read(image: &'a mut [u8]) -> Option<Cartridge<'a>> {
        let mut r = Reader(image);
        let version = r.word()?;
        let capacity = r.word()? as u64;
        let n = r.word()? as u64;
        let used = r.word()? as u64;
        if version != 1 || !(1..=4096).contains(&capacity) {
            return None;
        }
        let room = (image.len() as u64).checked_sub(16 + 8 * capacity)?;
        if room > 134_217_728 || n > capacity || used > room {
            return None;
        }
        let mut entries = Vec::new();
        let mut sum = 0u64;
        for _ in 0..n {
            let length = r.word()?;
            let start = r.word()? as u64;
            if length > 32_768 || start != sum {
                return None;
            }
            sum += length as u64;
            entries.push(length);
        }
        if sum != used {
            return None;
        }
        Some(Cartridge { image, capacity, entries, room })
    }

    /// The image of a tape that stands at this position. None: "image unsound ... 7 also if the position is above n".
    pub fn standing(image: &'a mut [u8], position: u64) -> Option<Cartridge<'a>> {
        Cartridge::read(image).filter(|c| position <= c.n())
    }

    pub fn n(&self) -> u64 {
        self.entries.len() as u64
    }

    /// The bytes before a position.
    pub fn kept(&self, position: u64) -> u64 {
        self.entries[..position as usize].iter().map(|l| *l as u64).sum()
    }

    fn body(&self) -> usize {
        16 + 8 * self.capacity as usize
    }

    fn put_word(&mut self, at: usize, x: u64) {
        self.image[at..at + 4].copy_from_slice(&(x as u32).to_be_bytes());
    }

    fn put_entry(&mut self, i: u64, length: u64, start: u64) {
        self.put_word(16 + 8 * i as usize, length);
        self.put_word(20 + 8 * i as usize, start);
    }

    /// "There is room if the position is below C and the kept bytes plus the record fit in B."
    pub fn has_room(&self, position: u64, length: u64) -> bool {
        position < self.capacity && self.kept(position) + length <= self.room
    }

    /// "Writing cuts the list at the position and uses the room again. ... Old entries and bytes past the end stay."
    /// The record is `length` bytes long, and zeros fill what the data does not.
    pub fn write(mut self, position: u64, data: &[u8], length: u64) {
        let start = self.kept(position);
        self.put_word(8, position + 1);
        self.put_word(12, start + length);
        self.put_entry(position, length, start);
        let at = self.body() + start as usize;
        let record = &mut self.image[at..at + length as usize];
        record.fill(0);
        record[..data.len()].copy_from_slice(data);
    }

    /// "Op 5 with count 0 changes nothing; if all do not fit: 13, residue count, nothing cut."
    pub fn write_marks(mut self, position: u64, count: u32) -> Walked {
        let end = position + count as u64;
        if end > self.capacity {
            return Walked { error: 13, position, residue: count };
        }
        if count > 0 {
            let start = self.kept(position);
            for i in position..end {
                self.put_entry(i, 0, start);
            }
            self.put_word(8, end);
            self.put_word(12, start);
        }
        Walked { error: 0, position: end, residue: 0 }
    }

    /// The record at an entry.
    pub fn record(&self, i: u64) -> &[u8] {
        let at = self.body() + self.kept(i) as usize;
        &self.image[at..at + self.entries[i as usize] as usize]
    }

    /// "a record gives its first count bytes and is passed; a mark is passed with 12; the end gives 13." Count is not 0
    /// here.
    pub fn read_at(&self, position: u64, count: u32) -> (u32, u64, &[u8]) {
        match self.entries.get(position as usize) {
            None => (13, position, &[]),
            Some(0) => (12, position + 1, &[]),
            Some(length) => (0, position + 1, &self.record(position)[..count.min(*length) as usize]),
        }
    }

    /// "FSF stops after the count-th mark, BSF before it; at an end 13."
    pub fn space_files(&self, from: u64, count: u32, forward: bool) -> Walked {
        let mut position = from;
        let mut residue = count;
        while residue > 0 {
            let Some(is_mark) = self.step(&mut position, forward) else {
                return Walked { error: 13, position, residue };
            };
            if is_mark {
                residue -= 1;
            }
        }
        Walked { error: 0, position, residue }
    }

    /// "FSR and BSR pass records; a mark is passed, ends the walk with 12 and is not counted; at an end 13. Residue is
    /// count less what was counted."
    pub fn space_records(&self, from: u64, count: u32, forward: bool) -> Walked {
        let mut position = from;
        let mut residue = count;
        while residue > 0 {
            match self.step(&mut position, forward) {
                None => return Walked { error: 13, position, residue },
                Some(true) => return Walked { error: 12, position, residue },
                Some(false) => residue -= 1,
            }
        }
        Walked { error: 0, position, residue }
    }

    /// Passes one entry and says whether it is a mark; None at an end.
    fn step(&self, position: &mut u64, forward: bool) -> Option<bool> {
        let i = if forward { *position } else { position.checked_sub(1)? };
        let length = self.entries.get(i as usize)?;
        *position = if forward { i + 1 } else { i };
        Some(*length == 0)
    }

    /// "file number (marks before the position) and block number (records since the last)".
    pub fn place(&self, position: u64) -> (u32, u32) {
        let before = &self.entries[..position as usize];
        let marks = before.iter().filter(|l| **l == 0).count();
        let records = before.iter().rev().take_while(|l| **l != 0).count();
        (marks as u32, records as u32)
    }
}
