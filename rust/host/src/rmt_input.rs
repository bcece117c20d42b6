//! Commands of rmt (source 001) from a stream of bytes: each is taken whole before anything of it is done, W with its data.
//! Lines, data, and the time that a command takes are bounded.
use crate::sys;
use std::fs::File;
use std::io::{ErrorKind, Read};
use std::time::{Duration, Instant};

/// A line is no longer, without its LF. No reply needs more of one that is.
const LONGEST_LINE: usize = 4_096;
/// Data of a W that is handed on. More are read and dropped.
const MOST_DATA: u32 = 1 << 20;
/// A number has no more digits.
const MOST_DIGITS: usize = 10;
/// What is read at once.
const ROOM: usize = 1 << 16;

/// How the input ended.
#[derive(Debug, PartialEq)]
pub enum End {
    /// Between two commands.
    Closed,
    /// Inside one.
    Cut,
    /// No command began in its time.
    Silent,
    /// One began and was not whole in its time.
    TooSlow,
    Failed(String),
}

/// A whole command, as the core is to have it.
#[derive(Debug, Default, PartialEq)]
pub struct Command {
    pub bytes: Vec<u8>,
    /// Its lines, without the data.
    pub head: usize,
    /// Whether it cannot be told where the next command begins: behind a W whose count is no number.
    pub lost: bool,
}

pub struct Input<R> {
    from: R,
    buffer: Vec<u8>,
    start: usize,
    end: usize,
    /// Whether an S came last: an LF behind it is still its own.
    after_status: bool,
    idle: Duration,
    within: Duration,
}

/// Where bytes come from, and how long they are waited for.
pub trait Source {
    /// How many bytes came by then, 0 at the end of all; none where the time is over.
    fn take(&mut self, buffer: &mut [u8], until: Instant) -> Result<Option<usize>, String>;
}

impl Source for &File {
    fn take(&mut self, buffer: &mut [u8], until: Instant) -> Result<Option<usize>, String> {
        loop {
            let left = until.saturating_duration_since(Instant::now());
            if left.is_zero() {
                return Ok(None);
            }
            if !sys::readable(*self, left) {
                continue;
            }
            match self.read(buffer) {
                Err(e) if matches!(e.kind(), ErrorKind::Interrupted | ErrorKind::WouldBlock) => {}
                other => return other.map(Some).map_err(|e| e.to_string()),
            }
        }
    }
}

/// A number of the protocol: 1 to 10 digits, at most 4,294,967,295.
pub fn number(digits: &[u8]) -> Option<u32> {
    let plain = (1..=MOST_DIGITS).contains(&digits.len()) && digits.iter().all(u8::is_ascii_digit);
    std::str::from_utf8(digits).ok().filter(|_| plain)?.parse().ok()
}

impl<R: Source> Input<R> {
    /// A command begins within `idle`, and is whole in `within` from then on.
    pub fn new(from: R, idle: Duration, within: Duration) -> Input<R> {
        Input { from, buffer: vec![0; ROOM], start: 0, end: 0, after_status: false, idle, within }
    }

    /// What is there, at least a byte. At the end, and when the time is over, it is this end.
    fn some(&mut self, until: Instant, at_end: End, late: End) -> Result<&[u8], End> {
        if self.start == self.end {
            (self.start, self.end) = (0, 0);
            match self.from.take(&mut self.buffer, until).map_err(End::Failed)? {
                None => return Err(late),
                Some(0) => return Err(at_end),
                Some(n) => self.end = n,
            }
        }
        Ok(&self.buffer[self.start..self.end])
    }

    fn inside(&mut self, until: Instant) -> Result<&[u8], End> {
        self.some(until, End::Cut, End::TooSlow)
    }

    /// The next command's letter, which is waited for.
    fn letter(&mut self) -> Result<u8, End> {
        loop {
            let letter = self.some(Instant::now() + self.idle, End::Closed, End::Silent)?[0];
            self.start += 1;
            if !(std::mem::take(&mut self.after_status) && letter == b'\n') {
                return Ok(letter);
            }
        }
    }

    /// One line with its LF, behind what is there. False if it is too long: what does not fit is dropped.
    fn line(&mut self, bytes: &mut Vec<u8>, until: Instant) -> Result<bool, End> {
        let (mut room, mut fits) = (LONGEST_LINE, true);
        loop {
            let some = self.inside(until)?;
            let end = some.iter().position(|b| *b == b'\n');
            let n = end.unwrap_or(some.len());
            fits &= n <= room;
            bytes.extend(&some[..n.min(room)]);
            room -= n.min(room);
            self.start += n;
            if end.is_some() {
                self.start += 1;
                bytes.push(b'\n');
                return Ok(fits);
            }
        }
    }

    /// So many bytes of data, kept or dropped.
    fn data(&mut self, mut count: u32, mut keep: Option<&mut Vec<u8>>, until: Instant) -> Result<(), End> {
        while count > 0 {
            let some = self.inside(until)?;
            let n = some.len().min(count as usize);
            if let Some(bytes) = &mut keep {
                bytes.extend(&some[..n]);
            }
            self.start += n;
            count -= n as u32;
        }
        Ok(())
    }

    /// The next command, which is waited for.
    pub fn next(&mut self) -> Result<Command, End> {
        let letter = self.letter()?;
        let until = Instant::now() + self.within;
        let mut bytes = vec![letter];
        let lines = match letter {
            b'O' | b'I' | b'L' => 2,
            // GNU's library sends S without an LF, and waits for the reply.
            b'S' | b'\n' => 0,
            _ => 1,
        };
        let mut fits = true;
        for _ in 0..lines {
            fits &= self.line(&mut bytes, until)?;
        }
        self.after_status = letter == b'S';
        let head = bytes.len();
        let mut lost = false;
        if letter == b'W' {
            match number(bytes[1..].strip_suffix(b"\n").unwrap_or_default()) {
                Some(n) if n <= MOST_DATA => self.data(n, Some(&mut bytes), until)?,
                Some(n) => self.data(n, None, until)?,
                None => lost = true,
            }
        }
        if !fits {
            // A letter alone is no command: the core refuses it.
            bytes.truncate(1);
        }
        Ok(Command { head: head.min(bytes.len()), bytes, lost })
    }
}

#[cfg(test)]
mod tests {
    use super::*;
    use std::collections::VecDeque;

    /// Pieces as they come; behind them the end, or nothing for ever.
    struct Pieces(VecDeque<Vec<u8>>, bool);

    impl Source for &mut Pieces {
        fn take(&mut self, buffer: &mut [u8], _: Instant) -> Result<Option<usize>, String> {
            let Some(piece) = self.0.pop_front() else { return Ok(self.1.then_some(0)) };
            buffer[..piece.len()].copy_from_slice(&piece);
            Ok(Some(piece.len()))
        }
    }

    fn read(pieces: &mut Pieces) -> (Vec<Command>, End) {
        let mut input = Input::new(pieces, Duration::from_secs(1), Duration::from_secs(1));
        let mut all = Vec::new();
        loop {
            match input.next() {
                Ok(command) => all.push(command),
                Err(end) => return (all, end),
            }
        }
    }

    /// The commands of some bytes, however they are cut into pieces.
    fn commands(bytes: &[u8]) -> (Vec<Vec<u8>>, End) {
        let whole = read(&mut Pieces(bytes.chunks(ROOM).map(<[u8]>::to_vec).collect(), true));
        for n in [1, 2, 7] {
            let cut = read(&mut Pieces(bytes.chunks(n).map(<[u8]>::to_vec).collect(), true));
            assert!(cut == whole, "pieces of {n}");
        }
        (whole.0.into_iter().map(|c| c.bytes).collect(), whole.1)
    }

    #[test]
    fn commands_are_taken_whole() {
        let all: [&[u8]; 10] = [
            b"Otape0\n65 O_WRONLY|O_CREAT\n",
            b"W5\nA\nB\nC",
            b"W0\n",
            b"R10240\n",
            b"I5\n2\n",
            b"L0\n0\n",
            b"xyz\n",
            b"\n",
            b"O\n\n",
            b"C\n",
        ];
        assert_eq!(commands(&all.concat()), (all.map(<[u8]>::to_vec).to_vec(), End::Closed));
        assert_eq!(commands(b""), (vec![], End::Closed));
    }

    /// With an LF or without; a second LF is a command of its own.
    #[test]
    fn status_may_have_its_lf() {
        let told = |bytes: &[u8], all: &[&[u8]]| {
            assert_eq!(commands(bytes), (all.iter().map(|c| c.to_vec()).collect(), End::Closed), "{bytes:?}");
        };
        told(b"S", &[b"S"]);
        told(b"S\n", &[b"S"]);
        told(b"SC\nS\nR1\n", &[b"S", b"C\n", b"S", b"R1\n"]);
        told(b"S\n\nSS\nC\n", &[b"S", b"\n", b"S", b"S", b"C\n"]);
    }

    #[test]
    fn input_that_is_cut_is_told() {
        for whole in [&b"Otape0\n0\n"[..], b"W5\n12345", b"I1\n1\n", b"L0\n0\n", b"C\n", b"x\n"] {
            for n in 1..whole.len() {
                let bytes = [b"C\n", &whole[..n]].concat();
                assert_eq!(commands(&bytes), (vec![b"C\n".to_vec()], End::Cut), "{whole:?} at {n}");
            }
        }
    }

    #[test]
    fn time_is_bounded() {
        let end = |pieces: &[&[u8]]| read(&mut Pieces(pieces.iter().map(|p| p.to_vec()).collect(), false)).1;
        assert_eq!((end(&[]), end(&[b"C\n"]), end(&[b"S\n"])), (End::Silent, End::Silent, End::Silent));
        assert_eq!((end(&[b"C"]), end(&[b"W2\nx"]), end(&[b"I1\n"])), (End::TooSlow, End::TooSlow, End::TooSlow));
    }

    #[test]
    fn long_lines_are_dropped_and_the_next_is_found() {
        for (n, fits) in [(LONGEST_LINE, true), (LONGEST_LINE + 1, false), (3 * ROOM + 5, false)] {
            let path = [b"O", &vec![b'a'; n][..], b"\n0\n"].concat();
            let mode = [b"Ox\n", &vec![b'1'; n][..], b"\n"].concat();
            let other = [b"x", &vec![b'y'; n][..], b"\n"].concat();
            for long in [path, mode, other] {
                let first = if fits { long.clone() } else { long[..1].to_vec() };
                let bytes = [&long[..], b"R1\n"].concat();
                assert_eq!(commands(&bytes).0, [first, b"R1\n".to_vec()], "{n}");
            }
        }
    }

    #[test]
    fn data_beyond_the_bound_are_dropped() {
        let most = MOST_DATA as usize;
        for (n, kept) in [(most, most), (most + 1, 0), (3 * most, 0)] {
            let line = format!("W{n}\n").into_bytes();
            let bytes = [&line[..], &vec![7; n][..], b"C\n"].concat();
            let (all, end) = read(&mut Pieces(bytes.chunks(ROOM).map(<[u8]>::to_vec).collect(), true));
            assert_eq!((all.len(), end), (2, End::Closed), "{n}");
            assert_eq!((all[0].bytes.len(), all[0].head, all[0].lost), (line.len() + kept, line.len(), false));
            assert_eq!(all[1].bytes, b"C\n");
        }
    }

    /// What follows such a W may be its data, and is not taken for commands.
    #[test]
    fn count_that_is_no_number_is_the_last() {
        let long = format!("W{}1\n", "0".repeat(LONGEST_LINE));
        for line in ["W\n", "W-1\n", "W 1\n", "W1 \n", "W00000000001\n", "W4294967296\n", "W1\r\n", &long] {
            let (all, _) = read(&mut Pieces(line.as_bytes().chunks(ROOM).map(<[u8]>::to_vec).collect(), true));
            assert!(all.len() == 1 && all[0].lost, "{line}");
        }
    }

    #[test]
    fn numbers_are_read() {
        for (text, n) in [("0", Some(0)), ("0000000012", Some(12)), ("4294967295", Some(u32::MAX))] {
            assert_eq!(number(text.as_bytes()), n, "{text}");
        }
        for text in ["", "4294967296", "00000000001", "+1", "-1", " 1", "1 ", "1\n", "x"] {
            assert_eq!(number(text.as_bytes()), None, "{text}");
        }
    }
}
