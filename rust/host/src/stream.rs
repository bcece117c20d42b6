//! What a backup reads, a folder or a file as an archive, in parts of at least a record.
use crate::tar::{Counts, Options, Tar};
use std::io;
use std::path::Path;
use std::time::Duration;

const ROOM: usize = 1 << 20;
/// So long is read before the client is heard.
const LIMIT: Duration = Duration::from_millis(200);

pub struct Stream {
    from: Tar,
    buffer: Vec<u8>,
    start: usize,
    end: usize,
    /// Why the stream ends before its end; told when what was read before it is taken.
    failed: Option<io::Error>,
}

impl Stream {
    pub fn open(path: &Path, options: Options) -> io::Result<Stream> {
        let from = Tar::new(path, options)?;
        Ok(Stream { from, buffer: vec![0; ROOM], start: 0, end: 0, failed: None })
    }

    /// How many bytes there are in all, where that is known: a folder's archive is made as it is read.
    pub fn length(&self) -> Option<u64> {
        self.from.length
    }

    pub fn counts(&self) -> Counts {
        self.from.counts
    }

    /// The next part and whether it is the last. It has a whole record, unless it is the last or its time was over.
    pub fn part(&mut self, record: usize) -> io::Result<(&[u8], bool)> {
        if self.end - self.start < record && self.failed.is_none() && !self.from.is_over() {
            self.buffer.copy_within(self.start..self.end, 0);
            (self.start, self.end) = (0, self.end - self.start);
            let (n, how) = self.from.fill(&mut self.buffer[self.end..], LIMIT);
            self.end += n;
            self.failed = how.err();
        }
        if self.end - self.start < record
            && let Some(e) = self.failed.take()
        {
            return Err(e);
        }
        Ok((&self.buffer[self.start..self.end], self.from.is_over()))
    }

    pub fn taken(&mut self, n: usize) {
        self.start += n;
    }
}
