//! RFC 4506: words and hypers are big-endian; opaque data and strings are a length, the bytes and a fill to a multiple
//! of four.

pub struct Reader<'a>(pub &'a [u8]);

impl<'a> Reader<'a> {
    pub fn take(&mut self, n: usize) -> Option<&'a [u8]> {
        if self.0.len() < n {
            return None;
        }
        let (head, rest) = self.0.split_at(n);
        self.0 = rest;
        Some(head)
    }

    /// "Enums decode as any word."
    pub fn word(&mut self) -> Option<u32> {
        Some(u32::from_be_bytes(self.take(4)?.try_into().unwrap()))
    }

    /// ndmp_u_quad: high word, low word.
    pub fn hyper(&mut self) -> Option<u64> {
        let high = self.word()?;
        let low = self.word()?;
        Some((high as u64) << 32 | low as u64)
    }

    /// 02 No. 6: "Fill bytes that are not zero, after any string or opaque field we read, shall not decode."
    pub fn opaque(&mut self) -> Option<&'a [u8]> {
        let n = self.word()? as usize;
        let bytes = self.take(n)?;
        let fill = self.take((4 - n % 4) % 4)?;
        fill.iter().all(|b| *b == 0).then_some(bytes)
    }

    /// "there the rest is not read"
    pub fn skip(&mut self) {
        self.0 = &[];
    }

    /// "Bytes left over make error 18."
    pub fn end(self) -> Option<()> {
        self.0.is_empty().then_some(())
    }
}

#[derive(Default)]
pub struct Writer(pub Vec<u8>);

impl Writer {
    pub fn words(words: &[u32]) -> Writer {
        let mut w = Writer::default();
        for x in words {
            w.word(*x);
        }
        w
    }

    pub fn word(&mut self, x: u32) {
        self.0.extend(x.to_be_bytes());
    }

    pub fn hyper(&mut self, x: u64) {
        self.word((x >> 32) as u32);
        self.word(x as u32);
    }

    /// "... and zero when written."
    pub fn opaque(&mut self, bytes: &[u8]) {
        self.word(bytes.len() as u32);
        self.0.extend(bytes);
        while self.0.len() % 4 != 0 {
            self.0.push(0);
        }
    }
}
