//! Unpacks a tar archive that comes in parts. A stream that the vault made tells its length and digest at its end: nothing
//! gets its name before they were found right.
use crate::folder::Id;
use crate::format::{self, BEGINS, BLOCK, ENDS, NOT_WHOLE, told_end};
use crate::place::{Meta, Place, Writing, plain};
use crate::sha256::Sha256;
use std::ffi::{OsStr, OsString};
use std::io;
use std::os::unix::ffi::OsStrExt;
use std::path::{Path, PathBuf};
use std::time::{Duration, Instant, SystemTime};

/// A long name or pax header is not longer than this.
const LONGEST_NAME: u64 = 65_536;

/// What a recover is told besides its path.
pub struct Options {
    /// Files that are never replaced: the cartridge.
    pub except: Vec<Id>,
    /// Only these are restored, with what is below them; all if there are none.
    pub wanted: Vec<PathBuf>,
    /// Takes a line for each entry that is not restored as it was.
    pub warn: Box<dyn Fn(&str) + Send>,
}

impl Options {
    pub fn warning(warn: impl Fn(&str) + Send + 'static) -> Options {
        Options { except: Vec::new(), wanted: Vec::new(), warn: Box::new(warn) }
    }
}

enum Into {
    Nothing,
    File(Box<Writing>),
    /// The body of a header of this kind.
    Name(u8, Vec<u8>),
}

/// From headers before an entry: what its fields cannot hold.
#[derive(Default)]
struct Long {
    name: Option<Vec<u8>>,
    link: Option<Vec<u8>>,
    user: Option<u32>,
    group: Option<u32>,
    time: Option<SystemTime>,
    holes: bool,
    linked: bool,
}

/// What was restored.
#[derive(Clone, Copy, Debug, Default, PartialEq)]
pub struct Counts {
    pub files: u64,
    pub folders: u64,
    pub links: u64,
    pub left_out: u64,
}

pub struct Untar {
    /// None if the archive is only judged.
    place: Option<Place>,
    /// The one file of the archive gets this name.
    single: Option<OsString>,
    options: Options,
    /// Which of the wanted names were found.
    found: Vec<bool>,
    block: Vec<u8>,
    /// Bytes of the entry's body still to come, and the fill behind them.
    left: u64,
    fill: usize,
    into: Into,
    long: Long,
    zeros: usize,
    entries: u64,
    /// The name of the entry before.
    last: Vec<u8>,
    digest: Sha256,
    /// The bytes of a comment that may be the end's, which is not part of what it tells.
    held: Option<Vec<u8>>,
    /// Whether the stream began as one that tells its digest, and whether it did.
    begun: bool,
    proved: bool,
    pub counts: Counts,
}

fn bad(why: impl ToString) -> io::Error {
    io::Error::new(io::ErrorKind::InvalidData, why.to_string())
}

fn octal(field: &[u8]) -> io::Result<u64> {
    let text: Vec<u8> =
        field.iter().copied().skip_while(|b| *b == b' ').take_while(|b| !matches!(b, 0 | b' ')).collect();
    text.iter()
        .try_fold(0u64, |v, b| match b {
            b'0'..=b'7' => v.checked_mul(8).map(|v| v + (b - b'0') as u64),
            _ => None,
        })
        .ok_or_else(|| bad("the archive has a number that cannot be read"))
}

fn until_nul(field: &[u8]) -> &[u8] {
    &field[..field.iter().position(|b| *b == 0).unwrap_or(field.len())]
}

fn checksum_holds(b: &[u8]) -> bool {
    let sum: u64 = b.iter().enumerate().map(|(i, x)| if (148..156).contains(&i) { 32 } else { *x as u64 }).sum();
    octal(&b[148..156]).is_ok_and(|told| told == sum)
}

/// The records of a pax header: `LENGTH KEY=VALUE\n`.
fn pax(mut bytes: &[u8]) -> io::Result<Vec<(&[u8], &[u8])>> {
    let mut all = Vec::new();
    while !bytes.is_empty() {
        let space = bytes.iter().position(|b| *b == b' ').ok_or_else(|| bad("bad pax header"))?;
        let n: usize = number(&bytes[..space])?;
        let record =
            bytes.get(space + 1..n).and_then(|r| r.strip_suffix(b"\n")).ok_or_else(|| bad("bad pax header"))?;
        let is = record.iter().position(|b| *b == b'=').ok_or_else(|| bad("bad pax header"))?;
        all.push((&record[..is], &record[is + 1..]));
        bytes = &bytes[n..];
    }
    Ok(all)
}

fn number<T: std::str::FromStr>(text: &[u8]) -> io::Result<T> {
    std::str::from_utf8(text).ok().and_then(|t| t.parse().ok()).ok_or_else(|| bad("bad pax header"))
}

/// Seconds with a part of a second, before 1970 with a sign.
fn time(text: &[u8]) -> io::Result<SystemTime> {
    let (before, digits) = text.strip_prefix(b"-").map_or((false, text), |rest| (true, rest));
    let mut two = digits.splitn(2, |b| *b == b'.');
    let seconds: u64 = number(two.next().unwrap_or_default())?;
    let mut nanos = two.next().unwrap_or_default().to_vec();
    nanos.resize(9, b'0');
    let span = Duration::new(seconds.min(1 << 40), number(&nanos)?);
    let start = SystemTime::UNIX_EPOCH;
    let time = if before { start.checked_sub(span) } else { start.checked_add(span) };
    time.ok_or_else(|| bad("bad pax header"))
}

impl Untar {
    /// Into a folder.
    pub fn new(root: &Path, options: Options) -> io::Result<Untar> {
        let place = Place::new(root, &options.except)?;
        Ok(Untar::with(Some(place), None, options))
    }

    /// The one file of an archive, as a file of this name.
    pub fn one(folder: &Path, name: &OsStr, options: Options) -> io::Result<Untar> {
        let place = Place::new(folder, &options.except)?;
        Ok(Untar::with(Some(place), Some(name.to_os_string()), options))
    }

    /// Nowhere: the archive is judged, and no more.
    pub fn judge() -> Untar {
        Untar::with(None, None, Options::warning(|_| ()))
    }

    fn with(place: Option<Place>, single: Option<OsString>, options: Options) -> Untar {
        Untar {
            place,
            single,
            found: vec![false; options.wanted.len()],
            options,
            block: Vec::with_capacity(BLOCK),
            left: 0,
            fill: 0,
            into: Into::Nothing,
            long: Long::default(),
            zeros: 0,
            entries: 0,
            last: Vec::new(),
            digest: Sha256::default(),
            held: None,
            begun: false,
            proved: false,
            counts: Counts::default(),
        }
    }

    /// Whether the archive's end, two blocks of zeros, was seen.
    pub fn done(&self) -> bool {
        self.zeros == 2
    }

    /// Whether length and digest were told, and are right.
    pub fn is_proved(&self) -> bool {
        self.proved
    }

    pub fn unowned(&self) -> u64 {
        self.place.as_ref().map_or(0, |p| p.unowned)
    }

    /// Bytes that the digest covers, unless they are the end's.
    fn count(&mut self, bytes: &[u8]) {
        match &mut self.held {
            Some(held) => held.extend(bytes),
            None => self.digest.add(bytes),
        }
    }

    /// Takes a part of the archive and gives how much of it: what follows its end is fill.
    pub fn take(&mut self, part: &[u8]) -> io::Result<usize> {
        let mut rest = part;
        while !rest.is_empty() && !self.done() {
            if self.left > 0 {
                let n = rest.len().min(self.left.try_into().unwrap_or(usize::MAX));
                self.count(&rest[..n]);
                self.body(&rest[..n])?;
                self.left -= n as u64;
                rest = &rest[n..];
                if self.left == 0 {
                    self.close()?;
                }
            } else if self.fill > 0 {
                let n = rest.len().min(self.fill);
                self.count(&rest[..n]);
                self.fill -= n;
                rest = &rest[n..];
            } else {
                let n = rest.len().min(BLOCK - self.block.len());
                self.block.extend(&rest[..n]);
                rest = &rest[n..];
                if self.block.len() == BLOCK {
                    let block = std::mem::take(&mut self.block);
                    self.header(&block)?;
                }
            }
        }
        Ok(part.len() - rest.len())
    }

    /// Gives the entries their names, until all is done or so late.
    pub fn commit(&mut self, until: Instant) -> io::Result<bool> {
        self.place.as_mut().map_or(Ok(true), |p| p.commit(until))
    }

    /// What was wanted and is not in the archive.
    pub fn missing(&self) -> Vec<String> {
        let all = self.options.wanted.iter().zip(&self.found);
        all.filter(|(_, found)| !**found).map(|(name, _)| name.display().to_string()).collect()
    }

    fn body(&mut self, part: &[u8]) -> io::Result<()> {
        match &mut self.into {
            Into::Nothing => Ok(()),
            Into::File(w) => w.put(part).map_err(|e| bad(format!("{}: {e}", OsStr::from_bytes(&self.last).display()))),
            Into::Name(_, bytes) => {
                bytes.extend(part);
                Ok(())
            }
        }
    }

    /// The entry's body is whole.
    fn close(&mut self) -> io::Result<()> {
        match std::mem::replace(&mut self.into, Into::Nothing) {
            Into::Nothing => Ok(()),
            Into::File(w) => self.place.as_mut().map_or(Ok(()), |p| p.close(*w)),
            Into::Name(b'g', bytes) => self.comments(&bytes),
            Into::Name(b'L', bytes) => {
                self.long.name = Some(until_nul(&bytes).to_vec());
                Ok(())
            }
            Into::Name(b'K', bytes) => {
                self.long.link = Some(until_nul(&bytes).to_vec());
                Ok(())
            }
            Into::Name(_, bytes) => self.lengthen(&bytes),
        }
    }

    /// A pax header of the entry behind it.
    fn lengthen(&mut self, bytes: &[u8]) -> io::Result<()> {
        for (key, value) in pax(bytes)? {
            match key {
                b"path" => self.long.name = Some(value.to_vec()),
                b"linkpath" => self.long.link = Some(value.to_vec()),
                b"uid" => self.long.user = Some(number(value)?),
                b"gid" => self.long.group = Some(number(value)?),
                b"mtime" => self.long.time = Some(time(value)?),
                b"comment" if value == format::SPARSE.as_bytes() => self.long.holes = true,
                b"comment" if value == format::LINKED.as_bytes() => self.long.linked = true,
                b"size" => return Err(bad("a file is too long for this unpacker")),
                _ if key.starts_with(b"GNU.sparse") => return Err(bad("a file with holes of a form that is not read")),
                _ => {}
            }
        }
        Ok(())
    }

    /// What the vault itself has to say: of the stream, or of the entry before.
    fn comments(&mut self, bytes: &[u8]) -> io::Result<()> {
        for (key, value) in pax(bytes)? {
            let text = std::str::from_utf8(value).unwrap_or_default();
            if key != b"comment" {
                continue;
            } else if text.starts_with(BEGINS) {
                self.begun |= self.digest.length == 0;
            } else if text.starts_with(ENDS) {
                let right = told_end(&self.digest);
                if text != right {
                    return Err(bad(format!("the stream was changed: it says \"{text}\", and has \"{right}\"")));
                }
                self.proved = true;
            } else if let Some(why) = text.strip_prefix(NOT_WHOLE) {
                let name = std::mem::take(&mut self.last);
                let shown = OsStr::from_bytes(&name).display().to_string();
                (self.options.warn)(&format!("left out: {shown}: not whole in the archive, it {why}"));
                (self.counts.files, self.counts.left_out) =
                    (self.counts.files.saturating_sub(1), self.counts.left_out + 1);
                if let Some(place) = &mut self.place {
                    place.drop_last(&name);
                }
            }
        }
        Ok(())
    }

    fn end(&mut self) -> io::Result<()> {
        self.zeros += 1;
        if self.zeros < 2 {
            return Ok(());
        }
        if self.begun && !self.proved {
            return Err(bad("the archive ends without its length and digest: it was cut short or changed"));
        }
        if !self.begun && self.entries == 0 {
            return Err(bad("the stream begins with zeros: there is no archive here"));
        }
        if self.single.is_some() && self.counts.files + self.counts.left_out != 1 {
            return Err(bad("the archive does not hold one file"));
        }
        if !self.proved {
            (self.options.warn)("the stream carries no digest: nothing tells whether it is as it was written");
        }
        Ok(())
    }

    fn header(&mut self, b: &[u8]) -> io::Result<()> {
        if let Some(held) = self.held.take().filter(|_| !self.proved) {
            self.digest.add(&held);
        }
        if b.iter().all(|x| *x == 0) {
            return self.end();
        }
        self.zeros = 0;
        if !checksum_holds(b) {
            return Err(bad(if self.digest.length == 0 {
                "the stream does not begin as an archive does"
            } else {
                "the stream is not an archive here: it was cut short or changed"
            }));
        }
        if self.proved {
            return Err(bad("the archive goes on behind its end"));
        }
        let kind = b[156];
        let size = if matches!(kind, b'1'..=b'6') { 0 } else { octal(&b[124..136])? };
        self.left = size;
        self.fill = (BLOCK - (size % BLOCK as u64) as usize) % BLOCK;
        if matches!(kind, b'L' | b'K' | b'x' | b'g') {
            if size > LONGEST_NAME {
                return Err(bad("a name in the archive is too long"));
            }
            self.into = Into::Name(kind, Vec::new());
        }
        if kind == b'g' {
            self.held = Some(b.to_vec());
        } else {
            self.digest.add(b);
        }
        if !matches!(kind, b'L' | b'K' | b'x' | b'g') {
            self.entry(b, kind)?;
        }
        if self.left == 0 { self.close() } else { Ok(()) }
    }

    /// Whether an entry is one of those that are wanted.
    fn is_wanted(&mut self, path: &Path) -> bool {
        let mut any = self.options.wanted.is_empty();
        for (name, found) in self.options.wanted.iter().zip(&mut self.found) {
            let here = path.starts_with(name);
            *found |= here;
            any |= here;
        }
        any
    }

    fn entry(&mut self, b: &[u8], kind: u8) -> io::Result<()> {
        let long = std::mem::take(&mut self.long);
        let (name, prefix) = (until_nul(&b[..100]), until_nul(&b[345..500]));
        let short =
            if prefix.is_empty() || &b[257..263] != b"ustar\0" { name.to_vec() } else { [prefix, b"/", name].concat() };
        let name = long.name.unwrap_or(short);
        let link = long.link.unwrap_or(until_nul(&b[157..257]).to_vec());
        self.entries += 1;
        self.last = name.clone();
        let Some(path) = plain(&name)? else { return Ok(()) };
        let mode = octal(&b[100..108])? as u32;
        let seconds = Duration::from_secs(octal(&b[136..148])?.min(1 << 33));
        let user = long.user.map_or_else(|| octal(&b[108..116]).map(|n| n as u32), Ok)?;
        let group = long.group.map_or_else(|| octal(&b[116..124]).map(|n| n as u32), Ok)?;
        let time = Some(long.time.unwrap_or(SystemTime::UNIX_EPOCH + seconds));
        let meta = Meta { mode: mode & 0o777, owner: Some((user, group)), time };
        let kept = self.is_wanted(&path);
        if kept && mode & 0o7000 != 0 {
            (self.options.warn)(&format!("set-uid, set-gid and sticky bits are not restored: {}", path.display()));
        }
        if self.place.is_none() {
            return Ok(());
        }
        match (kind, kept) {
            (b'0' | 0 | b'7', _) => self.file(&path, meta, long.holes, kept, long.linked),
            (_, false) => Ok(()),
            (b'1', _) => self.hard_link(&path, &link),
            _ => self.other(&path, kind, meta, &link),
        }
    }

    fn file(&mut self, path: &Path, meta: Meta, holes: bool, kept: bool, linked: bool) -> io::Result<()> {
        let Some(place) = &mut self.place else { return Ok(()) };
        if !kept && !linked {
            return Ok(());
        }
        let single = self.single.as_deref().map(Path::new);
        self.into = Into::File(Box::new(place.begin(single.unwrap_or(path), &self.last, meta, holes, kept)?));
        self.counts.files += kept as u64;
        Ok(())
    }

    fn hard_link(&mut self, path: &Path, first: &[u8]) -> io::Result<()> {
        let Some(place) = &mut self.place else { return Ok(()) };
        if place.hard_link(path, first)? {
            self.counts.links += 1;
        } else {
            self.counts.left_out += 1;
            let (name, first) = (path.display(), OsStr::from_bytes(first).display());
            (self.options.warn)(&format!("left out: {name}: another name of {first}, which is not restored"));
        }
        Ok(())
    }

    fn other(&mut self, path: &Path, kind: u8, meta: Meta, link: &[u8]) -> io::Result<()> {
        let Some(place) = &mut self.place else { return Ok(()) };
        match kind {
            _ if self.single.is_some() => Err(bad("the archive does not hold one file")),
            b'5' => {
                self.counts.folders += 1;
                place.folder(path, meta)
            }
            b'2' => {
                self.counts.links += 1;
                place.link(path, OsStr::from_bytes(link), meta)
            }
            _ => Err(bad(format!("{}: an entry of a kind that is not restored", path.display()))),
        }
    }
}
