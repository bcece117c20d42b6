//! One connection's session and what it works on: the core's value, the cartridge while its tape is open, and the
//! method.
use crate::cartridge::Cartridge;
use crate::changer::Others;
use crate::ends::Ends;
use crate::folder::Id;
use crate::job::Job;
use crate::log::Log;
use crate::ports::Ports;
use crate::progress::Progress;
use crate::variables;
use crate::vault::{Vault, Visit};
use crate::watch::Watch;
use crate::wishes::Wishes;
use proved::{Challenge, Session, codes};
use std::collections::BTreeMap;
use std::fmt::{self, Display};
use std::io::{ErrorKind, Write};
use std::net::{Shutdown, TcpStream};
use std::path::PathBuf;
use std::sync::atomic::{AtomicBool, Ordering};
use std::sync::{Arc, Mutex, MutexGuard, PoisonError};
use std::time::{Duration, Instant, SystemTime};

/// How long a connection may keep the vault waiting.
#[derive(Clone, Copy)]
pub struct Limits {
    /// From the connection to the login.
    pub login: Duration,
    /// Without a request; the same while it has the tape.
    pub idle: Duration,
    pub hold: Duration,
    /// With an answer that it does not take.
    pub send: Duration,
}

/// What all connections share.
pub struct Shared {
    pub vault: Vault,
    /// Who may log in, as the core is lent it.
    pub accounts: Vec<u8>,
    pub stream: Option<PathBuf>,
    pub restore_to: Option<PathBuf>,
    /// Where peers connect.
    pub ports: Ports,
    /// The cartridges, which are neither backed up nor restored over.
    pub except: Vec<Id>,
    /// Whether there is another cartridge to go on with at a tape's end.
    pub several: bool,
    pub limits: Limits,
    /// Whether a file that cannot be read ends a backup.
    pub strict: bool,
    /// Whether tape writes are on the disk at the next mark only.
    pub marks: bool,
    pub log: Arc<Log>,
    /// For the status page, where there is one.
    pub watch: Option<Watch>,
    /// Those who are connected, and whether they are to go.
    pub open: Mutex<BTreeMap<usize, Option<TcpStream>>>,
    pub ending: AtomicBool,
}

impl Shared {
    fn open(&self) -> MutexGuard<'_, BTreeMap<usize, Option<TcpStream>>> {
        self.open.lock().unwrap_or_else(PoisonError::into_inner)
    }

    pub fn came(&self, number: usize, socket: &TcpStream) {
        self.open().insert(number, socket.try_clone().ok());
    }

    pub fn went(&self, number: usize) {
        self.open().remove(&number);
    }

    pub fn count(&self) -> usize {
        self.open().len()
    }

    /// Ends all connections: each ends in order, when its step is done.
    pub fn end_all(&self) -> usize {
        self.ending.store(true, Ordering::SeqCst);
        let open = self.open();
        open.values().flatten().for_each(|s| _ = s.shutdown(Shutdown::Both));
        open.len()
    }
}

/// Why a connection ends: for a reason of its own, or because something failed.
#[derive(Debug)]
pub enum Over {
    Gone(String),
    Failed(String),
}

impl From<String> for Over {
    fn from(why: String) -> Over {
        Over::Failed(why)
    }
}

impl Display for Over {
    fn fmt(&self, f: &mut fmt::Formatter) -> fmt::Result {
        let (Over::Gone(why) | Over::Failed(why)) = self;
        f.write_str(why)
    }
}

pub type Result<T> = std::result::Result<T, Over>;

pub struct Line<'a> {
    pub shared: &'a Shared,
    pub number: usize,
    pub core: Session,
    /// The session as it was when the client was last told of it: all of it is on the disk.
    pub told: Session,
    /// The cartridge, while this session's tape is open.
    pub held: Option<Cartridge>,
    /// Whether this session's changer is open, or being opened: no other has it.
    pub has_changer: bool,
    /// The places, while a request of the changer is answered; and what other sessions have meanwhile.
    pub visit: Option<Visit<'a>>,
    pub others: Others,
    pub job: Option<Job>,
    /// The peers of ends that are joined by TCP.
    pub ends: Ends,
    /// Whether it was told, since the last listen, that a peer could not be taken.
    pub unmet: bool,
    /// When the client last said something, or bytes moved.
    pub heard: Instant,
    pub wishes: Wishes,
    /// The store of the data end's variables, this session's own: none of another session's are in it.
    pub variables: Vec<u8>,
    /// The length of the stream that the job reads, where it is known.
    pub whole: Option<u64>,
    /// Lent with every request. The core gives and keeps it at get auth attributes alone, before which it is drawn.
    pub challenge: Challenge,
    pub out: Vec<u8>,
    pub progress: Progress<'a>,
    /// Bytes on the tape in memory that the file does not have yet, and how many there may be.
    pub unstored: usize,
    pub burst: usize,
    pub socket: TcpStream,
}

/// Bytes of a backup after which the cartridge file follows, at least and at most.
const LEAST_BURST: usize = 4 << 20;
const MOST_BURST: usize = 32 << 20;
/// The client is not heard meanwhile: it should not take longer.
const STORE_TIME: Duration = Duration::from_millis(400);

/// As many bytes as a disk stores in that time that stored so many in this.
fn burst(bytes: usize, took: Duration) -> usize {
    let most = bytes as f64 * STORE_TIME.as_secs_f64() / took.as_secs_f64().max(1e-6);
    (most as usize).clamp(LEAST_BURST, MOST_BURST)
}

pub fn seconds() -> u32 {
    SystemTime::now().duration_since(SystemTime::UNIX_EPOCH).map_or(0, |d| d.as_secs() as u32)
}

/// The bytes that a call works on; a session without the cartridge works on an empty image, which is no sound one.
pub fn image(held: &mut Option<Cartridge>) -> &mut [u8] {
    held.as_mut().map_or(&mut [], |c| &mut c.image)
}

impl<'a> Line<'a> {
    pub fn new(socket: TcpStream, shared: &'a Shared, number: usize, core: Session, out: Vec<u8>) -> Line<'a> {
        Line {
            shared,
            number,
            core,
            told: core,
            held: None,
            has_changer: false,
            visit: None,
            others: Others::default(),
            job: None,
            ends: Ends::default(),
            unmet: false,
            heard: Instant::now(),
            wishes: Wishes::default(),
            variables: variables::none(),
            whole: None,
            challenge: [0; codes::CHALLENGE_LENGTH],
            out,
            progress: Progress::new(&shared.log, number),
            unstored: 0,
            burst: LEAST_BURST,
            socket,
        }
    }
}

impl Line<'_> {
    /// One request of the core: the client's record, or one of the host's own. What comes back is not taken over yet.
    pub fn ask(&mut self, record: &[u8]) -> proved::Answer {
        self.ask_with(record, &[], false)
    }

    /// With the addresses that a listen by TCP answers, and whether the connection of a connect by TCP was made.
    pub fn ask_with(&mut self, record: &[u8], addresses: &[u8], made: bool) -> proved::Answer {
        let (accounts, challenge) = (&self.shared.accounts, &self.challenge);
        let (image, variables, out) = (image(&mut self.held), &mut self.variables, &mut self.out);
        let lent = self.others.lent(self.core);
        let mut done =
            proved::request(lent, accounts, challenge, addresses, made, image, variables, record, seconds(), out);
        done.session = self.others.back(self.core, done.session);
        done
    }

    /// Takes over what a call made of the session; `from` is the tape's position before a call that may have written
    /// there.
    pub fn became(&mut self, code: u32, next: Session, from: Option<usize>) -> Result<()> {
        if code != 0 {
            return Err(Over::Failed(format!("the core refused a call with {code}")));
        }
        if let (Some(position), Some(c)) = (from, &mut self.held)
            && next.tape.position != position
        {
            c.written(position);
        }
        self.core = next;
        self.progress.states(&self.core, self.whole);
        for (end, joined) in self.ends.follow(&self.core) {
            let (peer, bytes) = (joined.name, joined.bytes);
            self.progress.line(format_args!("{end}'s connection with {peer} is closed, {bytes} bytes"));
        }
        Ok(())
    }

    /// The cartridge file is still the one that was opened.
    pub fn sure(&self) -> Result<()> {
        Ok(self.held.as_ref().map_or(Ok(()), Cartridge::is_still_there)?)
    }

    /// The file follows the image.
    pub fn store(&mut self) -> Result<()> {
        self.sure()?;
        let begun = Instant::now();
        if let Some(c) = &mut self.held {
            let changed = c.store().map_err(|e| format!("the cartridge file could not be written: {e}"))?;
            if let (Some(watch), Some(from)) = (&self.shared.watch, changed) {
                watch.written(c, from);
            }
        }
        if self.unstored >= LEAST_BURST {
            self.burst = burst(self.unstored, begun.elapsed());
        }
        self.unstored = 0;
        Ok(())
    }

    /// What the client was not told has not been: the file does not have it.
    pub fn back(&mut self) {
        self.core = self.told;
        self.unstored = 0;
        if let Some(c) = &mut self.held {
            let from = c.cut_back();
            if let (Some(watch), Some(from)) = (&self.shared.watch, from) {
                watch.written(c, from);
            }
        }
    }

    /// Sends what stands at the output's start. The status page has it first, so that it is never behind what a client knows.
    pub fn send(&mut self, len: usize) -> Result<()> {
        let out = std::mem::take(&mut self.out);
        let sent = self.send_all(&out[..len]);
        self.out = out;
        sent
    }

    pub fn send_all(&mut self, mut bytes: &[u8]) -> Result<()> {
        self.sure()?;
        self.show();
        self.told = self.core;
        let begun = Instant::now();
        while !bytes.is_empty() {
            let slow = || Over::Gone(format!("took no answer for {} seconds", self.shared.limits.send.as_secs()));
            match self.socket.write(bytes) {
                Ok(0) => return Err(Over::Gone("connection lost".into())),
                Ok(n) => bytes = &bytes[n..],
                Err(e) if e.kind() == ErrorKind::Interrupted => {}
                Err(e) if matches!(e.kind(), ErrorKind::WouldBlock | ErrorKind::TimedOut) => return Err(slow()),
                Err(e) => return Err(Over::Gone(format!("connection lost: {e}"))),
            }
            // One that takes a byte now and then is no better than one that takes none.
            if !bytes.is_empty() && begun.elapsed() >= self.shared.limits.send {
                return Err(slow());
            }
        }
        Ok(())
    }

    pub fn hand_back(&mut self) {
        let Some(c) = self.held.take() else { return };
        // Before the next session can take it and say so.
        if let Some(watch) = &self.shared.watch {
            watch.holds(None);
        }
        self.shared.vault.give(c);
    }

    /// Shows the session as it is now to the status page.
    pub fn show(&self) {
        if let Some(watch) = &self.shared.watch {
            watch.is(self.number, &self.core, self.whole, self.ends.far());
        }
    }
}

impl Drop for Line<'_> {
    fn drop(&mut self) {
        // What was restored in part goes away before another session has the tape.
        self.job = None;
        if let Err(e) = self.store() {
            self.progress.error(e);
            self.back();
        }
        self.hand_back();
        self.hand_back_changer();
        if let Some(watch) = &self.shared.watch {
            watch.went(self.number);
        }
    }
}

#[cfg(test)]
mod tests {
    use super::*;

    #[test]
    fn slow_disks_are_given_less_at_a_time() {
        let mib = 1 << 20;
        for (bytes, millis, next) in [(4, 1, 32), (8, 400, 8), (8, 200, 16), (32, 3_200, 4), (32, 60_000, 4)] {
            assert_eq!(burst(bytes * mib, Duration::from_millis(millis)), next * mib);
        }
    }
}
