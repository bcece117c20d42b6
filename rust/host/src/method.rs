//! The data end's method: how it begins and ends, whatever way its bytes go; and what comes of a cartridge file that cannot
//! follow.
use crate::job::{Job, Recover};
use crate::line::{Line, Over, Result, seconds};
use crate::restore::Target;
use crate::stream::Stream;
use crate::tar;
use crate::untar;
use proved::{Data, Moved, codes};
use std::time::{Duration, Instant};

/// Bytes of one step, and its time: after either the client is heard.
pub const STEP: usize = 4 << 20;
pub const SPAN: Duration = Duration::from_millis(250);

impl Line<'_> {
    /// Lines of one's own, from elsewhere.
    fn warn(&self) -> Box<dyn Fn(&str) + Send> {
        let (log, number) = (self.shared.log.clone(), self.number);
        Box::new(move |text: &str| log.error(format_args!("session {number}: {text}")))
    }

    pub fn begin(&mut self) -> std::result::Result<Job, String> {
        if self.core.source.operation == Data::BACKUP { self.begin_backup() } else { self.begin_recover() }
    }

    fn begin_backup(&mut self) -> std::result::Result<Job, String> {
        let path = self.shared.stream.as_ref().ok_or("nothing to back up: started without --stream")?;
        let options =
            tar::Options { strict: self.shared.strict, except: self.shared.except.clone(), warn: self.warn() };
        let stream = Stream::open(path, options).map_err(|e| format!("{}: {e}", path.display()))?;
        // To a peer the core counts no bytes, of which it could be a part.
        let local = self.core.source.address == codes::LOCAL_ADDRESS;
        self.whole = stream.length().filter(|_| local);
        Ok(Job::Backup(Box::new(stream)))
    }

    fn begin_recover(&mut self) -> std::result::Result<Job, String> {
        let path = self.shared.restore_to.as_ref().ok_or("nowhere to restore: started without --restore-to")?;
        // Of a peer's mover nothing is known here: its client asks for the bytes.
        let local = self.core.source.address == codes::LOCAL_ADDRESS;
        let (left, seek) = if local { (self.core.mover.left, self.core.mover.seek) } else { (0, 0) };
        if left > 0 && seek > 0 {
            return Err(format!("a recover begins at the stream's start, and not at {seek}"));
        }
        let wanted = self.wishes.wanted(self.shared.stream.as_deref())?;
        let options = untar::Options { except: self.shared.except.clone(), wanted, warn: self.warn() };
        let from = if local { "the tape" } else { "the connection" };
        let target = Target::open(path, from, options).map_err(|e| format!("{}: {e}", path.display()))?;
        let dest = vec![0; if local { codes::LONGEST_RECORD } else { 0 }];
        Ok(Job::Recover(Recover { target, dest, given: left > 0, closed: false }))
    }

    /// The stream has ended. It is judged, and what was restored gets its names, in steps.
    pub fn finish(&mut self, r: &mut Recover) -> Result<bool> {
        if !r.closed {
            if let Err(e) = r.target.close() {
                return self.give_up(r, &e.to_string());
            }
            r.closed = true;
        }
        match r.target.commit(Instant::now() + SPAN) {
            Ok(false) => Ok(true),
            Ok(true) => match &r.target.missing()[..] {
                [] => self.end(true),
                names => self.fail(&format!("not in the archive: {}", names.join(", "))),
            },
            Err(e) => self.give_up(r, &e.to_string()),
        }
    }

    /// The recover failed: what was restored in part is gone before the client knows.
    pub fn give_up(&mut self, r: &mut Recover, why: &str) -> Result<bool> {
        r.target.abandon();
        self.fail(why)
    }

    pub fn fail(&mut self, why: &str) -> Result<bool> {
        self.progress.error(why);
        self.end(false)
    }

    /// The method's end, which halts the data end, and a mover that is joined with it by LOCAL, and tells the client.
    pub fn end(&mut self, ok: bool) -> Result<bool> {
        let done = proved::end_method(self.core, ok, seconds(), &mut self.out);
        self.became(done.code, done.session, None)?;
        self.deliver(done.len)?;
        Ok(true)
    }

    /// Takes over a move to tape from this position. Whether the next may follow at once.
    pub fn wrote(&mut self, done: &Moved, before: usize) -> Result<bool> {
        self.became(done.code, done.session, Some(before))?;
        self.unstored += done.count;
        if done.len > 0 {
            self.deliver(done.len)?;
            return Ok(false);
        }
        if self.unstored >= self.burst
            && let Err(why) = self.store()
        {
            self.medium_failed(why)?;
            return Ok(false);
        }
        Ok(true)
    }

    /// What stands at the output's start is sent when what it tells is on the disk.
    pub fn deliver(&mut self, len: usize) -> Result<()> {
        match self.store() {
            Ok(()) => self.send(len),
            Err(why) => self.medium_failed(why),
        }
    }

    /// The file could not follow: the session goes back to what the client was told, and the core is asked what comes of
    /// a medium that is not sound. It halts the mover, and data that is joined with it, and the client is told so.
    pub fn medium_failed(&mut self, why: Over) -> Result<()> {
        self.sure()?;
        self.progress.error(&why);
        self.back();
        let done = proved::move_to_tape(self.core, &mut [], &[], false, seconds(), &mut self.out);
        self.became(done.code, done.session, None)?;
        if done.len == 0 { Err(why) } else { self.send(done.len) }
    }

    /// The last line of a backup or a recover.
    pub fn tell(&mut self, job: &Job) {
        let how = self.core.source.halt_name();
        match job {
            Job::Backup(stream) => {
                let tar::Counts { files, folders, links, left_out } = stream.counts();
                self.progress.line(format_args!(
                    "backup ended ({how}): {files} files, {folders} folders, {links} links, {left_out} left out"
                ));
            }
            Job::Recover(r) => {
                let (c, proved, unowned) = r.target.counts();
                let untar::Counts { files, folders, links, left_out } = c;
                let digest = if proved { "right" } else { "not told" };
                let owners = if unowned > 0 { format!(", {unowned} without their owner") } else { String::new() };
                self.progress.line(format_args!(
                    "recover ended ({how}): {files} files, {folders} folders, {links} links, {left_out} left out{owners}; digest {digest}"
                ));
            }
        }
    }
}
