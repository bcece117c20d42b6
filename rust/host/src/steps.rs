//! What a session does of itself, in steps, between which the client is heard; and how long it waits when there is nothing to
//! do.
use crate::ends::{BOTH, Does, End};
use crate::job::Job;
use crate::line::{Line, Over, Result};
use crate::sys::{self, Poll};
use proved::{Data, Mover, codes};
use std::time::{Duration, Instant};

/// Between two looks whether a peer's system has confirmed all.
const LOOK: Duration = Duration::from_millis(10);

/// One step. False when there is nothing to do before the client's next request, or a peer's next bytes.
pub fn step(line: &mut Line) -> Result<bool> {
    let mut more = false;
    for end in BOTH {
        more |= line.meet(end)?;
    }
    more |= line.run()?;
    more |= line.run_mover()?;
    if more {
        line.heard = Instant::now();
        line.progress.moved(&line.core, line.whole);
        line.show();
    }
    Ok(more)
}

impl Line<'_> {
    /// The data end's method, by LOCAL or TCP.
    fn run(&mut self) -> Result<bool> {
        if self.core.source.state != Data::ACTIVE {
            if let Some(job) = self.job.take() {
                self.tell(&job);
            }
            self.whole = None;
            return self.watch(End::Data);
        }
        let mut job = match self.job.take() {
            Some(job) => job,
            None => match self.begin() {
                Ok(job) => job,
                Err(why) => return self.fail(&why),
            },
        };
        let local = self.core.source.address == codes::LOCAL_ADDRESS;
        let moved = match &mut job {
            Job::Recover(recover) if recover.closed => self.finish(recover),
            Job::Backup(stream) if local => self.feed(stream),
            Job::Recover(recover) if local => self.hand(recover),
            _ if self.watch(End::Data)? => Ok(true),
            Job::Backup(stream) => self.stream_to_peer(stream),
            Job::Recover(recover) => self.peer_to_stream(recover),
        };
        if self.core.source.state == Data::ACTIVE {
            self.job = Some(job);
        } else {
            self.tell(&job);
        }
        moved
    }

    /// The mover, where it is joined by TCP. By LOCAL the method moves its bytes.
    fn run_mover(&mut self) -> Result<bool> {
        if self.watch(End::Mover)? {
            return Ok(true);
        }
        match End::Mover.does(&self.core) {
            Does::Receives => self.peer_to_tape(),
            Does::Sends if self.core.mover.state == Mover::ACTIVE => self.tape_to_peer(),
            _ => Ok(false),
        }
    }

    /// How long the client may say nothing, and how that is told.
    pub fn patience(&self) -> (Duration, &'static str) {
        let limits = self.shared.limits;
        match self.held {
            Some(_) => (limits.hold.min(limits.idle), "had the tape and said nothing for"),
            // One that has the changer may wait for a backup in another session to fill its tape.
            None => (limits.idle, "said nothing for"),
        }
    }

    /// Waits until the client or a peer has something, or it is time to look.
    pub fn wait(&mut self) -> Result<()> {
        let (limit, why) = self.patience();
        let left = limit.saturating_sub(self.heard.elapsed());
        if left.is_zero() {
            return self.waited(limit, why);
        }
        let mut all = self.ends.polls(&self.core);
        all.push(Poll::new(&self.socket, sys::IN));
        sys::wait(&mut all, if self.ends.is_closing() { left.min(LOOK) } else { left });
        Ok(())
    }

    /// Nothing has happened for so long: a peer is given up that should have sent or taken something, and otherwise the client.
    fn waited(&mut self, limit: Duration, why: &str) -> Result<()> {
        let late: Vec<End> = BOTH.into_iter().filter(|end| self.waits_for(*end)).collect();
        if late.is_empty() {
            return Err(Over::Gone(format!("ended: {why} {} seconds", limit.as_secs())));
        }
        for end in late {
            if let (End::Data, Some(Job::Recover(r))) = (end, &mut self.job) {
                r.target.abandon();
            }
            self.lost(end, format_args!("it sent and took nothing for {} seconds", limit.as_secs()))?;
        }
        self.heard = Instant::now();
        Ok(())
    }

    /// Whether an end can do nothing before its peer does.
    fn waits_for(&mut self, end: End) -> bool {
        let held = self.ends.of(end).joined().is_some_and(|joined| !joined.held().is_empty());
        match (end, end.does(&self.core)) {
            (_, Does::Receives) | (End::Data, Does::Sends) => true,
            (End::Mover, Does::Sends) => held,
            _ => false,
        }
    }
}
