//! The stream's bytes by TCP: from a peer to tape and from tape to a peer, where the mover is joined with one; from the folder
//! or file to a peer and back, where the data end is. A peer that keeps one waiting is left until it has something again.
use crate::ends::{Does, End};
use crate::job::Recover;
use crate::line::{Line, Result, image, seconds};
use crate::method::{SPAN, STEP};
use crate::peer::Peer;
use crate::stream::Stream;
use proved::{Answer, Mover};
use std::fmt::Display;
use std::time::Instant;

impl Line<'_> {
    /// Whoever has connected to an open port is the end's peer.
    pub fn meet(&mut self, end: End) -> Result<bool> {
        // A disk that fails takes the session back to its listen: before the port is closed.
        if self.unstored > 0
            && matches!(self.ends.of(end), Peer::Listening(_))
            && let Err(why) = self.store()
        {
            self.medium_failed(why)?;
            return Ok(true);
        }
        match self.ends.of(end).accept() {
            None => Ok(false),
            Some(Ok(peer)) => {
                self.progress.line(format_args!("{end} is joined by TCP with {peer}, which connected"));
                let done = proved::made(self.core, end == End::Mover, seconds(), &mut self.out);
                self.happened(&done)
            }
            Some(Err(e)) => {
                // Such as too many open files: that may pass.
                if !std::mem::replace(&mut self.unmet, true) {
                    self.progress.error(format_args!("{end}: a peer could not be taken, and is tried again: {e}"));
                }
                std::thread::sleep(std::time::Duration::from_millis(100));
                Ok(false)
            }
        }
    }

    /// The connection with an end's peer has ended or broken, or is given up.
    pub fn lost(&mut self, end: End, why: impl Display) -> Result<bool> {
        let peer = self.ends.of(end).joined().map_or("?".into(), |joined| joined.name.to_string());
        if end == End::Mover && self.core.mover.mode == Mover::FROM_TAPE {
            // In order, where the peer has all that it wants.
            self.progress.line(format_args!("mover's peer {peer} takes no more: {why}"));
        } else {
            self.progress.error(format_args!("{end} lost its peer {peer}: {why}"));
        }
        let done = proved::lost(self.core, end == End::Mover, seconds(), &mut self.out);
        self.happened(&done)
    }

    /// Takes over an event. What moved before it is on the disk when it is told; where nothing did, no disk is asked.
    fn happened(&mut self, done: &Answer) -> Result<bool> {
        self.became(done.code, done.session, None)?;
        match self.unstored {
            0 => self.send(done.len)?,
            _ => self.deliver(done.len)?,
        }
        Ok(true)
    }

    /// A step of an end that is joined by TCP and moves no bytes now: its peer may go.
    pub fn watch(&mut self, end: End) -> Result<bool> {
        let does = end.does(&self.core);
        let gone = match (does, self.ends.of(end).joined()) {
            (Does::Nothing | Does::Listens, _) => false,
            // A disk that failed took the session back to before the connection was closed.
            (_, None) => true,
            (Does::Holds, Some(joined)) => joined.is_broken(),
            // What came before it went may be the stream.
            (Does::Waits, Some(joined)) if joined.has_ended() && joined.has_bytes() && !joined.is_broken() => {
                joined.ends = true;
                false
            }
            (Does::Waits | Does::Sends, Some(joined)) => !joined.is_closing() && joined.has_ended(),
            (Does::Receives, Some(_)) => false,
        };
        if gone { self.lost(end, "the connection has ended") } else { Ok(false) }
    }

    /// A step of the mover to tape.
    pub fn peer_to_tape(&mut self) -> Result<bool> {
        let begun = Instant::now();
        let (mut moved, before, record) = (0, self.ends.mover.bytes(), self.core.mover.size as usize);
        while moved < STEP && begun.elapsed() < SPAN {
            let Some(joined) = self.ends.mover.joined() else { return Ok(false) };
            if joined.held().len() < record && !joined.ended {
                match joined.fill() {
                    Ok(true) => continue,
                    // Less than a record is something too.
                    Ok(false) => return Ok(joined.bytes > before),
                    Err(e) => return self.lost(End::Mover, e),
                }
            }
            // The peer sees the connection's end when all is on the disk.
            if joined.ended
                && joined.held().is_empty()
                && let Err(why) = self.store()
            {
                self.medium_failed(why)?;
                return Ok(true);
            }
            let Some(joined) = self.ends.mover.joined() else { return Ok(false) };
            let (position, part, image) = (self.core.tape.position, joined.held(), image(&mut self.held));
            let done = proved::move_to_tape(self.core, image, part, joined.ended, seconds(), &mut self.out);
            joined.taken(done.count);
            moved += done.count;
            if !self.wrote(&done, position)? {
                return Ok(true);
            }
            if done.count == 0 {
                return Ok(self.ends.mover.bytes() > before);
            }
        }
        Ok(true)
    }

    /// A step of the mover from tape, as far as its client's mover reads ask. The next record is taken from the tape when the last
    /// is sent: so a pause is told when all before it has gone.
    pub fn tape_to_peer(&mut self) -> Result<bool> {
        let begun = Instant::now();
        let (mut moved, before) = (0, self.ends.mover.bytes());
        while moved < STEP && begun.elapsed() < SPAN {
            let Some(joined) = self.ends.mover.joined() else { return Ok(false) };
            match joined.flush() {
                Ok(true) => {}
                Ok(false) => return Ok(joined.bytes > before),
                Err(e) => return self.lost(End::Mover, e),
            }
            let (image, room) = (image(&mut self.held), joined.room());
            let done = proved::move_from_tape(self.core, image, room, seconds(), &mut self.out);
            joined.filled(done.count);
            moved += done.count;
            self.became(done.code, done.session, None)?;
            if done.len > 0 {
                self.send(done.len)?;
                return Ok(true);
            }
            if done.count == 0 {
                return Ok(self.ends.mover.bytes() > before);
            }
        }
        Ok(true)
    }

    /// A step of a backup to a peer. It has succeeded when the peer has all of it.
    pub fn stream_to_peer(&mut self, stream: &mut Stream) -> Result<bool> {
        let begun = Instant::now();
        let mut moved = 0;
        while moved < STEP && begun.elapsed() < SPAN {
            let Some(joined) = self.ends.data.joined() else { return Ok(false) };
            let (part, last) = match stream.part(1) {
                Ok(part) => part,
                Err(e) => return self.fail(&e.to_string()),
            };
            if part.is_empty() && !last {
                return Ok(true);
            }
            if part.is_empty() {
                return match joined.close(self.shared.limits.send) {
                    Ok(true) => self.end(true),
                    Ok(false) => Ok(moved > 0),
                    Err(e) => self.lost(End::Data, e),
                };
            }
            match joined.send(part) {
                Ok(0) => return Ok(moved > 0),
                Ok(n) => {
                    stream.taken(n);
                    moved += n;
                }
                Err(e) => return self.lost(End::Data, e),
            }
        }
        Ok(true)
    }

    /// A step of a recover from a peer: all that comes, until the stream has told its end or the peer closes.
    pub fn peer_to_stream(&mut self, r: &mut Recover) -> Result<bool> {
        let begun = Instant::now();
        let mut moved = 0;
        while moved < STEP && begun.elapsed() < SPAN {
            let Some(joined) = self.ends.data.joined() else { return Ok(false) };
            match joined.fill() {
                Ok(true) => {}
                Ok(false) => return Ok(moved > 0),
                Err(e) => {
                    // What was restored in part is gone before the client knows.
                    r.target.abandon();
                    return self.lost(End::Data, e);
                }
            }
            let (n, ended) = (joined.held().len(), joined.ended);
            let took = r.target.take(joined.held());
            joined.taken(n);
            moved += n;
            match took {
                Err(e) => return self.give_up(r, &e.to_string()),
                Ok(()) if r.target.done() || ended => return self.finish(r),
                Ok(()) => {}
            }
        }
        Ok(true)
    }
}
