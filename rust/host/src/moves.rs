//! The stream's bytes by LOCAL: from the folder or file to tape, and back.
use crate::job::Recover;
use crate::line::{Line, Result, image, seconds};
use crate::method::{SPAN, STEP};
use crate::stream::Stream;
use proved::Mover;
use std::time::Instant;
use wire::{message, quads, request};

impl Line<'_> {
    /// A step of a backup.
    pub fn feed(&mut self, stream: &mut Stream) -> Result<bool> {
        if self.core.mover.state != Mover::ACTIVE || self.core.mover.mode != Mover::TO_TAPE {
            return Ok(false);
        }
        let begun = Instant::now();
        let (mut moved, record) = (0, self.core.mover.size as usize);
        while moved < STEP && begun.elapsed() < SPAN {
            let (part, last) = match stream.part(record) {
                Ok(part) => part,
                Err(e) => return self.fail(&e.to_string()),
            };
            if part.len() < record && !last {
                return Ok(true);
            }
            let before = self.core.tape.position;
            let done = proved::move_to_tape(self.core, image(&mut self.held), part, last, seconds(), &mut self.out);
            stream.taken(done.count);
            moved += done.count;
            if !self.wrote(&done, before)? {
                return Ok(true);
            }
            if done.count == 0 {
                return Ok(moved > 0);
            }
        }
        Ok(true)
    }

    /// A step of a recover.
    pub fn hand(&mut self, r: &mut Recover) -> Result<bool> {
        if self.core.mover.state != Mover::ACTIVE || self.core.mover.mode != Mover::FROM_TAPE {
            return Ok(false);
        }
        let begun = Instant::now();
        let mut moved = 0;
        while moved < STEP && begun.elapsed() < SPAN {
            if self.core.mover.left == 0 {
                if r.given {
                    return self.finish(r);
                }
                self.read_stream()?;
            }
            let done = proved::move_from_tape(self.core, image(&mut self.held), &mut r.dest, seconds(), &mut self.out);
            self.became(done.code, done.session, None)?;
            if let Err(e) = r.target.take(&r.dest[..done.count]) {
                return self.give_up(r, &e.to_string());
            }
            moved += done.count;
            self.send(done.len)?;
            let m = self.core.mover;
            let at_end = m.state == Mover::PAUSED && m.pause == Mover::END_OF_MEDIUM;
            let at_mark = m.state == Mover::PAUSED && m.pause == Mover::END_OF_FILE;
            if r.target.done() || (at_end || at_mark) && r.target.is_endless() && !r.given {
                return self.finish(r);
            }
            // Behind a mark the client may go on; behind the tape's end there is only another cartridge.
            if at_end && !self.shared.several {
                let why = r.target.cut_short();
                return self.give_up(r, &why);
            }
            if done.count == 0 {
                return Ok(done.len > 0);
            }
        }
        Ok(true)
    }

    /// The mover read that covers the stream, from its start to the last place that there can be. Nothing asks the
    /// client for it, so the host hands it to the core. Its reply is not sent, and so its number is given back: the
    /// vault numbers what it sends.
    fn read_stream(&mut self) -> Result<()> {
        let offset = self.core.mover.moved;
        let done = self.ask(&request(0, message::MOVER_READ, &quads(&[offset, u64::MAX - offset])));
        let mut next = done.session;
        next.sequence = self.core.sequence;
        self.became(done.code, next, None)
    }
}
