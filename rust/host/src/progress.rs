//! What a session tells of itself: a line for each change of state; on a terminal, while bytes move, one that is
//! rewritten.
use crate::log::Log;
use proved::{Data, Mover, Session, codes};
use std::fmt::Display;
use std::time::{Duration, Instant};

/// Between two looks at the bytes moved.
const OFTEN: Duration = Duration::from_millis(200);

pub struct Progress<'a> {
    log: &'a Log,
    number: usize,
    states: (u32, u32),
    /// Since the last change of state, with the bytes moved then.
    since: Instant,
    bytes: u64,
    shown: Instant,
}

/// The part of the window that is moved, in percent. Of a window with no end there is none.
pub fn percent(m: &Mover) -> Option<u64> {
    let done = m.moved.checked_sub(m.offset)?.min(m.length);
    let ends = m.length > 0 && m.length != Mover::ENDLESS;
    ends.then(|| (done as u128 * 100 / m.length as u128) as u64)
}

/// The window in words; numbers are written as the page or the log writes them.
pub fn window(m: &Mover, number: impl Fn(u64) -> String) -> String {
    match m.length {
        Mover::ENDLESS => format!("from {} with no end", number(m.offset)),
        length => format!("{} + {}", number(m.offset), number(length)),
    }
}

/// Said of an end whose address is no LOCAL one.
pub fn by_tcp(address: u32) -> &'static str {
    if address == codes::TCP_ADDRESS { " by TCP" } else { "" }
}

/// Data's and mover's state, with the bytes moved, their rate where bytes moved, and the window.
fn told(s: &Session, rate: Option<f64>) -> String {
    let mut text = format!("data {}{}", s.source.state_name(), by_tcp(s.source.address));
    if s.source.state == Data::HALTED {
        text += &format!(" ({})", s.source.halt_name());
    }
    text += &format!(", mover {}{}", s.mover.state_name(), by_tcp(s.mover.address));
    match s.mover.state {
        Mover::PAUSED => text += &format!(" ({})", s.mover.pause_name()),
        Mover::HALTED => text += &format!(" ({})", s.mover.halt_name()),
        _ => {}
    }
    text += &format!(", {} bytes", s.mover.moved);
    if let Some(rate) = rate {
        text += &format!(" at {rate:.1} MB/s");
    }
    if s.mover.length > 0 {
        text += &format!(", window {}", window(&s.mover, |n| n.to_string()));
    }
    text
}

/// The same for a terminal: also how far the window is done, and the stream where its length is known.
fn shown(s: &Session, rate: Option<f64>, whole: Option<u64>) -> String {
    let mut text = told(s, rate);
    if let Some(part) = percent(&s.mover) {
        text += &format!(" at {part}%");
    }
    if let Some(whole) = whole.filter(|n| *n > 0) {
        text += &format!(", {}% of the stream", s.source.processed.min(whole) as u128 * 100 / whole as u128);
    }
    text
}

impl<'a> Progress<'a> {
    pub fn new(log: &'a Log, number: usize) -> Progress<'a> {
        let now = Instant::now();
        Progress { log, number, states: (Data::IDLE, Mover::IDLE), since: now, bytes: 0, shown: now }
    }

    pub fn line(&self, text: impl Display) {
        self.log.line(format_args!("session {}: {text}", self.number));
    }

    pub fn error(&self, text: impl Display) {
        self.log.error(format_args!("session {}: {text}", self.number));
    }

    fn rate(&self, s: &Session) -> Option<f64> {
        let seconds = self.since.elapsed().as_secs_f64();
        let (data, mover) = self.states;
        // By TCP the mover needs no data end.
        let far = s.mover.address == codes::TCP_ADDRESS;
        let ran = mover == Mover::ACTIVE && (far || data == Data::ACTIVE);
        (ran && seconds > 0.0).then(|| s.mover.moved.saturating_sub(self.bytes) as f64 / seconds / 1e6)
    }

    /// Tells the states if one has changed. A terminal keeps the line of a halt, and rewrites the others.
    pub fn states(&mut self, s: &Session, whole: Option<u64>) {
        let now = (s.source.state, s.mover.state);
        if now == self.states {
            return;
        }
        let rate = self.rate(s);
        (self.states, self.since, self.bytes) = (now, Instant::now(), s.mover.moved);
        let far = s.mover.address == codes::TCP_ADDRESS;
        let halted = s.source.state == Data::HALTED || far && s.mover.state == Mover::HALTED;
        if self.log.rewrites() && !halted {
            self.rewrite(s, rate, whole);
        } else {
            self.line(told(s, rate));
        }
    }

    /// On a terminal: how far the move is.
    pub fn moved(&mut self, s: &Session, whole: Option<u64>) {
        if self.log.rewrites() && self.shown.elapsed() >= OFTEN {
            self.rewrite(s, self.rate(s), whole);
        }
    }

    fn rewrite(&mut self, s: &Session, rate: Option<f64>, whole: Option<u64>) {
        self.shown = Instant::now();
        self.log.rewrite(format_args!("session {}: {}", self.number, shown(s, rate, whole)));
    }
}

#[cfg(test)]
mod tests {
    use super::*;

    fn active(offset: u64, length: u64, moved: u64) -> Session {
        let mut s = proved::open(&[1, 0, 0, 0, 0, 0, 0, 0, 0], 0, &mut vec![0; proved::OUTPUT]).session;
        (s.source.state, s.source.operation, s.source.processed) = (Data::ACTIVE, Data::BACKUP, moved);
        s.mover.state = Mover::ACTIVE;
        (s.mover.offset, s.mover.length, s.mover.moved) = (offset, length, moved);
        s
    }

    #[test]
    fn percent_of_a_window() {
        for (offset, length, moved, part) in [
            (0, 4, 1, Some(25)),
            (8, 4, 12, Some(100)),
            (0, 0, 0, None),
            (8, 4, 2, None),
            (1, u64::MAX - 1, u64::MAX, Some(100)),
            (0, Mover::ENDLESS, 4, None),
        ] {
            assert_eq!(percent(&active(offset, length, moved).mover), part);
        }
    }

    #[test]
    fn move_in_words() {
        let s = active(1024, 4096, 2048);
        let text = "data ACTIVE, mover ACTIVE, 2048 bytes at 1.2 MB/s, window 1024 + 4096";
        assert_eq!(told(&s, Some(1.25)), text);
        assert_eq!(shown(&s, Some(1.25), None), format!("{text} at 25%"));
        assert_eq!(shown(&s, Some(1.25), Some(4096)), format!("{text} at 25%, 50% of the stream"));
        let endless = active(1024, Mover::ENDLESS, 2048);
        let text = "data ACTIVE, mover ACTIVE, 2048 bytes, window from 1024 with no end";
        assert_eq!(shown(&endless, None, Some(4096)), format!("{text}, 50% of the stream"));
        let mut paused = active(0, 0, 2048);
        assert_eq!(shown(&paused, None, Some(0)), "data ACTIVE, mover ACTIVE, 2048 bytes");
        paused.mover.address = codes::TCP_ADDRESS;
        assert_eq!(told(&paused, None), "data ACTIVE, mover ACTIVE by TCP, 2048 bytes");
    }
}
