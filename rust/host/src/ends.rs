//! The two ends of a session, data and mover, and the peer of each that is joined by TCP.
use crate::peer::{Joined, Peer};
use crate::sys::{self, Poll};
use proved::{Data, Mover, Session, codes};
use std::fmt::{self, Display};

#[derive(Clone, Copy, Debug, PartialEq)]
pub enum End {
    Data,
    Mover,
}

pub const BOTH: [End; 2] = [End::Data, End::Mover];

impl Display for End {
    fn fmt(&self, f: &mut fmt::Formatter) -> fmt::Result {
        f.write_str(if *self == End::Data { "data" } else { "mover" })
    }
}

/// What an end does with its peer.
#[derive(Clone, Copy, Debug, PartialEq)]
pub enum Does {
    /// It is LOCAL, or has no peer.
    Nothing,
    Listens,
    /// Joined, and nothing says yet which way bytes will go.
    Waits,
    Sends,
    Receives,
    /// It would receive, but for a pause.
    Holds,
}

impl End {
    pub fn is_idle(self, s: &Session) -> bool {
        match self {
            End::Data => s.source.state == Data::IDLE,
            End::Mover => s.mover.state == Mover::IDLE,
        }
    }

    /// What it does, as the core has it.
    pub fn does(self, s: &Session) -> Does {
        match self {
            End::Data if s.source.address == codes::TCP_ADDRESS => match (s.source.state, s.source.operation) {
                (Data::LISTEN, _) => Does::Listens,
                (Data::CONNECTED, _) => Does::Waits,
                (Data::ACTIVE, Data::BACKUP) => Does::Sends,
                (Data::ACTIVE, _) => Does::Receives,
                _ => Does::Nothing,
            },
            End::Mover if s.mover.address == codes::TCP_ADDRESS => match (s.mover.state, s.mover.mode) {
                (Mover::LISTEN, _) => Does::Listens,
                (Mover::ACTIVE, Mover::TO_TAPE) => Does::Receives,
                (Mover::PAUSED, Mover::TO_TAPE) => Does::Holds,
                (Mover::ACTIVE | Mover::PAUSED, _) => Does::Sends,
                _ => Does::Nothing,
            },
            _ => Does::Nothing,
        }
    }
}

/// An end's peer, for people.
#[derive(Clone, Debug, Default, PartialEq)]
pub struct Far {
    /// The ports that are open for it.
    pub ports: Vec<String>,
    pub peer: Option<String>,
    /// Bytes that went to it or came from it.
    pub bytes: u64,
}

#[derive(Default)]
pub struct Ends {
    pub data: Peer,
    pub mover: Peer,
}

impl Ends {
    pub fn of(&mut self, end: End) -> &mut Peer {
        match end {
            End::Data => &mut self.data,
            End::Mover => &mut self.mover,
        }
    }

    fn at(&self, end: End) -> &Peer {
        match end {
            End::Data => &self.data,
            End::Mover => &self.mover,
        }
    }

    pub fn any(&self) -> bool {
        BOTH.iter().any(|end| !matches!(self.at(*end), Peer::None))
    }

    /// Closes what the session no longer has: a port after a stop or an abort, a connection after a halt. Gives the connections
    /// that were closed.
    pub fn follow(&mut self, s: &Session) -> Vec<(End, Joined)> {
        let mut closed = Vec::new();
        for end in BOTH {
            let peer = self.of(end);
            let kept = match (&*peer, end.does(s)) {
                (Peer::None, _) => true,
                (Peer::Listening(_), does) => does == Does::Listens,
                (Peer::Joined(_), does) => !matches!(does, Does::Nothing | Does::Listens),
            };
            if !kept && let Peer::Joined(joined) = std::mem::take(peer) {
                if is_whole(end, s, &joined) {
                    joined.end_in_order();
                }
                closed.push((end, joined));
            }
        }
        closed
    }

    /// What is waited for besides the client.
    pub fn polls(&self, s: &Session) -> Vec<Poll> {
        let mut all = Vec::new();
        for end in BOTH {
            match self.at(end) {
                Peer::None => {}
                // Both sides have ended it, which a poll would tell at once, over and over: the next look sees to it.
                Peer::Joined(joined) if joined.is_closing() && joined.ends => {}
                Peer::Listening(open) => all.extend(open.iter().map(|l| Poll::new(l, sys::IN))),
                Peer::Joined(joined) => all.push(joined.poll(events(end, s, joined))),
            }
        }
        all
    }

    /// Whether an end waits until its peer's system has confirmed all, of which nothing else tells.
    pub fn is_closing(&self) -> bool {
        BOTH.iter().any(|end| matches!(self.at(*end), Peer::Joined(joined) if joined.is_closing()))
    }

    pub fn far(&self) -> [Far; 2] {
        BOTH.map(|end| match self.at(end) {
            Peer::None => Far::default(),
            open @ Peer::Listening(_) => {
                Far { ports: open.ports().iter().map(|at| at.to_string()).collect(), ..Far::default() }
            }
            Peer::Joined(joined) => Far { peer: Some(joined.name.to_string()), bytes: joined.bytes, ..Far::default() },
        })
    }
}

/// Whether an end may end its connection in order: its peer takes that for the word that all has been sent, or is on the tape.
fn is_whole(end: End, s: &Session, joined: &Joined) -> bool {
    let (d, m) = (&s.source, &s.mover);
    let moved = m.state == Mover::HALTED && m.halt == Mover::CONNECT_CLOSED && joined.held().is_empty();
    match end {
        End::Data => d.operation != Data::BACKUP || (d.state, d.reason) == (Data::HALTED, Data::SUCCESSFUL),
        End::Mover => moved && (m.mode != Mover::TO_TAPE || joined.ended),
    }
}

/// What a peer's socket is waited for. An error is seen in any case.
fn events(end: End, s: &Session, joined: &Joined) -> i16 {
    match end.does(s) {
        Does::Receives if !joined.ended => sys::IN,
        Does::Sends if joined.is_closing() => sys::ENDED,
        // The data end always has something to send, until it closes.
        Does::Sends if end == End::Data || !joined.held().is_empty() => sys::OUT | sys::ENDED,
        Does::Sends => sys::ENDED,
        Does::Waits if !joined.ends => sys::ENDED,
        _ => 0,
    }
}
