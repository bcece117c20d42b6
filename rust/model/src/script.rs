//! Calls as lines of text, so that a difference can be replayed.
//!
//!     accounts HEX                     these are lent from here on (hex, `-` is empty)
//!     image LENGTH HEX                 this image is lent from here on; zeros follow the bytes given
//!     store LENGTH HEX                 this store of the environment is lent from here on; zeros follow the bytes given
//!     session FIELD=VALUE ..           the session is replaced by this one
//!     open TIME ROOM SLOTS             the calls; ROOM is the output's length, SLOTS nine numbers with commas between
//!     request TIME ROOM CHALLENGE MADE LIST INPUT
//!                                      the challenge that is lent (64 bytes; zeros follow those given), whether a
//!                                      connection is made, and the list of addresses that is lent
//!     to TIME ROOM LAST STREAM         move to tape
//!     from TIME ROOM DESTINATION       move from tape; the destination's length
//!     end TIME ROOM OK                 the method's end
//!     made TIME ROOM MOVER             the events, of the mover (1) or of the data end (0)
//!     lost TIME ROOM MOVER
//!     rmt ROOM COMMAND                 a command of rmt
//!     listing ROOM                     the listing of the accounts

use crate::convert::{fields, set_field};
use crate::model::accounts::Challenge;
use proved::{Session, Slots};

#[derive(Clone)]
pub enum Step {
    Accounts(Vec<u8>),
    Image(Vec<u8>),
    Store(Vec<u8>),
    Session(Session),
    Open { time: u32, room: usize, slots: Slots },
    Request { time: u32, room: usize, challenge: Challenge, made: bool, list: Vec<u8>, input: Vec<u8> },
    To { time: u32, room: usize, last: bool, stream: Vec<u8> },
    From { time: u32, room: usize, destination: usize },
    End { time: u32, room: usize, ok: bool },
    Made { time: u32, room: usize, mover: bool },
    Lost { time: u32, room: usize, mover: bool },
    Rmt { room: usize, command: Vec<u8> },
    Listing { room: usize },
}

impl Step {
    pub fn is_call(&self) -> bool {
        self.room().is_some()
    }

    /// The output's length, of a call.
    pub fn room(&self) -> Option<usize> {
        match self {
            Step::Accounts(_) | Step::Image(_) | Step::Store(_) | Step::Session(_) => None,
            Step::Open { room, .. }
            | Step::Request { room, .. }
            | Step::To { room, .. }
            | Step::From { room, .. }
            | Step::End { room, .. }
            | Step::Made { room, .. }
            | Step::Lost { room, .. }
            | Step::Rmt { room, .. }
            | Step::Listing { room } => Some(*room),
        }
    }

    pub fn set_room(&mut self, length: usize) {
        match self {
            Step::Accounts(_) | Step::Image(_) | Step::Store(_) | Step::Session(_) => {}
            Step::Open { room, .. }
            | Step::Request { room, .. }
            | Step::To { room, .. }
            | Step::From { room, .. }
            | Step::End { room, .. }
            | Step::Made { room, .. }
            | Step::Lost { room, .. }
            | Step::Rmt { room, .. }
            | Step::Listing { room } => *room = length,
        }
    }

    pub fn line(&self) -> String {
        match self {
            Step::Accounts(accounts) => format!("accounts {}", hex(accounts)),
            Step::Image(image) => format!("image {}", shortened(image)),
            Step::Store(store) => format!("store {}", shortened(store)),
            Step::Session(s) => {
                let all: Vec<String> = fields(s).iter().map(|(name, x)| format!("{name}={x}")).collect();
                format!("session {}", all.join(" "))
            }
            Step::Open { time, room, slots } => {
                format!("open {time} {room} {}", slots.map(|n| n.to_string()).join(","))
            }
            Step::Request { time, room, challenge, made, list, input } => {
                let challenge = hex(without_zeros(challenge));
                format!("request {time} {room} {challenge} {} {} {}", *made as u8, hex(list), hex(input))
            }
            Step::To { time, room, last, stream } => format!("to {time} {room} {} {}", *last as u8, hex(stream)),
            Step::From { time, room, destination } => format!("from {time} {room} {destination}"),
            Step::End { time, room, ok } => format!("end {time} {room} {}", *ok as u8),
            Step::Made { time, room, mover } => format!("made {time} {room} {}", *mover as u8),
            Step::Lost { time, room, mover } => format!("lost {time} {room} {}", *mover as u8),
            Step::Rmt { room, command } => format!("rmt {room} {}", hex(command)),
            Step::Listing { room } => format!("listing {room}"),
        }
    }

    pub fn parse(line: &str, before: Session) -> Option<Step> {
        let mut words = line.split_whitespace();
        let kind = words.next()?;
        if kind == "session" {
            let mut s = before;
            for word in words {
                let (name, x) = word.split_once('=')?;
                set_field(&mut s, name, x.parse().ok()?)?;
            }
            return Some(Step::Session(s));
        }
        let w: Vec<&str> = words.collect();
        let whole = |i: usize| w.get(i)?.parse::<usize>().ok();
        let bytes = |i: usize| unhex(w.get(i)?);
        let time = || w.first()?.parse::<u32>().ok();
        let room = || whole(1);
        let yes = |i: usize| whole(i).map(|x| x != 0);
        Some(match kind {
            "accounts" => Step::Accounts(bytes(0)?),
            "image" | "store" => {
                let mut all = bytes(1)?;
                all.resize(whole(0)?, 0);
                if kind == "image" { Step::Image(all) } else { Step::Store(all) }
            }
            "open" => {
                let slots: Option<Vec<u32>> = w.get(2)?.split(',').map(|n| n.parse().ok()).collect();
                Step::Open { time: time()?, room: room()?, slots: slots?.try_into().ok()? }
            }
            "request" => {
                let mut lent = bytes(2)?;
                lent.resize(64, 0);
                let (challenge, made, list, input) = (lent.try_into().ok()?, yes(3)?, bytes(4)?, bytes(5)?);
                Step::Request { time: time()?, room: room()?, challenge, made, list, input }
            }
            "to" => Step::To { time: time()?, room: room()?, last: yes(2)?, stream: bytes(3)? },
            "from" => Step::From { time: time()?, room: room()?, destination: whole(2)? },
            "end" => Step::End { time: time()?, room: room()?, ok: yes(2)? },
            "made" => Step::Made { time: time()?, room: room()?, mover: yes(2)? },
            "lost" => Step::Lost { time: time()?, room: room()?, mover: yes(2)? },
            "rmt" => Step::Rmt { room: whole(0)?, command: bytes(1)? },
            "listing" => Step::Listing { room: whole(0)? },
            _ => return None,
        })
    }
}

/// Its length, and its bytes without the zeros at its end.
fn shortened(bytes: &[u8]) -> String {
    format!("{} {}", bytes.len(), hex(without_zeros(bytes)))
}

fn without_zeros(bytes: &[u8]) -> &[u8] {
    &bytes[..bytes.iter().rposition(|b| *b != 0).map_or(0, |i| i + 1)]
}

pub fn hex(bytes: &[u8]) -> String {
    if bytes.is_empty() {
        return "-".into();
    }
    bytes.iter().map(|b| format!("{b:02x}")).collect()
}

fn unhex(text: &str) -> Option<Vec<u8>> {
    if text == "-" {
        return Some(vec![]);
    }
    if text.len() % 2 != 0 || !text.is_ascii() {
        return None;
    }
    (0..text.len() / 2).map(|i| u8::from_str_radix(&text[2 * i..2 * i + 2], 16).ok()).collect()
}
