//! The model's state and the core's session, one as the other.

use crate::model::State;
use crate::model::state;
use proved::{Changer, Data, Login, Mover, Session, Tape};

pub fn session(s: &State) -> Session {
    let (offset, length) = s.mover.window;
    Session {
        closed: s.closed,
        first: s.fresh,
        login: Login { authorized: s.authorized, challenged: s.challenged, challenge: s.challenge },
        sequence: s.number,
        source: Data {
            state: s.data.state,
            operation: s.data.operation,
            reason: s.data.halt,
            address: s.data.address,
            processed: s.data.processed,
        },
        mover: Mover {
            state: s.mover.state,
            mode: s.mover.mode,
            pause: s.mover.pause,
            halt: s.mover.halt,
            size: s.mover.record_size,
            address: s.mover.address,
            offset,
            length,
            moved: s.mover.moved,
            seek: s.mover.seek,
            left: s.mover.left,
            origin: s.mover.origin as usize,
        },
        tape: Tape { opened: s.tape.open, writable: s.tape.writable, position: s.tape.position as usize },
        changer: {
            let [key, code, qualifier] = s.changer.sense;
            Changer { opened: s.changer.open, key, code, qualifier, slots: s.changer.slots }
        },
    }
}

pub fn state(s: &Session) -> State {
    State {
        closed: s.closed,
        fresh: s.first,
        authorized: s.login.authorized,
        challenged: s.login.challenged,
        challenge: s.login.challenge,
        number: s.sequence,
        data: state::Data {
            state: s.source.state,
            operation: s.source.operation,
            halt: s.source.reason,
            address: s.source.address,
            processed: s.source.processed,
        },
        mover: state::Mover {
            state: s.mover.state,
            mode: s.mover.mode,
            pause: s.mover.pause,
            halt: s.mover.halt,
            record_size: s.mover.size,
            address: s.mover.address,
            window: (s.mover.offset, s.mover.length),
            moved: s.mover.moved,
            seek: s.mover.seek,
            left: s.mover.left,
            origin: s.mover.origin as u64,
        },
        tape: state::Tape { open: s.tape.opened, writable: s.tape.writable, position: s.tape.position as u64 },
        changer: state::Changer {
            open: s.changer.opened,
            sense: [s.changer.key, s.changer.code, s.changer.qualifier],
            slots: s.changer.slots,
        },
    }
}

/// The challenge, eight bytes at a time.
const CHALLENGE: [&str; 8] = [
    "challenge.0",
    "challenge.1",
    "challenge.2",
    "challenge.3",
    "challenge.4",
    "challenge.5",
    "challenge.6",
    "challenge.7",
];

/// The places of the changer.
const SLOTS: [&str; 9] =
    ["drive", "slot.16", "slot.17", "slot.18", "slot.19", "slot.20", "slot.21", "slot.22", "slot.23"];

/// Every field of a session by its name, for scripts and differences.
pub fn fields(s: &Session) -> Vec<(&'static str, u64)> {
    let challenge = s.login.challenge.chunks(8).map(|b| u64::from_be_bytes(b.try_into().unwrap()));
    let slots = SLOTS.into_iter().zip(s.changer.slots.map(u64::from));
    numbers(s).into_iter().chain(CHALLENGE.into_iter().zip(challenge)).chain(slots).collect()
}

/// Fields that are numbers.
macro_rules! named {
    ($($name:literal $($path:ident).+ : $t:ident),* $(,)?) => {
        /// All but the challenge and the slots.
        pub fn numbers(s: &Session) -> Vec<(&'static str, u64)> {
            vec![$(($name, s.$($path).+ as u64)),*]
        }
        /// None: no such field.
        pub fn set_field(s: &mut Session, name: &str, x: u64) -> Option<()> {
            match name {
                $($name => s.$($path).+ = named!(@cast $t x),)*
                _ => {
                    if let Some(i) = SLOTS.iter().position(|n| *n == name) {
                        s.changer.slots[i] = x as u32;
                        return Some(());
                    }
                    let i = CHALLENGE.iter().position(|n| *n == name)?;
                    s.login.challenge[8 * i..8 * i + 8].copy_from_slice(&x.to_be_bytes());
                }
            }
            Some(())
        }
    };
    (@cast bool $x:ident) => { $x != 0 };
    (@cast $t:ident $x:ident) => { $x as $t };
}

named! {
    "closed" closed: bool,
    "first" first: bool,
    "authorized" login.authorized: bool,
    "challenged" login.challenged: bool,
    "sequence" sequence: u32,
    "data.state" source.state: u32,
    "data.operation" source.operation: u32,
    "data.reason" source.reason: u32,
    "data.address" source.address: u32,
    "data.processed" source.processed: u64,
    "mover.state" mover.state: u32,
    "mover.mode" mover.mode: u32,
    "mover.pause" mover.pause: u32,
    "mover.halt" mover.halt: u32,
    "mover.size" mover.size: u32,
    "mover.address" mover.address: u32,
    "mover.offset" mover.offset: u64,
    "mover.length" mover.length: u64,
    "mover.moved" mover.moved: u64,
    "mover.seek" mover.seek: u64,
    "mover.left" mover.left: u64,
    "mover.origin" mover.origin: usize,
    "tape.opened" tape.opened: bool,
    "tape.writable" tape.writable: bool,
    "tape.position" tape.position: usize,
    "changer.opened" changer.opened: bool,
    "changer.key" changer.key: u8,
    "changer.code" changer.code: u8,
    "changer.qualifier" changer.qualifier: u8,
}
