//! "1002 if the session breaks a relation listed in docs/": the lines of docs/RELATION.md. Gives the number of the
//! first broken line.

use super::state::{Changer, ENDLESS, LOCAL, State, TCP, data, mover};

pub fn broken(s: &State) -> Option<u32> {
    let m = &s.mover;
    let (offset, length) = m.window;
    let size = m.record_size as u64;
    let in_force = length != 0;
    let top = u64::MAX as u128;

    // data's state is 0 to 4
    if s.data.state > 4 {
        return Some(1);
    }
    // mover's state is 0 to 4; record size at most 32,768; seek position plus bytes left at most 2^64 - 1
    if m.state > 4 || size > 32_768 || m.seek as u128 + m.left as u128 > top {
        return Some(2);
    }
    // a window in force (length not 0): record size not 0, offset its multiple; but for the length all ones, length its
    // multiple too, and the end at most 2^64 - 1
    if in_force {
        let legal = length == ENDLESS || size != 0 && length % size == 0 && m.window_end() <= top;
        if size == 0 || offset % size != 0 || !legal {
            return Some(3);
        }
    }
    // IDLE and LISTEN: nothing has been moved
    if matches!(m.state, mover::IDLE | mover::LISTEN) && m.moved != 0 {
        return Some(4);
    }
    // LISTEN and ACTIVE: a window is in force, the tape is open, and for writing where the mode is 0
    if matches!(m.state, mover::LISTEN | mover::ACTIVE)
        && !(in_force && s.tape.open && (m.mode != 0 || s.tape.writable))
    {
        return Some(5);
    }
    // mode 0: LISTEN has offset 0; ACTIVE has moved whole records and stands within the window; PAUSED with a new
    // window stands at its start
    if m.mode == 0 {
        let right = match m.state {
            mover::LISTEN => offset == 0,
            mover::ACTIVE => m.moved % size == 0 && offset <= m.moved && m.moved as u128 <= m.window_end(),
            mover::PAUSED => !in_force || m.moved == offset,
            _ => true,
        };
        if !right {
            return Some(6);
        }
    }
    // ACTIVE: the tape is at its origin or after it
    if m.state == mover::ACTIVE && s.tape.position < m.origin {
        return Some(7);
    }
    types(s)
}

/// What the ends owe each other, and their address types.
fn types(s: &State) -> Option<u32> {
    let m = &s.mover;
    // by LOCAL, data is CONNECTED or ACTIVE exactly when the mover is ACTIVE or PAUSED
    if s.joined() != (m.is_joined() && m.address == LOCAL) {
        return Some(8);
    }
    // an address type is LOCAL or TCP
    if s.data.address > TCP || m.address > TCP {
        return Some(9);
    }
    // IDLE: the address type is LOCAL
    if s.data.state == data::IDLE && s.data.address != LOCAL || m.state == mover::IDLE && m.address != LOCAL {
        return Some(10);
    }
    slots(s)
}

/// 02 No. 7.
fn slots(s: &State) -> Option<u32> {
    // no two places name the same cartridge
    if Changer::names_one_twice(&s.changer.slots) {
        return Some(11);
    }
    // the tape is open: there is a cartridge in the drive
    if s.tape.open && s.changer.loaded() == 0 {
        return Some(12);
    }
    None
}
