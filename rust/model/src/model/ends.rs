//! "Data and mover states": the DATA and MOVER requests.

use super::environment::{fits, forget, keep};
use super::record::Notice;
use super::refusals::{Outcome, refuse};
use super::requests::{Address, Pair, address_list};
use super::state::{BACKUP, Data, ENDLESS, LOCAL, Mover, RECOVER, State, TCP, data, mover};
use super::xdr::Writer;

fn done() -> Outcome {
    Ok(Writer::words(&[0]))
}

/// A listen's reply: error, then the address. 02 No. 14: "A listen by TCP answers the XDR list that the host lends with
/// its call".
fn listening(address: u32, lent: &[u8]) -> Outcome {
    let mut w = Writer::words(&[0, address]);
    if address == TCP {
        w.0.extend(lent);
    }
    Ok(w)
}

/// The address of a get state. 02 No. 14: "get state gives the type, until stop, with no addresses".
fn shown(w: &mut Writer, address: u32) {
    w.word(address);
    if address == TCP {
        w.word(0);
    }
}

// Who may listen and connect.

/// "Address types other than LOCAL: 9." 02 No. 14: "9 no longer for type 1; 9 for an empty list, and for a lent one that
/// does not decode or is above 16,384 bytes".
fn may_listen(address: u32, lent: &[u8]) -> Result<(), u32> {
    refuse(address > TCP, 9)?;
    if address == TCP {
        refuse(lent.len() > 16_384, 9)?;
        let list = address_list(lent).ok_or(9u32)?;
        refuse(list.is_empty(), 9)?;
    }
    Ok(())
}

/// "23: the other end is not in LISTEN". 02 No. 14: "9 for an empty list"; "23 when failed is lent, or a LOCAL connect
/// finds the other end listening by TCP". Gives the type.
fn may_connect(to: &Address, made: bool, other_listens: bool) -> Result<u32, u32> {
    match to {
        Address::Local => {
            refuse(!other_listens, 23)?;
            Ok(LOCAL)
        }
        Address::Tcp(list) => {
            refuse(list.is_empty(), 9)?;
            refuse(!made, 23)?;
            Ok(TCP)
        }
        Address::Other => Err(9),
    }
}

// Halts and pauses.

/// "Every halt and pause sends its notice".
pub fn halt_data(s: &mut State, reason: u32) -> Notice {
    s.data.state = data::HALTED;
    s.data.halt = reason;
    Notice::DataHalted(reason)
}

pub fn halt_mover(s: &mut State, reason: u32) -> Notice {
    s.mover.state = mover::HALTED;
    s.mover.halt = reason;
    s.mover.pause = 0;
    Notice::MoverHalted(reason)
}

/// "A pause voids the window."
pub fn pause(s: &mut State, reason: u32) -> Notice {
    s.mover.state = mover::PAUSED;
    s.mover.pause = reason;
    s.mover.window = (0, 0);
    Notice::MoverPaused(reason, s.mover.seek)
}

/// The data end halts, and the mover too where they are joined. 02 No. 14, by TCP: "any halt is of one end". "then its
/// notices: data first, mover second"
pub fn halt_from_data(s: &mut State, reason: u32, mover: u32) -> Vec<Notice> {
    let joined = s.joined();
    let mut notices = vec![halt_data(s, reason)];
    if joined {
        notices.push(halt_mover(s, mover));
    }
    notices
}

/// The mover halts, and the data end too where they are joined.
pub fn halt_from_mover(s: &mut State, reason: u32, data: u32) -> Vec<Notice> {
    let mut notices = vec![];
    if s.joined() {
        notices.push(halt_data(s, data));
    }
    notices.push(halt_mover(s, reason));
    notices
}

/// The ends become joined, or the mover goes on: "The tape position when the mover became ACTIVE stands for the
/// window's offset."
fn run_mover(s: &mut State) {
    s.mover.state = mover::ACTIVE;
    s.mover.pause = 0;
    s.mover.origin = s.tape.position;
}

// DATA.

/// "fields in 004's order, ... reasons only in their state; what is not kept is zero, and so are DATA's read offset and
/// length always; DATA's two estimates are marked unsupported."
pub fn data_state(s: &State) -> Outcome {
    let d = &s.data;
    let reason = if d.state == data::HALTED { d.halt } else { 0 };
    let mut w = Writer::words(&[3, 0, d.operation, d.state, reason]);
    w.hyper(d.processed);
    // est_bytes_remain, est_time_remain, the address, read_offset, read_length
    w.hyper(0);
    w.word(0);
    shown(&mut w, d.address);
    w.hyper(0);
    w.hyper(0);
    Ok(w)
}

/// "Listen: IDLE to LISTEN."
pub fn data_listen(s: &mut State, address: u32, lent: &[u8]) -> Outcome {
    refuse(s.data.state != data::IDLE, 19)?;
    may_listen(address, lent)?;
    s.data.state = data::LISTEN;
    s.data.address = address;
    listening(address, lent)
}

/// "Connect: own end IDLE, other end LISTEN; data becomes CONNECTED, mover ACTIVE." By TCP the mover is no party to it.
pub fn data_connect(s: &mut State, to: &Address, made: bool) -> Outcome {
    refuse(s.data.state != data::IDLE, 19)?;
    s.data.address = may_connect(to, made, s.mover.listens(LOCAL))?;
    s.data.state = data::CONNECTED;
    if s.joined() {
        run_mover(s);
    }
    done()
}

/// "Start: CONNECTED to ACTIVE; method name other than `dump`: 9." 02 No. 3: "22 if the pairs do not fit, after 9".
pub fn start(s: &mut State, store: &mut [u8], method: &[u8], pairs: &[Pair], backup: bool) -> Outcome {
    refuse(s.data.state != data::CONNECTED, 19)?;
    refuse(method != b"dump", 9)?;
    refuse(!fits(pairs), 22)?;
    keep(store, pairs);
    s.data.state = data::ACTIVE;
    s.data.operation = if backup { BACKUP } else { RECOVER };
    done()
}

/// "Stop: HALTED to IDLE, all variables of its own end reset but the record size." 02 No. 3: "data stop makes the count
/// 0"; how the store is laid out is not asked.
pub fn data_stop(s: &mut State, store: &mut [u8]) -> Outcome {
    refuse(s.data.state != data::HALTED, 19)?;
    forget(store);
    s.data = Data::at_rest();
    done()
}

/// "Abort: not from IDLE or HALTED; own reason ABORTED 2. Joined other end: data halts CONNECT_ERROR 4, mover halts
/// CONNECT_CLOSED 1."
pub fn data_abort(s: &mut State, notices: &mut Vec<Notice>) -> Outcome {
    refuse(matches!(s.data.state, data::IDLE | data::HALTED), 19)?;
    notices.extend(halt_from_data(s, 2, 1));
    done()
}

// MOVER.

pub fn mover_state(s: &State) -> Outcome {
    let m = &s.mover;
    let pause = if m.state == mover::PAUSED { m.pause } else { 0 };
    let halt = if m.state == mover::HALTED { m.halt } else { 0 };
    // "record number is bytes moved divided by record size (0 if unset), modulo 2^32"
    let number = m.moved.checked_div(m.record_size as u64).unwrap_or(0) as u32;
    let mut w = Writer::words(&[0, m.mode, m.state, pause, halt, m.record_size, number]);
    for quad in [m.moved, m.seek, m.left, m.window.0, m.window.1] {
        w.hyper(quad);
    }
    shown(&mut w, m.address);
    Ok(w)
}

/// What mover listen and connect share.
fn may_join(s: &State, mode: u32) -> Result<(), u32> {
    let m = &s.mover;
    // "6: ... mover listen, connect, continue with no tape"
    refuse(!s.tape.open, 6)?;
    refuse(m.state != mover::IDLE, 19)?;
    // "5: tape open read-only: ... mover mode 0 at listen, connect, continue"
    refuse(mode == 0 && !s.tape.writable, 5)?;
    // "Mover listen and connect: 26 if record size or window is unset, or mode 0 with offset not 0."
    refuse(m.record_size == 0 || m.window.1 == 0 || (mode == 0 && m.window.0 != 0), 26)?;
    // "Mover mode 0 goes to tape, 1 from tape; others: 9."
    refuse(mode > 1, 9)
}

pub fn mover_listen(s: &mut State, mode: u32, address: u32, lent: &[u8]) -> Outcome {
    may_join(s, mode)?;
    may_listen(address, lent)?;
    s.mover.state = mover::LISTEN;
    s.mover.mode = mode;
    s.mover.address = address;
    listening(address, lent)
}

pub fn mover_connect(s: &mut State, mode: u32, to: &Address, made: bool) -> Outcome {
    may_join(s, mode)?;
    s.mover.address = may_connect(to, made, s.data.listens(LOCAL))?;
    s.mover.mode = mode;
    run_mover(s);
    if s.mover.address == LOCAL {
        s.data.state = data::CONNECTED;
    }
    done()
}

/// "Continue: PAUSED only; 26 if no window was set since the pause."
pub fn mover_continue(s: &mut State) -> Outcome {
    refuse(!s.tape.open, 6)?;
    refuse(s.mover.state != mover::PAUSED, 19)?;
    refuse(s.mover.mode == 0 && !s.tape.writable, 5)?;
    refuse(s.mover.window.1 == 0, 26)?;
    run_mover(s);
    done()
}

pub fn mover_abort(s: &mut State, notices: &mut Vec<Notice>) -> Outcome {
    refuse(matches!(s.mover.state, mover::IDLE | mover::HALTED), 19)?;
    notices.extend(halt_from_mover(s, 2, 4));
    done()
}

/// "Mover close: PAUSED only; mover CONNECT_CLOSED, data CONNECT_ERROR."
pub fn mover_close(s: &mut State, notices: &mut Vec<Notice>) -> Outcome {
    refuse(s.mover.state != mover::PAUSED, 19)?;
    notices.extend(halt_from_mover(s, 1, 4));
    done()
}

pub fn mover_stop(s: &mut State) -> Outcome {
    refuse(s.mover.state != mover::HALTED, 19)?;
    s.mover = Mover::at_rest(s.mover.record_size);
    done()
}

// Events.

/// 02 No. 14: "events naming an end report made where it listens by TCP ...; elsewhere they do nothing. Made joins as a
/// connect does". Says whether it does.
pub fn data_made(s: &mut State) -> bool {
    let listens = s.data.listens(TCP);
    if listens {
        s.data.state = data::CONNECTED;
    }
    listens
}

pub fn mover_made(s: &mut State) -> bool {
    let listens = s.mover.listens(TCP);
    if listens {
        run_mover(s);
    }
    listens
}

/// 02 No. 14: "lost where it is joined so", "lost halts as the partner's abort".
pub fn data_lost(s: &mut State) -> Vec<Notice> {
    if s.data.is_joined() && s.data.address == TCP { vec![halt_data(s, 4)] } else { vec![] }
}

pub fn mover_lost(s: &mut State) -> Vec<Notice> {
    if s.mover.is_joined() && s.mover.address == TCP { vec![halt_mover(s, 1)] } else { vec![] }
}

/// "Set window: IDLE or PAUSED. Record size 0: 26. 9: length 0, offset or length no multiple of the record size, offset
/// + length above 2^64 - 1, or PAUSED in mode 0 an offset other than bytes moved."
///
/// 02 No. 1, of the length all ones: "the offset must still be a multiple"; "9 no longer tests this length or its sum."
pub fn set_window(s: &mut State, offset: u64, length: u64) -> Outcome {
    let m = &mut s.mover;
    refuse(!matches!(m.state, mover::IDLE | mover::PAUSED), 19)?;
    refuse(m.record_size == 0, 26)?;
    let size = m.record_size as u64;
    refuse(length == 0 || offset % size != 0, 9)?;
    if length != ENDLESS {
        refuse(length % size != 0, 9)?;
        refuse(offset.checked_add(length).is_none(), 9)?;
    }
    refuse(m.state == mover::PAUSED && m.mode == 0 && offset != m.moved, 9)?;
    m.window = (offset, length);
    done()
}

/// "Mover read: ACTIVE in mode 1, else 19; length 0 or offset + length above 2^64 - 1: 9. It sets seek position and
/// bytes left."
pub fn mover_read(s: &mut State, offset: u64, length: u64) -> Outcome {
    let m = &mut s.mover;
    refuse(m.state != mover::ACTIVE || m.mode != 1, 19)?;
    refuse(length == 0 || offset.checked_add(length).is_none(), 9)?;
    // "25: mover read with bytes still left to read"
    refuse(m.left != 0, 25)?;
    m.seek = offset;
    m.left = length;
    done()
}

/// "Set record size: IDLE only, 1 to 32,768 (else 9); an accepted call voids the window, also with the same size."
pub fn set_record_size(s: &mut State, size: u32) -> Outcome {
    refuse(s.mover.state != mover::IDLE, 19)?;
    refuse(!(1..=32_768).contains(&size), 9)?;
    s.mover.record_size = size;
    s.mover.window = (0, 0);
    done()
}
