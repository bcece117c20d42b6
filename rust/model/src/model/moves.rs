//! "Moving bytes".

use super::cartridge::Cartridge;
use super::ends::{self, halt_from_data, halt_from_mover, pause};
use super::record::Notice;
use super::state::{BACKUP, ENDLESS, RECOVER, State, TCP, data, mover};

/// Bytes taken or handed over, what is sent, and which rule it was (for counting).
pub struct Move {
    pub count: usize,
    pub notices: Vec<Notice>,
    pub rule: &'static str,
}

fn nothing(rule: &'static str) -> Move {
    Move { count: 0, notices: vec![], rule }
}

fn one(notice: Notice, rule: &'static str) -> Move {
    Move { count: 0, notices: vec![notice], rule }
}

fn halts(notices: Vec<Notice>, rule: &'static str) -> Move {
    Move { count: 0, notices, rule }
}

/// The ends run in this mode and operation. 02 No. 14, by TCP: "a move asks only that the mover be ACTIVE in its mode".
fn runs(s: &State, mode: u32, operation: u32) -> bool {
    let active = s.mover.state == mover::ACTIVE && s.mover.mode == mode;
    active && (s.mover.address == TCP || s.data.state == data::ACTIVE && s.data.operation == operation)
}

/// "the joined data end's processed count is the same"; a mover joined by TCP has no such end.
fn processed(s: &mut State, count: u64) {
    if s.joined() {
        s.data.processed = s.data.processed.wrapping_add(count);
    }
}

/// "To tape, first that applies".
pub fn to_tape(s: &mut State, image: &mut [u8], stream: &[u8], last: bool) -> Move {
    // "(1) mover not ACTIVE in mode 0, or data not ACTIVE in a backup: nothing"
    if !runs(s, 0, BACKUP) {
        return nothing("(1) not running");
    }
    let position = s.tape.position;
    // "(2) image unsound or position above n: mover halts MEDIA_ERROR 5, data CONNECT_ERROR"
    let Some(cartridge) = Cartridge::standing(image, position) else {
        return halts(halt_from_mover(s, 5, 4), "(2) fault");
    };
    // "(3) stream part empty and marked last: data halts SUCCESSFUL 1, mover CONNECT_CLOSED"
    if stream.is_empty() && last {
        return halts(halt_from_mover(s, 1, 1), "(3) end");
    }
    // "(4) bytes moved at the window's end: PAUSED EOW 5"
    let size = s.mover.record_size as usize;
    let (moved, end) = (s.mover.moved as u128, s.mover.window_end());
    if moved == end {
        return one(pause(s, 5), "(4) EOW");
    }
    // 02 No. 1: "also where a whole record more would pass that end"
    if s.mover.window.1 == ENDLESS && moved + size as u128 > end {
        return one(pause(s, 5), "(4) EOW before a record that would pass the end");
    }
    // "(5) less than a record and not last: nothing"
    if stream.len() < size && !last {
        return nothing("(5) waits");
    }
    // "(6) no room: PAUSED EOM 1"
    if !cartridge.has_room(position, size as u64) {
        return one(pause(s, 1), "(6) EOM");
    }
    // "(7) one record is taken and written, the last short one filled with zeros"
    let taken = stream.len().min(size);
    cartridge.write(position, &stream[..taken], size as u64);
    s.tape.position += 1;
    // "Bytes moved counts whole records to tape ...; the joined data end's processed count is the same, but to tape it
    // leaves the fill out. Both are taken modulo 2^64"
    s.mover.moved = s.mover.moved.wrapping_add(size as u64);
    processed(s, taken as u64);
    Move { count: taken, notices: vec![], rule: if taken < size { "(7) filled record" } else { "(7) whole record" } }
}

/// "From tape (mover ACTIVE in mode 1, data ACTIVE in a recover; otherwise nothing)".
pub fn from_tape(s: &mut State, image: &mut [u8], destination: &mut [u8]) -> Move {
    if !runs(s, 1, RECOVER) {
        return nothing("not running");
    }
    // "fault as (2)"
    let Some(cartridge) = Cartridge::standing(image, s.tape.position) else {
        return halts(halt_from_mover(s, 5, 4), "fault");
    };
    // "nothing left to read or no destination room: nothing"
    if s.mover.left == 0 {
        return nothing("nothing left");
    }
    if destination.is_empty() {
        return nothing("no destination room");
    }
    // "seek position outside the window: PAUSED SEEK 3"
    let offset = s.mover.window.0;
    if s.mover.seek < offset {
        return one(pause(s, 3), "SEEK before the window");
    }
    if s.mover.seek as u128 >= s.mover.window_end() {
        return one(pause(s, 3), "SEEK after the window");
    }
    // "The tape position when the mover became ACTIVE stands for the window's offset. Walking from there (each record
    // passed counts one record size)"
    let size = s.mover.record_size as u64;
    let mut to_pass = (s.mover.seek - offset) / size;
    let within = (s.mover.seek - offset) % size;
    let mut at = s.mover.origin;
    let target = loop {
        match cartridge.entries.get(at as usize) {
            // "the end PAUSED EOM (tape at the end)"
            None => {
                s.tape.position = cartridge.n();
                return one(pause(s, 1), "EOM");
            }
            // "a mark gives PAUSED EOF 2 (tape after the mark)"
            Some(0) => {
                s.tape.position = at + 1;
                return one(pause(s, 2), if to_pass > 0 { "EOF on the way" } else { "EOF at the target" });
            }
            Some(length) if to_pass == 0 => break *length,
            Some(_) => {
                to_pass -= 1;
                at += 1;
            }
        }
    };
    // "a target record of another length the halt of (2), tape unmoved"
    if target as u64 != size {
        return halts(halt_from_mover(s, 5, 4), "record of another length");
    }
    // "Otherwise the least of bytes left, rest of that record and destination room is handed over, added to seek
    // position, taken off bytes left; the tape stands after that record."
    let rest = size - within;
    let room = destination.len() as u64;
    let count = s.mover.left.min(rest).min(room);
    let from = within as usize;
    destination[..count as usize].copy_from_slice(&cartridge.record(at)[from..from + count as usize]);
    s.tape.position = at + 1;
    let rule = if count == s.mover.left {
        "handed over, all that was left"
    } else if count == rest {
        "handed over, the record's rest"
    } else {
        "handed over, the destination's room"
    };
    s.mover.seek += count;
    s.mover.left -= count;
    // "bytes handed over from tape; the joined data end's processed count is the same"
    s.mover.moved = s.mover.moved.wrapping_add(count);
    processed(s, count);
    Move { count: count as usize, notices: vec![], rule }
}

/// "The method's end, while data is ACTIVE, halts it SUCCESSFUL or INTERNAL_ERROR 3 and the mover CONNECT_CLOSED;
/// otherwise it does nothing."
pub fn end_method(s: &mut State, ok: bool) -> Move {
    if s.data.state != data::ACTIVE {
        return nothing("not active");
    }
    let (reason, rule) = if ok { (1, "successful") } else { (3, "internal error") };
    halts(halt_from_data(s, reason, 1), rule)
}

/// 02 No. 14: "events naming an end report made".
pub fn made(s: &mut State, of_mover: bool) -> Move {
    let joins = if of_mover { ends::mover_made(s) } else { ends::data_made(s) };
    nothing(if joins { "joins" } else { "does nothing" })
}

/// 02 No. 14: "lost where it is joined so".
pub fn lost(s: &mut State, of_mover: bool) -> Move {
    let notices = if of_mover { ends::mover_lost(s) } else { ends::data_lost(s) };
    if notices.is_empty() { nothing("does nothing") } else { halts(notices, "halts") }
}
