//! The rules of a move in plain Rust, with bounds checks: what the proved code is compared with. The session is changed
//! where it lies.
use crate::tape::{faulty, kept, put_entry, word};
use proved::{Data, Mover, OUTPUT, Session, Slots, codes};
use wire::message;

/// What a call gives beside the session: the rule that applied, the code, the bytes moved, and the bytes of the output.
#[derive(Clone, Copy)]
pub struct Told {
    pub rule: &'static str,
    pub code: u32,
    pub count: usize,
    pub len: usize,
}

/// What a move comes to: the rule that applied, the bytes moved, and what was halted or paused.
struct Step {
    rule: &'static str,
    count: usize,
    news: News,
}

enum News {
    None,
    /// By TCP an end halts alone.
    Halted {
        data: Option<u32>,
        mover: Option<u32>,
    },
    Paused(u32),
}

// ---- the relation (docs/RELATION.md)

/// Where the window ends; None where that is past 2^64 - 1.
fn window_end(m: &Mover) -> Option<u64> {
    if m.length == Mover::ENDLESS { Some(Mover::TOP) } else { m.offset.checked_add(m.length) }
}

fn window_is_right(m: &Mover) -> bool {
    let unit = m.size as u64;
    let whole = |n: u64| unit != 0 && n % unit == 0;
    m.length == 0 || whole(m.offset) && (m.length == Mover::ENDLESS || whole(m.length)) && window_end(m).is_some()
}

fn place_is_right(m: &Mover) -> bool {
    match m.state {
        Mover::LISTEN => m.offset == 0,
        Mover::ACTIVE => {
            let end = window_end(m).unwrap_or(Mover::TOP);
            m.size != 0 && m.offset <= m.moved && m.moved <= end && m.moved % m.size as u64 == 0
        }
        Mover::PAUSED => m.length == 0 || m.offset == m.moved,
        _ => true,
    }
}

fn address_is_right(state: u32, idle: u32, address: u32) -> bool {
    address <= codes::TCP_ADDRESS && (state != idle || address == codes::LOCAL_ADDRESS)
}

/// By LOCAL, both or none.
fn join_is_right(d: &Data, m: &Mover) -> bool {
    let data = matches!(d.state, Data::CONNECTED | Data::ACTIVE) && d.address == codes::LOCAL_ADDRESS;
    let mover = matches!(m.state, Mover::ACTIVE | Mover::PAUSED) && m.address == codes::LOCAL_ADDRESS;
    data == mover
}

fn names_one_twice(slots: &Slots) -> bool {
    (0..slots.len()).any(|i| slots[i] != 0 && slots[..i].contains(&slots[i]))
}

fn is_related(s: &Session) -> bool {
    let (d, m, t) = (&s.source, &s.mover, &s.tape);
    let holds = matches!(m.state, Mover::LISTEN | Mover::ACTIVE);
    d.state <= 4
        && m.state <= 4
        && m.size as usize <= codes::LONGEST_RECORD
        && m.seek.checked_add(m.left).is_some()
        && window_is_right(m)
        && (m.state > Mover::LISTEN || m.moved == 0)
        && (!holds || m.length != 0 && t.opened && (m.mode != Mover::TO_TAPE || t.writable))
        && (m.mode != Mover::TO_TAPE || place_is_right(m))
        && (m.state != Mover::ACTIVE || m.origin <= t.position)
        && address_is_right(d.state, Data::IDLE, d.address)
        && address_is_right(m.state, Mover::IDLE, m.address)
        && join_is_right(d, m)
        && (!t.opened || s.changer.slots[0] != 0)
        && !names_one_twice(&s.changer.slots)
}

// ---- what a move can come to

fn nothing(rule: &'static str) -> Step {
    Step { rule, count: 0, news: News::None }
}

fn pause(s: &mut Session, rule: &'static str, why: u32) -> Step {
    let m = &mut s.mover;
    (m.state, m.pause, m.offset, m.length) = (Mover::PAUSED, why, 0, 0);
    Step { rule, count: 0, news: News::Paused(why) }
}

fn halt(s: &mut Session, rule: &'static str, data: Option<u32>, mover: Option<u32>) -> Step {
    if let Some(reason) = data {
        (s.source.state, s.source.reason) = (Data::HALTED, reason);
    }
    if let Some(reason) = mover {
        (s.mover.state, s.mover.pause, s.mover.halt) = (Mover::HALTED, 0, reason);
    }
    Step { rule, count: 0, news: News::Halted { data, mover } }
}

/// The mover halts, and by LOCAL the data end too.
fn halt_mover(s: &mut Session, rule: &'static str, data: u32, mover: u32) -> Step {
    let joined = s.mover.address == codes::LOCAL_ADDRESS;
    halt(s, rule, joined.then_some(data), Some(mover))
}

/// The method's end: the data end halts, and by LOCAL the mover too.
fn halt_data(s: &mut Session, rule: &'static str, data: u32) -> Step {
    let joined = s.source.address == codes::LOCAL_ADDRESS;
    halt(s, rule, Some(data), joined.then_some(Mover::CONNECT_CLOSED))
}

/// By TCP nothing is asked of the data end.
fn runs(d: &Data, m: &Mover, mode: u32, operation: u32) -> bool {
    let fed = m.address == codes::TCP_ADDRESS || d.state == Data::ACTIVE && d.operation == operation;
    m.state == Mover::ACTIVE && m.mode == mode && fed
}

fn add_processed(d: &mut Data, m: &Mover, count: usize) {
    if m.address == codes::LOCAL_ADDRESS {
        d.processed = d.processed.wrapping_add(count as u64);
    }
}

// ---- to tape

fn to_tape(s: &mut Session, image: &mut [u8], stream: &[u8], last: bool) -> Step {
    let (d, m, position) = (&mut s.source, &mut s.mover, s.tape.position);
    if !runs(d, m, Mover::TO_TAPE, Data::BACKUP) {
        return nothing("1");
    }
    if faulty(image, position) {
        return halt_mover(s, "2", Data::CONNECT_ERROR, Mover::MEDIA_ERROR);
    }
    if stream.is_empty() && last {
        return halt_mover(s, "3", Data::SUCCESSFUL, Mover::CONNECT_CLOSED);
    }
    let size = m.size as usize;
    let left = window_end(m).map_or(0, |end| end - m.moved);
    if left == 0 || left < size as u64 {
        return pause(s, "4", Mover::END_OF_WINDOW);
    }
    if stream.len() < size && !last {
        return nothing("5");
    }
    let capacity = word(image, 4);
    let keep = kept(image, position);
    let start = 16 + capacity * 8 + keep;
    if position >= capacity || start + size > image.len() {
        return pause(s, "6", Mover::END_OF_MEDIUM);
    }
    let part = &stream[..stream.len().min(size)];
    put_entry(image, position, keep, size);
    let (bytes, fill) = image[start..start + size].split_at_mut(part.len());
    bytes.copy_from_slice(part);
    fill.fill(0);
    add_processed(d, m, part.len());
    m.moved = m.moved.wrapping_add(size as u64);
    s.tape.position = position + 1;
    Step { rule: if part.len() < size { "7, filled" } else { "7" }, count: part.len(), news: News::None }
}

// ---- from tape

enum Found {
    Target(usize),
    Mark(usize),
    End(usize),
}

fn walk(image: &[u8], origin: usize, records: u64) -> Found {
    let n = word(image, 8);
    for (passed, entry) in image[16 + origin * 8..16 + n * 8].chunks_exact(8).enumerate() {
        if word(entry, 0) == 0 {
            return Found::Mark(origin + passed + 1);
        }
        if passed as u64 == records {
            return Found::Target(origin + passed);
        }
    }
    Found::End(n)
}

fn hand(s: &mut Session, image: &[u8], entry: usize, dest: &mut [u8]) -> Step {
    let (d, m) = (&mut s.source, &mut s.mover);
    let size = m.size as usize;
    if word(image, 16 + entry * 8) != size {
        return halt_mover(s, "wrong length", Data::CONNECT_ERROR, Mover::MEDIA_ERROR);
    }
    let into = ((m.seek - m.offset) % size as u64) as usize;
    let n = (size - into).min(dest.len()).min(m.left as usize);
    let start = 16 + word(image, 4) * 8 + word(image, 20 + entry * 8) + into;
    dest[..n].copy_from_slice(&image[start..start + n]);
    let count = n as u64;
    add_processed(d, m, n);
    m.moved = m.moved.wrapping_add(count);
    m.seek += count;
    m.left -= count;
    s.tape.position = entry + 1;
    Step { rule: "bytes", count: n, news: News::None }
}

fn from_tape(s: &mut Session, image: &[u8], dest: &mut [u8]) -> Step {
    let (d, m) = (&s.source, &s.mover);
    if !runs(d, m, Mover::FROM_TAPE, Data::RECOVER) {
        return nothing("idle");
    }
    if faulty(image, s.tape.position) {
        return halt_mover(s, "fault", Data::CONNECT_ERROR, Mover::MEDIA_ERROR);
    }
    if m.left == 0 {
        return nothing("nothing left");
    }
    if dest.is_empty() {
        return nothing("no room");
    }
    if m.seek < m.offset || window_end(m).is_none_or(|end| m.seek >= end) {
        return pause(s, "SEEK", Mover::SEEK);
    }
    match walk(image, m.origin, (m.seek - m.offset) / m.size as u64) {
        Found::Target(at) => hand(s, image, at, dest),
        Found::Mark(after) => {
            s.tape.position = after;
            pause(s, "EOF", Mover::END_OF_FILE)
        }
        Found::End(end) => {
            s.tape.position = end;
            pause(s, "EOM", Mover::END_OF_MEDIUM)
        }
    }
}

// ---- the calls

fn send(s: &mut Session, out: &mut [u8], at: usize, time: u32, message: u32, body: &[u32]) -> usize {
    let mark = wire::LAST | (24 + 4 * body.len()) as u32;
    let header = [mark, s.sequence, time, 0, message, 0, 0];
    let end = at + 28 + 4 * body.len();
    for (place, word) in out[at..end].chunks_exact_mut(4).zip(header.iter().chain(body)) {
        place.copy_from_slice(&word.to_be_bytes());
    }
    s.sequence = s.sequence.wrapping_add(1);
    end
}

fn report(s: &mut Session, step: Step, time: u32, out: &mut [u8]) -> Told {
    let len = match step.news {
        News::None => 0,
        News::Halted { data, mover } => {
            let at = data.map_or(0, |reason| send(s, out, 0, time, message::NOTIFY_DATA_HALTED, &[reason]));
            mover.map_or(at, |reason| send(s, out, at, time, message::NOTIFY_MOVER_HALTED, &[reason]))
        }
        News::Paused(why) => {
            let seek = s.mover.seek;
            send(s, out, 0, time, message::NOTIFY_MOVER_PAUSED, &[why, (seek >> 32) as u32, seek as u32])
        }
    };
    Told { rule: step.rule, code: 0, count: step.count, len }
}

/// Why a call does nothing at all, where it does.
fn refusal(s: &Session, out: &[u8]) -> Option<Told> {
    let (rule, code) = if out.len() < OUTPUT {
        ("1001", codes::SHORT_OUTPUT)
    } else if !is_related(s) {
        ("1002", codes::BROKEN_SESSION)
    } else if s.closed {
        ("closed", 0)
    } else {
        return None;
    };
    Some(Told { rule, code, count: 0, len: 0 })
}

#[inline(never)]
pub fn move_to_tape(s: &mut Session, image: &mut [u8], stream: &[u8], last: bool, time: u32, out: &mut [u8]) -> Told {
    if let Some(told) = refusal(s, out) {
        return told;
    }
    let step = to_tape(s, image, stream, last);
    report(s, step, time, out)
}

#[inline(never)]
pub fn move_from_tape(s: &mut Session, image: &[u8], dest: &mut [u8], time: u32, out: &mut [u8]) -> Told {
    if let Some(told) = refusal(s, out) {
        return told;
    }
    let step = from_tape(s, image, dest);
    report(s, step, time, out)
}

#[inline(never)]
pub fn end_method(s: &mut Session, ok: bool, time: u32, out: &mut [u8]) -> Told {
    if let Some(told) = refusal(s, out) {
        return told;
    }
    let step = match (s.source.state == Data::ACTIVE, ok) {
        (false, _) => nothing("nothing"),
        (true, true) => halt_data(s, "SUCCESSFUL", Data::SUCCESSFUL),
        (true, false) => halt_data(s, "INTERNAL_ERROR", Data::INTERNAL_ERROR),
    };
    report(s, step, time, out)
}
