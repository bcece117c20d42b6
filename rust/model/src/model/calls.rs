//! The calls: what comes before all else, the counter, and what is written.

use super::accounts::{self, Challenge};
use super::record::{Notice, framed, sent};
use super::refusals::{Outcome, refuse, refused};
use super::requests::{Address, HANDLED, Request, decode};
use super::state::{Changer, EMPTY, Slots};
use super::{State, changer, connection, ends, environment, moves, relation, rmt, tape};

pub const ROOM: usize = 36_864;

/// What a call gives, beside the next state: code, bytes taken or handed over, and what is written at the output's
/// start. The rule is for counting.
pub struct Given {
    pub code: u32,
    pub count: usize,
    pub sent: Vec<u8>,
    pub rule: &'static str,
}

fn given(code: u32, rule: &'static str) -> Given {
    Given { code, count: 0, sent: vec![], rule }
}

const BROKEN: [&str; 13] = [
    "", "line 1", "line 2", "line 3", "line 4", "line 5", "line 6", "line 7", "line 8", "line 9", "line 10", "line 11",
    "line 12",
];

/// "Before all else the call is refused, and nothing written or changed: 1001 if the output is under 36,864 bytes, 1002
/// if the session breaks a relation listed in docs/". "after it [closing] nothing is answered or changed."
fn guard(s: &State, room: usize) -> Option<Given> {
    if room < ROOM {
        return Some(given(1001, "short output"));
    }
    if let Some(line) = relation::broken(s) {
        return Some(given(1002, BROKEN[line as usize]));
    }
    s.closed.then(|| given(0, "closed"))
}

/// "The vault numbers what it sends from 1; after 4,294,967,295 comes 0."
fn number(s: &mut State) -> u32 {
    let n = s.number;
    s.number = n.wrapping_add(1);
    n
}

fn notify(s: &mut State, time: u32, notices: &[Notice], out: &mut Vec<u8>) {
    for notice in notices {
        out.extend(notice.sent(number(s), time));
    }
}

/// "Opening a session sends connection status ... as number 1." 02 No. 7: the list is "one that names none twice
/// (else 1002)". With a short output and with such a list the session that comes back is a closed one that sent
/// nothing, whose list is empty (reading).
pub fn open(slots: &Slots, time: u32, room: usize) -> (State, Given) {
    let refused = |g: Given| (State { closed: true, ..State::at_rest(EMPTY) }, g);
    if room < ROOM {
        return refused(given(1001, "short output"));
    }
    if Changer::names_one_twice(slots) {
        return refused(given(1002, "named twice"));
    }
    let mut s = State::at_rest(*slots);
    let mut g = given(0, "opened");
    notify(&mut s, time, &[Notice::Connected], &mut g.sent);
    (s, g)
}

/// What a request is lent to read: the accounts, a challenge to give, the list that a listen by TCP answers, and whether
/// the connection of a connect by TCP was made.
pub struct Lent<'a> {
    pub accounts: &'a [u8],
    pub challenge: &'a Challenge,
    pub addresses: &'a [u8],
    pub made: bool,
}

/// What a request is lent to read and to write: the cartridge, and the store of the environment.
pub struct Kept<'a> {
    pub image: &'a mut [u8],
    pub store: &'a mut [u8],
}

pub fn request(s: &mut State, lent: &Lent, kept: &mut Kept, input: &[u8], time: u32, room: usize) -> Given {
    // 02 No. 3: "1001 for one of another length", at every request and with the other 1001.
    if room >= ROOM && kept.store.len() != environment::STORE {
        return given(1001, "store of another length");
    }
    if let Some(g) = guard(s, room) {
        return g;
    }
    // "closes the session without a reply"
    let Some(record) = framed(input) else {
        s.closed = true;
        return given(0, "badly framed");
    };
    // "Type other than 0: ignored, nothing changes."
    if record.kind != 0 {
        return given(0, "ignored");
    }
    let mut notices = vec![];
    let (error, body) = if !HANDLED.contains(&record.message) {
        // "An unknown message's 1, and 18, stand in the header with no body"
        (1, vec![])
    } else {
        match decode(record.message, record.body) {
            None => (18, vec![]),
            // "Each request but an accepted CONNECT close gets one reply"
            Some(Request::ConnectClose) => {
                s.closed = true;
                return given(0, "closing");
            }
            Some(r) => match answer(s, lent, kept, &r, &mut notices) {
                Ok(w) => (0, w.0),
                Err(n) => (0, refused(record.message, n)),
            },
        }
    };
    s.fresh = false;
    let mut g = given(0, "answered");
    g.sent = sent(number(s), time, 1, record.message, record.sequence, error, &body);
    notify(s, time, &notices, &mut g.sent);
    g
}

fn answer(s: &mut State, lent: &Lent, kept: &mut Kept, r: &Request, notices: &mut Vec<Notice>) -> Outcome {
    use Request::*;
    let Kept { image, store } = kept;
    // "4: before auth, all but CONNECT and 0x108"; 02 No. 2: "0x103 is answered before auth too."
    let free = matches!(r, ConnectOpen { .. } | ClientAuth { .. } | ConnectClose | AuthAttributes { .. } | ServerInfo);
    refuse(!s.authorized && !free, 4)?;
    match *r {
        ConnectOpen { version } => connection::open(s.fresh, version),
        ClientAuth { ref auth } => connection::auth(s, lent.accounts, auth),
        ConnectClose => unreachable!("has no reply"),
        ConnectionType => connection::types(),
        AuthAttributes { kind } => connection::auth_attributes(s, kind, lent.challenge),
        ServerInfo => connection::server_info(s),
        ScsiOpen { device } => changer::open(s, device),
        ScsiClose => changer::close(s),
        ScsiState => changer::get_state(s),
        ScsiReset => changer::reset(s),
        ScsiCdb { data_in, cdb } => changer::execute(s, data_in, cdb),
        TapeOpen { device, mode } => tape::open(s, image, device, mode),
        TapeClose => tape::close(s),
        TapeState => tape::get_state(s, image),
        TapeMtio { op, count } => tape::mtio(s, image, op, count),
        TapeWrite { data } => tape::write(s, image, data),
        TapeRead { count } => tape::read(s, image, count),
        DataState => ends::data_state(s),
        StartBackup { method, ref pairs } => ends::start(s, store, method, pairs, true),
        StartRecover { method, ref pairs } => ends::start(s, store, method, pairs, false),
        DataAbort => ends::data_abort(s, notices),
        DataEnvironment => environment::get(s, store),
        DataStop => ends::data_stop(s, store),
        DataListen { address } => ends::data_listen(s, address, lent.addresses),
        DataConnect { ref to } => ends::data_connect(s, to, lent.made),
        MoverState => ends::mover_state(s),
        MoverListen { mode, address } => ends::mover_listen(s, mode, address, lent.addresses),
        MoverContinue => ends::mover_continue(s),
        MoverAbort => ends::mover_abort(s, notices),
        MoverStop => ends::mover_stop(s),
        SetWindow { offset, length } => ends::set_window(s, offset, length),
        MoverRead { offset, length } => ends::mover_read(s, offset, length),
        MoverClose => ends::mover_close(s, notices),
        SetRecordSize { size } => ends::set_record_size(s, size),
        MoverConnect { mode, ref to } => ends::mover_connect(s, mode, to, lent.made),
    }
}

/// A call without a request: what it moves, then its notices.
fn event(s: &mut State, time: u32, room: usize, f: impl FnOnce(&mut State) -> moves::Move) -> Given {
    if let Some(g) = guard(s, room) {
        return g;
    }
    let moved = f(s);
    let mut g = Given { code: 0, count: moved.count, sent: vec![], rule: moved.rule };
    notify(s, time, &moved.notices, &mut g.sent);
    g
}

pub fn move_to_tape(s: &mut State, image: &mut [u8], stream: &[u8], last: bool, time: u32, room: usize) -> Given {
    event(s, time, room, |s| moves::to_tape(s, image, stream, last))
}

pub fn move_from_tape(s: &mut State, image: &mut [u8], destination: &mut [u8], time: u32, room: usize) -> Given {
    event(s, time, room, |s| moves::from_tape(s, image, destination))
}

pub fn end_method(s: &mut State, ok: bool, time: u32, room: usize) -> Given {
    event(s, time, room, |s| moves::end_method(s, ok))
}

pub fn made(s: &mut State, of_mover: bool, time: u32, room: usize) -> Given {
    event(s, time, room, |s| moves::made(s, of_mover))
}

pub fn lost(s: &mut State, of_mover: bool, time: u32, room: usize) -> Given {
    event(s, time, room, |s| moves::lost(s, of_mover))
}

/// Of an rmt command: what NDMP answers it with.
const REASONS: [&str; 20] =
    ["0", "", "", "3", "4", "5", "6", "7", "", "9", "10", "", "12", "13", "", "15", "16", "", "18", "19"];

/// 02 No. 5: "A call is lent one whole command, W with its data; it takes no sequence number and leaves the
/// first-request mark." It is lent the cartridge and no time, as nothing of NDMP's is sent.
pub fn rmt(s: &mut State, image: &mut [u8], command: &[u8], room: usize) -> Given {
    if let Some(g) = guard(s, room) {
        return g;
    }
    let (number, sent) = rmt::answer(s, image, command);
    Given { sent, ..given(0, REASONS[number as usize]) }
}

/// 02 No. 14: "our reader gives the host its list": of a record that is a connect by TCP, whatever the session.
pub fn addresses(input: &[u8]) -> Vec<(u32, u32)> {
    let connect = framed(input).filter(|r| r.kind == 0 && HANDLED.contains(&r.message));
    match connect.and_then(|r| decode(r.message, r.body)) {
        Some(
            Request::DataConnect { to: Address::Tcp(list) } | Request::MoverConnect { to: Address::Tcp(list), .. },
        ) => list,
        _ => vec![],
    }
}

/// 02 No. 10: "a new listing into lent output (1001 under 96 bytes)". It is lent no session, and takes no number.
pub fn listing(lent: &[u8], room: usize) -> Given {
    if room < accounts::LISTING {
        return given(1001, "short output");
    }
    Given { sent: accounts::listing(lent).into_bytes(), ..given(0, "listed") }
}
