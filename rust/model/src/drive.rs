//! Random sequences of calls. Most steps are what a client would do next, so that sessions get deep; the others are
//! anything at all.

use std::collections::VecDeque;

use crate::accounts::{self, Entry, digest};
use crate::changers;
use crate::commands::{self, Command};
use crate::convert::{numbers, set_field};
use crate::images;
use crate::lists;
use crate::logins::{by_md5, by_text};
use crate::model::accounts::{Challenge, MD5, TEXT};
use crate::model::requests::HANDLED;
use crate::random::Random;
use crate::script::Step;
use crate::stores;
use crate::world::World;
use proved::{Session, Slots};
use wire::{Header, LAST, put_word, word_at};

const ROOM: usize = 36_864;

/// 02 No. 9: "The first value becomes 10,240".
const FIRST_SIZE: u32 = 10_240;

/// One session's plan: what its client is after.
pub struct Driver {
    pub r: Random,
    mode: u32,
    size: u32,
    /// Whether the data end, and the mover, are to be joined by TCP.
    tcp: (bool, bool),
    /// How soon an end that halted is stopped, in percent.
    stops: u64,
    /// How often a step is wild, in percent.
    wild: u64,
    /// Whether most steps are logins.
    logins: bool,
    /// Whether many steps are the changer's.
    changes: bool,
    /// Whether many steps are commands of rmt.
    ferry: bool,
    /// A sound image to lend again after a damaged one.
    spare: Option<Vec<u8>>,
    queue: VecDeque<Step>,
    closed_calls: u32,
}

/// The request with this challenge lent.
fn lending(mut step: Step, newest: Challenge) -> Step {
    if let Step::Request { challenge, .. } = &mut step {
        *challenge = newest;
    }
    step
}

impl Driver {
    pub fn new(seed: u64) -> Driver {
        Driver {
            r: Random(seed),
            mode: 0,
            size: 1,
            tcp: (false, false),
            stops: 0,
            wild: 0,
            logins: false,
            changes: false,
            ferry: false,
            spare: None,
            queue: VecDeque::new(),
            closed_calls: 0,
        }
    }

    /// A fresh session, its accounts and its cartridge.
    pub fn begin(&mut self) -> Vec<Step> {
        let r = &mut self.r;
        self.mode = r.pick(&[0, 1]);
        self.size = match r.below(20) {
            0 => r.pick(&[32_767, 32_768, 32_768, 32_768, 8192]),
            1..=3 => r.pick(&[512, 1000, 1024]),
            // The size that a session begins with: this client sets none.
            4 | 5 => FIRST_SIZE,
            _ => r.pick(&[1, 2, 3, 4, 7, 16, 33, 64, 100]),
        };
        self.tcp = r.pick(&[(false, false), (false, false), (false, true), (true, false), (true, true)]);
        self.stops = r.pick(&[60, 60, 60, 6]);
        self.wild = r.pick(&[2, 8, 8, 20, 60]);
        self.logins = r.percent(5);
        self.changes = r.percent(10);
        self.ferry = r.percent(14);
        self.spare = None;
        self.queue.clear();
        self.closed_calls = 0;
        let accounts = if r.percent(10) { accounts::any(r) } else { accounts::of(&accounts::right(r)) };
        let image = if r.percent(4) { images::damaged(r, self.size) } else { images::sound(r, self.size) };
        let store = if r.percent(70) { vec![0; stores::LENGTH] } else { stores::any(r) };
        let (slots, right) = self.slots();
        // A list that names one twice meets a short output more often.
        let room = if right || self.r.percent(70) { self.room() } else { ROOM - 1 };
        let open = Step::Open { time: self.time(), room, slots };
        vec![Step::Accounts(accounts), Step::Image(image), Step::Store(store), open]
    }

    /// The slot list that a session begins with, and whether it names none twice; mostly there is a cartridge in the
    /// drive.
    fn slots(&mut self) -> (Slots, bool) {
        let r = &mut self.r;
        let full = r.pick(&[0, 20, 50, 80, 100]);
        let slots = match r.below(50) {
            0 => [0; 9],
            1 | 2 => {
                let slots = changers::list(r, full, true);
                return (changers::named_twice(r, slots), false);
            }
            3..=8 => changers::list(r, full.max(20), false),
            _ => changers::list(r, full, true),
        };
        (slots, true)
    }

    /// None: the session has come to its end.
    pub fn next(&mut self, w: &World) -> Option<Step> {
        if let Some(step) = self.queue.pop_front() {
            return Some(step);
        }
        if w.session.closed {
            self.closed_calls += 1;
            if self.closed_calls > 4 {
                return None;
            }
            if self.r.percent(10) {
                self.hand_in(w);
                return self.queue.pop_front();
            }
            return Some(self.anything(w));
        }
        if self.logins && self.r.percent(80) {
            return Some(self.login_work(w));
        }
        let wild = self.wild;
        Some(if self.r.percent(wild) { self.anything(w) } else { self.sensible(w) })
    }

    fn time(&mut self) -> u32 {
        self.r.next() as u32
    }

    fn room(&mut self) -> usize {
        match self.r.below(60) {
            0 => self.r.pick(&[0, 1, 40, 36_863, 36_860]),
            1 => self.r.within(36_865, 40_000) as usize,
            _ => ROOM,
        }
    }

    // Records.

    fn request(&mut self, message: u32, body: &[u8]) -> Step {
        let sequence = self.r.next() as u32;
        let time = self.r.next() as u32;
        // Reply sequence and error are not judged.
        let other = if self.r.percent(5) { self.r.next() as u32 } else { 0 };
        let input = Header { sequence, time, kind: 0, message, reply_to: other, error: other }.record(body);
        let (challenge, made, list) = (self.challenge(), self.r.percent(85), self.lent(message));
        Step::Request { time: self.time(), room: self.room(), challenge, made, list, input }
    }

    /// Another with each call.
    fn challenge(&mut self) -> Challenge {
        self.r.bytes(64).try_into().unwrap()
    }

    /// The list of addresses that goes with a request. Only a listen by TCP looks at it.
    fn lent(&mut self, message: u32) -> Vec<u8> {
        match self.r.below(100) {
            0..=59 if matches!(message, 0x409 | 0xa01) => lists::right(&mut self.r),
            60..=87 if matches!(message, 0x409 | 0xa01) => lists::any(&mut self.r),
            88 | 89 if matches!(message, 0x409 | 0xa01) => lists::of_length(self.r.pick(&lists::LENGTHS)),
            0..=2 => lists::any(&mut self.r),
            _ => vec![],
        }
    }

    fn plain(&mut self, message: u32) -> Step {
        self.request(message, &[])
    }

    fn words(&mut self, message: u32, words: &[u32]) -> Step {
        self.request(message, &wire::words(words))
    }

    fn quads(&mut self, message: u32, a: u64, b: u64) -> Step {
        self.request(message, &wire::quads(&[a, b]))
    }

    /// Opaque data with its fill, of which now and then a byte is not zero.
    fn opaque(&mut self, body: &mut Vec<u8>, bytes: &[u8]) {
        body.extend((bytes.len() as u32).to_be_bytes());
        body.extend(bytes);
        while body.len() % 4 != 0 {
            let rubbish = self.r.percent(1);
            body.push(if rubbish { self.r.next() as u8 } else { 0 });
        }
    }

    // What a client would do next.

    fn sensible(&mut self, w: &World) -> Step {
        let s = &w.session;
        if !s.login.authorized {
            return self.before_auth(w);
        }
        if self.r.percent(4) {
            let message = self.r.pick(&[0x400, 0xa00, 0x302, 0x108, 0x102, 0x202, 0x404]);
            return self.plain(message);
        }
        if self.r.percent(1) {
            return if self.r.percent(50) { self.attributes() } else { self.auth(w, true) };
        }
        if self.r.percent(2) {
            return self.changer(s);
        }
        if self.changes && self.r.percent(50) {
            return self.changer_work(w);
        }
        let speaks = if self.ferry { 50 } else { 2 };
        if self.r.percent(speaks) {
            return self.rmt_work(w);
        }
        if let Some(image) = self.spare.clone()
            && self.r.percent(60)
        {
            self.spare = None;
            return Step::Image(image);
        }
        if let Some(step) = self.environment(s) {
            return step;
        }
        let stops = self.stops;
        if s.source.state == 2 && self.r.percent(stops) {
            return self.plain(0x407);
        }
        if s.mover.state == 4 && self.r.percent(stops) {
            return self.plain(0xa04);
        }
        if self.r.percent(1) {
            self.tcp = self.r.pick(&[(false, false), (false, true), (true, false), (true, true)]);
        }
        if !s.tape.opened && s.changer.slots[0] == 0 && self.r.percent(60) {
            return self.load(w);
        }
        let opening = if s.changer.slots[0] == 0 { 10 } else { 90 };
        if !s.tape.opened && self.r.percent(opening) {
            let mode = if self.mode == 0 && self.r.percent(95) { 1 } else { self.r.pick(&[0, 1]) };
            if self.r.percent(15) {
                return self.rmt(Command::open(b"tape0", mode).bytes());
            }
            return self.tape_open(b"tape0", mode);
        }
        // The position is above n: only a close and an open lead out.
        let n = word_at(&w.image, 8).unwrap_or(0);
        if s.tape.opened && s.tape.position > n as usize && !matches!(s.mover.state, 1 | 2) && self.r.percent(50) {
            return self.plain(0x301);
        }
        if (self.tcp.0 || s.source.address == 1) && self.r.percent(20) {
            return self.data_by_tcp(s);
        }
        match s.mover.state {
            0 => self.prepare(s),
            1 if s.mover.address == 1 => self.listening_by_tcp(s),
            1 => self.listening(s),
            2 => self.run(s),
            3 => self.paused(w),
            _ if s.source.state != 0 && self.r.percent(30) => self.plain(0x403),
            _ => self.tape_work(s),
        }
    }

    /// Where the data end has an environment to give: it is asked for, or another store is lent.
    fn environment(&mut self, s: &Session) -> Option<Step> {
        if !matches!(s.source.state, 1 | 2) {
            return None;
        }
        match self.r.below(100) {
            0..=4 => Some(self.plain(0x404)),
            5 | 6 => Some(Step::Store(stores::any(&mut self.r))),
            _ => None,
        }
    }

    /// A few wrong logins, and a request or a command that has to wait.
    fn before_auth(&mut self, w: &World) -> Step {
        if self.r.percent(if self.ferry { 60 } else { 5 }) {
            return self.rmt_any();
        }
        match self.r.below(20) {
            0 => self.some(w, 0x900),
            1 => self.auth(w, false),
            4 => self.attributes(),
            2 | 3 => {
                let message = self.r.pick(&HANDLED);
                if message == 0x902 { self.plain(0x108) } else { self.some(w, message) }
            }
            _ if w.session.first && self.r.percent(75) => self.words(0x900, &[4]),
            _ => self.auth(w, true),
        }
    }

    /// The mover listens by LOCAL.
    fn listening(&mut self, s: &Session) -> Step {
        match s.source.state {
            0 if self.r.percent(90) => self.words(0x40a, &[0]),
            _ if self.r.percent(10) => self.event(),
            _ => {
                let message = self.r.pick(&[0x403, 0xa03, 0x407]);
                self.plain(message)
            }
        }
    }

    /// A record size 0 is only handed in: each is refused.
    fn without_size(&mut self, s: &Session) -> Step {
        let mode = self.mode;
        match self.r.below(3) {
            0 => self.window(s),
            1 => self.words(0xa01, &[mode, 0]),
            _ => self.words(0xa09, &[mode, 0]),
        }
    }

    /// The mover is IDLE.
    fn prepare(&mut self, s: &Session) -> Step {
        if self.r.percent(15) {
            return self.tape_work(s);
        }
        let mode = self.mode;
        if s.mover.size == 0 && self.r.percent(60) {
            return self.without_size(s);
        }
        let setting = match s.mover.size {
            0 => 100,
            FIRST_SIZE if self.size != FIRST_SIZE => 95,
            _ => 4,
        };
        if self.r.percent(setting) {
            if self.r.percent(10) {
                self.size = self.r.pick(&[1, 5, 64, 1024]);
            }
            let size = self.size;
            return self.words(0xa08, &[size]);
        }
        if s.mover.length == 0 || self.r.percent(5) {
            return self.window(s);
        }
        if self.tcp.1 && self.r.percent(90) {
            return self.mover_by_tcp();
        }
        match s.source.state {
            0 if self.r.percent(50) => self.words(0xa01, &[mode, 0]),
            // Nobody listens.
            0 if self.r.percent(4) => self.words(0xa09, &[mode, 0]),
            0 => self.words(0x409, &[0]),
            3 if self.r.percent(95) => self.words(0xa09, &[mode, 0]),
            3 => self.words(0xa01, &[mode, 0]),
            _ => self.plain(0x407),
        }
    }

    // By TCP, each end goes its own way.

    /// The mover is ready to be joined.
    fn mover_by_tcp(&mut self) -> Step {
        let mode = self.mode;
        if self.r.percent(50) {
            return self.words(0xa01, &[mode, 1]);
        }
        let list = if self.r.percent(80) { lists::right(&mut self.r) } else { lists::any(&mut self.r) };
        self.request(0xa09, &[wire::words(&[mode, 1]), list].concat())
    }

    /// The mover listens by TCP.
    fn listening_by_tcp(&mut self, s: &Session) -> Step {
        match self.r.below(24) {
            0 => self.plain(0xa03),
            1 => self.plain(0x403),
            2 => self.plain(0xa00),
            // Not by this way.
            3 => self.words(0x40a, &[0]),
            4 => self.event(),
            5 => self.plain(0x301),
            6 | 7 => self.tape_work(s),
            _ => Step::Made { time: self.time(), room: self.room(), mover: true },
        }
    }

    /// The data end's next step by TCP; nothing of the mover is asked.
    fn data_by_tcp(&mut self, s: &Session) -> Step {
        let chance = self.r.below(20);
        match s.source.state {
            0 if chance < 10 => self.words(0x409, &[1]),
            0 => {
                let list = if chance < 18 { lists::right(&mut self.r) } else { lists::any(&mut self.r) };
                self.request(0x40a, &[wire::words(&[1]), list].concat())
            }
            3 if chance < 14 => Step::Made { time: self.time(), room: self.room(), mover: false },
            4 if chance < 14 => {
                let (backup, method) = (self.r.percent(50), self.method());
                self.start(backup, method)
            }
            1 if chance < 5 => Step::End { time: self.time(), room: self.room(), ok: self.r.percent(50) },
            2 if chance < 14 => self.plain(0x407),
            _ if chance < 16 => self.plain(0x400),
            _ if chance < 18 => self.event(),
            _ => self.plain(0x403),
        }
    }

    /// Made or lost, of either end.
    fn event(&mut self) -> Step {
        let (time, room, mover) = (self.time(), self.room(), self.r.percent(50));
        if self.r.percent(50) { Step::Made { time, room, mover } } else { Step::Lost { time, room, mover } }
    }

    fn window(&mut self, s: &Session) -> Step {
        let size = s.mover.size.max(1) as u64;
        let top = u64::MAX / size;
        let mode = if s.mover.state == 3 { s.mover.mode } else { self.mode };
        let records = match self.r.below(20) {
            0 => top,
            1 => top - 1,
            _ => self.r.within(1, 6),
        };
        let offset = match (mode, s.mover.state) {
            (0, 0) => 0,
            (0, _) => s.mover.moved,
            (_, 3) if self.r.percent(70) => s.mover.seek / size * size,
            _ => match self.r.below(10) {
                0 => (top - self.r.below(4)) * size,
                1..=3 => self.r.below(5) * size,
                _ => 0,
            },
        };
        let most = (u64::MAX - offset) / size;
        let length = if self.r.percent(30) { u64::MAX } else { records.min(most) * size };
        // Now and then just off.
        match self.r.below(40) {
            0 => self.quads(0xa05, offset, length.wrapping_add(1)),
            1 => self.quads(0xa05, offset.wrapping_add(1), length),
            2 => self.quads(0xa05, offset, most.saturating_add(1).saturating_mul(size)),
            3 => self.quads(0xa05, offset.wrapping_add(size), length),
            _ => self.quads(0xa05, offset, length),
        }
    }

    /// The mover is ACTIVE.
    fn run(&mut self, s: &Session) -> Step {
        let alone = s.mover.address == 1;
        if s.source.state == 4 && !alone {
            if s.mover.mode == 1 && self.r.percent(20) {
                return self.mover_read(s);
            }
            let (backup, method) = ((s.mover.mode == 0) == self.r.percent(96), self.method());
            return self.start(backup, method);
        }
        match self.r.below(100) {
            0 => return self.plain(0x403),
            1 => return self.plain(0xa03),
            2 => return Step::End { time: self.time(), room: self.room(), ok: self.r.percent(50) },
            3 => return self.swap(),
            4 => return self.event(),
            _ => {}
        }
        if s.mover.mode == 0 && (alone || s.source.operation == 1) {
            return self.to_tape(s);
        }
        if s.mover.mode == 1 && (alone || s.source.operation == 2) {
            if s.mover.left == 0 && self.r.percent(85) {
                return self.mover_read(s);
            }
            return self.from_tape(s);
        }
        // A start that does not fit the mode: nothing moves.
        match self.r.below(4) {
            0 => self.to_tape(s),
            1 => self.from_tape(s),
            2 => self.plain(0x403),
            _ => Step::End { time: self.time(), room: self.room(), ok: true },
        }
    }

    fn paused(&mut self, w: &World) -> Step {
        let s = &w.session;
        match self.r.below(100) {
            0..=2 => return self.plain(0xa07),
            3 => return self.plain(0xa03),
            4 => return self.plain(0x403),
            5 => return Step::End { time: self.time(), room: self.room(), ok: self.r.percent(50) },
            6..=8 => return self.plain(0x301),
            43..=45 => return self.words(0x303, &[6, 0]),
            9..=14 => return self.tape_work(s),
            15..=18 => return self.swap(),
            19..=20 => return self.to_tape(s),
            21..=22 => return self.from_tape(s),
            41..=42 => return self.event(),
            // The tape is full: another one.
            23..=40 if s.mover.pause == 1 => {
                let size = self.size;
                return Step::Image(images::sound(&mut self.r, size));
            }
            _ => {}
        }
        if s.mover.length == 0 && self.r.percent(96) { self.window(s) } else { self.plain(0xa02) }
    }

    fn to_tape(&mut self, s: &Session) -> Step {
        let size = s.mover.size as u64;
        let length = match self.r.below(16) {
            0 | 1 => 0,
            2 => size - size.min(1),
            3 => self.r.below(size + 1),
            4 => size + 1,
            5 => (2 * size).min(60_000),
            _ => size,
        };
        let last = if length < size { self.r.percent(30) } else { self.r.percent(10) };
        let stream = self.r.bytes(length as usize);
        Step::To { time: self.time(), room: self.room(), last, stream }
    }

    fn from_tape(&mut self, s: &Session) -> Step {
        let size = s.mover.size as u64;
        let destination = match self.r.below(12) {
            0 => 0,
            1 => 1,
            2 | 3 => self.r.below(size + 1),
            4 => size + 1,
            5 => self.r.within(0, 70_000),
            _ => size,
        };
        Step::From { time: self.time(), room: self.room(), destination: destination as usize }
    }

    fn mover_read(&mut self, s: &Session) -> Step {
        let size = s.mover.size.max(1) as u64;
        let (offset, length) = (s.mover.offset, s.mover.length);
        let place = match self.r.below(14) {
            0 => offset.wrapping_sub(1),
            1 => offset.wrapping_add(length),
            2 => offset.wrapping_add(length).wrapping_sub(1),
            3 | 4 => s.mover.seek,
            5 => self.r.pick(&[0, u64::MAX, u64::MAX - 1, 1 << 63]),
            _ => offset.wrapping_add(self.r.below(length.clamp(1, 6 * size))),
        };
        let many = match self.r.below(16) {
            0 => 0,
            1 => u64::MAX - place,
            2 => (u64::MAX - place).wrapping_add(1),
            3 => 1,
            4 => u64::MAX,
            5..=8 => size,
            _ => self.r.within(1, 4 * size),
        };
        self.quads(0xa06, place, many)
    }

    fn method(&mut self) -> &'static [u8] {
        if self.r.percent(94) { b"dump" } else { b"tar" }
    }

    fn start(&mut self, backup: bool, method: &[u8]) -> Step {
        let mut body = vec![];
        let few = |r: &mut Random| if r.percent(6) { r.pick(&[63, 64, 65, 66, u32::MAX]) } else { r.below(4) as u32 };
        let names = few(&mut self.r);
        if backup {
            self.opaque(&mut body, method);
        }
        let pairs = stores::pairs(&mut self.r);
        let mut environment = stores::listed(&pairs);
        match self.r.below(100) {
            0 => put_word(&mut environment, 0, u32::MAX),
            1 => put_word(&mut environment, 0, pairs.len() as u32 + 1),
            // A byte of the last text or of its fill.
            2 if pairs.len() > 1 => *environment.last_mut().unwrap() ^= 1,
            _ => {}
        }
        body.extend(environment);
        if !backup {
            body.extend(names.to_be_bytes());
            for _ in 0..names.min(66) {
                for _ in 0..4 {
                    let text = self.text(7);
                    self.opaque(&mut body, &text);
                }
                body.extend(self.r.bytes(16));
            }
            self.opaque(&mut body, method);
        }
        self.request(if backup { 0x401 } else { 0x402 }, &body)
    }

    fn text(&mut self, most: u64) -> Vec<u8> {
        let n = self.r.below(most);
        self.r.bytes(n as usize)
    }

    // Logins.

    /// Most of a session's steps, where it is after that.
    fn login_work(&mut self, w: &World) -> Step {
        match self.r.below(24) {
            0..=2 => self.words(0x103, &[2]),
            3 | 4 => self.attributes(),
            5 => Step::Accounts(accounts::of(&accounts::right(&mut self.r))),
            6 | 7 => self.lend_accounts(),
            8 => {
                let mut s = w.session;
                self.other_login(&mut s);
                for _ in 0..2 {
                    let step = self.wrong_auth(w);
                    self.queue.push_back(step);
                }
                Step::Session(s)
            }
            9 => self.plain(0x108),
            10 => self.listing(),
            11..=14 => self.auth(w, true),
            _ => self.auth(w, false),
        }
    }

    /// Other accounts, which may be laid out wrong; a login of each kind by what they were meant to have, and their listing.
    fn lend_accounts(&mut self) -> Step {
        let buffer = accounts::any(&mut self.r);
        let entries = accounts::meant(&buffer);
        let newest = self.challenge();
        for kind in [TEXT, MD5] {
            let able: Vec<&Entry> = entries.iter().filter(|e| e.kind == kind && (kind == TEXT || e.serves())).collect();
            let Entry { id, password, .. } = match able.len() as u64 {
                0 => &Entry::of(kind, b"id", b"five5"),
                n => able[self.r.below(n) as usize],
            };
            if kind == MD5 {
                let step = self.words(0x103, &[2]);
                self.queue.push_back(lending(step, newest));
            }
            let body = match kind {
                TEXT => by_text(id, password),
                _ => by_md5(id, &digest(password, &newest, true)),
            };
            let step = self.request(0x901, &body);
            self.queue.push_back(step);
        }
        let step = self.listing();
        self.queue.push_back(step);
        Step::Accounts(buffer)
    }

    /// 02 No. 10: the accounts' listing.
    fn listing(&mut self) -> Step {
        Step::Listing { room: self.r.pick(&[0, 95, 95, 96, 96, 96, 96, 97, 200, ROOM]) }
    }

    /// A session that is as far with its login as another.
    fn other_login(&mut self, s: &mut Session) {
        match self.r.below(5) {
            0 | 1 => s.login.authorized = false,
            2 => s.login.challenged = !s.login.challenged,
            3 => s.login.challenge = self.challenge(),
            _ => (s.login.challenged, s.login.challenge) = (false, [0; 64]),
        }
    }

    /// 0x103, with a type and now and then more, or less than one.
    fn attributes(&mut self) -> Step {
        let kind = self.r.pick(&[TEXT, TEXT, MD5, MD5, MD5, MD5, 0, 3, u32::MAX]);
        let mut body = wire::words(&[kind]);
        match self.r.below(12) {
            0 => body.truncate(self.r.below(4) as usize),
            1 => {
                let n = self.r.within(1, 8) as usize;
                body.extend(self.r.bytes(n));
            }
            2..=4 if kind != MD5 => body.extend(self.text(20)),
            _ => {}
        }
        self.request(0x103, &body)
    }

    /// A login by one of the accounts that let in, which begins with the challenge.
    fn auth(&mut self, w: &World, right: bool) -> Step {
        if !right {
            return self.wrong_auth(w);
        }
        let mut entries = accounts::meant(&w.accounts);
        entries.retain(|e| e.serves() && accounts::is_laid(accounts::kind(&w.accounts)));
        if entries.is_empty() {
            return Step::Accounts(accounts::of(&accounts::right(&mut self.r)));
        }
        let login = &w.session.login;
        if !login.challenged {
            return self.words(0x103, &[MD5]);
        }
        let Entry { id, password, .. } = entries.swap_remove(self.r.below(entries.len() as u64) as usize);
        self.request(0x901, &by_md5(&id, &digest(&password, &login.challenge, true)))
    }

    /// A login that is mostly wrong, in one way.
    fn wrong_auth(&mut self, w: &World) -> Step {
        let mut entries = accounts::meant(&w.accounts);
        if entries.is_empty() {
            entries.extend(accounts::both());
        }
        let some = |r: &mut Random| entries[r.below(entries.len() as u64) as usize].clone();
        let (Entry { mut id, mut password, .. }, other) = (some(&mut self.r), some(&mut self.r));
        let (newest, lent) = (&w.session.login.challenge, self.challenge());
        let right = digest(&password, newest, true).to_vec();
        let way = self.r.below(26);
        match way {
            0 | 13 => id.push(0),
            1 => password.push(0),
            2 => std::mem::swap(&mut id, &mut password),
            3 => drop(password.pop()),
            4 => password = self.text(10),
            5 => password.clone_from(&other.password),
            _ => {}
        }
        let body = match way {
            0..=6 => by_text(&id, &password),
            7 | 24 | 25 => self.bent_text(by_text(&id, &password)),
            8 => by_md5(&id, &digest(&password, newest, false)),
            9 => by_md5(&id, &digest(&password, &w.older.unwrap_or([7; 64]), true)),
            10 => by_md5(&id, &digest(&password, &lent, true)),
            11 => by_md5(&id, &digest(&password, &[0; 64], true)),
            12 => by_md5(&id, &digest(&other.password, newest, true)),
            14 if self.r.percent(50) => by_md5(&id, &self.r.bytes(16)),
            14 => {
                let mut near = right;
                near[self.r.below(16) as usize] ^= 1 << self.r.below(8);
                by_md5(&id, &near)
            }
            15 => by_md5(&id, &right[..15]),
            16 => by_md5(&id, &[&right[..], &[0]].concat()),
            17 => by_md5(&id, &[wire::words(&[16]), right].concat()),
            18 => by_md5(&id, &[]),
            19 => by_md5(&id, &[&right[..15], &[right[15] ^ 1 << self.r.below(8)]].concat()),
            20 => by_md5(&id, &[&[right[0] ^ 1 << self.r.below(8)], &right[1..]].concat()),
            21 | 22 => {
                let rest = if self.r.percent(60) { self.text(40) } else { vec![] };
                [wire::words(&[self.r.pick(&[0, 3, u32::MAX])]), rest].concat()
            }
            _ => by_md5(&id, &right),
        };
        let step = self.request(0x901, &body);
        lending(step, lent)
    }

    /// A login by text that is longer or shorter than it should be, or of which a byte, which may be one of a fill, is another.
    fn bent_text(&mut self, mut body: Vec<u8>) -> Vec<u8> {
        match self.r.below(4) {
            0 => body.push(0),
            1 => body.truncate(4),
            2 => body.truncate(self.r.within(5, body.len() as u64 - 1) as usize),
            _ => {
                let i = self.r.within(4, body.len() as u64 - 1) as usize;
                body[i] ^= 1;
            }
        }
        body
    }

    fn tape_open(&mut self, name: &[u8], mode: u32) -> Step {
        let mut body = vec![];
        self.opaque(&mut body, name);
        body.extend(mode.to_be_bytes());
        self.request(0x300, &body)
    }

    /// Reads, writes and MTIO, now and then by rmt.
    fn tape_work(&mut self, s: &Session) -> Step {
        let size = self.size;
        if self.r.percent(20) {
            return self.rmt_next(s);
        }
        match self.r.below(10) {
            0 | 1 => {
                let count = self.r.pick(&[0, 1, size, size, size + 1, 32_768, 32_768]);
                self.words(0x305, &[count])
            }
            2 | 3 => {
                let length = self.r.pick(&[0, 1, size, size, size + 1]);
                let data = self.r.bytes(length as usize);
                let mut body = vec![];
                self.opaque(&mut body, &data);
                self.request(0x304, &body)
            }
            4 => self.words(0x303, &[4, 0]),
            _ => {
                let op = if self.r.percent(4) { 6 } else { self.r.pick(&[0, 1, 2, 3, 5]) };
                let count = self.r.pick(&[0, 1, 1, 1, 2, 2, 3, 5, u32::MAX]);
                self.words(0x303, &[op, count])
            }
        }
    }

    // By rmt.

    fn rmt(&mut self, command: Vec<u8>) -> Step {
        Step::Rmt { room: self.room(), command }
    }

    /// What a client of rmt would send next.
    fn rmt_next(&mut self, s: &Session) -> Step {
        let command = commands::likely(&mut self.r, s, self.size);
        let bytes = commands::spelled(&mut self.r, command);
        self.rmt(bytes)
    }

    /// Any command; most do not read.
    fn rmt_any(&mut self) -> Step {
        let command = commands::any(&mut self.r, self.size);
        let bytes = match self.r.percent(65) {
            true => commands::bent(&mut self.r, command),
            false => commands::spelled(&mut self.r, command),
        };
        self.rmt(bytes)
    }

    /// Commands of rmt, and what NDMP's requests do to the tape between them.
    fn rmt_work(&mut self, w: &World) -> Step {
        let t = &w.session.tape;
        match self.r.below(100) {
            // The largest table, for a few marks.
            98 if t.opened && t.writable && t.position < 4096 => {
                let marks = commands::marks(&mut self.r, &w.session);
                self.meanwhile(w, marks, images::largest(t.position as u32))
            }
            // The longest record.
            99 if t.opened && t.position <= 1 => {
                let written = Command::write(self.r.bytes(32_768));
                let commands = [Command::operate(5, 0), Command::read(32_768), written];
                self.meanwhile(w, commands, images::longest())
            }
            // A damaged cartridge, for a few commands.
            0 | 1 => {
                for _ in 0..3 {
                    let step = match self.r.below(4) {
                        0 => self.rmt_next(&w.session),
                        1 => self.rmt(Command::read(32_769).bytes()),
                        2 => self.rmt(Command::write(vec![]).bytes()),
                        _ => self.rmt_any(),
                    };
                    self.queue.push_back(step);
                }
                self.queue.push_back(Step::Image(w.image.clone()));
                Step::Image(images::damaged(&mut self.r, self.size))
            }
            2 => self.words(0x303, &[6, 0]),
            3 => self.plain(0x301),
            4 => self.tape_open(b"tape0", 1),
            5..=7 => self.plain(0x302),
            8..=29 => self.rmt_any(),
            _ => self.rmt_next(&w.session),
        }
    }

    /// Lends this image for so many commands and a rewind.
    fn meanwhile<const N: usize>(&mut self, w: &World, commands: [Command; N], image: Vec<u8>) -> Step {
        for command in commands.into_iter().chain([Command::operate(5, 0)]) {
            let step = self.rmt(command.bytes());
            self.queue.push_back(step);
        }
        self.queue.push_back(Step::Image(w.image.clone()));
        Step::Image(image)
    }

    fn changer(&mut self, s: &Session) -> Step {
        if !s.changer.opened {
            let mut body = vec![];
            self.opaque(&mut body, b"changer0");
            return self.request(0x200, &body);
        }
        match self.r.below(12) {
            0 => self.plain(0x201),
            1 => self.plain(0x204),
            2 => self.plain(0x202),
            _ => self.cdb(s),
        }
    }

    /// The drive is empty: a cartridge from a slot, if there is one; now and then a tape is opened all the same.
    fn load(&mut self, w: &World) -> Step {
        let s = &w.session;
        if self.r.percent(12) {
            return self.some(w, 0x300);
        }
        if self.r.percent(12) {
            let command = commands::any_open(&mut self.r);
            return self.rmt(command.bytes());
        }
        if self.r.percent(3) {
            let by_rmt = self.rmt(Command::open(b"tape0", 2).bytes());
            let step = self.tape_open(b"tape0", 1);
            self.queue.extend([step, by_rmt, Step::Image(w.image.clone())]);
            return Step::Image(images::damaged(&mut self.r, self.size));
        }
        let full: Vec<u16> = (1..9).filter(|i| s.changer.slots[*i] != 0).map(changers::address).collect();
        if !s.changer.opened || full.is_empty() {
            return self.changer(s);
        }
        let from = self.r.pick(&full);
        self.request(0x206, &changers::execute(&changers::moving(0, from, 1), 0))
    }

    /// Moves and states of the changer, tapes opened and closed between them, and other cartridges.
    fn changer_work(&mut self, w: &World) -> Step {
        let s = &w.session;
        match self.r.below(20) {
            0 | 1 => self.some(w, 0x300),
            2 => self.words(0x303, &[6, 1]),
            3 => self.plain(0x301),
            // The host lends the image of the cartridge that came into the drive.
            4 => {
                let size = self.size;
                Step::Image(images::sound(&mut self.r, size))
            }
            _ => self.changer(s),
        }
    }

    fn cdb(&mut self, s: &Session) -> Step {
        if self.r.percent(60) {
            let (cdb, data_in) = changers::cdb(&mut self.r, s);
            return self.request(0x206, &changers::execute(&cdb, data_in));
        }
        let n = self.r.pick(&[0, 1, 4, 5, 6, 6, 6, 10, 12, 16, 17, 40]);
        let mut cdb = self.r.bytes(n);
        if n > 0 {
            cdb[0] = self.r.pick(&[0, 0, 3, 3, 3, 3, 0x12, 0xa5, 0xb8, 0xff, 1]);
        }
        if n > 4 {
            cdb[4] = self.r.pick(&[0, 1, 3, 17, 18, 19, 255]);
        }
        let data_in = self.r.pick(&[0, 2, 17, 18, 18, 18, 255, 100_000, u32::MAX]);
        let mut body = vec![];
        body.extend(wire::words(&[self.r.below(4) as u32, self.r.next() as u32, data_in]));
        self.opaque(&mut body, &cdb);
        let out = self.text(30);
        self.opaque(&mut body, &out);
        self.request(0x206, &body)
    }

    /// Another image under a running session; a damaged one is taken out again some time.
    fn swap(&mut self) -> Step {
        let size = self.size;
        if self.r.percent(60) {
            return Step::Image(images::sound(&mut self.r, size));
        }
        self.spare = Some(images::sound(&mut self.r, size));
        Step::Image(images::damaged(&mut self.r, size))
    }

    /// Another store; one of another length is taken out again after a call or two.
    fn lend(&mut self, w: &World) -> Step {
        if self.r.percent(40) {
            return Step::Store(stores::any(&mut self.r));
        }
        // Now and then beside a session that breaks the relation.
        let broken = self.r.percent(20);
        if broken {
            let mut s = w.session;
            s.source.state = 9;
            self.queue.push_back(Step::Session(s));
        }
        for _ in 0..self.r.within(1, 3) {
            let message = self.r.pick(&HANDLED);
            let call = match self.r.below(9) {
                0 => self.event(),
                8 => self.rmt_next(&w.session),
                1 => self.to_tape(&w.session),
                2 => self.plain(0x404),
                3 => {
                    let step = self.plain(0x404);
                    self.badly_framed(step)
                }
                _ => self.some(w, message),
            };
            self.queue.push_back(call);
        }
        if broken {
            self.queue.push_back(Step::Session(w.session));
        }
        self.queue.push_back(Step::Store(w.store.clone()));
        let length = self.r.pick(&stores::OTHERS);
        Step::Store(if self.r.percent(50) { vec![0; length] } else { self.r.bytes(length) })
    }

    // Anything at all.

    fn anything(&mut self, w: &World) -> Step {
        let s = &w.session;
        match self.r.below(100) {
            0..=49 => {
                let message = self.r.pick(&HANDLED);
                if message == 0x902 && self.r.percent(85) {
                    return self.words(0x902, &[0]);
                }
                let step = self.some(w, message);
                if self.r.percent(10) { self.bent(step) } else { step }
            }
            50..=53 => {
                let message = match self.r.below(6) {
                    0 => self.r.next() as u32,
                    1 => self.r.pick(&[0x501, 0x502, 0x503, 0x504, 0x505]),
                    2 => self.r.pick(&[0x100, 0x104, 0x406, 0x307, 0x40b, 0x903, 0x10a, 0x405, 0x408]),
                    3 => self.r.pick(&HANDLED) ^ 1 << self.r.below(32),
                    _ => self.r.below(0xb00) as u32,
                };
                let body = self.text(20);
                self.request(message, &body)
            }
            54 => {
                let step = self.sensible(w);
                self.badly_framed(step)
            }
            55..=57 => {
                let mut step = self.sensible(w);
                if let Step::Request { input, .. } = &mut step {
                    let kind = self.r.pick(&[1, 1, 2, u32::MAX, 1 << 24]);
                    put_word(input, 12, kind);
                }
                step
            }
            58..=60 => {
                let mut step = self.sensible(w);
                let short = self.r.pick(&[0, 28, 100, 36_863]);
                step.set_room(short);
                step
            }
            61..=66 => self.to_tape(s),
            67..=72 => self.from_tape(s),
            73..=76 => self.event(),
            77..=78 => Step::End { time: self.time(), room: self.room(), ok: self.r.percent(50) },
            79 | 80 => self.swap(),
            81 => self.lend(w),
            // Each call may be lent other accounts.
            82 => self.lend_accounts(),
            83 => self.listing(),
            84..=93 => {
                self.hand_in(w);
                self.queue.pop_front().unwrap()
            }
            94..=97 => self.rmt_any(),
            _ => self.sensible(w),
        }
    }

    /// This message with arguments of every kind.
    fn some(&mut self, w: &World, message: u32) -> Step {
        let s = &w.session;
        let mut body = vec![];
        let names: [&[u8]; 7] = [b"tape0", b"changer0", b"tape0\0", b"tape1", b"", b"changer", b"changer1"];
        match message {
            0x900 => {
                let version = self.r.pick(&[4, 4, 4, 3, 5, 0, 65_540, u32::MAX]);
                self.words(message, &[version])
            }
            0x901 => {
                let right = self.r.percent(30);
                self.auth(w, right)
            }
            0x103 => self.attributes(),
            0x200 => {
                let name = if self.r.percent(50) { b"changer0" } else { self.r.pick(&names) };
                self.opaque(&mut body, name);
                self.request(message, &body)
            }
            0x206 => self.cdb(s),
            0x300 => {
                let name = if self.r.percent(50) { b"tape0" } else { self.r.pick(&names) };
                let mode = self.r.pick(&[0, 1, 1, 2, u32::MAX]);
                self.tape_open(name, mode)
            }
            0x303 => {
                let op = self.r.pick(&[0, 1, 2, 3, 4, 5, 5, 6, 7, 8, u32::MAX]);
                let count = self.r.pick(&[0, 1, 2, 4, 4096, 4097, u32::MAX, u32::MAX - 1, 1 << 31]);
                self.words(message, &[op, count])
            }
            0x304 => {
                let length = self.r.pick(&[0, 1, 2, 3, self.size as usize, 32_767, 32_768, 32_769, 36_836]);
                let data = self.r.bytes(length);
                self.opaque(&mut body, &data);
                self.request(message, &body)
            }
            0x305 => {
                let count = self.r.pick(&[0, 1, self.size, 32_767, 32_768, 32_769, u32::MAX]);
                self.words(message, &[count])
            }
            0x401 | 0x402 => {
                let method = self.r.pick(&[&b"dump"[..], b"dump", b"dump\0", b"tar", b"", b"dum"]);
                self.start(message == 0x401, method)
            }
            0x409 | 0x40a | 0xa01 | 0xa09 => {
                if message > 0xa00 {
                    let mode = self.r.pick(&[0, 0, 1, 1, 2, 3, u32::MAX]);
                    body.extend(mode.to_be_bytes());
                }
                body.extend(self.address(matches!(message, 0x40a | 0xa09)));
                self.request(message, &body)
            }
            0xa05 if self.r.percent(50) => self.window(s),
            0xa05 | 0xa06 => {
                if message == 0xa06 && self.r.percent(60) {
                    return self.mover_read(s);
                }
                let size = s.mover.size.max(1) as u64;
                let far = u64::MAX / size * size;
                let offset = self.r.pick(&[0, 1, size, far, far - size, u64::MAX, s.mover.moved]);
                let length = self.r.pick(&[0, 1, size, 2 * size, far, far - size, u64::MAX]);
                self.quads(message, offset, length)
            }
            0xa08 => {
                let size = self.r.pick(&[0, 1, self.size, 32_767, 32_768, 32_769, u32::MAX]);
                self.words(message, &[size])
            }
            _ => self.plain(message),
        }
    }

    /// An address type, and what follows it in a connect or in a listen.
    fn address(&mut self, connect: bool) -> Vec<u8> {
        let kind = self.r.pick(&[0u32, 0, 0, 1, 1, 1, 2, 3, u32::MAX]);
        let rest = match kind {
            0 => vec![],
            1 if connect => lists::any(&mut self.r),
            1 if self.r.percent(85) => vec![],
            _ => self.text(20),
        };
        [wire::words(&[kind]), rest].concat()
    }

    /// A body that is too short or too long, or whose words are others; the record itself is whole.
    fn bent(&mut self, step: Step) -> Step {
        let Step::Request { time, room, challenge, made, list, mut input } = step else { return step };
        match self.r.below(4) {
            0 => {
                let cut = self.r.within(1, 8) as usize;
                input.truncate(input.len().saturating_sub(cut).max(28));
            }
            1 if input.len() < 36_000 => {
                let more = self.r.within(1, 8) as usize;
                input.extend(self.r.bytes(more));
            }
            _ if input.len() >= 32 => {
                let words = (input.len() - 28) / 4;
                let at = 28 + 4 * self.r.below(words as u64) as usize;
                let x = self.r.pick(&[0, 1, 5, u32::MAX, u32::MAX - 3, 1 << 31]);
                put_word(&mut input, at, x);
            }
            _ => {}
        }
        let mark = LAST | (input.len() - 4) as u32;
        put_word(&mut input, 0, mark);
        Step::Request { time, room, challenge, made, list, input }
    }

    fn badly_framed(&mut self, step: Step) -> Step {
        let Step::Request { time, room, challenge, made, list, mut input } = step else { return step };
        match self.r.below(6) {
            0 => input[0] &= 0x7f,
            1 => input.truncate(self.r.below(28) as usize),
            2 => input.push(0),
            3 => drop(input.pop()),
            4 => input[3] ^= 4,
            // Whole but for its length: one word above the most, or the most itself, which is well framed.
            _ => {
                input.resize(self.r.pick(&[36_868, 36_869, 36_872]), 0);
                let mark = LAST | (input.len() - 4) as u32;
                put_word(&mut input, 0, mark);
            }
        }
        Step::Request { time, room, challenge, made, list, input }
    }

    /// Hands in a changed session. One that breaks the relation is put back after a call or two.
    fn hand_in(&mut self, w: &World) {
        let before = w.session;
        let mut s = before;
        let size = s.mover.size.max(1) as u64;
        match self.r.below(18) {
            17 => return self.hand_in_first(s),
            14 => self.other_login(&mut s),
            15 | 16 => self.other_slots(&mut s),
            0 => s.sequence = u32::MAX - self.r.below(3) as u32,
            1 if s.mover.mode == 1 && s.mover.state > 1 => {
                s.mover.moved = u64::MAX - self.r.below(2 * size);
                s.source.processed = u64::MAX - self.r.below(2 * size);
            }
            2 | 10 if s.mover.mode == 0 && s.mover.state == 2 => {
                let records = self.r.within(1, 4);
                let start = u64::MAX / size - records - self.r.below(2).min(u64::MAX / size - records);
                s.mover.offset = start * size;
                s.mover.length = self.r.pick(&[records * size, u64::MAX]);
                let done = if self.r.percent(50) { records } else { self.r.within(0, records) };
                s.mover.moved = s.mover.offset + done * size;
                s.source.processed = u64::MAX - self.r.below(2 * size);
            }
            3 if s.mover.state == 3 => s.source.state = 4,
            4 => {
                s.mover.seek = u64::MAX - self.r.below(4 * size);
                s.mover.left = self.r.below((u64::MAX - s.mover.seek).saturating_add(2).max(1));
            }
            5 => s.tape.position = self.r.pick(&[0, 1, 5, 40, 41, 4096, 4097, usize::MAX]),
            6 => s.mover.origin = self.r.pick(&[0, 1, s.tape.position, s.tape.position.wrapping_add(1), usize::MAX]),
            // The other type, of one end or of both; joined or in LISTEN there are sessions that keep the relation.
            8 | 9 => {
                let ends = self.r.within(1, 3);
                s.source.address ^= (ends & 1) as u32;
                s.mover.address ^= (ends >> 1) as u32;
            }
            // No record size, and so no window.
            7 if s.mover.state == 0 => (s.mover.size, s.mover.offset, s.mover.length) = (0, 0, 0),
            _ => self.change_fields(&mut s),
        }
        self.queue.push_back(Step::Session(s));
        self.follow(w, &s);
    }

    /// A session that is logged in and yet has answered no request: rmt leaves the mark, and CONNECT open may follow.
    fn hand_in_first(&mut self, mut s: Session) {
        (s.first, s.login.authorized) = (true, true);
        self.queue.push_back(Step::Session(s));
        for _ in 0..2 {
            let step = self.rmt_next(&s);
            self.queue.push_back(step);
        }
        let open = self.words(0x900, &[4]);
        self.queue.push_back(open);
    }

    /// Another list: one that names a cartridge twice, or has none in the drive, or is right.
    fn other_slots(&mut self, s: &mut Session) {
        let r = &mut self.r;
        s.changer.slots = match r.below(6) {
            0 | 1 => changers::named_twice(r, s.changer.slots),
            2 => changers::list(r, 50, false),
            3 => {
                let slots = changers::list(r, 50, true);
                changers::named_twice(r, slots)
            }
            4 => changers::list(r, 100, true),
            _ => {
                s.changer.opened = true;
                changers::list(r, 50, true)
            }
        };
    }

    /// One to three fields of a session, whatever they are.
    fn change_fields(&mut self, s: &mut Session) {
        let size = s.mover.size.max(1) as u64;
        for _ in 0..self.r.within(1, 3) {
            let all = numbers(s);
            let (name, now) = self.r.pick(&all);
            let (up, down) = (now.wrapping_add(1), now.wrapping_sub(1));
            let most = u32::MAX as u64;
            let x = self.r.pick(&[0, 1, 2, 3, 4, 5, up, down, size, 2 * size, 32_769, most, u64::MAX]);
            set_field(s, name, x);
        }
    }

    /// The calls on a session that was handed in.
    fn follow(&mut self, w: &World, s: &Session) {
        let before = w.session;
        if crate::model::relation::broken(&crate::convert::state(s)).is_some() {
            for _ in 0..self.r.within(1, 2) {
                let call = match self.r.below(8) {
                    5 | 6 => self.event(),
                    7 => {
                        let mut step = self.rmt_any();
                        if self.r.percent(40) {
                            step.set_room(ROOM - 1);
                        }
                        step
                    }
                    0 => self.to_tape(&before),
                    1 => self.from_tape(&before),
                    2 => Step::End { time: self.time(), room: self.room(), ok: true },
                    3 => {
                        let message = self.r.pick(&HANDLED);
                        self.some(w, message)
                    }
                    _ => {
                        let step = self.plain(0x400);
                        self.badly_framed(step)
                    }
                };
                self.queue.push_back(call);
            }
            self.queue.push_back(Step::Session(before));
        } else if !s.tape.opened && s.tape.position > 0 && self.r.percent(50) {
            let call = self.rmt(Command::open(b"tape0", 2).bytes());
            self.queue.push_back(call);
        } else if s.mover.mode == 0 && s.mover.state == 2 && self.r.percent(60) {
            let call = self.to_tape(s);
            self.queue.push_back(call);
        } else if self.r.percent(40) {
            let message = self.r.pick(&[0xa00, 0x400, 0x302]);
            let call = self.plain(message);
            self.queue.push_back(call);
        }
    }
}
