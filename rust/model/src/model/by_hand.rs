//! Cases of 02 No. 14, worked out by hand from the papers.

use super::State;
use super::accounts::Challenge;
use super::calls::{self, Given, Kept, Lent, ROOM};
use super::environment::STORE;
use super::relation::broken;
use super::state::{Data, LOCAL, Mover, TCP, data, mover};
use super::xdr::Writer;

/// 10.0.0.1, port 10000, no pairs.
const ONE: [u32; 4] = [1, 0x0a00_0001, 10_000, 0];

pub fn bytes(words: &[u32]) -> Vec<u8> {
    Writer::words(words).0
}

pub fn words(bytes: &[u8]) -> Vec<u32> {
    bytes.chunks(4).map(|b| u32::from_be_bytes(b.try_into().unwrap())).collect()
}

pub fn record(message: u32, body: &[u8]) -> Vec<u8> {
    let length = 1 << 31 | (24 + body.len() as u32);
    [bytes(&[length, 5, 6, 0, message, 0, 0]), body.to_vec()].concat()
}

/// A session that is logged in, with the tape open for writing and a window of two records of four bytes; a cartridge
/// for three entries; an empty store.
pub struct Desk {
    pub s: State,
    pub image: Vec<u8>,
    pub store: Vec<u8>,
    pub accounts: Vec<u8>,
    pub challenge: Challenge,
    list: Vec<u8>,
    made: bool,
}

impl Desk {
    pub fn new() -> Desk {
        let mut s = State::at_rest([1, 0, 0, 0, 0, 0, 0, 0, 0]);
        (s.authorized, s.fresh, s.number) = (true, false, 2);
        (s.tape.open, s.tape.writable) = (true, true);
        (s.mover.record_size, s.mover.window) = (4, (0, 8));
        let image = bytes(&[1, 3, 0, 0, 0, 0, 0, 0, 0, 0, 0, 0, 0]);
        Desk { s, image, store: vec![0; STORE], accounts: vec![], challenge: [0; 64], list: bytes(&ONE), made: true }
    }

    pub fn send(&mut self, message: u32, body: &[u8]) -> Vec<u8> {
        self.hand(&record(message, body))
    }

    /// Any record, whole.
    pub fn hand(&mut self, record: &[u8]) -> Vec<u8> {
        let (accounts, challenge) = (&self.accounts, &self.challenge);
        let lent = Lent { accounts, challenge, addresses: &self.list, made: self.made };
        let mut kept = Kept { image: &mut self.image, store: &mut self.store };
        let given = calls::request(&mut self.s, &lent, &mut kept, record, 6, ROOM);
        assert_eq!((given.code, broken(&self.s)), (0, None));
        given.sent
    }

    /// The header's error and the words behind the header, the notices with them.
    pub fn ask(&mut self, message: u32, body: &[u32]) -> (u32, Vec<u32>) {
        let sent = words(&self.send(message, &bytes(body)));
        (sent[6], sent[7..].to_vec())
    }

    /// An error in the body, first of its words; or in the header.
    pub fn number(&mut self, message: u32, body: &[u32]) -> u32 {
        let (error, body) = self.ask(message, body);
        body.first().copied().unwrap_or(error)
    }

    fn ends(&self) -> ((u32, u32), (u32, u32)) {
        ((self.s.data.state, self.s.data.address), (self.s.mover.state, self.s.mover.address))
    }

    pub fn event(&mut self, f: impl Fn(&mut State) -> Given) -> Vec<u32> {
        let given = f(&mut self.s);
        assert_eq!((given.code, broken(&self.s)), (0, None));
        words(&given.sent)
    }

    fn to_tape(&mut self, stream: &[u8], last: bool) -> (usize, Vec<u32>) {
        let given = calls::move_to_tape(&mut self.s, &mut self.image, stream, last, 6, ROOM);
        (given.count, words(&given.sent))
    }
}

/// Message and reason of a notice of one word.
fn notice(number: u32, message: u32, reason: u32) -> Vec<u32> {
    vec![1 << 31 | 28, number, 6, 0, message, 0, 0, reason]
}

#[test]
fn connection_types_are_0_and_1() {
    assert_eq!(Desk::new().ask(0x102, &[]), (0, vec![0, 2, 0, 1]));
}

#[test]
fn a_listen_answers_the_list_that_it_is_lent() {
    let mut d = Desk::new();
    assert_eq!(d.ask(0x409, &[1]), (0, vec![0, 1, 1, 0x0a00_0001, 10_000, 0]));
    assert_eq!(d.ask(0xa01, &[0, 1]), (0, vec![0, 1, 1, 0x0a00_0001, 10_000, 0]));
    assert_eq!(d.ends(), ((data::LISTEN, TCP), (mover::LISTEN, TCP)));
    // LOCAL looks at none.
    let mut d = Desk::new();
    d.list = vec![7];
    assert_eq!(d.ask(0x409, &[0]), (0, vec![0, 0]));
    assert_eq!(d.ask(0xa01, &[0, 0]), (0, vec![0, 0]));
    assert_eq!(d.ends(), ((data::LISTEN, LOCAL), (mover::LISTEN, LOCAL)));
}

#[test]
fn lists_that_a_listen_is_not_to_answer() {
    let pairs = |n: u32| [vec![1, 1, 1, n], vec![0; 2 * n.min(65) as usize]].concat();
    let many = |n: u32| [vec![n], [1, 1, 0].repeat(n as usize)].concat();
    // One address, one pair: a name of no bytes, and a value that fills the list.
    let filled = |n: u32| [bytes(&[1, 1, 1, 1, 0, n - 24]), vec![0x61; n as usize - 24]].concat();
    for (list, number) in [
        (bytes(&many(16)), 0),
        (bytes(&many(17)), 9),
        (bytes(&many(0)), 9),
        (vec![], 9),
        (bytes(&[1, 9, 65_535, 0]), 0),
        (bytes(&[1, 9, 65_536, 0]), 9),
        (bytes(&pairs(64)), 0),
        (bytes(&pairs(65)), 9),
        (bytes(&[1, 9, 9, 0, 0]), 9),
        (bytes(&[1, 9, 9]), 9),
        (bytes(&[1, 9, 9, 1, 1, 0x6100_0000, 0]), 0),
        (bytes(&[1, 9, 9, 1, 1, 0x6100_0001, 0]), 9),
        (filled(16_384), 0),
        (filled(16_388), 9),
    ] {
        for (message, body) in [(0x409, &[1][..]), (0xa01, &[1, 1])] {
            let mut d = Desk::new();
            d.list = list.clone();
            let (error, body) = d.ask(message, body);
            assert_eq!((error, body[0]), (0, number), "{message:x} {list:x?}");
            // The list, or: "other reply fields are zero or empty".
            assert_eq!(body[1..], if number == 0 { [vec![1], words(&list)].concat() } else { vec![0] });
        }
    }
}

#[test]
fn the_same_lists_in_a_connect() {
    let pairs = |n: u32| [vec![1, 1, 1, n], vec![0; 2 * n as usize]].concat();
    let many = |n: u32| [vec![n], [1, 1, 0].repeat(n as usize)].concat();
    for (list, number) in [
        (many(16), 0),
        (many(17), 18),
        (many(0), 9),
        (vec![], 18),
        (vec![1, 9, 65_535, 0], 0),
        (vec![1, 9, 65_536, 0], 18),
        (pairs(64), 0),
        (pairs(65), 18),
        (vec![1, 9, 9, 0, 0], 18),
    ] {
        for (message, front) in [(0x40a, &[1][..]), (0xa09, &[0, 1])] {
            let body = [front, &list].concat();
            assert_eq!(Desk::new().number(message, &body), number, "{message:x} {list:x?}");
            // 23 comes after all of them.
            let mut d = Desk::new();
            d.made = false;
            assert_eq!(d.number(message, &body), if number == 0 { 23 } else { number });
            assert_eq!(d.ends(), ((data::IDLE, LOCAL), (mover::IDLE, LOCAL)));
        }
    }
}

#[test]
fn bytes_behind_a_type() {
    for (message, front) in [(0x409, &[][..]), (0x40a, &[]), (0xa01, &[1]), (0xa09, &[1])] {
        let with = |more: &[u32]| [front, more].concat();
        assert_eq!(Desk::new().number(message, &with(&[0, 5])), 18);
        assert_eq!(Desk::new().number(message, &with(&[1, 5])), 18);
        assert_eq!(Desk::new().number(message, &with(&[2, 5])), 9);
        assert_eq!(Desk::new().number(message, &with(&[3])), 9);
        assert_eq!(Desk::new().number(message, front), 18);
    }
}

#[test]
fn order_of_refusals_by_tcp() {
    let connect = [&[0, 1], &ONE[..]].concat();
    let empty = [7, 1, 0];
    let mut d = Desk::new();
    d.made = false;
    assert_eq!(d.number(0xa09, &connect), 23);
    assert_eq!(d.number(0xa09, &empty), 9);
    d.s.mover.window = (0, 0);
    assert_eq!((d.number(0xa09, &empty), d.number(0xa09, &connect)), (26, 26));
    d.s.tape.writable = false;
    assert_eq!((d.number(0xa09, &connect), d.number(0xa01, &[0, 1])), (5, 5));
    d.s.mover.state = mover::HALTED;
    assert_eq!((d.number(0xa09, &connect), d.number(0xa01, &[0, 1])), (19, 19));
    d.s.tape.open = false;
    assert_eq!((d.number(0xa09, &connect), d.number(0xa01, &[0, 1])), (6, 6));
    d.s.authorized = false;
    assert_eq!((d.number(0xa09, &connect), d.number(0xa01, &[0, 1])), (4, 4));
    assert_eq!(d.number(0xa09, &[0, 1, 17]), 18);
    d.s.authorized = true;
    d.s.data.state = data::HALTED;
    d.list = vec![];
    assert_eq!((d.number(0x40a, &[1, 0]), d.number(0x409, &[1])), (19, 19));
}

#[test]
fn a_data_end_by_tcp_from_listen_to_stop() {
    let mut d = Desk::new();
    d.number(0x409, &[1]);
    assert_eq!(d.event(|s| calls::lost(s, false, 6, ROOM)), vec![]);
    assert_eq!(d.event(|s| calls::made(s, true, 6, ROOM)), vec![]);
    assert_eq!(d.ends(), ((data::LISTEN, TCP), (mover::IDLE, LOCAL)));
    assert_eq!(d.event(|s| calls::made(s, false, 6, ROOM)), vec![]);
    assert_eq!(d.ends(), ((data::CONNECTED, TCP), (mover::IDLE, LOCAL)));
    assert_eq!(d.send(0x401, &[bytes(&[4]), b"dump".to_vec(), bytes(&[0])].concat())[28..], bytes(&[0]));
    // unsupported, error, operation, state, reason, processed, two estimates, type, count, two quads
    let shown = vec![3, 0, 1, 1, 0, 0, 0, 0, 0, 0, 1, 0, 0, 0, 0, 0];
    assert_eq!(d.ask(0x400, &[]), (0, shown));
    // No moves, and no mover to halt: reply 4 was the last.
    assert_eq!(d.to_tape(b"abcd", false), (0, vec![]));
    assert_eq!(d.event(|s| calls::lost(s, true, 6, ROOM)), vec![]);
    assert_eq!(d.event(|s| calls::lost(s, false, 6, ROOM)), notice(5, 0x501, 4));
    assert_eq!(d.ends(), ((data::HALTED, TCP), (mover::IDLE, LOCAL)));
    let shown = vec![3, 0, 1, 2, 4, 0, 0, 0, 0, 0, 1, 0, 0, 0, 0, 0];
    assert_eq!(d.ask(0x400, &[]), (0, shown));
    assert_eq!(d.number(0x407, &[]), 0);
    assert_eq!(d.s.data, Data::at_rest());
    let shown = vec![3, 0, 0, 0, 0, 0, 0, 0, 0, 0, 0, 0, 0, 0, 0];
    assert_eq!(d.ask(0x400, &[]), (0, shown));
}

#[test]
fn the_method_ends_one_end_by_tcp() {
    for (ok, reason) in [(true, 1), (false, 3)] {
        let mut d = Desk::new();
        d.number(0x40a, &[&[1], &ONE[..]].concat());
        d.number(0xa09, &[&[0, 1], &ONE[..]].concat());
        assert_eq!(d.event(|s| calls::end_method(s, ok, 6, ROOM)), vec![]);
        d.send(0x402, &[bytes(&[0, 0, 4]), b"dump".to_vec()].concat());
        assert_eq!(d.event(|s| calls::end_method(s, ok, 6, ROOM)), notice(5, 0x501, reason));
        assert_eq!(d.ends(), ((data::HALTED, TCP), (mover::ACTIVE, TCP)));
    }
}

#[test]
fn a_mover_by_tcp_writes_with_the_data_end_at_rest() {
    let mut d = Desk::new();
    assert_eq!(d.ask(0xa09, &[&[0, 1], &ONE[..]].concat()), (0, vec![0]));
    assert_eq!(d.ends(), ((data::IDLE, LOCAL), (mover::ACTIVE, TCP)));
    // Mode, state, two reasons, size, record number, moved, seek, left, offset, length, type, count.
    let shown = vec![0, 0, 2, 0, 0, 4, 0, 0, 0, 0, 0, 0, 0, 0, 0, 0, 8, 1, 0];
    assert_eq!(d.ask(0xa00, &[]), (0, shown));
    assert_eq!(d.number(0x301, &[]), 19);
    assert_eq!(d.to_tape(b"abcdef", false), (4, vec![]));
    assert_eq!(d.to_tape(b"ef", true), (2, vec![]));
    assert_eq!((d.s.mover.moved, d.s.data.processed, d.s.tape.position), (8, 0, 2));
    assert_eq!(words(&d.image)[..8], [1, 3, 2, 8, 4, 0, 4, 4]);
    assert_eq!(d.image[40..48], *b"abcdef\0\0");
    // End of stream: the mover alone, though the window is used up.
    assert_eq!(d.to_tape(b"", true), (0, notice(5, 0x503, 1)));
    assert_eq!(d.ends(), ((data::IDLE, LOCAL), (mover::HALTED, TCP)));
    assert_eq!(d.number(0xa04, &[]), 0);
    assert_eq!(d.s.mover, Mover::at_rest(4));
}

#[test]
fn a_mover_by_tcp_reads_pauses_and_halts_alone() {
    let mut d = Desk::new();
    d.image = [bytes(&[1, 2, 2, 4, 4, 0, 0, 4]), b"abcd".to_vec()].concat();
    d.s.tape.position = 0;
    d.number(0xa01, &[1, 1]);
    assert_eq!(d.event(|s| calls::made(s, true, 6, ROOM)), vec![]);
    assert_eq!(d.ends(), ((data::IDLE, LOCAL), (mover::ACTIVE, TCP)));
    assert_eq!(d.number(0xa06, &[0, 1, 0, 7]), 0);
    let mut taken = [0; 9];
    let given = calls::move_from_tape(&mut d.s, &mut d.image, &mut taken, 6, ROOM);
    assert_eq!((given.count, taken, d.s.data.processed), (3, *b"bcd\0\0\0\0\0\0", 0));
    // The mark: PAUSED EOF, seek position 4. Replies 2 and 3 came before.
    let given = calls::move_from_tape(&mut d.s, &mut d.image, &mut taken, 6, ROOM);
    assert_eq!(words(&given.sent), [1 << 31 | 36, 4, 6, 0, 0x504, 0, 0, 2, 0, 4]);
    assert_eq!(d.ends(), ((data::IDLE, LOCAL), (mover::PAUSED, TCP)));
    let mut lost = Desk { s: d.s.clone(), image: vec![], ..Desk::new() };
    assert_eq!(lost.event(|s| calls::lost(s, true, 6, ROOM)), notice(5, 0x503, 1));
    let mut closed = Desk { s: d.s.clone(), image: vec![], ..Desk::new() };
    assert_eq!(closed.ask(0xa07, &[]).1, [vec![0], notice(6, 0x503, 1)].concat());
    assert_eq!(d.ask(0xa03, &[]).1, [vec![0], notice(6, 0x503, 2)].concat());
}

#[test]
fn an_unsound_image_halts_a_mover_by_tcp_alone() {
    for mode in [0, 1] {
        let mut d = Desk::new();
        d.number(0x40a, &[&[1], &ONE[..]].concat());
        d.number(0xa09, &[&[mode, 1], &ONE[..]].concat());
        d.image[3] = 2;
        let sent = match mode {
            0 => d.to_tape(b"", true).1,
            _ => words(&calls::move_from_tape(&mut d.s, &mut d.image, &mut [], 6, ROOM).sent),
        };
        assert_eq!(sent, notice(4, 0x503, 5));
        assert_eq!(d.ends(), ((data::CONNECTED, TCP), (mover::HALTED, TCP)));
    }
}

#[test]
fn local_connects_and_listeners_by_tcp() {
    let mut d = Desk::new();
    d.number(0xa01, &[0, 1]);
    assert_eq!((d.number(0x40a, &[0]), d.ends().0), (23, (data::IDLE, LOCAL)));
    let mut d = Desk::new();
    d.number(0x409, &[1]);
    assert_eq!((d.number(0xa09, &[0, 0]), d.s.mover.mode), (23, 2));
    // By TCP it stays as it is, and so does one by LOCAL.
    assert_eq!(d.number(0xa09, &[&[0, 1], &ONE[..]].concat()), 0);
    assert_eq!(d.ends(), ((data::LISTEN, TCP), (mover::ACTIVE, TCP)));
    let mut d = Desk::new();
    d.number(0xa01, &[0, 0]);
    assert_eq!(d.number(0x40a, &[&[1], &ONE[..]].concat()), 0);
    assert_eq!(d.ends(), ((data::CONNECTED, TCP), (mover::LISTEN, LOCAL)));
    // Each aborts alone.
    assert_eq!(d.ask(0x403, &[]).1, [vec![0], notice(5, 0x501, 2)].concat());
    assert_eq!(d.ask(0xa03, &[]).1, [vec![0], notice(7, 0x503, 2)].concat());
    assert_eq!(d.ends(), ((data::HALTED, TCP), (mover::HALTED, LOCAL)));
}

#[test]
fn local_ends_are_joined_as_before() {
    let mut d = Desk::new();
    d.made = false;
    d.number(0xa01, &[0, 0]);
    assert_eq!(d.number(0x40a, &[0]), 0);
    assert_eq!(d.ends(), ((data::CONNECTED, LOCAL), (mover::ACTIVE, LOCAL)));
    assert_eq!(d.to_tape(b"abcd", false), (0, vec![]));
    for of_mover in [false, true] {
        assert_eq!(d.event(|s| calls::lost(s, of_mover, 6, ROOM)), vec![]);
        assert_eq!(d.event(|s| calls::made(s, of_mover, 6, ROOM)), vec![]);
    }
    let told = [vec![0], notice(5, 0x501, 4), notice(6, 0x503, 2)].concat();
    assert_eq!(d.ask(0xa03, &[]).1, told);
    assert_eq!(d.ends(), ((data::HALTED, LOCAL), (mover::HALTED, LOCAL)));
}

#[test]
fn the_start_of_a_mover_is_the_tape_when_it_was_made() {
    let mut d = Desk::new();
    d.image = bytes(&[1, 3, 2, 0, 0, 0, 0, 0, 0, 0]);
    d.s.tape.position = 2;
    d.number(0xa01, &[1, 1]);
    d.event(|s| calls::made(s, true, 6, ROOM));
    assert_eq!(d.s.mover.origin, 2);
}

#[test]
fn the_reader_gives_the_list_of_a_connect() {
    let two = [1, 2, 0x0a00_0001, 10_000, 1, 0, 0, 0xffff_ffff, 65_535, 0];
    let list = vec![(0x0a00_0001, 10_000), (0xffff_ffff, 65_535)];
    let mover = [&[7], &two[..]].concat();
    assert_eq!(calls::addresses(&record(0x40a, &bytes(&two))), list);
    assert_eq!(calls::addresses(&record(0xa09, &bytes(&mover))), list);
    let mut reply = record(0x40a, &bytes(&two));
    reply[15] = 1;
    let cut = &record(0x40a, &bytes(&two))[..50];
    for other in [
        record(0x409, &bytes(&[1])),
        record(0x40a, &bytes(&[0])),
        record(0x40a, &bytes(&[1, 0])),
        record(0x40a, &bytes(&[3, 1, 1, 1, 0])),
        record(0x40b, &bytes(&two)),
        record(0x40a, &bytes(&[&two[..], &[0]].concat())),
        reply,
        cut.to_vec(),
        vec![],
    ] {
        assert_eq!(calls::addresses(&other), []);
    }
}

#[test]
fn relation_of_address_types() {
    let ends = |d: (u32, u32), m: (u32, u32)| {
        let mut s = Desk::new().s;
        ((s.data.state, s.data.address), (s.mover.state, s.mover.address)) = (d, m);
        s.mover.mode = 1;
        broken(&s)
    };
    assert_eq!(ends((0, 0), (0, 0)), None);
    assert_eq!((ends((0, 1), (0, 0)), ends((0, 0), (0, 1))), (Some(10), Some(10)));
    assert_eq!((ends((3, 2), (0, 0)), ends((0, 0), (1, 2))), (Some(9), Some(9)));
    assert_eq!((ends((3, 1), (1, 1)), ends((2, 1), (4, 1))), (None, None));
    // Joined by TCP: each alone, or both.
    assert_eq!((ends((4, 1), (0, 0)), ends((0, 0), (3, 1)), ends((1, 1), (2, 1))), (None, None, None));
    // By LOCAL: both or none.
    assert_eq!((ends((4, 0), (2, 0)), ends((4, 0), (2, 1)), ends((1, 1), (3, 0))), (None, Some(8), Some(8)));
    assert_eq!((ends((4, 0), (0, 0)), ends((0, 0), (2, 0))), (Some(8), Some(8)));
}
