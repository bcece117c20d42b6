//! Cases of 02 No. 3, worked out by hand from the papers.

use super::by_hand::{Desk, bytes, record, words};
use super::calls::{self, Kept, Lent, ROOM};
use super::environment::{STORE, kept};
use super::relation::broken;
use super::requests::Pair;
use super::state::{LOCAL, TCP, data};
use super::xdr::Writer;

const SEPARATOR: Pair = (b"PATHNAME_SEPARATOR", b"/");

fn listed(pairs: &[Pair]) -> Vec<u8> {
    let mut w = Writer::words(&[pairs.len() as u32]);
    for (name, value) in pairs {
        w.opaque(name);
        w.opaque(value);
    }
    w.0
}

fn text(bytes: &[u8]) -> Vec<u8> {
    let mut w = Writer::default();
    w.opaque(bytes);
    w.0
}

fn backup(method: &[u8], pairs: &[Pair]) -> Vec<u8> {
    [text(method), listed(pairs)].concat()
}

/// A recover of one name, whose texts are not kept.
fn recover(method: &[u8], pairs: &[Pair]) -> Vec<u8> {
    let names = [bytes(&[1]), text(b"a"), text(b"b"), text(b"c"), text(b"d"), bytes(&[0, 1, 0, 2])].concat();
    [listed(pairs), names, text(method)].concat()
}

/// A data end that is CONNECTED by TCP, and a store that shows what is written.
fn connected() -> Desk {
    let mut d = Desk::new();
    (d.s.data.state, d.s.data.address) = (data::CONNECTED, TCP);
    d.store = vec![0xee; STORE];
    d
}

fn started(pairs: &[Pair]) -> Desk {
    let mut d = connected();
    assert_eq!(d.send(0x401, &backup(b"dump", pairs))[28..], bytes(&[0]));
    assert_eq!(d.s.data.state, data::ACTIVE);
    d
}

/// What 0x404 gives behind its error.
fn given(d: &mut Desk) -> Vec<u8> {
    let sent = d.send(0x404, &[]);
    assert_eq!(words(&sent[..32])[3..], [1, 0x404, 5, 0, 0]);
    sent[32..].to_vec()
}

/// An error in the body, first of its words; or in the header.
fn number(d: &mut Desk, message: u32, body: &[u8]) -> u32 {
    let sent = d.send(message, body);
    words(&sent[24..]).into_iter().find(|n| *n != 0).unwrap_or(0)
}

#[test]
fn a_store_byte_for_byte() {
    // Count; name start, name length, value start, value length; texts.
    let d = started(&[(b"LEVEL", b"0"), (b"", b""), (b"HIST", b"yes")]);
    let places = [3, 0, 5, 5, 1, 6, 0, 6, 0, 6, 4, 10, 3];
    assert_eq!(d.store[..52], bytes(&places));
    assert_eq!(d.store[52..65], *b"LEVEL0HISTyes");
    assert!(d.store[65..].iter().all(|b| *b == 0xee));
    // No pairs: the count alone.
    let d = started(&[]);
    assert_eq!(d.store[..8], [0, 0, 0, 0, 0xee, 0xee, 0xee, 0xee]);
}

#[test]
fn both_starts_keep_the_same() {
    let pairs: [Pair; 2] = [(b"TYPE", b"dump"), (b"A", b"")];
    let mut d = connected();
    assert_eq!(number(&mut d, 0x402, &recover(b"dump", &pairs)), 0);
    assert_eq!(d.store, started(&pairs).store);
    assert_eq!(kept(&d.store).unwrap(), pairs);
    // A shorter list over a longer one: its bytes past the texts stay.
    d.s.data.state = data::CONNECTED;
    d.store[4..].fill(0x77);
    assert_eq!(number(&mut d, 0x401, &backup(b"dump", &[(b"B", b"")])), 0);
    assert_eq!(d.store[..24], [bytes(&[1, 0, 1, 1, 0]), vec![b'B', 0x77, 0x77, 0x77]].concat());
}

#[test]
fn separator_is_added_last_when_none_was_given() {
    let name = SEPARATOR.0;
    let longer = [name, b"S"].concat();
    let lower = name.to_ascii_lowercase();
    for (pairs, added) in [
        (vec![], true),
        (vec![(&b"A"[..], &b"1"[..])], true),
        (vec![(b"", b"")], true),
        (vec![(b"A", name)], true),
        (vec![(&name[..17], b"x")], true),
        (vec![(&longer, b"x")], true),
        (vec![(&lower, b"x")], true),
        (vec![(b"PATHNAME_SEPARATOR\0", b"x")], true),
        (vec![SEPARATOR], false),
        (vec![(name, b"")], false),
        (vec![(name, b"\\"), (b"A", b"1")], false),
        (vec![(b"A", b"1"), (name, b":"), (name, b"/")], false),
    ] {
        let mut d = started(&pairs);
        let mut all = pairs.clone();
        if added {
            all.push(SEPARATOR);
        }
        let store = d.store.clone();
        assert_eq!(given(&mut d), listed(&all));
        // The answer only: the store has the client's pairs.
        assert_eq!((d.store == store, kept(&store).unwrap()), (true, pairs));
    }
}

#[test]
fn sixty_four_pairs_and_one_more() {
    let many = |n: usize| vec![(&b"N"[..], &b"v"[..]); n];
    let mut d = started(&many(64));
    let all = given(&mut d);
    assert_eq!((words(&all[..4]), all.len()), (vec![65], 4 + 64 * 16 + 24 + 8));
    for (message, body) in [(0x401, backup(b"tar", &many(65))), (0x402, recover(b"dump", &many(65)))] {
        let mut d = connected();
        d.s.authorized = false;
        assert_eq!(number(&mut d, message, &body), 18);
        assert!(d.store.iter().all(|b| *b == 0xee));
    }
}

#[test]
fn exactly_full_and_one_byte_too_much() {
    for pairs in [1, 2, 63, 64] {
        for over in [-1, 0, 1] {
            // 4 + 16 for each pair + texts: names are empty but the last value.
            let value = vec![0x61; (STORE as i64 - 4 - 16 * pairs + over) as usize];
            let mut all = vec![(&b""[..], &b""[..]); pairs as usize - 1];
            all.push((b"", &value));
            for (message, body) in [(0x401, backup(b"dump", &all)), (0x402, recover(b"dump", &all))] {
                let mut d = connected();
                assert_eq!(number(&mut d, message, &body), if over > 0 { 22 } else { 0 });
                assert_eq!(d.s.data.state, if over > 0 { data::CONNECTED } else { data::ACTIVE });
                assert_eq!(d.store.iter().all(|b| *b == 0xee), over > 0);
                if over <= 0 {
                    // The count of the store was not asked for the separator's room.
                    assert_eq!(words(&given(&mut d)[..4]), [pairs as u32 + 1]);
                    assert_eq!(d.store[STORE - 1], if over == 0 { 0x61 } else { 0xee });
                }
            }
        }
    }
}

#[test]
fn order_of_refusals_of_a_start() {
    let long = vec![0x61; STORE];
    let pairs: [Pair; 1] = [(b"A", &long)];
    for (message, good, wrong) in [
        (0x401, backup(b"dump", &pairs), backup(b"tar", &pairs)),
        (0x402, recover(b"dump", &pairs), recover(b"tar", &pairs)),
    ] {
        let mut d = connected();
        assert_eq!((number(&mut d, message, &good), number(&mut d, message, &wrong)), (22, 9));
        for state in [data::IDLE, data::LISTEN, data::ACTIVE, data::HALTED] {
            (d.s.data.state, d.s.data.address) = (state, if state == data::IDLE { LOCAL } else { TCP });
            assert_eq!((number(&mut d, message, &good), number(&mut d, message, &wrong)), (19, 19));
        }
        d.s.authorized = false;
        assert_eq!(number(&mut d, message, &good), 4);
        assert_eq!(number(&mut d, message, &[&good[..], &[0]].concat()), 18);
        assert!(d.store.iter().all(|b| *b == 0xee));
    }
}

#[test]
fn environment_by_state() {
    for (state, answered) in [(0, false), (1, true), (2, true), (3, false), (4, false)] {
        let mut d = Desk::new();
        (d.s.data.state, d.s.data.address) = (state, if state == 0 { LOCAL } else { TCP });
        if answered {
            assert_eq!(given(&mut d), listed(&[SEPARATOR]));
        } else {
            // Error and an empty list; 19 before 7.
            assert_eq!(d.ask(0x404, &[]), (0, vec![19, 0]));
        }
        d.store[0] = 1;
        assert_eq!(d.ask(0x404, &[]), (0, vec![if answered { 7 } else { 19 }, 0]));
        assert_eq!(d.ask(0x404, &[0]), (18, vec![]));
        d.s.authorized = false;
        assert_eq!(d.ask(0x404, &[]), (0, vec![4, 0]));
        assert_eq!(d.number(0x404, &[0]), 18);
    }
}

#[test]
fn stores_that_are_not_laid_out_so() {
    // (words from the front, bytes set from there on, number)
    let many = |n: u32| [vec![n], vec![0; 4 * n as usize]].concat();
    let last = (STORE - 20) as u32;
    for (front, number) in [
        (many(0), 0),
        (many(64), 0),
        (many(65), 7),
        (vec![u32::MAX], 7),
        (vec![1, 0, 2, 2, 3], 0),
        // The first start, a gap, an overlap, the value before the name, starts from the store's front.
        (vec![1, 1, 2, 3, 3], 7),
        (vec![1, 0, 2, 3, 3], 7),
        (vec![1, 0, 2, 1, 3], 7),
        (vec![1, 3, 2, 0, 3], 7),
        (vec![1, 20, 2, 22, 3], 7),
        (vec![2, 0, 1, 1, 1, 2, 1, 3, 1], 0),
        (vec![2, 0, 1, 1, 1, 3, 1, 4, 1], 7),
        (vec![2, 0, 1, 1, 1, 0, 1, 1, 1], 7),
        // The texts end with the store, and one byte past it; lengths whose sum would wrap.
        (vec![1, 0, last, last, 0], 0),
        (vec![1, 0, 0, 0, last], 0),
        (vec![1, 0, last, last, 1], 7),
        (vec![1, 0, 1, 1, last], 7),
        (vec![1, 0, u32::MAX, u32::MAX, 1], 7),
        (vec![1, 0, u32::MAX, u32::MAX, u32::MAX], 7),
        (vec![2, 0, u32::MAX, u32::MAX, 1, 0, 0, 0, 0], 7),
    ] {
        for state in [data::ACTIVE, data::HALTED] {
            let mut d = connected();
            d.s.data.state = state;
            d.store[..4 * front.len()].copy_from_slice(&bytes(&front));
            let store = d.store.clone();
            assert_eq!(d.ask(0x404, &[]).1[0], number, "{front:?}");
            assert_eq!(d.store, store);
            // A stop asks nothing of it.
            d.s.data.state = data::HALTED;
            assert_eq!(d.number(0x407, &[]), 0);
            assert_eq!((&d.store[..4], &d.store[4..]), (&[0; 4][..], &store[4..]));
        }
    }
}

#[test]
fn stop_forgets_and_nothing_else_does() {
    let mut d = started(&[(b"A", b"1")]);
    let store = d.store.clone();
    assert_eq!(d.number(0x407, &[]), 19);
    assert_eq!(d.number(0x403, &[]), 0);
    assert_eq!(d.store, store);
    assert_eq!(given(&mut d), listed(&[(b"A", b"1"), SEPARATOR]));
    assert_eq!(d.number(0x407, &[]), 0);
    assert_eq!((&d.store[..4], &d.store[4..]), (&[0; 4][..], &store[4..]));
    assert_eq!(d.ask(0x404, &[]), (0, vec![19, 0]));
    // HALTED without a start: the store as it lies.
    assert_eq!(d.number(0x409, &[1]), 0);
    assert_eq!(d.number(0x403, &[]), 0);
    assert_eq!(given(&mut d), listed(&[SEPARATOR]));
    // The method's end and a lost connection leave it.
    for end in [|s: &mut _| calls::end_method(s, true, 6, ROOM), |s: &mut _| calls::lost(s, false, 6, ROOM)] {
        let mut d = started(&[(b"A", b"1")]);
        assert_eq!(d.event(end).len(), 8);
        assert_eq!((d.s.data.state, d.store == store), (data::HALTED, true));
        assert_eq!(given(&mut d), listed(&[(b"A", b"1"), SEPARATOR]));
    }
}

#[test]
fn store_of_another_length() {
    for (length, code) in [(0, 1001), (4, 1001), (STORE - 1, 1001), (STORE, 0), (STORE + 1, 1001), (2 * STORE, 1001)] {
        // Whatever the message, whatever it is: also where the session is closed, and before 1002.
        for input in [record(0x404, &[]), record(0x108, &[]), record(0x407, &[0]), record(7, &[]), vec![]] {
            for (closed, state, other) in [(false, data::HALTED, 0), (true, data::HALTED, 0), (false, 9, 1002)] {
                let mut d = connected();
                (d.s.closed, d.s.data.state, d.store) = (closed, state, vec![0xee; length]);
                let before = d.s.clone();
                let lent = Lent { accounts: &[], challenge: &[0; 64], addresses: &[], made: true };
                let mut kept = Kept { image: &mut [], store: &mut d.store };
                let given = calls::request(&mut d.s, &lent, &mut kept, &input, 6, ROOM);
                assert_eq!(given.code, if code == 0 { other } else { code });
                assert_eq!(broken(&before).is_some(), other != 0);
                if given.code != 0 {
                    assert_eq!((given.sent.len(), d.s == before), (0, true));
                }
                assert_eq!(d.store, vec![0xee; length]);
            }
        }
    }
}
