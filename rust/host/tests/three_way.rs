//! Copies across the water: the data end of one vault and the mover of another, joined by TCP.
mod common;
use common::far::{End, backup, becomes, break_off, join, listen, prepare, read, recover, run_mover, ticks};
use common::*;
use std::fs;
use std::io::{ErrorKind, Write};
use std::net::{Shutdown, TcpStream};
use std::path::Path;
use std::time::{Duration, Instant};

fn text_of(path: &Path) -> &str {
    path.to_str().unwrap()
}

/// An office with files and a vault with a tape.
struct Two {
    s: Scratch,
    office: Host,
    vault: Host,
}

impl Two {
    fn new(more: &[&str]) -> Two {
        let s = Scratch::new();
        sample(&s.folder("from"));
        let (from, to) = (s.path("from"), s.folder("to"));
        let own = ["--new-cartridge", "1M", "--stream", text_of(&from), "--restore-to", text_of(&to)];
        let office = Host::logged(&s.path("own"), &s.path("office.log"), &[&own, more].concat());
        let vault = Host::logged(&s.path("tape"), &s.path("vault.log"), &[&["--new-cartridge", "16M"], more].concat());
        Two { s, office, vault }
    }

    fn clients(&self) -> (Client, Client) {
        (self.office.login(), self.vault.login())
    }

    /// The bytes on the vault's tape.
    fn bytes(&self) -> Vec<u8> {
        common::list(&fs::read(self.s.path("tape")).unwrap()).unwrap().concat()
    }

    fn same(&self) {
        assert_eq!(tree(&self.s.path("from")), tree(&self.s.path("to")));
        fs::remove_dir_all(self.s.path("to")).unwrap();
        self.s.folder("to");
    }
}

#[test]
fn folder_goes_to_another_vault_and_comes_back() {
    let two = Two::new(&[]);
    let whole = archive(&two.s.path("from"));
    let (mut data, mut mover) = two.clients();
    for (record, window, listener) in [
        (10_240, 10_240 * 100, End::Data),
        (1_000, 50_000, End::Mover(0)),
        (32_768, Mover::ENDLESS, End::Data),
        (512, Mover::ENDLESS, End::Mover(0)),
    ] {
        let pauses = backup(&mut data, &mut mover, record, window, listener);
        let on_tape = two.bytes();
        assert_eq!(on_tape[..whole.len()], whole, "{record}");
        assert_eq!(on_tape.len(), whole.len().next_multiple_of(record as usize));
        assert!(on_tape[whole.len()..].iter().all(|b| *b == 0));
        assert_eq!(pauses as u64, (whole.len() as u64 - 1) / window);
        assert_eq!(recover(&mut data, &mut mover, record, window, listener), Data::SUCCESSFUL);
        two.same();
    }
    told(&two.s.path("office.log"), &["backup ended (successful)", "recover ended (successful)", "digest right"]);
}

#[test]
fn session_is_joined_with_itself() {
    let two = Two::new(&[]);
    let mut c = two.office.login();
    // To tape and back, and once more the other way.
    for (mode, listener) in [(0, End::Data), (1, End::Data), (0, End::Mover(0)), (1, End::Mover(1))] {
        prepare(&mut c, mode, 1_024, Mover::ENDLESS);
        let (listens, connects) =
            if listener == End::Data { (End::Data, End::Mover(mode)) } else { (listener, End::Data) };
        let at = listen(&mut c, listens);
        common::far::connect(&mut c, connects, &at);
        becomes(&mut c, End::Data, Data::CONNECTED);
        becomes(&mut c, End::Mover(mode), Mover::ACTIVE);
        if mode == Mover::TO_TAPE {
            c.start_backup().unwrap();
        } else {
            c.start_recover().unwrap();
            c.good(MOVER_READ, &quads(&[0, u64::MAX])).unwrap();
        }
        // The mover tells of itself before that, or after.
        let halted = std::iter::repeat_with(|| c.notice().unwrap()).find(|m| m.header.message == NOTIFY_DATA_HALTED);
        assert_eq!(halted.unwrap().first(), Data::SUCCESSFUL);
        becomes(&mut c, End::Mover(mode), Mover::HALTED);
        c.notices.clear();
        c.good(DATA_STOP, b"").unwrap();
        c.good(MOVER_STOP, b"").unwrap();
        c.tape_close().unwrap();
        if mode == Mover::FROM_TAPE {
            two.same();
        }
    }
}

/// Numbers by chance, the same in every run.
struct Chance(u64);

impl Chance {
    fn below(&mut self, n: usize) -> usize {
        self.0 = self.0.wrapping_mul(6_364_136_223_846_793_005).wrapping_add(1_442_695_040_888_963_407);
        (self.0 >> 33) as usize % n
    }
}

/// A peer that sends to the mover and ends or breaks at any byte: the tape has what came, and never anything else.
#[test]
fn sender_ends_or_breaks_at_any_byte() {
    let two = Two::new(&[]);
    let (mut c, mut chance, record) = (two.vault.login(), Chance(1), 1_000);
    for round in 0..24 {
        let (n, breaks) = (chance.below(200_000), round % 2 == 1);
        let bytes = noise(round, n);
        prepare(&mut c, Mover::TO_TAPE, record as u32, Mover::ENDLESS);
        let mut peer = TcpStream::connect(listen(&mut c, End::Mover(0))[0]).unwrap();
        peer.write_all(&bytes).unwrap();
        if breaks {
            // Some of it has been taken then, by chance.
            std::thread::sleep(Duration::from_millis(chance.below(5) as u64));
            break_off(peer);
        } else {
            drop(peer);
        }
        assert_eq!(run_mover(&mut c, Mover::ENDLESS), (0, Mover::CONNECT_CLOSED));
        // Before another request is answered, which would store it too.
        let on_tape = two.bytes();
        let moved = c.moved().unwrap() as usize;
        assert_eq!(moved, on_tape.len(), "what is told is on the disk");
        assert!(moved % record == 0);
        if !breaks {
            assert_eq!(moved, n.next_multiple_of(record));
        }
        let whole = moved.min(n);
        assert_eq!(on_tape[..whole], bytes[..whole]);
        assert!(on_tape[whole..].iter().all(|b| *b == 0));
        c.good(MOVER_STOP, b"").unwrap();
        c.tape_close().unwrap();
    }
}

/// A peer that takes a backup and goes at any byte: success is told of a stream that was taken whole, and of no other.
#[test]
fn receiver_goes_at_any_byte() {
    let two = Two::new(&[]);
    let whole = archive(&two.s.path("from"));
    let (mut c, mut chance) = (two.office.login(), Chance(2));
    for round in 0..24 {
        let n = if round % 4 == 0 { whole.len() } else { chance.below(whole.len()) };
        let mut peer = TcpStream::connect(listen(&mut c, End::Data)[0]).unwrap();
        becomes(&mut c, End::Data, Data::CONNECTED);
        c.start_backup().unwrap();
        let (bytes, how) = read(&mut peer, n);
        assert!(how.is_ok() && bytes == whole[..n], "{n}");
        if n < whole.len() && round % 2 == 0 {
            break_off(peer);
        } else if n < whole.len() {
            drop(peer);
        } else {
            // It sees the end before the vault tells of it.
            let (more, how) = read(&mut peer, 1);
            assert!(more.is_empty() && how.is_ok(), "{how:?}");
            drop(peer);
        }
        let why = if n < whole.len() { Data::CONNECT_ERROR } else { Data::SUCCESSFUL };
        assert_eq!(c.noticed(NOTIFY_DATA_HALTED).unwrap(), why, "{n} of {}", whole.len());
        c.good(DATA_STOP, b"").unwrap();
    }
}

/// A peer that sends a recover's stream and ends or breaks at any byte: all is restored, or nothing.
#[test]
fn recover_is_cut_at_any_byte() {
    let two = Two::new(&[]);
    let whole = archive(&two.s.path("from"));
    let (mut c, mut chance) = (two.office.login(), Chance(3));
    for round in 0..24 {
        let n = if round % 6 == 0 { whole.len() } else { chance.below(whole.len()) };
        let breaks = round % 2 == 1;
        let mut peer = TcpStream::connect(listen(&mut c, End::Data)[0]).unwrap();
        becomes(&mut c, End::Data, Data::CONNECTED);
        c.start_recover().unwrap();
        peer.write_all(&whole[..n]).unwrap();
        if breaks {
            break_off(peer);
        } else {
            drop(peer);
        }
        let why = c.noticed(NOTIFY_DATA_HALTED).unwrap();
        c.good(DATA_STOP, b"").unwrap();
        if n == whole.len() {
            assert_eq!(why, Data::SUCCESSFUL);
            two.same();
            continue;
        }
        // A break may throw away what came before it.
        assert!(why == Data::INTERNAL_ERROR || breaks && why == Data::CONNECT_ERROR, "{why}");
        assert!(tree(&two.s.path("to")).is_empty(), "{n} of {}", whole.len());
    }
    told(&two.s.path("office.log"), &["the connection ends before the stream does, after"]);
}

/// A peer that has sent all, and gone, before the recover was started; and one that has gone without a word.
#[test]
fn stream_may_come_before_the_recover_starts() {
    let two = Two::new(&[]);
    let whole = archive(&two.s.path("from"));
    let mut c = two.office.login();
    // As much as systems hold on the way.
    let few = two.s.folder("few");
    fs::write(few.join("a"), noise(1, 20_000)).unwrap();
    for bytes in [archive(&few), whole[..10_000].to_vec(), Vec::new()] {
        let mut peer = TcpStream::connect(listen(&mut c, End::Data)[0]).unwrap();
        peer.write_all(&bytes).unwrap();
        drop(peer);
        if bytes.is_empty() {
            assert_eq!(c.noticed(NOTIFY_DATA_HALTED).unwrap(), Data::CONNECT_ERROR);
            continue;
        }
        becomes(&mut c, End::Data, Data::CONNECTED);
        std::thread::sleep(Duration::from_millis(200));
        c.start_recover().unwrap();
        let why = if bytes.len() > 20_000 { Data::SUCCESSFUL } else { Data::INTERNAL_ERROR };
        assert_eq!(c.noticed(NOTIFY_DATA_HALTED).unwrap(), why);
        c.good(DATA_STOP, b"").unwrap();
    }
    assert_eq!(tree(&few), tree(&two.s.path("to")));
}

/// The peer of a mover from tape goes at any byte.
#[test]
fn reader_of_the_tape_goes_at_any_byte() {
    let two = Two::new(&[]);
    let (mut c, mut chance) = (two.vault.login(), Chance(4));
    let bytes = noise(7, 4_000_000);
    put_on_tape(&mut c, &bytes, 10_000);
    for round in 0..16 {
        let n = chance.below(bytes.len());
        prepare(&mut c, Mover::FROM_TAPE, 10_000, Mover::ENDLESS);
        let mut peer = TcpStream::connect(listen(&mut c, End::Mover(1))[0]).unwrap();
        becomes(&mut c, End::Mover(1), Mover::ACTIVE);
        // No more comes than was asked for.
        let first = chance.below(n + 1);
        if first > 0 {
            c.good(MOVER_READ, &quads(&[0, first as u64])).unwrap();
            assert_eq!(read(&mut peer, first).0, bytes[..first]);
            assert_eq!(c.moved().unwrap(), first as u64);
        }
        c.good(MOVER_READ, &quads(&[first as u64, u64::MAX - first as u64])).unwrap();
        assert!(read(&mut peer, n - first).0 == bytes[first..n]);
        if round % 2 == 1 {
            break_off(peer);
        } else {
            drop(peer);
        }
        let m = c.notice().unwrap();
        // The tape may have been at its end before.
        let m = if m.header.message == NOTIFY_MOVER_PAUSED { c.notice().unwrap() } else { m };
        assert_eq!((m.header.message, m.first()), (NOTIFY_MOVER_HALTED, Mover::CONNECT_CLOSED));
        c.good(MOVER_STOP, b"").unwrap();
        c.tape_close().unwrap();
    }
}

/// Either program is killed in the midst of a copy. What was told is on the disk; nobody tells a success.
#[test]
fn killed_on_either_side() {
    for (round, kills_vault) in [(0, true), (1, false), (2, true), (3, false)] {
        let mut two = Two::new(&[]);
        fs::write(two.s.path("from/large"), noise(round, 12 << 20)).unwrap();
        let (mut data, mut mover) = two.clients();
        let window = 200 * 4_096;
        prepare(&mut mover, Mover::TO_TAPE, 4_096, window);
        join(&mut data, &mut mover, Mover::TO_TAPE, End::Mover(0));
        data.start_backup().unwrap();
        let mut told = 0;
        for _ in 0..=2 * round {
            assert_eq!(mover.noticed(NOTIFY_MOVER_PAUSED).unwrap(), Mover::END_OF_WINDOW);
            told = mover.moved().unwrap();
            mover.window(told, window).unwrap();
            mover.good(MOVER_CONTINUE, b"").unwrap();
        }
        if kills_vault {
            two.vault.child.kill().unwrap();
            assert_eq!(data.noticed(NOTIFY_DATA_HALTED).unwrap(), Data::CONNECT_ERROR);
        } else {
            two.office.child.kill().unwrap();
            assert_eq!(run_mover(&mut mover, Mover::ENDLESS).1, Mover::CONNECT_CLOSED);
            told = mover.moved().unwrap();
        }
        let on_tape = two.bytes();
        assert!(on_tape.len() as u64 >= told, "{} of {told}", on_tape.len());
        let whole = archive(&two.s.path("from"));
        assert!(on_tape == whole[..on_tape.len()], "no record is filled");
    }
}

/// How a copy is given up on one side.
#[derive(Clone, Copy, Debug, PartialEq)]
enum Cut {
    Abort,
    Client,
    Signal,
    Kill,
}

const CUTS: [Cut; 4] = [Cut::Abort, Cut::Client, Cut::Signal, Cut::Kill];

fn cut(how: Cut, host: &mut Host, mut c: Client, abort: u32) {
    match how {
        Cut::Abort => c.good(abort, b"").map(drop).unwrap(),
        Cut::Client => drop(c),
        Cut::Signal => signal(host, "-TERM"),
        Cut::Kill => host.child.kill().unwrap(),
    }
}

/// A copy that is given up at the data end: the other vault's tape has the whole records that came, and none that was filled.
#[test]
fn copy_that_is_given_up_leaves_whole_records() {
    for how in CUTS {
        let mut two = Two::new(&[]);
        fs::write(two.s.path("from/large"), noise(1, 12 << 20)).unwrap();
        let (mut data, mut mover) = two.clients();
        let window = 100 * 4_096;
        prepare(&mut mover, Mover::TO_TAPE, 4_096, window);
        join(&mut data, &mut mover, Mover::TO_TAPE, End::Mover(0));
        data.start_backup().unwrap();
        assert_eq!(mover.noticed(NOTIFY_MOVER_PAUSED).unwrap(), Mover::END_OF_WINDOW);
        cut(how, &mut two.office, data, DATA_ABORT);
        assert_eq!(run_mover(&mut mover, Mover::ENDLESS), (0, Mover::CONNECT_CLOSED), "{how:?}");
        assert!(two.bytes() == archive(&two.s.path("from"))[..window as usize], "{how:?}");
        told(&two.s.path("vault.log"), &["mover lost its peer "]);
    }
}

/// A peer sees that what was given up is not whole, whichever way its bytes went.
#[test]
fn what_is_given_up_is_seen_as_a_break() {
    for how in CUTS {
        let mut two = Two::new(&[]);
        fs::write(two.s.path("from/large"), noise(1, 12 << 20)).unwrap();
        let breaks = |peer: &mut TcpStream| {
            let (bytes, end) = read(peer, usize::MAX);
            assert_eq!(end.unwrap_err().kind(), ErrorKind::ConnectionReset, "{how:?} after {}", bytes.len());
        };
        let (mut data, mut mover) = two.clients();
        let mut peer = TcpStream::connect(listen(&mut data, End::Data)[0]).unwrap();
        becomes(&mut data, End::Data, Data::CONNECTED);
        data.start_backup().unwrap();
        assert_eq!(read(&mut peer, 1_000).0.len(), 1_000);
        cut(how, &mut two.office, data, DATA_ABORT);
        breaks(&mut peer);
        put_by_peer(&mut mover, &noise(1, 12 << 20), 4_096);
        prepare(&mut mover, Mover::FROM_TAPE, 4_096, Mover::ENDLESS);
        let mut peer = TcpStream::connect(listen(&mut mover, End::Mover(1))[0]).unwrap();
        becomes(&mut mover, End::Mover(1), Mover::ACTIVE);
        mover.good(MOVER_READ, &quads(&[0, u64::MAX])).unwrap();
        assert_eq!(read(&mut peer, 1_000).0.len(), 1_000);
        cut(how, &mut two.vault, mover, MOVER_ABORT);
        breaks(&mut peer);
    }
}

/// A backup that fails, here before its first byte, is not an empty one.
#[test]
fn backup_that_fails_is_seen_as_a_break() {
    let two = Two::new(&[]);
    let mut c = two.vault.login();
    let mut peer = TcpStream::connect(listen(&mut c, End::Data)[0]).unwrap();
    becomes(&mut c, End::Data, Data::CONNECTED);
    c.start_backup().unwrap();
    assert_eq!(c.noticed(NOTIFY_DATA_HALTED).unwrap(), Data::INTERNAL_ERROR);
    assert_eq!(read(&mut peer, 1).1.unwrap_err().kind(), ErrorKind::ConnectionReset);
}

/// A sender whose bytes have all been taken, and are not all on the disk.
#[test]
fn sender_sees_that_the_tape_has_not_all() {
    for how in CUTS {
        let mut two = Two::new(&[]);
        let mut c = two.vault.login();
        prepare(&mut c, Mover::TO_TAPE, 1_000, Mover::ENDLESS);
        let mut peer = TcpStream::connect(listen(&mut c, End::Mover(0))[0]).unwrap();
        peer.write_all(&noise(1, 10_500)).unwrap();
        soon(|| (c.moved().unwrap() == 10_000).then_some(())).unwrap();
        cut(how, &mut two.vault, c, MOVER_ABORT);
        assert_eq!(read(&mut peer, 1).1.unwrap_err().kind(), ErrorKind::ConnectionReset, "{how:?}");
    }
}

/// A client that closes the mover at a pause loses nothing of what went before it, however slowly the peer reads.
#[test]
fn pause_is_told_when_all_before_it_is_sent() {
    let two = Two::new(&[]);
    let mut c = two.vault.login();
    let (record, whole) = (32_768, noise(5, 14 << 20));
    put_by_peer(&mut c, &whole, record);
    for (window, why) in [(13 << 20, Mover::SEEK), (Mover::ENDLESS, Mover::END_OF_MEDIUM)] {
        prepare(&mut c, Mover::FROM_TAPE, record, window);
        let mut peer = TcpStream::connect(listen(&mut c, End::Mover(1))[0]).unwrap();
        becomes(&mut c, End::Mover(1), Mover::ACTIVE);
        c.good(MOVER_READ, &quads(&[0, u64::MAX])).unwrap();
        let reader = std::thread::spawn(move || {
            let mut all = Vec::new();
            loop {
                let (part, how) = read(&mut peer, 1 << 20);
                how.unwrap();
                if part.is_empty() {
                    return all;
                }
                all.extend(part);
                std::thread::sleep(Duration::from_millis(20));
            }
        });
        assert_eq!(c.noticed(NOTIFY_MOVER_PAUSED).unwrap(), why);
        c.good(MOVER_CLOSE, b"").unwrap();
        let n = whole.len().min(window as usize);
        assert!(reader.join().unwrap() == whole[..n], "not all that was handed over has come");
        assert_eq!(c.noticed(NOTIFY_MOVER_HALTED).unwrap(), Mover::CONNECT_CLOSED);
        c.good(MOVER_STOP, b"").unwrap();
        c.tape_close().unwrap();
    }
}

/// Writes a stream to the tape's start as a peer.
fn put_by_peer(c: &mut Client, bytes: &[u8], record: u32) {
    prepare(c, Mover::TO_TAPE, record, Mover::ENDLESS);
    let mut peer = TcpStream::connect(listen(c, End::Mover(0))[0]).unwrap();
    peer.write_all(bytes).unwrap();
    drop(peer);
    assert_eq!(run_mover(c, Mover::ENDLESS), (0, Mover::CONNECT_CLOSED));
    c.good(MOVER_STOP, b"").unwrap();
    c.tape_close().unwrap();
}

/// Success waits for the peer to close. One that does not is believed after a while, if its system has all; not one of which the
/// rest still lies here. Whether the peer has read what its system has, nothing tells.
#[test]
fn peer_that_does_not_close_is_believed_after_a_while() {
    let two = Two::new(&["--send-within", "2"]);
    fs::write(two.s.path("from/large"), noise(1, 24 << 20)).unwrap();
    let whole = archive(&two.s.path("from"));
    let mut c = two.office.login();
    for reads in [true, false] {
        let mut peer = TcpStream::connect(listen(&mut c, End::Data)[0]).unwrap();
        becomes(&mut c, End::Data, Data::CONNECTED);
        c.start_backup().unwrap();
        if reads {
            assert!(read(&mut peer, whole.len()).0 == whole);
        }
        let begun = Instant::now();
        std::thread::sleep(Duration::from_millis(1_000));
        assert_eq!(common::far::state(&mut c, End::Data).0, Data::ACTIVE, "it is told before the peer has closed");
        if reads {
            assert_eq!(c.noticed(NOTIFY_DATA_HALTED).unwrap(), Data::SUCCESSFUL);
            assert!(begun.elapsed() >= Duration::from_millis(1_900), "{:?}", begun.elapsed());
        } else {
            std::thread::sleep(Duration::from_millis(2_000));
            assert_eq!(common::far::state(&mut c, End::Data).0, Data::ACTIVE, "nobody has read it");
            drop(peer);
            assert_eq!(c.noticed(NOTIFY_DATA_HALTED).unwrap(), Data::CONNECT_ERROR);
        }
        c.good(DATA_STOP, b"").unwrap();
    }
}

/// A peer that ends its side while the rest is on the way is waited for, and the processor rests meanwhile.
#[test]
fn peer_that_ends_its_side_first_is_waited_for() {
    let two = Two::new(&[]);
    fs::write(two.s.path("from/large"), noise(1, 1 << 20)).unwrap();
    let mut c = two.office.login();
    let mut peer = TcpStream::connect(listen(&mut c, End::Data)[0]).unwrap();
    becomes(&mut c, End::Data, Data::CONNECTED);
    c.start_backup().unwrap();
    // The system here takes all, and that of the peer does not.
    std::thread::sleep(Duration::from_millis(500));
    peer.shutdown(Shutdown::Write).unwrap();
    let before = ticks(&two.office);
    std::thread::sleep(Duration::from_millis(1_000));
    assert!(ticks(&two.office) - before < 20, "it runs while it waits");
    assert_eq!(common::far::state(&mut c, End::Data).0, Data::ACTIVE);
    let (bytes, how) = read(&mut peer, usize::MAX);
    assert!(how.is_ok() && bytes == archive(&two.s.path("from")));
    assert_eq!(c.noticed(NOTIFY_DATA_HALTED).unwrap(), Data::SUCCESSFUL);
}
