//! The cartridge file on a disk that may stop at any moment, and under a host that is killed.
mod common;
use common::*;
use host::cartridge::{Cartridge, Disk};
use host::session::writes;
use proved::{OUTPUT, codes};
use std::cell::{Cell, RefCell};
use std::fs;
use std::io::{self, Write};
use std::path::Path;
use std::rc::Rc;
use std::sync::Arc;
use std::sync::atomic::{AtomicU64, Ordering};
use std::time::{Duration, Instant};

#[derive(Clone)]
enum Step {
    Put(usize, Vec<u8>),
    Sync,
}

/// Keeps the steps; can be told to fail at a later one. A write that fails may have been done all the same, a sync that
/// fails has done nothing.
#[derive(Default, Clone)]
struct Recorder {
    steps: Rc<RefCell<Vec<Step>>>,
    fails_in: Rc<Cell<Option<usize>>>,
}

impl Recorder {
    fn fails(&self) -> bool {
        let n = self.fails_in.get();
        self.fails_in.set(n.and_then(|n| n.checked_sub(1)));
        n == Some(0)
    }
}

impl Disk for Recorder {
    fn put(&mut self, at: usize, bytes: &[u8]) -> io::Result<()> {
        self.steps.borrow_mut().push(Step::Put(at, bytes.to_vec()));
        if self.fails() { Err(io::Error::other("put")) } else { Ok(()) }
    }

    fn sync(&mut self) -> io::Result<()> {
        if self.fails() {
            return Err(io::Error::other("sync"));
        }
        self.steps.borrow_mut().push(Step::Sync);
        Ok(())
    }
}

type List = Vec<Vec<u8>>;

/// Whether a file in this state is as it was, cut, or as it shall be; no record is mixed of old and new. After a
/// failure it may be as it was in two ways.
fn fair(state: &[u8], old: &[List], new: &List) -> bool {
    list(state).is_some_and(|l| l == *new || old.iter().any(|o| o.starts_with(&l)))
}

fn put(file: &mut [u8], at: usize, bytes: &[u8]) {
    file[at..at + bytes.len()].copy_from_slice(bytes);
}

/// Runs the steps, and judges every state in which the disk can be left: of the writes since the last sync any may be
/// missing, and any may be torn, but for the eight bytes of the header, which are written whole. Gives the number of
/// states, or the first that is not fair.
fn judge(file: &mut [u8], steps: &[Step], old: &[List], new: &List) -> Result<usize, String> {
    let mut pending: Vec<(usize, Vec<u8>)> = Vec::new();
    let mut states = 0;
    for (number, step) in steps.iter().enumerate() {
        match step {
            Step::Sync => pending.drain(..).for_each(|(at, bytes)| put(file, at, &bytes)),
            Step::Put(at, bytes) => pending.push((*at, bytes.clone())),
        }
        for some in 0..1usize << pending.len() {
            let mut state = file.to_vec();
            let chosen: Vec<_> = (0..pending.len()).filter(|i| some >> i & 1 == 1).collect();
            for i in &chosen {
                let (at, bytes) = &pending[*i];
                let cuts: Vec<usize> = if *at == 8 {
                    vec![bytes.len()]
                } else {
                    (0..=bytes.len()).step_by(37).chain([bytes.len()]).collect()
                };
                for cut in cuts {
                    put(&mut state, *at, &bytes[..cut]);
                    states += 1;
                    if !fair(&state, old, new) {
                        return Err(format!("step {number}, write at {at} cut to {cut}: {:?}", sound(&state)));
                    }
                }
            }
        }
    }
    if pending.is_empty() && list(file).as_ref() == Some(new) {
        Ok(states)
    } else {
        Err("the file is not up to date at the end".into())
    }
}

const CHALLENGE: Challenge = [7; codes::CHALLENGE_LENGTH];

struct Deck {
    session: proved::Session,
    accounts: Vec<u8>,
    out: Vec<u8>,
    variables: Vec<u8>,
    cartridge: Cartridge<Recorder>,
}

impl Deck {
    fn call(&mut self, message: u32, body: &[u8]) {
        let record = request(1, message, body);
        let before = self.session.tape.position;
        let done = proved::request(
            self.session,
            &self.accounts,
            &CHALLENGE,
            &[],
            false,
            &mut self.cartridge.image,
            &mut self.variables,
            &record,
            0,
            &mut self.out,
        );
        if writes(&record) && done.session.tape.position != before {
            self.cartridge.written(before);
        }
        self.session = done.session;
    }
}

/// What brought the file up to date, and the list of records before and after.
type Run = (Vec<Step>, Vec<List>, List);

/// Tape writes, marks and spacing, with the file brought up to date now and then.
fn runs(seed: u64, failing: bool) -> (Vec<u8>, Vec<Run>) {
    let mut image = words(&[1, 12, 0, 0]);
    image.extend(noise(seed, 12 * 8 + 3_000));
    let first = image.clone();
    let disk = Recorder::default();
    let Recorder { steps, fails_in } = disk.clone();
    let mut out = vec![0; OUTPUT];
    let session = proved::open(&[1, 0, 0, 0, 0, 0, 0, 0, 0], 0, &mut out).session;
    let variables = vec![0; codes::STORE_LENGTH];
    let accounts = lent(&[(codes::MD5_AUTH, "vault", "noon")]);
    let mut deck = Deck { session, accounts, out, variables, cartridge: Cartridge::new(image, disk) };
    deck.call(CONFIG_GET_AUTH_ATTR, &words(&[codes::MD5_AUTH]));
    deck.call(CONNECT_CLIENT_AUTH, &by_md5("vault", "noon", &CHALLENGE));
    assert!(deck.session.login.authorized);
    deck.call(TAPE_OPEN, &[text("tape0"), words(&[1])].concat());
    let chance = noise(seed + 1_000, 400);
    let mut all = Vec::new();
    let mut old = vec![list(&first).unwrap()];
    for (i, c) in chance.chunks(4).enumerate() {
        match c[0] % 8 {
            0..=3 => {
                let n = c[1] as usize * 3;
                let mut body = words(&[n as u32]);
                body.extend(noise(seed * 1_000 + i as u64, n.next_multiple_of(4)));
                deck.call(TAPE_WRITE, &body);
            }
            4 => deck.call(TAPE_MTIO, &words(&[5, c[1] as u32 % 3])),
            5 => deck.call(TAPE_MTIO, &words(&[4, 0])),
            6 => deck.call(TAPE_MTIO, &words(&[3, c[1] as u32 % 4])),
            _ => deck.call(TAPE_MTIO, &words(&[2, c[1] as u32 % 4])),
        }
        if c[2] % 3 > 0 {
            fails_in.set(failing.then_some(c[3] as usize % 12));
            let stored = deck.cartridge.store();
            let new = list(&deck.cartridge.image).unwrap();
            if stored.is_ok() {
                all.push((steps.take(), old, new.clone()));
                old = vec![new];
            } else {
                old.push(new);
            }
        }
    }
    (first, all)
}

#[test]
fn every_state_between_two_writes_is_sound() {
    let mut states = 0;
    for seed in 0..20 {
        let (mut file, all) = runs(seed, false);
        for (steps, old, new) in all {
            states += judge(&mut file, &steps, &old, &new).unwrap_or_else(|e| panic!("seed {seed}: {e}"));
        }
    }
    assert!(states > 10_000, "{states} states");
}

#[test]
fn after_a_failed_write_the_next_puts_it_right() {
    let mut retried = 0;
    for seed in 20..40 {
        let (mut file, all) = runs(seed, true);
        for (steps, old, new) in all {
            retried += (old.len() > 1) as u32;
            judge(&mut file, &steps, &old, &new).unwrap_or_else(|e| panic!("seed {seed}: {e}"));
        }
    }
    assert!(retried > 100, "{retried}");
}

/// The judge is not blind: without the cut, or without the syncs, a bad state is found.
#[test]
fn other_orders_are_found_out() {
    let (mut uncut, mut unsynced) = (0, 0);
    for seed in 0..20 {
        let (mut file, all) = runs(seed, false);
        for (steps, old, new) in all {
            let cut = steps.len() == 7;
            if cut {
                uncut += judge(&mut file.clone(), &steps[2..], &old, &new).is_err() as u32;
            }
            let loose: Vec<Step> =
                steps.iter().filter(|s| matches!(s, Step::Put(..))).cloned().chain([Step::Sync]).collect();
            unsynced += judge(&mut file.clone(), &loose, &old, &new).is_err() as u32;
            judge(&mut file, &steps, &old, &new).unwrap();
        }
    }
    assert!(uncut > 20 && unsynced > 20, "{uncut} {unsynced}");
}

const WINDOW: u64 = 32_768 * 64;

/// At each pause the next window, without waiting for the replies, until the connection ends. Counts the bytes that were
/// told as moved.
fn next_windows(mut c: Client, told: &AtomicU64) {
    let mut offset = 0;
    while let Ok(m) = c.receive() {
        if m.header.message == NOTIFY_MOVER_PAUSED {
            offset += WINDOW;
            told.store(offset, Ordering::SeqCst);
            let window = quads(&[offset, WINDOW]);
            if c.socket
                .write_all(&[request(1, MOVER_SET_WINDOW, &window), request(2, MOVER_CONTINUE, b"")].concat())
                .is_err()
            {
                break;
            }
        }
    }
}

/// A backup whose vault is killed: when so many windows are told, or at a time. Gives the bytes that were told as moved.
fn killed_backup(tape: &Path, options: &[&str], windows: Option<u64>, time: Duration) -> u64 {
    // A start is a test of the file too: the core judges it.
    let mut host = Host::start(tape, options);
    let mut c = host.login();
    c.tape_open(TO_WRITE).unwrap();
    c.join(0, 32_768, WINDOW).unwrap();
    c.start_backup().unwrap();
    let told = Arc::new(AtomicU64::new(0));
    let counted = told.clone();
    let client = std::thread::spawn(move || next_windows(c, &counted));
    match windows {
        Some(n) => _ = soon(|| (told.load(Ordering::SeqCst) >= WINDOW * n).then_some(())),
        None => std::thread::sleep(time),
    }
    host.child.kill().unwrap();
    host.child.wait().unwrap();
    client.join().unwrap();
    told.load(Ordering::SeqCst)
}

#[test]
fn killed_during_a_backup() {
    let s = Scratch::new();
    let tape = s.path("tape");
    let names: Vec<_> = (0..2).map(|i| s.path(&format!("from{i}"))).collect();
    (20..).zip(&names).for_each(|(i, n)| fs::write(n, noise(i, 24 << 20)).unwrap());
    let streams: Vec<Vec<u8>> = names.iter().map(|n| archive(n)).collect();
    let chance = noise(77, 1_000);
    let started = Instant::now();
    let (mut rounds, mut partial, mut told_some) = (0, 0, 0);
    while started.elapsed() < Duration::from_secs(4) && rounds < 200 {
        let which = rounds % 2;
        let mut options = vec!["--stream", names[which].to_str().unwrap()];
        if rounds == 0 {
            options.extend(["--new-cartridge", "32M"]);
        }
        let windows = (rounds % 3 == 2).then_some(1 + chance[rounds] as u64 % 5);
        let told = killed_backup(&tape, &options, windows, Duration::from_micros(chance[rounds] as u64 * 200));
        let image = fs::read(&tape).unwrap();
        let (n, used) = sound(&image).unwrap();
        let body = &image[16 + 8 * 4_096..][..used as usize];
        // The records are the start of one stream, and not of both.
        let begins =
            |s: &[u8]| body.len() <= s.len().next_multiple_of(32_768) && body.iter().zip(s).all(|(a, b)| a == b);
        assert!(streams.iter().any(|s| begins(s)), "round {rounds}: {n} records");
        // What was told as moved is there, and is this round's.
        let there = used >= told && begins(&streams[which]);
        assert!(told == 0 || there, "round {rounds}: {told} bytes told, {used} there");
        told_some += (told > 0) as u32;
        partial += (used > 0 && used < 24 << 20) as u32;
        rounds += 1;
    }
    println!("{rounds} kills, {partial} with a part of the stream on tape, {told_some} after a window was told");
    assert!(rounds >= 5 && told_some > 0);
}

#[derive(Clone)]
enum Act {
    Write(Vec<u8>),
    Mark,
    Rewind,
    /// Over the first record.
    Forward,
}

impl Act {
    fn request(&self) -> (u32, Vec<u8>) {
        const OVER_RECORDS: u32 = 2;
        match self {
            Act::Write(bytes) => (TAPE_WRITE, text(bytes)),
            Act::Mark => (TAPE_MTIO, words(&[codes::WRITE_MARKS, 1])),
            Act::Rewind => (TAPE_MTIO, words(&[codes::REWIND_TAPE, 1])),
            Act::Forward => (TAPE_MTIO, words(&[OVER_RECORDS, 1])),
        }
    }

    /// What comes next, by chance: after a rewind a record at the start, or one over the second entry.
    fn some(chance: u8, seed: u64, after: Option<&Act>) -> Vec<Act> {
        let record = Act::Write(noise(seed, 64 + chance as usize * 8));
        match (after, chance) {
            (None, _) => vec![record],
            (_, 0..16) => vec![Act::Rewind, record],
            (_, 16..32) => vec![Act::Rewind, Act::Forward, record],
            (_, 32..80) => vec![Act::Mark],
            _ => vec![record],
        }
    }
}

/// The tape as requests leave it.
#[derive(Clone)]
struct Model {
    entries: List,
    at: usize,
}

impl Model {
    /// The place where it wrote, if it did.
    fn take(&mut self, act: &Act) -> Option<usize> {
        let entry = match act {
            Act::Rewind => {
                self.at = 0;
                return None;
            }
            Act::Forward => {
                self.at += 1;
                return None;
            }
            Act::Write(bytes) => bytes.clone(),
            Act::Mark => Vec::new(),
        };
        self.entries.truncate(self.at);
        self.entries.push(entry);
        self.at += 1;
        Some(self.at - 1)
    }

    /// What a kill may leave of the tape, when these requests were sent and not answered: some of them done, or the list
    /// cut where one of them writes.
    fn after(&self, pending: &[Act]) -> Vec<List> {
        let mut all = vec![self.entries.clone()];
        let mut next = self.clone();
        for act in pending {
            if let Some(at) = next.take(act) {
                all.push(self.entries[..at.min(self.entries.len())].to_vec());
                all.push(next.entries.clone());
            }
        }
        all
    }
}

/// Tape requests, several at a time, until the connection ends. Gives the tape as it was acknowledged, how many requests
/// were, and those that were not.
fn write_on(mut c: Client, round: u64, mut tape: Model) -> (Model, usize, Vec<Act>) {
    let chance = noise(round, 64);
    let (mut count, mut last) = (0, None);
    for i in 0.. {
        let mut acts = Vec::new();
        for k in 0..1 + chance[i % 64] as usize % 4 {
            let seed = round * 100_000 + i as u64 * 10 + k as u64;
            acts.extend(Act::some(chance[(i + k + 7) % 64], seed, last.as_ref()));
            last = acts.last().cloned();
        }
        let first = c.sequence + 1;
        let requests: Vec<_> = acts.iter().map(Act::request).collect();
        let bytes: Vec<u8> =
            (first..).zip(&requests).flat_map(|(n, (message, body))| request(n, *message, body)).collect();
        if c.socket.write_all(&bytes).is_err() {
            return (tape, count, acts);
        }
        for (k, act) in acts.iter().enumerate() {
            c.sequence = first + k as u32;
            match c.reply(requests[k].0) {
                Ok(m) if m.first() == 0 => _ = tape.take(act),
                Ok(m) => panic!("refused with {}", m.first()),
                Err(_) => return (tape, count, acts[k..].to_vec()),
            }
            count += 1;
        }
    }
    unreachable!()
}

/// Whatever was acknowledged is there after a kill, entry for entry: records, marks, and what was written over others;
/// behind it may be what was not.
#[test]
fn all_that_was_acknowledged_outlives_a_kill() {
    let s = Scratch::new();
    let tape = s.path("tape");
    let chance = noise(78, 1_000);
    let started = Instant::now();
    let (mut rounds, mut total) = (0, 0);
    while started.elapsed() < Duration::from_secs(4) && rounds < 200 {
        let new = ["--new-cartridge", "8M"];
        let mut host = Host::start(&tape, if rounds == 0 { &new } else { &[] });
        let mut c = host.login();
        c.tape_open(TO_WRITE).unwrap();
        let before = Model { entries: list(&fs::read(&tape).unwrap()).expect("sound"), at: 0 };
        let client = std::thread::spawn(move || write_on(c, rounds, before));
        std::thread::sleep(Duration::from_micros(chance[rounds as usize] as u64 * 300));
        host.child.kill().unwrap();
        host.child.wait().unwrap();
        let (told, count, pending) = client.join().unwrap();
        let there = list(&fs::read(&tape).unwrap()).expect("sound");
        let fair = told.after(&pending).contains(&there);
        assert!(fair, "round {rounds}: {} told, {} there, {} pending", told.entries.len(), there.len(), pending.len());
        total += count;
        rounds += 1;
    }
    println!("{rounds} kills, {total} requests acknowledged");
    assert!(rounds >= 5 && total > 50, "{rounds} {total}");
}

/// A cartridge that a kill leaves half made has not its name; one that was told is there. Either way the next start goes.
#[test]
fn killed_while_a_cartridge_is_made() {
    use std::os::unix::fs::MetadataExt;
    let s = Scratch::new();
    let size = 16 + 8 * 4_096 + (1 << 20);
    let started = Instant::now();
    let (mut rounds, mut made, mut told) = (0, 0, 0);
    while started.elapsed() < Duration::from_secs(3) && rounds < 60 {
        let tape = s.path(&format!("tape{rounds}"));
        let mut command = serve(&tape);
        command.args(["--listen", "127.0.0.1:0", "--quiet", "--new-cartridge", "1M"]);
        let mut child = command.stdout(std::process::Stdio::piped()).spawn().unwrap();
        std::thread::sleep(Duration::from_micros(rounds * 200));
        child.kill().unwrap();
        let out = child.wait_with_output().unwrap().stdout;
        let there = fs::read(&tape).ok();
        if let Some(image) = &there {
            assert_eq!((sound(image), image.len()), (Ok((0, 0)), size), "round {rounds}");
            assert!(tape.metadata().unwrap().blocks() * 512 >= size as u64, "round {rounds}");
        }
        assert!(out.is_empty() || there.is_some(), "round {rounds}: told and not there");
        made += there.is_some() as u32;
        told += !out.is_empty() as u32;
        let new = ["--new-cartridge", "1M"];
        let host = Host::start(&tape, if there.is_some() { &[] } else { &new });
        host.login().tape_open(TO_WRITE).unwrap();
        rounds += 1;
    }
    println!("{rounds} kills, {made} cartridges made, {told} told");
    assert!(rounds >= 5);
}
