//! Requests by chance from several clients that come and go, and peers by chance: the host goes on, no thread of it panics,
//! and the cartridge file is sound.
mod common;
use common::far::{End, connects, dead, listens, place, port, sockets};
use common::*;
use std::fs;
use std::io::{Read, Write};
use std::net::{Ipv4Addr, SocketAddrV4, TcpListener, TcpStream};
use std::path::Path;
use std::sync::Mutex;
use std::sync::atomic::{AtomicUsize, Ordering};
use std::time::{Duration, Instant};

struct Chance(u64);

impl Chance {
    fn below(&mut self, n: u64) -> u64 {
        self.0 ^= self.0 << 13;
        self.0 ^= self.0 >> 7;
        self.0 ^= self.0 << 17;
        (self.0 >> 16) % n
    }

    fn record(&mut self) -> u32 {
        512 << self.below(3)
    }

    fn window(&mut self) -> Vec<u8> {
        [(512 * self.below(2) * self.below(30)).to_be_bytes(), (2_048 * self.below(20)).to_be_bytes()].concat()
    }
}

/// One request, most of them in a state in which they are refused.
fn any(r: &mut Chance) -> (u32, Vec<u8>) {
    match r.below(20) {
        0 => (TAPE_OPEN, [text("tape0"), words(&[r.below(3) as u32])].concat()),
        1 => (TAPE_CLOSE, vec![]),
        2 => (TAPE_GET_STATE, vec![]),
        3 => (TAPE_MTIO, words(&[r.below(8) as u32, r.below(4) as u32])),
        4 => {
            let n = r.below(3_000) as usize;
            (TAPE_WRITE, [words(&[n as u32]), noise(n as u64, n.next_multiple_of(4))].concat())
        }
        5 => (TAPE_READ, words(&[r.below(3_000) as u32])),
        6 => (MOVER_SET_RECORD_SIZE, words(&[r.record()])),
        7 | 8 => (MOVER_SET_WINDOW, r.window()),
        9 => (MOVER_LISTEN, words(&[r.below(2) as u32, 0])),
        10 => (MOVER_CONTINUE, vec![]),
        11 => (MOVER_ABORT, vec![]),
        12 => (MOVER_STOP, vec![]),
        13 => (MOVER_READ, r.window()),
        14 => (MOVER_CLOSE, vec![]),
        15 => (DATA_STOP, vec![]),
        16 => (DATA_ABORT, vec![]),
        17 => (DATA_START_BACKUP, [text("dump"), words(&[0])].concat()),
        18 => (DATA_START_RECOVER, [words(&[0, 0]), text("dump")].concat()),
        _ => (DATA_CONNECT, words(&[0])),
    }
}

/// A backup or a recover from the start, with any numbers.
fn begin(r: &mut Chance) -> Vec<(u32, Vec<u8>)> {
    let mode = r.below(2) as u32;
    let start = if mode == 0 { [text("dump"), words(&[0])].concat() } else { [words(&[0, 0]), text("dump")].concat() };
    vec![
        (TAPE_OPEN, [text("tape0"), words(&[1])].concat()),
        (MOVER_SET_RECORD_SIZE, words(&[r.record()])),
        (MOVER_SET_WINDOW, [0u64.to_be_bytes(), (2_048 * (1 + r.below(20))).to_be_bytes()].concat()),
        (MOVER_LISTEN, words(&[mode, 0])),
        (DATA_CONNECT, words(&[0])),
        (DATA_START_BACKUP + mode, start),
    ]
}

fn start(s: &Scratch) -> Host {
    let (from, to) = (s.folder("from"), s.folder("to"));
    fs::write(from.join("a"), noise(1, 30_000)).unwrap();
    fs::write(from.join("b"), noise(2, 3_000)).unwrap();
    let mut command = serve(&s.path("tape"));
    command.args(["--listen", "127.0.0.1:0", "--new-cartridge", "60K"]);
    command.arg("--stream").arg(&from).arg("--restore-to").arg(&to).stderr(fs::File::create(s.path("log")).unwrap());
    Host::spawn(&mut command)
}

/// No thread has panicked, and the cartridge is sound; the log.
fn judged(log: &Path, tape: &Path) -> String {
    let told = fs::read_to_string(log).unwrap();
    assert!(!told.contains("panicked"), "{told}");
    sound(&fs::read(tape).unwrap()).unwrap();
    told
}

#[test]
fn clients_by_chance() {
    let s = Scratch::new();
    let host = start(&s);
    let (calls, halts, pauses) = (AtomicUsize::new(0), AtomicUsize::new(0), AtomicUsize::new(0));
    let until = Instant::now() + Duration::from_secs(3);
    std::thread::scope(|scope| {
        for thread in 0..3 {
            let (host, calls, halts, pauses) = (&host, &calls, &halts, &pauses);
            scope.spawn(move || {
                let mut r = Chance(0x1234_5678_9abc + thread);
                while Instant::now() < until {
                    let mut c = host.login();
                    let mut all = if r.below(4) > 0 { begin(&mut r) } else { Vec::new() };
                    all.extend((0..r.below(40)).map(|_| any(&mut r)));
                    for (message, body) in all {
                        c.call(message, &body).unwrap();
                        calls.fetch_add(1, Ordering::Relaxed);
                        for n in c.notices.drain(..) {
                            [halts, pauses][(n.header.message == NOTIFY_MOVER_PAUSED) as usize]
                                .fetch_add(1, Ordering::Relaxed);
                        }
                    }
                }
            });
        }
    });
    host.login();
    drop(host);
    judged(&s.path("log"), &s.path("tape"));
    let counts = [calls, halts, pauses].map(|n| n.into_inner());
    println!("{counts:?} calls, notices of halts, of pauses");
    assert!(counts.iter().zip([500, 20, 5]).all(|(n, least)| *n >= least), "{counts:?}");
}

/// Ports that were open once, of which some still are; and one of the test's own.
struct Ports {
    all: Mutex<Vec<SocketAddrV4>>,
    own: TcpListener,
}

fn some_port(r: &mut Chance, ports: &Ports) -> SocketAddrV4 {
    let mut all = ports.all.lock().unwrap();
    match all.len() {
        0 => dead(),
        n if r.below(2) > 0 => all.swap_remove(r.below(n as u64) as usize),
        n => all[n - 1],
    }
}

/// A listen or a connect by TCP, of either end; or another request.
fn any_far(r: &mut Chance, ports: &Ports) -> (u32, Vec<u8>) {
    let end = if r.below(2) > 0 { End::Data } else { End::Mover(r.below(2) as u32) };
    match r.below(5) {
        0 | 1 => listens(end),
        2 if r.below(2) > 0 => connects(end, &[dead(), some_port(r, ports)]),
        2 => connects(end, &[place(&ports.own)]),
        _ => any(r),
    }
}

fn keep(reply: &[u8], ports: &Ports) {
    if reply.len() == 24 && word(reply, 0) == 0 {
        ports.all.lock().unwrap().push(SocketAddrV4::new(Ipv4Addr::from(word(reply, 12)), word(reply, 16) as u16));
    }
}

/// One client, with any requests behind those that let a mover listen.
fn client_by_chance(host: &Host, r: &mut Chance, ports: &Ports) {
    let mut c = host.login();
    let mode = r.below(2) as u32;
    let mut all = begin(r)[..3].to_vec();
    all.extend([listens(End::Mover(mode)), listens(End::Data)]);
    all.truncate(r.below(7) as usize);
    all.extend((0..r.below(40)).map(|_| any_far(r, ports)));
    for (message, body) in all {
        let reply = c.call(message, &body).unwrap().body;
        if matches!(message, DATA_LISTEN | MOVER_LISTEN) {
            keep(&reply, ports);
        }
    }
}

/// One who connects to a port, or is connected to, and sends and reads some.
fn peer_by_chance(r: &mut Chance, ports: &Ports) {
    let came = ports.own.accept().map(|(peer, _)| peer);
    let Ok(mut peer) = came.or_else(|_| TcpStream::connect(some_port(r, ports))) else { return };
    peer.set_read_timeout(Some(Duration::from_millis(1 + r.below(20)))).unwrap();
    peer.set_write_timeout(Some(Duration::from_millis(20))).unwrap();
    let n = r.below(50_000) as usize;
    let _ = peer.write_all(&noise(1, n));
    let _ = peer.read(&mut vec![0; 1 + r.below(50_000) as usize]);
    if r.below(2) > 0 {
        common::far::break_off(peer);
    }
}

#[test]
fn peers_by_chance() {
    let s = Scratch::new();
    let host = start(&s);
    let before = sockets(&host);
    let own = port().0;
    own.set_nonblocking(true).unwrap();
    let (ports, until) = (Ports { all: Mutex::default(), own }, Instant::now() + Duration::from_secs(3));
    std::thread::scope(|scope| {
        for thread in 0..5 {
            let (host, ports) = (&host, &ports);
            scope.spawn(move || {
                let mut r = Chance(0x9876_5432_1abc + thread);
                while Instant::now() < until {
                    match thread {
                        0..3 => client_by_chance(host, &mut r, ports),
                        _ => peer_by_chance(&mut r, ports),
                    }
                }
            });
        }
    });
    soon(|| (sockets(&host) == before).then_some(())).expect("sockets are left open");
    host.login();
    drop(host);
    let told = judged(&s.path("log"), &s.path("tape"));
    for (what, least) in [
        ("is joined by TCP with", 20),
        (" connected by TCP to ", 5),
        (" lost its peer ", 5),
        (" listens by TCP at ", 50),
    ] {
        let n = told.matches(what).count();
        assert!(n >= least, "{what}: {n}");
        println!("{n} {what}");
    }
}
