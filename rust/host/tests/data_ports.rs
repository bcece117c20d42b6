//! Data ports and connections to peers: for whom, how many, and how long.
mod common;
use common::far::*;
use common::*;
use std::fs;
use std::io::{ErrorKind, Write};
use std::net::{Ipv4Addr, Shutdown, SocketAddrV4, TcpListener, TcpStream};
use std::path::Path;
use std::process::Command;
use std::time::{Duration, Instant};

fn text_of(path: &Path) -> &str {
    path.to_str().unwrap()
}

/// A vault with a tape and a large file to back up.
fn start(s: &Scratch, more: &[&str]) -> Host {
    fs::write(s.path("from"), noise(1, 24 << 20)).unwrap();
    let (from, to) = (s.path("from"), s.folder("to"));
    let own = ["--new-cartridge", "32M", "--stream", text_of(&from), "--restore-to", text_of(&to)];
    Host::logged(&s.path("tape"), &s.path("log"), &[&own, more].concat())
}

/// Nobody has connected there.
fn is_alone(listener: &TcpListener) -> bool {
    listener.set_nonblocking(true).unwrap();
    listener.accept().is_err_and(|e| e.kind() == ErrorKind::WouldBlock)
}

#[test]
fn port_is_open_for_one_peer_and_no_longer() {
    let s = Scratch::new();
    let host = start(&s, &[]);
    let mut c = host.login();
    c.tape_open(TO_WRITE).unwrap();
    c.window(0, Mover::ENDLESS).unwrap();
    let before = sockets(&host);
    for (end, abort, stop) in [(End::Data, DATA_ABORT, DATA_STOP), (End::Mover(0), MOVER_ABORT, MOVER_STOP)] {
        // Nobody comes.
        let at = listen(&mut c, end);
        assert_eq!(sockets(&host), before + 1);
        c.good(abort, b"").unwrap();
        assert!(is_closed(at[0]) && sockets(&host) == before);
        c.good(stop, b"").unwrap();
        c.notices.clear();
        // One comes, and then another.
        c.window(0, Mover::ENDLESS).unwrap();
        let at = listen(&mut c, end);
        let mut peer = TcpStream::connect(at[0]).unwrap();
        becomes(&mut c, end, if end == End::Data { Data::CONNECTED } else { Mover::ACTIVE });
        assert!(is_closed(at[0]) && sockets(&host) == before + 1);
        told(&s.path("log"), &[&format!("is joined by TCP with {}, which connected", peer.local_addr().unwrap())]);
        // The abort is seen at the other side.
        c.good(abort, b"").unwrap();
        assert_eq!(read(&mut peer, 1).0, b"");
        assert_eq!(sockets(&host), before);
        c.good(stop, b"").unwrap();
        c.notices.clear();
        c.window(0, Mover::ENDLESS).unwrap();
    }
    // The client goes.
    let at = listen(&mut c, End::Data);
    drop(c);
    soon(|| is_closed(at[0]).then_some(())).expect("the port is still open");
}

/// Two that connect before either is taken: one is the peer, the other is turned away.
#[test]
fn one_of_two_peers_at_once_is_taken() {
    let s = Scratch::new();
    let host = start(&s, &[]);
    for _ in 0..5 {
        let mut c = host.login();
        let at = listen(&mut c, End::Data);
        let all: Vec<_> = (0..2).map(|_| TcpStream::connect(at[0])).collect();
        becomes(&mut c, End::Data, Data::CONNECTED);
        c.start_backup().unwrap();
        let got = |peer: std::io::Result<TcpStream>| peer.map_or(0, |mut p| read(&mut p, 1_000).0.len());
        assert_eq!(all.into_iter().map(got).sum::<usize>(), 1_000);
    }
}

#[test]
fn strangers_open_no_port_and_connect_nowhere() {
    let s = Scratch::new();
    let host = start(&s, &[]);
    let (own, at) = port();
    let all = |c: &mut Client, error: u32| {
        for end in [End::Data, End::Mover(0), End::Mover(1)] {
            for (message, body) in [listens(end), connects(end, &[at])] {
                let before = sockets(&host);
                c.expect(message, &body, error).unwrap();
                assert_eq!(sockets(&host), before);
            }
        }
        assert!(is_alone(&own));
    };
    // All are there before the first is looked at, and none goes before the end: their sockets are counted.
    let mut strangers = [host.client(), host.client()];
    strangers.iter_mut().for_each(|c| assert_eq!(c.noticed(NOTIFY_CONNECTED).unwrap(), 0));
    for (opens, c) in [false, true].into_iter().zip(&mut strangers) {
        if opens {
            c.good(CONNECT_OPEN, &words(&[codes::VERSION_FOUR])).unwrap();
        }
        all(c, codes::NOT_AUTHORIZED);
    }
    let mut c = host.login();
    // Whoever is logged in, where the core refuses: a mover without a tape; ends that are not IDLE.
    for (message, body) in [listens(End::Mover(0)), connects(End::Mover(1), &[at])] {
        c.expect(message, &body, codes::NOT_OPEN).unwrap();
    }
    listen(&mut c, End::Data);
    c.tape_open(TO_WRITE).unwrap();
    c.window(0, Mover::ENDLESS).unwrap();
    listen(&mut c, End::Mover(0));
    all(&mut c, codes::ILLEGAL_STATE);
}

#[test]
fn lists_that_are_wrong_connect_nowhere() {
    let s = Scratch::new();
    let host = start(&s, &[]);
    let (own, at) = port();
    let mut c = host.login();
    let before = sockets(&host);
    for body in
        [[words(&[TCP]), addresses(&[at; 17])].concat(), words(&[TCP, 1, 0x7f00_0001, 65_536, 0]), words(&[TCP, 1])]
    {
        assert_eq!(c.call(DATA_CONNECT, &body).unwrap().header.error, codes::UNDECODABLE);
    }
    assert_eq!(c.call(DATA_LISTEN, &words(&[TCP, 0])).unwrap().header.error, codes::UNDECODABLE);
    c.expect(DATA_CONNECT, &words(&[TCP, 0]), codes::ILLEGAL_ARGUMENTS).unwrap();
    assert!(is_alone(&own) && sockets(&host) == before);
}

#[test]
fn addresses_are_tried_in_their_order() {
    let s = Scratch::new();
    let host = start(&s, &[]);
    let mut c = host.login();
    let ((first, at), (second, other), gone) = (port(), port(), dead());
    connect(&mut c, End::Data, &[gone, gone, at, other]);
    let peer = accept(&first);
    assert!(is_alone(&second));
    assert_eq!(state(&mut c, End::Data), (Data::CONNECTED, TCP));
    let log = s.path("log");
    told(&log, &[&format!("data connects by TCP to {gone}: Connection refused"), &format!("connected by TCP to {at}")]);
    // It goes before anything has begun.
    drop(peer);
    assert_eq!(c.noticed(NOTIFY_DATA_HALTED).unwrap(), Data::CONNECT_ERROR);
    told(&log, &[&format!("data lost its peer {at}: the connection has ended")]);
}

#[test]
fn failed_connects_are_23_and_leave_nothing_open() {
    let s = Scratch::new();
    let host = start(&s, &[]);
    let mut c = host.login();
    c.tape_open(TO_WRITE).unwrap();
    c.window(0, Mover::ENDLESS).unwrap();
    let before = sockets(&host);
    for end in [End::Data, End::Mover(0)] {
        let (message, body) = connects(end, &[dead(); 16]);
        c.expect(message, &body, codes::OTHER_NOT_LISTENING).unwrap();
        assert_eq!((state(&mut c, end), sockets(&host)), ((0, codes::LOCAL_ADDRESS), before));
    }
    told(&s.path("log"), &["data: no address of the peer could be connected to", "with 23"]);
    // As if nothing had been.
    c.good(MOVER_LISTEN, &words(&[0, codes::LOCAL_ADDRESS])).unwrap();
    c.good(DATA_CONNECT, &words(&[codes::LOCAL_ADDRESS])).unwrap();
    c.start_backup().unwrap();
    assert_eq!(c.run(0, |_| ()).unwrap().why, DONE);
}

/// A port whose queue is full: connections to it neither succeed nor fail.
fn hanging() -> (TcpListener, Vec<TcpStream>, SocketAddrV4) {
    let (listener, at) = port();
    let short = Duration::from_millis(300);
    let all = std::iter::from_fn(|| TcpStream::connect_timeout(&at.into(), short).ok()).take(5_000).collect();
    (listener, all, at)
}

#[test]
fn addresses_that_do_not_answer_take_some_seconds() {
    let s = Scratch::new();
    let host = start(&s, &["--idle", "2"]);
    let ((_full, _all, silent), (own, at)) = (hanging(), port());
    let (mut c, mut other) = (host.login(), host.login());
    let begun = Instant::now();
    let (message, body) = connects(End::Data, &[silent; 16]);
    let slow = std::thread::spawn(move || {
        c.expect(message, &body, codes::OTHER_NOT_LISTENING).unwrap();
        begun.elapsed()
    });
    // Another session is served meanwhile, and may connect behind one that does not answer.
    connect(&mut other, End::Data, &[silent, at]);
    let second = begun.elapsed();
    let _peer = accept(&own);
    // What that took is not its client's silence.
    std::thread::sleep(Duration::from_millis(300));
    assert_eq!(state(&mut other, End::Data), (Data::CONNECTED, TCP));
    assert!((3..6).contains(&second.as_secs()), "{second:?}");
    let all = slow.join().unwrap();
    assert!((11..16).contains(&all.as_secs()), "{all:?}");
}

/// A peer that neither sends nor reads is given up as a client is that says nothing.
#[test]
fn peers_that_stop_are_given_up() {
    let s = Scratch::new();
    let host = start(&s, &["--hold", "1", "--idle", "2"]);
    let log = s.path("log");
    // To tape: what came is on it.
    let mut c = host.login();
    prepare(&mut c, Mover::TO_TAPE, 1_000, Mover::ENDLESS);
    let mut peer = TcpStream::connect(listen(&mut c, End::Mover(0))[0]).unwrap();
    peer.write_all(&noise(1, 2_500)).unwrap();
    assert_eq!(c.noticed(NOTIFY_MOVER_HALTED).unwrap(), Mover::CONNECT_CLOSED);
    assert_eq!((c.moved().unwrap(), sound(&fs::read(s.path("tape")).unwrap())), (2_000, Ok((2, 2_000))));
    told(
        &log,
        &[&format!("mover lost its peer {}: it sent and took nothing for 1 seconds", peer.local_addr().unwrap())],
    );
    drop(c);
    // From tape.
    let mut c = host.login();
    fill(&mut c);
    prepare(&mut c, Mover::FROM_TAPE, 32_768, Mover::ENDLESS);
    let _peer = TcpStream::connect(listen(&mut c, End::Mover(1))[0]).unwrap();
    becomes(&mut c, End::Mover(1), Mover::ACTIVE);
    c.good(MOVER_READ, &quads(&[0, u64::MAX])).unwrap();
    assert_eq!(c.noticed(NOTIFY_MOVER_HALTED).unwrap(), Mover::CONNECT_CLOSED);
}

/// The same of the data end: a backup that nobody reads, a recover of which nothing more comes, a listen to which nobody does.
#[test]
fn peers_of_data_that_stop_are_given_up() {
    let s = Scratch::new();
    let host = start(&s, &["--idle", "2"]);
    let log = s.path("log");
    let mut c = host.login();
    let _peer = TcpStream::connect(listen(&mut c, End::Data)[0]).unwrap();
    becomes(&mut c, End::Data, Data::CONNECTED);
    c.start_backup().unwrap();
    assert_eq!(c.noticed(NOTIFY_DATA_HALTED).unwrap(), Data::CONNECT_ERROR);
    c.good(DATA_STOP, b"").unwrap();
    let mut peer = TcpStream::connect(listen(&mut c, End::Data)[0]).unwrap();
    becomes(&mut c, End::Data, Data::CONNECTED);
    c.start_recover().unwrap();
    peer.write_all(&archive(&s.path("from"))[..100_000]).unwrap();
    assert_eq!(c.noticed(NOTIFY_DATA_HALTED).unwrap(), Data::CONNECT_ERROR);
    assert!(tree(&s.path("to")).is_empty());
    told(&log, &["it sent and took nothing for 2 seconds"]);
    // One who listens, and whose client says nothing more.
    c.good(DATA_STOP, b"").unwrap();
    let at = listen(&mut c, End::Data);
    closed(&mut c);
    soon(|| is_closed(at[0]).then_some(())).expect("the port is still open");
    told(&log, &["ended: said nothing for 2 seconds"]);
}

/// A peer that sends less than a record in that time has sent something.
#[test]
fn slow_peer_is_not_given_up() {
    let s = Scratch::new();
    let host = start(&s, &["--hold", "2"]);
    let mut c = host.login();
    prepare(&mut c, Mover::TO_TAPE, 1_000, 1_000);
    let mut peer = TcpStream::connect(listen(&mut c, End::Mover(0))[0]).unwrap();
    for part in noise(1, 1_000).chunks(100) {
        peer.write_all(part).unwrap();
        std::thread::sleep(Duration::from_millis(400));
    }
    peer.write_all(&noise(2, 1_000)).unwrap();
    assert_eq!(c.noticed(NOTIFY_MOVER_PAUSED).unwrap(), Mover::END_OF_WINDOW);
    assert_eq!(c.moved().unwrap(), 1_000);
}

/// One that only receives, and ends its own side at once.
#[test]
fn peer_that_ends_its_side_has_gone() {
    let s = Scratch::new();
    let host = start(&s, &[]);
    let mut c = host.login();
    for starts in [false, true] {
        let peer = TcpStream::connect(listen(&mut c, End::Data)[0]).unwrap();
        becomes(&mut c, End::Data, Data::CONNECTED);
        if starts {
            c.start_backup().unwrap();
        }
        peer.shutdown(Shutdown::Write).unwrap();
        assert_eq!(c.noticed(NOTIFY_DATA_HALTED).unwrap(), Data::CONNECT_ERROR);
        c.good(DATA_STOP, b"").unwrap();
    }
    fill(&mut c);
    prepare(&mut c, Mover::FROM_TAPE, 32_768, Mover::ENDLESS);
    let peer = TcpStream::connect(listen(&mut c, End::Mover(1))[0]).unwrap();
    becomes(&mut c, End::Mover(1), Mover::ACTIVE);
    c.good(MOVER_READ, &quads(&[0, u64::MAX])).unwrap();
    peer.shutdown(Shutdown::Write).unwrap();
    assert_eq!(c.noticed(NOTIFY_MOVER_HALTED).unwrap(), Mover::CONNECT_CLOSED);
}

/// A peer that cannot be taken is told once, and is no word of the client.
#[test]
fn peer_that_cannot_be_taken_is_told_once() {
    let s = Scratch::new();
    let host = start(&s, &["--idle", "2"]);
    let mut c = host.login();
    let at = listen(&mut c, End::Data);
    let limit = ["--nofile=3:", "--pid", &host.child.id().to_string()];
    assert!(Command::new("prlimit").args(limit).status().unwrap().success());
    let _peer = TcpStream::connect(at[0]).unwrap();
    closed(&mut c);
    told(
        &s.path("log"),
        &["data: a peer could not be taken, and is tried again: ", "ended: said nothing for 2 seconds"],
    );
    assert_eq!(fs::read_to_string(s.path("log")).unwrap().matches("could not be taken").count(), 1);
}

/// Puts more on the tape than systems hold on the way.
fn fill(c: &mut Client) {
    tape_open_soon(c, TO_READ);
    c.tape_close().unwrap();
    assert_eq!(c.backup(32_768, Mover::ENDLESS).unwrap(), ended(0, DONE));
}

/// A peer that stops holds up nobody: its own client is heard, and others are served.
#[test]
fn abort_is_heard_while_a_peer_stops() {
    let s = Scratch::new();
    let host = start(&s, &[]);
    let mut c = host.login();
    fill(&mut c);
    let quick = |c: &mut Client, message: u32| {
        let begun = Instant::now();
        c.good(message, b"").unwrap();
        assert!(begun.elapsed() < Duration::from_secs(1), "{:?}", begun.elapsed());
    };
    let mut peer = TcpStream::connect(listen(&mut c, End::Data)[0]).unwrap();
    becomes(&mut c, End::Data, Data::CONNECTED);
    c.start_backup().unwrap();
    prepare(&mut c, Mover::FROM_TAPE, 32_768, Mover::ENDLESS);
    let mut reader = TcpStream::connect(listen(&mut c, End::Mover(1))[0]).unwrap();
    becomes(&mut c, End::Mover(1), Mover::ACTIVE);
    c.good(MOVER_READ, &quads(&[0, u64::MAX])).unwrap();
    std::thread::sleep(Duration::from_millis(500));
    // Both ends wait, each for its own peer, and the processor with them.
    let before = ticks(&host);
    std::thread::sleep(Duration::from_millis(500));
    assert!(ticks(&host) - before < 10, "it runs while it waits");
    host.login().moved().unwrap();
    quick(&mut c, MOVER_GET_STATE);
    quick(&mut c, DATA_ABORT);
    assert_eq!(c.noticed(NOTIFY_DATA_HALTED).unwrap(), Data::ABORTED);
    assert_eq!(state(&mut c, End::Mover(1)), (Mover::ACTIVE, TCP));
    quick(&mut c, MOVER_ABORT);
    assert_eq!(c.noticed(NOTIFY_MOVER_HALTED).unwrap(), Mover::ABORTED);
    // What was on the way comes, and then the end, long before the stream's.
    for peer in [&mut peer, &mut reader] {
        assert!(read(peer, 24 << 20).0.len() < 20 << 20);
    }
}

/// What a peer sends to a mover that is paused stays with the peer.
#[test]
fn paused_mover_takes_no_more_than_a_buffer() {
    let s = Scratch::new();
    let host = start(&s, &[]);
    let mut c = host.login();
    prepare(&mut c, Mover::TO_TAPE, 1_000, 1_000);
    let mut peer = TcpStream::connect(listen(&mut c, End::Mover(0))[0]).unwrap();
    let bytes = noise(3, 64 << 20);
    peer.set_write_timeout(Some(Duration::from_millis(500))).unwrap();
    let mut sent = 0;
    while let Ok(n) = peer.write(&bytes[sent..(sent + 65_536).min(bytes.len())]) {
        sent += n;
        assert!(sent < 32 << 20, "it takes all");
    }
    assert_eq!(c.noticed(NOTIFY_MOVER_PAUSED).unwrap(), Mover::END_OF_WINDOW);
    let status = fs::read_to_string(format!("/proc/{}/status", host.child.id())).unwrap();
    let most = status.lines().find_map(|l| l.strip_prefix("VmHWM:")?.trim().strip_suffix(" kB")).unwrap();
    assert!(most.parse::<usize>().unwrap() < 64 << 10, "{most} kB");
    // It goes on where it was.
    c.window(1_000, 9_000).unwrap();
    c.good(MOVER_CONTINUE, b"").unwrap();
    assert_eq!(c.noticed(NOTIFY_MOVER_PAUSED).unwrap(), Mover::END_OF_WINDOW);
    assert_eq!(list(&fs::read(s.path("tape")).unwrap()).unwrap().concat(), bytes[..10_000]);
    // A peer that breaks is noticed in a pause too; one that has sent all, and ended, is not lost.
    break_off(peer);
    assert_eq!(c.noticed(NOTIFY_MOVER_HALTED).unwrap(), Mover::CONNECT_CLOSED);
    c.good(MOVER_STOP, b"").unwrap();
    c.tape_close().unwrap();
    prepare(&mut c, Mover::TO_TAPE, 1_000, 1_000);
    let mut peer = TcpStream::connect(listen(&mut c, End::Mover(0))[0]).unwrap();
    peer.write_all(&bytes[..2_500]).unwrap();
    drop(peer);
    std::thread::sleep(Duration::from_millis(200));
    assert_eq!(run_mover(&mut c, 1_000), (2, Mover::CONNECT_CLOSED));
    assert_eq!(c.moved().unwrap(), 3_000);
}

/// Two ports of this machine that lie side by side and are free.
fn two_free() -> u16 {
    let free = |p: u16| TcpListener::bind((Ipv4Addr::LOCALHOST, p)).is_ok();
    let some = || {
        let at = dead();
        Some(at.port()).filter(|p| *p < 65_535 && free(*p) && free(*p + 1))
    };
    soon(some).unwrap()
}

#[test]
fn ports_are_those_of_the_range() {
    let s = Scratch::new();
    let low = two_free();
    let host = start(&s, &["--data-ports", &format!("{low}-{}", low + 1)]);
    let mut all = [host.login(), host.login(), host.login()];
    assert_eq!(listen(&mut all[0], End::Data)[0].port(), low);
    assert_eq!(listen(&mut all[1], End::Data)[0].port(), low + 1);
    let (message, body) = listens(End::Data);
    all[2].expect(message, &body, codes::ILLEGAL_ARGUMENTS).unwrap();
    let why = format!("no data port could be opened: no port of 127.0.0.1 is free from {low} to {}", low + 1);
    told(&s.path("log"), &[&why]);
    all[0].good(DATA_ABORT, b"").unwrap();
    assert_eq!(listen(&mut all[2], End::Data)[0].port(), low);
}

#[test]
fn all_addresses_are_told_and_one_peer_is_taken() {
    let s = Scratch::new();
    let host = start(&s, &["--data-address", "127.0.0.1,127.0.0.2,127.0.0.3"]);
    let mut c = host.login();
    let at = listen(&mut c, End::Data);
    let ips: Vec<Ipv4Addr> = at.iter().map(|a| *a.ip()).collect();
    assert_eq!(ips, [1, 2, 3].map(|n| Ipv4Addr::new(127, 0, 0, n)));
    let _peer = TcpStream::connect(at[1]).unwrap();
    becomes(&mut c, End::Data, Data::CONNECTED);
    assert!(at.iter().all(|a| is_closed(*a)));
}

#[test]
fn wrong_addresses_are_told_at_the_start() {
    let s = Scratch::new();
    let failed = |name: &str, value: &str| {
        let done = finished(serve(&s.path("tape")).args(["--listen=127.0.0.1:0", "--new-cartridge=1M", name, value]));
        assert!(!s.path("tape").exists() && done.stdout.is_empty());
        (done.status.code().unwrap(), String::from_utf8(done.stderr).unwrap())
    };
    let (code, why) = failed("--data-address", "192.0.2.1");
    assert!(code == 1 && why.contains("--data-address 192.0.2.1: not an address of this machine"), "{why}");
    for (name, value) in [("--data-address", "0.0.0.0"), ("--data-address", "::1"), ("--data-ports", "9-8")] {
        let (code, why) = failed(name, value);
        assert!(code == 2 && why.contains(&format!("{name}: {value}: ")), "{why}");
    }
}

/// Ports that a program without a right may not open.
#[test]
fn ports_that_may_not_be_opened_are_told_at_the_start() {
    let s = Scratch::new();
    let first = fs::read_to_string("/proc/sys/net/ipv4/ip_unprivileged_port_start").unwrap();
    let Some(low) = first.trim().parse::<u16>().unwrap().checked_sub(1) else { return };
    let mut without = Command::new("setpriv");
    without.args(["--bounding-set=-net_bind_service", "--inh-caps=-net_bind_service"]).arg(program().get_program());
    let may = !TcpListener::bind((Ipv4Addr::LOCALHOST, low)).is_err_and(|e| e.kind() == ErrorKind::PermissionDenied);
    let mut command = if may { without } else { program() };
    let range = format!("{low}-{}", low + 1);
    command.args([
        "serve",
        "--account=vault:noon",
        "--listen=127.0.0.1:0",
        "--new-cartridge=1M",
        "--data-ports",
        &range,
    ]);
    let done = finished(command.arg("--cartridge").arg(s.path("tape")));
    let why = String::from_utf8(done.stderr).unwrap();
    assert!(done.status.code() == Some(1) && !s.path("tape").exists(), "{why}");
    assert!(why.contains(&format!("--data-ports {range}: Permission denied")), "{why}");
}
