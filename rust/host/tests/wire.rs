//! What may happen on a wire: fragments, an end at any byte, garbage, several connections.
mod common;
use common::*;
use std::fs;
use std::io::{ErrorKind, Read, Write};
use std::net::TcpStream;
use std::time::Duration;

/// The record of one fragment as several, each of `n` bytes, with an empty one first.
fn fragments(record: &[u8], n: usize) -> Vec<u8> {
    let mut v = words(&[0]);
    let mut parts = record[4..].chunks(n).peekable();
    while let Some(part) = parts.next() {
        let last = if parts.peek().is_none() { 0x8000_0000 } else { 0 };
        v.extend(words(&[last | part.len() as u32]));
        v.extend(part);
    }
    v
}

#[test]
fn fragments_are_joined() {
    let s = Scratch::new();
    let host = Host::start(&s.path("tape"), &["--new-cartridge", "100K"]);
    for n in [1, 3, 4, 7, 24, 1_000] {
        let mut c = host.client();
        assert_eq!(c.notice().unwrap().header.message, NOTIFY_CONNECTED);
        c.sequence = 1;
        c.socket.write_all(&fragments(&request(1, CONNECT_OPEN, &words(&[4])), n)).unwrap();
        assert_eq!(c.reply(CONNECT_OPEN).unwrap().header.error, 0);
        c.sequence = 2;
        c.socket.write_all(&fragments(&request(2, CONFIG_GET_AUTH_ATTR, &words(&[codes::MD5_AUTH])), n)).unwrap();
        let challenge = c.reply(CONFIG_GET_AUTH_ATTR).unwrap().body[8..].try_into().unwrap();
        c.sequence = 3;
        let login = by_md5("vault", "noon", &challenge);
        c.socket.write_all(&fragments(&request(3, CONNECT_CLIENT_AUTH, &login), n)).unwrap();
        assert_eq!(word(&c.reply(CONNECT_CLIENT_AUTH).unwrap().body, 0), 0);
        // Byte by byte.
        c.sequence = 4;
        for b in fragments(&request(4, CONFIG_GET_SERVER_INFO, b""), n) {
            c.socket.write_all(&[b]).unwrap();
        }
        assert!(c.reply(CONFIG_GET_SERVER_INFO).unwrap().body.len() > 16);
        // Two records in one packet.
        c.sequence = 5;
        c.socket
            .write_all(&[request(5, CONFIG_GET_SERVER_INFO, b""), request(6, CONFIG_GET_CONNECTION_TYPE, b"")].concat())
            .unwrap();
        c.reply(CONFIG_GET_SERVER_INFO).unwrap();
        c.sequence = 6;
        c.reply(CONFIG_GET_CONNECTION_TYPE).unwrap();
    }
}

#[test]
fn longest_record_and_one_byte_more() {
    let s = Scratch::new();
    let host = Host::start(&s.path("tape"), &["--new-cartridge", "100K"]);
    let mut c = host.login();
    // 36,864 bytes: does not decode, and is answered.
    let m = c.call(TAPE_OPEN, &vec![0; 36_864 - 24]).unwrap();
    assert_eq!(m.header.error, 18);
    c.socket.write_all(&words(&[0x8000_9001])).unwrap();
    closed(&mut c);
    // Too long by fragments, and empty fragments for ever.
    let mut c = host.login();
    c.socket.write_all(&words(&[0x8000])).unwrap();
    c.socket.write_all(&vec![0; 0x8000]).unwrap();
    c.socket.write_all(&words(&[0x8000_1001])).unwrap();
    closed(&mut c);
    let mut c = host.login();
    let _ = c.socket.write_all(&vec![0; 1 << 20]);
    closed(&mut c);
    // Too short: the core closes.
    let mut c = host.login();
    c.socket.write_all(&words(&[0x8000_0004, 0])).unwrap();
    closed(&mut c);
    host.login();
}

/// What a client says before it knows its challenge.
fn beginning() -> Vec<u8> {
    [request(1, CONNECT_OPEN, &words(&[4])), request(2, CONFIG_GET_AUTH_ATTR, &words(&[codes::MD5_AUTH]))].concat()
}

/// And then: it logs in, opens the tape, writes, and begins a backup.
fn conversation(challenge: &Challenge) -> Vec<u8> {
    let mut all = Vec::new();
    let mut sequence = 2;
    let mut add = |message, body: Vec<u8>| {
        sequence += 1;
        all.extend(request(sequence, message, &body));
    };
    add(CONNECT_CLIENT_AUTH, by_md5("vault", "noon", challenge));
    add(TAPE_OPEN, [text("tape0"), words(&[1])].concat());
    add(TAPE_WRITE, [words(&[10]), b"0123456789\0\0".to_vec()].concat());
    add(TAPE_MTIO, words(&[5, 1]));
    add(MOVER_SET_RECORD_SIZE, words(&[1_024]));
    add(MOVER_SET_WINDOW, quads(&[0, 10_240]));
    add(MOVER_LISTEN, words(&[0, 0]));
    add(DATA_CONNECT, words(&[0]));
    add(DATA_START_BACKUP, [text("dump"), words(&[0])].concat());
    all
}

#[test]
fn end_at_every_byte() {
    let s = Scratch::new();
    let (tape, from) = (s.path("tape"), s.path("from"));
    fs::write(&from, noise(7, 20_000)).unwrap();
    let host = Host::start(&tape, &["--new-cartridge", "100K", "--stream", from.to_str().unwrap()]);
    let begin = beginning();
    for n in 0..=begin.len() + conversation(&[0; 64]).len() {
        let mut c = host.client();
        c.socket.write_all(&begin[..n.min(begin.len())]).unwrap();
        if n > begin.len() {
            // The notice of connection, the answer to open, and the challenge.
            let told = [c.receive(), c.receive(), c.receive()].map(|m| m.unwrap().body);
            let all = conversation(told[2][8..].try_into().unwrap());
            c.socket.write_all(&all[..n - begin.len()]).unwrap();
        }
        let mut socket = c.socket;
        // Half of them end with unread answers, which resets the connection.
        if n % 2 == 0 {
            socket.shutdown(std::net::Shutdown::Write).unwrap();
            socket.set_read_timeout(Some(Duration::from_secs(20))).unwrap();
            let _ = socket.read_to_end(&mut Vec::new());
        }
    }
    let mut c = host.login();
    tape_open_soon(&mut c, 0);
    sound(&fs::read(&tape).unwrap()).unwrap();
}

#[test]
fn garbage_is_survived() {
    let s = Scratch::new();
    let host = Host::start(&s.path("tape"), &["--new-cartridge", "100K"]);
    // No more at once than the host takes from those who have not logged in: each is heard, and ends.
    for some in (0..200).collect::<Vec<u64>>().chunks(20) {
        let mut sockets: Vec<TcpStream> = Vec::new();
        for seed in some {
            let mut socket = TcpStream::connect(&host.address).unwrap();
            let mut bytes = noise(*seed, 2_000);
            if seed % 2 == 0 {
                bytes[..4].copy_from_slice(&words(&[0x8000_0000 | (2_000 - 4)]));
            }
            let _ = socket.write_all(&bytes);
            sockets.push(socket);
        }
        for mut socket in sockets {
            let _ = socket.shutdown(std::net::Shutdown::Write);
            socket.set_read_timeout(Some(Duration::from_secs(20))).unwrap();
            let end = socket.read_to_end(&mut Vec::new());
            let late = matches!(end, Err(e) if matches!(e.kind(), ErrorKind::WouldBlock | ErrorKind::TimedOut));
            assert!(!late, "a connection with garbage stays open");
        }
    }
    host.login();
}

#[test]
fn two_at_once() {
    let s = Scratch::new();
    let (from, to, tape) = (s.folder("from"), s.folder("to"), s.path("tape"));
    sample(&from);
    let options = ["--new-cartridge", "4M", "--stream", from.to_str().unwrap(), "--restore-to", to.to_str().unwrap()];
    let host = Host::start(&tape, &options);
    let (mut a, mut b) = (host.login(), host.login());
    a.tape_open(TO_WRITE).unwrap();
    // The second has its own session, but not the tape.
    b.expect(TAPE_OPEN, &[text("tape0"), words(&[TO_READ])].concat(), 15).unwrap();
    b.good(SCSI_OPEN, &text("changer0")).unwrap();
    a.join(0, 10_240, 102_400).unwrap();
    a.start_backup().unwrap();
    b.good(SCSI_GET_STATE, b"").unwrap();
    assert_eq!(a.run(102_400, |_| ()).unwrap().why, DONE);
    a.stop().unwrap();
    b.expect(TAPE_OPEN, &[text("tape0"), words(&[TO_READ])].concat(), 15).unwrap();
    a.tape_close().unwrap();
    // Handed back: the second reads what the first wrote.
    assert_eq!(b.recover(10_240, 102_400).unwrap().why, DONE);
    assert_eq!(tree(&from), tree(&to));
    // An end without tape close hands it back as well.
    a.tape_open(TO_WRITE).unwrap();
    drop(a);
    tape_open_soon(&mut b, 0);
}

#[test]
fn eight_at_once() {
    let s = Scratch::new();
    let host = Host::start(&s.path("tape"), &["--new-cartridge", "1M"]);
    std::thread::scope(|scope| {
        for _ in 0..8 {
            scope.spawn(|| {
                let mut c = host.login();
                for _ in 0..300 {
                    c.good(CONFIG_GET_SERVER_INFO, b"").unwrap();
                    assert_eq!(c.call(DATA_GET_STATE, b"").unwrap().header.error, 0);
                }
            });
        }
    });
}

#[test]
fn idle_connection_ends() {
    let s = Scratch::new();
    let host = Host::start(&s.path("tape"), &["--new-cartridge", "1M", "--idle", "1"]);
    let mut c = host.login();
    c.tape_open(TO_WRITE).unwrap();
    let _other = host.login();
    closed(&mut c);
    // What it had is free again.
    let mut c = host.login();
    c.tape_open(TO_WRITE).unwrap();
}

/// Writes that come together wait for one answer, and a move goes on meanwhile: what it tells is sent behind that answer, in the
/// order of the numbers.
#[test]
fn notices_come_behind_answers_that_wait() {
    let s = Scratch::new();
    let from = s.path("from");
    fs::write(&from, noise(1, 16 << 20)).unwrap();
    let host = Host::start(&s.path("tape"), &["--new-cartridge", "32M", "--stream", from.to_str().unwrap()]);
    let mut c = host.login();
    c.tape_open(TO_WRITE).unwrap();
    // More than one step, and less than two.
    c.join(Mover::TO_TAPE, 32_768, 6 << 20).unwrap();
    let start = request(c.sequence + 1, DATA_START_BACKUP, &[text("dump"), words(&[0])].concat());
    let writes: Vec<u8> = (2..8).flat_map(|i| request(c.sequence + i, TAPE_WRITE, &text([1; 100]))).collect();
    c.socket.write_all(&[start, writes].concat()).unwrap();
    let mut refused = 0;
    // Each has the number that is due, or this fails.
    for _ in 0..8 {
        let m = c.receive().unwrap();
        refused += (m.header.message == TAPE_WRITE && m.first() == codes::ILLEGAL_STATE) as u32;
    }
    assert_eq!(refused, 6);
}
