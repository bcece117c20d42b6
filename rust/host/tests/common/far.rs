//! Ends that are joined by TCP, seen from their clients; and peers that a test plays itself.
use super::*;
use std::io::Read;
use std::net::{Ipv4Addr, SocketAddrV4, TcpListener, TcpStream};
use std::os::fd::AsRawFd;

pub const TCP: u32 = codes::TCP_ADDRESS;

/// Which end of a session, or of two.
#[derive(Clone, Copy, Debug, PartialEq)]
pub enum End {
    Data,
    Mover(u32),
}

/// An address as a list has it.
fn one(at: SocketAddrV4) -> Vec<u8> {
    words(&[u32::from(*at.ip()), at.port() as u32, 0])
}

pub fn addresses(all: &[SocketAddrV4]) -> Vec<u8> {
    [words(&[all.len() as u32]), all.iter().flat_map(|at| one(*at)).collect()].concat()
}

/// The request that lets an end listen, or connect.
pub fn listens(end: End) -> (u32, Vec<u8>) {
    match end {
        End::Data => (DATA_LISTEN, words(&[TCP])),
        End::Mover(mode) => (MOVER_LISTEN, words(&[mode, TCP])),
    }
}

pub fn connects(end: End, to: &[SocketAddrV4]) -> (u32, Vec<u8>) {
    let address = [words(&[TCP]), addresses(to)].concat();
    match end {
        End::Data => (DATA_CONNECT, address),
        End::Mover(mode) => (MOVER_CONNECT, [words(&[mode]), address].concat()),
    }
}

/// Listens by TCP: where.
pub fn listen(c: &mut Client, end: End) -> Vec<SocketAddrV4> {
    let (message, body) = listens(end);
    let reply = c.good(message, &body).unwrap();
    assert_eq!(word(&reply, 4), TCP);
    let n = word(&reply, 8) as usize;
    assert_eq!(reply.len(), 12 + 12 * n);
    let at = |i: usize| {
        assert_eq!(word(&reply, 20 + 12 * i), 0, "no variables");
        SocketAddrV4::new(Ipv4Addr::from(word(&reply, 12 + 12 * i)), word(&reply, 16 + 12 * i) as u16)
    };
    (0..n).map(at).collect()
}

pub fn connect(c: &mut Client, end: End, to: &[SocketAddrV4]) {
    let (message, body) = connects(end, to);
    c.good(message, &body).unwrap();
}

/// The state of an end, and its address type.
pub fn state(c: &mut Client, end: End) -> (u32, u32) {
    let (message, state, address) = match end {
        End::Data => (DATA_GET_STATE, 12, 40),
        End::Mover(_) => (MOVER_GET_STATE, 8, 68),
    };
    let reply = c.call(message, b"").unwrap().body;
    (word(&reply, state), word(&reply, address))
}

/// Waits until an end is in a state.
pub fn becomes(c: &mut Client, end: End, wanted: u32) {
    let has = || (state(c, end).0 == wanted).then_some(());
    soon(has).unwrap_or_else(|| panic!("{end:?} does not come to {wanted}"));
}

/// Opens the tape and prepares the mover.
pub fn prepare(c: &mut Client, mode: u32, record: u32, window: u64) {
    tape_open_soon(c, if mode == Mover::TO_TAPE { TO_WRITE } else { TO_READ });
    c.good(MOVER_SET_RECORD_SIZE, &words(&[record])).unwrap();
    c.window(0, window).unwrap();
}

/// Joins the data end of one session and the mover of another; the mover is prepared. The end that is named listens.
pub fn join(data: &mut Client, mover: &mut Client, mode: u32, listener: End) {
    match listener {
        End::Data => {
            let at = listen(data, End::Data);
            connect(mover, End::Mover(mode), &at);
        }
        End::Mover(_) => {
            let at = listen(mover, End::Mover(mode));
            connect(data, End::Data, &at);
        }
    }
    becomes(data, End::Data, Data::CONNECTED);
    becomes(mover, End::Mover(mode), Mover::ACTIVE);
}

/// Gives the mover windows of one length until it halts; how many, and why.
pub fn run_mover(c: &mut Client, window: u64) -> (u32, u32) {
    let mut pauses = 0;
    loop {
        let m = c.notice().unwrap();
        match (m.header.message, m.first()) {
            (NOTIFY_MOVER_HALTED, why) => return (pauses, why),
            (NOTIFY_MOVER_PAUSED, Mover::END_OF_WINDOW | Mover::SEEK) => {
                pauses += 1;
                let moved = c.moved().unwrap();
                // A peer that has all may have closed meanwhile.
                if c.ask(MOVER_SET_WINDOW, &quads(&[moved, window])).unwrap().0 == 0 {
                    c.ask(MOVER_CONTINUE, b"").unwrap();
                }
            }
            (NOTIFY_MOVER_PAUSED, _) => {}
            other => panic!("{other:?}"),
        }
    }
}

/// Stops both ends and closes the tape.
pub fn stop(data: &mut Client, mover: &mut Client) {
    data.good(DATA_STOP, b"").unwrap();
    mover.good(MOVER_STOP, b"").unwrap();
    assert_eq!((state(data, End::Data), state(mover, End::Mover(0))), ((Data::IDLE, 0), (Mover::IDLE, 0)));
    mover.tape_close().unwrap();
}

/// A backup from one session's data end to the other's tape: the windows after the first.
pub fn backup(data: &mut Client, mover: &mut Client, record: u32, window: u64, listener: End) -> u32 {
    prepare(mover, Mover::TO_TAPE, record, window);
    join(data, mover, Mover::TO_TAPE, listener);
    data.start_backup().unwrap();
    let (pauses, why) = run_mover(mover, window);
    assert_eq!(why, Mover::CONNECT_CLOSED);
    assert_eq!(data.noticed(NOTIFY_DATA_HALTED).unwrap(), Data::SUCCESSFUL);
    assert_eq!((state(data, End::Data), state(mover, End::Mover(0))), ((Data::HALTED, TCP), (Mover::HALTED, TCP)));
    stop(data, mover);
    pauses
}

/// A recover from one session's tape to the other's data end, which halts for this reason.
pub fn recover(data: &mut Client, mover: &mut Client, record: u32, window: u64, listener: End) -> u32 {
    prepare(mover, Mover::FROM_TAPE, record, window);
    join(data, mover, Mover::FROM_TAPE, listener);
    data.start_recover().unwrap();
    mover.good(MOVER_READ, &quads(&[0, u64::MAX])).unwrap();
    let (_, why) = run_mover(mover, window);
    assert_eq!(why, Mover::CONNECT_CLOSED);
    let why = data.noticed(NOTIFY_DATA_HALTED).unwrap();
    stop(data, mover);
    why
}

/// A peer of a test's own that a vault is to connect to.
pub fn port() -> (TcpListener, SocketAddrV4) {
    let listener = TcpListener::bind("127.0.0.1:0").unwrap();
    let at = place(&listener);
    (listener, at)
}

/// Who connects to it, soon.
pub fn accept(listener: &TcpListener) -> TcpStream {
    listener.set_nonblocking(true).unwrap();
    let (peer, _) = soon(|| listener.accept().ok()).expect("nobody connects");
    peer.set_nonblocking(false).unwrap();
    peer
}

pub fn place(listener: &TcpListener) -> SocketAddrV4 {
    listener.local_addr().unwrap().to_string().parse().unwrap()
}

/// A port where nobody listens.
pub fn dead() -> SocketAddrV4 {
    port().1
}

unsafe extern "C" {
    fn setsockopt(fd: i32, level: i32, name: i32, value: *const [i32; 2], n: u32) -> i32;
}

/// Ends a connection as one that breaks: the other side gets a reset.
pub fn break_off(socket: TcpStream) {
    let (level, linger) = (1, 13);
    // Safety: the value is two words, on and no seconds, and the socket is open.
    let code = unsafe { setsockopt(socket.as_raw_fd(), level, linger, &[1, 0], 8) };
    assert_eq!(code, 0);
}

/// Reads until the other side ends or breaks the connection, or so many bytes.
pub fn read(socket: &mut TcpStream, most: usize) -> (Vec<u8>, std::io::Result<()>) {
    socket.set_read_timeout(Some(Duration::from_secs(20))).unwrap();
    let (mut all, mut part) = (Vec::new(), vec![0; 1 << 16]);
    while all.len() < most {
        let room = part.len().min(most - all.len());
        match socket.read(&mut part[..room]) {
            Ok(0) => return (all, Ok(())),
            Ok(n) => all.extend(&part[..n]),
            Err(e) => return (all, Err(e)),
        }
    }
    (all, Ok(()))
}

/// The sockets that a process has open.
pub fn sockets(host: &Host) -> usize {
    let all = fs::read_dir(format!("/proc/{}/fd", host.child.id())).unwrap();
    let is_socket = |p: PathBuf| fs::read_link(p).is_ok_and(|to| to.to_string_lossy().starts_with("socket:"));
    all.filter(|entry| is_socket(entry.as_ref().unwrap().path())).count()
}

/// The processor's time that a program has used, in hundredths of a second.
pub fn ticks(host: &Host) -> u64 {
    let stat = fs::read_to_string(format!("/proc/{}/stat", host.child.id())).unwrap();
    stat.split(' ').skip(13).take(2).map(|n| n.parse::<u64>().unwrap()).sum()
}

/// Whether nobody listens there any more.
pub fn is_closed(at: SocketAddrV4) -> bool {
    TcpStream::connect(at).is_err_and(|e| e.kind() == ErrorKind::ConnectionRefused)
}
