//! Copies between two NDMP servers, joined by TCP, and `cat` of as many bytes: how many seconds they take. usage:
//! copies backup|recover DATA-ADDRESS ID PASSWORD MOVER-ADDRESS ID PASSWORD TAPE RECORD-SIZE, from the start request to the
//! notice that the data end halted; or copies cat FOLDER FILE, over loopback, synced at the end.
use host::client::{Client, TO_READ, TO_WRITE};
use proved::{Data, Mover, codes};
use std::fs::{self, File};
use std::io::{Read, Write};
use std::net::{TcpListener, TcpStream};
use std::time::{Duration, Instant};
use wire::message::*;
use wire::{quads, text, words};

fn login(address: &str, id: &str, password: &str) -> Client {
    let mut c = Client::connect(address).unwrap();
    c.socket.set_read_timeout(Some(Duration::from_secs(120))).unwrap();
    c.login(id.as_bytes(), password.as_bytes()).unwrap();
    c
}

/// Opens the tape and lets the mover listen; data connects there.
fn join(data: &mut Client, mover: &mut Client, tape: &str, record: u32, mode: u32) {
    let open = if mode == Mover::TO_TAPE { TO_WRITE } else { TO_READ };
    mover.good(TAPE_OPEN, &[text(tape), words(&[open])].concat()).unwrap();
    mover.good(TAPE_MTIO, &words(&[codes::REWIND_TAPE, 1])).unwrap();
    mover.good(MOVER_SET_RECORD_SIZE, &words(&[record])).unwrap();
    mover.window(0, Mover::ENDLESS).unwrap();
    let at = mover.good(MOVER_LISTEN, &words(&[mode, codes::TCP_ADDRESS])).unwrap();
    data.good(DATA_CONNECT, &at[4..]).unwrap();
}

/// The seconds until the data end has halted, which it must with success.
fn copied(data: &mut Client, mover: &mut Client, mode: u32) -> f64 {
    let begun = Instant::now();
    if mode == Mover::TO_TAPE {
        data.start_backup().unwrap();
    } else {
        data.start_recover().unwrap();
        mover.good(MOVER_READ, &quads(&[0, u64::MAX])).unwrap();
    }
    assert_eq!(data.noticed(NOTIFY_DATA_HALTED).unwrap(), Data::SUCCESSFUL, "the copy failed");
    begun.elapsed().as_secs_f64()
}

fn copy(kind: &str, data: &mut Client, mover: &mut Client, tape: &str, record: u32) -> f64 {
    let mode = if kind == "backup" { Mover::TO_TAPE } else { Mover::FROM_TAPE };
    join(data, mover, tape, record, mode);
    let took = copied(data, mover, mode);
    data.good(DATA_STOP, b"").unwrap();
    // The mover may have paused at the tape's end, or have seen that its peer has gone.
    let _ = mover.ask(MOVER_ABORT, b"");
    mover.good(MOVER_STOP, b"").unwrap();
    mover.good(TAPE_CLOSE, b"").unwrap();
    took
}

/// All files of a folder, one after the other, over loopback into one file.
fn cat(folder: &str, file: &str) -> f64 {
    let listener = TcpListener::bind("127.0.0.1:0").unwrap();
    let address = listener.local_addr().unwrap();
    let mut to = File::create(file).unwrap();
    let begun = Instant::now();
    let server = std::thread::spawn(move || {
        let (mut from, _) = listener.accept().unwrap();
        pump(&mut from, &mut to);
        to.sync_data().unwrap();
    });
    let mut socket = TcpStream::connect(address).unwrap();
    for entry in fs::read_dir(folder).unwrap() {
        pump(&mut File::open(entry.unwrap().path()).unwrap(), &mut socket);
    }
    drop(socket);
    server.join().unwrap();
    begun.elapsed().as_secs_f64()
}

fn pump(from: &mut impl Read, to: &mut impl Write) {
    let mut part = vec![0; 1 << 18];
    loop {
        match from.read(&mut part).unwrap() {
            0 => return,
            n => to.write_all(&part[..n]).unwrap(),
        }
    }
}

fn main() {
    let all: Vec<String> = std::env::args().skip(1).collect();
    let words: Vec<&str> = all.iter().map(String::as_str).collect();
    let took = match words[..] {
        [kind @ ("backup" | "recover"), data, id, password, mover, mover_id, mover_password, tape, record] => {
            let (mut data, mut mover) = (login(data, id, password), login(mover, mover_id, mover_password));
            copy(kind, &mut data, &mut mover, tape, record.parse().unwrap())
        }
        ["cat", folder, file] => cat(folder, file),
        _ => {
            eprintln!("usage: copies backup|recover DATA ID PASSWORD MOVER ID PASSWORD TAPE RECORD-SIZE");
            eprintln!("       copies cat FOLDER FILE");
            std::process::exit(2);
        }
    };
    println!("{took:.6}");
}
