//! Tape write requests to any NDMP server, one at a time or several sent before the answers are read: how many seconds they
//! take. usage: writes ADDRESS ID PASSWORD TAPE COUNT TOGETHER; records of 32,768 bytes, from the tape's start.
use host::client::{Client, TO_WRITE};
use host::own::noise;
use std::io::Write;
use std::time::Instant;
use wire::message::{TAPE_CLOSE, TAPE_MTIO, TAPE_OPEN, TAPE_WRITE};
use wire::{request, text, words};

const RECORD: usize = 32_768;

/// Sends some writes, and then reads their answers.
fn write(c: &mut Client, body: &[u8], some: u32) {
    let first = c.sequence + 1;
    let all: Vec<u8> = (0..some).flat_map(|i| request(first + i, TAPE_WRITE, body)).collect();
    c.socket.write_all(&all).unwrap();
    for i in 0..some {
        c.sequence = first + i;
        let m = c.reply(TAPE_WRITE).unwrap();
        assert_eq!((m.header.error, m.first()), (0, 0), "a write was refused");
    }
}

fn main() {
    let all: Vec<String> = std::env::args().skip(1).collect();
    let [address, id, password, tape, count, together] = &all[..] else {
        eprintln!("usage: writes ADDRESS ID PASSWORD TAPE COUNT TOGETHER");
        std::process::exit(2);
    };
    let (count, together): (u32, u32) = (count.parse().unwrap(), together.parse().unwrap());
    let mut c = Client::connect(address).unwrap();
    c.login(id.as_bytes(), password.as_bytes()).unwrap();
    c.good(TAPE_OPEN, &[text(tape), words(&[TO_WRITE])].concat()).unwrap();
    c.good(TAPE_MTIO, &words(&[proved::codes::REWIND_TAPE, 1])).unwrap();
    let body = text(noise(1, RECORD));
    let begun = Instant::now();
    for at in (0..count).step_by(together as usize) {
        write(&mut c, &body, together.min(count - at));
    }
    let took = begun.elapsed().as_secs_f64();
    c.good(TAPE_CLOSE, b"").unwrap();
    println!("{took:.6}");
}
