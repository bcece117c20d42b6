//! Measures a running host over loopback: requests a second, and the rate of a backup against a plain copy of the same
//! bytes. Kinds are run in turn.
use host::client::{Client, Ended, TO_READ, TO_WRITE, Why};
use host::own::{Running, Scratch, noise};
use proved::{Data, Mover};
use std::fs::{self, File};
use std::io::{Read, Write};
use std::net::{TcpListener, TcpStream};
use std::path::Path;
use std::process::Command;
use std::time::Instant;
use wire::message::{MOVER_GET_STATE, TAPE_WRITE};
use wire::words;

const REQUESTS: usize = 20_000;
const BYTES: usize = 96 << 20;
const ROUNDS: usize = 5;
const RECORD: u32 = 32_768;

fn median(mut all: Vec<f64>) -> f64 {
    all.sort_by(f64::total_cmp);
    all[all.len() / 2]
}

fn seconds(work: impl FnOnce()) -> f64 {
    let start = Instant::now();
    work();
    start.elapsed().as_secs_f64()
}

/// Round trips of as many bytes as a request and its reply have, without the vault: a thread that answers each read.
fn echo_seconds(ask: usize, answer: usize) -> f64 {
    let listener = TcpListener::bind("127.0.0.1:0").unwrap();
    let address = listener.local_addr().unwrap();
    let server = std::thread::spawn(move || {
        let (mut s, _) = listener.accept().unwrap();
        s.set_nodelay(true).unwrap();
        let (mut buf, bytes) = (vec![0; ask], vec![0; answer]);
        while s.read_exact(&mut buf).is_ok() {
            s.write_all(&bytes).unwrap();
        }
    });
    let mut s = TcpStream::connect(address).unwrap();
    s.set_nodelay(true).unwrap();
    let (bytes, mut buf) = (vec![0; ask], vec![0; answer]);
    let t = seconds(|| {
        for _ in 0..REQUESTS {
            s.write_all(&bytes).unwrap();
            s.read_exact(&mut buf).unwrap();
        }
    });
    drop(s);
    server.join().unwrap();
    t
}

/// `cat FILE` over loopback into another file, synced at the end; or into nothing.
fn cat_seconds(from: &Path, to: Option<&Path>) -> f64 {
    let listener = TcpListener::bind("127.0.0.1:0").unwrap();
    let address = listener.local_addr().unwrap();
    let mut target = to.map(|p| File::create(p).unwrap());
    seconds(|| {
        let server = std::thread::spawn(move || {
            let (mut s, _) = listener.accept().unwrap();
            let mut buf = vec![0; 1 << 16];
            loop {
                let n = s.read(&mut buf).unwrap();
                if n == 0 {
                    break;
                }
                if let Some(f) = &mut target {
                    f.write_all(&buf[..n]).unwrap();
                }
            }
            if let Some(f) = target {
                f.sync_data().unwrap();
            }
        });
        let mut s = TcpStream::connect(address).unwrap();
        let mut file = File::open(from).unwrap();
        let mut buf = vec![0; 1 << 16];
        loop {
            let n = file.read(&mut buf).unwrap();
            if n == 0 {
                break;
            }
            s.write_all(&buf[..n]).unwrap();
        }
        drop(s);
        server.join().unwrap();
    })
}

fn login(address: &str) -> Client {
    let mut c = Client::connect(address).unwrap();
    c.login(b"vault", b"noon").unwrap();
    c
}

fn requests(address: &str, connections: usize, message: u32) -> f64 {
    seconds(|| {
        std::thread::scope(|scope| {
            for _ in 0..connections {
                scope.spawn(|| {
                    let mut c = login(address);
                    for _ in 0..REQUESTS / connections {
                        c.call(message, b"").unwrap();
                    }
                });
            }
        });
    })
}

fn main() {
    let s = Scratch::new().unwrap();
    let (from, to, tape) = (s.path("from"), s.path("to"), s.path("tape"));
    fs::write(&from, noise(1, BYTES)).unwrap();
    // The program lies beside this one.
    let mut command = Command::new(std::env::current_exe().unwrap().with_file_name("mossgoblin"));
    command.args(["serve", "--listen", "127.0.0.1:0", "--account", "vault:noon", "--quiet", "--new-cartridge", "128M"]);
    command.arg("--cartridge").arg(&tape).arg("--stream").arg(&from).arg("--restore-to").arg(&to);
    let vault = Running::start(&mut command).unwrap();
    let address = &vault.address;
    let done = Ended { pauses: 0, why: Why::Halted(Data::SUCCESSFUL) };

    let (mut one, mut four, mut echo) = (Vec::new(), Vec::new(), Vec::new());
    for _ in 0..ROUNDS {
        one.push(requests(address, 1, MOVER_GET_STATE));
        four.push(requests(address, 4, MOVER_GET_STATE));
        // Mover get state: 28 bytes ask, 100 answer.
        echo.push(echo_seconds(28, 100));
    }
    let base = median(echo);
    println!(
        "| requests over loopback, medians of {ROUNDS} | a second | microseconds each | of an echo of as many bytes |"
    );
    println!("|---|---|---|---|");
    for (name, t) in [
        ("mover get state, one connection", median(one)),
        ("the same, four connections at once", median(four)),
        ("echo without the vault", base),
    ] {
        let n = REQUESTS as f64;
        println!("| {name} | {:.0} | {:.1} | {:.2} |", n / t, t / n * 1e6, base / t);
    }

    let kinds = [
        "backup of a file to the tape",
        "recover from the tape to a file",
        "tape writes, 32,768 bytes each, synced each",
        "`cat` over loopback into a file, synced",
        "`cat` over loopback into nothing",
    ];
    let mut rates = vec![Vec::new(); kinds.len()];
    let mut c = login(address);
    // The archive has headers besides the file's bytes.
    let window = (BYTES as u64 + 8_192).next_multiple_of(RECORD as u64);
    for _ in 0..ROUNDS {
        let rate = |bytes: usize, t: f64| bytes as f64 / t / 1e6;
        rates[0].push(rate(BYTES, seconds(|| assert_eq!(c.backup(RECORD, window).unwrap(), done))));
        rates[1].push(rate(
            BYTES,
            seconds(|| {
                c.tape_open(TO_READ).unwrap();
                c.join(Mover::FROM_TAPE, RECORD, window).unwrap();
                c.start_recover().unwrap();
                assert_eq!(c.run(0, |_| ()).unwrap(), done);
                c.stop().unwrap();
                c.tape_close().unwrap();
            }),
        ));
        assert!(fs::read(&from).unwrap() == fs::read(&to).unwrap(), "restored byte for byte");
        let record = [words(&[RECORD]), noise(2, RECORD as usize)].concat();
        let count = 256;
        c.tape_open(TO_WRITE).unwrap();
        rates[2].push(rate(
            count * RECORD as usize,
            seconds(|| {
                for _ in 0..count {
                    c.good(TAPE_WRITE, &record).unwrap();
                }
            }),
        ));
        c.tape_close().unwrap();
        rates[3].push(rate(BYTES, cat_seconds(&from, Some(&to))));
        rates[4].push(rate(BYTES, cat_seconds(&from, None)));
    }
    let rates: Vec<f64> = rates.into_iter().map(median).collect();
    println!();
    println!("| {} MiB, medians of {ROUNDS} in turn | MB a second | of `cat` into a file |", BYTES >> 20);
    println!("|---|---|---|");
    for (kind, rate) in kinds.iter().zip(&rates) {
        println!("| {kind} | {rate:.0} | {:.2} |", rate / rates[3]);
    }
}
