//! `mossgoblin rmt`: commands on standard input, replies on standard output, by their bytes.
mod common;
use common::remote::{Remote, made, rmt, write};
use common::*;
use std::fs;
use std::io::Write;
use std::path::Path;
use std::process::{Child, Command, Stdio};
use std::time::{Duration, Instant};

const ENOSPC: u32 = 28;
const EIO: u32 = 5;

const E5: &str = "E5\nI/O error\n";
const E6: &str = "E6\nNo such device or address\n";
const E22: &str = "E22\nInvalid argument\n";

type List = Vec<Vec<u8>>;

/// What a run with this input did: exit code, standard output and standard error.
fn run(command: &mut Command, input: &[u8]) -> (i32, Vec<u8>, String) {
    command.stdin(Stdio::piped()).stdout(Stdio::piped()).stderr(Stdio::piped());
    let mut child = command.spawn().unwrap();
    let (mut to, bytes) = (child.stdin.take().unwrap(), input.to_vec());
    let writer = std::thread::spawn(move || _ = to.write_all(&bytes));
    let done = child.wait_with_output().unwrap();
    writer.join().unwrap();
    (done.status.code().unwrap_or(-1), done.stdout, String::from_utf8(done.stderr).unwrap())
}

/// The replies of a run that ends well and says nothing else.
fn replies(tape: &Path, input: &[u8]) -> String {
    let (code, out, err) = run(&mut rmt(tape), input);
    assert_eq!((code, &err[..]), (0, ""), "{}", String::from_utf8_lossy(input));
    String::from_utf8(out).unwrap()
}

fn on_tape(tape: &Path) -> List {
    list(&fs::read(tape).unwrap()).expect("sound")
}

#[test]
fn replies_are_the_cores() {
    let s = Scratch::new();
    let tape = made(&s);
    let told = |input: &[u8]| replies(&tape, input);
    // Nothing is open yet.
    assert_eq!(told(b""), "");
    assert_eq!(told(b"R10\nW1\nxI1\n1\nC\n"), [E6; 4].concat());
    assert_eq!(told(b"O/dev/tape0\n0\nO\n0\nOtape1\n1\nOtape0\n3\nOtape0\n\n"), [E6, E6, E6, E22, E22].concat());
    // Records, marks, and what passes them.
    assert_eq!(told(b"Otape0\n1\nW5\nA\nB\nCW0\nI0\n2\nW3\nxyzCtape0\n"), "A0\nA5\nA0\nA0\nA3\nA0\n");
    assert_eq!(on_tape(&tape), [&b"A\nB\nC"[..], b"", b"", b"xyz"]);
    let read = told(b"Otape0\n0\nR3\nR9\nR9\nR9\nR9\nI5\n9\nR0\nR9\nC\n");
    assert_eq!(read, ["A0\nA3\nA\nB", E5, E5, "A3\nxyz", E5, "A0\nA0\nA5\nA\nB\nCA0\n"].concat());
    // A mark ends FSR and BSR and is passed, and at an end the tape has moved.
    let spaced = told(b"Otape0\n0\nI1\n1\nI3\n2\nI2\n1\nI4\n1\nI3\n2\nI1\n9\nI4\n1\nR9\nI2\n9\nR1\nC\n");
    assert_eq!(spaced, ["A0\nA0\n", E5, "A0\n", E5, E5, E5, "A0\nA3\nxyz", E5, "A1\nAA0\n"].concat());
    // What 001 has and the core has not, and what nobody has: the next line is the next command.
    let others = b"Otape0\n0\nI6\n1\nL0\n0\nL5\n1\nS\nSxyz\n\nR\nI1\nx\nR5\nC\n";
    assert_eq!(told(others), format!("A0\n{}A5\nA\nB\nCA0\n", E22.repeat(9)));
    // Open for reading: no write; and what is open is not opened again.
    assert_eq!(told(b"Otape0\n0\nW1\nxI0\n1\nOtape0\n1\nC\nC\n"), ["A0\n", E5, E5, E5, "A0\n", E6].concat());
    assert_eq!(on_tape(&tape).len(), 4);
    // From the start, which cuts the rest.
    assert_eq!(told(b"Otape0\n2\nW1\nzI4\n1\nR9\nC\n"), "A0\nA1\nA0\nA1\nzA0\n");
    assert_eq!(on_tape(&tape), [b"z"]);
}

#[test]
fn longest_records_and_a_full_tape() {
    let s = Scratch::new();
    let tape = made(&s);
    let data = noise(1, 32_769);
    let mut r = Remote::start(&mut rmt(&tape));
    assert_eq!(r.ask(b"Otape0\n1\n"), "A0");
    assert_eq!((r.ask(&write(&data)), r.ask(&write(&data[1..]))), ("E22".into(), "A32768".into()));
    assert_eq!((r.ask(b"R32769\n"), r.ask(b"I4\n1\n")), ("E22".into(), "A0".into()));
    r.say(b"R32768\n").unwrap();
    assert_eq!(r.heard(true).unwrap(), ("A32768".into(), data[1..].to_vec()));
    (1..32).for_each(|_| assert_eq!(r.ask(&write(&data[1..])), "A32768"));
    assert_eq!(
        (r.ask(&write(b"x")), r.ask(b"I0\n4064\n"), r.ask(b"I0\n4065\n")),
        ("E5".into(), "A0".into(), "E5".into())
    );
    assert_eq!(r.end(), 0);
    assert_eq!(sound(&fs::read(&tape).unwrap()), Ok((4_096, 1 << 20)));
}

/// Of a command that is cut nothing is done, wherever that is.
#[test]
fn input_that_is_cut_does_nothing() {
    let s = Scratch::new();
    let tape = made(&s);
    replies(&tape, b"Otape0\n1\nW3\nold");
    for command in [&b"W4\nnew!"[..], b"I0\n10\n", b"Otape0\n1\n"] {
        for n in 1..command.len() {
            let input = [b"Otape0\n1\n", &command[..n]].concat();
            let (code, out, err) = run(&mut rmt(&tape), &input);
            assert_eq!((code, &out[..]), (1, &b"A0\n"[..]), "{n}");
            assert_eq!(err, "mossgoblin rmt: ended: the input ended within a command; nothing of that was done\n");
            assert_eq!(on_tape(&tape), [b"old"], "{n}");
        }
    }
}

#[test]
fn long_lines_are_refused_and_the_next_command_is_found() {
    let s = Scratch::new();
    let tape = made(&s);
    let long = "0".repeat(4_097);
    let most = "a".repeat(4_096);
    let input =
        format!("O{most}\n0\nO{long}\n0\nOtape0\n{long}\nx{long}\nI{long}\n{long}\nR{long}\nOtape0\n0\nC{long}\nC\n");
    assert_eq!(replies(&tape, input.as_bytes()), [E6, &E22.repeat(5), "A0\n", E22, "A0\n"].concat());
    // One that goes on and on is not kept.
    let mut r = Remote::start(&mut rmt(&tape));
    let (before, part) = (memory(&r.child), vec![b'x'; 1 << 20]);
    (0..200).for_each(|_| r.say(&part).unwrap());
    assert_eq!(r.ask(b"\n"), "E22");
    assert!(memory(&r.child) < before + 8_000, "{before} and {} KiB", memory(&r.child));
    assert_eq!((r.ask(b"Otape0\n0\n"), r.end()), ("A0".into(), 0));
}

/// What a process has in memory, in KiB.
fn memory(child: &Child) -> u64 {
    let status = fs::read_to_string(format!("/proc/{}/status", child.id())).unwrap();
    let line = status.lines().find_map(|l| l.strip_prefix("VmRSS:")).unwrap();
    line.trim().trim_end_matches(" kB").parse().unwrap()
}

#[test]
fn data_beyond_the_bound_are_dropped_and_refused() {
    let s = Scratch::new();
    let tape = made(&s);
    let mut r = Remote::start(&mut rmt(&tape));
    assert_eq!(r.ask(b"Otape0\n1\n"), "A0");
    // In the data is what would be commands.
    let data = b"I0\n9\nW1\nx".repeat(1 << 17);
    for n in [32_769, 1 << 20, (1 << 20) + 1] {
        assert_eq!(r.ask(&write(&data[..n])), "E22", "{n}");
    }
    let before = memory(&r.child);
    let n = 300 << 20;
    r.say(format!("W{n}\n").as_bytes()).unwrap();
    (0..300).for_each(|_| r.say(&data[..1 << 20]).unwrap());
    assert_eq!(r.heard(false).unwrap().0, "E22");
    assert!(memory(&r.child) < before + 8_000, "{before} and {} KiB", memory(&r.child));
    assert_eq!((r.ask(b"R1\n"), r.ask(&write(b"abc")), r.end()), ("E5".into(), "A3".into(), 0));
    assert_eq!(on_tape(&tape), [b"abc"]);
    // Without a tape, as far as the core is asked.
    let long = write(&data[..(1 << 20) + 1]);
    assert_eq!(replies(&tape, &[write(&data[..40_000]), long].concat()), [E6, E22].concat());
}

/// Behind a W whose count is no number nobody knows where the next command begins: no data are taken for one.
#[test]
fn count_that_is_no_number_ends_it() {
    let s = Scratch::new();
    let tape = made(&s);
    for count in ["", "x", "-1", "1 ", "00000000001", "4294967296", &"0".repeat(5_000)] {
        let input = format!("Otape0\n1\nW{count}\nI0\n3\nI0\n3\n");
        let (code, out, err) = run(&mut rmt(&tape), input.as_bytes());
        assert_eq!((code, out), (1, format!("A0\n{E22}").into_bytes()), "{count}");
        assert!(err.contains("a W whose count is no number") && err.lines().count() == 1, "{err}");
        assert_eq!(on_tape(&tape), List::new());
    }
}

/// GNU's status has no line end, and its client waits.
#[test]
fn status_is_answered_at_once() {
    let s = Scratch::new();
    let tape = made(&s);
    let mut r = Remote::start(&mut rmt(&tape));
    for (status, n) in [(&b"S"[..], 1), (b"S\n", 1), (b"SS", 2), (b"S\nS\n", 2)] {
        r.say(status).unwrap();
        (0..n).for_each(|_| assert_eq!(r.heard(false).unwrap().0, "E22", "{status:?}"));
    }
    assert_eq!((r.ask(b"Otape0\n0\n"), r.end()), ("A0".into(), 0));
}

/// What GNU's tar, cpio and mt send, as it was seen.
#[test]
fn words_of_gnu_are_understood() {
    let s = Scratch::new();
    let tape = made(&s);
    let told = |input: &[u8]| replies(&tape, input);
    assert_eq!(told(b"Otape0\n65 O_WRONLY|O_CREAT\nW3\nabcW3\ndefC\n"), "A0\nA3\nA3\nA0\n");
    assert_eq!(told(b"Otape0\n0 O_RDONLY\nR10240\nR10240\nC\n"), "A0\nA3\nabcA3\ndefA0\n");
    // Append: back over the last record.
    assert_eq!(told(b"Otape0\n66 O_RDWR|O_CREAT\nR9\nR9\nI4\n1\nW2\nghC\n"), "A0\nA3\nabcA3\ndefA0\nA2\nA0\n");
    assert_eq!(on_tape(&tape), [&b"abc"[..], b"gh"]);
    // Verify: no mark to go back over, so it seeks.
    let verify = b"Otape0\n66 O_RDWR|O_CREAT\nW3\nabcI2\n1\nI2\n1\nL0\n0\nR9\nC\n";
    assert_eq!(told(verify), ["A0\nA3\n", E5, E5, "A0\nA3\nabcA0\n"].concat());
    // mt: weof is Linux's 5, rewind its 6, eom 12; 0, a reset, writes no mark.
    assert_eq!(told(b"Otape0\n1 O_WRONLY\nI3\n1\nI5\n2\nC\n"), "A0\nA0\nA0\nA0\n");
    assert_eq!(on_tape(&tape), [&b"abc"[..], b"", b""]);
    assert_eq!(told(b"Otape0\n2 O_RDWR\nI1\n1\nI6\n1\nR9\nC\n"), "A0\nA0\nA0\nA3\nabcA0\n");
    for op in ["0", "00", "7", "8", "9", "12", "13", "4294967295"] {
        let input = format!("Otape0\n2 O_RDWR\nI3\n1\nI{op}\n1\nC\n");
        assert_eq!(told(input.as_bytes()), ["A0\nA0\n", E22, "A0\n"].concat(), "{op}");
    }
    assert_eq!(on_tape(&tape).len(), 3);
    // Seeks that are no rewind, and modes that are none.
    assert_eq!(told(b"Otape0\n0 O_RDONLY\nL1\n0\nL0\n1\nL0\n2\nC\n"), ["A0\n", E22, E22, E22, "A0\n"].concat());
    assert_eq!(
        told(b"Otape0\n3 O_ACCMODE\nOtape0\n65\nOtape0\n-1 O_RDONLY\nOx\n0 O_RDONLY\n"),
        [E22, E22, E22, E6].concat()
    );
}

/// The numbers are Linux's for the client that opened the tape with words, until it closes it, and for no other.
#[test]
fn words_are_gnus_until_the_close() {
    let s = Scratch::new();
    let tape = made(&s);
    let mut r = Remote::start(&mut rmt(&tape));
    let marks = || on_tape(&tape).len();
    let all = |r: &mut Remote, commands: &[&str]| commands.iter().map(|c| r.ask(c.as_bytes())).collect::<Vec<_>>();
    assert_eq!(all(&mut r, &["Otape0\n1\n", "I0\n1\n", "L0\n0\n", "I5\n1\n"]), ["A0", "A0", "E22", "A0"]);
    // An open that is refused changes nothing.
    assert_eq!(all(&mut r, &["Otape0\n1 O_WRONLY\n", "I1\n1\n", "I0\n1\n"]), ["E5", "A0", "A0"]);
    assert_eq!((marks(), all(&mut r, &["C\n", "Otape0\n1 O_WRONLY\n"])), (2, vec!["A0".into(), "A0".into()]));
    assert_eq!(
        all(&mut r, &["I5\n1\n", "Otape0\n1\n", "I5\n2\n", "I0\n9\n", "L0\n0\n"]),
        ["A0", "E5", "A0", "E22", "A0"]
    );
    assert_eq!(
        (marks(), all(&mut r, &["C\n", "L0\n0\n", "I0\n1\n"])),
        (3, vec!["A0".into(), "E22".into(), "E6".into()])
    );
    assert_eq!(
        all(&mut r, &["Otape0\n2\n", "I1\n3\n", "I0\n1\n", "I5\n1\n", "I3\n1\n"]),
        ["A0", "A0", "A0", "A0", "E5"]
    );
    assert_eq!((marks(), r.end()), (4, 0));
}

/// Judges the calls: every write of the cartridge is synced before a reply goes out. Gives the writes, the syncs and the replies.
fn judged(shim: &Shim, tape: &Path) -> (usize, usize, usize) {
    let (mut dirty, mut counts, calls) = (false, (0, 0, 0), shim.trace());
    let (put, sync) = (format!("pwrite {} ", tape.display()), format!("fdatasync {}", tape.display()));
    for call in &calls {
        if call.starts_with(&put) {
            (dirty, counts.0) = (true, counts.0 + 1);
        } else if *call == sync {
            (dirty, counts.1) = (false, counts.1 + 1);
        } else if call.starts_with("told ") {
            assert!(!dirty, "a reply goes out before what it tells is on the disk: {calls:?}");
            counts.2 += 1;
        }
    }
    assert!(!dirty, "{calls:?}");
    counts
}

#[test]
fn replies_come_after_the_disk() {
    let s = Scratch::new();
    let (shim, tape) = (Shim::new(&s), made(&s));
    let mut r = Remote::start(shim.before(&mut rmt(&tape)));
    assert_eq!(r.ask(b"Otape0\n1\n"), "A0");
    // What a program that was killed left is on the disk before it is told.
    let calls = shim.trace();
    let first = |what: &str| calls.iter().position(|l| l.starts_with(what));
    assert!(first(&format!("fsync {}", tape.display())).unwrap() < first("told ").unwrap(), "{calls:?}");
    for i in 0..4 {
        assert_eq!((r.ask(&write(&noise(i, 1_000))), judged(&shim, &tape)), ("A1000".into(), (3, 2, 1)));
        assert_eq!(r.ask(b"I0\n1\n"), "A0");
        let (puts, syncs, told) = judged(&shim, &tape);
        assert!(puts >= 2 && (syncs, told) == (2, 1));
    }
    // Leading zeros are the same operation.
    assert_eq!(r.ask(b"I000\n1\n"), "A0");
    assert_eq!(judged(&shim, &tape).1, 2);
    // Over what is there: the list is cut first. A read, a space and a refusal write nothing.
    assert_eq!((r.ask(b"I5\n0\n"), judged(&shim, &tape)), ("A0".into(), (0, 0, 1)));
    for (command, reply) in
        [("I1\n1\n", "A0"), ("I2\n1\n", "A0"), ("I4\n1\n", "A0"), ("R9\n", "A9"), ("L0\n0\n", "E22")]
    {
        assert_eq!((r.ask(command.as_bytes()), judged(&shim, &tape)), (reply.into(), (0, 0, 1)));
    }
    assert_eq!((r.ask(&write(&noise(9, 500))), judged(&shim, &tape)), ("A500".into(), (4, 3, 1)));
    assert_eq!((r.ask(&write(b"")), judged(&shim, &tape)), ("A0".into(), (0, 0, 1)));
    assert_eq!((r.end(), judged(&shim, &tape)), (0, (0, 0, 0)));
    assert_eq!(on_tape(&tape).len(), 2);
}

#[test]
fn disk_that_fails_is_answered() {
    let s = Scratch::new();
    let (shim, tape, log) = (Shim::new(&s), made(&s), s.path("log"));
    let mut r = Remote::start(shim.before(&mut rmt(&tape)).stderr(fs::File::create(&log).unwrap()));
    assert_eq!((r.ask(b"Otape0\n2\n"), r.ask(&write(b"one"))), ("A0".into(), "A3".into()));
    let mut good = vec![b"one".to_vec()];
    for (fault, errno, why) in
        [("fail-pwrite", ENOSPC, "No space left on device"), ("fail-fdatasync", EIO, "Input/output error")]
    {
        shim.say(fault, errno);
        for _ in 0..2 {
            assert_eq!((r.ask(&write(b"lost")), r.ask(b"I0\n2\n")), ("E5".into(), "E5".into()));
            assert_eq!(r.all(), good);
        }
        told(&log, &[&format!("mossgoblin: the cartridge file could not be written: {why}")]);
        shim.unsay(fault);
        assert_eq!(r.ask(&write(b"more")), "A4");
        good.push(b"more".to_vec());
        assert_eq!((r.all(), on_tape(&tape)), (good.clone(), good.clone()));
    }
    // At the end the file has the cut too, or that is told.
    shim.say("fail-pwrite", ENOSPC);
    assert_eq!(r.ask(&write(b"lost")), "E5");
    assert_eq!(r.end(), 1);
    let text = fs::read_to_string(&log).unwrap();
    let last = text.lines().last().unwrap();
    assert!(last.starts_with("mossgoblin rmt: the cartridge file could not be written: No space left"), "{text}");
    shim.unsay("fail-pwrite");
    assert_eq!(on_tape(&tape), good);
}

/// What commands may have left on an empty tape that had these replies: a write that was refused cut the list, and one that has
/// no reply may be done, or have cut it.
fn left(commands: &[&[u8]], replies: &[&str]) -> Vec<List> {
    let (mut told, mut at, mut all) = (List::new(), 0, Vec::new());
    for (i, command) in commands.iter().enumerate().take(replies.len() + 1) {
        let entry = match command[0] {
            b'W' => &command[3..],
            b'I' if command[1] == b'0' => b"",
            b'I' => {
                at = 0;
                continue;
            }
            _ => continue,
        };
        let next = [&told[..at], &[entry.to_vec()]].concat();
        match replies.get(i) {
            Some(reply) if reply.starts_with('A') => (told, at) = (next, at + 1),
            Some(_) => told.truncate(at),
            None => all.extend([told[..at].to_vec(), next]),
        }
    }
    all.push(told);
    all
}

/// A call on files that fails, whichever it is: the program does not start, or what it told is there.
#[test]
fn error_at_each_call_of_rmt() {
    let s = Scratch::new();
    let (shim, tape) = (Shim::new(&s), made(&s));
    let input = [&b"Otape0\n1\n"[..], b"W3\nabc", b"I0\n1\n", b"I5\n0\n", b"W2\nde", b"W1\nf", b"C\n"];
    let (mut broken, mut refused) = (0, 0);
    for n in 1..200 {
        fs::remove_file(&tape).unwrap();
        made(&s);
        shim.trace();
        shim.say("fail-at", n);
        let mut command = rmt(&tape);
        let (code, out, err) = run(shim.before(&mut command), &input.concat());
        shim.unsay("fail-at");
        if !shim.trace().iter().any(|l| l.starts_with("broken ")) {
            assert_eq!((code, &out[..]), (0, &b"A0\nA3\nA0\nA0\nA2\nA1\nA0\n"[..]));
            assert!(broken > 10 && refused > 3, "{broken} {refused}");
            return;
        }
        broken += 1;
        let out = String::from_utf8(out).unwrap();
        let replies: Vec<&str> = out.lines().filter(|l| !l.starts_with("I/O")).collect();
        assert!(!err.is_empty() || code == 0 && replies.len() == 7, "call {n}: {out}{err}");
        refused += replies.contains(&"E5") as u32;
        let (there, fair) = (on_tape(&tape), left(&input, &replies));
        assert!(fair.contains(&there), "call {n}: {out}{err}: {there:?} is none of {fair:?}");
    }
    panic!("every call fails");
}

/// Killed at any time: the tape has what was acknowledged, and at the most the write that was not.
#[test]
fn kill_leaves_what_was_acknowledged() {
    let s = Scratch::new();
    let tape = made(&s);
    let chance = noise(5, 400);
    let (mut total, mut pending) = (0, 0);
    let started = Instant::now();
    let mut rounds = 0;
    while started.elapsed() < Duration::from_secs(3) && rounds < 200 {
        let mut r = Remote::start(&mut rmt(&tape));
        assert_eq!(r.ask(b"Otape0\n2\n"), "A0");
        let before = on_tape(&tape);
        let wait = Duration::from_micros(chance[rounds] as u64 * 100);
        let id = r.child.id().to_string();
        let killer = std::thread::spawn(move || {
            std::thread::sleep(wait);
            Command::new("kill").args(["-KILL", &id]).status().unwrap()
        });
        let mut told: List = Vec::new();
        let mut next = Vec::new();
        for i in 0.. {
            next = noise(rounds as u64 * 1_000 + i, 1 + chance[(rounds + i as usize) % 400] as usize * 40);
            // Without a reply, or with that of a full tape.
            let replied = r.say(&write(&next)).ok().and_then(|()| r.heard(false));
            if replied.is_none_or(|(line, _)| line.starts_with('E')) {
                break;
            }
            told.push(next.clone());
        }
        killer.join().unwrap();
        let there = on_tape(&tape);
        let one_more = [&told[..], &[next]].concat();
        let as_before = told.is_empty() && there == before;
        let cut = told.is_empty() && there.is_empty();
        assert!(there == told || there == one_more || as_before || cut, "round {rounds}: {} told", told.len());
        total += told.len();
        pending += (there == one_more) as u32;
        rounds += 1;
    }
    println!("{rounds} kills, {total} writes acknowledged, {pending} done and not acknowledged");
    assert!(rounds >= 5 && total > 20, "{rounds} {total}");
}

#[test]
fn cartridge_is_locked() {
    let s = Scratch::new();
    let tape = made(&s);
    let host = Host::start(&tape, &[]);
    let (code, out, err) = run(&mut rmt(&tape), b"Otape0\n0\n");
    let why = "in use by another program; end that vault or rmt first";
    let text = format!("mossgoblin rmt: cartridge {}: {why}\n", tape.display());
    assert_eq!((code, &out[..], err), (1, &b""[..], text));
    drop(host);
    // Also while no command has come, and while the tape is closed.
    let mut r = Remote::start(&mut rmt(&tape));
    for command in ["Otape0\n1\n", "C\n"] {
        assert_eq!(r.ask(command.as_bytes()), "A0");
        let done = finished(serve(&tape).args(["--listen", "127.0.0.1:0"]));
        let text = String::from_utf8(done.stderr).unwrap();
        assert!(done.status.code() == Some(1) && text.contains(why), "{text}");
        assert!(run(program().arg("list").arg(&tape), b"").2.contains(why));
    }
    // The next of the same client waits until this one has gone.
    let next = std::thread::spawn({
        let tape = tape.clone();
        move || replies(&tape, b"Otape0\n0\nC\n")
    });
    std::thread::sleep(Duration::from_millis(300));
    assert_eq!((r.end(), next.join().unwrap()), (0, "A0\nA0\n".into()));
}

#[test]
fn nothing_is_told_of_another_file() {
    let s = Scratch::new();
    // A write, and what writes nothing.
    let commands = [write(b"abc"), b"I5\n0\n".to_vec()];
    for (change, command) in ["replaced", "removed", "cut"].iter().flat_map(|c| commands.iter().map(move |d| (*c, d))) {
        let tape = made(&s);
        let log = s.path("log");
        let mut r = Remote::start(rmt(&tape).stderr(fs::File::create(&log).unwrap()));
        assert_eq!(r.ask(b"Otape0\n1\n"), "A0");
        match change {
            "cut" => fs::File::options().write(true).open(&tape).unwrap().set_len(100).unwrap(),
            _ => fs::remove_file(&tape).unwrap(),
        }
        if change == "replaced" {
            made(&s);
        }
        r.say(command).unwrap();
        assert_eq!(r.heard(false), None, "{change}");
        assert_eq!(r.child.wait().unwrap().code(), Some(1));
        told(&log, &["nothing more is told to this client"]);
        if change == "cut" {
            assert_eq!(fs::metadata(&tape).unwrap().len(), 100, "nothing is written to it");
        }
        let _ = fs::remove_file(&tape);
    }
}

#[test]
fn time_is_bounded() {
    let s = Scratch::new();
    let tape = made(&s);
    let log = s.path("log");
    let limits = ["--idle", "1", "--command-within", "1", "--send-within", "1"];
    let ended = |say: &[u8], why: &str| {
        let mut r = Remote::start(rmt(&tape).args(limits).stderr(fs::File::create(&log).unwrap()));
        let begun = Instant::now();
        r.say(say).unwrap();
        assert_eq!(soon(|| r.child.try_wait().unwrap()).and_then(|s| s.code()), Some(1), "{why}");
        assert!(begun.elapsed() >= Duration::from_millis(900), "{why}");
        told(&log, &[why]);
    };
    ended(b"", "ended: the client said nothing for 1 second; --idle is the limit");
    ended(b"C\n", "ended: the client said nothing for 1 second; --idle is the limit");
    ended(b"Otape0\n", "ended: a command was not whole within 1 second, and nothing of it was done");
    ended(b"W5\nabc", "ended: a command was not whole within 1 second, and nothing of it was done");
    // A byte now and then is no better than none.
    let mut r = Remote::start(rmt(&tape).args(limits).stderr(fs::File::create(&log).unwrap()));
    let begun = Instant::now();
    let gone = (0..100).any(|_| {
        std::thread::sleep(Duration::from_millis(100));
        r.say(b"x").is_err()
    });
    assert!(gone && begun.elapsed() >= Duration::from_secs(1), "{:?}", begun.elapsed());
    told(&log, &["ended: a command was not whole within 1 second"]);
    // Replies that nobody takes: 64 KiB stay in the pipe.
    replies(&tape, &[&b"Otape0\n1\n"[..], &write(&noise(1, 32_768))].concat());
    let reads = "I5\n0\nR32768\n".repeat(20);
    ended(format!("Otape0\n0\n{reads}").as_bytes(), "ended: the client took no reply for 1 second");
}

#[test]
fn client_that_is_gone_is_told() {
    let s = Scratch::new();
    let tape = made(&s);
    let log = s.path("log");
    let mut child = rmt(&tape)
        .stdin(Stdio::piped())
        .stdout(Stdio::piped())
        .stderr(fs::File::create(&log).unwrap())
        .spawn()
        .unwrap();
    drop(child.stdout.take());
    child.stdin.as_mut().unwrap().write_all(b"Otape0\n1\nW3\nabc").unwrap();
    assert_eq!(child.wait().unwrap().code(), Some(1));
    told(&log, &["ended: the client is gone, and has not the last reply"]);
}

/// rmt has no login: the host makes one of its own, of a password that nobody else has.
#[test]
fn login_is_its_own() {
    let s = Scratch::new();
    let (shim, tape) = (Shim::new(&s), made(&s));
    shim.say("fail-random", EIO);
    let mut command = rmt(&tape);
    let (code, out, err) = run(shim.before(&mut command), b"Otape0\n0\n");
    assert_eq!((code, &out[..]), (1, &b""[..]));
    assert_eq!(err, "mossgoblin rmt: no password could be drawn: Input/output error (os error 5)\n");
    shim.unsay("fail-random");
    assert_eq!(replies(&tape, b"Otape0\n0\n"), "A0\n");
}

/// With `--verbose` each command and its reply, and never the data; text from outside is escaped and cut.
#[test]
fn commands_are_told() {
    let s = Scratch::new();
    let tape = made(&s);
    let long = "p".repeat(300);
    let input = format!("Otape0\n65 O_WRONLY|O_CREAT\nW6\nsecretI5\n1\nx\x1b[2J\u{202e}\"\nO{long}\n0\nC\n");
    let (code, _, err) = run(rmt(&tape).arg("--verbose"), input.as_bytes());
    let lines: Vec<&str> = err.lines().map(|l| l.split_once(' ').unwrap().1).collect();
    let cut = format!("\"O{}\"..: E6", "p".repeat(199));
    let all = [
        "\"Otape0\\n65 O_WRONLY|O_CREAT\\n\", taken as \"Otape0\\n1\\n\": A0",
        "\"W6\\n\": A6",
        "\"I5\\n1\\n\", taken as \"I0\\n1\\n\": A0",
        "\"x\\u{1b}[2J\\u{202e}\"\"\\n\": E22",
        &cut,
        "\"C\\n\": A0",
        "ended; records and marks on the tape: 2",
    ];
    assert_eq!((code, lines), (0, all.to_vec()));
}

#[test]
fn wrong_starts_are_one_line() {
    let s = Scratch::new();
    let tape = s.path("tape");
    let name = tape.to_str().unwrap();
    for (args, code, why) in [
        (&["rmt"][..], 2, "mossgoblin rmt: --cartridge FILE is missing"),
        (
            &["rmt", "tape"],
            2,
            "mossgoblin rmt: \"tape\": rmt takes options only; a cartridge is named by --cartridge FILE",
        ),
        (&["rmt", "--idle=0", "--cartridge", name], 2, "mossgoblin rmt: --idle: 0: expected seconds, such as 600"),
        (
            &["rmt", "--new-cartridge=1T", "--cartridge", name],
            2,
            "mossgoblin rmt: --new-cartridge: 1T: expected a size",
        ),
        (&["rmt", "--cartridge", name], 1, "no such file; --new-cartridge SIZE makes one"),
        (
            &["rmt", "--cartridge", "/etc/hostname"],
            1,
            "mossgoblin rmt: cartridge /etc/hostname: not a sound cartridge image",
        ),
    ] {
        let (told, out, err) = run(program().args(args), b"Otape0\n0\n");
        assert!(told == code && out.is_empty() && err.contains(why) && err.lines().count() == 1, "{args:?}: {err}");
    }
    // Made first, and never over another.
    let new = |input: &[u8]| run(rmt(&tape).args(["--new-cartridge", "64K"]), input);
    assert_eq!(new(b"Otape0\n1\nW1\nx"), (0, b"A0\nA1\n".to_vec(), String::new()));
    let (code, out, err) = new(b"Otape0\n1\n");
    assert!(code == 1 && out.is_empty() && err.contains("exists already"), "{err}");
    assert_eq!(on_tape(&tape), [b"x"]);
}
