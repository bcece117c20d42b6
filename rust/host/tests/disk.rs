//! What the vault asks of the disk, seen from below: what is told is there first; and a disk that fails.
mod common;
use common::far::{End, becomes, listen, prepare};
use common::*;
use std::fs;
use std::io::Write;
use std::net::TcpStream;
use std::path::Path;
use std::time::{Duration, Instant};

const ENOSPC: u32 = 28;
const EIO: u32 = 5;
const EAGAIN: u32 = 11;

fn text_of(path: &Path) -> &str {
    path.to_str().unwrap()
}

fn start(shim: &Shim, tape: &Path, log: &Path, more: &[&str]) -> Host {
    let mut command = serve(tape);
    command.args(["--listen", "127.0.0.1:0"]).args(more).stderr(fs::File::create(log).unwrap());
    Host::spawn(shim.before(&mut command))
}

/// Judges the calls up to the answer of a request: every write of the cartridge is synced before anything is sent.
/// Gives the writes, the syncs and the answers.
fn judged(trace: &[String], tape: &Path) -> (usize, usize, usize) {
    let (mut dirty, mut counts) = (false, (0, 0, 0));
    let (put, sync) = (format!("pwrite {} ", tape.display()), format!("fdatasync {}", tape.display()));
    for call in trace {
        if call.starts_with(&put) {
            dirty = true;
            counts.0 += 1;
        } else if *call == sync {
            dirty = false;
            counts.1 += 1;
        } else if call.starts_with("send ") {
            assert!(!dirty, "an answer goes out before what it tells is on the disk: {trace:?}");
            counts.2 += 1;
        }
    }
    assert!(!dirty, "{trace:?}");
    counts
}

#[test]
fn nothing_is_told_before_it_is_on_the_disk() {
    let s = Scratch::new();
    let (shim, tape, from, log) = (Shim::new(&s), s.path("tape"), s.path("from"), s.path("log"));
    fs::write(&from, noise(1, 9 << 20)).unwrap();
    // What a host that was killed left is on the disk before it is told.
    drop(Host::start(&tape, &["--new-cartridge", "16M"]));
    let host = start(&shim, &tape, &log, &["--stream", text_of(&from)]);
    let mut c = host.login();
    let calls = shim.trace();
    let (loaded, first) =
        (format!("fsync {}", tape.display()), |what: &str| calls.iter().position(|l| l.starts_with(what)));
    assert!(first(&loaded).unwrap() < first("send ").unwrap(), "{calls:?}");
    assert!(first(&format!("fsync {}", s.0.display())).unwrap() < first("send ").unwrap(), "{calls:?}");

    c.tape_open(TO_WRITE).unwrap();
    shim.trace();
    for i in 0..4 {
        c.good(TAPE_WRITE, &text(noise(i, 1_000))).unwrap();
        // Bytes, table and header are written, in two steps.
        assert_eq!(judged(&shim.trace(), &tape), (3, 2, 1));
        c.good(TAPE_MTIO, &words(&[codes::WRITE_MARKS, 1])).unwrap();
        let (puts, syncs, sends) = judged(&shim.trace(), &tape);
        assert!(puts >= 2 && syncs == 2 && sends == 1);
    }
    // Over what is there: the list is cut first.
    c.good(TAPE_MTIO, &words(&[codes::REWIND_TAPE, 1])).unwrap();
    shim.trace();
    c.good(TAPE_WRITE, &text(noise(9, 500))).unwrap();
    assert_eq!(judged(&shim.trace(), &tape), (4, 3, 1));
    // A read costs no write.
    c.expect(TAPE_READ, &words(&[1_000]), codes::AT_END).unwrap();
    assert_eq!(judged(&shim.trace(), &tape), (0, 0, 1));
    c.tape_close().unwrap();
    shim.trace();
    // A backup: at pauses and at the end.
    assert_eq!(c.backup(32_768, 32_768 * 100).unwrap(), ended(2, DONE));
    let (puts, syncs, sends) = judged(&shim.trace(), &tape);
    assert!(puts >= 9 && syncs >= 6 && sends > 10, "{puts} {syncs} {sends}");
}

/// Writes that a client sends without waiting for the answers are stored together, and then answered.
#[test]
fn writes_that_come_together_cost_one_store() {
    use std::io::Write;
    let s = Scratch::new();
    let (shim, tape, log) = (Shim::new(&s), s.path("tape"), s.path("log"));
    let host = start(&shim, &tape, &log, &["--new-cartridge", "1M"]);
    let mut c = host.login();
    c.tape_open(TO_WRITE).unwrap();
    shim.trace();
    let first = c.sequence + 1;
    let all: Vec<u8> = (0..50).flat_map(|i| request(first + i, TAPE_WRITE, &text(noise(i as u64, 1_000)))).collect();
    c.socket.write_all(&all).unwrap();
    for i in 0..50 {
        c.sequence = first + i;
        assert_eq!(c.reply(TAPE_WRITE).unwrap().first(), 0);
    }
    let (_, syncs, sends) = judged(&shim.trace(), &tape);
    assert!(syncs <= 20 && sends <= 10, "{syncs} syncs and {sends} answers for 50 writes");
    assert_eq!(sound(&fs::read(&tape).unwrap()), Ok((50, 50_000)));
}

#[test]
fn restored_files_are_on_the_disk_before_they_are_told() {
    let s = Scratch::new();
    let (shim, from, to, tape, log) = (Shim::new(&s), s.folder("from"), s.folder("to"), s.path("tape"), s.path("log"));
    sample(&from);
    let host =
        start(&shim, &tape, &log, &["--new-cartridge", "1M", "--stream", text_of(&from), "--restore-to", text_of(&to)]);
    let mut c = host.login();
    assert_eq!(c.backup(10_240, 10_240_000).unwrap().why, DONE);
    c.begin(Mover::FROM_TAPE, 10_240, 10_240_000).unwrap();
    assert_eq!(c.run(10_240_000, |_| ()).unwrap().why, DONE);
    let calls = shim.trace();
    let end = calls.iter().rposition(|l| l.starts_with("send ")).unwrap();
    let renames: Vec<usize> = (0..calls.len()).filter(|i| calls[*i].starts_with("rename ")).collect();
    assert_eq!(renames.len(), 7, "six files and a link");
    let mut files = 0;
    for at in renames {
        let [_, folder, temporary, name] = calls[at].split(' ').collect::<Vec<_>>()[..] else {
            panic!("{}", calls[at])
        };
        assert!(temporary.starts_with(".mossgoblin-"), "{temporary}");
        // A link has no bytes.
        let synced = calls[..at].iter().any(|l| *l == format!("fsync {folder}/{temporary}"));
        files += synced as u32;
        assert!(synced || name == "link", "{name} gets its name before its bytes are on the disk");
        assert!(calls[at..end].iter().any(|l| *l == format!("fsync {folder}")), "the name {name} is not on the disk");
    }
    assert_eq!(files, 6);
}

#[test]
fn disk_without_room_is_told_at_the_start() {
    let s = Scratch::new();
    let (shim, tape) = (Shim::new(&s), s.path("tape"));
    shim.say("fail-allocate", ENOSPC);
    let mut command = serve(&tape);
    command.args(["--listen", "127.0.0.1:0", "--new-cartridge", "1M"]);
    let done = finished(shim.before(&mut command));
    let why = String::from_utf8(done.stderr).unwrap();
    assert!(done.status.code() == Some(1) && why.contains("No space left on device"), "{why}");
    assert_eq!(fs::read_dir(&s.0).unwrap().count(), 2, "nothing is left but the shim");
    // And of a cartridge that is there, but has not all its blocks.
    drop(Host::start(&tape, &["--new-cartridge", "1M"]));
    let done = finished(shim.before(serve(&tape).args(["--listen", "127.0.0.1:0"])));
    assert!(String::from_utf8(done.stderr).unwrap().contains("No space left on device"));
}

#[test]
fn thread_that_cannot_be_made_stops_nobody() {
    let s = Scratch::new();
    let (shim, tape, log) = (Shim::new(&s), s.path("tape"), s.path("log"));
    let host = start(&shim, &tape, &log, &["--new-cartridge", "1M"]);
    let mut c = host.login();
    shim.say("fail-thread", EAGAIN);
    for _ in 0..3 {
        assert!(host.client().receive().is_err(), "turned away");
    }
    told(&log, &["turned away, no thread could be made"]);
    c.good(CONFIG_GET_SERVER_INFO, b"").unwrap();
    shim.unsay("fail-thread");
    host.login();
}

#[test]
fn abort_is_heard_within_a_second_of_a_slow_walk() {
    let s = Scratch::new();
    let (shim, from, tape, log) = (Shim::new(&s), s.folder("from"), s.path("tape"), s.path("log"));
    for i in 0..600 {
        fs::write(from.join(format!("{i:04}")), b"").unwrap();
    }
    let host = start(&shim, &tape, &log, &["--new-cartridge", "4M", "--stream", text_of(&from)]);
    let mut c = host.login();
    // Two calls a file: some six seconds in all.
    shim.say("slow-openat", 5_000);
    c.begin(Mover::TO_TAPE, 32_768, 1 << 30).unwrap();
    std::thread::sleep(Duration::from_millis(300));
    let begun = Instant::now();
    c.good(DATA_ABORT, b"").unwrap();
    let took = begun.elapsed();
    assert_eq!(c.run(0, |_| ()).unwrap().why, Why::Halted(Data::ABORTED));
    assert!(took < Duration::from_secs(1), "{took:?}");
    told(&log, &["backup ended (aborted)"]);
}

#[test]
fn unreadable_file_is_left_out_and_named() {
    let s = Scratch::new();
    let (shim, from, to, tape) = (Shim::new(&s), s.folder("from"), s.folder("to"), s.path("tape"));
    for (name, n) in [("a", 1_000), ("b-unreadable", 70_000), ("c", 2_000)] {
        fs::write(from.join(name), noise(n, n as usize)).unwrap();
    }
    shim.say("fail-read", EIO);
    for (strict, why, count) in [(None, DONE, 2), (Some("--strict"), FAILED, 0)] {
        let log = s.path("log");
        let mut options = vec!["--stream", text_of(&from), "--restore-to", text_of(&to)];
        if !tape.exists() {
            options.extend(["--new-cartridge", "1M"]);
        }
        options.extend(strict);
        let host = start(&shim, &tape, &log, &options);
        let mut c = host.login();
        assert_eq!(c.backup(512, 1 << 20).unwrap().why, why);
        told(&log, &["b-unreadable: Input/output error"]);
        if strict.is_none() {
            told(&log, &["backup ended (successful): 2 files, 0 folders, 0 links, 1 left out"]);
            assert_eq!(c.recover(512, 1 << 20).unwrap().why, DONE);
            told(&log, &["left out: b-unreadable: not whole in the archive"]);
            assert_eq!(fs::read(to.join("c")).unwrap(), noise(2_000, 2_000));
        } else {
            // What was read before it is on the tape: the start, a's entry and bytes, and the entry's headers.
            let (records, _) = sound(&fs::read(&tape).unwrap()).unwrap();
            assert_eq!(
                records,
                archive(&from).len() as u64 / 512 - (70_000u64.div_ceil(512) + 2_000u64.div_ceil(512) + 3 + 4)
            );
            assert!(c.recover(512, 1 << 20).unwrap().why == FAILED);
        }
        assert_eq!(fs::read_dir(&to).unwrap().count(), count);
        fs::remove_dir_all(&to).unwrap();
        fs::create_dir(&to).unwrap();
    }
}

#[test]
fn connections_are_kept_alive_and_fragments_acknowledged() {
    use std::io::Write;
    let s = Scratch::new();
    let (shim, tape, log) = (Shim::new(&s), s.path("tape"), s.path("log"));
    let host = start(&shim, &tape, &log, &["--new-cartridge", "1M"]);
    let mut c = host.login();
    let calls = shim.trace();
    for set in ["setsockopt 1 9 1", "setsockopt 6 4 60", "setsockopt 6 5 10", "setsockopt 6 6 6"] {
        assert!(calls.iter().any(|l| l == set), "{set}: {calls:?}");
    }
    let quick = |calls: Vec<String>| calls.iter().filter(|l| *l == "setsockopt 6 12 1").count();
    assert_eq!(quick(calls), 0, "records that come whole");
    c.good(CONFIG_GET_SERVER_INFO, b"").unwrap();
    assert_eq!(quick(shim.trace()), 0);
    // In two pieces: the second is waited for, and the first acknowledged.
    let record = request(c.sequence + 1, CONFIG_GET_SERVER_INFO, b"");
    c.sequence += 1;
    c.socket.write_all(&record[..20]).unwrap();
    std::thread::sleep(Duration::from_millis(200));
    c.socket.write_all(&record[20..]).unwrap();
    c.reply(CONFIG_GET_SERVER_INFO).unwrap();
    assert_eq!(quick(shim.trace()), 1);
}

/// The records of a tape, by requests.
fn read_all(c: &mut Client) -> Vec<Vec<u8>> {
    c.good(TAPE_MTIO, &words(&[codes::REWIND_TAPE, 1])).unwrap();
    let mut all = Vec::new();
    while let Ok((0, body)) = c.ask(TAPE_READ, &words(&[32_768])) {
        all.push(body[8..8 + word(&body, 4) as usize].to_vec());
    }
    all
}

#[test]
fn disk_that_fails_is_answered_and_reads_go_on() {
    use std::io::Write;
    let s = Scratch::new();
    let (shim, tape, log) = (Shim::new(&s), s.path("tape"), s.path("log"));
    let mut host = start(&shim, &tape, &log, &["--new-cartridge", "1M"]);
    let mut c = host.login();
    c.tape_open(TO_WRITE).unwrap();
    let mut good: Vec<Vec<u8>> = Vec::new();
    let write = |c: &mut Client, good: &mut Vec<Vec<u8>>| {
        good.push(noise(good.len() as u64 + 1, 600));
        c.good(TAPE_WRITE, &text(good.last().unwrap())).unwrap();
    };
    for (fault, errno, why) in
        [("fail-pwrite", ENOSPC, "No space left on device"), ("fail-fdatasync", EIO, "Input/output error")]
    {
        write(&mut c, &mut good);
        write(&mut c, &mut good);
        shim.say(fault, errno);
        // Writes and marks are answered as those of a medium that failed; again and again; reads go on.
        for _ in 0..2 {
            c.expect(TAPE_WRITE, &text([9; 600]), codes::IO_ERROR).unwrap();
            c.expect(TAPE_MTIO, &words(&[codes::WRITE_MARKS, 2]), codes::IO_ERROR).unwrap();
            assert_eq!(read_all(&mut c), good);
        }
        told(&log, &[&format!("session 1: the cartridge file could not be written: {why}")]);
        // Several that come together, each has its answer.
        let first = c.sequence + 1;
        let all: Vec<u8> = (0..5).flat_map(|i| request(first + i, TAPE_WRITE, &text([9; 600]))).collect();
        c.socket.write_all(&all).unwrap();
        for i in 0..5 {
            c.sequence = first + i;
            assert_eq!(c.reply(TAPE_WRITE).unwrap().first(), codes::IO_ERROR);
        }
        // Another session has the tape, and reads what is there.
        c.tape_close().unwrap();
        let mut other = host.login();
        other.tape_open(TO_READ).unwrap();
        assert_eq!(read_all(&mut other), good);
        other.tape_close().unwrap();
        c.tape_open(TO_WRITE).unwrap();
        assert_eq!(read_all(&mut c), good);
        shim.unsay(fault);
        write(&mut c, &mut good);
        assert_eq!(read_all(&mut c), good);
    }
    // A host that is killed while the disk fails has lost nothing.
    shim.say("fail-pwrite", ENOSPC);
    c.expect(TAPE_WRITE, &text([9; 600]), codes::IO_ERROR).unwrap();
    host.child.kill().unwrap();
    host.child.wait().unwrap();
    shim.unsay("fail-pwrite");
    let host = start(&shim, &tape, &log, &[]);
    let mut c = host.login();
    c.tape_open(TO_READ).unwrap();
    assert_eq!(read_all(&mut c), good);
}

#[test]
fn disk_that_fails_during_a_backup_halts_it() {
    let s = Scratch::new();
    let (shim, tape, from, log) = (Shim::new(&s), s.path("tape"), s.path("from"), s.path("log"));
    fs::write(&from, noise(1, 20 << 20)).unwrap();
    let host = start(&shim, &tape, &log, &["--new-cartridge", "32M", "--stream", text_of(&from)]);
    let mut c = host.login();
    c.tape_open(TO_WRITE).unwrap();
    c.good(TAPE_WRITE, &text([7; 600])).unwrap();
    for (fault, window) in [("fail-pwrite", 1 << 30), ("fail-fdatasync", 65_536)] {
        c.join(Mover::TO_TAPE, 32_768, window).unwrap();
        shim.say(fault, ENOSPC);
        c.start_backup().unwrap();
        let m = c.notice().unwrap();
        assert_eq!((m.header.message, m.first()), (NOTIFY_DATA_HALTED, Data::CONNECT_ERROR));
        assert_eq!(c.noticed(NOTIFY_MOVER_HALTED).unwrap(), Mover::MEDIA_ERROR);
        told(&log, &["the cartridge file could not be written: No space left on device"]);
        // No byte of it is told as moved, and the tape is as it was.
        assert_eq!(c.moved().unwrap(), 0);
        c.stop().unwrap();
        assert_eq!(read_all(&mut c), [vec![7; 600]]);
        shim.unsay(fault);
    }
    assert_eq!(sound(&fs::read(&tape).unwrap()).map(|(n, _)| n), Ok(1));
    // When there is room again, it goes on.
    c.join(Mover::TO_TAPE, 32_768, 1 << 30).unwrap();
    c.start_backup().unwrap();
    assert_eq!(c.run(0, |_| ()).unwrap().why, DONE);
}

/// Joins the data end of one session and the mover of another by TCP, and starts a backup.
fn begin_far(data: &mut Client, mover: &mut Client, window: u64) {
    use common::far::{End, join, prepare};
    prepare(mover, Mover::TO_TAPE, 32_768, window);
    join(data, mover, Mover::TO_TAPE, End::Mover(0));
    data.start_backup().unwrap();
}

/// The same of a peer's stream; and when the other vault tells its success, all is on this one's disk.
#[test]
fn nothing_of_a_peer_is_told_before_it_is_on_the_disk() {
    let s = Scratch::new();
    let (shim, tape, from, log) = (Shim::new(&s), s.path("tape"), s.path("from"), s.path("log"));
    fs::write(&from, noise(1, 9 << 20)).unwrap();
    let whole = archive(&from);
    let vault = start(&shim, &tape, &log, &["--new-cartridge", "16M"]);
    let office = Host::start(&s.path("own"), &["--new-cartridge", "1M", "--stream", text_of(&from)]);
    let (mut data, mut mover) = (office.login(), vault.login());
    begin_far(&mut data, &mut mover, 32_768 * 100);
    for round in 1..=2 {
        assert_eq!(mover.noticed(NOTIFY_MOVER_PAUSED).unwrap(), Mover::END_OF_WINDOW);
        let moved = mover.moved().unwrap();
        assert_eq!((moved, sound(&fs::read(&tape).unwrap())), (32_768 * 100 * round, Ok((100 * round, moved))));
        if round == 2 {
            shim.say("slow-fdatasync", 500_000);
        }
        mover.window(moved, 32_768 * 100).unwrap();
        mover.good(MOVER_CONTINUE, b"").unwrap();
    }
    assert_eq!(data.noticed(NOTIFY_DATA_HALTED).unwrap(), Data::SUCCESSFUL);
    let on_tape = list(&fs::read(&tape).unwrap()).unwrap().concat();
    assert!(on_tape.starts_with(&whole), "{} of {} bytes", on_tape.len(), whole.len());
    shim.unsay("slow-fdatasync");
    assert_eq!(mover.noticed(NOTIFY_MOVER_HALTED).unwrap(), Mover::CONNECT_CLOSED);
    let (puts, syncs, sends) = judged(&shim.trace(), &tape);
    assert!(puts >= 9 && syncs >= 6 && sends > 10, "{puts} {syncs} {sends}");
}

/// A vault whose disk fails tells its own client, and its peer does not tell a success.
#[test]
fn disk_that_fails_during_a_copy_halts_both_ends() {
    let s = Scratch::new();
    let (shim, tape, from, log) = (Shim::new(&s), s.path("tape"), s.path("from"), s.path("log"));
    fs::write(&from, noise(1, 1 << 20)).unwrap();
    let vault = start(&shim, &tape, &log, &["--new-cartridge", "16M"]);
    let office = Host::start(&s.path("own"), &["--new-cartridge", "1M", "--stream", text_of(&from)]);
    let (mut data, mut mover) = (office.login(), vault.login());
    // All of it comes before the first store, and the second window is not reached.
    for (fault, window) in [("fail-pwrite", Mover::ENDLESS), ("fail-fdatasync", 65_536)] {
        shim.say(fault, ENOSPC);
        begin_far(&mut data, &mut mover, window);
        assert_eq!(mover.noticed(NOTIFY_MOVER_HALTED).unwrap(), Mover::MEDIA_ERROR);
        assert_eq!(data.noticed(NOTIFY_DATA_HALTED).unwrap(), Data::CONNECT_ERROR);
        assert_eq!((mover.moved().unwrap(), sound(&fs::read(&tape).unwrap())), (0, Ok((0, 0))));
        shim.unsay(fault);
        common::far::stop(&mut data, &mut mover);
    }
    begin_far(&mut data, &mut mover, Mover::ENDLESS);
    assert_eq!(data.noticed(NOTIFY_DATA_HALTED).unwrap(), Data::SUCCESSFUL);
}

/// A disk that fails while the other end of the session waits for its peer: it goes on waiting, and its peer is taken.
#[test]
fn disk_that_fails_leaves_the_port_of_the_other_end() {
    let s = Scratch::new();
    let (shim, tape, log) = (Shim::new(&s), s.path("tape"), s.path("log"));
    let host = start(&shim, &tape, &log, &["--new-cartridge", "1M"]);
    let mut c = host.login();
    prepare(&mut c, Mover::TO_TAPE, 4_096, Mover::ENDLESS);
    let mut sender = TcpStream::connect(listen(&mut c, End::Mover(0))[0]).unwrap();
    becomes(&mut c, End::Mover(0), Mover::ACTIVE);
    let at = listen(&mut c, End::Data);
    shim.say("fail-pwrite", ENOSPC);
    sender.write_all(&noise(1, 100_000)).unwrap();
    // It is on the tape then, in memory.
    std::thread::sleep(Duration::from_millis(300));
    let _peer = TcpStream::connect(at[0]).unwrap();
    becomes(&mut c, End::Data, Data::CONNECTED);
    assert_eq!(c.noticed(NOTIFY_MOVER_HALTED).unwrap(), Mover::MEDIA_ERROR);
}

/// As a drive's buffer: at marks, rewind, close and end.
#[test]
fn sync_at_marks_only_where_that_is_asked_for() {
    let s = Scratch::new();
    let (shim, tape, log) = (Shim::new(&s), s.path("tape"), s.path("log"));
    let mut host = start(&shim, &tape, &log, &["--new-cartridge", "1M", "--sync", "marks"]);
    let on_disk = || sound(&fs::read(&tape).unwrap()).unwrap().0;
    let mut c = host.login();
    c.tape_open(TO_WRITE).unwrap();
    shim.trace();
    let mut n = 0;
    let writes = |c: &mut Client, n: &mut u64| {
        for _ in 0..10 {
            c.good(TAPE_WRITE, &text([1; 500])).unwrap();
            *n += 1;
        }
    };
    for op in [codes::WRITE_MARKS, codes::REWIND_TAPE] {
        writes(&mut c, &mut n);
        assert_eq!(judged(&shim.trace(), &tape), (0, 0, 10));
        c.good(TAPE_MTIO, &words(&[op, 1])).unwrap();
        assert!(judged(&shim.trace(), &tape).1 >= 2);
        n += (op == codes::WRITE_MARKS) as u64;
        assert_eq!(on_disk(), n);
    }
    n = 0;
    writes(&mut c, &mut n);
    c.tape_close().unwrap();
    assert_eq!((judged(&shim.trace(), &tape).2, on_disk()), (11, n));
    // The connection's end, and the vault's.
    n = 0;
    c.tape_open(TO_WRITE).unwrap();
    (0..2).for_each(|_| writes(&mut c, &mut n));
    drop(c);
    let mut c = host.login();
    tape_open_soon(&mut c, TO_WRITE);
    assert_eq!((on_disk(), n), (20, 20));
    n = 0;
    (0..3).for_each(|_| writes(&mut c, &mut n));
    let id = host.child.id().to_string();
    assert!(std::process::Command::new("kill").args(["-TERM", &id]).status().unwrap().success());
    assert_eq!(host.child.wait().unwrap().code(), Some(0));
    assert_eq!((on_disk(), n), (30, 30));
}
