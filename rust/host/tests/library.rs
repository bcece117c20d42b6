//! The changer: cartridges in their slots, who has them, and a backup that goes over two.
mod common;
use common::changer::{DRIVE, EMPTY, FULL, NO_SUCH_PLACE, PREVENTED, SLOT};
use common::changer::{
    cdb, client, command, full, go, library, listed, logged, new, open, places, refused, start, transport,
};
use common::*;
use std::fs;
use std::io::{Read, Write};
use std::net::TcpStream;
use std::path::Path;
use std::process::Command;
use std::time::{Duration, Instant};
use wire::Header;

const RECORD: u32 = 10_240;
const WINDOW: u64 = 1_024_000;

fn text_of(path: &Path) -> &str {
    path.to_str().unwrap()
}

fn mtio(c: &mut Client, op: u32) {
    assert_eq!(word(&c.good(TAPE_MTIO, &words(&[op, 1])).unwrap(), 4), 0, "residue");
}

/// The record at the start of the tape in the drive.
fn first_record(c: &mut Client) -> Vec<u8> {
    c.tape_open(TO_READ).unwrap();
    let body = c.good(TAPE_READ, &words(&[32_768])).unwrap();
    let record = body[8..8 + word(&body, 4) as usize].to_vec();
    c.tape_close().unwrap();
    record
}

fn write_record(c: &mut Client, bytes: &[u8]) {
    c.tape_open(TO_WRITE).unwrap();
    c.good(TAPE_WRITE, &text(bytes)).unwrap();
    c.tape_close().unwrap();
}

fn tape_open(c: &mut Client, error: u32) {
    c.expect(TAPE_OPEN, &[text("tape0"), words(&[TO_READ])].concat(), error).unwrap();
}

/// The mover has paused at a tape's end: the next cartridge is put in, and the method goes on.
fn next_tape(tape: &mut Client, robot: Option<&mut Client>, mode: u32, (back, next): (u16, u16), off: bool) {
    let moved = tape.moved().unwrap();
    if off {
        mtio(tape, codes::OFF_LINE);
        tape.expect(TAPE_CLOSE, b"", codes::NOT_OPEN).unwrap();
    } else {
        tape.tape_close().unwrap();
    }
    tape.expect(MOVER_CONTINUE, b"", codes::NOT_OPEN).unwrap();
    if let Some(robot) = robot {
        go(robot, DRIVE, back);
        tape_open(tape, codes::NO_TAPE_LOADED);
        go(robot, next, DRIVE);
    } else {
        go(tape, DRIVE, back);
        tape_open(tape, codes::NO_TAPE_LOADED);
        go(tape, next, DRIVE);
    }
    tape.tape_open(mode).unwrap();
    tape.window(moved, WINDOW).unwrap();
    tape.good(MOVER_CONTINUE, b"").unwrap();
}

/// The one cartridge is full, the rest is on the other, and both together are the stream with the last record's fill.
fn judge_two(folder: &Path, whole: &[u8]) {
    let there = |name| list(&fs::read(folder.join(name)).unwrap()).unwrap();
    let (one, two) = (there("one"), there("two"));
    assert_eq!((one.len(), one.len() + two.len()), (25, whole.len().div_ceil(RECORD as usize)));
    let both = [one.concat(), two.concat()].concat();
    assert!(both[..whole.len()] == *whole && both[whole.len()..].iter().all(|b| *b == 0));
}

/// A backup over two cartridges, and the recover over both; by one session, or with the changer in another.
fn over_two(apart: bool, off: bool) {
    let s = Scratch::new();
    let (from, to, log) = (s.folder("from"), s.folder("to"), s.path("log"));
    sample(&from);
    let folder = library(&s, &["one", "two"], "250K");
    let host = logged(&folder, &log, &["--stream", text_of(&from), "--restore-to", text_of(&to)]);
    let mut tape = host.login();
    let mut robot = apart.then(|| host.login());
    open(robot.as_mut().unwrap_or(&mut tape)).unwrap();
    tape_open(&mut tape, codes::NO_TAPE_LOADED);
    go(robot.as_mut().unwrap_or(&mut tape), SLOT, DRIVE);

    tape.begin(Mover::TO_TAPE, RECORD, WINDOW).unwrap();
    let end = ended(0, Why::Paused(Mover::END_OF_MEDIUM));
    assert_eq!(tape.run(WINDOW, |_| ()).unwrap(), end);
    next_tape(&mut tape, robot.as_mut(), TO_WRITE, (SLOT, SLOT + 1), off);
    assert_eq!(tape.run(WINDOW, |_| ()).unwrap(), ended(0, DONE));
    tape.finish().unwrap();
    judge_two(&folder, &archive(&from));

    let other = robot.as_mut().unwrap_or(&mut tape);
    go(other, DRIVE, SLOT + 1);
    go(other, SLOT, DRIVE);
    tape.begin(Mover::FROM_TAPE, RECORD, WINDOW).unwrap();
    assert_eq!(tape.run(WINDOW, |_| ()).unwrap(), end);
    // No file has its name before the last byte was found right.
    let is_left = |name: &Path| name.file_name().unwrap().to_str().unwrap().starts_with(".mossgoblin-");
    assert!(tree(&to).iter().all(|(name, what)| what == b"folder" || is_left(name)));
    next_tape(&mut tape, robot.as_mut(), TO_READ, (SLOT, SLOT + 1), off);
    assert_eq!(tape.run(WINDOW, |_| ()).unwrap(), ended(0, DONE));
    tape.finish().unwrap();
    assert_eq!(tree(&from), tree(&to));
    told(&log, &["one moved from the drive to slot 16", "two moved from slot 17 to the drive"]);
}

#[test]
fn backup_over_two_cartridges_comes_back_byte_for_byte() {
    over_two(false, false);
}

#[test]
fn backup_goes_on_after_the_tape_was_set_off_line() {
    over_two(false, true);
}

/// As most clients do it: one connection for the changer, another for the tape.
#[test]
fn changer_and_tape_may_be_two_sessions() {
    over_two(true, false);
}

/// From another vault by TCP, and back there.
#[test]
fn copy_between_two_vaults_goes_over_two_cartridges() {
    let s = Scratch::new();
    let (from, to, own) = (s.folder("from"), s.folder("to"), s.path("own"));
    sample(&from);
    let folder = library(&s, &["one", "two"], "250K");
    let more = ["--new-cartridge", "1M", "--stream", text_of(&from), "--restore-to", text_of(&to)];
    let (office, vault) = (Host::start(&own, &more), start(&folder, &[]));
    let (mut data, mut mover) = (office.login(), client(&vault));
    for (mode, open) in [(Mover::TO_TAPE, TO_WRITE), (Mover::FROM_TAPE, TO_READ)] {
        go(&mut mover, SLOT, DRIVE);
        far::prepare(&mut mover, mode, RECORD, WINDOW);
        far::join(&mut data, &mut mover, mode, far::End::Data);
        if mode == Mover::TO_TAPE {
            data.start_backup().unwrap();
        } else {
            data.start_recover().unwrap();
            mover.good(MOVER_READ, &quads(&[0, u64::MAX])).unwrap();
        }
        assert_eq!(mover.noticed(NOTIFY_MOVER_PAUSED).unwrap(), Mover::END_OF_MEDIUM);
        next_tape(&mut mover, None, open, (SLOT, SLOT + 1), false);
        assert_eq!(far::run_mover(&mut mover, WINDOW).1, Mover::CONNECT_CLOSED);
        assert_eq!(data.noticed(NOTIFY_DATA_HALTED).unwrap(), Data::SUCCESSFUL);
        far::stop(&mut data, &mut mover);
        go(&mut mover, DRIVE, SLOT + 1);
    }
    judge_two(&folder, &archive(&from));
    assert_eq!(tree(&from), tree(&to));
}

/// A recover at a tape's end waits for the next cartridge; without one it is aborted, and nothing is restored.
#[test]
fn recover_without_the_second_cartridge_restores_nothing() {
    let s = Scratch::new();
    let (from, to) = (s.folder("from"), s.folder("to"));
    sample(&from);
    let folder = library(&s, &["one", "two"], "250K");
    let host = start(&folder, &["--stream", text_of(&from), "--restore-to", text_of(&to)]);
    let mut c = client(&host);
    go(&mut c, SLOT, DRIVE);
    let end = ended(0, Why::Paused(Mover::END_OF_MEDIUM));
    assert_eq!(c.backup(RECORD, WINDOW).unwrap(), end);
    assert_eq!(c.recover(RECORD, WINDOW).unwrap(), end);
    assert_eq!(soon(|| fs::read_dir(&to).unwrap().next().is_none().then_some(())), Some(()));
    // A blank one, which is not of this backup, does not end it either; the bytes of another are told.
    go(&mut c, DRIVE, SLOT);
    go(&mut c, SLOT + 1, DRIVE);
    assert_eq!(c.recover(RECORD, WINDOW).unwrap(), end);
}

#[test]
fn restart_finds_each_cartridge_where_it_was() {
    let s = Scratch::new();
    let (folder, beside) = (library(&s, &["a", "b", "c"], "100K"), s.path("beside"));
    new(&beside, "100K");
    let more = ["--cartridge", text_of(&beside)];
    let host = start(&folder, &more);
    let mut c = client(&host);
    assert_eq!(full(&mut c).unwrap(), [1, 16, 17, 18]);
    let whole = beside.canonicalize().unwrap();
    let first = places(&[("drive", text_of(&whole)), ("16", "a"), ("17", "b"), ("18", "c")]);
    assert_eq!(listed(&folder), first);
    write_record(&mut c, b"beside");
    go(&mut c, DRIVE, 23);
    go(&mut c, 17, DRIVE);
    write_record(&mut c, b"b");
    go(&mut c, 16, 20);
    let then = places(&[("drive", "b"), ("18", "c"), ("20", "a"), ("23", text_of(&whole))]);
    assert_eq!(listed(&folder), then);
    drop(c);
    // Killed, and ended in order.
    let mut host = host;
    for end in ["-KILL", "-TERM"] {
        signal(&host, end);
        assert!(soon(|| host.child.try_wait().unwrap()).is_some());
        host = start(&folder, &more);
        let mut d = client(&host);
        assert_eq!((full(&mut d).unwrap(), listed(&folder)), (vec![1, 18, 20, 23], then.clone()));
        assert_eq!(first_record(&mut d), b"b");
        go(&mut d, DRIVE, 16);
        go(&mut d, 23, DRIVE);
        assert_eq!(first_record(&mut d), b"beside");
        go(&mut d, DRIVE, 23);
        go(&mut d, 16, DRIVE);
    }
}

/// The next session of the same vault finds them too; those of SCSI open, close and reset leave them.
#[test]
fn next_session_finds_the_places() {
    let s = Scratch::new();
    let folder = library(&s, &["a", "b"], "100K");
    let host = start(&folder, &[]);
    let (mut robot, mut tape) = (host.login(), host.login());
    let mut c = client(&host);
    go(&mut c, 16, DRIVE);
    c.good(SCSI_RESET_DEVICE, b"").unwrap();
    c.good(SCSI_CLOSE, b"").unwrap();
    open(&mut c).unwrap();
    assert_eq!(full(&mut c).unwrap(), [1, 17]);
    drop(c);
    // Also those that were connected before the move, at their first look.
    soon(|| open(&mut robot).ok()).unwrap();
    assert_eq!(full(&mut robot).unwrap(), [1, 17]);
    tape.tape_open(TO_READ).unwrap();
    tape.tape_close().unwrap();
}

/// Without a library the one cartridge is in the drive at every start; it may be taken out, and stays out while the
/// vault runs.
#[test]
fn single_cartridge_may_be_taken_out_until_the_next_start() {
    let s = Scratch::new();
    let tape = s.path("tape");
    let host = Host::start(&tape, &["--new-cartridge", "100K"]);
    let mut c = client(&host);
    assert_eq!(full(&mut c).unwrap(), [1]);
    write_record(&mut c, b"one");
    go(&mut c, DRIVE, 20);
    tape_open(&mut c, codes::NO_TAPE_LOADED);
    drop(c);
    let mut d = client(&host);
    tape_open(&mut d, codes::NO_TAPE_LOADED);
    assert_eq!(full(&mut d).unwrap(), [20]);
    go(&mut d, 20, DRIVE);
    assert_eq!(first_record(&mut d), b"one");
    go(&mut d, DRIVE, 16);
    drop((d, host));
    let again = Host::start(&tape, &[]);
    let mut e = client(&again);
    assert_eq!((full(&mut e).unwrap(), first_record(&mut e)), (vec![1], b"one".to_vec()));
    assert_eq!(fs::read_dir(&s.0).unwrap().count(), 1, "no list is kept");
}

#[test]
fn moves_that_cannot_be_are_refused_in_their_order() {
    let s = Scratch::new();
    let (folder, log) = (library(&s, &["a", "b"], "100K"), s.path("log"));
    let host = logged(&folder, &log, &[]);
    let mut c = client(&host);
    let before = listed(&folder);
    for (from, to, why) in [
        (0, 16, NO_SUCH_PLACE),
        (16, 24, NO_SUCH_PLACE),
        (2, 17, NO_SUCH_PLACE),
        (16, 17, FULL),
        (18, 17, FULL),
        (18, 19, EMPTY),
        (1, 18, EMPTY),
        (16, 16, FULL),
        (19, 19, EMPTY),
    ] {
        assert_eq!(transport(&mut c, from, to).unwrap(), Err(why), "{from} {to}");
    }
    assert_eq!(cdb(&mut c, &[0xa5, 0, 0, 0, 0, 16, 0, 1], 0).unwrap().0, 2);
    // What is no request is ignored, and not told as one that was refused.
    let reply = Header { sequence: 9, kind: 1, message: SCSI_EXECUTE_CDB, ..Header::default() };
    let move_medium = [0xa5, 0, 0, 0, 0, 16, 0, 1, 0, 0, 0, 0];
    c.socket.write_all(&reply.record(&changer::execute(&move_medium, 0))).unwrap();
    assert_eq!((listed(&folder), full(&mut c).unwrap()), (before, vec![16, 17]));
    assert_eq!(fs::read_to_string(&log).unwrap().matches("move refused").count(), 10);
    told(
        &log,
        &[
            "move refused: no such place (05h/21h/01h)",
            "move refused: the destination is full (05h/3Bh/0Dh)",
            "move refused: the source is empty (05h/3Bh/0Eh)",
            "move refused: not a command of twelve bytes (05h/24h/00h)",
        ],
    );
}

/// While the tape is open, here or in another session, the drive keeps its cartridge; slots may change.
#[test]
fn drive_keeps_its_cartridge_while_the_tape_is_open() {
    let s = Scratch::new();
    let (folder, log) = (library(&s, &["a", "b"], "100K"), s.path("log"));
    let host = logged(&folder, &log, &[]);
    let (mut robot, mut tape) = (client(&host), host.login());
    go(&mut robot, 16, DRIVE);
    // Here.
    robot.tape_open(TO_READ).unwrap();
    assert_eq!(transport(&mut robot, DRIVE, 18).unwrap(), Err(PREVENTED));
    assert_eq!(transport(&mut robot, DRIVE, 17).unwrap(), Err(FULL));
    go(&mut robot, 17, 19);
    robot.tape_close().unwrap();
    // There.
    tape.tape_open(TO_WRITE).unwrap();
    tape.good(TAPE_WRITE, &text(b"first")).unwrap();
    assert_eq!(transport(&mut robot, DRIVE, 18).unwrap(), Err(PREVENTED));
    assert_eq!(transport(&mut robot, 19, DRIVE).unwrap(), Err(FULL));
    go(&mut robot, 19, 17);
    assert_eq!(full(&mut robot).unwrap(), [1, 17]);
    // That session's tape is not this one's.
    robot.expect(TAPE_CLOSE, b"", codes::NOT_OPEN).unwrap();
    tape_open(&mut robot, codes::BAD_FILE);
    tape.good(TAPE_WRITE, &text(b"second")).unwrap();
    drop(tape);
    assert_eq!(soon(|| transport(&mut robot, DRIVE, 18).unwrap().ok()), Some(()));
    assert_eq!(list(&fs::read(folder.join("a")).unwrap()).unwrap(), [b"first".to_vec(), b"second".to_vec()]);
    told(&log, &["move refused: the tape is open (05h/53h/02h)", "a moved from the drive to slot 18"]);
}

/// Moves by turns in one session while two others write: what was answered is on one of the cartridges, once.
#[test]
fn tape_and_changer_at_once_lose_nothing() {
    let s = Scratch::new();
    let names = ["a", "b", "c"];
    let folder = library(&s, &names, "1M");
    let host = start(&folder, &[]);
    let until = Instant::now() + Duration::from_secs(2);
    let robot = || {
        let (mut c, chance, mut moves) = (client(&host), noise(7, 1 << 16), 0);
        let places = [DRIVE, 16, 17, 18];
        for pair in chance.chunks(2).take_while(|_| Instant::now() < until) {
            let [from, to] = [pair[0], pair[1]].map(|x| places[x as usize % places.len()]);
            moves += transport(&mut c, from, to).unwrap().is_ok() as u32;
        }
        moves
    };
    let writer = |who: u32| {
        let (mut c, mut told) = (host.login(), Vec::new());
        let open = [text("tape0"), words(&[TO_WRITE])].concat();
        while Instant::now() < until {
            match c.ask(TAPE_OPEN, &open).unwrap().0 {
                0 => {}
                codes::NO_TAPE_LOADED | codes::BAD_FILE => continue,
                error => panic!("tape open is answered with {error}"),
            }
            let record = format!("{who} {}", told.len()).into_bytes();
            c.expect(TAPE_MTIO, &words(&[codes::FORWARD_RECORDS, 4_096]), codes::AT_END).unwrap();
            c.good(TAPE_WRITE, &text(&record)).unwrap();
            c.tape_close().unwrap();
            told.push(record);
        }
        told
    };
    let (moves, mut told) = std::thread::scope(|t| {
        let (r, a, b) = (t.spawn(robot), t.spawn(|| writer(1)), t.spawn(|| writer(2)));
        (r.join().unwrap(), [a.join().unwrap(), b.join().unwrap()].concat())
    });
    let there = |name| list(&fs::read(folder.join(name)).unwrap()).unwrap();
    let mut all: Vec<Vec<u8>> = names.iter().flat_map(there).collect();
    println!("{moves} moves, {} records", told.len());
    assert!(moves > 10 && told.len() > 10, "{moves} {}", told.len());
    told.sort();
    all.sort();
    assert_eq!(all, told);
}

#[test]
fn one_session_has_the_changer() {
    let s = Scratch::new();
    let folder = library(&s, &["a"], "100K");
    let host = start(&folder, &[]);
    let (mut a, mut b) = (client(&host), host.login());
    let open_as = |c: &mut Client, name: &str, error| {
        c.expect(SCSI_OPEN, &text(name), error).unwrap();
    };
    let begun = Instant::now();
    open_as(&mut b, "changer0", codes::DEVICE_OPENED);
    assert!(begun.elapsed() < Duration::from_secs(5));
    open_as(&mut b, "changer1", codes::NO_DEVICE);
    open_as(&mut a, "changer0", codes::DEVICE_OPENED);
    // It was not opened there.
    b.expect(SCSI_EXECUTE_CDB, &changer::execute(&[0; 6], 0), codes::NOT_OPEN).unwrap();
    b.expect(SCSI_CLOSE, b"", codes::NOT_OPEN).unwrap();
    go(&mut a, 16, DRIVE);
    // The tape is free for the other.
    b.tape_open(TO_READ).unwrap();
    b.tape_close().unwrap();
    a.good(SCSI_CLOSE, b"").unwrap();
    open(&mut b).unwrap();
    assert_eq!(full(&mut b).unwrap(), [1]);
    open_as(&mut a, "changer0", codes::DEVICE_OPENED);
    // An end without close hands it back; strangers never have it.
    drop(b);
    soon(|| open(&mut a).ok()).expect("the changer is not free");
    let mut stranger = host.client();
    stranger.open().unwrap();
    let at_once = |_| {
        let begun = Instant::now();
        stranger.expect(SCSI_OPEN, &text("changer0"), codes::NOT_AUTHORIZED).unwrap();
        begun.elapsed() < Duration::from_millis(700)
    };
    assert!((0..5).any(at_once), "they do not wait for it either");
    a.good(SCSI_CLOSE, b"").unwrap();
    open(&mut a).unwrap();
}

/// One that has the changer and says nothing may wait for a backup in another session: it is let go later than one
/// that has the tape.
#[test]
fn silent_holder_of_the_changer_is_let_go() {
    let s = Scratch::new();
    let (folder, log) = (library(&s, &["a"], "100K"), s.path("log"));
    let host = logged(&folder, &log, &["--hold", "1", "--idle", "3"]);
    let mut silent = client(&host);
    let begun = Instant::now();
    closed(&mut silent);
    assert!(begun.elapsed() > Duration::from_secs(2));
    told(&log, &["ended: said nothing for 3 seconds"]);
    client(&host);
}

#[test]
fn wrong_libraries_are_told_at_the_start() {
    let s = Scratch::new();
    let folder = library(&s, &["a", "b"], "100K");
    let (list, odd) = (folder.join(".slots"), folder.join("odd"));
    refused(&mut command(&s.path("none"), &[]), "no such folder; make it first");
    refused(&mut command(&folder.join("a"), &[]), "not a folder");
    refused(&mut command(&folder, &["--cartridge", text_of(&s.path("none"))]), "no such file; --new-cartridge");
    // What is no cartridge.
    let (terminal, lines) = (folder.join("\x1b[2J"), s.path("two\nlines"));
    fs::write(&terminal, b"x").unwrap();
    refused(&mut command(&folder, &[]), "library/\\u{1b}[2J: not a sound cartridge image");
    fs::remove_file(&terminal).unwrap();
    refused(&mut command(&folder, &["--cartridge", text_of(&lines)]), "two\\nlines: no such file");
    fs::write(&odd, b"x").unwrap();
    refused(&mut command(&folder, &[]), "not a sound cartridge image: 1 bytes; every file of a library is a cartridge");
    fs::remove_file(&odd).unwrap();
    std::os::unix::fs::symlink("a", &odd).unwrap();
    refused(&mut command(&folder, &[]), "odd: neither a file nor a folder");
    fs::remove_file(&odd).unwrap();
    fs::hard_link(folder.join("a"), &odd).unwrap();
    refused(&mut command(&folder, &[]), "odd: the same file as a");
    fs::remove_file(&odd).unwrap();
    assert!(!list.exists(), "a start that failed leaves nothing");
    // Lists.
    drop(start(&folder, &[]));
    let good = fs::read_to_string(&list).unwrap();
    for (bad, why) in [
        (String::new(), "line 1: not a list of slots; mend it, or remove it"),
        (good.replace("17 b", "17 a"), "line 4: a cartridge that stands in another line too"),
        (good[..good.len() - 3].into(), "9 lines where 10 are due"),
        (good.replace("16", "61"), "line 3: expected 16"),
    ] {
        fs::write(&list, &bad).unwrap();
        refused(&mut command(&folder, &[]), why);
        let made = s.path("made");
        refused(&mut command(&folder, &["--cartridge", text_of(&made), "--new-cartridge", "10K"]), why);
        assert!(!made.exists() && fs::read_to_string(&list).unwrap() == bad, "all is left as it is");
    }
    // A name of the list is no path: this one is not opened, and is none of the folder's.
    fs::write(&list, good.replace("18", "18 ../b")).unwrap();
    let log = s.path("log");
    let host = logged(&folder, &log, &[]);
    told(&log, &["../b was in slot 18 and is gone; the place is empty"]);
    assert_eq!(fs::read_to_string(&list).unwrap(), good);
    drop(host);
    // Where a recover could write over the list.
    fs::create_dir(folder.join("inner")).unwrap();
    for to in [s.0.clone(), folder.clone(), folder.join("inner"), folder.join("new")] {
        refused(&mut command(&folder, &["--restore-to", text_of(&to)]), "choose a folder apart from it");
    }
    drop(start(&folder, &["--restore-to", text_of(&s.path("file"))]));
    // Two vaults.
    let host = start(&folder, &[]);
    refused(&mut command(&folder, &[]), "in use by another program; end that vault or rmt first");
    let other = s.folder("other");
    fs::hard_link(folder.join("a"), other.join("x")).unwrap();
    refused(&mut command(&other, &[]), "in use by another program; end that vault or rmt first");
    refused(&mut command(&other, &["--cartridge", text_of(&folder.join("b"))]), "in use by another program");
    drop(host);
    // Also of a folder that has no cartridge to be locked.
    let (empty, tapes) = (s.folder("empty"), [s.path("one"), s.path("two")]);
    let host = start(&empty, &["--cartridge", text_of(&tapes[0]), "--new-cartridge", "10K"]);
    new(&tapes[1], "10K");
    refused(&mut command(&empty, &["--cartridge", text_of(&tapes[1])]), "empty: in use by another program");
    drop(host);
    (0..7).for_each(|i| new(&folder.join(format!("n{i}")), "10K"));
    refused(&mut command(&folder, &[]), "n6: the ninth file, and there are eight slots; take one out of the folder");
}

/// What a kill leaves of a cartridge that was being made is none of the library's.
#[test]
fn half_made_cartridge_is_none_of_the_library() {
    let s = Scratch::new();
    let (shim, folder) = (Shim::new(&s), library(&s, &["a"], "10K"));
    // It is whole then, and does not have its name yet.
    shim.say("slow-link", 60_000_000);
    let mut child = shim.before(program().args(["new", text_of(&folder.join("b")), "10K"])).spawn().unwrap();
    let there = || fs::read_dir(&folder).unwrap().map(|e| e.unwrap().file_name()).collect::<Vec<_>>();
    soon(|| (there().len() == 2).then_some(())).expect("nothing is made");
    child.kill().unwrap();
    child.wait().unwrap();
    assert!(there().len() == 2 && !folder.join("b").exists(), "{:?}", there());
    let host = start(&folder, &[]);
    assert_eq!((full(&mut client(&host)).unwrap(), listed(&folder)), (vec![16], places(&[("16", "a")])));
}

/// The list's own names, by whatever way: what is there would be removed at a start, or taken for the list.
#[test]
fn cartridge_is_no_file_of_the_list() {
    let s = Scratch::new();
    let folder = library(&s, &["a"], "10K");
    let (list, left, why) = (folder.join(".slots"), folder.join(".slots.new"), "a name of the library's own list");
    let (link, chain, again) = (s.path("link"), s.path("chain"), s.path("again"));
    std::os::unix::fs::symlink(&left, &link).unwrap();
    std::os::unix::fs::symlink("link", &chain).unwrap();
    std::os::unix::fs::symlink(&folder, &again).unwrap();
    let around = folder.join("../library/.slots.new");
    // To be made.
    for path in [&list, &left, &link, &chain, &around, &again.join(".slots")] {
        refused(&mut command(&folder, &["--cartridge", text_of(path), "--new-cartridge", "10K"]), why);
        assert_eq!(fs::read_dir(&folder).unwrap().count(), 1, "nothing was made");
    }
    let mut near = command(Path::new("."), &["--cartridge", ".slots.new", "--new-cartridge", "10K"]);
    refused(near.current_dir(&folder), why);
    // There already: a cartridge, and a link to one that lies elsewhere.
    new(&left, "10K");
    let before = fs::read(&left).unwrap();
    for path in [&left, &link, &chain, &around] {
        refused(&mut command(&folder, &["--cartridge", text_of(path)]), why);
        refused(program().args(["library", text_of(&folder), "--cartridge", text_of(path)]), why);
    }
    assert!(fs::read(&left).unwrap() == before && !list.exists());
    let elsewhere = s.path("elsewhere");
    fs::rename(&left, &elsewhere).unwrap();
    std::os::unix::fs::symlink(&elsewhere, &left).unwrap();
    for path in [&left, &chain] {
        refused(&mut command(&folder, &["--cartridge", text_of(path)]), why);
    }
    assert!(left.is_symlink() && !list.exists());
    // In another folder they are names like others.
    let other = s.folder("other").join(".slots.new");
    new(&other, "10K");
    let host = start(&folder, &["--cartridge", text_of(&other)]);
    assert_eq!(full(&mut client(&host)).unwrap(), [1, 16]);
}

#[test]
fn files_that_are_new_or_gone_at_a_start() {
    let s = Scratch::new();
    let (folder, log) = (library(&s, &["a", "b", "c"], "100K"), s.path("log"));
    let host = start(&folder, &[]);
    let mut c = client(&host);
    go(&mut c, 16, DRIVE);
    go(&mut c, 17, 23);
    drop((c, host));
    fs::rename(folder.join("b"), s.path("b")).unwrap();
    new(&folder.join("0"), "100K");
    let beside = s.path("b");
    let more = ["--cartridge", text_of(&beside)];
    let cannot = "b cannot be in the drive, as a is there; start without --cartridge and move that to a slot first";
    refused(&mut command(&folder, &more), cannot);
    let host = logged(&folder, &log, &["--quiet"]);
    assert_eq!(listed(&folder), places(&[("drive", "a"), ("16", "0"), ("18", "c")]));
    told(&log, &["b was in slot 23 and is gone; the place is empty", "0 is new, and in slot 16"]);
    go(&mut client(&host), DRIVE, 17);
    drop(host);
    // The one beside the folder is in the drive, which is empty now; then one of the folder that is named so is where
    // it was.
    drop(start(&folder, &more));
    let whole = s.path("b").canonicalize().unwrap();
    assert_eq!(listed(&folder), places(&[("drive", text_of(&whole)), ("16", "0"), ("17", "a"), ("18", "c")]));
    drop(start(&folder, &["--cartridge", text_of(&folder.join("c"))]));
    assert_eq!(listed(&folder), places(&[("16", "0"), ("17", "a"), ("18", "c")]));
}

#[test]
fn cartridge_may_be_one_of_the_folder() {
    let s = Scratch::new();
    let folder = library(&s, &["a", "b"], "100K");
    let link = s.path("link");
    std::os::unix::fs::symlink(folder.join("b"), &link).unwrap();
    let host = start(&folder, &["--cartridge", text_of(&link)]);
    assert_eq!(
        (full(&mut client(&host)).unwrap(), listed(&folder)),
        (vec![1, 16], places(&[("drive", "b"), ("16", "a")]))
    );
}

#[test]
fn full_library_says_that_nothing_moves() {
    let s = Scratch::new();
    let (folder, log, beside) =
        (library(&s, &["a", "b", "c", "d", "e", "f", "g", "h"], "10K"), s.path("log"), s.path("beside"));
    new(&beside, "10K");
    let host = logged(&folder, &log, &["--cartridge", text_of(&beside), "--quiet"]);
    let mut c = client(&host);
    assert_eq!(full(&mut c).unwrap().len(), 9);
    assert_eq!(transport(&mut c, DRIVE, 16).unwrap(), Err(FULL));
    told(&log, &["all nine places are full, and no cartridge can be moved"]);
}

#[test]
fn library_is_listed() {
    let s = Scratch::new();
    let (folder, beside) = (library(&s, &["a", "b"], "100K"), s.path("beside"));
    let run = |more: &[&str]| {
        let done = finished(program().args(["library", text_of(&folder)]).args(more));
        let lines: Vec<String> = String::from_utf8(done.stdout).unwrap().lines().map(String::from).collect();
        (done.status.code().unwrap(), lines, String::from_utf8(done.stderr).unwrap())
    };
    let empty = |i: usize| format!("{}: empty", 15 + i);
    // Before the first start: as it will be.
    let blank = "0 records, 0 marks, 0 of 102,400 bytes, 0 of 4096 entries";
    let (code, lines, _) = run(&[]);
    assert_eq!((code, lines.len(), &lines[0][..]), (0, 9, "drive: empty"));
    assert_eq!(lines[1..3], [format!("16: a: {blank}"), format!("17: b: {blank}")]);
    assert!(lines[3..].iter().enumerate().all(|(i, l)| *l == empty(i + 3)) && !folder.join(".slots").exists());

    new(&beside, "100K");
    let more = ["--cartridge", text_of(&beside)];
    let host = start(&folder, &more);
    let mut c = client(&host);
    write_record(&mut c, b"12345");
    go(&mut c, DRIVE, 20);
    go(&mut c, 17, DRIVE);
    let (code, lines, why) = run(&more);
    assert_eq!((code, lines.len()), (1, 9));
    assert!(
        lines[0] == "drive: b: in use by another program; end that vault or rmt first" && why.contains("3 of 3"),
        "{why}"
    );
    drop((c, host));
    let (code, lines, _) = run(&more);
    let whole = beside.canonicalize().unwrap();
    let one = "1 record, 0 marks, 5 of 102,400 bytes, 1 of 4096 entries";
    assert_eq!(
        (code, &lines[0], &lines[5]),
        (0, &format!("drive: b: {blank}"), &format!("20: {}: {one}", whole.display()))
    );
    // The one beside the folder is not looked for where the list says.
    let (code, lines, _) = run(&[]);
    assert_eq!((code, &lines[5]), (0, &format!("20: empty; {} was here, and is not in the folder", whole.display())));
    fs::write(folder.join("b"), b"x").unwrap();
    let (code, lines, why) = run(&more);
    assert!(
        code == 1 && lines[0].starts_with("drive: b: not a sound cartridge image") && why.contains("1 of 3"),
        "{why}"
    );
    fs::write(folder.join(".slots"), b"x").unwrap();
    assert!(run(&[]).2.contains("line 1: not a list of slots; mend it"));
}

/// MTIO 6 rewinds and closes; with `--sync marks` it brings what was written to the disk, as tape close does.
#[test]
fn off_line_closes_and_stores() {
    let s = Scratch::new();
    let tape = s.path("tape");
    let host = Host::start(&tape, &["--new-cartridge", "100K", "--sync", "marks"]);
    let mut c = host.login();
    c.expect(TAPE_MTIO, &words(&[codes::OFF_LINE, 1]), codes::NOT_OPEN).unwrap();
    c.tape_open(TO_WRITE).unwrap();
    c.good(TAPE_WRITE, &text(b"one")).unwrap();
    assert_eq!(list(&fs::read(&tape).unwrap()).unwrap().len(), 0);
    mtio(&mut c, codes::OFF_LINE);
    signal(&host, "-KILL");
    assert_eq!(list(&fs::read(&tape).unwrap()).unwrap(), [b"one".to_vec()]);
    c.receive().unwrap_err();
    drop(host);
    // It is free for others then.
    let host = Host::start(&tape, &[]);
    let (mut a, mut b) = (host.login(), host.login());
    a.tape_open(TO_READ).unwrap();
    mtio(&mut a, codes::OFF_LINE);
    b.tape_open(TO_READ).unwrap();
    b.expect(TAPE_MTIO, &words(&[7, 1]), codes::ILLEGAL_ARGUMENTS).unwrap();
}

/// Neither a backup nor a recover touches any of them.
#[test]
fn no_cartridge_of_a_library_is_backed_up() {
    let s = Scratch::new();
    let (folder, from, to) = (library(&s, &["a", "b"], "100K"), s.folder("from"), s.folder("to"));
    fs::write(from.join("file"), b"file").unwrap();
    fs::hard_link(folder.join("a"), from.join("a")).unwrap();
    fs::hard_link(folder.join("b"), from.join("b")).unwrap();
    let host = start(&folder, &["--stream", text_of(&from), "--restore-to", text_of(&to)]);
    let mut c = client(&host);
    go(&mut c, 16, DRIVE);
    assert_eq!(c.backup(1_024, 102_400).unwrap().why, DONE);
    assert_eq!(c.recover(1_024, 102_400).unwrap().why, DONE);
    assert_eq!(tree(&to), [("file".into(), b"file".to_vec())]);
    // The one on its shelf is no target either.
    refused(
        Command::new(env!("CARGO_BIN_EXE_mossgoblin"))
            .args(["serve", "--account", "vault:noon", "--listen", "127.0.0.1:0", "--library"])
            .arg(s.folder("other"))
            .args(["--cartridge", text_of(&from.join("file")), "--restore-to", text_of(&from.join("file"))]),
        "is the cartridge itself",
    );
}

/// A cartridge whose file was swapped while it lay in its slot: nothing is told of it.
#[test]
fn nothing_is_told_of_a_cartridge_that_was_swapped_in_its_slot() {
    let s = Scratch::new();
    let (folder, log) = (library(&s, &["a", "b"], "100K"), s.path("log"));
    let host = logged(&folder, &log, &[]);
    fs::remove_file(folder.join("a")).unwrap();
    new(&folder.join("a"), "100K");
    let mut c = client(&host);
    go(&mut c, 16, DRIVE);
    c.tape_open(TO_READ).unwrap_err();
    told(&log, &["a was removed; nothing more is told to this client"]);
    // One that is damaged in its slot is no sound one.
    let mut d = client(&host);
    go(&mut d, DRIVE, 16);
    fs::OpenOptions::new().write(true).open(folder.join("b")).unwrap().write_all(&[9; 16]).unwrap();
    go(&mut d, 17, DRIVE);
    tape_open(&mut d, codes::BAD_FILE);
    told(&log, &["b: not a sound cartridge image"]);
    // A folder that has another name: a move would be lost, and is not told.
    fs::rename(&folder, s.path("elsewhere")).unwrap();
    transport(&mut d, DRIVE, 17).unwrap_err();
    told(&log, &["b was not moved: the list of slots could not be written: the folder has no longer its name"]);
}

/// A line of /proc/PID/status, in KiB.
fn memory(host: &Host, what: &str) -> u64 {
    let text = fs::read_to_string(format!("/proc/{}/status", host.child.id())).unwrap();
    let line = text.lines().find(|l| l.starts_with(what)).unwrap();
    line.split_whitespace().nth(1).unwrap().parse().unwrap()
}

#[test]
fn one_image_is_in_memory() {
    let s = Scratch::new();
    let folder = library(&s, &["a", "b", "c", "d", "e", "f"], "16M");
    let host = start(&folder, &[]);
    let mut c = client(&host);
    for slot in 16..22 {
        go(&mut c, slot, DRIVE);
        write_record(&mut c, &noise(slot as u64, 1_000));
        go(&mut c, DRIVE, slot);
    }
    let most = memory(&host, "VmHWM:");
    assert!(most < 60 << 10, "{most} KiB for one cartridge of 16 MiB at a time");
    for slot in 16..22 {
        go(&mut c, slot, DRIVE);
        assert_eq!(first_record(&mut c), noise(slot as u64, 1_000));
        go(&mut c, DRIVE, slot);
    }
}

fn get(address: &str, path: &str) -> String {
    let mut socket = TcpStream::connect(address).unwrap();
    socket.write_all(format!("GET {path} HTTP/1.0\r\n\r\n").as_bytes()).unwrap();
    let mut text = String::new();
    socket.read_to_string(&mut text).unwrap();
    text
}

#[test]
fn page_tells_the_places() {
    let s = Scratch::new();
    let folder = library(&s, &["a", "<b>"], "100K");
    let mut command = command(&folder, &["--quiet", "--status", "127.0.0.1:0"]);
    let mut child = command.stdout(std::process::Stdio::piped()).spawn().unwrap();
    let mut lines = std::io::BufRead::lines(std::io::BufReader::new(child.stdout.take().unwrap()));
    let address = lines.next().unwrap().unwrap().strip_prefix("listening on ").unwrap().to_string();
    let page = lines.next().unwrap().unwrap();
    let page = page.strip_prefix("status on http://").unwrap().trim_end_matches('/');
    let host = Host::of(Running { child, address });
    assert!(get(page, "/").contains("<p>The drive is empty.</p>"));
    let mut c = client(&host);
    go(&mut c, 16, DRIVE);
    let json = get(page, "/status.json");
    assert!(json.contains("\"places\":[\"<b>\",null,\"a\",null,null,null,null,null,null]"), "{json}");
    assert!(json.contains("\"file\":\"<b>\""), "{json}");
    write_record(&mut c, b"12345");
    let (html, json) = (get(page, "/"), get(page, "/status.json"));
    assert!(html.contains("<tr><td>drive</td><td>&lt;b&gt;</td></tr><tr><td>16</td><td>empty</td></tr>"), "{html}");
    assert!(json.contains("\"bytes\":102400,\"used\":5,\"entries\":[5]"), "{json}");
}
