//! The list of slots on the disk: what was told of the places is there, whenever the vault is killed, the power is cut
//! or a call fails.
mod common;
use common::changer::{DRIVE, FULL, client, command, full, go, library, listed, open, start, transport};
use common::*;
use std::collections::BTreeMap;
use std::fs;
use std::io::Write;
use std::path::Path;
use std::process::Command;
use std::time::Duration;

fn text_of(path: &Path) -> &str {
    path.to_str().unwrap()
}

/// A client that moves by turns until the vault is killed. Gives the places that it was told, and those that an
/// unanswered move may have made.
fn moves_until_killed(host: Host, seed: u64) -> [Vec<u16>; 2] {
    let mut c = client(&host);
    let mut now = full(&mut c).unwrap();
    let id = host.child.id().to_string();
    let late = Duration::from_millis(5 + seed * 7 % 60);
    let killer = std::thread::spawn(move || {
        std::thread::sleep(late);
        assert!(Command::new("kill").args(["-KILL", &id]).status().unwrap().success());
    });
    let all: Vec<u16> = [1].into_iter().chain(16..24).collect();
    let chance = noise(seed, 4_096);
    let mut then = now.clone();
    for pair in chance.chunks(2) {
        let from = now[pair[0] as usize % now.len()];
        let empty: Vec<u16> = all.iter().copied().filter(|p| !now.contains(p)).collect();
        let to = empty[pair[1] as usize % empty.len()];
        then = now.iter().copied().filter(|p| *p != from).chain([to]).collect();
        then.sort();
        match transport(&mut c, from, to) {
            Ok(done) => assert_eq!(done, Ok(())),
            Err(_) => break,
        }
        now.clone_from(&then);
    }
    killer.join().unwrap();
    [now, then]
}

#[test]
fn places_that_were_told_outlive_a_kill() {
    let s = Scratch::new();
    let names = ["a", "b", "c", "d"];
    let folder = library(&s, &names, "20K");
    let mut moved = 0;
    for seed in 0..12 {
        let fair = moves_until_killed(start(&folder, &[]), seed);
        let before = listed(&folder);
        let host = start(&folder, &[]);
        let there = full(&mut client(&host)).unwrap();
        assert!(fair.contains(&there), "{there:?} where {fair:?} was told");
        assert_eq!(listed(&folder), before);
        // Each cartridge is in exactly one place.
        let mut all: Vec<&String> = before.values().collect();
        all.sort();
        assert_eq!(all, names);
        moved += (there != [16, 17, 18, 19]) as u32;
    }
    assert!(moved > 6, "{moved}");
}

/// Killed at each step of a move: the places are as before or as after, and what is left beside the list is no
/// hindrance.
#[test]
fn killed_between_two_writes_of_the_list() {
    let s = Scratch::new();
    let (shim, folder) = (Shim::new(&s), library(&s, &["a", "b"], "20K"));
    let mut seen = Vec::new();
    for (call, late) in
        [("unlink", 300), ("openat", 300), ("pwrite", 300), ("fsync", 300), ("rename", 300), ("fsync", 1_500)]
    {
        let _ = fs::remove_file(folder.join(".slots"));
        let mut host = Host::spawn(shim.before(&mut command(&folder, &["--quiet"])));
        let mut c = client(&host);
        // Each of these calls takes a second from now on.
        shim.say(&format!("slow-{call}"), 1_000_000);
        c.sequence += 1;
        let cdb = [0xa5, 0, 0, 0, 0, 16, 0, 1, 0, 0, 0, 0];
        c.socket.write_all(&request(c.sequence, SCSI_EXECUTE_CDB, &changer::execute(&cdb, 0))).unwrap();
        std::thread::sleep(Duration::from_millis(late));
        host.child.kill().unwrap();
        host.child.wait().unwrap();
        shim.unsay(&format!("slow-{call}"));
        let answered = c.reply(SCSI_EXECUTE_CDB).is_ok();
        let left = folder.join(".slots.new").exists();
        let host = start(&folder, &[]);
        let there = full(&mut client(&host)).unwrap();
        assert!(there == [1, 17] || there == [16, 17] && !answered, "{call}: {there:?}");
        seen.push((left, there[0] == 1));
        assert!(!folder.join(".slots.new").exists());
    }
    // Beside the list, and in its place.
    assert!(seen.contains(&(true, false)) && seen.contains(&(false, true)), "{seen:?}");
}

/// The list is whole and synced before it has its name, and the name is on the disk before the move is answered.
#[test]
fn slots_are_on_the_disk_before_a_move_is_answered() {
    let s = Scratch::new();
    let (shim, folder) = (Shim::new(&s), library(&s, &["a", "b"], "100K"));
    let host = Host::spawn(shim.before(&mut command(&folder, &["--quiet"])));
    // At the start too.
    let (at, new) = (text_of(&folder).to_string(), format!("{}/.slots.new", folder.display()));
    let order = |calls: &[String], until: &str| {
        let step =
            |what: &str| calls.iter().position(|l| l.starts_with(what)).unwrap_or_else(|| panic!("{what}: {calls:?}"));
        let steps = [
            step(&format!("pwrite {new} ")),
            step(&format!("fsync {new}")),
            step(&format!("rename {at} .slots.new .slots")),
            calls.iter().rposition(|l| *l == format!("fsync {at}")).unwrap(),
            step(until),
        ];
        assert!(steps.is_sorted(), "{calls:?}");
    };
    order(&shim.trace(), "told ");
    // Where it is as it was it is not written anew, as a disk may be full; but one that was killed may have left it
    // unsynced.
    drop(host);
    shim.say("fail-pwrite", 28);
    fs::write(&new, b"left").unwrap();
    let host = Host::spawn(shim.before(&mut command(&folder, &["--quiet"])));
    shim.unsay("fail-pwrite");
    let calls = shim.trace();
    let at_start = [&format!("fsync {at}/.slots")[..], &format!("fsync {at}")];
    let steps = at_start.map(|what| calls.iter().rposition(|l| *l == what).unwrap_or_else(|| panic!("{calls:?}")));
    let told = calls.iter().position(|l| l.starts_with("told ")).unwrap();
    assert!(steps[0] < steps[1] && steps[1] < told && !Path::new(&new).exists(), "{calls:?}");
    assert!(!calls.iter().any(|l| l.starts_with("rename ") || l.starts_with("pwrite ")), "{calls:?}");
    let mut c = client(&host);
    for (from, to) in [(16, DRIVE), (17, 20), (DRIVE, 16)] {
        shim.trace();
        go(&mut c, from, to);
        order(&shim.trace(), "send ");
    }
    // What changes nothing writes nothing.
    shim.trace();
    full(&mut c).unwrap();
    assert_eq!(transport(&mut c, 16, 20).unwrap(), Err(FULL));
    assert!(shim.trace().iter().all(|l| l.starts_with("send ")));
}

/// The list on a disk that loses what was not synced: the bytes of the new one, and its name.
#[derive(Default)]
struct Medium {
    old: Vec<u8>,
    new: Vec<u8>,
    whole: bool,
    named: bool,
    lasting: bool,
}

impl Medium {
    fn take(&mut self, call: &str, bytes: &mut Vec<u8>, folder: &Path) {
        let new = folder.join(".slots.new");
        match call.split(' ').collect::<Vec<_>>()[..] {
            ["pwrite", name, at, n] if Path::new(name) == new => {
                let rest = bytes.split_off(n.parse().unwrap());
                self.new.truncate(at.parse().unwrap());
                self.new.extend(std::mem::replace(bytes, rest));
                self.whole = false;
            }
            // By its own name, or the one that it has got.
            ["fsync", name] if Path::new(name) == new || Path::new(name) == folder.join(".slots") => self.whole = true,
            ["rename", _, ".slots.new", ".slots"] => self.named = true,
            ["fsync", name] if Path::new(name) == folder => self.lasting = self.named,
            _ => {}
        }
    }

    /// What a power cut may leave.
    fn cuts(&self) -> Vec<&[u8]> {
        let mut all: Vec<&[u8]> = Vec::new();
        if !self.lasting {
            all.push(&self.old);
        }
        if self.named {
            all.push(&self.new);
        }
        if self.named && !self.whole {
            all.extend([&self.new[..0], &self.new[..self.new.len() / 2]]);
        }
        all
    }
}

/// Cuts the power after every call up to the answer: the list is as before or as after. Gives the number of cuts.
fn judged(calls: &[String], bytes: &[u8], folder: &Path, [before, after]: [&[u8]; 2]) -> Result<usize, String> {
    let (mut medium, mut bytes, mut cuts) = (Medium { old: before.to_vec(), ..Medium::default() }, bytes.to_vec(), 0);
    for (n, call) in calls.iter().enumerate() {
        medium.take(call, &mut bytes, folder);
        let told = call.starts_with("send ");
        for state in medium.cuts() {
            cuts += 1;
            if state != after && (told || state != before) {
                return Err(format!("call {n}, {call}: {:?}", String::from_utf8_lossy(state)));
            }
        }
    }
    if calls.iter().any(|c| c.starts_with("send ")) { Ok(cuts) } else { Err("no answer".into()) }
}

#[test]
fn power_cut_after_any_call_of_a_move() {
    let s = Scratch::new();
    let (shim, folder) = (Shim::new(&s), library(&s, &["a", "b", "c"], "20K"));
    let host = Host::spawn(shim.before(&mut command(&folder, &["--quiet"])));
    let mut c = client(&host);
    let list = || fs::read(folder.join(".slots")).unwrap();
    let (mut cuts, mut found) = (0, [0; 3]);
    shim.kept();
    for (from, to) in [(16, DRIVE), (17, 23), (DRIVE, 17), (18, 16), (23, DRIVE)] {
        let before = list();
        shim.trace();
        go(&mut c, from, to);
        let (calls, bytes, after) = (shim.trace(), shim.kept(), list());
        assert_ne!(before, after);
        let judge = |calls: &[String]| judged(calls, &bytes, &folder, [&before, &after]);
        cuts += judge(&calls).unwrap();
        // Wrong orders are found out: without either sync, and with the name first.
        let at = |what: &str| calls.iter().position(|c| c.starts_with(what)).unwrap();
        let (file, name) = (at(&format!("fsync {}/.slots.new", folder.display())), at("rename "));
        let last = calls.iter().position(|c| *c == format!("fsync {}", folder.display())).unwrap();
        for (wrong, gone) in found.iter_mut().zip([file, last]) {
            let mut calls = calls.clone();
            calls.remove(gone);
            *wrong += judge(&calls).is_err() as u32;
        }
        let mut calls = calls.clone();
        calls.swap(file, name);
        found[2] += judge(&calls).is_err() as u32;
    }
    assert!(cuts > 20 && found == [5; 3], "{cuts} {found:?}");
}

/// Moves, and a record on the tape in between. Gives the places that were told, and those that a move without an answer
/// may have made.
fn moves(c: &mut Client) -> [Vec<u16>; 2] {
    let mut now = vec![16, 17];
    for (from, to, then) in [(16, DRIVE, vec![1, 17]), (DRIVE, 18, vec![17, 18]), (17, DRIVE, vec![1, 18])] {
        match transport(c, from, to) {
            Ok(done) => assert_eq!(done, Ok(())),
            Err(_) => return [now, then],
        }
        now = then;
        if now[0] == 1 && c.tape_open(TO_WRITE).is_ok() && c.ask(TAPE_WRITE, &text(b"x")).is_ok() {
            let _ = c.tape_close();
        }
    }
    [now.clone(), now]
}

/// A disk that fails once, at each of its calls: a move that is answered is there, one that is not has its line, and
/// the next session and the next start agree.
#[test]
fn error_at_each_call_of_moves() {
    let s = Scratch::new();
    let shim = Shim::new(&s);
    let folder = library(&s, &["a", "b"], "20K");
    let log = s.path("log");
    let mut seen: BTreeMap<String, u32> = BTreeMap::new();
    let (mut failed, mut unstarted) = (0, 0);
    for n in 1.. {
        let _ = fs::remove_file(folder.join(".slots"));
        shim.trace();
        shim.say("fail-at", n);
        let mut command = command(&folder, &[]);
        command.stderr(fs::File::create(&log).unwrap());
        let running = host::own::Running::start(shim.before(&mut command));
        let mut there = None;
        if let Ok(running) = running {
            let host = Host::of(running);
            let mut c = host.login();
            let fair = match open(&mut c) {
                Ok(()) => moves(&mut c),
                Err(_) => [vec![16, 17], vec![16, 17]],
            };
            drop(c);
            // The failed call is behind: the vault goes on with what was told.
            let now = full(&mut client(&host)).unwrap();
            assert_eq!(now, fair[0], "call {n}: {}", fs::read_to_string(&log).unwrap());
            failed += (fair[0] != fair[1]) as u32;
            there = Some(now);
        } else {
            let why = fs::read_to_string(&log).unwrap();
            assert!(why.lines().count() == 1 && why.contains("Input/output error"), "call {n}: {why}");
            unstarted += 1;
        }
        shim.unsay("fail-at");
        let broken = shim.trace().iter().find_map(|l| l.strip_prefix("broken ").map(String::from));
        let about = || format!("call {n}, {broken:?}: {}", fs::read_to_string(&log).unwrap());
        if let Some(there) = there {
            if there != [1, 18] {
                let why = ["Input/output error", "cannot be looked at", "has no longer its name"];
                assert!(why.iter().any(|why| about().contains(why)), "{}", about());
            }
            let host = start(&folder, &[]);
            assert_eq!(full(&mut client(&host)).unwrap(), there, "{}", about());
        }
        match broken {
            Some(call) => *seen.entry(call).or_default() += 1,
            None => break,
        }
    }
    println!("{seen:?}; {failed} moves failed, {unstarted} starts");
    assert!(failed >= 9 && unstarted > 5, "{failed} {unstarted}");
    for call in ["pwrite", "fsync", "rename", "openat", "unlink", "load"] {
        assert!(seen.contains_key(call), "{call}: {seen:?}");
    }
}

/// A record that the file could not follow: the session goes back, and the file has to follow that too.
fn write_that_fails(c: &mut Client, shim: &Shim) {
    shim.say("fail-fdatasync", 5);
    c.tape_open(TO_WRITE).unwrap();
    c.expect(TAPE_WRITE, &text(b"two"), codes::IO_ERROR).unwrap();
    c.tape_close().unwrap();
}

/// A cartridge leaves the drive when its file has all that was told of it; until then it is there, in memory.
#[test]
fn cartridge_is_stored_before_it_leaves_the_drive() {
    let s = Scratch::new();
    let (shim, folder, log) = (Shim::new(&s), library(&s, &["a", "b"], "20K"), s.path("log"));
    let mut command = command(&folder, &[]);
    let host = Host::spawn(shim.before(command.stderr(fs::File::create(&log).unwrap())));
    let mut c = client(&host);
    go(&mut c, 16, DRIVE);
    write_that_fails(&mut c, &shim);
    let before = listed(&folder);
    transport(&mut c, DRIVE, 18).unwrap_err();
    told(&log, &["a was not moved: the cartridge file could not be written: Input/output error"]);
    assert_eq!(listed(&folder), before);
    let mut d = client(&host);
    assert_eq!(full(&mut d).unwrap(), [1, 17]);
    // What other places have is moved meanwhile.
    go(&mut d, 17, 20);
    shim.unsay("fail-fdatasync");
    shim.trace();
    go(&mut d, DRIVE, 18);
    let calls = shim.trace();
    let last = calls.iter().rposition(|l| *l == format!("fdatasync {}/a", folder.display()));
    let named = calls.iter().position(|l| l.starts_with("rename "));
    assert!(last.is_some() && last < named, "{calls:?}");
    assert_eq!(full(&mut d).unwrap(), [18, 20]);
}

/// At an orderly end the list and the image are brought to the disk, and one that cannot be is told.
#[test]
fn end_in_order_settles_the_list_and_the_image() {
    let s = Scratch::new();
    let (shim, folder, log) = (Shim::new(&s), library(&s, &["a", "b"], "20K"), s.path("log"));
    let (list, image) = ("the list of slots could not be written", "the cartridge file could not be written");
    for (mended, code, why) in [
        (&["fail-rename", "fail-fdatasync"][..], 0, vec!["all that was acknowledged is on the disk, 0 records"]),
        (&["fail-rename"], 1, vec![image]),
        (&["fail-fdatasync"], 1, vec![list]),
        (&[], 1, vec![list, image]),
    ] {
        let mut command = command(&folder, &[]);
        let mut host = Host::spawn(shim.before(command.stderr(fs::File::create(&log).unwrap())));
        let mut c = client(&host);
        if full(&mut c).unwrap()[0] != DRIVE {
            go(&mut c, 16, DRIVE);
        }
        write_that_fails(&mut c, &shim);
        shim.say("fail-rename", 5);
        transport(&mut c, 17, 20).unwrap_err();
        mended.iter().for_each(|what| shim.unsay(what));
        shim.trace();
        signal(&host, "-TERM");
        let ended = soon(|| host.child.try_wait().unwrap()).unwrap();
        let text = fs::read_to_string(&log).unwrap();
        let end = text.lines().find(|l| l.contains("ended by SIGTERM")).unwrap_or_else(|| panic!("{text}"));
        assert!(ended.code() == Some(code) && why.iter().all(|w| end.contains(w)), "{mended:?}: {text}");
        // Each is tried, whatever becomes of the other.
        let calls = shim.trace();
        for what in [format!("rename {}", folder.display()), format!("fdatasync {}/a", folder.display())] {
            assert!(calls.iter().any(|l| l.starts_with(&what)), "{mended:?}: {calls:?}");
        }
        ["fail-rename", "fail-fdatasync"].iter().filter(|w| !mended.contains(w)).for_each(|what| shim.unsay(what));
    }
}

/// Where a new list can be neither made nor written, as on a full disk, the old one is certain: no cartridge is moved,
/// and all else goes on. Where its name was tried it is not, and nothing is told of the places until it is.
#[test]
fn full_disk_stops_moves_alone() {
    let s = Scratch::new();
    let (shim, folder) = (Shim::new(&s), library(&s, &["a", "b"], "20K"));
    let host = Host::spawn(shim.before(&mut command(&folder, &["--quiet"])));
    let mut c = client(&host);
    go(&mut c, 16, DRIVE);
    c.tape_open(TO_WRITE).unwrap();
    c.good(TAPE_WRITE, &text(b"one")).unwrap();
    c.tape_close().unwrap();
    drop(c);
    let before = listed(&folder);
    for (call, certain) in [("openat", true), ("pwrite", true), ("fsync", true), ("unlink", true), ("rename", false)] {
        shim.say(&format!("fail-{call}"), 28);
        let mut c = client(&host);
        transport(&mut c, 17, 20).unwrap_err();
        let mut d = host.login();
        let opened = d.tape_open(TO_READ);
        assert_eq!(opened.is_ok(), certain, "{call}: {opened:?}");
        if certain {
            let body = d.good(TAPE_READ, &words(&[100])).unwrap();
            assert_eq!(&body[8..11], b"one");
            d.tape_close().unwrap();
            assert_eq!(full(&mut client(&host)).unwrap(), [1, 17], "{call}");
        }
        shim.unsay(&format!("fail-{call}"));
        assert_eq!((full(&mut client(&host)).unwrap(), listed(&folder)), (vec![1, 17], before.clone()), "{call}");
    }
    go(&mut client(&host), 17, 20);
}
