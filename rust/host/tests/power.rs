//! The real program over a disk that loses what was not synced, and one that fails once, at each of its calls.
mod common;
use common::*;
use std::collections::BTreeMap;
use std::fs;
use std::path::{Path, PathBuf};

const SECTOR: usize = 512;

type List = Vec<Vec<u8>>;

fn text_of(path: &Path) -> &str {
    path.to_str().unwrap()
}

#[derive(Clone)]
enum Step {
    Put(usize, Vec<u8>),
    Sync,
}

/// What the program did to the cartridge file since the last look.
fn steps(shim: &Shim, tape: &Path) -> Vec<Step> {
    let (calls, mut bytes) = (shim.trace(), shim.kept());
    let mut all = Vec::new();
    for call in calls {
        match call.split(' ').collect::<Vec<_>>()[..] {
            ["pwrite", name, at, n] => {
                let rest = bytes.split_off(n.parse().unwrap());
                let put = std::mem::replace(&mut bytes, rest);
                assert_eq!(Path::new(name), tape);
                all.push(Step::Put(at.parse().unwrap(), put));
            }
            ["fdatasync" | "fsync", name] if Path::new(name) == tape => all.push(Step::Sync),
            _ => {}
        }
    }
    assert!(bytes.is_empty(), "{} bytes of no write", bytes.len());
    all
}

/// The disk below the file: what is on it for certain, and for each sector what may be there instead since the last sync.
struct Medium {
    certain: Vec<u8>,
    cache: Vec<u8>,
    perhaps: BTreeMap<usize, Vec<Vec<u8>>>,
}

impl Medium {
    fn new(file: Vec<u8>) -> Medium {
        Medium { cache: file.clone(), certain: file, perhaps: BTreeMap::new() }
    }

    fn sector(&self, i: usize) -> std::ops::Range<usize> {
        SECTOR * i..(SECTOR * (i + 1)).min(self.cache.len())
    }

    fn take(&mut self, step: &Step) {
        match step {
            Step::Put(at, bytes) => {
                self.cache[*at..at + bytes.len()].copy_from_slice(bytes);
                for i in at / SECTOR..(at + bytes.len()).div_ceil(SECTOR) {
                    let now = self.cache[self.sector(i)].to_vec();
                    self.perhaps.entry(i).or_default().push(now);
                }
            }
            Step::Sync => {
                self.certain.clone_from(&self.cache);
                self.perhaps.clear();
            }
        }
    }

    /// The disk after a power cut: of each sector the version that is chosen, 0 for the old one.
    fn after(&self, mut choose: impl FnMut(usize, usize) -> usize) -> Vec<u8> {
        let mut state = self.certain.clone();
        for (k, (i, versions)) in self.perhaps.iter().enumerate() {
            if let Some(v) = choose(k, versions.len()).checked_sub(1) {
                state[self.sector(*i)].copy_from_slice(&versions[v]);
            }
        }
        state
    }

    /// None of the unsynced sectors, all, each alone, all but each, and some by chance.
    fn cuts(&self, chance: &mut impl FnMut() -> usize) -> Vec<Vec<u8>> {
        let n = self.perhaps.len();
        let mut all = vec![self.after(|_, _| 0), self.after(|_, last| last)];
        for one in 0..n {
            all.push(self.after(|k, last| if k == one { last } else { 0 }));
            all.push(self.after(|k, last| if k == one { 0 } else { last }));
        }
        (0..n.min(16)).for_each(|_| all.push(self.after(|_, last| chance() % (last + 1))));
        all
    }
}

/// What one operation may leave: the tape as it was, or from the position that it wrote at on a part of what it wrote.
struct Fair<'a> {
    old: &'a List,
    new: &'a List,
    from: usize,
}

impl Fair<'_> {
    fn is(&self, state: &[u8]) -> bool {
        list(state).is_some_and(|l| l == *self.old || (l.len() >= self.from && self.new.starts_with(&l)))
    }

    /// Cuts the power after every call. When all is done and told, nothing is left to chance. Gives the number of cuts.
    fn judge(&self, medium: &mut Medium, steps: &[Step], seed: u64) -> Result<usize, String> {
        let bytes = noise(seed, 4_096);
        let mut at = 0;
        let mut chance = || {
            at = (at + 1) % bytes.len();
            bytes[at] as usize
        };
        let mut cuts = 0;
        for (number, step) in steps.iter().enumerate() {
            medium.take(step);
            for state in medium.cuts(&mut chance) {
                cuts += 1;
                if !self.is(&state) {
                    return Err(format!("call {number} of {}: {:?}", steps.len(), sound(&state)));
                }
            }
        }
        let last = medium.cuts(&mut chance);
        match last.iter().all(|state| list(state).as_ref() == Some(self.new)) {
            true => Ok(cuts),
            false => Err("what was told may be lost".into()),
        }
    }
}

/// One thing that a client does, and waits for the answers of; it writes from the tape's position on.
fn act(c: &mut Client, seed: u64, position: &mut usize) {
    let chance = noise(seed, 4);
    match chance[0] % 8 {
        0..=3 => {
            let bytes = noise(seed + 1, 1 + chance[1] as usize * 9);
            c.good(TAPE_WRITE, &text(bytes)).unwrap();
            *position += 1;
        }
        4 => {
            let n = chance[1] as u32 % 3;
            c.good(TAPE_MTIO, &words(&[codes::WRITE_MARKS, n])).unwrap();
            *position += n as usize;
        }
        5 => {
            c.good(TAPE_MTIO, &words(&[codes::REWIND_TAPE, 1])).unwrap();
            *position = 0;
        }
        // Several without waiting.
        _ => {
            let first = c.sequence + 1;
            let many = 2 + chance[1] as u32 % 4;
            let record = |i: u32| text(noise(seed + 2 + i as u64, 700));
            let all: Vec<u8> = (0..many).flat_map(|i| request(first + i, TAPE_WRITE, &record(i))).collect();
            std::io::Write::write_all(&mut c.socket, &all).unwrap();
            for i in 0..many {
                c.sequence = first + i;
                assert_eq!(c.reply(TAPE_WRITE).unwrap().first(), 0);
            }
            *position += many as usize;
        }
    }
}

/// A vault with a tape whose calls are recorded, and the tape as its file has it.
fn recorded(s: &Scratch, more: &[&str]) -> (Shim, PathBuf, Host, Client) {
    let (shim, tape) = (Shim::new(s), s.path("tape"));
    drop(Host::start(&tape, &["--new-cartridge", "200K"]));
    let mut command = serve(&tape);
    command.args(["--listen", "127.0.0.1:0", "--quiet"]).args(more);
    let host = Host::spawn(shim.before(&mut command));
    let mut c = host.login();
    c.tape_open(TO_WRITE).unwrap();
    shim.trace();
    shim.kept();
    (shim, tape, host, c)
}

/// Writes, marks and rewinds, one at a time and several at once; and the same calls in wrong orders, which are found out.
#[test]
fn power_cut_after_any_call_of_tape_writes() {
    let s = Scratch::new();
    let (shim, tape, _host, mut c) = recorded(&s, &[]);
    let mut medium = Medium::new(fs::read(&tape).unwrap());
    let (mut position, mut cuts, mut unsynced, mut uncut, mut untold) = (0, 0, 0, 0, 0);
    for seed in 0..60 {
        let old = list(&medium.cache).unwrap();
        let from = position;
        act(&mut c, 1_000 + 10 * seed, &mut position);
        let calls = steps(&shim, &tape);
        let file = fs::read(&tape).unwrap();
        let new = list(&file).unwrap();
        let fair = Fair { old: &old, new: &new, from };
        let puts = || calls.iter().filter(|s| matches!(s, Step::Put(..))).cloned();
        let again = |steps: &[Step]| fair.judge(&mut Medium::new(medium.cache.clone()), steps, seed).is_err() as u32;
        if !calls.is_empty() {
            unsynced += again(&puts().chain([Step::Sync]).collect::<Vec<_>>());
            untold += again(&calls[..calls.len() - 1]);
            if calls.len() == 7 {
                uncut += again(&calls[2..]);
            }
        }
        cuts += fair.judge(&mut medium, &calls, seed).unwrap_or_else(|e| panic!("seed {seed}: {e}"));
        assert!(medium.cache == file, "the calls are all that was written");
    }
    println!("{cuts} power cuts; wrong orders found out: {unsynced} {untold} {uncut}");
    assert!(cuts > 1_000 && unsynced > 10 && untold > 10 && uncut > 2, "{cuts} {unsynced} {untold} {uncut}");
}

/// The same of rmt: writes, marks and rewinds, each replied to before the next.
#[test]
fn power_cut_after_any_call_of_rmt() {
    let s = Scratch::new();
    let (shim, tape) = (Shim::new(&s), remote::made(&s));
    let mut r = remote::Remote::start(shim.before(&mut remote::rmt(&tape)));
    assert_eq!(r.ask(b"Otape0\n1\n"), "A0");
    shim.trace();
    shim.kept();
    let mut medium = Medium::new(fs::read(&tape).unwrap());
    let (mut position, mut cuts, mut untold) = (0, 0, 0);
    for seed in 0..60 {
        let (old, from, chance) = (list(&medium.cache).unwrap(), position, noise(500 + seed, 3));
        let (command, next) = match chance[0] % 8 {
            0..=4 => (remote::write(&noise(seed, 1 + chance[1] as usize * 9)), from + 1),
            5 => (format!("I0\n{}\n", chance[1] % 3).into_bytes(), from + chance[1] as usize % 3),
            6 => (b"I5\n1\n".to_vec(), 0),
            _ => (b"I4\n1\n".to_vec(), from.saturating_sub(1)),
        };
        r.ask(&command);
        position = next;
        let calls = steps(&shim, &tape);
        let file = fs::read(&tape).unwrap();
        let new = list(&file).unwrap();
        let fair = Fair { old: &old, new: &new, from };
        if !calls.is_empty() {
            let before = medium.cache.clone();
            untold += fair.judge(&mut Medium::new(before), &calls[..calls.len() - 1], seed).is_err() as u32;
        }
        cuts += fair.judge(&mut medium, &calls, seed).unwrap_or_else(|e| panic!("seed {seed}: {e}"));
        assert!(medium.cache == file, "the calls are all that was written");
    }
    println!("{cuts} power cuts; one sync too few is found out {untold} times");
    assert!(cuts > 1_000 && untold > 10, "{cuts} {untold}");
}

/// A backup in windows, each told when its bytes are on the disk, over the records of another.
#[test]
fn power_cut_after_any_call_of_a_backup() {
    let s = Scratch::new();
    let from = s.path("from");
    fs::write(&from, noise(3, 100_000)).unwrap();
    let (shim, tape, _host, mut c) = recorded(&s, &["--stream", text_of(&from)]);
    let (mut cuts, mut told) = (0, 0);
    for round in 0..2 {
        let mut medium = Medium::new(fs::read(&tape).unwrap());
        let mut position = 0;
        c.join(Mover::TO_TAPE, 4_000, 20_000).unwrap();
        c.start_backup().unwrap();
        loop {
            let m = c.notice().unwrap();
            let halted = m.header.message == NOTIFY_DATA_HALTED;
            let old = list(&medium.cache).unwrap();
            let calls = steps(&shim, &tape);
            let new = list(&fs::read(&tape).unwrap()).unwrap();
            let fair = Fair { old: &old, new: &new, from: position };
            cuts += fair.judge(&mut medium, &calls, round).unwrap_or_else(|e| panic!("at {position}: {e}"));
            position = new.len();
            told += 1;
            if halted {
                break;
            }
            let moved = c.moved().unwrap();
            assert_eq!(list(&medium.certain).unwrap().concat().len() as u64, moved, "what is told is on the disk");
            c.window(moved, 20_000).unwrap();
            c.good(MOVER_CONTINUE, b"").unwrap();
        }
        c.stop().unwrap();
        c.good(TAPE_MTIO, &words(&[codes::REWIND_TAPE, 1])).unwrap();
        assert_eq!(list(&medium.certain).unwrap().len(), archive(&from).len().div_ceil(4_000));
    }
    println!("{cuts} power cuts, {told} notices");
    assert!(cuts > 500 && told > 10, "{cuts} {told}");
}

/// A cartridge has its name only when it is whole on the disk, and is told only when the name is there too.
#[test]
fn power_cut_after_any_call_that_makes_a_cartridge() {
    let s = Scratch::new();
    let (shim, tape, other) = (Shim::new(&s), s.path("tape"), s.path("other"));
    let mut command = serve(&tape);
    command.args(["--listen", "127.0.0.1:0", "--quiet", "--new-cartridge", "100K"]);
    drop(Host::spawn(shim.before(&mut command)));
    judge_names(&shim.trace(), &tape);
    let done = finished(shim.before(program().args(["new", text_of(&other), "100K"])));
    assert!(done.status.success());
    judge_names(&shim.trace(), &other);
}

fn judge_names(calls: &[String], tape: &Path) {
    let (mut dirty, mut named, mut lasting, mut told) = (false, false, false, false);
    let (folder, name) = (tape.parent().unwrap(), tape.file_name().unwrap());
    // The name that it has until then, which is none of a library's.
    let until = format!("{}/.{}.new-", folder.display(), name.display());
    let is_it = |name: &str| Path::new(name) == tape || name.starts_with(&until);
    for call in calls {
        match call.split(' ').collect::<Vec<_>>()[..] {
            ["pwrite", name, ..] => {
                assert!(is_it(name) && !named, "{calls:?}");
                dirty = true;
            }
            ["fsync", name] if Path::new(name) == folder => lasting = named,
            ["fsync", name] if is_it(name) => dirty = false,
            ["link", _, name] if Path::new(name) == tape => {
                assert!(!dirty, "{calls:?}");
                named = true;
            }
            ["told", _] => {
                assert!(lasting, "{calls:?}");
                told = true;
            }
            _ => {}
        }
    }
    assert!(told && !dirty, "{calls:?}");
}

/// What a run over a disk that fails once came to.
struct Broken {
    /// The call that failed; none if the run had not so many.
    call: Option<String>,
    log: String,
    /// The cartridge file as it was when the client had its last answer: as a kill would have left it.
    tape: List,
}

/// Runs a vault whose nth call on files fails, and what a client does with it. The client is not called where the vault
/// does not start, which it says in one line.
fn broken(s: &Scratch, shim: &Shim, n: u32, options: &[&str], client: impl FnOnce(&mut Client)) -> Broken {
    let (tape, log) = (s.path("tape"), s.path("log"));
    shim.trace();
    shim.say("fail-at", n);
    let mut command = serve(&tape);
    command.args(["--listen", "127.0.0.1:0"]).args(options).stderr(fs::File::create(&log).unwrap());
    let mut image = None;
    match host::own::Running::start(shim.before(&mut command)) {
        Ok(running) => {
            let mut host = Host::of(running);
            client(&mut host.login());
            image = Some(fs::read(&tape).unwrap());
            assert_eq!(host.child.try_wait().unwrap(), None, "call {n} ended the vault");
            // An end in order, so that the log is whole.
            let id = host.child.id().to_string();
            assert!(std::process::Command::new("kill").args(["-TERM", &id]).status().unwrap().success());
            assert!(soon(|| host.child.try_wait().unwrap()).is_some(), "call {n}: the vault does not end");
        }
        Err(_) => {
            let why = fs::read_to_string(&log).unwrap();
            assert!(why.lines().count() == 1 && why.contains("Input/output error"), "call {n}: {why}");
        }
    }
    shim.unsay("fail-at");
    let call = shim.trace().iter().find_map(|l| l.strip_prefix("broken ").map(String::from));
    let tape = image.map(|i| list(&i).expect("sound")).unwrap_or_default();
    Broken { call, log: fs::read_to_string(&log).unwrap(), tape }
}

/// A log with a line of the call that failed: the error, or what a look at the cartridge did not tell.
fn says_why(log: &str) -> bool {
    ["Input/output error", "cannot be looked at", "has no longer its name"].iter().any(|why| log.contains(why))
}

/// Runs it with each call failing, one after the other, until a run has not so many. Gives how many of each there were.
fn each_call(mut run: impl FnMut(u32) -> Broken) -> BTreeMap<String, u32> {
    let mut seen = BTreeMap::new();
    for n in 1..1_000 {
        match run(n).call {
            Some(call) => *seen.entry(call).or_default() += 1,
            None => return seen,
        }
    }
    panic!("a run of more than a thousand calls");
}

/// The tape as a client was told; and what a request that was refused, or had no answer, may have left in the file, until
/// the next one is stored.
#[derive(Default)]
struct Told {
    tape: List,
    perhaps: Vec<List>,
}

impl Told {
    /// Two records, a mark, and two records over them from the start.
    fn by_requests(&mut self, c: &mut Client) -> Result<(), host::client::Error> {
        c.tape_open(TO_WRITE)?;
        self.write(c, 0, noise(1, 700))?;
        self.write(c, 1, noise(2, 700))?;
        self.write(c, 2, Vec::new())?;
        c.good(TAPE_MTIO, &words(&[codes::REWIND_TAPE, 1]))?;
        self.write(c, 0, noise(3, 700))?;
        self.write(c, 1, noise(4, 700))?;
        c.tape_close()
    }

    /// A record, or a mark, at the tape's position, which is this one unless an earlier request was refused.
    fn write(&mut self, c: &mut Client, at: usize, entry: Vec<u8>) -> Result<(), host::client::Error> {
        let at = at.min(self.tape.len());
        let mut then = self.tape[..at].to_vec();
        let (message, body) = match entry.len() {
            0 => (TAPE_MTIO, words(&[codes::WRITE_MARKS, 1])),
            _ => (TAPE_WRITE, text(&entry)),
        };
        then.push(entry);
        let answer = c.ask(message, &body);
        match answer {
            Ok((0, _)) => *self = Told { tape: then, perhaps: Vec::new() },
            Ok((codes::IO_ERROR, _)) => {
                // The tape ends where the write began.
                self.perhaps.extend([self.tape.clone(), then]);
                self.tape.truncate(at);
            }
            Ok((other, _)) => panic!("answered with {other}"),
            Err(_) => self.perhaps.extend([self.tape[..at].to_vec(), then]),
        }
        answer.map(drop)
    }
}

/// Tape requests: what was answered well is there, what was refused is not, whichever call failed.
#[test]
fn error_at_each_call_of_tape_requests() {
    let s = Scratch::new();
    let (shim, tape, accounts) = (Shim::new(&s), s.path("tape"), s.path("accounts"));
    private(&accounts, "md5 ferry tide\n");
    let options = ["--new-cartridge", "100K", "--accounts", text_of(&accounts)];
    let seen = each_call(|n| {
        let _ = fs::remove_file(&tape);
        let (mut told, mut well) = (Told::default(), false);
        let done = broken(&s, &shim, n, &options, |c| well = told.by_requests(c).is_ok());
        let about = format!("call {n}, {:?}: {} there, {}", done.call, done.tape.len(), done.log);
        assert!(done.tape == told.tape || told.perhaps.contains(&done.tape), "{about}");
        // Nobody is left to guess: a request or a start that failed has its line.
        let whole = well && told.tape == [noise(3, 700), noise(4, 700)];
        assert!(whole || says_why(&done.log), "{about}");
        done
    });
    println!("{seen:?}");
    for call in ["open", "allocate", "pwrite", "fsync", "link", "fdatasync", "statx", "load"] {
        assert!(seen.contains_key(call), "{call}: {seen:?}");
    }
}

/// What a recover of the tape's stream gives, by names, in a folder of its own.
fn unpacked(s: &Scratch, records: &List) -> Option<Vec<(PathBuf, Vec<u8>)>> {
    let to = s.folder("unpacked");
    let mut t = host::untar::Untar::new(&to, host::untar::Options::warning(|_| ())).unwrap();
    let limit = std::time::Instant::now() + std::time::Duration::from_secs(20);
    let whole = t.take(&records.concat()).is_ok() && t.done() && t.is_proved() && t.commit(limit).unwrap();
    let all = whole.then(|| tree(&to));
    fs::remove_dir_all(&to).unwrap();
    all
}

/// A folder with each kind of entry.
fn few(folder: &Path) {
    fs::create_dir(folder.join("inner")).unwrap();
    fs::write(folder.join("a"), noise(1, 3_000)).unwrap();
    fs::hard_link(folder.join("a"), folder.join("inner/b")).unwrap();
    fs::write(folder.join("inner/c"), b"c").unwrap();
    std::os::unix::fs::symlink("a", folder.join("l")).unwrap();
}

/// Backups: one that is told as done has every file, or names those that it has not.
#[test]
fn error_at_each_call_of_a_backup() {
    let s = Scratch::new();
    let (shim, tape, from) = (Shim::new(&s), s.path("tape"), s.folder("from"));
    few(&from);
    let all = tree(&from);
    drop(Host::start(&tape, &["--new-cartridge", "100K"]));
    let blank = fs::read(&tape).unwrap();
    let (mut whole, mut less, mut failed) = (0, 0, 0);
    let seen = each_call(|n| {
        fs::write(&tape, &blank).unwrap();
        let mut why = None;
        let done = broken(&s, &shim, n, &["--stream", text_of(&from)], |c| {
            why = c.backup(1_024, 8_192).ok().map(|e| e.why);
        });
        let told = || format!("call {n}, {:?}: {}", done.call, done.log);
        match (why, unpacked(&s, &done.tape)) {
            (Some(DONE), Some(got)) if got == all => whole += 1,
            (Some(DONE), Some(got)) => {
                assert!(done.log.contains("left out: ") && done.log.contains("Input/output error"), "{}", told());
                assert!(got.iter().all(|x| all.contains(x)), "{}", told());
                less += 1;
            }
            (Some(DONE), None) => panic!("told as done and not whole: {}", told()),
            _ => {
                assert!(says_why(&done.log), "{}", told());
                failed += 1;
            }
        }
        done
    });
    println!("{seen:?}; {whole} whole, {less} without a file, {failed} not done");
    assert!(whole > 0 && less > 5 && failed > 5, "{whole} {less} {failed}");
    for call in ["openat", "opendir", "readdir", "readlink", "load", "statx", "pwrite", "fdatasync"] {
        assert!(seen.contains_key(call), "{call}: {seen:?}");
    }
}

/// A recover that is told as done has all; of any other each file is as it stood or as it shall be, and nothing else is
/// left. Gives whether it was told as done.
fn judge_recover(to: &Path, all: &[(PathBuf, Vec<u8>)], why: Option<Why>, done: &Broken) -> bool {
    let there = tree(to);
    let names: Vec<_> = there.iter().map(|x| &x.0).collect();
    let about = format!("{:?}: {}\n{names:?}", done.call, done.log);
    let is_left = |name: &Path| name.file_name().unwrap().to_str().unwrap().starts_with(".mossgoblin-");
    let (left, named): (Vec<_>, Vec<_>) = there.iter().cloned().partition(|(name, _)| is_left(name));
    assert!(left.is_empty() || done.call.as_deref() == Some("unlink"), "{about}");
    if why == Some(DONE) {
        assert!(named == all, "{about}");
        return true;
    }
    let old = ("a".into(), b"stood there".to_vec());
    assert!(named.iter().all(|x| *x == old || all.contains(x)), "{about}");
    assert!(named.iter().any(|x| x.0 == Path::new("a")), "what stood there is gone: {about}");
    assert!(says_why(&done.log), "{about}");
    false
}

#[test]
fn error_at_each_call_of_a_recover() {
    let s = Scratch::new();
    let (shim, tape, from, to) = (Shim::new(&s), s.path("tape"), s.folder("from"), s.path("to"));
    few(&from);
    let all = tree(&from);
    let host = Host::start(&tape, &["--new-cartridge", "100K", "--stream", text_of(&from)]);
    assert_eq!(host.login().backup(1_024, 1 << 20).unwrap().why, DONE);
    drop(host);
    let (mut well, mut failed) = (0, 0);
    let seen = each_call(|n| {
        let _ = fs::remove_dir_all(&to);
        fs::create_dir(&to).unwrap();
        fs::write(to.join("a"), b"stood there").unwrap();
        let mut why = None;
        let done = broken(&s, &shim, n, &["--restore-to", text_of(&to)], |c| {
            why = c.recover(1_024, 1 << 20).ok().map(|e| e.why);
        });
        *(if judge_recover(&to, &all, why, &done) { &mut well } else { &mut failed }) += 1;
        done
    });
    println!("{seen:?}; {well} done, {failed} not done");
    assert!(well > 0 && failed > 20, "{well} {failed}");
    for call in ["openat", "pwrite", "truncate", "chmod", "utimens", "fsync", "link", "symlink", "mkdir", "rename"] {
        assert!(seen.contains_key(call), "{call}: {seen:?}");
    }
}
