//! Folders while others change them: nothing outside is read or written, and nothing is waited for.
mod common;
use common::*;
use host::untar::{Options, Untar};
use std::ffi::{CString, c_char};
use std::fs;
use std::os::unix::fs::{FileExt, MetadataExt, PermissionsExt, symlink};
use std::path::Path;
use std::process::Command;
use std::sync::atomic::{AtomicBool, Ordering};
use std::sync::mpsc;
use std::time::{Duration, Instant};

fn text_of(path: &Path) -> &str {
    path.to_str().unwrap()
}

unsafe extern "C" {
    fn renameat2(from: i32, old: *const c_char, to: i32, new: *const c_char, flags: u32) -> i32;
}

/// Two names change places, at once.
fn exchange(a: &Path, b: &Path) {
    let word = |p: &Path| CString::new(p.as_os_str().as_encoded_bytes()).unwrap();
    let (here, both) = (-100, 2);
    let code = unsafe { renameat2(here, word(a).as_ptr(), here, word(b).as_ptr(), both) };
    assert_eq!(code, 0, "{}", std::io::Error::last_os_error());
}

/// Two names change places again and again, until the work is done. Gives what the work gave, and fails if it hangs.
fn swapped<T: Send + 'static>(folder: &Path, work: impl FnOnce() -> T + Send + 'static) -> T {
    let over = AtomicBool::new(false);
    let (give, get) = mpsc::channel();
    std::thread::scope(|scope| {
        scope.spawn(|| {
            while !over.load(Ordering::Relaxed) {
                exchange(&folder.join("x"), &folder.join("y"));
            }
        });
        // A thread that hangs stays behind: the test has failed then.
        std::thread::spawn(move || give.send(work()));
        let got = get.recv_timeout(Duration::from_secs(30));
        over.store(true, Ordering::Relaxed);
        got.expect("it hangs")
    })
}

const ROUNDS: Duration = Duration::from_millis(1_500);

fn has(bytes: &[u8], part: &[u8]) -> bool {
    bytes.windows(part.len()).any(|w| w == part)
}

/// A folder that holds a file before and one behind a folder.
fn secrets(folder: &Path) {
    fs::create_dir(folder.join("deep")).unwrap();
    for name in ["a", "file"] {
        fs::write(folder.join(name), b"the secret of another").unwrap();
    }
}

#[test]
fn backup_follows_no_link_that_is_swapped_in() {
    let s = Scratch::new();
    let (from, secret) = (s.folder("from"), s.folder("secret"));
    secrets(&secret);
    // A folder that becomes a link, which is come back to from a folder in it; and a file that becomes one.
    for (x, y) in [("", "../secret"), ("file", "../secret/file")] {
        if x.is_empty() {
            fs::create_dir_all(from.join("x/deep/er")).unwrap();
            fs::write(from.join("x/a"), b"one's own").unwrap();
            fs::write(from.join("x/file"), b"one's own").unwrap();
        } else {
            fs::write(from.join("x"), b"one's own").unwrap();
        }
        symlink(y, from.join("y")).unwrap();
        let at = from.clone();
        let (leaks, own) = swapped(&from, move || {
            let begun = Instant::now();
            let (mut leaks, mut own) = (0, 0);
            while begun.elapsed() < ROUNDS {
                let bytes = archive(&at);
                leaks += has(&bytes, b"the secret of another") as u32;
                own += has(&bytes, b"one's own") as u32;
            }
            (leaks, own)
        });
        assert!(leaks == 0 && own > 10, "{leaks} {own}");
        fs::remove_dir_all(&from).unwrap();
        fs::create_dir(&from).unwrap();
    }
}

#[test]
fn backup_does_not_wait_for_a_fifo() {
    let s = Scratch::new();
    let from = s.folder("from");
    assert!(Command::new("mkfifo").arg(from.join("y")).status().unwrap().success());
    fs::write(from.join("x"), b"one's own").unwrap();
    let at = from.clone();
    let rounds = swapped(&from, move || {
        let begun = Instant::now();
        let mut rounds = 0;
        while begun.elapsed() < ROUNDS {
            archive(&at);
            rounds += 1;
        }
        rounds
    });
    assert!(rounds > 10);
}

#[test]
fn recover_leaves_the_folder_through_no_link_that_is_swapped_in() {
    let s = Scratch::new();
    let (to, outside) = (s.folder("to"), s.folder("outside"));
    fs::create_dir(to.join("x")).unwrap();
    symlink("../outside", to.join("y")).unwrap();
    let bytes = old_archive(&(0..20).map(|i| member(&format!("x/{i}"), b'0', "", b"mine")).collect::<Vec<_>>());
    let at = to.clone();
    let (whole, refused) = swapped(&to, move || {
        let begun = Instant::now();
        let (mut whole, mut refused) = (0, 0);
        while begun.elapsed() < ROUNDS {
            let mut t = Untar::new(&at, Options::warning(|_| ())).unwrap();
            let done = t.take(&bytes).and_then(|_| t.commit(Instant::now() + Duration::from_secs(20)));
            *(if done.is_ok() { &mut whole } else { &mut refused }) += 1;
        }
        (whole, refused)
    });
    assert_eq!(fs::read_dir(&outside).unwrap().count(), 0, "{whole} {refused}");
    assert!(whole + refused > 10, "{whole} {refused}");
}

/// Runs the program with the names x and y of a folder swapped at its nth opening through x, for each n, until there are
/// not so many. `set` makes the folder anew, and `run` uses the vault and judges; it is told whether the names were
/// swapped. Gives the number of swaps.
fn at_each_opening(s: &Scratch, options: &[&str], set: impl Fn(), run: impl Fn(&Host, &dyn Fn() -> bool)) -> u32 {
    let (shim, tape) = (Shim::new(s), s.path("tape"));
    for n in 1..100 {
        set();
        shim.trace();
        shim.say("swap-x", n);
        let mut command = serve(&tape);
        command.args(["--listen", "127.0.0.1:0", "--quiet"]).args(options).stderr(std::process::Stdio::null());
        let host = Host::spawn(shim.before(&mut command));
        let swapped =
            || shim.folder.join("trace").exists() && has(&fs::read(shim.folder.join("trace")).unwrap(), b"swapped ");
        run(&host, &swapped);
        let trace = shim.trace();
        match trace.iter().find(|l| l.starts_with("swapped ")) {
            Some(line) => assert!(line.ends_with(" 0"), "{line}"),
            None => return n - 1,
        }
    }
    panic!("more than a hundred openings");
}

/// A folder, a file, or a file again; at each opening swapped for a link to a secret, or for a FIFO.
#[test]
fn backup_reads_nothing_else_whenever_a_name_is_swapped() {
    let s = Scratch::new();
    let (from, secret, tape) = (s.path("from"), s.folder("secret"), s.path("tape"));
    secrets(&secret);
    drop(Host::start(&tape, &["--new-cartridge", "1M"]));
    for (kind, least) in [("folder", 2), ("file", 1), ("fifo", 1)] {
        let set = || {
            let _ = fs::remove_dir_all(&from);
            fs::create_dir_all(from.join(if kind == "folder" { "x/deep/er" } else { "" })).unwrap();
            for name in if kind == "folder" { &["x/a", "x/file"][..] } else { &["x"] } {
                fs::write(from.join(name), b"one's own").unwrap();
            }
            match kind {
                "folder" => symlink("../secret", from.join("y")).unwrap(),
                "file" => symlink("../secret/file", from.join("y")).unwrap(),
                _ => assert!(Command::new("mkfifo").arg(from.join("y")).status().unwrap().success()),
            }
        };
        let swaps = at_each_opening(&s, &["--stream", text_of(&from)], set, |host, swapped| {
            assert_eq!(host.login().backup(1_024, 1 << 20).unwrap().why, DONE);
            let bytes = list(&fs::read(&tape).unwrap()).unwrap().concat();
            assert!(!has(&bytes, b"the secret of another"), "{kind}: another's file is in the archive");
            assert!(swapped() || has(&bytes, b"one's own"), "{kind}: one's own is not");
        });
        assert!(swaps >= least, "{kind}: {swaps}");
    }
}

/// A folder, at each opening swapped for a link that leads outside.
#[test]
fn recover_writes_nothing_elsewhere_whenever_a_name_is_swapped() {
    let s = Scratch::new();
    let (to, outside, tape) = (s.path("to"), s.folder("outside"), s.path("tape"));
    let members: Vec<_> = ["x/a", "b", "x/c"].iter().map(|name| member(name, b'0', "", b"mine")).collect();
    let host = Host::start(&tape, &["--new-cartridge", "1M"]);
    put_on_tape(&mut host.login(), &old_archive(&members), 512);
    drop(host);
    let set = || {
        let _ = fs::remove_dir_all(&to);
        fs::create_dir_all(to.join("x")).unwrap();
        symlink("../outside", to.join("y")).unwrap();
    };
    let swaps = at_each_opening(&s, &["--restore-to", text_of(&to)], set, |host, swapped| {
        let why = host.login().recover(512, 1 << 20).unwrap().why;
        assert_eq!(fs::read_dir(&outside).unwrap().count(), 0, "something is outside");
        assert!(swapped() || (why == DONE && fs::read(to.join("x/c")).unwrap() == b"mine"), "{why:?}");
    });
    assert!(swaps >= 3, "{swaps}");
}

/// Files that vanish, become shorter or become others while the backup goes on.
#[test]
fn what_changes_during_a_backup_is_named_and_the_backup_goes_on() {
    let s = Scratch::new();
    let (from, to, tape, log) = (s.folder("from"), s.folder("to"), s.path("tape"), s.path("log"));
    let write = || {
        for (name, n) in [("a", 3 << 20), ("b", 1_000), ("c", 2_000), ("e", 3_000)] {
            fs::write(from.join(name), noise(n, n as usize)).unwrap();
        }
        fs::create_dir_all(from.join("d/inner")).unwrap();
    };
    // Paused at the window's end: `a` is being read, and the others are not begun.
    let change = || {
        fs::File::options().write(true).open(from.join("a")).unwrap().set_len(1_500_000).unwrap();
        fs::remove_file(from.join("b")).unwrap();
        fs::remove_dir_all(from.join("d")).unwrap();
    };
    let run = |more: &[&str]| {
        write();
        let mut options = vec!["--stream", text_of(&from), "--restore-to", text_of(&to)];
        if !tape.exists() {
            options.extend(["--new-cartridge", "16M"]);
        }
        options.extend(more);
        let host = Host::logged(&tape, &log, &options);
        let mut c = host.login();
        c.begin(Mover::TO_TAPE, 32_768, 65_536).unwrap();
        assert_eq!((c.notice().unwrap().first(), c.moved().unwrap()), (Mover::END_OF_WINDOW, 65_536));
        change();
        c.window(65_536, 1 << 30).unwrap();
        c.good(MOVER_CONTINUE, b"").unwrap();
        let why = c.run(1 << 30, |_| ()).unwrap().why;
        c.finish().unwrap();
        (host, c, why)
    };
    let (_host, mut c, why) = run(&[]);
    assert_eq!(why, DONE);
    let at = |name: &str| from.join(name).display().to_string();
    told(&log, &[&format!("left out: {}: became shorter while it was read", at("a"))]);
    told(&log, &[&format!("left out: {}: No such file", at("b")), &format!("left out: {}: No such file", at("d"))]);
    told(&log, &["backup ended (successful): 2 files, 0 folders, 0 links, 3 left out"]);
    // The rest comes back; of `a`, which is not whole, nothing does.
    assert_eq!(c.recover(32_768, 1 << 30).unwrap().why, DONE);
    told(&log, &["left out: a: not whole in the archive"]);
    assert_eq!(tree(&to), [("c".into(), noise(2_000, 2_000)), ("e".into(), noise(3_000, 3_000))]);
    drop((_host, c));
    // An option makes it end; what was read before is on the tape.
    let (_host, _c, why) = run(&["--strict"]);
    assert_eq!(why, FAILED);
    told(&log, &[&format!("{}: became shorter", at("a")), "backup ended (internal error): 0 files"]);
    let (records, used) = sound(&fs::read(&tape).unwrap()).unwrap();
    assert!((1_400_000..3 << 20).contains(&used), "{records} records");
}

/// A file that is swapped for another is the other whole, or left out; one that changes is named.
#[test]
fn file_that_grows_is_named() {
    let s = Scratch::new();
    let from = s.folder("from");
    fs::write(from.join("a"), noise(1, 100_000)).unwrap();
    let said = std::sync::Arc::new(std::sync::Mutex::new(Vec::new()));
    let lines = said.clone();
    let mut options = host::tar::Options::warning(move |l| lines.lock().unwrap().push(l.to_string()));
    options.strict = false;
    let mut tar = host::tar::Tar::new(&from, options).unwrap();
    let mut part = [0; 10_000];
    let _ = tar.fill(&mut part, Duration::from_secs(1));
    fs::File::options().append(true).open(from.join("a")).unwrap().set_len(200_000).unwrap();
    let mut all = part.to_vec();
    while !tar.is_over() {
        let (n, how) = tar.fill(&mut part, Duration::from_secs(1));
        how.unwrap();
        all.extend(&part[..n]);
    }
    assert!(said.lock().unwrap().iter().any(|l| l.starts_with("changed while it was read: ")));
    let to = s.folder("to");
    let mut t = Untar::new(&to, Options::warning(|_| ())).unwrap();
    t.take(&all).unwrap();
    assert!(t.done() && t.is_proved() && t.commit(Instant::now() + Duration::from_secs(20)).unwrap());
    assert_eq!(fs::read(to.join("a")).unwrap(), noise(1, 100_000));
}

/// What an archive keeps: owners where the host may set them, hard links, parts of a second, holes; and what it does not.
#[test]
fn owners_links_times_and_holes_come_back() {
    let s = Scratch::new();
    let (from, to) = (s.folder("from"), s.folder("to"));
    fs::create_dir(from.join("d")).unwrap();
    fs::write(from.join("a"), noise(1, 5_000)).unwrap();
    fs::hard_link(from.join("a"), from.join("d/b")).unwrap();
    symlink("a", from.join("l")).unwrap();
    let sparse = fs::File::create(from.join("sparse")).unwrap();
    sparse.set_len(4 << 20).unwrap();
    sparse.write_all_at(&noise(2, 10_000), 1 << 20).unwrap();
    fs::write(from.join("full"), vec![0; 100_000]).unwrap();
    let early = std::time::UNIX_EPOCH - Duration::new(5, 250_000_000);
    fs::File::open(from.join("full")).unwrap().set_modified(early).unwrap();
    fs::set_permissions(from.join("full"), fs::Permissions::from_mode(0o4755)).unwrap();
    let root = fs::metadata("/proc/self").unwrap().uid() == 0;
    if root {
        for (name, user, group) in [("a", 1_234, 5_678), ("l", 4, 5), ("d", 3_000_000, 7), ("full", 8, 3_000_001)] {
            std::os::unix::fs::lchown(from.join(name), Some(user), Some(group)).unwrap();
        }
        // A change of owner takes these bits away.
        fs::set_permissions(from.join("full"), fs::Permissions::from_mode(0o4755)).unwrap();
    }
    let said = std::sync::Arc::new(std::sync::Mutex::new(Vec::new()));
    let lines = said.clone();
    let mut t = Untar::new(&to, Options::warning(move |l| lines.lock().unwrap().push(l.to_string()))).unwrap();
    t.take(&archive(&from)).unwrap();
    assert!(t.done() && t.is_proved() && t.commit(Instant::now() + Duration::from_secs(20)).unwrap());
    assert_eq!(tree(&from), tree(&to));
    for name in ["a", "d", "d/b", "l", "sparse", "full"] {
        let (a, b) = (from.join(name).symlink_metadata().unwrap(), to.join(name).symlink_metadata().unwrap());
        assert_eq!((a.uid(), a.gid(), a.nlink()), (b.uid(), b.gid(), b.nlink()), "{name}");
        assert_eq!((a.mtime(), a.mtime_nsec()), (b.mtime(), b.mtime_nsec()), "{name}");
    }
    assert_eq!(to.join("a").metadata().unwrap().ino(), to.join("d/b").metadata().unwrap().ino());
    let blocks = |p: &Path| p.metadata().unwrap().blocks() * 512;
    assert!(blocks(&to.join("sparse")) < 1 << 20, "a hole stays a hole");
    assert!(blocks(&to.join("full")) >= 100_000, "zeros that were no hole become none");
    // No bit that lets others run it as its owner.
    assert_eq!(to.join("full").metadata().unwrap().mode() & 0o7777, 0o755);
    assert_eq!(*said.lock().unwrap(), ["set-uid, set-gid and sticky bits are not restored: full"]);
}

#[test]
fn attributes_that_are_not_kept_are_named() {
    let s = Scratch::new();
    let from = s.folder("from");
    fs::write(from.join("a"), b"a").unwrap();
    let set = Command::new("setfattr").args(["-n", "user.note", "-v", "x", text_of(&from.join("a"))]).status();
    let python = "import os,sys; os.setxattr(sys.argv[1], 'user.note', b'x')";
    let set = set.is_ok_and(|s| s.success())
        || Command::new("python3").args(["-c", python, text_of(&from.join("a"))]).status().is_ok_and(|s| s.success());
    if !set {
        return println!("no program here sets attributes, or the disk has none");
    }
    let said = std::sync::Arc::new(std::sync::Mutex::new(Vec::new()));
    let lines = said.clone();
    archive_with(&from, host::tar::Options::warning(move |l| lines.lock().unwrap().push(l.to_string()))).unwrap();
    let name = from.join("a").display().to_string();
    assert_eq!(*said.lock().unwrap(), [format!("extended attributes are not kept: {name}")]);
}
