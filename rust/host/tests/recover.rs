//! A recover loses nothing: not the cartridge, not what stood there, and it is never told as whole what is not.
mod common;
use common::*;
use std::fs;
use std::os::unix::fs::{FileExt, MetadataExt, PermissionsExt, symlink};
use std::path::Path;
use std::process::Command;
use std::time::Duration;

const ANY: [&str; 2] = ["--listen", "127.0.0.1:0"];

fn text_of(path: &Path) -> &str {
    path.to_str().unwrap()
}

/// Standard error of a start that must fail with 1.
fn refused(cartridge: &Path, more: &[&str]) -> String {
    let done = finished(serve(cartridge).args(ANY).args(more));
    assert_eq!(done.status.code(), Some(1));
    String::from_utf8(done.stderr).unwrap()
}

/// Names that begin as temporary ones do, anywhere below.
fn temporary(folder: &Path) -> usize {
    let is = |name: &Path| name.file_name().unwrap().to_str().is_some_and(|n| n.starts_with(".mossgoblin-"));
    tree(folder).iter().filter(|(name, _)| is(name)).count()
}

#[test]
fn cartridge_is_no_target_at_the_start() {
    let s = Scratch::new();
    let (tape, link, other) = (s.path("tape"), s.path("link"), s.path("other"));
    // By its name before it is there, and by another way to write it: nothing is made.
    let again = s.0.join("./tape");
    for to in [&tape, &again] {
        let why = refused(&tape, &["--new-cartridge", "1M", "--restore-to", text_of(to)]);
        assert!(why.contains("--restore-to") && why.contains("is the cartridge itself"), "{why}");
        assert!(!tape.exists());
    }
    drop(Host::start(&tape, &["--new-cartridge", "1M"]));
    let before = fs::read(&tape).unwrap();
    // By a link to it, and by a second name of it.
    symlink(&tape, &link).unwrap();
    fs::hard_link(&tape, &other).unwrap();
    for to in [&tape, &link, &other] {
        let why = refused(&tape, &["--restore-to", text_of(to)]);
        assert!(why.contains("is the cartridge itself"), "{why}");
    }
    let why = refused(&link, &["--restore-to", text_of(&tape)]);
    assert!(why.contains("is the cartridge itself"), "{why}");
    assert!(refused(&tape, &["--restore-to", "/dev/null"]).contains("neither a folder nor a file"));
    assert_eq!(fs::read(&tape).unwrap(), before);
}

#[test]
fn cartridge_is_no_target_of_an_entry() {
    let s = Scratch::new();
    let (to, log) = (s.folder("to"), s.path("log"));
    let tape = to.join("tape");
    drop(Host::start(&tape, &["--new-cartridge", "1M"]));
    fs::create_dir(to.join("in")).unwrap();
    fs::hard_link(&tape, to.join("in/second")).unwrap();
    let inode = tape.metadata().unwrap().ino();
    let link = to.join("name");
    symlink("tape", &link).unwrap();
    // The vault was started by a link: it is not replaced either, for the next start needs it.
    let host = Host::logged(&link, &log, &["--restore-to", text_of(&to)]);
    let mut c = host.login();
    for name in ["tape", "in/second", "name"] {
        for kind in [b'0', b'2'] {
            put_on_tape(&mut c, &old_archive(&[member("a", b'0', "", b"a"), member(name, kind, "", b"")]), 512);
            assert_eq!(c.recover(512, 51_200).unwrap().why, FAILED, "{name}");
            told(&log, &[&format!("{name}: refused, is the cartridge of this vault")]);
            assert!(!to.join("a").exists(), "what came before it has no name yet");
        }
    }
    assert_eq!((tape.metadata().unwrap().ino(), temporary(&to)), (inode, 0));
    assert!(link.is_symlink());
    sound(&fs::read(&tape).unwrap()).unwrap();
    // What the tape has is still told.
    c.tape_open(TO_READ).unwrap();
    c.good(TAPE_READ, &words(&[512])).unwrap();
}

/// A backup leaves the cartridge out: it would hold itself.
#[test]
fn cartridge_is_not_backed_up() {
    let s = Scratch::new();
    let (from, to, log) = (s.folder("from"), s.folder("to"), s.path("log"));
    fs::write(from.join("a"), b"a").unwrap();
    let options = ["--new-cartridge", "1M", "--stream", text_of(&from), "--restore-to", text_of(&to)];
    let host = Host::logged(&from.join("tape"), &log, &options);
    let mut c = host.login();
    assert_eq!(c.backup(512, 51_200).unwrap().why, DONE);
    told(&log, &["tape: the cartridge itself", "backup ended (successful): 1 files, 0 folders, 0 links, 1 left out"]);
    assert_eq!(c.recover(512, 51_200).unwrap().why, DONE);
    assert_eq!(tree(&to), [("a".into(), b"a".to_vec())]);
}

#[test]
fn nothing_is_told_of_a_cartridge_that_is_another_file() {
    let s = Scratch::new();
    type Change = fn(&Path);
    let changes: [(&str, Change); 4] = [
        ("has no longer its name", |tape| fs::rename(tape, tape.with_extension("away")).unwrap()),
        ("was removed", |tape| fs::remove_file(tape).unwrap()),
        ("was replaced: another file has its name", |tape| {
            let copy = tape.with_extension("copy");
            fs::copy(tape, &copy).unwrap();
            fs::rename(tape, tape.with_extension("old")).unwrap();
            fs::rename(copy, tape).unwrap();
        }),
        ("has another length", |tape| fs::OpenOptions::new().write(true).open(tape).unwrap().set_len(40_000).unwrap()),
    ];
    for (i, (why, change)) in changes.into_iter().enumerate() {
        let (tape, log) = (s.path(&format!("tape{i}")), s.path(&format!("log{i}")));
        let host = Host::logged(&tape, &log, &["--new-cartridge", "1M", "--quiet"]);
        let mut c = host.login();
        c.tape_open(TO_WRITE).unwrap();
        c.good(TAPE_WRITE, &text([1; 1_000])).unwrap();
        change(&tape);
        // A write, and a request that only asks: the connection ends, and no reply came.
        assert!(c.ask(TAPE_WRITE, &text([2; 1_000])).is_err(), "{why}");
        told(&log, &[&format!("session 1: the cartridge {} {why}; nothing more is told", tape.display())]);
        let mut c = host.login();
        assert!(c.tape_open(TO_READ).is_err());
        // Other sessions go on.
        host.login().good(CONFIG_GET_SERVER_INFO, b"").unwrap();
    }
}

#[test]
fn cartridge_is_made_whole_and_for_its_owner_alone() {
    let s = Scratch::new();
    let tape = s.path("tape");
    assert!(program().arg("new").arg(&tape).arg("3M").output().unwrap().status.success());
    let meta = tape.metadata().unwrap();
    assert_eq!(meta.permissions().mode() & 0o7777, 0o600);
    assert!(meta.blocks() * 512 >= meta.len(), "{} blocks of {} bytes", meta.blocks(), meta.len());
    // One with holes, as it was made before, gets its blocks at the start.
    let old = s.path("old");
    fs::copy(&tape, &old).unwrap();
    let file = fs::OpenOptions::new().write(true).open(&old).unwrap();
    file.set_len(16).unwrap();
    file.set_len(meta.len()).unwrap();
    assert!(old.metadata().unwrap().blocks() * 512 < meta.len());
    drop(Host::start(&old, &[]));
    assert!(old.metadata().unwrap().blocks() * 512 >= meta.len());
    assert_eq!(fs::read(&old).unwrap(), fs::read(&tape).unwrap());
}

#[test]
fn what_stood_there_stays_until_the_stream_is_whole() {
    let s = Scratch::new();
    let (from, to, tape) = (s.folder("from"), s.folder("to"), s.path("tape"));
    sample(&from);
    sample(&to);
    fs::write(to.join("a"), b"stood there").unwrap();
    fs::create_dir(from.join("new")).unwrap();
    fs::write(from.join("new/file"), noise(3, 5_000)).unwrap();
    let before = tree(&to);
    let whole = archive(&from);
    let last = whole.len() - 1_024 - 1_024 - 512;
    let mut changes: Vec<Vec<u8>> = Vec::new();
    // Cut at several places; a bit changed in the start, in a header, in a file, in the last file, in the digest.
    changes
        .extend([0, 512, 1_024, 3_000, 100_000, whole.len() - 2_048, whole.len() - 1_600].map(|n| whole[..n].to_vec()));
    for at in [3, 700, 1_600, 150_000, last, whole.len() - 1_500, whole.len() - 2_000] {
        let mut changed = whole.clone();
        changed[at] ^= 1;
        changes.push(changed);
    }
    // A record of zeros at the start, or in between.
    for at in [0, 10_240] {
        let mut changed = whole.clone();
        changed[at..at + 5_120].fill(0);
        changes.push(changed);
    }
    // Each on a tape of its own, so that nothing lies behind it; a short one without fill.
    fs::write(&tape, b"").unwrap();
    for (i, bytes) in changes.iter().enumerate() {
        fs::remove_file(&tape).unwrap();
        let host = Host::start(&tape, &["--new-cartridge", "1M", "--restore-to", text_of(&to)]);
        let mut c = host.login();
        let record = if bytes.len() <= 3_000 { 500 } else { 10_240 };
        put_on_tape(&mut c, bytes, record);
        assert_eq!(c.recover(record as u32, record as u64 * 5_000).unwrap().why, FAILED, "change {i}");
        assert!(tree(&to) == before, "change {i}");
    }
    fs::remove_file(&tape).unwrap();
    let host = Host::start(&tape, &["--new-cartridge", "1M", "--restore-to", text_of(&to)]);
    let mut c = host.login();
    put_on_tape(&mut c, &whole, 10_240);
    assert_eq!(c.recover(10_240, 51_200_000).unwrap().why, DONE);
    assert_eq!(tree(&to), tree(&from));
}

#[test]
fn file_is_restored_whole_or_not_at_all() {
    let s = Scratch::new();
    let (from, folder, tape, log) = (s.path("from"), s.folder("in"), s.path("tape"), s.path("log"));
    let to = folder.join("to");
    fs::write(&from, noise(4, 25_000)).unwrap();
    fs::set_permissions(&from, fs::Permissions::from_mode(0o640)).unwrap();
    let options = ["--new-cartridge", "1M", "--stream", text_of(&from), "--restore-to", text_of(&to)];
    let host = Host::logged(&tape, &log, &options);
    let mut c = host.login();
    // A blank tape.
    assert_eq!(c.recover(10_240, 102_400).unwrap().why, FAILED);
    told(&log, &["there is no stream on the tape here"]);
    assert!(!to.exists());
    // 25,000 bytes come back as 25,000, with a window that is as long as what the backup wrote.
    assert_eq!(c.backup(10_240, 102_400).unwrap().why, DONE);
    let (records, used) = sound(&fs::read(&tape).unwrap()).unwrap();
    assert_eq!((records, used), (3, 30_720));
    assert_eq!(c.recover(10_240, used).unwrap(), ended(0, DONE));
    assert_eq!(fs::read(&to).unwrap(), fs::read(&from).unwrap());
    assert_eq!(to.metadata().unwrap().mode(), from.metadata().unwrap().mode());
    told(&log, &["recover ended (successful): 1 files, 0 folders, 0 links, 0 left out; digest right"]);
    // Every other length of the file, too.
    for n in [0, 1, 511, 512, 513, 10_240] {
        fs::write(&from, noise(n as u64, n)).unwrap();
        assert_eq!(c.backup(1_024, 102_400).unwrap().why, DONE);
        assert_eq!(c.recover(1_024, 102_400).unwrap().why, DONE);
        assert_eq!(fs::read(&to).unwrap(), noise(n as u64, n), "{n} bytes");
    }
    // A backup that was killed half way, and one with a changed byte.
    let bytes = noise(5, 25_000);
    fs::write(&from, &bytes).unwrap();
    let whole = archive(&from);
    fs::write(&to, b"stood there").unwrap();
    let mut changed = whole.clone();
    changed[20_000] ^= 4;
    let mut headless = whole.clone();
    headless[..1_024].fill(b'x');
    // Changed at its start and cut short as well.
    let mut both = whole[..10_240].to_vec();
    both[3] ^= 1;
    for bytes in [&whole[..10_240], &whole[..1_000], &changed, &headless, &both] {
        let blank = s.path("blank");
        let _ = fs::remove_file(&blank);
        let host = Host::start(&blank, &["--new-cartridge", "1M", "--restore-to", text_of(&to)]);
        let mut c = host.login();
        put_on_tape(&mut c, bytes, 500);
        assert_eq!(c.recover(500, 500_000).unwrap().why, FAILED);
        assert_eq!(fs::read(&to).unwrap(), b"stood there");
    }
    assert_eq!(fs::read_dir(&folder).unwrap().count(), 1, "nothing else is left");
}

/// Streams that older vaults wrote: a file's bytes with fill, and an archive without a digest.
#[test]
fn old_streams_are_restored_and_named() {
    let s = Scratch::new();
    let (to, folder, log) = (s.path("to"), s.folder("folder"), s.path("log"));
    fs::write(&to, b"stood there").unwrap();
    fs::set_permissions(&to, fs::Permissions::from_mode(0o604)).unwrap();
    let bytes = noise(6, 3_000);
    {
        let host = Host::logged(&s.path("tape"), &log, &["--new-cartridge", "1M", "--restore-to", text_of(&to)]);
        let mut c = host.login();
        put_on_tape(&mut c, &bytes, 1_024);
        assert_eq!(c.recover(1_024, 102_400).unwrap().why, DONE);
        let mut filled = bytes.clone();
        filled.resize(3_072, 0);
        assert_eq!(fs::read(&to).unwrap(), filled);
        assert_eq!(to.metadata().unwrap().mode() & 0o7777, 0o604);
        told(&log, &["the stream carries no digest", "digest not told"]);
        // A client that knows the length gives it.
        c.tape_open(TO_READ).unwrap();
        c.join(1, 1_024, 102_400).unwrap();
        c.good(MOVER_READ, &quads(&[0, 3_000])).unwrap();
        c.start_recover().unwrap();
        assert_eq!(c.run(0, |_| ()).unwrap(), ended(0, DONE));
        assert_eq!(fs::read(&to).unwrap(), bytes);
        c.finish().unwrap();
        // From the middle it would be told as a whole file.
        c.tape_open(TO_READ).unwrap();
        c.join(1, 1_024, 102_400).unwrap();
        c.good(MOVER_READ, &quads(&[1_024, 512])).unwrap();
        c.start_recover().unwrap();
        assert_eq!(c.run(0, |_| ()).unwrap(), ended(0, FAILED));
        assert_eq!(fs::read(&to).unwrap(), bytes);
    }
    let host = Host::logged(&s.path("tape"), &log, &["--restore-to", text_of(&folder)]);
    let mut c = host.login();
    put_on_tape(&mut c, &old_archive(&[member("d/f", b'0', "", b"hello"), member("l", b'2', "d/f", b"")]), 1_024);
    assert_eq!(c.recover(1_024, 102_400).unwrap().why, DONE);
    assert_eq!(fs::read(folder.join("l")).unwrap(), b"hello");
    told(&log, &["the stream carries no digest"]);
}

/// A folder's archive may be restored to a file: it is the archive, without the fill.
#[test]
fn archive_comes_back_as_a_file() {
    let s = Scratch::new();
    let (from, to) = (s.folder("from"), s.path("to.tar"));
    sample(&from);
    let options = ["--new-cartridge", "1M", "--stream", text_of(&from), "--restore-to", text_of(&to)];
    let host = Host::start(&s.path("tape"), &options);
    let mut c = host.login();
    assert_eq!(c.backup(10_000, 1_000_000).unwrap().why, DONE);
    assert_eq!(c.recover(10_000, 1_000_000).unwrap().why, DONE);
    assert!(fs::read(&to).unwrap() == archive(&from));
}

fn tar(args: &[&str]) -> String {
    let done = Command::new("tar").args(args).env("LC_ALL", "C").output().unwrap();
    let err = String::from_utf8(done.stderr).unwrap();
    assert!(done.status.success() && err.is_empty(), "tar {args:?}: {err}");
    String::from_utf8(done.stdout).unwrap()
}

/// The real tar lists and unpacks what a backup makes, and has nothing to complain about.
#[test]
fn tar_reads_the_stream() {
    let s = Scratch::new();
    let (from, file) = (s.folder("from"), s.path("from.tar"));
    sample(&from);
    fs::hard_link(from.join("a"), from.join("second")).unwrap();
    let sparse = fs::File::create(from.join("sparse")).unwrap();
    sparse.set_len(200_000).unwrap();
    sparse.write_all_at(b"middle", 100_000).unwrap();
    for source in [&from, &from.join("inner/block")] {
        let to = s.folder("to");
        fs::write(&file, archive(source)).unwrap();
        let listed = tar(&["-tvf", text_of(&file)]);
        assert!(listed.contains("block"), "{listed}");
        tar(&["-xpf", text_of(&file), "-C", text_of(&to)]);
        if source == &from {
            assert_eq!(tree(&from), tree(&to));
            for name in ["a", "inner", "inner/block"] {
                let (a, b) = (from.join(name).metadata().unwrap(), to.join(name).metadata().unwrap());
                assert_eq!((a.mode(), a.mtime(), a.mtime_nsec()), (b.mode(), b.mtime(), b.mtime_nsec()), "{name}");
            }
            assert_eq!(to.join("a").metadata().unwrap().ino(), to.join("second").metadata().unwrap().ino());
        } else {
            assert_eq!(fs::read(to.join("block")).unwrap(), noise(1, 512));
        }
        fs::remove_dir_all(&to).unwrap();
    }
}

#[test]
fn killed_recover_leaves_what_stood_there() {
    let s = Scratch::new();
    let (from, to, tape) = (s.folder("from"), s.folder("to"), s.path("tape"));
    for i in 0..300 {
        fs::write(from.join(format!("{i}")), noise(i, 20_000)).unwrap();
        fs::write(to.join(format!("{i}")), b"stood there").unwrap();
    }
    let mut host = Host::start(&tape, &["--new-cartridge", "16M", "--stream", text_of(&from)]);
    assert_eq!(host.login().backup(32_768, 1 << 30).unwrap().why, DONE);
    let (mut rounds, mut partial, mut told) = (0, 0, 0);
    // The last one is killed when it is told that all is done.
    for wait in [1, 5, 20, 40, 80, 120, 200].map(Some).into_iter().chain([None]) {
        drop(host);
        host = Host::start(&tape, &["--restore-to", text_of(&to)]);
        let mut c = host.login();
        c.begin(Mover::FROM_TAPE, 32_768, 1 << 30).unwrap();
        let client = std::thread::spawn(move || c.run(1 << 30, |_| ()).is_ok_and(|e| e.why == DONE));
        match wait {
            Some(wait) => std::thread::sleep(Duration::from_millis(wait)),
            None => _ = soon(|| client.is_finished().then_some(())),
        }
        host.child.kill().unwrap();
        host.child.wait().unwrap();
        let whole = client.join().unwrap();
        told += whole as u32;
        partial += (temporary(&to) > 0) as u32;
        for i in 0..300 {
            let bytes = fs::read(to.join(format!("{i}"))).unwrap();
            assert!((!whole && bytes == b"stood there") || bytes == noise(i, 20_000), "file {i} is neither");
            fs::write(to.join(format!("{i}")), b"stood there").unwrap();
        }
        for (name, _) in tree(&to).iter().filter(|(n, _)| n.to_str().unwrap().starts_with(".mossgoblin-")) {
            fs::remove_file(to.join(name)).unwrap();
        }
        assert_eq!(fs::read_dir(&to).unwrap().count(), 300, "and nothing else is left");
        rounds += 1;
    }
    println!("{rounds} kills, {partial} in the midst, {told} after the end was told");
    assert!(partial > 0 && told > 0);
}
