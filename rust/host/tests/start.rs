//! Errors at the start: each is told in a line, with an exit code.
mod common;
use common::*;
use std::fs;
use std::path::Path;

/// The exit code and standard error of a start that must fail.
fn failed(cartridge: &Path, more: &[&str]) -> (i32, String) {
    let done = finished(serve(cartridge).args(more));
    assert!(done.stdout.is_empty());
    (done.status.code().unwrap(), String::from_utf8(done.stderr).unwrap())
}

const ANY: [&str; 2] = ["--listen", "127.0.0.1:0"];

#[test]
fn wrong_lines() {
    let s = Scratch::new();
    for (line, why) in [
        (&["--listen"][..], "--listen: a value is missing"),
        (&["--nonsense"], "unknown option --nonsense"),
        (&["--quite"], "unknown option --quite (did you mean --quiet?)"),
        (&[], "--listen ADDRESS:PORT is missing"),
        (&["--new-cartridge", "129M"], "--new-cartridge: 129M"),
        (&["--new-cartridge=x"], "--new-cartridge: x"),
        (&["--account", "nobody"], "--account: expected ID:PASSWORD"),
        (&["--idle", "0"], "--idle: 0"),
        (&["--accounts"], "--accounts: a value is missing"),
        (&["tape"], "serve takes options only"),
    ] {
        let (code, text) = failed(&s.path("tape"), line);
        assert_eq!(code, 2, "{text}");
        assert!(text.contains(why), "{text}");
        assert!(text.ends_with("; `mossgoblin serve --help` has examples\n") && text.lines().count() == 1, "{text}");
    }
    assert!(!s.path("tape").exists());
}

#[test]
fn port_in_use() {
    let s = Scratch::new();
    let host = Host::start(&s.path("tape"), &["--new-cartridge", "1M"]);
    let (code, text) = failed(&s.path("other"), &["--listen", &host.address, "--new-cartridge", "1M"]);
    assert_eq!(code, 1);
    assert!(text.contains(&format!("--listen {}", host.address)) && text.contains("in use"), "{text}");
    assert!(!s.path("other").exists());
}

#[test]
fn cartridge_in_use_or_there_already() {
    let s = Scratch::new();
    let tape = s.path("tape");
    let host = Host::start(&tape, &["--new-cartridge", "1M"]);
    assert!(failed(&tape, &ANY).1.contains("in use by another program"));
    drop(host);
    let (code, text) = failed(&tape, &[&ANY[..], &["--new-cartridge", "1M"]].concat());
    assert!(code == 1 && text.contains("exists already"), "{text}");
    assert_eq!(fs::read_dir(&s.0).unwrap().count(), 1, "nothing is left beside it");
}

#[test]
fn bad_cartridge() {
    let s = Scratch::new();
    let tape = s.path("tape");
    assert!(failed(&tape, &ANY).1.contains("no such file; --new-cartridge"));
    drop(Host::start(&tape, &["--new-cartridge", "1M"]));
    let good = fs::read(&tape).unwrap();
    assert_eq!(sound(&good), Ok((0, 0)));
    // Empty, cut, and with a wrong word at each place of the header.
    let mut bads = vec![Vec::new(), good[..15].to_vec(), good[..16 + 8 * 4096 - 1].to_vec()];
    for at in [3, 5, 9, 15] {
        let mut b = good.clone();
        b[at] ^= 0x10;
        assert!(sound(&b).is_err());
        bads.push(b);
    }
    for bad in bads {
        fs::write(&tape, bad).unwrap();
        let (code, text) = failed(&tape, &ANY);
        assert!(code == 1 && text.contains("not a sound cartridge image"), "{text}");
    }
    let (code, text) = failed(&s.0, &ANY);
    assert!(code == 1 && text.contains("cartridge"), "{text}");
}

#[test]
fn missing_folders() {
    let s = Scratch::new();
    let (tape, none) = (s.path("tape"), s.path("none"));
    for option in [["--stream", none.to_str().unwrap()], ["--restore-to", none.join("x").to_str().unwrap()]] {
        let (code, text) = failed(&tape, &[&ANY[..], &["--new-cartridge", "1M"], &option].concat());
        assert!(code == 1 && text.contains(option[0]) && text.to_lowercase().contains("no such"), "{text}");
        assert!(!tape.exists());
    }
}

#[test]
fn progress_is_told_or_not() {
    let s = Scratch::new();
    let (from, tape) = (s.path("from"), s.path("tape"));
    fs::write(&from, noise(1, 2_500)).unwrap();
    let log = |quiet: bool| {
        let text = s.path("log");
        let mut command = serve(&tape);
        command.args(["--listen", "127.0.0.1:0"]).arg("--stream").arg(&from);
        if quiet {
            command.arg("--quiet");
        } else {
            command.args(["--new-cartridge", "1M"]);
        }
        let host = Host::spawn(command.stderr(fs::File::create(&text).unwrap()));
        let mut c = host.login();
        c.backup(1_024, 2_048).unwrap();
        drop((c, host));
        fs::read_to_string(text).unwrap()
    };
    let told = log(false);
    // Behind the time.
    let mut lines = told.lines().map(|l| l.split_once(' ').unwrap().1).filter(|l| l.starts_with("session 1: data"));
    for start in [
        "data IDLE, mover LISTEN, 0 bytes, window 0 + 2048",
        "data CONNECTED, mover ACTIVE, 0 bytes, window 0 + 2048",
        "data ACTIVE, mover ACTIVE, 0 bytes, window 0 + 2048",
        "data ACTIVE, mover PAUSED (end of window), 2048 bytes at ",
        "data ACTIVE, mover ACTIVE, 2048 bytes, window 2048 + 2048",
        "data ACTIVE, mover PAUSED (end of window), 4096 bytes at ",
        "data ACTIVE, mover ACTIVE, 4096 bytes, window 4096 + 2048",
        "data ACTIVE, mover PAUSED (end of window), 6144 bytes at ",
        "data ACTIVE, mover ACTIVE, 6144 bytes, window 6144 + 2048",
        "data HALTED (successful), mover HALTED (connection closed), 7168 bytes at ",
        "data IDLE, mover HALTED (connection closed), 7168 bytes, window 6144 + 2048",
        "data IDLE, mover IDLE, 0 bytes",
    ] {
        let line = lines.next().unwrap();
        assert!(line.starts_with(&format!("session 1: {start}")), "{line}");
    }
    assert_eq!(lines.next(), None);
    assert_eq!(log(true), "");
}
