//! The variables of a start: given back when the client asks, told in the log, and each session's own.
mod common;
use common::far::{self, End};
use common::*;
use std::fs;
use std::path::Path;

type Variables = Vec<(Vec<u8>, Vec<u8>)>;

fn list(of: &[(&str, &str)]) -> Variables {
    of.iter().map(|(name, value)| (name.as_bytes().to_vec(), value.as_bytes().to_vec())).collect()
}

/// What is given back of these, where the client gave no separator.
fn back(of: &[(&str, &str)]) -> Variables {
    list(&[of, &[("PATHNAME_SEPARATOR", "/")]].concat())
}

/// As XDR has them.
fn pairs(of: &[(&str, &str)]) -> Vec<u8> {
    let texts = of.iter().flat_map(|(name, value)| [text(name), text(value)]);
    [words(&[of.len() as u32]), texts.flatten().collect()].concat()
}

fn start_backup(c: &mut Client, of: &[(&str, &str)], error: u32) {
    c.expect(DATA_START_BACKUP, &[text("dump"), pairs(of)].concat(), error).unwrap();
}

fn start_recover(c: &mut Client, of: &[(&str, &str)]) {
    c.good(DATA_START_RECOVER, &[pairs(of), words(&[0]), text("dump")].concat()).unwrap();
}

/// What the vault gives back.
fn environment(c: &mut Client) -> Variables {
    let reply = c.good(DATA_GET_ENV, b"").unwrap();
    let mut at = 8;
    let mut next = || {
        let n = word(&reply, at) as usize;
        let text = reply[at + 4..at + 4 + n].to_vec();
        at += 4 + n.next_multiple_of(4);
        text
    };
    let all = (0..word(&reply, 4)).map(|_| (next(), next())).collect();
    assert_eq!(at, reply.len());
    all
}

fn refused(c: &mut Client) {
    assert_eq!(c.expect(DATA_GET_ENV, b"", codes::ILLEGAL_STATE).unwrap().len(), 8);
}

/// A data end that is HALTED and was not started.
fn halt_unstarted(c: &mut Client) {
    c.good(DATA_LISTEN, &words(&[codes::LOCAL_ADDRESS])).unwrap();
    refused(c);
    c.good(DATA_ABORT, b"").unwrap();
    assert_eq!(c.noticed(NOTIFY_DATA_HALTED).unwrap(), Data::ABORTED);
}

fn prepare(c: &mut Client, mode: u32) {
    c.tape_open(if mode == Mover::TO_TAPE { TO_WRITE } else { TO_READ }).unwrap();
    c.join(mode, 10_240, 10_240_000).unwrap();
}

fn backup_to_halt(c: &mut Client, of: &[(&str, &str)]) {
    prepare(c, Mover::TO_TAPE);
    start_backup(c, of, 0);
    assert_eq!(c.run(0, |_| ()).unwrap().why, DONE);
}

fn lines(log: &Path, part: &str) -> Vec<String> {
    fs::read_to_string(log).unwrap().lines().filter(|l| l.contains(part)).map(String::from).collect()
}

fn text_of(path: &Path) -> &str {
    path.to_str().unwrap()
}

#[test]
fn variables_are_given_back() {
    let s = Scratch::new();
    let (from, to) = (s.folder("from"), s.folder("to"));
    fs::write(from.join("a"), noise(1, 50_000)).unwrap();
    let options = ["--new-cartridge", "1M", "--stream", text_of(&from), "--restore-to", text_of(&to)];
    let host = Host::start(&s.path("tape"), &options);
    let mut c = host.login();
    refused(&mut c);
    let given = [("FILESYSTEM", text_of(&from)), ("HIST", "n"), ("", "no name"), ("EMPTY", ""), ("HIST", "y")];
    // A window that ends before the stream: the data end is ACTIVE for as long as the client likes.
    c.tape_open(TO_WRITE).unwrap();
    c.join(Mover::TO_TAPE, 10_240, 20_480).unwrap();
    refused(&mut c);
    start_backup(&mut c, &given, 0);
    assert_eq!(environment(&mut c), back(&given));
    assert_eq!(c.run(20_480, |_| ()).unwrap().why, DONE);
    for _ in 0..2 {
        assert_eq!(environment(&mut c), back(&given));
    }
    c.finish().unwrap();
    refused(&mut c);
    // After data stop there are none.
    halt_unstarted(&mut c);
    assert_eq!(environment(&mut c), back(&[]));
    c.good(DATA_STOP, b"").unwrap();
    // A recover's, and a separator of the client's own.
    let own = [("PATHNAME_SEPARATOR", "\\"), ("PREFIX", "/vol")];
    prepare(&mut c, Mover::FROM_TAPE);
    start_recover(&mut c, &own);
    assert_eq!(c.run(0, |_| ()).unwrap().why, DONE);
    assert_eq!(environment(&mut c), list(&own));
    c.finish().unwrap();
    assert_eq!(fs::read(to.join("a")).unwrap(), noise(1, 50_000));
}

#[test]
fn variables_fill_the_store_and_no_more() {
    let s = Scratch::new();
    let from = s.folder("from");
    let (tape, log) = (s.path("tape"), s.path("log"));
    let host = Host::logged(&tape, &log, &["--new-cartridge", "1M", "--stream", text_of(&from)]);
    let mut c = host.login();
    let most = "x".repeat(codes::STORE_LENGTH - 4 - 16 - 1);
    prepare(&mut c, Mover::TO_TAPE);
    start_backup(&mut c, &[("A", &format!("{most}x"))], codes::NO_MEMORY);
    refused(&mut c);
    told(&log, &["refused: data start backup (0x401) with 22 (more variables than the vault keeps)\n"]);
    start_backup(&mut c, &[("A", &most)], 0);
    assert_eq!(c.run(0, |_| ()).unwrap().why, DONE);
    assert_eq!(environment(&mut c), back(&[("A", &most)]));
    c.finish().unwrap();
    // Of 64 there are 65 with the separator.
    let many: Vec<(String, String)> = (0..64).map(|i| (format!("NAME{i}"), format!("value {i}"))).collect();
    let many: Vec<(&str, &str)> = many.iter().map(|(name, value)| (&name[..], &value[..])).collect();
    backup_to_halt(&mut c, &many);
    assert_eq!(environment(&mut c), back(&many));
    // The log has the value's first characters, and the first pairs.
    let cut = "x".repeat(200);
    told(&log, &[&format!("backup starts with 1 variables: A=\"{cut}\"..\n")]);
    told(&log, &["backup starts with 64 variables: NAME0=\"value 0\", NAME1=", "NAME15=\"value 15\", and 48 more\n"]);
    assert!(lines(&log, "NAME16").is_empty());
}

#[test]
fn variables_are_told() {
    let s = Scratch::new();
    let (from, to, log) = (s.folder("from"), s.folder("to"), s.path("log"));
    let options = ["--new-cartridge", "1M", "--stream", text_of(&from), "--restore-to", text_of(&to)];
    let host = Host::logged(&s.path("tape"), &log, &options);
    let mut c = host.login();
    // Nothing given, nothing told.
    backup_to_halt(&mut c, &[]);
    c.finish().unwrap();
    told(&log, &["backup ended (successful)"]);
    assert!(lines(&log, "variables").is_empty());
    // What a client would make of the log.
    backup_to_halt(&mut c, &[("FILESYSTEM", "/vol\n\x1b[2J"), ("TYPE", "\", HIST=\"y"), ("A B", "\u{202e}\\")]);
    c.finish().unwrap();
    let line = "session 1: backup starts with 3 variables: FILESYSTEM=\"/vol\\n\\u{1b}[2J\", TYPE=\"\"\", HIST=\"\"y\", \
                \"A B\"=\"\\u{202e}\\\\\"\n";
    let served = format!(
        "session 1: asks for FILESYSTEM \"/vol\\n\\u{{1b}}[2J\"; the vault backs up {}, as --stream says\n",
        from.display()
    );
    told(&log, &[line, &served]);
    // What the vault serves is as it should be, also with a slash behind it.
    for same in [text_of(&from).to_string(), format!("{}/", from.display())] {
        backup_to_halt(&mut c, &[("FILESYSTEM", &same), ("PREFIX", "/vol")]);
        c.finish().unwrap();
    }
    assert_eq!(lines(&log, "asks for").len(), 1);
    let mut recover = |of: &[(&str, &str)]| {
        prepare(&mut c, Mover::FROM_TAPE);
        start_recover(&mut c, of);
        assert_eq!(c.run(0, |_| ()).unwrap().why, DONE);
        c.finish().unwrap();
    };
    recover(&[("FILESYSTEM", "/vol"), ("PREFIX", "/back")]);
    let restores = format!("the vault restores to {}, as --restore-to says\n", to.display());
    told(&log, &["recover starts with 2 variables: FILESYSTEM=\"/vol\", PREFIX=\"/back\"\n"]);
    told(&log, &[&format!("asks for FILESYSTEM \"/vol\" and PREFIX \"/back\"; {restores}")]);
    recover(&[("PREFIX", text_of(&to)), ("FILESYSTEM", &"/long".repeat(100))]);
    told(&log, &[&format!("asks for FILESYSTEM \"{}\"..; {restores}", "/long".repeat(40))]);
    assert_eq!(lines(&log, "asks for").len(), 3);
}

#[test]
fn sessions_do_not_share_their_variables() {
    let s = Scratch::new();
    let from = s.folder("from");
    let host = Host::start(&s.path("tape"), &["--new-cartridge", "1M", "--stream", text_of(&from)]);
    let (mut a, mut b) = (host.login(), host.login());
    let given = [("FILESYSTEM", "/vol"), ("LEVEL", "0")];
    backup_to_halt(&mut a, &given);
    halt_unstarted(&mut b);
    assert_eq!((environment(&mut a), environment(&mut b)), (back(&given), back(&[])));
    b.good(DATA_STOP, b"").unwrap();
    assert_eq!(environment(&mut a), back(&given));
    // Nor with those that come when they have gone.
    drop((a, b));
    for _ in 0..3 {
        let mut c = host.login();
        halt_unstarted(&mut c);
        assert_eq!(environment(&mut c), back(&[]));
    }
}

/// An end by TCP gives them back the same, ACTIVE and HALTED.
#[test]
fn variables_of_an_end_by_tcp() {
    let s = Scratch::new();
    let from = s.folder("from");
    fs::write(from.join("a"), noise(2, 30_000)).unwrap();
    let host = Host::start(&s.path("tape"), &["--new-cartridge", "1M", "--stream", text_of(&from)]);
    let (mut data, mut mover) = (host.login(), host.login());
    far::prepare(&mut mover, Mover::TO_TAPE, 10_240, 20_480);
    far::join(&mut data, &mut mover, Mover::TO_TAPE, End::Data);
    refused(&mut data);
    let given = [("FILESYSTEM", "/vol")];
    start_backup(&mut data, &given, 0);
    assert_eq!(environment(&mut data), back(&given));
    refused(&mut mover);
    far::run_mover(&mut mover, 20_480);
    assert_eq!(data.noticed(NOTIFY_DATA_HALTED).unwrap(), Data::SUCCESSFUL);
    assert_eq!(environment(&mut data), back(&given));
}
