//! What one client may cost the others: time, connections, lines; and an end in order.
mod common;
use common::*;
use std::fs;
use std::io::{Read, Write};
use std::net::TcpStream;
use std::path::Path;
use std::process::Stdio;
use std::time::{Duration, Instant};

fn text_of(path: &Path) -> &str {
    path.to_str().unwrap()
}

/// How long it takes until the other side ends the connection; a busy machine is given its time.
fn ends(socket: &mut TcpStream) -> Duration {
    let begun = Instant::now();
    socket.set_read_timeout(Some(Duration::from_secs(20))).unwrap();
    let end = socket.read_to_end(&mut Vec::new());
    assert!(begun.elapsed() < Duration::from_secs(20), "{end:?}");
    begun.elapsed()
}

#[test]
fn strangers_have_some_seconds_and_not_all_connections() {
    let s = Scratch::new();
    let log = s.path("log");
    let host = Host::logged(&s.path("tape"), &log, &["--new-cartridge", "100K", "--login-within", "3", "--quiet"]);
    let mut known: Vec<Client> = (0..8).map(|_| host.login()).collect();
    let open = || {
        let mut socket = TcpStream::connect(&host.address).unwrap();
        socket.set_read_timeout(Some(Duration::from_secs(20))).unwrap();
        let n = socket.read(&mut [0; 100]).unwrap_or(0);
        (n > 0).then_some(socket)
    };
    // So many that have not logged in, and no more; the others go on.
    let mut strangers: Vec<TcpStream> = (0..48).map(|_| open().expect("let in")).collect();
    assert!(open().is_none(), "one too many is let in");
    told(&log, &["turned away, 48 connections are open that have not logged in"]);
    known.iter_mut().for_each(|c| _ = c.good(CONFIG_GET_SERVER_INFO, b"").unwrap());
    // One that says something now and then has no more time than one that says nothing.
    let mut slow = strangers.pop().unwrap();
    let begun = Instant::now();
    let drip = std::thread::spawn(move || {
        while slow.write_all(&[0]).is_ok() {
            std::thread::sleep(Duration::from_millis(100))
        }
    });
    strangers.iter_mut().for_each(|c| _ = ends(c));
    drip.join().unwrap();
    assert!(begun.elapsed() < Duration::from_secs(15));
    host.login();
    known.iter_mut().for_each(|c| _ = c.good(CONFIG_GET_SERVER_INFO, b"").unwrap());
}

#[test]
fn connections_are_counted() {
    let s = Scratch::new();
    let log = s.path("log");
    let host = Host::logged(&s.path("tape"), &log, &["--new-cartridge", "100K", "--quiet"]);
    let mut known: Vec<Client> = (0..64).map(|_| host.login()).collect();
    assert!(host.client().receive().is_err(), "one too many is let in");
    told(&log, &["turned away, 64 connections are open"]);
    known.iter_mut().for_each(|c| _ = c.good(CONFIG_GET_SERVER_INFO, b"").unwrap());
    known.pop();
    host.login_soon();
}

#[test]
fn wrong_logins_are_told_late_and_few() {
    let s = Scratch::new();
    let log = s.path("log");
    let host = Host::logged(&s.path("tape"), &log, &["--new-cartridge", "100K", "--quiet"]);
    let mut c = host.client();
    c.noticed(NOTIFY_CONNECTED).unwrap();
    c.good(CONNECT_OPEN, &words(&[4])).unwrap();
    let login = |c: &mut Client, id: &str| by_md5(id, "secret word", &c.challenge().unwrap());
    for _ in 0..3 {
        let body = login(&mut c, "va\nult\u{202e}");
        let begun = Instant::now();
        c.expect(CONNECT_CLIENT_AUTH, &body, codes::NOT_AUTHORIZED).unwrap();
        assert!(begun.elapsed() >= Duration::from_millis(900));
    }
    closed(&mut c);
    let lines = fs::read_to_string(&log).unwrap();
    assert_eq!(lines.lines().count(), 3, "{lines}");
    for line in lines.lines() {
        // Day, time, who; no line of another's making, and not the password.
        let (stamp, rest) = line.split_at(20);
        assert!(stamp.starts_with("20") && stamp.ends_with('Z') && &stamp[10..11] == "T", "{line}");
        assert!(rest.starts_with(" mossgoblin: session 1: wrong login as \"va\\nult"), "{line}");
        assert!(
            !line.contains("secret") && !line.contains('\u{202e}') && line.contains("\" by MD5 from 127.0.0.1:"),
            "{line}"
        );
    }
    // Two wrong ones and a right one.
    let mut c = host.client();
    c.noticed(NOTIFY_CONNECTED).unwrap();
    for id in ["a", "b"] {
        let body = login(&mut c, id);
        c.expect(CONNECT_CLIENT_AUTH, &body, codes::NOT_AUTHORIZED).unwrap();
    }
    c.auth(b"vault", b"noon").unwrap();
    c.good(CONFIG_GET_CONNECTION_TYPE, b"").unwrap();
}

const CHALLENGE: proved::Challenge = [0x5a; codes::CHALLENGE_LENGTH];

/// The list of accounts that the core is lent, and the body of a login that is wrong there.
type Login = (Vec<u8>, Vec<u8>);

/// The shortest times of logins, in turn, in a session that was given the challenge.
fn login_times(logins: &[Login]) -> Vec<Duration> {
    let (mut out, mut variables) = (vec![0; proved::OUTPUT], vec![0; codes::STORE_LENGTH]);
    let mut session = proved::open(&[1, 0, 0, 0, 0, 0, 0, 0, 0], 0, &mut out).session;
    let mut call = |session, accounts: &[u8], record: &[u8]| {
        let (image, variables, out) = (&mut [], &mut variables, &mut out);
        let done = proved::request(session, accounts, &CHALLENGE, &[], false, image, variables, record, 0, out);
        assert!(done.code == 0 && !done.session.login.authorized);
        done.session
    };
    session = call(session, &[], &request(1, CONFIG_GET_AUTH_ATTR, &words(&[codes::MD5_AUTH])));
    assert!(session.login.challenged);
    let records: Vec<_> = logins.iter().map(|(_, body)| request(2, CONNECT_CLIENT_AUTH, body)).collect();
    let mut least = vec![Duration::MAX; logins.len()];
    for _ in 0..2_000 {
        for (i, (accounts, _)) in logins.iter().enumerate() {
            let begun = Instant::now();
            call(session, accounts, &records[i]);
            least[i] = least[i].min(begun.elapsed());
        }
    }
    least
}

/// Whether all but the last take the same time, within a quarter of what they take more than the last.
fn is_even(times: &[Duration]) -> bool {
    let (rest, compared) = times.split_last().unwrap();
    let (least, most) = (compared.iter().min().unwrap(), compared.iter().max().unwrap());
    *most - *least < most.saturating_sub(*rest) / 4
}

/// A busy machine may need several tries.
fn even_soon(logins: &[Login]) {
    let tries: Vec<_> = (0..20).map(|_| login_times(logins)).take_while(|times| !is_even(times)).collect();
    assert!(tries.len() < 20, "{tries:?}");
}

/// A login whose id differs in its first byte takes as long as one whose id differs in its last, or whose digest is wrong. A
/// comparison that ends early is never so.
#[test]
fn wrong_logins_take_as_long_wherever_they_differ() {
    const LONG: usize = 30_000;
    let account = noise(1, LONG);
    let login = |id: &[u8], told: &[u8], digest: [u8; 16]| {
        let body = [&words(&[codes::MD5_AUTH])[..], &text(told), &digest].concat();
        (lent(&[(codes::MD5_AUTH, id, b"noon")]), body)
    };
    let wrong = |at: usize| {
        let mut told = account.clone();
        told[at] ^= 1;
        login(&account, &told, [0; 16])
    };
    let near = |at: usize| {
        let mut digest = wire::md5::login_digest(b"noon", &CHALLENGE).unwrap();
        digest[at] ^= 1;
        login(&account, &account, digest)
    };
    // The last is all but the comparison: an id of another length than the account's is not compared.
    let short = login(b"a", &account, [0; 16]);
    even_soon(&[wrong(0), wrong(LONG - 1), near(0), near(15), short.clone()]);
    // The judge is not blind: of these one is not compared.
    let uneven = login_times(&[wrong(0), short.clone(), short]);
    assert!(!is_even(&uneven), "{uneven:?}");
}

/// By MD5 it does not matter whether the id is known: the digest is made for it or not.
#[test]
fn wrong_logins_by_md5_tell_no_ids() {
    let accounts = |kind| lent(&[(kind, "vault", "noon"), (kind, "ferry", "tide")]);
    let login = |kind, id: &str| (accounts(kind), [words(&[codes::MD5_AUTH]), text(id), vec![0; 16]].concat());
    let by_md5 = |id| login(codes::MD5_AUTH, id);
    // The last is all but the digests.
    let none = login(codes::TEXT_AUTH, "vault");
    even_soon(&[by_md5("vault"), by_md5("ferry"), by_md5("other"), none.clone()]);
    let uneven = login_times(&[by_md5("vault"), none.clone(), none]);
    assert!(!is_even(&uneven), "{uneven:?}");
}

#[test]
fn empty_accounts_are_refused() {
    let s = Scratch::new();
    for account in [":", ":noon", "vault:"] {
        let mut command = program();
        command.args(["serve", "--listen=127.0.0.1:0", "--new-cartridge=1M", "--account", account, "--cartridge"]);
        let done = finished(command.arg(s.path("tape")));
        let why = String::from_utf8(done.stderr).unwrap();
        let told = "--account: neither id nor password may be empty; expected ID:PASSWORD, such as vault:noon";
        assert!(done.status.code() == Some(2) && why.contains(told) && why.lines().count() == 1, "{why}");
    }
    assert!(!s.path("tape").exists());
}

#[test]
fn address_that_others_reach_is_warned_of() {
    let s = Scratch::new();
    let (tape, log) = (s.path("tape"), s.path("log"));
    let start = |at: &str, more: &[&str]| {
        let mut command = serve(&tape);
        command.args(["--quiet", "--listen", at, "--status", at]).args(more);
        Host::spawn(command.stderr(fs::File::create(&log).unwrap()))
    };
    let host = start("127.0.0.1:0", &["--new-cartridge", "100K"]);
    host.login();
    drop(host);
    assert_eq!(fs::read_to_string(&log).unwrap(), "");
    let host = start("0.0.0.0:0", &[]);
    let port = host.address.strip_prefix("0.0.0.0:").unwrap();
    told(
        &log,
        &[&format!(
            "mossgoblin: --listen 0.0.0.0:{port} is not this machine's alone: data go over the network as they"
        )],
    );
    told(&log, &["mossgoblin: --status 0.0.0.0:", " is not this machine's alone: names of files and clients are read"]);
    drop(host);
    // Where the machine has another address than its own; nothing is sent for this.
    let own =
        std::net::UdpSocket::bind("0.0.0.0:0").and_then(|u| u.connect("192.0.2.1:9").and_then(|()| u.local_addr()));
    if let Some(ip) = own.ok().map(|at| at.ip()).filter(|ip| !ip.is_loopback()) {
        let _host = start("127.0.0.1:0", &["--data-address", &format!("127.0.0.1,{ip}")]);
        let what = "whoever connects first to an open data port is the peer, and data go over the network as they are";
        told(&log, &[&format!("mossgoblin: --data-address {ip} is not this machine's alone: {what}")]);
        assert!(!fs::read_to_string(&log).unwrap().contains("--data-address 127.0.0.1 "));
    }
}

#[test]
fn tape_is_not_held_by_one_who_says_nothing() {
    let s = Scratch::new();
    let log = s.path("log");
    let host = Host::logged(&s.path("tape"), &log, &["--new-cartridge", "100K", "--hold", "1"]);
    let mut other = host.login();
    let mut c = host.login();
    c.tape_open(TO_WRITE).unwrap();
    c.good(TAPE_WRITE, &text([1; 100])).unwrap();
    assert!(ends(&mut c.socket) >= Duration::from_millis(900));
    told(&log, &["ended: had the tape and said nothing for 1 seconds"]);
    // One without the tape may be silent for longer.
    tape_open_soon(&mut other, TO_READ);
    other.good(TAPE_READ, &words(&[100])).unwrap();
}

#[test]
fn client_that_never_reads_is_let_go() {
    let s = Scratch::new();
    let log = s.path("log");
    let host = Host::logged(&s.path("tape"), &log, &["--new-cartridge", "1M", "--send-within", "1"]);
    let mut c = host.login();
    c.tape_open(TO_WRITE).unwrap();
    c.good(TAPE_WRITE, &text(noise(1, 32_768))).unwrap();
    // Reads and rewinds, whose answers nobody takes.
    let ask: Vec<u8> =
        [request(9, TAPE_MTIO, &words(&[codes::REWIND_TAPE, 1])), request(9, TAPE_READ, &words(&[32_768]))].concat();
    let mut socket = c.socket.try_clone().unwrap();
    let flood = std::thread::spawn(move || while socket.write_all(&ask).is_ok() {});
    let mut other = host.login();
    tape_open_soon(&mut other, TO_READ);
    flood.join().unwrap();
    told(&log, &["took no answer for 1 seconds"]);
}

#[test]
fn standard_error_that_nobody_reads_stops_nobody() {
    let s = Scratch::new();
    let mut command = serve(&s.path("tape"));
    command.args(["--listen", "127.0.0.1:0", "--new-cartridge", "1M"]).stderr(Stdio::piped());
    let mut host = Host::spawn(&mut command);
    let mut c = host.login();
    let begun = Instant::now();
    // More lines than a pipe holds: each refusal is one.
    for _ in 0..3_000 {
        c.expect(TAPE_CLOSE, b"", codes::NOT_OPEN).unwrap();
    }
    assert!(begun.elapsed() < Duration::from_secs(15), "{:?}", begun.elapsed());
    host.login();
    // When it is read again, what is missing is counted.
    let mut err = host.child.stderr.take().unwrap();
    let mut first = vec![0; 4 << 10];
    let mut all = Vec::new();
    let reader = std::thread::spawn(move || {
        while let Ok(n @ 1..) = err.read(&mut first) {
            all.extend(&first[..n]);
        }
        String::from_utf8(all).unwrap()
    });
    std::thread::sleep(Duration::from_millis(300));
    c.expect(TAPE_CLOSE, b"", codes::NOT_OPEN).unwrap();
    drop((c, host));
    let lines = reader.join().unwrap();
    assert!(lines.contains(" lines are lost here: standard error was not read\n"), "{}", lines.len());
    assert!(lines.lines().all(|l| l.len() < 300), "no line is torn");
}

#[test]
fn refusals_are_told_by_name() {
    let s = Scratch::new();
    let (log, quiet) = (s.path("log"), s.path("quiet"));
    let host = Host::logged(&s.path("tape"), &log, &["--new-cartridge", "1M"]);
    let mut c = host.login();
    c.expect(TAPE_WRITE, &text([1; 4]), codes::NOT_OPEN).unwrap();
    c.expect(MOVER_STOP, b"", codes::ILLEGAL_STATE).unwrap();
    c.call(TAPE_GET_STATE, b"").unwrap();
    c.call(0x777, b"").unwrap();
    c.call(TAPE_OPEN, b"").unwrap();
    c.tape_open(TO_WRITE).unwrap();
    c.expect(TAPE_READ, &words(&[1]), codes::AT_END).unwrap();
    told(
        &log,
        &[
            "session 1: refused: tape write (0x304) with 6 (the device is not open)",
            "session 1: refused: mover stop (0xa04) with 19 (not in this state)",
            "session 1: refused: tape get state (0x302) with 6",
            "session 1: refused: request (0x777) with 1 (not supported)",
            "session 1: refused: tape open (0x300) with 18 (not to be decoded)",
        ],
    );
    assert_eq!(fs::read_to_string(&log).unwrap().matches("refused").count(), 5);
    drop((c, host));
    let host = Host::logged(&s.path("tape"), &quiet, &["--quiet"]);
    host.login().expect(TAPE_WRITE, &text([1; 4]), codes::NOT_OPEN).unwrap();
    drop(host);
    assert_eq!(fs::read_to_string(&quiet).unwrap(), "");
}

#[test]
fn wishes_are_followed_or_told() {
    let s = Scratch::new();
    let (from, to, log) = (s.folder("from"), s.folder("to"), s.path("log"));
    sample(&from);
    fs::hard_link(from.join("a"), from.join("inner/again")).unwrap();
    let options = ["--new-cartridge", "1M", "--stream", text_of(&from), "--restore-to", text_of(&to)];
    let host = Host::logged(&s.path("tape"), &log, &options);
    let mut c = host.login();
    let pairs = |fs: &str| [words(&[1]), text("FILESYSTEM"), text(fs)].concat();
    c.tape_open(TO_WRITE).unwrap();
    c.join(Mover::TO_TAPE, 10_240, 10_240_000).unwrap();
    c.good(DATA_START_BACKUP, &[text("dump"), pairs("/vol\n")].concat()).unwrap();
    assert_eq!(c.run(0, |_| ()).unwrap().why, DONE);
    c.finish().unwrap();
    told(&log, &["asks for FILESYSTEM \"/vol\\n\"; the vault backs up ", ", as --stream says"]);

    let mut recover = |names: &[[&str; 2]]| {
        let mut body = [pairs("/vol"), words(&[names.len() as u32])].concat();
        for [name, to] in names {
            body.extend([text(name), text(to), text(""), text("")].concat());
            body.extend([0; 16]);
        }
        c.tape_open(TO_READ).unwrap();
        c.join(Mover::FROM_TAPE, 10_240, 10_240_000).unwrap();
        c.good(DATA_START_RECOVER, &[body, text("dump")].concat()).unwrap();
        let why = c.run(0, |_| ()).unwrap().why;
        c.finish().unwrap();
        let all: Vec<String> = tree(&to).into_iter().map(|(name, _)| name.display().to_string()).collect();
        fs::remove_dir_all(&to).unwrap();
        fs::create_dir(&to).unwrap();
        (why, all)
    };
    let told_names = |all: &[&str]| all.iter().map(|n| n.to_string()).collect::<Vec<_>>();
    assert_eq!(recover(&[["/vol/inner/block", ""], ["a", ""]]), (DONE, told_names(&["a", "inner", "inner/block"])));
    // A folder with what is below it; a second name of a file that is not wanted itself has its bytes.
    let (why, all) = recover(&[["inner", ""]]);
    assert_eq!((why, all.len()), (DONE, 7));
    assert!(all.contains(&"inner/again".to_string()) && !all.contains(&"a".to_string()), "{all:?}");
    // The file system itself is all of it; a name that is not there is no success.
    assert_eq!(recover(&[["/vol", "/vol"]]).1.len(), tree(&from).len());
    assert_eq!(recover(&[["b.empty", ""], ["inne", ""]]), (FAILED, told_names(&["b.empty"])));
    told(&log, &["not in the archive: inne\n"]);
    assert_eq!(recover(&[["b.empty", "/elsewhere"]]), (DONE, told_names(&["b.empty"])));
    told(&log, &["asks for other places or names; the vault restores to "]);
    assert_eq!(recover(&[["../a", ""]]), (FAILED, Vec::new()));
}

#[test]
fn signals_end_in_order() {
    let s = Scratch::new();
    let (from, to, tape, log) = (s.path("from"), s.folder("to"), s.path("tape"), s.path("log"));
    fs::write(&from, noise(1, 30 << 20)).unwrap();
    for (i, name) in ["-TERM", "-INT"].into_iter().enumerate() {
        let mut options = vec!["--stream", text_of(&from), "--restore-to", text_of(&to)];
        if i == 0 {
            options.extend(["--new-cartridge", "64M"]);
        }
        let mut host = Host::logged(&tape, &log, &options);
        let (mut c, mut idle) = (host.login(), host.login());
        c.tape_open(TO_WRITE).unwrap();
        for n in 0..5 {
            c.good(TAPE_WRITE, &text(noise(n, 1_000))).unwrap();
        }
        // In the midst of a backup behind them.
        c.join(Mover::TO_TAPE, 1_000, 1_000_000_000).unwrap();
        c.start_backup().unwrap();
        signal(&host, name);
        let code = host.child.wait().unwrap().code();
        assert_eq!(code, Some(0));
        assert!(ends(&mut c.socket) < Duration::from_secs(10) && ends(&mut idle.socket) < Duration::from_secs(10));
        let image = fs::read(&tape).unwrap();
        let (n, _) = sound(&image).unwrap();
        assert!(n >= 5);
        let body = 16 + 8 * 4_096;
        assert!((0..5).all(|i| image[body + 1_000 * i..][..1_000] == noise(i as u64, 1_000)));
        let signal = format!("SIG{}", &name[1..]);
        let last = format!("ended by {signal}: all that was acknowledged is on the disk, {n} records and marks\n");
        told(&log, &[&format!("{signal}: the vault ends, and 2 sessions with it"), &last]);
        assert!(fs::read_to_string(&log).unwrap().ends_with(&last));
    }
    // In the midst of a recover: nothing of it is left.
    let host = Host::logged(&tape, &log, &["--stream", text_of(&from)]);
    assert_eq!(host.login().backup(32_768, 1 << 30).unwrap().why, DONE);
    drop(host);
    let mut host = Host::logged(&tape, &log, &["--restore-to", text_of(&to)]);
    let mut c = host.login();
    c.begin(Mover::FROM_TAPE, 32_768, 32_768 * 300).unwrap();
    assert_eq!(c.notice().unwrap().first(), Mover::SEEK);
    assert_eq!(fs::read_dir(&to).unwrap().count(), 1);
    signal(&host, "-TERM");
    assert_eq!(host.child.wait().unwrap().code(), Some(0));
    assert_eq!(fs::read_dir(&to).unwrap().count(), 0);
}
