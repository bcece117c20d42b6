//! Who gets in: the file of accounts, logins by MD5, challenges, text login, which is withdrawn, and what is told of them.
mod common;
use common::*;
use std::collections::HashSet;
use std::fs;
use std::io::Write;
use std::os::unix::fs::{MetadataExt, PermissionsExt, chown, symlink};
use std::path::{Path, PathBuf};
use std::process::Command;
use wire::Header;

/// The program with accounts of a file, and no others.
fn with(s: &Scratch, accounts: &Path) -> Command {
    let mut command = program();
    command.args(["serve", "--listen=127.0.0.1:0", "--accounts"]).arg(accounts).arg("--cartridge").arg(s.path("tape"));
    command
}

/// A vault with these accounts in a file.
fn start(s: &Scratch, accounts: &str, more: &[&str]) -> Host {
    let (file, log) = (s.path("accounts"), fs::File::create(s.path("log")).unwrap());
    private(&file, accounts);
    Host::spawn(with(s, &file).arg("--new-cartridge=100K").args(more).stderr(log))
}

/// A client that has opened.
fn opened(host: &Host) -> Client {
    let mut c = host.client();
    c.open().unwrap();
    c
}

/// The answer to a login on a connection of its own.
fn answer(host: &Host, id: &str, password: &str) -> u32 {
    let mut c = opened(host);
    let body = by_md5(id, password, &c.challenge().unwrap());
    c.ask(CONNECT_CLIENT_AUTH, &body).unwrap().0
}

/// Wrong logins, each on a connection of its own: they are told late.
fn wrong(host: &Host, logins: &[(&str, &str)]) {
    std::thread::scope(|scope| {
        for (id, password) in logins {
            scope.spawn(move || assert_eq!(answer(host, id, password), codes::NOT_AUTHORIZED, "{id}"));
        }
    });
}

#[test]
fn accounts_of_a_file_log_in() {
    let s = Scratch::new();
    let file =
        "# Two desks.\n\ntext vault noon\nmd5 vault moon\n\tMD5\t\tferry  #tide \r\nmd5 ferry ebb\n#md5 gone by\n";
    let long = "p".repeat(32);
    let host = start(&s, file, &["--account", &format!("own:one:word{}", &long[8..])]);
    let one = format!("one:word{}", &long[8..]);
    for (id, password) in [("vault", "moon"), ("ferry", "#tide"), ("ferry", "ebb"), ("own", &one)] {
        assert_eq!(answer(&host, id, password), 0, "{id}");
    }
    // Another's password, one that is a comment, and one of an account by text.
    wrong(&host, &[("ferry", "moon"), ("gone", "by"), ("own", "one:word"), ("vault", "noon")]);
    // The file was read at the start.
    private(&s.path("accounts"), "md5 ferry other\n");
    assert_eq!(answer(&host, "ferry", "ebb"), 0);
}

/// Every way to ask for text: with the right password of an account of either kind, with a wrong one, with a body that is none.
#[test]
fn text_login_is_refused() {
    let s = Scratch::new();
    let log = s.path("log");
    let host = start(&s, "text vault secret1\nmd5 vault secret2\n", &["--account=own:secret3"]);
    let right = by_text("vault", "secret1");
    let mut bodies = vec![by_text("vault", "secret2"), by_text("own", "secret3"), by_text("x", ""), words(&[1])];
    bodies.extend([right[..right.len() - 1].to_vec(), [&right[..], &[7]].concat(), right.clone()]);
    let mut c = opened(&host);
    let refused = |c: &mut Client, body: &[u8]| {
        // At once, and as often as it likes: nothing is guessed that way.
        assert_eq!(c.ask(CONNECT_CLIENT_AUTH, body).unwrap(), (codes::ILLEGAL_ARGUMENTS, words(&[9])), "{body:?}");
    };
    for body in &bodies {
        refused(&mut c, body);
        c.expect(CONFIG_GET_CONNECTION_TYPE, b"", codes::NOT_AUTHORIZED).unwrap();
    }
    // The auth attributes of text, and whatever stands behind them.
    for rest in [&[][..], &[7], &[0; 64]] {
        let body = [&words(&[1])[..], rest].concat();
        assert_eq!(c.expect(CONFIG_GET_AUTH_ATTR, &body, codes::ILLEGAL_ARGUMENTS).unwrap(), words(&[9, 0]));
    }
    let info = c.good(CONFIG_GET_SERVER_INFO, b"").unwrap();
    assert_eq!(info[info.len() - 8..], words(&[1, codes::MD5_AUTH]));
    // Who is in stays in.
    c.auth(b"vault", b"secret2").unwrap();
    for body in &bodies {
        refused(&mut c, body);
        c.good(CONFIG_GET_CONNECTION_TYPE, b"").unwrap();
    }
    let peer = c.socket.local_addr().unwrap();
    let words = "(illegal arguments): text login is withdrawn; the client";
    told(
        &log,
        &[
            &format!(
                "mossgoblin: session 1: refused: client auth (0x901) with 9 {words} of \"vault\" at {peer} is to log in by MD5\n"
            ),
            &format!(
                " session 1: refused: client auth (0x901) with 9 {words} of \"own\" at {peer} is to log in by MD5\n"
            ),
            &format!(" session 1: refused: auth attributes (0x103) with 9 {words} at {peer} is to log in by MD5\n"),
        ],
    );
    let all = fs::read_to_string(&log).unwrap();
    assert!(!all.contains("secret"), "{all}");
    // Once as an error, and of no other type.
    assert_eq!(all.matches("mossgoblin: session 1: refused").count(), 1, "{all}");
    let before = all.matches("text login").count();
    c.expect(CONNECT_CLIENT_AUTH, &[3u32, 5].map(u32::to_be_bytes).concat(), codes::ILLEGAL_ARGUMENTS).unwrap();
    drop(c);
    told(&log, &["session 1: closed"]);
    assert_eq!(fs::read_to_string(&log).unwrap().matches("text login").count(), before);
}

/// With `--quiet` too the one who looks after the vault learns why a client stays outside; no client fills the log that way.
#[test]
fn text_login_is_told_once_where_all_is_quiet() {
    let s = Scratch::new();
    let log = s.path("log");
    let host = start(&s, "md5 vault noon\n", &["--quiet"]);
    let mut peers = Vec::new();
    for _ in 0..2 {
        let mut c = opened(&host);
        peers.push(c.socket.local_addr().unwrap());
        for _ in 0..5 {
            c.expect(CONNECT_CLIENT_AUTH, &by_text("fer\nry", "secret"), codes::ILLEGAL_ARGUMENTS).unwrap();
        }
    }
    let told = fs::read_to_string(&log).unwrap();
    assert_eq!(told.lines().count(), 2, "{told}");
    for (line, peer) in told.lines().zip(peers) {
        let end = format!("text login is withdrawn; the client of \"fer\\nry\" at {peer} is to log in by MD5");
        assert!(line.ends_with(&end) && !line.contains("secret"), "{line}");
    }
}

/// Lines of kind text are read, and told; by them nobody gets in.
#[test]
fn withdrawn_accounts_are_told_at_the_start() {
    let s = Scratch::new();
    let (file, log) = (s.path("accounts"), s.path("log"));
    let id = format!("fer\"\u{202e}ry{}", "y".repeat(300));
    let lines = format!("#\ntext {id} secret1\nmd5 vault secret2\nTEXT vault {}\n", "secret3".repeat(9));
    for more in [&["--quiet"][..], &[]] {
        let _ = fs::remove_file(s.path("tape"));
        let host = start(&s, &lines, more);
        assert_eq!(answer(&host, "vault", "secret2"), 0);
        wrong(&host, &[(&id, "secret1")]);
        drop(host);
        let all = fs::read_to_string(&log).unwrap();
        let told: Vec<&str> = all.lines().filter(|l| l.contains("withdrawn")).collect();
        let shown = format!("\"fer\"\"\\u{{202e}}ry{}\"..", "y".repeat(193));
        for (line, (id, n)) in told.iter().zip([(shown.as_str(), 2), ("\"vault\"", 4)]) {
            let file = file.display();
            let end = format!(
                " mossgoblin: account {id} by text is withdrawn and can no longer log in; in line {n} of {file} \
                 write md5 in place of text, with a password of at most 32 bytes"
            );
            assert_eq!(&line[20..], end);
        }
        assert!(told.len() == 2 && !all.contains("secret") && !all.contains("nobody can log in"), "{all}");
    }
    // Where none is left, that is said too.
    let _ = fs::remove_file(s.path("tape"));
    let host = start(&s, "text vault noon\n", &["--quiet"]);
    wrong(&host, &[("vault", "noon")]);
    let why = format!("mossgoblin: nobody can log in: all accounts of {} are withdrawn\n", file.display());
    told(&log, &["account \"vault\" by text is withdrawn", &why]);
    drop(host);
    // And nothing where there is none.
    let _ = fs::remove_file(s.path("tape"));
    let host = start(&s, "md5 vault noon\n", &["--quiet"]);
    assert_eq!(answer(&host, "vault", "noon"), 0);
    assert_eq!(fs::read_to_string(&log).unwrap(), "");
}

/// What `mossgoblin accounts` prints of a file; its exit code and standard error.
fn listed(file: &Path) -> (i32, String, String) {
    let done = finished(program().arg("accounts").arg(file));
    let text = |bytes: Vec<u8>| String::from_utf8(bytes).unwrap();
    (done.status.code().unwrap(), text(done.stdout), text(done.stderr))
}

#[test]
fn accounts_are_listed() {
    let s = Scratch::new();
    let file = s.path("accounts");
    let eight = "text a b\n".repeat(7);
    let lines: String = (0..7).map(|i| format!("{i} withdrawn\n")).collect();
    for (bytes, lines) in [
        ("md5 vault secret\n".to_string(), "0 md5\n".to_string()),
        (
            "#text a b\n\ntext a b\nmd5 a b\nTEXT a secret\r\n\tmd5\ta\tb".into(),
            "0 withdrawn\n1 md5\n2 withdrawn\n3 md5\n".into(),
        ),
        (format!("text a {}\n", "secret".repeat(100)), "0 withdrawn\n".into()),
        (format!("{eight}md5 a b\n"), format!("{lines}7 md5\n")),
        (format!("{eight}text a b\n"), format!("{lines}7 withdrawn\n")),
    ] {
        private(&file, bytes);
        assert_eq!(listed(&file), (0, lines, "".into()));
    }
    // What the vault would not start with is not listed.
    let long = format!("md5 a {}\n", "secret".repeat(6));
    for (bytes, why) in [
        ("", "has no account; a line is md5 ID PASSWORD"),
        ("text a b\nsecret a b\n", "line 2: expected md5 as its first word"),
        (&long, "line 1: an MD5 password of 36 bytes lets nobody in; at most 32"),
        (&format!("{eight}{eight}"), "line 9: one account too many; at most 8, and that of --account is one of them"),
    ] {
        private(&file, bytes);
        assert_eq!(listed(&file), (1, "".into(), format!("mossgoblin accounts: {}: {why}\n", file.display())));
    }
    private(&file, "md5 a secret\n");
    fs::set_permissions(&file, fs::Permissions::from_mode(0o644)).unwrap();
    let (code, out, why) = listed(&file);
    assert!(code == 1 && out.is_empty() && why.ends_with(&format!("chmod 600 {}\n", file.display())), "{why}");
    let gone = s.path("gone");
    assert_eq!(listed(&gone), (1, "".into(), format!("mossgoblin accounts: {}: no such file\n", gone.display())));
    // A reader that has seen enough, or is gone, is no error; a disk that is full is.
    fs::set_permissions(&file, fs::Permissions::from_mode(0o600)).unwrap();
    let full = fs::OpenOptions::new().write(true).open("/dev/full").unwrap();
    let done = program().arg("accounts").arg(&file).stdout(full).output().unwrap();
    let why = String::from_utf8(done.stderr).unwrap();
    assert!(done.status.code() == Some(1) && why.starts_with("mossgoblin accounts: standard output: "), "{why}");
}

/// The password of the command line is one of MD5.
#[test]
fn account_of_the_command_line_fits() {
    let s = Scratch::new();
    let start = |password: &str| {
        let mut command = program();
        command
            .args(["serve", "--listen=127.0.0.1:0", "--quiet", "--new-cartridge=100K", "--cartridge"])
            .arg(s.path("tape"));
        command.arg(format!("--account=vault:{password}"));
        command
    };
    let most = "secret56".repeat(4);
    let done = finished(&mut start(&format!("{most}9")));
    let why = String::from_utf8(done.stderr).unwrap();
    assert_eq!((done.status.code(), done.stdout.len(), why.lines().count()), (Some(2), 0, 1), "{why}");
    let told = "mossgoblin serve: --account: an MD5 password of 33 bytes lets nobody in; at most 32; ";
    assert!(why.starts_with(told) && !why.contains("secret") && !s.path("tape").exists(), "{why}");
    let host = Host::spawn(&mut start(&most));
    assert_eq!(answer(&host, "vault", &most), 0);
}

#[test]
fn example_is_a_file_of_accounts() {
    let s = Scratch::new();
    let example = Path::new(env!("CARGO_MANIFEST_DIR")).join("../../dist/accounts.example");
    let host = start(&s, &fs::read_to_string(example).unwrap(), &["--quiet"]);
    assert_eq!(answer(&host, "vault", "noon"), 0);
    assert_eq!(listed(&s.path("accounts")).1, "0 md5\n");
}

#[test]
fn newest_challenge_is_the_one_that_counts() {
    let s = Scratch::new();
    let host = start(&s, "md5 vault noon\n", &["--quiet"]);
    let mut c = opened(&host);
    let refused = |c: &mut Client, body: &[u8]| c.expect(CONNECT_CLIENT_AUTH, body, codes::NOT_AUTHORIZED).unwrap();
    // None yet: not even one of zeros.
    refused(&mut c, &by_md5("vault", "noon", &[0; 64]));
    let (old, new) = (c.challenge().unwrap(), c.challenge().unwrap());
    refused(&mut c, &by_md5("vault", "noon", &old));
    c.good(CONNECT_CLIENT_AUTH, &by_md5("vault", "noon", &new)).unwrap();
    c.good(CONFIG_GET_CONNECTION_TYPE, b"").unwrap();
    // Another connection's, and a digest that is wrong in one bit.
    let mut c = opened(&host);
    let own = c.challenge().unwrap();
    refused(&mut c, &by_md5("vault", "noon", &new));
    let mut body = by_md5("vault", "noon", &own);
    *body.last_mut().unwrap() ^= 1;
    refused(&mut c, &body);
    c.good(CONNECT_CLIENT_AUTH, &by_md5("vault", "noon", &own)).unwrap();
    // A third wrong one ends the connection.
    refused(&mut c, &body);
    closed(&mut c);
}

/// Of two connections, and of two requests on one, no eight bytes are the same.
#[test]
fn challenges_are_all_others() {
    let s = Scratch::new();
    let host = start(&s, "md5 vault noon\n", &["--quiet"]);
    let mut seen = HashSet::from([[0; 8]]);
    for _ in 0..4 {
        let mut c = opened(&host);
        for _ in 0..16 {
            // Requests between them take none.
            c.good(CONFIG_GET_SERVER_INFO, b"").unwrap();
            let challenge = c.challenge().unwrap();
            assert!(challenge.chunks(8).all(|part| seen.insert(part.try_into().unwrap())), "{challenge:?}");
        }
    }
}

#[test]
fn without_randomness_no_challenge_is_given() {
    let s = Scratch::new();
    let (shim, file, log) = (Shim::new(&s), s.path("accounts"), s.path("log"));
    private(&file, "md5 vault noon\n");
    let mut command = with(&s, &file);
    command.args(["--new-cartridge=100K", "--quiet"]).stderr(fs::File::create(&log).unwrap());
    let host = Host::spawn(shim.before(&mut command));
    let mut before = opened(&host);
    let challenge = before.challenge().unwrap();
    // The call is not there.
    shim.say("fail-random", 38);
    let mut c = opened(&host);
    let record = request(c.sequence + 1, CONFIG_GET_AUTH_ATTR, &words(&[2]));
    c.socket.write_all(&record).unwrap();
    closed(&mut c);
    told(&log, &["session 2: no challenge could be drawn: "]);
    // Others go on, by the challenge that was given before.
    opened(&host).good(CONFIG_GET_SERVER_INFO, b"").unwrap();
    before.good(CONNECT_CLIENT_AUTH, &by_md5("vault", "noon", &challenge)).unwrap();
    shim.unsay("fail-random");
    assert_eq!(answer(&host, "vault", "noon"), 0);
}

/// Standard error of a start that must fail: one line, and no word of the file.
fn failed(command: &mut Command) -> String {
    let done = finished(command);
    let why = String::from_utf8(done.stderr).unwrap();
    assert_eq!((done.status.code(), done.stdout.len(), why.lines().count()), (Some(1), 0, 1), "{why}");
    assert!(why.starts_with("mossgoblin serve: --accounts /") && !why.contains("secret"), "{why}");
    why
}

#[test]
fn file_of_accounts_that_others_may_read_is_refused() {
    let s = Scratch::new();
    let (file, link) = (s.path("accounts"), s.path("link"));
    private(&file, "md5 vault secret\n");
    symlink(&file, &link).unwrap();
    let set = |mode| fs::set_permissions(&file, fs::Permissions::from_mode(mode)).unwrap();
    let new = ["--new-cartridge", "100K"];
    for mode in [0o640, 0o604, 0o620, 0o602, 0o610, 0o601, 0o444, 0o666] {
        set(mode);
        let wanted = |path: &Path| format!("have rights to it (mode {mode:o}); chmod 600 {}\n", path.display());
        for path in [&file, &link] {
            let why = failed(with(&s, path).args(new));
            assert!(why.ends_with(&wanted(path)), "{why}");
        }
    }
    // Another's, where that can be tried.
    set(0o600);
    let own = fs::metadata(&file).unwrap().uid();
    if own == 0 {
        chown(&file, Some(12_345), None).unwrap();
        assert!(
            failed(with(&s, &file).args(new)).contains("belongs to user 12345; it is to belong to user 0, who runs")
        );
        chown(&file, Some(own), None).unwrap();
    }
    assert!(!s.path("tape").exists());
    drop(Host::spawn(with(&s, &file).args(new)));
    for (mode, path) in [(0o400, &file), (0o600, &link), (0o700, &file)] {
        set(mode);
        assert_eq!(answer(&Host::spawn(with(&s, path).arg("--quiet")), "vault", "secret"), 0, "{mode:o}");
    }
}

#[test]
fn what_is_no_file_of_accounts_is_refused() {
    let s = Scratch::new();
    let (folder, fifo, gone) = (s.folder("folder"), s.path("fifo"), s.path("gone"));
    fs::set_permissions(&folder, fs::Permissions::from_mode(0o700)).unwrap();
    assert!(Command::new("mkfifo").args(["-m", "600"]).arg(&fifo).status().unwrap().success());
    let dangling = s.path("dangling");
    symlink("nowhere", &dangling).unwrap();
    let null = PathBuf::from("/dev/null");
    for (path, why) in [
        (folder, "not a regular file"),
        (fifo, "not a regular file"),
        (null, "not a regular file"),
        (gone, "no such file"),
        (dangling, "no such file"),
    ] {
        let told = failed(with(&s, &path).args(["--new-cartridge", "100K"]));
        assert!(told.ends_with(&format!("{}: {why}\n", path.display())), "{told}");
    }
    assert!(!s.path("tape").exists());
}

#[test]
fn wrong_files_of_accounts_are_told_by_line() {
    let s = Scratch::new();
    let file = s.path("accounts");
    let eight = "md5 vault secret\n".repeat(8);
    let (nine, long) = (format!("#\n{eight}text vault secret\n"), format!("md5 vault secret{}\n", "x".repeat(27)));
    let large = format!("md5 vault secret\n#{}", " ".repeat(65_519));
    let last = "--account=vault:secret";
    for (bytes, more, why) in [
        ("", "--strict", "has no account; a line is md5 ID PASSWORD"),
        ("# md5 vault secret\n", last, "has no account; a line is md5 ID PASSWORD"),
        ("vault:secret\n", "--strict", "line 1: expected md5 as its first word"),
        ("text vault secret word\n", "--strict", "line 1: expected three words, md5 ID PASSWORD, and found 4"),
        ("\n\nmd5 secret\n", "--strict", "line 3: expected three words, md5 ID PASSWORD, and found 2"),
        (&long, "--strict", "line 1: an MD5 password of 33 bytes lets nobody in; at most 32"),
        (&nine, "--strict", "line 10: one account too many; at most 8, and that of --account is one of them"),
        (&eight, last, "line 8: one account too many; at most 8, and that of --account is one of them"),
        (&large, "--strict", "longer than 65536 bytes"),
    ] {
        private(&file, bytes);
        let told = failed(with(&s, &file).args(["--new-cartridge", "100K", more]));
        assert!(told.ends_with(&format!("{}: {why}\n", file.display())), "{told}");
    }
    assert!(!s.path("tape").exists());
    // No more than fit are taken, and no fewer.
    let most = format!("{eight}#{}", " ".repeat(65_535 - eight.len()));
    private(&file, &most);
    assert_eq!(fs::metadata(&file).unwrap().len(), 65_536);
    let host = Host::spawn(with(&s, &file).args(["--new-cartridge", "100K", "--quiet"]));
    assert_eq!(answer(&host, "vault", "secret"), 0);
}

/// Bytes as the digits that a log might have.
fn hex(bytes: &[u8]) -> String {
    bytes.iter().map(|b| format!("{b:02x}")).collect()
}

#[test]
fn logins_are_told_and_passwords_are_not() {
    let s = Scratch::new();
    let log = s.path("log");
    let host = start(&s, "md5 vault secret1\nmd5 ferry secret2\n", &[]);
    let mut c = opened(&host);
    // What is no request is not answered, and is no login.
    let reply = Header { sequence: 9, kind: 1, message: CONNECT_CLIENT_AUTH, ..Header::default() };
    c.socket.write_all(&reply.record(&by_text("spoofed", "secret4"))).unwrap();
    let challenge = c.challenge().unwrap();
    let good = by_md5("vault", "secret1", &challenge);
    c.expect(CONNECT_CLIENT_AUTH, &by_md5("va\"ult", "secret3", &challenge), codes::NOT_AUTHORIZED).unwrap();
    c.expect(CONNECT_CLIENT_AUTH, &by_md5("ferry", "secret1", &challenge), codes::NOT_AUTHORIZED).unwrap();
    c.good(CONNECT_CLIENT_AUTH, &good).unwrap();
    c.good(CONNECT_CLIENT_AUTH, &by_md5("ferry", "secret2", &challenge)).unwrap();
    let peer = c.socket.local_addr().unwrap();
    let lines = [
        format!("session 1: wrong login as \"va\"\"ult\" by MD5 from {peer}\n"),
        format!("session 1: wrong login as \"ferry\" by MD5 from {peer}\n"),
        "session 1: logged in as \"vault\" by MD5\n".into(),
        "session 1: logged in as \"ferry\" by MD5\n".into(),
    ];
    told(&log, &lines.each_ref().map(|l| l.as_str()));
    // Neither there nor in the list of processes.
    let all = fs::read_to_string(&log).unwrap();
    let process = ["cmdline", "environ"].map(|name| fs::read(format!("/proc/{}/{name}", host.child.id())).unwrap());
    assert!(process[0].starts_with(env!("CARGO_BIN_EXE_mossgoblin").as_bytes()));
    for text in [all.as_str(), &String::from_utf8_lossy(&process[0]), &String::from_utf8_lossy(&process[1])] {
        assert!(!text.contains("secret") && !text.contains("spoofed"), "{text}");
        for bytes in [&challenge[..], &good[good.len() - 16..]] {
            assert!(
                !text.contains(&hex(&bytes[..8])) && !text.contains(&format!("{:?}", &bytes[..4])[1..15]),
                "{text}"
            );
        }
    }
}

/// What others on the network see is told, and a login is none of it.
#[test]
fn network_sees_no_login() {
    let s = Scratch::new();
    let first = |accounts: &str| {
        let (file, log) = (s.path("accounts"), s.path("log"));
        private(&file, accounts);
        let mut command = with(&s, &file);
        command.args(["--listen=0.0.0.0:0", "--quiet"]).stderr(fs::File::create(&log).unwrap());
        if !s.path("tape").exists() {
            command.arg("--new-cartridge=100K");
        }
        let _host = Host::spawn(&mut command);
        soon(|| fs::read_to_string(&log).ok().filter(|text| text.ends_with('\n'))).unwrap()
    };
    for accounts in ["md5 vault noon\n", "md5 vault noon\ntext vault noon\n"] {
        let told = first(accounts);
        assert!(told.lines().next().unwrap().ends_with("alone: data go over the network as they are"), "{told}");
        assert!(!told.contains("login"), "{told}");
    }
}
