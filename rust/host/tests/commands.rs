//! The commands other than `serve`, by what they print and how they end.
mod common;
use common::*;
use std::fs;
use std::os::unix::fs::PermissionsExt;
use std::path::Path;

/// The exit code, standard output and standard error.
fn run(args: &[&str]) -> (i32, String, String) {
    let done = program().args(args).output().unwrap();
    let text = |bytes: Vec<u8>| String::from_utf8(bytes).unwrap();
    (done.status.code().unwrap(), text(done.stdout), text(done.stderr))
}

#[test]
fn help_ends_with_examples() {
    for args in [&["--help"][..], &["help"], &["help", "serve"], &["serve", "--help"], &["new", "-h"]] {
        let (code, out, err) = run(args);
        assert!(code == 0 && err.is_empty() && out.starts_with("mossgoblin"), "{args:?}");
    }
    for command in ["serve", "new", "list", "check", "library", "accounts", "rmt", "try"] {
        let (_, out, _) = run(&[command, "--help"]);
        let examples = out.split_once("\nExamples:\n").unwrap().1;
        assert!(examples.contains(&format!("  mossgoblin {command}")), "{command}");
        assert!(out.lines().all(|l| l.chars().count() <= 100), "{command}");
        assert!(run(&["--help"]).1.contains(&format!("mossgoblin {command}")));
    }
    assert_eq!(run(&["--version"]).1, "mossgoblin 0.1.0 (NDMP version 4)\n");
}

#[test]
fn wrong_words_are_one_line() {
    let long = format!("--account=a:{}", "p".repeat(33));
    for (args, why) in [
        (&[][..], "mossgoblin: a command is missing: serve, new, list, check, library, accounts, rmt or try"),
        (&["lst", "x"], "mossgoblin: no command lst (did you mean list?)"),
        (&["account", "x"], "mossgoblin: no command account (did you mean accounts?)"),
        (&["serve"], "mossgoblin serve: --accounts FILE or --account ID:PASSWORD is missing"),
        (&["new", "x"], "mossgoblin new: expected FILE and SIZE"),
        (&["new", "x", "129M"], "mossgoblin new: \"129M\": expected a size of at most 128M, such as 64M"),
        (&["list"], "mossgoblin list: expected one FILE"),
        (&["list", "--all", "x"], "mossgoblin list: unknown option --all"),
        (&["check"], "mossgoblin check: expected a FILE"),
        (&["library"], "mossgoblin library: expected one DIR"),
        (&["library", "a", "b"], "mossgoblin library: expected one DIR"),
        (&["serve", "--account=a:b", "--listen=x:1"], "mossgoblin serve: --cartridge FILE or --library DIR is missing"),
        (
            &["serve", "--account=a:b", "--listen=x:1", "--library=x", "--new-cartridge=1M"],
            "mossgoblin serve: --new-cartridge needs --cartridge FILE, which it makes",
        ),
        (&["accounts"], "mossgoblin accounts: expected one FILE"),
        (&["accounts", "a", "b"], "mossgoblin accounts: expected one FILE"),
        (&["accounts", "--account=a:b", "x"], "mossgoblin accounts: unknown option --account"),
        (&["try", "a", "b"], "mossgoblin try: expected one ADDRESS:PORT"),
        (&["try", "127.0.0.1:1"], "mossgoblin try: --accounts FILE or --account ID:PASSWORD is missing"),
        (&["try", "--account=a:b"], "mossgoblin try: ADDRESS:PORT of the vault is missing"),
        (&["try", "x:1", "--account=a:"], "mossgoblin try: --account: neither id nor password may be empty"),
        (&["try", "x:1", &long], "mossgoblin try: --account: an MD5 password of 33 bytes lets nobody in; at most 32"),
        (&["try", "--accounts=a"], "mossgoblin try: ADDRESS:PORT of the vault is missing"),
        (&["try", "x:1", "--account=a:b", "--accounts=a"], "mossgoblin try: one of --accounts and --account is enough"),
    ] {
        let (code, out, err) = run(args);
        assert!(code == 2 && out.is_empty() && err.starts_with(why) && err.lines().count() == 1, "{err}");
    }
}

fn text_of(path: &Path) -> &str {
    path.to_str().unwrap()
}

#[test]
fn made_listed_and_checked() {
    let s = Scratch::new();
    let tape = s.path("tape");
    let name = text_of(&tape);
    let (code, out, _) = run(&["new", name, "1M"]);
    assert_eq!((code, out), (0, format!("made {name}: room for 1,048,576 bytes in at most 4,096 records and marks\n")));
    assert_eq!(sound(&fs::read(&tape).unwrap()), Ok((0, 0)));
    let (code, _, err) = run(&["new", name, "1M"]);
    assert!(code == 1 && err.contains("exists already") && err.lines().count() == 1, "{err}");
    assert_eq!(run(&["list", name]).1, "cartridge 0 of 4096 entries, 0 of 1048576 bytes\n");

    let host = Host::start(&tape, &[]);
    for command in ["list", "check"] {
        let (code, out, err) = run(&[command, name]);
        assert!(code == 1 && format!("{out}{err}").contains("in use by another program"), "{out}{err}");
    }
    let mut c = host.login();
    c.tape_open(TO_WRITE).unwrap();
    for n in [5, 32_768] {
        c.good(TAPE_WRITE, &text(noise(n as u64, n))).unwrap();
        c.good(TAPE_MTIO, &words(&[codes::WRITE_MARKS, n as u32 % 3])).unwrap();
    }
    drop((c, host));
    let listed = "cartridge 6 of 4096 entries, 32773 of 1048576 bytes\n\
                  0 record 5 at 0\n1 mark at 5\n2 mark at 5\n3 record 32768 at 5\n4 mark at 32773\n5 mark at 32773\n";
    assert_eq!(run(&["list", name]), (0, listed.into(), "".into()));
    let told = format!("{name}: sound: 2 records, 4 marks, 32,773 of 1,048,576 bytes, 6 of 4096 entries\n");
    assert_eq!(run(&["check", name]), (0, told.clone(), "".into()));

    // One word wrong, a file that is no cartridge, and none at all.
    let mut bytes = fs::read(&tape).unwrap();
    bytes[23] ^= 1;
    let (bad, none) = (s.path("bad"), s.path("none"));
    fs::write(&bad, &bytes).unwrap();
    let (code, out, err) = run(&["check", name, text_of(&bad), text_of(&none)]);
    let lines: Vec<&str> = out.lines().collect();
    assert_eq!((code, lines.len(), lines[0]), (1, 3, told.trim_end()));
    let words =
        "not a sound cartridge image: 1081360 bytes; its words: version 1, capacity 4096, entries 6, used 32773";
    assert_eq!(lines[1], format!("{}: {words}", bad.display()));
    assert!(lines[2].ends_with("no such file; `mossgoblin new` makes a cartridge"), "{out}");
    assert_eq!(err, "mossgoblin check: 2 of 3 not found sound\n");
    assert_eq!(run(&["list", text_of(&bad)]).0, 1);
}

/// The image of the rules is listed as the proved lister prints it.
#[test]
fn lists_as_the_lister_does() {
    let lister = Path::new(env!("CARGO_MANIFEST_DIR")).join("../../crates/run_lister");
    let (code, out, _) = run(&["list", text_of(&lister.join("stdin"))]);
    assert_eq!((code, out), (0, fs::read_to_string(lister.join("stdout")).unwrap()));
}

#[test]
fn largest_cartridge_and_one_byte_more() {
    let s = Scratch::new();
    let tape = s.path("tape");
    assert_eq!(run(&["new", text_of(&tape), "128M"]).0, 0);
    assert!(run(&["check", text_of(&tape)]).1.contains("sound: 0 records, 0 marks, 0 of 134,217,728 bytes"));
    let file = fs::OpenOptions::new().write(true).open(&tape).unwrap();
    file.set_len(file.metadata().unwrap().len() + 1).unwrap();
    assert!(run(&["check", text_of(&tape)]).1.contains("too long for a cartridge: 134250513 bytes"));
}

fn lines_of(out: &str) -> Vec<&str> {
    out.lines().map(|l| l.split(' ').next().unwrap()).collect()
}

#[test]
fn try_of_its_own_vault() {
    let (code, out, err) = run(&["try"]);
    assert_eq!((code, err.as_str()), (0, ""), "{out}");
    assert_eq!(lines_of(&out), ["started", "vault", "tape", "backup", "recover", "compared"], "{out}");
    assert!(out.contains(", logged in as vault by MD5\n"), "{out}");
    assert!(out.contains("1,048,576 bytes by 32 write requests") && out.contains(": equal\n"), "{out}");
    assert!(out.contains("25,467,856 bytes in 7 files, 5 folders, 1 link: equal"), "{out}");
}

#[test]
fn try_of_a_running_vault() {
    let s = Scratch::new();
    let (from, to, tape) = (s.path("from"), s.path("to"), s.path("tape"));
    fs::write(&from, noise(3, 100_000)).unwrap();
    let ends = ["--stream", text_of(&from), "--restore-to", text_of(&to)];
    let file = s.path("accounts");
    private(&file, "md5 ferry tide\nmd5 vault noon\n");
    let by_file = format!("--accounts={}", text_of(&file));
    let host = Host::start(&tape, &[&["--new-cartridge", "4M", &by_file][..], &ends].concat());
    let args = |account| [&["try", &host.address, account][..], &ends].concat();
    let (code, out, err) = run(&args("--account=vault:moon"));
    assert!(code == 1 && out.is_empty() && err.lines().count() == 1, "{err}");
    assert!(err.contains("the vault does not take this id with this password by MD5"), "{err}");
    let (code, out, err) = run(&args("--account=vault:noon"));
    assert_eq!((code, err.as_str()), (0, ""), "{out}");
    assert!(out.contains(", logged in as vault by MD5\n"), "{out}");
    assert_eq!(lines_of(&out), ["vault", "tape", "backup", "recover", "compared"], "{out}");
    assert!(out.contains("100,000 bytes in 1 file, 0 folders, 0 links: equal\n"), "{out}");
    // What is on the tape now is not written over unless that is said.
    let (code, _, err) = run(&args("--account=vault:noon"));
    assert!(code == 1 && err.contains("the tape there is not empty; --overwrite"), "{err}");
    assert_eq!(run(&[&args("--account=vault:noon")[..], &["--overwrite"]].concat()).0, 0);
    // The first account of a file; one of text is told, as it would not be let in, and one that others may read is not taken.
    let (code, out, _) = run(&[&args(&by_file)[..], &["--overwrite"]].concat());
    assert!(code == 0 && out.contains(", logged in as ferry by MD5\n"), "{out}");
    private(&file, "#\ntext ferry secret\nmd5 vault noon\n");
    let (code, out, err) = run(&args(&by_file));
    let why = "line 2: its first account is one of text, and such a login is withdrawn; \
               write md5 in place of text, with a password of at most 32 bytes, or put an md5 line first\n";
    assert_eq!((code, out.as_str()), (1, ""));
    assert_eq!(err, format!("mossgoblin try: --accounts {}: {why}", text_of(&file)));
    private(&file, "md5 vault noon\ntext ferry tide\n");
    let (code, out, _) = run(&[&args(&by_file)[..], &["--overwrite"]].concat());
    assert!(code == 0 && out.contains(", logged in as vault by MD5\n"), "{out}");
    fs::set_permissions(&file, fs::Permissions::from_mode(0o640)).unwrap();
    let (code, _, err) = run(&args(&by_file));
    assert!(code == 1 && err.ends_with(&format!("chmod 600 {}\n", text_of(&file))), "{err}");
    // A vault that has nothing to back up, one that is gone.
    let other = Host::start(&s.path("other"), &["--new-cartridge", "4M"]);
    let (code, _, err) = run(&["try", &other.address, "--account=vault:noon"]);
    assert!(code == 1 && err.contains("was it started with --stream?"), "{err}");
    let address = other.address.clone();
    drop(other);
    let (code, _, err) = run(&["try", &address, "--account=vault:noon"]);
    assert!(code == 1 && err.contains("no vault listens there; `mossgoblin serve` starts one"), "{err}");
}
