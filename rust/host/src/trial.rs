//! `mossgoblin try`: a client that writes, reads, backs up and recovers, and tells what it did.
use crate::accounts::{self, Account, Kind};
use crate::args::{NO_ACCOUNT, account};
use crate::client::{Client, Ended, Error, TO_READ, TO_WRITE, Why};
use crate::commands::{Failed, counted, grouped};
use crate::compare::{Equal, compare};
use crate::options::{Known, Written, alone, valued};
use crate::own::{Running, Scratch, noise, sample};
use proved::{Data, Mover, codes};
use std::fs;
use std::io::{self, IsTerminal, Write, stdout};
use std::os::unix::fs::OpenOptionsExt;
use std::path::{Path, PathBuf};
use std::process::Command;
use std::time::Instant;
use wire::message::{CONNECT_CLIENT_AUTH, DATA_GET_STATE, TAPE_MTIO, TAPE_OPEN, TAPE_READ, TAPE_WRITE};
use wire::{quad, text, word_at, words};

pub const TRY: [Known; 5] =
    [valued("--accounts"), valued("--account"), alone("--overwrite"), valued("--stream"), valued("--restore-to")];

const RECORD: u32 = codes::LONGEST_RECORD as u32;
const WINDOW: u64 = 32 * RECORD as u64;
/// Records that go there and back by requests.
const COUNT: usize = 32;

/// What is tried, and where its two ends lie on this machine, if they do.
struct Tried {
    address: String,
    account: Account,
    overwrite: bool,
    ends: Option<(PathBuf, PathBuf)>,
}

pub fn run(w: &Written) -> Result<(), Failed> {
    match &w.words[..] {
        [] if w.has("--account") || w.has("--accounts") => {
            Err(Failed::Words("ADDRESS:PORT of the vault is missing".into()))
        }
        [] => own(),
        [address] => {
            let account = who(w)?;
            let ends = match (w.value("--stream"), w.value("--restore-to")) {
                (Some(from), Some(to)) => Some((from.into(), to.into())),
                (None, None) => None,
                _ => return Err(Failed::Words("--stream and --restore-to go together".into())),
            };
            let address = address.to_string_lossy().into_owned();
            Ok(tried(&Tried { address, account, overwrite: w.has("--overwrite"), ends })?)
        }
        _ => Err(Failed::Words("expected one ADDRESS:PORT".into())),
    }
}

/// The account of the command line, or the first of a file.
fn who(w: &Written) -> Result<Account, Failed> {
    match (w.value("--account"), w.value("--accounts")) {
        (Some(_), Some(_)) => Err(Failed::Words("one of --accounts and --account is enough".into())),
        (Some(one), None) => account(one).map_err(Failed::Words),
        (None, Some(file)) => Ok(accounts::first(Path::new(file))?),
        (None, None) => Err(Failed::Words(NO_ACCOUNT.into())),
    }
}

/// A vault of one's own, with some files to back up.
fn own() -> Result<(), Failed> {
    let told = |e: io::Error| format!("a vault of its own could not be started: {e}");
    let s = Scratch::new().map_err(told)?;
    let (from, to) = (s.path("from"), s.path("to"));
    sample(&from).and_then(|()| fs::write(from.join("large"), noise(9, 24 << 20))).map_err(told)?;
    fs::create_dir(&to).map_err(told)?;
    let file = s.path("accounts");
    private(&file).and_then(|mut f| f.write_all(b"md5 vault noon\n")).map_err(told)?;
    let mut command = Command::new(std::env::current_exe().map_err(told)?);
    command.args(["serve", "--quiet", "--listen=127.0.0.1:0", "--new-cartridge=64M", "--accounts"]).arg(&file);
    command.arg("--cartridge").arg(s.path("tape")).arg("--stream").arg(&from).arg("--restore-to").arg(&to);
    let vault = Running::start(&mut command).map_err(told)?;
    println!("{:9} a vault of its own, with a cartridge of 64M in {}", "started", s.0.display());
    let address = vault.address.clone();
    let account = Account { kind: Kind::Md5, id: b"vault".to_vec(), password: b"noon".to_vec(), line: None };
    Ok(tried(&Tried { address, account, overwrite: false, ends: Some((from, to)) })?)
}

/// A new file that its owner alone may read.
fn private(path: &Path) -> io::Result<fs::File> {
    fs::OpenOptions::new().write(true).create_new(true).mode(0o600).open(path)
}

/// In words that say what to do.
fn told(address: &str, e: Error) -> String {
    let why = match &e {
        Error::Connection(c) => match c.kind() {
            io::ErrorKind::ConnectionRefused => "no vault listens there; `mossgoblin serve` starts one".into(),
            io::ErrorKind::InvalidInput => "expected ADDRESS:PORT, such as 127.0.0.1:10000".into(),
            _ => e.to_string(),
        },
        Error::Refused { message: CONNECT_CLIENT_AUTH, .. } => {
            "the vault does not take this id with this password by MD5; give an account that it was started with".into()
        }
        Error::Refused { message: TAPE_OPEN, error: codes::BAD_FILE } => {
            "another session has the tape; try again when it has ended".into()
        }
        _ => e.to_string(),
    };
    format!("{address}: {why}")
}

fn tried(t: &Tried) -> Result<(), String> {
    let Account { id, password, .. } = &t.account;
    let told = |e: Error| told(&t.address, e);
    let mut c = Client::connect(&t.address).map_err(told)?;
    c.login(id, password).map_err(told)?;
    println!("{:9} {}, logged in as {} by MD5", "vault", t.address, String::from_utf8_lossy(id));
    if !t.overwrite && !is_empty(&mut c).map_err(told)? {
        return Err(format!("{}: the tape there is not empty; --overwrite writes over it", t.address));
    }
    by_requests(&mut c).map_err(told)??;
    by_method(&mut c, Mover::TO_TAPE).map_err(told)??;
    by_method(&mut c, Mover::FROM_TAPE).map_err(told)??;
    if let Some((from, to)) = &t.ends {
        compared(from, to)?;
    }
    Ok(())
}

fn is_empty(c: &mut Client) -> Result<bool, Error> {
    c.tape_open(TO_READ)?;
    let (error, _) = c.ask(TAPE_READ, &words(&[1]))?;
    c.tape_close()?;
    Ok(error == codes::AT_END)
}

fn rate(bytes: u64, since: Instant) -> String {
    format!("{:.1} MB/s", bytes as f64 / since.elapsed().as_secs_f64().max(1e-9) / 1e6)
}

/// Records by tape write requests, and back by tape read requests. The inner error is a difference.
fn by_requests(c: &mut Client) -> Result<Result<(), String>, Error> {
    let records: Vec<Vec<u8>> = (0..COUNT).map(|i| noise(i as u64, RECORD as usize)).collect();
    c.tape_open(TO_WRITE)?;
    let begun = Instant::now();
    let mut sent = 0;
    for record in &records {
        if c.ask(TAPE_WRITE, &text(record))?.0 != 0 {
            break;
        }
        sent += 1;
    }
    let there = rate(sent as u64 * RECORD as u64, begun);
    c.good(TAPE_MTIO, &words(&[codes::REWIND_TAPE, 1]))?;
    let begun = Instant::now();
    for (i, record) in records[..sent].iter().enumerate() {
        let body = c.good(TAPE_READ, &words(&[RECORD]))?;
        if body.get(4..) != Some(&text(record)[..]) {
            return Ok(Err(format!("record {i} came back changed")));
        }
    }
    let back = rate(sent as u64 * RECORD as u64, begun);
    c.tape_close()?;
    println!(
        "{:9} {} bytes by {sent} write requests, {there}, and back by read requests, {back}: equal",
        "tape",
        grouped(sent as u64 * RECORD as u64)
    );
    Ok(Ok(()))
}

/// A backup or a recover. The inner error is an end that is no success.
fn by_method(c: &mut Client, mode: u32) -> Result<Result<(), String>, Error> {
    let (name, way) = if mode == Mover::TO_TAPE { ("backup", "to tape") } else { ("recover", "from tape") };
    c.tape_open(if mode == Mover::TO_TAPE { TO_WRITE } else { TO_READ })?;
    c.join(mode, RECORD, WINDOW)?;
    let begun = Instant::now();
    if mode == Mover::TO_TAPE {
        c.start_backup()?
    } else {
        c.start_recover()?
    };
    let line = stdout().is_terminal();
    let ended = c.run(WINDOW, |moved| {
        if line {
            print!("\r{name:9} {} bytes {way}, {}\x1b[K", grouped(moved), rate(moved, begun));
            let _ = stdout().flush();
        }
    })?;
    let moved = c.moved()?;
    let processed = processed(c)?;
    let text = format!(
        "{name:9} {} bytes {way} in {}, {} of the stream, {}",
        grouped(moved),
        counted(ended.pauses as u64 + 1, "window"),
        grouped(processed),
        rate(moved, begun)
    );
    if line {
        print!("\r\x1b[K");
    }
    c.finish()?;
    Ok(outcome(name, ended).map(|how| println!("{text}: {how}")))
}

/// The stream's bytes that the data end has processed.
fn processed(c: &mut Client) -> Result<u64, Error> {
    let body = c.call(DATA_GET_STATE, b"")?.body;
    Ok(word_at(&body, 24).map_or(0, |_| quad(&body, 20)))
}

fn outcome(name: &str, ended: Ended) -> Result<&'static str, String> {
    match ended.why {
        Why::Halted(Data::SUCCESSFUL) => Ok("successful"),
        Why::Paused(Mover::END_OF_MEDIUM) => Err("backup: the tape is full; a larger cartridge is needed".into()),
        Why::Halted(Data::INTERNAL_ERROR) => {
            let option = if name == "backup" { "--stream" } else { "--restore-to" };
            Err(format!("{name}: the vault could not go on; was it started with {option}? its standard error says why"))
        }
        Why::Halted(why) => Err(format!("{name}: halted with reason {why}")),
        Why::Paused(why) => Err(format!("{name}: paused with reason {why}")),
    }
}

fn compared(from: &Path, to: &Path) -> Result<(), String> {
    let Equal { files, folders, links, bytes } = compare(from, to).map_err(|e| format!("compared: {e}"))?;
    let (files, folders, links) = (counted(files, "file"), counted(folders, "folder"), counted(links, "link"));
    println!("{:9} {} in {files}, {folders}, {links}: equal", "compared", counted(bytes, "byte"));
    Ok(())
}
