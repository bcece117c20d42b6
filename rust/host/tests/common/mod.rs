//! A vault that is started and ended with a value, and what tests judge by.
#![allow(dead_code, unused_imports)]
pub mod changer;
pub mod far;
pub mod remote;
pub use host::client::{Client, Ended, TO_READ, TO_WRITE, Why};
pub use host::own::{Running, noise};
pub use proved::{Challenge, Data, Mover, codes};
use std::fs;
use std::io::{ErrorKind, Write};
use std::ops::{Deref, DerefMut};
use std::os::unix::fs::OpenOptionsExt;
use std::path::{Path, PathBuf};
use std::process::{Command, Output, Stdio};
use std::time::{Duration, Instant};
pub use wire::message::*;
pub use wire::{quad, quads, request, text, word, words};

/// A method that ended well.
pub const DONE: Why = Why::Halted(Data::SUCCESSFUL);
pub const FAILED: Why = Why::Halted(Data::INTERNAL_ERROR);

pub fn ended(pauses: u32, why: Why) -> Ended {
    Ended { pauses, why }
}

pub struct Scratch(host::own::Scratch);

impl Scratch {
    pub fn new() -> Scratch {
        Scratch(host::own::Scratch::new().unwrap())
    }

    pub fn folder(&self, name: &str) -> PathBuf {
        fs::create_dir_all(self.path(name)).unwrap();
        self.path(name)
    }
}

impl Deref for Scratch {
    type Target = host::own::Scratch;
    fn deref(&self) -> &host::own::Scratch {
        &self.0
    }
}

/// The program.
pub fn program() -> Command {
    Command::new(env!("CARGO_BIN_EXE_mossgoblin"))
}

/// The program with `serve` and what it always needs, for a cartridge.
pub fn serve(cartridge: &Path) -> Command {
    let mut command = program();
    command.args(["serve", "--account", "vault:noon", "--cartridge"]).arg(cartridge);
    command
}

/// What a command that ends by itself did; one that goes on for ten seconds has failed.
pub fn finished(command: &mut Command) -> Output {
    let mut child = command.stdout(Stdio::piped()).stderr(Stdio::piped()).spawn().unwrap();
    if soon(|| child.try_wait().unwrap()).is_none() {
        child.kill().unwrap();
        panic!("goes on: {command:?}");
    }
    child.wait_with_output().unwrap()
}

pub struct Host(Running);

impl Deref for Host {
    type Target = Running;
    fn deref(&self) -> &Running {
        &self.0
    }
}

impl DerefMut for Host {
    fn deref_mut(&mut self) -> &mut Running {
        &mut self.0
    }
}

impl Host {
    pub fn start(cartridge: &Path, more: &[&str]) -> Host {
        Host::spawn(serve(cartridge).args(["--listen", "127.0.0.1:0", "--quiet"]).args(more))
    }

    /// With its standard error in a file.
    pub fn logged(cartridge: &Path, log: &Path, more: &[&str]) -> Host {
        let log = fs::File::create(log).unwrap();
        Host::spawn(serve(cartridge).args(["--listen", "127.0.0.1:0"]).args(more).stderr(log))
    }

    pub fn spawn(command: &mut Command) -> Host {
        Host(Running::start(command).unwrap())
    }

    pub fn of(running: Running) -> Host {
        Host(running)
    }

    pub fn client(&self) -> Client {
        Client::connect(&self.address).unwrap()
    }

    /// A client that is logged in.
    pub fn login(&self) -> Client {
        let mut client = self.client();
        login(&mut client);
        client
    }

    /// A client of a host that may still be full: it is turned away until one of the others has ended.
    pub fn login_soon(&self) -> Client {
        soon(|| {
            let mut client = self.client();
            let first = client.receive().ok()?;
            client.notices.push_back(first);
            login(&mut client);
            Some(client)
        })
        .expect("every connection is turned away")
    }
}

/// The host ends the connection, and not the client's patience.
pub fn closed(c: &mut Client) {
    let kinds = [ErrorKind::UnexpectedEof, ErrorKind::ConnectionReset, ErrorKind::BrokenPipe];
    match c.receive() {
        Err(host::client::Error::Connection(e)) if kinds.contains(&e.kind()) => {}
        other => panic!("still open: {other:?}"),
    }
}

pub fn login(client: &mut Client) {
    client.login(b"vault", b"noon").unwrap();
}

/// The body of a login by text, which is withdrawn.
pub fn by_text(id: &str, password: &str) -> Vec<u8> {
    [words(&[codes::TEXT_AUTH]), text(id), text(password)].concat()
}

/// The body of a login by MD5.
pub fn by_md5(id: &str, password: &str, challenge: &Challenge) -> Vec<u8> {
    let digest = wire::md5::login_digest(password.as_bytes(), challenge).unwrap();
    [&words(&[codes::MD5_AUTH])[..], &text(id), &digest].concat()
}

/// The list of accounts that the core is lent, of kinds, ids and passwords.
pub fn lent<T: AsRef<[u8]>>(accounts: &[(u32, T, T)]) -> Vec<u8> {
    let each = accounts.iter().flat_map(|(kind, id, word)| [words(&[*kind]), text(id), text(word)].concat());
    [words(&[accounts.len() as u32]), each.collect()].concat()
}

/// A file that its owner alone may read.
pub fn private(path: &Path, bytes: impl AsRef<[u8]>) {
    let _ = fs::remove_file(path);
    let opened = fs::OpenOptions::new().write(true).create_new(true).mode(0o600).open(path);
    opened.unwrap().write_all(bytes.as_ref()).unwrap();
}

/// Opens the tape that another has just left; the host may not have noticed yet.
pub fn tape_open_soon(client: &mut Client, mode: u32) {
    soon(|| client.tape_open(mode).ok()).expect("the tape is not free");
}

/// Waits until a log has all of these.
pub fn told(log: &Path, parts: &[&str]) {
    let has = || {
        let text = fs::read_to_string(log).unwrap();
        parts.iter().all(|p| text.contains(p)).then_some(())
    };
    soon(has).unwrap_or_else(|| panic!("{parts:?} is not all in {}", fs::read_to_string(log).unwrap()));
}

pub fn signal(host: &Host, name: &str) {
    let id = host.child.id().to_string();
    assert!(Command::new("kill").args([name, &id]).status().unwrap().success());
}

/// What is there within ten seconds, or at one of three looks, however busy the machine is.
pub fn soon<T>(mut ask: impl FnMut() -> Option<T>) -> Option<T> {
    let begun = Instant::now();
    for look in 1.. {
        if let Some(x) = ask() {
            return Some(x);
        }
        if look >= 3 && begun.elapsed() >= Duration::from_secs(10) {
            break;
        }
        std::thread::sleep(Duration::from_millis(20));
    }
    None
}

/// The archive that a backup of a folder or a file makes.
pub fn archive(path: &Path) -> Vec<u8> {
    archive_with(path, host::tar::Options::warning(|_| ())).unwrap()
}

pub fn archive_with(path: &Path, options: host::tar::Options) -> std::io::Result<Vec<u8>> {
    let mut tar = host::tar::Tar::new(path, options)?;
    let mut all = Vec::new();
    let mut part = vec![0; 1 << 16];
    while !tar.is_over() {
        let (n, how) = tar.fill(&mut part, Duration::from_secs(1));
        all.extend(&part[..n]);
        how?;
    }
    Ok(all)
}

pub fn sample(folder: &Path) {
    host::own::sample(folder).unwrap();
}

/// Writes a stream to the tape's start by requests, in records of one length, the last filled with zeros.
pub fn put_on_tape(c: &mut Client, bytes: &[u8], record: usize) {
    c.tape_open(TO_WRITE).unwrap();
    for part in bytes.chunks(record) {
        let mut part = part.to_vec();
        part.resize(record, 0);
        c.good(TAPE_WRITE, &text(&part)).unwrap();
    }
    c.tape_close().unwrap();
}

/// A header as a stranger could write it, with its body.
pub fn member(name: &str, kind: u8, link: &str, body: &[u8]) -> Vec<u8> {
    let mut b = vec![0; 512];
    b[..name.len()].copy_from_slice(name.as_bytes());
    b[100..107].copy_from_slice(b"0000644");
    b[124..135].copy_from_slice(format!("{:011o}", body.len()).as_bytes());
    b[136..147].copy_from_slice(b"00000000000");
    b[156] = kind;
    b[157..157 + link.len()].copy_from_slice(link.as_bytes());
    b[257..265].copy_from_slice(b"ustar\x0000");
    b[148..156].fill(b' ');
    let sum: u32 = b.iter().map(|x| *x as u32).sum();
    b[148..155].copy_from_slice(format!("{sum:06o}\0").as_bytes());
    b.extend(body);
    b.resize(b.len().next_multiple_of(512), 0);
    b
}

/// Members with an end, as tapes had them before streams told their digest.
pub fn old_archive(members: &[Vec<u8>]) -> Vec<u8> {
    [&members.concat()[..], &[0; 1024]].concat()
}

/// Names, kinds and bytes below a folder.
pub fn tree(folder: &Path) -> Vec<(PathBuf, Vec<u8>)> {
    let mut all = Vec::new();
    let mut todo = vec![folder.to_path_buf()];
    while let Some(at) = todo.pop() {
        for entry in fs::read_dir(&at).unwrap() {
            let path = entry.unwrap().path();
            let meta = path.symlink_metadata().unwrap();
            let name = path.strip_prefix(folder).unwrap().to_path_buf();
            if meta.is_symlink() {
                all.push((name, format!("link {}", fs::read_link(&path).unwrap().display()).into_bytes()));
            } else if meta.is_dir() {
                all.push((name, b"folder".to_vec()));
                todo.push(path);
            } else {
                all.push((name, fs::read(&path).unwrap()));
            }
        }
    }
    all.sort();
    all
}

/// Whether an image is sound, by the words of the rules alone.
pub fn sound(image: &[u8]) -> Result<(u64, u64), String> {
    let w = |i: usize| {
        image
            .get(4 * i..4 * i + 4)
            .map(|b| u32::from_be_bytes(b.try_into().unwrap()) as u64)
            .ok_or("too short".to_string())
    };
    let (one, capacity, n, used) = (w(0)?, w(1)?, w(2)?, w(3)?);
    if one != 1 || capacity == 0 || capacity > 4096 || n > capacity {
        return Err(format!("header {one} {capacity} {n} {used}"));
    }
    let body = (image.len() as u64).checked_sub(16 + 8 * capacity).ok_or("no room for the table")?;
    if body > 134_217_728 || used > body {
        return Err(format!("body {body}, used {used}"));
    }
    let mut sum = 0;
    for i in 0..n as usize {
        let (length, start) = (w(4 + 2 * i)?, w(5 + 2 * i)?);
        if length > 32_768 || start != sum {
            return Err(format!("entry {i} of {n}: length {length}, start {start}, expected {sum}"));
        }
        sum += length;
    }
    if sum != used { Err(format!("used {used}, sum {sum}")) } else { Ok((n, used)) }
}

/// The records of an image, marks as empty ones; none if it is not sound.
pub fn list(image: &[u8]) -> Option<Vec<Vec<u8>>> {
    let (n, _) = sound(image).ok()?;
    let body = 16 + 8 * word(image, 4) as usize;
    let entry = |i: usize| (word(image, 16 + 8 * i) as usize, body + word(image, 20 + 8 * i) as usize);
    Some((0..n as usize).map(entry).map(|(len, at)| image[at..at + len].to_vec()).collect())
}

/// Calls of the system that are noted, and fail or take long when that is said.
pub struct Shim {
    pub folder: PathBuf,
    library: PathBuf,
}

impl Shim {
    pub fn new(s: &Scratch) -> Shim {
        let (folder, library) = (s.folder("shim"), s.path("shim.so"));
        let source = Path::new(env!("CARGO_MANIFEST_DIR")).join("tests/shim/shim.c");
        let done =
            Command::new("cc").args(["-shared", "-fPIC", "-O1", "-o"]).arg(&library).arg(source).output().unwrap();
        assert!(done.status.success(), "{}", String::from_utf8_lossy(&done.stderr));
        Shim { folder, library }
    }

    pub fn before<'a>(&self, command: &'a mut Command) -> &'a mut Command {
        command.env("LD_PRELOAD", &self.library).env("SHIM", &self.folder)
    }

    /// Says that a call fails with this errno, or takes so many microseconds: `fail-pwrite`, `slow-openat`.
    pub fn say(&self, what: &str, number: u32) {
        fs::write(self.folder.join(what), number.to_string()).unwrap();
    }

    pub fn unsay(&self, what: &str) {
        fs::remove_file(self.folder.join(what)).unwrap();
    }

    /// The bytes of the writes since the last look, or since the first.
    pub fn kept(&self) -> Vec<u8> {
        let path = self.folder.join("keep");
        let bytes = fs::read(&path).unwrap_or_default();
        fs::write(path, b"").unwrap();
        bytes
    }

    /// The calls noted since the last look.
    pub fn trace(&self) -> Vec<String> {
        let path = self.folder.join("trace");
        let text = fs::read_to_string(&path).unwrap_or_default();
        let _ = fs::remove_file(path);
        text.lines().map(String::from).collect()
    }
}
