//! Starting the vault, and one thread for each connection.
use crate::accounts;
use crate::args::{Args, NO_CARTRIDGE};
use crate::cartridge::{self, Cartridge};
use crate::folder::Id;
use crate::library::{self, Library, Opened};
use crate::line::{Over, Shared};
use crate::log::Log;
use crate::progress::Progress;
use crate::restore::{may_write, parted};
use crate::session::serve;
use crate::status;
use crate::sys;
use crate::vault::Vault;
use crate::watch::Watch;
use std::fmt::Display;
use std::fs::File;
use std::io::{ErrorKind, Read, Write, stdout};
use std::net::{IpAddr, SocketAddr, TcpListener, TcpStream};
use std::panic::{AssertUnwindSafe, catch_unwind};
use std::path::Path;
use std::sync::atomic::{AtomicBool, AtomicUsize, Ordering};
use std::sync::{Arc, Mutex};
use std::thread::Builder;
use std::time::{Duration, Instant};

pub const MOST_CONNECTIONS: usize = 64;
/// Of these so many may be open that have not logged in: the others are kept for those who have.
const MOST_STRANGERS: usize = 48;

fn check_stream(path: &Path) -> Result<(), String> {
    let kind = path.metadata().and_then(|m| match (m.is_dir(), m.is_file()) {
        (true, _) => path.read_dir().map(|_| true),
        (_, true) => File::open(path).map(|_| true),
        _ => Ok(false),
    });
    match kind {
        Ok(true) => Ok(()),
        Ok(false) => Err(format!("--stream {}: neither a folder nor a file", path.display())),
        Err(e) => Err(format!("--stream {}: {e}", path.display())),
    }
}

/// Whether two names are one, of files that may not be there yet.
fn same_name(a: &Path, b: &Path) -> bool {
    let place = |p: &Path| {
        let (folder, name) = parted(p).ok()?;
        let folder = if folder.as_os_str().is_empty() { Path::new(".") } else { &folder };
        Some((Id::of(&folder.metadata().ok()?), name))
    };
    place(a).is_some_and(|a| Some(a) == place(b))
}

fn check_target(path: &Path) -> Result<(), String> {
    let folder = path.parent().filter(|p| !p.as_os_str().is_empty()).unwrap_or(Path::new("."));
    let slashed = path.as_os_str().as_encoded_bytes().last() == Some(&b'/');
    if path.is_dir() {
        Ok(())
    } else if slashed || !folder.is_dir() {
        Err(format!("--restore-to {}: no such folder; make it first", path.display()))
    } else {
        Ok(())
    }
}

/// Listens at an address that an option names.
fn listen(option: &str, address: &str) -> Result<TcpListener, String> {
    TcpListener::bind(address).map_err(|e| {
        let why = match e.kind() {
            ErrorKind::AddrInUse => "already in use; choose another port, or 0 for one that is free".into(),
            ErrorKind::AddrNotAvailable => "not an address of this machine; 127.0.0.1 and 0.0.0.0 are".into(),
            ErrorKind::InvalidInput => "expected ADDRESS:PORT, such as 127.0.0.1:10000".into(),
            ErrorKind::PermissionDenied => "not allowed; ports from 1024 on are for all".into(),
            _ => e.to_string(),
        };
        format!("{option} {address}: {why}")
    })
}

/// What can be known to be wrong before anything is made.
fn check(args: &Args) -> Result<(), String> {
    args.stream.as_deref().map_or(Ok(()), check_stream)?;
    args.restore_to.as_deref().map_or(Ok(()), check_target)?;
    if let (Some(to), Some(cartridge)) = (&args.restore_to, &args.cartridge)
        && same_name(to, cartridge)
    {
        return Err(format!("--restore-to {0}: is the cartridge itself; choose another name", cartridge.display()));
    }
    if let (Some(to), Some(library)) = (&args.restore_to, &args.library)
        && meet(to, library)
    {
        let (to, library) = (to.display(), library.display());
        return Err(format!("--restore-to {to}: the library {library} is there; choose a folder apart from it"));
    }
    args.ports.check()
}

/// Whether one of them lies in the other, or both are one: what is restored there could become the list of slots, or a
/// cartridge.
fn meet(to: &Path, library: &Path) -> bool {
    let whole = |p: &Path| match p.canonicalize() {
        Ok(p) => Some(p),
        Err(_) => parted(p).ok().and_then(|(folder, _)| match folder.as_os_str().is_empty() {
            true => Path::new(".").canonicalize().ok(),
            false => folder.canonicalize().ok(),
        }),
    };
    match (whole(to), library.canonicalize().ok()) {
        (Some(a), Some(b)) => a.starts_with(&b) || to.is_dir() && b.starts_with(&a),
        _ => false,
    }
}

/// The cartridges, of which the single one is made first where that was asked for.
fn library_of(args: &Args) -> Result<Opened, String> {
    if let (Some(body), Some(cartridge)) = (args.new_cartridge, &args.cartridge) {
        args.library.as_deref().map_or(Ok(()), |folder| library::check(folder, cartridge))?;
        cartridge::create(cartridge, body)?;
    }
    let opened = match (&args.library, &args.cartridge) {
        (Some(folder), beside) => Library::open(folder, beside.as_deref())?,
        (None, Some(cartridge)) => Library::one(cartridge)?,
        (None, None) => return Err(NO_CARTRIDGE.into()),
    };
    if let Some(to) = &args.restore_to {
        may_write(to, &opened.ids).map_err(|why| format!("--restore-to {}: {why}", to.display()))?;
    }
    Ok(opened)
}

pub fn run(mut args: Args) -> Result<(), String> {
    check(&args)?;
    let accounts = accounts::all(args.account.take(), args.accounts.as_deref())?;
    // The ports first: a cartridge is made only if the vault can start.
    let listener = listen("--listen", &args.listen)?;
    let page = args.status.as_deref().map(|a| listen("--status", a)).transpose()?;
    let Opened { library, drive, ids, notes } = library_of(&args)?;
    let watch = page.is_some().then(|| {
        let watch = Watch::new();
        watch.loaded(library.name(library.slots[0]), drive.as_ref());
        watch.placed(library.shown());
        watch
    });
    let address = listener.local_addr().map_err(|e| e.to_string())?;
    let _ = writeln!(stdout(), "listening on {address}");
    let Args { accounts: file, stream, restore_to, ports, limits, strict, marks, quiet, .. } = args;
    let shared = Arc::new(Shared {
        several: library.count() > 1,
        vault: Vault::new(library, drive),
        accounts: accounts::lent(&accounts),
        stream,
        restore_to,
        ports,
        except: ids,
        limits,
        strict,
        marks,
        log: Arc::new(Log::new(quiet)),
        watch,
        open: Mutex::default(),
        ending: AtomicBool::new(false),
    });
    warn(&shared, address);
    notes.iter().for_each(|note| shared.log.error(note));
    file.map(|f| accounts::withdrawn(&accounts, &f)).into_iter().flatten().for_each(|text| shared.log.error(text));
    page.map_or(Ok(()), |page| start_page(page, &shared, address)).map_err(|e| format!("--status: {e}"))?;
    hear_signals(shared.clone()).map_err(|e| format!("signals: {e}"))?;
    accept(&listener, shared)
}

/// What others on the network can read. A login by MD5 is none of it.
const IN_THE_CLEAR: &str = "data go over the network as they are";

const UNKNOWN_PEER: &str =
    "whoever connects first to an open data port is the peer, and data go over the network as they are";

fn warn(shared: &Shared, address: SocketAddr) {
    warn_of(&shared.log, "--listen", address.ip(), address, IN_THE_CLEAR);
    for at in &shared.ports.addresses {
        warn_of(&shared.log, "--data-address", (*at).into(), at, UNKNOWN_PEER);
    }
}

/// What is to be said of an address that others reach.
fn reached(option: &str, ip: IpAddr, at: impl Display, what: &str) -> Option<String> {
    (!ip.to_canonical().is_loopback()).then(|| format!("{option} {at} is not this machine's alone: {what}"))
}

fn warn_of(log: &Log, option: &str, ip: IpAddr, at: impl Display, what: &str) {
    if let Some(text) = reached(option, ip, at, what) {
        log.error(text);
    }
}

fn named(name: &str) -> Builder {
    Builder::new().name(name.into())
}

fn start_page(page: TcpListener, shared: &Arc<Shared>, vault: SocketAddr) -> std::io::Result<()> {
    let at = page.local_addr()?;
    let _ = writeln!(stdout(), "status on http://{at}/");
    warn_of(&shared.log, "--status", at.ip(), at, "names of files and clients are read there without a login");
    status::start(page, shared.clone(), vault.to_string())
}

fn hear_signals(shared: Arc<Shared>) -> std::io::Result<()> {
    let signals = sys::signals()?;
    named("signals").spawn(move || end(signals, &shared)).map(drop)
}

/// How long sessions are waited for, each of which ends after its step.
const LAST_STEPS: Duration = Duration::from_secs(10);

/// Ends the program in order when a signal says so: all connections end, the list is settled, and the cartridge is handed
/// back and stored.
fn end(mut signals: File, shared: &Shared) {
    let mut byte = [0];
    while signals.read_exact(&mut byte).is_err() {
        std::thread::sleep(Duration::from_millis(100));
    }
    let name = if byte[0] == sys::TERMINATE { "SIGTERM" } else { "SIGINT" };
    let log = &shared.log;
    let open = shared.end_all();
    log.line(format_args!("{name}: the vault ends, and {open} sessions with it"));
    let until = Instant::now() + LAST_STEPS;
    while shared.count() > 0 && Instant::now() < until {
        std::thread::sleep(Duration::from_millis(10));
    }
    let code = match shared.vault.last().map(|(library, drive)| settled(library, drive)) {
        Some(Ok(n)) => {
            let n = n.map_or(String::new(), |n| format!(", {n} records and marks"));
            log.line(format_args!("ended by {name}: all that was acknowledged is on the disk{n}"));
            0
        }
        Some(Err(why)) => {
            log.error(format_args!("ended by {name}: {why}"));
            1
        }
        None => {
            log.error(format_args!(
                "ended by {name} while a session had the tape or the places; all that was acknowledged is on the disk"
            ));
            1
        }
    };
    std::process::exit(code);
}

/// The list and the image in the drive are on the disk, each also where the other cannot be. Gives the entries of that
/// image.
fn settled(mut library: Library, drive: Option<Cartridge>) -> Result<Option<usize>, String> {
    let list = library.settle().map_err(|e| format!("the list of slots could not be written: {e}"));
    let image = drive.map(|mut c| c.store().map(|_| c.entries())).transpose();
    match (list, image.map_err(|e| format!("the cartridge file could not be written: {e}"))) {
        (Ok(()), image) => image,
        (Err(why), Ok(_)) => Err(why),
        (Err(list), Err(image)) => Err(format!("{list}; {image}")),
    }
}

/// One connection, from its first line in the log to its last.
fn one(socket: TcpStream, peer: SocketAddr, shared: &Shared, number: usize, stranger: Leaves) {
    let note = Progress::new(&shared.log, number);
    note.line(format_args!("connected from {peer}"));
    shared.came(number, &socket);
    let end = catch_unwind(AssertUnwindSafe(|| serve(socket, shared, number, stranger)));
    match end {
        Ok(Ok(())) => note.line("closed"),
        Ok(Err(Over::Gone(why))) => note.line(why),
        Ok(Err(Over::Failed(why))) => note.error(why),
        Err(_) => note.error("ended by a fault of the program"),
    }
    // After its line: when all are gone the program may end.
    shared.went(number);
}

fn accept(listener: &TcpListener, shared: Arc<Shared>) -> Result<(), String> {
    let (count, strangers) = (Arc::new(AtomicUsize::new(0)), Arc::new(AtomicUsize::new(0)));
    for number in 1.. {
        let (socket, peer) = match listener.accept() {
            Ok(pair) => pair,
            Err(e) => {
                // Such as too many open files: that may pass.
                shared.log.error(format_args!("accept: {e}"));
                std::thread::sleep(Duration::from_millis(100));
                continue;
            }
        };
        let Some(left) = Leaves::enter(&count, MOST_CONNECTIONS) else {
            shared.log.error(format_args!("{peer}: turned away, {MOST_CONNECTIONS} connections are open"));
            continue;
        };
        let Some(stranger) = Leaves::enter(&strangers, MOST_STRANGERS) else {
            let why = "connections are open that have not logged in";
            shared.log.error(format_args!("{peer}: turned away, {MOST_STRANGERS} {why}"));
            continue;
        };
        let there = shared.clone();
        let work = move || {
            let _left = left;
            one(socket, peer, &there, number, stranger);
        };
        if let Err(e) = named("session").spawn(work) {
            shared.log.error(format_args!("{peer}: turned away, no thread could be made: {e}"));
        }
    }
    Ok(())
}

/// One of so many; counted off when it is dropped, also after a panic.
pub struct Leaves(Arc<AtomicUsize>);

impl Leaves {
    pub fn enter(count: &Arc<AtomicUsize>, most: usize) -> Option<Leaves> {
        let one = Leaves(count.clone());
        (count.fetch_add(1, Ordering::SeqCst) < most).then_some(one)
    }
}

impl Drop for Leaves {
    fn drop(&mut self) {
        self.0.fetch_sub(1, Ordering::SeqCst);
    }
}

#[cfg(test)]
mod tests {
    use super::*;

    #[test]
    fn addresses_that_others_reach_are_told() {
        for (at, told) in [
            ("127.0.0.1:1", false),
            ("127.9.9.9:1", false),
            ("[::1]:1", false),
            ("[::ffff:127.0.0.1]:1", false),
            ("0.0.0.0:1", true),
            ("[::]:1", true),
            ("192.168.0.1:1", true),
        ] {
            let at: SocketAddr = at.parse().unwrap();
            assert_eq!(reached("--listen", at.ip(), at, "x").is_some(), told, "{at}");
        }
    }
}
