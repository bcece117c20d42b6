//! `mossgoblin rmt`: the remote tape protocol of source 001 on standard input and output, as ssh starts it, on one cartridge.
//! All answers are the core's; what they tell is on the disk before they go out.
use crate::accounts::{Account, Kind, lent};
use crate::args::{self, seconds};
use crate::cartridge::{self, Cartridge};
use crate::commands::{Failed, counted};
use crate::log::Log;
use crate::options::{Known, Written, alone, valued};
use crate::rmt_input::{Command, End, Input};
use crate::rmt_words::{is_gnu, taken, writes};
use crate::sys;
use crate::variables::{self, quoted};
use proved::{Answer, Challenge, OUTPUT, Session, Slots, codes};
use std::fs::File;
use std::io::{ErrorKind, Write};
use std::path::PathBuf;
use std::time::{Duration, Instant};
use wire::md5::login_digest;
use wire::message::{CONFIG_GET_AUTH_ATTR, CONNECT_CLIENT_AUTH};
use wire::{request, text, words};

pub const RMT: [Known; 6] = [
    valued("--cartridge"),
    valued("--new-cartridge"),
    valued("--idle"),
    valued("--command-within"),
    valued("--send-within"),
    alone("--verbose"),
];

/// How long a cartridge is waited for: a client's last program may not have ended yet when its next one starts.
const WAIT: Duration = Duration::from_secs(2);
/// A pipe that takes any bytes takes so many without a wait.
const PIECE: usize = 4_096;

/// The account that the program logs in by. Nobody else ever has the password.
const ID: &[u8] = b"rmt";

struct Args {
    cartridge: PathBuf,
    new_cartridge: Option<usize>,
    idle: Duration,
    within: Duration,
    send: Duration,
    verbose: bool,
}

fn parsed(w: &Written) -> Result<Args, String> {
    // A server of rmt is often started with the name of a file for its trace.
    if let Some(word) = w.words.first() {
        return Err(format!("{word:?}: rmt takes options only; a cartridge is named by --cartridge FILE"));
    }
    Ok(Args {
        cartridge: w.value("--cartridge").map(PathBuf::from).ok_or("--cartridge FILE is missing")?,
        new_cartridge: args::new_cartridge(w)?,
        idle: seconds(w, "--idle", 600)?,
        within: seconds(w, "--command-within", 60)?,
        send: seconds(w, "--send-within", 60)?,
        verbose: w.has("--verbose"),
    })
}

/// The tape: the session, which is logged in, and the cartridge in its drive.
struct Deck {
    core: Session,
    cartridge: Cartridge,
    out: Vec<u8>,
    /// Whether the tape was opened by GNU's library.
    gnu: bool,
}

/// One call of the core on a session that has no tape open.
fn asked(
    core: Session,
    accounts: &[u8],
    challenge: &Challenge,
    record: &[u8],
    out: &mut [u8],
) -> Result<Session, String> {
    let mut store = variables::none();
    let done = proved::request(core, accounts, challenge, &[], false, &mut [], &mut store, record, 0, out);
    accepted(done).map(|done| done.session)
}

fn accepted(done: Answer) -> Result<Answer, String> {
    if done.code == 0 { Ok(done) } else { Err(format!("the core refused a call with {}", done.code)) }
}

/// A session that is logged in, by an account that is made for it alone: rmt has no login, and the core lets nobody at the
/// tape without one.
fn logged_in(out: &mut [u8]) -> Result<Session, String> {
    let (mut password, mut challenge) = ([0; codes::LONGEST_PASSWORD], [0; codes::CHALLENGE_LENGTH]);
    let drawn = sys::random(&mut password).and_then(|()| sys::random(&mut challenge));
    drawn.map_err(|e| format!("no password could be drawn: {e}"))?;
    let accounts = lent(&[Account { kind: Kind::Md5, id: ID.to_vec(), password: password.to_vec(), line: None }]);
    let mut slots = Slots::default();
    slots[0] = 1;
    let core = accepted(proved::open(&slots, 0, out))?.session;
    let attributes = request(1, CONFIG_GET_AUTH_ATTR, &words(&[codes::MD5_AUTH]));
    let core = asked(core, &accounts, &challenge, &attributes, out)?;
    let digest = login_digest(&password, &core.login.challenge).ok_or("the password has no digest")?;
    let login = [&words(&[codes::MD5_AUTH])[..], &text(ID), &digest].concat();
    let core = asked(core, &accounts, &challenge, &request(2, CONNECT_CLIENT_AUTH, &login), out)?;
    if core.login.authorized { Ok(core) } else { Err("the core did not let its own host in".into()) }
}

impl Deck {
    fn new(cartridge: Cartridge) -> Result<Deck, String> {
        let mut out = vec![0; OUTPUT];
        Ok(Deck { core: logged_in(&mut out)?, cartridge, out, gnu: false })
    }

    /// The core's answer to a command, in 001's words. What it tells is on the disk when this returns.
    fn answer(&mut self, command: &[u8], log: &Log) -> Result<&[u8], String> {
        let before = self.core;
        let mut done = accepted(proved::rmt(before, &mut self.cartridge.image, command, &mut self.out))?;
        if writes(command) && done.session.tape.position != before.tape.position {
            self.cartridge.written(before.tape.position);
            self.cartridge.is_still_there()?;
            if let Err(why) = self.store() {
                done = self.failed(before, command, &why, log)?;
            }
        }
        self.cartridge.is_still_there()?;
        self.core = done.session;
        Ok(&self.out[..done.len])
    }

    /// The file follows the image.
    fn store(&mut self) -> Result<(), String> {
        self.cartridge.store().map(drop).map_err(|e| format!("the cartridge file could not be written: {e}"))
    }

    /// The file could not follow: the session goes back to what the client was told, and the core answers as for a medium
    /// that is not sound.
    fn failed(&mut self, before: Session, command: &[u8], why: &str, log: &Log) -> Result<Answer, String> {
        log.error(why);
        self.cartridge.cut_back();
        let done = accepted(proved::rmt(before, &mut [], command, &mut self.out))?;
        if self.out[..done.len].starts_with(b"E") { Ok(done) } else { Err(why.into()) }
    }

    /// A command of the client, and the reply to it.
    fn command(&mut self, command: &Command, log: &Log) -> Result<&[u8], String> {
        let plain = taken(&command.bytes, self.gnu);
        let was = self.core.tape.opened;
        let len = self.answer(&plain, log)?.len();
        if self.core.tape.opened != was {
            self.gnu = self.core.tape.opened && is_gnu(&command.bytes);
        }
        let reply = &self.out[..len];
        let first = reply.split(|b| *b == b'\n').next().unwrap_or_default();
        let head = &command.bytes[..command.head];
        let other = if plain[..] == command.bytes { String::new() } else { format!(", taken as {}", quoted(&plain)) };
        log.line(format_args!("{}{other}: {}", quoted(head), String::from_utf8_lossy(first)));
        Ok(reply)
    }
}

/// Sends a reply whole, within so long.
fn send(mut to: &File, mut bytes: &[u8], limit: Duration) -> Result<(), String> {
    let until = Instant::now() + limit;
    while !bytes.is_empty() {
        let left = until.saturating_duration_since(Instant::now());
        if left.is_zero() {
            let late = counted(limit.as_secs(), "second");
            return Err(format!("ended: the client took no reply for {late}; --send-within is the limit"));
        }
        if !sys::writable(to, left.as_millis().clamp(1, i32::MAX as u128) as i32) {
            continue;
        }
        match to.write(&bytes[..bytes.len().min(PIECE)]) {
            Ok(0) => return Err("ended: standard output takes nothing".into()),
            Ok(n) => bytes = &bytes[n..],
            Err(e) if matches!(e.kind(), ErrorKind::Interrupted | ErrorKind::WouldBlock) => {}
            Err(e) => return Err(format!("ended: the client is gone, and has not the last reply: {e}")),
        }
    }
    Ok(())
}

/// Why an input is no good end. None where it is one.
fn told(end: End, args: &Args) -> Option<String> {
    let seconds = |d: Duration| counted(d.as_secs(), "second");
    match end {
        End::Closed => None,
        End::Cut => Some("ended: the input ended within a command; nothing of that was done".into()),
        End::Silent => Some(format!("ended: the client said nothing for {}; --idle is the limit", seconds(args.idle))),
        End::TooSlow => Some(format!(
            "ended: a command was not whole within {}, and nothing of it was done; --command-within is the limit",
            seconds(args.within)
        )),
        End::Failed(e) => Some(format!("ended: standard input: {e}")),
    }
}

/// Commands and replies, until the input ends.
fn serve(deck: &mut Deck, args: &Args, log: &Log) -> Result<(), String> {
    let (input, output) = sys::standard();
    let mut input = Input::new(&*input, args.idle, args.within);
    loop {
        let command = match input.next() {
            Ok(command) => command,
            Err(end) => return told(end, args).map_or(Ok(()), Err),
        };
        let reply = deck.command(&command, log)?;
        send(&output, reply, args.send)?;
        if command.lost {
            return Err("ended: a W whose count is no number; where its data end cannot be told".into());
        }
    }
}

pub fn run(w: &Written) -> Result<(), Failed> {
    let args = parsed(w).map_err(Failed::Words)?;
    let log = Log::new(!args.verbose);
    if let Some(body) = args.new_cartridge {
        cartridge::create(&args.cartridge, body)?;
    }
    let mut deck = Deck::new(cartridge::load_within(&args.cartridge, WAIT)?)?;
    let ended = serve(&mut deck, &args, &log);
    // Behind a disk that failed the file may lack the cut.
    let stored = deck.cartridge.is_still_there().and_then(|()| deck.store());
    log.line(format_args!("ended; records and marks on the tape: {}", deck.cartridge.entries()));
    match (ended, stored) {
        (Err(why), _) => Err(why.into()),
        (Ok(()), stored) => Ok(stored?),
    }
}
