//! The options of `mossgoblin serve`.
use crate::accounts::{Account, Kind, fits};
use crate::line::Limits;
use crate::options::{Known, Written, alone, valued};
use crate::ports::{self, Ports};
use std::ffi::OsStr;
use std::os::unix::ffi::OsStrExt;
use std::path::PathBuf;
use std::time::Duration;

pub const SERVE: [Known; 18] = [
    valued("--listen"),
    valued("--cartridge"),
    valued("--library"),
    valued("--new-cartridge"),
    valued("--accounts"),
    valued("--account"),
    valued("--stream"),
    valued("--restore-to"),
    valued("--data-address"),
    valued("--data-ports"),
    valued("--status"),
    alone("--strict"),
    valued("--sync"),
    valued("--login-within"),
    valued("--idle"),
    valued("--hold"),
    valued("--send-within"),
    alone("--quiet"),
];

pub struct Args {
    pub listen: String,
    /// One of them at least.
    pub cartridge: Option<PathBuf>,
    pub library: Option<PathBuf>,
    pub new_cartridge: Option<usize>,
    /// Who may log in: the one of the command line, and those of a file.
    pub account: Option<Account>,
    pub accounts: Option<PathBuf>,
    pub stream: Option<PathBuf>,
    pub restore_to: Option<PathBuf>,
    pub ports: Ports,
    pub status: Option<String>,
    pub limits: Limits,
    pub strict: bool,
    pub marks: bool,
    pub quiet: bool,
}

/// A number of bytes, with K, M or G for the powers of 1,024; no more than a cartridge may have.
pub fn size(text: &str) -> Option<usize> {
    let (digits, unit) = match text.as_bytes().last()? {
        b'K' | b'k' => (&text[..text.len() - 1], 1 << 10),
        b'M' | b'm' => (&text[..text.len() - 1], 1 << 20),
        b'G' | b'g' => (&text[..text.len() - 1], 1 << 30),
        _ => (text, 1),
    };
    digits.parse::<usize>().ok()?.checked_mul(unit).filter(|n| *n <= crate::cartridge::MOST_BODY)
}

pub const NO_CARTRIDGE: &str = "--cartridge FILE or --library DIR is missing";
pub const NO_ACCOUNT: &str = "--accounts FILE or --account ID:PASSWORD is missing";

/// The account `ID:PASSWORD`, which logs in by MD5.
pub fn account(value: &OsStr) -> Result<Account, String> {
    let bytes = value.as_bytes();
    let at = bytes.iter().position(|b| *b == b':').ok_or("--account: expected ID:PASSWORD, such as vault:noon")?;
    let (id, password) = (&bytes[..at], &bytes[at + 1..]);
    if id.is_empty() || password.is_empty() {
        return Err("--account: neither id nor password may be empty; expected ID:PASSWORD, such as vault:noon".into());
    }
    fits(password).map_err(|why| format!("--account: {why}"))?;
    Ok(Account { kind: Kind::Md5, id: id.to_vec(), password: password.to_vec(), line: None })
}

/// A port alone is one of this machine's.
fn status(text: &str) -> String {
    if text.bytes().all(|b| b.is_ascii_digit()) { format!("127.0.0.1:{text}") } else { text.to_string() }
}

pub fn seconds(w: &Written, name: &str, usual: u64) -> Result<Duration, String> {
    let told = |v: &str| v.parse().ok().filter(|n| *n > 0 && *n < 1 << 31);
    let wrong = |v| format!("{name}: {v}: expected seconds, such as 600");
    let n = w.text(name)?.map_or(Ok(usual), |v| told(v).ok_or(wrong(v)))?;
    Ok(Duration::from_secs(n))
}

/// The room of a cartridge that is to be made.
pub fn new_cartridge(w: &Written) -> Result<Option<usize>, String> {
    let room = |v| size(v).ok_or(format!("--new-cartridge: {v}: expected a size of at most 128M, such as 64M"));
    w.text("--new-cartridge")?.map(room).transpose()
}

pub fn serve(w: &Written) -> Result<Args, String> {
    if let Some(word) = w.words.first() {
        return Err(format!("{word:?}: serve takes options only; a cartridge is named by --cartridge FILE"));
    }
    let new_cartridge = new_cartridge(w)?;
    let limits = Limits {
        login: seconds(w, "--login-within", 30)?,
        idle: seconds(w, "--idle", 3600)?,
        hold: seconds(w, "--hold", 600)?,
        send: seconds(w, "--send-within", 60)?,
    };
    let marks = match w.text("--sync")? {
        None | Some("each") => false,
        Some("marks") => true,
        Some(v) => return Err(format!("--sync: {v}: expected each or marks")),
    };
    let one = w.value("--account").map(account).transpose()?;
    let accounts = w.value("--accounts").map(PathBuf::from);
    if one.is_none() && accounts.is_none() {
        return Err(NO_ACCOUNT.into());
    }
    let cartridge = w.value("--cartridge").map(PathBuf::from);
    let library = w.value("--library").map(PathBuf::from);
    match (&cartridge, &library) {
        (None, _) if new_cartridge.is_some() => {
            return Err("--new-cartridge needs --cartridge FILE, which it makes".into());
        }
        (None, None) => return Err(NO_CARTRIDGE.into()),
        _ => {}
    }
    Ok(Args {
        listen: w.text("--listen")?.ok_or("--listen ADDRESS:PORT is missing")?.to_string(),
        cartridge,
        library,
        new_cartridge,
        account: one,
        accounts,
        stream: w.value("--stream").map(PathBuf::from),
        restore_to: w.value("--restore-to").map(PathBuf::from),
        ports: Ports {
            addresses: ports::addresses(w.text("--data-address")?.unwrap_or("127.0.0.1"))?,
            range: w.text("--data-ports")?.map(ports::range).transpose()?,
        },
        status: w.text("--status")?.map(status),
        limits,
        strict: w.has("--strict"),
        marks,
        quiet: w.has("--quiet"),
    })
}
