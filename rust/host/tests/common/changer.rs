//! What a client asks of the changer, and a vault that has one.
use super::*;
use std::collections::BTreeMap;

/// The elements by their addresses.
pub const DRIVE: u16 = 1;
pub const SLOT: u16 = 16;

/// What a move was refused for: key, code and qualifier of its sense.
pub const NO_SUCH_PLACE: [u8; 3] = [0x05, 0x21, 0x01];
pub const FULL: [u8; 3] = [0x05, 0x3b, 0x0d];
pub const EMPTY: [u8; 3] = [0x05, 0x3b, 0x0e];
pub const PREVENTED: [u8; 3] = [0x05, 0x53, 0x02];

type Result<T> = std::result::Result<T, host::client::Error>;

/// The body of an execute CDB.
pub fn execute(cdb: &[u8], room: u32) -> Vec<u8> {
    [words(&[0, 0, room]), text(cdb), text("")].concat()
}

pub fn open(c: &mut Client) -> Result<()> {
    c.good(SCSI_OPEN, &text("changer0")).map(drop)
}

/// A client that is logged in and has the changer.
pub fn client(host: &Host) -> Client {
    let mut c = host.login();
    soon(|| open(&mut c).ok()).expect("the changer is not free");
    c
}

/// Status, data and sense of a CDB.
pub fn cdb(c: &mut Client, cdb: &[u8], room: u32) -> Result<(u32, Vec<u8>, Vec<u8>)> {
    let body = c.good(SCSI_EXECUTE_CDB, &execute(cdb, room))?;
    let data = word(&body, 12) as usize;
    let behind = 16 + data.next_multiple_of(4);
    let sense = word(&body, behind) as usize;
    Ok((word(&body, 4), body[16..16 + data].to_vec(), body[behind + 4..behind + 4 + sense].to_vec()))
}

/// MOVE MEDIUM; the inner result is its sense where it was refused.
pub fn transport(c: &mut Client, from: u16, to: u16) -> Result<std::result::Result<(), [u8; 3]>> {
    let (a, b) = (from.to_be_bytes(), to.to_be_bytes());
    let (status, data, sense) = cdb(c, &[0xa5, 0, 0, 0, a[0], a[1], b[0], b[1], 0, 0, 0, 0], 0)?;
    assert!(data.is_empty());
    Ok(match status {
        0 => Ok(()),
        status => {
            assert_eq!((status, sense.len()), (2, 18));
            Err([sense[2], sense[12], sense[13]])
        }
    })
}

/// A move that must be done.
pub fn go(c: &mut Client, from: u16, to: u16) {
    assert_eq!(transport(c, from, to).unwrap(), Ok(()), "from {from} to {to}");
}

/// The places that are full, by READ ELEMENT STATUS.
pub fn full(c: &mut Client) -> Result<Vec<u16>> {
    let (status, data, _) = cdb(c, &[0xb8, 0, 0, 0, 0xff, 0xff, 0, 0xff, 0xff, 0xff, 0, 0], 4_096)?;
    assert_eq!((status, &data[..4]), (0, &[0, 0, 0, 10][..]));
    let (mut all, mut count, mut at) = (Vec::new(), 0, 8);
    while at < data.len() {
        let length = u32::from_be_bytes([0, data[at + 5], data[at + 6], data[at + 7]]) as usize;
        for one in data[at + 8..at + 8 + length].chunks(12) {
            count += 1;
            if one[2] & 1 == 1 {
                all.push(u16::from_be_bytes([one[0], one[1]]));
            }
        }
        at += 8 + length;
    }
    assert_eq!(count, 10);
    Ok(all)
}

pub fn new(path: &Path, size: &str) {
    assert!(finished(program().args(["new", path.to_str().unwrap(), size])).status.success());
}

/// A folder with cartridges of these names.
pub fn library(s: &Scratch, names: &[&str], size: &str) -> PathBuf {
    let folder = s.folder("library");
    names.iter().for_each(|name| new(&folder.join(name), size));
    folder
}

/// The vault with a library, and no cartridge besides.
pub fn command(folder: &Path, more: &[&str]) -> Command {
    let mut command = program();
    command.args(["serve", "--account", "vault:noon", "--listen", "127.0.0.1:0", "--library"]).arg(folder).args(more);
    command
}

pub fn start(folder: &Path, more: &[&str]) -> Host {
    Host::spawn(command(folder, &["--quiet"]).args(more))
}

pub fn logged(folder: &Path, log: &Path, more: &[&str]) -> Host {
    Host::spawn(command(folder, more).stderr(fs::File::create(log).unwrap()))
}

/// The list of the folder: what is in each place, by name.
pub fn listed(folder: &Path) -> BTreeMap<String, String> {
    let text = fs::read_to_string(folder.join(".slots")).unwrap();
    let mut lines = text.lines();
    assert_eq!(lines.next(), Some("mossgoblin slots 1"));
    lines.filter_map(|l| l.split_once(' ').map(|(place, name)| (place.into(), name.into()))).collect()
}

pub fn places(of: &[(&str, &str)]) -> BTreeMap<String, String> {
    of.iter().map(|(place, name)| (place.to_string(), name.to_string())).collect()
}

/// A start that must fail, in one line.
pub fn refused(command: &mut Command, why: &str) {
    let done = finished(command);
    let text = String::from_utf8(done.stderr).unwrap();
    assert!(done.status.code() == Some(1) && done.stdout.is_empty() && text.lines().count() == 1, "{text}");
    assert!(text.contains(why), "{text} where {why} was due");
}
