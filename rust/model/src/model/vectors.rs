//! The records of samples/records.py, whose expected lines are written by hand, as the model reads them.

use super::calls::addresses;
use super::record::framed;
use super::requests::{Address, Auth, HANDLED, Request, decode};
use super::rmt;

fn bytes(hex: &str) -> Vec<u8> {
    let digits: Vec<u8> = hex.bytes().filter(|b| *b != b' ').collect();
    digits.chunks(2).map(|d| u8::from_str_radix(std::str::from_utf8(d).unwrap(), 16).unwrap()).collect()
}

fn connect(to: &Address) -> String {
    match to {
        Address::Local => "address 0 addresses 0".into(),
        Address::Tcp(list) => format!("address 1 addresses {}", list.len()),
        Address::Other => "addresses 0".into(),
    }
}

/// A part of a body: where it is, how long, and its bytes.
fn part(body: &[u8], part: &[u8]) -> String {
    let place = part.as_ptr() as usize - body.as_ptr() as usize;
    let hex: String = part.iter().map(|b| format!("{b:02x}")).collect();
    format!("{place}+{}={hex}", part.len())
}

fn auth(body: &[u8], auth: &Auth) -> String {
    match auth {
        Auth::Md5 { id, digest } => format!("AUTH id {} digest {}", part(body, id), part(body, digest)),
        Auth::Other => "AUTH other".into(),
    }
}

/// What a line has of it behind the sequence number: the end of a login's, a CDB's, an MTIO's, a listen's, a
/// connect's and a start's, else no more than whether it is read.
fn shown(record: &[u8]) -> String {
    let Some(r) = framed(record) else { return "broken".into() };
    if r.kind != 0 {
        return "not a request".into();
    }
    if !HANDLED.contains(&r.message) {
        return format!("unknown 0x{:03x}", r.message);
    }
    match decode(r.message, r.body) {
        None => "bad".into(),
        Some(Request::ClientAuth { auth: sent }) => auth(r.body, &sent),
        Some(Request::AuthAttributes { kind }) => format!("CONFIG_GET_AUTH_ATTR type {kind}"),
        Some(Request::DataListen { address }) => format!("DATA_LISTEN address {address}"),
        Some(Request::MoverListen { mode, address }) => format!("MOVER_LISTEN mode {mode} address {address}"),
        Some(Request::DataConnect { to }) => connect(&to),
        Some(Request::MoverConnect { to, .. }) => connect(&to),
        Some(Request::StartBackup { pairs, .. } | Request::StartRecover { pairs, .. }) => format!("+{}", pairs.len()),
        Some(Request::ScsiCdb { data_in, cdb }) => {
            format!("SCSI_EXECUTE_CDB cdb {} datain_len {data_in}", part(r.body, cdb))
        }
        Some(Request::TapeMtio { op, count }) => format!("TAPE_MTIO op {op} count {count}"),
        Some(Request::DataEnvironment) => "DATA_GET_ENV".into(),
        Some(_) => String::new(),
    }
}

/// A command of rmt, with all that its line has. Bytes above 32 are told by their place alone.
fn command(bytes: &[u8]) -> String {
    match rmt::read(bytes) {
        None => "bad".into(),
        Some(rmt::Command::Open { path, mode }) => format!("O path {} mode {mode}", part(bytes, path)),
        Some(rmt::Command::Close) => "C".into(),
        Some(rmt::Command::Read { count }) => format!("R count {count}"),
        Some(rmt::Command::Write { data }) => {
            let told = format!("W data {}", part(bytes, data));
            if data.len() <= 32 { told } else { told.split('=').next().unwrap().into() }
        }
        Some(rmt::Command::Operate { operation, count }) => format!("I operation {operation} count {count}"),
    }
}

#[test]
fn vectors_are_read_as_they_are_marked() {
    let path = concat!(env!("CARGO_MANIFEST_DIR"), "/../../crates/run_requests/stdin");
    let text = std::fs::read_to_string(path).unwrap();
    let lines: Vec<&str> = text.lines().collect();
    let (mut connects, mut starts, mut logins, mut moves, mut commands) = (0, 0, 0, 0, 0);
    for pair in lines.chunks(2) {
        let (name, hex) = pair[0].split_once(' ').unwrap_or((pair[0], ""));
        let (record, expected) = (bytes(hex), pair[1].strip_prefix("= ").unwrap());
        if name.starts_with("rmt_") {
            assert_eq!(command(&record), expected, "{name}");
            commands += 1;
            continue;
        }
        let shown = shown(&record);
        assert!(expected.ends_with(&shown), "{name}: {expected}, and not {shown}");
        let read = shown.is_empty()
            || ["addresses", "LISTEN", "+", "ENV", "AUTH", "CDB", "MTIO"].iter().any(|word| shown.contains(word));
        assert_eq!(read, expected.contains("_"), "{name}");
        // The reader gives as many as the line says.
        let count = addresses(&record).len();
        let told =
            if expected.contains("_CONNECT ") { expected.rsplit(' ').next().unwrap().parse().unwrap() } else { 0 };
        assert_eq!(count, told, "{name}");
        connects += (count > 0) as u32;
        starts += shown.starts_with("+") as u32;
        moves += (shown.contains("=a5") || shown.contains("=b8")) as u32;
        logins += (shown.contains(" digest ") || shown.contains("ATTR")) as u32;
    }
    assert!(lines.len() > 500 && connects > 8 && starts > 12 && logins > 8 && moves > 12 && commands > 50);
}
