//! The requests and their bodies (004, Appendix C).

use super::accounts::MD5;
use super::state::{LOCAL, TCP};
use super::xdr::Reader;

/// Where a connect goes: 004's ndmp_addr.
#[derive(Debug, PartialEq)]
pub enum Address {
    Local,
    /// Host and port of each.
    Tcp(Vec<(u32, u32)>),
    /// A type other than these; the rest is not read.
    Other,
}

/// 004's ndmp_auth_data.
#[derive(Debug, PartialEq)]
pub enum Auth<'a> {
    Md5 {
        id: &'a [u8],
        digest: &'a [u8],
    },
    /// A type other than that; the rest is not read.
    Other,
}

/// 004's ndmp_pval: name and value.
pub type Pair<'a> = (&'a [u8], &'a [u8]);

#[derive(Debug)]
pub enum Request<'a> {
    ConnectOpen { version: u32 },
    ClientAuth { auth: Auth<'a> },
    ConnectClose,
    ConnectionType,
    AuthAttributes { kind: u32 },
    ServerInfo,
    ScsiOpen { device: &'a [u8] },
    ScsiClose,
    ScsiState,
    ScsiReset,
    ScsiCdb { data_in: u32, cdb: &'a [u8] },
    TapeOpen { device: &'a [u8], mode: u32 },
    TapeClose,
    TapeState,
    TapeMtio { op: u32, count: u32 },
    TapeWrite { data: &'a [u8] },
    TapeRead { count: u32 },
    DataState,
    StartBackup { method: &'a [u8], pairs: Vec<Pair<'a>> },
    StartRecover { method: &'a [u8], pairs: Vec<Pair<'a>> },
    DataAbort,
    DataEnvironment,
    DataStop,
    DataListen { address: u32 },
    DataConnect { to: Address },
    MoverState,
    MoverListen { mode: u32, address: u32 },
    MoverContinue,
    MoverAbort,
    MoverStop,
    SetWindow { offset: u64, length: u64 },
    MoverRead { offset: u64, length: u64 },
    MoverClose,
    SetRecordSize { size: u32 },
    MoverConnect { mode: u32, to: Address },
}

/// "What the vault handles": the numbers of 004; with 02 No. 2 also 0x103, with No. 3 also 0x404. The notices' own numbers are sent,
/// not handled (reading).
pub const HANDLED: [u32; 35] = [
    0x900, 0x901, 0x902, 0x102, 0x103, 0x108, 0x200, 0x201, 0x202, 0x204, 0x206, 0x300, 0x301, 0x302, 0x303, 0x304,
    0x305, 0x400, 0x401, 0x402, 0x403, 0x404, 0x407, 0x409, 0x40a, 0xa00, 0xa01, 0xa02, 0xa03, 0xa04, 0xa05, 0xa06,
    0xa07, 0xa08, 0xa09,
];

/// None: the body does not decode.
pub fn decode(message: u32, body: &[u8]) -> Option<Request<'_>> {
    let mut r = Reader(body);
    let request = match message {
        0x900 => Request::ConnectOpen { version: r.word()? },
        0x901 => {
            let auth = match auth_type(&mut r)? {
                // opaque auth_digest[16]: no length before it
                MD5 => Auth::Md5 { id: r.opaque()?, digest: r.take(16)? },
                _ => Auth::Other,
            };
            Request::ClientAuth { auth }
        }
        0x902 => Request::ConnectClose,
        0x102 => Request::ConnectionType,
        0x103 => Request::AuthAttributes { kind: auth_type(&mut r)? },
        0x108 => Request::ServerInfo,
        0x200 => Request::ScsiOpen { device: r.opaque()? },
        0x201 => Request::ScsiClose,
        0x202 => Request::ScsiState,
        0x204 => Request::ScsiReset,
        0x206 => {
            let _flags = r.word()?;
            let _timeout = r.word()?;
            let data_in = r.word()?;
            let cdb = r.opaque()?;
            let _data_out = r.opaque()?;
            Request::ScsiCdb { data_in, cdb }
        }
        0x300 => {
            let device = r.opaque()?;
            Request::TapeOpen { device, mode: r.word()? }
        }
        0x301 => Request::TapeClose,
        0x302 => Request::TapeState,
        0x303 => {
            let op = r.word()?;
            Request::TapeMtio { op, count: r.word()? }
        }
        0x304 => Request::TapeWrite { data: r.opaque()? },
        0x305 => Request::TapeRead { count: r.word()? },
        0x400 => Request::DataState,
        0x401 => {
            let method = r.opaque()?;
            Request::StartBackup { method, pairs: environment(&mut r)? }
        }
        0x402 => {
            let pairs = environment(&mut r)?;
            names(&mut r)?;
            Request::StartRecover { method: r.opaque()?, pairs }
        }
        0x403 => Request::DataAbort,
        0x404 => Request::DataEnvironment,
        0x407 => Request::DataStop,
        0x409 => Request::DataListen { address: address_type(&mut r)? },
        0x40a => Request::DataConnect { to: address(&mut r)? },
        0xa00 => Request::MoverState,
        0xa01 => {
            let mode = r.word()?;
            Request::MoverListen { mode, address: address_type(&mut r)? }
        }
        0xa09 => {
            let mode = r.word()?;
            Request::MoverConnect { mode, to: address(&mut r)? }
        }
        0xa02 => Request::MoverContinue,
        0xa03 => Request::MoverAbort,
        0xa04 => Request::MoverStop,
        0xa05 | 0xa06 => {
            let offset = r.hyper()?;
            let length = r.hyper()?;
            if message == 0xa05 { Request::SetWindow { offset, length } } else { Request::MoverRead { offset, length } }
        }
        0xa07 => Request::MoverClose,
        0xa08 => Request::SetRecordSize { size: r.word()? },
        _ => unreachable!("decoded only if handled"),
    };
    r.end()?;
    Some(request)
}

/// "At most 64 environment pairs and 64 names in a start request; more is error 18."
fn count(r: &mut Reader) -> Option<u32> {
    r.word().filter(|n| *n <= 64)
}

fn environment<'a>(r: &mut Reader<'a>) -> Option<Vec<Pair<'a>>> {
    (0..count(r)?)
        .map(|_| {
            let name = r.opaque()?;
            Some((name, r.opaque()?))
        })
        .collect()
}

/// 01: "Bytes left over make error 18, except after ... an auth type other than 1: there the rest is not read." 02 No. 2: "9
/// for a type other than 1 and 2, its rest unread". No. 10: "9 for type 1, at 0x103 too, its rest unread".
fn auth_type(r: &mut Reader) -> Option<u32> {
    let kind = r.word()?;
    if kind != MD5 {
        r.skip();
    }
    Some(kind)
}

/// The address type of a listen. "Bytes left over make error 18, except after an address type other than 0 ...: there
/// the rest is not read." 02 No. 14: "type 1 no longer leaves bytes unread".
fn address_type(r: &mut Reader) -> Option<u32> {
    let kind = r.word()?;
    if kind > TCP {
        r.skip();
    }
    Some(kind)
}

/// The address of a connect.
fn address(r: &mut Reader) -> Option<Address> {
    Some(match address_type(r)? {
        LOCAL => Address::Local,
        TCP => Address::Tcp(addresses(r)?),
        _ => Address::Other,
    })
}

/// 02 No. 14: "lists of up to 16 addresses, each with up to 64 environment pairs (more, or a port above 65,535, is 18)".
fn addresses(r: &mut Reader) -> Option<Vec<(u32, u32)>> {
    let count = r.word().filter(|n| *n <= 16)?;
    (0..count)
        .map(|_| {
            let host = r.word()?;
            let port = r.word().filter(|p| *p <= 65_535)?;
            environment(r)?;
            Some((host, port))
        })
        .collect()
}

/// A whole list of addresses, as a host lends it: None if it does not decode.
pub fn address_list(bytes: &[u8]) -> Option<Vec<(u32, u32)>> {
    let mut r = Reader(bytes);
    let all = addresses(&mut r)?;
    r.end()?;
    Some(all)
}

/// ndmp_name: four strings and two quads.
fn names(r: &mut Reader) -> Option<()> {
    for _ in 0..count(r)? {
        for _ in 0..4 {
            r.opaque()?;
        }
        r.hyper()?;
        r.hyper()?;
    }
    Some(())
}
