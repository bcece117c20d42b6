//! The data ports: where a peer connects that a listen by TCP waits for.
use proved::codes;
use std::io;
use std::net::{Ipv4Addr, SocketAddr, SocketAddrV4, TcpListener};
use wire::words;

/// Addresses of this machine, and the ports that may be opened there; any that is free where no range is named.
#[derive(Debug, PartialEq)]
pub struct Ports {
    pub addresses: Vec<Ipv4Addr>,
    pub range: Option<(u16, u16)>,
}

fn address(text: &str) -> Result<Ipv4Addr, String> {
    let wrong = |why: &str| format!("--data-address: {text}: {why}");
    let at: Ipv4Addr =
        text.parse().map_err(|_| wrong("expected an IPv4 address of this machine, such as 127.0.0.1"))?;
    // It is told to the peer, which is to connect to it.
    if at.is_unspecified() || at.is_multicast() || at.is_broadcast() {
        return Err(wrong("no address that a peer could connect to; name those of this machine"));
    }
    Ok(at)
}

/// `ADDRESS[,ADDRESS..]`.
pub fn addresses(text: &str) -> Result<Vec<Ipv4Addr>, String> {
    let all = text.split(',').map(address).collect::<Result<Vec<_>, _>>()?;
    let twice = (1..all.len()).find(|i| all[..*i].contains(&all[*i]));
    match twice {
        Some(i) => Err(format!("--data-address: {} stands there twice", all[i])),
        None if all.len() > codes::MOST_ADDRESSES as usize => {
            Err(format!("--data-address: more than {} addresses", codes::MOST_ADDRESSES))
        }
        None => Ok(all),
    }
}

/// `LOW-HIGH`.
pub fn range(text: &str) -> Result<(u16, u16), String> {
    let ends = text.split_once('-').and_then(|(low, high)| Some((low.parse().ok()?, high.parse().ok()?)));
    let whole = ends.filter(|(low, high)| 0 < *low && low <= high);
    whole.ok_or(format!("--data-ports: {text}: expected LOW-HIGH, such as 10100-10131"))
}

impl Ports {
    /// Whether all addresses are this machine's, and ports may be opened there.
    pub fn check(&self) -> Result<(), String> {
        let (low, high) = self.range.unwrap_or_default();
        self.addresses.iter().try_for_each(|at| match TcpListener::bind((*at, low)) {
            Ok(_) => Ok(()),
            Err(e) => match e.kind() {
                // One that is in use now may be free at a listen.
                io::ErrorKind::AddrInUse => Ok(()),
                io::ErrorKind::AddrNotAvailable => Err(format!("--data-address {at}: not an address of this machine")),
                io::ErrorKind::PermissionDenied => Err(format!("--data-ports {low}-{high}: {e}")),
                _ => Err(format!("--data-address {at}: {e}")),
            },
        })
    }

    fn open_at(&self, at: Ipv4Addr) -> io::Result<TcpListener> {
        let Some((low, high)) = self.range else { return TcpListener::bind((at, 0)) };
        let free = (low..=high).find_map(|port| match TcpListener::bind((at, port)) {
            Err(e) if e.kind() == io::ErrorKind::AddrInUse => None,
            other => Some(other),
        });
        free.unwrap_or_else(|| Err(io::Error::other(format!("no port of {at} is free from {low} to {high}"))))
    }

    /// Opens a port at each address.
    pub fn open(&self) -> io::Result<Vec<TcpListener>> {
        let open = |at: &Ipv4Addr| {
            let listener = self.open_at(*at)?;
            listener.set_nonblocking(true)?;
            Ok(listener)
        };
        self.addresses.iter().map(open).collect()
    }
}

/// Where listeners are, as a listen's reply tells it: a list of addresses, each with its port and no variables.
pub fn list(listeners: &[TcpListener]) -> io::Result<Vec<u8>> {
    let mut all = words(&[listeners.len() as u32]);
    for listener in listeners {
        if let SocketAddr::V4(at) = listener.local_addr()? {
            all.extend(told(at));
        }
    }
    Ok(all)
}

/// An address of such a list.
pub fn told(at: SocketAddrV4) -> Vec<u8> {
    words(&[u32::from(*at.ip()), at.port() as u32, 0])
}

#[cfg(test)]
mod tests {
    use super::*;

    #[test]
    fn addresses_and_ports_are_read() {
        let local = Ipv4Addr::LOCALHOST;
        assert_eq!(addresses("127.0.0.1"), Ok(vec![local]));
        assert_eq!(addresses("127.0.0.1,10.0.0.7"), Ok(vec![local, Ipv4Addr::new(10, 0, 0, 7)]));
        for wrong in ["", "127.0.0.1,", "::1", "localhost", "0.0.0.0", "224.0.0.1", "255.255.255.255", "127.0.0.1:80"] {
            assert!(addresses(wrong).unwrap_err().starts_with("--data-address: "), "{wrong}");
        }
        assert_eq!(addresses("10.0.0.7,10.0.0.7"), Err("--data-address: 10.0.0.7 stands there twice".into()));
        let many = |n: u8| (1..=n).map(|i| format!("127.0.0.{i}")).collect::<Vec<_>>().join(",");
        assert_eq!(addresses(&many(16)).unwrap().len(), 16);
        assert_eq!(addresses(&many(17)), Err("--data-address: more than 16 addresses".into()));
        assert_eq!((range("1-65535"), range("80-80")), (Ok((1, 65_535)), Ok((80, 80))));
        for wrong in ["", "80", "0-1", "2-1", "1-65536", "a-b", "1-2-3"] {
            assert!(range(wrong).unwrap_err().contains("expected LOW-HIGH"), "{wrong}");
        }
    }

    #[test]
    fn ports_are_opened_and_told() {
        let two = Ports { addresses: vec![Ipv4Addr::LOCALHOST, Ipv4Addr::new(127, 0, 0, 2)], range: None };
        let open = two.open().unwrap();
        let port = |i: usize| open[i].local_addr().unwrap().port() as u32;
        assert_eq!(list(&open).unwrap(), words(&[2, 0x7f00_0001, port(0), 0, 0x7f00_0002, port(1), 0]));
        // A range of one port that is taken has none left.
        let one = port(0) as u16;
        let full = Ports { addresses: vec![Ipv4Addr::LOCALHOST], range: Some((one, one)) };
        let why = full.open().unwrap_err().to_string();
        assert_eq!(why, format!("no port of 127.0.0.1 is free from {one} to {one}"));
        drop(open);
        assert_eq!(full.open().unwrap()[0].local_addr().unwrap().port(), one);
    }
}
