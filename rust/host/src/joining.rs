//! Listens and connects by TCP. The core answers them; the port is open, or the connection made, before it does.
use crate::ends::End;
use crate::line::Line;
use crate::peer::{self, Peer};
use crate::ports;
use proved::{Addresses, Answer, codes};
use std::io;
use std::net::{Ipv4Addr, SocketAddrV4};
use std::sync::atomic::Ordering;
use std::time::Instant;
use wire::{HEADER, Header, message, word_at, words};

/// What the host is to do before a request is answered.
enum Wanted {
    Port,
    Connection(Box<Addresses>),
}

/// What a record asks for, and for which end.
fn wanted(record: &[u8]) -> Option<(End, Wanted)> {
    let by_tcp = |at: usize| word_at(record, HEADER + at) == Some(codes::TCP_ADDRESS);
    let connection = || {
        let list = proved::addresses(record);
        (list.count > 0).then(|| Wanted::Connection(Box::new(list)))
    };
    match Header::of(record)?.message {
        message::DATA_LISTEN if by_tcp(0) => Some((End::Data, Wanted::Port)),
        // Its mode stands before it.
        message::MOVER_LISTEN if by_tcp(4) => Some((End::Mover, Wanted::Port)),
        message::DATA_CONNECT => connection().map(|w| (End::Data, w)),
        message::MOVER_CONNECT => connection().map(|w| (End::Mover, w)),
        _ => None,
    }
}

impl Line<'_> {
    /// The core's answer to a record, which is not taken over yet.
    pub fn answer(&mut self, record: &[u8]) -> Answer {
        let known = self.core.login.authorized;
        match wanted(record) {
            Some((end, wanted)) if known && end.is_idle(&self.core) => self.by_tcp(record, end, wanted),
            _ => self.ask(record),
        }
    }

    /// The core is asked first as if all had been done: what it refuses opens no port, and connects to nobody.
    fn by_tcp(&mut self, record: &[u8], end: End, wanted: Wanted) -> Answer {
        let some = [words(&[1]), ports::told(SocketAddrV4::new(Ipv4Addr::LOCALHOST, 1))].concat();
        let would = self.ask_with(record, &some, true);
        if would.code != 0 || end.is_idle(&would.session) {
            return would;
        }
        match wanted {
            Wanted::Port => {
                let list = self.open_ports(end).unwrap_or_else(|e| {
                    self.progress.error(format_args!("no data port could be opened: {e}"));
                    Vec::new()
                });
                self.ask_with(record, &list, false)
            }
            Wanted::Connection(list) => {
                let made = self.connect(end, &list);
                // What it took is not the client's silence.
                self.heard = Instant::now();
                self.ask_with(record, &[], made)
            }
        }
    }

    /// Opens the data ports for an end; the list of them.
    fn open_ports(&mut self, end: End) -> io::Result<Vec<u8>> {
        let open = self.shared.ports.open()?;
        let list = ports::list(&open)?;
        let peer = self.ends.of(end);
        *peer = Peer::Listening(open);
        self.unmet = false;
        let at: Vec<String> = peer.ports().iter().map(|at| at.to_string()).collect();
        self.progress.line(format_args!("{end} listens by TCP at {}", at.join(", ")));
        Ok(list)
    }

    fn connect(&mut self, end: End, list: &Addresses) -> bool {
        let stop = || self.shared.ending.load(Ordering::SeqCst);
        let failed = |at, why: &str| self.progress.line(format_args!("{end} connects by TCP to {at}: {why}"));
        let Some(joined) = peer::connect(list, stop, failed) else {
            self.progress.error(format_args!("{end}: no address of the peer could be connected to"));
            return false;
        };
        self.progress.line(format_args!("{end} connected by TCP to {}", joined.name));
        *self.ends.of(end) = Peer::Joined(joined);
        true
    }
}
