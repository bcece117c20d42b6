//! The status page on a port of its own: read only, and bounded in time, in memory and in number.
use crate::line::Shared;
use crate::page::{self, Shown};
use crate::server::Leaves;
use std::io::{self, Read, Write};
use std::net::{TcpListener, TcpStream};
use std::sync::Arc;
use std::sync::atomic::AtomicUsize;
use std::thread::Builder;
use std::time::{Duration, Instant};

/// So many readers at once; another one is turned away.
const MOST_READERS: usize = 8;
/// From the connection to the last byte of the answer.
const LIMIT: Duration = Duration::from_secs(3);
/// A request's head is not longer.
const LONGEST: usize = 4_096;

pub fn start(listener: TcpListener, shared: Arc<Shared>, vault: String) -> io::Result<()> {
    let count = Arc::new(AtomicUsize::new(0));
    let vault: Arc<str> = vault.into();
    let accept = move || {
        loop {
            let Ok((socket, _)) = listener.accept() else {
                std::thread::sleep(Duration::from_millis(100));
                continue;
            };
            let Some(left) = Leaves::enter(&count, MOST_READERS) else { continue };
            let (shared, vault) = (shared.clone(), vault.clone());
            // Without a thread this reader is turned away.
            let _ = Builder::new().name("page".into()).spawn(move || {
                let _left = left;
                let _ = answer(socket, &shared, &vault);
            });
        }
    };
    Builder::new().name("pages".into()).spawn(accept).map(drop)
}

/// The request's head, up to the empty line.
fn head(socket: &mut TcpStream, until: Instant) -> Option<Vec<u8>> {
    let mut head = Vec::new();
    let mut part = [0; 512];
    while !head.windows(4).any(|w| w == b"\r\n\r\n") {
        socket.set_read_timeout(Some(left(until)?)).ok()?;
        let n = socket.read(&mut part).ok().filter(|n| *n > 0)?;
        head.extend(&part[..n]);
        if head.len() > LONGEST {
            return None;
        }
    }
    Some(head)
}

fn left(until: Instant) -> Option<Duration> {
    until.checked_duration_since(Instant::now()).filter(|d| !d.is_zero())
}

fn answer(mut socket: TcpStream, shared: &Shared, vault: &str) -> Option<()> {
    let until = Instant::now() + LIMIT;
    let request = head(&mut socket, until);
    let line = request.as_deref().and_then(|h| h.split(|b| *b == b'\r').next()).unwrap_or_default();
    let mut words = line.split(|b| *b == b' ');
    let (method, path) = (words.next().unwrap_or_default(), words.next().unwrap_or_default());
    let path = path.split(|b| *b == b'?').next().unwrap_or_default();
    let (code, kind, body) = match (method, path) {
        (b"GET" | b"HEAD", b"/" | b"/status.json") => {
            let shown = Shown::of(shared, vault)?;
            match path {
                b"/" => ("200 OK", "text/html", page::html(&shown)),
                _ => ("200 OK", "application/json", page::json(&shown)),
            }
        }
        (b"GET" | b"HEAD", _) => {
            ("404 Not Found", "text/plain", "The page is at /, and as JSON at /status.json.\n".into())
        }
        (b"", _) => ("400 Bad Request", "text/plain", "Not a request.\n".into()),
        _ => ("405 Method Not Allowed", "text/plain", "This page is only read.\n".into()),
    };
    let mut bytes = format!(
        "HTTP/1.1 {code}\r\nContent-Type: {kind}; charset=utf-8\r\nContent-Length: {}\r\nConnection: close\r\n\
         Cache-Control: no-store\r\nX-Content-Type-Options: nosniff\r\nAllow: GET, HEAD\r\n\
         Content-Security-Policy: default-src 'none'; style-src 'unsafe-inline'\r\n\r\n",
        body.len()
    )
    .into_bytes();
    if method != b"HEAD" {
        bytes.extend(body.as_bytes());
    }
    let mut rest = &bytes[..];
    while !rest.is_empty() {
        socket.set_write_timeout(Some(left(until)?)).ok()?;
        let n = socket.write(rest).ok().filter(|n| *n > 0)?;
        rest = &rest[n..];
    }
    Some(())
}
