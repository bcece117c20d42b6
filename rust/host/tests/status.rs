//! The status page by its bytes, and its bounds.
mod common;
use common::*;
use std::fs;
use std::io::{BufRead, BufReader, ErrorKind, Read, Write};
use std::net::{Shutdown, TcpStream};
use std::os::unix::net::UnixListener;
use std::path::Path;
use std::process::Stdio;
use std::time::Duration;

/// A vault with a page, and the page's address.
fn start(tape: &Path, more: &[&str]) -> (Host, String) {
    let mut command = serve(tape);
    command.args(["--listen=127.0.0.1:0", "--status=0", "--new-cartridge=1M", "--quiet"]).args(more);
    let mut child = command.stdout(Stdio::piped()).stderr(Stdio::null()).spawn().unwrap();
    let mut lines = BufReader::new(child.stdout.take().unwrap()).lines().map(Result::unwrap);
    let address = lines.next().unwrap().strip_prefix("listening on ").unwrap().to_string();
    let page = lines.next().unwrap();
    let page = page.strip_prefix("status on http://").unwrap().strip_suffix('/').unwrap().to_string();
    assert!(page.starts_with("127.0.0.1:"), "a port alone is this machine's");
    (Host::of(Running { child, address }), page)
}

/// Sends these bytes and reads until the end.
fn exchange(page: &str, bytes: &[u8]) -> String {
    let mut socket = TcpStream::connect(page).unwrap();
    socket.set_read_timeout(Some(Duration::from_secs(20))).unwrap();
    let _ = socket.write_all(bytes);
    let mut all = Vec::new();
    let _ = socket.read_to_end(&mut all);
    String::from_utf8(all).unwrap()
}

/// Head and body of what is at a path.
fn get(page: &str, path: &str) -> (String, String) {
    let all = exchange(page, format!("GET {path} HTTP/1.1\r\nHost: {page}\r\n\r\n").as_bytes());
    let (head, body) = all.split_once("\r\n\r\n").unwrap();
    assert!(head.contains(&format!("Content-Length: {}\r\n", body.len())), "{head}");
    (head.into(), body.into())
}

/// What is left behind one value of JSON; a panic if there is none.
fn json(text: &str) -> &str {
    let list = |text: &'_ str, end: char, keyed: bool| -> usize {
        let mut rest = &text[1..];
        if let Some(after) = rest.strip_prefix(end) {
            return text.len() - after.len();
        }
        loop {
            if keyed {
                assert!(rest.starts_with('"'), "{rest}");
                rest = json(rest).strip_prefix(':').unwrap();
            }
            rest = json(rest);
            match rest.strip_prefix(',') {
                Some(more) => rest = more,
                None => return text.len() - rest.strip_prefix(end).unwrap().len(),
            }
        }
    };
    match text.as_bytes()[0] {
        b'{' => &text[list(text, '}', true)..],
        b'[' => &text[list(text, ']', false)..],
        b'"' => {
            let bytes = text.as_bytes();
            let mut i = 1;
            while bytes[i] != b'"' {
                assert!(bytes[i] >= 32);
                i += if bytes[i] == b'\\' { 2 } else { 1 };
            }
            &text[i + 1..]
        }
        b't' => text.strip_prefix("true").unwrap(),
        b'f' => text.strip_prefix("false").unwrap(),
        b'n' => text.strip_prefix("null").unwrap(),
        _ => {
            let rest = text.trim_start_matches(|c: char| c.is_ascii_digit());
            assert!(rest.len() < text.len(), "{text}");
            rest
        }
    }
}

fn contains(text: &str, parts: &[&str]) {
    for part in parts {
        assert!(text.contains(part), "{part} is not in {text}");
    }
}

#[test]
fn page_and_json_tell_the_window() {
    let s = Scratch::new();
    let (from, tape) = (s.path("from"), s.path("tape"));
    fs::write(&from, noise(1, 2_500)).unwrap();
    let (host, page) = start(&tape, &["--stream", from.to_str().unwrap()]);
    let (head, body) = get(&page, "/");
    contains(&head, &["HTTP/1.1 200 OK\r\n", "Content-Type: text/html; charset=utf-8", "Cache-Control: no-store"]);
    contains(&head, &["Content-Security-Policy: default-src 'none'; style-src 'unsafe-inline'"]);
    contains(
        &body,
        &["<meta http-equiv=refresh content=2>", "No session has the tape.", "<p>None.</p>", &host.address],
    );
    contains(&body, &["0 records and 0 marks on the disk", "0 of 1,048,576", "0 of 4,096"]);
    assert!(!body.contains("<script"));

    let mut c = host.login();
    c.tape_open(TO_WRITE).unwrap();
    contains(&get(&page, "/").1, &["Session 1 has the tape. No window is in force."]);
    c.join(Mover::TO_TAPE, 1_024, 2_048).unwrap();
    let body = get(&page, "/").1;
    contains(&body, &["<b>Window 0 + 2,048</b> is in force in session 1: 0 bytes written, 0%"]);
    contains(&body, &["<td>CONNECTED</td><td>ACTIVE (to tape)</td><td>1,024</td>", "width:0%"]);

    c.start_backup().unwrap();
    assert_eq!(c.run(2_048, |_| ()).unwrap(), ended(3, DONE));
    c.good(TAPE_MTIO, &words(&[codes::WRITE_MARKS, 2])).unwrap();
    let (head, text) = get(&page, "/status.json");
    contains(&head, &["Content-Type: application/json; charset=utf-8"]);
    assert_eq!(json(&text), "\n");
    contains(
        &text,
        &["\"data\":{\"state\":\"HALTED\",\"operation\":\"backup\",\"halt\":\"successful\",\"processed\":7168"],
    );
    contains(&text, &["\"window\":{\"offset\":6144,\"length\":2048,\"percent\":50},\"moved\":7168}"]);
    contains(&text, &["\"tape\":{\"open\":true,\"writable\":true,\"position\":9}", "\"holder\":1,\"capacity\":4096"]);
    contains(&text, &["\"used\":7168,\"entries\":[1024,1024,1024,1024,1024,1024,1024,0,0]}"]);
    let body = get(&page, "/").1;
    contains(&body, &["<b>Window 6,144 + 2,048</b> is in force in session 1: 1,024 bytes written, 50%", "width:50%"]);
    contains(&body, &["7 records and 2 marks on the disk", "HALTED (successful)", "HALTED (connection closed)"]);
    contains(&body, &["<rect class=b", "<line x1=", "session 1: connected from 127.0.0.1:"]);

    c.stop().unwrap();
    c.window(1_024, Mover::ENDLESS).unwrap();
    let body = get(&page, "/").1;
    contains(&body, &["<b>Window from 1,024 with no end</b> is in force in session 1: 0 bytes written"]);
    contains(&body, &["<td>from 1,024 with no end</td>"]);
    contains(&get(&page, "/status.json").1, &["{\"offset\":1024,\"length\":18446744073709551615,\"percent\":null}"]);
    c.tape_close().unwrap();
    contains(&get(&page, "/").1, &["No session has the tape.", "7 records and 2 marks"]);
    drop(c);
    soon(|| get(&page, "/").1.contains("<p>None.</p>").then_some(())).expect("the session is still shown");
}

#[test]
fn page_and_json_tell_of_peers() {
    use common::far::{End, accept, becomes, connect, listen, port, prepare};
    let s = Scratch::new();
    let (from, tape) = (s.path("from"), s.path("tape"));
    fs::write(&from, noise(1, 2_500)).unwrap();
    let (host, page) = start(&tape, &["--stream", from.to_str().unwrap()]);
    let mut c = host.login();
    let none = "\"address\":{\"type\":\"LOCAL\",\"ports\":[],\"peer\":null,\"bytes\":0}";
    assert_eq!(get(&page, "/status.json").1.matches(none).count(), 2);
    prepare(&mut c, Mover::TO_TAPE, 1_000, Mover::ENDLESS);
    let at = listen(&mut c, End::Mover(0))[0];
    contains(&get(&page, "/").1, &[&format!("<td>LISTEN (to tape) by TCP at {at}</td>")]);
    let json = format!("\"address\":{{\"type\":\"TCP\",\"ports\":[\"{at}\"],\"peer\":null,\"bytes\":0}}");
    contains(&get(&page, "/status.json").1, &[&json, none]);

    let mut peer = TcpStream::connect(at).unwrap();
    peer.write_all(&[7; 5_500]).unwrap();
    soon(|| (c.moved().unwrap() == 5_000).then_some(())).expect("the records are not taken");
    let from = peer.local_addr().unwrap();
    let body = get(&page, "/").1;
    contains(&body, &[&format!("<td>ACTIVE (to tape) by TCP with {from}, 5,500 bytes</td>")]);
    let json = format!("\"address\":{{\"type\":\"TCP\",\"ports\":[],\"peer\":\"{from}\",\"bytes\":5500}}");
    contains(&get(&page, "/status.json").1, &[&json]);
    contains(&body, &[&format!("session 1: mover is joined by TCP with {from}, which connected")]);

    let (listener, at) = port();
    connect(&mut c, End::Data, &[at]);
    let _other = accept(&listener);
    contains(&get(&page, "/").1, &[&format!("<td>CONNECTED by TCP with {at}, 0 bytes</td>")]);
    c.start_backup().unwrap();
    soon(|| get(&page, "/").1.contains(&format!("ACTIVE (backup) by TCP with {at}, 7,168 bytes")).then_some(()))
        .expect("the bytes that were sent are not told");
    drop(peer);
    becomes(&mut c, End::Mover(0), Mover::HALTED);
    contains(&get(&page, "/").1, &["<td>HALTED (connection closed) by TCP</td>"]);
}

/// Of what a peer sends to a mover that is paused, no more is taken than the buffer holds.
#[test]
fn paused_mover_reads_256_kib_ahead_at_most() {
    use common::far::{End, listen, prepare};
    let s = Scratch::new();
    let (host, page) = start(&s.path("tape"), &[]);
    let mut c = host.login();
    prepare(&mut c, Mover::TO_TAPE, 1_000, 2_000);
    let mut peer = TcpStream::connect(listen(&mut c, End::Mover(0))[0]).unwrap();
    peer.set_write_timeout(Some(Duration::from_millis(300))).unwrap();
    while peer.write(&[7; 65_536]).is_ok() {}
    assert_eq!(c.noticed(NOTIFY_MOVER_PAUSED).unwrap(), Mover::END_OF_WINDOW);
    let text = get(&page, "/status.json").1;
    let bytes = text.rsplit_once("\"bytes\":").unwrap().0.rsplit_once("\"bytes\":").unwrap().1;
    let bytes: u64 = bytes.split('}').next().unwrap().parse().unwrap();
    assert!((2_000..=2_000 + (256 << 10)).contains(&bytes), "{bytes} in {text}");
}

#[test]
fn text_from_outside_is_escaped() {
    let s = Scratch::new();
    let from = s.folder("from");
    // A socket is left out of a backup, and named in the log.
    let _socket = UnixListener::bind(from.join("<script>alert('1')&\"\n\\")).unwrap();
    let (host, page) = start(&s.path("<i>tape"), &["--stream", from.to_str().unwrap()]);
    let mut c = host.login();
    assert_eq!(c.backup(512, 51_200).unwrap().why, DONE);
    let body = get(&page, "/").1;
    assert!(!body.contains("<script") && !body.contains("<i>"), "{body}");
    contains(&body, &["left out: ", ": neither file, folder nor link", "&lt;i&gt;tape"]);
    contains(&body, &["&lt;script&gt;alert(&#39;1&#39;)&amp;&quot;\\n\\"]);
    let text = get(&page, "/status.json").1;
    assert_eq!(json(&text), "\n");
    contains(&text, &["<script>alert('1')&\\\"\\\\n\\\\"]);
}

#[test]
fn other_requests_are_refused() {
    let s = Scratch::new();
    let (_host, page) = start(&s.path("tape"), &[]);
    for (bytes, code) in [
        (&b"POST / HTTP/1.1\r\n\r\n"[..], "405 Method Not Allowed"),
        (b"DELETE /status.json HTTP/1.1\r\n\r\n", "405 Method Not Allowed"),
        (b"GET /../../etc/passwd HTTP/1.1\r\n\r\n", "404 Not Found"),
        (b"\r\n\r\n", "400 Bad Request"),
        (b"GET /?x=1 HTTP/1.0\r\n\r\n", "200 OK"),
    ] {
        let all = exchange(&page, bytes);
        assert!(all.starts_with(&format!("HTTP/1.1 {code}\r\n")), "{all}");
    }
    let all = exchange(&page, b"HEAD / HTTP/1.1\r\n\r\n");
    assert!(all.starts_with("HTTP/1.1 200 OK\r\n") && all.ends_with("\r\n\r\n"), "{all}");
}

/// Whether the other side ends the connection; a busy machine is given its time.
fn ends(mut c: TcpStream) -> bool {
    c.set_read_timeout(Some(Duration::from_secs(30))).unwrap();
    let end = c.read_to_end(&mut Vec::new());
    !matches!(end, Err(e) if matches!(e.kind(), ErrorKind::WouldBlock | ErrorKind::TimedOut))
}

#[test]
fn bounded_in_time_memory_and_number() {
    let s = Scratch::new();
    let (host, page) = start(&s.path("tape"), &[]);
    // Eight that say nothing more: a ninth is turned away, unless the machine was so busy that the eight had ended.
    let turned_away = (0..5).any(|_| {
        let mut slow: Vec<TcpStream> = (0..8).map(|_| TcpStream::connect(&page).unwrap()).collect();
        slow.iter_mut().for_each(|c| _ = c.write_all(b"GET / HT"));
        let ninth = exchange(&page, b"GET / HTTP/1.1\r\n\r\n");
        // Clients of the vault do not feel it.
        host.login();
        assert!(slow.into_iter().all(ends), "a reader that says nothing is kept");
        ninth.is_empty()
    });
    assert!(turned_away);
    soon(|| exchange(&page, b"GET / HTTP/1.1\r\n\r\n").contains("200 OK").then_some(())).expect("no reader is let in");
    // A head that does not end.
    let mut c = TcpStream::connect(&page).unwrap();
    let _ = c.write_all(&[b"GET /", &b"x".repeat(100_000)[..]].concat());
    let _ = c.shutdown(Shutdown::Write);
    assert!(ends(c));
    contains(&get(&page, "/").0, &["200 OK"]);
}

#[test]
fn page_needs_its_port() {
    let s = Scratch::new();
    let (_host, page) = start(&s.path("tape"), &[]);
    let other = s.path("other");
    let done = serve(&other).args(["--listen=127.0.0.1:0", "--new-cartridge=1M", "--status", &page]).output().unwrap();
    let told = String::from_utf8(done.stderr).unwrap();
    assert!(done.status.code() == Some(1) && told.contains(&format!("--status {page}: already in use")), "{told}");
    assert!(!other.exists() && done.stdout.is_empty());
}
