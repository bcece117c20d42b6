//! What the status page says, as HTML without a script and as JSON. Text from outside is escaped.
use crate::commands::{counted, grouped};
use crate::ends::Far;
use crate::line::Shared;
use crate::log::clock;
use crate::progress::{by_tcp, percent, window};
use crate::server::MOST_CONNECTIONS;
use crate::slots::place;
use crate::watch::{All, Seen, Tape};
use proved::{Data, Mover, Session, codes};
use std::fmt::Write;
use std::time::Duration;

/// One look at the vault.
pub struct Shown {
    vault: String,
    clock: String,
    up: Duration,
    all: All,
    log: Vec<String>,
}

impl Shown {
    /// None where no page was asked for.
    pub fn of(shared: &Shared, vault: &str) -> Option<Shown> {
        let watch = shared.watch.as_ref()?;
        let (up, all, log) = (watch.since.elapsed(), watch.all(), shared.log.last());
        Some(Shown { vault: vault.into(), clock: clock(), up, all, log })
    }
}

/// Text between tags or in an attribute.
fn escaped(text: &str) -> String {
    let mut all = String::with_capacity(text.len());
    for c in text.chars() {
        match c {
            '&' => all += "&amp;",
            '<' => all += "&lt;",
            '>' => all += "&gt;",
            '"' => all += "&quot;",
            '\'' => all += "&#39;",
            c if c.is_control() => all.push('\u{fffd}'),
            c => all.push(c),
        }
    }
    all
}

/// A text of JSON, with its quotes.
fn quoted(text: &str) -> String {
    let mut all = String::from("\"");
    for c in text.chars() {
        match c {
            '"' => all += "\\\"",
            '\\' => all += "\\\\",
            c if c.is_control() => _ = write!(all, "\\u{:04x}", c as u32),
            c => all.push(c),
        }
    }
    all + "\""
}

fn span(d: Duration) -> String {
    let s = d.as_secs();
    match (s / 86_400, s / 3600 % 24, s / 60 % 60, s % 60) {
        (0, 0, 0, s) => format!("{s} s"),
        (0, 0, m, s) => format!("{m} min {s} s"),
        (0, h, m, _) => format!("{h} h {m} min"),
        (d, h, _, _) => format!("{d} d {h} h"),
    }
}

/// A bar that is filled to this part of a hundred.
fn bar(part: u64) -> String {
    format!("<span class=bar><span style=\"width:{}%\"></span></span>", part.min(100))
}

fn part_of(n: u64, whole: u64) -> u64 {
    if whole == 0 { 0 } else { (n as u128 * 100 / whole as u128) as u64 }
}

/// An end's address type, and its open ports or its peer.
fn far_told(address: u32, far: &Far) -> String {
    let mut text = String::from(by_tcp(address));
    if !far.ports.is_empty() {
        text += &format!(" at {}", escaped(&far.ports.join(", ")));
    }
    if let Some(peer) = &far.peer {
        text += &format!(" with {}, {} bytes", escaped(peer), grouped(far.bytes));
    }
    text
}

fn data_told(s: &Session, far: &Far) -> String {
    let text = match s.source.state {
        Data::HALTED => format!("{} ({})", s.source.state_name(), s.source.halt_name()),
        Data::ACTIVE => format!("{} ({})", s.source.state_name(), s.source.operation_name()),
        _ => s.source.state_name().into(),
    };
    text + &far_told(s.source.address, far)
}

fn mover_told(s: &Session, far: &Far) -> String {
    let m = &s.mover;
    let text = match m.state {
        Mover::PAUSED => format!("{} ({})", m.state_name(), m.pause_name()),
        Mover::HALTED => format!("{} ({})", m.state_name(), m.halt_name()),
        Mover::IDLE => m.state_name().into(),
        _ => format!("{} ({})", m.state_name(), m.mode_name()),
    };
    text + &far_told(m.address, far)
}

/// The window in force and how far it is moved; of the session that has the tape.
fn window_told(all: &All) -> String {
    let Some((number, seen)) = all.tape.holder.and_then(|n| all.sessions.get_key_value(&n)) else {
        return "<p>No session has the tape.</p>".into();
    };
    let m = &seen.session.mover;
    if m.length == 0 {
        return format!("<p>Session {number} has the tape. No window is in force.</p>");
    }
    let part = percent(m);
    let verb = if m.mode == Mover::FROM_TAPE { "handed over" } else { "written" };
    let done = m.moved.saturating_sub(m.offset).min(m.length);
    let stream = seen
        .whole
        .map_or(String::new(), |n| format!(", {}% of the stream", part_of(seen.session.source.processed.min(n), n)));
    format!(
        "<p class=window><b>Window {}</b> is in force in session {number}: {} bytes {verb}{}{stream}.</p>{}",
        window(m, grouped),
        grouped(done),
        part.map_or(String::new(), |p| format!(", {p}%")),
        part.map_or(String::new(), bar)
    )
}

fn row(number: usize, seen: &Seen) -> String {
    let (s, m) = (&seen.session, &seen.session.mover);
    let window = match m.length {
        0 => "none".into(),
        _ => window(m, grouped) + &percent(m).map_or(String::new(), |part| format!(" {}", bar(part))),
    };
    let tape = match (s.tape.opened, s.tape.writable) {
        (false, _) => "closed".into(),
        (true, false) => format!("open to read, at {}", s.tape.position),
        (true, true) => format!("open to write, at {}", s.tape.position),
    };
    let record = if m.size == 0 { "none".into() } else { grouped(m.size as u64) };
    let cells = [
        number.to_string(),
        escaped(&seen.peer),
        span(seen.since.elapsed()),
        if s.login.authorized { "yes" } else { "no" }.into(),
        data_told(s, &seen.far[0]),
        mover_told(s, &seen.far[1]),
        record,
        window,
        grouped(m.moved),
        grouped(s.source.processed),
        tape,
        if s.changer.opened { "open" } else { "closed" }.into(),
    ];
    format!("<tr><td>{}</td></tr>\n", cells.join("</td><td>"))
}

const COLUMNS: [&str; 12] = [
    "Session",
    "From",
    "Since",
    "Logged in",
    "Data",
    "Mover",
    "Record size",
    "Window",
    "Moved",
    "Processed",
    "Tape",
    "Changer",
];

/// Pieces of the strip: no more are drawn, however many entries there are.
const PIECES: usize = 500;

/// The tape as a strip: by bytes, records in two shades by turns, marks as lines. Entries that would be too narrow share a piece.
fn strip(t: &Tape) -> String {
    let mut all = String::from("<svg class=strip viewBox=\"0 0 1000 40\" preserveAspectRatio=none role=img>");
    all += "<title>the tape from its start, left, to its end: records, and marks as lines</title>";
    let x = |bytes: u64| bytes as f64 * 1000.0 / t.body.max(1) as f64;
    let (mut start, mut end, mut shade) = (0u64, 0u64, false);
    let mut marks: Vec<u64> = Vec::new();
    let least = (t.body / PIECES).max(1) as u64;
    for (i, n) in t.lengths.iter().enumerate() {
        end += *n as u64;
        if *n == 0 && marks.last().is_none_or(|last| end - last >= least) {
            marks.push(end);
        }
        if end - start >= least || i + 1 == t.lengths.len() {
            let class = if shade { "a" } else { "b" };
            let _ = write!(all, "<rect class={class} x={:.2} y=8 width={:.2} height=24 />", x(start), x(end - start));
            (start, shade) = (end, !shade);
        }
    }
    for at in marks {
        let _ = write!(all, "<line x1={0:.2} x2={0:.2} y1=0 y2=40 />", x(at));
    }
    all + "</svg>"
}

fn tape_told(t: &Tape) -> String {
    if t.file.is_empty() {
        return "<p>The drive is empty.</p>\n".into();
    }
    let used: u64 = t.lengths.iter().map(|n| *n as u64).sum();
    let marks = t.lengths.iter().filter(|n| **n == 0).count();
    let (entries, body) = (t.lengths.len(), t.body as u64);
    format!(
        "<p>{}: {} and {} on the disk.</p>{}<table>\
         <tr><td>Bytes</td><td>{} of {}</td><td>{}</td></tr>\
         <tr><td>Entries</td><td>{} of {}</td><td>{}</td></tr></table>\n",
        escaped(&t.file),
        counted((entries - marks) as u64, "record"),
        counted(marks as u64, "mark"),
        strip(t),
        grouped(used),
        grouped(body),
        bar(part_of(used, body)),
        grouped(entries as u64),
        grouped(t.capacity as u64),
        bar(part_of(entries as u64, t.capacity as u64))
    )
}

/// The places, where there is more than one cartridge to be in them.
fn places_told(all: &All) -> String {
    if all.places.iter().flatten().count() < 2 {
        return String::new();
    }
    let line = |(i, name): (usize, &Option<String>)| {
        let name = name.as_deref().map_or("empty".into(), escaped);
        format!("<tr><td>{}</td><td>{name}</td></tr>", place(i))
    };
    let rows: String = all.places.iter().enumerate().map(line).collect();
    format!("<h2>Places</h2>\n<table>{rows}</table>\n")
}

const STYLE: &str = "body{font:15px/1.5 sans-serif;margin:1.5em;max-width:90em;color:#222;background:#fff}\
h1{font-size:1.4em;margin:0}h2{font-size:1.1em;margin:1.4em 0 .3em}table{border-collapse:collapse}\
td,th{padding:.2em .8em .2em 0;text-align:left;vertical-align:top}\
.wide{overflow-x:auto}th{font-weight:normal;color:#666}.window{font-size:1.15em;margin:.2em 0}\
.bar{display:inline-block;width:14em;max-width:100%;height:.7em;background:#e4e4e4}\
.bar span{display:block;height:100%;background:#3a7d44}.window+.bar{width:100%;height:1em}tr .bar{width:7em}\
.strip{display:block;width:100%;height:2.6em;background:#eee}.a{fill:#3a7d44}.b{fill:#6fae79}line{stroke:#b3261e;stroke-width:2}\
pre{background:#f6f6f6;padding:.6em;overflow-x:auto;margin:0}";

pub fn html(s: &Shown) -> String {
    let count = s.all.sessions.len();
    let rows: String = s.all.sessions.iter().map(|(n, seen)| row(*n, seen)).collect();
    let sessions = if count == 0 {
        "<p>None.</p>".into()
    } else {
        let heads = COLUMNS.join("</th><th>");
        format!("<div class=wide><table><tr><th>{heads}</th></tr>\n{rows}</table></div>")
    };
    let log: String = s.log.iter().map(|l| escaped(l) + "\n").collect();
    format!(
        "<!doctype html>\n<html lang=en><head><meta charset=utf-8><meta http-equiv=refresh content=2>\
         <meta name=viewport content=\"width=device-width\"><title>Mossgoblin: {}</title>\
         <style>{STYLE}</style></head><body>\n<h1>Mossgoblin</h1>\n\
         <p>A tape vault on {}, up {}, at {} UTC. {count} of at most {MOST_CONNECTIONS} sessions. \
         The same as <a href=\"/status.json\">JSON</a>.</p>\n\
         <h2>Window</h2>\n{}\n<h2>Tape</h2>\n{}{}<h2>Sessions</h2>\n{sessions}\n\
         <h2>Log, the newest first (UTC)</h2>\n<pre>{log}</pre>\n</body></html>\n",
        counted(count as u64, "session"),
        escaped(&s.vault),
        span(s.up),
        s.clock,
        window_told(&s.all),
        tape_told(&s.all.tape),
        places_told(&s.all)
    )
}

fn address_json(address: u32, far: &Far) -> String {
    let kind = if address == codes::TCP_ADDRESS { "TCP" } else { "LOCAL" };
    let ports: Vec<String> = far.ports.iter().map(|at| quoted(at)).collect();
    let peer = far.peer.as_ref().map_or("null".into(), |p| quoted(p));
    format!("{{\"type\":\"{kind}\",\"ports\":[{}],\"peer\":{peer},\"bytes\":{}}}", ports.join(","), far.bytes)
}

fn session_json(number: usize, seen: &Seen) -> String {
    let (s, m) = (&seen.session, &seen.session.mover);
    let window = if m.length == 0 {
        "null".into()
    } else {
        let part = percent(m).map_or("null".into(), |p| p.to_string());
        format!("{{\"offset\":{},\"length\":{},\"percent\":{part}}}", m.offset, m.length)
    };
    format!(
        "{{\"number\":{number},\"peer\":{},\"seconds\":{},\"authorized\":{},\
         \"data\":{{\"state\":{},\"operation\":{},\"halt\":{},\"processed\":{},\"stream\":{},\"address\":{}}},\
         \"mover\":{{\"state\":{},\"mode\":{},\"pause\":{},\"halt\":{},\"record_size\":{},\"address\":{},\"window\":{window},\"moved\":{}}},\
         \"tape\":{{\"open\":{},\"writable\":{},\"position\":{}}},\"changer\":{{\"open\":{}}}}}",
        quoted(&seen.peer),
        seen.since.elapsed().as_secs(),
        s.login.authorized,
        quoted(s.source.state_name()),
        quoted(s.source.operation_name()),
        quoted(s.source.halt_name()),
        s.source.processed,
        seen.whole.map_or("null".into(), |n| n.to_string()),
        address_json(s.source.address, &seen.far[0]),
        quoted(m.state_name()),
        quoted(m.mode_name()),
        quoted(m.pause_name()),
        quoted(m.halt_name()),
        m.size,
        address_json(m.address, &seen.far[1]),
        m.moved,
        s.tape.opened,
        s.tape.writable,
        s.tape.position,
        s.changer.opened
    )
}

pub fn json(s: &Shown) -> String {
    let t = &s.all.tape;
    let list = |all: Vec<String>| all.join(",");
    let used: u64 = t.lengths.iter().map(|n| *n as u64).sum();
    format!(
        "{{\"vault\":{},\"seconds\":{},\"most_sessions\":{MOST_CONNECTIONS},\"sessions\":[{}],\
         \"tape\":{{\"file\":{},\"holder\":{},\"capacity\":{},\"bytes\":{},\"used\":{used},\"entries\":[{}]}},\
         \"places\":[{}],\"log\":[{}]}}\n",
        quoted(&s.vault),
        s.up.as_secs(),
        list(s.all.sessions.iter().map(|(n, seen)| session_json(*n, seen)).collect()),
        quoted(&t.file),
        t.holder.map_or("null".into(), |n| n.to_string()),
        t.capacity,
        t.body,
        list(t.lengths.iter().map(|n| n.to_string()).collect()),
        list(s.all.places.iter().map(|p| p.as_deref().map_or("null".into(), quoted)).collect()),
        list(s.log.iter().map(|l| quoted(l)).collect())
    )
}

#[cfg(test)]
mod tests {
    use super::*;

    #[test]
    fn text_from_outside_is_escaped() {
        assert_eq!(
            escaped("<a href=\"x\" b='&'>\x1b\n"),
            "&lt;a href=&quot;x&quot; b=&#39;&amp;&#39;&gt;\u{fffd}\u{fffd}"
        );
        assert_eq!(quoted("a\"b\\c\n\u{1b}\u{fc}"), "\"a\\\"b\\\\c\\u000a\\u001b\u{fc}\"");
    }

    #[test]
    fn strip_is_bounded() {
        let tape = |lengths: Vec<u32>| Tape { capacity: 4_096, body: 134_217_728, lengths, ..Tape::default() };
        for lengths in [vec![32_768; 4_096], vec![0; 4_096], (0..4_096).map(|i| i % 2 * 32_768).collect()] {
            let drawn = strip(&tape(lengths));
            let count = |what: &str| drawn.matches(what).count();
            assert!(count("<rect") <= PIECES + 1 && count("<line") <= PIECES + 1, "{}", drawn.len());
        }
        let drawn = strip(&Tape { body: 1_000, lengths: vec![500, 0, 250], ..Tape::default() });
        assert!(drawn.contains("<rect class=b x=0.00 y=8 width=500.00") && drawn.contains("x=500.00 y=8 width=250.00"));
        assert_eq!(drawn.matches("<line x1=500.00").count(), 1);
    }

    #[test]
    fn spans() {
        for (s, text) in [(0, "0 s"), (61, "1 min 1 s"), (3_661, "1 h 1 min"), (90_000, "1 d 1 h")] {
            assert_eq!(span(Duration::from_secs(s)), text);
        }
    }
}
