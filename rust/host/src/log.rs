//! Lines for people, each with its time: on standard error, where a terminal has one line that is rewritten, and the last
//! of them for the status page. A standard error that is closed, or that nobody reads, is no reason to stop or to wait:
//! lines are lost then, and counted.
use crate::sys;
use std::collections::VecDeque;
use std::fmt::Display;
use std::io::{IsTerminal, Write, stderr};
use std::sync::{Mutex, MutexGuard, PoisonError};
use std::time::{SystemTime, UNIX_EPOCH};

/// So many lines are kept, each cut at so many characters.
const KEPT: usize = 40;
const LONGEST: usize = 300;
/// A line on standard error is cut at so many bytes: a pipe takes it whole or not at all.
const LONGEST_WRITTEN: usize = 3_500;
/// A reader of standard error is waited for so long, once.
const PATIENCE: i32 = 100;

pub struct Log {
    quiet: bool,
    terminal: bool,
    inner: Mutex<Inner>,
}

struct Inner {
    out: Box<dyn Write + Send>,
    /// Whether it may be that nobody reads it.
    waits: bool,
    lost: u64,
    /// Whether a line stands that may be rewritten.
    standing: bool,
    last: VecDeque<String>,
}

/// Whether a character ends a line, moves a terminal's cursor, or changes the order in which others are shown.
fn is_unseen(c: char) -> bool {
    let c32 = c as u32;
    c.is_control()
        || matches!(c32, 0xad | 0x61c | 0x180e | 0xfeff | 0x200b..=0x200f | 0x2028..=0x202e | 0x2060..=0x206f)
        || (0xe0000..=0xe0fff).contains(&c32)
}

/// Text from outside may hold anything: what is no plain character is shown and not done. The escape itself is escaped, so
/// that no two texts are shown alike.
pub fn printable(text: &str) -> String {
    let mut all = String::with_capacity(text.len());
    for c in text.chars() {
        match c {
            '\\' => all += "\\\\",
            c if is_unseen(c) => all.extend(c.escape_default()),
            c => all.push(c),
        }
    }
    all
}

/// Cut at so many bytes.
fn cut(text: &str, most: usize) -> &str {
    let at = (0..=most.min(text.len())).rev().find(|i| text.is_char_boundary(*i));
    &text[..at.unwrap_or(0)]
}

/// Over the line that stands, cut at the terminal's edge and not wrapped.
fn over(text: &str) -> String {
    format!("\r\x1b[?7l{text}\x1b[K\x1b[?7h")
}

const AWAY: &str = "\r\x1b[K";

fn seconds() -> u64 {
    SystemTime::now().duration_since(UNIX_EPOCH).map_or(0, |d| d.as_secs())
}

/// The time of day (UTC).
pub fn clock() -> String {
    time_of(seconds())
}

fn time_of(s: u64) -> String {
    format!("{:02}:{:02}:{:02}", s / 3600 % 24, s / 60 % 60, s % 60)
}

/// Day and time (UTC) of seconds since 1970.
fn stamp(s: u64) -> String {
    let leap = |y: u64| (y.is_multiple_of(4) && !y.is_multiple_of(100)) || y.is_multiple_of(400);
    let (mut day, mut year) = (s / 86_400, 1970);
    while day >= 365 + leap(year) as u64 {
        day -= 365 + leap(year) as u64;
        year += 1;
    }
    let months = [31, 28 + leap(year) as u64, 31, 30, 31, 30, 31, 31, 30, 31, 30, 31];
    let mut month = 1;
    for n in months {
        if day < n {
            break;
        }
        day -= n;
        month += 1;
    }
    format!("{year}-{month:02}-{:02}T{}Z", day + 1, time_of(s))
}

impl Inner {
    /// In one piece, or not at all where that would have to be waited for.
    fn write(&mut self, stamp: &str, text: &str) {
        let patience = if self.lost == 0 { PATIENCE } else { 0 };
        if self.waits && !sys::writable(&stderr(), patience) {
            self.lost += 1;
            return;
        }
        let before = match std::mem::take(&mut self.lost) {
            0 => String::new(),
            n => format!("{stamp} {n} lines are lost here: standard error was not read\n"),
        };
        let _ = self.out.write_all(format!("{before}{text}").as_bytes());
        let _ = self.out.flush();
    }
}

impl Log {
    /// To standard error.
    pub fn new(quiet: bool) -> Log {
        Log::to(Box::new(stderr()), true, quiet, stderr().is_terminal())
    }

    fn to(out: Box<dyn Write + Send>, waits: bool, quiet: bool, terminal: bool) -> Log {
        let inner = Inner { out, waits, lost: 0, standing: false, last: VecDeque::new() };
        Log { quiet, terminal, inner: Mutex::new(inner) }
    }

    /// Whether a line that is rewritten is seen by anyone.
    pub fn rewrites(&self) -> bool {
        self.terminal && !self.quiet
    }

    fn lock(&self) -> MutexGuard<'_, Inner> {
        self.inner.lock().unwrap_or_else(PoisonError::into_inner)
    }

    fn say(&self, text: &str, printed: bool) {
        let mut inner = self.lock();
        if inner.last.len() == KEPT {
            inner.last.pop_front();
        }
        let stamp = stamp(seconds());
        inner.last.push_back(format!("{stamp} {}", text.chars().take(LONGEST).collect::<String>()));
        if printed {
            let away = if std::mem::take(&mut inner.standing) { AWAY } else { "" };
            inner.write(&stamp, &format!("{away}{stamp} {}\n", cut(text, LONGEST_WRITTEN)));
        }
    }

    pub fn line(&self, text: impl Display) {
        self.say(&printable(&text.to_string()), !self.quiet);
    }

    /// An error: also told when all else is quiet.
    pub fn error(&self, text: impl Display) {
        self.say(&printable(&format!("mossgoblin: {text}")), true);
    }

    /// On a terminal: over the line that stands.
    pub fn rewrite(&self, text: impl Display) {
        if self.rewrites() {
            let mut inner = self.lock();
            inner.standing = true;
            inner.write("", &over(cut(&printable(&text.to_string()), LONGEST_WRITTEN)));
        }
    }

    /// The last lines, the newest first.
    pub fn last(&self) -> Vec<String> {
        self.lock().last.iter().rev().cloned().collect()
    }
}

#[cfg(test)]
mod tests {
    use super::*;
    use std::sync::Arc;

    /// Keeps what is written.
    #[derive(Clone, Default)]
    struct Kept(Arc<Mutex<Vec<u8>>>);

    impl Write for Kept {
        fn write(&mut self, bytes: &[u8]) -> std::io::Result<usize> {
            self.0.lock().unwrap().write(bytes)
        }

        fn flush(&mut self) -> std::io::Result<()> {
            Ok(())
        }
    }

    fn written(quiet: bool, terminal: bool) -> String {
        let kept = Kept::default();
        let log = Log::to(Box::new(kept.clone()), false, quiet, terminal);
        log.line("came");
        log.rewrite("10%");
        log.rewrite("20%");
        log.error("bad\x07");
        log.rewrite("30%");
        log.line("gone");
        let bytes = kept.0.lock().unwrap().clone();
        let text = String::from_utf8(bytes).unwrap();
        // Lines begin with a time, which is another one each time.
        let is_stamp = |w: &str| w.len() == 20 && w.ends_with('Z') && w.as_bytes()[10] == b'T';
        let parts: Vec<&str> = text.split(' ').collect();
        parts
            .iter()
            .map(|p| if p.len() >= 20 && is_stamp(&p[p.len() - 20..]) { &p[..p.len() - 20] } else { p })
            .collect::<Vec<_>>()
            .join(" ")
    }

    #[test]
    fn terminal_has_one_line_that_is_rewritten() {
        let [a, b, c] = ["10%", "20%", "30%"].map(|p| format!("\r\x1b[?7l{p}\x1b[K\x1b[?7h"));
        let told = format!(" came\n{a}{b}\r\x1b[K mossgoblin: bad\\u{{7}}\n{c}\r\x1b[K gone\n");
        assert_eq!(written(false, true), told);
        assert_eq!(written(false, false), " came\n mossgoblin: bad\\u{7}\n gone\n");
        assert_eq!(
            (written(true, true), written(true, false)),
            (" mossgoblin: bad\\u{7}\n".into(), " mossgoblin: bad\\u{7}\n".into())
        );
    }

    #[test]
    fn last_lines_are_kept_and_bounded() {
        let log = Log::new(true);
        for i in 0..100 {
            log.line(format_args!("{i} {}", "x".repeat(1_000)));
        }
        let last = log.last();
        assert_eq!(last.len(), KEPT);
        assert!(last[0][21..].starts_with("99 x") && last[KEPT - 1][21..].starts_with("60 x"));
        assert!(last.iter().all(|l| l.len() == 21 + LONGEST));
    }

    #[test]
    fn days_and_times() {
        for (s, text) in [
            (0, "1970-01-01T00:00:00Z"),
            (951_782_399, "2000-02-28T23:59:59Z"),
            (951_782_400, "2000-02-29T00:00:00Z"),
            (951_868_800, "2000-03-01T00:00:00Z"),
            (1_798_761_599, "2026-12-31T23:59:59Z"),
            (4_107_542_400, "2100-03-01T00:00:00Z"),
        ] {
            assert_eq!(stamp(s), text);
        }
    }

    #[test]
    fn long_lines_are_cut_between_characters() {
        assert_eq!((cut("abc", 5), cut("abc", 2), cut("a\u{fc}", 2), cut("", 0)), ("abc", "ab", "a", ""));
    }

    #[test]
    fn control_characters_are_shown() {
        assert_eq!(printable("a\x1b[2Jb\r\nc\u{9b}"), "a\\u{1b}[2Jb\\r\\nc\\u{9b}");
        // A line of another's making, an order turned round, and an escape that was there before.
        assert_eq!(printable("a\u{2028}b\u{202e}c\\n"), "a\\u{2028}b\\u{202e}c\\\\n");
        assert_eq!(printable("\u{fc} \u{65e5}"), "\u{fc} \u{65e5}");
    }
}
