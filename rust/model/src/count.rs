//! What was reached, how often, and what has to be.

use std::collections::BTreeMap;

use crate::accounts;
use crate::changers;
use crate::commands;
use crate::convert::state;
use crate::lists;
use crate::logins::{self, Met};
use crate::model::accounts::MD5;
use crate::model::record::framed;
use crate::model::relation::broken;
use crate::model::requests::HANDLED;
use crate::script::Step;
use crate::stores;
use crate::world::{Seen, World};
use proved::{Data, Mover, Session};
use wire::{word, word_at};

#[derive(Default)]
pub struct Counts(BTreeMap<String, u64>);

/// Every number that a message can be answered with, by the table of refusals. 18 stands with each; the close has no
/// other reply.
fn numbers(message: u32) -> &'static [u32] {
    match message {
        0x900 => &[0, 9, 19],
        0x901 => &[0, 4, 9],
        0x902 => &[],
        0x108 => &[0],
        0x102 => &[0, 4],
        0x103 => &[0, 9],
        0x200 => &[0, 3, 4, 16],
        0x201 | 0x202 | 0x204 => &[0, 4, 6],
        0x206 => &[0, 4, 6, 9],
        0x300 => &[0, 3, 4, 9, 10, 15, 16],
        0x301 => &[0, 4, 6, 19],
        0x302 => &[0, 4, 6, 7],
        0x303 => &[0, 4, 5, 6, 7, 9, 12, 13, 19],
        0x304 => &[0, 4, 5, 6, 7, 9, 13, 19],
        0x305 => &[0, 4, 6, 7, 9, 12, 13, 19],
        0x400 | 0xa00 => &[0, 4],
        0x401 | 0x402 => &[0, 4, 9, 19, 22],
        0x404 => &[0, 4, 7, 19],
        0x409 => &[0, 4, 9, 19],
        0x403 | 0x407 | 0xa03 | 0xa04 | 0xa07 => &[0, 4, 19],
        0x40a => &[0, 4, 9, 19, 23],
        0xa01 => &[0, 4, 5, 6, 9, 19, 26],
        0xa02 => &[0, 4, 5, 6, 19, 26],
        0xa05 => &[0, 4, 9, 19, 26],
        0xa06 => &[0, 4, 9, 19, 25],
        0xa08 => &[0, 4, 9, 19],
        0xa09 => &[0, 4, 5, 6, 9, 19, 23, 26],
        _ => unreachable!(),
    }
}

/// Sizes and numbers at their limits.
const EDGES: [&str; 11] = [
    "window's end near 2^64",
    "a window with no end",
    "to tape in a window with no end",
    "from tape in a window with no end",
    "to tape near 2^64",
    "from tape near 2^64",
    "to tape, record of 32,768",
    "from tape, record of 32,768",
    "tape read of 32,768",
    "tape write of 32,768",
    "a table of 4,096 entries",
];

/// The ends by state and address type, but for those that are joined to each other.
const DATA_APART: [&str; 7] =
    ["IDLE", "LISTEN LOCAL", "LISTEN TCP", "CONNECTED TCP", "ACTIVE TCP", "HALTED LOCAL", "HALTED TCP"];
const MOVER_APART: [&str; 7] =
    ["IDLE", "LISTEN LOCAL", "LISTEN TCP", "ACTIVE TCP", "PAUSED TCP", "HALTED LOCAL", "HALTED TCP"];
/// Those that are.
const DATA_JOINED: [&str; 2] = ["CONNECTED LOCAL", "ACTIVE LOCAL"];
const MOVER_JOINED: [&str; 2] = ["ACTIVE LOCAL", "PAUSED LOCAL"];

/// The requests that an end by TCP accepts, each with the states that it does so in.
const ACCEPTED: [(u32, &[&str]); 14] = [
    (0x400, &["LISTEN", "CONNECTED", "ACTIVE", "HALTED"]),
    (0x401, &["CONNECTED"]),
    (0x402, &["CONNECTED"]),
    (0x403, &["LISTEN", "CONNECTED", "ACTIVE"]),
    (0x404, &["ACTIVE", "HALTED"]),
    (0x407, &["HALTED"]),
    (0xa00, &["LISTEN", "ACTIVE", "PAUSED", "HALTED"]),
    (0xa02, &["PAUSED"]),
    (0xa03, &["LISTEN", "ACTIVE", "PAUSED"]),
    (0xa04, &["HALTED"]),
    (0xa05, &["PAUSED"]),
    (0xa06, &["ACTIVE"]),
    (0xa07, &["PAUSED"]),
    (0x302, &["LISTEN", "ACTIVE", "PAUSED", "HALTED"]),
];

/// The requests that are refused with 26 for a record size 0: set window, mover listen, mover connect.
const SIZED: [u32; 3] = [0xa05, 0xa01, 0xa09];

/// 02 No. 9: "26 for record size 0 is never given afterwards", but on a session that was handed in.
const NEVER: &str = "size 0: on a session that calls alone made";

/// 01: "1002 if the session breaks a relation listed in docs/ (none that calls give does)".
const NEVER_BROKEN: &str = "a relation that is broken: on a session that calls alone made";

/// 02 No. 7: "from one that names none twice (else 1002), passed on from call to call, each cartridge is in exactly
/// one slot or in the drive".
const NEVER_LOST: &str = "a cartridge that is lost or found: on a session that calls alone made";

/// The cartridges of a session, wherever they are.
fn cartridges(s: &Session) -> Vec<u32> {
    let mut all: Vec<u32> = s.changer.slots.into_iter().filter(|n| *n != 0).collect();
    all.sort();
    all
}

const TO_TAPE: [&str; 9] = [
    "(1) not running",
    "(2) fault",
    "(3) end",
    "(4) EOW",
    "(4) EOW before a record that would pass the end",
    "(5) waits",
    "(6) EOM",
    "(7) whole record",
    "(7) filled record",
];

const FROM_TAPE: [&str; 13] = [
    "not running",
    "fault",
    "nothing left",
    "no destination room",
    "SEEK before the window",
    "SEEK after the window",
    "EOF on the way",
    "EOF at the target",
    "EOM",
    "record of another length",
    "handed over, all that was left",
    "handed over, the record's rest",
    "handed over, the destination's room",
];

/// The calls that take a session.
const CALLS: [&str; 9] = [
    "request",
    "to tape",
    "from tape",
    "method's end",
    "made of data",
    "made of mover",
    "lost of data",
    "lost of mover",
    "rmt",
];

/// What 02 No. 14 adds but for rules, pairs and calls, which stand with the others.
fn wanted_by_tcp() -> Vec<String> {
    let mut all = vec![];
    // Each event on its end in each state and type.
    for event in ["made", "lost"] {
        all.extend(DATA_APART.iter().chain(&DATA_JOINED).map(|end| format!("{event} of data in {end}")));
        all.extend(MOVER_APART.iter().chain(&MOVER_JOINED).map(|end| format!("{event} of mover in {end}")));
    }
    // Each request of an end by TCP, and the tape's while the mover has it.
    for (message, states) in ACCEPTED {
        all.extend(states.iter().map(|state| format!("by TCP, {message:03x} 0 in {state}")));
    }
    for message in [0x301, 0x303, 0x304, 0x305] {
        all.extend(["LISTEN", "ACTIVE"].map(|state| format!("by TCP, {message:03x} 19 in {state}")));
    }
    // A connect and a move by TCP, beside the other end in each state and type.
    all.extend(MOVER_APART.map(|end| format!("by TCP, 40a beside {end}")));
    for beside in ["a09", "to tape", "from tape"] {
        all.extend(DATA_APART.map(|end| format!("by TCP, {beside} beside {end}")));
    }
    all.extend(wanted_lists());
    all
}

/// Lists of each kind, lent and in a connect; and what else may stand behind an address type or be lent with it.
fn wanted_lists() -> Vec<String> {
    let mut all = vec![];
    for (kind, _, decodes) in lists::kinds() {
        let (lent, sent) = match kind {
            "no address" => (9, 9),
            "above 16,384 bytes" => (9, 0),
            _ => (if decodes { 0 } else { 9 }, if decodes { 0 } else { 18 }),
        };
        all.extend(["409", "a01"].map(|message| format!("list {message} {kind}: {lent}")));
        all.extend(["40a", "a09"].map(|message| format!("list {message} {kind}: {sent}")));
    }
    for message in ["409", "a01"] {
        all.push(format!("address {message} TCP and bytes left over: 18"));
        all.push(format!("address {message} other and a rest: 9"));
        all.push(format!("address {message} LOCAL, lent a list: 0"));
    }
    for message in ["40a", "a09"] {
        all.push(format!("address {message} other and a rest: 9"));
        all.push(format!("address {message} TCP, failed: 23"));
        all.push(format!("address {message} LOCAL, the other listens by TCP: 23"));
        all.push(format!("address {message} LOCAL, lent failed: 0"));
    }
    all
}

/// What 02 No. 3 adds but for numbers by message: 0x404 by state, kind of store and names; starts by kind of environment,
/// and stores that they and stops write over; stores of another length.
fn wanted_stores() -> Vec<String> {
    let mut all = vec![];
    for (state, number) in [("ACTIVE", 0), ("HALTED", 0), ("LISTEN", 19), ("CONNECTED", 19)] {
        all.extend(["LOCAL", "TCP"].map(|kind| format!("environment 404 in {state} {kind}: {number}")));
    }
    all.push("environment 404 in IDLE: 19".into());
    all.push("environment 404 in HALTED, no start before: 0".into());
    all.push("environment 404 other state, store not laid out so: 19".into());
    all.push("environment 404 gives 65 pairs".into());
    for (kind, _, laid) in stores::kinds() {
        all.push(format!("environment 404 of {kind}: {}", if laid { 0 } else { 7 }));
    }
    all.extend(stores::named_kinds().into_iter().map(|(kind, _)| format!("environment 404 names, {kind}")));
    for message in ["401", "402"] {
        for (kind, number) in stores::SENT {
            all.push(format!("environment {message} {kind}: {number}"));
        }
        all.extend([9, 19].map(|n| format!("environment {message} does not fit: {n}")));
    }
    for message in ["401", "402", "407"] {
        all.extend(["", "not "].map(|not| format!("environment {message} over a store {not}laid out so")));
    }
    all.extend(stores::OTHERS.map(|n| format!("store of {n} bytes: 1001")));
    all.extend(["closed", "1002", "badly framed"].map(|also| format!("store of another length and {also}: 1001")));
    all
}

/// What 02 No. 2 and No. 10 add but for numbers by message.
fn wanted_logins() -> Vec<String> {
    let logins = logins::wanted().into_iter().map(|(case, number)| format!("login {case}: {number}"));
    let attributes = logins::wanted_attributes().into_iter();
    logins.chain(attributes.map(|(case, number)| format!("attributes {case}: {number}"))).collect()
}

/// 02 No. 10: the listing of accounts of each kind, into outputs at their limits, and of each number of entries.
fn wanted_listings() -> Vec<String> {
    let mut all = vec![];
    for (kind, ..) in accounts::kinds() {
        all.extend([0, 1001].map(|code| format!("listing of {kind}: {code}")));
    }
    for (room, code) in [(0, 1001), (95, 1001), (96, 0), (97, 0), (200, 0)] {
        all.push(format!("listing into {room} bytes: {code}"));
    }
    all.extend((0..=8).map(|n| format!("listing of {n} lines")));
    all.extend(LISTED.map(|case| format!("listing of {case}")));
    all
}

/// 02 No. 5: each number at each command by NDMP's number for it, each way not to read, and how commands and sessions
/// meet.
fn wanted_rmt() -> Vec<String> {
    commands::wanted().into_iter().map(|case| format!("rmt {case}")).collect()
}

/// Entries of these kinds in one listing.
const LISTED: [&str; 4] = ["md5 alone", "withdrawn alone", "both words", "an MD5 entry that never matches"];

/// An end by its state and address type; IDLE has one type only.
fn data_end(end: &Data) -> String {
    by_type(end.state_name(), end.address)
}

fn mover_end(end: &Mover) -> String {
    by_type(end.state_name(), end.address)
}

fn by_type(state: &str, address: u32) -> String {
    match address {
        0 if state == "IDLE" => state.into(),
        0 => format!("{state} LOCAL"),
        _ => format!("{state} TCP"),
    }
}

/// The call by its name, and whether the end that it is of is joined by TCP.
fn call_name(step: &Step, before: &Session) -> Option<(&'static str, bool)> {
    let (data, mover) = (before.source.address == 1, before.mover.address == 1);
    Some(match step {
        Step::Open { .. } => ("open", false),
        Step::Request { .. } => ("request", false),
        Step::To { .. } => ("to tape", mover),
        Step::From { .. } => ("from tape", mover),
        Step::End { .. } => ("method's end", data),
        Step::Made { mover: false, .. } => ("made of data", false),
        Step::Made { mover: true, .. } => ("made of mover", false),
        Step::Lost { mover: false, .. } => ("lost of data", false),
        Step::Lost { mover: true, .. } => ("lost of mover", false),
        Step::Rmt { .. } => ("rmt", false),
        Step::Listing { .. } | Step::Accounts(_) | Step::Image(_) | Step::Store(_) | Step::Session(_) => return None,
    })
}

/// The number of the reply that was sent.
fn number(sent: &[u8]) -> Option<u32> {
    let replied = sent.len() >= 28 && word(sent, 12) == 1;
    let length = replied.then(|| (word(sent, 0) & 0x7fff_ffff) + 4)?;
    let place = if matches!(word(sent, 16), 0x302 | 0x400) { 32 } else { 28 };
    Some(if length == 28 { word(sent, 24) } else { word(sent, place) })
}

/// 02 No. 7: MTIO 6 as the tape and the mover are.
const OFF_LINE: [&str; 6] = ["read-only", "writable", "PAUSED", "HALTED", "not at the beginning", "a count"];

/// 02 No. 7: tape open while the drive is empty, and what comes before and after that.
const NOT_LOADED: [(&str, u32); 5] = [
    ("an empty drive", 10),
    ("an empty drive and a damaged image", 10),
    ("an empty drive and another name", 16),
    ("an empty drive and another mode", 9),
    ("a damaged image", 15),
];

/// Everything that has to be reached at least once.
pub fn wanted() -> Vec<String> {
    let mut all = vec!["reply unknown 1".to_string()];
    for message in HANDLED {
        all.push(format!("reply {message:03x} 18"));
        all.extend(numbers(message).iter().map(|n| format!("reply {message:03x} {n}")));
    }
    // MTIO by op: its ends, marks and plain success; 5 also with count 0.
    for (op, numbers) in [
        (0, &[0, 13][..]),
        (1, &[0, 13]),
        (2, &[0, 12, 13]),
        (3, &[0, 12, 13]),
        (4, &[0]),
        (5, &[0, 13]),
        (6, &[0, 6, 7, 19]),
        (7, &[9]),
    ] {
        all.extend(numbers.iter().map(|n| format!("mtio op {op} {n}")));
    }
    all.push("mtio op 5 count 0".into());
    all.extend(OFF_LINE.map(|case| format!("mtio op 6, {case}: 0")));
    all.extend(NOT_LOADED.map(|(case, number)| format!("tape open with {case}: {number}")));
    all.extend(changers::wanted().into_iter().map(|case| format!("changer {case}")));
    // Pairs that calls reach: each end apart with each other, and the joined ones. PAUSED by LOCAL needs data ACTIVE.
    for d in DATA_APART {
        all.extend(MOVER_APART.map(|m| format!("pair {d}, {m}")));
    }
    for pair in ["CONNECTED LOCAL, ACTIVE LOCAL", "ACTIVE LOCAL, ACTIVE LOCAL", "ACTIVE LOCAL, PAUSED LOCAL"] {
        all.push(format!("pair {pair}"));
    }
    // A session that is handed in can have this one too.
    all.push("handed in: pair CONNECTED LOCAL, PAUSED LOCAL".into());
    for by in ["", "by TCP, "] {
        all.extend(TO_TAPE.map(|rule| format!("{by}to tape {rule}")));
        all.extend(FROM_TAPE.map(|rule| format!("{by}from tape {rule}")));
        all.extend(["not active", "successful", "internal error"].map(|r| format!("{by}method's end {r}")));
    }
    all.extend(wanted_by_tcp());
    all.extend(wanted_stores());
    all.extend(wanted_logins());
    all.extend(wanted_listings());
    all.extend(wanted_rmt());
    all.extend(["badly framed", "ignored", "closing"].map(|r| format!("request {r}")));
    all.push("notice 502 0".into());
    all.extend([1, 2, 3, 4].map(|r| format!("notice 501 {r}")));
    all.extend([1, 2, 5].map(|r| format!("notice 503 {r}")));
    all.extend([1, 2, 3, 5].map(|r| format!("notice 504 {r}")));
    for call in CALLS {
        all.push(format!("{call} 1001"));
        all.push(format!("{call} 1002"));
        all.push(format!("{call} closed"));
    }
    all.push("open 1001".into());
    all.push("open 1002".into());
    all.push("1002 named twice".into());
    all.push("open 1001, a list that names one twice".into());
    all.push("rmt 1001, and the relation broken".into());
    all.extend(SIZED.map(|message| format!("size 0: reply {message:03x} 26")));
    all.extend((1..=12).map(|line| format!("1002 line {line}")));
    all.extend(EDGES.map(|e| format!("edge {e}")));
    all.extend(
        ["counter wraps", "moved wraps", "processed wraps", "closed and 1001", "closed and 1002"].map(String::from),
    );
    all
}

impl Counts {
    fn add(&mut self, key: String) {
        *self.0.entry(key).or_insert(0) += 1;
    }

    pub fn note(&mut self, step: &Step, seen: &Seen, before: &Session, world: &World) {
        let given = &seen.given;
        if let Step::Listing { room } = step {
            return self.listing(*room, given.code, &given.sent, &world.accounts);
        }
        let Some((call, tcp)) = call_name(step, before) else { return };
        if world.natural && call != "open" {
            if given.code == 1002 {
                self.add(NEVER_BROKEN.into());
            }
            if cartridges(before) != cartridges(&world.session) {
                self.add(NEVER_LOST.into());
            }
        }
        if given.code != 0 {
            self.add(format!("{call} {}", given.code));
            if given.rule == "store of another length" {
                self.other_length(step, before, world);
            }
            if given.code == 1002 {
                self.add(format!("1002 {}", given.rule));
            }
            if seen.closed_before && call != "open" {
                self.add(format!("closed and {}", given.code));
            }
            if call == "rmt" && given.code == 1001 && broken(&state(before)).is_some() {
                self.add("rmt 1001, and the relation broken".into());
            }
            if let Step::Open { slots, .. } = step
                && given.code == 1001
                && (0..9).any(|i| slots[i] != 0 && slots[i + 1..].contains(&slots[i]))
            {
                self.add("open 1001, a list that names one twice".into());
            }
            return;
        }
        self.add(format!("{}{call} {}", if tcp { "by TCP, " } else { "" }, given.rule));
        // What rmt sends is no message of NDMP's.
        if let Step::Rmt { command, .. } = step {
            if !seen.closed_before {
                self.rmt(command, given.rule, &given.sent, before, world);
            }
            return;
        }
        if !seen.closed_before {
            self.ends(step, call, given.count, before);
            self.addresses(step, &given.sent, before);
            self.environment(step, seen, before, world);
            self.logins(step, &given.sent, before, world);
            self.changer(step, &given.sent, before, world);
        }
        self.messages(step, &given.sent);
        self.sizes(&given.sent, before, world.natural);
        let after = &world.session;
        if call != "open" {
            for (what, wraps) in [
                ("counter", after.sequence < before.sequence),
                ("moved", given.count > 0 && after.mover.moved < before.mover.moved),
                ("processed", given.count > 0 && after.source.processed < before.source.processed),
            ] {
                if wraps {
                    self.add(format!("{what} wraps"));
                }
            }
        }
        self.edges(step, given.count, &given.sent, before, world);
        let pair = format!("pair {}, {}", data_end(&after.source), mover_end(&after.mover));
        self.add(if world.natural { pair } else { format!("handed in: {pair}") });
    }

    /// The events by the end that they meet, and the moves by TCP by the data end beside them.
    fn ends(&mut self, step: &Step, call: &str, count: usize, before: &Session) {
        match step {
            Step::Made { mover: false, .. } | Step::Lost { mover: false, .. } => {
                self.add(format!("{call} in {}", data_end(&before.source)));
            }
            Step::Made { .. } | Step::Lost { .. } => self.add(format!("{call} in {}", mover_end(&before.mover))),
            Step::To { .. } | Step::From { .. } if count > 0 && before.mover.address == 1 => {
                self.add(format!("by TCP, {call} beside {}", data_end(&before.source)));
            }
            _ => {}
        }
    }

    /// Requests by the address types of the ends, and of the listens and connects themselves.
    fn addresses(&mut self, step: &Step, sent: &[u8], before: &Session) {
        let (Step::Request { made, list, input, .. }, Some(number)) = (step, number(sent)) else { return };
        let message = word(input, 16);
        let data = (0x400..0x500).contains(&message);
        let (address, state) = match data {
            true => (before.source.address, before.source.state_name()),
            false => (before.mover.address, before.mover.state_name()),
        };
        let told = ACCEPTED.iter().any(|(m, _)| *m == message && number == 0) || message >> 8 == 3 && number == 19;
        if address == 1 && told {
            self.add(format!("by TCP, {message:03x} {number} in {state}"));
        }
        if !matches!(number, 0 | 9 | 18 | 23) {
            return;
        }
        // Type and what follows it.
        let place = if data { 28 } else { 32 };
        let kind = word_at(input, place);
        let rest = input.get(place + 4..).unwrap_or(&[]);
        match message {
            0x409 | 0xa01 => self.listens(message, kind, rest, list, number),
            0x40a | 0xa09 => self.connects(message, kind, rest, *made, number, before),
            _ => {}
        }
    }

    /// A listing, which looks at no session.
    fn listing(&mut self, room: usize, code: u32, sent: &[u8], lent: &[u8]) {
        self.add(format!("listing of {}: {code}", accounts::kind(lent)));
        self.add(format!("listing into {room} bytes: {code}"));
        if code != 0 {
            return;
        }
        let has = |word: &[u8]| sent.windows(word.len()).any(|w| w == word);
        let (md5, withdrawn) = (has(b"md5"), has(b"withdrawn"));
        let silent = md5 && accounts::meant(lent).iter().any(|e| e.kind == MD5 && !e.serves());
        self.add(format!("listing of {} lines", sent.iter().filter(|b| **b == b'\n').count()));
        for (case, applies) in LISTED.into_iter().zip([md5 && !withdrawn, withdrawn && !md5, md5 && withdrawn, silent])
        {
            if applies {
                self.add(format!("listing of {case}"));
            }
        }
    }

    /// 02 No. 5: a command, by NDMP's number for its reply.
    fn rmt(&mut self, command: &[u8], number: &str, sent: &[u8], before: &Session, world: &World) {
        for case in commands::cases(command, number, sent, before, world) {
            self.add(format!("rmt {case}"));
        }
    }

    /// 1001 for a store, which comes before all else.
    fn other_length(&mut self, step: &Step, before: &Session, world: &World) {
        self.add(format!("store of {} bytes: 1001", world.store.len()));
        if before.closed {
            self.add("store of another length and closed: 1001".into());
        }
        if broken(&state(before)).is_some() {
            self.add("store of another length and 1002: 1001".into());
        }
        if matches!(step, Step::Request { input, .. } if framed(input).is_none()) {
            self.add("store of another length and badly framed: 1001".into());
        }
    }

    /// Logins, and the requests for a challenge.
    fn logins(&mut self, step: &Step, sent: &[u8], before: &Session, world: &World) {
        let (Step::Request { challenge, input, .. }, Some(number)) = (step, number(sent)) else { return };
        let body = &input[28..];
        let (what, cases) = match word(input, 16) {
            0x901 => {
                let (accounts, older) = (&world.accounts[..], world.older);
                ("login", logins::cases(body, &Met { session: before, accounts, lent: challenge, older }))
            }
            0x103 => ("attributes", logins::attribute_cases(body, before)),
            _ => return,
        };
        for case in cases {
            self.add(format!("{what} {case}: {number}"));
        }
    }

    /// 02 No. 7: execute CDB, MTIO 6 and tape open.
    fn changer(&mut self, step: &Step, sent: &[u8], before: &Session, world: &World) {
        let (Step::Request { input, .. }, Some(number)) = (step, number(sent)) else { return };
        let (body, t) = (&input[28..], &before.tape);
        match word(input, 16) {
            0x206 if number == 0 => {
                for case in changers::cases(body, sent, before, &world.session) {
                    self.add(format!("changer {case}"));
                }
            }
            0x303 if number == 0 && word(body, 0) == 6 => {
                let state = before.mover.state_name();
                let tests =
                    [!t.writable, t.writable, state == "PAUSED", state == "HALTED", t.position > 0, word(body, 4) > 0];
                for (case, _) in OFF_LINE.into_iter().zip(tests).filter(|(_, applies)| *applies) {
                    self.add(format!("mtio op 6, {case}: 0"));
                }
            }
            0x300 if matches!(number, 9 | 10 | 15 | 16) => {
                let (empty, damaged) = (before.changer.slots[0] == 0, !proved::sound(&world.image));
                let tests = [empty, empty && damaged, empty && number == 16, empty && number == 9, damaged && !empty];
                for ((case, _), _) in NOT_LOADED.into_iter().zip(tests).filter(|(_, applies)| *applies) {
                    self.add(format!("tape open with {case}: {number}"));
                }
            }
            _ => {}
        }
    }

    /// 0x404, and the starts and stops that write the store.
    fn environment(&mut self, step: &Step, seen: &Seen, before: &Session, world: &World) {
        let (Step::Request { input, .. }, Some(number)) = (step, number(&seen.given.sent)) else { return };
        let message = word(input, 16);
        let laid = stores::is_laid(seen.store);
        match message {
            0x404 if matches!(number, 0 | 7 | 19) => self.asked(seen, number, laid, before, world),
            0x401 | 0x402 => {
                // A backup's list stands behind its method.
                let method = word_at(input, 28).map_or(0, |n| n as usize).saturating_add(3) / 4 * 4;
                let place = if message == 0x401 { method.saturating_add(32) } else { 28 };
                if let Some(kind) = input.get(place..).and_then(stores::sent) {
                    self.add(format!("environment {message:03x} {kind}: {number}"));
                    if matches!(kind, "one byte too much" | "64 pairs, one byte too much" | "far too much") {
                        self.add(format!("environment {message:03x} does not fit: {number}"));
                    }
                }
            }
            _ => {}
        }
        if matches!(message, 0x401 | 0x402 | 0x407) && number == 0 {
            let not = if laid { "" } else { "not " };
            self.add(format!("environment {message:03x} over a store {not}laid out so"));
        }
    }

    /// 0x404, answered with this number.
    fn asked(&mut self, seen: &Seen, number: u32, laid: bool, before: &Session, world: &World) {
        self.add(format!("environment 404 in {}: {number}", data_end(&before.source)));
        if number == 19 {
            if !laid {
                self.add("environment 404 other state, store not laid out so: 19".into());
            }
            return;
        }
        self.add(format!("environment 404 of {}: {number}", seen.store));
        if number == 0 {
            self.add(format!("environment 404 names, {}", stores::named(&world.store)));
            if before.source.operation == Data::NO_OPERATION {
                self.add("environment 404 in HALTED, no start before: 0".into());
            }
            if word(&seen.given.sent, 32) == 65 {
                self.add("environment 404 gives 65 pairs".into());
            }
        }
    }

    fn listens(&mut self, message: u32, kind: Option<u32>, rest: &[u8], list: &[u8], number: u32) {
        match kind {
            Some(0) if !list.is_empty() => self.add(format!("address {message:03x} LOCAL, lent a list: {number}")),
            Some(1) if rest.is_empty() => self.add(format!("list {message:03x} {}: {number}", lists::kind(list))),
            Some(1) => self.add(format!("address {message:03x} TCP and bytes left over: {number}")),
            Some(2..) if !rest.is_empty() => self.add(format!("address {message:03x} other and a rest: {number}")),
            _ => {}
        }
    }

    fn connects(&mut self, message: u32, kind: Option<u32>, rest: &[u8], made: bool, number: u32, before: &Session) {
        let (beside, listens) = match message {
            0x40a => (mover_end(&before.mover), before.mover.state == Mover::LISTEN && before.mover.address == 1),
            _ => (data_end(&before.source), before.source.state == Data::LISTEN && before.source.address == 1),
        };
        match kind {
            Some(0) if listens => {
                self.add(format!("address {message:03x} LOCAL, the other listens by TCP: {number}"));
            }
            Some(0) if !made => self.add(format!("address {message:03x} LOCAL, lent failed: {number}")),
            Some(1) if !made => self.add(format!("address {message:03x} TCP, failed: {number}")),
            Some(1) => {
                self.add(format!("list {message:03x} {}: {number}", lists::kind(rest)));
                if number == 0 {
                    self.add(format!("by TCP, {message:03x} beside {beside}"));
                }
            }
            Some(2..) if !rest.is_empty() => self.add(format!("address {message:03x} other and a rest: {number}")),
            _ => {}
        }
    }

    /// 26 for a record size 0, and whether it was given, or the size met, where neither may be.
    fn sizes(&mut self, sent: &[u8], before: &Session, natural: bool) {
        let refused = |message: &u32| {
            sent.len() >= 32 && word(sent, 12) == 1 && word(sent, 16) == *message && word(sent, 28) == 26
        };
        let none = before.mover.size == 0;
        if let Some(message) = SIZED.iter().find(|m| refused(m))
            && none
        {
            self.add(format!("size 0: reply {message:03x} 26"));
        }
        if natural && (none || refused(&0xa05)) {
            self.add(NEVER.into());
        }
    }

    fn edges(&mut self, step: &Step, count: usize, sent: &[u8], before: &Session, world: &World) {
        let (now, near) = (&world.session.mover, u64::MAX - (1 << 20));
        let accepted =
            |message: u32| sent.len() >= 32 && word(sent, 12) == 1 && word(sent, 16) == message && word(sent, 28) == 0;
        let moves = match step {
            Step::To { .. } if count > 0 => [now.moved > near, count == 32_768, false],
            Step::From { .. } if count > 0 => [now.seek > near, false, count == 32_768],
            _ => [false; 3],
        };
        let to = matches!(step, Step::To { .. });
        let (endless, end) = (now.length == u64::MAX, now.offset as u128 + now.length as u128);
        for (what, reached) in [
            ("window's end near 2^64", accepted(0xa05) && !endless && end > near as u128),
            ("a window with no end", accepted(0xa05) && endless),
            ("to tape in a window with no end", to && count > 0 && endless),
            ("from tape in a window with no end", matches!(step, Step::From { .. }) && count > 0 && endless),
            ("to tape near 2^64", to && moves[0]),
            ("from tape near 2^64", !to && moves[0]),
            ("to tape, record of 32,768", moves[1]),
            ("from tape, record of 32,768", moves[2]),
            ("tape read of 32,768", accepted(0x305) && word(sent, 32) == 32_768),
            ("tape write of 32,768", accepted(0x304) && word(sent, 32) == 32_768),
            (
                "a table of 4,096 entries",
                accepted(0x303)
                    && before.tape.position != world.session.tape.position
                    && world.image[8..12] == [0, 0, 16, 0],
            ),
        ] {
            if reached {
                self.add(format!("edge {what}"));
            }
        }
    }

    /// Reads what was sent back: replies by number and error, notices by number and reason.
    fn messages(&mut self, step: &Step, mut sent: &[u8]) {
        while !sent.is_empty() {
            let length = (word(sent, 0) & 0x7fff_ffff) as usize + 4;
            let (kind, message, error) = (word(sent, 12), word(sent, 16), word(sent, 24));
            if kind == 0 {
                self.add(format!("notice {message:03x} {}", word(sent, 28)));
            } else if !HANDLED.contains(&message) {
                self.add(format!("reply unknown {error}"));
            } else {
                let place = if matches!(message, 0x302 | 0x400) { 32 } else { 28 };
                let number = if length == 28 { error } else { word(sent, place) };
                self.add(format!("reply {message:03x} {number}"));
                if let (0x303, Step::Request { input, .. }) = (message, step)
                    && length > 28
                {
                    self.add(format!("mtio op {} {number}", word(input, 28)));
                    if word(input, 28) == 5 && word(input, 32) == 0 && number == 0 {
                        self.add("mtio op 5 count 0".into());
                    }
                }
            }
            sent = &sent[length..];
        }
    }

    /// What was never reached.
    pub fn missing(&self) -> Vec<String> {
        wanted().into_iter().filter(|key| !self.0.contains_key(key)).collect()
    }

    /// What came that no sequence of calls may lead to.
    pub fn never(&self) -> Vec<&'static str> {
        [NEVER, NEVER_BROKEN, NEVER_LOST].into_iter().filter(|what| self.get(what) > 0).collect()
    }

    fn get(&self, key: &str) -> u64 {
        self.0.get(key).copied().unwrap_or(0)
    }

    fn with(&self, start: &str) -> String {
        let found: Vec<String> = self
            .0
            .iter()
            .filter(|(k, _)| k.starts_with(start))
            .map(|(k, n)| format!("{} {n}", &k[start.len()..]))
            .collect();
        found.join(", ")
    }

    pub fn print(&self) {
        println!("replies, number: how often");
        for message in HANDLED {
            let row: Vec<String> = [0, 1, 3, 4, 5, 6, 7, 9, 10, 12, 13, 15, 16, 18, 19, 22, 23, 25, 26]
                .iter()
                .map(|n| (n, self.get(&format!("reply {message:03x} {n}"))))
                .filter(|(_, count)| *count > 0)
                .map(|(n, count)| format!("{n}: {count}"))
                .collect();
            println!("  {message:03x}  {}", row.join("  "));
        }
        println!("  unknown  1: {}", self.get("reply unknown 1"));
        for (title, start) in [
            ("MTIO, op number", "mtio op "),
            ("tape open with", "tape open with "),
            ("changer", "changer "),
            ("data and mover", "pair "),
            ("to tape", "to tape "),
            ("from tape", "from tape "),
            ("method's end", "method's end "),
            ("made", "made "),
            ("lost", "lost "),
            ("by TCP", "by TCP, "),
            ("lists of addresses, message kind: number", "list "),
            ("address types, message: number", "address "),
            ("environment, message case: number", "environment "),
            ("store of another length", "store of "),
            ("logins, case: number", "login "),
            ("auth attributes, type and case: number", "attributes "),
            ("listings", "listing "),
            ("rmt, command number: reply", "rmt "),
            ("request", "request "),
            ("open", "open "),
            ("notices, number reason", "notice "),
            ("1002 by line of docs/RELATION.md", "1002 "),
            ("closed and", "closed and "),
            ("at the limits", "edge "),
            ("record size 0 handed in, reply", "size 0: reply "),
        ] {
            println!("{title}: {}", self.with(start));
        }
        println!(
            "wraps: counter {}, moved {}, processed {}",
            self.get("counter wraps"),
            self.get("moved wraps"),
            self.get("processed wraps")
        );
    }
}
