//! Every request and every move on every kind of session: what the rules look at is crossed, so that each two refusals
//! that can both apply do, and each rule of a move meets each other. The sessions are handed in; those that break the
//! relation are tried too.

use crate::accounts::{self, Entry, digest};
use crate::changers;
use crate::commands::{Command, NAMES, WRONG_NUMBERS};
use crate::convert::session;
use crate::images;
use crate::lists;
use crate::logins::{by_md5, by_text};
use crate::model::State;
use crate::model::accounts::{Challenge, MD5, TEXT};
use crate::model::requests::{Auth, HANDLED, Request, address_list, decode};
use crate::model::rmt;
use crate::script::Step;
use crate::stores;
use proved::{Session, Slots};
use wire::{Header, quads, text, words};

/// A data end or a mover: its state and its address type.
type End = (u32, u32);

/// The ends that are not joined to each other: IDLE, LISTEN and HALTED, and by TCP those that are joined.
const DATA_APART: [End; 7] = [(0, 0), (2, 0), (3, 0), (1, 1), (2, 1), (3, 1), (4, 1)];
const MOVER_APART: [End; 7] = [(0, 0), (1, 0), (4, 0), (1, 1), (2, 1), (3, 1), (4, 1)];

/// The pairs that keep the ends joined or apart.
fn pairs() -> Vec<(End, End)> {
    let apart = DATA_APART.into_iter().flat_map(|d| MOVER_APART.map(|m| (d, m)));
    let joined = [4, 1].into_iter().flat_map(|d| [2, 3].map(|m| ((d, 0), (m, 0))));
    apart.chain(joined).collect()
}

fn is_local((data, mover): (End, End)) -> bool {
    (data.1, mover.1) == (0, 0)
}

const SIZE: u32 = 4;

const ROOM: usize = 36_864;

fn request(message: u32, body: &[u8]) -> Step {
    lent(message, body, true, vec![])
}

/// The challenge that every session has been given, and the one that every call is lent.
const NEWEST: Challenge = [0x4e; 64];
const LENT: Challenge = [0x1e; 64];

fn lent(message: u32, body: &[u8], made: bool, list: Vec<u8>) -> Step {
    let input = Header { sequence: 77, time: 5, message, ..Header::default() }.record(body);
    Step::Request { time: 9, room: ROOM, challenge: LENT, made, list, input }
}

/// Made and lost, of each end.
fn events() -> Vec<Step> {
    let of = |mover| [Step::Made { time: 8, room: ROOM, mover }, Step::Lost { time: 8, room: ROOM, mover }];
    [of(false), of(true)].concat()
}

/// Bodies for a message: accepted ones, each way to be wrong, two ways at once, and one that does not decode.
fn bodies(message: u32) -> Vec<Vec<u8>> {
    let mut all: Vec<Vec<u8>> = match message {
        0x900 => vec![words(&[4]), words(&[5])],
        0x901 => vec![
            by_text(b"id", b"words"),
            by_text(b"id", b"five5"),
            words(&[TEXT]),
            by_md5(b"id", &digest(b"words", &NEWEST, true)),
            by_md5(b"id", &digest(b"five5", &NEWEST, true)),
            by_md5(b"id", &digest(b"five5", &LENT, true)),
            words(&[3]),
        ],
        0x103 => [1, 2, 0, 3].map(|kind| words(&[kind])).to_vec(),
        0x200 => vec![text(b"changer0"), text(b"tape0")],
        0x206 => {
            let cdb = |cdb: &[u8], data_in| [words(&[0, 0, data_in]), text(cdb), text(b"")].concat();
            vec![
                cdb(&[], 18),
                cdb(&[0; 6], 18),
                cdb(&[3, 0, 0, 0, 18, 0], 18),
                cdb(&[3, 0, 0, 0, 9, 0], 18),
                cdb(&[3, 0, 0, 0, 18, 0], 7),
                cdb(&[3, 0, 0, 0], 18),
                cdb(&[0x12; 16], 0),
                cdb(&[0; 17], 18),
                cdb(&changers::moving(0, 1, 16), 18),
                cdb(&changers::moving(0, 17, 16), 18),
                cdb(&changers::moving(0, 17, 1), 18),
                cdb(&changers::moving(0, 17, 1)[..11], 18),
                cdb(&changers::status(0, 0, 10, 100), 500),
                cdb(&changers::status(0, 0, 10, 500)[..11], 500),
            ]
        }
        0x300 => {
            let names: [&[u8]; 2] = [b"tape0", b"changer0"];
            names.iter().flat_map(|name| [0, 1, 2].map(|mode| [text(name), words(&[mode])].concat())).collect()
        }
        0x303 => (0..8).flat_map(|op| [0, 1, 3, u32::MAX].map(|count| words(&[op, count]))).collect(),
        0x304 => [0, 4, 32_769].map(|n| text(vec![0x5a; n])).to_vec(),
        0x305 => [0, 3, 4, 32_769].map(|n| words(&[n])).to_vec(),
        0x401 | 0x402 => ["dump", "tar"].map(|method| start(message, method, &stores::listed(&vec![]))).to_vec(),
        0x409 | 0x40a => addresses(message),
        0xa01 | 0xa09 => [0, 1, 2]
            .into_iter()
            .flat_map(|mode| addresses(message).into_iter().map(move |a| [words(&[mode]), a].concat()))
            .collect(),
        0xa05 => {
            let all = u64::MAX;
            [(0, 4), (8, 8), (16, 4), (0, 0), (2, 4), (4, 2), (all - 3, 4), (8, all), (2, all), (all - 3, all)]
                .map(|(a, b)| quads(&[a, b]))
                .to_vec()
        }
        0xa06 => [(0, 4), (9, 1), (0, 0), (u64::MAX, 1)].map(|(a, b)| quads(&[a, b])).to_vec(),
        0xa08 => [0, 4, 32_768, 32_769].map(|n| words(&[n])).to_vec(),
        _ => vec![vec![]],
    };
    let mut bad = all[0].clone();
    bad.push(0);
    all.push(bad);
    all
}

/// The address of a listen or a connect: LOCAL, TCP, and another type, with a rest or a list that decodes or does not.
fn addresses(message: u32) -> Vec<Vec<u8>> {
    let mut all = vec![words(&[0]), words(&[1]), words(&[1, 0]), words(&[2, 5])];
    if matches!(message, 0x40a | 0xa09) {
        let right = words(&[1, 1, 0x0a00_0001, 10_000, 0]);
        all.extend([[&right[..], &[0]].concat(), right]);
    }
    all
}

/// The requests with a message's bodies. By TCP a listen is lent a list too, and a connect is lent that it failed.
fn requests(message: u32) -> Vec<Step> {
    let mut all = vec![];
    for body in bodies(message) {
        all.push(request(message, &body));
        let place = if message < 0xa00 { 0 } else { 4 };
        let by_tcp = wire::word_at(&body, place) == Some(1);
        match message {
            0x409 | 0xa01 if by_tcp => all.push(lent(message, &body, false, words(&[1, 7, 7, 0]))),
            0x409 | 0xa01 | 0x40a | 0xa09 => all.push(lent(message, &body, false, vec![])),
            _ => {}
        }
    }
    all
}

/// 02 No. 14: lists of every kind, lent to each listen and in each connect. The model must decode those that decode, and
/// no other.
fn lists() -> Vec<Step> {
    let mut all = vec![];
    for (name, list, decodes) in lists::kinds() {
        assert_eq!(address_list(&list).is_some(), decodes, "{name}");
        for (message, front) in [(0x409, &[1][..]), (0xa01, &[0, 1]), (0xa01, &[1, 1])] {
            all.push(lent(message, &words(front), false, list.clone()));
        }
        for (message, front) in [(0x40a, &[1][..]), (0xa09, &[0, 1]), (0xa09, &[1, 1])] {
            let body = [words(front), list.clone()].concat();
            assert_eq!(decode(message, &body).is_some(), decodes, "{name}");
            all.extend([false, true].map(|made| lent(message, &body, made, vec![])));
        }
    }
    // A byte less or more does not decode.
    for (length, change) in lists::LENGTHS.into_iter().flat_map(|n| [-1, 0, 1].map(|change| (n, change))) {
        let mut list = lists::of_length(length);
        list.resize(length.wrapping_add_signed(change), 0);
        assert_eq!(address_list(&list).is_some(), change == 0);
        all.push(lent(0x409, &words(&[1]), false, list.clone()));
        all.push(lent(0xa01, &words(&[0, 1]), false, list));
    }
    all
}

/// A field of a body: words as they are, or a text.
enum Field {
    Words(&'static [u32]),
    Text,
}

/// The messages with texts: their fields, with an environment of one pair and a list of one name.
const TEXTS: [(u32, &[Field]); 9] = {
    use Field::{Text, Words};
    [
        (0x901, &[Words(&[2]), Text, Words(&[1, 2, 3, 4])]),
        (0x200, &[Text]),
        (0x206, &[Words(&[0, 0, 18]), Text, Text]),
        (0x300, &[Text, Words(&[1])]),
        (0x304, &[Text]),
        (0x401, &[Text, Words(&[1]), Text, Text]),
        (0x402, &[Words(&[1]), Text, Text, Words(&[1]), Text, Text, Text, Text, Words(&[0, 1, 0, 2]), Text]),
        (0x40a, &[Words(&[1, 2, 9, 9, 1]), Text, Text, Words(&[8, 8, 1]), Text, Text]),
        (0xa09, &[Words(&[0, 1, 2, 9, 9, 1]), Text, Text, Words(&[8, 8, 1]), Text, Text]),
    ]
};

/// 02 No. 6: each text of each message, at each length modulo four, with its fill zero and with each byte of it set. The model must take the
/// first and no other.
fn fills() -> Vec<Step> {
    let mut all = vec![];
    for (message, fields) in TEXTS {
        let texts = fields.iter().filter(|f| matches!(f, Field::Text)).count();
        for (chosen, n) in (0..texts).flat_map(|i| (1..=4).map(move |n| (i, n))) {
            let (mut body, mut fill, mut seen) = (vec![], 0..0, 0);
            for field in fields {
                match field {
                    Field::Words(given) => body.extend(words(given)),
                    Field::Text => {
                        let n = if seen == chosen { n } else { 5 };
                        body.extend(text(vec![0x61; n]));
                        if seen == chosen {
                            fill = body.len() - (4 - n % 4) % 4..body.len();
                        }
                        seen += 1;
                    }
                }
            }
            assert!(decode(message, &body).is_some(), "{message:x} with zero fill");
            all.push(request(message, &body));
            for i in fill {
                let mut bad = body.clone();
                bad[i] = 1;
                assert!(decode(message, &bad).is_none(), "{message:x} with byte {i} of its fill set");
                all.push(request(message, &bad));
            }
        }
    }
    all
}

/// Record, mark, record, a record of another length; room for one entry more.
fn images() -> [Vec<u8>; 3] {
    let mut sound = words(&[1, 5, 4, 11, 4, 0, 0, 4, 4, 4, 3, 8, 9, 9]);
    sound.resize(sound.len() + 20, 0x33);
    let mut unsound = sound.clone();
    unsound[3] = 2;
    let mut full = words(&[1, 2, 2, 8, 4, 0, 4, 4]);
    full.extend(b"eightbyt");
    [sound, unsound, full]
}

/// A cartridge in the drive and two in slots.
const SLOTS: Slots = [7, 0, 3, 0, 0, 0, 0, 0, u32::MAX];

fn rest(authorized: bool) -> Session {
    let mut s = State::at_rest(SLOTS);
    s.authorized = authorized;
    (s.challenged, s.challenge) = (true, NEWEST);
    s.number = 2;
    session(&s)
}

/// Sizes and windows: none, a size only, windows that start at 0 and later, and two with no end, one of them two records
/// before 2^64.
const WINDOWS: [(u32, u64, u64); 6] =
    [(0, 0, 0), (SIZE, 0, 0), (SIZE, 0, 8), (SIZE, 8, 8), (SIZE, 8, u64::MAX), (SIZE, u64::MAX - 7, u64::MAX)];

fn with_window(s: &mut Session, (size, offset, length): (u32, u64, u64)) {
    (s.mover.size, s.mover.offset, s.mover.length) = (size, offset, length);
    if s.mover.state >= 2 {
        s.mover.moved = if length == 0 { 8 } else { offset };
    }
}

fn with_ends(s: &mut Session, (data, mover): (End, End)) {
    (s.source.state, s.source.address) = data;
    (s.mover.state, s.mover.address) = mover;
}

/// What makes a call of a step, on an image and a session. False ends it all.
type Each<'a> = &'a mut dyn FnMut(&[u8], &Session, &Step) -> bool;

/// What a call is lent beside the step.
pub struct Lent<'a> {
    pub image: &'a [u8],
    pub store: &'a [u8],
    pub accounts: &'a [u8],
}

/// The same, on all that is lent.
type EachOf<'a> = &'a mut dyn FnMut(&Lent, &Session, &Step) -> bool;

/// Hands each script's steps over until it answers false: an image, a store, accounts and a session, then calls that are
/// each made on them.
pub fn all(each: EachOf) -> bool {
    let images = images();
    let store = stores::of(&stores::of_kind("2 to 63 pairs"));
    let accounts = accounts::of(&accounts::both());
    let plain: Each =
        &mut |image, session, step| each(&Lent { image, store: &store, accounts: &accounts }, session, step);
    devices(plain, &images)
        && opens(plain, &images)
        && changers(plain, &images)
        && loads(plain, &images)
        && ferries(plain, &images)
        && spellings(plain, &images)
        && requests_by_pair(plain, &images)
        && types(plain, &images)
        && moves_by_pair(plain, &images)
        && environments(each, &images)
        && logins(each, &store, &images)
        && listings(each, &store, &images)
}

/// A start's body, its environment as it is given; a recover's with no names.
fn start(message: u32, method: &str, environment: &[u8]) -> Vec<u8> {
    match message {
        0x401 => [text(method), environment.to_vec()].concat(),
        _ => [environment.to_vec(), words(&[0]), text(method)].concat(),
    }
}

/// 02 No. 3: the requests that look at the store or leave it, and starts with environments of every kind.
fn environment_steps() -> Vec<Step> {
    let mut all: Vec<Step> = [0x404, 0x407].into_iter().flat_map(requests).collect();
    all.extend([0x400, 0x403, 0x108, 0x501].map(|message| request(message, &[])));
    for message in [0x401, 0x402] {
        for (name, _) in stores::SENT {
            let mut list = stores::listed(&stores::of_kind(name));
            if name == "a count of all ones" {
                list = words(&[u32::MAX]);
            }
            all.extend(["dump", "tar"].map(|method| request(message, &start(message, method, &list))));
        }
        let left_over = [start(message, "dump", &stores::listed(&stores::of_kind("1 pair"))), vec![0]].concat();
        all.push(request(message, &left_over));
    }
    let mut short = request(0x404, &[]);
    short.set_room(ROOM - 1);
    all.push(short);
    // No request, and badly framed.
    let reply = Header { sequence: 77, kind: 1, message: 0x404, ..Header::default() }.record(&[]);
    for input in [reply, vec![]] {
        all.push(Step::Request { time: 9, room: ROOM, challenge: LENT, made: true, list: vec![], input });
    }
    all.extend(events());
    // No store is lent with it.
    all.push(command(Command::read(4).bytes()));
    all
}

/// 02 No. 3: each of these on stores of every kind and of other lengths, with the data end in each state and type, closed
/// and breaking the relation.
fn environments(each: EachOf, [sound, ..]: &[Vec<u8>; 3]) -> bool {
    let mut lent: Vec<Vec<u8>> = stores::kinds().into_iter().map(|(_, store, _)| store).collect();
    lent.extend(stores::OTHERS.map(|n| vec![0; n]));
    lent.extend(stores::named_kinds().into_iter().map(|(_, store)| store));
    let (steps, accounts) = (environment_steps(), accounts::of(&accounts::both()));
    let joined = [4, 1].map(|state| ((state, 0), (2, 0)));
    let apart = DATA_APART.into_iter().chain([(9, 0)]).map(|data| (data, (0, 0)));
    for (pair, (authorized, closed)) in
        joined.into_iter().chain(apart).flat_map(|p| [(true, false), (false, false), (true, true)].map(|a| (p, a)))
    {
        let mut s = rest(authorized);
        (s.closed, s.tape.opened, s.tape.writable) = (closed, true, true);
        with_ends(&mut s, pair);
        (s.mover.mode, s.source.operation) = (0, 1);
        with_window(&mut s, WINDOWS[2]);
        for store in &lent {
            if !steps.iter().all(|step| each(&Lent { image: sound, store, accounts: &accounts }, &s, step)) {
                return false;
            }
        }
    }
    true
}

/// Accounts that are laid out right, beside those of `accounts::kinds`: an id twice by one kind and by both, each kind with
/// the other's password, passwords at their limits, nothing at all.
fn more_accounts() -> Vec<Vec<Entry>> {
    let md5 = |password: &[u8]| Entry::of(MD5, b"id", password);
    let text = |password: &[u8]| Entry::of(TEXT, b"id", password);
    let long = [0x70; 65];
    vec![
        vec![md5(b"one"), md5(b"two"), text(b"one"), text(b"three"), md5(b"one")],
        vec![text(b"two"), md5(b"two")],
        [1, 31, 32, 33, 34, 64, 65].map(|n| md5(&long[..n])).to_vec(),
        [1, 31, 32, 33, 34, 64, 65].map(|n| text(&long[..n])).to_vec(),
        vec![md5(b""), md5(&[0]), md5(&[0, 0])],
        vec![Entry::of(MD5, b"", b""), Entry::of(MD5, b"", b"x")],
        vec![Entry::of(TEXT, b"", b"")],
        vec![Entry::of(TEXT, &[0x69; 300], &[0x77; 300]), Entry::of(MD5, &[0x69; 300], b"w")],
        // A password that no record has room for; what stands behind it counts.
        vec![Entry::of(TEXT, &[0x69; 33_000], &[0x77; 70_000]), text(b"one"), md5(b"one")],
    ]
}

/// 02 No. 2 and No. 10: every way to log in by an entry, and the ways that go wrong. By text that is all of them, and the model
/// must read none.
fn login_bodies(Entry { id, password, .. }: &Entry) -> Vec<Vec<u8>> {
    let texts = by_text(id, password);
    let mut all = vec![by_text(&[id, &[0][..]].concat(), password), [&texts[..], &[0]].concat()];
    for i in (0..texts.len()).filter(|i| *i < 12 || *i > texts.len() - 5) {
        let mut other = texts.clone();
        other[i] ^= 1;
        all.extend([texts[..i].to_vec(), other]);
    }
    all.push(texts);
    for body in all.iter().filter(|b| wire::word_at(b, 0) == Some(TEXT)) {
        assert!(matches!(decode(0x901, body), Some(Request::ClientAuth { auth: Auth::Other })), "{body:x?}");
    }
    for (challenge, cut) in [NEWEST, LENT, OLDER, [0; 64]].into_iter().flat_map(|c| [(c, true), (c, false)]) {
        all.push(by_md5(id, &digest(password, &challenge, cut)));
    }
    let right = digest(password, &NEWEST, true);
    all.push(by_md5(&[id, &[0][..]].concat(), &right));
    all.extend((0..16).map(|i| {
        let mut wrong = right;
        wrong[i] ^= 0x80;
        by_md5(id, &wrong)
    }));
    all.push(by_md5(id, &[&words(&[16])[..], &right].concat()));
    all.extend([0, 4, 15].map(|n| by_md5(id, &right[..n])));
    all.extend([1, 4].map(|n| by_md5(id, &[&right[..], &vec![0; n]].concat())));
    all
}

/// A challenge that nobody was given.
const OLDER: Challenge = [0x0d; 64];

/// 02 No. 2: logins by every entry of accounts of every kind, and the requests for a challenge, on sessions before and
/// after a login, with a challenge and without.
fn logins(each: EachOf, store: &[u8], [sound, ..]: &[Vec<u8>; 3]) -> bool {
    let mut all: Vec<Vec<u8>> = accounts::kinds().into_iter().map(|(_, accounts, _)| accounts).collect();
    all.extend(more_accounts().iter().map(|entries| accounts::of(entries)));
    let mut others: Vec<(u32, Vec<u8>)> =
        vec![(0x901, vec![]), (0x901, words(&[2])), (0x108, vec![]), (0x900, words(&[4]))];
    for kind in [0, 1, 2, 3, 0x0200_0000, u32::MAX] {
        let with = |n: usize| [words(&[kind]), vec![0; n]].concat();
        others.extend([0, 1, 4, 64].map(|n| (0x103, with(n))));
        others.extend([0, 1, 4].map(|n| (0x901, with(n))));
    }
    others.extend([0, 1, 3].map(|n| (0x103, vec![0; n])));
    for accounts in &all {
        let by_entry = accounts::meant(accounts).into_iter().chain(accounts::both());
        let bodies = by_entry.flat_map(|e| login_bodies(&e)).map(|body| (0x901, body));
        let steps: Vec<Step> = bodies.chain(others.clone()).map(|(message, body)| request(message, &body)).collect();
        for (authorized, first, closed) in
            [(false, true, false), (false, false, false), (true, false, false), (false, true, true)]
        {
            for (challenged, challenge) in [(true, NEWEST), (false, NEWEST), (false, [0; 64]), (true, [0; 64])] {
                let mut s = rest(authorized);
                (s.first, s.closed) = (first, closed);
                (s.login.challenged, s.login.challenge) = (challenged, challenge);
                if !steps.iter().all(|step| each(&Lent { image: sound, store, accounts }, &s, step)) {
                    return false;
                }
            }
        }
    }
    true
}

/// Every mix of the kinds, of so many entries. Ids and passwords are such as would shift a reader who takes them for kinds; some
/// MD5 passwords never match.
fn mixes(n: u32) -> Vec<Vec<u8>> {
    let passwords: [&[u8]; 4] = [b"", &[0, 0, 0, 2], b"one", &[0x70; 33]];
    let entry = |mix: u32, i: u32| {
        let kind = if mix >> i & 1 == 0 { TEXT } else { MD5 };
        Entry::of(kind, &vec![1; i as usize], passwords[(mix + i) as usize % 4])
    };
    (0..1 << n).map(|mix| accounts::of(&(0..n).map(|i| entry(mix, i)).collect::<Vec<_>>())).collect()
}

/// Buffers of eight entries, and of one of each kind, that are cut at each byte, or of which one byte is another.
fn broken() -> Vec<Vec<u8>> {
    let mut all = vec![];
    for whole in [mixes(8).swap_remove(0x96), accounts::of(&accounts::both())] {
        all.push([&whole[..], &[0]].concat());
        for i in 0..whole.len() {
            all.push(whole[..i].to_vec());
            for x in [0, 1, 2, 3, 9, 0x80, 0xff] {
                let mut other = whole.clone();
                other[i] = x;
                all.push(other);
            }
        }
    }
    all
}

/// 02 No. 10: the listing of every mix of the kinds, of 0 to 9 entries, of buffers of every kind and of broken ones, into outputs
/// at their limits.
fn listings(each: EachOf, store: &[u8], [sound, ..]: &[Vec<u8>; 3]) -> bool {
    let mut all: Vec<Vec<u8>> = (0..=9).flat_map(mixes).collect();
    all.extend(accounts::kinds().into_iter().map(|(_, accounts, _)| accounts));
    all.extend(more_accounts().iter().map(|entries| accounts::of(entries)));
    all.extend(broken());
    let s = rest(false);
    all.iter().all(|accounts| {
        let lent = Lent { image: sound, store, accounts };
        [0, 95, 96, 97, 200].into_iter().all(|room| each(&lent, &s, &Step::Listing { room }))
    })
}

/// SCSI and CONNECT look at few things.
fn devices(each: Each, [sound, ..]: &[Vec<u8>; 3]) -> bool {
    for authorized in [false, true] {
        for (opened, [key, code, qualifier], first, closed) in [
            (false, [0; 3], true, false),
            (true, [0; 3], false, false),
            (true, [5, 0x20, 0], true, false),
            (true, [1, 2, 3], true, false),
            (true, [5, 0x20, 0], true, true),
            (false, [0x0f, 0xff, 0xff], false, false),
        ] {
            let mut s = rest(authorized);
            (s.changer.opened, s.first, s.closed) = (opened, first, closed);
            (s.changer.key, s.changer.code, s.changer.qualifier) = (key, code, qualifier);
            if !HANDLED.iter().flat_map(|m| requests(*m)).chain(events()).all(|step| each(sound, &s, &step)) {
                return false;
            }
        }
        let mut s = rest(authorized);
        (s.tape.opened, s.tape.writable) = (true, true);
        with_window(&mut s, WINDOWS[2]);
        if !fills().iter().chain(&lists()).all(|step| each(sound, &s, step)) {
            return false;
        }
    }
    true
}

/// Slot lists: none, one place full, all but one, all; numbers at their limits.
fn slot_lists() -> Vec<Slots> {
    let all = [5, 1, 2, 3, 4, 6, u32::MAX, 0x100, 0x1_0000];
    let one = (0..9).map(|i| std::array::from_fn(|j| if i == j { all[i] } else { 0 }));
    let but_one = (0..9).map(|i| std::array::from_fn(|j| if i == j { 0 } else { all[j] }));
    [[0; 9], all, SLOTS, [0, 0, 3, 0, 0, 0, 0, 0, 7]].into_iter().chain(one).chain(but_one).collect()
}

/// Lists that name one twice: every two places, with nothing in the others, or something.
fn twice() -> Vec<Slots> {
    let pairs = || (0..9).flat_map(|i| (0..i).map(move |j| (i, j)));
    let alone = pairs().map(|(i, j)| std::array::from_fn(|k| if k == i || k == j { 0x100 } else { 0 }));
    let among = pairs().map(|(i, j)| std::array::from_fn(|k| if k == i { j } else { k } as u32 + 1));
    // No two are the same, though bytes of them are.
    let near = [[1, 0x101, 0x1_0001, 0x100_0001, 0, 0, 0, 0, 0], [0, 0x100, 0, 0, 0x1_0000, 0, 0, 0, 0x100_0000]];
    alone.chain(among).chain(near).collect()
}

/// 02 No. 7: sessions opened with every kind of list, into outputs at their limits.
fn opens(each: Each, [sound, ..]: &[Vec<u8>; 3]) -> bool {
    slot_lists().into_iter().chain(twice()).all(|slots| {
        [0, 40, ROOM - 1, ROOM, ROOM + 1]
            .into_iter()
            .all(|room| each(sound, &rest(true), &Step::Open { time: 3, room, slots }))
    })
}

/// 02 No. 7: MOVE MEDIUM from everywhere to everywhere, and READ ELEMENT STATUS of every type from every start, so
/// many, and cut at every byte; with flags and reserved bits, and of other lengths.
fn changer_steps() -> Vec<Step> {
    let mut all: Vec<(Vec<u8>, u32)> = vec![];
    let addresses = changers::ADDRESSES;
    for (transport, from, to) in
        [0, 1, 256, 65_535].into_iter().flat_map(|t| addresses.map(|from| addresses.map(|to| (t, from, to)))).flatten()
    {
        all.push((changers::moving(transport, from, to).to_vec(), 18));
    }
    for (kind, start) in (0..16).flat_map(|kind| changers::STARTS.map(|start| (kind, start))) {
        all.extend(changers::NUMBERS.map(|number| (changers::status(kind, start, number, 500).to_vec(), 500)));
    }
    for n in 0..=160 {
        all.push((changers::status(0, 0, 10, n).to_vec(), 500));
        all.push((changers::status(0, 0, 10, 500).to_vec(), n));
        all.push((changers::status(2, 20, 3, n).to_vec(), 160 - n));
    }
    for (allocation, data_in) in [(0x100, 99), (0x1_0000, 99), (0xff_ffff, u32::MAX), (99, 0x100), (99, 0x1_0000)] {
        all.push((changers::status(0, 0, 10, allocation).to_vec(), data_in));
    }
    for whole in [changers::moving(0, 17, 16), changers::moving(0, 1, 18), changers::status(0, 0, 10, 500)] {
        for i in 1..12 {
            all.extend([0x01, 0x0f, 0x10, 0x80, 0xff].map(|bits| {
                let mut other = whole;
                other[i] |= bits;
                (other.to_vec(), 500)
            }));
        }
        for n in 1..18 {
            let mut other = whole.to_vec();
            other.resize(n, 0xff);
            all.push((other, 500));
        }
    }
    all.into_iter().map(|(cdb, data_in)| request(0x206, &changers::execute(&cdb, data_in))).collect()
}

fn changers(each: Each, [sound, ..]: &[Vec<u8>; 3]) -> bool {
    let steps = changer_steps();
    for (slots, opened) in slot_lists().into_iter().flat_map(|slots| [false, true].map(|opened| (slots, opened))) {
        let mut s = rest(true);
        (s.changer.opened, s.changer.slots) = (true, slots);
        (s.tape.opened, s.tape.writable) = (opened, opened);
        (s.changer.key, s.changer.code, s.changer.qualifier) = if opened { (0, 0, 0) } else { (1, 2, 3) };
        if !steps.iter().all(|step| each(sound, &s, step)) {
            return false;
        }
    }
    true
}

/// 02 No. 7: every request, move and event beside a drive that is loaded or empty, and lists that name one twice,
/// with the tape closed and open, sound and not, and the mover in each state.
fn loads(each: Each, [sound, unsound, _]: &[Vec<u8>; 3]) -> bool {
    let requests = HANDLED.iter().flat_map(|m| requests(*m));
    let steps: Vec<Step> = requests.chain(events()).chain(streams()).chain(destinations()).collect();
    let lists = [SLOTS, [0; 9], [0, 0, 3, 0, 0, 0, 0, 0, 7], [7, 7, 0, 0, 0, 0, 0, 0, 0], [1, 0, 9, 0, 0, 0, 0, 0, 9]];
    for (slots, (image, mover)) in
        lists.into_iter().flat_map(|l| [sound, unsound].into_iter().flat_map(move |i| (0..5).map(move |m| (l, (i, m)))))
    {
        for (opened, writable, closed) in
            [(false, false, false), (true, false, false), (true, true, false), (true, true, true)]
        {
            let mut s = rest(true);
            (s.changer.opened, s.changer.slots, s.closed) = (true, slots, closed);
            (s.tape.opened, s.tape.writable, s.tape.position) = (opened, writable, 2);
            with_ends(&mut s, ((0, 0), (mover, (mover != 0) as u32)));
            (s.mover.mode, s.mover.left) = (0, 4);
            with_window(&mut s, WINDOWS[2]);
            if !steps.iter().all(|step| each(image, &s, step)) {
                return false;
            }
        }
    }
    // Each two places, at each call that has a session.
    let few = [
        request(0x400, &[]),
        request(0x206, &changers::execute(&changers::moving(0, 1, 16), 0)),
        command(Command::read(4).bytes()),
    ];
    let calls: Vec<Step> = few.into_iter().chain(events()).chain(streams()).chain(destinations()).collect();
    twice().into_iter().flat_map(|slots| [false, true].map(|opened| (slots, opened))).all(|(slots, opened)| {
        let mut s = rest(true);
        (s.changer.opened, s.changer.slots, s.tape.opened) = (true, slots, opened);
        calls.iter().all(|step| each(sound, &s, step))
    })
}

fn command(command: Vec<u8>) -> Step {
    Step::Rmt { room: ROOM, command }
}

/// 02 No. 5: commands of every kind: those that are accepted, each way to be refused, two ways at once, and some that do
/// not read.
fn commands() -> Vec<Step> {
    let mut all = vec![];
    for name in NAMES {
        let modes: &[u32] = if name == b"tape0" { &[0, 1, 2, 3, 4, u32::MAX] } else { &[0, 3] };
        all.extend(modes.iter().map(|mode| Command::open(name, *mode)));
    }
    all.extend([&b"tape0"[..], b"", b"tape1", &[b't'; 40_000]].map(Command::close));
    all.extend([0, 1, 3, 4, 5, 32_768, 32_769, u32::MAX].map(Command::read));
    all.extend([0, 1, 4, 5, 9, 10, 32_769].map(|n| Command::write(vec![0x5a; n])));
    all.extend((0..7).flat_map(|op| [0, 1, 2, 3, u32::MAX].map(|count| Command::operate(op, count))));
    let wrong: [&[u8]; 8] = [b"", b"L0\n0\n", b"S\n", b"R\n", b"W2\nx", b"Otape0\n\n", b"I3\n", b"C"];
    all.iter().map(Command::bytes).chain(wrong.map(<[u8]>::to_vec)).map(command).collect()
}

/// 02 No. 5: each of them before and after auth, with the tape closed and open, the ends in each state, images of each
/// kind and every position; beside an empty drive, closed, breaking the relation, and into outputs at their limits.
fn ferries(each: Each, [sound, unsound, full]: &[Vec<u8>; 3]) -> bool {
    let steps = commands();
    let places: Vec<(&[u8], usize)> = [(&unsound[..], 0), (&unsound[..], 5), (&[][..], 0)]
        .into_iter()
        .chain((0..6).map(|p| (&sound[..], p)))
        .chain((0..4).map(|p| (&full[..], p)))
        .chain([(&sound[..], usize::MAX)])
        .collect();
    for (pair, mode) in pairs().into_iter().flat_map(|p| [0, 1].map(|mode| (p, mode))) {
        // The data end is not looked at: beside most, a few are enough.
        let places = if matches!(pair.0, (0, 0) | (1, 0)) { &places[..] } else { &places[1..5] };
        for (opened, writable) in [(false, false), (true, false), (true, true)] {
            for (authorized, first) in [(true, false), (false, true), (true, true)] {
                for &(image, position) in places {
                    let mut s = rest(authorized);
                    (s.first, s.sequence) = (first, if first { u32::MAX } else { 2 });
                    (s.tape.opened, s.tape.writable, s.tape.position) = (opened, writable, position);
                    with_ends(&mut s, pair);
                    (s.mover.mode, s.mover.left, s.source.operation) = (mode, 5, 1 + mode);
                    with_window(&mut s, WINDOWS[2]);
                    if !steps.iter().all(|step| each(image, &s, step)) {
                        return false;
                    }
                }
            }
        }
    }
    // Marks to the end of the largest table, and past it.
    let largest = images::largest(1);
    for (position, count) in [0, 1].into_iter().flat_map(|p| [4095, 4096, 4097, u32::MAX].map(|count| (p, count))) {
        let mut s = rest(true);
        (s.tape.opened, s.tape.writable, s.tape.position) = (true, true, position);
        if !each(&largest, &s, &command(Command::operate(0, count).bytes())) {
            return false;
        }
    }
    let lists = [SLOTS, [0; 9], [0, 0, 3, 0, 0, 0, 0, 0, 7], [7, 7, 0, 0, 0, 0, 0, 0, 0]];
    for (slots, state) in lists.into_iter().flat_map(|l| [0, 9].map(|state| (l, state))) {
        for (closed, image, opened) in
            (0..8).map(|i| (i & 1 == 1, if i & 2 == 0 { sound } else { unsound }, i & 4 == 4))
        {
            let mut s = rest(true);
            (s.closed, s.changer.slots, s.source.state) = (closed, slots, state);
            (s.tape.opened, s.tape.writable) = (opened, true);
            for (step, room) in steps.iter().flat_map(|step| [0, ROOM - 1, ROOM, ROOM + 1].map(|room| (step, room))) {
                let mut step = step.clone();
                step.set_room(room);
                if !each(image, &s, &step) {
                    return false;
                }
            }
        }
    }
    true
}

/// Numbers that read: of each length, with zeros in front, and those whose digits are near the greatest's.
fn right_numbers() -> Vec<Vec<u8>> {
    let mut all: Vec<Vec<u8>> =
        (1..=10).flat_map(|n| [vec![b'0'; n], [vec![b'0'; n - 1], vec![b'2']].concat()]).collect();
    all.extend((1..10).map(|n| vec![b'9'; n]));
    let greatest = b"4294967295";
    for i in 0..10 {
        let mut less = greatest.to_vec();
        less[i] -= 1;
        all.extend([greatest[..=i].to_vec(), less]);
    }
    all
}

/// Commands in which a byte is another, or missing, or one too many.
fn bent_commands() -> Vec<Vec<u8>> {
    let mut all = vec![vec![]];
    let ops = (0..6).map(|op| Command::operate(op, 1));
    let others =
        [Command::open(b"tape0", 1), Command::close(b"tape0"), Command::read(12), Command::write(b"ab\nd".to_vec())];
    for whole in ops.chain(others).map(|c| c.bytes()) {
        for i in 0..whole.len() {
            all.push(whole[..i].to_vec());
            all.push([&whole[..i], &whole[i + 1..]].concat());
            for x in 0..=255 {
                let mut other = whole.clone();
                other[i] = x;
                all.push(other);
            }
        }
        for (i, x) in (0..=whole.len()).flat_map(|i| b"\n\r 09+-/:\0\xff".map(|x| (i, x))) {
            all.push([&whole[..i], &[x], &whole[i..]].concat());
        }
    }
    all
}

/// 02 No. 5: every spelling of the numbers, counts and data of other lengths, every byte that is another, before auth, with
/// the tape closed and open.
fn spellings(each: Each, [sound, ..]: &[Vec<u8>; 3]) -> bool {
    let numbered = || {
        let ops = (0..7).map(|op| Command::operate(op, 1));
        ops.chain([Command::open(b"tape0", 1), Command::read(4), Command::write(vec![]), Command::write(vec![7; 2])])
    };
    let mut all = bent_commands();
    for (digits, right) in right_numbers()
        .into_iter()
        .map(|digits| (digits, true))
        .chain(WRONG_NUMBERS.iter().map(|(_, digits)| (digits.to_vec(), false)))
        .chain((11..14).flat_map(|n| [b'0', b'1', b'9'].map(|digit| (vec![digit; n], false))))
        .chain((0..10).filter_map(|i| more(i).map(|digits| (digits, false))))
    {
        let read = rmt::read(&Command::read(0).spelled(0, &digits).bytes()).is_some();
        assert_eq!(read, right, "{}", String::from_utf8_lossy(&digits));
        all.extend(numbered().flat_map(|c| [0, 1].map(|which| c.clone().spelled(which, &digits).bytes())));
    }
    for (count, length) in (0..14u32).flat_map(|count| (0..14).map(move |length| (count, length))) {
        let written = Command::write(vec![b'1'; length]).spelled(0, count.to_string().as_bytes()).bytes();
        assert_eq!(rmt::read(&written).is_some(), count as usize == length);
        all.push(written);
    }
    let steps: Vec<Step> = all.into_iter().map(command).collect();
    [(false, true, 1), (true, false, 0), (true, true, 2)].into_iter().all(|(authorized, opened, position)| {
        let mut s = rest(authorized);
        (s.tape.opened, s.tape.writable, s.tape.position) = (opened, opened, position);
        steps.iter().all(|step| each(sound, &s, step))
    })
}

/// The greatest number with a digit that is one more; a 9 has none.
fn more(i: usize) -> Option<Vec<u8>> {
    let mut digits = b"4294967295".to_vec();
    digits[i] += 1;
    (digits[i] <= b'9').then_some(digits)
}

fn requests_by_pair(each: Each, [sound, unsound, _]: &[Vec<u8>; 3]) -> bool {
    let steps: Vec<Step> = HANDLED.iter().filter(|m| !(0x200..0x300).contains(*m)).flat_map(|m| requests(*m)).collect();
    for (authorized, pair) in [false, true].into_iter().flat_map(|a| pairs().into_iter().map(move |p| (a, p))) {
        // By TCP windows and images are as by LOCAL, and before auth all is alike: some are enough.
        let (windows, places) = match (authorized, is_local(pair)) {
            (true, true) => (&WINDOWS[..], &[(sound, 0), (sound, 2), (sound, 5), (unsound, 0)][..]),
            (true, false) => (&WINDOWS[1..4], &[(sound, 2), (unsound, 0)][..]),
            (false, _) => (&WINDOWS[2..3], &[(sound, 2)][..]),
        };
        for (opened, writable) in [(false, false), (true, false), (true, true)] {
            for (window, mode) in windows.iter().flat_map(|w| [0, 1, 2].map(|m| (*w, m))) {
                for (left, (image, position)) in [0, 5].into_iter().flat_map(|l| places.iter().map(move |p| (l, *p))) {
                    let mut s = rest(authorized);
                    (s.tape.opened, s.tape.writable, s.tape.position) = (opened, writable, position);
                    with_ends(&mut s, pair);
                    (s.mover.mode, s.mover.left, s.source.operation) = (mode, left, 1 + mode);
                    (s.source.reason, s.mover.halt, s.mover.pause) = (3, 2, 1);
                    with_window(&mut s, window);
                    if !steps.iter().all(|step| each(image, &s, step)) {
                        return false;
                    }
                }
            }
        }
    }
    true
}

/// 02 No. 14: every two states with every two address types, and 2 with them, which is none.
fn types(each: Each, [sound, ..]: &[Vec<u8>; 3]) -> bool {
    let plain = [0x400, 0x403, 0x407, 0xa00, 0xa03, 0xa04, 0xa07].map(|m| request(m, &[]));
    let steps: Vec<Step> = plain.into_iter().chain(events()).chain(streams()).chain(destinations()).collect();
    let ends: Vec<End> = (0..5).flat_map(|state| (0..3).map(move |address| (state, address))).collect();
    for pair in ends.iter().flat_map(|d| ends.iter().map(|m| (*d, *m))) {
        for mode in [0, 1] {
            let mut s = rest(true);
            (s.tape.opened, s.tape.writable) = (true, true);
            with_ends(&mut s, pair);
            (s.mover.mode, s.source.operation, s.mover.left) = (mode, 1 + mode, 4);
            with_window(&mut s, WINDOWS[2]);
            if !steps.iter().all(|step| each(sound, &s, step)) {
                return false;
            }
        }
    }
    true
}

/// Moves to tape, and the method's end.
fn streams() -> Vec<Step> {
    let streams: [&[u8]; 4] = [b"", b"ab", b"abcd", b"abcdef"];
    streams
        .iter()
        .flat_map(|stream| [false, true].map(|last| Step::To { time: 8, room: ROOM, last, stream: stream.to_vec() }))
        .chain([false, true].map(|ok| Step::End { time: 8, room: ROOM, ok }))
        .collect()
}

fn destinations() -> Vec<Step> {
    [0, 1, 4, 9].map(|destination| Step::From { time: 8, room: ROOM, destination }).to_vec()
}

fn moves_by_pair(each: Each, [sound, unsound, full]: &[Vec<u8>; 3]) -> bool {
    let to: Vec<Step> = streams().into_iter().chain(events()).collect();
    let places: Vec<(&[u8], usize)> =
        (0..6).map(|p| (&sound[..], p)).chain([(&unsound[..], 0)]).chain((0..4).map(|p| (&full[..], p))).collect();
    for pair in pairs() {
        // Windows and tape are looked at by a move that runs, by LOCAL or by TCP.
        let (windows, places) = match is_local(pair) || pair.1 == (2, 1) {
            true => (&WINDOWS[..], &places[..]),
            false => (&WINDOWS[2..4], &places[5..8]),
        };
        for (window, mode, operation) in windows.iter().flat_map(|w| (0..9).map(move |i| (*w, i / 3, i % 3))) {
            for &(image, position) in places {
                let mut s = rest(true);
                (s.tape.opened, s.tape.writable, s.tape.position) = (true, true, position);
                with_ends(&mut s, pair);
                (s.source.operation, s.mover.mode) = (operation, mode);
                with_window(&mut s, window);
                for records in 0..3 {
                    let more = if records > 0 && s.mover.state >= 2 { SIZE as u64 } else { 0 };
                    s.mover.moved = s.mover.moved.wrapping_add(more);
                    if !to.iter().all(|step| each(image, &s, step)) {
                        return false;
                    }
                }
                with_window(&mut s, window);
                if !from_tape(each, image, s, pair) {
                    return false;
                }
            }
        }
    }
    true
}

/// Every place that a read may have come to, where the ends run; a few beside a data end that a mover by TCP does not
/// ask; else one.
fn from_tape(each: Each, image: &[u8], mut s: Session, pair: (End, End)) -> bool {
    let (lefts, seeks): (&[u64], &[u64]) = match pair {
        ((1, 0), (2, 0)) | ((0, 0), (2, 1)) => (&[0, 1, 3, 4, 50], &[0, 1, 3, 4, 7, 8, 9, 12, 15, 16]),
        (_, (2, 1)) => (&[3], &[1, 8]),
        _ => (&[4], &[0]),
    };
    let steps = destinations();
    for (left, seek) in lefts.iter().flat_map(|l| seeks.iter().map(move |k| (*l, *k))) {
        for origin in 0..=s.tape.position.min(3) {
            (s.mover.left, s.mover.seek, s.mover.origin) = (left, seek, origin);
            if !steps.iter().all(|step| each(image, &s, step)) {
                return false;
            }
        }
    }
    true
}
