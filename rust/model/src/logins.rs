//! Logins, and what they are to the accounts and to the challenge.

use crate::accounts::{self, Entry, digest};
use crate::model::accounts::{Challenge, MD5, TEXT};
use proved::Session;
use wire::{text, word, words};

/// The body of a login by text, which is withdrawn.
pub fn by_text(id: &[u8], password: &[u8]) -> Vec<u8> {
    [words(&[TEXT]), text(id), text(password)].concat()
}

/// The body of a login by MD5.
pub fn by_md5(id: &[u8], digest: &[u8]) -> Vec<u8> {
    [&words(&[MD5])[..], &text(id), digest].concat()
}

/// What a login meets.
pub struct Met<'a> {
    pub session: &'a Session,
    pub accounts: &'a [u8],
    /// The challenge that is lent with it, and one that was given before the newest.
    pub lent: &'a Challenge,
    pub older: Option<Challenge>,
}

/// Every case that has to be reached, with the number that answers it.
pub fn wanted() -> Vec<(String, u32)> {
    let mut all: Vec<(String, u32)> = RIGHT.iter().map(|case| (format!("md5, {case}"), 0)).collect();
    all.extend(WRONG.iter().map(|case| (format!("md5, {case}"), 4)));
    all.extend(WITHDRAWN.iter().map(|case| (format!("text, {case}"), 9)));
    for (kind, buffer, laid) in accounts::kinds() {
        if accounts::meant(&buffer).is_empty() {
            all.extend([("text", 9), ("md5", 4)].map(|(how, n)| (format!("{how}, accounts: {kind}"), n)));
            continue;
        }
        all.push((format!("text, right, {kind}"), 9));
        all.push(match laid {
            true => (format!("md5, right, {kind}"), 0),
            false => (format!("md5, right but for accounts: {kind}"), 4),
        });
    }
    for after in ["", ", no challenge given"] {
        all.extend(SHAPES.map(|case| (format!("md5{after}, {case}"), 18)));
    }
    for kind in ["0", "3", "all ones"] {
        all.extend(["", " and a rest"].map(|rest| (format!("type {kind}{rest}"), 9)));
    }
    all
}

/// By MD5.
const RIGHT: [&str; 9] = [
    "right",
    "right, id stands before it",
    "right, id withdrawn before it",
    "right, the eighth",
    "right, empty id",
    "right, password of 1 byte",
    "right, password of 31 bytes",
    "right, password of 32 bytes",
    "right, logged in already",
];

/// By MD5.
const WRONG: [&str; 17] = [
    "no challenge given, digest of zeros",
    "no challenge given, digest of the lent one",
    "no challenge given, digest of the one kept",
    "no challenge given, any digest",
    "of a text account",
    "of a text account, and no other kind",
    "an older challenge",
    "the lent challenge",
    "last byte wrong",
    "first byte wrong",
    "another's digest",
    "empty password",
    "password of 33 bytes, cut",
    "password of 33 bytes, whole",
    "wrong digest",
    "unknown id",
    "wrong, logged in already",
];

/// 02 No. 10: by text, whatever stands behind the type. Right is what an entry marked text has.
const WITHDRAWN: [&str; 14] = [
    "type alone",
    "cut short",
    "fill not zero",
    "bytes left over",
    "right",
    "right, challenge given",
    "right, no challenge given",
    "right, logged in already",
    "right, both empty",
    "right, password above 32 bytes",
    "of an MD5 account",
    "wrong password",
    "unknown id",
    "wrong, logged in already",
];

/// Ways of a body that do not decode.
const SHAPES: [&str; 4] = ["one byte short", "one byte long", "a length before the digest", "no digest"];

/// What this login is; several may apply.
pub fn cases(body: &[u8], met: &Met) -> Vec<String> {
    let Some(kind) = wire::word_at(body, 0) else { return vec![] };
    let mut rest = &body[4..];
    match kind {
        TEXT => text_cases(rest, met),
        MD5 => {
            let Some(id) = one(&mut rest) else { return vec![] };
            if rest.len() == 16 {
                let given = met.session.login.challenged;
                return told(if given { md5_cases(&id, rest, met) } else { unchallenged(&id, rest, met) }, met);
            }
            let shape = match rest.len() {
                0 => 3,
                15 => 0,
                17 => 1,
                20 if word(rest, 0) == 16 => 2,
                _ => return vec![],
            };
            let after = if met.session.login.challenged { "" } else { ", no challenge given" };
            vec![format!("md5{after}, {}", SHAPES[shape])]
        }
        _ => {
            let kind = if kind == u32::MAX { "all ones".into() } else { kind.to_string() };
            vec![format!("type {kind}{}", if rest.is_empty() { "" } else { " and a rest" })]
        }
    }
}

/// A text, if its fill is zero.
fn one(rest: &mut &[u8]) -> Option<Vec<u8>> {
    let n = wire::word(rest.split_off(..4)?, 0) as usize;
    let bytes = rest.split_off(..n.checked_add((4 - n % 4) % 4)?)?;
    bytes[n..].iter().all(|b| *b == 0).then(|| bytes[..n].to_vec())
}

/// Id and password, whether their fill is zero, and how many bytes are left over. None where they are cut short.
fn texts(mut rest: &[u8]) -> Option<(&[u8], &[u8], bool, usize)> {
    let mut one = || {
        let n = word(rest.split_off(..4)?, 0) as usize;
        Some(rest.split_off(..n.checked_add((4 - n % 4) % 4)?)?.split_at(n))
    };
    let ((id, a), (password, b)) = (one()?, one()?);
    Some((id, password, a.iter().chain(b).all(|x| *x == 0), rest.len()))
}

/// By MD5, with what the accounts are.
fn told(all: Vec<String>, met: &Met) -> Vec<String> {
    let kind = accounts::kind(met.accounts);
    let mut all: Vec<String> = all.into_iter().map(|case| format!("md5, {case}")).collect();
    if matches!(kind, "no bytes" | "no entries") {
        all.push(format!("md5, accounts: {kind}"));
    }
    if all[0] == "md5, right" {
        all.push(format!("md5, right, {kind}"));
    } else if met.session.login.authorized {
        all.push("md5, wrong, logged in already".into());
    }
    all
}

/// Of a login that an entry lets in, if the accounts are laid out right.
fn right(chosen: usize, entries: &[Entry], met: &Met) -> Vec<String> {
    let kind = accounts::kind(met.accounts);
    if !accounts::is_laid(kind) {
        return vec![format!("right but for accounts: {kind}")];
    }
    let Entry { id, password, .. } = &entries[chosen];
    let mut all = vec!["right".to_string()];
    for (case, applies) in [
        ("id stands before it", entries[..chosen].iter().any(|e| e.id == *id)),
        ("id withdrawn before it", entries[..chosen].iter().any(|e| e.kind == TEXT && e.id == *id)),
        ("the eighth", chosen == 7),
        ("empty id", id.is_empty()),
        ("logged in already", met.session.login.authorized),
        ("password of 1 byte", password.len() == 1),
        ("password of 31 bytes", password.len() == 31),
        ("password of 32 bytes", password.len() == 32),
    ] {
        if applies {
            all.push(format!("right, {case}"));
        }
    }
    all
}

/// By text: what stands behind the type, and whether an entry has it.
fn text_cases(rest: &[u8], met: &Met) -> Vec<String> {
    let kind = accounts::kind(met.accounts);
    let login = &met.session.login;
    let (cases, right) = match texts(rest) {
        _ if rest.is_empty() => (vec!["type alone"], false),
        None => (vec!["cut short"], false),
        Some((.., false, _)) => (vec!["fill not zero"], false),
        Some((.., 1..)) => (vec!["bytes left over"], false),
        Some((id, password, ..)) => by_entries(id, password, met),
    };
    let mut all: Vec<String> = cases.iter().map(|case| format!("text, {case}")).collect();
    for (case, applies) in [
        (format!("right, {kind}"), right),
        (format!("accounts: {kind}"), accounts::meant(met.accounts).is_empty()),
        ("wrong, logged in already".into(), login.authorized && !right),
        ("right, logged in already".into(), login.authorized && right),
        ("right, challenge given".into(), login.challenged && right),
        ("right, no challenge given".into(), !login.challenged && right),
    ] {
        if applies {
            all.push(format!("text, {case}"));
        }
    }
    all
}

/// What this id with this password is to the entries, and whether one marked text has both.
fn by_entries(id: &[u8], password: &[u8], met: &Met) -> (Vec<&'static str>, bool) {
    let entries = accounts::meant(met.accounts);
    let same = |e: &Entry| e.id == id && e.password == password;
    if !entries.iter().any(|e| e.kind == TEXT && same(e)) {
        let case = match () {
            _ if entries.iter().any(same) => "of an MD5 account",
            _ if !entries.iter().any(|e| e.id == id) => "unknown id",
            _ => "wrong password",
        };
        return (vec![case], false);
    }
    let mut all = vec!["right"];
    if id.is_empty() && password.is_empty() {
        all.push("right, both empty");
    }
    if password.len() > 32 {
        all.push("right, password above 32 bytes");
    }
    (all, true)
}

/// By MD5, and no challenge was given.
fn unchallenged(id: &[u8], sent: &[u8], met: &Met) -> Vec<String> {
    let entries = accounts::meant(met.accounts);
    let of = |challenge: &Challenge| {
        entries
            .iter()
            .any(|e| e.kind == MD5 && e.id == id && e.serves() && digest(&e.password, challenge, true) == sent)
    };
    let kept = &met.session.login.challenge;
    let case = match () {
        _ if of(&[0; 64]) => "digest of zeros",
        _ if of(met.lent) => "digest of the lent one",
        _ if of(kept) => "digest of the one kept",
        _ => "any digest",
    };
    vec![format!("no challenge given, {case}")]
}

fn md5_cases(id: &[u8], sent: &[u8], met: &Met) -> Vec<String> {
    let entries = accounts::meant(met.accounts);
    let newest = &met.session.login.challenge;
    let makes = |e: &Entry, challenge: &Challenge| digest(&e.password, challenge, true) == sent;
    if let Some(chosen) = entries.iter().position(|e| e.kind == MD5 && e.id == id && e.serves() && makes(e, newest)) {
        return right(chosen, &entries, met);
    }
    let of = |kind: u32| entries.iter().filter(move |e| e.kind == kind && e.id == id);
    let long = |cut: bool| of(MD5).any(|e| e.password.len() == 33 && digest(&e.password, newest, cut) == sent);
    let near = |at: usize| {
        of(MD5).any(|e| {
            let right = digest(&e.password, newest, true);
            (0..16).all(|i| (right[i] == sent[i]) == (i != at))
        })
    };
    let case = match () {
        _ if of(MD5).any(|e| e.password.is_empty() && makes(e, newest)) => "empty password",
        _ if long(true) => "password of 33 bytes, cut",
        _ if long(false) => "password of 33 bytes, whole",
        _ if of(TEXT).any(|e| makes(e, newest)) => {
            let mut all = vec!["of a text account".to_string()];
            if entries.iter().all(|e| e.kind == TEXT) {
                all.push("of a text account, and no other kind".into());
            }
            return all;
        }
        _ if of(MD5).any(|e| e.serves() && met.older.is_some_and(|c| makes(e, &c))) => "an older challenge",
        _ if of(MD5).any(|e| e.serves() && makes(e, met.lent)) => "the lent challenge",
        _ if near(15) => "last byte wrong",
        _ if near(0) => "first byte wrong",
        _ if entries.iter().any(|e| e.kind == MD5 && e.id != id && e.serves() && makes(e, newest)) => {
            if entries.iter().any(|e| e.id == id) { "another's digest" } else { "unknown id" }
        }
        _ => "wrong digest",
    };
    vec![case.into()]
}

/// 0x103: every case that has to be reached, with the number that answers it.
pub fn wanted_attributes() -> Vec<(String, u32)> {
    let mut all = vec![];
    for (kind, number) in [("1", 9), ("2", 0)] {
        let cases = ["before auth", "after auth", "the first request", "none before", "one before"];
        all.extend(cases.map(|case| (format!("{kind}, {case}"), number)));
    }
    all.extend([("1, a rest".into(), 9), ("2, bytes left over".into(), 18)]);
    for kind in ["0", "3", "all ones"] {
        all.extend(["before auth", "after auth", "a rest"].map(|case| (format!("{kind}, {case}"), 9)));
    }
    all.push(("one before".into(), 9));
    all.extend(["no body", "less than a word"].map(|case| (case.into(), 18)));
    all
}

/// What this 0x103 is.
pub fn attribute_cases(body: &[u8], before: &Session) -> Vec<String> {
    let kind = match wire::word_at(body, 0) {
        None => return vec![if body.is_empty() { "no body" } else { "less than a word" }.into()],
        Some(u32::MAX) => "all ones".into(),
        Some(kind) => kind.to_string(),
    };
    let other = kind != "2";
    let mut all = vec![];
    if body.len() > 4 {
        all.push(format!("{kind}, {}", if other { "a rest" } else { "bytes left over" }));
        if !other {
            return all;
        }
    }
    all.push(format!("{kind}, {} auth", if before.login.authorized { "after" } else { "before" }));
    if before.first {
        all.push(format!("{kind}, the first request"));
    }
    let given = if before.login.challenged { "one before" } else { "none before" };
    all.extend([format!("{kind}, {given}"), given.into()]);
    all
}

#[cfg(test)]
mod tests {
    use super::*;
    use crate::convert::session;
    use crate::model::State;
    use crate::model::state::EMPTY;

    const NEWEST: Challenge = [1; 64];
    const LENT: Challenge = [2; 64];
    const OLDER: Challenge = [3; 64];

    /// The cases of a login by these accounts; not yet logged in.
    fn told(entries: &[Entry], challenged: bool, body: Vec<u8>) -> Vec<String> {
        let mut s = session(&State::at_rest(EMPTY));
        (s.login.challenged, s.login.challenge) = (challenged, NEWEST);
        let accounts = accounts::of(entries);
        cases(&body, &Met { session: &s, accounts: &accounts, lent: &LENT, older: Some(OLDER) })
    }

    #[test]
    fn cases_are_what_their_names_say() {
        let md5 = |password: &[u8], challenge| by_md5(b"id", &digest(password, &challenge, true));
        let long = [b'p'; 33];
        let [text, short] = [Entry::of(TEXT, b"id", b"words"), Entry::of(MD5, b"id", b"five5")];
        let more = [Entry::of(MD5, b"id", &long), Entry::of(MD5, b"id", b""), Entry::of(MD5, b"op", b"x")];
        let all = [vec![text, short], more.to_vec()].concat();
        let mut wrong = digest(b"five5", &NEWEST, true);
        wrong[15] ^= 1;
        let more = |mut body: Vec<u8>, at: usize| {
            body[at] = 1;
            body
        };
        for (body, case) in [
            (by_text(b"id", b"words"), "text, right"),
            (by_text(b"id", b"words"), "text, right, challenge given"),
            (by_text(b"id", b"words"), "text, right, 1 to 7 entries"),
            (by_text(b"id", b"five5"), "text, of an MD5 account"),
            (by_text(b"op", b"words"), "text, wrong password"),
            (by_text(b"no", b"words"), "text, unknown id"),
            (by_text(b"id", b"words")[..4].to_vec(), "text, type alone"),
            (by_text(b"id", b"words")[..23].to_vec(), "text, cut short"),
            (more(by_text(b"id", b"words"), 11), "text, fill not zero"),
            ([by_text(b"id", b"words"), vec![0]].concat(), "text, bytes left over"),
            (md5(b"five5", NEWEST), "md5, right, id stands before it"),
            (md5(b"five5", NEWEST), "md5, right, id withdrawn before it"),
            (md5(b"words", NEWEST), "md5, of a text account"),
            (md5(b"five5", LENT), "md5, the lent challenge"),
            (md5(b"five5", OLDER), "md5, an older challenge"),
            (md5(b"", NEWEST), "md5, empty password"),
            (md5(&long, NEWEST), "md5, password of 33 bytes, cut"),
            (by_md5(b"id", &digest(&long, &NEWEST, false)), "md5, password of 33 bytes, whole"),
            (md5(b"x", NEWEST), "md5, another's digest"),
            (by_md5(b"id", &wrong), "md5, last byte wrong"),
            (by_md5(b"id", &wrong[..15]), "md5, one byte short"),
            ([words(&[3]), vec![0]].concat(), "type 3 and a rest"),
        ] {
            let told = told(&all, true, body);
            assert!(told.iter().any(|t| t == case), "{case}: {told:?}");
        }
        let none = "md5, no challenge given, digest of the one kept";
        assert_eq!(told(&all, false, md5(b"five5", NEWEST)), [none]);
        let alone = ["md5, of a text account", "md5, of a text account, and no other kind"];
        assert_eq!(told(&all[..1], true, md5(b"words", NEWEST)), alone);
        assert_eq!(told(&[], true, words(&[1])), ["text, type alone", "text, accounts: no entries"]);
    }

    #[test]
    fn no_case_is_wanted_twice() {
        let mut all: Vec<String> = wanted().into_iter().chain(wanted_attributes()).map(|(case, _)| case).collect();
        let count = all.len();
        all.sort();
        all.dedup();
        assert_eq!(all.len(), count);
    }
}
