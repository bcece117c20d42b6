//! Cases of 02 No. 2 and No. 10, worked out by hand from the papers.

use super::accounts::{MD5, TEXT, accounts, digest_of, laid_out};
use super::by_hand::{Desk, bytes, record, words};
use super::calls::listing;
use super::md5::md5;
use super::xdr::Writer;

type Entry<'a> = (u32, &'a [u8], &'a [u8]);

fn listed(entries: &[Entry]) -> Vec<u8> {
    let mut w = Writer::words(&[entries.len() as u32]);
    for (kind, id, password) in entries {
        w.word(*kind);
        w.opaque(id);
        w.opaque(password);
    }
    w.0
}

/// A session that just began.
fn stranger(entries: &[Entry]) -> Desk {
    let mut d = Desk::new();
    (d.s.authorized, d.s.fresh) = (false, true);
    d.accounts = listed(entries);
    d
}

/// With this challenge given.
fn challenged(entries: &[Entry], challenge: u8) -> Desk {
    let mut d = stranger(entries);
    d.challenge = [challenge; 64];
    assert_eq!(d.number(0x103, &[2]), 0);
    // What is lent later is not looked at.
    d.challenge = [0xff; 64];
    d
}

fn text_body(id: &[u8], password: &[u8]) -> Vec<u8> {
    let mut w = Writer::words(&[1]);
    w.opaque(id);
    w.opaque(password);
    w.0
}

fn md5_body(id: &[u8], digest: &[u8]) -> Vec<u8> {
    let mut w = Writer::words(&[2]);
    w.opaque(id);
    [&w.0[..], digest].concat()
}

/// The number that answers a login, in the body or in the header.
fn login(d: &mut Desk, body: &[u8]) -> u32 {
    let before = d.s.authorized;
    let sent = words(&d.send(0x901, body));
    let number = if sent.len() == 7 { sent[6] } else { sent[7] };
    assert_eq!((sent.len() == 7, d.s.authorized), (number == 18, before || number == 0));
    number
}

/// By MD5, with 004's string over so many bytes of one value.
fn by_md5(d: &mut Desk, id: &[u8], password: &[u8], challenge: u8) -> u32 {
    let zeros = vec![0; 64 - 2 * password.len()];
    let digest = md5(&[password, &zeros, &[challenge; 64], password].concat());
    login(d, &md5_body(id, &digest))
}

fn unhex(digits: &str) -> Vec<u8> {
    (0..digits.len() / 2).map(|i| u8::from_str_radix(&digits[2 * i..2 * i + 2], 16).unwrap()).collect()
}

/// As ndmjob and its own server did it.
#[test]
fn a_login_that_others_made() {
    let mut d = stranger(&[(MD5, b"ndmp", b"ndmp")]);
    let challenge = "2eed00e8d2957f8ed95ab25ee64ea78a79a41713de18e9f96deb0b6916d60243\
        a96c5d5d70f8c0637256a9a0ab69726e80e6647e2f90aa14e762109a23ce7ef2";
    d.challenge = unhex(challenge).try_into().unwrap();
    let reply = "80000060 00000002 00000006 00000001 00000103 00000005 00000000 00000000 00000002".replace(' ', "");
    assert_eq!(d.send(0x103, &unhex("00000002")), unhex(&(reply + challenge)));
    d.challenge = [9; 64];
    let auth = unhex("00000002000000046e646d705da7ac7324b97caf774d6ea4927f57d0");
    assert_eq!(words(&d.send(0x901, &auth)), [0x8000_001c, 3, 6, 1, 0x901, 5, 0, 0]);
    assert!(d.s.authorized);
}

/// 004: 1 to 32 bytes, 0 to 62 bytes of null, the challenge, the password again: 128 bytes.
#[test]
fn the_string_of_a_digest() {
    let challenge: [u8; 64] = std::array::from_fn(|i| i as u8);
    for n in [1, 2, 31, 32] {
        let password = vec![b'p'; n];
        let mut string = [0; 128];
        string[..n].fill(b'p');
        string[64..].copy_from_slice(&challenge);
        let string = [&string[..128 - 64 - n], &challenge[..], &password].concat();
        assert_eq!((string.len(), digest_of(&password, &challenge)), (128, Some(md5(&string))));
    }
    assert_eq!((digest_of(b"", &challenge), digest_of(&[b'p'; 33], &challenge)), (None, None));
}

#[test]
fn what_the_auth_attributes_are() {
    for authorized in [false, true] {
        let mut d = stranger(&[]);
        (d.s.authorized, d.challenge) = (authorized, [7; 64]);
        // "9 for type 1, at 0x103 too, its rest unread"; "other reply fields are zero or empty": the type too.
        for other in [1, 0, 3, 7, 0x0100_0000, 0x0200_0000, u32::MAX] {
            assert_eq!(d.ask(0x103, &[other]), (0, vec![9, 0]));
            assert_eq!(d.ask(0x103, &[other, 5, 6]), (0, vec![9, 0]));
            assert_eq!(words(&d.send(0x103, &[&bytes(&[other])[..], &[7]].concat())[24..]), [0, 9, 0]);
        }
        assert_eq!(d.ask(0x103, &[2, 0]), (18, vec![]));
        assert_eq!(d.ask(0x103, &[]), (18, vec![]));
        assert_eq!(words(&d.send(0x103, &[0, 0, 2])[24..]), [18]);
        assert_eq!((d.s.challenged, d.s.challenge), (false, [0; 64]));
        assert_eq!(d.ask(0x103, &[2]), (0, [vec![0, 2], vec![0x0707_0707; 16]].concat()));
        assert_eq!((d.s.challenged, d.s.challenge), (true, [7; 64]));
        assert_eq!(d.s.authorized, authorized);
    }
}

#[test]
fn a_challenge_takes_the_first_place() {
    for (kind, number) in [(1, 9), (2, 0), (3, 9)] {
        let mut d = stranger(&[]);
        assert_eq!(d.number(0x103, &[kind]), number);
        assert_eq!(d.number(0x900, &[4]), 19);
    }
}

/// "The newest challenge is the one judged": no other request and no login changes it.
#[test]
fn the_newest_challenge() {
    let mut d = challenged(&[(MD5, b"a", b"pw"), (TEXT, b"t", b"pw")], 1);
    d.challenge = [2; 64];
    assert_eq!(d.number(0x103, &[2]), 0);
    d.challenge = [3; 64];
    assert_eq!((d.number(0x103, &[1]), d.number(0x103, &[9]), d.number(0x103, &[2, 2])), (9, 9, 18));
    assert_eq!(login(&mut d, &text_body(b"t", b"pw")), 9);
    for challenge in [1, 3, 0] {
        assert_eq!(by_md5(&mut d, b"a", b"pw", challenge), 4, "{challenge}");
    }
    assert_eq!(by_md5(&mut d, b"a", b"pw", 2), 0);
    // Not used up, and judged again where a session is logged in.
    assert_eq!((by_md5(&mut d, b"a", b"pw", 2), by_md5(&mut d, b"a", b"pw", 1)), (0, 4));
    assert_eq!((d.number(0x103, &[2]), by_md5(&mut d, b"a", b"pw", 2), by_md5(&mut d, b"a", b"pw", 3)), (0, 4, 0));
    assert_eq!(d.number(0x400, &[]), 3);
}

#[test]
fn no_challenge_given() {
    let mut d = stranger(&[(MD5, b"a", b"pw"), (TEXT, b"a", b"pw")]);
    assert_eq!(d.number(0x103, &[1]), 9);
    assert_eq!(by_md5(&mut d, b"a", b"pw", 0), 4);
    // 18 comes before 4.
    assert_eq!(login(&mut d, &md5_body(b"a", &[0; 15])), 18);
    assert_eq!(login(&mut d, &md5_body(b"a", &[0; 17])), 18);
    assert_eq!(login(&mut d, &text_body(b"a", b"pw")), 9);
}

#[test]
fn bodies_of_a_login() {
    let mut d = challenged(&[(MD5, b"abc", b"pw")], 1);
    let digest = digest_of(b"pw", &[1; 64]).unwrap();
    let right = md5_body(b"abc", &digest);
    for cut in 1..right.len() - 4 {
        assert_eq!(login(&mut d, &right[..right.len() - cut]), 18, "{cut}");
    }
    for more in [1, 3, 4] {
        assert_eq!(login(&mut d, &[&right[..], &vec![0; more]].concat()), 18);
    }
    let with_length = [&bytes(&[16])[..], &digest].concat();
    assert_eq!(login(&mut d, &md5_body(b"abc", &with_length)), 18);
    // Strict fill (02 No. 6): the byte behind the id.
    let mut filled = right.clone();
    filled[11] = 1;
    assert_eq!(login(&mut d, &filled), 18);
    // Types that are no login, whatever follows.
    for kind in [0, 1, 3, 0x0100_0000, u32::MAX] {
        assert_eq!((d.ask(0x901, &[kind]), d.ask(0x901, &[kind, 9, 9])), ((0, vec![9]), (0, vec![9])));
    }
    assert_eq!((login(&mut d, &[]), login(&mut d, &[0, 0, 2])), (18, 18));
    assert!(!d.s.authorized);
    assert_eq!(login(&mut d, &right), 0);
}

/// "9 for type 1, ... its rest unread, before any account is looked at": with a right password, with a broken body, with
/// accounts that are none.
#[test]
fn text_login_is_withdrawn() {
    let entries: [Entry; 3] = [(TEXT, b"t", b"one"), (MD5, b"m", b"two"), (TEXT, b"", b"")];
    let right = text_body(b"t", b"one");
    let mut all = vec![text_body(b"m", b"two"), text_body(b"t", b"two"), text_body(b"", b""), text_body(b"n", b"x")];
    all.extend((4..=right.len()).map(|n| right[..n].to_vec()));
    all.push([&right[..], &[0]].concat());
    // The fill behind the id, and a length that is too long.
    all.extend([9, 11, 4].map(|at| {
        let mut other = right.clone();
        other[at] = 1;
        other
    }));
    for lent in [listed(&entries), vec![], listed(&[]), vec![0, 0, 0, 3]] {
        for mut d in [stranger(&[]), challenged(&[], 5)] {
            d.accounts.clone_from(&lent);
            for body in &all {
                assert_eq!(login(&mut d, body), 9, "{body:x?}");
            }
        }
    }
    // Less than a type is none.
    assert_eq!(login(&mut stranger(&entries), &right[..3]), 18);
}

/// "Sessions already open stay authorized": a login by text takes nothing away.
#[test]
fn open_sessions_stay_authorized() {
    let mut d = challenged(&[(MD5, b"m", b"two"), (TEXT, b"m", b"two")], 5);
    assert_eq!(by_md5(&mut d, b"m", b"two", 5), 0);
    d.accounts = listed(&[(TEXT, b"m", b"two")]);
    assert_eq!((login(&mut d, &text_body(b"m", b"two")), login(&mut d, &bytes(&[1]))), (9, 9));
    assert_eq!((d.number(0x103, &[1]), d.number(0x102, &[])), (9, 0));
    assert!(d.s.authorized && d.s.challenged && d.s.challenge == [5; 64]);
    // Whoever was let in by text before is in.
    let mut d = Desk::new();
    d.accounts = listed(&[(TEXT, b"t", b"one")]);
    assert_eq!((login(&mut d, &text_body(b"t", b"one")), d.number(0x102, &[])), (9, 0));
}

/// Of a text entry: "such an entry never lets anyone in"; it leaves the others as they are.
#[test]
fn each_kind_by_itself() {
    let mut d = challenged(&[(TEXT, b"t", b"one"), (MD5, b"m", b"two")], 5);
    assert_eq!(
        (by_md5(&mut d, b"t", b"one", 5), by_md5(&mut d, b"m", b"one", 5), by_md5(&mut d, b"", b"two", 5)),
        (4, 4, 4)
    );
    for at in [0, 7, 15] {
        let mut digest = digest_of(b"two", &[5; 64]).unwrap();
        digest[at] ^= 1;
        assert_eq!(login(&mut d, &md5_body(b"m", &digest)), 4);
    }
    assert_eq!(by_md5(&mut d, b"m", b"two", 5), 0);
    assert_eq!(by_md5(&mut challenged(&[(TEXT, b"t", b"one")], 5), b"t", b"one", 5), 4);
}

/// "where an id stands twice any entry may match"
#[test]
fn an_id_that_stands_twice() {
    let entries: [Entry; 5] =
        [(MD5, b"a", b"one"), (TEXT, b"a", b"two"), (MD5, b"a", b"three"), (TEXT, b"a", b"four"), (MD5, b"b", b"five")];
    for (password, number) in [(&b"one"[..], 0), (b"two", 4), (b"three", 0), (b"four", 4), (b"five", 4)] {
        assert_eq!(login(&mut challenged(&entries, 6), &text_body(b"a", password)), 9);
        assert_eq!(by_md5(&mut challenged(&entries, 6), b"a", password, 6), number);
    }
}

/// "an MD5 password above 32 bytes never does"; nor does an empty one.
#[test]
fn passwords_at_their_limits() {
    for (n, number) in [(0, 4), (1, 0), (31, 0), (32, 0)] {
        let password = vec![b'p'; n];
        assert_eq!(by_md5(&mut challenged(&[(MD5, b"a", &password)], 8), b"a", &password, 8), number, "{n}");
    }
    for n in [33, 64, 200] {
        let password = vec![b'p'; n];
        let cut = by_md5(&mut challenged(&[(MD5, b"a", &password)], 8), b"a", &password[..32], 8);
        let whole = md5(&[&password[..], &[8; 64], &password].concat());
        assert_eq!((cut, login(&mut challenged(&[(MD5, b"a", &password)], 8), &md5_body(b"a", &whole))), (4, 4));
    }
    for n in [0, 1, 32, 33, 300] {
        let id = vec![b'i'; n];
        assert_eq!(by_md5(&mut challenged(&[(MD5, &id, b"pw")], 8), &id, b"pw", 8), 0);
    }
}

#[test]
fn eight_accounts_and_no_more() {
    let ids: Vec<[u8; 1]> = (0..9).map(|i| [b'a' + i]).collect();
    let entries: Vec<Entry> = ids.iter().map(|id| (MD5, &id[..], &b"pw"[..])).collect();
    for n in 0..=9 {
        let lent = listed(&entries[..n]);
        assert_eq!((laid_out(&lent).is_some(), accounts(&lent).len()), (n <= 8, n % 9));
        for (i, (_, id, _)) in entries.iter().enumerate() {
            let number = by_md5(&mut challenged(&entries[..n], 3), id, b"pw", 3);
            assert_eq!(number, if i < n && n <= 8 { 0 } else { 4 }, "{i} of {n}");
        }
    }
}

/// The accounts of t, by text, and of m, by MD5; and buffers that are not laid out as they should be.
fn right_and_wrong() -> (Vec<u8>, Vec<Vec<u8>>) {
    let right = listed(&[(TEXT, b"t", b"one"), (MD5, b"m", b"three")]);
    let but = |at: usize, x: u8| {
        let mut lent = right.clone();
        lent[at] = x;
        lent
    };
    let mut all = vec![
        vec![],
        but(3, 1),
        but(3, 3),
        but(0, 1),
        // The kinds, a fill and a length.
        but(7, 0),
        but(7, 3),
        but(4, 1),
        but(23, 3),
        but(13, 1),
        but(11, 0),
        [&right[..], &[0]].concat(),
        [&right[..], &[0; 4]].concat(),
    ];
    all.extend((0..right.len()).map(|n| right[..n].to_vec()));
    (right, all)
}

/// One that is not laid out so has no entries: whoever logs in by MD5 gets 4, and nothing else changes.
#[test]
fn accounts_that_are_not_laid_out_so() {
    let (right, wrong) = right_and_wrong();
    for lent in wrong {
        let mut d = challenged(&[], 4);
        d.accounts = lent.clone();
        assert_eq!((laid_out(&lent), by_md5(&mut d, b"m", b"three", 4)), (None, 4), "{lent:x?}");
        // The accounts are judged with each call.
        d.accounts = right.clone();
        assert_eq!(by_md5(&mut d, b"m", b"three", 4), 0);
    }
}

/// "Auth type 1 ... leaves the server info list."
#[test]
fn server_info_lists_md5_alone() {
    let mut d = challenged(&[(MD5, b"", b"pw")], 1);
    assert_eq!(d.ask(0x108, &[]), (0, vec![0, 0, 0, 0, 1, 2]));
    by_md5(&mut d, b"", b"pw", 1);
    let sent = d.send(0x108, &[]);
    let texts = b"\0\0\0\x05vault\0\0\0\0\0\0\x04tape\0\0\0\x011\0\0\0".to_vec();
    assert_eq!(sent[28..], [bytes(&[0]), texts, bytes(&[1, 2])].concat());
}

/// Code and text of a listing.
fn told(accounts: &[u8], room: usize) -> (u32, String) {
    let given = listing(accounts, room);
    assert_eq!(given.count, 0);
    (given.code, String::from_utf8(given.sent).unwrap())
}

/// "a line for each entry: number from 0, a blank, `md5` or `withdrawn`"; "1001 under 96 bytes", which is what eight lines of
/// the longer word have.
#[test]
fn listings() {
    let entries: [Entry; 8] = [
        (TEXT, b"t", b"one"),
        (MD5, b"m", b"two"),
        // These never match.
        (MD5, b"e", b""),
        (MD5, b"l", &[b'p'; 33]),
        (TEXT, b"", b""),
        (TEXT, b"md5", b"md5"),
        (MD5, b"withdrawn", b"withdrawn"),
        (TEXT, b"t", b"one"),
    ];
    let all = "0 withdrawn\n1 md5\n2 md5\n3 md5\n4 withdrawn\n5 withdrawn\n6 md5\n7 withdrawn\n";
    for n in 0..=8 {
        let first: String = all.lines().take(n).map(|line| format!("{line}\n")).collect();
        for room in [96, 97, 200] {
            assert_eq!(told(&listed(&entries[..n]), room), (0, first.clone()));
        }
        for room in [0, 1, 7, 95] {
            assert_eq!(told(&listed(&entries[..n]), room), (1001, "".into()));
        }
    }
    let most: Vec<Entry> = vec![(TEXT, b"t", b"one"); 8];
    let longest =
        "0 withdrawn\n1 withdrawn\n2 withdrawn\n3 withdrawn\n4 withdrawn\n5 withdrawn\n6 withdrawn\n7 withdrawn\n";
    assert_eq!((longest.len(), told(&listed(&most), 96)), (96, (0, longest.into())));
    // A ninth entry, and all else that is not laid out so: no lines.
    let nine: Vec<Entry> = vec![(MD5, b"m", b"two"); 9];
    for wrong in right_and_wrong().1.into_iter().chain([listed(&nine)]) {
        assert_eq!((told(&wrong, 96), told(&wrong, 95)), ((0, "".into()), (1001, "".into())), "{wrong:x?}");
    }
}

/// What is closed, ignored or badly framed gives no challenge.
#[test]
fn no_challenge_without_an_answer() {
    let mut d = stranger(&[]);
    d.challenge = [5; 64];
    let mut reply = record(0x103, &bytes(&[2]));
    reply[15] = 1;
    let before = d.s.clone();
    assert_eq!((d.hand(&reply).len(), &d.s), (0, &before));
    d.s.closed = true;
    assert_eq!((d.hand(&record(0x103, &bytes(&[2]))).len(), d.s.challenged), (0, false));
    d.s.closed = false;
    assert_eq!((d.hand(&reply[1..]).len(), d.s.closed, d.s.challenged), (0, true, false));
}
