//! 02 No. 2 and No. 10: the accounts that a host lends, whom they let in, and their listing.

use super::md5::md5;
use super::xdr::Reader;

/// 004: NDMP_AUTH_TEXT, NDMP_AUTH_MD5. No. 10: "Text login is withdrawn": of accounts alone TEXT is a kind.
pub const TEXT: u32 = 1;
pub const MD5: u32 = 2;

/// "a 64-byte challenge that the host lends"
pub type Challenge = [u8; 64];

/// "each marked text or MD5"
#[derive(Debug, PartialEq)]
pub struct Account<'a> {
    pub kind: u32,
    pub id: &'a [u8],
    pub password: &'a [u8],
}

/// "The accounts grow to eight". The layout is the project's own: XDR, a count, then kind, id and password of each, up to
/// the buffer's end. One that is not laid out so has no entries (reading). No. 10: "Account stores still holding text
/// entries are read without complaint".
pub fn accounts(buffer: &[u8]) -> Vec<Account<'_>> {
    laid_out(buffer).unwrap_or_default()
}

pub fn laid_out(buffer: &[u8]) -> Option<Vec<Account<'_>>> {
    let mut r = Reader(buffer);
    let count = r.word().filter(|n| *n <= 8)?;
    let all = (0..count)
        .map(|_| {
            let kind = r.word().filter(|kind| matches!(*kind, TEXT | MD5))?;
            let id = r.opaque()?;
            Some(Account { kind, id, password: r.opaque()? })
        })
        .collect::<Option<Vec<Account>>>()?;
    r.end()?;
    Some(all)
}

/// "where an id stands twice any entry may match", and "login by the other kind is a wrong password". No. 10, of a text
/// entry: "such an entry never lets anyone in".
pub fn lets_in(buffer: &[u8], id: &[u8], digest: &[u8], challenge: &Challenge) -> bool {
    let right =
        |a: Account| a.kind == MD5 && a.id == id && digest_of(a.password, challenge).is_some_and(|d| d == digest);
    accounts(buffer).into_iter().any(right)
}

/// 004, 3.1.2: "concatenating the 1 to 32 byte password, 0 to 62 bytes of null (0x00) padding, the 64 byte random
/// challenge string obtained from the server, and the 1 to 32 byte password again"; "the padding field length is computed
/// as 64-2*(password length). If the password is zero length, the server should terminate the authentication process and
/// return a NDMP_NOT_AUTHORIZED_ERR reply error." 02: "an MD5 password above 32 bytes never does" match (004 would cut it).
pub fn digest_of(password: &[u8], challenge: &Challenge) -> Option<[u8; 16]> {
    if !(1..=32).contains(&password.len()) {
        return None;
    }
    let mut input = password.to_vec();
    input.resize(64 - password.len(), 0);
    input.extend(challenge);
    input.extend(password);
    Some(md5(&input))
}

/// No. 10: "1001 under 96 bytes".
pub const LISTING: usize = 96;

/// No. 10: "a line for each entry: number from 0, a blank, `md5` or `withdrawn`". A line feed ends each line, the last too;
/// and the word tells the kind alone, also of an MD5 entry that never matches (readings).
pub fn listing(buffer: &[u8]) -> String {
    let word = |kind| if kind == MD5 { "md5" } else { "withdrawn" };
    accounts(buffer).iter().enumerate().map(|(i, a)| format!("{i} {}\n", word(a.kind))).collect()
}
