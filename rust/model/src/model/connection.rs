//! "Connection".

use super::accounts::{Challenge, MD5, lets_in};
use super::refusals::{Outcome, refuse};
use super::requests::Auth;
use super::state::State;
use super::xdr::Writer;

/// "Open is legal as the first answered request only (else 19) and with version 4 only (else 9)."
pub fn open(fresh: bool, version: u32) -> Outcome {
    refuse(!fresh, 19)?;
    refuse(version != 4, 9)?;
    Ok(Writer::words(&[0]))
}

/// 01: "other types are 9", "4: ... also a wrong id or password". 02 No. 2: "The newest challenge is the one judged"; "4 if
/// no challenge was given". No. 10: "9 for type 1, ... before any account is looked at", and "Sessions already open stay
/// authorized". A login leaves the challenge, right or wrong (reading).
pub fn auth(s: &mut State, accounts: &[u8], auth: &Auth) -> Outcome {
    let Auth::Md5 { id, digest } = *auth else { return Err(9) };
    refuse(!s.challenged || !lets_in(accounts, id, digest, &s.challenge), 4)?;
    s.authorized = true;
    Ok(Writer::words(&[0]))
}

/// 02 No. 2: "the auth attribute request (0x103), which gives a 64-byte challenge that the host lends". No. 10: "9 for type 1,
/// at 0x103 too". 004: the type again, and behind it "opaque challenge[64]" for MD5.
pub fn auth_attributes(s: &mut State, kind: u32, challenge: &Challenge) -> Outcome {
    refuse(kind != MD5, 9)?;
    let mut w = Writer::words(&[0, MD5]);
    w.0.extend(challenge);
    (s.challenged, s.challenge) = (true, *challenge);
    Ok(w)
}

/// 02 No. 14: "Connection types lists 0 and 1." (01: "Connection types: LOCAL 0.")
pub fn types() -> Outcome {
    Ok(Writer::words(&[0, 2, 0, 1]))
}

/// "Server info gives empty strings before auth, then `vault`, `tape`, `1`". 02 No. 2 has it list 1 and 2; No. 10: "Auth type
/// 1 ... leaves the server info list."
pub fn server_info(s: &State) -> Outcome {
    let mut w = Writer::words(&[0]);
    for text in ["vault", "tape", "1"] {
        w.opaque(if s.authorized { text.as_bytes() } else { b"" });
    }
    for word in [1, MD5] {
        w.word(word);
    }
    Ok(w)
}
