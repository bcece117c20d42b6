//! Lists of TCP addresses, right and wrong: in a connect, and as a listen is lent them. 004: a count, then host, port
//! and environment of each.

use crate::random::Random;
use wire::{text, words};

/// One address with as many pairs, no more than 66 of which are there.
fn address(host: u32, port: u32, pairs: u32) -> Vec<u8> {
    let pair = [text("N"), text("")].concat();
    [words(&[host, port, pairs]), pair.repeat(pairs.min(66) as usize)].concat()
}

/// The list of so many addresses, no more than 17 of which are there.
fn of(count: u32, one: &[u8]) -> Vec<u8> {
    [words(&[count]), one.repeat(count.min(17) as usize)].concat()
}

/// A list of one address that is so many bytes long: a multiple of four, 28 at least.
pub fn of_length(n: usize) -> Vec<u8> {
    [words(&[1, 0x0a00_0001, 7, 1]), text("N"), text(vec![0x61; n - 28])].concat()
}

/// Lists of every kind by name, as `kind` gives it, and whether they decode.
pub fn kinds() -> Vec<(&'static str, Vec<u8>, bool)> {
    let plain = address(0x0a00_0001, 10_000, 1);
    let right = of(1, &plain);
    let mut rubbish = right.clone();
    rubbish[22] = 1;
    vec![
        ("no bytes", vec![], false),
        ("no address", of(0, &[]), true),
        ("1 to 15 addresses", right.clone(), true),
        ("16 addresses", of(16, &address(0xffff_ffff, 0, 64)), true),
        ("17 addresses", of(17, &plain), false),
        ("a count of all ones", of(u32::MAX, &plain), false),
        ("port 65,535", of(2, &address(0, 65_535, 0)), true),
        ("port 65,536", of(2, &address(0, 65_536, 0)), false),
        ("64 pairs", of(1, &address(1, 1, 64)), true),
        ("65 pairs", of(1, &address(1, 1, 65)), false),
        ("cut short", right[..right.len() - 4].to_vec(), false),
        ("fill not zero", rubbish, false),
        ("bytes left over", [right, vec![0; 4]].concat(), false),
        ("16,384 bytes", of_length(16_384), true),
        ("above 16,384 bytes", of_length(16_388), true),
    ]
}

/// What kind of list this is, by its first fault; or, where it decodes, by what is at a limit.
pub fn kind(list: &[u8]) -> &'static str {
    if list.is_empty() {
        return "no bytes";
    }
    match walk(list) {
        Err(fault) => fault,
        Ok(_) if list.len() > 16_384 => "above 16,384 bytes",
        Ok(_) if list.len() == 16_384 => "16,384 bytes",
        Ok((0, ..)) => "no address",
        Ok((16, ..)) => "16 addresses",
        Ok((_, 65_535, _)) => "port 65,535",
        Ok((_, _, 64)) => "64 pairs",
        Ok(_) => "1 to 15 addresses",
    }
}

/// The count, the highest port and the most pairs.
fn walk(mut list: &[u8]) -> Result<(u32, u32, u32), &'static str> {
    let count = word(&mut list)?;
    match count {
        u32::MAX => return Err("a count of all ones"),
        17.. => return Err("17 addresses"),
        _ => {}
    }
    let (mut highest, mut most) = (0, 0);
    for _ in 0..count {
        word(&mut list)?;
        let port = word(&mut list)?;
        if port > 65_535 {
            return Err("port 65,536");
        }
        let pairs = word(&mut list)?;
        if pairs > 64 {
            return Err("65 pairs");
        }
        for _ in 0..2 * pairs {
            let n = word(&mut list)? as usize;
            let fill = (4 - n % 4) % 4;
            let bytes = take(&mut list, n + fill)?;
            if bytes[n..].iter().any(|b| *b != 0) {
                return Err("fill not zero");
            }
        }
        (highest, most) = (highest.max(port), most.max(pairs));
    }
    if list.is_empty() { Ok((count, highest, most)) } else { Err("bytes left over") }
}

fn take<'a>(list: &mut &'a [u8], n: usize) -> Result<&'a [u8], &'static str> {
    list.split_off(..n).ok_or("cut short")
}

fn word(list: &mut &[u8]) -> Result<u32, &'static str> {
    Ok(wire::word(take(list, 4)?, 0))
}

/// Lengths about the longest list that a listen answers, and about the longest output that a call must be lent.
pub const LENGTHS: [usize; 7] = [16_380, 16_384, 16_388, 16_400, 36_864, 36_868, 200_000];

/// A list that decodes and has an address.
pub fn right(r: &mut Random) -> Vec<u8> {
    let count = if r.percent(10) { 16 } else { r.within(1, 3) as u32 };
    let mut list = words(&[count]);
    for _ in 0..count {
        let pairs = r.below(3) as u32;
        let port = r.pick(&[0, 1, 10_000, 65_535, 40_123]);
        list.extend(words(&[r.next() as u32, port, pairs]));
        for _ in 0..2 * pairs {
            let n = r.below(9);
            list.extend(text(r.bytes(n as usize)));
        }
    }
    list
}

/// A list that may be wrong in one place.
pub fn any(r: &mut Random) -> Vec<u8> {
    let mut list = right(r);
    match r.below(4) {
        0 | 1 => {
            let all = kinds();
            list = all[r.below(all.len() as u64) as usize].1.clone();
        }
        2 => {
            let place = 4 * r.below(list.len() as u64 / 4) as usize;
            let x = r.pick(&[0, 1, 16, 17, 64, 65, 65_535, 65_536, u32::MAX]);
            wire::put_word(&mut list, place, x);
        }
        _ => {
            let n = r.below(list.len() as u64 + 6) as usize;
            list.resize(n, 0);
        }
    }
    list
}

#[cfg(test)]
mod tests {
    use super::*;
    use crate::model::requests::address_list;

    #[test]
    fn kinds_are_what_their_names_say() {
        for (name, list, decodes) in kinds() {
            assert_eq!(kind(&list), name);
            assert_eq!(address_list(&list).is_some(), decodes, "{name}");
        }
        assert_eq!((of_length(16_384).len(), of_length(16_388).len()), (16_384, 16_388));
    }
}
