//! The names here and those of the crates are the same, with the same numbers.
use proved::{Data, LEAST_LISTING, Mover, codes};
use std::collections::BTreeMap;
use std::fs;

/// A number as the crates write it, in decimal or in hex.
fn number(text: &str) -> Option<u64> {
    text.strip_prefix("0x").map_or_else(|| text.parse().ok(), |hex| u64::from_str_radix(hex, 16).ok())
}

/// The constants of a source that are numbers, below the line that begins so, up to the next line `}`.
fn constants(file: &str, below: &str) -> BTreeMap<String, u64> {
    let path = format!("{}/../../crates/{file}", env!("CARGO_MANIFEST_DIR"));
    let text = fs::read_to_string(&path).unwrap_or_else(|e| panic!("{path}: {e}"));
    let block = text.lines().skip_while(|l| !l.starts_with(below)).take_while(|l| *l != "}");
    let named = block.filter_map(|l| l.trim().strip_prefix("pub const ")?.strip_suffix(';')?.split_once(": "));
    named.filter_map(|(name, rest)| Some((name.to_string(), number(rest.split_once(" = ")?.1)?))).collect()
}

fn here(named: &[(&str, u64)]) -> BTreeMap<String, u64> {
    named.iter().map(|(name, n)| (name.to_string(), *n)).collect()
}

#[test]
fn names_are_those_of_the_crates() {
    let session = "rules_parts/src/lib.rt";
    assert_eq!(here(Data::NAMED), constants(session, "impl Data {"));
    assert_eq!(here(Mover::NAMED), constants(session, "impl Mover {"));
    assert_eq!(here(codes::NAMED), constants("codes/src/lib.rt", "// Numbers"));
    let listing = constants("call_accounts/src/lib.rt", "// The accounts");
    assert_eq!(here(&[("LEAST_LISTING", LEAST_LISTING as u64)]), listing);
}

#[test]
fn every_state_has_its_word() {
    let out = &mut vec![0; proved::OUTPUT];
    let mut s = proved::open(&[0; 9], 0, out).session;
    for (name, n) in [("IDLE", 0), ("ACTIVE", 1), ("HALTED", 2), ("LISTEN", 3), ("CONNECTED", 4)] {
        s.source.state = n;
        assert_eq!(s.source.state_name(), name);
        assert!(Data::NAMED.contains(&(name, n as u64)));
    }
    for (name, n) in [("IDLE", 0), ("LISTEN", 1), ("ACTIVE", 2), ("PAUSED", 3), ("HALTED", 4)] {
        s.mover.state = n;
        assert_eq!(s.mover.state_name(), name);
        assert!(Mover::NAMED.contains(&(name, n as u64)));
    }
    s.mover.state = 5;
    assert_eq!(s.mover.state_name(), "?");
}
