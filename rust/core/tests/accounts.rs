//! The listing of accounts, through the binding: its lines, and the bytes behind them.
use proved::{LEAST_LISTING, Listed, codes};

/// A buffer of accounts of these kinds, whose ids and passwords are empty.
fn accounts(kinds: &[u32]) -> Vec<u8> {
    let words = kinds.iter().flat_map(|kind| [*kind, 0, 0]);
    [kinds.len() as u32].into_iter().chain(words).flat_map(u32::to_be_bytes).collect()
}

/// What is listed into so many x, and all of them after it.
fn listed(accounts: &[u8], room: usize) -> (Listed, String) {
    let mut out = vec![b'x'; room];
    let answer = proved::accounts(accounts, &mut out);
    (answer, String::from_utf8(out).unwrap())
}

#[test]
fn each_account_has_a_line() {
    let (answer, out) = listed(&accounts(&[codes::MD5_AUTH, codes::TEXT_AUTH, codes::MD5_AUTH]), LEAST_LISTING + 1);
    assert_eq!(answer, Listed { code: 0, len: 24 });
    assert_eq!(out, "0 md5\n1 withdrawn\n2 md5\n".to_string() + &"x".repeat(LEAST_LISTING + 1 - 24));
}

#[test]
fn eight_lines_fill_the_least_output() {
    let (answer, out) = listed(&accounts(&[codes::TEXT_AUTH; 8]), LEAST_LISTING);
    assert_eq!(answer, Listed { code: 0, len: LEAST_LISTING });
    assert_eq!(out, (0..8).map(|i| format!("{i} withdrawn\n")).collect::<String>());
}

#[test]
fn what_is_not_laid_out_so_has_no_line() {
    for buffer in [vec![], accounts(&[2; 9]), accounts(&[3]), accounts(&[2, 2])[..27].to_vec()] {
        assert_eq!(listed(&buffer, LEAST_LISTING), (Listed { code: 0, len: 0 }, "x".repeat(LEAST_LISTING)));
    }
}

#[test]
fn a_shorter_output_is_refused() {
    let short = LEAST_LISTING - 1;
    for buffer in [accounts(&[2]), accounts(&[]), vec![]] {
        assert_eq!(listed(&buffer, short), (Listed { code: codes::SHORT_OUTPUT, len: 0 }, "x".repeat(short)));
    }
}
