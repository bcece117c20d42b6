//! The slot list, through the binding: every word of it crosses, in its place.
use proved::{OUTPUT, Slots, codes};

/// No two bytes of it are the same, but for the zeros.
const LIST: Slots =
    [0x0102_0304, 0, 0x0506_0708, 0x090a_0b0c, 0x0d0e_0f10, 0x1112_1314, 0x1516_1718, 0x191a_1b1c, u32::MAX];

#[test]
fn a_session_has_the_list_that_it_was_opened_with() {
    let mut out = vec![0x78; OUTPUT];
    let opened = proved::open(&LIST, 7, &mut out);
    assert_eq!((opened.code, opened.len, opened.session.closed), (0, 40, false));
    assert_eq!(opened.session.changer.slots, LIST);
    // And what comes behind it in the session is as a new one has it.
    let empty = proved::open(&[0; 9], 7, &mut out).session;
    assert_eq!(empty.changer.slots, [0; 9]);
    let mut same = opened.session;
    same.changer.slots = [0; 9];
    assert_eq!(same, empty);
    // It goes in and comes back by value.
    let ended = proved::end_method(opened.session, true, 7, &mut out);
    assert_eq!((ended.code, ended.session), (0, opened.session));
}

#[test]
fn a_list_that_names_one_twice_is_refused() {
    for (i, j) in (0..9).flat_map(|i| (0..i).map(move |j| (i, j))) {
        let mut slots = LIST;
        slots[1] = 5;
        slots[i] = slots[j];
        let mut out = vec![0x78; OUTPUT];
        let refused = proved::open(&slots, 7, &mut out);
        assert_eq!((refused.code, refused.len), (codes::BROKEN_SESSION, 0), "{i} as {j}");
        assert!(refused.session.closed && refused.session.changer.slots == [0; 9]);
        assert!(out.iter().all(|b| *b == 0x78));
        // A short output comes first.
        assert_eq!(proved::open(&slots, 7, &mut out[1..]).code, codes::SHORT_OUTPUT);
        // A session with such a list is one that no call gives.
        let mut session = proved::open(&LIST, 7, &mut out).session;
        session.changer.slots = slots;
        let refused = proved::made(session, true, 7, &mut out);
        assert_eq!((refused.code, refused.len, refused.session), (codes::BROKEN_SESSION, 0, session));
    }
}
