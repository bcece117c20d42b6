//! What GNU's library (of tar, cpio and mt) says in other words than source 001: turned into 001's before the core is asked.
//! Replies are not touched.
use crate::rmt_input::number;
use std::borrow::Cow;

/// A number and words behind it, between which is a blank: `65 O_WRONLY|O_CREAT`.
fn worded(mode: &[u8]) -> Option<u32> {
    let at = mode.iter().position(|b| *b == b' ')?;
    number(&mode[..at]).filter(|_| at + 1 < mode.len())
}

/// The two lines of a command behind its letter, without their LFs.
fn lines(command: &[u8]) -> Option<(&[u8], &[u8])> {
    let rest = command.get(1..)?.strip_suffix(b"\n")?;
    let at = rest.iter().position(|b| *b == b'\n')?;
    Some((&rest[..at], &rest[at + 1..]))
}

/// Whether an open's mode has words, as GNU's library sends them and no other client does.
pub fn is_gnu(command: &[u8]) -> bool {
    command.first() == Some(&b'O') && lines(command).is_some_and(|(_, mode)| worded(mode).is_some())
}

/// Linux's number of an operation as 001's. What has none there is one that the core refuses: 0 is a reset, and would be marks.
fn operation(linux: u32) -> u32 {
    const REFUSED: u32 = 6;
    match linux {
        1..=4 => linux,
        // Marks, and rewind.
        5 => 0,
        6 => 5,
        _ => REFUSED,
    }
}

/// The command as 001 has it. `gnu` is whether the tape was opened by GNU's library.
pub fn taken(command: &[u8], gnu: bool) -> Cow<'_, [u8]> {
    let Some((first, second)) = lines(command) else { return command.into() };
    let made = |letter: &str, first: &[u8], second: &[u8]| -> Cow<'_, [u8]> {
        [letter.as_bytes(), first, b"\n", second, b"\n"].concat().into()
    };
    match command[0] {
        b'O' => match worded(second) {
            Some(mode) => made("O", first, (mode % 4).to_string().as_bytes()),
            None => command.into(),
        },
        b'I' if gnu => match number(first) {
            Some(n) => made("I", operation(n).to_string().as_bytes(), second),
            None => command.into(),
        },
        // To the start: where it cannot space back, tar seeks.
        b'L' if gnu && (number(first), number(second)) == (Some(0), Some(0)) => made("I", b"5", b"0"),
        _ => command.into(),
    }
}

/// Whether a command, if it is accepted, writes to the tape: W, and marks.
pub fn writes(command: &[u8]) -> bool {
    let marks = || lines(command).is_some_and(|(op, _)| number(op) == Some(0));
    matches!(command.first(), Some(b'W')) || command.first() == Some(&b'I') && marks()
}

#[cfg(test)]
mod tests {
    use super::*;

    fn of(command: &str, gnu: bool) -> String {
        String::from_utf8(taken(command.as_bytes(), gnu).into_owned()).unwrap()
    }

    #[test]
    fn modes_with_words() {
        for (mode, plain) in [
            ("65 O_WRONLY|O_CREAT", "1"),
            ("66 O_RDWR|O_CREAT", "2"),
            ("0 O_RDONLY", "0"),
            ("577 O_WRONLY|O_CREAT|O_TRUNC", "1"),
            ("3 O_ACCMODE", "3"),
            ("4294967294 x", "2"),
        ] {
            let open = format!("Otape0\n{mode}\n");
            assert_eq!(
                (of(&open, false), of(&open, true)),
                (format!("Otape0\n{plain}\n"), format!("Otape0\n{plain}\n"))
            );
            assert!(is_gnu(open.as_bytes()), "{mode}");
        }
        // All else goes as it is.
        for mode in ["0", "1", "2", "65", "", " ", "1 ", " 1", "x O_RDONLY", "-1 O_RDONLY", "4294967296 x"] {
            let open = format!("Otape0\n{mode}\n");
            assert_eq!((of(&open, false), is_gnu(open.as_bytes())), (open, false), "{mode}");
        }
        assert!(!is_gnu(b"Itape0\n1 x\n") && !is_gnu(b"O1 x\n") && !is_gnu(b"O"));
    }

    /// Numbers are Linux's only where the tape was opened with words.
    #[test]
    fn operations() {
        let all = [
            (0, "6"),
            (1, "1"),
            (2, "2"),
            (3, "3"),
            (4, "4"),
            (5, "0"),
            (6, "5"),
            (7, "6"),
            (8, "6"),
            (4_294_967_295u32, "6"),
        ];
        for (linux, plain) in all {
            let command = format!("I{linux}\n7\n");
            assert_eq!((of(&command, true), of(&command, false)), (format!("I{plain}\n7\n"), command));
        }
        assert_eq!((of("I005\n1\n", true), of("I00\n1\n", true)), ("I0\n1\n".into(), "I6\n1\n".into()));
        for odd in ["I-1\n1\n", "I\n1\n", "I5", "I5\n", "I00000000005\n1\n", "I4294967296\n1\n"] {
            assert_eq!(of(odd, true), odd);
        }
    }

    #[test]
    fn only_a_seek_to_the_start_is_a_rewind() {
        assert_eq!((of("L0\n0\n", true), of("L0\n0\n", false)), ("I5\n0\n".into(), "L0\n0\n".into()));
        for other in ["L1\n0\n", "L0\n1\n", "L0\n2\n", "L-0\n0\n", "L0\n", "L"] {
            assert_eq!(of(other, true), other);
        }
        for other in ["C\n", "R10\n", "W3\n1\n2", "S", "x\ny\n", "\n", ""] {
            assert_eq!(of(other, true), other);
        }
    }

    #[test]
    fn marks_and_data_are_writes() {
        for command in ["W0\n", "W3\nabc", "W", "I0\n1\n", "I0000\n0\n"] {
            assert!(writes(command.as_bytes()), "{command}");
        }
        for command in
            ["I1\n1\n", "I5\n0\n", "I6\n0\n", "I\n0\n", "I0\n", "I00000000000\n1\n", "R0\n", "O0\n1\n", "C\n", "", "x"]
        {
            assert!(!writes(command.as_bytes()), "{command}");
        }
    }
}
