//! 02 No. 5, "The old ferry scripts speak rmt": the commands of 001 "over the same cartridge, through NDMP's tape rules,
//! which decide over 001".

use super::refusals::refuse;
use super::xdr::Reader;
use super::{State, tape};

/// "open, close, read, write, and the I operations 0 to 5"
#[derive(Debug, PartialEq)]
pub enum Command<'a> {
    Open { path: &'a [u8], mode: u32 },
    Close,
    Read { count: u32 },
    Write { data: &'a [u8] },
    Operate { operation: u32, count: u32 },
}

/// The bytes before the first LF, and those after it. 001: "\n: Denotes an ASCII LineFeed (LF, code 10 (decimal))
/// character."
fn line(bytes: &[u8]) -> Option<(&[u8], &[u8])> {
    let end = bytes.iter().position(|b| *b == 10)?;
    Some((&bytes[..end], &bytes[end + 1..]))
}

/// "Decimal numbers are one to ten digits, at most 4,294,967,295." A 0 in front is a digit like the others (reading).
fn number(digits: &[u8]) -> Option<u32> {
    if !(1..=10).contains(&digits.len()) || !digits.iter().all(u8::is_ascii_digit) {
        return None;
    }
    let value = digits.iter().fold(0, |n, digit| 10 * n + u64::from(digit - b'0'));
    u32::try_from(value).ok()
}

/// None: "what does not read so, other I operations, L and every other command". 001:
/// "<command-letter>[<opt-arg1>\n[<opt-arg2>\n][<opt-data]]".
pub fn read(command: &[u8]) -> Option<Command<'_>> {
    let (letter, rest) = command.split_first()?;
    let (first, rest) = line(rest)?;
    let (command, behind) = match letter {
        // 001: "O<pathname>\n<mode>\n"
        b'O' => {
            let (mode, rest) = line(rest)?;
            (Command::Open { path: first, mode: number(mode)? }, rest)
        }
        // 001: "C<pathname>\n: ... The <pathname> argument is required, but currently ignored." It may have no bytes
        // (reading).
        b'C' => (Command::Close, rest),
        // 001: "R<count>\n"
        b'R' => (Command::Read { count: number(first)? }, rest),
        // 001: "W<count>\n<data>: ... The bytes of <data> to be written are sent immediately after the newline"
        b'W' => {
            let (data, rest) = rest.split_at_checked(number(first)? as usize)?;
            (Command::Write { data }, rest)
        }
        // 001: "I<operation>\n<count>\n"; the count of a rewind is to be a number too (reading).
        b'I' => {
            let (count, rest) = line(rest)?;
            let operation = number(first).filter(|n| *n <= 5)?;
            (Command::Operate { operation, count: number(count)? }, rest)
        }
        _ => return None,
    };
    // "A call is lent one whole command, W with its data"
    behind.is_empty().then_some(command)
}

/// "Open modes 1 and 2 both are NDMP's 1". The others are no modes of NDMP's either, so that they are refused in 9's
/// place (reading).
fn mode_of_ndmp(mode: u32) -> u32 {
    match mode {
        1 | 2 => 1,
        _ => mode,
    }
}

/// 001: "0 Write <count> EOF marks. 1 Forward space over <count> EOF marks. 2 Space backwards over <count> EOF marks. 3
/// Forward space over <count> records. 4 Space backwards over <count> records. 5 Rewind." 01: "0 FSF, 1 BSF, 2 FSR, 3
/// BSR, 4 REW, 5 write marks".
const MTIO: [u32; 6] = [5, 0, 1, 2, 3, 4];

/// The number and the data of an accepting reply, or what NDMP refuses it with, 12 and 13 among them.
fn done(s: &mut State, image: &mut [u8], command: &[u8]) -> Result<(u32, Vec<u8>), u32> {
    // "in 18's place"
    let command = read(command).ok_or(18u32)?;
    // "01's order carries over": "4: before auth, all but CONNECT and 0x108" (reading)
    refuse(!s.authorized, 4)?;
    let body = match command {
        // The name is compared as it is, with nothing before it (reading).
        Command::Open { path, mode } => tape::open(s, image, path, mode_of_ndmp(mode)),
        Command::Close => tape::close(s),
        Command::Read { count } => tape::read(s, image, count),
        Command::Write { data } => tape::write(s, image, data),
        Command::Operate { operation, count } => tape::mtio(s, image, MTIO[operation as usize], count),
    }?;
    let mut r = Reader(&body.0);
    let error = r.word().unwrap();
    // The tape has moved as NDMP's has (reading).
    refuse(error != 0, error)?;
    Ok(match command {
        // 001: "the actual number of bytes written"
        Command::Write { .. } => (r.word().unwrap(), vec![]),
        // 001: "the number of bytes read and [<opt-data>] is the actual data read"
        Command::Read { .. } => {
            let data = r.opaque().unwrap();
            (data.len() as u32, data.to_vec())
        }
        // "open, close and I reply `A0`"
        _ => (0, vec![]),
    })
}

/// "E22 for what does not read so ..., in 18's place, and for 9; E6 no device (6, 16); E5 for every other".
fn error(number: u32) -> u32 {
    match number {
        18 | 9 => 22,
        6 | 16 => 6,
        _ => 5,
    }
}

/// "a text from a table you list in docs/"
fn text(error: u32) -> &'static str {
    match error {
        5 => "I/O error",
        6 => "No such device or address",
        22 => "Invalid argument",
        _ => unreachable!("is no error of these"),
    }
}

/// What NDMP answers it with, and the reply. 001: "A<retval>\n[<opt-data>]", "E<error-number>\n<error-message>\n".
pub fn answer(s: &mut State, image: &mut [u8], command: &[u8]) -> (u32, Vec<u8>) {
    match done(s, image, command) {
        Ok((number, data)) => (0, [format!("A{number}\n").into_bytes(), data].concat()),
        Err(number) => {
            let error = error(number);
            (number, format!("E{error}\n{}\n", text(error)).into_bytes())
        }
    }
}
