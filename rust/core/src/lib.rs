//! The proved calls, for a host in Rust. The structs are the declarations of crates/rules as they stand; that the
//! functions below are those of crates/capi is checked by nothing but the tests that call them.

pub mod codes;
mod names;
mod types {
    include!("../../../crates/rules_parts/src/types.rt");
}

pub use types::{Answer, Changer, Data, Login, Moved, Mover, Session, Tape};

/// The least output that the calls take.
pub const OUTPUT: usize = codes::LARGEST_MESSAGE;

/// The least output that a listing of accounts takes, as `crates/call_accounts` has it (`tests/names.rs` compares both).
pub const LEAST_LISTING: usize = 96;

/// What a login by MD5 answers.
pub type Challenge = [u8; codes::CHALLENGE_LENGTH];

/// The cartridge in each place of the changer: the drive first, then the slots 16 to 23. 0 is none.
pub type Slots = [u32; 9];

unsafe extern "C" {
    fn mossgoblin_open(slots: *const Slots, time: u32, out: *mut u8, n: usize) -> Answer;
    fn mossgoblin_request(
        s: Session,
        accounts: *const u8,
        accounts_len: usize,
        challenge: *const Challenge,
        addresses: *const u8,
        addresses_len: usize,
        made: bool,
        image: *mut u8,
        n: usize,
        variables: *mut u8,
        variables_len: usize,
        input: *const u8,
        m: usize,
        time: u32,
        out: *mut u8,
        k: usize,
    ) -> Answer;
    fn mossgoblin_move_to_tape(
        s: Session,
        image: *mut u8,
        n: usize,
        stream: *const u8,
        m: usize,
        last: bool,
        time: u32,
        out: *mut u8,
        k: usize,
    ) -> Moved;
    fn mossgoblin_move_from_tape(
        s: Session,
        image: *const u8,
        n: usize,
        dest: *mut u8,
        m: usize,
        time: u32,
        out: *mut u8,
        k: usize,
    ) -> Moved;
    fn mossgoblin_end_method(s: Session, ok: bool, time: u32, out: *mut u8, n: usize) -> Answer;
    fn mossgoblin_made(s: Session, mover: bool, time: u32, out: *mut u8, n: usize) -> Answer;
    fn mossgoblin_lost(s: Session, mover: bool, time: u32, out: *mut u8, n: usize) -> Answer;
    fn mossgoblin_rmt(
        s: Session,
        image: *mut u8,
        n: usize,
        command: *const u8,
        m: usize,
        out: *mut u8,
        k: usize,
    ) -> Answer;
    fn mossgoblin_addresses(input: *const u8, n: usize) -> Addresses;
    fn mossgoblin_accounts(accounts: *const u8, n: usize, out: *mut u8, k: usize) -> Listed;
    fn mossgoblin_sound(image: *const u8, n: usize) -> bool;
    fn mossgoblin_entry(image: *const u8, n: usize, i: usize) -> Entry;
}

/// An entry of a cartridge, as `crates/capi` has it: a record's length, or 0 for a mark, and where it starts in the body. The error is 0, or
/// AT_END past the last entry, or BAD_FILE for an image that is not sound.
#[repr(C)]
#[derive(Clone, Copy, Debug, PartialEq)]
pub struct Entry {
    pub error: u32,
    pub len: usize,
    pub start: usize,
}

/// Where a connect by TCP may go, as `crates/capi` has it: so many hosts, as numbers, each with the port beside it. What is past the count is 0.
#[repr(C)]
#[derive(Clone, Copy, Debug, PartialEq)]
pub struct Addresses {
    pub count: u32,
    pub hosts: [u32; codes::MOST_ADDRESSES as usize],
    pub ports: [u32; codes::MOST_ADDRESSES as usize],
}

/// What a listing of accounts came to, as `crates/call_accounts` has it: the code is 0, or SHORT_OUTPUT, and the lines
/// are the output's first `len` bytes.
#[repr(C)]
#[derive(Clone, Copy, Debug, PartialEq)]
pub struct Listed {
    pub code: u32,
    pub len: usize,
}

// Safety, of all twelve: the slices are whole and apart, and the functions ask for nothing else.

/// A list that names a cartridge twice is refused with 1002. With 1001 and 1002 the session that comes back is
/// closed, and its list is empty.
pub fn open(slots: &Slots, time: u32, out: &mut [u8]) -> Answer {
    unsafe { mossgoblin_open(slots, time, out.as_mut_ptr(), out.len()) }
}

/// The accounts are what a login is compared with: an XDR list of at most `codes::MOST_ACCOUNTS`, of each its kind (`codes::MD5_AUTH`, or
/// `codes::TEXT_AUTH`, by which nobody gets in), its id and its password. The challenge is given to a client that asks for one, and has to be another with each call. The addresses
/// are what a listen by TCP answers: an XDR list, without the type. Made is whether the connection of a connect by TCP was made. Other requests look at none
/// of these. The variables are the store of the environment, `codes::STORE_LENGTH` bytes, which an accepted start and an accepted stop of the data end
/// write: one of another length is refused with 1001.
#[allow(clippy::too_many_arguments)]
pub fn request(
    s: Session,
    accounts: &[u8],
    challenge: &Challenge,
    addresses: &[u8],
    made: bool,
    image: &mut [u8],
    variables: &mut [u8],
    input: &[u8],
    time: u32,
    out: &mut [u8],
) -> Answer {
    unsafe {
        mossgoblin_request(
            s,
            accounts.as_ptr(),
            accounts.len(),
            challenge,
            addresses.as_ptr(),
            addresses.len(),
            made,
            image.as_mut_ptr(),
            image.len(),
            variables.as_mut_ptr(),
            variables.len(),
            input.as_ptr(),
            input.len(),
            time,
            out.as_mut_ptr(),
            out.len(),
        )
    }
}

pub fn move_to_tape(s: Session, image: &mut [u8], stream: &[u8], last: bool, time: u32, out: &mut [u8]) -> Moved {
    unsafe {
        mossgoblin_move_to_tape(
            s,
            image.as_mut_ptr(),
            image.len(),
            stream.as_ptr(),
            stream.len(),
            last,
            time,
            out.as_mut_ptr(),
            out.len(),
        )
    }
}

pub fn move_from_tape(s: Session, image: &[u8], dest: &mut [u8], time: u32, out: &mut [u8]) -> Moved {
    unsafe {
        mossgoblin_move_from_tape(
            s,
            image.as_ptr(),
            image.len(),
            dest.as_mut_ptr(),
            dest.len(),
            time,
            out.as_mut_ptr(),
            out.len(),
        )
    }
}

pub fn end_method(s: Session, ok: bool, time: u32, out: &mut [u8]) -> Answer {
    unsafe { mossgoblin_end_method(s, ok, time, out.as_mut_ptr(), out.len()) }
}

/// The event of a connection that was made where the mover, or else the data end, listens by TCP.
pub fn made(s: Session, mover: bool, time: u32, out: &mut [u8]) -> Answer {
    unsafe { mossgoblin_made(s, mover, time, out.as_mut_ptr(), out.len()) }
}

/// The event of a connection that was lost where the mover, or else the data end, is joined by TCP.
pub fn lost(s: Session, mover: bool, time: u32, out: &mut [u8]) -> Answer {
    unsafe { mossgoblin_lost(s, mover, time, out.as_mut_ptr(), out.len()) }
}

/// One whole command of rmt, W with its data, on the tape of an authorized session. The reply is the output's first `len` bytes; it takes no sequence number,
/// and the first-request mark stays.
pub fn rmt(s: Session, image: &mut [u8], command: &[u8], out: &mut [u8]) -> Answer {
    unsafe {
        mossgoblin_rmt(s, image.as_mut_ptr(), image.len(), command.as_ptr(), command.len(), out.as_mut_ptr(), out.len())
    }
}

/// The addresses of a record that is a connect by TCP; none of any other.
pub fn addresses(input: &[u8]) -> Addresses {
    unsafe { mossgoblin_addresses(input.as_ptr(), input.len()) }
}

/// The accounts that `request` may be lent, as lines: a number from 0, a blank, `md5` or `withdrawn`. Of bytes that are
/// not laid out so there are none. An output below `LEAST_LISTING` is refused with 1001.
pub fn accounts(accounts: &[u8], out: &mut [u8]) -> Listed {
    unsafe { mossgoblin_accounts(accounts.as_ptr(), accounts.len(), out.as_mut_ptr(), out.len()) }
}

/// The image is a sound cartridge.
pub fn sound(image: &[u8]) -> bool {
    unsafe { mossgoblin_sound(image.as_ptr(), image.len()) }
}

/// Entry i of a cartridge.
pub fn entry(image: &[u8], i: usize) -> Entry {
    unsafe { mossgoblin_entry(image.as_ptr(), image.len(), i) }
}
