//! "Refusals and their order".

use super::xdr::Writer;

/// A reply's body, or the number of the refusal.
pub type Outcome = Result<Writer, u32>;

/// "The first that applies is given": tests stand in the table's order.
pub fn refuse(when: bool, number: u32) -> Result<(), u32> {
    if when { Err(number) } else { Ok(()) }
}

/// "all others in the body, header error 0; other reply fields are zero or empty". The layouts are 004's: how many
/// words a body of zeros and empty lists has, and which of them is the error.
pub fn refused(message: u32, number: u32) -> Vec<u8> {
    let (words, error) = match message {
        // addr_types<>; server_attr of type NONE
        0x102 | 0x103 => (2, 0),
        // controller, id, lun
        0x202 => (4, 0),
        // status, dataout_len, datain<>, ext_sense<>
        0x206 => (5, 0),
        // unsupported, error, flags, file_num, soft_errors, block_size, blockno, two quads
        0x302 => (11, 1),
        // resid_count; count; data_in<>
        0x303..=0x305 => (2, 0),
        // unsupported, error, operation, state, halt_reason, two quads, est_time_remain, address, two quads
        0x400 => (15, 1),
        // env<>
        0x404 => (2, 0),
        // connect_addr
        0x409 | 0xa01 => (2, 0),
        // error, mode, state, two reasons, record_size, record_num, five quads, address
        0xa00 => (18, 0),
        _ => (1, 0),
    };
    let mut body = vec![0; words];
    body[error] = number;
    Writer::words(&body).0
}
