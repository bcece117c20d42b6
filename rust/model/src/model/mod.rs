//! The vault's rules in plain Rust, written from the papers. Each file is a section of paper 01 ("Build description and
//! exact rules"), and each rule stands under its sentence. "004" is the NDMP draft. Where a sentence can be read in two
//! ways, "reading" says which way is taken.

pub mod accounts;
#[cfg(test)]
mod by_hand;
pub mod calls;
pub mod cartridge;
pub mod changer;
#[cfg(test)]
mod changer_by_hand;
pub mod connection;
pub mod ends;
pub mod environment;
#[cfg(test)]
mod environment_by_hand;
#[cfg(test)]
mod login_by_hand;
pub mod md5;
pub mod moves;
pub mod record;
pub mod refusals;
pub mod relation;
pub mod requests;
pub mod rmt;
#[cfg(test)]
mod rmt_by_hand;
pub mod state;
pub mod tape;
#[cfg(test)]
mod vectors;
pub mod xdr;

pub use state::State;
