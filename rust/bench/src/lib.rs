//! What the programs of the benchmark share.
pub mod common;
pub mod plain_moves;
pub mod plain_tape;
pub mod proved_tape;
pub mod tape;
