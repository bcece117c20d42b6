//! States, modes, reasons and the first record size by the names that crates/rules_parts gives them (`tests/names.rs` compares both), and in
//! words.
use crate::{Data, Mover};

macro_rules! numbers {
    ($t:ident { $($name:ident = $n:literal),* $(,)? $(; $($wide:ident = $m:literal),* $(,)?)? }) => {
        impl $t {
            $(pub const $name: u32 = $n;)*
            $($(pub const $wide: u64 = $m;)*)?
            /// Each with its name.
            pub const NAMED: &[(&str, u64)] = &[$((stringify!($name), $n),)* $($((stringify!($wide), $m),)*)?];
        }
    };
}

numbers! {
    Data {
        IDLE = 0, ACTIVE = 1, HALTED = 2, LISTEN = 3, CONNECTED = 4,
        NO_OPERATION = 0, BACKUP = 1, RECOVER = 2,
        SUCCESSFUL = 1, ABORTED = 2, INTERNAL_ERROR = 3, CONNECT_ERROR = 4,
    }
}

numbers! {
    Mover {
        IDLE = 0, LISTEN = 1, ACTIVE = 2, PAUSED = 3, HALTED = 4,
        TO_TAPE = 0, FROM_TAPE = 1, NO_MODE = 2,
        CONNECT_CLOSED = 1, ABORTED = 2, MEDIA_ERROR = 5,
        END_OF_MEDIUM = 1, END_OF_FILE = 2, SEEK = 3, END_OF_WINDOW = 5,
        FIRST_SIZE = 10240;
        TOP = 18446744073709551615, ENDLESS = 18446744073709551615,
    }
}

fn named(names: &[&'static str], n: u32) -> &'static str {
    names.get(n as usize).copied().unwrap_or("?")
}

impl Data {
    pub fn state_name(&self) -> &'static str {
        named(&["IDLE", "ACTIVE", "HALTED", "LISTEN", "CONNECTED"], self.state)
    }

    pub fn operation_name(&self) -> &'static str {
        named(&["none", "backup", "recover"], self.operation)
    }

    /// Why it halted.
    pub fn halt_name(&self) -> &'static str {
        named(&["none", "successful", "aborted", "internal error", "connect error"], self.reason)
    }
}

impl Mover {
    pub fn state_name(&self) -> &'static str {
        named(&["IDLE", "LISTEN", "ACTIVE", "PAUSED", "HALTED"], self.state)
    }

    pub fn mode_name(&self) -> &'static str {
        named(&["to tape", "from tape", "none"], self.mode)
    }

    pub fn pause_name(&self) -> &'static str {
        named(&["none", "end of tape", "mark", "seek", "media error", "end of window"], self.pause)
    }

    pub fn halt_name(&self) -> &'static str {
        let names = ["none", "connection closed", "aborted", "internal error", "connect error", "media error"];
        named(&names, self.halt)
    }
}
