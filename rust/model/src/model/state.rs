//! What a session keeps.

use super::accounts::Challenge;

/// "Data: IDLE 0, ACTIVE 1, HALTED 2, LISTEN 3, CONNECTED 4."
pub mod data {
    pub const IDLE: u32 = 0;
    pub const ACTIVE: u32 = 1;
    pub const HALTED: u32 = 2;
    pub const LISTEN: u32 = 3;
    pub const CONNECTED: u32 = 4;
}

/// "Mover: IDLE 0, LISTEN 1, ACTIVE 2, PAUSED 3, HALTED 4."
pub mod mover {
    pub const IDLE: u32 = 0;
    pub const LISTEN: u32 = 1;
    pub const ACTIVE: u32 = 2;
    pub const PAUSED: u32 = 3;
    pub const HALTED: u32 = 4;
}

/// 004: NDMP_DATA_OP_BACKUP, NDMP_DATA_OP_RECOVER.
pub const BACKUP: u32 = 1;
pub const RECOVER: u32 = 2;

/// Address types of 004: NDMP_ADDR_LOCAL, NDMP_ADDR_TCP.
pub const LOCAL: u32 = 0;
pub const TCP: u32 = 1;

/// 004: NDMP_MOVER_MODE_NOACTION, the mode of a mover at rest (reading).
pub const NOACTION: u32 = 2;

#[derive(Clone, PartialEq, Debug)]
pub struct State {
    pub closed: bool,
    /// No request was answered yet.
    pub fresh: bool,
    pub authorized: bool,
    /// 02 No. 2: whether a challenge was given, and the newest.
    pub challenged: bool,
    pub challenge: Challenge,
    /// The number of the next message sent.
    pub number: u32,
    pub data: Data,
    pub mover: Mover,
    pub tape: Tape,
    pub changer: Changer,
}

#[derive(Clone, PartialEq, Debug)]
pub struct Data {
    pub state: u32,
    pub operation: u32,
    pub halt: u32,
    /// 02 No. 14: "get state gives the type, until stop".
    pub address: u32,
    pub processed: u64,
}

#[derive(Clone, PartialEq, Debug)]
pub struct Mover {
    pub state: u32,
    pub mode: u32,
    pub pause: u32,
    pub halt: u32,
    pub record_size: u32,
    pub address: u32,
    /// Offset and length; length 0 is no window.
    pub window: (u64, u64),
    pub moved: u64,
    pub seek: u64,
    pub left: u64,
    /// "The tape position when the mover became ACTIVE."
    pub origin: u64,
}

#[derive(Clone, PartialEq, Debug)]
pub struct Tape {
    pub open: bool,
    pub writable: bool,
    pub position: u64,
}

#[derive(Clone, PartialEq, Debug)]
pub struct Changer {
    pub open: bool,
    /// The pending sense: its key, code and qualifier; zeros where none is pending.
    pub sense: [u8; 3],
    pub slots: Slots,
}

/// 02 No. 7: "eight slots and one drive": "a cartridge's number or 0 a place". The drive comes first, then the slots
/// 16 to 23.
pub type Slots = [u32; 9];

pub const EMPTY: Slots = [0; 9];

impl Changer {
    /// "from one that names none twice"; 0 names none.
    pub fn names_one_twice(slots: &Slots) -> bool {
        (0..9).any(|i| slots[i] != 0 && slots[..i].contains(&slots[i]))
    }

    /// The cartridge in the drive.
    pub fn loaded(&self) -> u32 {
        self.slots[0]
    }
}

impl Data {
    pub fn is_joined(&self) -> bool {
        matches!(self.state, data::CONNECTED | data::ACTIVE)
    }

    pub fn listens(&self, address: u32) -> bool {
        self.state == data::LISTEN && self.address == address
    }

    pub fn at_rest() -> Data {
        Data { state: data::IDLE, operation: 0, halt: 0, address: LOCAL, processed: 0 }
    }
}

/// 02 No. 1: the length that means "until I pause you".
pub const ENDLESS: u64 = 18446744073709551615;

impl Mover {
    pub fn is_joined(&self) -> bool {
        matches!(self.state, mover::ACTIVE | mover::PAUSED)
    }

    pub fn listens(&self, address: u32) -> bool {
        self.state == mover::LISTEN && self.address == address
    }

    /// The position that the window ends before. 02 No. 1: a window of all ones goes "from the offset up to stream
    /// position 2^64 - 1, itself outside".
    pub fn window_end(&self) -> u128 {
        match self.window {
            (_, ENDLESS) => u64::MAX as u128,
            (offset, length) => offset as u128 + length as u128,
        }
    }

    pub fn at_rest(record_size: u32) -> Mover {
        Mover {
            state: mover::IDLE,
            mode: NOACTION,
            pause: 0,
            halt: 0,
            record_size,
            address: LOCAL,
            window: (0, 0),
            moved: 0,
            seek: 0,
            left: 0,
            origin: 0,
        }
    }
}

impl State {
    /// Record size, 02 No. 9: "The first value becomes 10,240". (01: "It starts at 0, unset.")
    pub fn at_rest(slots: Slots) -> State {
        State {
            closed: false,
            fresh: true,
            authorized: false,
            challenged: false,
            challenge: [0; 64],
            number: 1,
            data: Data::at_rest(),
            mover: Mover::at_rest(10_240),
            tape: Tape { open: false, writable: false, position: 0 },
            changer: Changer { open: false, sense: [0; 3], slots },
        }
    }

    /// "Data is CONNECTED or ACTIVE exactly when the mover is ACTIVE or PAUSED; then they are joined." 02 No. 14: "A vault
    /// end joined by TCP has no local partner, so 01's rules on joined ends and 23 hold for LOCAL only".
    pub fn joined(&self) -> bool {
        self.data.is_joined() && self.data.address == LOCAL
    }
}
