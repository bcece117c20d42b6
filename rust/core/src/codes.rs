//! The numbers of crates/codes by the same names; `tests/names.rs` compares both.

macro_rules! numbers {
    ($($name:ident: $t:ty = $n:literal;)*) => {
        $(pub const $name: $t = $n;)*
        /// Each with its name.
        pub const NAMED: &[(&str, u64)] = &[$((stringify!($name), $n)),*];
    };
}

numbers! {
    NOT_SUPPORTED: u32 = 1;
    DEVICE_OPENED: u32 = 3;
    NOT_AUTHORIZED: u32 = 4;
    PERMISSION_DENIED: u32 = 5;
    NOT_OPEN: u32 = 6;
    IO_ERROR: u32 = 7;
    ILLEGAL_ARGUMENTS: u32 = 9;
    NO_TAPE_LOADED: u32 = 10;
    AT_MARK: u32 = 12;
    AT_END: u32 = 13;
    BAD_FILE: u32 = 15;
    NO_DEVICE: u32 = 16;
    UNDECODABLE: u32 = 18;
    ILLEGAL_STATE: u32 = 19;
    NO_MEMORY: u32 = 22;
    OTHER_NOT_LISTENING: u32 = 23;
    READ_IN_PROGRESS: u32 = 25;
    PRECONDITION: u32 = 26;
    SHORT_OUTPUT: u32 = 1001;
    BROKEN_SESSION: u32 = 1002;
    FORWARD_FILES: u32 = 0;
    BACK_FILES: u32 = 1;
    FORWARD_RECORDS: u32 = 2;
    BACK_RECORDS: u32 = 3;
    REWIND_TAPE: u32 = 4;
    WRITE_MARKS: u32 = 5;
    OFF_LINE: u32 = 6;
    TEST_READY: u32 = 0x00;
    REQUEST_SENSE: u32 = 0x03;
    MOVE_MEDIUM: u32 = 0xA5;
    ELEMENT_STATUS: u32 = 0xB8;
    MOST_STATUS: usize = 152;
    LARGEST_MESSAGE: usize = 36864;
    LONGEST_RECORD: usize = 32768;
    SENSE_BYTES: u32 = 18;
    MOST_LISTED: u32 = 64;
    MOST_ADDRESSES: u32 = 16;
    MOST_PORT: u32 = 65535;
    MOST_LENT: usize = 16384;
    STORE_LENGTH: usize = 16384;
    MOST_ACCOUNTS: u32 = 8;
    LONGEST_PASSWORD: usize = 32;
    CHALLENGE_LENGTH: usize = 64;
    DIGEST_LENGTH: usize = 16;
    LOCAL_ADDRESS: u32 = 0;
    TCP_ADDRESS: u32 = 1;
    TEXT_AUTH: u32 = 1;
    MD5_AUTH: u32 = 2;
    VERSION_FOUR: u32 = 4;
}
