//! The messages that the vault handles, by the names and numbers of the NDMP draft.

pub const CONFIG_GET_CONNECTION_TYPE: u32 = 0x102;
pub const CONFIG_GET_AUTH_ATTR: u32 = 0x103;
pub const CONFIG_GET_SERVER_INFO: u32 = 0x108;
pub const SCSI_OPEN: u32 = 0x200;
pub const SCSI_CLOSE: u32 = 0x201;
pub const SCSI_GET_STATE: u32 = 0x202;
pub const SCSI_RESET_DEVICE: u32 = 0x204;
pub const SCSI_EXECUTE_CDB: u32 = 0x206;
pub const TAPE_OPEN: u32 = 0x300;
pub const TAPE_CLOSE: u32 = 0x301;
pub const TAPE_GET_STATE: u32 = 0x302;
pub const TAPE_MTIO: u32 = 0x303;
pub const TAPE_WRITE: u32 = 0x304;
pub const TAPE_READ: u32 = 0x305;
pub const DATA_GET_STATE: u32 = 0x400;
pub const DATA_START_BACKUP: u32 = 0x401;
pub const DATA_START_RECOVER: u32 = 0x402;
pub const DATA_ABORT: u32 = 0x403;
pub const DATA_GET_ENV: u32 = 0x404;
pub const DATA_STOP: u32 = 0x407;
pub const DATA_LISTEN: u32 = 0x409;
pub const DATA_CONNECT: u32 = 0x40a;
pub const NOTIFY_DATA_HALTED: u32 = 0x501;
pub const NOTIFY_CONNECTED: u32 = 0x502;
pub const NOTIFY_MOVER_HALTED: u32 = 0x503;
pub const NOTIFY_MOVER_PAUSED: u32 = 0x504;
pub const CONNECT_OPEN: u32 = 0x900;
pub const CONNECT_CLIENT_AUTH: u32 = 0x901;
pub const CONNECT_CLOSE: u32 = 0x902;
pub const MOVER_GET_STATE: u32 = 0xa00;
pub const MOVER_LISTEN: u32 = 0xa01;
pub const MOVER_CONTINUE: u32 = 0xa02;
pub const MOVER_ABORT: u32 = 0xa03;
pub const MOVER_STOP: u32 = 0xa04;
pub const MOVER_SET_WINDOW: u32 = 0xa05;
pub const MOVER_READ: u32 = 0xa06;
pub const MOVER_CLOSE: u32 = 0xa07;
pub const MOVER_SET_RECORD_SIZE: u32 = 0xa08;
pub const MOVER_CONNECT: u32 = 0xa09;

/// A message's name, for a person.
pub fn name(message: u32) -> &'static str {
    match message {
        CONFIG_GET_CONNECTION_TYPE => "connection type",
        CONFIG_GET_AUTH_ATTR => "auth attributes",
        CONFIG_GET_SERVER_INFO => "server info",
        SCSI_OPEN => "scsi open",
        SCSI_CLOSE => "scsi close",
        SCSI_GET_STATE => "scsi get state",
        SCSI_RESET_DEVICE => "scsi reset device",
        SCSI_EXECUTE_CDB => "execute cdb",
        TAPE_OPEN => "tape open",
        TAPE_CLOSE => "tape close",
        TAPE_GET_STATE => "tape get state",
        TAPE_MTIO => "tape mtio",
        TAPE_WRITE => "tape write",
        TAPE_READ => "tape read",
        DATA_GET_STATE => "data get state",
        DATA_START_BACKUP => "data start backup",
        DATA_START_RECOVER => "data start recover",
        DATA_ABORT => "data abort",
        DATA_GET_ENV => "data get env",
        DATA_STOP => "data stop",
        DATA_LISTEN => "data listen",
        DATA_CONNECT => "data connect",
        CONNECT_OPEN => "connect open",
        CONNECT_CLIENT_AUTH => "client auth",
        CONNECT_CLOSE => "connect close",
        MOVER_GET_STATE => "mover get state",
        MOVER_LISTEN => "mover listen",
        MOVER_CONTINUE => "mover continue",
        MOVER_ABORT => "mover abort",
        MOVER_STOP => "mover stop",
        MOVER_SET_WINDOW => "mover set window",
        MOVER_READ => "mover read",
        MOVER_CLOSE => "mover close",
        MOVER_SET_RECORD_SIZE => "mover set record size",
        MOVER_CONNECT => "mover connect",
        _ => "request",
    }
}
