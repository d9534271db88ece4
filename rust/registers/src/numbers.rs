//! The numbers of the rule book's section 6, by name.

pub const ACCEPTED: u32 = 0;
pub const BAD_SHAPE: u32 = 1;
pub const UNKNOWN_TRANSACTION: u32 = 2;
pub const BAD_KEY: u32 = 3;
pub const TOO_OLD: u32 = 4;
pub const FUTURE: u32 = 5;
pub const TOO_MANY: u32 = 6;
pub const NO_NUMBERS: u32 = 7;
pub const KEYS_FULL: u32 = 8;
pub const HELD: u32 = 9;
pub const NOT_LATER: u32 = 10;
pub const CONFLICT: u32 = 11;
pub const NO_ROOM: u32 = 12;
pub const BAD_RECORD: u32 = 13;
