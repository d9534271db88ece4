//! What the library was built with, so that the constants of `limits` and `numbers` can be held to it.

/// The limits, how many refusals there are, and which layout the heads have.
#[repr(C)]
#[derive(Clone, Copy, PartialEq, Eq, Debug)]
pub struct Limits {
    pub layout: u32,
    pub running: u32,
    pub keys: u32,
    pub base_rows: u32,
    pub version_rows: u32,
    pub journal_bytes: u32,
    pub record_bytes: u32,
    pub refusals: u32,
}

/// The number of each refusal.
#[repr(C)]
#[derive(Clone, Copy, PartialEq, Eq, Debug)]
pub struct Numbers {
    pub bad_shape: u32,
    pub unknown_transaction: u32,
    pub bad_key: u32,
    pub too_old: u32,
    pub future: u32,
    pub too_many: u32,
    pub no_numbers: u32,
    pub keys_full: u32,
    pub held: u32,
    pub not_later: u32,
    pub conflict: u32,
    pub no_room: u32,
    pub bad_record: u32,
}

extern "C" {
    fn registers_limits() -> Limits;
    fn registers_numbers() -> Numbers;
}

pub fn limits() -> Limits {
    unsafe { registers_limits() }
}

pub fn numbers() -> Numbers {
    unsafe { registers_numbers() }
}
