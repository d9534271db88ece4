//! The register store for hosts in Rust: the structs of the proved static library, and its calls, safe over slices.
//!
//! Every call is lent slices and passes each as pointer and length in elements. The heads go in and come back by value.
//! `c/registers.h` says of each call what it answers and what it refuses.

pub mod about;
pub mod journal;
pub mod limits;
pub mod map;
pub mod numbers;

use limits::{KEYS, RUNNING};

/// What a call answers: section 6's number (0 accepted) and, where `present` is 1, a value beside it.
#[repr(C)]
#[derive(Clone, Copy, PartialEq, Eq, Debug)]
pub struct Answer {
    pub number: u32,
    pub present: u32,
    pub value: u64,
}

/// The head of the journal store.
#[repr(C)]
#[derive(Clone, Copy, PartialEq, Eq, Debug)]
pub struct JournalHead {
    pub low: u64,
    pub floor: u32,
    pub base_rows: usize,
    pub used: usize,
}

/// The head to use from now on, and the answer of a call of the journal store.
#[repr(C)]
#[derive(Clone, Copy, PartialEq, Eq, Debug)]
pub struct JournalResult {
    pub head: JournalHead,
    pub answer: Answer,
}

/// A running transaction of the map store. A row's mark is 0 where its value is assigned; any other number says that the
/// transaction used nothing but add on the key, and the value is the total.
#[repr(C)]
#[derive(Clone, Copy, PartialEq, Eq, Debug)]
pub struct Slot {
    pub number: u32,
    pub snapshot: u64,
    pub count: usize,
    pub keys: [u32; KEYS],
    pub values: [u32; KEYS],
    pub marks: [u8; KEYS],
}

/// The eight slots; the one bits of `occupied` name the occupied ones.
#[repr(C)]
#[derive(Clone, Copy, PartialEq, Eq, Debug)]
pub struct Slots {
    pub occupied: u8,
    pub slots: [Slot; RUNNING],
}

/// The head of the map store.
#[repr(C)]
#[derive(Clone, Copy, PartialEq, Eq, Debug)]
pub struct MapHead {
    pub low: u64,
    pub last: u64,
    pub next: u32,
    pub used: usize,
    pub slots: Slots,
}

/// The head to use from now on, and the answer of a call of the map store.
#[repr(C)]
#[derive(Clone, Copy, PartialEq, Eq, Debug)]
pub struct MapResult {
    pub head: MapHead,
    pub answer: Answer,
}

// The sizes the interface states; another layout does not compile.
const _: () = assert!(size_of::<Answer>() == 16);
const _: () = assert!(size_of::<JournalHead>() == 32);
const _: () = assert!(size_of::<JournalResult>() == 48);
const _: () = assert!(size_of::<Slot>() == 312);
const _: () = assert!(size_of::<Slots>() == 2504);
const _: () = assert!(size_of::<MapHead>() == 2536);
const _: () = assert!(size_of::<MapResult>() == 2552);
