//! The calls in plain Rust.

use super::Calls;
use crate::lent::{JournalLent, MapLent};
use crate::plain::{self, Effect};
use registers::{Answer, JournalHead, MapHead};

/// Plain Rust.
pub struct Plain;

impl Calls<JournalHead, JournalLent> for Plain {
    fn empty() -> JournalHead {
        JournalHead { low: 0, floor: 1, base_rows: 0, used: 0 }
    }

    fn begin(h: &mut JournalHead, l: &mut JournalLent, t: u64) -> Answer {
        plain::journal::begin(h, l, t)
    }

    fn assign(h: &mut JournalHead, l: &mut JournalLent, n: u32, k: u32, v: u32) -> Answer {
        plain::journal::update(h, l, n, k, Effect::Assign(v))
    }

    fn add(h: &mut JournalHead, l: &mut JournalLent, n: u32, k: u32, d: u32) -> Answer {
        plain::journal::update(h, l, n, k, Effect::Add(d))
    }

    fn abort(h: &mut JournalHead, l: &mut JournalLent, n: u32) -> Answer {
        plain::journal::abort(h, l, n)
    }

    fn commit(h: &mut JournalHead, l: &mut JournalLent, n: u32, t: u64) -> Answer {
        plain::journal::commit(h, l, n, t)
    }

    fn read(h: &JournalHead, l: &JournalLent, n: u32, k: u32) -> Answer {
        plain::journal::read(h, l, n, k)
    }

    fn lookup(h: &JournalHead, l: &JournalLent, k: u32, t: u64) -> Answer {
        plain::journal::lookup(h, l, k, t)
    }

    fn list(h: &JournalHead, l: &JournalLent, t: u64, keys: &mut [u32], values: &mut [u32]) -> Answer {
        plain::journal::list(h, l, t, keys, values)
    }

    fn checkpoint(h: &mut JournalHead, l: &mut JournalLent, t: u64) -> Answer {
        plain::journal::checkpoint(h, l, t)
    }

    fn recover(h: &mut JournalHead, l: &mut JournalLent, survived: usize) -> Answer {
        plain::journal::recover(h, l, survived)
    }
}

impl Calls<MapHead, MapLent> for Plain {
    fn empty() -> MapHead {
        plain::map::EMPTY
    }

    fn begin(h: &mut MapHead, l: &mut MapLent, t: u64) -> Answer {
        plain::map::begin(h, l, t)
    }

    fn assign(h: &mut MapHead, l: &mut MapLent, n: u32, k: u32, v: u32) -> Answer {
        plain::map::update(h, l, n, k, Effect::Assign(v))
    }

    fn add(h: &mut MapHead, l: &mut MapLent, n: u32, k: u32, d: u32) -> Answer {
        plain::map::update(h, l, n, k, Effect::Add(d))
    }

    fn abort(h: &mut MapHead, l: &mut MapLent, n: u32) -> Answer {
        plain::map::abort(h, l, n)
    }

    fn commit(h: &mut MapHead, l: &mut MapLent, n: u32, t: u64) -> Answer {
        plain::map::commit(h, l, n, t)
    }

    fn read(h: &MapHead, l: &MapLent, n: u32, k: u32) -> Answer {
        plain::map::read(h, l, n, k)
    }

    fn lookup(h: &MapHead, l: &MapLent, k: u32, t: u64) -> Answer {
        plain::map::lookup(h, l, k, t)
    }

    fn list(h: &MapHead, l: &MapLent, t: u64, keys: &mut [u32], values: &mut [u32]) -> Answer {
        plain::map::list(h, l, t, keys, values)
    }

    fn checkpoint(h: &mut MapHead, l: &mut MapLent, t: u64) -> Answer {
        plain::map::checkpoint(h, l, t)
    }
}
