//! The proved library's calls.

use super::Calls;
use crate::lent::{JournalLent, MapLent};
use registers::{Answer, JournalHead, JournalResult, MapHead, MapResult};

/// The proved library.
pub struct Proved;

fn replace(h: &mut JournalHead, result: JournalResult) -> Answer {
    *h = result.head;
    result.answer
}

fn replace_map(h: &mut MapHead, result: MapResult) -> Answer {
    *h = result.head;
    result.answer
}

impl Calls<JournalHead, JournalLent> for Proved {
    fn empty() -> JournalHead {
        registers::journal::empty()
    }

    fn begin(h: &mut JournalHead, l: &mut JournalLent, t: u64) -> Answer {
        replace(h, registers::journal::begin(*h, &l.keys, &l.values, &mut l.journal, t))
    }

    fn assign(h: &mut JournalHead, l: &mut JournalLent, n: u32, k: u32, v: u32) -> Answer {
        replace(h, registers::journal::assign(*h, &l.keys, &l.values, &mut l.journal, n, k, v))
    }

    fn add(h: &mut JournalHead, l: &mut JournalLent, n: u32, k: u32, d: u32) -> Answer {
        replace(h, registers::journal::add(*h, &l.keys, &l.values, &mut l.journal, n, k, d))
    }

    fn abort(h: &mut JournalHead, l: &mut JournalLent, n: u32) -> Answer {
        replace(h, registers::journal::abort(*h, &l.keys, &l.values, &mut l.journal, n))
    }

    fn commit(h: &mut JournalHead, l: &mut JournalLent, n: u32, t: u64) -> Answer {
        replace(h, registers::journal::commit(*h, &l.keys, &l.values, &mut l.journal, n, t))
    }

    fn read(h: &JournalHead, l: &JournalLent, n: u32, k: u32) -> Answer {
        registers::journal::read(*h, &l.keys, &l.values, &l.journal, n, k)
    }

    fn lookup(h: &JournalHead, l: &JournalLent, k: u32, t: u64) -> Answer {
        registers::journal::lookup(*h, &l.keys, &l.values, &l.journal, k, t)
    }

    fn list(h: &JournalHead, l: &JournalLent, t: u64, keys: &mut [u32], values: &mut [u32]) -> Answer {
        registers::journal::list(*h, &l.keys, &l.values, &l.journal, t, keys, values)
    }

    fn checkpoint(h: &mut JournalHead, l: &mut JournalLent, t: u64) -> Answer {
        replace(h, registers::journal::checkpoint(*h, &mut l.keys, &mut l.values, &mut l.journal, t))
    }

    fn recover(h: &mut JournalHead, l: &mut JournalLent, survived: usize) -> Answer {
        replace(h, registers::journal::recover(*h, &l.keys, &l.values, &mut l.journal, survived))
    }
}

impl Calls<MapHead, MapLent> for Proved {
    fn empty() -> MapHead {
        registers::map::empty()
    }

    fn begin(h: &mut MapHead, l: &mut MapLent, t: u64) -> Answer {
        replace_map(h, registers::map::begin(*h, &l.keys, &l.times, &l.values, &l.marks, t))
    }

    fn assign(h: &mut MapHead, l: &mut MapLent, n: u32, k: u32, v: u32) -> Answer {
        replace_map(h, registers::map::assign(*h, &l.keys, &l.times, &l.values, &l.marks, n, k, v))
    }

    fn add(h: &mut MapHead, l: &mut MapLent, n: u32, k: u32, d: u32) -> Answer {
        replace_map(h, registers::map::add(*h, &l.keys, &l.times, &l.values, &l.marks, n, k, d))
    }

    fn abort(h: &mut MapHead, l: &mut MapLent, n: u32) -> Answer {
        replace_map(h, registers::map::abort(*h, &l.keys, &l.times, &l.values, &l.marks, n))
    }

    fn commit(h: &mut MapHead, l: &mut MapLent, n: u32, t: u64) -> Answer {
        replace_map(h, registers::map::commit(*h, &mut l.keys, &mut l.times, &mut l.values, &mut l.marks, n, t))
    }

    fn read(h: &MapHead, l: &MapLent, n: u32, k: u32) -> Answer {
        registers::map::read(*h, &l.keys, &l.times, &l.values, &l.marks, n, k)
    }

    fn lookup(h: &MapHead, l: &MapLent, k: u32, t: u64) -> Answer {
        registers::map::lookup(*h, &l.keys, &l.times, &l.values, &l.marks, k, t)
    }

    fn list(h: &MapHead, l: &MapLent, t: u64, keys: &mut [u32], values: &mut [u32]) -> Answer {
        registers::map::list(*h, &l.keys, &l.times, &l.values, &l.marks, t, keys, values)
    }

    fn checkpoint(h: &mut MapHead, l: &mut MapLent, t: u64) -> Answer {
        replace_map(h, registers::map::checkpoint(*h, &mut l.keys, &mut l.times, &mut l.values, &mut l.marks, t))
    }
}
