//! The calls of the journal store: head, base columns, journal bytes, arguments.

use crate::{Answer, JournalHead, JournalResult};

#[rustfmt::skip]
extern "C" {
    fn registers_journal_empty() -> JournalHead;
    fn registers_journal_sample() -> JournalHead;
    fn registers_journal_begin(h: JournalHead, k: *const u32, kl: usize, v: *const u32, vl: usize, j: *mut u8, jl: usize, t: u64) -> JournalResult;
    fn registers_journal_assign(h: JournalHead, k: *const u32, kl: usize, v: *const u32, vl: usize, j: *mut u8, jl: usize, n: u32, key: u32, value: u32) -> JournalResult;
    fn registers_journal_add(h: JournalHead, k: *const u32, kl: usize, v: *const u32, vl: usize, j: *mut u8, jl: usize, n: u32, key: u32, d: u32) -> JournalResult;
    fn registers_journal_abort(h: JournalHead, k: *const u32, kl: usize, v: *const u32, vl: usize, j: *mut u8, jl: usize, n: u32) -> JournalResult;
    fn registers_journal_commit(h: JournalHead, k: *const u32, kl: usize, v: *const u32, vl: usize, j: *mut u8, jl: usize, n: u32, t: u64) -> JournalResult;
    fn registers_journal_read(h: JournalHead, k: *const u32, kl: usize, v: *const u32, vl: usize, j: *const u8, jl: usize, n: u32, key: u32) -> Answer;
    fn registers_journal_lookup(h: JournalHead, k: *const u32, kl: usize, v: *const u32, vl: usize, j: *const u8, jl: usize, key: u32, t: u64) -> Answer;
    fn registers_journal_list(h: JournalHead, k: *const u32, kl: usize, v: *const u32, vl: usize, j: *const u8, jl: usize, t: u64, l: *mut u32, ll: usize, c: *mut u32, cl: usize) -> Answer;
    fn registers_journal_checkpoint(h: JournalHead, k: *mut u32, kl: usize, v: *mut u32, vl: usize, j: *mut u8, jl: usize, t: u64) -> JournalResult;
    fn registers_journal_recover(h: JournalHead, k: *const u32, kl: usize, v: *const u32, vl: usize, j: *mut u8, jl: usize, survived: usize) -> JournalResult;
}

pub fn empty() -> JournalHead {
    unsafe { registers_journal_empty() }
}

/// A head whose fields hold their places, counted from 1.
pub fn sample() -> JournalHead {
    unsafe { registers_journal_sample() }
}

pub fn begin(h: JournalHead, k: &[u32], v: &[u32], j: &mut [u8], t: u64) -> JournalResult {
    unsafe { registers_journal_begin(h, k.as_ptr(), k.len(), v.as_ptr(), v.len(), j.as_mut_ptr(), j.len(), t) }
}

pub fn assign(h: JournalHead, k: &[u32], v: &[u32], j: &mut [u8], n: u32, key: u32, value: u32) -> JournalResult {
    let (kp, vp, jp) = (k.as_ptr(), v.as_ptr(), j.as_mut_ptr());
    unsafe { registers_journal_assign(h, kp, k.len(), vp, v.len(), jp, j.len(), n, key, value) }
}

pub fn add(h: JournalHead, k: &[u32], v: &[u32], j: &mut [u8], n: u32, key: u32, d: u32) -> JournalResult {
    let (kp, vp, jp) = (k.as_ptr(), v.as_ptr(), j.as_mut_ptr());
    unsafe { registers_journal_add(h, kp, k.len(), vp, v.len(), jp, j.len(), n, key, d) }
}

pub fn abort(h: JournalHead, k: &[u32], v: &[u32], j: &mut [u8], n: u32) -> JournalResult {
    unsafe { registers_journal_abort(h, k.as_ptr(), k.len(), v.as_ptr(), v.len(), j.as_mut_ptr(), j.len(), n) }
}

pub fn commit(h: JournalHead, k: &[u32], v: &[u32], j: &mut [u8], n: u32, t: u64) -> JournalResult {
    unsafe { registers_journal_commit(h, k.as_ptr(), k.len(), v.as_ptr(), v.len(), j.as_mut_ptr(), j.len(), n, t) }
}

pub fn read(h: JournalHead, k: &[u32], v: &[u32], j: &[u8], n: u32, key: u32) -> Answer {
    unsafe { registers_journal_read(h, k.as_ptr(), k.len(), v.as_ptr(), v.len(), j.as_ptr(), j.len(), n, key) }
}

pub fn lookup(h: JournalHead, k: &[u32], v: &[u32], j: &[u8], key: u32, t: u64) -> Answer {
    unsafe { registers_journal_lookup(h, k.as_ptr(), k.len(), v.as_ptr(), v.len(), j.as_ptr(), j.len(), key, t) }
}

/// The rows go into `l` (keys) and `c` (their contents).
pub fn list(h: JournalHead, k: &[u32], v: &[u32], j: &[u8], t: u64, l: &mut [u32], c: &mut [u32]) -> Answer {
    let (kp, vp, jp) = (k.as_ptr(), v.as_ptr(), j.as_ptr());
    let (lp, cp) = (l.as_mut_ptr(), c.as_mut_ptr());
    unsafe { registers_journal_list(h, kp, k.len(), vp, v.len(), jp, j.len(), t, lp, l.len(), cp, c.len()) }
}

pub fn checkpoint(h: JournalHead, k: &mut [u32], v: &mut [u32], j: &mut [u8], t: u64) -> JournalResult {
    let (kp, vp, jp) = (k.as_mut_ptr(), v.as_mut_ptr(), j.as_mut_ptr());
    unsafe { registers_journal_checkpoint(h, kp, k.len(), vp, v.len(), jp, j.len(), t) }
}

/// The first `survived` bytes of `j` are what the medium still has.
pub fn recover(h: JournalHead, k: &[u32], v: &[u32], j: &mut [u8], survived: usize) -> JournalResult {
    let (kp, vp, jp) = (k.as_ptr(), v.as_ptr(), j.as_mut_ptr());
    unsafe { registers_journal_recover(h, kp, k.len(), vp, v.len(), jp, j.len(), survived) }
}
