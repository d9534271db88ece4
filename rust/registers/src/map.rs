//! The calls of the map store: head, version columns (keys, times, values, marks), arguments.

use crate::{Answer, MapHead, MapResult};

#[rustfmt::skip]
extern "C" {
    fn registers_map_empty() -> MapHead;
    fn registers_map_sample() -> MapHead;
    fn registers_map_begin(h: MapHead, k: *const u32, kl: usize, t: *const u64, tl: usize, v: *const u32, vl: usize, m: *const u8, ml: usize, at: u64) -> MapResult;
    fn registers_map_assign(h: MapHead, k: *const u32, kl: usize, t: *const u64, tl: usize, v: *const u32, vl: usize, m: *const u8, ml: usize, n: u32, key: u32, value: u32) -> MapResult;
    fn registers_map_add(h: MapHead, k: *const u32, kl: usize, t: *const u64, tl: usize, v: *const u32, vl: usize, m: *const u8, ml: usize, n: u32, key: u32, d: u32) -> MapResult;
    fn registers_map_abort(h: MapHead, k: *const u32, kl: usize, t: *const u64, tl: usize, v: *const u32, vl: usize, m: *const u8, ml: usize, n: u32) -> MapResult;
    fn registers_map_commit(h: MapHead, k: *mut u32, kl: usize, t: *mut u64, tl: usize, v: *mut u32, vl: usize, m: *mut u8, ml: usize, n: u32, at: u64) -> MapResult;
    fn registers_map_read(h: MapHead, k: *const u32, kl: usize, t: *const u64, tl: usize, v: *const u32, vl: usize, m: *const u8, ml: usize, n: u32, key: u32) -> Answer;
    fn registers_map_lookup(h: MapHead, k: *const u32, kl: usize, t: *const u64, tl: usize, v: *const u32, vl: usize, m: *const u8, ml: usize, key: u32, at: u64) -> Answer;
    fn registers_map_list(h: MapHead, k: *const u32, kl: usize, t: *const u64, tl: usize, v: *const u32, vl: usize, m: *const u8, ml: usize, at: u64, l: *mut u32, ll: usize, c: *mut u32, cl: usize) -> Answer;
    fn registers_map_checkpoint(h: MapHead, k: *mut u32, kl: usize, t: *mut u64, tl: usize, v: *mut u32, vl: usize, m: *mut u8, ml: usize, at: u64) -> MapResult;
}

pub fn empty() -> MapHead {
    unsafe { registers_map_empty() }
}

/// A head whose fields hold their places, counted from 1 through all slots and their rows; a mark modulo 256.
pub fn sample() -> MapHead {
    unsafe { registers_map_sample() }
}

pub fn begin(h: MapHead, k: &[u32], t: &[u64], v: &[u32], m: &[u8], at: u64) -> MapResult {
    let (kp, tp, vp, mp) = (k.as_ptr(), t.as_ptr(), v.as_ptr(), m.as_ptr());
    unsafe { registers_map_begin(h, kp, k.len(), tp, t.len(), vp, v.len(), mp, m.len(), at) }
}

pub fn assign(h: MapHead, k: &[u32], t: &[u64], v: &[u32], m: &[u8], n: u32, key: u32, value: u32) -> MapResult {
    let (kp, tp, vp, mp) = (k.as_ptr(), t.as_ptr(), v.as_ptr(), m.as_ptr());
    unsafe { registers_map_assign(h, kp, k.len(), tp, t.len(), vp, v.len(), mp, m.len(), n, key, value) }
}

pub fn add(h: MapHead, k: &[u32], t: &[u64], v: &[u32], m: &[u8], n: u32, key: u32, d: u32) -> MapResult {
    let (kp, tp, vp, mp) = (k.as_ptr(), t.as_ptr(), v.as_ptr(), m.as_ptr());
    unsafe { registers_map_add(h, kp, k.len(), tp, t.len(), vp, v.len(), mp, m.len(), n, key, d) }
}

pub fn abort(h: MapHead, k: &[u32], t: &[u64], v: &[u32], m: &[u8], n: u32) -> MapResult {
    let (kp, tp, vp, mp) = (k.as_ptr(), t.as_ptr(), v.as_ptr(), m.as_ptr());
    unsafe { registers_map_abort(h, kp, k.len(), tp, t.len(), vp, v.len(), mp, m.len(), n) }
}

pub fn commit(h: MapHead, k: &mut [u32], t: &mut [u64], v: &mut [u32], m: &mut [u8], n: u32, at: u64) -> MapResult {
    let (kp, tp, vp, mp) = (k.as_mut_ptr(), t.as_mut_ptr(), v.as_mut_ptr(), m.as_mut_ptr());
    unsafe { registers_map_commit(h, kp, k.len(), tp, t.len(), vp, v.len(), mp, m.len(), n, at) }
}

pub fn read(h: MapHead, k: &[u32], t: &[u64], v: &[u32], m: &[u8], n: u32, key: u32) -> Answer {
    let (kp, tp, vp, mp) = (k.as_ptr(), t.as_ptr(), v.as_ptr(), m.as_ptr());
    unsafe { registers_map_read(h, kp, k.len(), tp, t.len(), vp, v.len(), mp, m.len(), n, key) }
}

pub fn lookup(h: MapHead, k: &[u32], t: &[u64], v: &[u32], m: &[u8], key: u32, at: u64) -> Answer {
    let (kp, tp, vp, mp) = (k.as_ptr(), t.as_ptr(), v.as_ptr(), m.as_ptr());
    unsafe { registers_map_lookup(h, kp, k.len(), tp, t.len(), vp, v.len(), mp, m.len(), key, at) }
}

/// The rows go into `l` (keys) and `c` (their contents).
pub fn list(h: MapHead, k: &[u32], t: &[u64], v: &[u32], m: &[u8], at: u64, l: &mut [u32], c: &mut [u32]) -> Answer {
    let (kp, tp, vp, mp) = (k.as_ptr(), t.as_ptr(), v.as_ptr(), m.as_ptr());
    let (lp, cp) = (l.as_mut_ptr(), c.as_mut_ptr());
    unsafe { registers_map_list(h, kp, k.len(), tp, t.len(), vp, v.len(), mp, m.len(), at, lp, l.len(), cp, c.len()) }
}

pub fn checkpoint(h: MapHead, k: &mut [u32], t: &mut [u64], v: &mut [u32], m: &mut [u8], at: u64) -> MapResult {
    let (kp, tp, vp, mp) = (k.as_mut_ptr(), t.as_mut_ptr(), v.as_mut_ptr(), m.as_mut_ptr());
    unsafe { registers_map_checkpoint(h, kp, k.len(), tp, t.len(), vp, v.len(), mp, m.len(), at) }
}
