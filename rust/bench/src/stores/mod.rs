//! The calls as a host makes them, whatever answers them: the proved library, or plain Rust.

mod plain;
mod proved;

pub use plain::Plain;
pub use proved::Proved;

use crate::lent::{JournalLent, MapLent};
use registers::{Answer, JournalHead, MapHead};

/// The calls of a store with such a head and such lent cells. The head is replaced by the one returned, as a host does.
pub trait Calls<H, L> {
    fn empty() -> H;
    fn begin(h: &mut H, l: &mut L, t: u64) -> Answer;
    fn assign(h: &mut H, l: &mut L, n: u32, k: u32, v: u32) -> Answer;
    fn add(h: &mut H, l: &mut L, n: u32, k: u32, d: u32) -> Answer;
    fn abort(h: &mut H, l: &mut L, n: u32) -> Answer;
    fn commit(h: &mut H, l: &mut L, n: u32, t: u64) -> Answer;
    fn read(h: &H, l: &L, n: u32, k: u32) -> Answer;
    fn lookup(h: &H, l: &L, k: u32, t: u64) -> Answer;
    fn list(h: &H, l: &L, t: u64, keys: &mut [u32], values: &mut [u32]) -> Answer;
    fn checkpoint(h: &mut H, l: &mut L, t: u64) -> Answer;

    /// The map store has none: a lookup stands for it.
    fn recover(h: &mut H, l: &mut L, _survived: usize) -> Answer {
        Self::lookup(h, l, 1, 0)
    }
}

/// The journal store's calls.
pub trait JournalCalls: Calls<JournalHead, JournalLent> {}

impl<C: Calls<JournalHead, JournalLent>> JournalCalls for C {}

/// The map store's calls.
pub trait MapCalls: Calls<MapHead, MapLent> {}

impl<C: Calls<MapHead, MapLent>> MapCalls for C {}
