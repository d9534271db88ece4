//! Both stores in plain Rust, written for speed and without proofs: the yardstick. Same lent bytes and columns, same
//! rules, same answers on any cells. Nothing is kept between two calls but what the layout keeps; inside a call
//! anything goes: one pass for several questions, early exits, sorting aside.

pub mod journal;
mod list;
pub mod map;
mod record;
mod recover;
mod running;
mod value;

use registers::numbers::ACCEPTED;
use registers::Answer;

/// An accepted call without a value.
fn accepted() -> Answer {
    Answer { number: ACCEPTED, present: 0, value: 0 }
}

/// An accepted call with a value.
fn given(value: u64) -> Answer {
    Answer { number: ACCEPTED, present: 1, value }
}

/// What read and lookup answer: a value, or absent.
fn found(value: Option<u32>) -> Answer {
    value.map_or(accepted(), |v| given(u64::from(v)))
}

/// A refused call.
fn refused(number: u32) -> Answer {
    Answer { number, present: 0, value: 0 }
}

/// What an update does to a register.
#[derive(Clone, Copy)]
pub enum Effect {
    Assign(u32),
    Add(u32),
}

/// Rule 3.1.
fn apply(effect: Effect, old: Option<u32>) -> u32 {
    match effect {
        Effect::Assign(v) => v,
        Effect::Add(d) => old.unwrap_or(0).wrapping_add(d),
    }
}
