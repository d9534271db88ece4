//! The figures of damaged stores: few, so that they meet, and those at the limits.

use crate::random::Random;

pub fn small_number(random: &mut Random) -> u32 {
    match random.below(12) {
        0 => u32::MAX,
        1 => u32::MAX - 1,
        2 => 0,
        _ => 1 + random.below(5) as u32,
    }
}

pub fn small_time(random: &mut Random) -> u64 {
    match random.below(30) {
        0 => u64::MAX,
        1 => u64::MAX - 1,
        2 => random.bits(),
        _ => random.below(9),
    }
}

/// How many rows or records a store has.
pub fn short_mostly(random: &mut Random) -> usize {
    let below = if random.once_in(8) { 60 } else { 14 };
    random.size(below)
}

/// Mostly a count that fits; else one at or over a limit.
pub fn count(random: &mut Random, room: usize, limit: usize) -> usize {
    match random.below(40) {
        0 => room + 1,
        1 => random.pick(&[limit - 1, limit, limit + 1, usize::MAX, usize::MAX / 24, usize::MAX / 24 + 1, 1 << 61]),
        2..=20 => room,
        _ => random.size(room + 1),
    }
}
