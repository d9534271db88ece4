//! Single calls: whether library and plain Rust agree on them, how long each takes, and how much stack.

pub mod agree;
mod cases;
pub mod fixture;
pub mod journal;
pub mod map;
pub mod stack;
