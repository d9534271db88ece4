//! Random sequences of calls: what one is like, its next call, and how it runs.

pub mod choose;
pub mod plan;
pub mod run;
