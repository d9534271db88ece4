//! What the workload asks of a store of registers.

use registers::limits::BASE_ROWS;

/// How many registers there are: as many as a base has rows.
pub const REGISTERS: usize = BASE_ROWS;

/// A store of registers.
pub trait Engine {
    fn name(&self) -> &str;
    /// How many transactions there are from one checkpoint to the next, where the store has checkpoints.
    fn cycle(&self) -> Option<usize>;
    /// Begin, assign to one register, add to another, commit.
    fn transact(&mut self, assign: (u32, u32), add: (u32, u32));
    fn checkpoint(&mut self);
    fn lookup(&mut self, k: u32) -> u32;
    /// All registers, keys rising; how many there are.
    fn list(&mut self, keys: &mut [u32], values: &mut [u32]) -> usize;
}
