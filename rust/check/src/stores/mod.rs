//! Both stores as a host has them: their cells, the calls as values, a call made of library and reference, and what differs.

pub mod ask;
pub mod call;
pub mod cells;
pub mod differ;
