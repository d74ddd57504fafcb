//! Random texts, and what is needed to compare another program on them.

pub mod breaks;
pub mod families;
pub mod nights;
pub mod peers;
pub mod program;
pub mod random;
pub mod rows;
pub mod shrink;
pub mod table;
