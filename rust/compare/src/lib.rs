//! The proved library, called through its C interface: held against the crate's printer and plain programs written from
//! document 01, and timed against plain Rust.

pub mod baseline;
pub mod bench;
pub mod call;
pub mod changes;
pub mod documents;
pub mod judge;
pub mod lent;
pub mod literals;
pub mod numbers;
pub mod registry;
pub mod shapes;
pub mod tables;
pub mod vectors;
pub mod wanted;
