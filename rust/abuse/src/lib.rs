//! The C entries under abuse: arbitrary bytes and numbers for every parameter, in memory between guards, each answer held
//! against the independent checker, printers and reader; and the largest stack that an entry uses.

pub mod deep;
pub mod entries;
pub mod fuzz;
pub mod generate;
pub mod input;
pub mod judge;
pub mod measure;
pub mod overread;
pub mod safe;
pub mod shrink;
pub mod slot;
pub mod stack;
pub mod system;
pub mod wanted;
