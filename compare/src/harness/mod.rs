//! The comparison: random and damaged models, tables and child lists, lent with guard bytes around them, asked of the
//! library through the C interface and of the second program.

pub mod cases;
pub mod chance;
pub mod generate;
pub mod lent;
pub mod library;
pub mod questions;
pub mod tally;
