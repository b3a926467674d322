//! Generators: trees and their texts, damaged texts, texts at the limits, tables damaged in every field, child lists.

mod extremes;
mod lists;
mod tables;
mod texts;
mod trees;

pub use lists::{any_children, children, most_children, step_name};
pub use tables::{deterministic_table, table};
pub use texts::text;
pub use trees::{tree, Names};
