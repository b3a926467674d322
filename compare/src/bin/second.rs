//! The second program alone: for a model and child text on standard input, what it says that `slots` has to print.

use std::io::{Read, Write};

use compare::second::program::printed;

fn main() -> std::io::Result<()> {
    let mut input = Vec::new();
    std::io::stdin().read_to_end(&mut input)?;
    std::io::stdout().write_all(&printed(&input))
}
