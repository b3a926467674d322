//! The second program: document 01 once more, from its text and by other means than the library's.
//!
//! - `grammar`: the productions as data, and a set of configurations that tells whether a text begins a model;
//! - `reading`: refusals 1 to 8 from their sentences, and the tree by splitting at brackets;
//! - `table`: the tree table, read from its last node to its first;
//! - `derivatives`: the numbered meaning by partial derivatives, with no first, last or follow sets;
//! - `children`: child text, matching, a single step and the name part;
//! - `answers`: all of it as the C interface packs it;
//! - `program`: what the program `slots` prints.

pub mod answers;
pub mod children;
pub mod derivatives;
pub mod grammar;
pub mod program;
pub mod reading;
pub mod table;
pub mod tree;

/// The numbers of document 01, "Model text" and "Numbers given on refusal".
pub mod limits {
    pub const TEXT: usize = 4096;
    pub const NAME: usize = 64;
    pub const GROUPS: usize = 32;
    pub const SLOTS: usize = 128;
    pub const NAMES: usize = 128;
    pub const NODES: usize = 512;
    pub const CHILDREN: usize = 16384;
    pub const TABLE_ROOM: usize = 5252;
    pub const TEXT_ROOM: usize = 4096;
    pub const SLOT_ROOM: usize = 8192;
}

/// A refusal: its number, its place, and for 24 the p, x, y shown.
#[derive(Clone, Copy, Debug, PartialEq, Eq)]
pub struct Refusal {
    pub number: u8,
    pub place: usize,
    pub clash: Option<Clash>,
}

/// Two allowed numbered lists share a beginning that ends in p (0: an empty one), then go to x and y, of the same name.
/// The order of clashes is the document's: the smallest p, then the smallest x, then the smallest y.
#[derive(Clone, Copy, Debug, PartialEq, Eq, PartialOrd, Ord)]
pub struct Clash {
    pub p: usize,
    pub x: usize,
    pub y: usize,
}

/// A refusal with a place.
pub fn refuse<T>(number: u8, place: usize) -> Result<T, Refusal> {
    Err(Refusal { number, place, clash: None })
}
