//! The tree table: encoding a tree, and taking a table apart with refusals 11 to 17. All fields of a table lie in
//! 16-bit words and bytes, so it is handled as those; nodes are put together from the last to the first.

use super::grammar::{in_name, starts_name};
use super::tree::{Body, Tree, MARKS};
use super::{limits, refuse, Refusal};

/// A table that is not refused: its tree, and for each name where its bytes stand in the table.
pub struct Loaded {
    pub tree: Tree,
    pub nodes: usize,
    pub names: Vec<NamePlace>,
    /// The name number of each slot, from slot 1 on.
    pub numbers: Vec<usize>,
}

#[derive(Clone, Copy)]
pub struct NamePlace {
    pub start: usize,
    pub length: usize,
}

/// The distinct names of a tree, by first occurrence.
pub fn distinct<'a>(tree: &'a Tree) -> Vec<&'a [u8]> {
    let mut names: Vec<&'a [u8]> = Vec::new();
    for leaf in tree.leaves() {
        if !names.contains(&leaf) {
            names.push(leaf);
        }
    }
    names
}

/// A node's 16 bits: kind (2), mark (2), value (12).
pub fn word(kind: u16, mark: u16, value: u16) -> u16 {
    kind << 14 | mark << 12 | value
}

/// The words of a tree's nodes in preorder.
pub fn words(tree: &Tree) -> Vec<u16> {
    let names = distinct(tree);
    let node = |node: &Tree| {
        let mark = MARKS.iter().position(|mark| *mark == node.mark).expect("one of the four") as u16;
        match &node.body {
            Body::Name(name) => {
                let number = names.iter().position(|other| *other == name.as_slice()).expect("a name of the tree");
                word(0, mark, number as u16)
            }
            Body::Sequence(members) => word(1, mark, members.len() as u16),
            Body::Choice(members) => word(2, mark, members.len() as u16),
        }
    };
    tree.preorder().into_iter().map(node).collect()
}

/// The table of a tree: node count, name count, nodes, names.
pub fn encode(tree: &Tree) -> Vec<u8> {
    let (words, names) = (words(tree), distinct(tree));
    let mut table = Vec::new();
    for word in [words.len() as u16, names.len() as u16].iter().chain(&words) {
        table.extend(word.to_be_bytes());
    }
    for name in names {
        table.push(name.len() as u8);
        table.extend(name);
    }
    table
}

/// Takes a table apart: 11 to 17 in order, each over the whole table.
pub fn load(table: &[u8]) -> Result<Loaded, Refusal> {
    let number = |at: usize| u16::from_be_bytes([table[at], table[at + 1]]) as usize;
    if table.len() < 4 {
        return refuse(11, 0);
    }
    let (nodes, names) = (number(0), number(2));
    if !(2..=limits::NODES).contains(&nodes) || !(1..=limits::NAMES).contains(&names) {
        return refuse(12, 0);
    }
    let names_from = 4 + 2 * nodes;
    if table.len() < names_from {
        return refuse(13, 0);
    }
    let words: Vec<u16> = (0..nodes).map(|node| number(4 + 2 * node) as u16).collect();
    let Some(numbered) = whole_tree(&words, names) else {
        return refuse(13, 0);
    };
    let Some(places) = lawful_names(table, names_from, names) else {
        return refuse(14, 0);
    };
    let numbers: Vec<usize> = numbered.leaves().into_iter().map(name_number).collect();
    let mut used = numbers.clone();
    let mut seen = [false; limits::NAMES];
    used.retain(|number| !std::mem::replace(&mut seen[*number], true));
    if used != (0..names).collect::<Vec<usize>>() {
        return refuse(15, 0);
    }
    if numbered.depth() > limits::GROUPS || numbers.len() > limits::SLOTS {
        return refuse(16, 0);
    }
    let tree = with_names(&numbered, &|number| {
        let place = places[number];
        table[place.start..place.start + place.length].to_vec()
    });
    if tree.text().len() > limits::TEXT {
        return refuse(17, 0);
    }
    Ok(Loaded { tree, nodes, names: places, numbers })
}

/// The nodes as one whole tree under a group, if they are one; a name is still its number, in two bytes. A node takes
/// its members from those put together so far, the nearest first.
fn whole_tree(words: &[u16], names: usize) -> Option<Tree> {
    let mut trees: Vec<Tree> = Vec::new();
    for &word in words.iter().rev() {
        let (kind, value) = (word >> 14, (word & 0xFFF) as usize);
        let mark = MARKS[(word >> 12 & 3) as usize];
        let mut members = |least: usize| -> Option<Vec<Tree>> {
            let from = trees.len().checked_sub(value).filter(|_| value >= least)?;
            Some(trees.drain(from..).rev().collect())
        };
        let body = match kind {
            0 if value < names => Body::Name((value as u16).to_be_bytes().to_vec()),
            1 => Body::Sequence(members(1)?),
            2 => Body::Choice(members(2)?),
            _ => return None,
        };
        trees.push(Tree { body, mark });
    }
    let root = trees.pop()?;
    (trees.is_empty() && !matches!(root.body, Body::Name(_))).then_some(root)
}

fn name_number(leaf: &[u8]) -> usize {
    u16::from_be_bytes([leaf[0], leaf[1]]) as usize
}

/// The same tree with its names in place of their numbers.
fn with_names(tree: &Tree, name: &dyn Fn(usize) -> Vec<u8>) -> Tree {
    let members = |members: &[Tree]| members.iter().map(|member| with_names(member, name)).collect();
    let body = match &tree.body {
        Body::Name(number) => Body::Name(name(name_number(number))),
        Body::Sequence(inner) => Body::Sequence(members(inner)),
        Body::Choice(inner) => Body::Choice(members(inner)),
    };
    Tree { body, mark: tree.mark }
}

/// The places of the names, if there are as many as said, each lawful, no two equal, and they end where the table ends.
fn lawful_names(table: &[u8], from: usize, count: usize) -> Option<Vec<NamePlace>> {
    let (mut places, mut names, mut rest) = (Vec::new(), Vec::new(), &table[from..]);
    for _ in 0..count {
        let (&length, after) = rest.split_first()?;
        let length = length as usize;
        let name = after.get(..length)?;
        let lawful = (1..=limits::NAME).contains(&length) && starts_name(name[0]) && name.iter().all(|b| in_name(*b));
        if !lawful || names.contains(&name) {
            return None;
        }
        places.push(NamePlace { start: table.len() - after.len(), length });
        names.push(name);
        rest = &after[length..];
    }
    rest.is_empty().then_some(places)
}
