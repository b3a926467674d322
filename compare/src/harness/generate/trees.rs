//! Trees of every sort, with their names and marks.

use crate::harness::chance::Chance;
use crate::second::limits;
use crate::second::tree::{Body, Mark, Tree, MARKS};

use super::extremes::wide_tree;

/// The bytes that start a name, and those that stand later in one: a few that are picked often, so that names meet, and
/// the others.
const STARTS: [&[u8]; 2] = [b"abcxyzABZ_:", b"defghijklmnopqrstuvwCDEFGHIJKLMNOPQRSTUVWXY"];
const LATER: [&[u8]; 2] = [b"abcxyzABZ_:019-.", b"defghijklmnopqrstuvwCDEFGHIJKLMNOPQRSTUVWXY2345678"];

/// A lawful name of this length.
pub fn name_of(chance: &mut Chance, length: usize) -> Vec<u8> {
    let byte = |at: usize| {
        let bytes = if at == 0 { STARTS } else { LATER };
        let other = chance.once_in(16) as usize;
        chance.pick(bytes[other])
    };
    (0..length).map(byte).collect()
}

/// A name: mostly short, so that names are often equal or begin one another.
pub fn name(chance: &mut Chance) -> Vec<u8> {
    let length = match chance.below(20) {
        0..=11 => 1,
        12..=15 => 2,
        16..=18 => chance.within(3, 9),
        _ => chance.within(60, limits::NAME),
    };
    name_of(chance, length)
}

pub fn mark(chance: &mut Chance) -> Mark {
    if chance.once_in(2) {
        Mark::Plain
    } else {
        chance.pick(&MARKS)
    }
}

/// Where the names of a tree come from: a few that are used again and again, or a new one for nearly every slot.
pub struct Names {
    pool: Vec<Vec<u8>>,
    /// A name of the pool is used once in so many slots; 1 is always.
    again: usize,
    used: usize,
}

impl Names {
    pub fn any(chance: &mut Chance) -> Names {
        match chance.below(3) {
            0 => {
                let count = chance.within(1, 4);
                Names { pool: (0..count).map(|_| name(chance)).collect(), again: 1, used: 0 }
            }
            1 => Names { pool: Vec::new(), again: 4, used: 0 },
            _ => Names::fresh(),
        }
    }

    /// Names of one letter, so that many slots fit a text.
    pub fn letters() -> Names {
        Names { pool: (b'a'..=b'h').map(|letter| vec![letter]).collect(), again: 1, used: 0 }
    }

    /// A new name for every slot.
    pub fn fresh() -> Names {
        Names { pool: Vec::new(), again: usize::MAX, used: 0 }
    }

    pub fn next(&mut self, chance: &mut Chance) -> Vec<u8> {
        if !self.pool.is_empty() && (self.again == 1 || chance.once_in(self.again)) {
            return self.pool[chance.below(self.pool.len())].clone();
        }
        self.used += 1;
        let mut fresh = name(chance);
        if fresh.len() < 60 {
            fresh.extend(format!("{}", self.used).into_bytes());
        }
        self.pool.push(fresh.clone());
        fresh
    }
}

pub fn leaf(name: Vec<u8>, mark: Mark) -> Tree {
    Tree { body: Body::Name(name), mark }
}

pub fn group(members: Vec<Tree>, choice: bool, mark: Mark) -> Tree {
    let body = if choice && members.len() > 1 { Body::Choice(members) } else { Body::Sequence(members) };
    Tree { body, mark }
}

/// A tree under a group with this many slots, nested at most so deep.
pub fn tree(chance: &mut Chance, names: &mut Names, slots: usize, depth: usize) -> Tree {
    let mut members = Vec::new();
    let mut left = slots;
    while left > 0 {
        if depth > 1 && chance.once_in(3) {
            let part = chance.within(1, left);
            members.push(tree(chance, names, part, depth - 1));
            left -= part;
        } else {
            let mark = mark(chance);
            members.push(leaf(names.next(chance), mark));
            left -= 1;
        }
    }
    let choice = chance.once_in(2);
    let mark = mark(chance);
    group(members, choice, mark)
}

/// A tree of a few slots, now and then of many.
pub fn any_tree(chance: &mut Chance) -> Tree {
    let mut names = Names::any(chance);
    if chance.once_in(300) {
        return wide_tree(chance);
    }
    let slots = match chance.below(40) {
        0 => chance.within(20, 128),
        1..=8 => chance.within(7, 20),
        _ => chance.within(1, 6),
    };
    let depth = if chance.once_in(10) { chance.within(5, limits::GROUPS) } else { chance.within(1, 4) };
    tree(chance, &mut names, slots, depth)
}
