//! Trees at the limits of a model, just past them, and far past them.

use crate::harness::chance::Chance;
use crate::second::limits;
use crate::second::tree::{Body, Mark, Tree, MARKS};

use super::trees::{any_tree, group, leaf, mark, name, name_of, Names};

/// `count` members that are names, each inside so many groups of its own.
fn nests(chance: &mut Chance, names: &mut Names, count: usize, groups: usize) -> Vec<Tree> {
    (0..count).map(|_| nest(leaf(names.next(chance), Mark::Plain), groups)).collect()
}

/// A tree inside so many groups of one member.
fn nest(inner: Tree, groups: usize) -> Tree {
    (0..groups).fold(inner, |inner, _| group(vec![inner], false, Mark::Plain))
}

/// A tree that stands at one of the limits, or just past it.
pub fn limit_tree(chance: &mut Chance) -> Tree {
    let near = |chance: &mut Chance, limit: usize| limit + chance.below(4) - 1;
    let choice = chance.once_in(2);
    let mark = mark(chance);
    match chance.below(13) {
        // A name of 63 to 66 bytes among others.
        0 | 1 => {
            let length = chance.within(limits::NAME - 1, limits::NAME + 2);
            let long = leaf(name_of(chance, length), mark);
            let mut tree = any_tree(chance);
            match &mut tree.body {
                Body::Name(_) => {}
                Body::Sequence(members) | Body::Choice(members) => {
                    let at = chance.below(members.len() + 1);
                    members.insert(at, long);
                }
            }
            tree
        }
        // 31 to 34 nested groups, with other groups before them, so that depth and number differ.
        2 | 3 => {
            let groups = near(chance, limits::GROUPS);
            let inner = leaf(name(chance), mark);
            let before = chance.below(3);
            let mut members = nests(chance, &mut Names::fresh(), before, 2);
            members.push(nest(inner, groups - 1));
            group(members, choice, mark)
        }
        // 127 to 130 slots, all names alike, a few names, or all distinct.
        4 | 5 => {
            let slots = near(chance, limits::SLOTS);
            let names = chance.pick(&[1, 8, slots]);
            let named = |slot: usize| format!("n{}", slot % names).into_bytes();
            let members = (0..slots).map(|slot| leaf(named(slot), chance.pick(&MARKS))).collect();
            group(members, choice, mark)
        }
        // 511 to 514 nodes.
        6 | 7 => {
            let nodes = near(chance, limits::NODES);
            nodes_tree(chance, nodes, 127)
        }
        // The 129th slot is the 513th node: a tie of 7 and 8, or nearly.
        8 => {
            let tie = (limits::NODES + 1, limits::SLOTS + 1);
            let (nodes, slots) = if chance.once_in(2) { tie } else { (near(chance, tie.0), near(chance, tie.1)) };
            nodes_tree(chance, nodes, slots)
        }
        // The 33rd open group is the 513th node, or nearly.
        9 | 10 => {
            let tie = limits::NODES + 1 - limits::GROUPS;
            let before = if chance.once_in(2) { tie } else { near(chance, tie) };
            let Tree { body, mark } = nodes_tree(chance, before, 120);
            let Body::Sequence(mut members) = body else { unreachable!("made so") };
            let inner = leaf(vec![b'a'], Mark::Plain);
            let groups = chance.within(limits::GROUPS - 1, limits::GROUPS + 1);
            members.push(nest(inner, groups));
            group(members, false, mark)
        }
        // A text of about 4,096 bytes: long names, padded by the last.
        _ => {
            let length = near(chance, limits::TEXT);
            long_tree(chance, length)
        }
    }
}

/// A sequence of so many nodes in all and, if they suffice, so many slots, the last node a name: groups of one member
/// around the names, as evenly as they go.
fn nodes_tree(chance: &mut Chance, nodes: usize, slots: usize) -> Tree {
    let mut names = Names::letters();
    let groups = nodes - 1 - slots;
    let members = (0..slots).map(|slot| {
        let around = groups * (slot + 1) / slots - groups * slot / slots;
        nest(leaf(names.next(chance), Mark::Plain), around)
    });
    let members = members.collect();
    group(members, false, Mark::Plain)
}

/// A group of names whose text without white space has this many bytes.
fn long_tree(chance: &mut Chance, length: usize) -> Tree {
    let again = chance.once_in(2);
    let group_mark = mark(chance);
    let mut members: Vec<Tree> = Vec::new();
    let mut left = length - 2 - group_mark.text().len();
    while left > 0 {
        let most = limits::NAME.min(left);
        let mut size = if left <= limits::NAME { most } else { chance.within(40, most) };
        if left - size == 1 {
            size -= 1;
        }
        let mark = if size > 1 && chance.once_in(3) { chance.pick(&MARKS) } else { Mark::Plain };
        let size_of_name = size - mark.text().len();
        let name = match members.first() {
            Some(Tree { body: Body::Name(first), .. }) if again && first.len() == size_of_name => first.clone(),
            _ => name_of(chance, size_of_name),
        };
        members.push(leaf(name, mark));
        left -= size;
        left = left.saturating_sub(1);
    }
    group(members, chance.once_in(2), group_mark)
}

/// A tree of 126 to 128 slots, often with some of the last ones in a group of their own; each slot has its own name,
/// but often there are two with the same, where it matters most.
pub fn wide_tree(chance: &mut Chance) -> Tree {
    let slots = chance.pick(&[126, 127, 128, 128]);
    let outer = chance.within(1, slots - 1);
    if chance.once_in(6) {
        // (n1,..,(n1,..)+)+: two slots of one name, after the last slot only.
        let mut members: Vec<Tree> = (0..slots)
            .map(|slot| leaf(format!("n{}", if slot == outer { 0 } else { slot }).into_bytes(), Mark::Plain))
            .collect();
        let inner = members.split_off(outer);
        members.push(group(inner, false, Mark::Plus));
        return group(members, false, Mark::Plus);
    }
    let marks: &[Mark] = chance.pick(&[&MARKS[..1], &MARKS[1..2], &MARKS[2..3], &MARKS[..]]);
    let (one, other) = (chance.within(1, slots), chance.within(1, slots));
    let twice = chance.once_in(2).then(|| (chance.pick(&[1, one]), chance.pick(&[outer + 1, slots, other])));
    let number = |slot: usize| twice.filter(|(_, to)| slot == *to).map_or(slot, |(of, _)| of);
    let mut members: Vec<Tree> =
        (1..=slots).map(|slot| leaf(format!("n{}", number(slot)).into_bytes(), chance.pick(marks))).collect();
    if chance.once_in(2) {
        let inner = members.split_off(outer);
        let mark = mark(chance);
        members.push(group(inner, chance.once_in(3), mark));
    }
    let mark = mark(chance);
    group(members, chance.once_in(3), mark)
}

/// A tree that a table can hold but a model cannot: too deep (to 511 groups), too many slots, too long a text, or two
/// of these at once.
pub fn unlawful_tree(chance: &mut Chance) -> Tree {
    let many_slots = |chance: &mut Chance, slots: usize, names: usize, name: &str| {
        let members =
            (0..slots).map(|slot| leaf(format!("{name}{}", slot % names).into_bytes(), mark(chance))).collect();
        group(members, chance.once_in(2), Mark::Plain)
    };
    match chance.below(8) {
        0 | 1 => {
            let groups = chance.pick(&[33, 34, 64, 300, 510, 511]);
            nest(leaf(name(chance), mark(chance)), groups)
        }
        2 => {
            let slots = chance.pick(&[129, 130, 200, 510, 511]);
            many_slots(chance, slots, limits::NAMES, "n")
        }
        // 127 to 130 names, each once.
        3 => {
            let slots = chance.within(limits::NAMES - 1, limits::NAMES + 2);
            many_slots(chance, slots, slots, "n")
        }
        // Too many slots or too deep, and too long a text as well.
        4 => many_slots(chance, 129, 100, "a-name-of-about-fifty-bytes-so-that-129-are-too-many"),
        5 => {
            let long = long_tree(chance, limits::TEXT);
            nest(long, chance.pick(&[31, 32, 33]))
        }
        // A text of 4,096 bytes and a few more or fewer.
        _ => {
            let length = chance.within(limits::TEXT - 1, limits::TEXT + 3);
            long_tree(chance, length)
        }
    }
}
