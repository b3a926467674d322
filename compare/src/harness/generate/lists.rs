//! Child text, and names to step by.

use crate::harness::chance::Chance;
use crate::second::derivatives::States;
use crate::second::limits;
use crate::second::table::encode;
use crate::second::tree::Mark;

use super::texts::damage_bytes;
use super::trees::{group, leaf, name, name_of};

/// Child text by a random walk over a model's states, with now and then a wrong name, wrong bytes, a long name, or a
/// length about 16,384.
pub fn children(chance: &mut Chance, states: &States, names: &[Vec<u8>]) -> Vec<u8> {
    let white = chance.pick(&[1, 1, 1, 3]);
    let gap =
        |chance: &mut Chance| -> Vec<u8> { (0..chance.within(1, white)).map(|_| chance.pick(b" \t\n")).collect() };
    // Now and then about 16,384 bytes: by as many children as that takes, or by white space.
    let long = chance.once_in(200);
    let padded = !long && chance.once_in(25);
    let goal = if long || padded { limits::CHILDREN + chance.below(4) - 1 } else { 0 };
    let most = if long { usize::MAX } else { chance.pick(&[0, 1, 2, 4, 8, 16, 40, 140]) };
    let mut text = if chance.once_in(4) { gap(chance) } else { Vec::new() };
    let (mut state, mut count) = (0, 0);
    loop {
        let here = &states.states[state];
        let enough = if long { text.len() + limits::NAME + 3 > goal } else { count >= most };
        if here.next.is_empty()
            || (enough && (long || here.may_end || chance.once_in(4)))
            || count > most.saturating_add(40)
        {
            break;
        }
        let (slot, to) = here.next.iter().nth(chance.below(here.next.len())).expect("there is one");
        text.extend(&names[states.name(*slot)]);
        text.extend(gap(chance));
        state = *to;
        count += 1;
    }
    if chance.once_in(2) {
        // No white space at the end.
        while text.last().is_some_and(|byte| b" \t\n".contains(byte)) {
            text.pop();
        }
    }
    damage_children(chance, names, &mut text);
    let at = if padded { chance.below(text.len() + 1) } else { text.len() };
    let white = vec![chance.pick(b" \t\n"); goal.saturating_sub(text.len())];
    text.splice(at..at, white);
    if goal > 0 && chance.once_in(2) {
        let at = text.len() - chance.within(1, 100);
        text[at] = chance.pick(b"#0-a\x80");
    }
    text
}

/// A model of two letters that may come again and again, and child text with as many children as fit 16,384 bytes, or
/// one more or fewer.
pub fn most_children(chance: &mut Chance) -> (Vec<u8>, Vec<u8>) {
    let letters = [b'a', b'b'].map(|letter| leaf(vec![letter], Mark::Plain)).to_vec();
    let table = encode(&group(letters, true, chance.pick(&[Mark::Star, Mark::Plus])));
    let count = limits::CHILDREN / 2 + chance.below(3) - 1;
    let mut children: Vec<u8> = (0..count).flat_map(|_| [chance.pick(b"ab"), chance.pick(b" \t\n")]).collect();
    if chance.once_in(2) {
        children.pop();
    }
    (table, children)
}

/// Nothing, a name at a random place, a name too long or nearly, or damaged bytes.
fn damage_children(chance: &mut Chance, names: &[Vec<u8>], text: &mut Vec<u8>) {
    let at = chance.below(text.len() + 1);
    match chance.below(12) {
        0 | 1 => {
            let mut put = b" ".to_vec();
            put.extend(if chance.once_in(2) { name(chance) } else { names[chance.below(names.len())].clone() });
            put.push(b' ');
            text.splice(at..at, put);
        }
        2 => {
            let mut put = b" ".to_vec();
            let length = chance.within(limits::NAME - 1, limits::NAME + 2);
            put.extend(name_of(chance, length));
            put.push(chance.pick(b"   #1a\n"));
            text.splice(at..at, put);
        }
        3 => damage_bytes(chance, text),
        4 => text.truncate(at),
        _ => {}
    }
}

/// Child text for a table that is refused, which nobody is to look at.
pub fn any_children(chance: &mut Chance) -> Vec<u8> {
    let length = chance.pick(&[0, 1, 5, 5, 5, 66, limits::CHILDREN + 1]);
    (0..length).map(|_| chance.pick(b"ab \n#")).collect()
}

/// Bytes to step by: a name of the model, part of one, one and more, another name, any bytes, or none.
pub fn step_name(chance: &mut Chance, names: &[Vec<u8>]) -> Vec<u8> {
    let mut bytes = names[chance.below(names.len())].clone();
    match chance.below(10) {
        0 => bytes.truncate(chance.below(bytes.len() + 1)),
        1 => bytes.push(chance.byte()),
        2 => bytes = name(chance),
        3 => {
            let length = chance.pick(&[0, 0, 1, 2, 3, 64, 65, 255, 256, 257, 300, 66_000]);
            bytes = (0..length).map(|_| chance.byte()).collect();
        }
        4 => {
            let at = chance.below(bytes.len());
            bytes[at] = chance.byte();
        }
        // The name, then so many bytes that its length seems the same in one byte or two.
        5 => {
            let more = chance.pick(&[256, 512, 65_536]);
            bytes.resize(bytes.len() + more, b'a');
        }
        _ => {}
    }
    bytes
}
