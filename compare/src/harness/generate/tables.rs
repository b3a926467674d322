//! Tables: of models, of trees that are none, and damaged in every field.

use crate::harness::chance::Chance;
use crate::second::children::Checked;
use crate::second::table::{distinct, encode, word, words};
use crate::second::tree::Tree;

use super::extremes::{limit_tree, unlawful_tree, wide_tree};
use super::texts::damage_bytes;
use super::trees::{any_tree, name, name_of, tree, Names};

/// A table in its fields, so that each can be damaged alone.
#[derive(Clone)]
struct Fields {
    nodes: u16,
    names: u16,
    words: Vec<u16>,
    listed: Vec<(u8, Vec<u8>)>,
    over: Vec<u8>,
}

impl Fields {
    fn of(tree: &Tree) -> Fields {
        let words = words(tree);
        let listed: Vec<_> = distinct(tree).into_iter().map(|name| (name.len() as u8, name.to_vec())).collect();
        Fields { nodes: words.len() as u16, names: listed.len() as u16, words, listed, over: Vec::new() }
    }

    fn bytes(&self) -> Vec<u8> {
        let mut bytes = Vec::new();
        for word in [self.nodes, self.names].iter().chain(&self.words) {
            bytes.extend(word.to_be_bytes());
        }
        for (length, name) in &self.listed {
            bytes.push(*length);
            bytes.extend(name);
        }
        bytes.extend(&self.over);
        bytes
    }

    /// One damage to one field.
    fn damage(&mut self, chance: &mut Chance) {
        let node = chance.below(self.words.len());
        let listed = chance.below(self.listed.len());
        let other = chance.below(self.listed.len());
        let (kind, mark, value) = (self.words[node] >> 14, self.words[node] >> 12 & 3, self.words[node] & 0xFFF);
        match chance.below(16) {
            0 => {
                self.nodes =
                    chance.pick(&[0, 1, 2, 512, 513, 65535, self.nodes.wrapping_add(1), self.nodes.wrapping_sub(1)])
            }
            1 => {
                self.names =
                    chance.pick(&[0, 1, 128, 129, 65535, self.names.wrapping_add(1), self.names.wrapping_sub(1)])
            }
            2 => self.words[node] = word(chance.below(4) as u16, mark, value),
            3 => self.words[node] = word(kind, chance.below(4) as u16, value),
            4 | 5 => {
                let names = self.names;
                let values = [0, 1, 2, value + 1, value.wrapping_sub(1), names, names.wrapping_sub(1), 0xFFF];
                self.words[node] = word(kind, mark, chance.pick(&values) & 0xFFF);
            }
            6 => self.listed[listed].0 = chance.pick(&[0, 1, 63, 64, 65, 255, self.listed[listed].0.wrapping_add(1)]),
            7 => {
                // A name of another length, its length field with it.
                let length = chance.pick(&[0, 1, 2, 63, 64, 65, 66]);
                self.listed[listed] = (length, name_of(chance, length as usize));
            }
            8 => {
                let at = chance.below(self.listed[listed].1.len().max(1));
                let byte = if chance.once_in(2) { chance.byte() } else { chance.pick(b"0-. (a\t#") };
                if let Some(place) = self.listed[listed].1.get_mut(at) {
                    *place = byte;
                }
            }
            9 => self.listed[other] = self.listed[listed].clone(), // two names equal
            10 => self.listed.swap(listed, other),                 // another model's table
            11 => {
                // A name that no node uses.
                let fresh = name(chance);
                self.names = self.names.wrapping_add(1);
                self.listed.push((fresh.len() as u8, fresh));
            }
            12 => {
                // Two name numbers exchanged, so that they are out of order.
                for at in self.words.iter_mut().filter(|word| **word >> 14 == 0) {
                    let number = (*at & 0xFFF) as usize;
                    let to = if number == listed {
                        other
                    } else if number == other {
                        listed
                    } else {
                        number
                    };
                    *at = *at & 0xF000 | to as u16;
                }
            }
            13 => {
                // Bytes left over, now and then many.
                let count =
                    if chance.once_in(20) { chance.pick(&[5_253, 65_535, 65_536]) } else { chance.within(1, 3) };
                self.over.extend((0..count).map(|_| 0));
            }
            14 => {
                self.words.remove(node);
                if self.words.is_empty() || chance.once_in(2) {
                    self.words.push(word(0, 0, 0));
                }
            }
            _ => {
                // A further node, and the count with it.
                self.nodes = self.nodes.wrapping_add(1);
                self.words.insert(node, word(chance.below(3) as u16, mark, chance.below(3) as u16));
            }
        }
    }
}

/// A table: of a model or of a tree that is none, with no damage, one or several; now and then no table at all.
pub fn table(chance: &mut Chance) -> Vec<u8> {
    match chance.below(50) {
        0 => {
            let length = chance.below(24);
            return (0..length).map(|_| chance.byte()).collect();
        }
        1 => {
            // A header that may be right, then anything.
            let (nodes, names) = (chance.within(1, 6) as u16, chance.within(1, 3) as u16);
            let mut bytes = [nodes.to_be_bytes(), names.to_be_bytes()].concat();
            bytes.extend((0..chance.below(24)).map(|_| chance.pick(&[0u8, 1, 2, 0x40, 0x80, b'a', b'b', 0x20])));
            return bytes;
        }
        _ => {}
    }
    let tree = match chance.below(40) {
        0 => limit_tree(chance),
        1..=3 => unlawful_tree(chance),
        _ => any_tree(chance),
    };
    let mut fields = Fields::of(&tree);
    for _ in 0..chance.pick(&[0, 0, 1, 1, 1, 1, 2, 3]) {
        fields.damage(chance);
    }
    let mut bytes = fields.bytes();
    match chance.below(16) {
        0 => bytes.truncate(chance.below(bytes.len() + 1)),
        1 => damage_bytes(chance, &mut bytes),
        2 => {
            let at = chance.below(bytes.len());
            bytes[at] ^= 1 << chance.below(8);
        }
        _ => {}
    }
    bytes
}

/// The table of a deterministic model: with names that come again, if that is soon found, else with a new name for
/// every slot.
pub fn deterministic_table(chance: &mut Chance) -> Vec<u8> {
    let slots = if chance.once_in(20) { chance.within(20, 60) } else { chance.within(1, 9) };
    let depth = chance.within(1, 4);
    let wide = chance.once_in(60);
    for _ in 0..if wide { 3 } else { chance.pick(&[0, 8]) } {
        let mut names = Names::any(chance);
        let table = encode(&if wide { wide_tree(chance) } else { tree(chance, &mut names, slots, depth) });
        if Checked::new(&table).is_ok_and(|checked| checked.states.clash.is_none()) {
            return table;
        }
    }
    encode(&tree(chance, &mut Names::fresh(), slots, depth))
}
