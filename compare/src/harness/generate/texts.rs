//! Model texts: with white space, damaged, and at the limits.

use crate::harness::chance::Chance;
use crate::second::limits;
use crate::second::tree::Tree;

use super::extremes::limit_tree;
use super::trees::any_tree;

/// A run of white space, often none.
pub fn space(chance: &mut Chance, once_in: usize) -> Vec<u8> {
    if once_in == 0 || !chance.once_in(once_in) {
        return Vec::new();
    }
    (0..chance.within(1, 3)).map(|_| chance.pick(b" \t\n")).collect()
}

/// A tree's text with random white space.
pub fn spaced(chance: &mut Chance, tree: &Tree) -> Vec<u8> {
    let once_in = chance.pick(&[0, 0, 2, 8]);
    let mut text = space(chance, once_in);
    text.extend(tree.spaced(&mut || space(chance, once_in)));
    text.extend(space(chance, once_in));
    text
}

/// Damages bytes in one to four places: any byte, or one that the grammar uses, put in, put in place of another,
/// taken out; a cut; a stretch twice.
pub fn damage_bytes(chance: &mut Chance, bytes: &mut Vec<u8>) {
    for _ in 0..chance.pick(&[1, 1, 1, 2, 3, 4]) {
        let at = chance.below(bytes.len() + 1);
        let byte = if chance.once_in(2) { chance.byte() } else { chance.pick(b"(((),|?*+ a1-.:\n\tz") };
        match chance.below(6) {
            0 | 1 => bytes.insert(at, byte),
            2 if at < bytes.len() => bytes[at] = byte,
            3 if at < bytes.len() => {
                bytes.remove(at);
            }
            4 => bytes.truncate(at),
            5 => {
                let to = chance.within(at, (at + 4).min(bytes.len()));
                let stretch = bytes[at..to].to_vec();
                bytes.splice(at..at, stretch);
            }
            _ => {}
        }
    }
}

/// A model text: a random tree's, often damaged, now and then at a limit or no model at all.
pub fn text(chance: &mut Chance) -> Vec<u8> {
    let mut text = match chance.below(100) {
        0..=7 => limit_text(chance),
        8 => (0..chance.below(12)).map(|_| chance.byte()).collect(),
        9..=11 => (0..chance.below(14)).map(|_| chance.pick(b"((()),|?*+ ab1")).collect(),
        _ => {
            let tree = any_tree(chance);
            spaced(chance, &tree)
        }
    };
    if chance.once_in(2) {
        damage_bytes(chance, &mut text);
    }
    text
}

/// A text at one of the limits: of a tree there, or padded by white space to about 4,096 bytes.
fn limit_text(chance: &mut Chance) -> Vec<u8> {
    if chance.once_in(4) {
        let tree = any_tree(chance);
        let mut text = spaced(chance, &tree);
        let length = if chance.once_in(20) { 66_000 } else { limits::TEXT + chance.below(4) - 1 };
        let wanting = length.saturating_sub(text.len());
        let before = chance.below(wanting + 1);
        text.splice(0..0, vec![b'\n'; before]);
        text.extend(vec![b' '; wanting - before]);
        return text;
    }
    let tree = limit_tree(chance);
    if chance.once_in(4) {
        return spaced(chance, &tree);
    }
    tree.text()
}
