//! What the program `slots` prints for its standard input.

use super::children::{matched, name_part, Checked, Matched, NamePart};
use super::reading::read;
use super::table::encode;
use super::{limits, Refusal};

/// The model up to the first line feed, then child text; without a line feed all of it is the model.
pub fn printed(input: &[u8]) -> Vec<u8> {
    let end = input.iter().position(|byte| *byte == b'\n');
    let (model, children) = match end {
        Some(end) => (&input[..end], &input[end + 1..]),
        None => (input, &[][..]),
    };
    let tree = match read(model, limits::TABLE_ROOM) {
        Ok(tree) => tree,
        Err(Refusal { number, place, .. }) => return format!("refused {number} {place}\n").into_bytes(),
    };
    let table = encode(&tree);
    let checked = Checked::new(&table).expect("what was read is a table");
    let (nodes, slots, names) = (checked.loaded.nodes, checked.loaded.numbers.len(), checked.loaded.names.len());
    let mut lines = format!("model {nodes} {slots} {names}\n").into_bytes();
    if let Some(clash) = checked.states.clash {
        lines.extend(format!("ambiguous {} {} {} ", clash.p, clash.x, clash.y).into_bytes());
        lines.extend(tree.leaves()[clash.x - 1]);
        lines.push(b'\n');
        return lines;
    }
    lines.extend(b"deterministic\n");
    match matched(&checked, &table, children, Some(limits::SLOT_ROOM)) {
        Ok((Matched::Allowed(n), _)) => lines.extend(format!("allowed {n}").into_bytes()),
        Ok((Matched::Stopped(k, slot), _)) => {
            lines.extend(format!("stopped {k} {slot} ").into_bytes());
            if let NamePart::OfChildren { start, length } = name_part(&checked, &table, children) {
                lines.extend(&children[start..start + length]);
            }
        }
        Ok((Matched::Short(n, slot), _)) => lines.extend(format!("short {n} {slot}").into_bytes()),
        Err(refusal) => lines.extend(format!("children refused {} {}", refusal.number, refusal.place).into_bytes()),
    }
    lines.push(b'\n');
    lines
}
