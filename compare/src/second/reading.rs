//! Reading a model text: refusals 1 to 8, each from its own sentence, and the tree by splitting the text at brackets.

use super::grammar::{in_name, is_used, is_white, standing};
use super::tree::{Body, Mark, Tree};
use super::{limits, refuse, Refusal};

/// The tree of a model text, or why it is refused: 1, 2, then the least place among 3 to 8, the lower number on a tie.
pub fn read(text: &[u8], room: usize) -> Result<Tree, Refusal> {
    if text.len() > limits::TEXT {
        return refuse(1, limits::TEXT);
    }
    if room < limits::TABLE_ROOM {
        return refuse(2, 0);
    }
    match faults(text).into_iter().min() {
        Some((place, number)) => refuse(number, place),
        None => Ok(split(&text.iter().copied().filter(|byte| !is_white(*byte)).collect::<Vec<u8>>())),
    }
}

/// The faults of a text, as place and number. Of each number only the first: no later one can have the least place.
/// Grammar faults are judged without the limits, and the limits are counts over the bytes before a place, which mean
/// what they say as long as those bytes begin a model; past that, 4 has the lesser place.
fn faults(text: &[u8]) -> Vec<(usize, u8)> {
    let mut faults = Vec::new();
    // 3: a byte that the grammar uses nowhere.
    faults.extend(text.iter().position(|byte| !is_used(*byte)).map(|place| (place, 3)));
    // 4: the text so far begins a model, but not with this byte, or it ends too soon.
    let standing = standing(text);
    if !standing.model {
        faults.push((standing.begins, 4));
    }
    // 5: a name over 64, at its 65th byte.
    let over = |window: &[u8]| window.iter().all(|byte| in_name(*byte));
    faults.extend(text.windows(limits::NAME + 1).position(over).map(|first| (first + limits::NAME, 5)));
    // 6: the 33rd open group, at its bracket.
    let opens = |place: &usize| text[*place] == b'(';
    let deep = |place: &usize| opens(place) && open_groups(&text[..*place]) == limits::GROUPS as isize;
    faults.extend((0..text.len()).filter(opens).find(deep).map(|place| (place, 6)));
    // 7: the 129th slot, at the name's first byte. 8: the 513th node, at its first byte.
    let names = |place: &usize| in_name(text[*place]) && (*place == 0 || !in_name(text[*place - 1]));
    faults.extend((0..text.len()).filter(names).nth(limits::SLOTS).map(|place| (place, 7)));
    let nodes = |place: &usize| opens(place) || names(place);
    faults.extend((0..text.len()).filter(nodes).nth(limits::NODES).map(|place| (place, 8)));
    faults
}

/// How many groups are open after some text.
fn open_groups(text: &[u8]) -> isize {
    text.iter().map(|byte| (*byte == b'(') as isize - (*byte == b')') as isize).sum()
}

/// The tree of a particle of a model, without white space: the mark is its last byte, a group is what stands between
/// brackets, and its members are joined by the `,` or `|` that no inner bracket encloses.
fn split(particle: &[u8]) -> Tree {
    let (mark, bare) = match particle.split_last() {
        Some((b'?', bare)) => (Mark::Optional, bare),
        Some((b'*', bare)) => (Mark::Star, bare),
        Some((b'+', bare)) => (Mark::Plus, bare),
        _ => (Mark::Plain, particle),
    };
    let Some(inside) = bare.strip_prefix(b"(").and_then(|rest| rest.strip_suffix(b")")) else {
        return Tree { body: Body::Name(bare.to_vec()), mark };
    };
    let mut open = 0;
    let mut choice = false;
    let joints = inside.split(|byte| {
        open += (*byte == b'(') as isize - (*byte == b')') as isize;
        choice |= open == 0 && *byte == b'|';
        open == 0 && (*byte == b',' || *byte == b'|')
    });
    let members: Vec<Tree> = joints.collect::<Vec<_>>().into_iter().map(split).collect();
    Tree { body: if choice { Body::Choice(members) } else { Body::Sequence(members) }, mark }
}
