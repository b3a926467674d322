//! A safe wrapper over the proved checker of XML element content models. The words and numbers are those of document
//! 01, "The required build and its rules".
//!
//! On refusal no lent byte changes; on success only the answer's own bytes change, from the start of the room on.
//!
//! ```
//! use slots::{judge, match_children, read, Matched, Read, Verdict, SLOT_ROOM, TABLE_ROOM};
//!
//! let mut room = [0; TABLE_ROOM];
//! let Read::Table(length) = read(b"(house*,(line,house*)?)", &mut room) else { panic!("it is a model") };
//! let table = &room[..length];
//! assert_eq!(judge(table), Verdict::Deterministic);
//! let mut slots = [0; SLOT_ROOM];
//! assert_eq!(match_children(table, b"house line house", &mut slots), Matched::Allowed(3));
//! assert_eq!(slots[..3], [1, 2, 3]);
//! ```

mod raw;

use raw::{unpack, Answer};

/// The rooms that a table, a written text and the slots of the children ask for, in bytes.
pub const TABLE_ROOM: usize = 5252;
pub const TEXT_ROOM: usize = 4096;
pub const SLOT_ROOM: usize = 8192;

/// One occurrence of a name in a model, from 1, left to right. Slot 0 is the start.
#[derive(Clone, Copy, Debug, PartialEq, Eq, PartialOrd, Ord, Hash)]
pub struct Slot(pub usize);

/// Two allowed numbered lists share a beginning that ends in `p` (slot 0: an empty beginning), then go to the slots
/// `x` and `y` of the same name, x < y: the smallest p, then the smallest x, then the smallest y.
#[derive(Clone, Copy, Debug, PartialEq, Eq, Hash)]
pub struct Clash {
    pub p: Slot,
    pub x: Slot,
    pub y: Slot,
}

/// Why something was refused. The place is held where it varies.
#[derive(Clone, Copy, Debug, PartialEq, Eq, Hash)]
pub enum Refusal {
    /// 1: model text over 4,096 bytes.
    TextTooLong,
    /// 2: table room under 5,252 bytes.
    TableRoom,
    /// 3: a byte that the grammar uses nowhere.
    UnknownByte(usize),
    /// 4: the text so far begins a model, but not with this byte, or it ends too soon.
    WrongByte(usize),
    /// 5: a name over 64, at its 65th byte.
    NameTooLong(usize),
    /// 6: the 33rd open group.
    TooDeep(usize),
    /// 7: the 129th slot.
    TooManySlots(usize),
    /// 8: the 513th node.
    TooManyNodes(usize),
    /// 11: a table under 4 bytes.
    TableTooShort,
    /// 12: node count not 2 to 512, or name count not 1 to 128.
    BadCounts,
    /// 13: nodes are not one whole tree under a group, a member count too small, kind 3, a name number too high, or
    /// node bytes missing.
    BadNodes,
    /// 14: a name's length, bytes or end wrong, bytes left over, or two names equal.
    BadNames,
    /// 15: name numbers not in order of first use, or one unused.
    BadOrder,
    /// 16: over 32 nested groups or 128 slots.
    TooLarge,
    /// 17: its text would pass 4,096 bytes.
    WrittenTooLong,
    /// 18: text room under 4,096 bytes.
    TextRoom,
    /// 21: child text over 16,384 bytes.
    ChildrenTooLong,
    /// 22: a byte in child text that is neither white space nor right for a name there.
    ChildByte(usize),
    /// 23: a child name over 64, at its 65th byte.
    ChildTooLong(usize),
    /// 24: the model is ambiguous.
    Ambiguous(Clash),
    /// 25: slot room under 8,192 bytes.
    SlotRoom,
    /// 26: a step from a slot above the model's last.
    NoSuchSlot,
}

impl Refusal {
    /// The number that document 01 gives it.
    pub fn number(self) -> u8 {
        match self {
            Refusal::TextTooLong => 1,
            Refusal::TableRoom => 2,
            Refusal::UnknownByte(_) => 3,
            Refusal::WrongByte(_) => 4,
            Refusal::NameTooLong(_) => 5,
            Refusal::TooDeep(_) => 6,
            Refusal::TooManySlots(_) => 7,
            Refusal::TooManyNodes(_) => 8,
            Refusal::TableTooShort => 11,
            Refusal::BadCounts => 12,
            Refusal::BadNodes => 13,
            Refusal::BadNames => 14,
            Refusal::BadOrder => 15,
            Refusal::TooLarge => 16,
            Refusal::WrittenTooLong => 17,
            Refusal::TextRoom => 18,
            Refusal::ChildrenTooLong => 21,
            Refusal::ChildByte(_) => 22,
            Refusal::ChildTooLong(_) => 23,
            Refusal::Ambiguous(_) => 24,
            Refusal::SlotRoom => 25,
            Refusal::NoSuchSlot => 26,
        }
    }

    /// The place that it was met at.
    pub fn place(self) -> usize {
        match self {
            Refusal::TextTooLong => 4096,
            Refusal::ChildrenTooLong => 16384,
            Refusal::UnknownByte(place)
            | Refusal::WrongByte(place)
            | Refusal::NameTooLong(place)
            | Refusal::TooDeep(place)
            | Refusal::TooManySlots(place)
            | Refusal::TooManyNodes(place)
            | Refusal::ChildByte(place)
            | Refusal::ChildTooLong(place) => place,
            _ => 0,
        }
    }

    /// The refusal that an answer tells.
    fn told(answer: &Answer) -> Refusal {
        let place = answer.a;
        match answer.sort {
            1 => Refusal::TextTooLong,
            2 => Refusal::TableRoom,
            3 => Refusal::UnknownByte(place),
            4 => Refusal::WrongByte(place),
            5 => Refusal::NameTooLong(place),
            6 => Refusal::TooDeep(place),
            7 => Refusal::TooManySlots(place),
            8 => Refusal::TooManyNodes(place),
            11 => Refusal::TableTooShort,
            12 => Refusal::BadCounts,
            13 => Refusal::BadNodes,
            14 => Refusal::BadNames,
            15 => Refusal::BadOrder,
            16 => Refusal::TooLarge,
            17 => Refusal::WrittenTooLong,
            18 => Refusal::TextRoom,
            21 => Refusal::ChildrenTooLong,
            22 => Refusal::ChildByte(place),
            23 => Refusal::ChildTooLong(place),
            24 => Refusal::Ambiguous(clash(answer)),
            25 => Refusal::SlotRoom,
            26 => Refusal::NoSuchSlot,
            sort => unreachable!("no refusal has the number {sort}"),
        }
    }
}

fn clash(answer: &Answer) -> Clash {
    Clash { p: Slot(answer.a), x: Slot(answer.b), y: Slot(answer.c) }
}

#[derive(Clone, Copy, Debug, PartialEq, Eq)]
pub enum Read {
    /// The table's length.
    Table(usize),
    Refused(Refusal),
}

/// Reads a model text and writes its tree table.
pub fn read(text: &[u8], table: &mut [u8]) -> Read {
    let answer = unsafe { raw::slots_read(text.as_ptr(), text.len(), table.as_mut_ptr(), table.len()) };
    match unpack(answer) {
        Answer { sort: 0, a, .. } => Read::Table(a),
        refused => Read::Refused(Refusal::told(&refused)),
    }
}

#[derive(Clone, Copy, Debug, PartialEq, Eq)]
pub enum Written {
    /// The text's length.
    Text(usize),
    Refused(Refusal),
}

/// Writes a table's text, without white space.
pub fn write(table: &[u8], text: &mut [u8]) -> Written {
    let answer = unsafe { raw::slots_write(table.as_ptr(), table.len(), text.as_mut_ptr(), text.len()) };
    match unpack(answer) {
        Answer { sort: 0, a, .. } => Written::Text(a),
        refused => Written::Refused(Refusal::told(&refused)),
    }
}

#[derive(Clone, Copy, Debug, PartialEq, Eq)]
pub enum Verdict {
    Deterministic,
    Ambiguous(Clash),
    Refused(Refusal),
}

/// Whether a table's model is deterministic.
pub fn judge(table: &[u8]) -> Verdict {
    match unpack(unsafe { raw::slots_judge(table.as_ptr(), table.len()) }) {
        Answer { sort: 0, .. } => Verdict::Deterministic,
        ambiguous @ Answer { sort: 24, .. } => Verdict::Ambiguous(clash(&ambiguous)),
        refused => Verdict::Refused(Refusal::told(&refused)),
    }
}

#[derive(Clone, Copy, Debug, PartialEq, Eq)]
pub enum Counted {
    Counts { nodes: usize, slots: usize, names: usize },
    Refused(Refusal),
}

/// A table's counts.
pub fn count(table: &[u8]) -> Counted {
    match unpack(unsafe { raw::slots_count(table.as_ptr(), table.len()) }) {
        Answer { sort: 0, a, b, c } => Counted::Counts { nodes: a, slots: b, names: c },
        refused => Counted::Refused(Refusal::told(&refused)),
    }
}

#[derive(Clone, Copy, Debug, PartialEq, Eq)]
pub enum Matched {
    /// An allowed list, with the number of children.
    Allowed(usize),
    /// Stopped at child `k` (from 1), with the slot held before it; k - 1 bytes are written.
    Stopped {
        k: usize,
        slot: Slot,
    },
    /// All children are placed, but the list is no allowed one; with their number and the slot held.
    Short {
        n: usize,
        slot: Slot,
    },
    Refused(Refusal),
}

/// Matches child text, and writes one byte, the slot, for each child placed.
pub fn match_children(table: &[u8], children: &[u8], slots: &mut [u8]) -> Matched {
    let (from, room) = (children.as_ptr(), slots.as_mut_ptr());
    let answer = unsafe { raw::slots_match(table.as_ptr(), table.len(), from, children.len(), room, slots.len()) };
    match unpack(answer) {
        Answer { sort: 0, a, .. } => Matched::Allowed(a),
        Answer { sort: 1, a, b, .. } => Matched::Stopped { k: a, slot: Slot(b) },
        Answer { sort: 2, a, b, .. } => Matched::Short { n: a, slot: Slot(b) },
        refused => Matched::Refused(Refusal::told(&refused)),
    }
}

#[derive(Clone, Copy, Debug, PartialEq, Eq)]
pub enum Stepped {
    Next(Slot),
    Nowhere,
    Refused(Refusal),
}

/// A single step from a slot by a name, given as any bytes.
pub fn step(table: &[u8], slot: Slot, name: &[u8]) -> Stepped {
    let answer = unsafe { raw::slots_step(table.as_ptr(), table.len(), slot.0, name.as_ptr(), name.len()) };
    match unpack(answer) {
        Answer { sort: 0, a, .. } => Stepped::Next(Slot(a)),
        Answer { sort: 1, .. } => Stepped::Nowhere,
        refused => Stepped::Refused(Refusal::told(&refused)),
    }
}

/// A name as a part of what was lent: for stopped the child's name in the child text; for short the held slot's name
/// in the table, or the empty part at the child text's end if the slot is 0; for allowed and every refusal that same
/// empty part.
pub fn name_part<'a>(table: &'a [u8], children: &'a [u8]) -> &'a [u8] {
    let answer = unsafe { raw::slots_part(table.as_ptr(), table.len(), children.as_ptr(), children.len()) };
    match unpack(answer) {
        Answer { sort: 0, a, b, .. } => &children[a..a + b],
        Answer { sort: 1, a, b, .. } => &table[a..a + b],
        _ => &children[children.len()..],
    }
}
