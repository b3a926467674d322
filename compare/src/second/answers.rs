//! The second program's answers as the C interface packs them, with the bytes that are written.

use super::children::{matched, name_part, step, Checked, Matched, NamePart};
use super::reading::read;
use super::table::encode;
use super::{limits, refuse, Refusal};

/// An answer, packed, and the bytes written from the start of the room on.
#[derive(Clone, Debug, PartialEq, Eq)]
pub struct Answer {
    pub packed: u64,
    pub written: Vec<u8>,
}

/// sort * 2^56 + a * 2^32 + b * 2^16 + c.
pub fn pack(sort: usize, a: usize, b: usize, c: usize) -> u64 {
    assert!(sort < 1 << 8 && a < 1 << 24 && b < 1 << 16 && c < 1 << 16);
    (sort as u64) << 56 | (a as u64) << 32 | (b as u64) << 16 | c as u64
}

/// The sort of a packed answer.
pub fn sort(packed: u64) -> usize {
    (packed >> 56) as usize
}

fn refused(refusal: Refusal) -> Answer {
    let packed = match refusal.clash {
        Some(clash) => pack(refusal.number.into(), clash.p, clash.x, clash.y),
        None => pack(refusal.number.into(), refusal.place, 0, 0),
    };
    Answer { packed, written: Vec::new() }
}

fn plain(packed: u64) -> Answer {
    Answer { packed, written: Vec::new() }
}

/// `slots_read`.
pub fn reading(text: &[u8], room: usize) -> Answer {
    match read(text, room) {
        Ok(tree) => {
            let written = encode(&tree);
            Answer { packed: pack(0, written.len(), 0, 0), written }
        }
        Err(refusal) => refused(refusal),
    }
}

/// A table with what it loads as, so that many questions can be asked of it.
pub struct Table<'a> {
    pub bytes: &'a [u8],
    pub checked: Result<Checked, Refusal>,
}

impl<'a> Table<'a> {
    pub fn new(bytes: &'a [u8]) -> Table<'a> {
        Table { bytes, checked: Checked::new(bytes) }
    }

    fn ask(&self, question: impl FnOnce(&Checked) -> Result<Answer, Refusal>) -> Answer {
        let checked = self.checked.as_ref().map_err(|refusal| *refusal);
        checked.and_then(question).unwrap_or_else(refused)
    }

    /// `slots_write`.
    pub fn writing(&self, room: usize) -> Answer {
        self.ask(|checked| {
            if room < limits::TEXT_ROOM {
                return refuse(18, 0);
            }
            let written = checked.loaded.tree.text();
            Ok(Answer { packed: pack(0, written.len(), 0, 0), written })
        })
    }

    /// `slots_judge`.
    pub fn judging(&self) -> Answer {
        self.ask(|checked| {
            let clash = checked.states.clash;
            Ok(plain(clash.map_or(pack(0, 0, 0, 0), |clash| pack(24, clash.p, clash.x, clash.y))))
        })
    }

    /// `slots_count`.
    pub fn counting(&self) -> Answer {
        self.ask(|checked| {
            let loaded = &checked.loaded;
            Ok(plain(pack(0, loaded.nodes, loaded.numbers.len(), loaded.names.len())))
        })
    }

    /// `slots_match`.
    pub fn matching(&self, children: &[u8], room: usize) -> Answer {
        self.ask(|checked| {
            let (answer, written) = matched(checked, self.bytes, children, Some(room))?;
            let packed = match answer {
                Matched::Allowed(n) => pack(0, n, 0, 0),
                Matched::Stopped(k, slot) => pack(1, k, slot, 0),
                Matched::Short(n, slot) => pack(2, n, slot, 0),
            };
            Ok(Answer { packed, written })
        })
    }

    /// `slots_step`.
    pub fn stepping(&self, slot: usize, name: &[u8]) -> Answer {
        self.ask(|checked| {
            let next = step(checked, self.bytes, slot, name)?;
            Ok(plain(next.map_or(pack(1, 0, 0, 0), |next| pack(0, next, 0, 0))))
        })
    }

    /// `slots_part`.
    pub fn parting(&self, children: &[u8]) -> Answer {
        let part = match &self.checked {
            Ok(checked) => name_part(checked, self.bytes, children),
            Err(_) => NamePart::ChildrenEnd,
        };
        plain(match part {
            NamePart::OfChildren { start, length } => pack(0, start, length, 0),
            NamePart::OfTable { start, length } => pack(1, start, length, 0),
            NamePart::ChildrenEnd => pack(2, 0, 0, 0),
        })
    }
}
