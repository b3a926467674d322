//! The seven questions, each put to the library and to the second program; the first difference ends a run.

use super::chance::Chance;
use super::lent::{Lent, Pattern};
use super::library::Library;
use super::tally::{Function, Tally};
use crate::second::answers::{reading, sort, Answer, Table};

/// A difference, told in full.
pub type Difference = String;

pub struct Questions<'a> {
    pub library: Library,
    pub pattern: &'a Pattern,
    pub chance: Chance,
    pub tally: &'a mut Tally,
}

impl Questions<'_> {
    fn slice(&mut self, content: &[u8]) -> Lent {
        Lent::slice(self.pattern, &mut self.chance, content)
    }

    fn room(&mut self, length: usize) -> Lent {
        Lent::room(self.pattern, &mut self.chance, length)
    }

    /// `slots_read`; what it has to write, if it has to.
    pub fn read(&mut self, text: &[u8], room: usize) -> Result<Vec<u8>, Difference> {
        let expected = reading(text, room);
        let (mut text, mut room) = (self.slice(text), self.room(room));
        let (from, length) = (text.pointer(), text.length());
        let answer = unsafe { (self.library.read)(from, length, room.pointer(), room.length()) };
        self.hold(Function::Read, answer, &expected, &mut [text], Some(&mut room), None)?;
        Ok(expected.written)
    }

    /// `slots_write`.
    pub fn write(&mut self, table: &Table, room: usize) -> Result<(), Difference> {
        let expected = table.writing(room);
        let (mut lent, mut room) = (self.slice(table.bytes), self.room(room));
        let (from, length) = (lent.pointer(), lent.length());
        let answer = unsafe { (self.library.write)(from, length, room.pointer(), room.length()) };
        self.hold(Function::Write, answer, &expected, &mut [lent], Some(&mut room), None)
    }

    /// `slots_judge`.
    pub fn judge(&mut self, table: &Table) -> Result<(), Difference> {
        let mut lent = self.slice(table.bytes);
        let answer = unsafe { (self.library.judge)(lent.pointer(), lent.length()) };
        self.hold(Function::Judge, answer, &table.judging(), &mut [lent], None, None)
    }

    /// `slots_count`.
    pub fn count(&mut self, table: &Table) -> Result<(), Difference> {
        let mut lent = self.slice(table.bytes);
        let answer = unsafe { (self.library.count)(lent.pointer(), lent.length()) };
        self.hold(Function::Count, answer, &table.counting(), &mut [lent], None, None)
    }

    /// `slots_match`.
    pub fn matching(&mut self, table: &Table, children: &[u8], room: usize) -> Result<(), Difference> {
        let expected = table.matching(children, room);
        let (mut lent, mut children, mut room) = (self.slice(table.bytes), self.slice(children), self.room(room));
        let (from, length) = (lent.pointer(), lent.length());
        let (children_from, children_length) = (children.pointer(), children.length());
        let answer = unsafe {
            (self.library.matching)(from, length, children_from, children_length, room.pointer(), room.length())
        };
        self.hold(Function::Match, answer, &expected, &mut [lent, children], Some(&mut room), None)
    }

    /// `slots_step`.
    pub fn step(&mut self, table: &Table, slot: usize, name: &[u8]) -> Result<(), Difference> {
        let expected = table.stepping(slot, name);
        let (mut lent, mut name) = (self.slice(table.bytes), self.slice(name));
        let (from, length) = (lent.pointer(), lent.length());
        let answer = unsafe { (self.library.step)(from, length, slot, name.pointer(), name.length()) };
        self.hold(Function::Step, answer, &expected, &mut [lent, name], None, Some(slot))
    }

    /// `slots_part`.
    pub fn part(&mut self, table: &Table, children: &[u8]) -> Result<(), Difference> {
        let expected = table.parting(children);
        let (mut lent, mut children) = (self.slice(table.bytes), self.slice(children));
        let (from, length) = (lent.pointer(), lent.length());
        let answer = unsafe { (self.library.part)(from, length, children.pointer(), children.length()) };
        self.hold(Function::Part, answer, &expected, &mut [lent, children], None, None)
    }

    /// Holds an answer, and every byte lent, to what the second program expects.
    fn hold(
        &mut self,
        function: Function,
        answer: u64,
        expected: &Answer,
        slices: &mut [Lent],
        room: Option<&mut Lent>,
        slot: Option<usize>,
    ) -> Result<(), Difference> {
        self.tally.count(function, sort(expected.packed));
        let mut wrong = Vec::new();
        if answer != expected.packed {
            wrong.push(format!("the library answers {}\nthe second program {}", told(answer), told(expected.packed)));
        }
        let room_length = room.as_ref().map(|room| room.length());
        wrong.extend(room.and_then(|room| room.wrong(&expected.written)).map(|what| format!("in the room, {what}")));
        for (index, slice) in slices.iter_mut().enumerate() {
            wrong.extend(slice.wrong(&[]).map(|what| format!("in slice {}, {what}", index + 1)));
        }
        if wrong.is_empty() {
            return Ok(());
        }
        let mut told = format!("{}\n", function.name());
        for (index, slice) in slices.iter().enumerate() {
            told += &format!("slice {}: {} bytes, {}\n", index + 1, slice.length(), slice.shown());
        }
        told += &slot.map_or(String::new(), |slot| format!("slot {slot}\n"));
        told += &room_length.map_or(String::new(), |length| format!("room of {length} bytes\n"));
        Err(told + &wrong.join("\n"))
    }
}

/// A packed answer in words.
fn told(packed: u64) -> String {
    let field = |from: u32, bits: u32| packed >> from & ((1 << bits) - 1);
    format!("sort {} a {} b {} c {}", sort(packed), field(32, 24), field(16, 16), field(0, 16))
}
