//! Lent slices: each stands between guard bytes, and after a call every byte is held to what it has to be.

use super::chance::Chance;

/// Guard bytes before and after each slice.
const GUARD: usize = 64;

/// Bytes of chance that rooms and guards are filled from: more than any slice has, which is a table damaged three times,
/// each time by 65,536 bytes left over.
pub struct Pattern(Vec<u8>);

impl Pattern {
    pub fn new(seed: u64) -> Pattern {
        let mut chance = Chance::of_case(seed, u64::MAX);
        Pattern((0..1 << 18).map(|_| chance.byte()).collect())
    }

    fn some(&self, chance: &mut Chance, length: usize) -> &[u8] {
        let from = chance.below(self.0.len() - length);
        &self.0[from..from + length]
    }
}

pub struct Lent {
    /// What is lent, guards and all, and the same as it was.
    bytes: Vec<u8>,
    before: Vec<u8>,
    from: usize,
    length: usize,
}

impl Lent {
    /// A room of this length, filled with the pattern.
    pub fn room(pattern: &Pattern, chance: &mut Chance, length: usize) -> Lent {
        let from = GUARD + chance.below(16);
        let bytes = pattern.some(chance, from + length + GUARD).to_vec();
        Lent { before: bytes.clone(), bytes, from, length }
    }

    /// A slice with this content.
    pub fn slice(pattern: &Pattern, chance: &mut Chance, content: &[u8]) -> Lent {
        let mut lent = Lent::room(pattern, chance, content.len());
        lent.bytes[lent.from..lent.from + content.len()].copy_from_slice(content);
        lent.before.copy_from_slice(&lent.bytes);
        lent
    }

    pub fn pointer(&mut self) -> *mut u8 {
        self.bytes[self.from..].as_mut_ptr()
    }

    pub fn length(&self) -> usize {
        self.length
    }

    /// The content that was lent, as text if it is text, else as hexadecimal numbers.
    pub fn shown(&self) -> String {
        let content = &self.before[self.from..self.from + self.length];
        if content.iter().all(|byte| (b' '..=b'~').contains(byte) || b"\t\n".contains(byte)) {
            return format!("\"{}\"", content.escape_ascii());
        }
        content.iter().map(|byte| format!("{byte:02X}")).collect::<Vec<_>>().join(" ")
    }

    /// Nothing, if after the call the slice starts with `written` and no other byte has changed, in it or around it;
    /// else the first byte that is not so.
    pub fn wrong(&mut self, written: &[u8]) -> Option<String> {
        self.before[self.from..self.from + written.len()].copy_from_slice(written);
        if self.bytes == self.before {
            return None;
        }
        let at = (0..self.bytes.len()).find(|at| self.bytes[*at] != self.before[*at])?;
        let (is, should) = (self.bytes[at], self.before[at]);
        Some(format!("byte {} is {is:#04x} and should be {should:#04x}", at as isize - self.from as isize))
    }
}
