//! The C interface, as in include/slots.h: a slice is a pointer, then a length, and an answer is
//! sort * 2^56 + a * 2^32 + b * 2^16 + c.

extern "C" {
    pub fn slots_read(text: *const u8, text_len: usize, table: *mut u8, table_len: usize) -> u64;
    pub fn slots_write(table: *const u8, table_len: usize, text: *mut u8, text_len: usize) -> u64;
    pub fn slots_judge(table: *const u8, table_len: usize) -> u64;
    pub fn slots_count(table: *const u8, table_len: usize) -> u64;
    pub fn slots_match(
        table: *const u8,
        table_len: usize,
        children: *const u8,
        children_len: usize,
        slots: *mut u8,
        slots_len: usize,
    ) -> u64;
    pub fn slots_step(table: *const u8, table_len: usize, slot: usize, name: *const u8, name_len: usize) -> u64;
    pub fn slots_part(table: *const u8, table_len: usize, children: *const u8, children_len: usize) -> u64;
}

/// An answer, taken apart.
pub struct Answer {
    pub sort: u8,
    pub a: usize,
    pub b: usize,
    pub c: usize,
}

pub fn unpack(answer: u64) -> Answer {
    let field = |from: u32, bits: u32| (answer >> from & ((1 << bits) - 1)) as usize;
    Answer { sort: (answer >> 56) as u8, a: field(32, 24), b: field(16, 16), c: field(0, 16) }
}
