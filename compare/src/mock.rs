//! NOT the library: a stand-in for it, made of the second program, to try the comparison before an archive is at hand
//! and to see that it notices faults. A run with it says nothing about the library.

use std::slice;
use std::sync::atomic::{AtomicUsize, Ordering};

use crate::harness::library::{Bytes, Library, Room};
use crate::second::answers::{pack, reading, sort, Answer, Table};

/// The faults that can be asked for; 0 is none.
pub const FAULTS: [&str; 7] = [
    "no fault",
    "the clash shown is not the smallest",
    "one slot more is written than children are placed",
    "the 65th byte of a name is placed one byte later",
    "on a tie of 7 and 8 the higher number is told",
    "a refused child text leaves a slot in the room",
    "a byte before the text room is changed",
];

static FAULT: AtomicUsize = AtomicUsize::new(0);

fn fault(number: usize) -> bool {
    FAULT.load(Ordering::Relaxed) == number
}

/// The stand-in, with one of the faults.
pub fn library(fault: usize) -> Library {
    FAULT.store(fault, Ordering::Relaxed);
    Library { read, write, judge, count, matching, step, part }
}

unsafe fn lent<'a>(from: Bytes, length: usize) -> &'a [u8] {
    slice::from_raw_parts(from, length)
}

unsafe fn put(answer: Answer, room: Room) -> u64 {
    std::ptr::copy_nonoverlapping(answer.written.as_ptr(), room, answer.written.len());
    answer.packed
}

unsafe extern "C" fn read(text: Bytes, text_len: usize, table: Room, table_len: usize) -> u64 {
    let text = lent(text, text_len);
    let mut answer = reading(text, table_len);
    if fault(3) && sort(answer.packed) == 5 {
        answer.packed += 1 << 32;
    }
    if fault(4) && sort(answer.packed) == 7 {
        let place = (answer.packed >> 32) as usize & 0xFF_FFFF;
        if 128 + text[..place].iter().filter(|byte| **byte == b'(').count() == 512 {
            answer.packed = pack(8, place, 0, 0);
        }
    }
    put(answer, table)
}

unsafe extern "C" fn write(table: Bytes, table_len: usize, text: Room, text_len: usize) -> u64 {
    let answer = Table::new(lent(table, table_len)).writing(text_len);
    if fault(6) && sort(answer.packed) == 0 {
        *text.sub(1) ^= 1;
    }
    put(answer, text)
}

unsafe extern "C" fn judge(table: Bytes, table_len: usize) -> u64 {
    let table = Table::new(lent(table, table_len));
    let answer = table.judging();
    if let (true, Ok(checked)) = (fault(1), &table.checked) {
        // The clash at the greatest p that has one.
        for state in checked.states.states.iter().rev() {
            for x in state.next.keys() {
                if let Some(y) =
                    state.next.keys().find(|y| x < y && checked.states.name(*x) == checked.states.name(**y))
                {
                    return pack(24, state.last, *x, *y);
                }
            }
        }
    }
    answer.packed
}

unsafe extern "C" fn count(table: Bytes, table_len: usize) -> u64 {
    Table::new(lent(table, table_len)).counting().packed
}

unsafe extern "C" fn matching(
    table: Bytes,
    table_len: usize,
    children: Bytes,
    children_len: usize,
    slots: Room,
    slots_len: usize,
) -> u64 {
    let mut answer = Table::new(lent(table, table_len)).matching(lent(children, children_len), slots_len);
    if fault(2) && sort(answer.packed) == 1 {
        answer.written.push(1);
    }
    if fault(5) && sort(answer.packed) == 22 {
        answer.written.push(1);
    }
    put(answer, slots)
}

unsafe extern "C" fn step(table: Bytes, table_len: usize, slot: usize, name: Bytes, name_len: usize) -> u64 {
    Table::new(lent(table, table_len)).stepping(slot, lent(name, name_len)).packed
}

unsafe extern "C" fn part(table: Bytes, table_len: usize, children: Bytes, children_len: usize) -> u64 {
    Table::new(lent(table, table_len)).parting(lent(children, children_len)).packed
}
