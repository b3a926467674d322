//! The C interface, `include/slots.h`: a slice is a pointer, then a length.

pub type Bytes = *const u8;
pub type Room = *mut u8;

/// The seven functions of a library. Those of the proved one are declared in the program that links it.
#[derive(Clone, Copy)]
pub struct Library {
    pub read: unsafe extern "C" fn(Bytes, usize, Room, usize) -> u64,
    pub write: unsafe extern "C" fn(Bytes, usize, Room, usize) -> u64,
    pub judge: unsafe extern "C" fn(Bytes, usize) -> u64,
    pub count: unsafe extern "C" fn(Bytes, usize) -> u64,
    pub matching: unsafe extern "C" fn(Bytes, usize, Bytes, usize, Room, usize) -> u64,
    pub step: unsafe extern "C" fn(Bytes, usize, usize, Bytes, usize) -> u64,
    pub part: unsafe extern "C" fn(Bytes, usize, Bytes, usize) -> u64,
}
