//! An independent second program for XML element content models, and what is needed to compare it with the proved
//! library. It knows document 01 only, and the layout of the C interface; it shares no code with the library.

pub mod harness;
#[cfg(feature = "mock")]
pub mod mock;
pub mod second;
