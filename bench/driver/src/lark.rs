//! The static library's resolvers and readers, lent buffers of their own: 65,536 bytes of work memory, and room for the largest result.
//!
//! What is timed is the call as the Rust binding makes it. Its functions only take slices apart, and the optimiser puts them in their callers.

// The binding's own file, so that the C interface is declared once. `read` is not timed here, nor called.
#[allow(dead_code)]
#[path = "../../../bindings/rust/src/ffi.rs"]
#[rustfmt::skip]
mod ffi;

use crate_side::Resolver;
pub use ffi::{continuation, list_item, space_or_tab};
use ffi::{Headed, Resolved};

/// The least work memory that a call takes.
pub const WORK: usize = 65_536;
/// The largest section that a call writes.
pub const OUT: usize = 4 + 8 * 8_000;

/// The lent memory.
pub struct Lent {
    pub out: Vec<u8>,
    pub work: Vec<u8>,
}

impl Lent {
    pub fn new() -> Lent {
        Lent { out: vec![0; OUT], work: vec![0; WORK] }
    }

    #[inline]
    pub fn resolve(&mut self, which: Resolver, record: &[u8], options: u32) -> Resolved {
        // A call in each arm, and not a choice of function: so each is inlined.
        match which {
            Resolver::Attention => ffi::resolve_attention(record, options, &mut self.out, &mut self.work),
            Resolver::Headings => ffi::resolve_headings(record, options, &mut self.out, &mut self.work),
            Resolver::Lists => ffi::resolve_lists(record, options, &mut self.out, &mut self.work),
        }
    }

    pub fn heading(&mut self, line: &[u8], options: u32) -> Headed {
        ffi::heading(line, options, 0, &mut self.out)
    }
}
