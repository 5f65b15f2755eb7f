//! The C interface, and the only unsafe code. Each function here lends Rust slices to the call of the same name and is safe itself.
//! It stands alone: the drivers of `oracle/` and `bench/` take this file as a module of their own.
//!
//! Why that is sound, for all of them:
//!
//! - A slice goes in as its pointer and its length, and the library stays within it.
//! - What is lent to be written is `&mut`, so no other slice of the same call overlaps it.
//! - An empty slice has a pointer that is not null and points nowhere, with length 0. The library allows that: it reads nothing there.
//! - Every input is answered. There is no demand on a call that a caller could break, and no call unwinds.
//! - The library has no state, and keeps no pointer once it has returned.

/// The numbers of an answer of `lark_read`.
#[repr(C)]
pub struct Reading {
    pub number: usize,
    pub place: usize,
    pub document: usize,
    pub events: usize,
}

/// The numbers of an answer of `lark_read2`.
#[repr(C)]
pub struct Reading2 {
    pub number: usize,
    pub place: usize,
    pub options: usize,
    pub document: usize,
    pub events: usize,
}

/// The numbers of a resolver's answer.
#[repr(C)]
pub struct Resolved {
    pub number: usize,
    pub place: usize,
    pub events: usize,
    pub groups: usize,
    pub tried: usize,
}

/// The numbers of an answer of `lark_space_or_tab`.
#[repr(C)]
pub struct Spaces {
    pub number: usize,
    pub place: usize,
    pub found: usize,
    pub taken: usize,
    pub left: usize,
}

/// The numbers of an answer of `lark_list_item`.
#[repr(C)]
pub struct Item {
    pub number: usize,
    pub place: usize,
    pub found: usize,
    pub taken: usize,
    pub left: usize,
    pub size: usize,
    pub blank: usize,
    pub mark: usize,
}

/// The numbers of an answer of `lark_continuation`.
#[repr(C)]
pub struct Going {
    pub number: usize,
    pub place: usize,
    pub found: usize,
    pub taken: usize,
    pub left: usize,
    pub blank: usize,
}

/// The numbers of an answer of `lark_heading`.
#[repr(C)]
pub struct Headed {
    pub number: usize,
    pub place: usize,
    pub found: usize,
    pub events: usize,
}

/// A resolver as the library has it: record, options, output, work memory.
type Resolver = unsafe extern "C" fn(*const u8, usize, u32, *mut u8, usize, *mut u8, usize) -> Resolved;

/// A resolver of form 2, whose records have their options in them: record, output, work memory.
type Resolver2 = unsafe extern "C" fn(*const u8, usize, *mut u8, usize, *mut u8, usize) -> Resolved;

extern "C" {
    fn lark_read(record: *const u8, record_length: usize, options: u32, work: *mut u8, work_length: usize) -> Reading;
    fn lark_resolve_attention(
        record: *const u8,
        record_length: usize,
        options: u32,
        out: *mut u8,
        out_length: usize,
        work: *mut u8,
        work_length: usize,
    ) -> Resolved;
    fn lark_resolve_headings(
        record: *const u8,
        record_length: usize,
        options: u32,
        out: *mut u8,
        out_length: usize,
        work: *mut u8,
        work_length: usize,
    ) -> Resolved;
    fn lark_resolve_lists(
        record: *const u8,
        record_length: usize,
        options: u32,
        out: *mut u8,
        out_length: usize,
        work: *mut u8,
        work_length: usize,
    ) -> Resolved;
    fn lark_read2(record: *const u8, record_length: usize, work: *mut u8, work_length: usize) -> Reading2;
    fn lark_resolve_attention2(
        record: *const u8,
        record_length: usize,
        out: *mut u8,
        out_length: usize,
        work: *mut u8,
        work_length: usize,
    ) -> Resolved;
    fn lark_resolve_headings2(
        record: *const u8,
        record_length: usize,
        out: *mut u8,
        out_length: usize,
        work: *mut u8,
        work_length: usize,
    ) -> Resolved;
    fn lark_resolve_lists2(
        record: *const u8,
        record_length: usize,
        out: *mut u8,
        out_length: usize,
        work: *mut u8,
        work_length: usize,
    ) -> Resolved;
    fn lark_space_or_tab(line: *const u8, line_length: usize, options: u32, column: usize, min: usize, max: usize) -> Spaces;
    fn lark_list_item(line: *const u8, line_length: usize, options: u32, column: usize, interrupting: u32) -> Item;
    fn lark_continuation(line: *const u8, line_length: usize, options: u32, column: usize, size: usize, blank: u32, mark: u32) -> Going;
    fn lark_heading(line: *const u8, line_length: usize, options: u32, column: usize, out: *mut u8, out_length: usize) -> Headed;
}

pub fn read(record: &[u8], options: u32, work: &mut [u8]) -> Reading {
    // SAFETY: two slices with their own lengths; `work` is `&mut`, so they lie apart.
    unsafe { lark_read(record.as_ptr(), record.len(), options, work.as_mut_ptr(), work.len()) }
}

pub fn resolve_attention(record: &[u8], options: u32, out: &mut [u8], work: &mut [u8]) -> Resolved {
    resolve(lark_resolve_attention, record, options, out, work)
}

pub fn resolve_headings(record: &[u8], options: u32, out: &mut [u8], work: &mut [u8]) -> Resolved {
    resolve(lark_resolve_headings, record, options, out, work)
}

pub fn resolve_lists(record: &[u8], options: u32, out: &mut [u8], work: &mut [u8]) -> Resolved {
    resolve(lark_resolve_lists, record, options, out, work)
}

fn resolve(resolver: Resolver, record: &[u8], options: u32, out: &mut [u8], work: &mut [u8]) -> Resolved {
    // SAFETY: three slices with their own lengths; `out` and `work` are `&mut`, so all three lie apart. `resolver` is one of the library's
    // three, since this function is not seen outside and has no other callers.
    unsafe {
        resolver(
            record.as_ptr(),
            record.len(),
            options,
            out.as_mut_ptr(),
            out.len(),
            work.as_mut_ptr(),
            work.len(),
        )
    }
}

pub fn read2(record: &[u8], work: &mut [u8]) -> Reading2 {
    // SAFETY: two slices with their own lengths; `work` is `&mut`, so they lie apart.
    unsafe { lark_read2(record.as_ptr(), record.len(), work.as_mut_ptr(), work.len()) }
}

pub fn resolve_attention2(record: &[u8], out: &mut [u8], work: &mut [u8]) -> Resolved {
    resolve2(lark_resolve_attention2, record, out, work)
}

pub fn resolve_headings2(record: &[u8], out: &mut [u8], work: &mut [u8]) -> Resolved {
    resolve2(lark_resolve_headings2, record, out, work)
}

pub fn resolve_lists2(record: &[u8], out: &mut [u8], work: &mut [u8]) -> Resolved {
    resolve2(lark_resolve_lists2, record, out, work)
}

fn resolve2(resolver: Resolver2, record: &[u8], out: &mut [u8], work: &mut [u8]) -> Resolved {
    // SAFETY: as for `resolve`: three slices that lie apart, and one of the library's three resolvers of form 2.
    unsafe {
        resolver(
            record.as_ptr(),
            record.len(),
            out.as_mut_ptr(),
            out.len(),
            work.as_mut_ptr(),
            work.len(),
        )
    }
}

pub fn space_or_tab(line: &[u8], options: u32, column: usize, min: usize, max: usize) -> Spaces {
    // SAFETY: one slice with its own length, only read.
    unsafe { lark_space_or_tab(line.as_ptr(), line.len(), options, column, min, max) }
}

pub fn list_item(line: &[u8], options: u32, column: usize, interrupting: bool) -> Item {
    // SAFETY: one slice with its own length, only read.
    unsafe { lark_list_item(line.as_ptr(), line.len(), options, column, interrupting.into()) }
}

pub fn continuation(line: &[u8], options: u32, column: usize, size: usize, blank: bool, mark: u8) -> Going {
    // SAFETY: one slice with its own length, only read.
    unsafe { lark_continuation(line.as_ptr(), line.len(), options, column, size, blank.into(), mark.into()) }
}

pub fn heading(line: &[u8], options: u32, column: usize, out: &mut [u8]) -> Headed {
    // SAFETY: two slices with their own lengths; `out` is `&mut`, so they lie apart.
    unsafe { lark_heading(line.as_ptr(), line.len(), options, column, out.as_mut_ptr(), out.len()) }
}
