//! Resolves Markdown over records of events: emphasis, strong and strikethrough runs, headings, list items.
//!
//! The work is done by the static library of the project, where every function is proved to meet its contract. This crate is a thin
//! face of it: slices in, a `Result` out, and no unsafe code but in one file.
//!
//! A record is a document and its events. [`record()`] or [`record_into`] makes one, [`read`] says whether it is good, and [`resolve_attention`],
//! [`resolve_headings`] and [`resolve_lists`] write the events that come out. The line readers [`space_or_tab`], [`list_item`],
//! [`continuation`] and [`heading`] take one line, and the column at which it starts.
//!
//! There is no tokenizer here: the events come from the caller, in part by the line readers. A result is a section, and [`record_into`] makes a
//! record of it for the next resolver; but a result may have more events than a record may, and deeper ones, attention's most of all, so attention
//! comes last.
//!
//! In form 2 a record has its options in it, and each event the number of its partner: an enter that of its exit, and the exit that of the enter. It is
//! made by [`record2()`] or [`record2_into`], which take events without partners, and goes to [`read2`], [`resolve_attention2`], [`resolve_headings2`] and
//! [`resolve_lists2`]. What these write is read by [`Events2`], in order or by number, so that the exit of an enter is one step away.
//!
//! What a call answers and writes depends on the record or line, the options, the arguments and the lengths of the buffers alone. It never
//! depends on what a buffer held before. A [`Refusal`] leaves the output as it was. The work memory is zero after every call.
//!
//! # Features
//!
//! The crate is `no_std`. The feature `alloc`, on by default, adds what needs an allocator: [`Work::new`], [`record()`], [`record2()`] and the
//! calls that answer with a vector, `.._to_vec`. Without it work memory is lent by [`Work::from`] and records are written by [`record_into`] and
//! [`record2_into`].
//!
//! # Example
//!
//! The whole of `examples/emphasis.rs`:
//!
#![cfg_attr(feature = "alloc", doc = "```")]
#![cfg_attr(not(feature = "alloc"), doc = "```ignore")]
#![doc = include_str!("../examples/emphasis.rs")]
//! ```

#![no_std]
#![deny(missing_docs, unsafe_code, unsafe_op_in_unsafe_fn)]
#![warn(rust_2018_idioms)]
// The text above speaks of what the feature adds, also where it is off.
#![cfg_attr(not(feature = "alloc"), allow(rustdoc::broken_intra_doc_links))]

#[cfg(feature = "alloc")]
extern crate alloc;

mod events;
#[allow(unsafe_code)]
mod ffi;
mod limits;
mod lines;
mod options;
mod records;
mod refusal;
mod resolve;
mod sections;
mod work;

pub use events::{Event, Event2, Kind, Name};
pub use limits::{MAX_COLUMN, MAX_DEPTH, MAX_DOCUMENT, MAX_EVENTS, MAX_LINE, MAX_RESULT};
#[cfg(feature = "alloc")]
pub use lines::heading_to_vec;
pub use lines::{continuation, heading, list_item, space_or_tab, Container, Continuation, Item, ListKind, Spaces};
pub use options::Options;
#[cfg(feature = "alloc")]
pub use records::{record, record2};
pub use records::{record2_into, record_into, record_length, record_length2};
pub use refusal::Refusal;
pub use resolve::{
    read, read2, resolve_attention, resolve_attention2, resolve_headings, resolve_headings2, resolve_lists, resolve_lists2, Reading,
    Reading2, Resolved,
};
#[cfg(feature = "alloc")]
pub use resolve::{
    resolve_attention2_to_vec, resolve_attention_to_vec, resolve_headings2_to_vec, resolve_headings_to_vec, resolve_lists2_to_vec,
    resolve_lists_to_vec,
};
pub use sections::{section_length, section_length2, Events, Events2};
pub use work::Work;

/// The examples of the README are run too.
#[cfg(all(doctest, feature = "alloc"))]
#[doc = include_str!("../README.md")]
struct Readme;
