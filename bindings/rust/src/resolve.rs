//! The calls on a record: whether it is good, and the three resolvers.

use crate::ffi;
use crate::refusal::{refused, Refusal};
#[cfg(feature = "alloc")]
use crate::sections::Section;
use crate::sections::{length_of, Form};
#[cfg(feature = "alloc")]
use crate::MAX_RESULT;
use crate::{Event, Event2, Options, Work};
#[cfg(feature = "alloc")]
use alloc::{vec, vec::Vec};

/// What [`read`] finds in a good record.
#[derive(Clone, Copy, Debug, PartialEq, Eq, Hash)]
#[non_exhaustive]
pub struct Reading {
    /// How many bytes the document has.
    pub document: usize,
    /// How many events there are.
    pub events: usize,
}

/// Says whether a record is good.
///
/// ```
/// use ledgerlark::{read, Options, Refusal, Work};
///
/// let good = [1, 0, 0, 0, b'a', 0, 0, 0, 0];
/// let mut memory = [0; Work::LENGTH];
/// let mut work = Work::from(&mut memory);
/// assert_eq!(read(&good, Options::default(), &mut work)?.document, 1);
///
/// // One byte short: the second count, at 5, does not fit.
/// let refused = read(&good[..8], Options::default(), &mut work);
/// assert_eq!(refused, Err(Refusal::Count { place: 5 }));
/// # Ok::<(), Refusal>(())
/// ```
///
/// # Errors
///
/// [`Refusal::Work`], [`Refusal::Options`], [`Refusal::Count`], [`Refusal::Return`] and [`Refusal::Event`].
pub fn read(record: &[u8], options: Options, work: &mut Work<'_>) -> Result<Reading, Refusal> {
    let answer = ffi::read(record, options.bits(), work.bytes_mut());
    refused(answer.number, answer.place)?;
    Ok(Reading {
        document: answer.document,
        events: answer.events,
    })
}

/// What [`read2`] finds in a good record of form 2.
#[derive(Clone, Copy, Debug, PartialEq, Eq, Hash)]
#[non_exhaustive]
pub struct Reading2 {
    /// The options that it carries.
    pub options: Options,
    /// How many bytes the document has.
    pub document: usize,
    /// How many events there are.
    pub events: usize,
}

/// Says whether a record of form 2 is good.
///
/// ```
/// use ledgerlark::{read2, Options, Refusal, Work};
///
/// let good = [1, 0, 0, 0, 59, 1, 0, 0, 0, b'a', 0, 0, 0, 0];
/// let mut memory = [0; Work::LENGTH];
/// let mut work = Work::from(&mut memory);
/// let reading = read2(&good, &mut work)?;
/// assert_eq!((reading.options, reading.document, reading.events), (Options::default(), 1, 0));
///
/// // One byte short: the events' count, at 10, does not fit.
/// let refused = read2(&good[..13], &mut work);
/// assert_eq!(refused, Err(Refusal::Count { place: 10 }));
/// # Ok::<(), Refusal>(())
/// ```
///
/// # Errors
///
/// [`Refusal::Work`], [`Refusal::Options`], [`Refusal::Count`], [`Refusal::Return`] and [`Refusal::Event`].
pub fn read2(record: &[u8], work: &mut Work<'_>) -> Result<Reading2, Refusal> {
    let answer = ffi::read2(record, work.bytes_mut());
    refused(answer.number, answer.place)?;
    Ok(Reading2 {
        // At most 63: they come out of one byte.
        options: Options::from_bits(answer.options as u32),
        document: answer.document,
        events: answer.events,
    })
}

/// What a resolver has made of a record.
#[derive(Clone, Copy, Debug, PartialEq, Eq, Hash)]
#[non_exhaustive]
#[must_use = "its section is what was written: the rest of the output is as it was"]
pub struct Resolved<'a> {
    /// The section that was written: the front of the lent output. [`Events`](crate::Events) reads it, and in form 2
    /// [`Events2`](crate::Events2).
    pub section: &'a [u8],
    /// How many events it has.
    pub events: usize,
    /// How many groups were formed. Headings and lists have 0.
    pub groups: usize,
    /// How many candidates were tried. Headings and lists have 0.
    pub tried: usize,
}

/// Resolves the attention runs of a record into emphasis, strong and strikethrough, and writes the events' section to `out`.
///
/// Beside a run the document is read as UTF-8: whitespace is the general category Zs with tab, line feed and form feed, punctuation the categories P
/// and S of Unicode 16.0.0. Bytes that are no character count as a letter does, and no document is refused for them.
///
/// Bytes of `out` past the section stay as they are. An output of
/// [`section_length`](crate::section_length)`(`[`MAX_RESULT`](crate::MAX_RESULT)`)` bytes is always enough.
///
/// ```
/// use ledgerlark::{record_into, resolve_attention, Event, Events, Name, Options, Work};
///
/// // These three are lent to call after call.
/// let (mut bytes, mut out, mut memory) = ([0; 256], [0; 256], [0; Work::LENGTH]);
/// let mut work = Work::from(&mut memory);
///
/// let run = Name::ATTENTION_SEQUENCE;
/// let events = [Event::pair(run, 0, 2), Event::pair(run, 3, 5)];
/// let record = record_into(b"**a**", events.into_iter().flatten(), &mut bytes).expect("room for a record");
/// let resolved = resolve_attention(record, Options::default(), &mut out, &mut work)?;
/// assert_eq!((resolved.events, resolved.groups, resolved.tried), (8, 1, 1));
/// assert_eq!(Events::new(resolved.section).next(), Some(Event::enter(Name::STRONG, 0)));
/// # Ok::<(), ledgerlark::Refusal>(())
/// ```
///
/// # Errors
///
/// Those of [`read`], [`Refusal::Shape`], [`Refusal::Result`] and [`Refusal::Output`].
pub fn resolve_attention<'a>(record: &[u8], options: Options, out: &'a mut [u8], work: &mut Work<'_>) -> Result<Resolved<'a>, Refusal> {
    resolve_by::<Event>(|out, work| ffi::resolve_attention(record, options.bits(), out, work), out, work)
}

/// Puts the text of each heading of a record into a pair of its own, and writes the events' section to `out`, as
/// [`resolve_attention`] does. The opening run of `#` and the closing one stay out: `# a # #` reads `a #`.
///
/// # Errors
///
/// Those of [`read`], [`Refusal::Shape`] and [`Refusal::Output`]. Not [`Refusal::Result`]: no record has a result as long.
pub fn resolve_headings<'a>(record: &[u8], options: Options, out: &'a mut [u8], work: &mut Work<'_>) -> Result<Resolved<'a>, Refusal> {
    resolve_by::<Event>(|out, work| ffi::resolve_headings(record, options.bits(), out, work), out, work)
}

/// Puts a list round the neighbouring items of a record that belong together, and writes the events' section to `out`, as
/// [`resolve_attention`] does.
///
/// # Errors
///
/// Those of [`read`], [`Refusal::Shape`] and [`Refusal::Output`]. Not [`Refusal::Result`]: no record has a result as long.
pub fn resolve_lists<'a>(record: &[u8], options: Options, out: &'a mut [u8], work: &mut Work<'_>) -> Result<Resolved<'a>, Refusal> {
    resolve_by::<Event>(|out, work| ffi::resolve_lists(record, options.bits(), out, work), out, work)
}

/// [`resolve_attention`] for a record of form 2, which has its options in it. The section is one of form 2: each event has its partner, by its number in
/// the section.
///
/// An output of [`section_length2`](crate::section_length2)`(`[`MAX_RESULT`](crate::MAX_RESULT)`)` bytes is always enough.
///
/// [`Events2`](crate::Events2) has an example.
///
/// # Errors
///
/// Those of [`read2`], [`Refusal::Shape`], [`Refusal::Result`] and [`Refusal::Output`].
pub fn resolve_attention2<'a>(record: &[u8], out: &'a mut [u8], work: &mut Work<'_>) -> Result<Resolved<'a>, Refusal> {
    resolve_by::<Event2>(|out, work| ffi::resolve_attention2(record, out, work), out, work)
}

/// [`resolve_headings`] for a record of form 2, with a section of form 2, as [`resolve_attention2`] has it.
///
/// [`record2_into`](crate::record2_into) has an example.
///
/// # Errors
///
/// Those of [`read2`], [`Refusal::Shape`] and [`Refusal::Output`]. Not [`Refusal::Result`]: no record has a result as long.
pub fn resolve_headings2<'a>(record: &[u8], out: &'a mut [u8], work: &mut Work<'_>) -> Result<Resolved<'a>, Refusal> {
    resolve_by::<Event2>(|out, work| ffi::resolve_headings2(record, out, work), out, work)
}

/// [`resolve_lists`] for a record of form 2, with a section of form 2, as [`resolve_attention2`] has it.
///
/// # Errors
///
/// Those of [`read2`], [`Refusal::Shape`] and [`Refusal::Output`]. Not [`Refusal::Result`]: no record has a result as long.
pub fn resolve_lists2<'a>(record: &[u8], out: &'a mut [u8], work: &mut Work<'_>) -> Result<Resolved<'a>, Refusal> {
    resolve_by::<Event2>(|out, work| ffi::resolve_lists2(record, out, work), out, work)
}

/// [`resolve_attention`] with an output of its own, which is always long enough. Needs the feature `alloc`.
///
/// # Errors
///
/// Those of [`read`], [`Refusal::Shape`] and [`Refusal::Result`].
#[cfg(feature = "alloc")]
pub fn resolve_attention_to_vec(record: &[u8], options: Options, work: &mut Work<'_>) -> Result<Vec<Event>, Refusal> {
    to_vec(|out, work| resolve_attention(record, options, out, work), work)
}

/// [`resolve_headings`] with an output of its own, which is always long enough. Needs the feature `alloc`.
///
/// [`heading_to_vec`](crate::heading_to_vec) has an example.
///
/// # Errors
///
/// Those of [`read`] and [`Refusal::Shape`].
#[cfg(feature = "alloc")]
pub fn resolve_headings_to_vec(record: &[u8], options: Options, work: &mut Work<'_>) -> Result<Vec<Event>, Refusal> {
    to_vec(|out, work| resolve_headings(record, options, out, work), work)
}

/// [`resolve_lists`] with an output of its own, which is always long enough. Needs the feature `alloc`.
///
/// # Errors
///
/// Those of [`read`] and [`Refusal::Shape`].
#[cfg(feature = "alloc")]
pub fn resolve_lists_to_vec(record: &[u8], options: Options, work: &mut Work<'_>) -> Result<Vec<Event>, Refusal> {
    to_vec(|out, work| resolve_lists(record, options, out, work), work)
}

/// [`resolve_attention2`] with an output of its own, which is always long enough. Needs the feature `alloc`.
///
/// # Errors
///
/// Those of [`read2`], [`Refusal::Shape`] and [`Refusal::Result`].
#[cfg(feature = "alloc")]
pub fn resolve_attention2_to_vec(record: &[u8], work: &mut Work<'_>) -> Result<Vec<Event2>, Refusal> {
    to_vec(|out, work| resolve_attention2(record, out, work), work)
}

/// [`resolve_headings2`] with an output of its own, which is always long enough. Needs the feature `alloc`.
///
/// # Errors
///
/// Those of [`read2`] and [`Refusal::Shape`].
#[cfg(feature = "alloc")]
pub fn resolve_headings2_to_vec(record: &[u8], work: &mut Work<'_>) -> Result<Vec<Event2>, Refusal> {
    to_vec(|out, work| resolve_headings2(record, out, work), work)
}

/// [`resolve_lists2`] with an output of its own, which is always long enough. Needs the feature `alloc`.
///
/// # Errors
///
/// Those of [`read2`] and [`Refusal::Shape`].
#[cfg(feature = "alloc")]
pub fn resolve_lists2_to_vec(record: &[u8], work: &mut Work<'_>) -> Result<Vec<Event2>, Refusal> {
    to_vec(|out, work| resolve_lists2(record, out, work), work)
}

/// What all resolvers have in common: the call, with output and work memory, and its answer in Rust's terms. The section is one of the form.
fn resolve_by<'a, F: Form>(
    call: impl FnOnce(&mut [u8], &mut [u8]) -> ffi::Resolved,
    out: &'a mut [u8],
    work: &mut Work<'_>,
) -> Result<Resolved<'a>, Refusal> {
    let answer = call(out, work.bytes_mut());
    refused(answer.number, answer.place)?;
    Ok(Resolved {
        section: &out[..length_of::<F>(answer.events)],
        events: answer.events,
        groups: answer.groups,
        tried: answer.tried,
    })
}

/// What one of them writes, as a list of events.
#[cfg(feature = "alloc")]
fn to_vec<F: Form>(
    resolve: impl for<'a> FnOnce(&'a mut [u8], &mut Work<'_>) -> Result<Resolved<'a>, Refusal>,
    work: &mut Work<'_>,
) -> Result<Vec<F>, Refusal> {
    let mut out = vec![0; length_of::<F>(MAX_RESULT)];
    let resolved = resolve(&mut out, work)?;
    Ok(Section::new(resolved.section).collect())
}
