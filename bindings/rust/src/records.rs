//! Records: a document and its events, laid out for a call.

use crate::events::four_bytes;
use crate::sections::{length_of, Form};
use crate::{Event, Event2, Kind, Options};
#[cfg(feature = "alloc")]
use alloc::{vec, vec::Vec};
use core::mem::replace;

/// How long a record of so many bytes of document and so many events is. Where that is no `usize`, the largest there is.
#[must_use]
pub const fn record_length(document: usize, events: usize) -> usize {
    whole::<Event>(document, events)
}

/// How long a record of form 2 with so many bytes of document and so many events is. Where that is no `usize`, the largest there is.
#[must_use]
pub const fn record_length2(document: usize, events: usize) -> usize {
    whole::<Event2>(document, events)
}

/// How long a record is in a form.
const fn whole<F: Form>(document: usize, events: usize) -> usize {
    length_of::<F>(events).saturating_add(document).saturating_add(F::FRONT + 4)
}

/// A record: the document's count and bytes, then the events' count and bytes. Needs the feature `alloc`.
///
/// Nothing is judged here. A document, a list of events or a place too large for a record makes one that the library refuses.
///
/// ```
/// use ledgerlark::{record, Event, Name};
///
/// assert_eq!(
///     record(b"a", &Event::pair(Name::DATA, 0, 1)),
///     [1, 0, 0, 0, b'a', 2, 0, 0, 0, 0, 0, 0, 0, 0, 0, 0, 0, 1, 0, 0, 0, 1, 0, 0, 0],
/// );
/// ```
#[cfg(feature = "alloc")]
#[must_use]
pub fn record(document: &[u8], events: &[Event]) -> Vec<u8> {
    made::<Event>(document.len(), events.len(), |out| {
        record_into(document, events.iter().copied(), out).is_some()
    })
}

/// A record of form 2: a count of 1 and the option byte, the document's count and bytes, the events' count and bytes. Needs the feature `alloc`.
///
/// The events are given without partners, and get them here. Nothing is judged: options over 255 are written as 255, which the library refuses, and an
/// event that has no partner gets a number that is never looked at, since the library refuses its record for that event.
///
/// ```
/// use ledgerlark::{record2, Event, Name, Options};
///
/// let record = record2(Options::ALL, b"a", &Event::pair(Name::DATA, 0, 1));
/// assert_eq!(record[..10], [1, 0, 0, 0, 63, 1, 0, 0, 0, b'a']);
/// assert_eq!(record[10..14], [2, 0, 0, 0]);
/// assert_eq!(record[14..26], [0, 0, 0, 0, 0, 0, 0, 0, 1, 0, 0, 0]); // event 0: its partner is 1
/// assert_eq!(record[26..38], [1, 0, 0, 0, 1, 0, 0, 0, 0, 0, 0, 0]); // event 1: its partner is 0
/// ```
#[cfg(feature = "alloc")]
#[must_use]
pub fn record2(options: Options, document: &[u8], events: &[Event]) -> Vec<u8> {
    made::<Event2>(document.len(), events.len(), |out| {
        record2_into(options, document, events.iter().copied(), out).is_some()
    })
}

/// A record in a buffer of its own, which is as long as the record is.
#[cfg(feature = "alloc")]
fn made<F: Form>(document: usize, events: usize, lay: impl FnOnce(&mut [u8]) -> bool) -> Vec<u8> {
    let mut bytes = vec![0; whole::<F>(document, events)];
    let fits = lay(&mut bytes);
    debug_assert!(fits, "as long as the record is");
    bytes
}

/// A record, written to the start of `out`. `None` where it does not fit; then a part of it may stand there.
///
/// Nothing is judged here either. The events may come from a section, as they do for one resolver behind another:
///
/// ```
/// use ledgerlark::{heading, record_into, record_length, resolve_headings, section_length, Events, Options, Work};
///
/// let (line, options) = (b"# a b", Options::default());
/// let mut out = [0; section_length(12)];
/// assert_eq!(heading(line, options, 0, &mut out)?, Some(12));
///
/// let mut bytes = [0; record_length(5, 12)];
/// let record = record_into(line, Events::new(&out), &mut bytes).expect("room for 12 events");
/// let mut work = [0; Work::LENGTH];
/// let mut out = [0; section_length(12)];
/// let resolved = resolve_headings(record, options, &mut out, &mut Work::from(&mut work))?;
/// assert_eq!(resolved.events, 10);
/// # Ok::<(), ledgerlark::Refusal>(())
/// ```
#[must_use]
pub fn record_into<'a>(document: &[u8], events: impl IntoIterator<Item = Event>, out: &'a mut [u8]) -> Option<&'a [u8]> {
    lay::<Event>(&[], document, events, out).map(|record| &*record)
}

/// A record of form 2, written to the start of `out`. `None` where it does not fit; then a part of it may stand there.
///
/// The events are given without partners, and get them here. Those of a section of form 2 are `Events2::new(section).map(|event| event.event)`. Nothing is
/// judged here either.
///
/// ```
/// use ledgerlark::{heading, record2_into, record_length2, resolve_headings2, section_length, section_length2, Events, Options, Work};
///
/// let (line, options) = (b"# a b", Options::default());
/// let mut out = [0; section_length(12)];
/// assert_eq!(heading(line, options, 0, &mut out)?, Some(12));
///
/// let mut bytes = [0; record_length2(5, 12)];
/// let record = record2_into(options, line, Events::new(&out), &mut bytes).expect("room for 12 events");
/// let mut work = [0; Work::LENGTH];
/// let mut out = [0; section_length2(12)];
/// let resolved = resolve_headings2(record, &mut out, &mut Work::from(&mut work))?;
/// assert_eq!(resolved.events, 10);
/// # Ok::<(), ledgerlark::Refusal>(())
/// ```
#[must_use]
pub fn record2_into<'a>(options: Options, document: &[u8], events: impl IntoIterator<Item = Event>, out: &'a mut [u8]) -> Option<&'a [u8]> {
    let record = lay::<Event2>(&first_section(options), document, events, out)?;
    link(record.get_mut(record_length2(document.len(), 0)..)?);
    Some(record)
}

/// What a record of form 2 begins with. Options too large for their byte become the largest, which is refused as they are.
fn first_section(options: Options) -> [u8; Event2::FRONT] {
    let [a, b, c, d] = four_bytes(1);
    [a, b, c, d, u8::try_from(options.bits()).unwrap_or(u8::MAX)]
}

/// Gives the events of a record of form 2 their partners. That takes no memory: while an enter is open, its own field for the partner holds the number of
/// the open one round it.
fn link(events: &mut [u8]) {
    let mut open = NONE;
    for number in 0..events.len() / Event2::LENGTH {
        let enters = Event::first_of(&events[Event2::LENGTH * number..]).is_some_and(|event| event.kind == Kind::Enter);
        // An enter keeps the one round it, and an exit gets the one that it closes: for both that is the innermost one that is open here.
        let (own, innermost) = (four_bytes(number), open);
        open = if enters {
            own
        } else {
            partner_of(events, innermost).map_or(NONE, |partner| replace(partner, own))
        };
        if let Some(partner) = partner_of(events, own) {
            *partner = innermost;
        }
    }
}

/// The number of no event, as it stands in a field.
const NONE: [u8; 4] = [u8::MAX; 4];

/// The field for the partner of the event with this number, if there is such an event.
fn partner_of(events: &mut [u8], number: [u8; 4]) -> Option<&mut [u8; 4]> {
    let event = Event2::LENGTH.checked_mul(u32::from_le_bytes(number) as usize)?;
    events.get_mut(event..)?.get_mut(Event::LENGTH..)?.first_chunk_mut()
}

/// A record in a form, behind what that form begins with. Of an event only the first eight bytes are written, which are the same in every form.
fn lay<'a, F: Form>(front: &[u8], document: &[u8], events: impl IntoIterator<Item = Event>, out: &'a mut [u8]) -> Option<&'a mut [u8]> {
    let end = put(out, 0, front)?;
    let end = put(out, end, &four_bytes(document.len()))?;
    let section = put(out, end, document)?;
    let (mut end, mut count) = (section + 4, 0);
    for event in events {
        put(out, end, &event.to_bytes())?;
        (end, count) = (end + F::WIDTH, count + 1);
    }
    // Behind the events, since only now their number is known.
    put(out, section, &four_bytes(count))?;
    out.get_mut(..end)
}

/// Puts bytes at an offset, and says where they end. `None` where they do not fit.
fn put(out: &mut [u8], at: usize, bytes: &[u8]) -> Option<usize> {
    let end = at + bytes.len();
    out.get_mut(at..end)?.copy_from_slice(bytes);
    Some(end)
}
