//! Sections: a count, and so many events behind it.

use crate::{Event, Event2};
use core::iter::FusedIterator;
use core::marker::PhantomData;
use core::ops::Range;

/// A form of a record, by the events that it has: in what stands before the document, and in how wide an event is, the forms differ.
pub(crate) trait Form: Sized {
    /// The bytes before the document's count.
    const FRONT: usize;
    /// The bytes of an event.
    const WIDTH: usize;

    /// The event that `bytes` begin with, if they begin with one.
    fn first_of(bytes: &[u8]) -> Option<Self>;
}

impl Form for Event {
    const FRONT: usize = 0;
    const WIDTH: usize = Event::LENGTH;

    fn first_of(bytes: &[u8]) -> Option<Event> {
        Event::from_bytes(*bytes.first_chunk()?)
    }
}

impl Form for Event2 {
    /// A count of 1, and the option byte.
    const FRONT: usize = 4 + 1;
    const WIDTH: usize = Event2::LENGTH;

    fn first_of(bytes: &[u8]) -> Option<Event2> {
        Event2::from_bytes(*bytes.first_chunk()?)
    }
}

/// The events of a section, in order and by number.
#[derive(Clone, Debug)]
pub(crate) struct Section<'a, F> {
    /// Their bytes: no more events than the count says, and none that is cut short.
    events: &'a [u8],
    /// The numbers of those that are still to come.
    coming: Range<usize>,
    form: PhantomData<F>,
}

impl<'a, F: Form> Section<'a, F> {
    /// The section that `bytes` begin with.
    pub(crate) fn new(bytes: &'a [u8]) -> Section<'a, F> {
        let (count, rest) = match bytes.split_first_chunk() {
            Some((count, rest)) => (u32::from_le_bytes(*count) as usize, rest),
            None => (0, bytes),
        };
        let whole = count.min(rest.len() / F::WIDTH);
        Section {
            events: &rest[..F::WIDTH * whole],
            coming: 0..whole,
            form: PhantomData,
        }
    }

    /// The event with this number, whichever are still to come.
    pub(crate) fn get(&self, number: usize) -> Option<F> {
        F::first_of(self.events.get(F::WIDTH.checked_mul(number)?..)?)
    }
}

impl<F: Form> Iterator for Section<'_, F> {
    type Item = F;

    fn next(&mut self) -> Option<F> {
        let event = self.coming.next().and_then(|number| self.get(number));
        if event.is_none() {
            // None for good where no event stands, so that nothing behind it is taken for one.
            self.coming = 0..0;
        }
        event
    }

    fn size_hint(&self) -> (usize, Option<usize>) {
        (0, Some(self.coming.len()))
    }
}

/// The events of a section, in order. Bytes behind the section are not looked at.
///
/// Any bytes will do: the events end where the count says, or before that at the first eight bytes that are cut short or are no event.
///
/// ```
/// use ledgerlark::{Event, Events, Name};
///
/// let section = [1, 0, 0, 0, 0, 2, 0, 0, 7, 0, 0, 0];
/// assert!(Events::new(&section).eq([Event::enter(Name::EMPHASIS, 7)]));
/// assert_eq!(Events::new(&section[..11]).next(), None);
/// ```
#[derive(Clone, Debug)]
#[must_use = "an iterator reads nothing until it is asked"]
pub struct Events<'a>(Section<'a, Event>);

impl<'a> Events<'a> {
    /// The events of the section that `bytes` begin with.
    pub fn new(bytes: &'a [u8]) -> Events<'a> {
        Events(Section::new(bytes))
    }
}

impl Iterator for Events<'_> {
    type Item = Event;

    fn next(&mut self) -> Option<Event> {
        self.0.next()
    }

    fn size_hint(&self) -> (usize, Option<usize>) {
        self.0.size_hint()
    }
}

impl FusedIterator for Events<'_> {}

/// The events of a section of form 2, in order, or by number. Bytes behind the section are not looked at.
///
/// Any bytes will do: in order the events end where the count says, or before that at the first twelve bytes that are cut short or are no event. Partners
/// are as the bytes have them: those that a call has written are true.
///
/// With [`get`](Events2::get) the exit of an enter is one step away, however much lies between them:
///
/// ```
/// use ledgerlark::{record2_into, resolve_attention2, Event, Events2, Name, Options, Work};
///
/// let (mut bytes, mut out, mut memory) = ([0; 256], [0; 256], [0; Work::LENGTH]);
/// let run = Name::ATTENTION_SEQUENCE;
/// let events = [Event::pair(run, 0, 1), Event::pair(Name::DATA, 1, 2), Event::pair(run, 2, 3)];
/// let record = record2_into(Options::default(), b"*a*", events.into_iter().flatten(), &mut bytes).expect("room for a record");
/// let resolved = resolve_attention2(record, &mut out, &mut Work::from(&mut memory))?;
///
/// // Emphasis is entered by the first of ten events, and left by the last.
/// let events = Events2::new(resolved.section);
/// let enter = events.get(0).expect("an event");
/// assert_eq!((enter.event, enter.partner), (Event::enter(Name::EMPHASIS, 0), 9));
/// let exit = events.get(enter.partner).expect("its exit");
/// assert_eq!((exit.event, exit.partner), (Event::exit(Name::EMPHASIS, 3), 0));
/// # Ok::<(), ledgerlark::Refusal>(())
/// ```
#[derive(Clone, Debug)]
#[must_use = "an iterator reads nothing until it is asked"]
pub struct Events2<'a>(Section<'a, Event2>);

impl<'a> Events2<'a> {
    /// The events of the section of form 2 that `bytes` begin with.
    pub fn new(bytes: &'a [u8]) -> Events2<'a> {
        Events2(Section::new(bytes))
    }

    /// The event with this number, as partners have it: counted from the start of the section, whatever of it has been taken in order. Only that
    /// event is looked at. `None` where the count is not above the number, or the twelve bytes are cut short or no event.
    #[must_use]
    pub fn get(&self, number: usize) -> Option<Event2> {
        self.0.get(number)
    }
}

impl Iterator for Events2<'_> {
    type Item = Event2;

    fn next(&mut self) -> Option<Event2> {
        self.0.next()
    }

    fn size_hint(&self) -> (usize, Option<usize>) {
        self.0.size_hint()
    }
}

impl FusedIterator for Events2<'_> {}

/// How long a section of so many events is: its count and 8 bytes for each. Where that is no `usize`, the largest there is.
#[must_use]
pub const fn section_length(events: usize) -> usize {
    length_of::<Event>(events)
}

/// How long a section of form 2 with so many events is: its count and 12 bytes for each. Where that is no `usize`, the largest there is.
#[must_use]
pub const fn section_length2(events: usize) -> usize {
    length_of::<Event2>(events)
}

/// How long a section of so many events is in a form.
pub(crate) const fn length_of<F: Form>(events: usize) -> usize {
    F::WIDTH.saturating_mul(events).saturating_add(4)
}
