//! Refusals: which, and where.

use core::fmt;

/// Why a call was refused. The output is then as it was, and the work memory is zero.
///
/// Each is named as in `ledgerlark.h`, and has the number that it has there. Where several hold, the one with the lowest number is given. A place
/// is an offset in the record, or in the line.
///
/// ```
/// use ledgerlark::{space_or_tab, Options, Refusal};
///
/// let refusal = space_or_tab(b"  a\r", Options::default(), 0, 0, 3).unwrap_err();
/// assert_eq!(refusal, Refusal::Return { place: 3 });
/// assert_eq!((refusal.number(), refusal.place()), (4, Some(3)));
/// assert_eq!(refusal.to_string(), "refused 4 at 3: a carriage return");
/// ```
#[derive(Clone, Copy, Debug, PartialEq, Eq, Hash)]
#[non_exhaustive]
pub enum Refusal {
    /// Number 1: fewer than [`Work::LENGTH`](crate::Work::LENGTH) bytes of work memory.
    Work,
    /// Number 2: options over [`Options::ALL`](crate::Options::ALL), given or in a record of form 2; or a column over
    /// [`MAX_COLUMN`](crate::MAX_COLUMN); or the first count of a record of form 2, which is that of its option byte, is not 1.
    Options,
    /// Number 3: a count is cut off, is over its limit or promises more than the record has; or bytes follow the last section; or a line has
    /// more than [`MAX_LINE`](crate::MAX_LINE) bytes.
    Count {
        /// That count, the first of those bytes, or 16,384.
        place: usize,
    },
    /// Number 4: a carriage return stands in the document or line.
    Return {
        /// That byte.
        place: usize,
    },
    /// Number 5: an event has a kind, name, zero byte or place that cannot be; or closes another than the innermost; or is the one too many that
    /// is open; or, in form 2, a pair has a partner number that is not true; or events are left open.
    Event {
        /// That event; of a pair its exit; or, where events are left open, the record's end.
        place: usize,
    },
    /// Number 6: a run, heading or list item has not the shape that its resolver asks for.
    Shape {
        /// Its enter event.
        place: usize,
    },
    /// Number 7: the result would have over [`MAX_RESULT`](crate::MAX_RESULT) events.
    Result,
    /// Number 8: the output is too short for the result.
    Output,
    /// A number that this version of the crate does not know: the archive is of another version.
    Other {
        /// The number.
        number: usize,
        /// The place.
        place: usize,
    },
}

impl Refusal {
    /// The number, which is the same in C and at the terminal.
    #[must_use]
    pub const fn number(self) -> usize {
        match self {
            Refusal::Work => 1,
            Refusal::Options => 2,
            Refusal::Count { .. } => 3,
            Refusal::Return { .. } => 4,
            Refusal::Event { .. } => 5,
            Refusal::Shape { .. } => 6,
            Refusal::Result => 7,
            Refusal::Output => 8,
            Refusal::Other { number, .. } => number,
        }
    }

    /// The place. `None` where the refusal is about none, as 0 is a place too: that of a record's first count.
    #[must_use]
    pub const fn place(self) -> Option<usize> {
        match self {
            Refusal::Work | Refusal::Options | Refusal::Result | Refusal::Output => None,
            Refusal::Count { place }
            | Refusal::Return { place }
            | Refusal::Event { place }
            | Refusal::Shape { place }
            | Refusal::Other { place, .. } => Some(place),
        }
    }

    /// The refusal in words, without number and place.
    #[must_use]
    pub const fn text(self) -> &'static str {
        match self {
            Refusal::Work => "the work memory is under 65,536 bytes",
            Refusal::Options => "the options are over 63, the column over 16,384, or the first count not 1",
            Refusal::Count { .. } => "a length does not fit",
            Refusal::Return { .. } => "a carriage return",
            Refusal::Event { .. } => "an event is not sound",
            Refusal::Shape { .. } => "not the shape that the resolver asks for",
            Refusal::Result => "the result is over 8,000 events",
            Refusal::Output => "the output is too short for the result",
            Refusal::Other { .. } => "no such refusal",
        }
    }
}

/// `refused`, the number, `at` and the place if there is one, and the words.
impl fmt::Display for Refusal {
    fn fmt(&self, f: &mut fmt::Formatter<'_>) -> fmt::Result {
        write!(f, "refused {}", self.number())?;
        if let Some(place) = self.place() {
            write!(f, " at {place}")?;
        }
        write!(f, ": {}", self.text())
    }
}

impl core::error::Error for Refusal {}

/// The refusal that an answer has, if it has one: number 0 is none.
pub(crate) fn refused(number: usize, place: usize) -> Result<(), Refusal> {
    Err(match number {
        0 => return Ok(()),
        1 => Refusal::Work,
        2 => Refusal::Options,
        3 => Refusal::Count { place },
        4 => Refusal::Return { place },
        5 => Refusal::Event { place },
        6 => Refusal::Shape { place },
        7 => Refusal::Result,
        8 => Refusal::Output,
        _ => Refusal::Other { number, place },
    })
}

#[cfg(test)]
mod tests {
    use super::{refused, Refusal};

    /// Every number of an answer is a refusal with that number; also one that no library of this version gives.
    #[test]
    fn numbers_stay() {
        assert_eq!(refused(0, 7), Ok(()));
        for number in (1..100).chain([usize::MAX]) {
            assert_eq!(refused(number, 7).map_err(Refusal::number), Err(number));
        }
        assert_eq!(refused(9, 7), Err(Refusal::Other { number: 9, place: 7 }));
    }
}
