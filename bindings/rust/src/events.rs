//! Events, one by one.

use core::fmt;

/// Whether an event enters or exits.
#[derive(Clone, Copy, Debug, PartialEq, Eq, Hash)]
pub enum Kind {
    /// Number 0.
    Enter,
    /// Number 1.
    Exit,
}

/// What an event enters or exits: a number, of which 0 to 24 have a meaning.
#[derive(Clone, Copy, Debug, PartialEq, Eq, PartialOrd, Ord, Hash)]
pub struct Name(pub u8);

macro_rules! names {
    ($($number:literal $constant:ident $word:literal $about:literal)*) => {
        impl Name {
            $(#[doc = $about] pub const $constant: Name = Name($number);)*

            /// The name in a word, if it has a meaning.
            #[must_use]
            pub const fn word(self) -> Option<&'static str> {
                match self.0 {
                    $($number => Some($word),)*
                    _ => None,
                }
            }
        }
    };
}

names! {
    0 DATA "Data" "Bytes that stand for themselves."
    1 ATTENTION_SEQUENCE "AttentionSequence" "A run of one marker, `*`, `_` or `~`, not yet resolved."
    2 EMPHASIS "Emphasis" "Emphasis: one marker taken on each side."
    3 EMPHASIS_SEQUENCE "EmphasisSequence" "Its markers, on one side."
    4 EMPHASIS_TEXT "EmphasisText" "What it emphasises."
    5 STRONG "Strong" "Strong: two markers taken on each side."
    6 STRONG_SEQUENCE "StrongSequence" "Its markers, on one side."
    7 STRONG_TEXT "StrongText" "What it makes strong."
    8 GFM_STRIKETHROUGH "GfmStrikethrough" "Strikethrough."
    9 GFM_STRIKETHROUGH_SEQUENCE "GfmStrikethroughSequence" "Its markers, on one side."
    10 GFM_STRIKETHROUGH_TEXT "GfmStrikethroughText" "What it strikes through."
    11 HEADING_ATX "HeadingAtx" "A heading."
    12 HEADING_ATX_SEQUENCE "HeadingAtxSequence" "A run of `#` in a heading."
    13 HEADING_ATX_TEXT "HeadingAtxText" "The text of a heading."
    14 SPACE_OR_TAB "SpaceOrTab" "Spaces and tabs."
    15 LIST_ITEM "ListItem" "A list item."
    16 LIST_ITEM_PREFIX "ListItemPrefix" "What a list item begins with."
    17 LIST_ITEM_MARKER "ListItemMarker" "The mark in the prefix: one of `*+-.)`."
    18 LIST_ITEM_VALUE "ListItemValue" "The digits in the prefix."
    19 LIST_ORDERED "ListOrdered" "A list whose mark is `.` or `)`."
    20 LIST_UNORDERED "ListUnordered" "A list with another mark."
    21 LINE_ENDING "LineEnding" "A line ending."
    22 BLANK_LINE_ENDING "BlankLineEnding" "The ending of a blank line."
    23 BLOCK_QUOTE_PREFIX "BlockQuotePrefix" "What a line of a block quote begins with."
    24 OTHER_CONTAINER "OtherContainer" "Any other container."
}

/// Its word, or its number where it has none.
impl fmt::Display for Name {
    fn fmt(&self, f: &mut fmt::Formatter<'_>) -> fmt::Result {
        match self.word() {
            Some(word) => f.write_str(word),
            None => write!(f, "{}", self.0),
        }
    }
}

/// An event: at `place`, an offset in the document, something is entered or left.
///
/// ```
/// use ledgerlark::{Event, Name};
///
/// assert_eq!(Event::enter(Name::EMPHASIS, 7).to_string(), "+Emphasis@7");
/// assert_eq!(Event::exit(Name::EMPHASIS, 9).to_string(), "-Emphasis@9");
/// ```
#[derive(Clone, Copy, Debug, PartialEq, Eq, Hash)]
pub struct Event {
    /// Whether it enters or exits.
    pub kind: Kind,
    /// What it enters or exits.
    pub name: Name,
    /// Where.
    pub place: usize,
}

impl Event {
    /// The bytes that an event takes in a section.
    pub const LENGTH: usize = 8;

    /// The event that enters `name` at `place`.
    #[must_use]
    pub const fn enter(name: Name, place: usize) -> Event {
        Event {
            kind: Kind::Enter,
            name,
            place,
        }
    }

    /// The event that exits `name` at `place`.
    #[must_use]
    pub const fn exit(name: Name, place: usize) -> Event {
        Event {
            kind: Kind::Exit,
            name,
            place,
        }
    }

    /// Both, with nothing between them.
    #[must_use]
    pub const fn pair(name: Name, from: usize, to: usize) -> [Event; 2] {
        [Event::enter(name, from), Event::exit(name, to)]
    }

    /// The event as it stands in a section. A place too large for its four bytes becomes the largest, which no record has.
    #[must_use]
    pub fn to_bytes(self) -> [u8; Event::LENGTH] {
        let kind = match self.kind {
            Kind::Enter => 0,
            Kind::Exit => 1,
        };
        let [a, b, c, d] = four_bytes(self.place);
        [kind, self.name.0, 0, 0, a, b, c, d]
    }

    /// The event that stands in eight bytes of a section. `None` where the kind is neither 0 nor 1, or a byte that should be 0 is not.
    #[must_use]
    pub const fn from_bytes(bytes: [u8; Event::LENGTH]) -> Option<Event> {
        let [kind, name, 0, 0, a, b, c, d] = bytes else {
            return None;
        };
        let kind = match kind {
            0 => Kind::Enter,
            1 => Kind::Exit,
            _ => return None,
        };
        Some(Event {
            kind,
            name: Name(name),
            place: u32::from_le_bytes([a, b, c, d]) as usize,
        })
    }
}

/// `+` or `-`, the name, `@` and the place.
impl fmt::Display for Event {
    fn fmt(&self, f: &mut fmt::Formatter<'_>) -> fmt::Result {
        let sign = match self.kind {
            Kind::Enter => '+',
            Kind::Exit => '-',
        };
        write!(f, "{sign}{}@{}", self.name, self.place)
    }
}

/// An event of form 2: an event, and the number of its partner.
///
/// The partner of an enter is the exit that closes it, and the partner of that exit is the enter. Events are counted from 0, in the record or the section
/// that they stand in.
///
/// ```
/// use ledgerlark::{Event, Event2, Name};
///
/// let event = Event2 { event: Event::enter(Name::EMPHASIS, 7), partner: 9 };
/// assert_eq!(event.to_string(), "+Emphasis@7/9");
/// ```
#[derive(Clone, Copy, Debug, PartialEq, Eq, Hash)]
pub struct Event2 {
    /// The event.
    pub event: Event,
    /// The number of its partner.
    pub partner: usize,
}

impl Event2 {
    /// The bytes that an event takes in a section of form 2: those of an [`Event`], and four.
    pub const LENGTH: usize = Event::LENGTH + 4;

    /// The event as it stands in a section of form 2. A place or partner too large for its four bytes becomes the largest, which no record has.
    #[must_use]
    pub fn to_bytes(self) -> [u8; Event2::LENGTH] {
        let [a, b, c, d, e, f, g, h] = self.event.to_bytes();
        let [i, j, k, l] = four_bytes(self.partner);
        [a, b, c, d, e, f, g, h, i, j, k, l]
    }

    /// The event that stands in twelve bytes of a section of form 2. `None` where [`Event::from_bytes`] has none for the first eight; the last four
    /// may be anything.
    #[must_use]
    pub const fn from_bytes(bytes: [u8; Event2::LENGTH]) -> Option<Event2> {
        let [a, b, c, d, e, f, g, h, i, j, k, l] = bytes;
        match Event::from_bytes([a, b, c, d, e, f, g, h]) {
            Some(event) => Some(Event2 {
                event,
                partner: u32::from_le_bytes([i, j, k, l]) as usize,
            }),
            None => None,
        }
    }
}

/// The event, `/` and the number of its partner.
impl fmt::Display for Event2 {
    fn fmt(&self, f: &mut fmt::Formatter<'_>) -> fmt::Result {
        write!(f, "{}/{}", self.event, self.partner)
    }
}

/// A number as u32, little endian. One too large becomes the largest, which is over every limit, and so is still refused.
pub(crate) fn four_bytes(number: usize) -> [u8; 4] {
    u32::try_from(number).unwrap_or(u32::MAX).to_le_bytes()
}
