//! The options of a call.

use core::fmt;
use core::ops::{BitAnd, BitAndAssign, BitOr, BitOrAssign, Not};

/// The options of a call: a sum of the constants below.
///
/// Any number can be held, so that one over 63 from elsewhere can be passed on and gets its refusal, [`Refusal::Options`](crate::Refusal::Options).
///
/// ```
/// use ledgerlark::Options;
///
/// let options = Options::ATTENTION | Options::HEADING;
/// assert!(options.contains(Options::HEADING));
/// assert!((options & Options::LIST_ITEM).is_empty());
/// assert_eq!(options & !Options::HEADING, Options::ATTENTION);
/// assert_eq!(Options::default(), !Options::SINGLE_TILDE);
/// assert_eq!(format!("{options:?}"), "Options(ATTENTION | HEADING)");
/// assert_eq!(options.bits(), 9);
/// ```
#[derive(Clone, Copy, PartialEq, Eq, Hash)]
pub struct Options(u32);

impl Options {
    /// No option.
    pub const NONE: Options = Options(0);
    /// `*` and `_` make attention.
    pub const ATTENTION: Options = Options(1);
    /// `~` makes strikethrough.
    pub const STRIKETHROUGH: Options = Options(2);
    /// A single `~` does so too. Nothing without [`STRIKETHROUGH`](Options::STRIKETHROUGH).
    pub const SINGLE_TILDE: Options = Options(4);
    /// Headings are read.
    pub const HEADING: Options = Options(8);
    /// List items are read.
    pub const LIST_ITEM: Options = Options(16);
    /// Code may be indented, so other indentation is at most 3.
    pub const CODE_INDENTED: Options = Options(32);
    /// Every option.
    pub const ALL: Options = Options(63);

    /// Each with its name.
    const NAMED: [(Options, &'static str); 6] = [
        (Options::ATTENTION, "ATTENTION"),
        (Options::STRIKETHROUGH, "STRIKETHROUGH"),
        (Options::SINGLE_TILDE, "SINGLE_TILDE"),
        (Options::HEADING, "HEADING"),
        (Options::LIST_ITEM, "LIST_ITEM"),
        (Options::CODE_INDENTED, "CODE_INDENTED"),
    ];

    /// The options of a number, whatever number it is.
    #[must_use]
    pub const fn from_bits(bits: u32) -> Options {
        Options(bits)
    }

    /// The number.
    #[must_use]
    pub const fn bits(self) -> u32 {
        self.0
    }

    /// Whether all of `other` is on.
    #[must_use]
    pub const fn contains(self, other: Options) -> bool {
        self.0 & other.0 == other.0
    }

    /// Whether the number is 0.
    #[must_use]
    pub const fn is_empty(self) -> bool {
        self.0 == 0
    }

    /// What is on in either, as `|` has it, where a constant is asked for.
    #[must_use]
    pub const fn union(self, other: Options) -> Options {
        Options(self.0 | other.0)
    }
}

/// Every option but [`SINGLE_TILDE`](Options::SINGLE_TILDE).
impl Default for Options {
    fn default() -> Options {
        Options(59)
    }
}

/// The options by name, what is over 63 as a number; `NONE` for 0.
impl fmt::Debug for Options {
    fn fmt(&self, f: &mut fmt::Formatter<'_>) -> fmt::Result {
        f.write_str(if self.is_empty() { "Options(NONE" } else { "Options(" })?;
        let mut between = "";
        for (option, name) in Options::NAMED {
            if self.contains(option) {
                write!(f, "{between}{name}")?;
                between = " | ";
            }
        }
        let over = self.0 & !Options::ALL.0;
        if over != 0 {
            write!(f, "{between}{over:#x}")?;
        }
        f.write_str(")")
    }
}

/// What is on in either.
impl BitOr for Options {
    type Output = Options;

    fn bitor(self, other: Options) -> Options {
        self.union(other)
    }
}

impl BitOrAssign for Options {
    fn bitor_assign(&mut self, other: Options) {
        *self = *self | other;
    }
}

/// What is on in both.
impl BitAnd for Options {
    type Output = Options;

    fn bitand(self, other: Options) -> Options {
        Options(self.0 & other.0)
    }
}

impl BitAndAssign for Options {
    fn bitand_assign(&mut self, other: Options) {
        *self = *self & other;
    }
}

/// Of the six options those that are off. No bit over 63 is ever in it, so `a & !b` is a number that calls take.
impl Not for Options {
    type Output = Options;

    fn not(self) -> Options {
        Options(Options::ALL.0 & !self.0)
    }
}
