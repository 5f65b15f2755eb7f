//! The line readers. Each looks at one line, from where reading starts to its first line feed; what cannot be in a line is looked for in all of it.
//!
//! What is in front is counted in columns. A space is one; a tab goes to the next stop, of which there is one every 4 columns, counted from the start
//! of the whole line. So each reader is told at which column its bytes begin: 0 for a whole line. Where not all of a tab may be taken, it is cut: its
//! byte is not among those taken, and the answer tells how many of its columns are left.

use crate::ffi;
use crate::refusal::{refused, Refusal};
use crate::Options;
#[cfg(feature = "alloc")]
use crate::{section_length, Event, Events, MAX_RESULT};
#[cfg(feature = "alloc")]
use alloc::{vec, vec::Vec};

/// The spaces and tabs that were taken of a line.
#[derive(Clone, Copy, Debug, PartialEq, Eq, Hash)]
#[non_exhaustive]
pub struct Spaces {
    /// How many bytes of the line are taken, without a cut tab.
    pub taken: usize,
    /// How many columns of a cut tab are left; 0 where none is cut.
    pub left: usize,
}

/// Takes the spaces and tabs that a line begins with, at most `max` columns of them: how much, or `None` for fewer than `min`.
///
/// The line starts at a column, which says how wide its tabs are. Where the maximum lies inside a tab, the tab is cut. To go on from there, give the
/// line from the tab on, with the column where it was cut:
///
/// ```
/// use ledgerlark::{space_or_tab, Options};
///
/// let options = Options::default();
/// assert_eq!(space_or_tab(b"    a", options, 0, 1, 3)?.expect("some").taken, 3);
/// assert_eq!(space_or_tab(b"a", options, 0, 1, 3)?, None);
///
/// let line = b"\t\ta";
/// let first = space_or_tab(line, options, 0, 1, 3)?.expect("some");
/// assert_eq!((first.taken, first.left), (0, 1)); // three columns of the first tab, and one is left
/// let rest = space_or_tab(&line[first.taken..], options, 3, 0, usize::MAX)?.expect("some");
/// assert_eq!((rest.taken, rest.left), (2, 0)); // one column and four: both tabs
/// # Ok::<(), ledgerlark::Refusal>(())
/// ```
///
/// # Errors
///
/// [`Refusal::Options`], [`Refusal::Count`] and [`Refusal::Return`].
pub fn space_or_tab(line: &[u8], options: Options, column: usize, min: usize, max: usize) -> Result<Option<Spaces>, Refusal> {
    let answer = ffi::space_or_tab(line, options.bits(), column, min, max);
    refused(answer.number, answer.place)?;
    Ok((answer.found != 0).then_some(Spaces {
        taken: answer.taken,
        left: answer.left,
    }))
}

/// Whether a list item is bulleted or ordered, and by which mark.
#[derive(Clone, Copy, Debug, PartialEq, Eq, Hash)]
pub enum ListKind {
    /// `*`, `+` or `-`.
    Bullet(u8),
    /// `.` or `)` behind digits.
    Ordered(u8),
}

impl ListKind {
    /// The mark.
    #[must_use]
    pub const fn mark(self) -> u8 {
        match self {
            ListKind::Bullet(mark) | ListKind::Ordered(mark) => mark,
        }
    }
}

/// What is kept of an open list item, for the lines that follow: an answer of [`list_item`] and of [`continuation`], and what the latter asks for.
#[derive(Clone, Copy, Debug, PartialEq, Eq, Hash)]
#[non_exhaustive]
#[must_use]
pub struct Container {
    /// Bulleted or ordered, and by which mark.
    pub kind: ListKind,
    /// How far its further lines have to be indented, in columns.
    pub size: usize,
    /// Whether it began with a blank rest and has had no filled line since.
    pub blank: bool,
}

impl Container {
    /// A container that was kept elsewhere.
    pub const fn new(kind: ListKind, size: usize, blank: bool) -> Container {
        Container { kind, size, blank }
    }
}

/// A list item that starts on a line.
#[derive(Clone, Copy, Debug, PartialEq, Eq, Hash)]
#[non_exhaustive]
pub struct Item {
    /// How many bytes of the line its prefix takes, without a cut tab.
    pub taken: usize,
    /// How many columns of a cut tab are left, which are its content's; 0 where none is cut.
    pub left: usize,
    /// The container that opens.
    pub container: Container,
}

/// Says whether a line, which starts at a column, starts a list item. `interrupting` asks for one that may interrupt a paragraph.
///
/// ```
/// use ledgerlark::{list_item, ListKind, Options};
///
/// let item = list_item(b"7. a", Options::default(), 0, false)?.expect("an item");
/// assert_eq!(item.taken, 3);
/// assert_eq!(item.container.kind, ListKind::Ordered(b'.'));
/// assert_eq!(list_item(b"7. a", Options::default(), 0, true)?, None);
/// # Ok::<(), ledgerlark::Refusal>(())
/// ```
///
/// What follows the marker may begin with a tab that is cut. The content then goes on at the tab, at the column where it was cut: the starting column
/// and the container's size.
///
/// ```
/// use ledgerlark::{list_item, space_or_tab, Options};
///
/// let (line, options) = (b"-\t\ta", Options::default());
/// let item = list_item(line, options, 0, false)?.expect("an item");
/// assert_eq!((item.taken, item.left, item.container.size), (1, 2, 2));
/// let inside = space_or_tab(&line[item.taken..], options, item.container.size, 4, 4)?.expect("an indented code block");
/// assert_eq!((inside.taken, inside.left), (1, 2)); // two columns of each tab
/// # Ok::<(), ledgerlark::Refusal>(())
/// ```
///
/// # Errors
///
/// [`Refusal::Options`], [`Refusal::Count`] and [`Refusal::Return`].
pub fn list_item(line: &[u8], options: Options, column: usize, interrupting: bool) -> Result<Option<Item>, Refusal> {
    let answer = ffi::list_item(line, options.bits(), column, interrupting);
    refused(answer.number, answer.place)?;
    // The mark is one of five bytes, so nothing is lost.
    let mark = answer.mark as u8;
    let kind = match mark {
        b'.' | b')' => ListKind::Ordered(mark),
        _ => ListKind::Bullet(mark),
    };
    Ok((answer.found != 0).then_some(Item {
        taken: answer.taken,
        left: answer.left,
        container: Container {
            kind,
            size: answer.size,
            blank: answer.blank != 0,
        },
    }))
}

/// Whether a line goes on with a list item, and the container as it then stands.
///
/// A line does or does not: there is no third. What is told of either may grow, so patterns end with `..`.
#[derive(Clone, Copy, Debug, PartialEq, Eq, Hash)]
#[must_use = "it has the container for the next line"]
pub enum Continuation {
    /// It goes on.
    #[non_exhaustive]
    Goes {
        /// How many bytes of the line are taken as indentation, without a cut tab.
        taken: usize,
        /// How many columns of a cut tab are left, which are the line's own; 0 where none is cut.
        left: usize,
        /// The container now.
        container: Container,
    },
    /// It does not.
    #[non_exhaustive]
    Stops {
        /// The container now.
        container: Container,
    },
}

impl Continuation {
    /// How many bytes of the line are taken as indentation, without a cut tab, if it goes on.
    #[must_use]
    pub const fn taken(self) -> Option<usize> {
        match self {
            Continuation::Goes { taken, .. } => Some(taken),
            Continuation::Stops { .. } => None,
        }
    }

    /// How many columns of a cut tab are left, if the line goes on; 0 where none is cut.
    #[must_use]
    pub const fn left(self) -> Option<usize> {
        match self {
            Continuation::Goes { left, .. } => Some(left),
            Continuation::Stops { .. } => None,
        }
    }

    /// The container now.
    pub const fn container(self) -> Container {
        match self {
            Continuation::Goes { container, .. } | Continuation::Stops { container } => container,
        }
    }
}

/// Says whether a line, which starts at a column, goes on with the list item that `container` was kept of.
///
/// ```
/// use ledgerlark::{continuation, list_item, Continuation, Options};
///
/// let options = Options::default();
/// let mut container = list_item(b"- a", options, 0, false)?.expect("an item").container;
/// let mut inside = Vec::new();
/// for line in ["  b", "", "  c", "d"] {
///     match continuation(line.as_bytes(), options, 0, container)? {
///         Continuation::Goes { taken, container: now, .. } => {
///             inside.push(&line[taken..]);
///             container = now;
///         }
///         Continuation::Stops { .. } => break,
///     }
/// }
/// assert_eq!(inside, ["b", "", "c"]);
///
/// let tabbed = continuation(b"\tb", options, 0, container)?; // two of the tab's four columns are taken
/// assert_eq!((tabbed.taken(), tabbed.left()), (Some(0), Some(2)));
/// # Ok::<(), ledgerlark::Refusal>(())
/// ```
///
/// # Errors
///
/// [`Refusal::Options`], [`Refusal::Count`] and [`Refusal::Return`].
pub fn continuation(line: &[u8], options: Options, column: usize, container: Container) -> Result<Continuation, Refusal> {
    let answer = ffi::continuation(line, options.bits(), column, container.size, container.blank, container.kind.mark());
    refused(answer.number, answer.place)?;
    let container = Container {
        blank: answer.blank != 0,
        ..container
    };
    Ok(if answer.found != 0 {
        Continuation::Goes {
            taken: answer.taken,
            left: answer.left,
            container,
        }
    } else {
        Continuation::Stops { container }
    })
}

/// Says whether a line, which starts at a column, is a heading, and writes its events' section to `out`: how many events, or `None` for no heading.
///
/// The events are not yet resolved; [`resolve_headings`](crate::resolve_headings) does that. Without a heading nothing is written.
///
/// ```
/// use ledgerlark::{heading, Event, Events, Name, Options};
///
/// let mut out = [0; 256];
/// assert_eq!(heading(b"# a", Options::default(), 0, &mut out)?, Some(8));
/// assert_eq!(Events::new(&out).last(), Some(Event::exit(Name::HEADING_ATX, 3)));
/// assert_eq!(heading(b"#a", Options::default(), 0, &mut out)?, None);
/// # Ok::<(), ledgerlark::Refusal>(())
/// ```
///
/// # Errors
///
/// [`Refusal::Options`], [`Refusal::Count`] and [`Refusal::Return`]; for a heading also [`Refusal::Result`] and [`Refusal::Output`].
pub fn heading(line: &[u8], options: Options, column: usize, out: &mut [u8]) -> Result<Option<usize>, Refusal> {
    let answer = ffi::heading(line, options.bits(), column, out);
    refused(answer.number, answer.place)?;
    Ok((answer.found != 0).then_some(answer.events))
}

/// [`heading`] with an output of its own, which is always long enough. Needs the feature `alloc`.
///
/// ```
/// use ledgerlark::{heading_to_vec, record, resolve_headings_to_vec, Event, Name, Options, Work};
///
/// let (line, options) = (b"# a b", Options::default());
/// let read = heading_to_vec(line, options, 0)?.expect("a heading");
/// let events = resolve_headings_to_vec(&record(line, &read), options, &mut Work::new())?;
/// assert!(events.contains(&Event::enter(Name::HEADING_ATX_TEXT, 2)));
/// assert!(events.contains(&Event::exit(Name::HEADING_ATX_TEXT, 5)));
/// # Ok::<(), ledgerlark::Refusal>(())
/// ```
///
/// # Errors
///
/// [`Refusal::Options`], [`Refusal::Count`] and [`Refusal::Return`]; for a heading also [`Refusal::Result`].
#[cfg(feature = "alloc")]
pub fn heading_to_vec(line: &[u8], options: Options, column: usize) -> Result<Option<Vec<Event>>, Refusal> {
    let mut out = vec![0; section_length(MAX_RESULT)];
    let found = heading(line, options, column, &mut out)?;
    Ok(found.map(|_| Events::new(&out).collect()))
}
