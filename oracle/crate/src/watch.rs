//! What the crate's three resolvers are given and leave while it parses Markdown of its own accord.
//!
//! The watcher is of one thread and off unless a call here turns it on, so that nothing else pays for it.

use std::cell::RefCell;

use crate::event::{Event as CrateEvent, Kind, Name as EventName, Point};
use crate::parser;
use crate::readers::{to_stop, Start, Taken};
use crate::record::{from_crate, Event, Settings};
use crate::resolve::Name;
use crate::resolvers::{beginning, parse_state, Resolver};
use crate::state::{Name as StateName, State};
use crate::tokenizer::Tokenizer;

/// What one of the crate's readers found while it parsed, from where it stood, as the events show it. `place` is that of the first byte in the document.
#[derive(Clone, Debug, PartialEq, Eq)]
pub enum Read {
    Item {
        place: usize,
        start: Start,
        taken: Taken,
        mark: u8,
    },
    /// With its events, whose places count from there.
    Heading {
        place: usize,
        start: Start,
        events: Vec<Event>,
    },
}

/// One call of a resolver. Places are offsets in the whole document.
#[derive(Clone, Debug)]
pub struct Seen {
    pub which: Resolver,
    pub before: Vec<Event>,
    pub after: Vec<Event>,
    /// An event stands within a tab, at one of its further columns. Its place is that of the tab.
    pub within_tab: bool,
    /// An earlier resolver left edits that this call carries out too: what is left is not this resolver's work alone.
    pub edits_before: bool,
    /// Of lists the items that were read, of headings the headings.
    pub read: Vec<Read>,
}

thread_local! {
    static WATCHER: RefCell<Option<Vec<Seen>>> = const { RefCell::new(None) };
}

fn start_of(point: &Point) -> Start {
    Start { column: point.column - 1, within: point.vs }
}

/// The item that is entered first in these events.
fn item_in(events: &[CrateEvent], bytes: &[u8]) -> Option<Read> {
    let of = |name: EventName, kind: Kind| events.iter().find(|event| event.name == name && event.kind == kind).map(|event| &event.point);
    let (from, to) = (&events[0].point, of(EventName::ListItemPrefix, Kind::Exit)?);
    let mark = bytes[of(EventName::ListItemMarker, Kind::Enter)?.index];
    let left = if to.vs > 0 { to_stop(to) } else { 0 };
    Some(Read::Item { place: from.index, start: start_of(from), taken: Taken { bytes: to.index - from.index, left }, mark })
}

/// The heading that is entered first in these events.
fn heading_in(events: &[CrateEvent]) -> Option<Read> {
    let end = events.iter().position(|event| event.name == EventName::HeadingAtx && event.kind == Kind::Exit)?;
    let from = &events[0].point;
    let moved = |event: Event| Event { place: event.place - from.index as u32, ..event };
    let events = events[..=end].iter().map(|event| moved(from_crate(event))).collect();
    Some(Read::Heading { place: from.index, start: start_of(from), events })
}

/// The items or headings that a resolver is given.
fn read_in(tokenizer: &Tokenizer, which: Resolver) -> Vec<Read> {
    let events = &tokenizer.events;
    let entered = |name: EventName| (0..events.len()).filter(move |i| events[*i].name == name && events[*i].kind == Kind::Enter);
    match which {
        Resolver::Attention => vec![],
        Resolver::Lists => entered(EventName::ListItem).filter_map(|i| item_in(&events[i..], tokenizer.parse_state.bytes)).collect(),
        Resolver::Headings => entered(EventName::HeadingAtx).filter_map(|i| heading_in(&events[i..])).collect(),
    }
}

fn events_of(tokenizer: &Tokenizer) -> Vec<Event> {
    tokenizer.events.iter().map(from_crate).collect()
}

/// Before a resolver: the events as they stand, if it is one of the three and the watcher is on.
pub(crate) fn before(tokenizer: &Tokenizer, name: Name) -> Option<Seen> {
    let which = match name {
        Name::Attention => Resolver::Attention,
        Name::HeadingAtx => Resolver::Headings,
        Name::ListItem => Resolver::Lists,
        _ => return None,
    };
    WATCHER.with(|watcher| watcher.borrow().is_some()).then(|| Seen {
        which,
        before: events_of(tokenizer),
        after: vec![],
        within_tab: tokenizer.events.iter().any(|event| event.point.vs > 0),
        // The map of edits shows what it holds in this way only.
        edits_before: format!("{:?}", tokenizer.map) != "EditMap { map: [] }",
        read: read_in(tokenizer, which),
    })
}

/// After it: what it left.
pub(crate) fn after(tokenizer: &Tokenizer, seen: Option<Seen>) {
    if let Some(mut seen) = seen {
        seen.after = events_of(tokenizer);
        WATCHER.with(|watcher| watcher.borrow_mut().get_or_insert_with(Vec::new).push(seen));
    }
}

fn watched(work: impl FnOnce()) -> Vec<Seen> {
    WATCHER.with(|watcher| *watcher.borrow_mut() = Some(vec![]));
    work();
    WATCHER.with(|watcher| watcher.borrow_mut().take()).unwrap_or_default()
}

/// Parse a document and give every call of the three resolvers, in order.
pub fn watch_document(document: &str, settings: &Settings) -> Vec<Seen> {
    watched(|| {
        // Only MDX has errors, and it is off.
        let _events = parser::parse(document, &settings.options).is_ok();
    })
}

/// The same for text alone: no block structure is looked for, so that a text may begin as it likes.
pub fn watch_text(text: &str, settings: &Settings) -> Vec<Seen> {
    watched(|| {
        let state = parse_state(text.as_bytes(), settings);
        let mut tokenizer = Tokenizer::new(beginning(), &state);
        let end = tokenizer.push((0, 0), (text.len(), 0), State::Next(StateName::TextStart));
        let _left = tokenizer.flush(end, true).is_ok();
    })
}
