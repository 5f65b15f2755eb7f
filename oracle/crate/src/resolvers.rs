//! One of the three resolvers over given events.

use crate::construct::{attention, heading_atx, list_item};
use crate::event::{Event as CrateEvent, Point};
use crate::parser::ParseState;
use crate::record::{from_crate, to_crate, Event, Settings};
use crate::tokenizer::Tokenizer;

/// The resolvers that are compared.
#[derive(Clone, Copy, Debug, PartialEq, Eq, Hash)]
pub enum Resolver {
    /// `attention::resolve`
    Attention,
    /// `heading_atx::resolve`
    Headings,
    /// `list_item::resolve`
    Lists,
}

/// A tokenizer of the crate that stands before a resolver, as often as wanted.
///
/// [`set`](Prepared::set) puts the events back, [`run`](Prepared::run) is the resolver and nothing else, and
/// [`events`](Prepared::events) says what it left.
pub struct Prepared<'a> {
    which: Resolver,
    start: Vec<CrateEvent>,
    tokenizer: Tokenizer<'a>,
}

impl Prepared<'_> {
    /// The events as they were given.
    pub fn set(&mut self) {
        self.tokenizer.events.clone_from(&self.start);
    }

    /// The crate's resolver over them.
    #[inline(never)]
    pub fn run(&mut self) {
        // None of the three has anything to hand on.
        let _none = match self.which {
            Resolver::Attention => attention::resolve(&mut self.tokenizer),
            Resolver::Headings => heading_atx::resolve(&mut self.tokenizer),
            Resolver::Lists => list_item::resolve(&mut self.tokenizer),
        };
    }

    /// What it left.
    pub fn events(&self) -> Vec<Event> {
        self.tokenizer.events.iter().map(from_crate).collect()
    }
}

/// The state of a parse that has met no definitions yet.
pub(crate) fn parse_state<'a>(bytes: &'a [u8], settings: &'a Settings) -> ParseState<'a> {
    ParseState { location: None, options: &settings.options, bytes, definitions: vec![], gfm_footnote_definitions: vec![] }
}

/// Where every line starts.
pub(crate) fn beginning() -> Point {
    Point { line: 1, column: 1, index: 0, vs: 0 }
}

/// Prepare a resolver and lend it to `with`. The events are set once.
pub fn with_prepared<R>(which: Resolver, document: &[u8], events: &[Event], settings: &Settings, with: impl FnOnce(&mut Prepared) -> R) -> R {
    let state = parse_state(document, settings);
    let start: Vec<CrateEvent> = events.iter().map(to_crate).collect();
    let mut tokenizer = Tokenizer::new(beginning(), &state);
    tokenizer.events.clone_from(&start);
    with(&mut Prepared { which, start, tokenizer })
}

/// What the resolver leaves of these events. They have to be balanced, with places in the document; of anything else the crate may panic.
pub fn resolve(which: Resolver, document: &[u8], events: &[Event], settings: &Settings) -> Vec<Event> {
    let state = parse_state(document, settings);
    let mut tokenizer = Tokenizer::new(beginning(), &state);
    tokenizer.events.extend(events.iter().map(to_crate));
    let mut prepared = Prepared { which, start: vec![], tokenizer };
    prepared.run();
    prepared.events()
}
