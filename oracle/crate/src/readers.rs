//! One line fed to the crate's states, from the state that begins a construct to where that construct is settled.
//!
//! A finding is told apart by an attempt: if the construct doesn't stand there, the attempt ends in an error state, which the tokenizer hands
//! out as it is. Whatever the construct wrote and took is then taken back, as it is in the crate's own attempts.
//!
//! Inside containers the crate stands at a column, and at times within a tab: a container took some of its columns, and the next construct goes on
//! with the others. A reader is asked from such a place in the same way. The crate feeds a tab as so many bytes as it has columns, so that what its
//! states count are columns.

use crate::construct::partial_space_or_tab::space_or_tab_min_max;
use crate::event::{Kind, Name, Point};
use crate::message::Message;
use crate::record::{from_crate, Event, Settings};
use crate::resolvers::parse_state;
use crate::state::{Name as StateName, State};
use crate::tokenizer::{Container, ContainerState, Tokenizer};
use crate::util::constant::TAB_SIZE;

/// Where a reader starts on its line.
#[derive(Clone, Copy, Debug, Default, PartialEq, Eq)]
pub struct Start {
    /// The column, counted from 0.
    pub column: usize,
    /// How many columns of the tab in front lie behind that column: they were taken before. 0 if it begins here, or no tab stands there.
    pub within: usize,
}

impl Start {
    /// The same as the crate has it: columns from 1, and the columns taken of a tab as virtual spaces.
    fn point(self) -> Point {
        Point { line: 1, column: self.column + 1, index: 0, vs: self.within }
    }
}

/// What is taken in front.
#[derive(Clone, Copy, Debug, PartialEq, Eq)]
pub struct Taken {
    /// Whole bytes.
    pub bytes: usize,
    /// If the byte behind them is a tab that was cut, its columns that were not taken; else 0.
    pub left: usize,
}

/// The columns up to the next stop from where the crate stands.
pub(crate) fn to_stop(point: &Point) -> usize {
    TAB_SIZE - (point.column - 1) % TAB_SIZE
}

/// A list item's start.
#[derive(Clone, Copy, Debug, PartialEq, Eq)]
pub struct Item {
    pub taken: Taken,
    pub size: usize,
    pub blank: bool,
    pub mark: u8,
}

/// What a container makes of a line.
#[derive(Clone, Copy, Debug, PartialEq, Eq)]
pub struct Going {
    /// What is taken, if the line goes on with it.
    pub taken: Option<Taken>,
    /// The flag as it then stands.
    pub blank: bool,
}

/// A line read from its beginning to where it is settled, or to its end. True if the construct stands there.
fn read(tokenizer: &mut Tokenizer, from: StateName) -> bool {
    let missing = Message { place: None, reason: String::new(), rule_id: Box::default(), source: Box::default() };
    tokenizer.attempt(State::Ok, State::Error(missing));
    let length = tokenizer.parse_state.bytes.len();
    let mut state = tokenizer.push((0, tokenizer.point.vs), (length, 0), State::Next(from));
    if let State::Next(_) = state {
        state = match tokenizer.flush(state, false) {
            Ok(_) => State::Ok,
            Err(message) => State::Error(message),
        };
    }
    state == State::Ok
}

/// What was taken since the start. A tab that was cut before and of which nothing was taken since is not cut here.
fn taken(tokenizer: &Tokenizer, start: Start) -> Taken {
    let point = &tokenizer.point;
    let cut = point.vs > 0 && point.column > start.column + 1;
    Taken { bytes: point.index, left: if cut { to_stop(point) } else { 0 } }
}

/// The stack of containers, with one list item in it.
fn hold(tokenizer: &mut Tokenizer, size: usize, blank_initial: bool) {
    tokenizer.tokenize_state.document_container_stack.push(ContainerState { kind: Container::ListItem, blank_initial, size });
}

/// What is taken, or none if there are too few.
pub fn space_or_tab(line: &[u8], settings: &Settings, start: Start, min: usize, max: usize) -> Option<Taken> {
    let state = parse_state(line, settings);
    let mut tokenizer = Tokenizer::new(start.point(), &state);
    let from = space_or_tab_min_max(&mut tokenizer, min, max);
    let found = read(&mut tokenizer, from);
    found.then(|| taken(&tokenizer, start))
}

/// The list item that starts there, if any.
pub fn list_item(line: &[u8], settings: &Settings, start: Start, interrupting: bool) -> Option<Item> {
    let state = parse_state(line, settings);
    let mut tokenizer = Tokenizer::new(start.point(), &state);
    tokenizer.interrupt = interrupting;
    hold(&mut tokenizer, 0, false);
    read(&mut tokenizer, StateName::ListItemStart).then(|| {
        let marker = tokenizer.events.iter().find(|event| event.name == Name::ListItemMarker && event.kind == Kind::Enter);
        let container = &tokenizer.tokenize_state.document_container_stack[0];
        Item {
            taken: taken(&tokenizer, start),
            size: container.size,
            blank: container.blank_initial,
            mark: line[marker.expect("an item has a marker").point.index],
        }
    })
}

/// Whether a list item with this size and flag goes on.
pub fn continuation(line: &[u8], settings: &Settings, start: Start, size: usize, blank: bool) -> Going {
    let state = parse_state(line, settings);
    let mut tokenizer = Tokenizer::new(start.point(), &state);
    hold(&mut tokenizer, size, blank);
    let goes = read(&mut tokenizer, StateName::ListItemContStart);
    Going { taken: goes.then(|| taken(&tokenizer, start)), blank: tokenizer.tokenize_state.document_container_stack[0].blank_initial }
}

/// The events of the heading that starts there, not yet resolved, if any.
pub fn heading(line: &[u8], settings: &Settings, start: Start) -> Option<Vec<Event>> {
    let state = parse_state(line, settings);
    let mut tokenizer = Tokenizer::new(start.point(), &state);
    read(&mut tokenizer, StateName::HeadingAtxStart).then(|| tokenizer.events.iter().map(from_crate).collect())
}
