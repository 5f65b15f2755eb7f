//! The records that are timed: ordinary ones as the crate's own tokenizer makes them, and hostile ones written down event by event.
//!
//! A hostile record has runs and no Data, since 1,024 runs are all that 2,048 events have room for. In a container one run less fits.

use crate_side::{watch_document, watch_text, Event, Resolver, Seen, Settings};

/// Attention, strikethrough, headings, list items and indented code, without the single tilde.
pub const OPTIONS: u32 = 59;

/// One record.
pub struct Part {
    pub document: Vec<u8>,
    pub events: Vec<Event>,
}

#[derive(Clone, Copy, PartialEq, Eq)]
pub enum Sort {
    /// A line so short that the wipe outweighs it.
    Short,
    Ordinary,
    /// A number of runs that grows, and nothing else.
    Hostile,
    /// Hostile, but no family that grows.
    Single,
}

/// What is timed as one: a record, or the records of a document's paragraphs, one call to each.
pub struct Case {
    pub name: String,
    pub sort: Sort,
    pub which: Resolver,
    pub parts: Vec<Part>,
}

impl Case {
    pub fn runs(&self) -> usize {
        self.parts.iter().flat_map(|part| &part.events).filter(|event| event.name == 1).count() / 2
    }

    pub fn events(&self) -> usize {
        self.parts.iter().map(|part| part.events.len()).sum()
    }
}

/// A record in the making.
#[derive(Default)]
struct Draft {
    document: Vec<u8>,
    events: Vec<Event>,
}

impl Draft {
    fn event(&mut self, exit: bool, name: u8) {
        self.events.push(Event { exit, name, place: self.document.len() as u32 });
    }

    fn text(&mut self, text: &str) {
        self.document.extend_from_slice(text.as_bytes());
    }

    /// A leaf pair over some bytes.
    fn pair(&mut self, name: u8, text: &str) {
        self.event(false, name);
        self.text(text);
        self.event(true, name);
    }

    fn part(self) -> Part {
        Part { document: self.document, events: self.events }
    }
}

const DATA: u8 = 0;
const RUN: u8 = 1;
const HEADING: u8 = 11;
const SEQUENCE: u8 = 12;
const SPACE: u8 = 14;
const ITEM: u8 = 15;
const PREFIX: u8 = 16;
const MARKER: u8 = 17;
const LINE_ENDING: u8 = 21;
const BLANK_LINE_ENDING: u8 = 22;
const CONTAINER: u8 = 24;
const MOST_EVENTS: usize = 2_048;

/// One of a few texts with markers in them, over and over: each stretch of one marker is a run.
fn stretch(draft: &mut Draft, text: &str, runs: usize) {
    let bytes = text.as_bytes();
    let (mut at, mut made) = (0, 0);
    while made < runs {
        let byte = bytes[at % bytes.len()];
        if !matches!(byte, b'*' | b'_' | b'~') {
            draft.document.push(byte);
            at += 1;
            continue;
        }
        draft.event(false, RUN);
        // A run never goes on past the end of the text, so that `*_` makes two.
        loop {
            draft.document.push(byte);
            at += 1;
            if at % bytes.len() == 0 || bytes[at % bytes.len()] != byte {
                break;
            }
        }
        draft.event(true, RUN);
        made += 1;
    }
    // What stands behind the last run of the text.
    while at % bytes.len() != 0 && !matches!(bytes[at % bytes.len()], b'*' | b'_' | b'~') {
        draft.document.push(bytes[at % bytes.len()]);
        at += 1;
    }
}

/// Runs of 3 to 12 tildes between letters.
const TILDES: &str = "a~~~a~~~~a~~~~~a~~~~~~a~~~~~~~a~~~~~~~~a~~~~~~~~~a~~~~~~~~~~a~~~~~~~~~~~a~~~~~~~~~~~~";

/// The families: a name, and the stretches with the part of the runs that each takes, one run at least.
///
/// In the last five the runs both open and close, but for the `**` and a run at the edge. Of more than two tildes no size fits. A run of six takes
/// two from the four that are left of the run before and has four left itself; four and two make a multiple of three, so it skips every run on its
/// chain. The parts are such that the result of 1,024 runs has no more than 8,000 events.
const FAMILIES: [(&str, &[(&str, usize)]); 14] = [
    ("`*_`ⁿ", &[("*_", 1)]),
    ("`*a **a `ⁿ", &[("*a **a ", 1)]),
    ("`*a **a `ⁿ`b** b* `ⁿ", &[("*a **a ", 1), ("b** b* ", 1)]),
    ("`a_ `ⁿ", &[("a_ ", 1)]),
    ("`*a `ⁿ`a_ `ⁿ", &[("*a ", 1), ("a_ ", 1)]),
    ("`*a_ `ⁿ", &[("*a_ ", 1)]),
    ("`x **b `ⁿ`c*d`ⁿ", &[("x **b ", 1), ("c*d", 1)]),
    ("`~~a~ `ⁿ", &[("~~a~ ", 1)]),
    ("`~~a `ⁿ`b~ `ⁿ", &[("~~a ", 1), ("b~ ", 1)]),
    ("`a~~~`ⁿ", &[("a~~~", 1)]),
    ("3 to 12 `~` between letters", &[(TILDES, 1)]),
    ("`c****d` `c******d`ᵐ `c*d`ᵏ", &[("c****d", 1), ("c******d", 650), ("c*d", 373)]),
    ("`.____.` `.______.`ᵐ `._.`ᵏ", &[(".____.", 1), (".______.", 650), ("._.", 373)]),
    ("`**b `ᵏ`c******d`ᵐ", &[("**b ", 280), ("c******d", 744)]),
];

/// The sizes of a family, in runs.
pub const SIZES: [usize; 3] = [64, 256, 1_024];

fn within(container: bool, fill: impl FnOnce(&mut Draft)) -> Part {
    let mut draft = Draft::default();
    if container {
        draft.event(false, CONTAINER);
    }
    fill(&mut draft);
    if container {
        draft.event(true, CONTAINER);
    }
    draft.part()
}

fn hostile() -> Vec<Case> {
    let mut cases = vec![];
    for container in [false, true] {
        let place = if container { " in a container" } else { "" };
        for (name, stretches) in FAMILIES {
            for size in SIZES {
                let room = (MOST_EVENTS - if container { 2 } else { 0 }) / 2;
                let part = within(container, |draft| {
                    let mut left = size.min(room);
                    let mut parts: usize = stretches.iter().map(|(_, part)| part).sum();
                    for (text, part) in stretches {
                        let share = (left * part / parts).max(1);
                        stretch(draft, text, share);
                        left -= share;
                        parts -= part;
                    }
                });
                cases.push(Case { name: format!("{name}{place}"), sort: Sort::Hostile, which: Resolver::Attention, parts: vec![part] });
            }
        }
        let part = within(container, |draft| {
            let markers = "*".repeat(2 * 995);
            draft.pair(RUN, &markers);
            draft.pair(DATA, "a");
            draft.pair(RUN, &markers);
        });
        cases.push(Case { name: format!("995 groups from two runs{place}"), sort: Sort::Single, which: Resolver::Attention, parts: vec![part] });
    }
    cases
}

fn item(draft: &mut Draft, mark: &str) {
    draft.event(false, ITEM);
    draft.event(false, PREFIX);
    draft.pair(MARKER, mark);
    draft.event(true, PREFIX);
}

/// As many whole parts of a record as have room, with `events` to each.
fn filled(events: usize, part: impl Fn(&mut Draft, usize)) -> Part {
    let mut draft = Draft::default();
    let mut number = 0;
    while draft.events.len() + events <= MOST_EVENTS {
        part(&mut draft, number);
        number += 1;
    }
    draft.part()
}

fn lists() -> Vec<(&'static str, Part)> {
    vec![
        ("256 items, one list", filled(8, |d, _| {
            item(d, "-");
            d.event(true, ITEM);
            d.pair(LINE_ENDING, "\n");
        })),
        ("256 items, marks alternate", filled(8, |d, n| {
            item(d, if n % 2 == 0 { "-" } else { "*" });
            d.event(true, ITEM);
            d.pair(LINE_ENDING, "\n");
        })),
        ("62 levels, five times", filled(374, |d, _| {
            (0..62).for_each(|_| item(d, "-"));
            (0..62).for_each(|_| d.event(true, ITEM));
            d.pair(LINE_ENDING, "\n");
        })),
        ("204 items, each in a container", filled(10, |d, _| {
            d.event(false, CONTAINER);
            item(d, "-");
            d.event(true, ITEM);
            d.event(true, CONTAINER);
            d.pair(LINE_ENDING, "\n");
        })),
        ("53 items, 16 blank lines between", filled(38, |d, _| {
            item(d, "-");
            d.event(true, ITEM);
            (0..16).for_each(|_| d.pair(BLANK_LINE_ENDING, "\n"));
        })),
    ]
}

fn headings() -> Vec<(&'static str, Part)> {
    vec![
        ("146 headings", filled(14, |d, _| {
            d.event(false, HEADING);
            d.pair(SEQUENCE, "##");
            d.pair(SPACE, " ");
            d.pair(DATA, "text");
            d.pair(SPACE, " ");
            d.pair(DATA, "more");
            d.event(true, HEADING);
            d.pair(LINE_ENDING, "\n");
        })),
        ("one heading of 511 words", {
            let mut draft = Draft::default();
            draft.event(false, HEADING);
            draft.pair(SEQUENCE, "##");
            (0..511).for_each(|_| {
                draft.pair(SPACE, " ");
                draft.pair(DATA, "a");
            });
            draft.event(true, HEADING);
            draft.part()
        }),
    ]
}

/// The events that a resolver was given, over the stretch of the document that they lie in.
fn cut(document: &str, seen: &Seen) -> Part {
    assert!(!seen.within_tab, "no tabs in the documents that are timed");
    let from = seen.before.iter().map(|event| event.place).min().unwrap_or(0);
    let to = seen.before.iter().map(|event| event.place).max().unwrap_or(0);
    Part {
        document: document.as_bytes()[from as usize..to as usize].to_vec(),
        events: seen.before.iter().map(|event| Event { place: event.place - from, ..*event }).collect(),
    }
}

/// A text of one paragraph, as the crate's tokenizer gives it to its resolver of attention.
fn paragraph(text: &str) -> Vec<Part> {
    let seen = watch_text(text, &Settings::new(OPTIONS));
    seen.iter().filter(|one| one.which == Resolver::Attention).map(|one| cut(text, one)).collect()
}

/// A whole document: what one resolver was given, call by call.
fn captured(document: &str, which: Resolver) -> Vec<Part> {
    let seen = watch_document(document, &Settings::new(OPTIONS));
    seen.iter().filter(|one| one.which == which).map(|one| cut(document, one)).collect()
}

/// The same in one record, each call's events in a container of their own.
fn together(document: &str, which: Resolver) -> Part {
    let seen = watch_document(document, &Settings::new(OPTIONS));
    let mut events = vec![];
    let mut calls: Vec<&Seen> = seen.iter().filter(|one| one.which == which).collect();
    calls.sort_by_key(|one| one.before[0].place);
    for one in calls {
        let (first, last) = (one.before[0], one.before[one.before.len() - 1]);
        events.push(Event { exit: false, name: CONTAINER, place: first.place });
        events.extend_from_slice(&one.before);
        events.push(Event { exit: true, name: CONTAINER, place: last.place });
    }
    Part { document: document.as_bytes().to_vec(), events }
}

const CHAT: &str = "thanks, that *really* helped!";
const EIGHTY: &str = "Please **do not** reply here: use the _new_ form, and we answer *within a day*.\n";
const README: &str = include_str!("readme.md");

/// About a thousand bytes of ordinary text.
fn thousand() -> String {
    let one = "The parcel left on *Monday*, and the carrier says that it is **in transit**. You wrote that the_file_name was wrong: \
               that is _our_ mistake, and ~~three~~ four items were on the list. ";
    let mut text = one.repeat(5);
    text.push_str("We are **very *very* sorry** for the trouble that this made.");
    text
}

pub fn cases() -> Vec<Case> {
    let case = |name: &str, sort, which, parts| Case { name: name.to_string(), sort, which, parts };
    let attention = Resolver::Attention;
    let mut cases = vec![
        case("a chat line of 29 bytes", Sort::Short, attention, paragraph(CHAT)),
        case("a paragraph of 80 bytes", Sort::Short, attention, paragraph(EIGHTY.trim_end())),
        case("a paragraph of 1,000 bytes", Sort::Ordinary, attention, paragraph(&thousand())),
        case("a document in one record", Sort::Ordinary, attention, vec![together(README, attention)]),
        case("the same, a record to each paragraph", Sort::Short, attention, captured(README, attention)),
    ];
    cases.extend(hostile());
    cases.push(case("a document", Sort::Ordinary, Resolver::Lists, captured(README, Resolver::Lists)));
    cases.extend(lists().into_iter().map(|(name, part)| case(name, Sort::Single, Resolver::Lists, vec![part])));
    cases.push(case("a document", Sort::Ordinary, Resolver::Headings, captured(README, Resolver::Headings)));
    cases.extend(headings().into_iter().map(|(name, part)| case(name, Sort::Single, Resolver::Headings, vec![part])));
    cases
}
