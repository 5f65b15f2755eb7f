//! What the tests share: events in a short notation, memory to lend that lies inside a larger buffer, and calls after which all of it is looked at.

// Each test file is a crate of its own and uses a part of this.
#![allow(dead_code)]

use ledgerlark::{record2_into, record_into, record_length, record_length2, Event, Kind, Name, Options, Refusal, Resolved, Work};
use ledgerlark::{resolve_attention2, resolve_headings2, resolve_lists2};

/// What lent memory holds before a call. No event, count or place of these tests has this byte.
pub const DIRT: u8 = 0xa5;
/// What lies round it, and how much of that on either side.
const FENCE: u8 = 0x3c;
const FENCE_LENGTH: usize = 64;

/// Memory to lend to a call. It lies inside a larger buffer, so that a write past its ends is seen.
pub struct Lent {
    bytes: Vec<u8>,
}

impl Lent {
    pub fn new(length: usize) -> Lent {
        let fence = [FENCE; FENCE_LENGTH];
        Lent {
            bytes: [&fence[..], &vec![DIRT; length], &fence].concat(),
        }
    }

    /// Work memory of the length that calls ask for.
    pub fn work() -> Lent {
        Lent::new(Work::LENGTH)
    }

    /// The memory, for a call.
    pub fn lend(&mut self) -> &mut [u8] {
        let end = self.bytes.len() - FENCE_LENGTH;
        &mut self.bytes[FENCE_LENGTH..end]
    }

    /// What it holds after a call, which has written nothing round it.
    pub fn after(&self) -> &[u8] {
        let (before, rest) = self.bytes.split_at(FENCE_LENGTH);
        let (inside, behind) = rest.split_at(rest.len() - FENCE_LENGTH);
        assert_eq!(before, [FENCE; FENCE_LENGTH], "before what was lent");
        assert_eq!(behind, [FENCE; FENCE_LENGTH], "behind what was lent");
        inside
    }

    /// It is as it was.
    pub fn is_dirty(&self) -> bool {
        is_dirty(self.after())
    }

    /// It is zero, all of it.
    pub fn is_zero(&self) -> bool {
        self.after().iter().all(|&byte| byte == 0)
    }
}

pub fn is_dirty(bytes: &[u8]) -> bool {
    bytes.iter().all(|&byte| byte == DIRT)
}

/// Any resolver. Those of form 2 find their options in the record, and are told them for nothing.
pub type Resolver = for<'a> fn(&[u8], Options, &'a mut [u8], &mut Work<'_>) -> Result<Resolved<'a>, Refusal>;
pub const ATTENTION2: Resolver = |record, _, out, work| resolve_attention2(record, out, work);
pub const HEADINGS2: Resolver = |record, _, out, work| resolve_headings2(record, out, work);
pub const LISTS2: Resolver = |record, _, out, work| resolve_lists2(record, out, work);

/// Events from `+name@place` (enter) and `-name@place` (exit), with names as numbers.
pub fn events(notation: &str) -> Vec<Event> {
    let one = |word: &str| {
        let (sign, rest) = word.split_at(1);
        let (name, place) = rest.split_once('@').expect("a place");
        let name = Name(name.parse().expect("a name"));
        let place = place.parse().expect("a place");
        match sign {
            "+" => Event::enter(name, place),
            "-" => Event::exit(name, place),
            _ => panic!("neither + nor -: {word}"),
        }
    };
    notation.split_whitespace().map(one).collect()
}

/// A record, from a document and events in that notation.
pub fn record(document: &[u8], notation: &str) -> Vec<u8> {
    let events = events(notation);
    let mut bytes = vec![DIRT; record_length(document.len(), events.len())];
    let written = record_into(document, events, &mut bytes).expect("it fits").len();
    assert_eq!(written, bytes.len());
    bytes
}

/// A record of form 2, from options, a document and events in that notation.
pub fn record2(options: Options, document: &[u8], notation: &str) -> Vec<u8> {
    let events = events(notation);
    let mut bytes = vec![DIRT; record_length2(document.len(), events.len())];
    let written = record2_into(options, document, events, &mut bytes).expect("it fits").len();
    assert_eq!(written, bytes.len());
    bytes
}

/// A section, byte by byte as document 01 lays it out, from events in that notation.
pub fn section(notation: &str) -> Vec<u8> {
    let events = events(notation);
    let mut bytes = (events.len() as u32).to_le_bytes().to_vec();
    for event in events {
        bytes.extend(eight_bytes(event));
    }
    bytes
}

/// The same in form 2.
pub fn section2(notation: &str) -> Vec<u8> {
    let events = events(notation);
    let mut bytes = (events.len() as u32).to_le_bytes().to_vec();
    for (event, partner) in events.iter().zip(partners(&events)) {
        bytes.extend(eight_bytes(*event));
        bytes.extend((partner as u32).to_le_bytes());
    }
    bytes
}

fn eight_bytes(event: Event) -> Vec<u8> {
    let kind = if event.kind == Kind::Enter { 0 } else { 1 };
    [&[kind, event.name.0, 0, 0][..], &(event.place as u32).to_le_bytes()].concat()
}

/// The partners of events that are all closed: an exit's is the last enter before it that has none yet.
pub fn partners(events: &[Event]) -> Vec<usize> {
    let (mut partners, mut open) = (vec![0; events.len()], Vec::new());
    for (exit, event) in events.iter().enumerate() {
        match event.kind {
            Kind::Enter => open.push(exit),
            Kind::Exit => {
                let enter = open.pop().expect("an enter");
                (partners[enter], partners[exit]) = (exit, enter);
            }
        }
    }
    partners
}

/// A form of a record, in bytes.
pub struct Form {
    /// A record of options, if it has them, a document and events.
    pub record: fn(Options, &[u8], &str) -> Vec<u8>,
    /// What a resolver writes.
    pub section: fn(&str) -> Vec<u8>,
}
pub const OLD: Form = Form {
    record: |_, document, notation| record(document, notation),
    section,
};
pub const SECOND: Form = Form {
    record: record2,
    section: section2,
};

/// What an accepted call has to come to.
#[derive(Clone, Copy)]
pub struct Expected<'a> {
    pub events: &'a str,
    pub groups: usize,
    pub tried: usize,
}

/// Resolves with an output that is just long enough, some that are longer, and one that is a byte short; looks at all of every buffer. 65,536 cut to
/// 16 bits is 0.
pub fn resolves(form: &Form, resolver: Resolver, options: Options, document: &str, before: &str, expected: Expected) {
    let record = (form.record)(options, document.as_bytes(), before);
    let section = (form.section)(expected.events);
    for length in [section.len(), section.len() + 1, 65_536] {
        let mut out = Lent::new(length);
        let mut work = Lent::work();
        let resolved = resolver(&record, options, out.lend(), &mut Work::from(work.lend())).expect(document);
        assert_eq!(resolved.section, section, "{document}");
        assert_eq!(resolved.events, events(expected.events).len(), "{document}");
        assert_eq!((resolved.groups, resolved.tried), (expected.groups, expected.tried), "{document}");
        assert_eq!(out.after()[..section.len()], section, "{document}");
        assert!(is_dirty(&out.after()[section.len()..]), "{document}");
        assert!(work.is_zero(), "{document}");
    }
    refuses(resolver, &record, options, section.len() - 1, Refusal::Output);
    refuses(resolver, &record, options, 0, Refusal::Output);
}

/// Is refused, and leaves the output as it was and the work memory zero.
pub fn refuses(resolver: Resolver, record: &[u8], options: Options, out_length: usize, refusal: Refusal) {
    let mut out = Lent::new(out_length);
    let mut work = Lent::work();
    assert_eq!(resolver(record, options, out.lend(), &mut Work::from(work.lend())), Err(refusal));
    assert!(out.is_dirty());
    assert!(work.is_zero());
}

/// A call on a record, of which only the refusal matters.
pub type OnRecord = fn(&[u8], Options, &mut [u8], &mut Work<'_>) -> Result<(), Refusal>;

/// All of these calls refuse a record, with an output and without.
pub fn refused(calls: &[OnRecord], record: &[u8], options: Options, work_length: usize, refusal: Refusal) {
    for (call, on_record) in calls.iter().enumerate() {
        for out_length in [0, 1_000] {
            let mut out = Lent::new(out_length);
            let mut work = Lent::new(work_length);
            let answer = on_record(record, options, out.lend(), &mut Work::from(work.lend()));
            assert_eq!(answer, Err(refusal), "call {call}, record {record:?}");
            assert!(out.is_dirty());
            assert!(work.is_zero());
        }
    }
}
