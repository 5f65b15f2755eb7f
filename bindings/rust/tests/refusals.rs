//! Every refusal of every call on a record of the old form or on a line. Buffers hold other bytes before; after, the output is as it was and the work
//! memory zero, all of it.

mod common;

use common::{record, refuses, Lent, OnRecord};
use ledgerlark::{
    continuation, heading, list_item, read, resolve_attention, resolve_headings, resolve_lists, section_length, space_or_tab, Container,
    ListKind, Options, Refusal, Work,
};

const OPTIONS: Options = Options::from_bits(59);
const OVER: [Options; 3] = [Options::from_bits(64), Options::from_bits(256), Options::from_bits(u32::MAX)];

const ON_RECORDS: [OnRecord; 4] = [
    |record, options, _, work| read(record, options, work).map(drop),
    |record, options, out, work| resolve_attention(record, options, out, work).map(drop),
    |record, options, out, work| resolve_headings(record, options, out, work).map(drop),
    |record, options, out, work| resolve_lists(record, options, out, work).map(drop),
];

/// All four calls on a record refuse it.
fn refused(record: &[u8], options: Options, work_length: usize, refusal: Refusal) {
    common::refused(&ON_RECORDS, record, options, work_length, refusal);
}

fn refused_with(record: &[u8], refusal: Refusal) {
    refused(record, OPTIONS, Work::LENGTH, refusal);
}

#[test]
fn number_1_work_memory() {
    refused(&record(b"a", ""), OPTIONS, 65_535, Refusal::Work);
    refused(&record(b"a", ""), OPTIONS, 0, Refusal::Work);
    // before all others
    refused(&[], OVER[0], 65_535, Refusal::Work);
}

#[test]
fn number_2_options() {
    for over in OVER {
        refused(&record(b"a", ""), over, Work::LENGTH, Refusal::Options);
        refused(&[], over, 70_000, Refusal::Options);
    }
}

#[test]
fn number_3_counts() {
    // the first count: cut off, over its limit, past the record
    refused_with(&[], Refusal::Count { place: 0 });
    refused_with(&[0, 0, 0], Refusal::Count { place: 0 });
    refused_with(&record(&[b'a'; 16_385], ""), Refusal::Count { place: 0 });
    refused_with(&[5, 0, 0, 0, b'a', b'b', b'c', b'd'], Refusal::Count { place: 0 });
    refused_with(&[255, 255, 255, 255, 0, 0, 0, 0], Refusal::Count { place: 0 });
    // the second
    refused_with(&[1, 0, 0, 0, b'a'], Refusal::Count { place: 5 });
    refused_with(&record(b"", &"+0@0 -0@0 ".repeat(1_025)), Refusal::Count { place: 4 });
    refused_with(&[0, 0, 0, 0, 1, 0, 0, 0, 0, 0, 0, 0, 0, 0, 0], Refusal::Count { place: 4 });
    // bytes that follow, and a carriage return and an open event before them
    let mut long = record(b"\r", "+0@0");
    long.push(0);
    refused_with(&long, Refusal::Count { place: 17 });
}

#[test]
fn number_4_carriage_return() {
    refused_with(&record(b"\r", ""), Refusal::Return { place: 4 });
    refused_with(&record(b"ab\rc\r", "+25@0"), Refusal::Return { place: 6 });
}

#[test]
fn number_5_events() {
    let bad = |bytes: [u8; 8]| [&[1, 0, 0, 0, b'a', 1, 0, 0, 0][..], &bytes].concat();
    refused_with(&bad([2, 0, 0, 0, 0, 0, 0, 0]), Refusal::Event { place: 9 });
    refused_with(&bad([0, 25, 0, 0, 0, 0, 0, 0]), Refusal::Event { place: 9 });
    refused_with(&bad([0, 0, 1, 0, 0, 0, 0, 0]), Refusal::Event { place: 9 });
    refused_with(&bad([0, 0, 0, 1, 0, 0, 0, 0]), Refusal::Event { place: 9 });
    refused_with(&bad([0, 0, 0, 0, 2, 0, 0, 0]), Refusal::Event { place: 9 });
    refused_with(&bad([1, 0, 0, 0, 0, 0, 0, 0]), Refusal::Event { place: 9 });
    // a place below the one before, an exit of another name, the 65th that is open, one left open
    refused_with(&record(b"ab", "+0@1 -0@0"), Refusal::Event { place: 18 });
    refused_with(&record(b"ab", "+0@0 -2@0"), Refusal::Event { place: 18 });
    refused_with(&record(b"", &"+24@0 ".repeat(65)), Refusal::Event { place: 8 + 8 * 64 });
    refused_with(&record(b"ab", "+0@0"), Refusal::Event { place: 18 });
}

/// A record whose result has so many events, with an output that is just long enough.
fn accepts(resolver: common::Resolver, record: &[u8], events: usize) {
    let mut out = Lent::new(section_length(events));
    let mut work = Lent::work();
    let resolved = resolver(record, OPTIONS, out.lend(), &mut Work::from(work.lend())).expect("good");
    assert_eq!(resolved.events, events);
    assert_eq!(out.after().len(), section_length(events));
    assert!(work.is_zero());
}

#[test]
fn number_6_shapes() {
    let offends = |resolver, document: &[u8], events, options, place| {
        refuses(resolver, &record(document, events), options, 1_000, Refusal::Shape { place })
    };

    // a run of no length; of two bytes; that goes on; not left at once; whose option is off
    offends(resolve_attention, b"*", "+1@0 -1@0", OPTIONS, 9);
    offends(resolve_attention, b"*_", "+1@0 -1@2", OPTIONS, 10);
    offends(resolve_attention, b"**", "+1@0 -1@1", OPTIONS, 10);
    offends(resolve_attention, b"*", "+1@0 +0@0 -0@0 -1@1", OPTIONS, 9);
    offends(resolve_attention, b"*", "+1@0 -1@1", Options::from_bits(62), 9);
    offends(resolve_attention, b"~~", "+1@0 -1@2", Options::from_bits(61), 10);
    // the earliest of two, behind a good one
    offends(resolve_attention, b"*ab", "+1@0 -1@1 +1@1 -1@2 +1@2 -1@3", OPTIONS, 11 + 16);

    // a heading with nothing in it; that does not begin with its `#`; with something else in it
    offends(resolve_headings, b"", "+11@0 -11@0", OPTIONS, 8);
    offends(resolve_headings, b"a", "+11@0 +0@0 -0@1 -11@1", OPTIONS, 9);
    offends(
        resolve_headings,
        b"#",
        "+0@0 -0@0 +11@0 +12@0 -12@1 +24@1 -24@1 -11@1",
        OPTIONS,
        9 + 16,
    );

    // an item with no prefix; whose mark is none; right behind another
    offends(resolve_lists, b"", "+15@0 -15@0", OPTIONS, 8);
    offends(resolve_lists, b"a", "+15@0 +16@0 +17@0 -17@1 -16@1 -15@1", OPTIONS, 9);
    let two = "+15@0 +16@0 +17@0 -17@1 -16@1 -15@1 +15@1 +16@1 +17@1 -17@2 -16@2 -15@2";
    offends(resolve_lists, b"--", two, OPTIONS, 10 + 48);

    // before 8, and no matter of the other resolvers
    refuses(
        resolve_attention,
        &record(b"*", "+1@0 -1@0"),
        OPTIONS,
        0,
        Refusal::Shape { place: 9 },
    );
    refuses(
        resolve_headings,
        &record(b"", "+11@0 -11@0"),
        OPTIONS,
        0,
        Refusal::Shape { place: 8 },
    );
    refuses(resolve_lists, &record(b"", "+15@0 -15@0"), OPTIONS, 0, Refusal::Shape { place: 8 });
    for (resolver, events) in [
        (resolve_attention as common::Resolver, "+11@0 -11@0 +15@0 -15@0"),
        (resolve_headings, "+1@0 -1@0 +15@0 -15@0"),
        (resolve_lists, "+1@0 -1@0 +11@0 -11@0"),
    ] {
        accepts(resolver, &record(b"*", events), 4);
    }
}

#[test]
fn number_8_output() {
    // Two events that no resolver changes: 20 bytes. Number 7, and 8 at other lengths, stand with what is resolved.
    for resolver in [resolve_attention as common::Resolver, resolve_headings, resolve_lists] {
        let record = record(b"a", "+0@0 -0@1");
        refuses(resolver, &record, OPTIONS, 19, Refusal::Output);
        refuses(resolver, &record, OPTIONS, 0, Refusal::Output);
        accepts(resolver, &record, 2);
    }
}

#[test]
fn good_records() {
    let reads = |record: &[u8], options, document, events| {
        for work_length in [65_536, 70_000] {
            let mut work = Lent::new(work_length);
            let reading = read(record, options, &mut Work::from(work.lend())).expect("good");
            assert_eq!((reading.document, reading.events), (document, events));
            assert!(work.is_zero());
        }
    };
    reads(&[0; 8], OPTIONS, 0, 0);
    let pairs = ["+0@0 -0@16384 ".to_string(), "+0@16384 -0@16384 ".repeat(1_023)].concat();
    reads(&record(&[b'a'; 16_384], &pairs), Options::ALL, 16_384, 2_048);
    let deepest = ["+24@0 ".repeat(64), "-24@0 ".repeat(64)].concat();
    reads(&record(b"", &deepest), Options::NONE, 0, 128);
}

/// A line reader, of which only the refusal matters here.
type OnLine = fn(&[u8], Options, usize, &mut [u8]) -> Result<(), Refusal>;
const ON_LINES: [OnLine; 4] = [
    |line, options, column, _| space_or_tab(line, options, column, 0, 3).map(drop),
    |line, options, column, _| list_item(line, options, column, false).map(drop),
    |line, options, column, _| continuation(line, options, column, Container::new(ListKind::Bullet(b'-'), 2, true)).map(drop),
    |line, options, column, out| heading(line, options, column, out).map(drop),
];

#[test]
fn numbers_2_3_and_4_of_lines() {
    let refused_at = |column, line: &[u8], options, refusal| {
        for (call, on_line) in ON_LINES.iter().enumerate() {
            for out_length in [0, 1_000] {
                let mut out = Lent::new(out_length);
                let answer = on_line(line, options, column, out.lend());
                assert_eq!(answer, Err(refusal), "call {call}, {} bytes", line.len());
                assert!(out.is_dirty());
            }
        }
    };
    let refused = |line: &[u8], options, refusal| {
        for column in [0, 3, 16_384] {
            refused_at(column, line, options, refusal);
        }
    };
    for over in OVER {
        refused(b"# a\r", over, Refusal::Options);
    }
    // A column over the limit comes before what is wrong with the line; some have lower bits that are 0.
    for over in [16_385, 1 << 15, 1 << 16, 1 << 32, usize::MAX] {
        refused_at(over, b"# a", OPTIONS, Refusal::Options);
        refused_at(over, b"# a\r", OPTIONS, Refusal::Options);
        refused_at(over, &[b'a'; 16_385], OPTIONS, Refusal::Options);
    }
    let mut long = vec![b'\r'; 16_385];
    refused(&long, OPTIONS, Refusal::Count { place: 16_384 });
    long[0] = b'\n';
    refused(&long, OPTIONS, Refusal::Count { place: 16_384 });
    refused(&long[..16_384], OPTIONS, Refusal::Return { place: 1 });
    refused(b"x\r", OPTIONS, Refusal::Return { place: 1 });
    refused(b"# a\n\r\r", OPTIONS, Refusal::Return { place: 4 });
    for on_line in ON_LINES {
        assert_eq!(on_line(&[b'a'; 16_384], OPTIONS, 0, &mut []), Ok(()));
        assert_eq!(on_line(&[b'a'; 16_384], OPTIONS, 16_384, &mut []), Ok(()));
    }
}

/// Each ` a` is two pairs, the `#` one, the heading itself one: with 1,999 of them 8,000 events.
#[test]
fn numbers_7_and_8_of_headings() {
    let line = ["#".to_string(), " a".repeat(1_999)].concat();
    let mut out = Lent::new(64_004);
    assert_eq!(heading(line.as_bytes(), OPTIONS, 0, out.lend()), Ok(Some(8_000)));
    assert_eq!(out.after().len(), 64_004);
    let mut out = Lent::new(64_003);
    assert_eq!(heading(line.as_bytes(), OPTIONS, 0, out.lend()), Err(Refusal::Output));
    assert!(out.is_dirty());

    let longer = line + " ";
    for length in [0, 70_000] {
        let mut out = Lent::new(length);
        assert_eq!(heading(longer.as_bytes(), OPTIONS, 0, out.lend()), Err(Refusal::Result));
        assert!(out.is_dirty());
    }
}
