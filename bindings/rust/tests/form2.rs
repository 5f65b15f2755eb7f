//! Form 2 of a record: its bytes, its options, its partners and its refusals. What is expected was written from document 01 by hand.

mod common;

use common::{is_dirty, record2, refused, refuses, Lent, OnRecord, Resolver, ATTENTION2, HEADINGS2, LISTS2};
use ledgerlark::{
    read2, record2_into, record_length2, resolve_attention2, resolve_headings2, resolve_lists2, section_length2, Events2, Options,
    Reading2, Refusal, Work, MAX_RESULT,
};

const OPTIONS: Options = Options::from_bits(59);

/// Document 01's whole case, in form 2.
const WHOLE: [u8; 88] = [
    1, 0, 0, 0, 59, // the options
    3, 0, 0, 0, b'*', b'a', b'*', // the document
    6, 0, 0, 0, // the events
    0, 1, 0, 0, 0, 0, 0, 0, 1, 0, 0, 0, // 0: +1@0
    1, 1, 0, 0, 1, 0, 0, 0, 0, 0, 0, 0, // 1: -1@1
    0, 0, 0, 0, 1, 0, 0, 0, 3, 0, 0, 0, // 2: +0@1
    1, 0, 0, 0, 2, 0, 0, 0, 2, 0, 0, 0, // 3: -0@2
    0, 1, 0, 0, 2, 0, 0, 0, 5, 0, 0, 0, // 4: +1@2
    1, 1, 0, 0, 3, 0, 0, 0, 4, 0, 0, 0, // 5: -1@3
];
const WHOLE_RESOLVED: [u8; 124] = [
    10, 0, 0, 0, // the events
    0, 2, 0, 0, 0, 0, 0, 0, 9, 0, 0, 0, // 0: +2@0
    0, 3, 0, 0, 0, 0, 0, 0, 2, 0, 0, 0, // 1: +3@0
    1, 3, 0, 0, 1, 0, 0, 0, 1, 0, 0, 0, // 2: -3@1
    0, 4, 0, 0, 1, 0, 0, 0, 6, 0, 0, 0, // 3: +4@1
    0, 0, 0, 0, 1, 0, 0, 0, 5, 0, 0, 0, // 4: +0@1
    1, 0, 0, 0, 2, 0, 0, 0, 4, 0, 0, 0, // 5: -0@2
    1, 4, 0, 0, 2, 0, 0, 0, 3, 0, 0, 0, // 6: -4@2
    0, 3, 0, 0, 2, 0, 0, 0, 8, 0, 0, 0, // 7: +3@2
    1, 3, 0, 0, 3, 0, 0, 0, 7, 0, 0, 0, // 8: -3@3
    1, 2, 0, 0, 3, 0, 0, 0, 0, 0, 0, 0, // 9: -2@3
];

/// What is read in a good record, whatever work memory above the least is lent.
fn reads(record: &[u8]) -> Reading2 {
    let [least, more] = [65_536, 70_000].map(|work_length| {
        let mut work = Lent::new(work_length);
        let reading = read2(record, &mut Work::from(work.lend())).expect("good");
        assert!(work.is_zero());
        reading
    });
    assert_eq!(least, more);
    least
}

#[test]
fn whole_case() {
    assert_eq!(WHOLE, *record2(OPTIONS, b"*a*", "+1@0 -1@1 +0@1 -0@2 +1@2 -1@3"));
    let reading = reads(&WHOLE);
    assert_eq!((reading.options, reading.document, reading.events), (OPTIONS, 3, 6));

    let mut out = Lent::new(130);
    let mut work = Lent::work();
    let resolved = resolve_attention2(&WHOLE, out.lend(), &mut Work::from(work.lend())).expect("good");
    assert_eq!((resolved.events, resolved.groups, resolved.tried), (10, 1, 1));
    assert_eq!(resolved.section, WHOLE_RESOLVED);
    assert_eq!(out.after()[..124], WHOLE_RESOLVED);
    assert!(is_dirty(&out.after()[124..]));
    assert!(work.is_zero());
}

#[test]
fn good_records() {
    // every option byte there is, and what it stands for is what is told
    for bits in 0..=63 {
        let reading = reads(&[1, 0, 0, 0, bits, 0, 0, 0, 0, 0, 0, 0, 0]);
        assert_eq!(
            (reading.options, reading.document, reading.events),
            (Options::from_bits(bits.into()), 0, 0)
        );
    }
    let pairs = ["+0@0 -0@16384 ".to_string(), "+0@16384 -0@16384 ".repeat(1_023)].concat();
    let reading = reads(&record2(Options::ALL, &[b'a'; 16_384], &pairs));
    assert_eq!((reading.options, reading.document, reading.events), (Options::ALL, 16_384, 2_048));
    let deepest = ["+24@0 ".repeat(64), "-24@0 ".repeat(64)].concat();
    let reading = reads(&record2(Options::NONE, b"", &deepest));
    assert_eq!((reading.options, reading.document, reading.events), (Options::NONE, 0, 128));
}

/// The four calls on a record of form 2.
const ON_RECORDS: [OnRecord; 4] = [
    |record, _, _, work| read2(record, work).map(drop),
    |record, _, out, work| resolve_attention2(record, out, work).map(drop),
    |record, _, out, work| resolve_headings2(record, out, work).map(drop),
    |record, _, out, work| resolve_lists2(record, out, work).map(drop),
];

/// All four refuse a record.
fn refused_with(record: &[u8], refusal: Refusal) {
    refused(&ON_RECORDS, record, OPTIONS, Work::LENGTH, refusal);
}

#[test]
fn number_1_work_memory() {
    for length in [0, 65_535] {
        refused(&ON_RECORDS, &WHOLE, OPTIONS, length, Refusal::Work);
        // before all others
        refused(&ON_RECORDS, &[2, 0, 0, 0], OPTIONS, length, Refusal::Work);
    }
}

#[test]
fn number_2_the_first_section() {
    let with = |at: usize, byte| {
        let mut record = WHOLE;
        record[at] = byte;
        record
    };
    // a count other than 1, in each of its bytes; and options over 63
    for (at, byte) in [
        (0, 0),
        (0, 2),
        (0, 255),
        (1, 1),
        (2, 1),
        (3, 1),
        (3, 128),
        (4, 64),
        (4, 128),
        (4, 255),
    ] {
        refused_with(&with(at, byte), Refusal::Options);
    }
    // before what else is wrong, also where nothing follows the count
    refused_with(&[0; 4], Refusal::Options);
    refused_with(&[255; 4], Refusal::Options);
    refused_with(&[1, 0, 0, 0, 64], Refusal::Options);
    // Where the document's count is 1, a record of the old form has its first byte for options: `a` is 97.
    refused_with(&common::record(b"a", ""), Refusal::Options);
    refused_with(&common::record(b"*a*", "+1@0 -1@1 +0@1 -0@2 +1@2 -1@3"), Refusal::Options);
    // What is made of options that no byte has is refused too.
    for over in [64, 255, 256, 256 + 59, u32::MAX] {
        refused_with(&record2(Options::from_bits(over), b"a", ""), Refusal::Options);
    }
}

#[test]
fn number_3_counts() {
    let none = Refusal::Count { place: 0 };
    // the first count: cut off, or with no byte behind it
    for length in 0..=4 {
        refused_with(&WHOLE[..length], none);
    }
    // the document's: cut off, past the record, over its limit
    for length in 5..12 {
        refused_with(&WHOLE[..length], Refusal::Count { place: 5 });
    }
    refused_with(&record2(OPTIONS, &[b'a'; 16_385], ""), Refusal::Count { place: 5 });
    refused_with(&[1, 0, 0, 0, 59, 255, 255, 255, 255, 0, 0, 0, 0], Refusal::Count { place: 5 });
    // the events': the same
    for length in 12..88 {
        refused_with(&WHOLE[..length], Refusal::Count { place: 12 });
    }
    refused_with(&record2(OPTIONS, b"", &"+0@0 -0@0 ".repeat(1_025)), Refusal::Count { place: 9 });
    // bytes that follow, and a carriage return and an open event before them
    let mut long = record2(OPTIONS, b"\r", "+0@0");
    long.push(0);
    refused_with(&long, Refusal::Count { place: 26 });
}

#[test]
fn number_4_carriage_return() {
    refused_with(&record2(OPTIONS, b"\r", ""), Refusal::Return { place: 9 });
    refused_with(&record2(OPTIONS, b"ab\rc\r", "+25@0"), Refusal::Return { place: 11 });
}

#[test]
fn number_5_events() {
    // The second pair of the whole case, at 16 + 24 and 16 + 36, with one wrong byte: a kind, a name, the zero bytes, a place.
    let with = |at: usize, byte| {
        let mut record = WHOLE;
        record[at] = byte;
        record
    };
    for (at, byte) in [(0, 2), (1, 25), (2, 1), (3, 1), (4, 0), (4, 4), (5, 1), (7, 1)] {
        refused_with(&with(40 + at, byte), Refusal::Event { place: 40 });
        refused_with(&with(52 + at, byte), Refusal::Event { place: 52 });
    }
    // an exit of another name than the innermost
    refused_with(&with(52 + 1, 1), Refusal::Event { place: 52 });
    // with nothing open; the 65th that is open; one left open, with all behind it sound
    refused_with(&record2(OPTIONS, b"ab", "-0@0"), Refusal::Event { place: 15 });
    refused_with(&record2(OPTIONS, b"", &"+24@0 ".repeat(65)), Refusal::Event { place: 13 + 12 * 64 });
    refused_with(&record2(OPTIONS, b"ab", "+24@0 +0@0 -0@1"), Refusal::Event { place: 15 + 36 });
}

/// Any byte of a partner's number that is not true is told at the exit of the pair, also where it is the enter's.
#[test]
fn number_5_partners() {
    for pair in 0..3 {
        let (enter, exit) = (16 + 24 * pair, 16 + 24 * pair + 12);
        for field in [enter + 8, exit + 8] {
            for byte in field..field + 4 {
                for bit in [1, 16, 128] {
                    let mut record = WHOLE;
                    record[byte] ^= bit;
                    refused_with(&record, Refusal::Event { place: exit });
                }
            }
        }
    }

    // Events 0 and 3 are a pair, and 1 and 2 are. With the numbers of 0 and 1 exchanged the inner one is told, since its exit comes first.
    let mut nested = record2(OPTIONS, b"a", "+24@0 +0@0 -0@1 -24@1");
    let (first, second) = (14 + 8, 14 + 12 + 8);
    assert_eq!((nested[first], nested[second]), (3, 2));
    (nested[first], nested[second]) = (2, 3);
    refused_with(&nested, Refusal::Event { place: 14 + 24 });
    nested[second] = 2;
    refused_with(&nested, Refusal::Event { place: 14 + 36 });

    // What is earlier comes first; and of an event that is left open the number is not looked at.
    let mut early = record2(OPTIONS, b"a", "+0@0 -0@1 -0@1");
    early[14 + 8] = 7;
    refused_with(&early, Refusal::Event { place: 14 + 12 });
    let mut open = record2(OPTIONS, b"a", "+24@0 +0@0 -0@1");
    for number in [0, 1, 2, 3, 255] {
        open[14 + 8] = number;
        refused_with(&open, Refusal::Event { place: 14 + 36 });
    }
}

/// Events that do not pair are made a record of all the same, and refused for what is wrong with them.
#[test]
fn events_that_do_not_pair() {
    for (events, number) in [
        ("-0@0", 0),
        ("-0@0 +0@0", 0),
        ("+0@0 -0@0 -0@0 +0@0", 2),
        ("+24@0 +0@0 -24@0 -0@0", 2),
        ("+24@0 +0@0 -0@0 -2@0", 3),
        ("+0@0", 1),
        ("+24@0 +0@0 -0@0 +0@0 +0@0", 5),
    ] {
        let refusal = Refusal::Event { place: 13 + 12 * number };
        refused_with(&record2(OPTIONS, b"", events), refusal);
    }
}

#[test]
fn number_6_shapes() {
    let offends = |resolver: Resolver, options, document: &[u8], events, place| {
        let record = record2(options, document, events);
        refuses(resolver, &record, OPTIONS, 1_000, Refusal::Shape { place });
        // before 8
        refuses(resolver, &record, OPTIONS, 0, Refusal::Shape { place });
    };
    offends(ATTENTION2, OPTIONS, b"*", "+1@0 -1@0", 14);
    offends(ATTENTION2, OPTIONS, b"*ab", "+1@0 -1@1 +1@1 -1@2 +1@2 -1@3", 16 + 24);
    offends(HEADINGS2, OPTIONS, b"", "+11@0 -11@0", 13);
    offends(HEADINGS2, OPTIONS, b"a", "+0@0 -0@0 +11@0 +0@0 -0@1 -11@1", 14 + 24);
    offends(LISTS2, OPTIONS, b"", "+15@0 -15@0", 13);
    let two = "+15@0 +16@0 +17@0 -17@1 -16@1 -15@1 +15@1 +16@1 +17@1 -17@2 -16@2 -15@2";
    offends(LISTS2, OPTIONS, b"--", two, 15 + 72);

    // Whether a run's option is on goes by the record.
    for (document, needed) in [(b"**", 1), (b"__", 1), (b"~~", 2)] {
        let without = Options::from_bits(63 - needed);
        offends(ATTENTION2, without, document, "+1@0 -1@2", 15);
        resolves_to(ATTENTION2, &record2(Options::from_bits(needed), document, "+1@0 -1@2"), "+0@0 -0@2");
    }
}

/// A resolver writes these events, with their partners, to an output that is just long enough.
fn resolves_to(resolver: Resolver, record: &[u8], events: &str) {
    let section = common::section2(events);
    let mut out = Lent::new(section.len());
    let mut work = Lent::work();
    let resolved = resolver(record, OPTIONS, out.lend(), &mut Work::from(work.lend())).expect("good");
    assert_eq!(resolved.section, section);
    assert_eq!(out.after(), section);
    assert!(work.is_zero());
}

#[test]
fn number_8_output() {
    // Two events that no resolver changes: 4 + 2 * 12 bytes, where 4 + 2 * 8 are too few.
    let record = record2(OPTIONS, b"a", "+0@0 -0@1");
    for resolver in [ATTENTION2, HEADINGS2, LISTS2] {
        for length in [0, 3, 20, 27] {
            refuses(resolver, &record, OPTIONS, length, Refusal::Output);
        }
        resolves_to(resolver, &record, "+0@0 -0@1");
    }
}

/// `****a**** `, so many times, and the two runs of each: two groups to each, which are 16 events.
fn strongs(times: usize) -> Vec<u8> {
    let runs = (0..times)
        .map(|i| 10 * i)
        .map(|at| format!("+1@{} -1@{} +1@{} -1@{} ", at, at + 4, at + 5, at + 9));
    record2(OPTIONS, "****a**** ".repeat(times).as_bytes(), &runs.collect::<String>())
}

/// The partners of the 16, which are `+5 +6 -6 +7 +5 +6 -6 +7` and `-7 +6 -6 -5 -7 +6 -6 -5`, counted from the first of them.
const STRONG_PARTNERS: [usize; 16] = [15, 2, 1, 12, 11, 6, 5, 8, 7, 10, 9, 4, 3, 14, 13, 0];

#[test]
fn the_longest_result() {
    let record = strongs(500);
    let length = section_length2(MAX_RESULT);
    assert_eq!(length, 96_004);
    let mut out = Lent::new(length);
    let mut work = Lent::work();
    let resolved = resolve_attention2(&record, out.lend(), &mut Work::from(work.lend())).expect("8,000 events");
    assert_eq!((resolved.events, resolved.groups, resolved.tried), (8_000, 1_000, 1_000));
    assert_eq!(resolved.section.len(), length);
    let partners = Events2::new(resolved.section).map(|event| event.partner);
    assert!(partners.eq((0..8_000).map(|i| i / 16 * 16 + STRONG_PARTNERS[i % 16])));
    assert_eq!(out.after().len(), length);
    assert!(work.is_zero());
    refuses(ATTENTION2, &record, OPTIONS, length - 1, Refusal::Output);

    // One more pair of runs: 8,016 events, refused whatever the output's length is.
    for length in [0, length, length + 192] {
        refuses(ATTENTION2, &strongs(501), OPTIONS, length, Refusal::Result);
    }
}

/// A result may be deeper than a record: 70 strong groups, one inside the other, come from two runs of 140 markers.
#[test]
fn partners_of_a_deep_result() {
    let document = ["*".repeat(140), "a".to_string(), "*".repeat(140)].concat();
    let record = record2(OPTIONS, document.as_bytes(), "+1@0 -1@140 +1@141 -1@281");
    let mut out = Lent::new(section_length2(560));
    let mut work = Lent::work();
    let resolved = resolve_attention2(&record, out.lend(), &mut Work::from(work.lend())).expect("good");
    assert_eq!((resolved.events, resolved.groups), (560, 70));
    let events = Events2::new(resolved.section);
    for group in 0..70 {
        // On the left +5 +6 -6 +7, four to a group from the outermost on; on the right -7 +6 -6 -5, four to a group from the innermost on.
        let (left, right) = (4 * group, 556 - 4 * group);
        let at = |number| events.get(number).map(|event| (event.event.name.0, event.partner));
        assert_eq!(at(left), Some((5, right + 3)));
        assert_eq!(at(left + 1), Some((6, left + 2)));
        assert_eq!(at(left + 2), Some((6, left + 1)));
        assert_eq!(at(left + 3), Some((7, right)));
        assert_eq!(at(right), Some((7, left + 3)));
        assert_eq!(at(right + 1), Some((6, right + 2)));
        assert_eq!(at(right + 2), Some((6, right + 1)));
        assert_eq!(at(right + 3), Some((5, left)));
    }
    assert!(work.is_zero());
}

/// `- # *a*`: what one resolver has written becomes the record of the next, with partners counted anew.
#[test]
fn one_resolver_behind_another() {
    const DOCUMENT: &[u8] = b"- # *a*";
    let again = |section: &[u8]| {
        let events = Events2::new(section).map(|event| event.event);
        let mut bytes = vec![0; record_length2(DOCUMENT.len(), 20)];
        record2_into(OPTIONS, DOCUMENT, events, &mut bytes)
            .expect("20 events at most")
            .to_vec()
    };
    let inside = "+15@0 +16@0 +17@0 -17@1 +14@1 -14@2 -16@2 +11@2 +12@2 -12@3 +14@3 -14@4 +0@4 -0@7 -11@7 -15@7";
    let mut out = [0; 1_000];
    let mut memory = [0; Work::LENGTH];
    let mut work = Work::from(&mut memory);
    let record = record2(OPTIONS, DOCUMENT, inside);
    let listed = again(resolve_lists2(&record, &mut out, &mut work).expect("good").section);
    assert_eq!(listed, record2(OPTIONS, DOCUMENT, &format!("+20@0 {inside} -20@7")));
    let headed = "+15@0 +16@0 +17@0 -17@1 +14@1 -14@2 -16@2 +11@2 +12@2 -12@3 +14@3 -14@4 +13@4 +0@4 -0@7 -13@7 -11@7 -15@7";
    resolves_to(HEADINGS2, &listed, &format!("+20@0 {headed} -20@7"));
}

/// The convenience gives the same events, at the limit too, and passes refusals on.
#[cfg(feature = "alloc")]
#[test]
fn to_vec() {
    use ledgerlark::{resolve_attention2_to_vec, resolve_headings2_to_vec, resolve_lists2_to_vec};

    let mut work = Work::new();
    let shown = |events: Vec<ledgerlark::Event2>| {
        let words = events.iter().map(|event| event.to_string());
        words.collect::<Vec<_>>().join(" ")
    };
    assert_eq!(
        resolve_attention2_to_vec(&WHOLE, &mut work).map(shown).as_deref(),
        Ok(
            "+Emphasis@0/9 +EmphasisSequence@0/2 -EmphasisSequence@1/1 +EmphasisText@1/6 +Data@1/5 -Data@2/4 \
            -EmphasisText@2/3 +EmphasisSequence@2/8 -EmphasisSequence@3/7 -Emphasis@3/0"
        )
    );
    let heading = record2(OPTIONS, b"# a", "+11@0 +12@0 -12@1 +14@1 -14@2 +0@2 -0@3 -11@3");
    assert_eq!(
        resolve_headings2_to_vec(&heading, &mut work).map(shown).as_deref(),
        Ok(
            "+HeadingAtx@0/9 +HeadingAtxSequence@0/2 -HeadingAtxSequence@1/1 +SpaceOrTab@1/4 -SpaceOrTab@2/3 \
            +HeadingAtxText@2/8 +Data@2/7 -Data@3/6 -HeadingAtxText@3/5 -HeadingAtx@3/0"
        )
    );
    let item = record2(OPTIONS, b"-", "+15@0 +16@0 +17@0 -17@1 -16@1 -15@1");
    assert_eq!(
        resolve_lists2_to_vec(&item, &mut work).map(shown).as_deref(),
        Ok("+ListUnordered@0/7 +ListItem@0/6 +ListItemPrefix@0/5 +ListItemMarker@0/4 \
            -ListItemMarker@1/3 -ListItemPrefix@1/2 -ListItem@1/1 -ListUnordered@1/0")
    );
    assert_eq!(
        resolve_attention2_to_vec(&strongs(500), &mut work).map(|events| events.len()),
        Ok(8_000)
    );
    assert_eq!(resolve_attention2_to_vec(&strongs(501), &mut work), Err(Refusal::Result));
    let shapes = record2(OPTIONS, b"", "+11@0 -11@0 +15@0 -15@0");
    assert_eq!(resolve_headings2_to_vec(&shapes, &mut work), Err(Refusal::Shape { place: 13 }));
    assert_eq!(resolve_lists2_to_vec(&shapes, &mut work), Err(Refusal::Shape { place: 37 }));
}

/// A record in memory of its own.
#[cfg(feature = "alloc")]
#[test]
fn the_whole_case_made() {
    let events = common::events("+1@0 -1@1 +0@1 -0@2 +1@2 -1@3");
    assert_eq!(ledgerlark::record2(OPTIONS, b"*a*", &events), WHOLE);
}
