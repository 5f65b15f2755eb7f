//! Options, events, records and refusals as values: nothing here asks the library.

use ledgerlark::{record2_into, record_into, record_length, record_length2, section_length, section_length2};
use ledgerlark::{Container, Event, Event2, Events, Events2, Kind, ListKind, Name, Options, Refusal, Work};
use ledgerlark::{MAX_COLUMN, MAX_DEPTH, MAX_DOCUMENT, MAX_EVENTS, MAX_LINE, MAX_RESULT};

#[test]
fn options() {
    let all = [
        Options::ATTENTION,
        Options::STRIKETHROUGH,
        Options::SINGLE_TILDE,
        Options::HEADING,
        Options::LIST_ITEM,
        Options::CODE_INDENTED,
    ];
    assert_eq!(all.map(Options::bits), [1, 2, 4, 8, 16, 32]);
    let mut sum = Options::NONE;
    for option in all {
        assert!(!sum.contains(option));
        sum |= option;
        assert!(sum.contains(option));
    }
    assert_eq!(sum, Options::ALL);
    assert_eq!(Options::ALL.bits(), 63);
    assert_eq!(Options::default().bits(), 59);
    assert_eq!(Options::default() | Options::SINGLE_TILDE, Options::ALL);
    assert_eq!(Options::from_bits(u32::MAX).bits(), u32::MAX);
    // All of the options asked for, not one of them.
    assert!(!Options::ATTENTION.contains(Options::ATTENTION | Options::HEADING));
}

#[test]
fn options_and_not() {
    const BOTH: Options = Options::ATTENTION.union(Options::HEADING);
    let over = Options::from_bits(64 + 8);
    assert_eq!(BOTH, Options::ATTENTION | Options::HEADING);
    assert_eq!(BOTH & Options::HEADING, Options::HEADING);
    assert_eq!((BOTH & Options::LIST_ITEM, BOTH & over), (Options::NONE, Options::HEADING));
    assert_eq!((over & over).bits(), 72);
    let mut options = BOTH;
    options &= !Options::HEADING;
    assert_eq!(options, Options::ATTENTION);

    // The complement is among the six.
    assert_eq!((!BOTH).bits(), 54);
    assert_eq!((!Options::NONE, !Options::ALL), (Options::ALL, Options::NONE));
    assert_eq!((!over).bits(), 55);
    assert_eq!((!Options::from_bits(u32::MAX)).bits(), 0);

    assert!(Options::NONE.is_empty());
    assert!(!Options::ATTENTION.is_empty() && !Options::from_bits(64).is_empty());
}

#[test]
fn options_by_name() {
    let shown = |bits| format!("{:?}", Options::from_bits(bits));
    assert_eq!(shown(0), "Options(NONE)");
    assert_eq!(shown(1), "Options(ATTENTION)");
    assert_eq!(shown(9), "Options(ATTENTION | HEADING)");
    assert_eq!(
        shown(63),
        "Options(ATTENTION | STRIKETHROUGH | SINGLE_TILDE | HEADING | LIST_ITEM | CODE_INDENTED)"
    );
    assert_eq!(shown(64), "Options(0x40)");
    assert_eq!(shown(0x8000_0042), "Options(STRIKETHROUGH | 0x80000040)");
}

#[test]
fn names() {
    let numbered = [
        (0, Name::DATA, "Data"),
        (1, Name::ATTENTION_SEQUENCE, "AttentionSequence"),
        (2, Name::EMPHASIS, "Emphasis"),
        (3, Name::EMPHASIS_SEQUENCE, "EmphasisSequence"),
        (4, Name::EMPHASIS_TEXT, "EmphasisText"),
        (5, Name::STRONG, "Strong"),
        (6, Name::STRONG_SEQUENCE, "StrongSequence"),
        (7, Name::STRONG_TEXT, "StrongText"),
        (8, Name::GFM_STRIKETHROUGH, "GfmStrikethrough"),
        (9, Name::GFM_STRIKETHROUGH_SEQUENCE, "GfmStrikethroughSequence"),
        (10, Name::GFM_STRIKETHROUGH_TEXT, "GfmStrikethroughText"),
        (11, Name::HEADING_ATX, "HeadingAtx"),
        (12, Name::HEADING_ATX_SEQUENCE, "HeadingAtxSequence"),
        (13, Name::HEADING_ATX_TEXT, "HeadingAtxText"),
        (14, Name::SPACE_OR_TAB, "SpaceOrTab"),
        (15, Name::LIST_ITEM, "ListItem"),
        (16, Name::LIST_ITEM_PREFIX, "ListItemPrefix"),
        (17, Name::LIST_ITEM_MARKER, "ListItemMarker"),
        (18, Name::LIST_ITEM_VALUE, "ListItemValue"),
        (19, Name::LIST_ORDERED, "ListOrdered"),
        (20, Name::LIST_UNORDERED, "ListUnordered"),
        (21, Name::LINE_ENDING, "LineEnding"),
        (22, Name::BLANK_LINE_ENDING, "BlankLineEnding"),
        (23, Name::BLOCK_QUOTE_PREFIX, "BlockQuotePrefix"),
        (24, Name::OTHER_CONTAINER, "OtherContainer"),
    ];
    for (number, name, word) in numbered {
        assert_eq!((name.0, name.word(), name.to_string().as_str()), (number, Some(word), word));
    }
    assert_eq!((Name(25).word(), Name(255).to_string()), (None, "255".to_string()));
}

#[test]
fn list_kinds() {
    assert_eq!(ListKind::Bullet(b'+').mark(), b'+');
    assert_eq!(ListKind::Ordered(b')').mark(), b')');
    let container = Container::new(ListKind::Ordered(b')'), 3, true);
    assert_eq!(
        (container.kind, container.size, container.blank),
        (ListKind::Ordered(b')'), 3, true)
    );
}

#[test]
fn events_in_bytes() {
    let written = [
        (Event::enter(Name::DATA, 0), [0, 0, 0, 0, 0, 0, 0, 0]),
        (Event::exit(Name::STRONG, 0x0403_0201), [1, 5, 0, 0, 1, 2, 3, 4]),
        (Event::exit(Name(255), 0xffff_ffff), [1, 255, 0, 0, 255, 255, 255, 255]),
    ];
    for (event, bytes) in written {
        assert_eq!((event.to_bytes(), Event::from_bytes(bytes)), (bytes, Some(event)));
    }
    for place in [1 << 32, usize::MAX] {
        assert_eq!(Event::enter(Name::DATA, place).to_bytes(), [0, 0, 0, 0, 255, 255, 255, 255]);
    }
    for (at, wrong) in [(0, 2), (0, 255), (2, 1), (3, 1), (3, 128)] {
        let mut odd = [0; 8];
        odd[at] = wrong;
        assert_eq!(Event::from_bytes(odd), None);
    }
}

#[test]
fn events_of_form_2_in_bytes() {
    let written = [
        (Event::enter(Name::DATA, 0), 0, [0; 12]),
        (
            Event::exit(Name::STRONG, 0x0403_0201),
            0x0807_0605,
            [1, 5, 0, 0, 1, 2, 3, 4, 5, 6, 7, 8],
        ),
        (
            Event::enter(Name(255), 1),
            0xffff_ffff,
            [0, 255, 0, 0, 1, 0, 0, 0, 255, 255, 255, 255],
        ),
    ];
    for (event, partner, bytes) in written {
        let event = Event2 { event, partner };
        assert_eq!((event.to_bytes(), Event2::from_bytes(bytes)), (bytes, Some(event)));
    }
    for large in [1 << 32, usize::MAX] {
        let event = Event2 {
            event: Event::enter(Name::DATA, large),
            partner: large,
        };
        assert_eq!(event.to_bytes(), [0, 0, 0, 0, 255, 255, 255, 255, 255, 255, 255, 255]);
    }
    for (at, wrong) in [(0, 2), (0, 255), (2, 1), (3, 1), (3, 128)] {
        let mut odd = [0; 12];
        odd[at] = wrong;
        assert_eq!(Event2::from_bytes(odd), None);
    }
    assert_eq!(Event2::LENGTH, 12);
}

#[test]
fn events_of_a_section() {
    let bytes = [2, 0, 0, 0, 0, 5, 0, 0, 1, 2, 3, 0, 1, 255, 0, 0, 255, 255, 255, 255, 9, 9];
    let (first, second) = (Event::enter(Name::STRONG, 0x030201), Event::exit(Name(255), 0xffff_ffff));
    assert_eq!((first.kind, second.kind), (Kind::Enter, Kind::Exit));
    let read = |bytes| Events::new(bytes).collect::<Vec<_>>();
    assert_eq!(read(&bytes), [first, second]);
    assert_eq!(section_length(2), 20);
    assert_eq!(read(&bytes[..20]), [first, second]);
    assert_eq!(read(&bytes[..19]), [first]);
    assert_eq!(read(&bytes[..12]), [first]);
    for short in 0..12 {
        assert_eq!(read(&bytes[..short]), []);
    }
    assert_eq!(Events::new(&bytes).size_hint(), (0, Some(2)));
    // No more than there is room for, whatever the count says.
    assert_eq!(Events::new(&[255; 4]).size_hint(), (0, Some(0)));
}

#[test]
fn events_of_a_section_of_form_2() {
    // The second and third are a pair; two more bytes follow.
    let mut bytes = [3, 0, 0, 0].to_vec();
    bytes.extend([0, 5, 0, 0, 1, 2, 3, 0, 1, 2, 0, 0]);
    bytes.extend([0, 2, 0, 0, 7, 0, 0, 0, 2, 0, 0, 0]);
    bytes.extend([1, 2, 0, 0, 9, 0, 0, 0, 1, 0, 0, 0, 9, 9]);
    let make = |event, partner| Event2 { event, partner };
    let all = [
        make(Event::enter(Name::STRONG, 0x030201), 0x0201),
        make(Event::enter(Name::EMPHASIS, 7), 2),
        make(Event::exit(Name::EMPHASIS, 9), 1),
    ];
    assert_eq!(section_length2(3), 40);
    for (length, whole) in [
        (0, 0),
        (3, 0),
        (4, 0),
        (15, 0),
        (16, 1),
        (27, 1),
        (28, 2),
        (39, 2),
        (40, 3),
        (42, 3),
    ] {
        let events = Events2::new(&bytes[..length]);
        assert_eq!(events.size_hint(), (0, Some(whole)), "{length}");
        assert!((0..5)
            .map(|number| events.get(number))
            .eq((0..5).map(|number| all[..whole].get(number).copied())));
        assert_eq!(events.collect::<Vec<_>>(), all[..whole], "{length}");
    }

    // Numbers are those of the section, also when some have been taken, or all.
    let mut events = Events2::new(&bytes);
    assert_eq!((events.next(), events.size_hint()), (Some(all[0]), (0, Some(2))));
    let enter = events.next().expect("the second");
    assert_eq!((events.get(enter.partner), events.get(0)), (Some(all[2]), Some(all[0])));
    assert_eq!((events.next(), events.next(), events.get(1)), (Some(all[2]), None, Some(all[1])));
    // None has the number that the first one names, nor one that is too large for an offset: cut to its bits, the fourth of these would stand at 8, where
    // bytes begin that could be an event.
    assert_eq!(events.get(all[0].partner), None);
    for number in [3, usize::MAX / 12, usize::MAX / 12 + 1, usize::MAX / 3 + 1, usize::MAX] {
        assert_eq!(events.get(number), None);
    }
    // Fewer by the count than there is room for.
    bytes[0] = 1;
    assert_eq!((Events2::new(&bytes).count(), Events2::new(&bytes).get(1)), (1, None));
}

#[test]
fn odd_bytes_end_the_events() {
    // Three events, of which the second gets one wrong byte after the other.
    let mut section = [0; section_length(3)];
    (section[0], section[12]) = (3, 1);
    assert_eq!(Events::new(&section).count(), 3);
    for (at, wrong) in [(0, 2), (0, 255), (2, 1), (3, 1), (3, 128)] {
        let mut odd = section;
        odd[12 + at] = wrong;
        let mut events = Events::new(&odd);
        assert_eq!(events.next(), Some(Event::enter(Name::DATA, 0)));
        assert_eq!((events.next(), events.next(), events.next()), (None, None, None));
        assert_eq!(events.size_hint(), (0, Some(0)));

        // In form 2 the same; by number the third can still be had, and the second cannot.
        let mut section = [0; section_length2(3)];
        (section[0], section[16 + at], section[36]) = (3, wrong, 7);
        let third = Event2 {
            event: Event::enter(Name::DATA, 0),
            partner: 7,
        };
        let mut events = Events2::new(&section);
        assert!(events.next().is_some());
        assert_eq!((events.next(), events.next(), events.next()), (None, None, None));
        assert_eq!(events.size_hint(), (0, Some(0)));
        assert_eq!((events.get(1), events.get(2)), (None, Some(third)));
    }
}

/// Many short buffers of the bytes 0 to 3, most of them sound in part, and read by offsets beside, in events of 8 and of 12 bytes.
#[test]
fn any_bytes_will_do() {
    let mut seed = 1u32;
    let mut next = |below: u32| {
        seed = seed.wrapping_mul(1_664_525).wrapping_add(1_013_904_223);
        (seed >> 16) % below
    };
    for width in [8, 12] {
        let mut lengths = [0; 4];
        for _ in 0..20_000 {
            let length = next(6 * width as u32 + 2);
            // The upper bytes of the count, and most kinds and zero bytes, are such as a section has.
            let mut byte = |at: u32| match at {
                0 => next(4),
                1..=3 => 0,
                _ if [0, 2, 3].contains(&((at - 4) % width as u32)) && next(5) > 0 => 0,
                _ => next(4),
            };
            let bytes: Vec<u8> = (0..length).map(|at| byte(at) as u8).collect();
            let count = if bytes.len() < 4 { 0 } else { bytes[0] as usize };
            let number = |at: usize| (0..4).map(|i| (bytes[at + i] as usize) << (8 * i)).sum();
            let expected = |i: usize| {
                let at = 4 + width * i;
                if i >= count || at + width > bytes.len() || bytes[at] > 1 || bytes[at + 2] != 0 || bytes[at + 3] != 0 {
                    return None;
                }
                let make = if bytes[at] == 0 { Event::enter } else { Event::exit };
                let event = make(Name(bytes[at + 1]), number(at + 4));
                let partner = if width == 12 { number(at + 8) } else { 0 };
                Some(Event2 { event, partner })
            };
            let in_order: Vec<Event2> = (0..count).map_while(expected).collect();
            lengths[in_order.len()] += 1;
            if width == 8 {
                let in_order = in_order.iter().map(|event| event.event);
                assert!(Events::new(&bytes).eq(in_order), "{bytes:?}");
            } else {
                let events = Events2::new(&bytes);
                assert!((0..5).all(|i| events.get(i) == expected(i)), "{bytes:?}");
                assert!(events.eq(in_order), "{bytes:?}");
            }
        }
        assert!(lengths.iter().all(|&times| times > 500), "{width}: {lengths:?}");
    }
}

/// A document of two bytes and two events, and the record that it is.
const EVENTS: [Event; 2] = [Event::enter(Name::DATA, 258), Event::exit(Name::STRONG, 1 << 32)];
const RECORD: [u8; 26] = [
    2, 0, 0, 0, b'a', b'\n', 2, 0, 0, 0, 0, 0, 0, 0, 2, 1, 0, 0, 1, 5, 0, 0, 255, 255, 255, 255,
];

#[cfg(feature = "alloc")]
#[test]
fn records() {
    assert_eq!(ledgerlark::record(b"", &[]), [0; 8]);
    assert_eq!(ledgerlark::record(b"a\n", &EVENTS), RECORD);
}

#[test]
fn records_in_lent_memory() {
    assert_eq!((record_length(0, 0), record_length(2, 2)), (8, 26));
    assert_eq!(record_into(b"", [], &mut [7; 8]), Some(&[0; 8][..]));
    let mut bytes = [7; 30];
    assert_eq!(record_into(b"a\n", EVENTS, &mut bytes), Some(&RECORD[..]));
    assert_eq!((&bytes[..26], &bytes[26..]), (&RECORD[..], &[7; 4][..]));
    for length in 0..30 {
        let fits = record_into(b"a\n", EVENTS, &mut bytes[..length]).map(<[u8]>::len);
        assert_eq!(fits, (length >= 26).then_some(26));
    }
    // Events as a section has them.
    let mut again = [7; 26];
    assert_eq!(record_into(b"a\n", Events::new(&RECORD[6..]), &mut again), Some(&RECORD[..]));
}

/// The events of a record of form 2, and the partners that they get.
fn partners(events: &[Event]) -> Vec<usize> {
    let mut bytes = vec![7; record_length2(1, events.len())];
    let record = record2_into(Options::ALL, b"a", events.iter().copied(), &mut bytes).expect("it fits");
    assert_eq!(record[..10], [1, 0, 0, 0, 63, 1, 0, 0, 0, b'a']);
    let written: Vec<Event2> = Events2::new(&record[10..]).collect();
    assert!(written.iter().map(|event| event.event).eq(events.iter().copied()));
    written.iter().map(|event| event.partner).collect()
}

#[test]
fn partners_are_filled_in() {
    let [enter, exit] = Event::pair(Name::OTHER_CONTAINER, 0, 0);
    let [data, data_end] = Event::pair(Name::DATA, 0, 1);
    assert_eq!(partners(&[]), []);
    assert_eq!(partners(&[enter, exit]), [1, 0]);
    assert_eq!(partners(&[enter, exit, data, data_end]), [1, 0, 3, 2]);
    assert_eq!(partners(&[enter, data, data_end, exit]), [3, 2, 1, 0]);
    // Behind a pair that is closed, the one round it is the innermost again: `(()(()))()`.
    let nested = [enter, enter, exit, enter, enter, exit, exit, exit, data, data_end];
    assert_eq!(partners(&nested), [7, 2, 1, 6, 5, 4, 3, 0, 9, 8]);
    // Deeper than a record may be, and with a number of two bytes.
    let deep: Vec<Event> = [vec![enter; 300], vec![exit; 300]].concat();
    assert!(partners(&deep).into_iter().eq((0..600).rev()));
}

/// Exits of nothing and enters left open are written too. Those that do pair have their partners.
#[test]
fn partners_of_events_that_do_not_pair() {
    let [enter, exit] = Event::pair(Name::DATA, 0, 0);
    assert_eq!(partners(&[exit, enter, exit])[1..], [2, 1]);
    assert_eq!(
        partners(&[exit, exit, exit, enter, enter, exit, exit, exit, exit])[3..7],
        [6, 5, 4, 3]
    );
    assert_eq!(partners(&[enter, enter, exit, enter, exit, enter])[1..5], [2, 1, 4, 3]);
    // Any at all, up to twelve of them.
    for length in 0..=12 {
        for kinds in 0..1 << length {
            let events: Vec<Event> = (0..length).map(|i| if kinds >> i & 1 == 0 { enter } else { exit }).collect();
            let partners = partners(&events);
            let mut open = Vec::new();
            for (number, event) in events.iter().enumerate() {
                if event.kind == Kind::Enter {
                    open.push(number);
                } else if let Some(enter) = open.pop() {
                    assert_eq!((partners[enter], partners[number]), (number, enter));
                }
            }
        }
    }
}

/// The document and events above in form 2. They do not pair, so that only what is no partner is looked at.
#[test]
fn records_of_form_2_in_lent_memory() {
    const FRONT: [u8; 15] = [1, 0, 0, 0, 59, 2, 0, 0, 0, b'a', b'\n', 2, 0, 0, 0];
    assert_eq!((record_length2(0, 0), record_length2(2, 2)), (13, 39));
    let nothing = [1, 0, 0, 0, 0, 0, 0, 0, 0, 0, 0, 0, 0];
    assert_eq!(record2_into(Options::NONE, b"", [], &mut [7; 13]), Some(&nothing[..]));
    for length in 0..45 {
        let mut bytes = [7; 45];
        let record = record2_into(Options::default(), b"a\n", EVENTS, &mut bytes[..length]);
        assert_eq!(record.map(<[u8]>::len), (length >= 39).then_some(39));
        if let Some(record) = record {
            assert_eq!(
                (&record[..15], &record[15..23], &record[27..35]),
                (&FRONT[..], &RECORD[10..18], &RECORD[18..])
            );
        }
        assert!(bytes[length.min(39)..].iter().all(|&byte| byte == 7));
    }
    // Options that are no byte become the largest one.
    for (bits, byte) in [(0, 0), (63, 63), (64, 64), (255, 255), (256, 255), (256 + 59, 255), (u32::MAX, 255)] {
        let mut bytes = [7; 13];
        let record = record2_into(Options::from_bits(bits), b"", [], &mut bytes);
        assert_eq!(record.map(|record| record[..5].to_vec()), Some(vec![1, 0, 0, 0, byte]));
    }
}

/// Lengths that no memory has are not cut.
#[test]
fn lengths_without_bound() {
    const MOST: usize = usize::MAX;
    assert_eq!((section_length(0), section_length(MOST / 8)), (4, MOST - 3));
    assert_eq!((section_length(MOST / 8 + 1), section_length(MOST)), (MOST, MOST));
    assert_eq!((record_length(MOST - 8, 0), record_length(MOST - 7, 0)), (MOST, MOST));
    assert_eq!((record_length(0, MOST), record_length(MOST, MOST)), (MOST, MOST));
    // MOST is 12 times MOST / 12, and 3.
    assert_eq!((section_length2(0), section_length2(MOST / 12 - 1)), (4, MOST - 11));
    assert_eq!((section_length2(MOST / 12), section_length2(MOST)), (MOST, MOST));
    assert_eq!((record_length2(MOST - 13, 0), record_length2(MOST - 12, 0)), (MOST, MOST));
    assert_eq!((record_length2(0, MOST), record_length2(MOST, MOST)), (MOST, MOST));
}

/// Every refusal, with its number, its place and its words.
#[test]
fn refusals_in_words() {
    let refusals = [
        (Refusal::Work, 1, None, "the work memory is under 65,536 bytes"),
        (
            Refusal::Options,
            2,
            None,
            "the options are over 63, the column over 16,384, or the first count not 1",
        ),
        (Refusal::Count { place: 0 }, 3, Some(0), "a length does not fit"),
        (Refusal::Return { place: 6 }, 4, Some(6), "a carriage return"),
        (Refusal::Event { place: 18 }, 5, Some(18), "an event is not sound"),
        (Refusal::Shape { place: 9 }, 6, Some(9), "not the shape that the resolver asks for"),
        (Refusal::Result, 7, None, "the result is over 8,000 events"),
        (Refusal::Output, 8, None, "the output is too short for the result"),
        (Refusal::Other { number: 12, place: 3 }, 12, Some(3), "no such refusal"),
    ];
    for (refusal, number, place, text) in refusals {
        assert_eq!((refusal.number(), refusal.place(), refusal.text()), (number, place, text));
    }
    let shown = refusals.map(|(refusal, ..)| refusal.to_string());
    assert_eq!(shown[0], "refused 1: the work memory is under 65,536 bytes");
    assert_eq!(shown[2], "refused 3 at 0: a length does not fit");
    assert_eq!(shown[4], "refused 5 at 18: an event is not sound");
    assert_eq!(shown[7], "refused 8: the output is too short for the result");
    assert_eq!(shown[8], "refused 12 at 3: no such refusal");
    let error: Box<dyn std::error::Error + Send + Sync> = Refusal::Output.into();
    assert_eq!(error.to_string(), shown[7]);
}

#[test]
fn limits() {
    assert_eq!(
        (MAX_DOCUMENT, MAX_LINE, MAX_COLUMN, MAX_EVENTS, MAX_DEPTH, MAX_RESULT),
        (16_384, 16_384, 16_384, 2_048, 64, 8_000)
    );
}

#[test]
fn lent_work_memory() {
    let mut array = [7; 3];
    assert_eq!(Work::from(&mut array).bytes(), [7, 7, 7]);
    assert_eq!(format!("{:?}", Work::from(&mut array[1..])), "Work(2 bytes)");
    assert_eq!(Work::LENGTH, 65_536);
}

#[cfg(feature = "alloc")]
#[test]
fn own_work_memory() {
    assert_eq!(Work::new().bytes(), [0; 65_536]);
    assert_eq!(Work::default().bytes().len(), Work::LENGTH);
    assert_eq!(Work::from(vec![7; 3].into_boxed_slice()).bytes(), [7, 7, 7]);
    assert_eq!(format!("{:?}", Work::new()), "Work(65536 bytes)");
}
