//! The resolver of attention, on document 01's cases. What is expected was written from its rules by hand.

mod common;

use common::{is_dirty, record, refuses, resolves, Expected, Lent, ATTENTION2, OLD, SECOND};
use ledgerlark::{resolve_attention, section_length, Options, Refusal, Work, MAX_RESULT};

fn case(document: &str, before: &str, groups: usize, tried: usize, after: &str) {
    case_with(Options::default(), document, before, groups, tried, after);
}

/// In either form.
fn case_with(options: Options, document: &str, before: &str, groups: usize, tried: usize, after: &str) {
    let expected = Expected {
        events: after,
        groups,
        tried,
    };
    resolves(&OLD, resolve_attention, options, document, before, expected);
    resolves(&SECOND, ATTENTION2, options, document, before, expected);
}

/// The whole case of document 01, to the byte.
#[test]
fn whole_case() {
    let record = [
        3, 0, 0, 0, b'*', b'a', b'*', // the document
        6, 0, 0, 0, // the events
        0, 1, 0, 0, 0, 0, 0, 0, // +1@0
        1, 1, 0, 0, 1, 0, 0, 0, // -1@1
        0, 0, 0, 0, 1, 0, 0, 0, // +0@1
        1, 0, 0, 0, 2, 0, 0, 0, // -0@2
        0, 1, 0, 0, 2, 0, 0, 0, // +1@2
        1, 1, 0, 0, 3, 0, 0, 0, // -1@3
    ];
    let section = [
        10, 0, 0, 0, // the events
        0, 2, 0, 0, 0, 0, 0, 0, // +2@0
        0, 3, 0, 0, 0, 0, 0, 0, // +3@0
        1, 3, 0, 0, 1, 0, 0, 0, // -3@1
        0, 4, 0, 0, 1, 0, 0, 0, // +4@1
        0, 0, 0, 0, 1, 0, 0, 0, // +0@1
        1, 0, 0, 0, 2, 0, 0, 0, // -0@2
        1, 4, 0, 0, 2, 0, 0, 0, // -4@2
        0, 3, 0, 0, 2, 0, 0, 0, // +3@2
        1, 3, 0, 0, 3, 0, 0, 0, // -3@3
        1, 2, 0, 0, 3, 0, 0, 0, // -2@3
    ];
    assert_eq!(section.len(), 84);
    assert_eq!(record, *common::record(b"*a*", "+1@0 -1@1 +0@1 -0@2 +1@2 -1@3"));
    let mut out = Lent::new(100);
    let mut work = Lent::work();
    let resolved = resolve_attention(&record, Options::default(), out.lend(), &mut Work::from(work.lend())).expect("good");
    assert_eq!((resolved.events, resolved.groups, resolved.tried), (10, 1, 1));
    assert_eq!(resolved.section, section);
    assert_eq!(out.after()[..84], section);
    assert!(is_dirty(&out.after()[84..]));
    assert!(work.is_zero());
}

#[test]
fn whole_case_at_every_length() {
    case(
        "*a*",
        "+1@0 -1@1 +0@1 -0@2 +1@2 -1@3",
        1,
        1,
        "+2@0 +3@0 -3@1 +4@1 +0@1 -0@2 -4@2 +3@2 -3@3 -2@3",
    );
}

#[test]
fn leftovers() {
    case(
        "**a*",
        "+1@0 -1@2 +0@2 -0@3 +1@3 -1@4",
        1,
        1,
        "+0@0 -0@1 +2@1 +3@1 -3@2 +4@2 +0@2 -0@3 -4@3 +3@3 -3@4 -2@4",
    );
    case(
        "*a**",
        "+1@0 -1@1 +0@1 -0@2 +1@2 -1@4",
        1,
        1,
        "+2@0 +3@0 -3@1 +4@1 +0@1 -0@2 -4@2 +3@2 -3@3 -2@3 +0@3 -0@4",
    );
}

#[test]
fn two_groups() {
    case(
        "***a***",
        "+1@0 -1@3 +0@3 -0@4 +1@4 -1@7",
        2,
        2,
        "+2@0 +3@0 -3@1 +4@1 +5@1 +6@1 -6@3 +7@3 +0@3 -0@4 -7@4 +6@4 -6@6 -5@6 -4@6 +3@6 -3@7 -2@7",
    );
    case(
        "a***b***c",
        "+0@0 -0@1 +1@1 -1@4 +0@4 -0@5 +1@5 -1@8 +0@8 -0@9",
        2,
        2,
        "+0@0 -0@1 +2@1 +3@1 -3@2 +4@2 +5@2 +6@2 -6@4 +7@4 +0@4 -0@5 -7@5 +6@5 -6@7 -5@7 -4@7 +3@7 -3@8 -2@8 +0@8 -0@9",
    );
}

#[test]
fn no_groups() {
    case(
        "a**b*c",
        "+0@0 -0@1 +1@1 -1@3 +0@3 -0@4 +1@4 -1@5 +0@5 -0@6",
        0,
        1,
        "+0@0 -0@1 +0@1 -0@3 +0@3 -0@4 +0@4 -0@5 +0@5 -0@6",
    );
    case(
        "a_b_c",
        "+0@0 -0@1 +1@1 -1@2 +0@2 -0@3 +1@3 -1@4 +0@4 -0@5",
        0,
        0,
        "+0@0 -0@1 +0@1 -0@2 +0@2 -0@3 +0@3 -0@4 +0@4 -0@5",
    );
    case("~~~a~~~", "+1@0 -1@3 +0@3 -0@4 +1@4 -1@7", 0, 1, "+0@0 -0@3 +0@3 -0@4 +0@4 -0@7");
    case("", "", 0, 0, "");
}

#[test]
fn runs_between_lose_open() {
    case(
        "*a _b* c_",
        "+1@0 -1@1 +0@1 -0@3 +1@3 -1@4 +0@4 -0@5 +1@5 -1@6 +0@6 -0@8 +1@8 -1@9",
        1,
        1,
        "+2@0 +3@0 -3@1 +4@1 +0@1 -0@3 +0@3 -0@4 +0@4 -0@5 -4@5 +3@5 -3@6 -2@6 +0@6 -0@8 +0@8 -0@9",
    );
}

#[test]
fn single_tilde_only_with_its_option() {
    let before = "+1@0 -1@1 +0@1 -0@2 +1@2 -1@3";
    case("~a~", before, 0, 1, "+0@0 -0@1 +0@1 -0@2 +0@2 -0@3");
    case_with(
        Options::default() | Options::SINGLE_TILDE,
        "~a~",
        before,
        1,
        1,
        "+8@0 +9@0 -9@1 +10@1 +0@1 -0@2 -10@2 +9@2 -9@3 -8@3",
    );
}

/// What stands beside a run is a character: French and Japanese quotation marks, a dash and an emoji are punctuation, so that `_` may open behind them.
#[test]
fn punctuation_outside() {
    case("«*a*»", "+1@2 -1@3 +1@4 -1@5", 1, 1, "+2@2 +3@2 -3@3 +4@3 -4@4 +3@4 -3@5 -2@5");
    case("x«_a_»x", "+1@3 -1@4 +1@5 -1@6", 1, 1, "+2@3 +3@3 -3@4 +4@4 -4@5 +3@5 -3@6 -2@6");
    case("x「_a_」x", "+1@4 -1@5 +1@6 -1@7", 1, 1, "+2@4 +3@4 -3@5 +4@5 -4@6 +3@6 -3@7 -2@7");
    case("x—_a_—x", "+1@4 -1@5 +1@6 -1@7", 1, 1, "+2@4 +3@4 -3@5 +4@5 -4@6 +3@6 -3@7 -2@7");
    case("x😀_a_😀x", "+1@5 -1@6 +1@7 -1@8", 1, 1, "+2@5 +3@5 -3@6 +4@6 -4@7 +3@7 -3@8 -2@8");
}

/// Inside of a run, with a letter outside, they keep it from opening and closing; at the document's edges they do not.
#[test]
fn punctuation_inside() {
    case("x*«a»*x", "+1@1 -1@2 +1@7 -1@8", 0, 0, "+0@1 -0@2 +0@7 -0@8");
    case("x*😀*x", "+1@1 -1@2 +1@6 -1@7", 0, 0, "+0@1 -0@2 +0@6 -0@7");
    case("*😀*", "+1@0 -1@1 +1@5 -1@6", 1, 1, "+2@0 +3@0 -3@1 +4@1 -4@5 +3@5 -3@6 -2@6");
}

/// Letters and marks of other scripts are other, as `a` is.
#[test]
fn letters() {
    case("é_a_字", "+1@2 -1@3 +1@4 -1@5", 0, 0, "+0@2 -0@3 +0@4 -0@5");
    case("x*é*x", "+1@1 -1@2 +1@4 -1@5", 1, 1, "+2@1 +3@1 -3@2 +4@2 -4@4 +3@4 -3@5 -2@5");
    case(
        "x*\u{301}*x",
        "+1@1 -1@2 +1@4 -1@5",
        1,
        1,
        "+2@1 +3@1 -3@2 +4@2 -4@4 +3@4 -3@5 -2@5",
    );
}

/// The category Zs is whitespace; U+0085, U+2028 and U+200B are not of it.
#[test]
fn spaces() {
    case("*\u{a0}a*", "+1@0 -1@1 +1@4 -1@5", 0, 0, "+0@0 -0@1 +0@4 -0@5");
    case("*a\u{3000}*", "+1@0 -1@1 +1@5 -1@6", 0, 0, "+0@0 -0@1 +0@5 -0@6");
    case("*\u{85}*", "+1@0 -1@1 +1@3 -1@4", 1, 1, "+2@0 +3@0 -3@1 +4@1 -4@3 +3@3 -3@4 -2@4");
    case("*\u{2028}*", "+1@0 -1@1 +1@4 -1@5", 1, 1, "+2@0 +3@0 -3@1 +4@1 -4@4 +3@4 -3@5 -2@5");
    case("*\u{200b}*", "+1@0 -1@1 +1@4 -1@5", 1, 1, "+2@0 +3@0 -3@1 +4@1 -4@4 +3@4 -3@5 -2@5");
}

/// Bytes that are no character are other: here two of the three bytes of U+3000, before a run and at the end.
#[test]
fn cut_characters() {
    let call = |document: &[u8], events: &str| {
        let mut out = Lent::new(1_000);
        let mut work = Lent::work();
        let resolved = resolve_attention(
            &record(document, events),
            Options::default(),
            out.lend(),
            &mut Work::from(work.lend()),
        )
        .expect("good");
        (resolved.section.to_vec(), resolved.groups, resolved.tried)
    };
    let group = common::section("+2@0 +3@0 -3@1 +4@1 -4@4 +3@4 -3@5 -2@5");
    assert_eq!(call(b"*a\xe3\x80*b", "+1@0 -1@1 +1@4 -1@5"), (group, 1, 1));
    assert_eq!(
        call(b"*a\xe3\x80\x80*b", "+1@0 -1@1 +1@5 -1@6"),
        (common::section("+0@0 -0@1 +0@5 -0@6"), 0, 0)
    );
    assert_eq!(
        call(b"*a.*\xe3\x80", "+1@0 -1@1 +1@3 -1@4"),
        (common::section("+0@0 -0@1 +0@3 -0@4"), 0, 0)
    );
}

/// `****a**** `, so many times, and the two runs of each: two groups to each, which are 16 events.
fn strongs(times: usize) -> Vec<u8> {
    let runs = (0..times)
        .map(|i| 10 * i)
        .map(|at| format!("+1@{} -1@{} +1@{} -1@{} ", at, at + 4, at + 5, at + 9));
    record("****a**** ".repeat(times).as_bytes(), &runs.collect::<String>())
}

#[test]
fn the_longest_result() {
    let record = strongs(500);
    let length = section_length(MAX_RESULT);
    assert_eq!(length, 64_004);
    let mut out = Lent::new(length);
    let mut work = Lent::work();
    let resolved = resolve_attention(&record, Options::default(), out.lend(), &mut Work::from(work.lend())).expect("8,000 events");
    assert_eq!((resolved.events, resolved.groups, resolved.tried), (8_000, 1_000, 1_000));
    assert_eq!(resolved.section.len(), length);
    assert_eq!(out.after().len(), length);
    assert!(work.is_zero());
    refuses(resolve_attention, &record, Options::default(), length - 1, Refusal::Output);

    // One more pair of runs: 8,016 events, refused whatever the output's length is.
    for length in [0, length, length + 128] {
        refuses(resolve_attention, &strongs(501), Options::default(), length, Refusal::Result);
    }
}

/// The convenience gives the same events, at the limit too, and passes refusals on.
#[cfg(feature = "alloc")]
#[test]
fn to_vec() {
    let call = |record: &[u8]| {
        let mut work = Lent::work();
        let resolved = ledgerlark::resolve_attention_to_vec(record, Options::default(), &mut Work::from(work.lend()));
        assert!(work.is_zero());
        resolved
    };
    assert_eq!(
        call(&record(b"*a*", "+1@0 -1@1 +0@1 -0@2 +1@2 -1@3")),
        Ok(common::events("+2@0 +3@0 -3@1 +4@1 +0@1 -0@2 -4@2 +3@2 -3@3 -2@3"))
    );
    assert_eq!(call(&strongs(500)).map(|events| events.len()), Ok(8_000));
    assert_eq!(call(&strongs(501)), Err(Refusal::Result));
}
